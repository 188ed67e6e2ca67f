//! A plain implementation of the rules, to compare other programs with.
//!
//! `reference STEPS SEED [words]` makes a random system of 64 bodies, goes STEPS steps forward and
//! STEPS steps back, and prints check sums of the state. Section numbers are those of docs/MODEL.md.
//!
//! Sums and differences of words wrap. The products of section 3 never pass 64 bits, so they are
//! written with the plain operators, which a debug build (and so `cargo test`) checks.

use std::env;
use std::io::{self, Write};
use std::process::ExitCode;
use std::time::{Duration, Instant};

/// Bodies of the random system.
const BODIES: usize = 64;

/// What does not change: the softening and the mass of each body (section 2).
struct System {
    softening: u64,
    masses: Vec<u64>,
}

/// Where the position of a body on an axis stands in the state (section 5).
fn place(body: usize, axis: usize) -> usize {
    6 * body + 2 * axis
}

/// Where the momentum of a body on an axis stands in the state (section 5).
fn drive(body: usize, axis: usize) -> usize {
    6 * body + 2 * axis + 1
}

/// The largest whole number whose square is at most `q`, for `q` below 2^42, bit by bit.
fn root(q: u64) -> u64 {
    let mut r = 0;
    for bit in (0..21).rev() {
        let tried = r | (1 << bit);
        if tried * tried <= q {
            r = tried;
        }
    }
    r
}

/// The impulse on body `i` from another body `j`, one word for each axis (section 3).
fn impulse(system: &System, state: &[u64], i: usize, j: usize) -> [u64; 3] {
    let mut d = [0; 3];
    let mut e = [0; 3];
    let mut q = system.softening;
    for axis in 0..3 {
        d[axis] = state[place(j, axis)].wrapping_sub(state[place(i, axis)]) as i64;
        e[axis] = d[axis].unsigned_abs() >> 44;
        q += e[axis] * e[axis];
    }
    let w = (1 << 62) / (q * root(q));
    let mut answer = [0; 3];
    for axis in 0..3 {
        let size = ((e[axis] * w) >> 20) * system.masses[i] * system.masses[j];
        answer[axis] = if d[axis] == i64::MIN {
            0
        } else if d[axis] < 0 {
            size.wrapping_neg()
        } else {
            size
        };
    }
    answer
}

/// The sum of the impulses on body `i` from all other bodies.
fn impulses_on(system: &System, state: &[u64], i: usize) -> [u64; 3] {
    let mut sum = [0u64; 3];
    for j in 0..system.masses.len() {
        if j != i {
            let from_j = impulse(system, state, i, j);
            for axis in 0..3 {
                sum[axis] = sum[axis].wrapping_add(from_j[axis]);
            }
        }
    }
    sum
}

/// A momentum, read with sign, divided by a mass toward 0 (section 1).
fn divided(momentum: u64, mass: u64) -> u64 {
    (momentum as i64 / mass as i64) as u64
}

/// One step (section 4). The impulses depend on the positions alone, which the first part keeps.
fn step(system: &System, state: &mut [u64]) {
    let n = system.masses.len();
    for i in 0..n {
        let sum = impulses_on(system, state, i);
        for axis in 0..3 {
            state[drive(i, axis)] = state[drive(i, axis)].wrapping_add(sum[axis]);
        }
    }
    for i in 0..n {
        for axis in 0..3 {
            let way = divided(state[drive(i, axis)], system.masses[i]);
            state[place(i, axis)] = state[place(i, axis)].wrapping_add(way);
        }
    }
}

/// One step back (section 4): the positions first, then the momenta.
fn step_back(system: &System, state: &mut [u64]) {
    let n = system.masses.len();
    for i in 0..n {
        for axis in 0..3 {
            let way = divided(state[drive(i, axis)], system.masses[i]);
            state[place(i, axis)] = state[place(i, axis)].wrapping_sub(way);
        }
    }
    for i in 0..n {
        let sum = impulses_on(system, state, i);
        for axis in 0..3 {
            state[drive(i, axis)] = state[drive(i, axis)].wrapping_sub(sum[axis]);
        }
    }
}

/// The check sum of the words of a state (section 9).
fn check_sum(state: &[u64]) -> u64 {
    let mut sum = 0;
    for (k, word) in state.iter().enumerate() {
        sum ^= word.rotate_left((k % 64) as u32);
    }
    sum
}

/// The next number of the generator splitmix64.
fn draw(s: &mut u64) -> u64 {
    *s = s.wrapping_add(0x9e3779b97f4a7c15);
    let mut z = *s;
    z = (z ^ (z >> 30)).wrapping_mul(0xbf58476d1ce4e5b9);
    z = (z ^ (z >> 27)).wrapping_mul(0x94d049bb133111eb);
    z ^ (z >> 31)
}

/// A random system of 64 bodies and its opening state.
fn random_system(seed: u64) -> (System, Vec<u64>) {
    let mut s = seed;
    let softening = (1 << 20) + draw(&mut s) % ((1 << 40) - (1 << 20) + 1);
    let mut masses = Vec::new();
    for _ in 0..BODIES {
        masses.push(1 + draw(&mut s) % 1023);
    }
    let mut state = vec![0; 6 * BODIES];
    for body in 0..BODIES {
        for axis in 0..3 {
            state[place(body, axis)] = draw(&mut s);
            state[drive(body, axis)] = (draw(&mut s) as i64 >> 16) as u64;
        }
    }
    (System { softening, masses }, state)
}

/// The line that tells the time, worked out in whole nanoseconds; both numbers are cut off.
fn time_line(turns: u128, time: Duration) -> String {
    let nanos = time.as_nanos();
    let each = (nanos / 10).checked_div(turns).unwrap_or(0);
    format!(
        "{} steps in {}.{:03} s, {}.{:02} us a step",
        turns,
        nanos / 1_000_000_000,
        nanos / 1_000_000 % 1000,
        each / 100,
        each % 100
    )
}

/// Goes `steps` steps forward and back; answers what is printed and the line with the time.
fn run(steps: u64, seed: u64, words: bool) -> (String, String) {
    let (system, opening) = random_system(seed);
    let mut state = opening.clone();
    let mut text = format!("opening {:016x}\n", check_sum(&opening));

    let start = Instant::now();
    for _ in 0..steps {
        step(&system, &mut state);
    }
    let forward = start.elapsed();
    if words {
        for word in &state {
            text.push_str(&format!("{word}\n"));
        }
    }
    text.push_str(&format!("middle {:016x}\n", check_sum(&state)));

    let start = Instant::now();
    for _ in 0..steps {
        step_back(&system, &mut state);
    }
    let back = start.elapsed();
    text.push_str(&format!("after {:016x}\n", check_sum(&state)));

    let not = if state == opening { "" } else { "not " };
    text.push_str(&format!("the words of the opening are {not}back\n"));
    (text, time_line(2 * u128::from(steps), forward + back))
}

/// Steps, seed, and whether the words are wanted, from the arguments; `None` for bad usage.
fn read_arguments() -> Option<(u64, u64, bool)> {
    let mut arguments = Vec::new();
    for argument in env::args_os().skip(1) {
        arguments.push(argument.into_string().ok()?);
    }
    let words = match arguments.len() {
        2 => false,
        3 if arguments[2] == "words" => true,
        _ => return None,
    };
    Some((
        arguments[0].parse().ok()?,
        arguments[1].parse().ok()?,
        words,
    ))
}

/// Reads the arguments, runs, and prints.
fn main() -> ExitCode {
    let Some((steps, seed, words)) = read_arguments() else {
        eprintln!("usage: reference STEPS SEED [words]");
        return ExitCode::FAILURE;
    };
    let (text, time) = run(steps, seed, words);
    eprintln!("{time}");
    match io::stdout().write_all(text.as_bytes()) {
        Ok(()) => ExitCode::SUCCESS,
        Err(_) => ExitCode::FAILURE,
    }
}

/// The worked examples of MODEL.md, and random states.
#[cfg(test)]
mod tests {
    use super::*;

    /// The worked pair of section 4.
    fn worked_pair() -> (System, Vec<u64>) {
        let mut state = vec![0; 12];
        state[6] = 1 << 60;
        let masses = vec![2, 1];
        (
            System {
                softening: 1 << 20,
                masses,
            },
            state,
        )
    }

    /// The state of the worked pair with these words on the first axis.
    fn pair_state(place_0: u64, less_1: u64, drive_0: u64) -> Vec<u64> {
        let mut state = vec![0; 12];
        state[0] = place_0;
        state[1] = drive_0;
        state[6] = (1 << 60) - less_1;
        state[7] = drive_0.wrapping_neg();
        state
    }

    #[test]
    fn worked_pair_of_section_4() {
        let (system, mut state) = worked_pair();
        assert_eq!(check_sum(&state), 4);
        step(&system, &mut state);
        assert_eq!(state, pair_state(1023, 2046, 2046));
        step(&system, &mut state);
        assert_eq!(state, pair_state(3069, 6138, 4092));
        step(&system, &mut state);
        assert_eq!(state, pair_state(6138, 12276, 6138));
        assert_eq!(check_sum(&state), 14450);
        step_back(&system, &mut state);
        step_back(&system, &mut state);
        assert_eq!(state, pair_state(1023, 2046, 2046));
        assert_eq!(check_sum(&state), 134655);
    }

    #[test]
    fn impulses_of_section_3() {
        let (system, state) = worked_pair();
        assert_eq!(impulse(&system, &state, 0, 1), [2046, 0, 0]);
        assert_eq!(
            impulse(&system, &state, 1, 0),
            [2046u64.wrapping_neg(), 0, 0]
        );

        let masses = vec![3, 5];
        let system = System {
            softening: 1 << 20,
            masses,
        };
        let mut state = vec![0; 12];
        state[6] = 1 << 63;
        state[8] = 1 << 60;
        assert_eq!(impulse(&system, &state, 0, 1), [0, 15, 0]);
        assert_eq!(impulse(&system, &state, 1, 0), [0, 15u64.wrapping_neg(), 0]);
    }

    #[test]
    fn roots() {
        let known = [
            (0, 0),
            (1, 1),
            (3, 1),
            (4, 2),
            (4296015872, 65543),
            (279173922816, 528369),
        ];
        for (q, r) in known {
            assert_eq!(root(q), r);
        }
        for r in [1u64 << 10, 1025, 65543, 1 << 20, (1 << 21) - 1] {
            assert_eq!(root(r * r - 1), r - 1);
            assert_eq!(root(r * r), r);
            assert_eq!(root(r * r + 2 * r), r);
        }
    }

    #[test]
    fn division_toward_0() {
        assert_eq!(divided(5, 2), 2);
        assert_eq!(divided(5u64.wrapping_neg(), 2), 2u64.wrapping_neg());
        assert_eq!(divided(1 << 63, 1), 1 << 63);
    }

    #[test]
    fn step_and_step_back_undo_each_other() {
        for seed in 0..4 {
            let (system, opening) = random_system(seed);
            let mut state = opening.clone();
            step(&system, &mut state);
            assert_ne!(state, opening);
            step_back(&system, &mut state);
            assert_eq!(state, opening);
            step_back(&system, &mut state);
            assert_ne!(state, opening);
            step(&system, &mut state);
            assert_eq!(state, opening);
        }
    }

    #[test]
    fn sums_of_momenta_stay() {
        let (system, mut state) = random_system(7);
        let sum = |state: &[u64], axis| {
            (0..BODIES).fold(0u64, |sum, body| sum.wrapping_add(state[drive(body, axis)]))
        };
        let before = [0, 1, 2].map(|axis| sum(&state, axis));
        for _ in 0..5 {
            step(&system, &mut state);
        }
        assert_eq!([0, 1, 2].map(|axis| sum(&state, axis)), before);
    }

    #[test]
    fn generator_known_answers() {
        let mut s = 0;
        assert_eq!(draw(&mut s), 0xe220a8397b1dcdaf);
        assert_eq!(draw(&mut s), 0x6e789e6aa1b965f4);
        assert_eq!(draw(&mut s), 0x06c45d188009454f);
    }
}
