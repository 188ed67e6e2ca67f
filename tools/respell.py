#!/usr/bin/env python3
"""Respells the names that this repository's own definitions and lemmas have: types in camel case, all else in snake case.

    tools/respell.py [--list]

Run once, at the top of the repository, after the kit's script has turned the older forms. A dash stays where it joins the
names of two functions, as in `length-append`. Names of src/ are left alone. In the answers of a function, names that the
checker makes get the spelling of src/ in their parts: `write_word-row`, not `write-word-row`.
"""
import glob, re, sys

# A character that may stand in a name of antt.
INNER = r"[^\s(){}\[\],;.:λ×→↔∀∃⟨⟩⌜⌝`\"]"
TOKEN = re.compile(INNER + "+")
DECLARED = re.compile(r"^\s*(?:\|\s*)?(?:(?:unfoldable|abbrev|pub)\s+)*(?:(?:data|record)\s+)?(" + INNER + r"+)\s*(?=:|\(|\{)")

# Where a dash joins two names, or a name and a plain word.
SPECIAL = {
    "length-append": "length-append",
    "get_or-append_right": "get_or-append_right",
    "get_or-drop": "get_or-drop",
    "get_or-take": "get_or-take",
    "drop-put_mid": "drop-put_mid",
    "length-take-le": "length-take_le",
    "length-bytes-of": "length-bytes_of",
    "plus-plus-comm": "plus-plus_comm",
    "plus-less": "plus-less",
    "less-plus": "less-plus",
    "none-plus": "none-plus",
    "sum-plus": "sum-plus",
    "Goes_on": "GoesOn",
    "IsRefused-as": "refused_as",
}

# Parameters, and names of a `let` or an `as`.
LOCAL = """
state-after work-after checkpoints-left first-after second-after rows-after log-after first-sent second-sent opened-state
opened-checkpoints other-back other-undone lawful-momenta state-needed work-needed sixteen-long small-number sixty-four
more-some go-to stamp-of IsRefused-as Goes_on
""".split()


def respelled(name):
    if name in SPECIAL:
        return SPECIAL[name]
    parts = name.split("-")
    if name[0].isupper():
        return "".join(p[:1].upper() + p[1:] for p in parts)
    return "_".join(parts)


def antt_files():
    return sorted(glob.glob("crates/*/specs/**/*.antt", recursive=True) + glob.glob("crates/*/proofs/**/*.antt", recursive=True))


def declared():
    """The dashed names that the repository's own files declare, but for answers, whose names the checker makes."""
    names = set()
    for f in antt_files():
        text = open(f).read()
        made = set(re.findall(r"goal\.(" + INNER + "+)", text))
        for line in text.split("\n"):
            if line.lstrip().startswith("--"):
                continue
            m = DECLARED.match(line)
            if m and "-" in m[1] and re.match(r"[A-Za-z]", m[1]) and m[1] not in made:
                names.add(m[1])
    return {n for n in names if not re.match(r"(loop|returns|overflow|slice|bounds|invariant|decreases|nonzero)-", n)}


def turned(text, names):
    return TOKEN.sub(lambda m: names.get(m[0], m[0]), text)


def turned_rt(text, names):
    """Only clauses, ghost lines and the names in comments: a dash stands in no name of Rust's."""
    out = []
    for part in re.split(r'("(?:[^"\\]|\\.)*")', text):
        out.append(part if part.startswith('"') else turned(part, names))
    return "".join(out)


# Parts of names that the checker makes of its own words.
MADE = """
overflow_add overflow_sub overflow_mul nonzero_div nonzero_rem from_residual element_fits type_inv as_str push_str
copy_from_slice extend_from_slice to_le_bytes cast_unsigned rotate_left
""".split()


def source_names():
    """The names of src/ that have an underscore, the longest first."""
    names = set(MADE)
    for f in glob.glob("crates/*/src/**/*.rt", recursive=True):
        names |= {n for n in re.findall(r"[A-Za-z_][A-Za-z0-9_]*", open(f).read()) if "_" in n.strip("_") and not n.startswith("_")}
    return sorted(names, key=lambda n: (-len(n), n))


def turned_made(text, sources):
    """Gives the parts of made names the spelling of src/. Imported names of other libraries stay."""
    imported = set()
    for m in re.finditer(r"^use [^{\n]*\{([^}]*)\}", text, re.M):
        imported |= {n.strip() for n in m[1].split(",")}
    imported = {n for n in imported if not re.match(r"(then|else|in|After|branch|Start)\b", n)}

    def one(m):
        token = m[0]
        if "-" not in token or token in imported:
            return token
        for n in sources:
            old = n.replace("_", "-")
            if old in token:
                token = re.sub(r"(?<![A-Za-z0-9_])" + re.escape(old) + r"(?![A-Za-z_])", n, token)
        return token

    return TOKEN.sub(one, text)


def main():
    names = {n: respelled(n) for n in declared() | set(LOCAL)}
    names = {a: b for a, b in names.items() if a != b}
    new = {}
    for a, b in names.items():
        new.setdefault(b, []).append(a)
    files = antt_files() + sorted(glob.glob("crates/*/src/**/*.rt", recursive=True))
    for b, olds in sorted(new.items()):
        if len(olds) > 1:
            print("falls together:", olds, "->", b)
    for f in files:
        text = open(f).read()
        tokens = set(TOKEN.findall("\n".join(l for l in text.split("\n") if not l.lstrip().startswith("--"))))
        for a in sorted(tokens & set(names)):
            if names[a] in tokens:
                print(f"{f}: {a} -> {names[a]}, which stands there already")
    sources = source_names()
    if "--list" in sys.argv:
        for a in sorted(names):
            print(a, names[a])
        return
    for f in files:
        text = open(f).read()
        after = turned_rt(text, names) if f.endswith(".rt") else turned(text, names)
        if re.match(r"crates/\w+/proofs/.+/", f):
            after = turned_made(after, sources)
        if after != text:
            open(f, "w").write(after)


main()
