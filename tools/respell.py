#!/usr/bin/env -S python3 -B
"""respell: bring the names of definitions and lemmas to today's spelling, once, after the kit's port.py.

    tools/respell.py          at the top of the repository
    tools/respell.py --look   says which names would fall together, and writes nothing

port.py respells the names that a library of the kit has too; this does the others alike: words in snake case (`wordNodes`, `sub-marks`:
`word_nodes`, `sub_marks`), a function into Type in upper camel case. Names of Rust functions, types and constants, exported names and strings
stay. Where two names would fall together the lemma ends in `_lem`."""
import pathlib
import re
import sys

ROOT = pathlib.Path(__file__).resolve().parent.parent
STOPS = r"\s(){}\[\],;.:`\"⌜⌝|"
WORD = re.compile(rf"[^{STOPS}]+")
HUMP = re.compile(r"(?:^|[-_])[a-z][a-z0-9]*[A-Z]")
SIGNATURE = re.compile(r"((?:(?:unfoldable|abbrev|pattern|pub) )*)([^\s(){}\[\],;:]+) :(?: |$)")
# Functions into Type whose names began in lower case.
TYPES = ["argumentLabel", "patternLabel", "fitsNode", "clearNode", "bodyLabel", "closedVariable", "closedLabel", "ownLabel", "atLabel"]

# Lemmas that port.py respelled, beside definitions that would now have the same name.
LEMMAS = ["same_keys", "none_kept", "past_value", "one_way"]


def code(text):
    """An antt text without its comments."""
    return re.sub(r"--(?!>).*", "", text)


def antt():
    return sorted(p for d in ("specs", "proofs") for p in ROOT.glob(f"crates/*/{d}/**/*.antt"))


def declared():
    """Names that specs/ and lemma files declare: signatures, fields, constructors."""
    names = {}
    for path in antt():
        if path.name in ("Proof.antt", "Invariants.antt", "Answers.antt"):
            continue
        for line in code(path.read_text()).split("\n"):
            m = SIGNATURE.match(line.strip())
            if m:
                names.setdefault(m[2], set()).add(path)
    return names


def snake(name):
    """wordNodes, sub-marks: word_nodes, sub_marks. A dash stays beside a type."""
    name = re.sub(r"(?<=[a-z0-9])([A-Z])(?=[a-z])", lambda m: "_" + m[1].lower(), name) if HUMP.search(name) else name
    name = re.sub(r"(?<=[a-z0-9])([A-Z])", lambda m: "_" + m[1].lower(), name) if HUMP.search(name) else name
    return re.sub(r"-(?![A-Z][a-z])", "_", name)


def camel(name):
    return name[0].upper() + name[1:]


def imported():
    """Names that come from the kit's libraries."""
    names = set()
    for path in list(antt()) + list(ROOT.glob("crates/*/src/**/*.rt")):
        for m in re.finditer(r"\buse ([\w.+'·-]+)\.\{([^}]*)\}", path.read_text()):
            parts = m[1].split(".")
            if parts[0] != "Rattle" or parts[1] == "std":
                names |= {n.strip().split(" as ")[0] for n in m[2].split(",")}
    return names


def renamings():
    known = declared()
    plain = {n if "-" not in n else None: n for n in known} | {snake(n): n for n in known if "-" not in n}
    library = imported()
    tokens = set()
    for path in antt():
        tokens |= set(WORD.findall(code(path.read_text())))
    names = {}
    for n in sorted(set(known) | {t for t in tokens if HUMP.search(t)}):
        if n in library or not re.match(r"[A-Za-z]", n):
            continue
        new = camel(n) if n in TYPES else snake(n)
        if "-" in n and new in plain:
            new += "_lem"
        if new != n:
            names[n] = new
    names |= {n: n + "_lem" for n in LEMMAS}
    for _, new, olds in list(together(names)):
        names |= {n: new + "_lem" for n in olds if "-" in n}
    return names


def together(names):
    """Pairs of names of one file that would be one name."""
    for path in list(antt()) + sorted(ROOT.glob("crates/*/src/**/*.rt")):
        text = path.read_text()
        text = code(text) if path.suffix == ".antt" else re.sub(r"//.*", "", text)
        seen = {}
        for w in set(WORD.findall(text)):
            seen.setdefault(names.get(w, w), set()).add(w)
        for new, olds in seen.items():
            if len(olds) > 1:
                yield path.relative_to(ROOT), new, sorted(olds)


def respelled(text, names):
    """A step of a function's proof, as `c.parts-of`, is named by the Rust function and not by a lemma."""

    def one(m):
        new = names.get(m[0], m[0])
        return snake(m[0]) if new.endswith("_lem") and text[: m.start()].endswith(".") else new

    return WORD.sub(one, text)


def in_comment(text, names):
    """In prose a name with a dash may be a word of English: only what stands in backticks, or first in a glossary's line, is a name."""
    humps = {k: v for k, v in names.items() if "-" not in k}
    text = respelled(text, humps)
    text = re.sub(r"`[^`]*`", lambda m: respelled(m[0], names), text)
    return re.sub(r"^(   ?)(\S+)(?=\s\s)", lambda m: m[1] + names.get(m[2], m[2]), text)


def beside(text, names, known):
    """The names of a document or an edit: these, and those that port.py respelled where they are declared."""
    def one(m):
        new = snake(m[0])
        return names.get(m[0]) or (new if new in known else m[0])

    return WORD.sub(one, text)


def line(text, mark, names):
    at = text.find(mark)
    if at < 0:
        return respelled(text, names)
    return respelled(text[:at], names) + mark + in_comment(text[at + len(mark) :], names)


def main():
    names = renamings()
    if "--look" in sys.argv:
        for path, new, olds in together(names):
            print(path, new, *olds)
        return
    for path in antt():
        path.write_text("\n".join(line(l, "--", names) for l in path.read_text().split("\n")))
    for path in sorted(ROOT.glob("crates/*/src/**/*.rt")):
        path.write_text("\n".join(line(l, "//", names) for l in path.read_text().split("\n")))
    known = set(declared())
    for path in sorted(ROOT.glob("crates/*/must-fail/*.edit")):
        path.write_text("\n".join(beside(l, names, known) if re.match("(old|new): ", l) else l for l in path.read_text().split("\n")))
    for path in [ROOT / "README.md", *sorted(ROOT.glob("docs/*.md"))]:
        path.write_text(re.sub(r"`[^`\n]*`", lambda m: beside(m[0], names, known), path.read_text()))
    print(f"respell: {len(names)} names")


if __name__ == "__main__":
    main()
