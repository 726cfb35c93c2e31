"""What the scripts of this folder know of Rattle and antt sources: the files, their words, what they import and what they declare."""
import collections
import pathlib
import re
import signal

# A reader that has seen enough, as `head`, ends a script quietly.
signal.signal(signal.SIGPIPE, signal.SIG_DFL)

ROOT = pathlib.Path(__file__).resolve().parent.parent
# What a crate is made of; beside them stands out/, where `rt` keeps copies.
PARTS = ("src", "specs", "proofs")
WORD = re.compile(r"[^\s(){}\[\],;.`\"«»]+")
DECLARED = re.compile(r"(?:abbrev |unfoldable )*(?:pub )?(?:data |record )?([^\s(){}:]+)\s*:\s")
SECTION = re.compile(r" *module _")


def sources(*suffixes):
    """The files of all crates with these suffixes, in order."""
    files = (p for crate in (ROOT / "crates").iterdir() for part in PARTS for p in (crate / part).rglob("*"))
    return sorted(p for p in files if p.suffix in suffixes and p.is_file())


def shown(path):
    return str(path.relative_to(ROOT))


def code(path, line):
    """The line without its comment."""
    mark = "--" if path.suffix == ".antt" else "//"
    return re.split(r"(?:^|\s)" + mark + r"(?:\s|$)", line)[0]


def parts(word):
    """A word and, where Rust writes several as one, as `!is_hole` or `crate::proofs::Laws::law`, the words in it."""
    return {word, *re.findall(r"\w+|[^\w]+", word)}


def words(path, text):
    """How often each word stands in the text, comments aside."""
    found = [w for line in text.splitlines() for w in WORD.findall(code(path, line))]
    return collections.Counter(found if path.suffix == ".antt" else (p for w in found for p in parts(w)))


def blocks(text):
    """(line number, lines) of each declaration or clause of an antt file, at the top or in a section, with what is indented below it."""
    depth, number, block = 0, 0, []
    for at, line in enumerate(text.splitlines(), 1):
        indent = len(line) - len(line.lstrip())
        if not line.strip() or line.lstrip().startswith("--"):
            continue
        if block and indent > depth:
            block.append(line)
            continue
        if block:
            yield number, block
        depth = indent + 2 if SECTION.match(line) else indent
        number, block = at, [line]
    if block:
        yield number, block


def declarations(text):
    """(line number, name) of each declaration of an antt file, at the top or in a section."""
    for number, block in blocks(text):
        if found := DECLARED.match(block[0].strip()):
            yield number, found.group(1)
