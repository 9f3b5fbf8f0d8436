"""Counts what a reader of the contracts has to read: the words of the headline, and the clauses that are long.

    python3 scripts/words.py [--list] [headline] [clauses] [CRATE ..]

A clause is one `requires` or `ensures` of a source file, with its braces, folded to one line; it is long past 110 columns. The words
of the headline are those that the clauses of `HttpBindingProtocol::serialize_request` cite, those that a codec's and an input's
meanings cite, and those that the definitions of these cite, and so on down to the standard library, whose words are not counted.
`headline` counts these alone, `clauses` the clauses of all crates, CRATE those of one. --list gives each long clause, and each word
with its module. The last line is `N passed, M failed`: one for the headline, where it has at most 330 words, and one for each crate,
where none of its clauses is long.
"""

import functools
import pathlib
import re
import sys

ROOT = pathlib.Path(__file__).resolve().parent.parent
CRATES = ROOT / "crates"

LONGEST = 110
MOST_WORDS = 330

CLAUSE = re.compile(r"^\s*(?:requires|ensures)\b")
USE = re.compile(r"^ *(?:(?:pub|ghost|unfoldable) )*use Rattle\.(?P<path>[\w.]+?)(?:\.\{(?P<names>[^}]*)\}|(?: as (?P<alias>\w+))?);?\s*$")
HEAD = re.compile(r"^(?:(?:abbrev|unfoldable|pub|private|infix[lr]?|\d+) )*(?:(?:record|data) (?P<type>\S+)|(?P<name>[^\s(){}]+) (?=: |: *$|:$))")
WORD = re.compile(r"[^\s(){};,λ→=×∷\[\]\"]+")

# The clauses that are read first: each a source file, and what has them.
HEADLINE = [
    ("smithy_binding", "src/http_binding_protocol.rt", "pub fn serialize_request("),
    ("smithy_serde", "src/codec.rt", "ghost text:"),
    ("smithy_serde", "src/codec.rt", "ghost lawful:"),
    ("smithy_serde", "src/codec.rt", "ghost tells:"),
    ("smithy_serde", "src/serializable.rt", "ghost writes:"),
]


def sources(crate):
    return sorted((CRATES / crate / "src").rglob("*.rt"))


def folded(lines, at):
    """The text from this line to where its braces close, on one line, and the line behind it."""
    text, depth = "", 0
    while at < len(lines):
        line = lines[at].strip()
        text += (" " if text else "") + line
        depth += line.count("{") - line.count("}")
        at += 1
        if depth <= 0:
            break
    return text, at


def clauses(path):
    """Each clause of a source file as its line's number and its folded text."""
    lines = path.read_text().splitlines()
    at = 0
    while at < len(lines):
        if CLAUSE.match(lines[at]) and "{" in lines[at]:
            start = at + 1
            text, at = folded(lines, at)
            yield start, text
        else:
            at += 1


def long_clauses(crate):
    return [(path, number, text) for path in sources(crate) for number, text in clauses(path) if len(text) > LONGEST]


class Module:
    """A module of `specs/`: its definitions' texts by name, and what it brings in, by its name here."""

    def __init__(self, path):
        self.defined, self.brought = {}, {}
        name, joint = None, False
        for line in path.read_text().splitlines():
            if line.lstrip().startswith("--") or not line.strip():
                continue
            if not line.startswith(" "):
                joint = line.split()[-1] == "mutual"
            elif joint:
                line = line.removeprefix("  ")
            if brings(line, self.brought):
                continue
            head = HEAD.match(line)
            if head:
                name = head["type"] or head["name"]
            if name:
                self.defined[name] = self.defined.get(name, "") + " " + line


def brings(line, brought):
    """Notes what an import brings in, and returns whether the line is one."""
    used = USE.match(line)
    if not used:
        return False
    path = used["path"]
    if used["names"] is not None:
        for item in filter(None, (it.strip() for it in used["names"].split(","))):
            name, _, alias = item.partition(" as ")
            brought[alias or name] = (path, name)
    else:
        module, _, name = path.rpartition(".")
        brought[used["alias"] or name] = (module, name)
    return True


@functools.lru_cache(maxsize=None)
def module(path):
    """The module of this path in a crate of the repository, or None."""
    crate, *parts = path.split(".")
    file = CRATES.joinpath(crate, *parts).with_suffix(".antt")
    if parts and file.is_file():
        return Module(file)
    library = CRATES / crate / "specs" / "Lib.antt"
    if len(parts) != 2 or not library.is_file():
        return None
    passed_on = re.search(rf"^pub use Rattle\.([\w.]+\.{parts[1]})$", library.read_text(), re.M)
    return module(passed_on[1]) if passed_on else None


def resolved(path, name):
    """The word that this name of a module is, as its module and name, or None where it is the standard library's or no word."""
    if path.split(".")[0] == "std":
        return None
    if ".declared." in f".{path}.":
        # (a type of the code, or a variant of it)
        kind = path.removesuffix(".TheVariants").split(".")[-1]
        return path.removesuffix(".TheVariants"), kind
    found = module(path)
    if found is None:
        return path, name
    if name in found.defined:
        return path, name
    if name in found.brought:
        return resolved(*found.brought[name])
    return None


def cited(text, brought, own=None):
    """The words that a text cites, by what stands in its file."""
    for token in WORD.findall(text):
        name, _, rest = token.partition(".")
        if own and name in own[1].defined:
            yield own[0], name
        elif name in brought:
            path, word = brought[name]
            inner = f"{path}.{word}"
            if module(inner) is not None:
                yield resolved(inner, rest.split(".")[0]) if rest else None
            elif word == "TheVariants" or path.endswith(".TheVariants") or ".declared." in f".{path}.":
                yield resolved(path if word != "TheVariants" else inner, word)
            else:
                yield resolved(path, word)


def headline():
    """The words of the headline, each once, in the order of a reader who goes down from the clauses."""
    words, waiting = {}, []
    for crate, file, what in HEADLINE:
        lines = (CRATES / crate / file).read_text().splitlines()
        brought = {}
        for line in lines:
            brings(line, brought)
        at = next(i for i, line in enumerate(lines) if what in line)
        if what.startswith("ghost"):
            text, _ = folded(lines, at)
        else:
            end = next(i for i in range(at, len(lines)) if lines[i].rstrip() in ("    {", "{"))
            text = " ".join(lines[at:end])
        waiting += filter(None, cited(text.partition("{")[2] if what.startswith("ghost") else text, brought))
    while waiting:
        word = waiting.pop(0)
        if word in words:
            continue
        words[word] = None
        own = module(word[0])
        if own and word[1] in own.defined:
            waiting += filter(None, cited(own.defined[word[1]], own.brought, (word[0], own)))
    return list(words)


def main(arguments):
    lists = "--list" in arguments
    named = [word for word in arguments if not word.startswith("--")]
    passed = failed = 0
    if not named or "headline" in named:
        words = headline()
        if lists:
            for path, name in sorted(words):
                print(f"{path}: {name}")
        print(f"headline: {len(words)} words, at most {MOST_WORDS}")
        passed, failed = (1, 0) if len(words) <= MOST_WORDS else (0, 1)
    for crate in sorted(folder.name for folder in CRATES.iterdir()):
        if named and "clauses" not in named and crate not in named:
            continue
        found = long_clauses(crate)
        if lists:
            for path, number, text in found:
                print(f"{path.relative_to(ROOT)}:{number}: {len(text)}: {text}")
        if found:
            print(f"{crate}: {len(found)} clauses past {LONGEST} columns")
        passed, failed = (passed, failed + 1) if found else (passed + 1, failed)
    print(f"{passed} passed, {failed} failed")
    return 1 if failed else 0


if __name__ == "__main__":
    sys.exit(main(sys.argv[1:]))
