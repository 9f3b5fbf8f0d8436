"""Lists the public calls of the library's crates that no row and no caller reaches.

    python3 scripts/calls.py [--all]

A call is a public function that does something, a public method of a public type, or a method of a public trait. It is reached
where a program of rows or `uses` calls it: a function by its name; a method by its name in a file that also names its type, its
trait, an alias or an implementor; a method of a trait also where a caller has it for a type of its own. Each call that isn't has
a line, --all gives each call with the file that reaches it, and the last line is `N passed, M failed`.
"""

import collections
import pathlib
import re
import sys

ROOT = pathlib.Path(__file__).resolve().parent.parent
CRATES = ROOT / "crates"

# A call: the crate, the type or trait that has it ("" for a function), and its name.
Call = collections.namedtuple("Call", "crate owner name")

ITEM = re.compile(
    r"^(?P<pub>pub )?(?:const )?(?:impl(?:<.*?>)? (?:(?P<trait>[A-Z]\w*)(?:<.*>)? for )?&?(?:'\w+ )?(?P<type>[A-Z]\w*)|trait (?P<named>\w+))"
)
FUNCTION = re.compile(r"^(?P<indent> *)(?P<pub>pub )?(?:const )?(?:unsafe )?fn (?P<name>\w+)")
ALIAS = re.compile(r"^pub type (?P<name>\w+) = (?P<type>\w+)")
WORD = re.compile(r"\w+")


def crates():
    """The names of crates.txt."""
    for line in (ROOT / "crates.txt").read_text().splitlines():
        words = line.partition("#")[0].split(":")[0].split()
        if words:
            yield words[0]


def is_caller(name):
    return name == "uses" or name.endswith("_rows")


def sources(crate):
    return sorted((CRATES / crate / "src").rglob("*.rt"))


def exported(crate):
    """The words that a crate's root makes public: what it uses publicly, and all of its public modules."""
    root = (CRATES / crate / "src" / "lib.rt").read_text()
    words = set()
    for used in re.findall(r"^pub use (.*?);", root, re.M | re.S):
        words.update(WORD.findall(used))
    modules = set(re.findall(r"^pub mod (\w+);", root, re.M))
    return words, modules


def other_names():
    """Each public type with its aliases, and each public trait with the types that implement it, callers' own among them."""
    found = collections.defaultdict(set)
    for crate in crates():
        for path in sources(crate):
            for line in path.read_text().splitlines():
                item, alias = ITEM.match(line), ALIAS.match(line)
                if item and item["trait"]:
                    found[item["trait"]].add(item["type"])
                if alias:
                    found[alias["type"]].add(alias["name"])
    return found


def is_law(lines):
    """Whether the function that begins with these lines does nothing: what it says is its contract."""
    body = next((place for place, line in enumerate(lines) if line == "{" or line.endswith((" {", " {}")) or line == "{}"), 0)
    return lines[body].endswith("{}") or lines[body + 1 : body + 2] == ["}"]


def calls_in(crate, path, words, is_open):
    """The public calls of a file: of a module that is open all, else those of exported types and names."""
    owner, is_trait, is_own = "", False, False
    lines = path.read_text().splitlines()
    for place, line in enumerate(lines):
        item, function = ITEM.match(line), FUNCTION.match(line)
        if item:
            owner = item["named"] or item["type"]
            is_trait = item["named"] is not None
            is_own = item["trait"] is None and (owner in words or is_open)
        elif line.startswith("}"):
            owner, is_trait, is_own = "", False, False
        elif function and function["indent"] == "" and function["pub"]:
            if (is_open or function["name"] in words) and not is_law(lines[place:]):
                yield Call(crate, "", function["name"])
        elif function and function["indent"] == "    " and is_own and (function["pub"] or is_trait):
            yield Call(crate, owner, function["name"])


def calls():
    """The public calls of all library crates but those of callers."""
    for crate in crates():
        if is_caller(crate) or not (CRATES / crate / "src" / "lib.rt").is_file():
            continue
        words, modules = exported(crate)
        for path in sources(crate):
            relative = path.relative_to(CRATES / crate / "src")
            yield from calls_in(crate, path, words, relative.parts[0].removesuffix(".rt") in modules)


def reached_by(call, files, known):
    """The first file that reaches a call."""
    asked = re.compile(rf"(?<!fn )\b{call.name}(?:::<[^>]*>)?\(" if call.owner == "" else rf"(?:\.|::){call.name}\b")
    given = re.compile(rf"^impl(?:<.*>)? {call.owner}\b.* for .*\{{\n(?:.*\n)*?    fn {call.name}\b", re.M)
    names = {call.owner} | known.get(call.owner, set())
    for path, text, words in files:
        if asked.search(text) and (call.owner == "" or names & words):
            return path
        if call.owner in words and given.search(text):
            return path
    return None


def main(*words):
    files = []
    for crate in crates():
        if is_caller(crate):
            for path in sources(crate):
                text = path.read_text()
                files.append((path.relative_to(ROOT), text, set(WORD.findall(text))))
    known = other_names()
    passed = failed = 0
    for call in sorted(set(calls())):
        path = reached_by(call, files, known)
        shown = f"{call.crate}: {call.owner}::{call.name}" if call.owner else f"{call.crate}: {call.name}"
        if path is None:
            failed += 1
            print(f"{shown} is reached by no row and no caller")
        else:
            passed += 1
            if "--all" in words:
                print(f"{shown}: {path}")
    print(f"{passed} passed, {failed} failed")
    return 1 if failed else 0


if __name__ == "__main__":
    sys.exit(main(*sys.argv[1:]))
