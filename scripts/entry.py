"""Runs the script ./smithy_bind as a user first meets it, over a made program and a made toolchain.

    python3 scripts/entry.py

It needs no proof and no toolchain. Each case that doesn't end as the script's head says has a line, and the last line is
`N passed, M failed`.
"""

import collections
import contextlib
import os
import pathlib
import pty
import re
import shutil
import subprocess
import sys
import tempfile

ROOT = pathlib.Path(__file__).resolve().parent.parent
TEXTS = pathlib.Path("crates") / "smithy_bind" / "src" / "texts.rt"
PROGRAM = pathlib.Path("crates") / "smithy_bind_program"

# A run: the words behind the script's name, what it is called by, where, and what stands on the path beside the system's tools; and
# how it ends: the status, what it writes (None: that is not looked at), and the lines of standard error, as patterns. Standard input is a
# file with a job, or a terminal that one is typed on.
Case = collections.namedtuple("Case", "name words called where tools status text said terminal", defaults=(False,))

# It writes what it reads, and ends with the status that ENDS names; `explain` names its command before that, and ends with 0.
MADE_PROGRAM = '#!/bin/sh\nif [ "$1" = explain ]; then ENDS=0; printf "%s of " "$2"; fi\ncat\nexit "$ENDS"\n'
# As `rt try`, of such a program.
MADE_TOOLCHAIN = (
    '#!/bin/sh\n[ "$1" = try ] && shift && shift || exit 9\n'
    'if [ "$1" = explain ]; then ENDS=0; printf "%s of " "$2"; fi\ncat\necho "run=ended status=$ENDS" >&2\nexit "$ENDS"\n'
)
# A program that finds no JSON behind the ninth byte.
REFUSING_PROGRAM = '#!/bin/sh\n[ "$1" = explain ] || exit 2\necho "NotJson: byte 9"\n'
# What ./smithy_bind --build keeps of crates.txt, by the script's own functions.
LINES = "here=.; eval \"$(sed -n '/^crates_of_program() {/,/^}/p; /^lines_of_program() {/,/^}/p' smithy_bind)\"; lines_of_program"
NO_TOOLCHAIN = "#!/bin/sh\nexit 9\n"

JOB = b'{"a job": [1, 2]}\n'
COMMANDS = ("request", "requests", "rpc", "response", "responses", "recover", "route", "gateway", "answer")
BY_AWS = ("aws request", "aws response")


def constant(name):
    """The text of a constant of the program's texts."""
    source = (ROOT / TEXTS).read_text()
    text = re.search(rf'^pub const {name}: &str = "(.*?)";$', source, re.M | re.S)[1]
    return text.removeprefix("\\\n").replace("\\n", "\n").encode()


def executable(path, text):
    path.parent.mkdir(parents=True, exist_ok=True)
    path.write_text(text)
    path.chmod(0o755)
    return path


class Clone:
    """A folder with the script, what it reads, and a made program where one is to be there."""

    def __init__(self, folder, program=None):
        self.folder = folder
        (folder / TEXTS).parent.mkdir(parents=True)
        (folder / PROGRAM / "src").mkdir(parents=True)
        shutil.copy(ROOT / TEXTS, folder / TEXTS)
        shutil.copy(ROOT / "crates.txt", folder)
        shutil.copy(ROOT / "smithy_bind", folder)
        self.script = folder / "smithy_bind"
        if program is not None:
            executable(folder / PROGRAM / "out" / "smithy_bind_program", program)

    def add_crate(self, line):
        """A line more in crates.txt, which is then newer than the program."""
        crates = self.folder / "crates.txt"
        crates.write_text(crates.read_text() + line)
        built = self.folder / PROGRAM / "out" / "smithy_bind_program"
        os.utime(built, (0, 0))
        for source in self.folder.rglob("*"):
            if source != crates:
                os.utime(source, (0, 0))

    def link(self, path):
        path.parent.mkdir(parents=True, exist_ok=True)
        path.symlink_to(self.script)
        return path


def usage():
    """The lines of standard error where the words are no command."""
    lines = constant("HELP").decode().split("\n\n")[1].splitlines()
    return [*map(re.escape, lines), "smithy_bind: --help tells what each does"]


def no_job(command):
    """What is said of bytes that are no job of a command: what `explain` does, where it knows of the command."""
    if command in BY_AWS:
        return f"no job of {command}, or .*"
    return f"{command} of {re.escape(JOB.decode().strip())}"


def why(status, command, folder):
    """The lines of standard error where a command ends with this status."""
    lines = {
        2: [
            f"smithy_bind: status 2: {no_job(command)}",
            rf"smithy_bind: see '.*' in {re.escape(str(folder))}/docs/JOBS.md",
        ],
        4: ["smithy_bind: status 4: reading .*"],
        5: ["smithy_bind: status 5: writing .*"],
        6: ["smithy_bind: status 6: .* memory"],
        7: ["smithy_bind: status 7: .* 16,777,216 bytes"],
    }
    return lines.get(status, [])


def texts(clone, tools):
    """Words that are answered at once: there is no program, and the toolchain on the path can't be asked."""
    for word in ("-h", "help", "--help"):
        yield Case(word, [word], clone.script, "/", tools, 0, constant("HELP"), [])
    for word in ("-V", "--version"):
        yield Case(word, [word], clone.script, "/", tools, 0, constant("VERSION"), [])
    yield Case("no word", [], clone.script, "/", tools, 1, b"", ["smithy_bind: a command is needed", *usage()])
    for words in (
        [""], ["post"], ["Request"], ["--help", "--help"], ["--"], ["a b"], ["*"],
        ["generate"], ["generate", ""], ["generate", "100001"], ["generate", "0000003"], ["generate", "-1"],
        ["generate", "3.0"], ["generate", "3", "3"], ["request < JOB"],
        ["explain", ""], ["explain", "explain"], ["explain", "generate"], ["explain", "request", "rpc"], ["explain", "aws"],
        ["explain", "aws request"], ["aws request"], ["aws", ""], ["aws", "rpc"], ["aws", "request", "request"],
    ):  # fmt: skip
        said = [re.escape(f"smithy_bind: no command: {' '.join(words)}"), *usage()]
        yield Case(f"the words {words}", words, clone.script, "/", tools, 1, b"", said)
    for words, said in (
        (["explain"], "explain needs a command, as in: explain request"),
        (["aws"], "aws needs a command, as in: aws request"),
        (["request", "request"], "request takes no further word: its job is read from standard input"),
    ):
        yield Case(f"the words {words}", words, clone.script, "/", tools, 1, b"", [f"smithy_bind: {said}", *usage()])


def places(clone, tools, work):
    """Ways to call it."""
    once, twice = clone.link(work / "bin" / "smithy_bind"), work / "a link"
    twice.symlink_to(once)
    for name, called, where in (
        ("by its path", clone.script, "/"),
        ("in its folder", "./smithy_bind", clone.folder),
        ("from a folder in it", "../../smithy_bind", clone.folder / PROGRAM),
        ("by a link", once, "/"),
        ("by a link to a link", twice, "/"),
        ("by a link's folder", "./smithy_bind", once.parent),
    ):
        yield Case(f"request, {name}", ["request"], called, where, tools, 0, JOB, [])
        yield Case(f"--version, {name}", ["--version"], called, where, tools, 0, constant("VERSION"), [])
    path = clone.link(work / "path" / "smithy_bind").parent
    yield Case("request, on the path", ["request"], "smithy_bind", "/", path, 0, JOB, [])


def statuses(clone, tools):
    """What is said where the program ends with a status."""
    for command in (*COMMANDS, *BY_AWS):
        for status in range(8):
            said = why(status, command, clone.folder)
            yield Case(f"{command} that ends with {status}", command.split(), clone.script, "/", tools, status, JOB, said)
    for command in COMMANDS:
        yield Case(f"explain {command}", ["explain", command], clone.script, "/", tools, 0, f"{command} of ".encode() + JOB, [])
    for count in ("0", "000003", "100000"):
        yield Case(f"generate {count}", ["generate", count], clone.script, "/", tools, 0, None, [])
    said = ["smithy_bind: the proved build is newer .*"]
    yield Case("--build, with a build", ["--build"], clone.script, "/", tools, 0, b"", said)
    if os.path.exists("/dev/ptmx"):
        said = ["smithy_bind: the job is read from the terminal: .*"]
        yield Case("request of a terminal", ["request"], clone.script, "/", tools, 0, JOB, said, True)


def no_json(clone, tools):
    """What is said of bytes that are no JSON."""
    said = [
        "smithy_bind: status 2: NotJson: byte 9",
        re.escape(f"smithy_bind: before that byte stands: {JOB[:9].decode()}"),
        re.escape(f"smithy_bind: from that byte on stands: {JOB[9:].decode().strip(chr(10))}") + " *",
        "smithy_bind: see '.*' in .*",
    ]
    yield Case("no JSON behind the ninth byte", ["request"], clone.script, "/", tools, 2, b"", said)


def with_crates(work, trying):
    """A crate that is added: the build stays where it was made by the same lines, and else not."""
    note = ["smithy_bind: there is no proved build .*", "smithy_bind: more .*", "smithy_bind: which compiles .*"]
    for name, line, said in (("of another", "mine: smithy_ids\n", []), ("of the program", "smithy_bind_program: mine\n", note)):
        clone = Clone(work / f"a crate {name}", MADE_PROGRAM)
        lines = clone.folder / PROGRAM / "out" / "crates_of_program"
        lines.write_bytes(subprocess.run(["sh", "-c", LINES], cwd=clone.folder, stdout=subprocess.PIPE, check=True).stdout)
        clone.add_crate(line)
        yield Case(f"a line of a crate {name} is added", ["request"], clone.script, "/", trying, 0, JOB, said)


def unproved(clone, tools):
    """The same without a program, by a made toolchain."""
    note = ["smithy_bind: there is no proved build .*", "smithy_bind: more .*", "smithy_bind: which compiles .*"]
    for status in range(8):
        second = ["smithy_bind: status 2: a second run .*"] if status == 2 else []
        said = [*note, *second, *why(status, "request", clone.folder)]
        yield Case(f"an unproved run that ends with {status}", ["request"], clone.script, "/", tools, status, JOB, said)


def without_toolchain(clone, tools):
    said = ["smithy_bind: there is no rt on the path: .*"]
    yield Case("request without a toolchain", ["request"], clone.script, "/", tools, 70, b"", said)
    yield Case("--build without a toolchain", ["--build"], clone.script, "/", tools, 70, b"", said)


@contextlib.contextmanager
def standard_input(is_terminal):
    """A file with the job, or a terminal on which the job and the end of the file are typed."""
    if is_terminal:
        ours, theirs = pty.openpty()
        os.write(ours, JOB + b"\x04")
        yield theirs
        os.close(ours)
        os.close(theirs)
    else:
        with tempfile.TemporaryFile() as file:
            file.write(JOB)
            file.seek(0)
            yield file


def differs(case):
    """How the end of a case differs from what it is to be, or None."""
    path = f"{case.tools}:/usr/bin:/bin" if case.tools else "/usr/bin:/bin"
    names = {**os.environ, "PATH": path, "ENDS": str(case.status)}
    called = shutil.which(case.called, path=path) if case.called == "smithy_bind" else case.called
    with standard_input(case.terminal) as given:
        ended = subprocess.run([called, *case.words], cwd=case.where, env=names, stdin=given, capture_output=True, timeout=60)
    said = ended.stderr.decode().splitlines()
    if ended.returncode != case.status:
        return f"ends with {ended.returncode} and not with {case.status}: {said}"
    if case.text is not None and ended.stdout != case.text:
        return f"writes {ended.stdout[:300]!r} and not {case.text[:300]!r}"
    if len(said) != len(case.said) or not all(map(re.fullmatch, case.said, said)):
        return f"says {said} and not {case.said}"
    return None


def cases(work):
    """All cases, in folders with blanks and signs in their names."""
    useless = executable(work / "useless" / "rt", NO_TOOLCHAIN).parent
    trying = executable(work / "trying" / "rt", MADE_TOOLCHAIN).parent
    bare, built = Clone(work / "a clone" / "without=a build"), Clone(work / "a clone" / "with a 'build'", MADE_PROGRAM)
    yield from texts(bare, useless)
    yield from places(built, useless, work)
    yield from statuses(built, useless)
    yield from unproved(bare, trying)
    yield from with_crates(work / "added", trying)
    yield from no_json(Clone(work / "a clone" / "of what is no JSON", REFUSING_PROGRAM), useless)
    if shutil.which("rt", path="/usr/bin:/bin") is None:
        yield from without_toolchain(bare, None)


def main():
    passed = failed = 0
    with tempfile.TemporaryDirectory() as folder:
        for case in cases(pathlib.Path(folder).resolve()):
            how = differs(case)
            if how is None:
                passed += 1
            else:
                failed += 1
                print(f"{case.name}: {how}", flush=True)
    print(f"{passed} passed, {failed} failed")
    return 1 if failed else 0


if __name__ == "__main__":
    sys.exit(main())
