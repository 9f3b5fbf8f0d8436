"""Builds the programs that call the proved library from C, Rust and Python, runs each on every example and on jobs at
the limits of buffers, compares what it ends with, and runs the tests of each language.

    python3 bindings/run.py [--all-languages]

It needs `rt`, and proves and links the library first, unless SMITHY_BIND_LIB names the folder of libsmithy_bind_c.a
and SMITHY_BIND_LIBC that of the toolchain's liblibc_c.a.
A language whose tool is missing is skipped; with --all-languages it fails. Each job that ends otherwise has a line, and the
last line is `N passed, M failed`.
"""

import collections
import functools
import os
import pathlib
import re
import shutil
import subprocess
import sys
import tempfile

HERE = pathlib.Path(__file__).resolve().parent
ROOT = HERE.parent
sys.dont_write_bytecode = True
sys.path += [str(ROOT / "examples"), str(HERE)]
from install import install  # noqa: E402
from rows import Example, examples  # noqa: E402

# A language: the tool that it needs; what builds the program that answers a job, and what runs its tests, each with a folder
# to work in and that of the archives. Tests give what they say, whose last counts are those of the tests.
Language = collections.namedtuple("Language", "name tool program tests")


def explained():
    """A job and bytes that are none, told why."""
    job = (ROOT / "examples" / "get_object.json").read_bytes()
    yield Example("a job, explained", "explain request", job, 0, b"Job\n")
    yield Example("no JSON, explained", "explain request", b"{", 0, b"NotJson: byte 1\n")
    yield Example("too many bytes, explained", "explain response", b" " * 16777217, 7, b"")


def limits():
    """Jobs of no bytes and of too many, and texts that just fit into the first room of 4,096 bytes, and that do not."""
    yield Example("a job of no bytes", "request", b"", 2, b"")
    yield Example("a job of 16,777,216 bytes", "response", b" " * 16777216, 2, b"")
    yield Example("a job of 16,777,217 bytes", "response", b" " * 16777217, 7, b"")
    job, text = ((ROOT / "examples" / name).read_bytes() for name in ("get_object.json", "get_object.txt"))
    label = b"x/y%20z"
    for length in (4096, 4097, 40000):
        key = b"a" * (length - len(text) + len(label))
        yield Example(f"a text of {length:,} bytes", "request", job.replace(b"x/y z", key), 0, text.replace(label, key))


def run(*words, **names):
    subprocess.run(words, check=True, env={**os.environ, **names})


def said(*words, given=None, **names):
    """What the words write to standard output and standard error."""
    ended = subprocess.run(words, input=given, stdout=subprocess.PIPE, stderr=subprocess.STDOUT, env={**os.environ, **names})
    return ended.stdout.decode(errors="replace")


# C, by the flags that pkg-config gives where it is there.


def compiled(work, lib, source):
    flags = [f"-I{lib.parent / 'include'}", f"-L{lib}", "-lsmithy_bind_c", "-llibc_c"]
    if shutil.which("pkg-config") is not None:
        words = ["pkg-config", "--cflags", "--libs", "smithy_bind"]
        flags = subprocess.run(words, check=True, stdout=subprocess.PIPE, env={**os.environ, "PKG_CONFIG_PATH": lib / "pkgconfig"})
        flags = flags.stdout.decode().split()
    program = work / source.removesuffix(".c")
    run("cc", "-std=c99", "-O2", "-Wall", "-Wextra", "-Wpedantic", "-Werror", "-o", program, HERE / "c" / source, *flags)
    return program


def in_c(work, lib):
    return [compiled(work, lib, "example.c")]


def tests_in_c(work, lib):
    return said(compiled(work, lib, "tests.c"), given=(ROOT / "examples" / "get_object.json").read_bytes())


# Rust.


def cargo(work, lib, *words):
    """What cargo says."""
    folders = {"SMITHY_BIND_LIB": lib, "SMITHY_BIND_LIBC": lib, "CARGO_TARGET_DIR": work / "target"}
    return said("cargo", *words, "--offline", "--manifest-path", HERE / "rust" / "Cargo.toml", **folders)


def in_rust(work, lib):
    program = work / "target" / "release" / "examples" / "answer"
    text = cargo(work, lib, "build", "--release", "--example", "answer")
    if not program.is_file():
        print(text, end="")
    return [program]


def tests_in_rust(work, lib):
    return cargo(work, lib, "test") + without_archives(work)


def without_archives(work):
    """Whether the documentation is built without the archives, and a build without them says what to set."""
    nowhere = work / "nowhere"
    built, text = cargo(work, nowhere, "doc", "--no-deps"), cargo(work, nowhere, "build")
    held = [
        "Finished" in built,
        all(f"set SMITHY_BIND_{it} to the folder" in text for it in ("LIB", "LIBC")),
        "could not find native static library" in text,
        "panicked" not in text,
    ]
    passed = held.count(True)
    said_so = "" if all(held) else f"{held} of:\n{built}{text}"
    return f"{said_so}{passed} passed; {len(held) - passed} failed\n"


# Python.


def in_python(work, lib):
    return [sys.executable, HERE / "python" / "example.py", lib / "libsmithy_bind.so"]


def tests_in_python(work, lib):
    words = [sys.executable, "-B", "-m", "unittest", "discover", "-s", HERE / "python" / "tests", "-t", HERE / "python"]
    return said(*words, SMITHY_BIND_LIBRARY=lib / "libsmithy_bind.so")


LANGUAGES = (
    Language("C", "cc", in_c, tests_in_c),
    Language("Rust", "cargo", in_rust, tests_in_rust),
    Language("Python", "cc", in_python, tests_in_python),
)


def failures(language, build, jobs):
    """How many jobs the program of a language, which is built first, ends otherwise than they are to."""
    failed = 0
    try:
        program = build()
    except subprocess.CalledProcessError as error:
        print(f"{language}: {error}")
        return len(jobs)
    for job in jobs:
        end = subprocess.run([*program, *job.command.split()], input=job.job, stdout=subprocess.PIPE)
        if (end.returncode, end.stdout) != (job.status, job.text):
            failed += 1
            print(f"{language}: {job.name} ends with {end.returncode} and {end.stdout[:1000]!r}")
    print(f"{language}: {len(jobs) - failed} of {len(jobs)} jobs end as they are to", flush=True)
    return failed


def counts(text):
    """How many tests passed and failed, by what the runner of a language says of all its tests. One that says nothing failed."""
    passed = failed = 0
    for them in re.findall(r"(\d+) passed[,;] (\d+) failed", text):
        passed, failed = passed + int(them[0]), failed + int(them[1])
    for them in re.findall(r"^Ran (\d+) tests? .*\n\n(?:OK|FAILED \((.*)\))", text, re.M):
        wrong = sum(map(int, re.findall(r"(?:failures|errors)=(\d+)", them[1])))
        passed, failed = passed + int(them[0]) - wrong, failed + wrong
    return (passed, failed) if passed else (0, max(failed, 1))


def tested(language, test):
    """How many of a language's own tests passed and failed, with what they say where one failed."""
    try:
        text = test()
    except subprocess.CalledProcessError as error:
        text = f"{error}\n"
    passed, failed = counts(text)
    if failed:
        print(text, end="")
    print(f"{language}: {passed} of {passed + failed} tests pass", flush=True)
    return passed, failed


# Where the version stands, and the line that has it.
VERSIONS = {
    "crates/smithy_bind/src/texts.rt": r'^pub const VERSION: &str = "smithy_bind (.*)\\n";$',
    "bindings/c/smithy_bind.h": r'^#define SMITHY_BIND_VERSION "(.*)"$',
    "bindings/c/smithy_bind.pc": r"^Version: (.*)$",
    "bindings/rust/Cargo.toml": r'^version = "(.*)"$',
    "bindings/python/pyproject.toml": r'^version = "(.*)"$',
    "bindings/python/smithy_bind/__init__.py": r'^__version__ = "(.*)"$',
}


def other_versions():
    """How many files have another version than the program."""
    found = {path: re.findall(line, (ROOT / path).read_text(), re.M) for path, line in VERSIONS.items()}
    wanted = found["crates/smithy_bind/src/texts.rt"]
    others = [path for path in found if found[path] != wanted or len(wanted) != 1]
    for path in others:
        print(f"{path} has the version {found[path]} and not {wanted}")
    return len(others)


def main(*words):
    jobs = [*examples(), *explained(), *limits()]
    failed = other_versions()
    passed = len(VERSIONS) - failed
    with tempfile.TemporaryDirectory() as folder:
        lib = install(pathlib.Path(folder) / "installed")
        for language in LANGUAGES:
            if shutil.which(language.tool) is None:
                print(f"{language.name}: there is no {language.tool}")
                failed += len(jobs) if "--all-languages" in words else 0
                continue
            work = pathlib.Path(folder) / language.name
            work.mkdir()
            wrong = failures(language.name, functools.partial(language.program, work, lib), jobs)
            more = tested(language.name, functools.partial(language.tests, work, lib))
            passed, failed = passed + len(jobs) - wrong + more[0], failed + wrong + more[1]
    print(f"{passed} passed, {failed} failed")
    return 1 if failed else 0


if __name__ == "__main__":
    sys.exit(main(*sys.argv[1:]))
