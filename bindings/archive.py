"""Proves crates/smithy_bind_c and links its static library, crates/smithy_bind_c/out/libsmithy_bind_c.a.

    python3 bindings/archive.py

`rt lib` does so over the libraries that checks of this checkout built. Those that `rt ci` leaves it doesn't take, and would prove
them all again. Where nothing else stands there, as in a clone that only the gate was run in, the compiler is called over them.
"""

import pathlib
import subprocess
import sys

CRATES = pathlib.Path(__file__).resolve().parent.parent / "crates"
NAME = "smithy_bind_c"


def toolchain():
    """The toolchain's folder: that of the page which `rt doc` names."""
    page = subprocess.run(["rt", "doc"], check=True, stdout=subprocess.PIPE, encoding="utf-8").stdout.strip()
    return pathlib.Path(page).resolve().parent


def uses():
    """The crates of the repository, each with the crates that it stands on."""
    lines = (line.partition("#")[0].partition(":") for line in (CRATES.parent / "crates.txt").read_text().splitlines())
    return {name.split()[0]: below.split() for name, _, below in lines if name.split()}


def libraries(name, known):
    """The repository's libraries that a crate reaches."""
    found = {it for it in known[name] if it in known}
    return found.union(*(libraries(it, known) for it in found))


def library(name):
    """Where the built library of a crate of the repository stands."""
    return CRATES / name / "out" / "rlib" / f"{name}.rlib"


def is_left_by_gate(name):
    """Whether the library was built by `rt ci`, which marks none with a stamp, and from the files that are there."""
    built = library(name).parent
    if not (library(name) / "format").is_file() or (built / "stamp").exists():
        return False
    files = (it for part in ("src", "specs", "proofs") for it in (CRATES / name / part).rglob("*") if it.is_file())
    return all(it.stat().st_mtime <= built.stat().st_mtime for it in files)


def words(kit, known):
    """The call of the compiler that proves and links the crate over its libraries."""
    yield from (kit / "bin" / "rattle", "build", "--crate-name", NAME, "src/lib.rt", "--crate-type", "staticlib")
    for name in ["std", *known[NAME]]:
        yield from ("--extern", f"{name}={library(name) if name in known else kit / 'rlibs' / (name + '.rlib')}")
    for folder in [kit / "rlibs", *(library(name).parent for name in sorted(libraries(NAME, known)))]:
        yield from ("-L", f"dependency={folder}")
    yield from ("--antt-project", kit / "rattle" / "logic" / "antt-project.json", "--logic-built", kit / "logic_built")
    yield from ("--toolchain", kit / "toolchain", "--backend", "llvm", "--jobs", "2", "-o", f"out/lib{NAME}.a")


def build():
    """Builds the library, and gives its file."""
    known, crate = uses(), CRATES / NAME
    (crate / "out").mkdir(exist_ok=True)
    if all(is_left_by_gate(name) for name in libraries(NAME, known)):
        made = subprocess.run([*words(toolchain(), known)], cwd=crate, stdout=subprocess.PIPE, stderr=subprocess.STDOUT, text=True)
        if made.returncode == 0:
            return crate / "out" / f"lib{NAME}.a"
        print(made.stdout, end="", flush=True)
    status = subprocess.run(["rt", "lib"], cwd=crate).returncode
    if status != 0:
        sys.exit(f"rt lib ended with {status} in {crate}. What it proved is kept: run it again")
    return crate / "out" / f"lib{NAME}.a"


if __name__ == "__main__":
    print(build())
