"""Lays the library out as callers look for it: its header, archives, shared object and pkg-config file, below a folder.

    python3 bindings/install.py FOLDER

    FOLDER/include/smithy_bind.h
    FOLDER/lib/libsmithy_bind_c.a             the proved library
    FOLDER/lib/liblibc_c.a                    the toolchain's allocator
    FOLDER/lib/libsmithy_bind.so              both, for Python
    FOLDER/lib/pkgconfig/smithy_bind.pc       for C; it stands wherever the folder is moved to

It needs `rt` and `cc`, and proves and links the library first, unless SMITHY_BIND_LIB names the folder of libsmithy_bind_c.a and
SMITHY_BIND_LIBC that of the toolchain's liblibc_c.a.
"""

import os
import pathlib
import shutil
import subprocess
import sys

HERE = pathlib.Path(__file__).resolve().parent
sys.dont_write_bytecode = True
sys.path.append(str(HERE))
import archive  # noqa: E402


def archives():
    """The archive of crates/smithy_bind_c, built unless its folder is named, and that of the allocator."""
    folder, allocator = os.environ.get("SMITHY_BIND_LIB"), os.environ.get("SMITHY_BIND_LIBC")
    folder = archive.build().parent if folder is None else pathlib.Path(folder)
    allocator = archive.toolchain() / "c" if allocator is None else pathlib.Path(allocator)
    found = folder.resolve() / "libsmithy_bind_c.a", allocator.resolve() / "liblibc_c.a"
    for file, variable in zip(found, ("SMITHY_BIND_LIB", "SMITHY_BIND_LIBC")):
        if not file.is_file():
            sys.exit(f"{file} is not there: set {variable} to the folder that has it, or leave it out")
    return found


def install(folder):
    """Lays the library out below the folder, and gives its folder of archives."""
    include, lib = folder / "include", folder / "lib"
    for it in (include, lib / "pkgconfig"):
        it.mkdir(parents=True, exist_ok=True)
        if not os.access(it, os.W_OK):
            sys.exit(f"{it} can't be written to")
    library, allocator = archives()
    shutil.copy(HERE / "c" / "smithy_bind.h", include)
    shutil.copy(HERE / "c" / "smithy_bind.pc", lib / "pkgconfig")
    for it in (library, allocator):
        shutil.copy(it, lib)
    if shutil.which("cc") is not None:
        words = ["-Wl,--whole-archive", library, "-Wl,--no-whole-archive", allocator]
        subprocess.run(["cc", "-shared", "-o", lib / "libsmithy_bind.so", *words], check=True)
    return lib


if __name__ == "__main__":
    if len(sys.argv) != 2:
        sys.exit(__doc__)
    print(install(pathlib.Path(sys.argv[1])))
