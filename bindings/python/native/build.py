"""Builds texting_robots._native: the C library and shared.c, linked statically, by cffi in API mode and for the stable ABI.

A release has the library for each processor, and its header, next to this file. ROBOTS_C names a folder where `make install` of bindings/c has put another one, its PREFIX.
In the repository, `rt lib` proves and builds it first if that hasn't been done.
"""

import os
import subprocess
import sys
import sysconfig
from pathlib import Path

from cffi import FFI

PROJECT = Path(__file__).resolve().parent.parent
ROOT = PROJECT.parent.parent


def library() -> tuple[Path, Path]:
    """The folder with robots.h, and the archive."""
    installed = os.environ.get("ROBOTS_C")
    if installed:
        archive = Path(installed, "lib/librobots_c.a")
        if not archive.is_file():
            sys.exit(f"{archive} is missing: ROBOTS_C is the absolute PREFIX of `make install` in bindings/c, run without LIBDIR")
        return Path(installed, "include"), archive
    native = PROJECT / "native"
    if (native / machine / "librobots_c.a").is_file():
        return native, native / machine / "librobots_c.a"
    crate = ROOT / "crates/robots_c"
    if not crate.is_dir():
        sys.exit("the C library isn't here: set ROBOTS_C to the absolute PREFIX of `make install` in bindings/c of the repository")
    if not (crate / "out/librobots_c.a").is_file():
        subprocess.run(["rt", "lib"], cwd=crate, check=True)
    out = "../python/build/c"  # not the absolute path, which may have a space
    subprocess.run(["make", "-s", "-C", ROOT / "bindings/c", f"OUT={out}", f"{out}/librobots_c.a"], check=True)
    return crate, PROJECT / "build/c/librobots_c.a"


system, _, machine = sysconfig.get_platform().partition("-")
if system != "linux" or machine not in ("x86_64", "aarch64"):
    sys.exit(f"texting_robots can't be installed here: its C library is for Linux on x86_64 and aarch64, and this is {sysconfig.get_platform()}")
folder, archive = library()
sources = [PROJECT / "native/shared.h", PROJECT / "native/shared.c"]

ffi = FFI()
ffi.cdef(sources[0].read_text(encoding="utf-8"))
ffi.set_source(
    "texting_robots._native",
    sources[1].read_text(encoding="utf-8"),
    include_dirs=[str(folder)],
    extra_objects=[str(archive)],
    depends=[str(folder / "robots.h"), str(archive), *map(str, sources)],
    extra_compile_args=["-O2", "-Wall", "-Werror=incompatible-pointer-types", "-Werror=implicit-function-declaration"],
    # no name of the archive leaves the extension, and what isn't called isn't kept
    extra_link_args=["-Wl,--exclude-libs,ALL", "-Wl,--gc-sections", "-Wl,-z,text,-z,relro,-z,now", "-Wl,-s"],
    py_limited_api=True,
)
