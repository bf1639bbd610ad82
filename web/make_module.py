"""Compiles a crate to WebAssembly: python3 web/make_module.py KIT CRATE, where KIT is the folder of the toolchain, proves the crate over the
libraries that `rt` built, and writes crates/CRATE/out/CRATE.wasm.

| Crate | Its module is for | Its host |
|---|---|---|
| `robots_audit` | the page, and the command for Node | web/host.js, bindings/node/audit/command.js, both after web/program.js |
| `robots_c` | the package for Node | bindings/node/library/robots.js |

It is compiled from the LLVM module that `rattle build` gives to clang, for the oldest x86-64, since code for a later one has instructions
that no other processor has. Its addresses have 64 bits; for those who run it without these, binaryen makes them shorter. Memory comes from
web/heap.c, so a module of `robots_c` asks its host for nothing.

The text of the LLVM module is changed as the one that the toolchain WRITTEN_FOR writes. Another build of this toolchain has the same logic;
with any other toolchain nothing is made.
"""

import os
import re
import subprocess
import sys
import tempfile
from pathlib import Path

ROOT = Path(__file__).resolve().parent.parent
CRATES = ROOT / "crates"
ROWS = dict(re.findall(r"^(\w+)[^:#\n]*:(.*)$", (ROOT / "crates.txt").read_text(), re.M))
WRITTEN_FOR = "rattle-kit-13f logic dac8208d650f15bf"
TARGET = "wasm64-unknown-unknown"
NO_LIBRARY = [word for it in ("div-rem", "fp-convert") for word in ("-mllvm", f"-expand-{it}-bits=64")]  # for numbers of 128 bits
OF_BINARYEN = "memory64 bulk-memory sign-ext nontrapping-float-to-int mutable-globals multivalue extended-const".split()
# what each module has beside the crate, in C; and the bytes of its stack, for a program as on Linux
IN_C = {"robots_audit": ["web/heap.c"], "robots_c": ["web/heap.c", "bindings/node/calls.c"]}
STACK = {"robots_audit": 8 << 20, "robots_c": 1 << 20}
# for clang and binaryen: a page is small, and a package fast
BEST = {"robots_audit": ("-Os", "-Oz"), "robots_c": ("-O3", "-O3")}


def otherwise(what):
    sys.exit(f"make_module.py was written for {WRITTEN_FOR}: {what}")


def run(*words, **options):
    ended = subprocess.run([*map(str, words)], stdin=subprocess.DEVNULL, capture_output=True, text=True, **options)
    if ended.returncode != 0 or "mismatch" in ended.stderr:
        sys.exit(f"{' '.join(map(str, words))} failed:\n{ended.stdout[-2000:]}{ended.stderr[-2000:]}")


def check_toolchain(kit):
    found = (kit / "KIT-ID").read_text().strip()
    if found.split()[1:] != WRITTEN_FOR.split()[1:]:
        otherwise(f"this toolchain is {found}")


def without_compiler(work, kit, kept):
    """The folder of the toolchain's compilers, but with a clang that copies, also to this path."""
    folder = work / "toolchain"
    (folder / "bin").mkdir(parents=True)
    (folder / "lib").symlink_to(kit / "toolchain/lib")
    for tool in (kit / "toolchain/bin").iterdir():
        (folder / "bin" / tool.name).symlink_to(tool)
    (folder / "bin/clang").unlink()
    (folder / "bin/clang").write_text(f"#!/bin/sh\ncp module.bc '{kept}' && cp module.bc module.o\n")
    (folder / "bin/clang").chmod(0o755)
    return folder


def below(crate):
    """The libraries of the repository that a crate uses, directly or through others."""
    used = [it for it in ROWS[crate].split() if it in ROWS]
    return {*used}.union(*map(below, used))


def prove(crate, work, kit):
    """The LLVM module of the crate, which is written if each of its functions is proved."""
    module, out = work / "proved.bc", CRATES / crate / "out"
    rlibs = {name: CRATES / name / "out/rlib" for name in sorted(below(crate))}
    kind = ["src/main.rt"] if (CRATES / crate / "src/main.rt").exists() else ["src/lib.rt", "--crate-type", "staticlib"]
    words = [kit / "bin/rattle", "build", "--crate-name", crate, *kind, "--cpu", "x86-64", "--backend", "llvm"]
    for name in ["std", *ROWS[crate].split()]:
        words += ["--extern", f"{name}={rlibs.get(name, kit / 'rlibs')}/{name}.rlib"]
    for folder in [*rlibs.values(), kit / "rlibs"]:
        words += ["-L", f"dependency={folder}"]
    words += ["--antt-project", kit / "rattle/logic/antt-project.json", "--logic-built", kit / "logic_built"]
    words += ["--incremental", out / "incremental", "--jobs", len(os.sched_getaffinity(0))]
    run(*words, "--toolchain", without_compiler(work, kit, module), "-o", work / "built", cwd=out.parent)
    return module


def for_wasm(text):
    """A module as text, with other attributes: what it declares is imported from the host, but the heap; `main`, if it is a program, is
    exported; and the processor has nothing but what each has."""
    imported = r'\1 "wasm-import-module"="env" "wasm-import-name"="\2"'
    text = re.sub(r"^(declare [^@\n]*@((?!llvm\.|rattle_(?:re|de)?alloc\b)\w+)\([^\n]*\))", imported, text, flags=re.M)
    # a function with the name `main` would get a wrapper
    text = text.replace("@main(", "@program_main(")
    text = re.sub(r"^(define [^@\n]*@program_main\([^\n{]*\))", r'\1 "wasm-export-name"="main"', text, flags=re.M)
    text = re.sub(r' "(probe-stack|stack-probe-size|frame-pointer)"="[^"]*"', "", text)
    text = re.sub(r"^(attributes #\d+ = \{) *\}", r'\1 "none" }', text, flags=re.M)
    text, count = re.subn(r'"target-cpu"="x86-64[^"]*"', '"target-cpu"="lime1"', text)
    if count == 0 or "@program_main(" in text and '"wasm-export-name"="main"' not in text:
        otherwise("the LLVM module has other attributes")
    return text


def leb128(data, at):
    """The number that is written there, and where it ends."""
    value = shift = 0
    while True:
        value |= (data[at] & 127) << shift
        shift += 7
        at += 1
        if data[at - 1] < 128:
            return value, at


def without_table(data):
    """The module without its table of functions, which has no element: the linker adds one for an object of C, and binaryen reads none whose
    numbers have 64 bits."""
    sections, at = [], 8
    while at < len(data):
        length, start = leb128(data, at + 1)
        sections.append((data[at], data[at : start + length]))
        at = start + length
    if any(kind == 9 for kind, _ in sections):  # elements of tables
        otherwise("the module calls functions by pointers")
    return data[:8] + b"".join(section for kind, section in sections if kind != 4)


def objects(crate, work, clang, level):
    """The compiled files of C that are a part of the module."""
    made = []
    for name in IN_C[crate]:
        made.append(work / f"{Path(name).stem}.o")
        words = [clang, f"--target={TARGET}", "-mcpu=lime1", "-std=c11", "-Wall", "-Wextra", "-Werror", "-ffreestanding", level]
        run(*words, "-I", ROOT / "web", "-ffunction-sections", "-fdata-sections", "-c", ROOT / name, "-o", made[-1])
    return made


def compile_module(crate, module, work, kit, out, is_fast=False):
    """Compiles the LLVM module of a crate, and shortens its addresses to 32 bits. With `is_fast` that takes less time, and the result is
    larger and slower."""
    check_toolchain(kit)
    text, made, archive, linked = (work / f"{crate}_wasm{suffix}" for suffix in (".ll", ".o", ".a", ".wasm"))
    level, smaller = ("-O1", "") if is_fast else BEST[crate]
    clang, archiver = kit / "toolchain/bin/clang", kit / "toolchain/bin/llvm-ar"
    from_llvm = [clang, f"--target={TARGET}", "-Wno-override-module", "-x", "ir"]
    run(*from_llvm, module, "-O0", "-Xclang", "-disable-llvm-passes", "-S", "-emit-llvm", "-o", text)
    text.write_text(for_wasm(text.read_text()))
    run(*from_llvm, text, "-mcpu=lime1", level, "-ffunction-sections", "-fdata-sections", *NO_LIBRARY, "-c", "-o", made)
    run(archiver, "rcs", archive, made, *objects(crate, work, clang, level))
    words = ["--target", TARGET, "--toolchain", kit / "toolchain", "--stack", STACK[crate]]
    run(kit / "bin/rattle-link", *words, "-o", linked, archive)
    linked.write_bytes(without_table(linked.read_bytes()))
    features = [f"--enable-{it}" for it in OF_BINARYEN]
    smaller = [smaller, "--strip-producers", "--strip-target-features", "--strip-debug"] if smaller else []
    run("wasm-opt", *features, "--memory64-lowering", *smaller, linked, "-o", out)


def main(kit, crate):
    check_toolchain(kit)
    with tempfile.TemporaryDirectory() as temporary:
        work, out = Path(temporary), CRATES / crate / f"out/{crate}.wasm"
        made = work / out.name
        compile_module(crate, prove(crate, work, kit), work, kit, made)
        out.parent.mkdir(exist_ok=True)
        out.write_bytes(made.read_bytes())


if __name__ == "__main__":
    main(Path(sys.argv[1]), sys.argv[2])
