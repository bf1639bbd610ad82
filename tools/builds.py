#!/usr/bin/env python3
"""Programs, the C library, and the modules of the web page and of the package for Node, built without proofs (tools/unproved.py), for
`./build`, `./test` and tests:

    tools/builds.py bin             builds the programs for users into bin/, and prints their paths
    tools/builds.py test WORDS..    builds all, and runs pytest with these arguments in a copy of the repository

Neither puts anything into this repository's `crates/*/out`, where `./check` and `./release` look for what is proved. What was built is
kept by a sum of its sources, and used again in each clone.
"""

import fcntl
import filecmp
import hashlib
import os
import re
import shutil
import subprocess
import sys
import tempfile
from pathlib import Path

ROOT = Path(__file__).resolve().parent.parent
CACHE = Path(os.environ.get("XDG_CACHE_HOME") or Path.home() / ".cache") / "texting_robots"
# the crate of each build, and its file in the crate's folder `out`
BUILDS = {name: (name, name) for name in ("robots_audit", "robots_verdict", "robots_examples", "texting_robots_tests")}
BUILDS |= {"robots_c": ("robots_c", "librobots_c.a"), "page": ("robots_audit", "robots_audit.wasm"), "node": ("robots_c", "robots_c.wasm")}
# what the modules of WebAssembly are made by and of, beside the crates
OF_MODULES = [ROOT / it for it in ("web/make_module.py", "web/heap.c", "web/heap.h", "bindings/node/calls.c")]
KEPT = 40  # builds, of which seven are those of one commit
# what tests leave in a copy, by its folder's name
LEFT = {"build", "dist", "target", "__pycache__", ".pytest_cache"}


def sources(crate):
    """The files that a build of a crate reads, in all crates of the repository that it uses."""
    rows = dict(re.findall(r"^(\w+)[^:#\n]*:(.*)$", (ROOT / "crates.txt").read_text(), re.M))
    crates = [crate]
    for name in crates:
        crates += [it for it in rows[name].split() if it in rows and it not in crates]
    folders = [ROOT / "crates" / name / part for name in crates for part in ("src", "specs")]
    return [ROOT / "crates.txt", *(it for folder in folders for it in sorted(folder.rglob("*")) if it.is_file())]


def of_module(name):
    """What a module of WebAssembly is made by and of; nothing for a program of its own."""
    return OF_MODULES if name in ("page", "node") else []


def sum_of(name):
    """A sum of all that a build depends on."""
    made = hashlib.sha256(subprocess.run(["rt", "version"], capture_output=True).stdout)
    tools = [ROOT / "tools/unproved.py", *of_module(name)]
    for file in [*sources(BUILDS[name][0]), *tools]:
        made.update(f"{file.relative_to(ROOT)}\n{hashlib.sha256(file.read_bytes()).hexdigest()}\n".encode())
    return f"{name}-{made.hexdigest()[:32]}"


def build(names, kept):
    """Builds these in a copy of the sources, and keeps what is built."""
    with tempfile.TemporaryDirectory() as temporary:
        work = Path(temporary)
        for file in {it for name in names for it in [*sources(BUILDS[name][0]), *of_module(name)]}:
            (work / file.relative_to(ROOT)).parent.mkdir(parents=True, exist_ok=True)
            shutil.copyfile(file, work / file.relative_to(ROOT))
        ended = subprocess.run([sys.executable, ROOT / "tools/unproved.py", work, *names], stdout=sys.stderr)
        if ended.returncode:
            sys.exit(ended.returncode)
        for name in names:
            crate, file = BUILDS[name]
            shutil.move(work / "crates" / crate / "out" / file, kept[name])


def built(*names):
    """The path of each of these, which is built if it isn't kept."""
    folder = CACHE / "unproved"
    folder.mkdir(parents=True, exist_ok=True)
    with open(folder / "lock", "w") as lock:  # one process builds at a time
        fcntl.flock(lock, fcntl.LOCK_EX)
        kept = {name: folder / sum_of(name) for name in names}
        if missing := [name for name in names if not kept[name].is_file()]:
            print(f"compiling without proofs, in two or three minutes: {', '.join(missing)}", file=sys.stderr, flush=True)
            build(missing, kept)
        for it in kept.values():
            it.touch()
        for it in sorted(folder.glob("*-*"), key=lambda it: it.stat().st_mtime)[:-KEPT]:
            it.unlink()
    return kept


def update(source, to):
    """Copies a file if it isn't the same there. Returns whether it did."""
    if to.is_file() and filecmp.cmp(source, to, shallow=False) and source.stat().st_mode == to.stat().st_mode:
        return False
    to.parent.mkdir(parents=True, exist_ok=True)
    shutil.copy(source, to)
    return True


def copy(folder):
    """Brings the copy of this repository in a folder up to date."""
    words = ["git", "ls-files", "-z", "--cached", "--others", "--exclude-standard"]
    listed = subprocess.run(words, cwd=ROOT, capture_output=True, text=True, check=True).stdout.split("\0")[:-1]
    files = {folder / it: ROOT / it for it in listed if (ROOT / it).is_file()}
    for name, path in built(*(it for it in BUILDS if it not in ("page", "node") or shutil.which("wasm-opt"))).items():
        crate, file = BUILDS[name]
        files[folder / "crates" / crate / "out" / file] = path
    for it in [it for it in folder.rglob("*") if it.is_file() and it not in files and not LEFT & {*it.relative_to(folder).parts}]:
        it.unlink()
    if [to for to, source in files.items() if update(source, to)]:
        for it in folder.glob("crates/*/out/*"):
            it.touch()  # so that it is newer than the sources
    (folder / "crates/robots_audit/out/not-proved").touch()


def test(arguments):
    """Runs pytest in the copy, of which one process at a time makes use."""
    folder = CACHE / f"copy-{hashlib.sha256(str(ROOT).encode()).hexdigest()[:16]}"
    folder.mkdir(parents=True, exist_ok=True)
    lock = os.open(folder, os.O_RDONLY)
    os.set_inheritable(lock, True)
    fcntl.flock(lock, fcntl.LOCK_EX)
    copy(folder)
    os.chdir(folder)
    words = ["-m", "pytest", "-q", "-n", "auto", "--dist", "loadgroup", "--ignore", "tests/test_release.py", *arguments]
    os.execv(sys.executable, [sys.executable, *words])


def install():
    """Puts the programs for users into bin/."""
    (ROOT / "bin").mkdir(exist_ok=True)
    for name, path in built("robots_audit", "robots_verdict").items():
        new = ROOT / "bin" / f"{name}.new"
        shutil.copy(path, new)
        new.replace(ROOT / "bin" / name)
        print(f"bin/{name}")


if __name__ == "__main__":
    install() if sys.argv[1] == "bin" else test(sys.argv[2:])
