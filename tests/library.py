"""The C library crates/robots_c for tests: built, installed, and as a module for Python."""

import ctypes
import fcntl
import importlib
import os
import re
import subprocess
import sys
from pathlib import Path

import pytest
from support import CC, CRATES, ROOT

LIBRARY = CRATES / "robots_c"
ARCHIVE = LIBRARY / "out/librobots_c.a"
HEADER = re.sub(r"/\*.*?\*/", "", (LIBRARY / "robots.h").read_text(), flags=re.S)  # without comments
ROWS = {name: row.split() for name, row in re.findall(r"^(\w+)[^:#\n]*:(.*)$", (ROOT / "crates.txt").read_text(), re.M)}


def below(crate):
    """The crates of the repository that a crate uses, directly or through others."""
    used = [it for it in ROWS[crate] if it in ROWS]
    return {*used}.union(*map(below, used))


def is_built(made, *crates):
    """Whether a file or folder is newer than the sources of these crates."""
    sources = [it for crate in crates for part in ("src", "specs", "proofs") for it in (CRATES / crate / part).rglob("*")]
    return made.exists() and all(it.stat().st_mtime <= made.stat().st_mtime for it in sources)


def kit():
    """The folder of the Rattle toolchain."""
    return Path(subprocess.run(["rt", "doc"], capture_output=True, text=True).stdout.splitlines()[0]).parent


def rlib(name):
    """Where the library `name` is: built by `rt ci` in this repository, or part of the toolchain."""
    return CRATES / name / f"out/rlib/{name}.rlib" if (CRATES / name).is_dir() else kit() / f"rlibs/{name}.rlib"


def build_archive():
    """Proves the exports, and builds the library over what `rt ci` left."""
    for name in below("robots_c"):
        assert is_built(rlib(name), name), f"crates/{name} isn't built: run `rt ci`, or `rt lib` in crates/robots_c"
    words = [kit() / "bin/rattle", "build", "--crate-name", "robots_c", "src/lib.rt", "--crate-type", "staticlib"]
    for name in ["std", *ROWS["robots_c"]]:
        words += ["--extern", f"{name}={rlib(name)}"]
    for name in ["std", *below("robots_c")]:
        words += ["-L", f"dependency={rlib(name).parent}"]
    words += ["--antt-project", kit() / "rattle/logic/antt-project.json", "--logic-built", kit() / "logic_built"]
    words += ["--toolchain", kit() / "toolchain", "--backend", "llvm", "-o", ARCHIVE, "--jobs", str(len(os.sched_getaffinity(0)))]
    words += ["--incremental", ARCHIVE.parent / "incremental"]  # so that a later build proves what changed
    ARCHIVE.parent.mkdir(exist_ok=True)
    ended = subprocess.run(words, cwd=LIBRARY, capture_output=True, text=True)
    assert ended.returncode == 0, ended.stdout[-2000:] + ended.stderr[-2000:]


def archive():
    """The path of the library, which one process builds if its sources have changed."""
    ARCHIVE.parent.mkdir(exist_ok=True)
    folder = os.open(ARCHIVE.parent, os.O_RDONLY)
    try:
        fcntl.flock(folder, fcntl.LOCK_EX)
        if not is_built(ARCHIVE, "robots_c", *below("robots_c")):
            build_archive()
    finally:
        os.close(folder)
    return ARCHIVE


def make(*words, **options):
    """What `make` in bindings/c ends with."""
    return subprocess.run(["make", "-C", ROOT / "bindings/c", f"CC={CC}", *words], capture_output=True, text=True, **options)


@pytest.fixture(scope="session")
def installed(tmp_path_factory):
    """The folder into which bindings/c/Makefile installs the library."""
    archive()
    folder = tmp_path_factory.mktemp("installed")
    ended = make("install", f"PREFIX={folder}", f"OUT={folder}/out")
    assert ended.returncode == 0, ended.stderr
    return folder


@pytest.fixture(scope="session")
def objects(installed):
    """What a program over the library is linked with."""
    return [installed / "lib/librobots_c.a"]


@pytest.fixture(scope="session")
def shared_object(installed):
    return installed / "lib/librobots_c.so"


@pytest.fixture(scope="session")
def robots(shared_object):
    """The module examples/robots.py over the shared object."""
    os.environ["ROBOTS_SO"] = str(shared_object)
    sys.path.insert(0, str(ROOT / "examples"))
    return importlib.import_module("robots")


def batch(library, robot, urls):
    texts = [url.encode() for url in urls]
    ends, out = (ctypes.c_size_t * len(urls))(), (ctypes.c_int64 * len(urls))()
    for number in range(len(urls)):
        ends[number] = sum(map(len, texts[: number + 1]))
    joined = b"".join(texts)
    status = library.robots_verdicts_batch(robot.handle, joined, ctypes.c_size_t(len(joined)), ends, ctypes.c_size_t(len(urls)), out)
    return status, [*out]


PIECES = [*"/ab*$%?#:.-_~ \t", "%41", "\u00e9", "\udcff"]
KEYS = ["User-agent: Bot", "user-agent:*", "User-agent: o", "Disallow:", "Allow:", "disallow", "Allow: /", "Disallow: /", "Disallow: /", "Crawl-delay: 1", "Sitemap: /", "#", ""]


def random_case(chance):
    def text(most):
        return "".join(chance.choices(PIECES, k=chance.randrange(most)))

    file = "".join(chance.choice(KEYS) + text(7) + chance.choice(["\n", "\n", "\r\n", "\r"]) for _ in range(chance.randrange(14)))
    urls = [chance.choice(["/", "https://example.com/", "/a"]) + text(9).replace("\udcff", "") for _ in range(4)]
    return chance.choice(["Bot", "bot", "o", "*", "other"]), file.encode("utf-8", "surrogateescape"), urls
