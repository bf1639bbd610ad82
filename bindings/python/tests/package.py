"""Builds the wheel if a source has changed, and puts it on the path. Every test file imports this first."""

import contextlib
import fcntl
import importlib.util
import os
import shutil
import subprocess
import sys
import sysconfig
import zipfile
from pathlib import Path

import pytest
from library import archive

PACKAGE = Path(__file__).resolve().parent.parent
BUILT = PACKAGE / "build"
SITE = BUILT / "site"
WITH_PACKAGE = os.environ | {"PYTHONPATH": str(SITE), "PYTHONDONTWRITEBYTECODE": "1"}


@contextlib.contextmanager
def locked(folder):
    """Lets one process at a time do this: a file that another one has loaded is replaced, and never written to."""
    descriptor = os.open(folder, os.O_RDONLY)
    try:
        fcntl.flock(descriptor, fcntl.LOCK_EX)
        yield
    finally:
        os.close(descriptor)


def needs(*modules):
    """Skips a test file where one of these modules is missing."""
    missing = [name for name in modules if importlib.util.find_spec(name) is None]
    if missing:
        pytest.skip(f"{sys.executable} has no module {', '.join(missing)}", allow_module_level=True)


def wheel():
    """The path of the wheel, which one command builds."""
    shutil.rmtree(BUILT, ignore_errors=True)
    words = [sys.executable, "-m", "pip", "wheel", "-q", "--no-deps", "--no-index", "--no-build-isolation", "-w", BUILT / "dist", "."]
    ended = subprocess.run(words, cwd=PACKAGE, capture_output=True, text=True)
    assert ended.returncode == 0, ended.stdout[-2000:] + ended.stderr[-2000:]
    return next((BUILT / "dist").iterdir())


def run(words, **options):
    """What a Python with the package prints, run with these arguments."""
    ended = subprocess.run([sys.executable, *map(str, words)], capture_output=True, text=True, timeout=600, env=WITH_PACKAGE, **options)
    assert ended.returncode == 0, ended.stdout + ended.stderr
    return ended.stdout


needs("cffi", "pip", "setuptools", "wheel")
if not Path(sysconfig.get_path("include"), "Python.h").is_file():
    pytest.skip(f"{sys.executable} has no Python.h", allow_module_level=True)
SOURCES = [archive(), *(PACKAGE.parent / "c" / name for name in ("Makefile", "robots.c", "heap.c"))]
SOURCES += [PACKAGE / name for name in ("pyproject.toml", "setup.py", "README.md")]
SOURCES += [*(PACKAGE / "native").iterdir(), *(PACKAGE / "src/texting_robots").glob("*.*")]
with locked(PACKAGE):
    if not SITE.is_dir() or max(it.stat().st_mtime for it in SOURCES) > SITE.stat().st_mtime:
        with zipfile.ZipFile(wheel()) as files:
            files.extractall(SITE)
sys.path.insert(0, str(SITE))
