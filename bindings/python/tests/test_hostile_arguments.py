"""Nothing outside of a buffer is read: hostile.py, with pages that nobody may read, and under memcheck."""

import shutil
import subprocess
import sys
from pathlib import Path

import package
import pytest

HOSTILE = Path(__file__).with_name("hostile.py")


def test_with_pages_that_nobody_may_read():
    assert package.run([HOSTILE, 200]) == "right\n"


@pytest.mark.skipif(not shutil.which("valgrind"), reason="valgrind is missing")
def test_under_memcheck():
    words = ["valgrind", "-q", "--error-exitcode=99", sys.executable, HOSTILE, "3"]
    ended = subprocess.run(words, env=package.WITH_PACKAGE | {"PYTHONMALLOC": "malloc"}, capture_output=True, text=True, timeout=600)
    assert (ended.returncode, ended.stdout) == (0, "right\n"), ended.stdout + ended.stderr
