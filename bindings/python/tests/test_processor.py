"""A processor older than x86-64-v2: the import is an error, and nothing of the library runs."""

import shutil
import subprocess
import sys

import package
import pytest
from library import LIBRARY
from support import compiled

# fails on any feature that is named
CHECK = """
#include <string.h>
static const char *lacking;
#define __builtin_cpu_supports(feature) (strcmp(feature, lacking) != 0)
#include "shared.c"
int main(int count, char **words) { return lacking = words[count - 1], processor_fits(); }
"""


def test_every_feature_is_needed(objects, tmp_path):
    (tmp_path / "check.c").write_text(CHECK)
    words = ["-Wno-unused-function", "-pthread", f"-I{LIBRARY}", f"-I{package.PACKAGE}/native", tmp_path / "check.c", *objects]
    check = compiled(tmp_path / "check", *words)
    features = ["sse3", "ssse3", "sse4.1", "sse4.2", "popcnt"]
    assert [subprocess.run([check, it]).returncode for it in [*features, "avx2"]] == [0, 0, 0, 0, 0, 1]


MESSAGE = "ImportError: texting_robots needs a processor of the level x86-64-v2 (SSE4.2 and POPCNT), and this one is older\n"
STAND_IN = """
import sys, types
sys.modules["texting_robots._native"] = types.SimpleNamespace(ffi=None, lib=types.SimpleNamespace(processor_fits=lambda: 0))
import texting_robots
"""


@pytest.mark.parametrize("way", ["stand-in", "qemu"])
def test_import_is_an_error(way):
    """With a stand-in for the extension, whose call says so, and on such a processor if there is an emulator."""
    words = [sys.executable, "-c", STAND_IN]
    if way == "qemu":
        words = ["qemu-x86_64", "-cpu", "Conroe", sys.executable, "-c", "import texting_robots"]
        if not shutil.which(words[0]):
            pytest.skip("qemu-x86_64 is missing")
    ended = subprocess.run(words, env=package.WITH_PACKAGE | {"PYTHONHASHSEED": "0"}, capture_output=True, text=True)
    assert ended.returncode == 1 and ended.stderr.endswith(MESSAGE), ended.stderr
