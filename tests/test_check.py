"""`./check`, with stand-ins for `rt` and Python: its last line, and its status. And mutants."""

import os
import re
import subprocess

import pytest
from support import CRATES, ROOT

PARTS = {
    "all pass": (("5 passed, 0 failed", 0), ("3 passed, 2 skipped in 1.00s", 0), ["2 skipped, for the reasons above", "8 passed, 0 failed"]),
    "a test fails": (("5 passed, 0 failed", 0), ("2 passed, 1 failed, 1 error in 1.00s", 1), ["7 passed, 2 failed"]),
    "a proof fails": (("4 passed, 1 failed", 1), ("3 passed in 1.00s", 0), ["7 passed, 1 failed"]),
    "a part breaks off": (("out of memory", 1), ("no tests ran in 0.01s", 5), ["0 passed, 2 failed"]),
}


@pytest.mark.parametrize("rt, tests, last", PARTS.values(), ids=PARTS)
def test_check_adds_up_its_parts(tmp_path, rt, tests, last):
    for name, (line, status) in {"rt": rt, "python3": tests, **dict.fromkeys(["cargo", "chromium", "musl-gcc", "node", "tsc", "wasm-opt"], ("", 0))}.items():
        asked = "[ \"$1\" != -c ] || exit 0\n" * (name == "python3")
        (tmp_path / name).write_text(f"#!/bin/sh\n{asked}echo '{line}'\nexit {status}\n")
        (tmp_path / name).chmod(0o755)
    ended = subprocess.run([ROOT / "check"], env=os.environ | {"PATH": f"{tmp_path}:{os.environ['PATH']}"}, capture_output=True, text=True)
    assert ended.stdout.splitlines()[2:] == last and (ended.returncode == 0) is last[-1].endswith(" 0 failed")


def read_edit(path):
    """The file that a mutant changes, and its pairs of an old and a new text."""
    file, *pairs = [line.split(": ", 1)[1] for line in path.read_text().splitlines() if re.match("(file|old|new): ", line)]
    return file, list(zip(pairs[::2], pairs[1::2], strict=True))


@pytest.mark.parametrize("path", [*CRATES.glob("*/must-fail/*.edit"), *ROOT.glob("mutants/*/*.edit")], ids=lambda it: it.stem)
def test_mutants_can_be_applied(path):
    """Each old text occurs once, in the source with the changes before it."""
    crate = path.parent.name if path.parts[-3] == "mutants" else path.parts[-3]
    file, pairs = read_edit(path)
    text = (CRATES / crate / file).read_text()
    for old, new in pairs:
        assert text.count(old) == 1 and new not in ("", old)
        text = text.replace(old, new)


@pytest.mark.parametrize("said, last, status", [
    ("must-fail robots_responses/{}.edit: refused, as it must be", "3 refused, 0 not refused", 0),
    ("must-fail robots_responses/{}.edit: NOT REFUSED: the crate is still proved with this edit", "0 refused, 3 not refused", 1),
    ("must-fail robots_responses/{}.edit: BAD EDIT: it did not reach the prover", "0 refused, 3 not refused", 1),
    ("out of memory", "0 refused, 3 not refused", 1),
])  # fmt: skip
def test_check_counts_mutants(tmp_path, said, last, status):
    """The stand-in for `rt` writes a line for each mutant that it finds in its place."""
    (tmp_path / "rt").write_text(f"#!/bin/sh\nfor it in crates/robots_responses/must-fail/*.edit; do echo \"{said.format('$(basename $it .edit)')}\"; done\n")
    (tmp_path / "rt").chmod(0o755)
    path = f"{tmp_path}:{os.environ['PATH']}"
    ended = subprocess.run([ROOT / "check", "--mutants", "robots_responses"], env=os.environ | {"PATH": path}, capture_output=True, text=True)
    assert (ended.stdout.splitlines()[-1], ended.returncode) == (last, status)


def test_the_merge_gate_runs_the_script():
    assert re.search(r"^exec .*/\.\./check\"$", (ROOT / ".ci/run").read_text(), re.M)
