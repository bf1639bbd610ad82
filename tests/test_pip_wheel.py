"""The wheel with the program: pip installs it without a network, and it is the program."""

import os
import runpy
import stat
import subprocess
import sys
import zipfile

import pytest
from support import ROOT, program, run

sys.path.insert(0, str(ROOT / "bindings/pip"))
from make_wheel import VERSION, make_wheel  # noqa: E402


@pytest.fixture
def wheel(tmp_path):
    return make_wheel(tmp_path / "work", tmp_path, program("robots_audit"), "licenses", (2, 17), 1)


def test_the_same_files_give_the_same_wheel(wheel, tmp_path):
    (tmp_path / "other").mkdir()
    other = make_wheel(tmp_path / "more", tmp_path / "other", program("robots_audit"), "licenses", (2, 17), 1)
    assert other.name == wheel.name == f"robots_audit-{VERSION}-py3-none-manylinux_2_17_x86_64.whl"
    assert other.read_bytes() == wheel.read_bytes()


def test_a_release_adds_addresses(tmp_path):
    (tmp_path / "ADDRESSES").write_text("repository = https://example.org/robots\ncontact = robots@example.org\n")
    add_addresses = runpy.run_path(str(ROOT / "release"))["add_addresses"]
    words = [tmp_path / "work", tmp_path, program("robots_audit"), "", (2, 17), 1, lambda path: add_addresses(path, tmp_path / "ADDRESSES")]
    with zipfile.ZipFile(make_wheel(*words)) as packed:
        lines = packed.read(f"robots_audit-{VERSION}.dist-info/METADATA").decode().split("\n\n")[0].splitlines()
    added = {"Project-URL: Repository, https://example.org/robots", "Maintainer-email: robots@example.org"}
    assert added < {*lines} and lines[0] == "Metadata-Version: 2.1"


def test_pip_installs_the_program(wheel, tmp_path):
    venv, environment = tmp_path / "venv", {"PATH": os.environ["PATH"], "HOME": str(tmp_path), "PIP_DISABLE_PIP_VERSION_CHECK": "1"}
    if subprocess.run([sys.executable, "-m", "venv", venv], capture_output=True).returncode != 0:
        pytest.skip("python3 has no venv")

    def pip(*words):
        ended = subprocess.run([venv / "bin/pip", *words], env=environment, capture_output=True, text=True, timeout=300)
        assert ended.returncode == 0, ended.stdout + ended.stderr
        return ended.stdout

    pip("install", "--no-index", "--no-deps", wheel)
    installed = venv / "bin/robots_audit"
    assert installed.read_bytes() == program("robots_audit").read_bytes() and installed.stat().st_mode & stat.S_IXUSR
    args = ["examples/robots.txt", "--agent", "FerrisBot", "/search/tea"]
    assert run(installed, args) == run("robots_audit", args)
    shown = pip("show", "--files", "robots-audit")
    assert f"Version: {VERSION}\n" in shown and "Requires: \n" in shown and "License: MIT OR Apache-2.0\n" in shown
    pip("check")
    pip("uninstall", "--yes", "robots-audit")
    assert not installed.exists()
