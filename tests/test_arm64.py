"""The C library for arm64 under qemu, where `./release --all` has built it: it does what it does on x86-64."""

import os
import shutil
import subprocess
from pathlib import Path

import pytest
from library import LIBRARY, below, is_built, make
from support import ROOT, cases_of, input_of, run, spelled, wanted_of
from test_c_library import STRICT

ARCHIVE = LIBRARY / "out/aarch64/librobots_c.a"
TOOLS = "aarch64-linux-gnu-"
RUST = "aarch64-unknown-linux-gnu"
QEMU = Path(shutil.which("qemu-aarch64") or "/")
if not QEMU.is_file() or not shutil.which(f"{TOOLS}gcc"):
    pytest.skip(f"qemu-aarch64 or {TOOLS}gcc is missing", allow_module_level=True)
if not is_built(ARCHIVE, "robots_c", *below("robots_c")):
    pytest.skip("./release --all hasn't built the C library for arm64", allow_module_level=True)
CASES = cases_of((ROOT / "tests/golden/ask.toml").read_text())


@pytest.fixture(scope="module")
def installed_for_arm(tmp_path_factory):
    folder = tmp_path_factory.mktemp("arm64")
    tools = [f"{name}={TOOLS}{tool}" for name, tool in {"CC": "gcc", "AR": "ar", "NM": "nm", "OBJCOPY": "objcopy"}.items()]
    ended = make("install", f"PREFIX={folder}", f"OUT={folder}/out", f"ARCHIVE={ARCHIVE}", *tools)
    assert ended.returncode == 0, ended.stderr
    return folder


def built(folder, source, *words):
    program = folder / source.replace("/", "-")
    subprocess.run([f"{TOOLS}gcc", "-std=gnu11", *STRICT, ROOT / source, folder / "lib/librobots_c.a", *words, "-o", program], check=True)
    return ["-L", "/usr/aarch64-linux-gnu", program]


def test_calls_from_c(installed_for_arm):
    host = built(installed_for_arm, "tests/host.c", "-Wl,--wrap=malloc,--wrap=realloc,--wrap=free")
    result = run(QEMU, host)
    assert (result.status, result.err, result.out.splitlines()[-1].endswith(" passed, 0 failed")) == (0, "", True), result


@pytest.mark.parametrize("case", CASES.values(), ids=CASES)
def test_example(installed_for_arm, case):
    words = [*built(installed_for_arm, "examples/ask.c"), *(spelled(word) for word in case["args"].split())]
    assert run(QEMU, words, input_of(case)) == wanted_of(case)


@pytest.fixture(scope="module")
def rust_example(installed_for_arm):
    """How the example of the crate is run. It needs Rust's own library for arm64, as of `rustup target add` or of Debian."""
    found = shutil.which("cargo") and subprocess.run(["rustc", "--print", "target-libdir", "--target", RUST], capture_output=True, text=True)
    if not found or not list(Path(found.stdout.strip() or "/-").glob("libstd-*.rlib")):
        pytest.skip(f"cargo, or the library of Rust for {RUST}, is missing")
    folder = installed_for_arm / "rust"
    linker = {"CARGO_TARGET_AARCH64_UNKNOWN_LINUX_GNU_LINKER": f"{TOOLS}gcc"}
    options = {"cwd": ROOT / "bindings/rust", "env": {**os.environ, **linker, "ROBOTS_C": str(installed_for_arm), "CARGO_TARGET_DIR": str(folder)}}
    subprocess.run(["cargo", "build", "--offline", "--target", RUST, "--examples"], check=True, **options)
    return ["-L", "/usr/aarch64-linux-gnu", folder / RUST / "debug/examples/ask"]


@pytest.mark.parametrize("case", CASES.values(), ids=CASES)
def test_rust_example(rust_example, case):
    assert run(QEMU, [*rust_example, *(spelled(word) for word in case["args"].split())], input_of(case)) == wanted_of(case)


def test_the_shared_object_exports_what_it_exports_here(installed_for_arm, shared_object):
    names = [subprocess.run(["nm", "-D", "--defined-only", it], capture_output=True, text=True).stdout for it in (installed_for_arm / "lib/librobots_c.so", shared_object)]
    exported = [sorted(line.split()[-1] for line in it.splitlines()) for it in names]
    assert exported[0] == exported[1] != []
