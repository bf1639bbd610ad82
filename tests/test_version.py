"""Each place that names the version has that of the file VERSION, and each that names the toolchain that of PROOFS."""

import re

import pytest
from support import PROOF, ROOT, run, toolchain

VERSION = (ROOT / "VERSION").read_text().removesuffix("\n")
MAJOR, MINOR, PATCH = VERSION.split(".")
NUMBER = str(10_000 * int(MAJOR) + 100 * int(MINOR) + int(PATCH))
QUOTED = r'"(\d+\.\d+\.\d+)'

# Where the version is, as its first group, and how it is written there if it is a number or a part of it.
PLACES = [
    ("CHANGELOG.md", r"\A(?s:.*?)\n## (\d+\.\d+\.\d+)"),
    ("README.md", r"\bversion (\d\S*\d)\b"),
    ("bindings/python/README.md", r"\bversion (\d\S*\d)\b"),
    ("bindings/rust/README.md", r"(?:\bversion |^texting_robots_verified(?:-sys)? = .*?[-\"])(\d+\.\d+\.\d+)"),
    ("docs/MOVING.md", rf"\bversion = {QUOTED}"),
    ("docs/GUIDE.md", r"texting-robots-(\d+\.\d+\.\d+)"),
    ("docs/CI.md", r"robots-audit-(\d+\.\d+\.\d+)"),
    ("bindings/c/exports", r"^ROBOTS_C_(\d+)", MAJOR),
    ("bindings/node/audit/README.md", r"(?:\bversion |robots-audit-)(\d+\.\d+\.\d+)"),
    ("bindings/node/audit/package.json", rf'"version": {QUOTED}'),
    ("bindings/node/library/README.md", r"(?:\bversion |texting-robots-)(\d+\.\d+\.\d+)"),
    ("bindings/node/library/package.json", rf'"version": {QUOTED}'),
    ("bindings/node/robots-parser/README.md", r"(?:\bversion |texting-robots-parser-)(\d+\.\d+\.\d+)"),
    ("bindings/node/robots-parser/package.json", rf'"version": {QUOTED}'),
    ("bindings/pip/README.md", r"\bversion (\d\S*\d)\b"),
    ("bindings/python/pyproject.toml", rf"^version = {QUOTED}"),
    ("bindings/python/src/texting_robots/__init__.py", rf"^__version__ = {QUOTED}"),
    ("bindings/rust/Cargo.toml", rf"^(?:|texting_robots_verified-sys = .*)version = {QUOTED}"),
    ("bindings/rust/compat/Cargo.toml", rf"^(?:|texting_robots_verified = .*)version = {QUOTED}"),
    ("bindings/rust/compat/README.md", r"^texting_robots(?:_verified\S*)? = .*?[-\"](\d+\.\d+\.\d+)"),
    ("bindings/rust/sys/Cargo.toml", rf"^version = {QUOTED}"),
    ("bindings/rust/sys/src/lib.rs", r"ROBOTS_VERSION: u32 = ([\d_]+)", NUMBER),
    ("crates/audit_core/src/version.rt", rf"VERSION\w*: &str = {QUOTED}"),
    ("crates/robots_c/robots.h", r"ROBOTS_VERSION_MAJOR (\d+)", MAJOR),
    ("crates/robots_c/robots.h", r"ROBOTS_VERSION_MINOR (\d+)", MINOR),
    ("crates/robots_c/robots.h", r"ROBOTS_VERSION_PATCH (\d+)", PATCH),
    ("crates/robots_c/robots.h", rf"ROBOTS_VERSION_TEXT {QUOTED}"),
    ("crates/robots_c/src/lib.rt", r"fn robots_version\(\) -> u32\n    ensures \{ result ≡ (\d+) \}\n\{\n    ([\d_]+)\n\}", NUMBER),
]


def test_version_has_three_numbers():
    assert re.fullmatch(r"\d+\.\d+\.\d+", VERSION)


@pytest.mark.parametrize("path, pattern, wanted", [(*it, VERSION)[:3] for it in PLACES], ids=[f"{it[0]}-{number}" for number, it in enumerate(PLACES)])
def test_place_has_the_version(path, pattern, wanted):
    found = [text.replace("_", "") for match in re.finditer(pattern, (ROOT / path).read_text(), re.M) for text in match.groups()]
    assert found and set(found) == {wanted}


def test_program_prints_the_version_and_the_toolchain():
    assert run("robots_audit", ["--version"]).out == f"robots_audit {VERSION} ({PROOF})\n"


@pytest.mark.parametrize("path", ["CHANGELOG.md", "README.md", "docs/PROOFS.md", "crates/audit_core/src/version.rt", "web/make_module.py"])
def test_place_names_the_toolchain(path):
    """And no other one."""
    assert set(re.findall(r"rattle-kit-\w+ logic [0-9a-f]+", (ROOT / path).read_text())) == {toolchain()}
