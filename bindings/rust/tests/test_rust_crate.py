"""The crate: its own tests, the golden cases through its example program, and another crate that uses it."""

import os
import re
import shutil
import subprocess
from pathlib import Path

import pytest
from library import HEADER, archive
from support import DOCUMENTS, ROOT, Result, cases_of, compiled, input_of, run, spelled, wanted_of
from test_documents import code

CRATE = Path(__file__).resolve().parent.parent
README = (CRATE / "README.md").read_text()
if not shutil.which("cargo"):
    pytest.skip("cargo is missing", allow_module_level=True)


def cargo(*words, **options):
    """What cargo prints. It has no network."""
    options = {"cwd": CRATE, "capture_output": True, "text": True, "timeout": 900, **options}
    ended = subprocess.run(["cargo", words[0], "--offline", *words[1:]], **options)
    assert ended.returncode == 0, ended.stdout + ended.stderr
    return ended.stdout


@pytest.fixture(scope="module")
def ask():
    """The path of the example program, over the archive that is built before."""
    archive()
    cargo("build", "--examples")
    return CRATE / "target/debug/examples/ask"


def test_cargo_test(ask):
    """The tests in Rust, and the lines of the README as one of the documentation tests."""
    out = cargo("test", "--workspace")
    assert sum(map(int, re.findall(r"^test result: ok. (\d+) passed; 0 failed; 0 ignored", out, re.M))) >= 13
    assert re.search(r"^test \S+ - .*\(line \d+\) \.\.\. ok$", out, re.M)


def header_and_file(case):
    """The crawler with the URLs, and the file."""
    header, file = input_of(case).split(b"\n\n", 1)
    return header.split(b"\n"), file


# Linux passes no argument of 128 KiB to a program, and one case has such a URL.
GOLDEN = {
    f"{name}: {case}": keys
    for name in ("groups", "rules", "delays")
    for case, keys in cases_of((ROOT / f"tests/golden/robots_verdict/{name}.toml").read_text()).items()
    if max(map(len, header_and_file(keys)[0])) < 1 << 17
}
EXAMPLES = cases_of((ROOT / "tests/golden/ask.toml").read_text())


@pytest.mark.parametrize("case", GOLDEN.values(), ids=GOLDEN)
def test_golden_case_of_robots_verdict(ask, case):
    result = run(ask, *header_and_file(case))
    if case.get("status") == 3:
        assert (result.status, result.out) == (2, "") and "is too long" in result.err
    else:
        assert (re.sub(r"^robots .*\n", "", result.out), result.err) == (wanted_of(case).out, "")
        assert result.status == ("\ndeny " in result.out)


@pytest.mark.parametrize("case", EXAMPLES.values(), ids=EXAMPLES)
def test_golden_case_of_the_example_programs(ask, case):
    assert run(ask, [spelled(word) for word in case["args"].split()], input_of(case)) == wanted_of(case)


def test_each_allocation_fails_in_turn(ask, tmp_path):
    """It is an error of the library, or Rust aborts, or does without it, and then its report is right."""
    heap = compiled(tmp_path / "heap.so", "-shared", "-fPIC", "tests/failing_heap.c")
    call = [ask, ["a", "https://\u00e9/", "/a"], b"Disallow: /a\nCrawl-delay: 1\nSitemap: b"]
    right, reported, number = run(*call), 0, 0
    assert (right.status, right.err) == (1, "")
    while True:
        number += 1
        result = run(*call, env=os.environ | {"LD_PRELOAD": str(heap), "FAIL_ALLOCATION": str(number), "COUNTS": "2"})
        counts = re.search(r"^(\d+) (\d+) (\d+) .*\n\Z", result.err, re.M)
        if counts and counts[2] == "0":
            assert int(counts[3]) <= 2  # which belong to Rust: what is opened is closed
            break
        reported += result.status == 2
        failed = result.status in (2, -6) and re.search("out of memory|memory allocation of", result.err)
        assert failed or (result.status, result.out) == (right.status, right.out), result
    assert (result.status, result.out) == (right.status, right.out) and reported > 5


def test_the_lines_of_the_readme_in_another_crate(installed, tmp_path):
    """Over the installed library, and under the former name of the crate, as when migrating; then the code after migrating."""
    moving = DOCUMENTS["docs/MOVING.md"].split("\n## The Rust crate `texting_robots`\n")[1]
    named = code(moving, "toml")[1]
    (tmp_path / "src/bin").mkdir(parents=True)
    (tmp_path / "src/main.rs").write_text(code(README, "rust")[0].replace("texting_robots_verified", "texting_robots"))
    after = code(moving, "rust")[1].replace("\n\n", '\n\nfn main() {\n    let (body, url) = (b"User-agent: *\\nDisallow: /a", "/a");\n', 1)
    used = 'assert!(!allowed && delay.is_none() && get_robots_url("https://h/a").unwrap() == "https://h/robots.txt");'
    (tmp_path / "src/bin/after.rs").write_text(f"{after}    {used}\n}}\n")
    package = '[package]\nname = "caller"\nversion = "0.1.0"\nedition = "2021"\ndefault-run = "caller"\n[dependencies]\n'
    (tmp_path / "Cargo.toml").write_text(package + named.replace('version = "1.0.0"', f'path = "{CRATE}"'))
    for name in ("caller", "after"):
        cargo("run", "--bin", name, cwd=tmp_path, env=os.environ | {"ROBOTS_C": str(installed), "CARGO_TARGET_DIR": str(tmp_path / "target")})


# Programs that use texting_robots 0.2.2.
CALLERS = {
    "a small program": """
use texting_robots::{get_robots_url, Robot};

fn main() {
    let url = "https://example.com/search?q=tea";
    assert_eq!(get_robots_url(url).unwrap(), "https://example.com/robots.txt");
    let file = "User-agent: *\\nDisallow: /search\\nCrawl-delay: 2.5\\nSitemap: https://example.com/s.xml";
    let robot = Robot::new("FerrisBot", file.as_bytes()).unwrap();
    assert!(!robot.allowed(url) && robot.allowed("/tea"));
    let delay: f32 = robot.delay.unwrap_or(1.0);
    let sitemaps: Vec<String> = robot.sitemaps;
    assert_eq!((delay, sitemaps), (2.5, vec!["https://example.com/s.xml".to_string()]));
}
""",
    "robots that threads share": """
use std::{collections::HashMap, sync::Arc, thread};
use texting_robots::{get_robots_url, Robot};

fn main() -> anyhow::Result<()> {
    let mut robots: HashMap<String, Arc<Robot>> = HashMap::new();
    robots.insert(get_robots_url("https://example.com/a")?, Arc::new(Robot::new("FerrisBot", b"Disallow: /a")?));
    let robot = robots["https://example.com/robots.txt"].clone();
    assert!(!thread::spawn(move || robot.allowed("/a")).join().unwrap());
    Ok(())
}
""",
    "an error that is passed on": """
use texting_robots::Robot;

fn read(file: &[u8]) -> Result<Robot, anyhow::Error> {
    Robot::new("FerrisBot", file)
}

fn main() {
    assert!(read(b"").is_ok() && format!("{:?}", read(b"Sitemap: a").unwrap()).contains("sitemaps: [\\"a\\"]"));
}
""",
    "the error of an address": """
use url::ParseError;

fn address(url: &str) -> Result<String, ParseError> {
    texting_robots::get_robots_url(url)
}

fn main() {
    assert_eq!(address("/a"), Err(ParseError::RelativeUrlWithoutBase));
    assert_eq!(address("https://[/"), Err(ParseError::InvalidIpv6Address));
    assert_eq!(address("mailto:a@example.com"), Err(ParseError::EmptyHost));
}
""",
    "the cause of an error": """
use texting_robots::{Error, Robot};

fn main() {
    let file = format!("User-agent: *\\nDisallow: /${}", "a".repeat(4096));
    let error = Robot::new("FerrisBot", file.as_bytes()).unwrap_err();
    assert_eq!(error.to_string(), "the rule in line 2 is too long: the file can't be used for this crawler");
    let cause = error.root_cause();
    assert!(matches!(cause.downcast_ref::<Error>(), Some(Error::InvalidRobots)));
    assert_eq!(cause.to_string(), "the robots.txt file can't be used for this crawler");
}
""",
}
DEBIANS_CRATES = Path("/usr/share/cargo/registry")
DEBIANS = """
[source.crates-io]
replace-with = "debian"
[source.debian]
directory = "/usr/share/cargo/registry"
"""


@pytest.mark.skipif(not all(any(DEBIANS_CRATES.glob(f"{it}-[0-9]*")) for it in ("anyhow", "url")), reason="librust-anyhow-dev or librust-url-dev is missing")
def test_callers_of_the_former_crate(installed, tmp_path):
    """They compile and run over the crate with its API, as one line of Cargo.toml names it, and so do that crate's documentation and its page."""
    (line,) = re.findall(r"^texting_robots = .*$", code((CRATE / "compat/README.md").read_text(), "toml")[0], re.M)
    assert line in DOCUMENTS["docs/MOVING.md"].splitlines()
    (tmp_path / "src/bin").mkdir(parents=True)
    (tmp_path / ".cargo").mkdir()
    (tmp_path / ".cargo/config.toml").write_text(DEBIANS)
    package = '[package]\nname = "callers"\nversion = "0.1.0"\nedition = "2021"\n[dependencies]\nanyhow = "1"\nurl = "2"\n'
    (tmp_path / "Cargo.toml").write_text(package + line.replace('version = "1.0.0"', f'path = "{CRATE}/compat"'))
    names = [it.replace(" ", "-") for it in CALLERS]
    for name, source in zip(names, CALLERS.values(), strict=True):
        (tmp_path / f"src/bin/{name}.rs").write_text(source)
    environment = os.environ | {"ROBOTS_C": str(installed), "CARGO_TARGET_DIR": str(tmp_path / "target")}
    cargo("build", "--bins", cwd=tmp_path, env=environment)
    for it in names:
        assert run(tmp_path / "target/debug" / it) == Result(0, "", "")
    copied = shutil.copytree(CRATE, tmp_path / "a/rust", ignore=shutil.ignore_patterns("target", "tests"))
    (copied / "compat/.cargo").mkdir()
    (copied / "compat/.cargo/config.toml").write_text(DEBIANS)
    assert re.search(r"^test result: ok. 1 passed; 0 failed; 0 ignored", cargo("test", "--doc", cwd=copied / "compat", env=environment), re.M)


@pytest.fixture(scope="module")
def build_script(tmp_path_factory):
    path = tmp_path_factory.mktemp("script") / "build"
    subprocess.run(["rustc", "--edition", "2021", CRATE / "sys/build.rs", "-o", path], check=True)
    return path


@pytest.mark.parametrize("arch, system, abi", [("riscv64", "linux", "gnu"), ("x86_64", "linux", "uclibc"), ("aarch64", "macos", ""), ("x86_64", "windows", "msvc")])
def test_another_platform(build_script, arch, system, abi):
    """Nothing is linked, and a warning says so: the crate can be checked and documented."""
    target = {"CARGO_CFG_TARGET_ARCH": arch, "CARGO_CFG_TARGET_OS": system, "CARGO_CFG_TARGET_ENV": abi}
    message = f"there is no C library robots_c for {system} on {arch}, only for Linux with the GNU C library or musl on x86_64 and aarch64"
    for environment, said in [(target, [f"cargo:warning=texting_robots_verified-sys: nothing can be linked: {message}"]), (target | {"DOCS_RS": "1"}, [])]:
        ended = run(build_script, env=environment)
        assert (ended.status, ended.err) == (0, "") and "rustc-link" not in ended.out
        assert [line for line in ended.out.splitlines() if "rerun" not in line] == said


@pytest.mark.parametrize("arch", ["x86_64", "aarch64"])
@pytest.mark.parametrize("abi", ["gnu", "musl"])
def test_a_platform_that_is_linked(build_script, tmp_path, arch, abi):
    (tmp_path / "lib").mkdir()
    (tmp_path / "lib/librobots_c.a").touch()
    target = {"CARGO_CFG_TARGET_ARCH": arch, "CARGO_CFG_TARGET_OS": "linux", "CARGO_CFG_TARGET_ENV": abi, "CARGO_MANIFEST_DIR": str(tmp_path)}
    ended = run(build_script, env=target | {"ROBOTS_C": str(tmp_path)})
    assert (ended.status, ended.err) == (0, "") and "cargo:rustc-link-lib=static=robots_c" in ended.out.splitlines()


def test_documentation_without_the_c_library(tmp_path):
    """In a folder that isn't in the repository."""
    copied = shutil.copytree(CRATE, tmp_path / "a/b/crate", ignore=shutil.ignore_patterns("target", "tests"))
    environment = {key: value for key, value in os.environ.items() if key != "ROBOTS_C"} | {"CARGO_TARGET_DIR": str(tmp_path / "target")}
    cargo("doc", "--no-deps", "--workspace", cwd=copied, env=environment | {"DOCS_RS": "1", "RUSTDOCFLAGS": "-D warnings"})
    assert (tmp_path / "target/doc/texting_robots_verified/struct.Robot.html").is_file()
    ended = subprocess.run(["cargo", "check", "--offline"], cwd=copied, env=environment, capture_output=True, text=True)
    assert ended.returncode != 0 and "\n  texting_robots_verified-sys: the C library isn't here: set ROBOTS_C" in ended.stderr


TYPES = {"int": "i32", "size_t": "usize", "int32_t": "i32", "uint32_t": "u32", "int64_t": "i64", "uint64_t": "u64", "char": "c_char", "void": "c_void"}


def in_rust(declared):
    """A parameter or constant of the header, as Rust has it: `const char *url` is `url: *const c_char`."""
    words = re.findall(r"\w+|\*", declared)
    const, name = words[0] == "const", words[-1]
    kind = TYPES.get(words[const], words[const])
    stars = words.count("*")
    return f"{name}: {'*mut ' * (stars - 1)}{'*const ' if const else '*mut ' * (stars > 0)}{kind}"


def test_the_raw_crate_has_the_calls_and_constants_of_the_header():
    raw = (CRATE / "sys/src/lib.rs").read_text()
    found = {name: [" ".join(it.split()) for it in words.split(",") if it] for name, words in re.findall(r"pub fn (\w+)\(([^)]*)\)", raw)}
    declared = re.findall(r"^(?:ROBOTS_CHECK )?(const \w+ \*|\w+ )(robots_\w+)\(([^)]*)\)(?:\s+ROBOTS_NONNULL\([\d, ]+\))?;", HEADER, re.M)
    assert len(declared) >= 23
    assert found == {name: [in_rust(it) for it in words.split(",") if it != "void"] for _, name, words in declared}
    for kind, name, _ in declared:
        result = in_rust(f"{kind} result").removeprefix("result: ")
        assert re.search(rf"pub fn {name}\([^)]*\){'' if result == 'c_void' else f' -> {re.escape(result)}'};", raw)
    numbers = re.findall(r"^(?:    |#define )(ROBOTS_\w+)(?: =)? (-?\d+)\b,?", HEADER, re.M)
    constants = re.findall(r"^pub const (ROBOTS_\w+): \w+ = (-?\d+);", raw.replace("_000", "000"), re.M)
    assert set(constants) - set(numbers) == {("ROBOTS_VERSION", "10000")} and len(constants) == 17
