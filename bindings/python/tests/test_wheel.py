"""The wheel: it installs into a virtual environment, and there the lines of the README print what they say."""

import email
import importlib.util
import runpy
import shutil
import subprocess
import sys
import sysconfig
import types
from pathlib import Path

import package
import pytest
from library import LIBRARY, archive
from support import ROOT

WHEEL = next((package.BUILT / "dist").iterdir())


def run(words, **options):
    return subprocess.run(words, capture_output=True, text=True, **options)


@pytest.fixture(scope="module")
def installed_python(tmp_path_factory):
    """The Python of a new virtual environment with the wheel, and with cffi from here."""
    folder = tmp_path_factory.mktemp("venv")
    subprocess.run([sys.executable, "-m", "venv", "--without-pip", folder], check=True)
    python = folder / "bin/python"
    words = [sys.executable, "-m", "pip", "--python", python, "install", "-q", "--no-deps", "--no-index", WHEEL]
    ended = run(words)
    assert ended.returncode == 0, ended.stderr
    packages = run([python, "-c", "import sysconfig; print(sysconfig.get_path('platlib'))"])
    (folder / "cffi").mkdir()
    for name in ("cffi", "pycparser", "_cffi_backend"):
        path = Path(__import__(name).__file__)
        path = path.parent if path.name == "__init__.py" else path
        (folder / "cffi" / path.name).symlink_to(path)
    Path(packages.stdout.strip(), "cffi.pth").write_text(f"{folder}/cffi\n")
    return python


def test_the_readme_prints_what_it_says(installed_python, tmp_path):
    words = "import doctest, sys; failed, tried = doctest.testfile(sys.argv[1], module_relative=False); print(tried); sys.exit(failed)"
    ended = run([installed_python, "-c", words, package.PACKAGE / "README.md"], cwd=tmp_path)
    assert ended.returncode == 0, ended.stdout + ended.stderr
    assert int(ended.stdout) >= 8


def test_the_wheel_is_for_every_cpython_and_exports_nothing():
    assert WHEEL.name.endswith("-cp39-abi3-linux_x86_64.whl")
    assert sorted(it.name for it in (package.SITE / "texting_robots").iterdir() if it.suffix) == [
        "__init__.py", "_calls.py", "_contents.py", "_disk.py", "_errors.py", "_facade.py", "_figures.py", "_memory.py", "_names.py", "_native.abi3.so", "_native.pyi", "_pacing.py",
        "_parking.py", "_responses.py", "_robot.py", "_robots.py", "_rules.py", "_settings.py", "_sites.py", "_waiting.py", "aio.py", "cache.py", "middleware.py", "protego.py", "py.typed", "robotparser.py", "scrapy.py",
    ]  # fmt: skip
    assert sorted(it.name for it in package.SITE.glob("*.dist-info/**/LICENSE-*")) == ["LICENSE-APACHE", "LICENSE-MIT"]
    names = run(["nm", "-D", "--defined-only", package.SITE / "texting_robots/_native.abi3.so"])
    assert [line.split()[-1] for line in names.stdout.splitlines()] == ["PyInit__native"]


def test_metadata_of_any_version_of_setuptools():
    """As an index accepts it: a license expression, or a text before setuptools 77, and no classifier of it."""
    (path,) = package.SITE.glob("*.dist-info/METADATA")
    lines = email.message_from_string(path.read_text())
    assert [lines[it] for it in ("License-Expression", "License") if it in lines] == ["MIT OR Apache-2.0"]
    assert lines["Requires-Python"] == ">=3.9" and lines["Project-URL"] and "rfc9309" in lines["Keywords"]
    classifiers = lines.get_all("Classifier")
    assert len(classifiers) > 5 and [it for it in classifiers if it.startswith("License")] == []


def given_to_setup(monkeypatch, version, variables):
    """What setup.py gives to this version of setuptools, if Python has these configuration variables."""
    given = {}
    with monkeypatch.context() as changed:
        changed.setitem(sys.modules, "setuptools", types.SimpleNamespace(__version__=version, setup=lambda **words: given.update(words)))
        changed.setattr(sysconfig, "get_config_var", variables.get)
        runpy.run_path(str(package.PACKAGE / "setup.py"))
    return given


@pytest.mark.parametrize("version, field", [("66.1.1", "license"), ("77.0.0", "license_expression"), ("100.1", "license_expression")])
def test_the_field_of_the_license(monkeypatch, version, field):
    given = given_to_setup(monkeypatch, version, {})
    assert {it: given[it] for it in given if "license" in it} == {field: "MIT OR Apache-2.0"}


def test_a_wheel_for_a_free_threaded_cpython_has_its_own_abi(monkeypatch):
    for variables in ({}, {"Py_GIL_DISABLED": 0}):
        assert given_to_setup(monkeypatch, "66.1.1", variables)["options"] == {"bdist_wheel": {"py_limited_api": "cp39"}}
    assert given_to_setup(monkeypatch, "66.1.1", {"Py_GIL_DISABLED": 1})["options"] == {}


def test_the_library_comes_from_a_repository_whose_folder_has_a_space(tmp_path):
    root = tmp_path / "my crawler"
    for name in ["bindings/c", "bindings/python/native"]:
        shutil.copytree(ROOT / name, root / name)
    (root / "crates/robots_c/out").mkdir(parents=True)
    shutil.copy(LIBRARY / "robots.h", root / "crates/robots_c")
    shutil.copy(archive(), root / "crates/robots_c/out")
    package.run([root / "bindings/python/native/build.py"])
    assert (root / "bindings/python/build/c/librobots_c.a").stat().st_size > archive().stat().st_size


def test_a_library_that_is_not_where_robots_c_says(tmp_path):
    words = [sys.executable, package.PACKAGE / "native/build.py"]
    ended = run(words, env=package.WITH_PACKAGE | {"ROBOTS_C": str(tmp_path)})
    message = "librobots_c.a is missing: ROBOTS_C is the absolute PREFIX of `make install` in bindings/c, run without LIBDIR"
    assert (ended.returncode, ended.stderr) == (1, f"{tmp_path}/lib/{message}\n")


def test_another_platform():
    words = f"import runpy, sysconfig; sysconfig.get_platform = lambda: 'macosx-14.0-arm64'; runpy.run_path('{package.PACKAGE}/native/build.py')"
    ended = run([sys.executable, "-c", words], env=package.WITH_PACKAGE)
    message = "texting_robots can't be installed here: its C library is for Linux on x86_64 and aarch64, and this is macosx-14.0-arm64\n"
    assert (ended.returncode, ended.stderr) == (1, message)


def test_a_source_distribution_is_built_with_an_installed_library(installed, tmp_path):
    package_of = shutil.copytree(package.PACKAGE, tmp_path / "package", ignore=shutil.ignore_patterns("build", "*.egg-info"))
    environment = package.WITH_PACKAGE | {"ROBOTS_C": str(installed)}
    words = [sys.executable, "-c", "from setuptools.build_meta import build_sdist; build_sdist('.')"]
    ended = run(words, cwd=package_of, env=environment)
    assert ended.returncode == 0, ended.stdout + ended.stderr
    shutil.unpack_archive(next(package_of.glob("*.tar.gz")), tmp_path)
    build = next(tmp_path.glob("texting*/native/build.py"))
    assert sorted(it.name for it in build.parent.iterdir()) == ["build.py", "shared.c", "shared.h"]
    for given, status in [(environment, 0), (package.WITH_PACKAGE, 1)]:
        ended = run([sys.executable, build], env=given)
        assert (ended.returncode, "set ROBOTS_C" in ended.stderr) == (status, status == 1), ended.stderr


def test_mypy_is_strict(tmp_path):
    pytest.importorskip("mypy")
    caller = tmp_path / "caller.py"
    caller.write_text(CALLER)
    words = [sys.executable, "-m", "mypy", "--config-file", package.PACKAGE / "pyproject.toml", "--cache-dir", tmp_path / "cache"]
    examples = [package.PACKAGE / "examples/crawl.py"] if importlib.util.find_spec("aiohttp") else []
    for target in [["-p", "texting_robots"], [caller, *examples]]:
        ended = run([*words, *target], env=package.WITH_PACKAGE | {"MYPYPATH": str(package.PACKAGE / "src")})
        assert ended.returncode == 0, ended.stdout + ended.stderr


CALLER = """
from array import array
from mmap import mmap
from typing import Iterator, List, Mapping, Optional, Tuple, Type
from urllib.robotparser import RequestRate, RobotFileParser
from texting_robots import LIFETIME, REDIRECT_LIMIT, AgentError, Matrix, Meaning, OverlongRuleError, Reading, Robot, Robots, RobotsError, Site
from texting_robots import TooCostlyError, UrlError, Verdict, meaning, product_token, robots_url
from texting_robots import protego, robotparser
from texting_robots.aio import AsyncRobots, Response
from texting_robots.cache import CacheVerdict, Decision, Fetch, KnownSite, RobotsCache

class Own(Site):
    pass

async def get(address: str, headers: Mapping[str, str]) -> Response:
    return Response(200, {"ETag": "1"}, b"")

async def may(url: str) -> float:
    with RobotsCache(database="x", after_30_days="no file", exempt=["a.example"]) as cache:
        verdict: CacheVerdict = await AsyncRobots(get, ["A", "B"], cache, patience=9).may(url)
        fetch: Optional[Fetch] = cache.look(url).fetch
        if verdict and fetch:
            known = {**cache.received(fetch, 200, [(b"ETag", b"1")], b"").known, **cache.failed(fetch, was_reached=False).known}
            return sum(cache.next_request(site, ("A", "B")) + site.failing_since for site in known.values())
        return 0 if verdict.line else 1

site: Site = Site(b"")
mine: Reading = "rfc9309"
readings: List[Reading] = [Site(b"", mine).reading, Site.parse(b"", "crate").reading, protego.Protego.parse(b"").reading]
allowed_by_standard: bool = Robot(b"", "a", reading="rfc9309").allowed("/")
standard_parser = robotparser.RobotFileParser()
standard_parser.reading = mine
standard_cache = RobotsCache(reading=mine)
other: Robots = Robots(b"")
false: Decision = CacheVerdict(False)
allowed: bool = site.allowed(robots_url("https://example.com/"), product_token("a/1"))
verdicts: List[Verdict] = site.verdicts(("/" for _ in range(2)), "a")
rows: List[List[Optional[Verdict]]] = site.matrix({"/"}, ["a"])
delay: Optional[float] = site.crawl_delay("a")
line: Optional[int] = site.verdict("/", "a").line
denied: List[Tuple[str, str, Optional[int]]] = Matrix({"/"}, ["a"]).denials(b"")
names: List[str] = site.sitemaps + site.agents
own: Own = Own.parse("")
named: bool = own.is_named("a")
memory: int = own.memory
within: Verdict = own.verdict_within("/", "a", own.cost(1, "a"))
meant: Meaning = meaning(None, redirects=REDIRECT_LIMIT, has_location=Own.deny_all().allowed("/", "a"))
seconds: int = LIFETIME
parser: RobotFileParser = robotparser.RobotFileParser(url="https://example.com/robots.txt")
parser.parse(["User-agent: *", "Disallow: /"])
rate: Optional[RequestRate] = parser.request_rate("a/1.0")
robotparser.RobotFileParser().parse(b"User-agent: *".splitlines())
seconds_between: Optional[float] = robotparser.RobotFileParser().crawl_delay("a/1.0")
protego_file: protego.Protego = protego.Protego.parse("")
sitemaps: Iterator[str] = protego_file.sitemaps
visit: Optional[protego.VisitTime] = protego_file.visit_time("a/1.0")
errors: List[Type[RobotsError]] = [AgentError, OverlongRuleError, TooCostlyError, UrlError]
Site(bytearray()), Site(memoryview(b"")), Site.parse(mmap(-1, 1)), Matrix({"/"}, ["a"]).denials(array("b"))
"""
