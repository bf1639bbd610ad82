"""The files of a release: two runs give the same bytes, and each file, in an empty folder without a network, does what documents show."""

import contextlib
import hashlib
import importlib.util
import json
import os
import re
import shlex
import shutil
import subprocess
import sys
import tarfile
import threading
import tomllib
import types
import zipfile
from http.server import BaseHTTPRequestHandler, ThreadingHTTPServer
from pathlib import Path

import pytest
from library import is_built, kit
from support import CC, CRATES, DOCUMENTS, PAGES, ROOT, Result, compiled, program, run, shown
from test_c_library import CMAKE
from test_documents import code, section

VERSION = (ROOT / "VERSION").read_text().strip()
HAS_CRATES = all(any(Path("/usr/share/cargo/registry").glob(f"{it}-[0-9]*")) for it in ("anyhow", "url"))
README = DOCUMENTS["README.md"]
PAGES_OF_PACKAGES = {name: page for name, page in PAGES.items() if name.startswith("bindings/")}
PACKAGES = {name: (ROOT / f"bindings/{name}/README.md").read_text() for name in ("python", "rust")}
MISSING = [it for it in ("cargo", "objdump", "git", "make", "tar", "gzip", CC) if not shutil.which(it)]
MISSING += [it for it in ("cffi", "pip", "setuptools", "wheel") if importlib.util.find_spec(it) is None]
if MISSING:
    pytest.skip(f"{', '.join(MISSING)} is missing", allow_module_level=True)


@pytest.fixture(scope="module")
def releases(objects, tmp_path_factory):
    """Two folders with the same release, made at once, the second one by a user with other settings."""
    crates = re.findall(r"^robots_audit: (.*)$", (ROOT / "crates.txt").read_text(), re.M)[0].split()
    for name, below in {"robots_audit": crates, "robots_verdict": ["safe_output", "texting_robots"]}.items():
        sources = [name, *(it for it in below if (CRATES / it).is_dir())]
        assert is_built(program(name), *sources), f"{name} is older than its sources: run `rt ci`, or `rt run` in its folder"
    folders = [tmp_path_factory.mktemp(name) for name in ("one", "another-folder")]
    made = []
    for folder, umask, settings in zip(folders, [0o022, 0o077], [{}, {"TZ": "Asia/Tokyo", "CFLAGS": "-O0", "LC_ALL": "C"}]):
        words = [sys.executable, ROOT / "release", folder]
        made.append(subprocess.Popen(words, stdout=subprocess.PIPE, stderr=subprocess.STDOUT, text=True, env=os.environ | settings, umask=umask))
    for it in made:
        out, _ = it.communicate(timeout=300)
        assert it.returncode == 0, out
    return folders


@pytest.fixture
def file(releases):
    """Finds a file of the release by a pattern."""

    def found(pattern):
        (path,) = releases[0].glob(pattern)
        return path

    return found


@pytest.fixture(scope="module")
def bare():
    """An environment without the toolchain, settings of the repository, and a network."""
    folders = [it for it in os.environ["PATH"].split(":") if not Path(it, "rt").exists()]
    kept = {key: value for key, value in os.environ.items() if key not in ("PYTHONPATH", "ROBOTS_C", "ROBOTS_SO")}
    nowhere = {f"{it}_proxy": "http://127.0.0.1:9" for it in ("http", "https", "all")}
    return kept | nowhere | {"PATH": ":".join(folders), "no_proxy": "127.0.0.1", "PYTHONDONTWRITEBYTECODE": "1"}


def ran(words, cwd, env):
    """What a command prints."""
    ended = subprocess.run([*map(str, words)], cwd=cwd, env=env, stdin=subprocess.DEVNULL, capture_output=True, text=True, timeout=300)
    assert ended.returncode == 0, ended.stdout + ended.stderr
    return ended.stdout


# ---- what there is


def test_two_runs_give_the_same_bytes(releases):
    names = [[it.name for it in sorted(folder.iterdir())] for folder in releases]
    assert names[0] == names[1]
    assert [it for it in names[0] if (releases[0] / it).read_bytes() != (releases[1] / it).read_bytes()] == []
    assert sorted(it.replace(VERSION, "V") for it in names[0]) == [
        "RELEASE.txt",
        "SHA256SUMS",
        "robots_audit-V-linux-x86_64.tar.gz",
        "robots_audit-V-py3-none-manylinux_2_34_x86_64.whl",
        "robots_c-V-linux-x86_64.tar.gz",
        "texting_robots-V-cp39-abi3-manylinux_2_17_x86_64.whl",
        "texting_robots-V.tar.gz",
        "texting_robots_verified-V.crate",
        *["texting_robots_verified-compat-V.crate"] * HAS_CRATES,
        "texting_robots_verified-sys-V.crate",
    ]


def test_the_release_names_its_sums_commit_and_toolchain(releases):
    sums = dict(reversed(line.split("  ")) for line in (releases[0] / "SHA256SUMS").read_text().splitlines())
    assert sums == {it.name: hashlib.sha256(it.read_bytes()).hexdigest() for it in releases[0].iterdir() if it.name != "SHA256SUMS"}
    text = (releases[0] / "RELEASE.txt").read_text()
    commit = ran(["git", "rev-parse", "HEAD"], ROOT, os.environ).strip()
    toolchain = ran(["rt", "version"], ROOT, os.environ).splitlines()[0]
    assert text.startswith(f"texting_robots {VERSION}\n") and f"    git checkout {commit}\n" in text and f" {toolchain}\n" in text


def members(path):
    """The files in an archive, by their names."""
    if path.suffix == ".whl":
        with zipfile.ZipFile(path) as files:
            return {it: files.read(it) for it in files.namelist()}
    with tarfile.open(path) as files:
        return {it.name: files.extractfile(it).read() for it in files if it.isfile()}


def test_every_file_has_the_licenses_and_no_path_of_this_machine(releases):
    for path in releases[0].glob(f"*-{VERSION}*"):
        files = members(path)
        if path.name.endswith("linux-x86_64.tar.gz"):
            with tarfile.open(path) as packed:
                assert {(it.uid, it.gid, it.uname, it.gname) for it in packed} == {(0, 0, "", "")}
                names = [it.name.split("/") for it in packed]
                assert names == sorted(names)
        assert {"LICENSE-MIT", "LICENSE-APACHE", "LICENSE-LIBRARIES"} <= {Path(it).name for it in files}, path.name
        assert [name for name, data in files.items() if str(ROOT).encode() in data] == [], path.name


@pytest.mark.parametrize("crate", ["robots_audit", "robots_c"])
def test_each_library_of_the_toolchain_has_a_license(crate):
    named = re.findall(r"^---- (.*)$", MODULE.notices(crate, kit()), re.M)
    licensed = {it for it in MODULE.below(crate, kit()) if it not in MODULE.ROWS and any((kit() / "rattle" / it).glob("LICENSE*"))}
    assert {it for names in named for it in names.split(", ")} == licensed and len(licensed) > 5


@pytest.mark.parametrize("release", [None, "texting_robots 1.0.0", "another release"])
def test_a_folder_with_other_files_is_left_alone(tmp_path, release):
    (tmp_path / "letter").write_text("Dear")
    if release:
        (tmp_path / "RELEASE.txt").write_text(release)
        (tmp_path / "SHA256SUMS").write_text(f"{'0' * 64}  RELEASE.txt\n" + f"{'0' * 64}  letter\n" * (release == "another release"))
    ended = subprocess.run([sys.executable, ROOT / "release", tmp_path], capture_output=True, text=True)
    assert (ended.returncode, ended.stderr) == (1, f"release: {tmp_path} has other files than those of a release\n")
    assert (tmp_path / "letter").read_text() == "Dear"


ADDRESSES = """\
# no address
repository = https://example.org/robots
contact = robots@example.org
"""


@pytest.mark.parametrize("path", ["python/pyproject.toml", "rust/Cargo.toml", "rust/compat/Cargo.toml", "rust/sys/Cargo.toml"])
def test_a_package_has_the_addresses_of_the_project(path, tmp_path):
    """And nothing else is added: nothing at all while there are none."""
    made, addresses, text = tmp_path / Path(path).name, tmp_path / "ADDRESSES", (ROOT / "bindings" / path).read_text()
    found = []
    for stated in (ADDRESSES.splitlines()[0], ADDRESSES):
        made.write_text(text)
        addresses.write_text(stated)
        MODULE.add_addresses(made, addresses)
        found.append(made.read_text())
    assert found[0] == text
    wanted = tomllib.loads(text)
    if "project" in wanted:
        wanted["project"]["urls"]["Repository"] = "https://example.org/robots"
        wanted["project"]["maintainers"] = [{"email": "robots@example.org"}]
    else:
        wanted["package"] |= {"repository": "https://example.org/robots", "authors": ["robots@example.org"]}
    assert tomllib.loads(found[1]) == wanted


@pytest.mark.parametrize("name", [it for it in PAGES_OF_PACKAGES if it != "bindings/c/README.md"])
def test_links_of_a_package_lead_to_files_of_the_project(name, tmp_path):
    """And nowhere while it has no address."""
    page, addresses = tmp_path / "README.md", tmp_path / "ADDRESSES"
    for stated, count in [("", 0), (ADDRESSES, PAGES_OF_PACKAGES[name].count("]("))]:
        page.write_text(PAGES_OF_PACKAGES[name])
        addresses.write_text(stated)
        MODULE.link_page(page, str(Path(name).parent), addresses)
        targets = re.findall(r"\]\(([^)]*)\)", page.read_text())
        assert len(targets) == count and all(it.startswith("https://example.org/robots/blob/HEAD/") for it in targets)
        assert all((ROOT / it.split("/HEAD/")[1].split("#")[0]).exists() for it in targets)


@pytest.mark.parametrize("stated", ["repository: https://example.org", "contact =", "contact = ", "homepage = https://example.org"])
def test_other_lines_are_no_addresses(stated, tmp_path):
    (tmp_path / "ADDRESSES").write_text(f"# one\n{stated}\n")
    with pytest.raises(SystemExit, match=f"^release: ADDRESSES: {stated}: this is neither"):
        MODULE.add_addresses(ROOT / "bindings/rust/Cargo.toml", tmp_path / "ADDRESSES")


MODULE = types.ModuleType("release")
MODULE.__file__ = str(ROOT / "release")
exec((ROOT / "release").read_text(), MODULE.__dict__)


def test_what_is_older_than_its_sources_is_made_again(tmp_path, monkeypatch):
    monkeypatch.setattr(MODULE, "CRATES", tmp_path)
    monkeypatch.setattr(MODULE, "ROWS", {"one": ""})
    for folder in ("one/src", "one/out"):
        (tmp_path / folder).mkdir(parents=True)
    source, made = tmp_path / "one/src/lib.rt", tmp_path / "one/out/made"
    (tmp_path / "KIT-ID").touch()
    for text, changes in [("1", source), ("2", source), ("kept", made)]:
        changes.write_text(text)
        os.utime(changes, (2**32, 2**32 + ["1", "2", "kept"].index(text)))
        assert MODULE.proved("one", "made", tmp_path, "cp", "-p", "src/lib.rt", "out/made").read_text() == text


def test_shared_objects_fit_manylinux(file, tmp_path, monkeypatch):
    ran(["tar", "-xzf", file("robots_c-*")], tmp_path, os.environ)
    ran([sys.executable, "-m", "zipfile", "-e", file("texting_robots-*.whl"), "."], tmp_path, os.environ)
    for path in [*tmp_path.glob("*/lib/*.so"), *tmp_path.glob("*/*.abi3.so")]:
        versions = re.findall(r"GLIBC_(\d+)\.(\d+)", ran(["objdump", "-T", path], tmp_path, os.environ))
        assert versions and max(tuple(map(int, it)) for it in versions) <= (2, 17)
        assert set(re.findall(r"NEEDED +(\S+)", ran(["objdump", "-p", path], tmp_path, os.environ))) <= {"libc.so.6", "libpthread.so.0"}
        MODULE.for_manylinux(path)
        with monkeypatch.context() as older, pytest.raises(SystemExit, match="needs a newer GNU C library than 2.1$"):
            older.setattr(MODULE, "GLIBC", (2, 1))
            MODULE.for_manylinux(path)


def test_a_shared_object_that_needs_another_library_is_refused(tmp_path):
    (tmp_path / "other.c").write_text("int other(void) { return 1; }")
    (tmp_path / "other.map").write_text("OTHER_9 { global: other; };")
    (tmp_path / "one.c").write_text("int other(void); int one(void) { return other(); }")
    other = compiled(tmp_path / "libother.so", "-shared", "-fPIC", tmp_path / "other.c", f"-Wl,--version-script={tmp_path}/other.map,-soname,libother.so")
    with pytest.raises(SystemExit, match="^release: one.so needs OTHER_9, libother.so$"):
        MODULE.for_manylinux(compiled(tmp_path / "one.so", "-shared", "-fPIC", tmp_path / "one.c", other))


# ---- Python


@pytest.fixture(scope="module", params=["texting_robots-*.whl", f"texting_robots-{VERSION}.tar.gz"], ids=["wheel", "source distribution"])
def python(request, releases, bare, tmp_path_factory):
    """The Python of a new virtual environment with the package. What it and its build need is taken from here."""
    folder = tmp_path_factory.mktemp("venv")
    ran([sys.executable, "-m", "venv", "--without-pip", folder], folder, bare)
    python = folder / "bin/python"
    site = ran([python, "-c", "import sysconfig; print(sysconfig.get_path('platlib'))"], folder, bare).strip()
    Path(site, "here.pth").write_text("".join(f"{it}\n" for it in sys.path if it.endswith("-packages")))
    words = ["install", "-q", "--no-index", "--no-build-isolation", next(releases[0].glob(request.param))]
    ran([sys.executable, "-m", "pip", "--python", python, *words], folder, bare)
    assert ran([python, "-c", "import texting_robots; print(texting_robots.__file__)"], folder, bare).startswith(site)
    return python


@pytest.mark.parametrize("text, lines", [(PACKAGES["python"], 8), (README, 2)], ids=["package", "repository"])
def test_lines_of_the_readme_in_python(python, bare, tmp_path, text, lines):
    (tmp_path / "README.md").write_text(text)
    words = "import doctest, sys; failed, tried = doctest.testfile('README.md', module_relative=False); print(tried); sys.exit(failed)"
    assert int(ran([python, "-c", words], tmp_path, bare)) >= lines


SERVED = {"/robots.txt": b"# \xff\nUser-agent: FerrisBot\nDisallow: /private/\n", "/": b'<a href="/private/x">x</a> <a href="/public">y</a>'}

SPIDER = """
import scrapy

class Spider(scrapy.Spider):
    name = "small"

    def parse(self, response):
        yield from response.follow_all(css="a", callback=self.parse)
"""


@contextlib.contextmanager
def served(pages):
    """The address of these pages, while they are served, and what is fetched."""
    fetched = []

    class Handler(BaseHTTPRequestHandler):
        def do_GET(self):
            fetched.append(self.path)
            self.send_response(200)
            self.send_header("Content-Type", "text/html")
            self.end_headers()
            self.wfile.write(pages.get(self.path, b""))

        def log_message(self, *_):
            pass

    with ThreadingHTTPServer(("127.0.0.1", 0), Handler) as server:
        threading.Thread(target=server.serve_forever, kwargs={"poll_interval": 0.05}).start()
        yield f"http://127.0.0.1:{server.server_address[1]}/", fetched
        server.shutdown()


def test_scrapy_project_obeys_a_damaged_file(python, bare, tmp_path):
    """Made by `scrapy startproject`, with the lines of settings that the README of the package has."""
    pytest.importorskip("scrapy")
    settings = sorted(set(re.findall(r"(?:^ {4}|`)(ROBOTSTXT_\w+ = [^`\n]+)", section(PACKAGES["python"], "Scrapy"), re.M)))
    assert len(settings) == 3
    with served(SERVED) as (address, fetched):
        ran([python, "-m", "scrapy", "startproject", "small", "."], tmp_path, bare)
        with open(tmp_path / "small/settings.py", "a") as file:
            file.write("\n".join(["", *settings, ""]))
        (tmp_path / "small/spiders/small.py").write_text(SPIDER.replace('"small"', f'"small"\n    start_urls = ["{address}"]'))
        ran([python, "-m", "scrapy", "crawl", "small", "-s", "TELNETCONSOLE_ENABLED=0"], tmp_path, bare)
    assert sorted(set(fetched)) == ["/", "/public", "/robots.txt"]


# ---- C


@pytest.fixture(scope="module")
def tree(releases, tmp_path_factory):
    """The folder into which the tarball of the C library is unpacked."""
    folder = tmp_path_factory.mktemp("c")
    ran(["tar", "-xzf", next(releases[0].glob("robots_c-*"))], folder, os.environ)
    return next(folder.iterdir())


ASKED = ["Ferris", "/a"], b"Disallow: /a", Result(1, b"delay none\ndeny 1 /a\n", b"")


@pytest.mark.parametrize("linked, folder", [("shared", "plain"), ("static", "plain"), ("shared", "with a space")])
def test_c_library_through_pkg_config(tree, bare, tmp_path, linked, folder):
    if not shutil.which("pkg-config"):
        pytest.skip("pkg-config is missing")
    tree = shutil.copytree(tree, tmp_path / folder, symlinks=True)
    path = {"PKG_CONFIG_PATH": f"{tree}/lib/pkgconfig"}
    words = shlex.split(ran(["pkg-config", "--cflags", "--libs", "robots_c"], tmp_path, bare | path))
    way = [f"-Wl,-rpath,{tree}/lib"] if linked == "shared" else ["-static"]
    ask = compiled(tmp_path / "ask", tree / "share/doc/robots_c/ask.c", *words, *way)
    assert run(ask, *ASKED[:2], cwd=tmp_path, env=bare) == ASKED[2]


def test_c_library_as_the_guide_says(file, bare, tmp_path):
    shutil.copy(file("robots_c-*"), tmp_path)
    lines = shown(section((ROOT / "bindings/c/README.md").read_text(), "Install"))
    ended = subprocess.run(["bash", "-c", lines], cwd=tmp_path, env=bare, capture_output=True, text=True)
    assert Result(ended.returncode, ended.stdout, ended.stderr) == Result(1, "robots https://example.com/robots.txt\ndelay none\ndeny 1 https://example.com/a\n", "")


@pytest.mark.parametrize("target", ["robots_c", "shared"])
def test_c_library_through_cmake(tree, bare, tmp_path, target):
    if not shutil.which("cmake"):
        pytest.skip("cmake is missing")
    shutil.copy(tree / "share/doc/robots_c/ask.c", tmp_path)
    (tmp_path / "CMakeLists.txt").write_text(CMAKE.format(target=target))
    for words in (["-S", ".", "-B", "out", f"-DCMAKE_PREFIX_PATH={tree}"], ["--build", "out"]):
        ran(["cmake", *words], tmp_path, bare)
    assert run(tmp_path / "out/ask", *ASKED[:2], cwd=tmp_path, env=bare) == ASKED[2]


# ---- Rust


def unpack_crate(path, source):
    """Adds a crate to a directory source."""
    ran(["tar", "-xzf", path], source, os.environ)
    folder = source / path.name.removesuffix(".crate")
    sums = {it.relative_to(folder).as_posix(): hashlib.sha256(it.read_bytes()).hexdigest() for it in folder.rglob("*") if it.is_file()}
    (folder / ".cargo-checksum.json").write_text(json.dumps({"files": sums, "package": hashlib.sha256(path.read_bytes()).hexdigest()}))


def directory_source(crates, folder, bare):
    """Replaces crates.io by a folder of the crates, first that of the C library, and returns the lines of Cargo.toml."""
    (folder / "source").mkdir()
    for path in sorted(crates):
        unpack_crate(path, folder / "source")
    (folder / ".cargo").mkdir()
    (folder / ".cargo/config.toml").write_text('[source.crates-io]\nreplace-with = "release"\n[source.release]\ndirectory = "source"\n')
    return f'[dependencies]\ntexting_robots_verified = "{VERSION}"\n'


def as_the_readme_says(crates, folder, bare):
    """Does what the README says, and returns its lines of Cargo.toml."""
    for path in crates:
        shutil.copy(path, folder)
    ran(["bash", "-ec", code(PACKAGES["rust"], "sh")[0]], folder, bare)
    return code(PACKAGES["rust"], "toml")[0]


@pytest.mark.parametrize("way", [directory_source, as_the_readme_says])
def test_lines_of_the_readme_in_rust(releases, bare, tmp_path, way):
    depends = way([*releases[0].glob("*.crate")], tmp_path, bare)
    (tmp_path / "Cargo.toml").write_text(f'[package]\nname = "caller"\nversion = "0.1.0"\nedition = "2021"\n{depends}')
    (tmp_path / "src").mkdir()
    (tmp_path / "src/main.rs").write_text(code(PACKAGES["rust"], "rust")[0])
    ran(["cargo", "build", "--offline"], tmp_path, bare | {"CARGO_TARGET_DIR": str(tmp_path / "target")})
    ran([tmp_path / "target/debug/caller"], tmp_path, bare)


CALLER = """
use texting_robots::Robot;

fn main() -> Result<(), Box<dyn std::error::Error>> {
    assert!(!Robot::new("FerrisBot", b"Disallow: /a")?.allowed("/a"));
    Ok(())
}
"""


@pytest.mark.skipif(not HAS_CRATES, reason="librust-anyhow-dev or librust-url-dev is missing")
def test_a_caller_of_the_former_crate(releases, bare, tmp_path):
    """By the lines of Cargo.toml that the page of the crate with its API has, where Debian's crates are the only ones."""
    as_the_readme_says([*releases[0].glob("*.crate")], tmp_path, bare)
    (tmp_path / ".cargo").mkdir()
    config = '[source.crates-io]\nreplace-with = "debian"\n[source.debian]\ndirectory = "/usr/share/cargo/registry"\n'
    (tmp_path / ".cargo/config.toml").write_text(config)
    (depends,) = code(PAGES["bindings/rust/compat/README.md"], "toml")
    (tmp_path / "Cargo.toml").write_text(f'[package]\nname = "caller"\nversion = "0.1.0"\nedition = "2021"\n{depends}')
    (tmp_path / "src").mkdir()
    (tmp_path / "src/main.rs").write_text(CALLER)
    ran(["cargo", "build", "--offline"], tmp_path, bare | {"CARGO_TARGET_DIR": str(tmp_path / "target")})
    ran([tmp_path / "target/debug/caller"], tmp_path, bare)


# ---- the programs


def test_the_report_of_the_readme(file, bare, tmp_path):
    """The commands from a release print the report of the first command, with the file's name there."""
    shutil.copy(file("robots_audit-*.tar.gz"), tmp_path)
    ended = subprocess.run(["bash", "-ec", shown(section(README, "Build the packages"))], cwd=tmp_path, env=bare, capture_output=True, text=True)
    report = "".join(shown(README.split("prints:")[1]).splitlines(keepends=True)[2:11])  # without the names of what was built
    assert (ended.returncode, ended.stdout + ended.stderr) == (1, report.replace("examples/robots.txt:", "share/doc/robots_audit/robots.txt:"))


@pytest.mark.parametrize("name, words", [("robots_audit", ["--version"]), ("robots_verdict", [])])
def test_a_program_on_an_older_processor(name, words):
    if not shutil.which("qemu-x86_64"):
        pytest.skip("qemu-x86_64 is missing")
    result = run(Path(shutil.which("qemu-x86_64")), ["-cpu", "Conroe", program(name), *words], b"a\n\n")
    assert (result.status, result.out) == (127, "") and "this machine lacks a feature of x86-64-v2" in result.err


@pytest.mark.parametrize("name", ["robots_audit", "robots_verdict"])
def test_manual_pages_are_well_formed(name):
    if not shutil.which("groff"):
        pytest.skip("groff is missing")
    ended = subprocess.run(["groff", "-man", "-Tascii", "-ww", ROOT / f"man/{name}.1"], capture_output=True, text=True)
    assert (ended.returncode, ended.stderr) == (0, "") and "EXIT STATUS" in re.sub(r".\x08|\x1b\[\d*m", "", ended.stdout)
