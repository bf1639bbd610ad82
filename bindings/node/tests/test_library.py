"""The package for Node: what it checks itself (library.cjs), its types, and that it agrees with the native library."""

import base64
import ctypes
import json
import os
import random
import re
import runpy
import shutil
import subprocess
from pathlib import Path

import pytest
from in_node import node
from support import ROOT

HERE = Path(__file__).resolve().parent
CHECKS = re.findall(r'^check\("(.*)", ', (HERE / "library.cjs").read_text(), re.M)
FILES = int(os.environ.get("NODE_FILES", 2000))
LARGEST = 560_000  # bytes of robots.wasm, if it was compiled as for a release


@pytest.mark.parametrize("name", CHECKS)
def test_check(packages, name):
    assert node("--expose-gc", HERE / "library.cjs", packages["texting-robots"], name) == "ok\n"


# ---- as the native library

PIECES = [*"/ab*$%?#:.-_~ \t", "%41", "\u00e9", "\udcff", "\U0001f600", "%c3%a9", "%e9"]
KEYS = ["User-agent: Bot", "user-agent:*", "User-agent: o", "Disallow:", "Allow:", "disallow", "Allow: /", "Disallow: /", "Disallow: /"]
KEYS += ["Crawl-delay: 1", "crawl-delay: 0.", "Sitemap: /", "Sitemap: http://x/", "#", ""]
HOSTS = ["/", "https://example.com/", "/a", "http://b\u00fccher.example:8080/", "HTTPS://u:p@EXAMPLE.com:443/../", "//h/", "example.com/a", "ftp://x/", "https:/x\\y/"]
READINGS = ["crate", "rfc9309"]
CODES = {-5: "NO_ROBOTS_URL", -6: "OVERLONG_RULE", -8: "TOO_COSTLY"}
SIZE, POINTER = ctypes.c_size_t, ctypes.c_void_p


class Native:
    """The calls of the shared object that the package has too."""

    def __init__(self, path):
        self.library = ctypes.CDLL(str(path))
        for name in ("robots_memory", "robots_site_memory"):
            getattr(self.library, name).restype = SIZE
        self.library.robots_cost.restype = ctypes.c_uint64
        self.out = ctypes.create_string_buffer(1 << 16)

    def number(self, name, kind, *words):
        """The number that a call writes, or its status as the package has it."""
        found = kind()
        status = getattr(self.library, name)(*words, ctypes.byref(found))
        return found.value if status == 0 else CODES.get(status)

    def text(self, name, *words):
        length = self.number(name, SIZE, *words, self.out, SIZE(len(self.out)))
        return self.out.raw[:length].decode() if isinstance(length, int) else length

    def opened(self, name, *words):
        """What a call opens, or its status."""
        found = POINTER()
        status = getattr(self.library, name)(*words, ctypes.byref(found), *[None] * ("site_open" not in name))
        return found if status == 0 else CODES[status]

    def results(self, agent, file, urls, reading):
        """As agree.cjs has them."""
        name, by_rfc9309 = passed(agent), reading == "rfc9309"
        site = self.opened("robots_site_open" + "_rfc9309" * by_rfc9309, *passed(file))
        robot = self.opened("robots_site_robot", site, *name) if by_rfc9309 else self.opened("robots_open", *name, *passed(file))
        texts = [self.text(call, site).split("\n")[:-1] for call in ("robots_site_sitemaps", "robots_site_agents")]
        texts += [self.library.robots_site_is_named(site, *name) == 1, self.library.robots_site_memory(site)]
        texts.append(self.seconds("robots_site_delay", site, *name))
        if isinstance(robot, str):
            of_robot, verdicts = robot, [[robot, robot] for _ in urls]
        else:
            cost = self.library.robots_cost(robot, SIZE(40))
            of_robot = [self.library.robots_memory(robot), self.seconds("robots_delay", robot), cost]
            verdicts = [self.verdicts(robot, url) for url in urls]
            self.library.robots_close(robot)
        self.library.robots_site_close(site)
        return [texts, of_robot, verdicts]

    def seconds(self, name, *words):
        delay = self.number(name, ctypes.c_uint64, *words)
        return delay if delay is None else delay / 1e6

    def verdicts(self, robot, url):
        verdict = self.number("robots_verdict", ctypes.c_int64, robot, *passed(url))
        within = self.number("robots_verdict_within", ctypes.c_int64, robot, *passed(url), ctypes.c_uint64(30))
        return [verdict, verdict >= 0, verdict, within, self.text("robots_url", *passed(url))]


def passed(text):
    """A text as C has it."""
    data = text if isinstance(text, bytes) else text.encode()
    return data, SIZE(len(data))


def random_case(chance):
    def text(most):
        return "".join(chance.choices(PIECES, k=chance.randrange(most)))

    lines = [chance.choice(KEYS) + text(9) + chance.choice(["\n", "\n", "\r\n", "\r", "\0"]) for _ in range(chance.randrange(20))]
    if chance.randrange(50) == 0:
        lines.append("Disallow: /" + "a" * 4096 + "$\n")
    urls = [chance.choice(HOSTS) + text(11).replace("\udcff", "") for _ in range(6)]
    return chance.choice(["Bot", "bot", "o", "*", "other", "\u00e9", ""]), "".join(lines).encode("utf-8", "surrogateescape"), urls


def as_numbers(value):
    """JSON of Python and of JavaScript differ in the numbers that are whole."""
    if isinstance(value, list):
        return [as_numbers(it) for it in value]
    return int(value) if isinstance(value, float) and value.is_integer() else value


def test_random_files(packages, shared_object, tmp_path):
    chance, native = random.Random(1), Native(shared_object)
    with (tmp_path / "cases").open("w") as out:
        for number in range(FILES):
            agent, file, urls = random_case(chance)
            reading = READINGS[number % 2]
            wanted = as_numbers(native.results(agent, file, urls, reading))
            given = {"agent": agent, "file": base64.b64encode(file).decode(), "urls": urls, "reading": reading, "wanted": wanted}
            out.write(json.dumps(given) + "\n")
    with (tmp_path / "cases").open() as lines:
        found = json.loads(node(HERE / "agree.cjs", packages["texting-robots"], stdin=lines, timeout=900))
    assert found["wrong"] == []
    assert found["files"] == FILES and found["count"] > 30 * FILES


# ---- the package

def test_size_of_the_module(packages):
    """Of the one for a release, which is proved."""
    if not os.environ.get("NODE_PACKAGES"):
        pytest.skip("the module isn't compiled as for a release")
    assert (packages["texting-robots"] / "lib/robots.wasm").stat().st_size <= LARGEST


TYPES = """import { Robot, RobotCache, RobotsError, Site, Verdict, productToken, responseMeaning, robotsUrl, DENY_ALL_FILE } from "texting-robots";
const robot = new Robot("FerrisBot", new Uint8Array(9)), verdict: Verdict = robot.verdict(new URL("https://example.com/"));
const line: number | null = verdict.line, delay: number | undefined = robot.delay, sitemaps: string[] = new Site("").sitemaps;
const meaning: "parse" | "follow" | "allowAll" | "denyAll" = responseMeaning({ status: 200 });
const kept: Robot | undefined = new RobotCache(productToken("x/1"), { budget: 1e6, reading: "crate" }).get(robotsUrl("https://example.com/"));
new Robot("x", "", { reading: "rfc9309" }).free();
try { robot.free(); } catch (error) { if (error instanceof RobotsError && error.code === "FREED") throw DENY_ALL_FILE; }
export { line, delay, sitemaps, meaning, kept };
"""
PLAIN = """import { Robot, RobotCache, Site, responseMeaning, robotsUrl } from "texting-robots";
declare const url: { readonly href: string, toString(): string };
declare const status: number | undefined, reading: "crate" | "rfc9309" | undefined, isComplete: boolean | undefined;
responseMeaning({ status, redirects: status, hasLocation: isComplete, isComplete });
const cache = new RobotCache("x", { budget: status, lifetime: status, reading });
export const isAllowed: boolean = cache.set(url, "", { lifetime: status }).allowed(url) && new Robot("x", "", { reading }).allowed(robotsUrl(url));
new Site("", { reading }).free();
"""
WRONG = {
    "robot.allowed(5)": "Argument of type 'number'",
    "robot.verdict('/').line = 5": "read-only",
    "new Robot('x')": "Expected 2-3 arguments",
    "new RobotsError()": "is private",
    "responseMeaning({ status: '200' })": "Type 'string'",
    "new Site('', { reading: 'google' })": "Type '\"google\"'",
    "new Site('', { reding: 'crate' })": "Argument of type '{ reding",
}


def compiled(folder, source, suffix=".ts", **options):
    """What TypeScript says of this source."""
    (folder / f"use{suffix}").write_text(source)
    (folder / "package.json").write_text(json.dumps({"type": "module" if suffix == ".mts" else "commonjs"}))
    options = {"noEmit": True, "strict": True, "target": "es2020", "lib": ["es2020", "dom"], "types": [], "module": "node16"} | options
    (folder / "tsconfig.json").write_text(json.dumps({"compilerOptions": options, "files": [f"use{suffix}"]}))
    return subprocess.run(["tsc", "-p", "."], cwd=folder, capture_output=True, text=True, timeout=120).stdout


@pytest.fixture
def project(packages, tmp_path):
    """A folder in which the packages are installed."""
    for name, folder in packages.items():
        shutil.copytree(folder, tmp_path / "node_modules" / name)
    return tmp_path


needs_tsc = pytest.mark.skipif(not shutil.which("tsc"), reason="tsc is missing")


@needs_tsc
@pytest.mark.parametrize("suffix, module", [(".ts", "commonjs"), (".ts", "node16"), (".mts", "node16")])
def test_types(project, suffix, module):
    source = TYPES + "".join(f"{it};\n" for it in WRONG)
    found = re.findall(r"^use\S* error (.*)$", compiled(project, source, suffix, module=module, moduleResolution="node16" if module == "node16" else "node"), re.M)
    assert len(found) == len(WRONG) and all(it in line for it, line in zip(WRONG.values(), found)), found


INIT = """import { init } from "texting-robots/init";
const robots = await init(new Uint8Array(9));
const allowed: boolean = new robots.Robot("x", "").allowed("/");
export { allowed };
"""


@needs_tsc
def test_types_of_the_entry_without_files(project):
    assert compiled(project, INIT, ".mts", target="es2022") == ""


@needs_tsc
@pytest.mark.parametrize("suffix", [".ts", ".mts"])
def test_types_need_none_of_browsers(project, suffix):
    """And an option may be undefined."""
    assert compiled(project, PLAIN + INIT * (suffix == ".mts"), suffix, target="es2022", lib=["es2022"], exactOptionalPropertyTypes=True) == ""


FACADE = """import robotsParser from "texting-robots-parser";
import type { Robot } from "texting-robots-parser";
const robots: Robot = robotsParser("https://example.com/robots.txt", "", { reading: "rfc9309" });
export const allowed: boolean | undefined = robots.isAllowed("https://example.com/", "x");
"""


@needs_tsc
@pytest.mark.parametrize("suffix, module, interoperates", [(".ts", "commonjs", False), (".ts", "commonjs", True), (".mts", "node16", True), (".ts", "node16", False)])
def test_types_of_the_facade(project, suffix, module, interoperates):
    resolution = "node16" if module == "node16" else "node"
    assert compiled(project, FACADE, suffix, lib=["es2020"], module=module, moduleResolution=resolution, esModuleInterop=interoperates) == ""


def test_packages_have_all_they_name(packages):
    """Each file that package.json names, licences, and no dependency; its version is the project's."""
    for name, folder in packages.items():
        metadata = json.loads((folder / "package.json").read_text())
        assert metadata["name"] == name and metadata["version"] == (ROOT / "VERSION").read_text().strip()
        assert not {"dependencies", "scripts"} & metadata.keys()
        named = re.findall(r'"(?:\./)?((?:lib|bin)/[^"*]+)"', json.dumps(metadata))
        assert named and all((folder / it).is_file() for it in named)
        assert {"README.md", "LICENSE-MIT", "LICENSE-APACHE", "LICENSE-LIBRARIES"} <= {it.name for it in folder.iterdir()}


def test_a_release_adds_addresses(tmp_path):
    """To the metadata of each package."""
    (tmp_path / "ADDRESSES").write_text("repository = https://example.org/robots\ncontact = robots@example.org\n")
    add_addresses = runpy.run_path(str(ROOT / "release"))["add_addresses"]
    for path in HERE.parent.glob("*/package.json"):
        shutil.copy(path, tmp_path)
        add_addresses(tmp_path / "package.json", tmp_path / "ADDRESSES")
        wanted = {"repository": "https://example.org/robots", "bugs": {"email": "robots@example.org"}}
        assert json.loads((tmp_path / "package.json").read_text()) == json.loads(path.read_text()) | wanted


@pytest.mark.skipif(not shutil.which("npm"), reason="npm is missing")
def test_npm_installs_the_archives(archives, tmp_path):
    """Without a network, and the facade in place of robots-parser, for a program that depends on one that needs that."""
    crawler = tmp_path / "crawler"
    crawler.mkdir()
    (crawler / "package.json").write_text(json.dumps({"name": "crawler", "version": "1.0.0", "dependencies": {"robots-parser": "^3.0.1"}}))
    (crawler / "index.js").write_text('module.exports = require("robots-parser");')
    archive = {name: f"file:{path}" for name, path in archives.items()}
    needed = {"texting-robots": archive["texting-robots"], "crawler": "file:./crawler", "robots-parser": archive["texting-robots-parser"]}
    metadata = {"name": "project", "version": "1.0.0", "dependencies": needed, "overrides": {"robots-parser": "$robots-parser"}}
    (tmp_path / "package.json").write_text(json.dumps(metadata))
    environment = {"PATH": os.environ["PATH"], "HOME": str(tmp_path), "npm_config_offline": "true", "npm_config_update_notifier": "false"}
    words = ["npm", "install", "--no-audit", "--no-fund", "--install-links"]
    ended = subprocess.run(words, cwd=tmp_path, env=environment, capture_output=True, text=True, timeout=120)
    assert ended.returncode == 0, ended.stderr
    source = """const { Robot } = require("texting-robots"), parser = require("crawler"), file = "User-agent: *\\nDisallow: /search";
        console.log(new Robot("x", file).allowed("/search"), parser("https://a.example/robots.txt", file).isAllowed("https://b.example/search"));"""
    assert node("-e", source, cwd=tmp_path) == "false undefined\n"
