"""The READMEs of the packages: their examples do what they say, and so does the crawler, on servers of this machine."""

import contextlib
import json
import os
import re
import shutil
import threading
import time
from http.server import BaseHTTPRequestHandler, ThreadingHTTPServer
from pathlib import Path

import pytest
from in_node import node
from support import PAGES, program, run
from test_documents import code

LIBRARY, PARSER, AUDIT = (PAGES[f"bindings/node/{name}/README.md"] for name in ("library", "robots-parser", "audit"))


@pytest.mark.parametrize("name", PAGES)
def test_commands_name_files(name):
    """Nothing is installed by a name, which a registry could have for another package."""
    assert not re.search(r"\b(?:npx|npm install(?: --save-dev)?) (?!\./|--)[a-z`]", re.sub(r"`n\w+ ?\w*`", "", PAGES[name]))


@pytest.fixture
def project(packages, tmp_path):
    """A folder in which the packages are installed, the facade in place of robots-parser."""
    for name, folder in packages.items():
        shutil.copytree(folder, tmp_path / "node_modules" / {"texting-robots-parser": "robots-parser"}.get(name, name))
    return tmp_path


@pytest.mark.parametrize("text, block, count", [(LIBRARY, 0, 2), (LIBRARY, 1, 7), (PARSER, 0, 3)], ids=["readings", "library", "robots-parser"])
def test_lines_of_the_readme_in_javascript(project, text, block, count):
    """Each line with a value in its comment has this value."""
    lines, checked = ['const assert = require("node:assert");'], 0
    for line in code(text, "js")[block].splitlines():
        found = re.fullmatch(r"(?!const )(.*); // (.*)", line)
        lines.append(f"assert.deepStrictEqual({found[1]}, {found[2]});" if found else line)
        checked += found is not None
    node("-e", "\n".join(lines), cwd=project)
    assert checked == count


def test_code_before_and_after_finds_the_same_in_javascript(project):
    """That of the page for those who move from robots-parser, for a file that both read alike."""
    given = 'const url = "https://example.com/search/tea", text = "User-agent: *\\nDisallow: /search\\nCrawl-delay: 2", body = Buffer.from(text);\n'
    page = PAGES["docs/MOVING.md"].split("\n## robots-parser for JavaScript\n")[1].split("\n## ")[0]
    found = [node("-e", f"{given}{it}console.log(allowed, delay);", cwd=project) for it in code(page, "js")]
    assert found == ["false 2\n", "false 2\n"]


def test_script_of_a_project(tmp_path):
    """It checks expectations and then warnings. The program stands in for the command, which is tested to be as it."""
    (script,) = json.loads(code(AUDIT, "json")[0])["scripts"].values()
    (tmp_path / "robots_audit").symlink_to(program("robots_audit"))
    (tmp_path / "expect.txt").write_text("deny Googlebot /private/tea\n")
    environment = {"PATH": f"{tmp_path}:{os.environ['PATH']}"}
    for rules, status in [("Disallow: /private\n", 0), ("Disallow: /search\n", 1), ("Disallow: /private\nDisalow: /\n", 3)]:
        (tmp_path / "robots.txt").write_text(f"User-agent: *\n{rules}")
        assert run(Path("/bin/sh"), ["-c", script], cwd=tmp_path, env=environment).status == status


@contextlib.contextmanager
def served(answers, asked):
    """The address of a server with these answers: for a path a status, a text, and possibly other headers. It notes the paths that were asked."""

    class Handler(BaseHTTPRequestHandler):
        def do_GET(self):
            asked.append(self.path)
            if self.path == "/slow":
                time.sleep(5)
            status, text, *headers = answers.get(self.path, (404, ""))
            self.send_response(status)
            for header in {"Content-Length": len(text), **dict(*headers)}.items():
                self.send_header(header[0], str(header[1]))
            self.end_headers()
            self.wfile.write(text.encode())

        def log_message(self, *words):
            pass

    server = ThreadingHTTPServer(("127.0.0.1", 0), Handler)
    threading.Thread(target=server.serve_forever, daemon=True).start()
    try:
        yield f"http://127.0.0.1:{server.server_address[1]}"
    finally:
        server.shutdown()
        server.server_close()


def test_crawler_of_the_readme(project):
    """It fetches nothing that a file denies, also as the target of a redirect. Of a file that can't be used, nothing is fetched, and it isn't
    asked for again at once."""
    (crawler,) = [it for it in code(LIBRARY, "js") if "async function page" in it]
    assert len(crawler.splitlines()) <= 50
    rules = "User-agent: FerrisBot\nDisallow: /private\nCrawl-delay: 0\n"
    file, page = {"/robots.txt": (200, rules)}, {"/a": (200, "text"), "/b": (200, "text")}
    to = {f"/to{at}": (302, "", {"Location": target}) for at, target in enumerate(["/private/secret", "/a", "/to2", "file:/a", "/to0"])}
    sites = {
        "good": file | page | to | {"/private/secret": (200, "secret"), "/slow": (200, "late"), "/none": (204, "")},
        "missing": page,
        "empty": {"/robots.txt": (204, "")} | page,
        "down": {"/robots.txt": (503, "")} | page,
        "cut": {"/robots.txt": (200, rules, {"Content-Length": 999})} | page,
        "long": {"/robots.txt": (200, f"{rules}Disallow: /{'a' * 4096}$")} | page,
        "lost": {"/robots.txt": (301, "", {"Location": "http://["})} | page,
    }
    asked = {name: [] for name in [*sites, "moved"]}
    with contextlib.ExitStack() as stack:
        at = {name: stack.enter_context(served(answers, asked[name])) for name, answers in sites.items()}
        moved = {"/robots.txt": (302, "", {"Location": f"{at['good']}/robots.txt"}), "/out": (302, "", {"Location": f"{at['down']}/a"})} | page
        at["moved"] = stack.enter_context(served(moved, asked["moved"]))
        wanted = {f"{at['good']}{path}": text for path, text in {"/a": "text", "/private": None, "/to0": None, "/to1": "text", "/to2": None, "/to4": None, "/none": ""}.items()}
        wanted |= {f"{at['good']}/to3": "RobotsError", f"{at['good']}/slow": "TimeoutError", "ftp://x/": "RobotsError", "http://127.0.0.1:1/a": None}
        wanted |= {f"{at[name]}/{letter}": "text" if name in ("missing", "empty", "moved") else None for name in at if name != "good" for letter in "ab"}
        wanted |= {f"{at['moved']}/private": None, f"{at['moved']}/out": None}
        script = crawler.replace("30_000", "2000").replace("robot.delay ?? 1", "robot.delay ?? 0") + f"""
            (async () => {{
              const pages = {{}};
              for (const it of {json.dumps([*wanted])}) pages[it] = await page(it).catch(error => error.name) ?? null;
              console.log(JSON.stringify(pages));
            }})();"""
        found = json.loads(node("-e", script, cwd=project))
    assert found == wanted
    assert "/private/secret" not in asked["good"] and asked["good"].count("/to2") == 6
    assert [asked[name].count("/robots.txt") for name in at] == [2] + 7 * [1]
    assert not [name for name in ("down", "cut", "long", "lost") if set(asked[name]) != {"/robots.txt"}]
