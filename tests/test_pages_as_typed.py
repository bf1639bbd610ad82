"""The pages on which a reader types commands: a page's files and commands, taken in their order, print what the page shows."""

import os
import re
from pathlib import Path

import pytest
from support import DOCUMENTS, program, run

PARTS = re.compile(r"[Ss]ave\s+this[^`]*`(?P<name>[\w.]+)`:\n\n```\n(?P<file>(?:.*\n)*?)```$|(?P<between>prints:\n\n)?(?P<block>(?:^ {4}.*\n)+)", re.M)


def steps(page):
    """A page's files, commands, and what the commands before print, in the page's order, each as what it is and its text."""
    for it in PARTS.finditer(page):
        if it["name"]:
            yield it["name"], it["file"]
        else:
            yield "printed" if it["between"] else "commands", re.sub("^    ", "", it["block"], flags=re.M)


@pytest.mark.parametrize("name", ["docs/TUTORIAL.md", "docs/FAQ.md"])
def test_page_shows_what_its_commands_print(name, tmp_path):
    (tmp_path / "bin").mkdir()
    (tmp_path / "bin/robots_audit").symlink_to(program("robots_audit"))
    environment = os.environ | {"PATH": f"{tmp_path}/bin:{os.environ['PATH']}"}
    result, compared = None, 0
    for kind, text in steps(DOCUMENTS[name]):
        if kind == "printed":
            assert result.out == text
            compared += 1
        elif kind == "commands":
            result = run(Path("/bin/bash"), ["-c", f"exec 2>&1\n{text}"], cwd=tmp_path, env=environment)
            assert result.status in (0, 1), text
        else:
            (tmp_path / kind).write_text(text)
    assert compared
