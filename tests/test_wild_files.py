"""Whole robots.txt files, like those that occur: `robots_audit` warns of what their owners got wrong, and gives at most notes on healthy ones."""

import json
import tomllib

import pytest
from support import ROOT, run

WILD = ROOT / "tests/wild"
FILES = tomllib.loads((WILD / "files.toml").read_text())
each_file = pytest.mark.parametrize("file", FILES)
for_one_or_all = pytest.mark.parametrize("for_all", [False, True], ids=["for one crawler", "for all crawlers"])


def warnings(file, for_all):
    row = FILES[file]
    crawler = [] if for_all else ["--agent", row.get("agent", "Googlebot")]
    urls = [f"https://example.com{path}" for path in row.get("urls", ["/"])]
    return json.loads(run("robots_audit", ["--json", *crawler, WILD / file, *urls]).out)["findings"]


@each_file
@for_one_or_all
def test_faults_are_found(file, for_all):
    row = FILES[file]
    wanted = {*row.get("gives", []), *(row.get("to_all", []) if for_all else [])}
    assert wanted - {warning["name"] for warning in warnings(file, for_all)} == set()


@pytest.mark.parametrize("file", [file for file, row in FILES.items() if row.get("healthy")])
@for_one_or_all
def test_healthy_files_have_notes_at_most(file, for_all):
    assert [warning for warning in warnings(file, for_all) if warning["level"] != "note"] == []


def test_a_misspelled_crawler_is_found_by_an_expectation(tmp_path):
    """An audit doesn't say to whom the site is open."""
    expected = tmp_path / "expect.txt"
    expected.write_text("deny Google-Extended /\ndeny ChatGPT-User /\n")
    result = run("robots_audit", ["--expect", expected, WILD / "misspelled-names.txt"])
    told = [f"{expected}:{line}: {name} must be denied /, but no rule denies it\n" for line, name in [(1, "Google-Extended"), (2, "ChatGPT-User")]]
    assert (result.status, result.out) == (1, "".join(told))


def test_each_file_is_tried():
    assert {path.name for path in WILD.glob("*.txt")} == {*FILES}
