"""The comparison with other parsers: its results, and what docs/COMPATIBILITY.md and docs/BENCHMARKS.md have of them."""

import re
import statistics
import subprocess
import sys
import urllib.robotparser

import package
import pytest
from support import DOCUMENTS, ROOT, bytes_in, rows_under, tables
from test_documents import section

from texting_robots import Site

sys.path.insert(0, str(ROOT / "bench"))
import corpus  # noqa: E402

COLUMNS = ("Difference", "Parser", "File", "URL")


def results(text, url):
    """Whether FerrisBot may fetch the URL, for the parsers that are installed and for this library."""
    protego = pytest.importorskip("protego")
    parser = urllib.robotparser.RobotFileParser()
    parser.parse(text.decode().splitlines())
    theirs = {"Protego": protego.Protego.parse(text.decode()).can_fetch(url, "FerrisBot"), "urllib": parser.can_fetch("FerrisBot", url)}
    return {**theirs, "here": Site(text).allowed(url, "FerrisBot")}


@pytest.mark.parametrize("difference, parsers, file, url, there, here", rows_under("docs/COMPATIBILITY.md", *COLUMNS))
def test_parser_differs_as_documented(difference, parsers, file, url, there, here):
    words = {True: "allowed", False: "denied"}
    text = bytes_in(file) if "ser-agent" in file else b"User-agent: *\n" + bytes_in(file)
    found = {parser: words[it] for parser, it in results(text, url.strip("`")).items()}
    named = {"Protego", "urllib"} if parsers == "both" else parsers
    assert found == {parser: (there if parser in named else here).split(":")[0] for parser in found}


def test_other_parsers_have_the_same_results_but_for_listed_differences():
    pytest.importorskip("protego")
    assert "### urllib.robotparser" in package.run([ROOT / "bench/compare.py", "--results"])


def test_another_result_that_is_not_listed_is_rejected(tmp_path):
    """Here of a corpus that says nothing of differences."""
    for path in ["bench/compare.py", "bench/corpus.py", "docs/COMPATIBILITY.md"]:
        (tmp_path / path).parent.mkdir(exist_ok=True)
        (tmp_path / path).write_text((ROOT / path).read_text().replace("dict(differs)", "{}"))
    ended = subprocess.run([sys.executable, tmp_path / "bench/compare.py", "--results"], env=package.WITH_PACKAGE, capture_output=True, text=True)
    assert ended.returncode == 1 and "Not timed, as it has other results for blog: https://www.example.com/wp-admin/" in ended.stdout


RUN = tables(section(DOCUMENTS["docs/BENCHMARKS.md"], "One run"))


def rows_of_the_run():
    return [row for row in RUN if row[0] not in ("File", "**median**")]


def test_the_document_has_the_files_of_the_corpus():
    assert [row[:2] for row in rows_of_the_run()] == [[it.name, f"{len(it.file):,}"] for it in corpus.cases()]


def test_the_document_has_only_listed_differences():
    listed = {it.values[0] for it in rows_under("docs/COMPATIBILITY.md", *COLUMNS)}
    named = {name for row in rows_of_the_run() for why in row[-1].split("; ") if why for name in why.split(": ")[1].split(", ")}
    assert named and named <= listed


def test_the_document_and_the_readme_have_the_medians():
    """The README has a bar for each parser, and the first lines of the document have those for Python. Medians may be rounded."""
    (documented,) = [row for row in RUN if row[0] == "**median**"]
    first = {}
    for heading, shown, *numbers in zip(RUN[0], documented, *rows_of_the_run()):
        if heading.endswith(("×", "µs")):
            median, written = statistics.median(float(it.replace(",", "")) for it in numbers), float(shown.strip("*").replace(",", ""))
            assert abs(median - written) <= (0.1 if written < 9.95 else 0.5), heading
            if heading.endswith("first URL, ×"):
                first[re.search(r"Protego|urllib|crate|Google", heading)[0].replace("crate", "Rust")] = written
    bars = re.findall(r"^ +(\w+).* (\S+) +(=+)$", DOCUMENTS["README.md"], re.M)
    assert {name: float(number) for name, number, _ in bars} == {"this": 1, **first}
    assert [len(bar) for _, _, bar in bars] == sorted(round(float(number)) for _, number, _ in bars)
    text = " ".join(DOCUMENTS["docs/BENCHMARKS.md"].split("\n## ")[0].split())
    assert f"Protego takes {first['Protego']:g} times as long as this library, and `urllib.robotparser` {first['urllib']:g} times" in text


def test_a_run_as_the_document_has_it():
    """The times of this library in microseconds, and how many times as long the others take."""
    import compare

    rows = [compare.Row(case, [], compare.Times(1000, 100), compare.Times(44_000, 1800)) for case in corpus.cases()]
    heading, first, *_, last = tables(compare.page({"Protego": rows, "texting_robots": rows}))
    assert heading[2:5] == ["here: first URL, µs", "here: a later URL, µs", "Protego: first URL, ×"] and heading[6] == "crate `texting_robots`: first URL, ×"
    assert first == ["empty", "0", "1.0", "0.1", "44", "18", "44", "18", ""] and last[4] == "**44**"
