"""`--list-warnings` prints tests/warnings.txt; each example of `--explain` triggers its warning, and each corrected one doesn't."""

import re
import shlex
import tomllib

import pytest
from support import ALL_WARNINGS, CRATES, ROOT, WARNINGS, run, spelled

PART = r"(\S.*)\nfor example:\n((?:    .*\n)+)(?:instead:\n((?:    .*\n)+))?"


LISTED = (ROOT / "tests/warnings.txt").read_text()


def explained(name):
    """What an explanation has for each message: its line, an example and a corrected one; and the lines below."""
    result = run("robots_audit", ["--explain", name])
    assert (result.status, result.err) == (0, "")
    parts = re.findall(PART, result.out)
    return parts, re.sub(PART, "", result.out).splitlines()


def given(example, folder):
    """The warnings that are given for the file that an example shows, with the arguments that it names."""
    file = spelled(re.sub("^    ", "", example, flags=re.M).removesuffix("\n"))
    named = re.match(rb"# robots_audit (.+)\n", file) or re.fullmatch(rb"robots_audit (.+)", file)
    (folder / "robots.txt").write_bytes(file)
    return run("robots_audit", shlex.split(named[1].decode()) if named else ["-"], file, cwd=folder).err


def test_list():
    result = run("robots_audit", ["--list-warnings"])
    assert (result.status, result.out, result.err) == (0, LISTED, "")


@pytest.mark.parametrize("name", WARNINGS)
def test_explanation(name, tmp_path):
    """What is given for an example without the mistake may be a note, if the mistake was an error."""
    parts, below = explained(name)
    assert [part[0] for part in parts] == [line for line in LISTED.splitlines() if line.split(" ")[1] == f"{name}:"]
    for line, example, corrected in parts:
        level, message = line.split()[0], line.split(": ", 1)[1]
        shown = re.sub(r"(?:URL|crawler) '.*?': | \([^)]*\)(?= \[)", "", given(example, tmp_path))
        assert f"{level}: {message} [{name}]" in shown
        left = given(corrected, tmp_path) if corrected else ""
        assert f"[{name}]" not in left or level == "error" and not re.search(" (error|warning): ", left)
    assert [line.split(":")[0] for line in below] in (["given"], ["given", "proved"])


def test_sentences_about_proofs():
    """What explanations say that is proved, and the theorems, are those of tests/theorems.toml."""
    rows = tomllib.loads((ROOT / "tests/theorems.toml").read_text())["proved"]
    printed = []
    for name in WARNINGS:
        for line in explained(name)[1]:
            if line.startswith("proved: "):
                found = re.findall(r"(\S.*?) \(theorem (\w+)\)(?:; |$)", line.removeprefix("proved: "))
                assert "; ".join(f"{sentence} (theorem {theorem})" for sentence, theorem in found) == line.removeprefix("proved: ")
                printed += [(name, *it) for it in found]
    assert sorted(printed) == sorted((row["warning"], row["sentence"], row["theorem"]) for row in rows)
    source = (CRATES / "warning_theorems/src/theorems.rt").read_text()
    theorems = dict(re.findall(r"^pub fn (\w+)\(\)\n(    ensures.*?)^\{\}$", source, re.M | re.S))
    assert all(word in theorems[row["theorem"]] for row in rows for word in re.findall(r"\b(?:\w+_\w+|[A-Z]\w+[A-Z]\w*)\b", row["says"]) if not word.isupper())
    for option in ("--help", "--list-warnings"):
        assert not re.search("prove|theorem", run("robots_audit", [option]).out)


def test_each_warning_with_a_proved_sentence_is_stated():
    """The others: what the absence of a warning says, what a quote in a rule says by itself, a `$` that only stars follow, and a site
    that one reading alone closes."""
    others = {"UrlNotNormal", "EmptyDisallow", "QuotedRule", "QuoteAtEnd", "StarAfterDollar"}
    others |= {"ClosedInOneReading", "ClosedByStandard", "ClosedByStandardToOthers"}
    rows = re.findall(r'^ +(\w+) (Error|Warning|Note) "([a-z0-9-]+)"$', (CRATES / "robots_warnings/src/rows.rt").read_text(), re.M)
    means = (CRATES / "robots_warnings/specs/Means.antt").read_text()
    stated = set(re.findall(r"^is_style cause\.(\w+) = false$", means, re.M))
    proved = tomllib.loads((ROOT / "tests/theorems.toml").read_text())["proved"]
    meant = {
        cause
        for row in proved
        for cause, level, name in rows
        if name == row["warning"] and (level == "Error" or "as an error" not in row["sentence"])
    }
    assert len(rows) == len(ALL_WARNINGS) and meant - others == stated


@pytest.mark.parametrize("option", [["--list-warnings"], ["--explain", "missing-slash"]], ids=["list", "explain"])
@pytest.mark.parametrize("more", ["robots.txt", "-q", "--json", "--format=text", "--html", "--date=x", "--agent=x", "--urls-from=x", "--denied", "--color=auto", "--strict", "--needless", "--only=x", "--ignore=x", "--expect=x", "--compare=x"])
def test_other_arguments_conflict(option, more):
    result = run("robots_audit", [*option, more])
    assert (result.status, result.out) == (2, "") and "cannot be used with" in result.err


def test_list_and_explanation_conflict():
    result = run("robots_audit", ["--list-warnings", "--explain", "missing-slash"])
    assert (result.status, result.out) == (2, "") and "cannot be used with" in result.err
