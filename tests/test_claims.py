"""What the pages for reviewers call proved names a theorem, contract or specification that says it, or `rt check`; what they call tested
names tests. Any other page that calls something proved leads to PROOFS."""

import re

import pytest
from support import CRATES, PAGES, ROOT

FOR_REVIEWERS = ("docs/PROOFS.md", "docs/SPECIFICATION.md", "docs/COMPATIBILITY.md")
CLAIM = re.compile(r"\b(proved|tested)\b", re.I)
STATED = {name for path in CRATES.glob("*/src/**/*.rt") for name in re.findall(r"\bfn (\w+)[^{]*?\bensures\b", path.read_text())}
FORMAL = [path.read_text() for folder in ("specs", "proofs") for path in CRATES.glob(f"*/{folder}/**/*.antt")]
STATED |= {name for text in FORMAL for name in re.findall(r"^ *(?:(?:abbrev|unfoldable|pub|record|data) )+(\w+)", text, re.M)}


def parts(text):
    """Sentences, items of lists, lists with the line that introduces them, and rows of tables with the claim of their heading."""
    text = re.sub(r"^```.*?^```$", "", re.sub(r"^(?: {4}|#).*$", "", text, flags=re.M), flags=re.M | re.S)
    text = re.sub(r"\[([^]]*)\]\([^)]*\)", r"\1", re.sub(r"\n{3,}", "\n\n", text))
    for part in re.split(r"\n\n(?!- )|(?<!:)\n\n", text):
        if part.startswith("| "):
            heading, _, *rows = part.splitlines()
            yield from (" ".join([*CLAIM.findall(heading), row]) for row in rows)
        elif part.startswith("- "):
            yield from part.split("\n- ")
        else:
            yield from [part] if "\n- " in part else re.split(r"(?<=\.)\s(?=[A-Z])", part)


def shows(claim, span):
    """Whether what is named in backticks can show a claim."""
    if claim == "tested":
        return "tests" in span.split("/") and any(ROOT.glob(span.rstrip("/")))
    return span == "rt check" or re.fullmatch(r"(?:\w+::)*\w+", span) and span.split("::")[-1] in STATED


def claims(text):
    """The claims, each with what it calls it and with the names that show it."""
    for part in parts(text):
        for claim in sorted({word.lower() for word in CLAIM.findall(part)}):
            yield " ".join(part.split()), claim, [span for span in re.findall(r"`([^`]+)`", part) if shows(claim, span)]


@pytest.mark.parametrize("name", FOR_REVIEWERS)
def test_claims_name_what_shows_them(name):
    assert [(claim, text) for text, claim, names in claims(PAGES[name]) if not names] == []


@pytest.mark.parametrize("name", [name for name in PAGES if name not in (*FOR_REVIEWERS, "CHANGELOG.md")])
def test_page_with_a_claim_leads_to_proofs(name):
    assert "PROOFS.md" in PAGES[name] or not [text for text, claim, _ in claims(PAGES[name]) if claim == "proved"]


def test_claims_are_seen():
    text = "No claim.\n\nIt is proved. It is tested (`tests/wild`).\n\n| A | Proved |\n|---|---|\n| `Robot::new` | b |\n"
    assert [names for _, _, names in claims(text)] == [[], ["tests/wild"], ["Robot::new"]]
