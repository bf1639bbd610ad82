"""Many warnings of a named file, of needless rules and of large files; tests/golden/robots_audit/many.toml has how they are joined and counted."""

import pytest
from support import run, warning_line

# `Disallow: /p` covers each of the 25 longer Disallows, and an Allow decides only where none of them does. So all 50 can be deleted, but
# without the first twenty alone the first twenty Allows decide.
LETTERS = "abcdefghijklmnopqrstuvwxy"
NEEDLESS = "User-agent: *\nDisallow: /p\n" + "".join([f"Disallow: /pq{it}*\n" for it in LETTERS] + [f"Allow: /pq{it}\n" for it in LETTERS])
TOGETHER = "lines 3-52 can be deleted together; deleting only some may change a verdict"


def audit(text, *args):
    return run("robots_audit", ["-", *args], text.encode())


def test_the_file_is_named(tmp_path):
    (tmp_path / "a\x07.txt").write_text("User-agent: *\nAllow: /a\n" + "Disallow: /a\n" * 21)
    result = run("robots_audit", ["--only=allowed-and-disallowed", "a\x07.txt"], cwd=tmp_path)
    listed = "".join(warning_line(f"{number} allowed-and-disallowed 2", "a%07.txt") for number in range(3, 23))
    assert result.err == f"{listed}a%07.txt: warning: and 1 more [allowed-and-disallowed]\na%07.txt: 21 warnings\n"


@pytest.mark.parametrize("more", [[], ["--only=needless-rule"], ["--ignore=several-directives"], ["--denied", "/x"]])
def test_needless_rules_are_one_message(more):
    counts = "50 notes in 1 message (rules for crawlers other than Other are only checked for being needless)"
    assert audit(NEEDLESS, "-q", "--agent=Other", "--needless", *more).err == f"robots.txt:3: note: {TOGETHER} [needless-rule]\nrobots.txt: {counts}\n"


def test_needless_rules_of_another_crawler_go_with_them():
    text = "User-agent: a\nDisallow: /x\nDisallow: /xy\n\nUser-agent: b\nDisallow: /x\nDisallow: /xy\nDisallow: /xz\n"
    said = "robots.txt:3: note: lines 3, 7-8 can be deleted together; deleting only some may change a verdict [needless-rule]\n"
    assert audit(text, "-q", "--agent=b", "--needless").err.startswith(said)


def test_needless_rules_are_one_row_of_a_page():
    out = audit(NEEDLESS, "--html", "--agent=Ferris", "--needless").out
    assert (out.count(TOGETHER), out.count("needless-rule")) == (2, 2)  # in the list at its top, and below line 3


def test_a_file_of_a_hundred_closed_groups():
    err = audit("".join(f"User-agent: bot-{chr(97 + n // 10)}{chr(97 + n % 10)}\nDisallow: /\n\n" for n in range(100)), "-q").err.splitlines()
    closed = [line for line in err if line.endswith("[closed-site]")]
    assert len(closed) == 1 and closed[0].startswith("robots.txt:2: note: ") and " (also for other crawlers, in lines 5, 8, 11 and 96 more) [" in closed[0]
    assert err[-1] == "robots.txt: 100 notes in 1 message"


def test_a_file_of_short_lines():
    *shown, counts = audit("a\n" * 250_000 + "Disallow: /\n", "-q", "--agent=Ferris").err.splitlines()
    assert len(shown) < 30 and any("(also in lines 2, 3, 4 and 249996 more) [unrecognized-line]" in line for line in shown)
    assert counts.startswith("robots.txt: ") and "250" in counts
