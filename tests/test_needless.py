"""`robots_audit --needless`: if all lines that it reports are deleted, every verdict is the same."""

import itertools
import json
import random
import re

import pytest
from support import run

PATHS = ["/", "/a", "/ab", "/abc", "/b", "/a*", "/*b", "/a*c", "/*", "/b$", "/ab$", "/a$b", "/*c$", ""]
URLS = [f"/{start}{end}" for start in ["", "a", "b", "ab", "abc", "ba", "c"] for end in ["", "/", "b", "c", "?a"]]
NAMES = ["*", "a", "b", "c"]
CRAWLERS = [f"--agent={name}" for name in [*NAMES, "A", "other"]]


def block_of(some):
    """A few user-agent lines, and rules and possibly a delay below them."""
    names = [f"User-agent: {name}" for name in some.sample(NAMES, some.choice([1, 1, 2]))]
    rules = [f"{some.choice(['Allow', 'Disallow'])}: {some.choice(PATHS)}" for _ in range(some.randrange(1, 6))]
    return names + rules + ["Crawl-delay: 1"] * some.randrange(2)


def report_on(file, *options):
    return json.loads(run("robots_audit", ["--json", *options, *CRAWLERS, "-", *URLS], file).out)


def found_in(lines):
    """The numbers of the lines that are reported."""
    file = lines if isinstance(lines, bytes) else "\n".join(lines).encode()
    return [it["line"] for it in report_on(file, "--needless", "--only", "needless-rule")["findings"]]


def allowed_in(agent):
    """Of each URL, whether it is allowed, in both readings."""
    return [(verdict["allowed"], verdict["rfc_9309"]["allowed"]) for verdict in agent["verdicts"]]


def verdicts_on(lines):
    """Of each crawler, the group and which URLs are allowed."""
    return [(agent["group"]["kind"], allowed_in(agent)) for agent in report_on("\n".join(lines).encode())["agents"]]


@pytest.mark.parametrize("seed", range(40))
def test_deleting_the_reported_lines_changes_no_verdict(seed):
    some = random.Random(seed)
    lines = [line for _ in range(some.randrange(1, 4)) for line in block_of(some)]
    numbers = found_in(lines)
    assert numbers == sorted(set(numbers))
    left = [line for number, line in enumerate(lines, 1) if number not in numbers]
    assert verdicts_on(left) == verdicts_on(lines)


def results_of(file):
    """The sitemaps; and each crawler's delay, rejection and verdicts."""
    report = report_on(file)
    agents = [(it["delay_microseconds"], it["rejected_line"] is None, allowed_in(it)) for it in report["agents"]]
    return report["sitemaps"], agents


MARK = b"\xEF\xBB\xBF"
OTHER_LINES = [b"", b"", MARK + b"Disallow: /", b"\xBFAllow: /a", b"Sitemap: https://example.com/s", b"# comment"]
LINE_ENDS = [b"\n", b"\n", b"\r\n", b"\r", b"\r\r\n", b"\0", b"\r\0", b"\n\r\n"]
# what is between line ends, and the line end: any number of CRs, and then at most one LF or NUL
WHOLE_LINE = re.compile(rb"[^\r\n\0]*(?:\r*[\n\0]|\r+)|[^\r\n\0]+")


@pytest.mark.parametrize("seed", range(40))
def test_deleting_the_reported_bytes_changes_nothing(seed):
    some = random.Random(seed)
    lines = [line.encode() for _ in range(some.randrange(1, 4)) for line in block_of(some)][some.randrange(3) :]
    for line in some.choices(OTHER_LINES, k=some.randrange(6)):
        lines.insert(some.randrange(len(lines) + 1), line)
    mark = some.choice([b"", MARK])
    text = b"".join(line + some.choice(LINE_ENDS) for line in lines).lstrip(MARK)
    numbers = found_in(mark + text)
    left = b"".join(line for number, line in enumerate(WHOLE_LINE.findall(text), 1) if number not in numbers)
    assert results_of(mark + left) == results_of(left) == results_of(mark + text)


def test_some_lines_are_reported():
    """The files above aren't all without needless rules."""
    lines = ["User-agent: *", "Disallow: /a", "Disallow: /ab", "Allow: /b", "Disallow: /a$b", "Disallow: /*c", "Disallow: /c"]
    assert found_in(lines) == [3, 4, 5, 7]


LONGEST = "Disallow: /qqqqqqqq$"
TEXTS = ["/qqqqqqqq", *("/" + "".join(letters) for size in range(5) for letters in itertools.product("abc$", repeat=size))]


@pytest.mark.parametrize("seed", range(20))
def test_every_needless_rule_is_found(seed):
    """Without any other rule, some short path has another verdict. The longest denies a path, so that no rule stays just for its block."""
    some = random.Random(seed)
    lines = ["User-agent: a", LONGEST, *(f"{some.choice(['Allow', 'Disallow'])}: {some.choice(PATHS)}" for _ in range(8))]
    numbers = found_in(lines)
    left = [line for number, line in enumerate(lines, 1) if number not in numbers]

    def verdicts(lines):
        (audit,) = json.loads(run("robots_audit", ["--json", "--agent=a", "-", *TEXTS], "\n".join(lines).encode()).out)["agents"]
        return allowed_in(audit)

    assert verdicts(left) == verdicts(lines)
    for at, line in enumerate(left[1:], 1):
        if line not in ("Allow: /", "Allow: ", "Disallow: "):
            assert verdicts(left[:at] + left[at + 1 :]) != verdicts(left), (lines, line)


# Files, and their needless lines. No theorem says that they are found, only that what is found is needless.
FOUND = {
    "the longest rule that begins it, above the Allow between": (["Disallow: /a", "Allow: /ab", "Disallow: /abc", "Disallow: /abcd"], [5]),
    "an Allow with a star matches nothing of it": (["Disallow: /", "Allow: /a*c", "Disallow: /bcd"], [4]),
    "it has a star, and an Allow matches nothing of it": (["Disallow: /", "Allow: /ac", "Disallow: /b*d"], [4]),
    "patterns with stars, the shortest first": (["Disallow: /*ab", "Allow: /*ab*", "Allow: /*abc*", "Allow: /"], [2, 3, 4]),
    "a long Allow is no rival of a short Disallow": (["Disallow: /a", "Disallow: /ab", "Allow: /abc"], [3]),
    "equal rules": (["Disallow: /a*", "Disallow: /a*", "Disallow: /b", "Disallow: /b"], [3, 5]),
}


@pytest.mark.parametrize("lines, numbers", FOUND.values(), ids=FOUND)
def test_lines_are_found(lines, numbers):
    assert found_in(["User-agent: *", *lines]) == numbers


def test_a_rule_that_one_of_two_crawlers_needs_stays():
    """And no other rule stays for it."""
    lines = ["User-agent: B", "User-agent: *", "Disallow: /b", "Disallow: /ab", "Disallow: /abc", "User-agent: B", "Disallow: /a"]
    assert found_in(lines) == [5]


def test_ten_thousand_rules():
    """The number of bytes that are compared is bounded, but suffices for a file of this size."""
    lines = ["User-agent: *", *(f"Disallow: /*/s{n}x" for n in range(50))]
    lines += [line for n in range(5_000) for line in (f"Disallow: /p{n}/", f"Disallow: /p{n}/q")]
    assert found_in(lines) == [*range(53, 10_052, 2)]


def test_many_rules_with_stars():
    """Each matches what one of the ten with a single digit matches."""
    assert found_in(["User-agent: *", *(f"Disallow: /*{n}" for n in range(5_000))]) == [*range(12, 5_002)]
