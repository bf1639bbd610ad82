"""`robots_audit --urls-from` and `--denied`: which URLs are checked and listed, and how many are allowed and denied."""

import json

import pytest
from support import PHRASES, Result, run, warning_lines, with_standard

ROBOTS = b"""User-agent: *
Disallow: /private/

User-agent: GPTBot
Disallow: /
Allow: /a

User-agent: Longbot
Disallow: /""" + b"x" * 4096 + b"$\n"

LISTED = {
    "one line": (b"/private/tea\n", "deny 2 /private/tea\n0 allowed, 1 denied\n"),
    "no last line end": (b"/tea\n/private/", "allow - /tea\ndeny 2 /private/\n1 allowed, 1 denied\n"),
    "CR LF": (b"/tea\r\n/private/\r\n", "allow - /tea\ndeny 2 /private/\n1 allowed, 1 denied\n"),
    "white space and blank lines": (b"\n \t/tea \t\n\r\n  \n\t/private/tea\r\n", "allow - /tea\ndeny 2 /private/tea\n1 allowed, 1 denied\n"),
    "the same URL twice": (b"/tea\n/tea\n", "allow - /tea\nallow - /tea\n2 allowed, 0 denied\n"),
    "a byte order mark": (b"\xef\xbb\xbf/private/\n", "deny 2 /private/\n0 allowed, 1 denied\n"),
    "comments": (b"# tea \xe9\n/tea#cup\n \t# /private/\n", "allow - /tea#cup\n1 allowed, 0 denied\n"),
}


def report(text, words="syntax 9"):
    """The report, with the lines about RFC 9309: the rule in line 9 is too long."""
    return with_standard(text.removesuffix("\n"), words) + "\n"


def check(folder, text, agent, *args, robots=ROBOTS):
    """The result for a text of URLs, in a file `list.txt`."""
    (folder / "list.txt").write_bytes(text)
    return run("robots_audit", ["-q", "--urls-from", "list.txt", "--agent", agent, "-", *args], robots, cwd=folder)


@pytest.mark.parametrize("text, lines", LISTED.values(), ids=LISTED)
def test_each_line_is_a_url(tmp_path, text, lines):
    out = PHRASES["star"] + "\ndelay: none\n" + lines
    err = warning_lines(["url-not-normal /tea#cup"] if b"#cup" in text else [], agent="Ferris")
    assert check(tmp_path, text, "Ferris") == Result(1 if "deny" in out else 0, report(out), err)


def test_a_url_is_asked_without_its_fragment(tmp_path):
    """In a path, `#` is a byte like others; but for RFC 9309 it begins a fragment."""
    out = PHRASES["star"] + "\ndelay: none\ndeny 2 https://e.com/a#b\nallow - /a#b   (by RFC 9309: deny 2)\n0 allowed, 2 denied\n"
    result = check(tmp_path, b"https://e.com/a#b\n/a#b\n", "Ferris", robots=b"User-agent: *\nDisallow: /a$\n")
    assert result == Result(1, report(out, "verdicts"), warning_lines(["url-not-normal /a#b"], agent="Ferris"))


def test_urls_of_the_command_line_come_first(tmp_path):
    out = PHRASES["star"] + "\ndelay: none\nallow - /b\nallow - /a\ndeny 2 /private/\n2 allowed, 1 denied\n"
    assert check(tmp_path, b"/a\n/private/\n", "Ferris", "/b") == Result(1, report(out), "")


URL, SPACE = PHRASES["url"], PHRASES["space"]
TAG = "< or > in a URL; write %3C or %3E, and each URL of a sitemap on a line of its own"
COMMA = "another URL after a comma; write each URL as a line or an argument of its own"
BYTES = "the line isn't valid UTF-8"
NO_URL = {
    "a host": (b"/a\nexample.com/a\n", 2, URL),
    "another scheme": (b"# none\n\nftp://example.com/\n", 3, URL),
    "no host": (b"http://", 1, URL),
    "a word": (b"/a\n/b\ntea", 3, URL),
    "a byte that isn't UTF-8": (b"\xff", 1, BYTES),
    "such a byte after a path": (b"/a\n\n/\xe9 \n/b\n", 3, BYTES),
    "a sitemap": (b'<?xml version="1.0"?>', 1, TAG),
    "markup after a path": (b"/a\n/b<br>", 2, TAG),
    "the start of a tag": (b"/a<", 1, TAG),
    "the end of a tag": (b"/a>", 1, TAG),
    "two paths": (b"/a /b", 1, SPACE),
    "a no-break space at the end": ("/a\u00a0\n".encode(), 1, SPACE),
    "lines that end with CR": (b"/a\r/b\r", 1, SPACE),
    "two URLs": (b"https://example.com/a,https://example.com/b", 1, COMMA),
    "a path and a URL": (b"/a,HTTP://example.com/b", 1, COMMA),
}


@pytest.mark.parametrize("text, line, why", NO_URL.values(), ids=NO_URL)
def test_a_line_that_is_no_single_url(tmp_path, text, line, why):
    assert check(tmp_path, text, "Ferris") == Result(2, "", f"robots_audit: list.txt:{line}: {why}\n")


def test_urls_with_a_comma(tmp_path):
    out = PHRASES["star"] + "\ndelay: none\nallow - /a,b\nallow - /a,/https\nallow - https://example.com/?a=b,c\n3 allowed, 0 denied\n"
    assert check(tmp_path, b"/a,b\n/a,/https\nhttps://example.com/?a=b,c", "Ferris") == Result(0, report(out), "")


def test_urls_from_standard_input(tmp_path):
    (tmp_path / "robots.txt").write_bytes(ROBOTS)
    result = run("robots_audit", ["-q", "robots.txt", "--urls-from", "-", "--agent", "GPTBot"], b"/a\n/b\n", cwd=tmp_path)
    assert (result.status, result.out) == (1, report("group: GPTBot\ndelay: none\nallow 6 /a\ndeny 5 /b\n1 allowed, 1 denied\n"))


@pytest.mark.parametrize("text", [b"", b"\n  \n", b"# /tea", b"\xef\xbb\xbf"], ids=["nothing", "blank lines", "a comment", "a byte order mark"])
@pytest.mark.parametrize("more", [[], ["/b"]], ids=["no other URL", "another URL"])
def test_no_urls(tmp_path, text, more):
    assert check(tmp_path, text, "Ferris", *more) == Result(2, "", "robots_audit: list.txt: there are no URLs\n")


CURL = "curl -fsSL https://example.com/robots.txt | robots_audit -"
FETCH = f"a URL isn't a file, try: {CURL}"
UNREAD = {
    "missing": ("missing.txt", "missing.txt: no such file"),
    "a folder": (".", ".: it is a folder"),
    "no name": ("", '"": no such file'),
    "a URL": ("https://example.com", f"https://example.com: no such file; {FETCH}"),
    "a URL in capitals": ("HTTP://example.com/a", f"HTTP://example.com/a: no such file; {FETCH}"),
    "a host": ("example.com", f"example.com: no such file; for a host, try: {CURL}"),
    "a URL without a scheme": ("example.com/robots.txt", f"example.com/robots.txt: no such file; for a host, try: {CURL}"),
    "a hidden file": (".hidden", ".hidden: no such file"),
    "a level": ("note", "note: no such file; for a level, write --strict=LEVEL"),
    "a path": ("/no/tea", "/no/tea: no such file; before a path to check, write FILE, or - for standard input"),
}


@pytest.mark.parametrize("args", [["NAME"], ["--urls-from", "NAME", "-"], ["--expect", "NAME", "-"], ["--compare", "NAME", "-"]], ids=["FILE", "--urls-from", "--expect", "--compare"])
@pytest.mark.parametrize("name, shown", UNREAD.values(), ids=UNREAD)
def test_file_that_cannot_be_read(tmp_path, args, name, shown):
    result = run("robots_audit", [name if word == "NAME" else word for word in args], ROBOTS, cwd=tmp_path)
    assert result == Result(2, "", f"robots_audit: cannot read {shown}\n")


def test_denied_urls_alone(tmp_path):
    out = PHRASES["star"] + "\ndelay: none\ndeny 2 /private/\n2 allowed, 1 denied\n"
    assert check(tmp_path, b"/a\n/private/\n/b\n", "Ferris", "--denied") == Result(1, report(out), "")
    assert run("robots_audit", ["-q", "--denied", "--agent=Ferris", "-", "/a", "/private/", "/b"], ROBOTS) == Result(1, report(out), "")
    out = PHRASES["star"] + "\ndelay: none\n1 allowed, 0 denied\n"
    assert run("robots_audit", ["-q", "--denied", "--agent=Ferris", "-", "/a"], ROBOTS) == Result(0, report(out), "")


def test_numbers_are_those_of_all_crawlers(tmp_path):
    out = "crawler Ferris: group * (line 1), 1 rule\ncrawler GPTBot: group GPTBot (line 4), 2 rules, may fetch only what line 6 allows: /a\ncrawler Longbot: group Longbot (line 8), 1 rule\n"
    out += "rejected for Longbot: line 9: " + PHRASES["long"] + "\n"
    out += "deny 2 Ferris /private/\ndeny 5 GPTBot /b\ndeny 5 GPTBot /private/\n"
    out += "3 allowed, 3 denied\n"
    result = check(tmp_path, b"/a\n/b\n/private/\n", "Ferris", "--denied", "--agent=GPTBot", "--agent=Longbot")
    assert (result.status, result.out) == (2, report(out))


def test_denied_urls_as_json():
    result = run("robots_audit", ["--json", "--denied", "--agent=Ferris", "-", "/a", "/private/"], ROBOTS)
    verdicts = json.loads(result.out)["agents"][0]["verdicts"]
    decision = {"allowed": False, "line": 2}
    assert (result.status, verdicts) == (1, [decision | {"rfc_9309": decision, "url": "/private/"}])


def test_ten_thousand_urls(tmp_path):
    text = b"".join(b"/%d\n/private/%d\n" % (n, n) for n in range(5_000))
    lines = check(tmp_path, text, "Ferris", "--denied").out.splitlines()
    assert (len(lines), lines[-3], lines[-1]) == (5_004, "deny 2 /private/4999", "5000 allowed, 5000 denied")
