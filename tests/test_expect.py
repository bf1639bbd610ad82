"""`robots_audit --expect` for any crawler, and on large inputs. Other expectations are in tests/golden/robots_audit/expect.toml."""

import json
from itertools import permutations

import pytest
from support import IGNORING, PHRASES, run

NAMED = "".join(f"User-agent: {name}\n" for name in ["*", *IGNORING]).encode()

# A file, an expectation about any crawler, the crawlers for which it fails, in this order, and why for the first of them. With the group
# of Googlebot, those fail too that get this one from their vendor.
ANY = {
    "no group": (b"Disallow: /a", b"deny any /a", ["*"], "only one reading denies it: deny 1 (by RFC 9309 and Google: allow)"),
    "denied to *": (b"User-agent: *\nDisallow: /a", b"allow any /a", ["*"], "line 2 denies it"),
    "which are named": (NAMED + b"Disallow: /a", b"deny-all Any /a", [], None),
    "a crawler of the file": (NAMED + b"Disallow: /a\nUser-agent: Ferris\nDisallow: /b", b"deny-all any /a", ["Ferris"], "no rule denies /a"),
    "a name with a version": (b"User-agent: A/2\nDisallow: /a", b"allow ANY /a", [], None),
    "those that get the group of Googlebot": (
        b"User-agent: Googlebot\nDisallow: /a",
        b"allow any /a",
        ["Googlebot", "Googlebot-Image", "Googlebot-News", "Googlebot-Video", "Google-InspectionTool", "Storebot-Google", "Google-CloudVertexBot", "Applebot"],
        "line 2 denies it",
    ),
    "sixteen": (b"".join(b"User-agent: %c\n" % it for it in b"abcdefghijklmnop") + b"Disallow: /a", b"allow any /a", [*"abcdefghijklmnop"], "line 17 denies it"),
    "a group of this name": (b"User-agent: any\nDisallow: /a", b"allow any /a", ["any"], "line 2 denies it"),
}

FORM = 'write "allow AGENT URL" or "deny AGENT URL", or for a pattern allow-all or deny-all'
NOT_UTF_8 = "the line isn't valid UTF-8"
URL = PHRASES["url"]

def check(folder, text, *more, robots=b"User-agent: GPTBot\nDisallow: /", file="-"):
    """The result for a text of expectations, in a file `expect.txt`."""
    (folder / "expect.txt").write_bytes(text)
    return run("robots_audit", ["--expect", "expect.txt", file, *more], robots, cwd=folder)


def outcome(result):
    return result.status, result.out, result.err


def names_in(messages):
    """The crawlers that they are about."""
    return [message.split(" must be ")[0] for message in messages]


@pytest.mark.parametrize("robots, text, names, why", ANY.values(), ids=ANY)
def test_any_crawler(tmp_path, robots, text, names, why):
    """A text has a line for each of the first five crawlers, and one with ten more names; JSON has a finding for each."""
    result, found = (check(tmp_path, b"\n" + text, *more, robots=robots) for more in ([], ["--json"]))
    more = f" and {len(names) - 15} more" if len(names) > 15 else ""
    others = [f"expect.txt:2: also {', '.join(names[5:15])}{more}\n"] if len(names) > 5 else []
    lines = result.out.splitlines(keepends=True)
    told = [line.removeprefix("expect.txt:2: ") for line in lines[: min(len(names), 5)]]
    assert (names_in(told), lines[len(told) :]) == (names[:5], others if names else ["1 expectation holds\n"])
    assert not names or told[0].endswith(f", but {why}\n")
    findings = json.loads(found.out)["findings"]
    assert names_in(it["text"] for it in findings) == [it["agent"] for it in findings] == names
    assert {(it["line"], it["url"]) for it in findings} <= {(2, text.split()[2].decode())}
    assert result.status == found.status == (1 if names else 0)


@pytest.mark.parametrize("char", "-._~:/?[]@!&'()+,;=")
def test_characters_that_normal_forms_keep(tmp_path, char):
    """So each counts as one octet, and those of RFC 3986 that are reserved differ from their escapes."""
    rules = f"User-agent: *\nDisallow: /{char}a\nAllow: /*bc\nDisallow: /d{char}\n"
    text = f"allow Ferris /{char}abc\nallow Ferris /e\n" + f"allow Ferris /d%{ord(char):02X}\n" * (char not in "-._~")
    result = check(tmp_path, text.encode(), robots=rules.encode())
    assert outcome(result) == (0, f"{text.count('allow')} expectations hold\n", "")


def test_all_malformed_lines(tmp_path):
    text = b"deny\nallow Googlebot tea\n# tea\nallow Googlebot /\n" + b"deny a\xff /\n" * 1_000
    lines = [(1, FORM), (2, URL), *((number, NOT_UTF_8) for number in range(5, 1_005))]
    assert outcome(check(tmp_path, text)) == (2, "", "".join(f"robots_audit: expect.txt:{line}: {why}\n" for line, why in lines))


def test_an_empty_file(tmp_path):
    """It is valid if it is named, and allows everything."""
    (tmp_path / "robots.txt").touch()
    assert outcome(check(tmp_path, b"allow GPTBot /tea", file="robots.txt")) == (0, "1 expectation holds\n", "")


@pytest.mark.parametrize("more", ["/a", "--agent=Ferris", "--urls-from=list.txt", "--denied", "-q", "--html", "--date=x", "--color=auto", "--strict", "--needless", "--only=missing-slash", "--ignore=missing-slash"])
def test_other_arguments_conflict(tmp_path, more):
    result = check(tmp_path, b"allow Googlebot /", more)
    assert (result.status, result.out) == (2, "") and "cannot be used with" in result.err


def test_ten_thousand_expectations(tmp_path):
    text = b"".join(b"allow Googlebot /products/%d\ndeny GPTBot /products/%d\n" % (n, n) for n in range(5_000))
    assert outcome(check(tmp_path, text)) == (0, "10000 expectations hold\n", "")


def test_many_stars(tmp_path):
    rules, text, line = (b"Disallow: /\n" + b"".join(b"Allow: /x*%c*%c*%c*%c\n" % letters for letters in permutations(b"abcdefgh", 4)), b"deny-all B /x", "B must be denied all of /x, but that isn't decided, since there are many stars")
    assert outcome(check(tmp_path, text, robots=b"User-agent: *\n" + rules)) == (1, f"expect.txt:1: {line}\n", "")
