"""`robots_audit --compare`: what differs between two versions of a file, for each crawler and URL."""

import itertools
import json
import random
import re

import pytest
from support import PHRASES, Result, run

OLD = b"""User-agent: *
Disallow: /search
Allow: /search/tea
Crawl-delay: 2

User-agent: GPTBot
Disallow: /
"""

NEW = b"""User-agent: *
Disallow: /search
Disallow: /products

User-agent: Googlebot
Disallow: /cart
Crawl-delay: 0.5

User-agent: GPTBot
Disallow: /
"""

GOOGLEBOT = """crawler Googlebot: group * -> Googlebot
crawler Googlebot: delay 2 s -> 0.5 s
crawler Googlebot: - Disallow: /search (line 2)
crawler Googlebot: - Allow: /search/tea (line 3)
crawler Googlebot: + Disallow: /cart (line 6)
crawler Googlebot: verdicts change, for example /cart: allow -> deny 6
"""

STAR = """crawler *: delay 2 s -> none
crawler *: - Allow: /search/tea (line 3)
crawler *: + Disallow: /products (line 3)
crawler *: verdicts change, for example /products: allow -> deny 3
"""

USAGE = PHRASES["usage"]
SAME_TEXT = PHRASES["same"] + "\n"
NOTHING = f"crawler Ferris: {SAME_TEXT}"
ALL = f"all compared crawlers: {SAME_TEXT}"
OTHERS = f"crawler GPTBot: {SAME_TEXT}"
NAME, URL, MAYBE = (PHRASES[it] for it in ("token", "url", "word"))
TOO_LONG = b"User-agent: *\nDisallow: /" + b"x" * 4096 + b"$\n"
REASON = PHRASES["long"] + "\n"


def compare(folder, old, new, *words, file="-"):
    """The result for two files."""
    (folder / "old.txt").write_bytes(old)
    return run("robots_audit", ["--compare", "old.txt", file, *words], new, cwd=folder)


def for_ferris(folder, old, new, *words, **options):
    """The same for one crawler."""
    return compare(folder, old, new, "--agent", "Ferris", *words, **options)


def error(message):
    return Result(2, "", f"robots_audit: {message}\n")


def reported(result, old="old.txt", new="-"):
    """The status and texts of a result without the first line, which names the files."""
    first, _, lines = result.out.partition("\n")
    assert first == f"old: {old}, new: {new}"
    return result.status, lines, result.err


def test_one_crawler(tmp_path):
    urls = ["/search/tea", "/", "https://shop.example/search/milk", "/cart"]
    lines = """crawler Googlebot /search/tea: allow 3 -> allow
crawler Googlebot https://shop.example/search/milk: deny 2 -> allow, opened
crawler Googlebot /cart: allow -> deny 6, closed
"""
    assert reported(compare(tmp_path, OLD, NEW, "--agent=Googlebot", *urls)) == (1, GOOGLEBOT + lines, "")


def test_urls_in_a_file(tmp_path):
    """They come after those of the command line, and only those whose verdict differs have a line."""
    (tmp_path / "list.txt").write_bytes(b"# pages\n/\n /cart \r\nhttps://shop.example/search/milk\n")
    lines = """crawler Googlebot /search/tea: allow 3 -> allow
crawler Googlebot /cart: allow -> deny 6, closed
crawler Googlebot https://shop.example/search/milk: deny 2 -> allow, opened
"""
    assert reported(compare(tmp_path, OLD, NEW, "--urls-from", "list.txt", "--agent=Googlebot", "/search/tea")) == (1, GOOGLEBOT + lines, "")


def test_urls_from_standard_input(tmp_path):
    (tmp_path / "new.txt").write_bytes(NEW)
    result = compare(tmp_path, OLD, b"/search/tea\n", "--urls-from", "-", "--agent=GPTBot", file="new.txt")
    assert reported(result, new="new.txt") == (0, OTHERS, "")


@pytest.mark.parametrize("words", [["--compare", "old.txt", "--urls-from", "-", "-"], ["--compare", "-", "--urls-from", "-", "new.txt"], ["--compare", "-", "--urls-from", "list.txt", "-"]])
def test_standard_input_is_read_once(tmp_path, words):
    for name in ("old.txt", "new.txt", "list.txt"):
        (tmp_path / name).write_bytes(b"/a\n")
    message = f"standard input can't be two files; give the name of one; {USAGE}"
    assert run("robots_audit", words, NEW, cwd=tmp_path) == error(message)


def test_all_crawlers(tmp_path):
    assert reported(compare(tmp_path, OLD, NEW)) == (1, STAR + GOOGLEBOT + OTHERS, "")


def test_all_crawlers_and_a_url(tmp_path):
    lines = STAR + "crawler * /search/tea: allow 3 -> deny 2, closed\n" + GOOGLEBOT + "crawler Googlebot /search/tea: allow 3 -> allow\n" + OTHERS
    assert reported(compare(tmp_path, OLD, NEW, "/search/tea")) == (1, lines, "")


NO_DIFFERENCE = {
    "one crawler": (["--agent", "Ferris"], NOTHING),
    "one crawler and URLs": (["/a", "--agent=GPTBot", "/b"], OTHERS),
    "one with spaces": (["--agent=Offline Explorer"], f"crawler Offline Explorer: {SAME_TEXT}"),
    "all that have no group": (["--agent=*"], f"crawler *: {SAME_TEXT}"),
    "two crawlers": (["--agent=Ferris", "--agent=GPTBot"], ALL),
    "all crawlers": (["/search/tea"], ALL),
}


@pytest.mark.parametrize("words, line", NO_DIFFERENCE.values(), ids=NO_DIFFERENCE)
def test_no_difference(tmp_path, words, line):
    assert reported(compare(tmp_path, OLD, OLD, *words)) == (0, line, "")


def test_another_crawler_is_not_spoken_of(tmp_path):
    assert reported(compare(tmp_path, OLD, NEW, "--agent=GPTBot")) == (0, OTHERS, "")
    lines = STAR.replace("crawler *", "crawler Ferris") + OTHERS
    assert reported(compare(tmp_path, OLD, NEW, "--agent=Ferris", "--agent=GPTBot")) == (1, lines, "")


@pytest.mark.parametrize("names, front", [("ab", "crawlers a, b"), ("abcde", "crawlers a, b, c, d, e"), ("abcdef", "other compared crawlers")])
def test_other_crawlers_are_named_if_they_are_few(tmp_path, names, front):
    lines = "crawler x: group * -> x\ncrawler x: no URL's verdict changes\n"
    result = compare(tmp_path, b"User-agent: *\nDisallow: /a", b"User-agent: *\nUser-agent: x\nDisallow: /a", "--agent=x", *(f"--agent={name}" for name in names))
    assert reported(result) == (1, lines + f"{front}: {SAME_TEXT}", "")


def test_sitemaps_are_compared_as_sets(tmp_path):
    """In whatever case, order and number; one that isn't UTF-8 is none."""
    sitemaps = [b"Sitemap: https://e.com/" + name + b"\n" for name in (b"s", b"t", b"S", b"\xff")]
    old, new = OLD + sitemaps[0] * 2 + sitemaps[1], sitemaps[1] * 2 + OLD + sitemaps[0] + sitemaps[3]
    assert reported(for_ferris(tmp_path, old, new)) == (0, NOTHING, "")
    lines = "sitemap removed: https://e.com/s\nsitemap removed: https://e.com/t\nsitemap added: https://e.com/S\n"
    assert reported(for_ferris(tmp_path, old, OLD + sitemaps[2] * 3)) == (1, NOTHING + lines, "")


ALL_CRAWLERS = b"User-agent: *\n"

# two versions of a file but for its first line, the line about all URLs, and its level
EVERY_URL = {
    "everything is lost": (b"", b"Disallow: /", "may fetch everything -> nothing, for example /: allow -> deny 2", "error"),
    "the rest is lost, by a longer rule than one that allows": (b"Disallow: /b", b"Allow: /a\nDisallow: /a*\nDisallow: /", "may fetch some -> nothing, for example /: allow -> deny 4", "error"),
    "the rest but the home page is lost": (b"Disallow: /$\nAllow: /a", b"Disallow: /", "may fetch some -> nothing, for example /a: allow 3 -> deny 2", "error"),
    "all is lost but what an Allow names": (b"", b"Disallow: /\nAllow: /a", "may fetch everything -> only what line 3 allows, for example /: allow -> deny 2", "warning"),
    "the home page is lost": (b"", b"Disallow: /$", "may fetch everything -> some, for example /: allow -> deny 2", "warning"),
    "the home page is opened, and another page is lost": (b"Disallow: /$", b"Disallow: /a", "verdicts change, for example /: deny 2 -> allow", "note"),
    "a page is lost": (b"Disallow: /b", b"Disallow: /b\nDisallow: /a$", "verdicts change, for example /a: allow -> deny 3", "note"),
    "all is opened": (b"Disallow: /*", b"Allow: /*\nDisallow: /", "may fetch nothing -> everything, for example /: deny 2 -> allow 2", "note"),
    "an Allow goes that a longer Disallow overrules": (b"Allow: /a\nDisallow: /a*", b"Disallow: /a", "no URL's verdict changes", "note"),
    "a rule that matches no path": (b"Disallow: a", b"\n", "no URL's verdict changes", "note"),
    "a rule about robots.txt": (b"Disallow: /robots.txt$", b"\n", "no URL's verdict changes", "note"),
}


@pytest.mark.parametrize("old, new, text, level", EVERY_URL.values(), ids=EVERY_URL)
def test_every_url(tmp_path, old, new, text, level):
    old, new, line = ALL_CRAWLERS + old, ALL_CRAWLERS + new, f"crawler Ferris: {text}"
    result = for_ferris(tmp_path, old, new)
    assert (result.status, result.out.splitlines()[-1]) == (1, line)
    (found,) = [it for it in json.loads(for_ferris(tmp_path, old, new, "--json").out)["findings"] if it["text"] == line]
    assert (found["name"], found["level"]) == ("same-verdicts" if text.startswith("no") else "verdicts", level)
    assert (found["agent"], found["url"]) == ("Ferris", (re.search("for example (.*?): ", text) or [None, None])[1])


def test_verdicts_alone_decide_the_status(tmp_path):
    for old, new, text, _ in EVERY_URL.values():
        result = for_ferris(tmp_path, ALL_CRAWLERS + old, ALL_CRAWLERS + new, "--only-verdicts")
        assert result.status == (not text.startswith("no"))
    assert for_ferris(tmp_path, OLD, OLD + b"Sitemap: /s\nUser-agent: Ferris\nAllow: /search/tea\nDisallow: /search\n", "--only-verdicts").status == 0
    assert compare(tmp_path, OLD, NEW, "--only-verdicts").status == 1
    assert for_ferris(tmp_path, OLD, TOO_LONG, "--only-verdicts").status == 2
    alone = run("robots_audit", ["--only-verdicts", "-"], OLD)
    assert (alone.status, alone.out) == (2, "") and "--compare <OLD>" in alone.err


@pytest.mark.parametrize("stars, status, said", [(700, 0, "no URL's verdict changes"), (4000, 1, "it isn't decided whether a URL's verdict changes")])
def test_a_rule_of_many_stars(tmp_path, stars, status, said):
    """A star at its end changes nothing. Of hundreds of stars that is found, of thousands it isn't."""
    rule = ALL_CRAWLERS + b"Disallow: /" + stars * b"a*" + b"b"
    result = for_ferris(tmp_path, rule, rule + b"*", "--only-verdicts")
    assert (result.status, result.out.splitlines()[-1]) == (status, f"crawler Ferris: {said}")


@pytest.mark.parametrize("agent", ["Ferris", "Googlebot-Image"])
def test_a_rule_of_many_stars_that_is_repeated(tmp_path, agent):
    """No verdict changes, nor by RFC 9309, in which the empty rule counts, or by the group that Google applies."""
    old = b"User-agent: Ferris\nUser-agent: Googlebot\nDisallow:\n"
    rule = b"Disallow: /" + 4000 * b"a*" + b"b\n"
    assert reported(compare(tmp_path, old + rule, old + 2 * rule, "--agent", agent)) == (0, f"crawler {agent}: {SAME_TEXT}", "")


def test_kinds_in_turn(tmp_path):
    """24 rules of both kinds, without and with a star at the end."""
    old, new = (
        b"".join(b"%s: /*%c1*%c2%s\n" % (b"Allow" if letter % 2 else b"Disallow", letter, letter, end) for letter in b"abcdefghijklmnopqrstuvwx")
        for end in (b"", b"*")
    )
    result = for_ferris(tmp_path, old, new, "--only-verdicts")
    assert (result.status, result.out.splitlines()[-1]) == (0, "crawler Ferris: no URL's verdict changes")


def is_allowed(rules, path):
    """The longest rule that matches decides, of two an Allow."""
    def pattern(value):
        return ".*".join(map(re.escape, value.removesuffix("$").split("*"))) + r"\Z" * value.endswith("$")

    return max(((len(value), kind == "Allow") for kind, value in rules if re.match(pattern(value), path)), default=(0, True))[1]


def test_rules_by_chance(tmp_path):
    """What is said of each crawler is so for all short paths."""
    chance = random.Random(2)
    values = [value + end for k in range(4) for value in map("".join, itertools.product("ab*", repeat=k)) if "**" not in value for end in ("", "$")]
    pairs = [[[(chance.choice(["Allow", "Disallow"]), "/" + chance.choice(values)) for _ in range(chance.randint(1, 3))] for _ in range(2)] for _ in range(300)]
    old, new = ("".join(f"User-agent: bot{n}\n" + "".join(f"{kind}: {value}\n" for kind, value in pair[k]) for n, pair in enumerate(pairs)).encode() for k in range(2))
    said = dict(re.findall(r"^crawler (bot\d+): ((?:no URL|may fetch|verdicts change|it isn't).*)$", compare(tmp_path, old, new).out, re.M))
    paths = ["/" + path for k in range(6) for path in map("".join, itertools.product("abc", repeat=k))]
    for n, (before, after) in enumerate(pairs):
        example = re.search(r"for example (\S+):", said.get(f"bot{n}", "no URL"))
        for path in [example[1]] if example else paths:
            assert (is_allowed(before, path) == is_allowed(after, path)) is not bool(example), (before, after, path)


def test_rejected_files(tmp_path):
    old = f"the old file is rejected for Ferris: line 2: {REASON}"
    new = f"the new file is rejected for Ferris: line 2: {REASON}"
    assert reported(for_ferris(tmp_path, TOO_LONG, OLD, "/a")) == (2, old, "")
    assert reported(for_ferris(tmp_path, OLD, TOO_LONG, "/a")) == (2, new, "")
    assert reported(for_ferris(tmp_path, TOO_LONG, TOO_LONG, "/a")) == (2, old + new, "")


def test_other_crawlers_than_one_for_which_a_file_is_rejected(tmp_path):
    line = f"the new file is rejected for *: line 2: {REASON}"
    new = TOO_LONG + b"User-agent: GPTBot\nDisallow: /"
    assert reported(compare(tmp_path, OLD, new)) == (2, line + OTHERS, "")


def test_untrusted_text(tmp_path):
    lines = "crawler Ferris: + Disallow: /%07 (line 2)\ncrawler Ferris: may fetch everything -> some, for example /%07: allow -> deny 2\ncrawler Ferris /%07: allow -> deny 2, closed\n"
    assert reported(for_ferris(tmp_path, ALL_CRAWLERS, ALL_CRAWLERS + b"Disallow: /\x07", "/\x07")) == (1, lines, "")
    new = b"User-agent: *\nDisallow: /a\nUser-agent: a\x1bb\nDisallow: /bc"
    assert reported(compare(tmp_path, b"User-agent: *\nDisallow: /a", new)) == (0, f"crawler *: {SAME_TEXT}", ""), "no crawler has this name"


def test_no_command_of_a_workflow(tmp_path):
    """GitHub takes `##[` for a command, anywhere in a line."""
    lines = "crawler Ferris: + Disallow: / (line 2)\ncrawler Ferris: may fetch everything -> nothing, for example /: allow -> deny 2\ncrawler Ferris /%23%23[error]x: allow -> deny 2, closed\ncrawler Ferris /#[: allow -> deny 2, closed\n"
    assert reported(for_ferris(tmp_path, ALL_CRAWLERS, ALL_CRAWLERS + b"Disallow: /", "/##[error]x", "/#[")) == (1, lines, "")


@pytest.mark.parametrize("name, shown", [("", '""'), ("Googlebot/2.1\x1b", "Googlebot/2.1%1B")])
def test_name_that_no_crawler_has(tmp_path, name, shown):
    for words in ([f"--agent={name}"], ["--agent=Ferris", f"--agent={name}"]):
        assert compare(tmp_path, OLD, OLD, *words) == error(f"{shown}: {NAME}")


@pytest.mark.parametrize("url, shown", [("", '""'), ("ftp://e.com/\x1b", "ftp://e.com/%1B")])
def test_neither_a_path_nor_a_url(tmp_path, url, shown):
    for words in ([url], ["/", "https://e.com/a", "HTTP://e.com", url, "tea"]):
        assert compare(tmp_path, OLD, NEW, *words) == error(f"{shown}: {URL}")


@pytest.mark.parametrize("name", ["*", "Offline Explorer"])
def test_an_argument_that_may_be_a_crawler(tmp_path, name):
    assert compare(tmp_path, OLD, NEW, name, "tea") == error(f"{name}: {MAYBE}")


def test_names_are_checked_before_urls_and_both_before_files(tmp_path):
    assert compare(tmp_path, OLD, NEW, "--agent=Ferris/1", "tea/") == error(f"Ferris/1: {NAME}")
    missing = run("robots_audit", ["--compare", "missing.txt", "-", "tea/"], NEW, cwd=tmp_path)
    assert missing == error(f"tea/: {URL}")


@pytest.mark.parametrize("more", ["--expect=old.txt", "--denied", "-q", "--html", "--date=x", "--color=never", "--strict", "--needless", "--only=missing-slash", "--ignore=missing-slash"])
def test_other_options_conflict(tmp_path, more):
    result = compare(tmp_path, OLD, NEW, more)
    assert (result.status, result.out) == (2, "") and "cannot be used with" in result.err


def test_many_rules(tmp_path):
    def rules(front):
        return b"".join(b"Disallow: /%b%05d\n" % (front, n) for n in range(25_000))

    old, new = rules(b"a"), rules(b"b")
    assert reported(for_ferris(tmp_path, old, old)) == (0, NOTHING, "")
    result = for_ferris(tmp_path, old, new)
    assert (result.status, result.out.count("\n")) == (1, 50_002)
    assert result.out.splitlines()[25_000] == "crawler Ferris: - Disallow: /a24999 (line 25000)"
