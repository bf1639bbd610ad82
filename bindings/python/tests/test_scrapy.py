"""Crawls by Scrapy with its own parsers for robots.txt and with this one: the table of the README."""

import re

import package
import pytest
from sites import PAGES, PUBLIC, RULES, Site, answers, crawled, served
from support import tables

package.needs("scrapy")

import scrapy  # noqa: E402
from scrapy.utils.test import get_crawler  # noqa: E402

from texting_robots.scrapy import RobotParser  # noqa: E402

OURS, PROTEGO, URLLIB = "texting_robots.scrapy.RobotParser", "scrapy.robotstxt.ProtegoRobotParser", "scrapy.robotstxt.PythonRobotParser"
USER_AGENT = {"USER_AGENT": "FerrisBot/1.0 (+https://example.com/bot)"}
BROWSER = {"USER_AGENT": "Mozilla/5.0 (compatible; FerrisBot/1.0)"}

MEANINGS = {"yes": PUBLIC, "**no**": PAGES, "fetches nothing": []}
FILLER = b"# filler\n" * 66_666
OVERLONG = RULES + b"Disallow: /" + b"a" * 5000 + b"$\n"

# the files of the table
FILES = {
    "plain": RULES,
    "one byte in a comment isn't UTF-8": RULES + b"# \xff junk\n",
    "a comment in Latin-1": b"# f\xfcr alle\n" + RULES,
    "byte order mark": b"\xef\xbb\xbf" + RULES,
    "CR as line end": RULES.replace(b"\n", b"\r"),
    "NUL as line end": RULES.replace(b"\n", b"\0"),
    "600,000 bytes, the last isn't UTF-8": RULES + FILLER + b"\xff",
    "600,000 bytes, rules at the end": FILLER + RULES,
    "`useragent:`": RULES.replace(b"User-agent", b"useragent"),
    "rules and a delay": RULES + b"Crawl-delay: 0.25\n",
    "a group of its own": b"User-agent: *\nDisallow: /\nUser-agent: ferrisbot\nDisallow: /private/",
    "a rule that is too long": OVERLONG,
}
TABLE = {row[0]: row[1:] for row in tables((package.PACKAGE / "README.md").read_text()) if row[0] in FILES}
ALIKE = {"plain", "CR as line end", "rules and a delay", "a group of its own"}  # for all three
WITHOUT_MEMORY = ["__main__.WithoutMemoryToParse", "__main__.WithoutMemoryToDecide"]
STATUSES = {"rules with status 404": 404, "a page with status 503": 503}
MANY_RULES = RULES + b"".join(b"Disallow: /none/%d\n" % number for number in range(20_000))
TWO_GROUPS = b"User-agent: *\nDisallow: /public/\nUser-agent: FerrisBot\nDisallow: /private/"


@pytest.fixture(scope="module")
def crawls():
    """What is fetched for each file by each parser, and for two groups by each with a User-Agent like a browser's; and the log."""
    wanted = {(name, parser): (file, USER_AGENT) for name, file in FILES.items() for parser in (OURS, PROTEGO, URLLIB)}
    wanted |= {("as a browser", parser): (TWO_GROUPS, BROWSER) for parser in (OURS, PROTEGO)}
    wanted["as a browser, with its name", OURS] = TWO_GROUPS, BROWSER | {"ROBOTSTXT_USER_AGENT": "FerrisBot"}
    wanted |= {("many rules", parser): (MANY_RULES, USER_AGENT) for parser in (OURS, *WITHOUT_MEMORY)}
    wanted |= {(name, OURS): (body, USER_AGENT) for name, body in zip(STATUSES, [RULES, b"<html>sorry</html>"])}
    sites = {}
    for case, (file, settings) in wanted.items():
        sites[case] = Site(answers(STATUSES.get(case[0], 200), file), settings=settings | {"ROBOTSTXT_PARSER": case[1]})
    with served(sites.values()):
        log = crawled(sites.values())
    return {case: site.pages() for case, site in sites.items()}, log


def test_the_table_of_the_readme_has_every_file_with_differences():
    assert [*TABLE] == [name for name in FILES if name not in ALIKE]


@pytest.mark.parametrize("name", FILES)
def test_what_is_fetched_with_this_parser(crawls, name):
    assert crawls[0][name, OURS] == MEANINGS[TABLE.get(name, ["yes"])[0]]


@pytest.mark.skipif(not scrapy.__version__.startswith("2.8."), reason="the table has what Scrapy 2.8 fetches with its own parsers")
@pytest.mark.parametrize("name", FILES)
def test_what_is_fetched_with_the_parsers_of_scrapy(crawls, name):
    assert [crawls[0][name, PROTEGO], crawls[0][name, URLLIB]] == [MEANINGS[cell] for cell in TABLE.get(name, ["yes"] * 3)[1:]]


def test_a_user_agent_like_a_browsers(crawls):
    """Protego looks for a name anywhere in it; this parser takes its front, or ROBOTSTXT_USER_AGENT."""
    assert crawls[0]["as a browser", OURS] == ["/", "/private/x", "/private/y"]
    assert crawls[0]["as a browser", PROTEGO] == crawls[0]["as a browser, with its name", OURS] == PUBLIC


NO_TOKEN = "User-Agent %r: the group of this crawler isn't found in a robots.txt file, unless ROBOTSTXT_USER_AGENT is its product token"


def test_a_warning_that_such_a_user_agent_has_no_product_token(crawls, caplog, monkeypatch):
    """Once, and not for a crawler that gives its name."""
    assert crawls[1].count("WARNING: User-Agent") == crawls[1].count("WARNING: " + NO_TOKEN % BROWSER["USER_AGENT"]) == 1
    monkeypatch.setattr(RobotParser, "_has_warned", False)
    for user_agent in ["FerrisBot/1.0", "Mozilla", "", b" Mozilla/5.0 (X11)", "Mozilla/5.0"]:
        RobotParser.from_crawler(None, RULES).allowed("https://example.com/", user_agent)
    assert [record.getMessage() for record in caplog.records] == [NO_TOKEN % " Mozilla/5.0 (X11)"]


def test_without_memory_nothing_is_fetched(crawls):
    """Scrapy would fetch everything after an error in `from_crawler`."""
    fetched, log = crawls
    assert [fetched["many rules", parser] for parser in (OURS, *WITHOUT_MEMORY)] == [PUBLIC, [], []]
    for message in ["a robots.txt file can't be parsed, out of memory: nothing is fetched from its site", r"http://\S+: out of memory: it isn't fetched"]:
        assert len(re.findall(f"WARNING: .*{message}", log)) == 1
    assert "MemoryError" not in log


@pytest.mark.parametrize("call", ["parse", "ask"])
def test_each_allocation_of_the_parser_fails(call):
    """From the first, from the second, and so on: then the parser denies."""
    pytest.importorskip("_testcapi")
    assert package.run(["-c", ALLOCATIONS_FAIL, call]) == "right\n"


ALLOCATIONS_FAIL = """
import logging, sys
from _testcapi import remove_mem_hooks, set_nomemory
from texting_robots.scrapy import RobotParser

logging.disable()
BODY, denied = b"User-agent: a\\nDisallow: /b", 0
parse = RobotParser.from_crawler
for number in range(50):
    parser = parse(None, BODY)
    if sys.argv[1] == "parse":
        set_nomemory(number, 0)
        parser = parse(None, BODY)
        remove_mem_hooks()
        allowed = parser.allowed("/", "a")
    else:
        allowed = parser.allowed
        set_nomemory(number, 0)
        allowed = allowed("/", "a")
        remove_mem_hooks()
    denied += not allowed
assert 3 < denied < 50, denied
print("right")
"""


def test_scrapy_gives_the_parser_the_body_of_every_status(crawls):
    """As the README says: so the rules of a 404 count, and a 503 allows everything."""
    assert [crawls[0][name, OURS] for name in STATUSES] == [PUBLIC, PAGES]


WARNING = "FerrisBot, the rule in line 3 is too long: the file can't be used for this crawler: nothing is fetched"


def test_an_overlong_rule_is_logged_once(crawls, caplog):
    assert len(re.findall(rf"WARNING: robots.txt for http://127.0.0.1:\d+/: {WARNING}", crawls[1])) == 1 and "texting_robots/" not in crawls[1]
    parser = RobotParser.from_crawler(None, OVERLONG)
    assert not any(parser.allowed("https://example.com/", "FerrisBot/1.0") for _ in range(3))
    assert [record.getMessage() for record in caplog.records] == [f"robots.txt for https://example.com/: {WARNING}"]


def test_the_parser_takes_what_scrapy_gives():
    parser = RobotParser.from_crawler(None, b"User-agent: FerrisBot\nDisallow: /private/\nCrawl-delay: 2")
    agents = [b"FerrisBot/1.0 (+https://example.com)", "FerrisBot", " FerrisBot (+https://example.com)", "FerrisBot; a/b", b"\xff/"]
    assert [parser.delay(it) for it in agents] == [2, 2, 2, 2, 0]
    assert not parser.allowed("https://example.com/private/", b"FerrisBot/1.0 (+https://example.com)")
    assert not parser.allowed(b"https://example.com/private/", "FerrisBot")
    assert not parser.allowed("https://example.com/private/", "FerrisBot (+https://example.com)")
    assert parser.allowed("https://example.com/private/", "Mozilla/5.0 (compatible; FerrisBot/1.0)")
    assert parser.allowed("https://example.com/private/", b"\xff/")


def test_a_file_that_takes_too_long(caplog):
    """10,000 rules with a star: a URL that might take longer than the setting says is denied, with one warning."""
    body = b"User-agent: *\n" + b"".join(b"Disallow: *a*%d*b\n" % number for number in range(10)) + b"Disallow: *a*c*b\n" * 9_990
    long = "https://example.com/" + "a" * 2000
    parser = RobotParser.from_crawler(None, body)
    assert parser.allowed("https://example.com/short", "FerrisBot") and not parser.allowed("https://example.com/a7b", "FerrisBot")
    assert not parser.allowed(long, "FerrisBot") and not parser.allowed(long, "FerrisBot")
    assert [record.getMessage() for record in caplog.records] == [
        f"robots.txt for {long}: FerrisBot, a verdict may take too long: nothing is fetched"
    ]
    assert RobotParser.from_crawler(get_crawler(settings_dict={"TEXTING_ROBOTS_COST": 10**9}), body).allowed(long, "FerrisBot")
