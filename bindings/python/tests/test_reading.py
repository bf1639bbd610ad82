"""The reading of RFC 9309: in each class, in copies, and where another one is asked for."""

import copy
import pickle

import package  # noqa: F401 (builds it)
import pytest
from readings import CASES, FULL, LAST_LINE, ONLY_TWO, REJECTED
from test_cache import A, caches, fetched, file  # noqa: F401 (a fixture)

from texting_robots import Matrix, OverlongRuleError, Robot, Site
from texting_robots.cache import RobotsCache
from texting_robots.protego import Protego
from texting_robots.robotparser import RobotFileParser


def numbered(verdict):
    return (1 if verdict.allowed else -1) * (verdict.line or 0)


@pytest.mark.parametrize("case", CASES.values(), ids=CASES)
def test_both_readings(case):
    for reading, number in [("crate", case.crate), ("rfc9309", case.rfc9309)]:
        site, robot = Site(case.file, reading), Robot(case.file, case.agent, reading)
        verdicts = [site.verdict(case.url, case.agent), robot.verdict(case.url), *site.verdicts([case.url], case.agent)]
        verdicts += [*robot.verdicts([case.url, "/"])[:1], *site.matrix([case.url], [case.agent])[0]]
        budget = site.cost(3 * len(case.url), case.agent)
        verdicts += [site.verdict_within(case.url, case.agent, budget), robot.verdict_within(case.url, budget)]
        assert [*map(numbered, verdicts)] == [number] * 7
        assert site.allowed(case.url, case.agent) == robot.allowed(case.url) == (number >= 0)
        denials = [(case.agent, case.url, -number)] * (number < 0)
        assert Matrix([case.url], [case.agent], reading).denials(case.file) == denials
        text, out = case.url.encode(), memoryview(bytearray(8)).cast("q")
        robot.verdicts_batch(text, out, ends=memoryview(len(text).to_bytes(8, "little")).cast("q"))
        assert out[0] == number
    default = Site(case.file)
    assert default.reading == "crate" and numbered(default.verdict(case.url, case.agent)) == case.crate


def test_all_else_is_that_of_the_file():
    crate, site = Site(ONLY_TWO), Site(ONLY_TWO, reading="rfc9309")
    for agent in ("Googlebot", "Bingbot", "Other"):
        delay = Robot(ONLY_TWO, agent, "rfc9309").delay
        assert crate.delay(agent) == site.delay(agent) == delay == (5 if agent == "Bingbot" or agent == "Googlebot" else None)
        assert crate.is_named(agent) == site.is_named(agent)
    assert (site.sitemaps, site.agents) == (crate.sitemaps, crate.agents) == (["https://example.com/s.xml"], ["Googlebot", "Bingbot", "*"])
    assert site.memory > crate.memory


def test_a_full_file_is_read_to_its_end():
    assert len(FULL) == 512_000 and numbered(Site(FULL, "rfc9309").verdict("/last", "Bot")) == -LAST_LINE
    assert numbered(Site(b"#" + FULL, "rfc9309").verdict("/last", "Bot")) == 0


def test_a_rule_that_is_too_long_for_the_standard_alone():
    assert numbered(Site(REJECTED).verdict("/", "Bot")) == 2
    site = Site(REJECTED, "rfc9309")
    for call in (lambda: site.verdict("/", "Bot"), lambda: Robot(REJECTED, "Bot", "rfc9309")):
        with pytest.raises(OverlongRuleError) as raised:
            call()
        assert raised.value.line == 3
    assert site.matrix(["/"], ["Bot"]) == [[None]] and Matrix(["/"], ["Bot"], "rfc9309").denials(REJECTED) == [("Bot", "/", None)]


@pytest.mark.parametrize("again", [copy.copy, copy.deepcopy, lambda it: pickle.loads(pickle.dumps(it))], ids=["copy", "deep", "pickle"])
def test_copies_keep_the_reading(again):
    for reading in ("crate", "rfc9309"):
        assert again(Site(ONLY_TWO, reading)).reading == reading
        for facade in facades(reading):
            assert again(facade).reading == reading
    assert repr(again(Site(ONLY_TWO, "rfc9309"))) == f"<Site of {len(ONLY_TWO)} bytes, reading='rfc9309'>"
    assert repr(Site(ONLY_TWO)) == f"<Site of {len(ONLY_TWO)} bytes>"


def test_a_pickle_from_before_there_were_readings():
    """Its file has one argument in it, the bytes."""
    old = pickle.dumps(Site(ONLY_TWO), protocol=2)
    assert b"rfc9309" not in old and pickle.loads(old).reading == "crate"


def facades(reading):
    protego, parser = Protego.parse(ONLY_TWO), RobotFileParser()
    parser.reading = protego.reading = reading
    parser.parse(ONLY_TWO.splitlines())
    return [protego, parser]


def test_facades():
    for reading, allowed in [("crate", True), ("rfc9309", False)]:
        protego, parser = facades(reading)
        assert protego.can_fetch("https://example.com/", "Googlebot") == parser.can_fetch("Googlebot", "https://example.com/") == allowed
        assert protego.crawl_delay("Googlebot") == parser.crawl_delay("Googlebot") == 5
        assert protego.site.reading == parser.site.reading == reading
    protego.reading = parser.reading = "crate"  # also of a file that is parsed
    assert protego.can_fetch("https://example.com/", "Googlebot") and parser.can_fetch("Googlebot", "https://example.com/")
    for facade in (Protego(), RobotFileParser()):
        assert facade.reading == "crate"
        with pytest.raises(ValueError, match="reading is 'RFC'"):
            facade.reading = "RFC"


def test_one_database_serves_both_readings(caches, tmp_path):
    path = tmp_path / "robots.sqlite3"
    with caches(database=path) as cache:
        site, _ = fetched(cache, A, file(ONLY_TWO))
        assert cache.verdict(site, "http://a.example/", "Googlebot") == (True, None, "")
    with caches(database=path, reading="rfc9309") as cache:
        site = cache.look(A).site
        assert cache.verdict(site, "http://a.example/", "Googlebot") == (False, 7, "") and cache.delay(site, "Googlebot") == 5
        assert repr(cache) == "<RobotsCache of 1 sites, reading='rfc9309'>"
    with caches(database=path) as cache:
        assert cache.verdict(cache.look(A).site, "http://a.example/", "Googlebot") == (True, None, "")
        assert repr(cache) == "<RobotsCache of 1 sites>"


def test_a_cache_without_a_database(caches):
    cache = caches(reading="rfc9309")
    site, _ = fetched(cache, A, file(ONLY_TWO))
    assert cache.verdict(site, "http://a.example/", "Googlebot") == (False, 7, "")
    site, _ = fetched(caches(reading="rfc9309"), A, file(REJECTED))
    verdict = cache.verdict(site, "http://a.example/", "Googlebot")
    assert (verdict.allowed, verdict.line) == (False, 3) and verdict.problem.startswith("the rule in line 3 is too long")


@pytest.mark.parametrize("reading", ["RFC9309", "", None, 9309, b"rfc9309"])
def test_another_reading(reading):
    calls = [lambda: Site(b"", reading), lambda: Site.parse(b"", reading), lambda: Robot(b"", "Bot", reading)]
    calls += [lambda: Matrix(["/"], ["Bot"], reading), lambda: RobotsCache(reading=reading)]
    for call in calls:
        with pytest.raises(ValueError, match="reading is .*: it has to be 'crate' or 'rfc9309'"):
            call()


def test_the_setting_of_scrapy(caplog):
    pytest.importorskip("scrapy")
    from scrapy.utils.test import get_crawler

    from texting_robots.middleware import RobotsMiddleware
    from texting_robots.scrapy import RobotParser

    url, settings = "https://example.com/", {"ROBOTSTXT_OBEY": True, "TEXTING_ROBOTS_READING": "rfc9309"}
    assert RobotParser.from_crawler(get_crawler(), ONLY_TWO).allowed(url, "Googlebot")
    crawler = get_crawler(settings_dict=settings)
    assert not RobotParser.from_crawler(crawler, ONLY_TWO).allowed(url, "Googlebot")
    assert "reading='rfc9309'" in repr(RobotsMiddleware.from_crawler(crawler)._cache)
    crawler = get_crawler(settings_dict=settings | {"TEXTING_ROBOTS_READING": "RFC"})
    assert not RobotParser.from_crawler(crawler, b"").allowed(url, "Googlebot") and "reading is 'RFC'" in caplog.text
    with pytest.raises(ValueError, match="reading is 'RFC'"):
        RobotsMiddleware.from_crawler(crawler)
