"""The calls of the package: results, errors, and what a Site does as an object of Python."""

import array
import copy
import ctypes
import doctest
import math
import mmap
import pickle

import package
import pytest

import texting_robots
from texting_robots import FILE_LIMIT, LIFETIME, REDIRECT_LIMIT, AgentError, Matrix, Meaning, OverlongRuleError, Robots, RobotsError, Site
from texting_robots import TooCostlyError, UrlError, Verdict, meaning, product_token, robots_url

SHOP = b"""\
User-agent: *
Disallow: /search
Allow: /search/help
Crawl-delay: 2.5

User-agent: SlowBot
Disallow: /
Crawl-delay: 1e300
Sitemap: https://example.com/one.xml
Sitemap: https://example.com/zw\xc3\xb6lf.xml
"""
DENIED, ALLOWED = Verdict(False, 2), Verdict(True, None)
OVERLONG = b"User-agent: *\nDisallow: /a\nUser-agent: LongBot\nAllow: /\nDisallow: /" + b"a" * 4096 + b"$\nCrawl-delay: 1\n"


def test_examples_of_the_docstrings():
    for module in (texting_robots, texting_robots._robots, texting_robots._responses):
        assert doctest.testmod(module).failed == 0


def test_verdicts():
    shop = Site(SHOP)
    assert shop.allowed("https://example.com/search/tea", "FerrisBot") is False
    assert shop.can_fetch("https://example.com/search/help", "FerrisBot") is True
    assert shop.verdict("/search/tea", "ferrisbot") == DENIED == (False, 2)
    assert shop.verdict("/search/help", "FerrisBot") == Verdict(True, 3)
    assert shop.verdict("/", "FerrisBot") == ALLOWED
    assert shop.verdict("/", "SLOWBOT") == Verdict(False, 7)
    assert Site(b"").verdict("/", "FerrisBot") == ALLOWED


@pytest.mark.parametrize("odd", ["/sea\nrch", "/"], ids=["one with a line feed", "none"])
def test_verdicts_of_many_urls(odd):
    shop, urls = Site(SHOP), ["/search/tea", "/search/help", "", odd, "https://example.com/search"]
    assert shop.verdicts(urls, "FerrisBot") == [shop.verdict(url, "FerrisBot") for url in urls]
    assert shop.verdicts(urls, "FerrisBot")[:3] == [DENIED, Verdict(True, 3), ALLOWED]
    assert shop.matrix(urls, ["FerrisBot", "SlowBot", "*"]) == [shop.verdicts(urls, agent) for agent in ["FerrisBot", "SlowBot", "*"]]


def test_many_urls_may_be_few():
    shop = Site(SHOP)
    assert shop.verdicts(iter(["/"]), "SlowBot") == [Verdict(False, 7)]
    assert shop.verdicts([], "SlowBot") == []
    assert shop.verdicts([""], "FerrisBot") == [ALLOWED]
    assert shop.matrix([], ["SlowBot", "*"]) == [[], []]
    assert shop.matrix(["/"], []) == []
    assert shop.matrix({"/": 1}, iter(["a\nb", "SlowBot"])) == [[ALLOWED], [Verdict(False, 7)]]


def test_verdicts_within_a_budget():
    """The longer rule is tried first, and no byte is compared if it is longer than the URL's path."""
    shop = Site(SHOP)
    cases = [("/search/tea", 9, DENIED), ("/search/help", 13, Verdict(True, 3)), ("/search/a", 9, DENIED), ("", 2, ALLOWED)]
    for url, least, verdict in cases:
        assert shop.verdict_within(f"https://example.com{url}", "FerrisBot", least) == shop.verdict(url, "FerrisBot") == verdict
        with pytest.raises(TooCostlyError, match="too costly") as raised:
            shop.verdict_within(url, "FerrisBot", least - 1)
        assert isinstance(raised.value, RobotsError)
    assert shop.verdict_within("/robots.txt", "SlowBot", 0) == ALLOWED
    assert [shop.cost(length, "FerrisBot") for length in (0, 6, 7, 11, 12, 2**64 - 1)] == [2, 2, 9, 9, 21, 21]
    assert [Site(b"User-agent: *\nDisallow: /*a\nAllow: /b$").cost(length, "a") for length in (0, 2, 2**64 - 1)] == [2, 8, 2**64 - 1]
    for call in [lambda: Site(OVERLONG).cost(1, "LongBot"), lambda: Site(OVERLONG).verdict_within("/", "LongBot", 99)]:
        with pytest.raises(OverlongRuleError):
            call()
    for wrong in [-1, 2**64]:
        with pytest.raises(OverflowError):
            shop.verdict_within("/", "FerrisBot", wrong)


def test_size():
    """A file's bytes are kept once for one agent, else twice. A robot takes 74 for each of 60 rules, and agents without a line share one."""
    empty, long = Site(b""), Site(b"#" * 1000)
    assert long.memory == 1000 and long.allowed("/", "x") and empty.allowed("/", "x") and long.memory - empty.memory == 1000
    assert long.allowed("/", "y") and empty.allowed("/", "y") and long.memory - empty.memory == 2000
    body = b"User-agent: own\nUser-agent: *\n" + b"Disallow: /a\n" * 60
    file = Site(body)
    sizes = [file.memory for agent in ["own", "x", "y", "own"] if file.allowed("/", agent)]
    own = sizes[0] - len(body)
    assert 60 * 74 < own < 60 * 74 + 400 and sizes[1] > 2 * len(body) + own and sizes[2:] == [sizes[1], sizes[1] + own]


def test_denials():
    """Of the same URLs and agents, file after file."""
    matrix = Matrix(iter(["/", "/search", "/search/help"]), ["FerrisBot", "SlowBot", "LongBot"])
    assert matrix.denials(SHOP) == [
        ("FerrisBot", "/search", 2), ("SlowBot", "/", 7), ("SlowBot", "/search", 7), ("SlowBot", "/search/help", 7), ("LongBot", "/search", 2),
    ]  # fmt: skip
    assert matrix.denials(OVERLONG) == [("LongBot", "/", None), ("LongBot", "/search", None), ("LongBot", "/search/help", None)]
    assert matrix.denials(b"") == matrix.denials(b"#" * (FILE_LIMIT - 1) + b"\nUser-agent: *\nDisallow: /") == []
    for wrong in ["User-agent: *", None, [SHOP], texting_robots._native.ffi.new("char[]", 10)]:
        with pytest.raises(TypeError, match="^body has the type .*: it has to be bytes or another buffer"):
            matrix.denials(wrong)
    for urls, agents in [([], ["a"]), (["/"], []), (["/a\nb"], ["a"]), (["/"], ["a\nb"]), (["/"], ["a/1"]), (["/\ud800"], ["a"])]:
        with pytest.raises(ValueError):
            Matrix(urls, agents)
    for urls, agents in [("/", ["a"]), (["/"], "a"), ([None], ["a"]), (["/"], [b"a"]), (["/"], ["a/1"])]:
        with pytest.raises(TypeError):
            Matrix(urls, agents)


class BytesOfAnotherLength(bytes):
    def __len__(self):
        return 0


def test_a_file_has_as_many_bytes_as_there_are():
    """Whatever its len() says: with a greater one, the library would read memory that isn't the file's."""
    body = BytesOfAnotherLength(SHOP)
    assert Matrix(["/search"], ["FerrisBot"]).denials(body) == [("FerrisBot", "/search", 2)]
    assert Site(body).verdict("/search", "FerrisBot") == DENIED


def test_responses():
    """By RFC 9309, 2.3.1."""
    assert {meaning(status) for status in (200, 204, 205, 207, 299)} == {Meaning.PARSE}
    assert {meaning(status) for status in (400, 401, 403, 404, 410, 428, 430, 499)} == {Meaning.ALLOW_ALL}
    unreachable = {meaning(status) for status in (None, 0, 100, 199, 206, 300, 301, 304, 429, 500, 503, 599, 600, 65_736)}
    assert unreachable == {meaning(200, is_complete=False), meaning(304, has_location=True)} == {Meaning.DENY_ALL}
    for status in (300, 301, 302, 303, 307, 308, 399):
        after = [meaning(status, redirects=count, has_location=True) for count in range(7)]
        assert after == [Meaning.FOLLOW] * REDIRECT_LIMIT + [Meaning.ALLOW_ALL] * 2
    assert (REDIRECT_LIMIT, LIFETIME) == (5, 24 * 60 * 60)


@pytest.mark.parametrize("agent", ["FerrisBot", "*", ""])
def test_all_or_nothing(agent):
    class Own(Site):
        pass

    urls = ["https://example.com/a?b", "/", "example.com", "/robots.txt"]
    for robots, answers in [(Own.allow_all(), [True] * 4), (Own.deny_all(), [False, False, False, True])]:
        assert type(robots) is Own and [robots.allowed(url, agent) for url in urls] == answers


def test_a_verdict_is_true_if_it_allows():
    assert Site(SHOP).verdict("/", "FerrisBot")
    assert not Site(SHOP).verdict("/", "SlowBot")


def test_delays():
    shop = Site(SHOP)
    assert shop.delay("FerrisBot") == shop.crawl_delay("FerrisBot") == 2.5
    assert shop.delay_microseconds("FerrisBot") == 2_500_000
    assert shop.delay_microseconds("SlowBot") == 2**64 - 1
    assert math.isfinite(shop.delay("SlowBot"))
    assert Site(b"").delay("FerrisBot") is None
    assert Site(b"User-agent: *\nCrawl-delay: 0").delay("FerrisBot") == 0.0


def test_sitemaps_and_agents():
    assert Site(SHOP).sitemaps == ["https://example.com/one.xml", "https://example.com/zwölf.xml"]
    assert Site(SHOP + b"User-agent: SLOWBOT\nUser-agent: b\xc3\xb6tbot\nUser-agent: \xff").agents == ["*", "SlowBot", "bötbot"]
    assert Site(b"").sitemaps == Site(b"").agents == []
    assert Site(b"Sitemap: \xff\nSitemap:\nSitemap: a").sitemaps == ["", "a"]
    inner = [f"a{space}b" for space in " \x0b\x0c\x1c\x85\u2028"]  # which end no line
    assert Site("".join(f"Sitemap: {it}\n" for it in inner)).sitemaps == inner
    assert Site("User-agent:\n" + "".join(f"User-agent: {it}\n" for it in inner)).agents == ["", *inner]
    many = [f"https://example.com/{n}.xml" for n in range(1000)]
    assert Site("".join(f"Sitemap: {url}\n" for url in many)).sitemaps == many
    assert Site("".join(f"User-agent: {url}\n" for url in many)).agents == many


def test_robots_url():
    assert robots_url("HTTPS://Bücher.example:443/ä?b#c") == "https://xn--bcher-kva.example/robots.txt"
    for url in ["", "/a", "example.com/a", "mailto:a@example.com", "ftp://example.com/", "https://"]:
        for error in (UrlError, RobotsError, ValueError):
            with pytest.raises(error, match=f"^{url!r} is no URL"):
                robots_url(url)
    assert robots_url("https://example.com/" + "a" * 5000) == "https://example.com/robots.txt"
    assert robots_url("https://" + "a." * 1000 + "com") == "https://" + "a." * 1000 + "com/robots.txt"


@pytest.mark.parametrize("url", ["/zwölf", "/zw%C3%B6lf", "https://bücher.example/zwölf/x"])
def test_a_url_may_be_outside_of_ascii(url):
    assert Site("User-agent: *\nDisallow: /zwölf\n").verdict(url, "FerrisBot") == DENIED


def test_agents_that_are_not_named_share_the_group_of_all():
    robots = Site(b"User-agent: *\nDisallow: /all\nUser-agent: FerrisBot\nDisallow: /ferris")
    for agent in ["", "*", "OtherBot", "Ferris", "bötbot"]:
        assert robots.verdicts(["/all", "/ferris"], agent) == [DENIED, ALLOWED]
    assert robots.verdicts(["/all", "/ferris"], "FERRISBOT") == [ALLOWED, Verdict(False, 4)]
    assert robots.allowed("/", "")
    assert robots._site.robot("FERRISBOT") is robots._site.robot("FERRISBOT")
    kept = {agent: robot._opened for agent, robot in robots._site.robots.items()}
    assert kept[""] == kept["OtherBot"] == kept["Ferris"] != kept["FERRISBOT"]


def test_is_named():
    robots = Site(SHOP + b"User-agent: b\xc3\xb6tbot\nUser-agent: \xff\nUser-agent: Long")
    assert [robots.is_named(it) for it in ["SlowBot", "slowBOT", "b\u00f6tbot", "*", "LONG"]] == [True] * 5
    assert [robots.is_named(it) for it in ["FerrisBot", "Slow", "SlowBot2", "b\u00d6tbot", "\u00ff", ""]] == [False] * 6
    assert not Site(b"Disallow: /").is_named("*") and Site(OVERLONG).is_named("LongBot") is True


def test_any_number_of_agents():
    robots = Site(b"User-agent: *\nDisallow: /all\nUser-agent: a7\nDisallow: /seven")
    for number in range(2500):
        assert robots.verdict("/all", f"a{number}") == ((True, None) if number == 7 else (False, 2))
    assert robots.verdict("/seven", "A7") == Verdict(False, 4)
    assert len(robots._site.robots) <= 1000


# ---- files


def mapped(body):
    made = mmap.mmap(-1, len(body))
    made[:] = body
    return made


def arrow_buffer(body):
    return pytest.importorskip("pyarrow").py_buffer(body)


BUFFERS = [bytes, bytearray, memoryview, mapped, lambda body: array.array("b", body), (ctypes.c_char * len(SHOP)).from_buffer_copy]


@pytest.mark.parametrize("kind", [*BUFFERS, pickle.PickleBuffer, arrow_buffer])
def test_bodies_of_bytes(kind):
    assert Site(kind(SHOP)).verdict("/search", "FerrisBot") == DENIED
    assert Matrix(["/search"], ["FerrisBot"]).denials(kind(SHOP)) == [("FerrisBot", "/search", 2)]


def test_no_more_than_the_limit_is_copied():
    """Of a mapping that is larger than the memory."""
    flags = mmap.MAP_PRIVATE | mmap.MAP_ANONYMOUS | getattr(mmap, "MAP_NORESERVE", 0x4000)
    with mmap.mmap(-1, 1 << 40, flags=flags) as body:
        body[: len(SHOP)] = SHOP
        assert Site(body).verdict("/search", "FerrisBot") == DENIED


class SiteRobots(Site):
    pass


@pytest.mark.parametrize("body", [SHOP, SHOP.decode(), memoryview(SHOP)])
def test_parse(body):
    assert Site.parse(body).can_fetch("/search", "FerrisBot") is False
    assert type(SiteRobots.parse(body)) is SiteRobots


def test_bodies_of_text():
    damaged = b"User-agent: *\nDisallow: /p # \xff\xfe\n"
    for body in [damaged, damaged.decode("utf-8", "surrogateescape"), damaged.decode("utf-8", "replace"), "\ufeffUser-agent: *\nDisallow: /p"]:
        assert not Site(body).allowed("/p", "FerrisBot")
    with pytest.raises(ValueError):
        Site("Disallow: /\ud800")
    for body in [None, 3, ["User-agent: *"]]:
        for call in [Site, Site.parse, Matrix(["/"], ["FerrisBot"]).denials]:
            with pytest.raises(TypeError, match=f"^body has the type {type(body).__name__}: it has to be bytes or another buffer"):
                call(body)


def test_a_body_that_changes_later():
    body = bytearray(SHOP)
    shop = Site(body)
    body[:] = b"#" * len(body)
    assert not shop.allowed("/search", "FerrisBot")


def test_the_file_limit():
    assert FILE_LIMIT == 512_000
    filler = b"# filler\n" * 70_000
    assert Site(filler + b"User-agent: *\nDisallow: /").allowed("/x", "FerrisBot")
    whole = b"User-agent: *\nDisallow: /\n" + filler
    assert not Site(whole).allowed("/x", "FerrisBot")
    assert len(pickle.dumps(Site(whole))) < FILE_LIMIT + 1000
    assert Site(array.array("H", bytes(FILE_LIMIT + 2))).memory == FILE_LIMIT
    assert repr(Site(whole)) == f"<Site of {FILE_LIMIT} bytes>"
    rule = b"\nUser-agent: *\nDisallow: /x"
    for over, line in [(0, None), (1, 3)]:  # with one byte too many, the rule is cut to `Disallow: /`
        assert Site(b"#" * (FILE_LIMIT - len(rule) + over) + rule).verdict("/", "FerrisBot") == Verdict(line is None, line)


@pytest.mark.parametrize("end", [b"\n", b"\r\n", b"\r", b"\0"])
@pytest.mark.parametrize("front", [b"", b"\xef\xbb\xbf", b"\xbb\xbf"])
def test_line_ends_and_byte_order_marks(front, end):
    assert Site(front + SHOP.replace(b"\n", end)).verdict("/search", "FerrisBot") == DENIED


# ---- errors


def calls_with(robots, url, agent):
    """All calls with this URL and this agent."""
    calls = [robots.allowed, robots.can_fetch, robots.verdict, lambda url, agent: robots.verdicts([url], agent)]
    calls += [lambda url, agent: robots.matrix([url], ["*", agent]), lambda url, agent: robots.matrix(["/a\nb", url], [agent])]
    return [lambda call=call: call(url, agent) for call in calls]


@pytest.mark.parametrize("agent", ["https://example.com/", "/ferris", "FerrisBot/1.0"])
@pytest.mark.parametrize("error", [AgentError, RobotsError, TypeError, ValueError])
def test_an_agent_with_a_slash(agent, error):
    """So arguments that are swapped, and a User-Agent with a version."""
    robots = Site(SHOP)
    calls = [lambda: robots.delay(agent), lambda: robots.crawl_delay(agent), lambda: robots.is_named(agent)]
    calls += [lambda: robots.matrix([], [agent]), lambda: robots.matrix([], ["a\nb", agent])]
    for call in [*calls_with(robots, "FerrisBot", agent), *calls]:
        with pytest.raises(error, match="product token"):
            call()


class URL:
    """As of yarl and httpx: no str, but str() of it is one."""

    def __str__(self):
        return "https://example.com/"


@pytest.mark.parametrize("wrong", [None, 3, b"FerrisBot", ["/"], URL()])
def test_what_is_no_text(wrong):
    """The error has the argument, its type, and what it may be."""
    robots, kind = Site(SHOP), type(wrong).__name__
    of_agents = [*calls_with(robots, "/", wrong), lambda: robots.delay(wrong), lambda: robots.is_named(wrong), lambda: robots.cost(1, wrong)]
    of_agents += [lambda: Matrix(["/"], [wrong])]
    of_urls = [*calls_with(robots, wrong, "FerrisBot"), lambda: robots.verdict_within(wrong, "FerrisBot", 9), lambda: robots_url(wrong)]
    of_urls += [lambda: Matrix([wrong], ["FerrisBot"])]
    for calls, argument, example in [(of_agents, "agent", "FerrisBot"), (of_urls, "url", "https://example.com/a"), ([lambda: product_token(wrong)], "user_agent", "FerrisBot/1.0")]:
        for call in calls:
            with pytest.raises(TypeError, match=rf"^{argument}(s\[[01]\])? has the type {kind}: it has to be a str, such as '{example}'$"):
                call()


@pytest.mark.parametrize("wrong", ["/search", b"/search", None, 3])
def test_what_is_not_several(wrong):
    robots = Site(SHOP)
    of_urls = [lambda: robots.verdicts(wrong, "FerrisBot"), lambda: robots.matrix(wrong, ["FerrisBot"]), lambda: Matrix(wrong, ["FerrisBot"])]
    of_agents = [lambda: robots.matrix(["/search"], wrong), lambda: Matrix(["/search"], wrong)]
    for calls, argument in [(of_urls, "urls"), (of_agents, "agents")]:
        for call in calls:
            with pytest.raises(TypeError, match=f"^{argument} has the type {type(wrong).__name__}: it has to be several str"):
                call()


def test_the_place_of_what_is_no_text():
    for call, place in [(lambda: Site(SHOP).verdicts(["/", b"/"], "FerrisBot"), r"urls\[1\]"), (lambda: Site(SHOP).matrix(["/"], [b"*"]), r"agents\[0\]")]:
        with pytest.raises(TypeError, match=f"^{place} has the type bytes"):
            call()


def test_an_error_of_an_iterator_is_its_own():
    def failing():
        yield "/"
        raise TypeError("of the iterator")

    with pytest.raises(TypeError, match="^of the iterator$"):
        Site(SHOP).verdicts(failing(), "FerrisBot")


def test_what_is_not_utf8():
    robots = Site(SHOP)
    calls = [*calls_with(robots, "/\ud800", "FerrisBot"), *calls_with(robots, "/", "Ferris\udcff"), lambda: robots.delay("Ferris\udcff")]
    for call in [*calls, lambda: robots.is_named("Ferris\udcff"), lambda: robots_url("https://example.com/\ud800")]:
        with pytest.raises(ValueError):
            call()


def test_an_overlong_rule():
    robots = Site(OVERLONG)
    assert not robots.allowed("/a", "FerrisBot")
    for call in calls_with(robots, "/", "longbot")[:4] * 2:
        with pytest.raises(OverlongRuleError, match="line 5") as raised:
            call()
        assert raised.value.line == 5
    again = pickle.loads(pickle.dumps(raised.value))
    assert type(again) is OverlongRuleError and again.line == 5 and str(again) == str(raised.value)
    assert isinstance(again, RobotsError)
    assert robots.matrix(["/", "/a"], ["LongBot", "FerrisBot"]) == [[None, None], [ALLOWED, DENIED]]
    assert robots.matrix(["/a\nb"], ["LongBot", "FerrisBot"]) == [[None], [DENIED]]
    assert (robots.delay("LongBot"), robots.agents, robots.sitemaps) == (1.0, ["*", "LongBot"], [])


# ---- product tokens, pickles


@pytest.mark.parametrize(
    "user_agent, token",
    [
        ("FerrisBot", "FerrisBot"),
        ("FerrisBot/1.0 (+https://example.com/bot)", "FerrisBot"),
        (" \t FerrisBot/1.0", "FerrisBot"),
        (" (FerrisBot)", "*"),
        ("Scrapy/2.8.0 (+https://scrapy.org)", "Scrapy"),
        ("Mozilla/5.0 (compatible; FerrisBot/1.0)", "Mozilla"),
        ("Google-Extended", "Google-Extended"),
        ("my_bot 3", "my_bot"),
        ("FerrisBot: a friendly one", "FerrisBot"),
        ("MJ12bot/v1.4.8", "MJ12bot"),
        ("Bötbot; a friendly one", "Bötbot"),
        ("(FerrisBot)", "*"),
        ("", "*"),
        ("*", "*"),
    ],
)
def test_product_tokens(user_agent, token):
    assert product_token(user_agent) == token


def test_pickles_and_copies():
    shop = Site(SHOP)
    shop.allowed("/", "FerrisBot")
    for protocol in range(pickle.HIGHEST_PROTOCOL + 1):
        assert pickle.loads(pickle.dumps(shop, protocol)).verdict("/search", "FerrisBot") == DENIED
    for again in [copy.copy(shop), copy.deepcopy(shop)]:
        assert again.verdict("/search", "FerrisBot") == DENIED
    assert pickle.loads(pickle.dumps(Verdict(True, 3))) == Verdict(True, 3)
    assert repr(shop) == f"<Site of {len(SHOP)} bytes>"


def test_the_other_name_of_a_site():
    """A pickle that was made when the class had it can be read, too."""
    assert Robots is Site
    made = (
        b"\x80\x04\x95b\x00\x00\x00\x00\x00\x00\x00\x8c\x16texting_robots._robots\x94\x8c\x06Robots\x94\x93\x94)\x81\x94}\x94"
        b"\x8c\x05_site\x94h\x00\x8c\x05_Site\x94\x93\x94C\x1bUser-agent: *\nDisallow: /a\n\x94\x85\x94R\x94sb."
    )
    site = pickle.loads(made)
    assert type(site) is Site and site.verdict("/a", "x") == DENIED


class OwnRobots(Site):
    pass


class FetchedRobots(Site):
    __slots__ = ("host",)

    def __init__(self, host, body):
        super().__init__(body)
        self.host, self.seconds = host, [3]


def test_pickles_of_a_subclass():
    own = pickle.loads(pickle.dumps(OwnRobots(SHOP)))
    assert type(own) is type(copy.copy(own)) is OwnRobots and own.verdict("/search", "FerrisBot") == DENIED
    assert repr(own) == f"<OwnRobots of {len(SHOP)} bytes>"


@pytest.mark.parametrize("again", [copy.copy, copy.deepcopy, lambda robots: pickle.loads(pickle.dumps(robots))])
def test_a_subclass_keeps_its_attributes(again):
    fetched = FetchedRobots("example.com", SHOP)
    fetched.allowed("/", "SlowBot")
    made = again(fetched)
    assert type(made) is FetchedRobots and (made.host, made.seconds) == ("example.com", [3]) and not made.allowed("/", "SlowBot")
    assert (made.seconds is fetched.seconds) == (again is copy.copy)


IN_A_WORKER = """
from concurrent.futures import ProcessPoolExecutor
from multiprocessing import get_context
from texting_robots import OverlongRuleError, Site

if __name__ == "__main__":
    robots = Site(b"User-agent: a\\nDisallow: /private\\nUser-agent: b\\nDisallow: /" + b"a" * 5000 + b"$")
    with ProcessPoolExecutor(1, mp_context=get_context("spawn")) as pool:
        print(pool.submit(robots.allowed, "/private", "a").result(), pool.submit(robots.verdict, "/private", "c").result())
        try:
            pool.submit(robots.allowed, "/private", "b").result()
        except OverlongRuleError as error:
            print(error.line)
"""


def test_robots_and_errors_go_to_another_process_and_back(tmp_path):
    (tmp_path / "worker.py").write_text(IN_A_WORKER)
    assert package.run([tmp_path / "worker.py"]) == "False Verdict(allowed=True, line=None)\n4\n"
