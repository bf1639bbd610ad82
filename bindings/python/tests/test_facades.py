"""RobotFileParser and Protego in place of those of urllib and Protego, with urllib's own tests."""

import copy
import datetime
import gzip
import http.client
import pickle
import sys
import threading
import unittest
import urllib.error
import urllib.request
import urllib.robotparser
from http.server import BaseHTTPRequestHandler, ThreadingHTTPServer
from unittest import mock

import package  # noqa: F401 (builds it)
import pytest

from texting_robots import AgentError, OverlongRuleError, Verdict
from texting_robots.protego import Protego, RequestRate, VisitTime
from texting_robots.robotparser import RobotFileParser

UrllibRate = urllib.robotparser.RequestRate
FERRIS = "FerrisBot/1.0 (+https://example.com/bot)"
FILE = """\
User-agent: *
Disallow: /private/
Crawl-delay: 2.5
Request-rate: 10/1m # ten in a minute
Visit-time: 0600-0845

User-agent: SlowBot
User-agent: Tea House
Allow: /tea
Disallow: /
Crawl-delay: 60
Request-rate: 1 / 30 2200-0630

Sitemap: https://example.com/one.xml
Sitemap: https://example.com/two.xml
Host: example.com
Host: www.example.com
"""
LONG_RULE = "User-agent: FerrisBot\nDisallow: /" + "a" * 5000 + "$"


def by_urllib(text, url=""):
    parser = RobotFileParser(url)
    parser.parse(text.splitlines())
    return parser


@pytest.fixture(params=[by_urllib, Protego.parse])
def parse(request):
    return request.param


def fetchable(parser, url, user_agent):
    return parser.can_fetch(user_agent, url) if isinstance(parser, RobotFileParser) else parser.can_fetch(url, user_agent)


# ---- urllib's own tests

OTHERWISE = {
    "CrawlDelayAndRequestRateTest.test_bad_urls": "for urllib %3c is %3C, and %7e is ~",
    "DifferentAgentTest.test_bad_urls": "the same file",
    "InvalidRequestRateTest.test_bad_urls": "for urllib %3C is %3c, and %7e is %7E",
    "UseFirstUserAgentWildcardTest.test_good_urls": "for urllib only the first group for * counts; RFC 9309 combines groups",
    "UserAgentGoogleMobileTest.test_bad_urls": "for urllib the group of Googlebot is for Googlebot-Mobile too, which has its own",
}


@pytest.mark.skipif(sys.version_info[:2] != (3, 11), reason="the list is that of Python 3.11")
def test_the_tests_of_urllib(monkeypatch):
    """Without a network, which one class of them needs."""
    theirs = pytest.importorskip("test.test_robotparser", reason="Python's own tests are missing: apt-get install libpython3-testsuite")
    monkeypatch.setattr(theirs.support, "use_resources", [])
    monkeypatch.setattr(urllib.robotparser, "RobotFileParser", RobotFileParser)
    result = unittest.TestResult()
    unittest.defaultTestLoader.loadTestsFromModule(theirs).run(result)
    failed = {getattr(test, "test_case", test).id().removeprefix("test.test_robotparser.") for test, _ in result.failures}
    assert (failed, result.errors) == (set(OTHERWISE), []) and result.testsRun >= 60


# ---- both


@pytest.mark.parametrize(
    "user_agent, denied, delay",
    [
        ("FerrisBot", ["/private/a"], 2.5),
        (FERRIS, ["/private/a"], 2.5),
        ("", ["/private/a"], 2.5),
        ("*", ["/private/a"], 2.5),
        ("slowbot", ["/private/a", "/a"], 60.0),
        (" SlowBot/2.1 (a slow one)", ["/private/a", "/a"], 60.0),
        ("SlowBot 2.1", ["/private/a", "/a"], 60.0),
        ("SlowBot2", ["/private/a"], 2.5),
        ("Mozilla/5.0 (compatible; SlowBot/2.1)", ["/private/a"], 2.5),
        ("Tea House", ["/private/a", "/a"], 60.0),
        ("Tea House/2.1 (http://tea.example)", ["/private/a", "/a"], 60.0),
        (" Tea House /2.1", ["/private/a", "/a"], 60.0),
        ("Tea Rooms", ["/private/a"], 2.5),
    ],
)
def test_whole_user_agents(parse, user_agent, denied, delay):
    parser = parse(FILE)
    for host in ["", "https://example.com"]:
        assert [path for path in ("/private/a", "/a", "/tea") if not fetchable(parser, host + path, user_agent)] == denied
    assert parser.crawl_delay(user_agent) == delay


def test_a_name_with_a_space_comes_before_its_front(parse):
    parser = parse("User-agent: Tea\nDisallow: /\nUser-agent: Tea House\nDisallow: /a")
    assert fetchable(parser, "/b", "Tea House/1.0") and not fetchable(parser, "/b", "Tea/1.0")


def test_no_path_is_the_root(parse):
    assert not fetchable(parse("User-agent: *\nDisallow: /"), "", "FerrisBot") and fetchable(parse("User-agent: *\nDisallow: /a"), "", "FerrisBot")


def test_a_rule_that_is_too_long_denies_everything(parse):
    parser = parse(LONG_RULE)
    assert not fetchable(parser, "/", FERRIS) and fetchable(parser, "/", "OtherBot")
    with pytest.raises(OverlongRuleError):
        parser.site.verdict("/", "FerrisBot")


@pytest.mark.parametrize("agent, url", [("https://example.com/a", "FerrisBot"), ("/a", "FerrisBot"), (" http://a", "/")])
def test_arguments_in_the_wrong_order(parse, agent, url):
    with pytest.raises(AgentError, match="in the other order"):
        fetchable(parse(FILE), url, agent)


@pytest.mark.parametrize("agent, url, error", [(b"FerrisBot", "/", "user_agent has the type bytes"), ("FerrisBot", b"/", "url has the type bytes"), ("FerrisBot", None, "url has the")])
def test_arguments_of_another_type(parse, agent, url, error):
    with pytest.raises(TypeError, match=f"^{error}.*: it has to be a str, such as"):
        fetchable(parse(FILE), url, agent)


@pytest.mark.parametrize("again", [copy.copy, copy.deepcopy, lambda parser: pickle.loads(pickle.dumps(parser))])
def test_copies(parse, again):
    parser = parse(FILE)
    assert parser.request_rate("SlowBot") and fetchable(again(parser), "/a", FERRIS) and not fetchable(again(parser), "/a", "SlowBot")
    assert again(parser).site.verdict("/private/", "FerrisBot") == Verdict(False, 2) and again(parser).request_rate("SlowBot")[:2] == (1, 30)


def test_any_number_of_crawlers(parse):
    parser = parse("User-agent: *\nDisallow: /a\nUser-agent: bot7\nDisallow: /b")
    assert [number for number in range(2500) if fetchable(parser, "/a", f"bot{number}/1.0")] == [7]
    assert len(parser._file._names) <= 1000


# ---- Request-rate, Visit-time, Host


@pytest.mark.parametrize(
    "value, rate",
    [
        ("1/5", (1, 5, None, None)),
        ("1/5s", (1, 5, None, None)),
        (" 10 / 2M", (10, 120, None, None)),
        ("100/1h", (100, 3600, None, None)),
        ("5/1d # a day", (5, 86_400, None, None)),
        ("1/5 0600-0845", (1, 5, datetime.time(6), datetime.time(8, 45))),
        ("1/1m 22:00 - 06:30", (1, 60, datetime.time(22), datetime.time(6, 30))),
        ("1/5 0600-2500", None),
        ("1/5 at night", None),
        ("1/5x", None),
        ("0/5", None),
        ("1/0", None),
        ("-1/5", None),
        ("1/", None),
        ("9/banana", None),
        ("\u0661/5", None),
        ("1" * 5000 + "/5", None),
    ],
)
def test_values_of_request_rate(value, rate):
    file = f"User-agent: *\nRequest-rate: {value}\nDisallow: /"
    assert Protego.parse(file).request_rate(FERRIS) == rate == (rate and RequestRate(*rate))
    found = by_urllib(file).request_rate(FERRIS)
    assert found == (rate and rate[:2]) and type(found) in (UrllibRate, type(None))


def test_values_of_visit_time():
    values = {"0600-0845": (datetime.time(6), datetime.time(8, 45)), "2200 0630 # UT": (datetime.time(22), datetime.time(6, 30)), "0600": None, "0660-0845": None}
    for value, times in values.items():
        found = Protego.parse(f"User-agent: *\nVisit-time: {value}").visit_time(FERRIS)
        assert found == times == (times and VisitTime(*times))


@pytest.mark.parametrize(
    "file, rates",
    [
        (FILE, {FERRIS: (10, 60), "SlowBot 2.1": (1, 30), "Tea House/1.0": (1, 30)}),
        ("User-agent: a\nRequest-rate: 1/5\nUser-agent: b\nDisallow: /", {"a": (1, 5), "b": None, "c": None}),
        ("User-agent: a\nCrawl-delay: 7\nUser-agent: b\nRequest-rate: 1/5\nDisallow: /", {"a": None, "b": (1, 5)}),
        ("User-agent: a\nRequest-rate: fast\nRequest-rate: 1/5\nRequest-rate: 1/6\n", {"A/1": (1, 5), "b": None}),
        ("User-agent: *\r\n  REQUEST RATE 1/5\r\nUser-agent: b\r\nAllow: /", {"a": (1, 5), "b": None}),
        ("User-agent: *\n# Request-rate: 1/5\nDisallow: /Request-rate: 1/6\nX-Request-rate: 1/7", {"a": None}),
        ("User-agent: a\rRequest-rate: 1/5\0User-agent: b\rRequest-rate: 1/6", {"a": (1, 5), "b": (1, 6)}),
        ("\ufeffCrawl-delay: 7\nUser-agent: *\nDisallow: /", {"a": None}),
        ("\ufeffRequest-rate: 1/5\nDisallow: /", {"a": (1, 5)}),
    ],
)
@pytest.mark.parametrize("parse", [Protego.parse, lambda text: by_urllib(text.replace("\0", "\n"))])
def test_a_rate_is_that_of_the_crawler(parse, file, rates):
    """Of the group with its name or else of the one for all, and of several the first."""
    parser = parse(file)
    assert {agent: rate and tuple(rate[:2]) for agent, rate in ((agent, parser.request_rate(agent)) for agent in rates)} == rates


def test_protego():
    parser = Protego.parse(FILE)
    sitemaps = parser.sitemaps
    assert (next(sitemaps), *sitemaps) == ("https://example.com/one.xml", "https://example.com/two.xml")
    assert parser.preferred_host == "www.example.com"
    assert parser.visit_time(FERRIS) == (datetime.time(6), datetime.time(8, 45)) and parser.visit_time("SlowBot") is None
    assert parser.site.verdict("/a", "SlowBot") == Verdict(False, 10)
    for empty in [Protego(), Protego.parse(""), Protego.parse("Host:\n# Host: a\nlocalhost: a")]:
        assert empty.can_fetch("/", FERRIS) and list(empty.sitemaps) == []
        assert [empty.preferred_host, empty.crawl_delay(FERRIS), empty.request_rate(FERRIS), empty.visit_time(FERRIS)] == [None] * 4


class Own(Protego):
    pass


@pytest.mark.parametrize("kind", [bytes, bytearray, memoryview, lambda body: body.decode("utf-8", "surrogateescape")])
def test_protego_takes_bytes(kind):
    parser = Own.parse(kind(b"User-agent: *\nDisallow: /a # f\xfcr alle\nHost: b.example\nRequest-rate: 1/5"))
    assert type(parser) is Own and not parser.can_fetch("/a", FERRIS)
    assert (parser.preferred_host, parser.request_rate(FERRIS)[:2]) == ("b.example", (1, 5))


def test_the_limit_holds_for_all_lines():
    filler = "User-agent: *\n".ljust(512_000, "#")
    parser = Protego.parse(filler + "\nHost: a\nRequest-rate: 1/5\nVisit-time: 0600-0845")
    assert [parser.preferred_host, parser.request_rate(FERRIS), parser.visit_time(FERRIS)] == [None] * 3


def test_protego_takes_no_list():
    with pytest.raises(TypeError, match="^body has the type list: it has to be bytes or another buffer, or"):
        Protego.parse(["User-agent: *"])


# ---- RobotFileParser


def test_it_is_one_of_urllib():
    parser = by_urllib(FILE, "https://example.com:8080/robots.txt")
    assert isinstance(parser, urllib.robotparser.RobotFileParser)
    assert (parser.url, parser.host, parser.path) == ("https://example.com:8080/robots.txt", "example.com:8080", "/robots.txt")
    assert parser.site_maps() == ["https://example.com/one.xml", "https://example.com/two.xml"] and by_urllib("").site_maps() is None
    assert parser.request_rate(FERRIS) == UrllibRate(10, 60)


def test_before_a_file_is_parsed_everything_is_denied():
    parser = RobotFileParser()
    assert parser.mtime() == 0 and not parser.can_fetch(FERRIS, "/")
    assert [parser.crawl_delay(FERRIS), parser.request_rate(FERRIS), parser.site_maps()] == [None] * 3
    with mock.patch("time.time", lambda: 7e8):
        parser.modified()
    assert parser.mtime() == 7e8 and parser.can_fetch(FERRIS, "/")


@pytest.mark.parametrize("flags, allowed", [(["allow_all"], True), (["disallow_all"], False), (["allow_all", "disallow_all"], False)])
def test_flags(flags, allowed):
    parser = by_urllib("User-agent: *\nDisallow: /a")
    for flag in flags:
        setattr(parser, flag, True)
    assert [parser.can_fetch(FERRIS, url) for url in ("/a", "/b")] == [allowed] * 2


LINES = ["User-agent: *", "Disallow: /a # \udcff", "", "Disallow: /b", "Disallow: /c\udcff"]


@pytest.mark.parametrize("end", ["", "\n", "\r\n", "\r"])
@pytest.mark.parametrize("kind", [str, lambda line: line.encode("utf-8", "surrogateescape")])
def test_lines(kind, end):
    parser = RobotFileParser()
    parser.parse(kind(line + end) for line in LINES)
    assert [url for url in ("/a", "/b", "/c?", "/c\ufffd") if not parser.can_fetch(FERRIS, url)] == ["/a", "/b"] and parser.mtime() > 0
    parser.parse([])
    assert parser.can_fetch(FERRIS, "/a")


def test_ends_of_lines_do_not_count_twice():
    """A file of 512,000 bytes is used whole, however its lines are given."""
    lines = ["User-agent: *\n", *["#\n"] * 255_987, "Disallow: /\n"]
    assert len("".join(lines)) == 512_000
    for given in [lines, "".join(lines).splitlines(), [line.replace("\n", "\r\n") for line in lines]]:
        parser = RobotFileParser()
        parser.parse(given)
        assert not parser.can_fetch(FERRIS, "/a")


@pytest.mark.parametrize("text", [FILE, FILE.encode()])
def test_one_text_in_place_of_lines(text):
    """For urllib each character of a str is a line, so everything is allowed."""
    with pytest.raises(TypeError, match="^lines has to be several"):
        RobotFileParser().parse(text)


def test_text_of_the_groups():
    shown = "User-agent: b\nAllow: /tea\nDisallow: /\n\nUser-agent: *\nCrawl-delay: 2\nRequest-rate: 1/5\nDisallow: /a"
    file = "User-agent: *\nCrawl-delay: 2\nDisallow: /a # a\nRequest-rate: 1/5\n\nUser-agent: b\nAllow: /tea\nDisallow: /"
    assert str(by_urllib(file)) == shown


class Handler(BaseHTTPRequestHandler):
    def do_GET(self):
        status, body, fields = self.server.answer
        self.send_response(status)
        for field in {"Content-Length": str(len(body)), **fields}.items():
            self.send_header(*field)
        self.end_headers()
        self.wfile.write(body)

    def log_message(self, *_):
        pass


@pytest.fixture(scope="module")
def server():
    with ThreadingHTTPServer(("127.0.0.1", 0), Handler) as made:
        threading.Thread(target=made.serve_forever, kwargs={"poll_interval": 0.01}, daemon=True).start()
        yield made
        made.shutdown()


def answered(server, status=200, body=b"User-agent: *\nDisallow: /a # f\xfcr alle\n", **fields):
    server.answer = status, body, {name.replace("_", "-"): value for name, value in fields.items()}
    return f"http://127.0.0.1:{server.server_address[1]}/robots.txt"


def read(*words, **fields):
    """A parser that has read this answer."""
    parser = RobotFileParser(answered(*words, **fields))
    parser.read()
    return parser


def denied(parser):
    return [url for url in ("/a", "/b") if not parser.can_fetch(FERRIS, url)]


STATUSES = {200: ["/a"], 401: ["/a", "/b"], 403: ["/a", "/b"], 404: [], 410: [], 429: ["/a", "/b"], 500: ["/a", "/b"], 503: ["/a", "/b"]}


@pytest.mark.parametrize("status", STATUSES)
def test_read_by_status(server, status):
    parser = read(server, status)
    assert denied(parser) == STATUSES[status] and bool(parser.mtime()) == (status == 200)


@pytest.mark.parametrize("status, after", [(200, ["/a"]), (403, ["/a", "/b"]), (404, []), (429, ["/b"]), (503, ["/b"])])
def test_read_again(server, status, after):
    """What was read before counts while the server has an error, and no longer than that."""
    parser = read(server, body=b"User-agent: *\nDisallow: /b")
    assert denied(parser) == ["/b"]
    answered(server, status)
    parser.read()
    assert denied(parser) == after
    answered(server)
    parser.read()
    assert denied(parser) == ["/a"]


@pytest.mark.parametrize(
    "body, fields, error",
    [
        (b"User-agent: *\n", {"Content_Length": "99"}, http.client.IncompleteRead),
        (b"", {"Content_Length": "99"}, http.client.IncompleteRead),
        (b"User-agent: *\nDisallow: /", {"Content_Encoding": "br"}, urllib.error.URLError),
    ],
)
def test_a_body_that_is_cut_or_can_not_be_unpacked(server, body, fields, error):
    parser = RobotFileParser(answered(server, body=body, **fields))
    with pytest.raises(error):
        parser.read()
    assert denied(parser) == ["/a", "/b"] and parser.mtime() == 0


@pytest.mark.parametrize("pack", [gzip.compress, bytes])
def test_a_body_for_which_the_server_says_gzip(server, pack):
    """Whether it is or isn't; urllib reads the second one."""
    assert denied(read(server, body=pack(b"User-agent: *\nDisallow: /a"), Content_Encoding="gzip")) == ["/a"]


def test_no_more_than_the_limit_is_read(server):
    body = b"User-agent: *\nDisallow: /a\n".ljust(512_000, b"#") + b"\nDisallow: /b"
    assert denied(read(server, body=body, Content_Length="9999999")) == ["/a"]


def test_a_server_that_is_not_there(server):
    parser = RobotFileParser("http://127.0.0.1:9/robots.txt")
    with pytest.raises(urllib.error.URLError):
        parser.read()
    assert denied(parser) == ["/a", "/b"]


def test_an_empty_sitemap_is_none_for_protego():
    assert list(Protego.parse("Sitemap:\nSitemap: /s").sitemaps) == ["/s"] and by_urllib("Sitemap:\nSitemap: /s").site_maps() == ["", "/s"]


VERSIONS = "User-agent: FerrisBot/1.0\nDisallow: /a\nCrawl-delay: 1\nRequest-rate: 1/5\n\nUser-agent: FerrisBot\nDisallow: /b\nCrawl-delay: 2\n"


def test_a_name_with_a_version(parse):
    """Is asked first, and then the product token; neither as another version, nor of the file itself."""
    parser = parse(VERSIONS)
    for user_agent, path, delay in [(FERRIS, "/a", 1), ("ferrisbot/1.0", "/a", 1), ("FerrisBot/2.0", "/b", 2), ("FerrisBot", "/b", 2)]:
        assert [it for it in ("/a", "/b") if not fetchable(parser, it, user_agent)] == [path] and parser.crawl_delay(user_agent) == delay
    assert (parser.request_rate(FERRIS).seconds, parser.request_rate("FerrisBot")) == (5, None)
    again = pickle.loads(pickle.dumps(parser))
    assert not fetchable(again, "/a", FERRIS) and fetchable(again, "/a", "FerrisBot")
    with pytest.raises(AgentError):
        parser.site.allowed("/a", "FerrisBot/1.0")
    with pytest.raises(AgentError):
        parser.site.delay("FerrisBot/1.0")


def test_a_file_in_a_folder(tmp_path):
    (tmp_path / "robots.txt").write_bytes(b"User-agent: *\nDisallow: /a")
    parser = RobotFileParser((tmp_path / "robots.txt").as_uri())
    parser.read()
    assert denied(parser) == ["/a"]
