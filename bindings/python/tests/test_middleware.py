"""Crawls by Scrapy with the middleware, of sites that answer in many ways: what is fetched, and when."""

import ast
import gzip
import itertools
import re
import time
import types

import package
import pytest
from sites import PAGES, PUBLIC, RULES, Site, answers, closes, crawled, endless, never, redirects, served

package.needs("scrapy")
pytestmark = pytest.mark.alone("crawls", "resumed")

from scrapy import Spider  # noqa: E402
from scrapy.core.downloader import Slot  # noqa: E402
from scrapy.exceptions import IgnoreRequest, NotConfigured, StopDownload  # noqa: E402
from scrapy.http import Request, Response  # noqa: E402
from scrapy.utils.test import get_crawler  # noqa: E402
from twisted.internet.defer import Deferred, ensureDeferred  # noqa: E402
from twisted.python.failure import Failure  # noqa: E402

from texting_robots import middleware  # noqa: E402
from texting_robots._pacing import Pace  # noqa: E402

ONE_AFTER_ANOTHER = {"/": ["/private/x", "/public/a"], "/public/a": ["/private/y", "/public/b"]}
CLOSED = b"User-agent: *\nDisallow: /\n"
SITEMAPS = [f"https://example.com/{number}.xml" for number in range(2)]
README = (package.PACKAGE / "README.md").read_text()
DOWNLOADER_MIDDLEWARES = ast.literal_eval(re.search(r"^    DOWNLOADER_MIDDLEWARES = (\{.*?\})$", README, re.M | re.S)[1])
MIDDLEWARE = {"USER_AGENT": "FerrisBot/1.0 (+https://example.com/bot)", "DOWNLOADER_MIDDLEWARES": DOWNLOADER_MIDDLEWARES}
MIDDLEWARE["TEXTING_ROBOTS_PARKED_SECONDS"] = 0  # the requests of an outage wait in test_outage.py
TOLERANCE = 0.1  # seconds, as a process on a busy machine may stop at any point


GZIP = {"Content-Encoding": "gzip"}
FAILS, HALF = answers(500, b""), answers(200, RULES, length=2 * len(RULES))
LONG = RULES + b"# filler\n" * 60_000 + b"Disallow: /public/\n"
WITH_SITEMAPS = RULES + "".join(f"Sitemap: {it}\n" for it in SITEMAPS).encode()

# the answers for robots.txt, and which pages are fetched then
MEANINGS = {
    "200": (answers(200), PUBLIC),
    "200 with more than 512,000 bytes": (answers(200, LONG), PUBLIC),
    "200 without an end": (endless, PUBLIC),
    "five redirects": (redirects(5), PUBLIC),
    "six redirects": (redirects(6), PAGES),
    "301 without a location": (answers(301), []),
    "404": (answers(404, CLOSED), PAGES),
    "500": (FAILS, []),
    "nothing": (closes, []),
    "no answer": (never, []),
    "half a body": (HALF, []),
    "half a body for Scrapy": (HALF, []),
    "gzip": (answers(200, gzip.compress(RULES), **GZIP), PUBLIC),
    "brotli": (answers(200, **{"Content-Encoding": "br"}), []),
}
SETTINGS = {
    "200 with more than 512,000 bytes": {"DOWNLOAD_MAXSIZE": 100_000},
    "no answer": {"DOWNLOAD_TIMEOUT": 2},
    "half a body for Scrapy": {"DOWNLOAD_FAIL_ON_DATALOSS": False},
}
# the same for several answers; each counts for a page and then expires
LATER = {
    "200, then 500": ([answers(200), FAILS], PUBLIC),
    "200, then nothing": ([answers(200), closes], PUBLIC),
    "200, then half a body": ([answers(200), HALF], PUBLIC),
    "200, then another file": ([answers(200), answers(200, CLOSED)], ["/"]),
    "200, 404, then 500": ([answers(200), answers(404), FAILS], ["/", "/private/x", "/public/a"]),
    "200 with sitemaps": ([answers(200, WITH_SITEMAPS)], PUBLIC),
}
EXPIRES = {"TEXTING_ROBOTS_LIFETIME": 0.1, "TEXTING_ROBOTS_RETRY": 0.1, "DOWNLOAD_DELAY": 0.3, "RANDOMIZE_DOWNLOAD_DELAY": False}

# the delay that a file asks for, settings, and the delay that is kept
DELAYS = {
    "at random": (0.5, {}, 0.5),
    "AutoThrottle": (0.5, {"AUTOTHROTTLE_ENABLED": True, "AUTOTHROTTLE_START_DELAY": 0.01, "AUTOTHROTTLE_TARGET_CONCURRENCY": 99}, 0.5),
    "a slot for each request": (0.5, {"SLOTS_APART": True}, 0.5),
    "a shorter DOWNLOAD_DELAY": (0.5, {"DOWNLOAD_DELAY": 0.1}, 0.5),
    "a longer DOWNLOAD_DELAY": (0.1, {"DOWNLOAD_DELAY": 0.5, "RANDOMIZE_DOWNLOAD_DELAY": False}, 0.5),
    "capped": (1000, {"TEXTING_ROBOTS_MAX_DELAY": 0.5}, 0.5),
    "turned off": (1000, {"TEXTING_ROBOTS_MAX_DELAY": 0}, 0),
}


def site(*several, settings=None, **words):
    """A site that is crawled with the middleware."""
    return Site(*several, settings=MIDDLEWARE | (settings or {}), **words)


def with_delay(seconds):
    return answers(200, RULES + f"Crawl-delay: {seconds}\n".encode())


@pytest.fixture(scope="module")
def crawls():
    """The sites after all crawls, and the log."""
    sites = {name: site(answer, settings=SETTINGS.get(name)) for name, (answer, _) in MEANINGS.items()}
    sites |= {name: site(*several, links=ONE_AFTER_ANOTHER, settings=EXPIRES) for name, (several, _) in LATER.items()}
    sites |= {name: site(with_delay(seconds), settings=settings) for name, (seconds, settings, _) in DELAYS.items()}
    slow = site(with_delay(0.6))
    links = {path: [slow.address + other, other] for path, other in itertools.pairwise(PUBLIC)}
    sites["two in a slot"] = site(with_delay(0.1), links=links)
    for name in ("five redirects", "six redirects"):
        sites[name].peer = peer = site(FAILS)
        peer.peer = sites[name]
    with served([*sites.values(), slow, *(it.peer for it in sites.values() if it.peer is not it)]):
        log = crawled(sites.values())
    return sites | {"slow": slow}, log


@pytest.mark.parametrize("name", MEANINGS)
def test_what_is_fetched_after_an_answer(crawls, name):
    assert crawls[0][name].pages() == MEANINGS[name][1]


@pytest.mark.parametrize("name", LATER)
def test_what_is_fetched_after_a_later_answer(crawls, name):
    """The previous file counts while the server fails, and no longer than that."""
    crawl = crawls[0][name]
    assert crawl.pages() == LATER[name][1]
    assert crawl.paths().count("/robots.txt") >= len(crawl.pages()) // 2 + 1


def test_the_file_is_fetched_once_and_first(crawls):
    for name in ("200", "404", "500"):
        assert [index for index, path in enumerate(crawls[0][name].paths()) if path == "/robots.txt"] == [0]


def test_redirects_lead_to_another_authority(crawls):
    five, six = crawls[0]["five redirects"], crawls[0]["six redirects"]
    assert five.peer.paths() == [f"/step/{number}" for number in (4, 2, 0)]
    assert [path for path in five.paths() if "/step/" in path] == ["/step/3", "/step/1"]
    assert six.peer.paths() + sorted(path for path in six.paths() if "/step/" in path) == [f"/step/{number}" for number in (5, 3, 1, 2, 4)]


def gaps(moments):
    return [later - earlier for earlier, later in itertools.pairwise(sorted(moments))]


@pytest.mark.parametrize("name", DELAYS)
def test_delays(crawls, name):
    crawl, kept = crawls[0][name], DELAYS[name][2]
    moments = [moment for moment, _ in crawl.got]
    assert crawl.pages() == PUBLIC and min(gaps(moments)) >= kept - TOLERANCE
    assert moments[-1] - moments[0] < 20


def test_a_slot_of_two_sites_keeps_the_longer_delay(crawls):
    """From the first page on for which it is known."""
    fast, slow = crawls[0]["two in a slot"], crawls[0]["slow"]
    moments = sorted(moment for moment, _ in fast.got + slow.got)
    assert fast.pages() == slow.pages() == PUBLIC
    assert min(gaps(moments[moments.index(slow.got[1][0]) - 1 :])) >= 0.6 - TOLERANCE


def test_sitemaps_come_once_for_a_file(crawls):
    """Also if the file is fetched again."""
    sites, log = crawls
    assert re.findall(r"WARNING: (http\S*) has (\[.*)", log) == [(f"{sites['200 with sitemaps'].address}/robots.txt", str(SITEMAPS))]


RESUMED = {"the same": (answers(200), PUBLIC), "closed": (answers(200, CLOSED), ["/"]), "fails": (FAILS, ["/"])}


@pytest.fixture(scope="module")
def resumed(tmp_path_factory):
    """The sites of crawls that were stopped after a page and resumed, with Scrapy's HTTP cache."""
    first, sites = {"CONCURRENT_REQUESTS": 1, "CLOSESPIDER_PAGECOUNT": 1}, {}
    for name, (answer, _) in RESUMED.items():
        folder = str(tmp_path_factory.mktemp("job"))
        settings = {"JOBDIR": folder, "TEXTING_ROBOTS_DATABASE": "", "HTTPCACHE_ENABLED": True, "HTTPCACHE_DIR": f"{folder}/cache"}
        settings["TWISTED_REACTOR"] = "twisted.internet.asyncioreactor.AsyncioSelectorReactor"
        sites[name] = site(answers(200), answer, settings=settings | first)
    with served(sites.values()):
        crawled(sites.values())
        for it in sites.values():
            it.settings = {key: value for key, value in it.settings.items() if key not in first}
        crawled(sites.values())
    return sites


@pytest.mark.parametrize("name", RESUMED)
def test_a_resumed_crawl_without_a_database_fetches_the_file_again(resumed, name):
    assert resumed[name].paths()[:3] == ["/robots.txt", "/", "/robots.txt"]
    assert resumed[name].pages() == RESUMED[name][1]


# ---- without a crawl


class Engine:
    """Answers requests at once, or when the test asks it to."""

    def __init__(self, answer):
        self.answer, self.requests = answer, []
        self.downloader = types.SimpleNamespace(slots={})

    def download(self, request):
        self.requests.append(request)
        answer = self.answer(request)
        if isinstance(answer, Deferred):
            return answer
        deferred = Deferred()
        deferred.callback(answer)
        return deferred

    def urls(self):
        return [request.url for request in self.requests]


class SmallSpider(Spider):
    name = "small/one"


def ours(answer, **settings):
    """A middleware whose engine answers this, with its crawler."""
    crawler = get_crawler(SmallSpider, {"ROBOTSTXT_OBEY": True, "USER_AGENT": "FerrisBot/1.0", "TEXTING_ROBOTS_PARKED_SECONDS": 0, "DOWNLOADER_MIDDLEWARES": DOWNLOADER_MIDDLEWARES} | settings)
    crawler.engine = Engine(answer)
    return middleware.RobotsMiddleware.from_crawler(crawler), crawler


def file(body=RULES, status=200, **fields):
    return lambda request: Response(request.url, status, fields, body)


def decided(asked):
    """Whether the request is allowed."""
    results = []
    asked.addCallbacks(results.append, lambda failure: results.append(failure.trap(IgnoreRequest)))
    return results[0] is None


def allowed(robots, url, **words):
    return decided(ensureDeferred(robots.process_request(Request(url, **words))))


def test_requests_to_a_site_wait_for_one_file():
    pending = Deferred()
    robots, crawler = ours(lambda request: pending)
    asked = [ensureDeferred(robots.process_request(Request(f"http://a.example{path}"))) for path in PAGES]
    assert not any(it.called for it in asked) and crawler.engine.urls() == ["http://a.example/robots.txt"]
    pending.callback(file()(crawler.engine.requests[0]))
    assert [path for path, it in zip(PAGES, asked) if decided(it)] == PUBLIC
    assert len(crawler.engine.requests) == 1


def test_a_site_is_a_scheme_with_a_host_and_a_port():
    robots, crawler = ours(file())
    urls = ["http://a.example/", "HTTP://name@A.example:80/x?y#z", "https://a.example/", "http://a.example:8080/", "http://b.a.example/"]
    assert all(allowed(robots, url) for url in [*urls, "ftp://a.example/x", "ftp://a.example:2121/x"])
    schemes = ["http://a.example", "https://a.example", "http://a.example:8080", "http://b.a.example", "ftp://a.example", "ftp://a.example:2121"]
    assert crawler.engine.urls() == [f"{it}/robots.txt" for it in schemes]


def fails(error):
    return lambda request: Failure(error)


def test_stats(caplog):
    robots, crawler = ours(file())
    assert not allowed(robots, "http://a.example/private/") and allowed(robots, "http://a.example/")
    crawler.engine.answer = file(status=503)
    assert not allowed(robots, "http://b.example/")
    for host, error in [("c", OSError("broken")), ("d", IgnoreRequest("refused")), ("e", MemoryError())]:
        crawler.engine.answer = fails(error)
        assert not allowed(robots, f"http://{host}.example/")
    names = {"forbidden": 1, "unreachable": 4, "request_count": 5, "response_count": 2, "response_status_count/200": 1, "response_status_count/503": 1}
    names |= {"exception_count/<class 'OSError'>": 1, "exception_count/<class 'MemoryError'>": 1}
    names |= {"sites_max": 5, "memory_max": robots._cache.memory}
    assert {name: count for name, count in crawler.stats.get_stats().items() if name.startswith("robotstxt/")} == {f"robotstxt/{name}": count for name, count in names.items()}
    messages = [f"http://{host}.example/robots.txt can't be fetched: " for host in "bcde"]
    assert [record.getMessage() for record in caplog.records if record.name == middleware.__name__ and record.levelname != "DEBUG"] == [
        f"{start}{end}" for start, end in zip(messages, ["status 503", "broken", "refused", ""])
    ]


def test_what_goes_without_a_file():
    robots, crawler = ours(file(CLOSED))
    assert allowed(robots, "http://a.example/", meta={"dont_obey_robotstxt": True})
    assert allowed(robots, "data:text/plain,") and allowed(robots, "file:///x") and crawler.engine.requests == []
    assert not allowed(robots, "http://a.example/") and allowed(robots, "http://a.example/robots.txt")
    with pytest.raises(NotConfigured):
        ours(file(), ROBOTSTXT_OBEY=False)


def test_a_redirected_request_leaves_the_slot_of_the_site_that_it_comes_from():
    """Scrapy lets it stay there, so the delays of both sites would count for both."""
    robots, _ = ours(file())
    for slot, kept in [("a.example", False), ("b.example", True), ("own", True)]:
        meta = {"redirect_urls": ["http://b.example/", "https://a.example:8443/x"], "download_slot": slot}
        request = Request("http://c.example/", meta=meta)
        ensureDeferred(robots.process_request(request))
        assert ("download_slot" in request.meta) is kept


GROUPS = b"User-agent: *\nDisallow: /\nUser-agent: FerrisBot\nDisallow: /private/\nUser-agent: Other\nDisallow: /public/\n"


def test_the_name_of_the_crawler():
    """That of the setting, or of the request, or of the spider, or of all spiders."""

    def groups(spider=None, headers=None, **settings):
        robots, crawler = ours(file(GROUPS), **settings)
        crawler.spider = spider
        return [allowed(robots, f"http://a.example{path}", headers=headers) for path in ("/private/", "/public/")]

    ferris, other, neither = [False, True], [True, False], [False, False]
    assert groups() == ferris and groups(USER_AGENT="Nobody/1.0") == neither
    assert groups(headers={"User-Agent": "Other/1.0"}) == groups(types.SimpleNamespace(user_agent="Other/1.0")) == other
    assert groups(types.SimpleNamespace(user_agent="Other/1.0"), {"User-Agent": "Nobody"}) == neither
    assert groups(headers={"User-Agent": "Nobody"}, ROBOTSTXT_USER_AGENT="Other") == other


def test_a_newer_scrapy():
    """Its engine has a coroutine, and it gives no spider."""
    robots, crawler = ours(file())

    async def download_async(request):
        return file()(request)

    crawler.engine.download_async, crawler.engine.download = download_async, None
    assert allowed(robots, "http://a.example/") and not allowed(robots, "http://a.example/private/")


def test_downloads_end_after_what_counts():
    robots, crawler = ours(file())
    assert allowed(robots, "http://a.example/")
    (request,) = crawler.engine.requests
    received = [(request, 600_000), (Request("http://a.example/"), 5_000_000), (request.copy(), 600_000), (request, 423_999)]
    for it, length in received:
        robots._bytes_received(bytes(length), it)
    robots._bytes_received(b"x", request)
    with pytest.raises(StopDownload):
        robots._bytes_received(b"x", request)
    flagged = [Response("http://a.example/robots.txt", 200, body=b"#" * length, flags=["download_stopped"]) for length in (511_999, 512_000)]
    for response, complete in zip(flagged, [False, True]):
        assert allowed(ours(lambda request: response)[0], "http://a.example/") is complete


def test_a_slot_waits_for_all_its_sites():
    slot, other, pace, longer = Slot(8, 0.1, False), Slot(8, 0.1, False), Pace(), Pace()
    slot.active.add("a request")
    pace.enter(slot)
    assert slot.download_delay() == 0.1
    pace.keep(2)
    assert slot.download_delay() == 2
    longer.keep(3)
    longer.enter(slot)
    assert (slot.download_delay(), slot.delay) == (3, 0.1)
    longer.keep(1)
    assert slot.download_delay() == 2
    slot.delay = 4
    assert slot.download_delay() == 4
    slot.lastseen, other.lastseen = 1_000_000_000, 999_999_999
    other.active.add("a request")
    pace.enter(other)
    assert other.download_delay() == 2 + 1 and slot.download_delay() == 4
    pace.keep(0)
    assert other.download_delay() == 0.1


def test_a_delay_at_random_is_never_shorter():
    slot, pace = Slot(8, 1, True), Pace()
    slot.active.add("a request")
    pace.enter(slot)
    pace.keep(1)
    delays = [slot.download_delay() for _ in range(1000)]
    assert min(delays) == 1 and max(delays) > 1.4


def test_slots_that_no_longer_matter_are_forgotten():
    pace, slots = Pace(), [Slot(8, 0, False) for _ in range(9)]
    pace.keep(5)
    slots[1].active.add("a request")
    slots[2].lastseen = time.time()
    for slot in slots:
        pace.enter(slot)
    assert list(pace._stays) == [slots[1], slots[2], slots[8]]
    pace.leave(slots[8])
    pace.enter(slots[0])
    assert list(pace._stays) == [slots[1], slots[2], slots[8], slots[0]]
