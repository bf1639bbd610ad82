"""Crawls by Scrapy while robots.txt files can't be fetched: no request is lost, and none waits for long."""

import pickle
import re
import sys
import threading
import time
import types

import package
import pytest
from sites import PUBLIC, RULES, Site, answers, crawled, never, served
from test_middleware import FAILS, HALF, MIDDLEWARE, TOLERANCE, Engine, file, gaps, ours

package.needs("scrapy")
pytestmark = pytest.mark.alone("crawls")

from scrapy.exceptions import DontCloseSpider, IgnoreRequest  # noqa: E402
from scrapy.http import Request, Response  # noqa: E402
from scrapy.http.request import NO_CALLBACK  # noqa: E402
from twisted.internet.defer import Deferred, ensureDeferred  # noqa: E402
from twisted.internet.error import ConnectionRefusedError  # noqa: E402
from twisted.internet.task import Clock  # noqa: E402
from twisted.python.failure import Failure  # noqa: E402

from texting_robots import _parking, middleware  # noqa: E402
from texting_robots.middleware import Forbidden, Postponed, Unreachable  # noqa: E402

WAITS = {name: value for name, value in MIDDLEWARE.items() if name != "TEXTING_ROBOTS_PARKED_SECONDS"} | {"TEXTING_ROBOTS_RETRY": 0.3}
BUSY = answers(503, b"", **{"Retry-After": "1"})
HANGS = WAITS | {"TEXTING_ROBOTS_TIMEOUT": 4}

# the answers for robots.txt, how often it is fetched, and which pages are
OUTAGES = {
    "500": ([FAILS, FAILS, answers(200)], WAITS, 3, PUBLIC),
    "503 with a time": ([BUSY, answers(200)], WAITS, 2, PUBLIC),
    "half a body": ([HALF, answers(200)], WAITS, 2, PUBLIC),
    "no answer": ([never, answers(200)], HANGS, 2, PUBLIC),
    "with retries by Scrapy": ([FAILS, answers(200)], WAITS | {"RETRY_ENABLED": True}, 2, PUBLIC),
    "for longer than requests may wait": ([FAILS], WAITS | {"TEXTING_ROBOTS_RETRY": 4, "TEXTING_ROBOTS_PARKED_SECONDS": 5}, 2, []),
    "for longer, by the server": ([answers(503, b"", **{"Retry-After": "9"})], WAITS | {"TEXTING_ROBOTS_PARKED_SECONDS": 5}, 1, []),
    "with asyncio": ([FAILS, answers(200)], WAITS | {"TWISTED_REACTOR": "twisted.internet.asyncioreactor.AsyncioSelectorReactor"}, 2, PUBLIC),
}
MANY = [f"/public/{number}" for number in range(25)]
@pytest.fixture(scope="module")
def crawls(tmp_path_factory):
    """The sites after the crawls, by name, and the log."""
    by_reactor = [{}, {}]
    for name, (several, settings, _, _) in OUTAGES.items():
        by_reactor["TWISTED_REACTOR" in settings][name] = Site(*several, settings=settings)
    sites = by_reactor[0]
    sites["many of a site"] = Site(FAILS, FAILS, answers(200), settings=WAITS | {"CONCURRENT_REQUESTS": 2}, links={"/": MANY})
    # a site whose file can't be fetched, and one that can, and then still is crawled
    sites["busy"] = Site(FAILS, FAILS, FAILS, FAILS, answers(200), settings=WAITS)
    links = {"/": [sites["busy"].address + f"/public/{number}" for number in range(20)] + ["/public/a"], "/public/a": ["/public/b"]}
    sites["another"] = Site(answers(200), settings=WAITS | {"TEXTING_ROBOTS_RETRY": 1, "CONCURRENT_REQUESTS": 2}, links=links)
    sites["dead"] = Site(answers(200), settings=WAITS | {"TEXTING_ROBOTS_PARKED_SECONDS": 0}, links={"/": ["http://127.0.0.1:1/x"]})
    sites["slow"] = Site(answers(200, RULES + b"Crawl-delay: 5\n"), settings=WAITS, host="127.0.0.2", links={})
    fast = {f"fast {number}": Site(answers(200), settings=WAITS, host=f"127.0.0.{number}", links={}) for number in range(3, 10)}
    all_of_them = [it.address + path for path in ("/public/a", "/public/b") for it in (sites["slow"], *fast.values())]
    sites["a slot"] = Site(answers(200), settings=WAITS | {"ONE_SLOT": "proxy"}, links={"/": all_of_them})
    kept = WAITS | {"TEXTING_ROBOTS_DATABASE": str(tmp_path_factory.mktemp("kept") / "robots.sqlite3")}
    sites["a database"] = Site(answers(200), settings=kept)
    begun = [it for name, it in sites.items() if name not in ("busy", "slow")]
    with served([*sites.values(), *by_reactor[1].values(), *fast.values()]):
        log = crawled(begun) + crawled(by_reactor[1].values()) + crawled([sites["a database"]])
    return sites | by_reactor[1] | fast, log


@pytest.mark.parametrize("name", OUTAGES)
def test_no_request_is_lost_in_an_outage(crawls, name):
    _, _, fetches, pages = OUTAGES[name]
    assert (crawls[0][name].paths().count("/robots.txt"), crawls[0][name].pages()) == (fetches, pages)


def test_a_server_that_fails_is_asked_again_when_it_says(crawls):
    moments = [moment for moment, path in crawls[0]["503 with a time"].got if path == "/robots.txt"]
    assert gaps(moments)[0] >= 1 - TOLERANCE


def test_requests_that_wait_hold_no_others_up(crawls):
    """Of the other site all is fetched before the file of this one can be."""
    busy, other = crawls[0]["busy"], crawls[0]["another"]
    assert set(other.paths()) == {"/robots.txt", "/", "/public/a", "/public/b"} and len(busy.got) == 25
    assert other.got[-1][0] < busy.got[4][0] and [path for _, path in busy.got[:5]] == ["/robots.txt"] * 5
    assert sorted(crawls[0]["many of a site"].paths()) == sorted(["/", *MANY] + ["/robots.txt"] * 3)


def test_a_site_with_a_delay_slows_down_no_other_in_its_slot(crawls):
    slow = crawls[0]["slow"].got
    assert sorted(path for _, path in slow) == ["/public/a", "/public/b", "/robots.txt"]
    assert min(gaps([moment for moment, _ in slow])) >= 5 - TOLERANCE
    fast = [moment for name, site in crawls[0].items() if name.startswith("fast") for moment, _ in site.got]
    assert len(fast) == 21 and max(fast) < slow[1][0]


def test_another_crawl_with_the_database_fetches_no_file(crawls):
    assert crawls[0]["a database"].paths().count("/robots.txt") == 1 and crawls[0]["a database"].paths().count("/public/a") == 2


def test_a_dead_host_takes_a_line_of_the_log(crawls):
    assert len(re.findall(r"WARNING: http://127.0.0.1:1/robots.txt can't be fetched: Connection was refused", crawls[1])) == 1
    assert "Traceback" not in crawls[1] and "Unhandled" not in crawls[1]


@pytest.mark.alone
def test_with_a_job_folder_requests_wait_for_the_next_start(tmp_path):
    """The link is found in the first crawl, and not again, since Scrapy has seen it."""
    busy = Site(FAILS, settings=WAITS, links={})
    ends = {"JOBDIR": str(tmp_path / "job"), "CLOSESPIDER_TIMEOUT": 4}
    first = Site(answers(200), settings=WAITS | ends, links={"/": [busy.address + "/public/a", busy.address + "/private/x"]})
    with served([busy, first]):
        crawled([first])
        assert set(busy.paths()) == {"/robots.txt"}
        busy.answers, first.settings = [answers(200)], WAITS | {"JOBDIR": ends["JOBDIR"]}
        crawled([first])
    assert busy.pages() == ["/public/a"]


# ---- without a crawl


def outcome(robots, request):
    """What comes of a request: None, a request for the scheduler, an exception, or nothing yet."""
    results = []
    ensureDeferred(robots.process_request(request)).addCallbacks(results.append, lambda failure: results.append(failure.value))
    return results


def test_what_can_not_wait_says_when_to_come_again():
    robots, crawler = ours(file(status=503))
    for request in [Request("http://a.example/"), Request("http://a.example/x", NO_CALLBACK)]:
        (error,) = outcome(robots, request)
        assert isinstance(error, Unreachable) and isinstance(error, IgnoreRequest)
        assert error.robots_url == "http://a.example/robots.txt" and 4.9 < error.seconds <= 5.5
        assert str(error) == f"http://a.example/robots.txt can't be fetched: it is asked for again in {error.seconds:.0f} seconds"
    assert crawler.stats.get_value("robotstxt/unreachable") == 2 and crawler.stats.get_value("robotstxt/parked") is None


def test_an_exception_names_the_line_and_the_address():
    robots, crawler = ours(file(RULES + b"Disallow: /a/*" + b"a" * 5000 + b"$\n", ETag="1"))
    crawler.engine.answer = file(RULES)
    (error,) = outcome(robots, Request("http://a.example/private/"))
    assert isinstance(error, Forbidden) and (error.line, error.robots_url) == (2, "http://a.example/robots.txt")
    assert str(error) == "Forbidden by robots.txt: line 2 of http://a.example/robots.txt"


def test_a_file_that_can_not_be_used_is_a_warning(caplog):
    robots, _ = ours(file(RULES + b"Disallow: /a/*" + b"a" * 5000 + b"$\n"))
    for path in "abc":
        (error,) = outcome(robots, Request(f"http://a.example/{path}"))
        assert error.line == 3
    (warning,) = [it.getMessage() for it in caplog.records if it.levelname == "WARNING"]
    assert warning == (
        "http://a.example/robots.txt for FerrisBot/1.0: the rule in line 3 is too long: the file can't be used for this crawler: it isn't fetched"
    )


class Slots(Engine):
    """An engine with the parts that requests wait in."""

    def __init__(self, answer):
        super().__init__(answer)
        self.downloader.active, self.scheduled = set(), []
        self.crawl = self.scheduled.append
        self.slot = types.SimpleNamespace(closing=None, nextcall=types.SimpleNamespace(schedule=lambda: None))


def waiting(number, answer=file(status=503), **settings):
    """A middleware with so many requests, their outcomes, and its crawler."""
    robots, crawler = ours(answer, **{"TEXTING_ROBOTS_PARKED": 3, "TEXTING_ROBOTS_PARKED_SECONDS": 3600} | settings)
    crawler.engine = Slots(answer)
    requests = [Request(f"http://a.example/{it}") for it in range(number)]
    crawler.engine.downloader.active.update(requests)
    outcomes = [outcome(robots, request) for request in requests]
    return robots, crawler, requests, outcomes


def test_requests_wait_outside_of_the_limit_of_the_downloader():
    robots, crawler, requests, outcomes = waiting(5)
    active = crawler.engine.downloader.active
    assert outcomes[:3] == [[]] * 3 and [type(it[0]) for it in outcomes[3:]] == [Postponed] * 2 and active == set(requests[3:])
    with pytest.raises(DontCloseSpider):
        robots._parking._spider_idle()
    robots._cache._clock, crawler.engine.answer = lambda: time.time() + 301, file(RULES)
    robots._parking._ask_again("http://a.example/robots.txt")
    assert active == set(requests)
    for request, (again,) in zip(requests, outcomes[:3]):
        assert again is not request and again.dont_filter and again.url == request.url
    assert {name: crawler.stats.get_value(f"robotstxt/{name}") for name in ("parked", "written", "resumed")} == {"parked": 3, "written": 2, "resumed": 5}
    assert [request.url for request in crawler.engine.scheduled] == [request.url for request in requests[3:]]
    assert [outcome(robots, request) for request in crawler.engine.scheduled] == [[None], [None]]
    assert [type(outcome(robots, request.copy())[0]) for request in crawler.engine.scheduled] == [type(None)] * 2
    robots._parking._end_of_spider()


def test_what_waits_in_memory_is_lost_without_a_folder_for_the_next_start(caplog):
    """Each is counted, and says so itself. Those of other code than the spider's never wait."""
    robots, crawler, _, outcomes = waiting(4)
    assert isinstance(outcome(robots, Request("http://a.example/x", NO_CALLBACK))[0], Unreachable)
    robots._parking._end_of_spider()
    assert outcomes[:3] == [[], [], []]
    crawler.engine.slot.closing = object()
    robots._parking._end_of_spider()
    assert [type(it[0]) for it in outcomes] == [Unreachable] * 3 + [Postponed] and not robots._parking.count
    robots._spider_closed()
    assert crawler.stats.get_value("robotstxt/lost") == 4 and "and are lost: 4." in caplog.text


@pytest.mark.parametrize("kept", ["JOBDIR", "TEXTING_ROBOTS_DATABASE"])
def test_what_waits_is_written_for_the_next_start(tmp_path, kept):
    """But for what can't be. The file is for its user alone, and is removed when nothing waits."""
    settings = {kept: str(tmp_path / "x")}
    robots, crawler, requests, outcomes = waiting(4, **settings)
    late = outcome(robots, Request("http://a.example/late", meta={"lock": threading.Lock()}))
    crawler.engine.slot.closing = object()
    robots._parking._end_of_spider()
    robots._spider_closed()
    assert [type(it[0]) for it in [*outcomes, late]] == [Postponed] * 4 + [Unreachable]
    (path,) = [it for it in [*tmp_path.glob("x/robots-waiting-small%2Fone.sqlite3"), *tmp_path.glob("x-waiting-small%2Fone")]]
    assert path.stat().st_mode & 0o777 == 0o600
    robots, crawler = ours(file(), **settings, TEXTING_ROBOTS_PARKED_SECONDS=3600)
    crawler.engine = Slots(file())
    robots._parking._spider_opened()
    assert robots._parking.waiting == 4
    robots._cache._clock = lambda: time.time() + 301
    robots._parking._ask_again("http://a.example/robots.txt")
    assert sorted(it.url for it in crawler.engine.scheduled) == [it.url for it in requests]
    copies = [it.copy() for it in crawler.engine.scheduled]
    assert [outcome(robots, it) for it in crawler.engine.scheduled] == [[None]] * 4
    assert all("was on disk too, and has been made" in str(outcome(robots, it)[0]) for it in copies)
    robots._spider_closed()
    assert not path.exists()


def test_a_crash_loses_nothing_that_was_written(tmp_path):
    """Also what the scheduler has back and hasn't made. Another process meanwhile has a file of its own."""
    settings = {"JOBDIR": str(tmp_path), "TEXTING_ROBOTS_PARKED": 0}
    robots, crawler, requests, outcomes = waiting(4, **settings)
    other = waiting(2, **settings)[0]
    assert [type(it[0]) for it in outcomes] == [Postponed] * 4
    robots._cache._clock, crawler.engine.answer = lambda: time.time() + 301, file(RULES)
    robots._parking._ask_again("http://a.example/robots.txt")
    assert len(crawler.engine.scheduled) == 4 and outcome(robots, crawler.engine.scheduled[0]) == [None]
    for it in (robots, other):
        it._parking._rows._connection.close()  # as a crash does
    assert len([*tmp_path.glob("robots-waiting-small%2Fone.sqlite3*")]) == 2
    later, crawler = ours(file(), **settings)
    later._parking._limits = later._parking._limits._replace(seconds=3600)
    later._parking._spider_opened()
    assert later._parking.waiting == 5
    assert not [*tmp_path.glob("robots-waiting-small%2Fone.sqlite3.2*")]


def test_no_process_opens_a_file_of_requests_that_another_one_has(tmp_path):
    """Also not if there are two such spiders in the other process."""
    settings = {"JOBDIR": str(tmp_path), "TEXTING_ROBOTS_PARKED": 0}
    several = [waiting(number, **settings)[0]._parking._open_rows() for number in (1, 2)]
    code = "from texting_robots._waiting import WaitingRequests; import sys;"
    code += " rows = WaitingRequests(sys.argv[1], None); print(rows._path, rows.counts())"
    path = str(tmp_path / "robots-waiting-small%2Fone.sqlite3")
    assert package.run(["-c", code, path]) == f"{path}.3 {{}}\n"
    assert [list(it.counts().values()) for it in several] == [[1], [2]]


def test_a_file_of_requests_that_others_could_write_is_not_read(tmp_path, caplog):
    path = tmp_path / "robots-waiting-small%2Fone.sqlite3"
    path.touch(0o666)
    path.chmod(0o666)
    robots, *_ = waiting(4, JOBDIR=str(tmp_path), TEXTING_ROBOTS_PARKED=0)
    assert robots._parking.waiting == 4 and path.read_bytes() == b"" and (tmp_path / "robots-waiting-small%2Fone.sqlite3.2").exists()
    assert "isn't used for requests that wait: others than this user could read or write it" in caplog.text


class Evil:
    def __reduce__(self):
        return print, ("run",)


def test_a_file_of_requests_runs_no_code(tmp_path, capsys, caplog):
    robots, crawler, *_ = waiting(2, JOBDIR=str(tmp_path), TEXTING_ROBOTS_PARKED=0)
    rows = robots._parking._rows
    rows._execute("UPDATE requests SET request = ?", (pickle.dumps(Evil()),))
    robots._cache._clock, crawler.engine.answer = lambda: time.time() + 301, file(RULES)
    robots._parking._ask_again("http://a.example/robots.txt")
    assert capsys.readouterr().out == "" and caplog.text.count("can't be read: builtins.print") == 3
    assert crawler.engine.scheduled == [] and crawler.stats.get_value("robotstxt/lost") == 2 and rows.close() == 0


def test_a_file_of_requests_imports_no_module(tmp_path, monkeypatch, caplog, capsys):
    """But for those of the spider and of Scrapy, whose classes requests may have."""
    (tmp_path / "evil_module.py").write_text("print('run')")
    monkeypatch.syspath_prepend(tmp_path)
    rows = waiting(1, TEXTING_ROBOTS_PARKED=0)[0]._parking._open_rows()
    for name, is_read in [("scrapy.http.FormRequest", True), ("evil_module.Request", False)]:
        values = Request("http://a.example/x").to_dict() | {"_class": name}
        assert (rows._request(pickle.dumps(values)) is not None) is is_read
    assert capsys.readouterr().out == "" and "evil_module" not in sys.modules
    assert "evil_module.Request is in a module that isn't imported" in caplog.text


@pytest.fixture
def clock(monkeypatch):
    """The clock of what follows, which the test sets. Until then it is 0."""
    clock = Clock()
    for module in (middleware, _parking):
        monkeypatch.setattr(module, "time", types.SimpleNamespace(time=clock.seconds, monotonic=clock.seconds))
        monkeypatch.setattr(module, "later", clock.callLater)
    return clock


def with_clock(clock, answer, **settings):
    """A middleware with this clock, and when its engine was asked for a file."""
    moments = []

    def noted(request):
        moments.append(clock.seconds())
        return answer(request)

    robots, crawler = ours(noted, **settings)
    crawler.engine = Slots(noted)
    robots._cache._clock, robots._cache._chance = clock.seconds, lambda: 0.0
    return robots, moments


@pytest.mark.parametrize(
    "seconds, settings, asked, end",
    [
        (8.75, {"TEXTING_ROBOTS_RETRY": 3}, [0, 3, 6], 6),
        (9.25, {"TEXTING_ROBOTS_RETRY": 3}, [0, 3, 6, 9], 9),
        (5, {"TEXTING_ROBOTS_RETRY": 4}, [0, 4], 4),
        (100, {}, [0, 5, 15, 35, 75], 75),
        (3, {}, [0], 0),
    ],
)
def test_requests_wait_until_the_next_time_would_be_too_late(clock, seconds, settings, asked, end):
    robots, moments = with_clock(clock, file(status=503), TEXTING_ROBOTS_PARKED_SECONDS=seconds, **settings)
    outcomes = [outcome(robots, Request(f"http://a.example/{it}")) for it in range(2)]
    while not outcomes[0]:
        clock.advance(0.25)
    assert clock.seconds() == end and moments == asked and [type(it[0]) for it in outcomes] == [Unreachable] * 2
    clock.advance(1000)
    assert moments == asked


def test_a_server_that_hangs_is_asked_once(clock):
    """While its file is fetched again, also when the time of that is over."""
    pending = Deferred()
    robots, moments = with_clock(clock, lambda request: pending if moments[1:] else file()(request), TEXTING_ROBOTS_LIFETIME=6)
    for _ in range(100):
        assert outcome(robots, Request("http://a.example/")) == [None]
        assert isinstance(outcome(robots, Request("http://a.example/private/"))[0], Forbidden)
        clock.advance(0.25)
    assert moments == [0, 3]


def test_after_the_end_no_file_is_asked_for(clock, tmp_path):
    """Other spiders may go on in the same process, and the same one may start again there."""
    words = {"TEXTING_ROBOTS_PARKED": 0, "TEXTING_ROBOTS_PARKED_SECONDS": 99, "JOBDIR": str(tmp_path)}
    robots, moments = with_clock(clock, file(status=503), **words)
    assert isinstance(outcome(robots, Request("http://a.example/"))[0], Postponed)
    robots._spider_closed()
    clock.advance(1000)
    assert moments == [0] and not clock.getDelayedCalls()
    again, _ = with_clock(clock, file(), **words)
    assert again._parking._open_rows().counts() == {"http://a.example/robots.txt": 1}


@pytest.mark.parametrize("set_forward, asked", [(0, [0, 65]), (1000, [0, 0, 60])])
def test_an_answer_that_comes_too_late_leaves_no_request_waiting(clock, set_forward, asked):
    """That may come to light by a request to another site, as when the clock has been set."""
    pending = Deferred()

    def answer(request):
        return file()(request) if moments[1:] else pending

    words = {"TEXTING_ROBOTS_PARKED_SECONDS": 3600, "TEXTING_ROBOTS_ANSWER_WITHIN": 60}
    robots, moments = with_clock(clock, answer, **words)
    ended = outcome(robots, Request("http://a.example/"))
    if set_forward:
        robots._cache._clock = lambda: clock.seconds() + set_forward
        assert outcome(robots, Request("http://b.example/")) == [None]
        pending.callback(file()(Request("http://a.example/robots.txt")))
    clock.advance(60)
    clock.advance(5)
    assert moments == asked and len(ended) == 1
    assert not robots._timers and not robots._parking.waiting


def test_what_can_not_be_written_holds_a_place():
    """As a request with a callback that isn't a method of the spider."""
    robots, crawler, requests, outcomes = waiting(3, TEXTING_ROBOTS_PARKED=1)
    own = outcome(robots, Request("http://a.example/own", callback=lambda response: None))
    assert own == [] and [type(it[0]) for it in outcomes[1:]] == [Postponed] * 2 and robots._parking.count == 2


def refused():
    return lambda request: Failure(ConnectionRefusedError())


def test_a_host_that_was_never_reached_holds_few_places():
    """It is tried three times; then its requests end, also those on disk."""
    robots, crawler, requests, outcomes = waiting(15, TEXTING_ROBOTS_PARKED=100, TEXTING_ROBOTS_DEAD_PARKED=10, answer=refused())
    assert [it == [] for it in outcomes] == [True] * 10 + [False] * 5 and robots._parking.waiting == 15
    for later, is_over in [(100, False), (200, True)]:
        robots._cache._clock = lambda: time.time() + later
        robots._parking._ask_again("http://a.example/robots.txt")
        assert [bool(it) for it in outcomes[:10]] == [is_over] * 10
    assert len(crawler.engine.scheduled) == 5 and not robots._parking._is_given_up("x", robots._cache.at("http://b.example").site or Reached())
    ends = [*outcomes[:10], *(outcome(robots, it) for it in crawler.engine.scheduled)]
    assert [type(it[0]) for it in ends] == [Unreachable] * 15 and len(crawler.engine.requests) == 3


class Reached:
    was_reached = True


def test_a_host_that_was_reached_is_not_limited_so():
    robots, crawler, requests, outcomes = waiting(15, TEXTING_ROBOTS_PARKED=100)
    crawler.engine.answer = refused()
    for later in (100, 200, 300, 400):
        robots._cache._clock = lambda: time.time() + later
        robots._parking._ask_again("http://a.example/robots.txt")
    assert outcomes == [[]] * 15


def test_an_idle_spider_stays_open_for_a_time():
    """In an outage, but not for a host that was never reached."""
    robots, _, _, outcomes = waiting(2, TEXTING_ROBOTS_IDLE_SECONDS=100, TEXTING_ROBOTS_PARKED=100)
    for moved in (0, 60, 99, 130):
        with pytest.raises(DontCloseSpider):
            robots._parking._idle_last = robots._parking._idle_last and time.monotonic()
            robots._parking._idle_since -= moved if robots._parking._idle_since else 0
            robots._parking._spider_idle()
        if moved < 99:
            robots._parking._idle_since += moved
    assert [type(it[0]) for it in outcomes] == [Unreachable] * 2 and robots._parking._spider_idle() is None
    robots, _, _, outcomes = waiting(2, answer=refused(), TEXTING_ROBOTS_PARKED=100)
    with pytest.raises(DontCloseSpider):
        robots._parking._spider_idle()
    assert [type(it[0]) for it in outcomes] == [Unreachable] * 2 and robots._parking._spider_idle() is None


def test_an_idle_time_begins_again_when_the_spider_was_busy():
    robots, *_ = waiting(1, TEXTING_ROBOTS_IDLE_SECONDS=100)
    with pytest.raises(DontCloseSpider):
        robots._parking._spider_idle()
    robots._parking._idle_since -= 99
    for meta, begun in [({"texting_robots": True}, True), ({}, False)]:
        robots._reached_downloader(Request("http://b.example/", meta=meta))
        assert bool(robots._parking._idle_since) is begun


@pytest.mark.parametrize("error", [Forbidden("http://a/robots.txt", 3), Forbidden("http://a/robots.txt", None, "x"), Unreachable("http://a/robots.txt", 2.5), Postponed("http://a/robots.txt")])
def test_an_exception_can_be_pickled(error):
    again = pickle.loads(pickle.dumps(error))
    assert (type(again), str(again), vars(again)) == (type(error), str(error), vars(error))


@pytest.mark.parametrize("name, value", [("LIFETIME", 0), ("COST", 0), ("COST", -1), ("BUDGET", -1), ("RETRY", 0), ("TIMEOUT", -1), ("PARKED", -1), ("MAX_DELAY", -1), ("PARKED_SECONDS", "nan")])
def test_a_setting_that_is_too_small(name, value):
    with pytest.raises(ValueError, match=f"^TEXTING_ROBOTS_{name} is "):
        ours(file(), **{f"TEXTING_ROBOTS_{name}": value})


def test_a_site_whose_file_another_process_fetches(tmp_path, monkeypatch):
    """It is looked for again after a second."""
    calls = []
    monkeypatch.setattr(middleware, "later", lambda *words: calls.append(words) or types.SimpleNamespace(cancel=lambda: None, active=lambda: False))
    settings = {"TEXTING_ROBOTS_DATABASE": str(tmp_path / "x")}
    pending = Deferred()
    one, _ = ours(lambda request: pending, **settings)
    other, crawler = ours(file(), **settings)
    first, second = outcome(one, Request("http://a.example/")), outcome(other, Request("http://a.example/private/"))
    assert (first, second) == ([], []) and calls[-1][0] == 1
    calls[-1][1]()
    assert second == [] and calls[-1][0] == 1
    pending.callback(file()(Request("http://a.example/robots.txt")))
    calls[-1][1]()
    assert first == [None] and second[0].line == 2 and not crawler.engine.requests


def test_a_job_folder_has_the_database(tmp_path):
    for settings, exists in [({}, True), ({"TEXTING_ROBOTS_DATABASE": ""}, False)]:
        folder = tmp_path / str(exists)
        ours(file(), JOBDIR=str(folder), **settings)
        assert (folder / "robots.sqlite3").exists() is exists


def test_the_request_for_a_file_goes_the_way_of_the_request_to_the_site():
    """And asks for no compressed body, has a limit and a time, and takes no credentials of the site along."""
    robots, crawler = ours(file(), TEXTING_ROBOTS_TIMEOUT=7)
    meta = {"proxy": "http://127.0.0.1:8080", "bindaddress": ("127.0.0.2", 0), "_auth_proxy": "http://127.0.0.1:8080", "other": 1}
    headers = {"Proxy-Authorization": "Basic x", "Authorization": "Basic y", "Cookie": "z=1"}
    assert outcome(robots, Request("http://a.example/", meta=dict(meta), headers=headers)) == [None]
    (request,) = crawler.engine.requests
    assert {key: request.meta.get(key) for key in meta} == meta | {"other": None}
    assert dict(request.headers.to_unicode_dict()) == {"proxy-authorization": "Basic x", "accept-encoding": "identity"}
    assert (request.meta["download_timeout"], request.meta["download_maxsize"]) == (7, 1 << 25)


@pytest.mark.parametrize("settings, seconds", [({}, 30), ({"DOWNLOAD_TIMEOUT": 5}, 5), ({"DOWNLOAD_TIMEOUT": 5, "TEXTING_ROBOTS_TIMEOUT": 9}, 9)])
def test_the_time_for_an_answer(settings, seconds):
    assert ours(file(), **settings)[0]._timeout == seconds


def test_no_other_middleware_unpacks_a_file_or_asks_again_at_once():
    robots, _ = ours(file())
    request, response = Request("http://a.example/robots.txt", meta={"texting_robots": True}), Response("http://a.example/robots.txt", headers={"Content-Encoding": "gzip"})
    robots._response_downloaded(response, request)
    assert "Content-Encoding" not in response.headers and request.meta["dont_retry"]
    page = Response("http://a.example/", headers={"Content-Encoding": "gzip"})
    robots._response_downloaded(page, Request("http://a.example/"))
    assert "Content-Encoding" in page.headers


def test_scrapy_asks_again_at_once_when_a_server_fails_first():
    """And not later in an outage, so that this isn't three times as often as the setting says."""
    robots, crawler = ours(lambda request: Failure(ConnectionRefusedError()))
    now = [1e9]
    robots._cache._clock = lambda: now[0]
    for answer in [crawler.engine.answer] * 3 + [file(), crawler.engine.answer]:
        crawler.engine.answer = answer
        outcome(robots, Request("http://a.example/"))
        now[0] += 86_400
    found = [it.meta.get("dont_retry", False) for it in crawler.engine.requests]
    assert found == [False, True, True, True, False]


@pytest.mark.parametrize(
    "slot, settings, given",
    [
        (None, {}, None),
        ("a.example", {}, "a.example"),
        ("proxy", {}, "proxy http://a.example"),
        (None, {"CONCURRENT_REQUESTS_PER_IP": 1}, "http://a.example"),
        ("proxy", {"DOWNLOAD_SLOTS": {"proxy": {"delay": 9}}}, "proxy"),
    ],
)
def test_a_site_with_a_delay_gets_a_slot_of_its_own(slot, settings, given):
    """Where its slot may be that of other hosts. When the request comes again, it has its first slot."""
    robots, crawler = ours(file(RULES + b"Crawl-delay: 1\n"), **settings)
    request = Request("http://a.example/", meta={} if slot is None else {"download_slot": slot})
    assert outcome(robots, request) == [None] and request.meta.get("download_slot") == given
    again = request.replace(url="http://b.example/")
    crawler.engine.answer = file(RULES)
    assert outcome(robots, again) == [None] and again.meta.get("download_slot") == slot
