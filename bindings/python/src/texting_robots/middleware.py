"""A downloader middleware for Scrapy, which obeys robots.txt files. It replaces Scrapy's own in the settings of a project::

    ROBOTSTXT_OBEY = True
    DOWNLOADER_MIDDLEWARES = {
        "scrapy.downloadermiddlewares.robotstxt.RobotsTxtMiddleware": None,
        "texting_robots.middleware.RobotsMiddleware": 100,
    }

From Scrapy 2.10 on, ``ADDONS = {"texting_robots.scrapy.RobotsAddon": 100}`` is meant to do the same, but that hasn't been tried.
"""

from __future__ import annotations

import logging
import os
import time
from collections.abc import Callable
from typing import Any, Final
from urllib.parse import quote, urlsplit
from weakref import WeakKeyDictionary, WeakValueDictionary

from scrapy import signals
from scrapy.downloadermiddlewares.robotstxt import RobotsTxtMiddleware
from scrapy.exceptions import IgnoreRequest, NotConfigured, StopDownload
from scrapy.http import Request
from scrapy.http.request import NO_CALLBACK
from scrapy.utils.defer import deferred_from_coro, maybe_deferred_to_future
from twisted.internet.defer import Deferred
from twisted.internet.error import ConnectionRefusedError, DNSLookupError, NoRouteError, UnknownHostError

from . import FILE_LIMIT, LIFETIME, UrlError, robots_url
from ._figures import Figures
from ._pacing import Pace, leave_shared_slot, return_to_slot
from ._parking import Limits, Outcome, Parking, later
from ._responses import reason_of
from ._rules import COST_LIMIT
from ._settings import not_negative, positive
from .cache import Agents, CacheVerdict, Fetch, KnownSite, RobotsCache, State, Step
from .scrapy import warn_of_browser

logger = logging.getLogger(__name__)

sitemaps_found: Final = object()
"""The signal that a robots.txt file has sitemaps. It comes once for each file, and again if a later file of the site has others. Its
arguments are ``sitemaps``, a list of URLs as the file has them, ``robots_url``, the file's address, and ``spider``."""

robots_received: Final = object()
"""The signal that there is a response to a request for a robots.txt file, also for a redirect. Its arguments are ``response``, with the body
as received, and ``spider``."""

_SCRAPYS_OWN: Final = "scrapy.downloadermiddlewares.robotstxt.RobotsTxtMiddleware"
_BROKEN_OFF: Final = frozenset({"dataloss", "download_stopped"})

# For a file: no other middleware answers, follows or refuses the request, no other file is asked about it, and a large one is cut.
_MARK: Final = "texting_robots"
_META: Final = {
    _MARK: True,
    "dont_obey_robotstxt": True,
    "dont_redirect": True,
    "dont_cache": True,
    "allow_offsite": True,
    "download_maxsize": 1 << 25,
}
_WAY_OUT: Final = ("proxy", "_auth_proxy", "bindaddress")  # in the meta of a request: the way that its file's request takes, too
_ENCODING: Final = "Robots-Content-Encoding"  # of a body that Scrapy mustn't unpack, as it would do so without a limit
_FIELDS: Final = ("Location", "ETag", "Retry-After", "Cache-Control")
_NOT_REACHED: Final = (DNSLookupError, UnknownHostError, ConnectionRefusedError, NoRouteError)
_MAX_DELAY: Final = ("MAX_DELAY", 60)
_WARNINGS_KEPT: Final = 10_000


class Forbidden(IgnoreRequest):
    """The robots.txt file at this ``robots_url`` forbids the request: by the line with this number, or because of a ``problem`` if ``line``
    is None."""

    def __init__(self, robots_url: str, line: int | None, problem: str = "") -> None:
        super().__init__(f"Forbidden by robots.txt: {f'line {line} of {robots_url}' if line else f'{robots_url}: {problem}'}")
        self.robots_url, self.line, self.problem = robots_url, line, problem

    def __reduce__(self) -> tuple[type[Forbidden], tuple[str, int | None, str]]:
        return type(self), (self.robots_url, self.line, self.problem)


class Unreachable(IgnoreRequest):
    """The robots.txt file at this ``robots_url`` can't be fetched, and until it can, nothing is. It is asked for again in ``seconds``:
    nothing forbids the request itself."""

    def __init__(self, robots_url: str, seconds: float) -> None:
        super().__init__(f"{robots_url} can't be fetched: it is asked for again in {seconds:.0f} seconds")
        self.robots_url, self.seconds = robots_url, seconds

    def __reduce__(self) -> tuple[type[Unreachable], tuple[str, float]]:
        return type(self), (self.robots_url, self.seconds)


class Postponed(IgnoreRequest):
    """The robots.txt file at this ``robots_url`` can't be fetched, and the request waits on disk until it can: then it comes again. Its
    errback isn't called for that."""

    def __init__(self, robots_url: str) -> None:
        super().__init__(f"{robots_url} can't be fetched: the request waits on disk until it can")
        self.robots_url = robots_url

    def __reduce__(self) -> tuple[type[Postponed], tuple[str]]:
        return type(self), (self.robots_url,)


class RobotsMiddleware:
    """Ignores requests that a robots.txt file denies, and waits between two requests to a site as long as it asks for.

    A site is a scheme with a host and a port. Its robots.txt file is fetched before anything else, by one request for all that wait for
    it. What the answer means follows RFC 9309: without a file (400 to 499 but 429, or a sixth redirect) everything is allowed; if the server
    fails (429, 500 to 599, a truncated body, no answer) the file that it gave before counts, or without one nothing may be fetched. Scrapy's own
    middleware then fetches everything.

    So in an outage requests to the site wait, and go on when its file can be fetched: in memory, or where they have no place on disk, and then
    this try ends in `Postponed`. When the spider is closed, those on disk wait for the next start, if there is a JOBDIR or a database; those
    in memory are written then; and how many are lost is a warning, and in the stats. A request ends in `Unreachable` if it may wait no
    longer, or if other code than the spider's waits for it, as for images. One that is denied ends in `Forbidden`, which has the line.

    On disk a request is what ``request.to_dict`` gives, if that consists of plain values; others stay in memory. The file is in the JOBDIR, or
    beside the database, or else a temporary one. It belongs to one spider in one process, and only its user can read it. After a crash, the
    requests in it come again, and those of other processes of the spider that have ended.

    As with Scrapy's own middleware, there are the settings ``ROBOTSTXT_OBEY`` and ``ROBOTSTXT_USER_AGENT``, ``dont_obey_robotstxt`` in the
    meta of a request, and the stats, also ``robotstxt/waiting``, ``in_flight``, ``outages`` and ``oldest_outage_seconds`` as often as
    ``LOGSTATS_INTERVAL`` says. ``ROBOTSTXT_USER_AGENT`` may be a list of names in order of precedence: the first that a file names counts.
    ``ROBOTSTXT_PARSER`` isn't used. The first failure of a site is a warning, and later ones are for debugging. Settings of its own, with
    their defaults:

    - ``TEXTING_ROBOTS_PARKED = 1000``: the number of requests that may wait in memory for robots.txt files that can't be fetched. Others
      wait on disk. With 0 all are on disk, and a crash loses none of them.
    - ``TEXTING_ROBOTS_PARKED_SECONDS = 86400``: how many seconds each may wait, in a JOBDIR from each start on. With 0 none waits.
    - ``TEXTING_ROBOTS_DEAD_PARKED = 10``: the number that may wait in memory for a host to which there never was a connection, because its
      name is unknown or it refuses them.
    - ``TEXTING_ROBOTS_DEAD_TRIES = 3``: how often the file of such a host is requested before the requests for the host end in `Unreachable`.
    - ``TEXTING_ROBOTS_IDLE_SECONDS = 120``: how many seconds an otherwise idle spider stays open while requests wait, but never for such a host.
    - ``TEXTING_ROBOTS_RETRY = 300``: the longest time, in seconds, until the file is requested again after the server failed, unless the
      server says when (Retry-After): after 5, 10, 20 and so on, up to a tenth longer by chance. Scrapy's own retries, ``RETRY_TIMES``, come with the first
      request alone.
    - ``TEXTING_ROBOTS_ANSWER_WITHIN = 1260``: after how many seconds a request for a file counts as failed in any case, for example that of
      another process with the same database. It is 300 and the longest time that a request waits in a slot: the longest delay for each of the
      ``CONCURRENT_REQUESTS``.
    - ``TEXTING_ROBOTS_AFTER_30_DAYS = "last file"``: what counts when a server has failed for 30 days: the file before, if there was one;
      ``"no file"``, so everything may be fetched; or ``"closed"``.
    - ``TEXTING_ROBOTS_TIMEOUT = 30``: how many seconds to wait for an answer. ``DOWNLOAD_TIMEOUT`` counts if it is shorter.
    - ``TEXTING_ROBOTS_LIFETIME = 86400``: how many seconds a file is used. Cache-Control counts if it is shorter, but at least 300. In the last
      hour the file is fetched again, and is used until then. The HTTP cache of Scrapy never has it.
    - ``TEXTING_ROBOTS_BUDGET = 100_000_000``: the memory for files, in bytes. Files are kept compressed, which takes some 1,000 bytes for a usual
      one; a quarter of the memory is for those that are parsed. A file for which there is no room is fetched again.
    - ``TEXTING_ROBOTS_DATABASE``: the path of a sqlite3 file, in which all files are kept, also for the next start. Processes of one machine
      can share it. With a JOBDIR it is ``robots.sqlite3`` there, unless this setting is ``""``.
    - ``TEXTING_ROBOTS_EXEMPT = []``: hosts, such as your own, of which no file is fetched, and everything may be.
    - ``TEXTING_ROBOTS_COST = 20_000_000``: how many comparisons a verdict may take. A URL that might need more is denied, with a
      warning.
    - ``TEXTING_ROBOTS_READING = "crate"``: how files are read; with ``"rfc9309"`` as that standard does (see `texting_robots.Site`).
    - ``TEXTING_ROBOTS_MAX_DELAY = 60``: a longer delay is cut to this number of seconds. With 0 delays are ignored.

    The delay holds in the downloader's slots, whatever ``DOWNLOAD_DELAY``, ``download_slot`` and AutoThrottle say, which may only make it
    longer. A site with a delay gets a slot of its own where its slot is a spider's, or that of an IP address. In the slot of a host, the
    largest delay of its sites counts. Sitemaps come by the signal `sitemaps_found`, and the responses themselves by `robots_received`. A
    subclass can change the request for a file: `robots_request`.
    """

    def __init__(self, crawler: Any) -> None:
        settings = crawler.settings
        if not settings.getbool("ROBOTSTXT_OBEY"):
            raise NotConfigured
        self._crawler = crawler
        self._user_agent = settings.get("ROBOTSTXT_USER_AGENT")
        self._names = tuple(self._user_agent) if isinstance(self._user_agent, (list, tuple)) else ()
        self._default_user_agent = settings.get("USER_AGENT", "Scrapy")
        self._max_delay = _number(settings, *_MAX_DELAY, not_negative)
        self._timeout = _number(settings, "TIMEOUT", min(30.0, settings.getfloat("DOWNLOAD_TIMEOUT") or 30.0))
        self._is_by_ip = settings.getint("CONCURRENT_REQUESTS_PER_IP") > 0
        self._slots = frozenset(settings.getdict("DOWNLOAD_SLOTS"))
        job, database = settings.get("JOBDIR"), settings.get("TEXTING_ROBOTS_DATABASE")
        if job:
            os.makedirs(job, exist_ok=True)
            database = os.path.join(job, "robots.sqlite3") if database is None else database
        self._cache = _cache(settings, database or "", self._count, self._found)
        name = quote(getattr(crawler.spider or crawler.spidercls, "name", None) or "", safe="")
        path = os.path.join(job, f"robots-waiting-{name}.sqlite3") if job else f"{database}-waiting-{name}" if database else ""
        self._parking = Parking(crawler, _limits(settings), path, bool(job), self._ask)
        self._figures = Figures(crawler, lambda: self._parking.waiting, lambda: self._cache.in_flight)
        self._timers: dict[str, Any] = {}  # of files that are looked for again
        self._waiting: dict[str, list[Deferred[KnownSite]]] = {}  # for a file that is being fetched
        self._paces: WeakValueDictionary[str, Pace] = WeakValueDictionary()
        self._pace_of: WeakKeyDictionary[Any, Pace] = WeakKeyDictionary()
        self._received: WeakKeyDictionary[Any, int] = WeakKeyDictionary()
        self._warned: set[tuple[str, str]] = set()
        crawler.signals.connect(self._reached_downloader, signals.request_reached_downloader)
        crawler.signals.connect(self._left_downloader, signals.request_left_downloader)
        crawler.signals.connect(self._bytes_received, signals.bytes_received)
        crawler.signals.connect(self._response_downloaded, signals.response_downloaded)
        crawler.signals.connect(self._spider_closed, signals.spider_closed)

    @classmethod
    def from_crawler(cls, crawler: Any) -> RobotsMiddleware:
        """The middleware of a crawler, or NotConfigured without ``ROBOTSTXT_OBEY``, or ValueError for a setting that is no number or too
        small."""
        if _is_on(crawler.settings):
            logger.warning("%s is still on: every robots.txt file is fetched twice. Set it to None in DOWNLOADER_MIDDLEWARES", _SCRAPYS_OWN)
        return cls(crawler)

    def robots_request(self, address: str, request: Any) -> Any:
        """The request for the file with this address, which a request to its site needs. A subclass may change it: here it goes through the
        same proxy and from the same local address."""
        meta = _META | {"download_timeout": self._timeout} | {key: request.meta[key] for key in _WAY_OUT if key in request.meta}
        headers = {key: request.headers[key] for key in ("Proxy-Authorization",) if key in request.headers}
        return Request(address, NO_CALLBACK, headers=headers, priority=1000, dont_filter=True, meta=meta)

    async def process_request(self, request: Any, spider: Any = None) -> Any:
        """Raises IgnoreRequest if the site's file denies the request. Returns it to Scrapy's scheduler once it has waited for the file."""
        if request.meta.get("dont_obey_robotstxt") or request.url.startswith(("data:", "file:")):
            return None
        return_to_slot(request)
        until = self._parking.returned(request)
        if until == 0:
            request.errback = None
            raise IgnoreRequest(f"{request} was on disk too, and has been made")
        address = _address(request)
        pace = self._paces.setdefault(address, Pace())
        site = await self._site(address, request)
        spider = self._crawler.spider
        default = getattr(spider, "user_agent", None) or self._default_user_agent
        user_agent = self._names or _text(self._user_agent or request.headers.get("User-Agent") or default)
        if isinstance(user_agent, str):
            warn_of_browser(user_agent, spider)
        verdict = self._cache.verdict(site, request.url, user_agent)
        if not verdict and site.state is State.UNREACHABLE:
            return await self._after_outage(address, request, site, until)
        delay = self._cache.delay(site, user_agent)
        if delay > self._max_delay > 0:
            self._count("delay_cut")
        delay = min(delay, self._max_delay)
        pace.keep(delay)
        self._pace_of[request] = pace
        if not verdict:
            self._forbid(address, request, user_agent, verdict)
        if delay:
            leave_shared_slot(request, address.removesuffix("/robots.txt"), self._is_by_ip, self._slots)
        return None

    def _forbid(self, address: str, request: Any, user_agent: Agents, verdict: CacheVerdict) -> None:
        extra = {"spider": self._crawler.spider}
        error = Forbidden(address, verdict.line, verdict.problem)
        if verdict.problem and (address, verdict.problem) not in self._warned:
            if len(self._warned) >= _WARNINGS_KEPT:
                self._warned.clear()
            self._warned.add((address, verdict.problem))
            logger.warning("%s for %s: %s: it isn't fetched", address, user_agent, verdict.problem, extra=extra)
        logger.debug("%s: %s", error, request, extra=extra)
        self._count("forbidden")
        raise error

    async def _after_outage(self, address: str, request: Any, site: KnownSite, until: float | None) -> Any:
        """The request, to be scheduled again, once its site's file can be fetched."""
        if request.callback is not NO_CALLBACK:
            outcome, site = await self._parking.wait(address, request, site, until)
            if outcome is Outcome.GOES_ON:
                self._count("resumed")
                again = request.copy()
                again.dont_filter = True
                return again
            if outcome is Outcome.IS_WRITTEN:
                request.errback = None
                raise Postponed(address)
        self._count("unreachable")
        error = Unreachable(address, max(0.0, site.refresh - time.time()))
        logger.debug("%s: %s", error, request, extra={"spider": self._crawler.spider})
        raise error

    # ---- files

    async def _site(self, address: str, request: Any) -> KnownSite:
        """The site whose file has this address. One request fetches the file, and others wait for it."""
        look = self._cache.at(address)
        waiter: Deferred[KnownSite] | None = None
        if not look.site:
            waiter = Deferred()
            self._waiting.setdefault(address, []).append(waiter)
            self._look_again(address, request, look.again)
        if look.fetch:
            deferred_from_coro(self._fetched(look.fetch, request))
        if waiter:
            awaited: KnownSite = await maybe_deferred_to_future(waiter)
            return awaited
        assert look.site
        return look.site

    def _ask(self, address: str, request: Any) -> None:
        """Asks for a file again, for which requests wait: this one and others."""
        look = self._cache.at(address)
        if look.site:
            self._settle({address: look.site})
        else:
            self._look_again(address, request, look.again)
        if look.fetch:
            deferred_from_coro(self._fetched(look.fetch, request))

    def _look_again(self, address: str, request: Any, seconds: float) -> None:
        """Asks for a file again after so many seconds, if no answer has come until then, here or to another process. One that comes later has
        no effect, so without this nobody would go on who waits for it."""

        def ask() -> None:
            del self._timers[address]
            self._ask(address, request)

        if address not in self._timers:
            self._timers[address] = later(seconds, ask)

    async def _fetched(self, fetch: Fetch, request: Any) -> None:
        """Makes a request that the cache asks for, and those that follow from it."""
        self._count("request_count")
        next_one: Fetch | None = fetch
        while next_one:
            step = await self._answered(next_one, request)
            self._settle(step.known)
            next_one = step.fetch

    async def _answered(self, fetch: Fetch, request: Any) -> Step:
        extra = {"spider": self._crawler.spider}
        try:
            response = await self._download(fetch, request)
            self._crawler.signals.send_catch_log(robots_received, response=response, spider=self._crawler.spider)
            fields = {name: _text(response.headers[name]) for name in _FIELDS if name in response.headers}
            encodings = response.headers.getlist(_ENCODING) or response.headers.getlist("Content-Encoding")
            fields["Content-Encoding"] = _text(b",".join(encodings))
            step = self._cache.received(fetch, response.status, fields, response.body, _BROKEN_OFF.isdisjoint(response.flags))
            if not step.fetch:
                self._count("response_count")
                self._count(f"response_status_count/{response.status}")
            reason: str | Exception = reason_of(response.status)
        except IgnoreRequest as refusal:
            step, reason = self._cache.failed(fetch, was_reached=False), refusal
        except Exception as error:
            step, reason = self._cache.failed(fetch, was_reached=not isinstance(error, _NOT_REACHED)), error
            self._count(f"exception_count/{type(error)}")
        for address, site in step.known.items():
            if site.is_failing:
                is_first, is_usual = site.failures == 1, not isinstance(reason, Exception) or _is_of_network(reason)
                level = logging.DEBUG if not is_first else logging.WARNING if is_usual else logging.ERROR
                exc_info = reason if is_first and isinstance(reason, Exception) and not is_usual else None
                logger.log(level, "%s can't be fetched: %s", address, reason, exc_info=exc_info, extra=extra)
        return step

    async def _download(self, fetch: Fetch, request: Any) -> Any:
        robots = self.robots_request(fetch.address, request)
        for name, value in fetch.headers.items():
            robots.headers.setdefault(name, value)
        # a server that fails still, or takes long, isn't asked at once again
        if any(site and site.is_failing for site in fetch.flight.before.values()):
            robots.meta["dont_retry"] = True
        timer = later(self._timeout / 2, robots.meta.__setitem__, "dont_retry", True)
        engine = self._crawler.engine
        try:
            if hasattr(engine, "download_async"):  # newer versions of Scrapy
                return await engine.download_async(robots)
            return await maybe_deferred_to_future(engine.download(robots))
        finally:
            if timer.active():
                timer.cancel()

    def _settle(self, known: dict[str, KnownSite]) -> None:
        """Lets requests go on that wait for these sites."""
        for address, site in known.items():
            timer = self._timers.pop(address, None)
            if timer:
                timer.cancel()
            self._parking.known(address, site)
            for waiter in self._waiting.pop(address, []):
                waiter.callback(site)
        if known:
            self._figures.known(known.values())
            self._crawler.stats.max_value("robotstxt/sites_max", len(self._cache))
            self._crawler.stats.max_value("robotstxt/memory_max", self._cache.memory)

    def _found(self, address: str, sitemaps: list[str]) -> None:
        words = {"sitemaps": sitemaps, "robots_url": address, "spider": self._crawler.spider}
        self._crawler.signals.send_catch_log(sitemaps_found, **words)

    def _count(self, name: str) -> None:
        self._crawler.stats.inc_value(f"robotstxt/{name}")

    # ---- signals of Scrapy

    def _reached_downloader(self, request: Any) -> None:
        if _MARK not in request.meta:
            self._parking.busy()
        pace = self._pace_of.get(request) or self._paces.get(_address(request))
        if pace:
            self._pace_of[request] = pace
            pace.enter(self._crawler.engine.downloader.slots[request.meta["download_slot"]])

    def _left_downloader(self, request: Any) -> None:
        pace, slots = self._pace_of.get(request), self._crawler.engine.downloader.slots
        if pace and request.meta.get("download_slot") in slots:
            pace.leave(slots[request.meta["download_slot"]])

    def _bytes_received(self, data: bytes, request: Any) -> None:
        """Ends the download of a file that is longer than what counts. Compressed, it might have grown a little."""
        if _MARK in request.meta:
            self._received[request] = self._received.get(request, 0) + len(data)
            if self._received[request] > 2 * FILE_LIMIT:
                raise StopDownload(fail=False)

    def _response_downloaded(self, response: Any, request: Any) -> None:
        """Keeps other middlewares from unpacking a file, and from asking again at once where there was an answer."""
        if _MARK in request.meta:
            encodings = response.headers.getlist("Content-Encoding")
            if encodings:
                response.headers[_ENCODING] = b",".join(encodings)
                del response.headers["Content-Encoding"]
            request.meta["dont_retry"] = True

    def _spider_closed(self) -> None:
        for timer in self._timers.values():
            timer.cancel()
        self._timers.clear()
        self._figures.close()
        self._parking.close()
        self._cache.close()


def _is_on(settings: Any) -> bool:
    """Whether Scrapy's own middleware is."""
    places = settings.getwithbase("DOWNLOADER_MIDDLEWARES")
    return any(place is not None and (key == _SCRAPYS_OWN or key is RobotsTxtMiddleware) for key, place in places.items())


def _number(settings: Any, name: str, usual: float, check: Callable[[str, float], float] = positive) -> float:
    """The number of this setting."""
    name = f"TEXTING_ROBOTS_{name}"
    return check(name, settings.getfloat(name, usual))


def _cache(settings: Any, database: str, count: Callable[[str], object], found: Callable[[str, list[str]], object]) -> RobotsCache:
    """The cache that the settings ask for."""
    return RobotsCache(
        lifetime=_number(settings, "LIFETIME", LIFETIME),
        retry=_number(settings, "RETRY", 300),
        answer_within=_number(settings, "ANSWER_WITHIN", 300 + settings.getint("CONCURRENT_REQUESTS") * _number(settings, *_MAX_DELAY, not_negative)),
        after_30_days=settings.get("TEXTING_ROBOTS_AFTER_30_DAYS", "last file"),
        budget=int(_number(settings, "BUDGET", 100_000_000)),
        database=database,
        cost_limit=int(_number(settings, "COST", COST_LIMIT)),
        reading=settings.get("TEXTING_ROBOTS_READING", "crate"),
        exempt=settings.getlist("TEXTING_ROBOTS_EXEMPT"),
        count=count,
        found=found,
    )


def _limits(settings: Any) -> Limits:
    """How many requests wait, and for how long."""
    return Limits(
        int(_number(settings, "PARKED", 1000, not_negative)),
        _number(settings, "PARKED_SECONDS", 86_400, not_negative),
        int(_number(settings, "DEAD_PARKED", 10, not_negative)),
        int(_number(settings, "DEAD_TRIES", 3)),
        _number(settings, "IDLE_SECONDS", 120, not_negative),
    )


def _address(request: Any) -> str:
    """The address of robots.txt for a request, also for other schemes than http and https, such as ftp."""
    try:
        return robots_url(request.url)
    except UrlError:
        parts = urlsplit(request.url)
        return f"{parts.scheme}://{parts.netloc}/robots.txt"


def _text(text: str | bytes) -> str:
    return text if isinstance(text, str) else text.decode("utf-8", "replace")


def _is_of_network(error: Exception) -> bool:
    """Whether this is an error of a server or the network, of which a line is enough."""
    return isinstance(error, OSError) or type(error).__module__.startswith(("twisted.", "scrapy."))
