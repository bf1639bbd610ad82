"""Requests that wait for sites whose robots.txt files can't be fetched now."""

from __future__ import annotations

import enum
import logging
import time
from typing import Any, Callable, Final, NamedTuple

from scrapy import signals
from scrapy.exceptions import DontCloseSpider
from scrapy.utils.defer import maybe_deferred_to_future
from twisted.internet.defer import Deferred

from ._waiting import WaitingRequests
from .cache import KnownSite, State

logger = logging.getLogger(__name__)

_LOOK: Final = 1.0  # seconds between two looks whether the spider is being closed
_IDLE_AGAIN: Final = 20.0  # seconds between two signals that the spider is idle, if it wasn't so in between
_APART: Final = 0.05  # seconds between two files that are asked for after another start
_ROW: Final = "texting_robots_row"  # in the meta of a request that was on disk: its row, and until when it waits


class Outcome(enum.Enum):
    """What comes of a request that has waited: it goes on, or has waited for as long as it may, or is on disk."""

    GOES_ON = 1
    IS_OVER = 2
    IS_WRITTEN = 3


class Limits(NamedTuple):
    """How many requests wait in memory, and for how many seconds; how many for a host that was never reached, and how often that is tried;
    and for how many seconds an otherwise idle spider stays open."""

    most: int
    seconds: float
    most_of_host: int
    tries_of_host: int
    idle_seconds: float


class _Parked:
    """A request that waits for a site, until this time at most."""

    __slots__ = ("request", "site", "until", "waiter")

    def __init__(self, request: Any, until: float, site: KnownSite) -> None:
        self.request, self.until, self.site = request, until, site
        self.waiter: Deferred[Outcome] = Deferred()


class _Place:
    """What waits for a site: requests in memory, and so many on disk. ``is_dead`` is whether its host was never reached."""

    __slots__ = ("is_dead", "requests", "rows", "timer")

    def __init__(self) -> None:
        self.requests: list[_Parked] = []
        self.rows, self.is_dead, self.timer = 0, False, None


class Parking:
    """Holds requests outside of the downloader, whose limits don't count them, and keeps the spider open meanwhile.

    Those for which there is no place are on disk: in the file with this ``path``, which is kept for the next start, or in a temporary one.
    ``ask`` is called with an address and a request when it is time to ask for the file again; its caller passes the outcome to ``known``.
    """

    def __init__(self, crawler: Any, limits: Limits, path: str, is_job: bool, ask: Callable[[str, Any], None]) -> None:
        self._crawler, self._limits, self._path, self._is_job, self._ask = crawler, limits, path, is_job, ask
        self._places: dict[str, _Place] = {}
        self._over: set[str] = set()  # hosts that were never reached, when the spider was idle
        self._rows: WaitingRequests | None = None
        self._look: Any = None
        self._feeding = 0  # files whose requests are given back to the scheduler now
        self._idle_since = self._idle_last = 0.0
        self.count = 0  # of the requests in memory
        crawler.signals.connect(self._spider_opened, signals.spider_opened)
        crawler.signals.connect(self._spider_idle, signals.spider_idle)

    @property
    def waiting(self) -> int:
        """How many requests wait, in memory and on disk."""
        return self.count + sum(it.rows for it in self._places.values())

    def returned(self, request: Any) -> float | None:
        """Until when a request waits that was on disk, or None for another one; 0.0 if a copy of it was made before."""
        row = request.meta.pop(_ROW, None)
        return None if row is None else row[1] if self._open_rows().take(row[0]) else 0.0

    async def wait(self, address: str, request: Any, site: KnownSite, until: float | None) -> tuple[Outcome, KnownSite]:
        """Waits for the site, or until the request is on disk, or has waited for as long as it may: until this time, if it has one."""
        until = until or time.time() + self._limits.seconds
        if not self._limits.seconds or site.refresh > until or self._is_given_up(address, site):
            return Outcome.IS_OVER, site
        place = self._places.setdefault(address, _Place())
        place.is_dead = not site.was_reached
        self._set_timer(address, place, site.refresh)
        self._watch()
        is_full = self.count >= self._limits.most or place.is_dead and len(place.requests) >= self._limits.most_of_host
        if is_full and self._write(address, until, request):
            place.rows += 1
            return Outcome.IS_WRITTEN, site
        self._crawler.stats.inc_value("robotstxt/parked")
        parked = _Parked(request, until, site)
        place.requests.append(parked)
        self.count += 1
        self._crawler.engine.downloader.active.discard(request)
        slot = _engine_slot(self._crawler.engine)
        if slot:
            slot.nextcall.schedule()  # there is room for another one
        outcome: Outcome = await maybe_deferred_to_future(parked.waiter)
        return outcome, parked.site

    def known(self, address: str, site: KnownSite) -> None:
        """The file was asked for: its requests go on, or wait until it is asked for again, if they may wait that long."""
        place = self._places.get(address)
        if place is None:
            return
        place.is_dead = not site.was_reached
        for parked in place.requests:
            parked.site = site
        if site.state is not State.UNREACHABLE:
            self._over.discard(address)
            self._release(address, Outcome.GOES_ON)
        elif self._is_given_up(address, site):
            self._release(address, Outcome.IS_OVER)
        else:
            self._release(address, Outcome.IS_OVER, site.refresh)
        if address in self._places:
            self._set_timer(address, place, site.refresh)

    def busy(self) -> None:
        """The spider isn't idle."""
        self._idle_since = 0.0

    def close(self) -> None:
        """Closes the file, and says how many requests wait for the next start, or are lost. The process may go on, with other spiders."""
        stats, extra = self._crawler.stats, {"spider": self._crawler.spider}
        for timer in (self._look, *(place.timer for place in self._places.values())):
            _stop(timer)
        self._places.clear()
        is_kept, left = bool(self._rows and self._rows.is_kept), self._rows.close() if self._rows else 0
        self._rows = None
        if left and is_kept:
            logger.info("requests that wait for the next start: %d", left, extra=extra)
        elif left:
            stats.inc_value("robotstxt/lost", left)
        lost = stats.get_value("robotstxt/lost", 0)
        if lost:
            logger.warning(
                "requests that waited for sites whose robots.txt files can't be fetched, and are lost: %d. With a JOBDIR, or the setting"
                " TEXTING_ROBOTS_DATABASE, those that can be written wait for the next start", lost, extra=extra,
            )  # fmt: skip

    # ---- the end of waiting

    def _is_given_up(self, address: str, site: KnownSite) -> bool:
        return not site.was_reached and (site.failures >= self._limits.tries_of_host or address in self._over)

    def _release(self, address: str, outcome: Outcome, until: float = float("inf")) -> None:
        """Ends the waiting of the requests to a site that wait until this time at the latest. Those on disk go back to the scheduler."""
        place = self._places[address]
        ended = [it for it in place.requests if it.until <= until]
        place.requests = [it for it in place.requests if it.until > until]
        self.count -= len(ended)
        if place.rows:
            self._feeding += 1
            self._feed(address, until)
        self._forget_empty(address)
        for parked in ended:
            self._end(parked, outcome)

    def _end(self, parked: _Parked, outcome: Outcome) -> None:
        self._crawler.engine.downloader.active.add(parked.request)  # which it takes out again, and until then isn't idle
        if outcome is Outcome.GOES_ON:
            self.busy()
        parked.waiter.callback(outcome)

    def _feed(self, address: str, until: float) -> None:
        """Gives requests on disk back to the scheduler, some at a time."""
        slot, place = _engine_slot(self._crawler.engine), self._places.get(address)
        given = self._open_rows().give(address, until) if slot and not slot.closing else []
        for row, its_until, request in given:
            self._crawler.stats.inc_value("robotstxt/resumed" if request else "robotstxt/lost")
            if request:
                request.dont_filter = True
                request.meta[_ROW] = (row, its_until)
                self._crawler.engine.crawl(request)
            else:
                self._open_rows().take(row)
        if place:
            place.rows = max(0, place.rows - len(given))
        if given:
            later(0, self._feed, address, until)
        else:
            self._feeding -= 1
            self._forget_empty(address)

    def _forget_empty(self, address: str) -> None:
        place = self._places.get(address)
        if place and not place.requests and not place.rows:
            del self._places[address]
            _stop(place.timer)

    def _end_all(self) -> None:
        """Ends all waiting in memory. What can wait for the next start is written; for the rest this is the end."""
        for address, place in list(self._places.items()):
            ended, place.requests = place.requests, []
            self.count -= len(ended)
            for parked in ended:
                is_written = bool(self._path) and self._open_rows().is_kept and self._write(address, parked.until, parked.request)
                place.rows += is_written
                if not is_written:
                    self._crawler.stats.inc_value("robotstxt/lost")
                self._end(parked, Outcome.IS_WRITTEN if is_written else Outcome.IS_OVER)
            self._forget_empty(address)

    # ---- disk

    def _open_rows(self) -> WaitingRequests:
        if self._rows is None:
            self._rows = WaitingRequests(self._path, self._crawler.spider)
        return self._rows

    def _write(self, address: str, until: float, request: Any) -> bool:
        is_written = self._open_rows().put(address, until, request)
        if is_written:
            self._crawler.stats.inc_value("robotstxt/written")
        return is_written

    def _spider_opened(self) -> None:
        """Asks for the files that requests of an earlier start wait for."""
        if not self._path or not self._limits.seconds:
            return
        rows = self._open_rows()
        over = rows.renew(time.time() + self._limits.seconds if self._is_job else None)
        if over:
            self._crawler.stats.inc_value("robotstxt/lost", over)
        for number, (address, count) in enumerate(rows.counts().items()):
            self._places[address] = place = _Place()
            place.rows = count
            self._set_timer(address, place, time.time() + number * _APART)

    # ---- time

    def _set_timer(self, address: str, place: _Place, refresh: float) -> None:
        if not place.timer or not place.timer.active():
            place.timer = later(max(0.01, refresh - time.time()), self._ask_again, address)

    def _ask_again(self, address: str) -> None:
        place = self._places.get(address)
        if place:
            self._ask(address, place.requests[0].request if place.requests else self._open_rows().first(address))

    def _watch(self) -> None:
        """Looks from time to time whether the spider is being closed, of which there is no signal, and which waits for all requests."""
        if self._look is None:
            self._look = later(_LOOK, self._end_of_spider)

    def _end_of_spider(self) -> None:
        self._look = None
        slot = _engine_slot(self._crawler.engine)
        if slot is None or slot.closing:
            self._end_all()
        elif self._places:
            self._watch()

    def _spider_idle(self) -> None:
        """Keeps the spider open for a time while requests wait; but not for a host that was never reached."""
        if not self._places and not self._feeding:
            return
        now = time.monotonic()
        if not self._idle_since or now > self._idle_last + _IDLE_AGAIN:
            self._idle_since = now
        self._idle_last = now
        if self._feeding or any(not it.is_dead for it in self._places.values()) and now < self._idle_since + self._limits.idle_seconds:
            raise DontCloseSpider
        dead = [address for address, place in self._places.items() if place.is_dead]
        self._over.update(dead)
        for address in dead:
            self._release(address, Outcome.IS_OVER)
        has_more = bool(dead) or self.count > 0
        self._end_all()
        if has_more:
            raise DontCloseSpider  # until these have come to their end


def later(seconds: float, call: Callable[..., Any], *arguments: Any) -> Any:
    """Makes a call after so many seconds, and returns what can cancel it."""
    from twisted.internet import reactor  # installed by now

    clock: Any = reactor
    return clock.callLater(seconds, call, *arguments)


def _stop(timer: Any) -> None:
    if timer and timer.active():
        timer.cancel()


def _engine_slot(engine: Any) -> Any:
    """The engine's slot, by its name in this version of Scrapy."""
    return getattr(engine, "slot", None) or getattr(engine, "_slot", None)
