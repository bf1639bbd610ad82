"""What the robots.txt files of sites say, for any crawler, and when each of them is fetched: without requests of its own.

    >>> from texting_robots.cache import RobotsCache
    >>> cache = RobotsCache()
    >>> look = cache.look("https://example.com/private/x")
    >>> look.action, look.fetch.address
    (<Action.FETCH: 'fetch'>, 'https://example.com/robots.txt')
    >>> step = cache.received(look.fetch, 200, {"ETag": '"1"'}, b"User-agent: *\\nDisallow: /private/")
    >>> site = step.known["https://example.com/robots.txt"]
    >>> cache.verdict(site, "https://example.com/private/x", "FerrisBot/1.0")
    CacheVerdict(allowed=False, line=2, problem='')
"""

from __future__ import annotations

import logging
import random
import time
import zlib
from collections.abc import Callable, Iterable
from math import inf
from typing import Final, Literal, NoReturn
from urllib.parse import urlsplit

from . import FILE_LIMIT, LIFETIME, Meaning, Reading, Site, meaning, robots_url
from ._calls import is_rfc9309
from ._contents import Headers, fields_of, max_age, seconds_of, target, unpacked
from ._disk import Disk, Path
from ._memory import Memory
from ._rules import COST_LIMIT, OUT_OF_MEMORY, Agents, CacheVerdict, Decision
from ._settings import positive
from ._sites import Action, Fetch, Flight, KnownSite, Look, State, Step

__all__ = ["Action", "Agents", "CacheVerdict", "Decision", "Fetch", "Headers", "KnownSite", "Look", "RobotsCache", "State", "Step"]

logger = logging.getLogger(__name__)

LongOutage = Literal["last file", "no file", "closed"]
_AN_HOUR: Final = 3600
_30_DAYS: Final = 30 * 86_400
_FIRST_RETRY: Final = 5.0
_LEAST_LIFETIME: Final = 300.0
_TURNS_KEPT: Final = 1000
_LOOK_AGAIN: Final = 1.0  # seconds until another process may have the file
_ETAG_LIMIT: Final = 200
_FLIGHT_BYTES: Final = 610  # measured
_CLOSED: Final = Site.deny_all()


class RobotsCache:
    """What is known of sites, by the addresses of their robots.txt files.

    `look` says what to do for a URL. Who makes the request that it asks for gives the response to `received`, or if there was none calls
    `failed`, and goes on with the next request until there is none. One of the two has to be called for each request, whatever happens, as
    when a task is cancelled: else the site's URLs wait, until after ``answer_within`` seconds the request counts as failed. `verdict` says
    whether a crawler may fetch a URL.

    A file is in force for ``lifetime`` seconds (RFC 9309 asks for at most 24 hours), or for as many as its server says if they are fewer
    (Cache-Control: max-age), but for at least 300. It is fetched again in the last hour of them, or in the last half of a shorter lifetime.
    If the server fails then, the file stays in force; if it fails at first, nothing may be fetched. In both cases the next request for the
    file is due after 5 seconds, 10, 20 and so on up to ``retry``, and up to a tenth longer by ``chance``; or when the server says
    (Retry-After, at most the lifetime), where 0 and times in the past count as 5 seconds. From the third failure in a row on, it is the later
    of both. When a server has failed for 30 days, ``after_30_days`` decides: by the ``"last file"`` that the server gave, or if there was
    none nothing may be fetched; ``"no file"``, so everything may be; or ``"closed"``, so nothing may be.

    It takes about ``budget`` bytes of memory: a quarter for the parsed files that were used last, and the rest for all files, compressed.
    Where that doesn't suffice, the file that wasn't used for the longest time goes, and is fetched again, which the first time is a warning;
    unless ``database`` names a sqlite3 file, in which all of them are kept, also for the next start. A verdict takes at most ``cost_limit``
    comparisons, and is that of this ``reading`` (see `texting_robots.Site`), for which a database needn't be made anew. Of hosts in
    ``exempt``, such as your own, no file is fetched, and everything may be.

    Several processes of one machine may share a database, but not in a network's file system. One of them then fetches a file, and the others
    wait for it. A lock of another program is waited for 0.2 seconds, at most once in a second, and while there is one, files are fetched that it
    may have; when the database is opened or closed, a lock is waited for 10 seconds. A file that is no such database is renamed, and begun anew.

    ``count`` is called with the name of an event: ``parsed`` again from compressed bytes, ``evicted`` from memory, ``read`` from the
    database, ``stale`` for a file that stays in force while its server fails, ``not_modified``, ``unanswered`` for a request without an
    answer. ``found`` is called with an address and the sitemaps of its file, which aren't kept anywhere else: when a file has been fetched or
    read from the database, unless the file before had the same sitemaps. ``clock`` returns the seconds since 1970, and ``chance`` a number
    from 0 to 1, by default at random.

    Any thread may call it, but one call has to end before another begins. A number that isn't more than 0 is a ValueError.
    """

    def __init__(
        self,
        *,
        lifetime: float = LIFETIME,
        retry: float = 300,
        answer_within: float = 300,
        after_30_days: LongOutage = "last file",
        budget: int = 100_000_000,
        database: Path = "",
        cost_limit: int = COST_LIMIT,
        reading: Reading = "crate",
        exempt: Iterable[str] = (),
        clock: Callable[[], float] = time.time,
        chance: Callable[[], float] | None = None,
        count: Callable[[str], object] | None = None,
        found: Callable[[str, list[str]], object] | None = None,
    ) -> None:
        self._lifetime, self._retry = positive("lifetime", lifetime), positive("retry", retry)
        self._answer_within, self._cost_limit = positive("answer_within", answer_within), positive("cost_limit", cost_limit)
        if after_30_days not in ("last file", "no file", "closed"):
            raise ValueError(f"after_30_days is {after_30_days!r}: it has to be 'last file', 'no file' or 'closed'")
        self._by_rfc9309 = is_rfc9309(reading)
        self._after_30_days, self._clock, self._chance = after_30_days, clock, chance or random.random
        self._count, self._found = count, found
        self._memory = Memory(positive("budget", budget), cost_limit, reading, self._counted)
        self._longest = max(lifetime, 1.1 * retry)  # until a file is asked for again
        self._flights: dict[str, Flight] = {}
        self._turns: dict[str, float] = {}  # when the next request to a site with a delay may go
        self._turns_kept = _TURNS_KEPT
        self._has_evicted = False
        if isinstance(exempt, str):
            raise TypeError("exempt has to be several str, for example in a list")
        self._exempt = frozenset(host.lower() for host in exempt)
        self._disk = Disk(database, clock()) if database else None

    def look(self, url: str) -> Look:
        """What to do for a URL, or UrlError if it isn't one of http or https."""
        return self.at(robots_url(url))

    def at(self, robots_url: str) -> Look:
        """What to do for the site whose file has this address, which is what `texting_robots.robots_url` returned: no other text is one."""
        now = self._clock()
        if self._exempt and urlsplit(robots_url).hostname in self._exempt:
            return Look(Action.USE, robots_url, KnownSite(robots_url, State.NO_FILE, inf, inf))
        if self._flights:
            self._give_up(now, self._flights.get(robots_url))
        site = self._known(robots_url, now)
        flight = self._flights.get(robots_url)
        if flight is None:
            if site is not None and now < site.refresh:
                return Look(Action.USE, robots_url, site)
            return self._due(robots_url, site, now)
        if site and (site.counts(now) or site.state is not State.UNREACHABLE and flight.since < site.expires):
            return Look(Action.USE, robots_url, site)  # the request was made in time
        return Look(Action.WAIT, robots_url, again=flight.until - now)

    def received(self, fetch: Fetch, status: int, headers: Headers, body: bytes, is_complete: bool = True) -> Step:
        """What a response says.

        ``headers`` are names with values, or pairs, in ``str`` or in bytes. ``body`` is as received, also if it is compressed, or its first
        part if it is longer than what counts; but if the HTTP library has unpacked it, leave ``Content-Encoding`` out. ``is_complete`` is
        whether it came to its end. An answer that comes after the request counts as failed has no effect.
        """
        flight, fields = fetch.flight, fields_of(headers)
        if not isinstance(body, (bytes, bytearray, memoryview)):
            raise TypeError(f"body has the type {type(body).__name__}: it has to be bytes")
        location, known, files = target(fetch.address, fields.get("location")), dict[str, KnownSite](), list[KnownSite]()
        flight.reached = flight.reached.union(flight.redirects)
        before, lifetime = dict(flight.before), self._lifetime_of(fields)
        try:
            version = fetch.headers.get("If-None-Match") if status == 304 else None
            same = next((it for it in before.values() if it and (it.source, it.etag) == (fetch.address, version)), None)
            plain = unpacked(body, fields.get("content-encoding", ""))
            is_whole = plain is not None and (is_complete or len(plain) >= FILE_LIMIT)
            packed = zlib.compress((plain or b"")[:FILE_LIMIT], 1)
            for address, redirects in list(flight.redirects.items()):
                what = meaning(status, redirects=redirects, has_location=bool(location), is_complete=is_whole)
                if same:
                    known[address] = self._renewed(flight, address, same, lifetime)
                elif what is Meaning.PARSE:
                    known[address] = self._with_file(flight, address, packed, fetch.address, fields.get("etag", ""), lifetime)
                    files.append(known[address])
                elif what is Meaning.ALLOW_ALL:
                    known[address] = self._settled(flight, self._new(address, State.NO_FILE, lifetime))
                elif what is Meaning.DENY_ALL:
                    known[address] = self._unreachable(flight, address, self._wait_of(fields))
        except MemoryError:
            known |= self.failed(fetch).known
        step = self._followed(flight, location, known) if flight.redirects else Step(known, None)
        for site in files:
            self._tell_sitemaps(site, before[site.robots_url])
        return step

    def failed(self, fetch: Fetch, was_reached: bool = True) -> Step:
        """What it means that there is no response, or that its request is given up. ``was_reached`` is whether there was a connection to the
        server: not if its name is unknown, or if it refuses connections."""
        flight = fetch.flight
        if was_reached:
            flight.reached = flight.reached.union(flight.redirects)
        return Step({it: self._unreachable(flight, it, None) for it in list(flight.redirects)}, None)

    def verdict(self, site: KnownSite, url: str, user_agent: Agents) -> CacheVerdict:
        """Whether a crawler may fetch a URL of the site. ``user_agent`` is its User-Agent or product token, or a list of several in order of
        precedence: the first that the file names counts, or else ``*``. The verdict is true only if the crawler may fetch the URL."""
        if site.state is State.NO_FILE:
            return CacheVerdict(True)
        if site.state is State.UNREACHABLE:
            return CacheVerdict(_CLOSED.allowed(url, "*"), None, "unreachable")
        try:
            rules = self._memory.rules(site)
            before = rules.learned
            verdict = rules.verdict(url, user_agent)
            if rules.learned != before:
                self._memory.measure(site)
            return verdict
        except MemoryError:
            return OUT_OF_MEMORY

    def delay(self, site: KnownSite, user_agent: Agents) -> float:
        """How many seconds a crawler waits between two requests to the site, or 0.0 if its file asks for no delay or it has no file. If several
        crawlers have been asked about, it is the longest of their delays."""
        if site.state is State.FILE:
            try:
                site.longest_delay = max(site.longest_delay, self._memory.rules(site).delay(user_agent))
            except MemoryError:
                pass  # then nothing is fetched either
        return site.longest_delay

    def next_request(self, site: KnownSite, user_agent: Agents, longest: float = 60) -> float:
        """In how many seconds the next request to the site may go: 0.0 if now, else as long after the one before as the file asks for, but at
        most ``longest`` seconds. The request counts as made at that time, so call this once for each request, before it.

        A turn can't be given back. If a task may be cancelled while it waits, let one task at a time wait for a site, for as long as
        `until_next_request` says, and call this after that."""
        now, delay = self._clock(), min(self.delay(site, user_agent), longest)
        moment = max(now, self._turns.pop(site.robots_url, 0.0))
        if len(self._turns) >= self._turns_kept:
            self._turns = {address: turn for address, turn in self._turns.items() if turn > now}
            self._turns_kept = max(_TURNS_KEPT, 2 * len(self._turns))
        if delay:
            self._turns[site.robots_url] = moment + delay
        return moment - now

    def until_next_request(self, site: KnownSite) -> float:
        """In how many seconds the next request to the site may go, by the calls of `next_request` for it: 0.0 if now. It uses no turn."""
        turn = self._turns.get(site.robots_url)
        return 0.0 if turn is None else max(0.0, turn - self._clock())

    def close(self) -> None:
        """Writes what isn't in the database yet, and closes it: nothing is kept there from now on. Without this, the last second may be missing."""
        if self._disk:
            self._disk.close()

    @property
    def memory(self) -> int:
        """How many bytes of memory the sites take, with the requests that have no answer yet."""
        return self._memory.taken + len(self._flights) * _FLIGHT_BYTES

    @property
    def in_flight(self) -> int:
        """How many sites wait for the answer to a request that was given out."""
        return len(self._flights)

    def __len__(self) -> int:
        """How many sites are in memory."""
        return len(self._memory.sites)

    def __enter__(self) -> RobotsCache:
        return self

    def __exit__(self, *error: object) -> None:
        self.close()

    def __repr__(self) -> str:
        reading = ", reading='rfc9309'" if self._by_rfc9309 else ""
        return f"<{type(self).__name__} of {len(self)} sites{reading}>"

    def __reduce__(self) -> NoReturn:
        raise TypeError("a RobotsCache can't be pickled or copied: name a database, which several processes may share")

    # ---- requests

    def _due(self, address: str, site: KnownSite | None, now: float) -> Look:
        """What to do for a site whose file is to be asked for, unless another process does so, or has done it."""
        if self._disk:
            is_ours, record = self._disk.claim(address, now, now + self._answer_within), self._disk.get(address)
            if record and now < record.refresh:
                if is_ours:
                    self._disk.release(address)
                return Look(Action.USE, address, self._read(KnownSite.of(record)))
            if not is_ours:
                return Look(Action.USE, address, site) if site and site.counts(now) else Look(Action.WAIT, address, again=_LOOK_AGAIN)
        flight = Flight(now, now + self._answer_within)
        self._join(flight, address, 0, site)
        fetch = self._fetch(address, flight)
        if site and site.counts(now):
            return Look(Action.REFRESH, address, site, fetch)
        return Look(Action.FETCH, address, None, fetch, self._answer_within)

    def _give_up(self, now: float, asked: Flight | None) -> None:
        """Counts requests as failed that have had no answer for too long: that for the site that is asked about, and the oldest ones, of which
        one may last longer than a younger one, if a redirect has been followed or the clock been set."""
        while self._flights:
            flight = asked if asked and asked.redirects and asked.until <= now else next(iter(self._flights.values()))
            if now < flight.until:
                return
            self._counted("unanswered")
            for address in list(flight.redirects):
                self._unreachable(flight, address, None)

    def _join(self, flight: Flight, address: str, redirects: int, before: KnownSite | None) -> None:
        flight.redirects[address], flight.before[address] = redirects, before
        self._flights[address] = flight

    def _fetch(self, address: str, flight: Flight) -> Fetch:
        """The request. A version that is known is named where it is from, if no site waits for more than to hear that it is still that."""
        headers = {"Accept-Encoding": "identity"}
        versions = {it.etag if it and it.state is State.FILE and it.source == address else "" for it in flight.before.values()}
        if len(versions) == 1 and "" not in versions:
            headers["If-None-Match"] = versions.pop()
        return Fetch(address, headers, flight)

    def _followed(self, flight: Flight, address: str, known: dict[str, KnownSite]) -> Step:
        """What comes after a redirect to this address, for the sites that are in the flight. Where the address is that of a site's file, that
        one is in it too, and what is known of it, or is on its way, counts for all of them."""
        now = self._clock()
        flight.until = now + self._answer_within
        for it in flight.redirects:
            flight.redirects[it] += 1
        if address in flight.redirects or robots_url(address) != address:
            return Step(known, self._fetch(address, flight))
        other, site = self._flights.get(address), self._known(address, now)
        if other:
            for it, redirects in flight.redirects.items():
                self._join(other, it, redirects, flight.before[it])
            other.reached |= flight.reached
            flight.redirects, flight.before = {}, {}  # nothing waits for this one any more
            return Step(known, None)
        if site and now < site.refresh:
            for it in list(flight.redirects):
                if site.state is State.UNREACHABLE:
                    known[it] = self._unreachable(flight, it, site.refresh)
                else:
                    known[it] = self._settled(flight, site.copy(it))
            return Step(known, None)
        self._join(flight, address, 0, site)
        return Step(known, self._fetch(address, flight))

    def _settled(self, flight: Flight, site: KnownSite) -> KnownSite:
        """Keeps what a flight found out of a site."""
        del flight.redirects[site.robots_url], flight.before[site.robots_url], self._flights[site.robots_url]
        self._memory.keep(site)
        if self._disk:
            self._disk.put(site.record(), is_last=not self._flights)
        return site

    def _lifetime_of(self, fields: dict[str, str]) -> float:
        """For how many seconds a response counts."""
        said = max_age(fields)
        return self._lifetime if said is None else min(self._lifetime, max(said, _LEAST_LIFETIME))

    def _new(self, address: str, state: State, lifetime: float) -> KnownSite:
        expires = self._clock() + lifetime
        return KnownSite(address, state, expires, expires - min(_AN_HOUR, lifetime / 2))

    def _with_file(self, flight: Flight, address: str, packed: bytes, source: str, etag: str, lifetime: float) -> KnownSite:
        site = self._new(address, State.FILE, lifetime)
        site.packed, site.source = packed, address if source == address else source
        site.etag = etag if len(etag) <= _ETAG_LIMIT and etag.isascii() and etag.isprintable() else ""
        site.rules = self._memory.parse(packed)
        return self._settled(flight, site)

    def _renewed(self, flight: Flight, address: str, before: KnownSite, lifetime: float) -> KnownSite:
        """A site whose file is still the one that was known before, for it or another site."""
        self._counted("not_modified")
        site, fresh = before.copy(address), self._new(address, State.FILE, lifetime)
        site.expires, site.refresh, site.failing_since, site.failures = fresh.expires, fresh.refresh, 0.0, 0
        return self._settled(flight, site)

    def _unreachable(self, flight: Flight, address: str, refresh: float | None) -> KnownSite:
        """A site whose server fails: what was known of it before counts on, if it still can. It is asked again at this time at the earliest."""
        before, now = flight.before[address], self._clock()
        failures = 1 + (before.failures if before else 0)
        usual = now + min(self._retry, _FIRST_RETRY * 2.0 ** min(failures - 1, 40)) * (1 + self._chance() / 10)
        refresh = usual if refresh is None else max(refresh, usual if failures > 2 else 0.0)
        if before and before.packed:
            self._counted("stale")
            site = before.copy(address)
            site.state = State.FILE
        elif before and before.counts(refresh):
            site = before.copy(address)
        else:
            site = KnownSite(address, State.UNREACHABLE, refresh, refresh)
        site.refresh, site.failures, site.failing_since = refresh, failures, (before and before.failing_since) or now
        site.was_reached = address in flight.reached or bool(before and before.was_reached)
        if now - site.failing_since >= _30_DAYS and self._after_30_days != "last file":
            site.state = State.NO_FILE if self._after_30_days == "no file" else State.UNREACHABLE
            site.expires = max(refresh, now + self._lifetime)
        return self._settled(flight, site)

    def _wait_of(self, fields: dict[str, str]) -> float | None:
        """When a server that fails says that it is to be asked again."""
        now = self._clock()
        seconds = seconds_of(fields["retry-after"], now) if "retry-after" in fields else None
        return None if seconds is None else now + min(seconds if seconds > 0 else min(_FIRST_RETRY, self._retry), self._lifetime)

    def _tell_sitemaps(self, site: KnownSite, before: KnownSite | None) -> None:
        """Tells of the sitemaps of a file, unless those of the file before were the same."""
        if not self._found:
            return
        try:
            sitemaps = self._memory.rules(site).sitemaps
            old = before if sitemaps and before and before.state is State.FILE else None
            if sitemaps and not (old and (old.packed == site.packed or self._memory.parse(old.packed).sitemaps == sitemaps)):
                self._found(site.robots_url, sitemaps)
        except MemoryError:
            pass

    # ---- what is known

    def _known(self, address: str, now: float) -> KnownSite | None:
        """The site, from memory, or else from the database."""
        site = self._memory.get(address)
        if site is None and self._disk:
            self._disk.write_if_due()
            record = self._disk.get(address)
            site = self._read(KnownSite.of(record)) if record else None
        if site is not None:
            latest = now + self._longest  # a clock that was wrong makes no file count for longer
            if site.expires > latest or site.refresh > latest:
                site.expires, site.refresh = min(site.expires, latest), min(site.refresh, latest)
        return site

    def _read(self, site: KnownSite) -> KnownSite:
        """Keeps a site that the database has."""
        self._counted("read")
        before = self._memory.sites.get(site.robots_url)
        self._memory.keep(site)
        if site.state is State.FILE:
            self._tell_sitemaps(site, before)
        return site

    def _counted(self, name: str) -> None:
        if self._count:
            self._count(name)
        if name == "evicted" and not self._has_evicted and not self._disk:
            self._has_evicted = True
            logger.warning(
                "there are more robots.txt files than fit into the budget of memory, so some are fetched again and again: set a larger one"
                " (budget, or TEXTING_ROBOTS_BUDGET), or name a file to keep them (database, or TEXTING_ROBOTS_DATABASE)"
            )
