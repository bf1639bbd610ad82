"""What is known of a site, and what is to do for it: the values that `texting_robots.cache` gives to its callers."""

from __future__ import annotations

import enum
from typing import Final, NamedTuple

from ._disk import Record
from ._rules import Rules

_NONE: Final[frozenset[str]] = frozenset()
_SITE_BYTES: Final = 740  # of a site without its file; measured, with what is lost between objects


class State(enum.Enum):
    """What is known of a site: it has a file, it has none, or that can't be found out now, and then nothing may be fetched."""

    FILE = 1
    NO_FILE = 2
    UNREACHABLE = 3


class Action(enum.Enum):
    """What to do for a URL.

    - ``USE``: decide by what is known of its site.
    - ``REFRESH``: decide by that, but it is time to make the request of `Look.fetch`, too.
    - ``FETCH``: make the request of `Look.fetch`. Nothing can be decided before it is answered.
    - ``WAIT``: a request for the site was given out before, here or to another process. Nothing can be decided before it is answered.
    """

    USE = "use"
    REFRESH = "refresh"
    FETCH = "fetch"
    WAIT = "wait"


class KnownSite:
    """What is known of a site.

    ``robots_url`` is the address of its robots.txt file, and ``state`` is what is known. Until ``expires`` the file is in force, and from
    ``refresh`` on it is fetched again. ``failing_since`` is when its server failed first, if it has failed ever since, or else 0.0, and
    ``failures`` how often it has failed since then; as long as it fails, a file that it gave before stays in force. All times are seconds
    since 1970. ``was_reached`` is whether there was ever a connection to its server.

    The other attributes are for the cache: ``packed`` is the file, compressed, ``source`` the address that it came from at last, after
    redirects, and ``etag`` its version there; ``rules`` is the parsed file, as long as there is room for it, and ``rules_memory`` how many
    bytes that takes; ``longest_delay`` is the longest delay of the crawlers that have been asked about. Sitemaps come by the cache's
    ``found``.
    """

    __slots__ = (
        "__weakref__", "etag", "expires", "failing_since", "failures", "longest_delay", "packed", "refresh", "robots_url", "rules",
        "rules_memory", "source", "state", "was_reached",
    )  # fmt: skip

    def __init__(self, robots_url: str, state: State, expires: float, refresh: float) -> None:
        self.robots_url, self.state, self.expires, self.refresh = robots_url, state, expires, refresh
        self.failing_since, self.failures, self.was_reached = 0.0, 0, True
        self.source, self.etag = robots_url, ""  # where the file was at last, and its version there
        self.packed = b""  # the file, compressed
        self.rules: Rules | None = None  # the file, parsed, as long as there is room
        self.rules_memory = 0
        self.longest_delay = 0.0  # of the crawlers that were asked about

    @classmethod
    def of(cls, record: Record) -> KnownSite:
        """The site that was kept on disk."""
        site = cls(record.address, State(record.state), record.expires, record.refresh)
        site.failing_since, site.failures, site.was_reached = record.failing_since, record.failures, bool(record.was_reached)
        site.source = site.robots_url if record.source == site.robots_url else record.source
        site.etag, site.packed = record.etag, record.packed
        return site

    def record(self) -> Record:
        """What is kept of it on disk."""
        return Record(
            self.robots_url, self.state.value, self.expires, self.refresh, self.failing_since, self.failures, self.was_reached, self.source,
            self.etag, self.packed,
        )  # fmt: skip

    def copy(self, robots_url: str) -> KnownSite:
        """The same of the site with this address. The rules stay what they are."""
        site = KnownSite.of(self.record()._replace(address=robots_url))
        if robots_url == self.robots_url:
            site.rules, site.rules_memory, site.longest_delay = self.rules, self.rules_memory, self.longest_delay
        return site

    @property
    def is_failing(self) -> bool:
        """Whether its server failed when it was asked last."""
        return self.failing_since > 0

    def counts(self, now: float) -> bool:
        """Whether it can be used now, though a newer one may be fetched."""
        return now < self.expires and self.state is not State.UNREACHABLE or self.state is State.FILE and self.failing_since > 0

    @property
    def memory(self) -> int:
        """How many bytes of memory it takes without the rules."""
        return _SITE_BYTES + len(self.packed) + len(self.etag) + (0 if self.source is self.robots_url else len(self.source))

    def __repr__(self) -> str:
        return f"<{type(self).__name__} {self.robots_url}: {self.state.name}>"


class Fetch:
    """A request to make for a site's file: a GET of its ``address`` with these ``headers``, whose redirects aren't followed. It is given to
    the cache with the response."""

    __slots__ = ("address", "flight", "headers")

    def __init__(self, address: str, headers: dict[str, str], flight: Flight) -> None:
        self.address, self.headers, self.flight = address, headers, flight

    def __repr__(self) -> str:
        return f"<{type(self).__name__} {self.address}>"


class Look(NamedTuple):
    """What to do for a URL, the address of its robots.txt file, what is known of its site if that counts, and the request to make.

    For ``WAIT`` and ``FETCH``, who waits for an answer looks again after ``again`` seconds at the latest: then the request counts as failed, or
    another process may have the file.
    """

    action: Action
    robots_url: str
    site: KnownSite | None = None
    fetch: Fetch | None = None
    again: float = 0.0


class Step(NamedTuple):
    """What a response is good for: the sites that are known now, by the addresses of their files, and the next request, if there is one.

    Who waits for one of the sites can go on, even if what is known is that its file can't be reached. A site that isn't known after the
    last request waits for one that was given out for another site, to whose file it was redirected.
    """

    known: dict[str, KnownSite]
    fetch: Fetch | None


class Flight:
    """A file on its way since a time, of which an answer is waited for until another one: for the sites with these addresses, each after so
    many redirects, with what was known of them before; and the sites that have answered already."""

    __slots__ = ("before", "reached", "redirects", "since", "until")

    def __init__(self, since: float, until: float) -> None:
        self.since, self.until = since, until
        self.redirects: dict[str, int] = {}
        self.before: dict[str, KnownSite | None] = {}
        self.reached = _NONE
