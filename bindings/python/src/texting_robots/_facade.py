"""What `robotparser` and `protego` share: the name of a crawler in its User-Agent, and the lines that the library itself ignores."""

from __future__ import annotations

import re
from collections.abc import Callable
from datetime import time
from typing import Final, Generic, NamedTuple, TypeVar

from ._calls import FILE_LIMIT, Reading
from ._errors import AgentError, OverlongRuleError
from ._names import product_token
from ._robot import Robot
from ._robots import Site

T = TypeVar("T")
_NAMES_KEPT: Final = 1000

_VERSIONED: Final = re.compile(r"\s*([^\s/(),;:]+/[^\s/(),;:]+)")
_URL: Final = re.compile(r"\s*(?:/|[A-Za-z][A-Za-z0-9+.-]*://)")
_LINE: Final = rb"(?i)(?:\A\xef?\xbb?\xbf?|(?<=[\r\n\0]))[ \t]*(crawl[- ]?delay|%s)[ \t]*[: \t]([^#\r\n\0]*)"
_RATE: Final = re.compile(r"([1-9][0-9]{0,8})\s*/\s*([1-9][0-9]{0,8})\s*([smhd]?)(?:\s+(\S.*))?", re.I)
_SECONDS: Final = {"": 1, "s": 1, "m": 60, "h": 3_600, "d": 86_400}
_PERIOD: Final = re.compile(r"([0-9]{2}):?([0-9]{2})(?:\s*-\s*|\s+)([0-9]{2}):?([0-9]{2})")


class RequestRate(NamedTuple):
    """At most so many requests in so many seconds, at any time or between two times of a day."""

    requests: int
    seconds: int
    start_time: time | None
    end_time: time | None


class VisitTime(NamedTuple):
    """The times of a day between which a crawler may come."""

    start_time: time
    end_time: time


def _visit_time(value: str) -> VisitTime | None:
    """What a value such as ``0600-0845`` means, or None for another."""
    period = _PERIOD.fullmatch(value)
    if not period:
        return None
    hours, minutes, last_hours, last_minutes = map(int, period.groups())
    try:
        return VisitTime(time(hours, minutes), time(last_hours, last_minutes))
    except ValueError:
        return None


def _request_rate(value: str) -> RequestRate | None:
    """What a value such as ``1/5``, ``10/1m`` or ``1/5s 0600-0845`` means, or None for another."""
    rate = _RATE.fullmatch(value)
    period = _visit_time(rate[4]) if rate and rate[4] else None
    if not rate or (rate[4] and not period):
        return None
    return RequestRate(int(rate[1]), int(rate[2]) * _SECONDS[rate[3].lower()], *(period or (None, None)))


class _Values(Generic[T]):
    """What the lines with a field say to each crawler, as their function reads the values. Lines whose value isn't one don't count.

    The library finds the line for a crawler: in a copy of the file, where each has its number as a Crawl-delay. The file's own
    delays become lines that say nothing and end a list of names as they do.
    """

    def __init__(self, body: bytes, field: bytes, read: Callable[[str], T | None]) -> None:
        self._values: list[T] = []

        def numbered(line: re.Match[bytes]) -> bytes:
            if line[1].lower().startswith(b"crawl"):
                return b"Allow:"
            value = read(line[2].decode("utf-8", "replace").strip())
            if value is None:
                return b""
            self._values.append(value)
            return b"Crawl-delay:%d" % (len(self._values) - 1)

        self._robots = Site(re.sub(_LINE % field, numbered, body))

    def value(self, name: bytes) -> T | None:
        microseconds = self._robots._site.delay(name)
        return None if microseconds is None else self._values[microseconds // 1_000_000]


class File:
    """A robots.txt file that is asked about whole User-Agents."""

    def __init__(self, body: bytes | str, reading: Reading = "crate") -> None:
        encoded = body.encode("utf-8", "surrogateescape") if isinstance(body, str) else body
        self.robots = Site(encoded, reading)
        self.body = bytes(encoded)[:FILE_LIMIT]
        self._names: dict[str, bytes] = {}
        self._kept: dict[str, Robot] = {}
        self._rates: _Values[RequestRate] | None = None
        self._times: _Values[VisitTime] | None = None

    def __getstate__(self) -> dict[str, object]:
        """A robot can't be pickled, and is opened again."""
        return self.__dict__ | {"_kept": {}}

    def allowed(self, url: str, user_agent: str) -> bool:
        """Whether the crawler may fetch the URL: not if the file can't be used for it."""
        try:
            return ((type(user_agent) is str and self._kept.get(user_agent)) or self._robot(user_agent)).allowed(url)
        except OverlongRuleError:
            return False

    def delay(self, user_agent: str) -> float | None:
        microseconds = self.robots._site.delay(self._name(user_agent))
        return None if microseconds is None else microseconds / 1_000_000

    def request_rate(self, user_agent: str) -> RequestRate | None:
        if self._rates is None:
            self._rates = _Values(self.body, rb"request[- ]rate", _request_rate)
        return self._rates.value(self._name(user_agent))

    def visit_time(self, user_agent: str) -> VisitTime | None:
        if self._times is None:
            self._times = _Values(self.body, rb"visit[- ]time", _visit_time)
        return self._times.value(self._name(user_agent))

    def _robot(self, user_agent: str) -> Robot:
        """What the file says to a crawler. It is kept, since a crawler has one User-Agent, unless that is a `str` with its own equality."""
        robot = self.robots._site.open_robot(self._name(user_agent))
        if type(user_agent) is str:
            if len(self._kept) >= _NAMES_KEPT:
                self._kept.clear()
            self._kept[user_agent] = robot
        return robot

    def _name(self, user_agent: str) -> bytes:
        """What the file calls a crawler, which is kept, too."""
        if type(user_agent) is not str:
            return _name_in(self.robots, user_agent)
        name = self._names.get(user_agent)
        if name is None:
            if len(self._names) >= _NAMES_KEPT:
                self._names.clear()
            name = self._names[user_agent] = _name_in(self.robots, user_agent)
        return name


def _name_in(robots: Site, user_agent: str) -> bytes:
    """The first name in a User-Agent that a line of the file is for: with its version, or all before a slash, as for a name with a space; or
    else the product token."""
    token = product_token(user_agent)
    if _URL.match(user_agent):
        raise AgentError(f"{user_agent!r} is a URL in the place of a User-Agent: are the arguments in the other order?")
    versioned = _VERSIONED.match(user_agent)
    names = [versioned[1]] if versioned else []
    names.append(user_agent.partition("/")[0].strip())
    return next(filter(robots._site.is_named, map(str.encode, names)), token.encode())
