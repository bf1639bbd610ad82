"""Protego's class over this library: ``from texting_robots.protego import Protego`` in place of ``from protego import Protego``."""

from __future__ import annotations

import re
from collections.abc import Iterator
from typing import TYPE_CHECKING, Final

from ._calls import Reading
from ._facade import File, RequestRate, VisitTime
from ._robots import Site

if TYPE_CHECKING:
    from typing_extensions import Self

__all__ = ["Protego", "RequestRate", "VisitTime"]

_HOST: Final = re.compile(rb"(?i)(?<![^\r\n\0])[ \t]*host[ \t]*:([^#\r\n\0]*)")


class Protego:
    """A robots.txt file with the interface of `protego.Protego`, and the verdicts of this library.

    A ``user_agent`` may be a whole one, of which the name at the front counts, and isn't looked for elsewhere in it: with its version, as
    ``FerrisBot/1.0``, if a line of the file is for just that, or else the product token. ``site`` is the same file as a `Site`, which
    says more, such as the line that decides. Set ``reading`` to ``"rfc9309"`` for the verdicts of that standard.
    """

    def __init__(self) -> None:
        self._file = File(b"")

    @classmethod
    def parse(cls, content: str | bytes) -> Self:
        """A new instance for a file, whose bytes are best: a ``str`` has lost those that aren't UTF-8."""
        made = cls()
        made._file = File(content, made.reading)
        return made

    @property
    def site(self) -> Site:
        """The file as a `Site`."""
        return self._file.robots

    @property
    def reading(self) -> Reading:
        """How the file is read, as in `Site`."""
        return self._file.robots.reading

    @reading.setter
    def reading(self, reading: Reading) -> None:
        self._file = File(self._file.body, reading)

    def can_fetch(self, url: str, user_agent: str) -> bool:
        """Whether the crawler may fetch the URL: not if the file can't be used for it, as a rule is too long."""
        return self._file.allowed(url, user_agent)

    def crawl_delay(self, user_agent: str) -> float | None:
        """How many seconds the crawler waits between two requests, or None."""
        return self._file.delay(user_agent)

    def request_rate(self, user_agent: str) -> RequestRate | None:
        """The first Request-rate for the crawler, such as ``10/1m`` or ``1/5s 0600-0845``, or None."""
        return self._file.request_rate(user_agent)

    def visit_time(self, user_agent: str) -> VisitTime | None:
        """The first Visit-time for the crawler, such as ``0600-0845``, or None."""
        return self._file.visit_time(user_agent)

    @property
    def sitemaps(self) -> Iterator[str]:
        """The sitemaps, in the file's order, without empty ones."""
        return filter(None, self._file.robots.sitemaps)

    @property
    def preferred_host(self) -> str | None:
        """What the last Host line says, or None."""
        hosts = [value.strip() for value in _HOST.findall(self._file.body)]
        return next((host.decode("utf-8", "replace") for host in reversed(hosts) if host), None)
