"""The class of urllib.robotparser over this library: ``from texting_robots.robotparser import RobotFileParser``."""

from __future__ import annotations

import http.client
import urllib.error
import urllib.request
from collections.abc import Iterable
from urllib.robotparser import RequestRate
from urllib.robotparser import RobotFileParser as UrllibParser

from ._calls import FILE_LIMIT, Reading
from ._contents import unpacked
from ._facade import File
from ._responses import Meaning, meaning
from ._robots import Site

__all__ = ["RequestRate", "RobotFileParser"]


class RobotFileParser(UrllibParser):
    """A robots.txt file with the interface of `urllib.robotparser.RobotFileParser`, and the verdicts of this library.

    A ``useragent`` may be a whole one, of which the name at the front counts: with its version, as ``FerrisBot/1.0``, if a line of the file
    is for just that, or else the product token. ``site`` is the same file as a `Site`, which says more, such as the line that decides. Set
    ``reading`` to ``"rfc9309"`` for the verdicts of that standard.
    """

    url: str

    def __init__(self, url: str = "") -> None:
        super().__init__(url)
        self._file = File(b"")

    @property
    def site(self) -> Site:
        """The file as a `Site`."""
        return self._file.robots

    @property
    def reading(self) -> Reading:
        """How this file and later ones are read, as in `Site`."""
        return self._file.robots.reading

    @reading.setter
    def reading(self, reading: Reading) -> None:
        self._file = File(self._file.body, reading)

    def read(self) -> None:
        """Fetches the file, of which the first 512,000 bytes count. Without one, after a status 4xx, everything is allowed, but after 401
        or 403, as in urllib, denied. After 429 or 5xx, and after an error, it is as before: if no file was read yet, everything is denied.

        It raises an OSError or an HTTPException if there is no response, or a body that is cut or can't be unpacked. As in urllib, up to ten
        redirects are followed, and no timeout holds but that of `socket.setdefaulttimeout`.
        """
        try:
            response = urllib.request.urlopen(self.url)
        except urllib.error.HTTPError as error:
            error.close()
            if meaning(error.code) is Meaning.ALLOW_ALL:
                self.disallow_all = error.code in (401, 403)
                self.allow_all = not self.disallow_all
            return
        with response:
            body = response.read(FILE_LIMIT)
            missing = getattr(response, "length", 0) if len(body) < FILE_LIMIT else 0
            encoding = response.headers.get("Content-Encoding") or "identity"
        if missing:
            raise http.client.IncompleteRead(body, missing)
        plain = unpacked(body, encoding)
        if plain is None:
            raise urllib.error.URLError(f"the file is encoded as {encoding}, which wasn't asked for")
        self.disallow_all = self.allow_all = False
        self.parse(plain.split(b"\n"))

    def parse(self, lines: Iterable[str | bytes]) -> None:
        """Parses the lines of a file, each with or without its end. They take the place of those that were parsed before."""
        if isinstance(lines, (str, bytes)):
            raise TypeError("lines has to be several str or bytes, such as text.splitlines(), and not one")
        encoded = (line.encode("utf-8", "surrogateescape") if isinstance(line, str) else line for line in lines)
        self._file = File(b"\n".join(line.rstrip(b"\r\n") for line in encoded), self.reading)
        self.sitemaps = self._file.robots.sitemaps
        self.modified()

    def can_fetch(self, useragent: str, url: str) -> bool:
        """Whether the crawler may fetch the URL: not before a file was read, or if it can't be used for the crawler, as a rule is too
        long."""
        if self.disallow_all or self.allow_all:
            return not self.disallow_all
        return bool(self.mtime()) and self._file.allowed(url, useragent)

    def crawl_delay(self, useragent: str) -> float | None:  # type: ignore[override]  # for typeshed it is a str
        """How many seconds the crawler waits between two requests, or None."""
        return self._file.delay(useragent)

    def request_rate(self, useragent: str) -> RequestRate | None:
        """The first Request-rate for the crawler, such as ``1/5`` or ``10/1m``, or None. A time of day after it doesn't count."""
        rate = self._file.request_rate(useragent)
        return RequestRate(rate.requests, rate.seconds) if rate else None

    def __str__(self) -> str:
        """The groups of the file, as urllib reads it."""
        parser = UrllibParser()
        parser.parse(self._file.body.decode("utf-8", "replace").splitlines())
        return str(parser)
