"""A parser for Scrapy: ``ROBOTSTXT_PARSER = "texting_robots.scrapy.RobotParser"`` in the settings of a project."""

from __future__ import annotations

import logging
from typing import Any, ClassVar, Final

from scrapy.robotstxt import RobotParser as ScrapyRobotParser

from . import Reading, product_token
from ._rules import COST_LIMIT, OUT_OF_MEMORY, CacheVerdict, Rules

logger = logging.getLogger(__name__)

_MIDDLEWARES: Final = {
    "scrapy.downloadermiddlewares.robotstxt.RobotsTxtMiddleware": None,
    "texting_robots.middleware.RobotsMiddleware": 100,
}
NO_TOKEN = "User-Agent %r: the group of this crawler isn't found in a robots.txt file, unless ROBOTSTXT_USER_AGENT is its product token"


class RobotParser(ScrapyRobotParser):
    """Parses the file's bytes as received, so that damaged files keep their rules. If a file can't be used, nothing is fetched, nor if an
    allocation fails, or if a verdict might take more than ``TEXTING_ROBOTS_COST`` comparisons. With ``TEXTING_ROBOTS_READING = "rfc9309"``
    files are read as that standard does (see `texting_robots.Site`). If a setting is no such value, nothing is fetched, with a warning.

    The crawler goes by the product token at the front of its User-Agent. One that begins with ``Mozilla/5.0`` sets
    ``ROBOTSTXT_USER_AGENT`` to its own; otherwise it gets the rules for ``*``, and a warning.
    """

    _has_warned: ClassVar[bool] = False

    def __init__(self, robotstxt_body: bytes, spider: Any = None, cost_limit: int = COST_LIMIT, reading: Reading = "crate") -> None:
        self._rules = Rules(robotstxt_body, cost_limit, reading)
        self._spider = spider
        self._agent: str | bytes = ""  # the User-Agent that was asked about last, and
        self._name = ""  # the same as a text
        self._warned: set[str] = set()

    @classmethod
    def from_crawler(cls, crawler: Any, robotstxt_body: bytes) -> RobotParser:
        """The parser of a file. After an error here Scrapy would fetch everything from the site."""
        spider = crawler.spider if crawler else None
        try:
            if not crawler:
                return cls(robotstxt_body, spider)
            settings = crawler.settings
            cost_limit = settings.getint("TEXTING_ROBOTS_COST", COST_LIMIT)
            return cls(robotstxt_body, spider, cost_limit, settings.get("TEXTING_ROBOTS_READING", "crate"))
        except MemoryError:
            _warn(spider, "a robots.txt file can't be parsed, out of memory: nothing is fetched from its site")
        except ValueError as error:
            _warn(spider, "a robots.txt file can't be parsed, as a setting is wrong: %s: nothing is fetched from its site", error)
        return _CLOSED

    def allowed(self, url: str | bytes, user_agent: str | bytes) -> bool:
        """Whether the crawler may fetch the URL. ``user_agent`` is the whole User-Agent, or a product token."""
        try:
            if type(user_agent) is not type(self._agent) or user_agent != self._agent:
                self._meet(user_agent)
            verdict = self._rules.verdict(url if type(url) is str else _text(url), self._name)
            if verdict.problem:
                self._warn_of(verdict, url)
            return verdict.allowed
        except MemoryError:
            _warn(self._spider, "robots.txt for %s: out of memory: it isn't fetched", url)
            return False

    def delay(self, user_agent: str | bytes) -> float:
        """How many seconds the crawler waits between two requests, or 0 if the file doesn't say."""
        return self._rules.delay(_text(user_agent))

    @property
    def sitemaps(self) -> list[str]:
        """The sitemaps, as the file has them."""
        return self._rules.sitemaps

    @property
    def memory(self) -> int:
        """How many bytes of memory the file takes."""
        return self._rules.memory

    def _meet(self, user_agent: str | bytes) -> None:
        """Takes another User-Agent for that of the crawler."""
        self._name = _text(user_agent)
        warn_of_browser(self._name, self._spider)
        self._agent = user_agent if type(user_agent) in (str, bytes) else ""  # another type may have its own equality

    def _warn_of(self, verdict: CacheVerdict, url: str | bytes) -> None:
        if verdict is OUT_OF_MEMORY:
            raise MemoryError
        token = product_token(self._name)
        if token not in self._warned:
            self._warned.add(token)
            _warn(self._spider, "robots.txt for %s: %s, %s: nothing is fetched", _text(url), token, verdict.problem)


class _Closed(RobotParser):
    """The parser of a file that there is no memory for. Nothing is fetched."""

    def __init__(self) -> None:
        super().__init__(b"")

    def allowed(self, url: str | bytes, user_agent: str | bytes) -> bool:
        return False


class RobotsAddon:
    """An add-on for Scrapy 2.10 and later, which puts `texting_robots.middleware.RobotsMiddleware` in the place of Scrapy's own, and obeys
    robots.txt files::

        ADDONS = {"texting_robots.scrapy.RobotsAddon": 100}

    It is tested by a stand-in for such a version, and hasn't been tried with one.
    """

    def update_settings(self, settings: Any) -> None:
        """Changes the settings of a project, which its own go before."""
        settings.set("ROBOTSTXT_OBEY", True, priority="addon")
        middlewares = settings["DOWNLOADER_MIDDLEWARES"]
        for path, place in _MIDDLEWARES.items():
            if path not in middlewares:
                middlewares[path] = place


_CLOSED = _Closed()  # made in advance, as it can't be made without memory


def warn_of_browser(user_agent: str, spider: Any) -> None:
    """Warns once of a User-Agent like a browser's, in which there is no product token."""
    if user_agent.lstrip().startswith("Mozilla/") and not RobotParser._has_warned:
        RobotParser._has_warned = True
        _warn(spider, NO_TOKEN, user_agent)


def _text(text: str | bytes) -> str:
    return text if isinstance(text, str) else text.decode("utf-8", "replace")


def _warn(spider: Any, message: str, *words: object) -> None:
    """Logs a warning, if there is memory for one: what it is about mustn't depend on it."""
    try:
        logger.warning(message, *words, extra={"spider": spider})
    except MemoryError:
        pass
