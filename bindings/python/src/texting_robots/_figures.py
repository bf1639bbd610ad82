"""What a crawl by Scrapy knows of robots.txt files, as figures."""

from __future__ import annotations

import logging
import time
from collections.abc import Callable, Iterable
from typing import Any

from scrapy import signals
from twisted.internet.task import LoopingCall

from .cache import KnownSite

logger = logging.getLogger(__name__)


class Figures:
    """Puts figures into the stats, as often as Scrapy logs its own and at the end, and one line into the log if there is an outage."""

    def __init__(self, crawler: Any, waiting: Callable[[], int], in_flight: Callable[[], int]) -> None:
        self._crawler, self._waiting, self._in_flight = crawler, waiting, in_flight
        self._outages: dict[str, float] = {}  # since when; the oldest is the first
        self._interval = crawler.settings.getfloat("LOGSTATS_INTERVAL")
        self._call: Any = None
        crawler.signals.connect(self._spider_opened, signals.spider_opened)

    def known(self, sites: Iterable[KnownSite]) -> None:
        """Notes which of these sites fail."""
        for site in sites:
            if not site.is_failing:
                self._outages.pop(site.robots_url, None)
            else:
                self._outages.setdefault(site.robots_url, site.failing_since)

    def write(self) -> None:
        """Writes the figures."""
        waiting, oldest = self._waiting(), min(self._outages.values(), default=None)
        figures = {"waiting": waiting, "in_flight": self._in_flight(), "outages": len(self._outages)}
        figures["oldest_outage_seconds"] = 0 if oldest is None else int(time.time() - oldest)
        for name, value in figures.items():
            self._crawler.stats.set_value(f"robotstxt/{name}", value)
        if self._outages:
            text = "robots.txt files that can't be fetched: %d, the first for %d s; requests that wait: %d; files that are being fetched: %d"
            words = figures["outages"], figures["oldest_outage_seconds"], waiting, figures["in_flight"]
            logger.info(text, *words, extra={"spider": self._crawler.spider})

    def close(self) -> None:
        """Writes them for the last time."""
        if self._call and self._call.running:
            self._call.stop()
        self.write()

    def _spider_opened(self) -> None:
        if self._interval:
            self._call = LoopingCall(self.write)
            self._call.start(self._interval, now=False)
