"""Crawls sites by Scrapy in one process: python crawl.py < CRAWLS, a JSON list of [URL, SETTINGS]."""

import contextlib
import ctypes
import itertools
import json
import resource
import sys
import time

import scrapy
from scrapy.core.downloader.handlers.http11 import HTTP11DownloadHandler
from scrapy.crawler import CrawlerProcess

from texting_robots.middleware import sitemaps_found
from texting_robots.scrapy import RobotParser


LARGE = 1 << 16
LIBC = ctypes.PyDLL(None)
malloc, free = LIBC.malloc, LIBC.free
malloc.argtypes, malloc.restype = [ctypes.c_size_t], ctypes.c_void_p
free.argtypes, free.restype = [ctypes.c_void_p], None


@contextlib.contextmanager
def no_more_memory():
    """The process gets no more memory than it has, and what it has free is taken in blocks, down to those of 64 kB."""
    before = resource.getrlimit(resource.RLIMIT_AS)
    resource.setrlimit(resource.RLIMIT_AS, (0, before[1]))
    taken, length = [], LARGE << 12
    while length >= LARGE:
        if block := malloc(length):
            taken.append(block)
        else:
            length //= 2
    try:
        yield
    finally:
        for block in taken:
            free(block)
        resource.setrlimit(resource.RLIMIT_AS, before)


class WithoutMemoryToParse(RobotParser):
    @classmethod
    def from_crawler(cls, crawler, robotstxt_body):
        body = bytearray(robotstxt_body)  # which the parser copies
        with no_more_memory() if body else contextlib.nullcontext():
            return super().from_crawler(crawler, body)


class WithoutMemoryToDecide(RobotParser):
    def allowed(self, url, user_agent):
        with no_more_memory():
            return super().allowed(url, user_agent)


class Stamped(HTTP11DownloadHandler):
    """Tells the server when a request is sent."""

    def download_request(self, request, *words):
        request.headers["Sent"] = str(time.monotonic())
        return super().download_request(request, *words)


class Spider(scrapy.Spider):
    """Follows all links, and if a setting says so, with a slot of its own for each request, or with one for all."""

    name = "small_site"
    numbers = itertools.count()

    def parse(self, response):
        for link in response.css("a"):
            slot = {"download_slot": f"slot {next(self.numbers)}"} if self.settings.getbool("SLOTS_APART") else {}
            slot |= {"download_slot": self.settings["ONE_SLOT"]} if self.settings["ONE_SLOT"] else {}
            yield response.follow(link, self.parse, meta=slot)

    def log_sitemaps(self, sitemaps, robots_url, spider):
        self.logger.warning("%s has %s", robots_url, sitemaps)

    @classmethod
    def from_crawler(cls, crawler, **words):
        spider = super().from_crawler(crawler, **words)
        crawler.signals.connect(spider.log_sitemaps, sitemaps_found)
        return spider


SETTINGS = {"LOG_LEVEL": "WARNING", "TELNETCONSOLE_ENABLED": False, "RETRY_ENABLED": False, "ROBOTSTXT_OBEY": True}
process = CrawlerProcess(SETTINGS | {"DOWNLOAD_HANDLERS": {"http": Stamped}})
for url, settings in json.load(sys.stdin):
    process.crawl(type("OneSpider", (Spider,), {"custom_settings": settings}), start_urls=[url])
process.start()
