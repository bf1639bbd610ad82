"""Fetches URLs as the robots.txt files of their sites allow, by asyncio and aiohttp: python crawl.py --agent FerrisBot < URLS

It is an example of `texting_robots.aio.AsyncRobots`, which needs a function that makes requests, and nothing else: any other library for HTTP
will do. Each URL is one line of the output: the status of its page, or why it isn't fetched. No URL is lost in an outage: its site's file is
asked for again until --patience is over since the site failed first, and the line then says when to come again.
"""

from __future__ import annotations

import argparse
import asyncio
import logging
import sys
import time
from collections import Counter
from collections.abc import Iterable, Mapping

import aiohttp
from yarl import URL

from texting_robots import FILE_LIMIT, product_token, robots_url
from texting_robots.aio import AsyncRobots, Response
from texting_robots.cache import RobotsCache


class Crawler:
    """Visits sites side by side, and the URLs of a site one after another, as far apart as its file asks for."""

    def __init__(self, session: aiohttp.ClientSession, cache: RobotsCache, options: argparse.Namespace) -> None:
        self.session, self.proxy = session, options.proxy
        self.connections = asyncio.Semaphore(options.connections)
        words = {"patience": options.patience, "longest_delay": options.longest_delay}
        self.robots = AsyncRobots(self.file, options.agent, cache, **words)

    async def visit_all(self, urls: Iterable[str]) -> None:
        """Visits all URLs."""
        sites: dict[str, list[str]] = {}
        for url in urls:
            try:
                sites.setdefault(robots_url(as_sent(url)), []).append(url)
            except ValueError:
                print(f"no URL of http or https: {url}")
        await asyncio.gather(*(self.visit_site(address, several) for address, several in sites.items()))

    async def visit_site(self, address: str, urls: list[str]) -> None:
        """Visits the URLs of a site."""
        for url in urls:
            verdict = await self.robots.may(as_sent(url))
            if verdict:
                print(f"{await self.page(url)}: {url}")
            elif verdict.problem == "unreachable":
                print(f"unreachable, again in {max(0, (await self.robots.site(as_sent(url))).refresh - time.time()):.0f} s: {url}")
            else:
                print(f"denied, {verdict.problem or f'line {verdict.line} of {address}'}: {url}")

    async def file(self, address: str, headers: Mapping[str, str]) -> Response:
        """The response to a request for a robots.txt file, of which no more is read than what counts."""
        body, is_complete = bytearray(), True
        async with self.connections, self.get(address, headers) as response:
            try:
                async for part in response.content.iter_chunked(65_536):
                    body += part
                    if len(body) > 2 * FILE_LIMIT:
                        break
            except (aiohttp.ClientError, asyncio.TimeoutError):
                is_complete = False
            return Response(response.status, response.headers, bytes(body), is_complete)

    async def page(self, url: str) -> str:
        """The status of a page, or why there is none."""
        try:
            async with self.connections, self.get(url, {}) as response:
                await response.read()
                return str(response.status)
        except (aiohttp.ClientError, asyncio.TimeoutError, OSError, ValueError) as error:
            return f"failed, {error or type(error).__name__}"

    def get(self, url: str, headers: Mapping[str, str]) -> aiohttp.client._RequestContextManager:
        """A request, whose redirects aren't followed: the cache says which of a file's are, and a page's may be denied."""
        return self.session.get(url, headers=headers, allow_redirects=False, proxy=self.proxy)


def as_sent(url: str) -> str:
    """The URL that aiohttp sends for this one: rules are for URLs as they are sent."""
    return str(URL(url))


def arguments() -> argparse.Namespace:
    parser = argparse.ArgumentParser(description=(__doc__ or "").partition("\n\n")[0])
    parser.add_argument("--agent", required=True, help="the crawler's User-Agent, which begins with its name")
    parser.add_argument("--budget", type=int, default=100_000_000, help="bytes of memory for robots.txt files (%(default)s)")
    parser.add_argument("--connections", type=int, default=100, help="at the same time (%(default)s)")
    parser.add_argument("--database", default="", help="a sqlite3 file that keeps robots.txt files for the next run")
    parser.add_argument("--longest-delay", type=float, default=60, help="seconds to which a file's delay is cut (%(default)s)")
    parser.add_argument("--patience", type=float, default=3600, help="seconds to wait for a site since it failed first (%(default)s)")
    parser.add_argument("--proxy", help="its URL")
    parser.add_argument("--retry", type=float, default=300, help="seconds after which a server that failed is asked again at most (%(default)s)")
    parser.add_argument("--timeout", type=float, default=30, help="seconds to wait for an answer (%(default)s)")
    return parser.parse_args()


async def main() -> None:
    options, events = arguments(), Counter[str]()
    logging.basicConfig(format="%(message)s")

    def count(name: str) -> None:
        events[name] += 1

    cache = RobotsCache(retry=options.retry, budget=options.budget, database=options.database, count=count)
    connector, timeout = aiohttp.TCPConnector(limit=0), aiohttp.ClientTimeout(total=options.timeout)
    headers = {"User-Agent": options.agent}
    print(f"robots.txt files name this crawler {product_token(options.agent)}", file=sys.stderr)
    async with aiohttp.ClientSession(connector=connector, timeout=timeout, headers=headers, auto_decompress=False) as session:
        await Crawler(session, cache, options).visit_all(line.strip() for line in sys.stdin if line.strip())
    print(f"{len(cache)} sites take {cache.memory} bytes; {dict(events)}", file=sys.stderr)
    cache.close()


if __name__ == "__main__":
    asyncio.run(main())
