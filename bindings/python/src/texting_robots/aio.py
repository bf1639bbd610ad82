"""Robots.txt files for crawlers with asyncio, which need one call.

    import asyncio, aiohttp, yarl
    from texting_robots import FILE_LIMIT
    from texting_robots.aio import AsyncRobots, Response

    USER_AGENT = "FerrisBot/1.0 (+https://example.com/bot)"

    async def main():
        options = {"headers": {"User-Agent": USER_AGENT}, "timeout": aiohttp.ClientTimeout(total=30)}
        # two sessions: the first one unpacks pages, and the second one leaves robots.txt files as received
        async with aiohttp.ClientSession(**options) as pages, aiohttp.ClientSession(auto_decompress=False, **options) as files:

            async def get(address, headers):
                async with files.get(address, headers=headers, allow_redirects=False) as response:
                    body = b""
                    async for part in response.content.iter_any():
                        body += part
                        if len(body) > 2 * FILE_LIMIT:  # no more than FILE_LIMIT bytes count, unpacked
                            break
                    return Response(response.status, response.headers, body)

            robots = AsyncRobots(get, USER_AGENT)
            url = str(yarl.URL("https://example.com/"))  # as aiohttp sends it
            if await robots.may(url):
                async with pages.get(url, allow_redirects=False) as response:
                    print(response.status, await response.text())

    asyncio.run(main())

Pass the URL that the HTTP library sends. A rule for ``/private`` doesn't match ``/%70rivate``, but aiohttp sends ``/private`` for both, which
is why the example makes a ``yarl.URL`` of each URL first.

Don't let the HTTP library follow the redirect of a page: its target may be denied, or on another site. Call `AsyncRobots.may` for the target.
"""

from __future__ import annotations

import asyncio
import logging
import re
import socket
from collections.abc import Awaitable, Callable, Mapping
from typing import Final, NamedTuple
from weakref import WeakValueDictionary

from . import AgentError, robots_url
from ._responses import reason_of
from ._rules import names_of
from .cache import Agents, CacheVerdict, Fetch, Headers, KnownSite, RobotsCache, State, Step

__all__ = ["AsyncRobots", "Response"]

logger = logging.getLogger(__name__)

_USER_AGENT: Final = re.compile(r"\s*[^\s/(),;:]+(?:/[^\s/]*)?(?=[\s(),;]|\Z)")
_MISTAKES: Final = (TypeError, NameError, AttributeError, LookupError, AssertionError, ImportError, NotImplementedError)
"""Errors that are rather one of the program's than one of the network."""


class Response(NamedTuple):
    """The response to a request for a robots.txt file: see `texting_robots.cache.RobotsCache.received`.

    ``body`` is as received: either the HTTP library doesn't unpack it, or ``headers`` don't contain ``Content-Encoding`` any more. Its first
    1,024,000 bytes suffice. ``is_complete`` is false if it broke off before its end.
    """

    status: int
    headers: Headers
    body: bytes
    is_complete: bool = True


class AsyncRobots:
    """Decides which URLs a crawler may fetch, and when.

    ``get`` is an async function that makes a GET request for an address with some headers, doesn't follow redirects, and returns a
    `Response`. The headers don't contain a User-Agent, so ``get`` has to send the crawler's. It should give up after some seconds, such as
    30. If it raises an exception, the file can't be fetched.

    ``user_agent`` is that User-Agent, or a list of several names in order of precedence: the first one that a file names counts. It has to
    begin with a name, or it is a `texting_robots.AgentError`. For one that begins with ``Mozilla/5.0``, as a browser's does, pass the crawler's
    name, such as ``"FerrisBot"``: else the rules for ``*`` apply, with a warning.

    ``cache`` is the `texting_robots.cache.RobotsCache` to use, with settings of its own, such as a database. Here it is ``robots.cache``.

    If a site's file can't be fetched, `may` waits for it as long as the next request for it is due within ``patience`` seconds of the first
    one that failed. With 7 seconds it may give up after 5, since the requests are 5, 10, 20 and more seconds apart.

    A file's delay is cut to ``longest_delay`` seconds.

    An `AsyncRobots` belongs to one event loop. A task that calls it may be cancelled at any time. Requests for files are tasks of its own:
    they go on then, since others may wait for the same file. In the end nothing has to be closed but the HTTP library's sessions and, if it
    has a database, the cache: ``robots.cache.close()``.

    The logger ``texting_robots.aio`` has a warning when a site's file can't be fetched for the first time, and messages for debugging after
    that. What seems to be a mistake in ``get``, such as a NameError, is logged as an error, and the first one of each type with its traceback.
    """

    def __init__(
        self,
        get: Callable[[str, Mapping[str, str]], Awaitable[Response]],
        user_agent: Agents,
        cache: RobotsCache | None = None,
        *,
        patience: float = 0,
        longest_delay: float = 60,
    ) -> None:
        for name in names_of(user_agent):
            if not _USER_AGENT.match(name):
                raise AgentError(f"{name!r} isn't a User-Agent: it has to begin with the crawler's name, as 'FerrisBot/1.0' does")
        if all(name.lstrip().startswith("Mozilla/") for name in names_of(user_agent)):
            logger.warning("User-Agent %r begins as a browser's does: pass the crawler's name, or it has no group of its own", user_agent)
        self.cache = RobotsCache() if cache is None else cache
        self._get, self._user_agent, self._patience, self._longest_delay = get, user_agent, patience, longest_delay
        self._waiting: dict[str, asyncio.Future[None]] = {}  # for files that are being fetched
        self._tasks: set[asyncio.Task[None]] = set()
        self._turns: WeakValueDictionary[str, asyncio.Lock] = WeakValueDictionary()  # of sites for which calls wait
        self._mistakes: set[type[Exception]] = set()  # those that were logged with their traceback

    async def may(self, url: str) -> CacheVerdict:
        """Whether the crawler may fetch a URL, as soon as it may. The `texting_robots.cache.CacheVerdict` is true only then.

        The call waits for the site's robots.txt file, and then for its turn: between two calls for a site that return a true verdict, there
        are at least as many seconds as the site's file asks for (``Crawl-delay``). There is no delay if it asks for none, and no setting for
        a shortest delay. The time that your requests take doesn't count, so requests may overlap, and neither does the request for the file.
        A call that is cancelled doesn't use a turn.

        A false verdict has the ``line`` that denies the URL, or a ``problem``:

        - ``"unreachable"``: the file can't be fetched now, so nothing may be. Until ``(await robots.site(url)).refresh``, in seconds since
          1970, calls return this at once, without a request.
        - ``"the rule in line 2 is too long: the file can't be used for this crawler"``: ``line`` is this line then.
        - ``"a verdict may take too long"``: it might cost more than the cache's ``cost_limit``.
        - ``"out of memory"``.

        A text that isn't a URL of http or https is a `texting_robots.UrlError`. Two URLs are of one site if `texting_robots.robots_url`
        returns the same address for both.
        """
        while True:
            site = await self.site(url)
            verdict = self.cache.verdict(site, url, self._user_agent)
            if verdict or site.state is not State.UNREACHABLE or site.refresh > site.failing_since + self._patience:
                break
            await asyncio.sleep(max(0.01, site.refresh - self.cache._clock()))
        if verdict:
            await self._turn(site)
        return verdict

    async def site(self, url: str) -> KnownSite:
        """The `texting_robots.cache.KnownSite` of a URL: what is known of it, after a request if nothing is known. One request fetches the file,
        and all calls wait for it."""
        address = robots_url(url)
        while True:
            look = self.cache.at(address)
            if look.fetch:
                task = asyncio.ensure_future(self._fetched(look.fetch))
                self._tasks.add(task)
                task.add_done_callback(self._tasks.discard)
            if look.site:
                return look.site
            waiter = self._waiting.setdefault(address, asyncio.get_running_loop().create_future())
            await asyncio.wait([waiter], timeout=look.again)

    async def _turn(self, site: KnownSite) -> None:
        """Waits for the calls for this site that came before, and then until the next request may go. A turn is used only then, so one that is
        cancelled isn't lost."""
        lock = self._turns.setdefault(site.robots_url, asyncio.Lock())
        async with lock:
            await asyncio.sleep(min(self.cache.until_next_request(site), self._longest_delay))
            self.cache.next_request(site, self._user_agent, self._longest_delay)

    async def _fetched(self, fetch: Fetch) -> None:
        """Makes a request that the cache asks for, and those that follow from it."""
        next_one: Fetch | None = fetch
        try:
            while next_one:
                request, next_one = next_one, None
                known, next_one = await self._step(request)
                if next_one:
                    self._wake(known)
        finally:
            if next_one is None:
                self.cache.failed(request)  # if it was cancelled; otherwise it has no effect
            self._wake(self._waiting)

    async def _step(self, request: Fetch) -> Step:
        """What one request finds out."""
        mistake: Exception | None = None
        try:
            response = await self._get(request.address, request.headers)
            if not isinstance(response, Response):
                raise TypeError(f"get has returned {response!r:.100}: it has to be a Response")
            reason = reason_of(response.status)
        except Exception as error:
            reason, mistake = _reason(error), error if isinstance(error, _MISTAKES) else None
            step = self.cache.failed(request, was_reached=not _has_no_connection(error))
        else:
            try:
                step = self.cache.received(request, *response)
            except Exception as error:  # of what the response consists of, or of the caller's `found`
                reason, mistake = _reason(error), error
                step = self.cache.failed(request)
        if mistake:
            is_new = type(mistake) not in self._mistakes
            self._mistakes.add(type(mistake))
            logger.error("%s: an error that isn't one of the network: %s", request.address, reason, exc_info=mistake if is_new else None)
        for address, site in step.known.items():
            if site.is_failing:
                logger.log(logging.WARNING if site.failures == 1 else logging.DEBUG, "%s can't be fetched: %s", address, reason)
        return step

    def _wake(self, addresses: Mapping[str, object]) -> None:
        """Lets those go on who wait for these files. If nothing is known yet, they wait again."""
        for address in list(addresses):
            waiter = self._waiting.pop(address, None)
            if waiter and not waiter.done():
                waiter.set_result(None)


def _reason(error: Exception) -> str:
    return f"{type(error).__name__}: {error}" if str(error) else type(error).__name__


def _has_no_connection(error: BaseException | None) -> bool:
    """Whether the host's name is unknown, or it refuses connections, which HTTP libraries have errors of their own for."""
    while error and not isinstance(error, (socket.gaierror, ConnectionRefusedError)):
        error = error.__cause__ or error.__context__
    return error is not None
