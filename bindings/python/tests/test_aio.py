"""The one call of a crawler with asyncio, over servers that are functions here."""

import asyncio
import gzip
import logging
import re
import socket
import textwrap
import threading
import time
from http.server import BaseHTTPRequestHandler, ThreadingHTTPServer

import package  # noqa: F401 (puts the package on the path)
import pytest

from texting_robots import AgentError, UrlError, aio
from texting_robots.aio import AsyncRobots, Response
from texting_robots.cache import RobotsCache

RULES = b"User-agent: *\nDisallow: /private/\n"


class Server:
    """Answers in the given ways, one after the other, the last one again and again, each after some seconds."""

    def __init__(self, *answers, seconds=0.0):
        self.answers, self.seconds, self.asked = list(answers), seconds, []

    async def get(self, address, headers):
        self.asked.append(address)
        answer = self.answers.pop(0) if len(self.answers) > 1 else self.answers[0]
        await asyncio.sleep(self.seconds)
        if isinstance(answer, Exception):
            raise answer
        return answer


def file(body=RULES):
    return Response(200, {}, body)


class Loop(asyncio.SelectorEventLoop):
    """An event loop whose time goes on at once to when something is to be done."""

    def __init__(self):
        super().__init__()
        self.now, self.select, self._selector.select = 0.0, self._selector.select, self.go_on

    def go_on(self, timeout):
        self.now += timeout  # which is None if nothing is to be done
        return self.select(0)

    def time(self):
        return self.now


def timed(robots, run):
    """What a coroutine returns, in such a loop, whose time is that of the cache, too."""
    loop = Loop()
    robots.cache._clock, robots.cache._chance = lambda: 1e9 + loop.now, lambda: 0.0
    try:
        return loop.run_until_complete(run(loop))
    finally:
        loop.close()


def over(answer, user_agent="FerrisBot", **more):
    """A crawler whose servers answer so."""
    return AsyncRobots(Server(answer).get, user_agent, **more)


def asked(robots, *paths):
    """The verdicts on some paths of a site, asked for at the same time."""

    async def ask():
        return await asyncio.gather(*(robots.may(f"http://a.example{path}") for path in paths))

    return asyncio.run(ask())


def test_one_request_for_all_that_wait():
    server = Server(Response(301, {"Location": "/r"}, b""), file())
    robots = AsyncRobots(server.get, "FerrisBot/1.0")
    assert [bool(it) for it in asked(robots, *(["/", "/private/x"] * 10))] == [True, False] * 10
    assert server.asked == ["http://a.example/robots.txt", "http://a.example/r"] and asked(robots, "/private/x")[0].line == 2
    with pytest.raises(UrlError):
        asyncio.run(robots.may("ftp://a.example/"))


def test_two_sites_with_one_file():
    """Whose requests are made at the same time; one leads to the other."""

    async def get(address, headers):
        await asyncio.sleep(0.05 if address.startswith("http:") else 0.2)
        return Response(301, {"Location": "https://a.example/robots.txt"}, b"") if address.startswith("http:") else file()

    robots = AsyncRobots(get, "FerrisBot")

    async def ask():
        return await asyncio.gather(*(robots.may(f"{scheme}://a.example{path}") for scheme in ("http", "https") for path in ("/", "/private/x")))

    assert [bool(it) for it in asyncio.run(ask())] == [True, False] * 2 and robots.cache.in_flight == 0


def test_a_task_that_is_cancelled_loses_nothing():
    """Also the one whose call made the request for the file."""
    server = Server(file(), seconds=0.3)
    robots = AsyncRobots(server.get, "FerrisBot")

    async def one(number):
        return await asyncio.wait_for(robots.may(f"http://a.example/{number}"), 0.1 if number == 0 else 10)

    async def all_of_them():
        return await asyncio.gather(*map(one, range(20)), return_exceptions=True)

    first, *others = asyncio.run(all_of_them())
    assert isinstance(first, asyncio.TimeoutError) and all(it.allowed for it in others) and len(server.asked) == 1


@pytest.mark.parametrize("answer", [OSError("broken"), Response(503, {}, b""), Response(200, {}, RULES, is_complete=False)])
def test_a_file_that_can_not_be_fetched(answer, caplog):
    """Then nothing may be, which is a warning once; a patient crawler waits until it can be."""
    caplog.set_level(logging.DEBUG, "texting_robots.aio")
    server = Server(answer)
    robots = AsyncRobots(server.get, "FerrisBot")
    assert [tuple(it) for it in asked(robots, "/", "/x")] == [(False, None, "unreachable")] * 2 and len(server.asked) == 1
    assert [it.levelname for it in caplog.records if it.name == "texting_robots.aio"] == ["WARNING"]
    server = Server(answer, answer, file())
    robots = AsyncRobots(server.get, "FerrisBot", RobotsCache(retry=0.1), patience=60)
    assert [bool(it) for it in asked(robots, "/", "/private/x")] == [True, False] and len(server.asked) == 3


@pytest.mark.parametrize("patience, ends", [(0, 0), (4, 0), (7, 5), (15, 15), (34, 15)])
def test_patience_begins_when_the_site_fails_first(patience, ends):
    """So a site costs no more of it if it has many URLs. The file is asked for at 0, 5, 15 and 35 seconds."""
    robots = over(OSError(), patience=patience)

    async def one_after_another(loop):
        return [(tuple(await robots.may(f"http://a.example/{number}")), loop.now) for number in range(20)]

    assert {(verdict, round(now, 6)) for verdict, now in timed(robots, one_after_another)} == {((False, None, "unreachable"), ends)}


class Broken:
    """Mistakes in a caller's function."""

    async def name(self, address, headers):
        return undefined  # noqa: F821

    async def nothing(self, address, headers):
        pass

    async def text(self, address, headers):
        return Response(200, {}, "text")


@pytest.mark.parametrize(
    "get, reason",
    [
        ("name", "NameError: name 'undefined' is not defined"),
        ("nothing", "TypeError: get has returned None: it has to be a Response"),
        ("text", "TypeError: body has the type str: it has to be bytes"),
    ],
)
def test_a_mistake_in_the_callers_function_is_an_error(get, reason, caplog):
    """With its traceback once. The site is unreachable."""
    robots = AsyncRobots(getattr(Broken(), get), "FerrisBot")
    assert asked(robots, "/")[0].problem == "unreachable" and asyncio.run(robots.may("http://b.example/")).problem == "unreachable"
    errors = [it for it in caplog.records if it.levelname == "ERROR"]
    assert [it.getMessage() for it in errors] == [f"http://{host}.example/robots.txt: an error that isn't one of the network: {reason}" for host in "ab"]
    assert [bool(it.exc_info) for it in errors] == [True, False]
    assert f"http://a.example/robots.txt can't be fetched: {reason}" in caplog.messages


NO_BODY = "status 200, but the body breaks off or can't be unpacked"


@pytest.mark.parametrize(
    "answer, text",
    [
        (asyncio.TimeoutError(), "TimeoutError"),
        (OSError("broken"), "OSError: broken"),
        (Response(503, {}, b""), "status 503"),
        (Response(206, {}, RULES), "status 206"),
        (Response(200, {}, RULES, is_complete=False), NO_BODY),
        (Response(200, {"Content-Encoding": "br"}, b"x"), NO_BODY),
    ],
)
def test_the_log_says_why_there_is_no_file(caplog, answer, text):
    asked(over(answer), "/")
    assert caplog.messages == [f"http://a.example/robots.txt can't be fetched: {text}"]


BROWSER = "Mozilla/5.0 (compatible; FerrisBot/1.0)"


@pytest.mark.parametrize(
    "user_agent, warnings",
    [(BROWSER, 1), ([BROWSER], 1), ("FerrisBot (as Mozilla/5.0)", 0), ([BROWSER, "FerrisBot"], 0)],
)
def test_a_warning_of_a_user_agent_that_begins_as_a_browsers(caplog, user_agent, warnings):
    over(file(), user_agent)
    assert caplog.text.count("begins as a browser's does: pass the crawler's name") == warnings


@pytest.mark.parametrize("error, was_reached", [(socket.gaierror("x"), False), (ConnectionRefusedError(), False), (ConnectionResetError(), True), (ValueError(), True)])
@pytest.mark.parametrize("is_wrapped", [False, True])
def test_whether_there_was_a_connection(error, was_reached, is_wrapped):
    async def get(address, headers):
        try:
            raise error
        except Exception as it:
            raise RuntimeError("of a library") from it if is_wrapped else it

    robots = AsyncRobots(get, "FerrisBot")
    assert asyncio.run(robots.site("http://a.example/")).was_reached is was_reached


@pytest.mark.parametrize("user_agent", ["a/b/c", "", " ", "https://a.example/", "/x", ["FerrisBot", ""]])
def test_what_is_no_user_agent(user_agent):
    with pytest.raises(AgentError, match="isn't a User-Agent: it has to begin with the crawler's name, as 'FerrisBot/1.0' does"):
        over(file(), user_agent)


@pytest.mark.parametrize("user_agent", [None, [], b"FerrisBot", [b"FerrisBot"]])
def test_a_user_agent_of_another_type(user_agent):
    with pytest.raises(TypeError, match="it has to be a str, such as 'FerrisBot/1.0', or several in order of precedence"):
        over(file(), user_agent)


@pytest.mark.parametrize("user_agent", ["FerrisBot", "FerrisBot/1.0", " FerrisBot/1.0 (+https://a.example/bot)", "Ferris_Bot", "*", ["A/1", "B"], "FerrisBot;x", "Mozilla/5.0 (X)"])
def test_what_is_a_user_agent(user_agent):
    assert asked(over(file(), user_agent), "/private/x")[0].line == 2


def test_a_request_that_hangs():
    """Those that wait for it go on."""
    server = Server(file(), seconds=60)
    robots = AsyncRobots(server.get, "FerrisBot", RobotsCache(answer_within=0.2))
    assert [it.problem for it in asked(robots, "/", "/x")] == ["unreachable"] * 2


def test_an_error_of_the_callers_leaves_nobody_waiting(caplog):
    """And is in the log."""

    def fails(address, sitemaps):
        raise ValueError

    robots = over(file(RULES + b"Sitemap: /s"), cache=RobotsCache(found=fails))
    assert [bool(it) for it in asked(robots, "/", "/private/x")] == [True, False]
    assert caplog.messages == ["http://a.example/robots.txt: an error that isn't one of the network: ValueError"] and caplog.records[0].exc_info


def moments(robots, patiences, pause=0.0):
    """When calls that begin one after another end; None for one that is cancelled after so many seconds."""

    async def call(loop, number, patience):
        await asyncio.sleep(number * pause)
        try:
            verdict = await asyncio.wait_for(robots.may(f"http://a.example/{number}"), patience)
        except asyncio.TimeoutError:
            return None
        return round(loop.now, 6) if verdict else verdict.line

    async def run(loop):
        return await asyncio.gather(*(call(loop, number, patience) for number, patience in enumerate(patiences)))

    return timed(robots, run)


def test_pages_are_as_far_apart_as_the_file_asks_for():
    """The pages of another site aren't."""
    robots = over(file(RULES + b"Crawl-delay: 0.3\n"))
    assert moments(robots, [None] * 4) == [0.0, 0.3, 0.6, 0.9]
    assert asyncio.run(robots.may("http://b.example/private/x")).line == 2
    robots = over(file(b"Crawl-delay: 1000\n"), longest_delay=0.2)
    assert moments(robots, [None] * 3) == [0.0, 0.2, 0.4]
    robots = over(file())
    assert moments(robots, [None] * 3) == [0.0] * 3 and not robots._turns


@pytest.mark.parametrize(
    "patiences, pause, ends",
    [
        ([None, 0.1, 0.1, 0.1, None], 0.0, [0.0, None, None, None, 1.0]),
        ([None, None, 1.5, None], 0.0, [0.0, 1.0, None, 2.0]),
        ([None, 0.1, 0.1, 0.1, None], 0.2, [0.0, None, None, None, 1.0]),
        ([None, 0.1, None], 5.0, [0.0, 5.0, 10.0]),
    ],
)
def test_a_call_that_is_cancelled_uses_no_turn(patiences, pause, ends):
    """The calls after it come as early as without it, and still in their order."""
    robots = over(file(b"Crawl-delay: 1\n"))
    assert moments(robots, patiences, pause) == ends and not robots._turns


def test_a_clock_that_is_set_back_holds_no_call_up():
    robots = over(file(b"Crawl-delay: 1\n"), longest_delay=3)

    async def run(loop):
        await robots.may("http://a.example/")
        robots.cache._clock = lambda: 1e9 - 3600 + loop.now
        await robots.may("http://a.example/")
        return loop.now

    assert timed(robots, run) == 3


class Site(BaseHTTPRequestHandler):
    """Sends its file in two parts, and its pages compressed."""

    def do_GET(self):
        self.server.got.append((self.path, self.headers["User-Agent"]))
        self.send_response(200)
        if self.path != "/robots.txt":
            self.send_header("Content-Encoding", "gzip")
        self.end_headers()
        for part in (b"User-agent: *\n", b"Disallow: /private/\n") if self.path == "/robots.txt" else [gzip.compress(b"page")]:
            self.wfile.write(part)
            time.sleep(0.2)

    def log_message(self, *words):
        pass


@pytest.mark.parametrize("path, pages, printed", [("/", ["/"], "200 page\n"), ("/%61", ["/a"], "200 page\n"), ("/private/x", [], ""), ("/%70rivate/x", [], "")])
def test_the_program_of_the_docstring(capsys, path, pages, printed):
    pytest.importorskip("aiohttp")
    server = ThreadingHTTPServer(("127.0.0.1", 0), Site)
    server.got = []
    threading.Thread(target=server.serve_forever, daemon=True).start()
    program = textwrap.dedent(re.search(r"^    import .*^    asyncio.run\(main\(\)\)$", aio.__doc__, re.M | re.S)[0])
    exec(program.replace("https://example.com/\")", f"http://127.0.0.1:{server.server_port}{path}\")"), {})
    server.shutdown()
    assert capsys.readouterr().out == printed
    assert server.got == [(it, "FerrisBot/1.0 (+https://example.com/bot)") for it in ["/robots.txt", *pages]]
