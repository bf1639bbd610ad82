"""A proxy on 127.0.0.1 that is 1,000 sites itself: site number n answers for robots.txt in the way n, in turn."""

import asyncio
import gzip
import threading
import zlib

RULES = b"User-agent: *\nDisallow: /private/\n"
PATHS = ["/a", "/private/x", "/b"]
PUBLIC, ALL = {"/a", "/b"}, set(PATHS)


def response(status, body=RULES, length=None, **fields):
    """The bytes of a response."""
    fields = {"Content-Length": str(len(body) if length is None else length), "Connection": "close", **fields}
    head = "".join(f"{name.replace('_', '-')}: {value}\r\n" for name, value in fields.items())
    return f"HTTP/1.1 {status} x\r\n{head}\r\n".encode() + body


OK, HANGS, CLOSES = response(200), None, b""
FILLER = b"# filler\n" * 60_000

# ways to answer for robots.txt: the answers, the last one again and again; how often it is fetched; which pages are
WORKS = {
    "200": ([OK], 1, PUBLIC),
    "404": ([response(404)], 1, ALL),
    "403": ([response(403)], 1, ALL),
    "401": ([response(401)], 1, ALL),
    "410": ([response(410)], 1, ALL),
    "empty": ([response(200, b"")], 1, ALL),
    "204": ([response(204, b"")], 1, ALL),
    "HTML": ([response(200, b"<html>soft 404</html>")], 1, ALL),
    "a redirect": ([response(301, b"", Location="/robots.txt"), OK], 2, PUBLIC),
    "five redirects": ([response(302, b"", Location="/robots.txt")] * 5 + [OK], 6, PUBLIC),
    "a loop": ([response(302, b"", Location="/robots.txt")], 6, ALL),
    "byte order mark": ([response(200, b"\xef\xbb\xbf" + RULES)], 1, PUBLIC),
    "NULs": ([response(200, RULES.replace(b"\n", b"\0"))], 1, PUBLIC),
    "bytes that aren't UTF-8": ([response(200, b"# \xff\xfe\n" + RULES)], 1, PUBLIC),
    "gzip": ([response(200, gzip.compress(RULES), Content_Encoding="gzip")], 1, PUBLIC),
    "gzip, cut": ([response(200, gzip.compress(RULES + bytes(range(256)) * 50)[:-60], Content_Encoding="gzip")], 1, PUBLIC),
    "gzip, said but isn't": ([response(200, Content_Encoding="gzip")], 1, PUBLIC),
    "deflate, cut": ([response(200, zlib.compress(RULES + b"# x\n" * 99)[:-9], Content_Encoding="deflate")], 1, PUBLIC),
    "deflate without a head": ([response(200, zlib.compress(RULES)[2:-4], Content_Encoding="deflate")], 1, PUBLIC),
    "540 KB, rules first": ([response(200, RULES + FILLER)], 1, PUBLIC),
    "540 KB, rules last": ([response(200, FILLER + RULES)], 1, ALL),
    "a delay": ([response(200, RULES + b"Crawl-delay: 0.2\n")], 1, PUBLIC),
}
FAILS = {
    "503": ([response(503), OK], 2, PUBLIC),
    "500, 503, 502": ([response(500), response(503), response(502), OK], 4, PUBLIC),
    "429": ([response(429, b""), OK], 2, PUBLIC),
    "Retry-After": ([response(503, b"", Retry_After="2"), OK], 2, PUBLIC),
    "no answer": ([HANGS, OK], 2, PUBLIC),
    "closed": ([CLOSES, OK], 2, PUBLIC),
    "half a body": ([response(200, length=999), OK], 2, PUBLIC),
    "206": ([response(206), OK], 2, PUBLIC),
    "304": ([response(304, b""), OK], 2, PUBLIC),
    "999": ([response(999), OK], 2, PUBLIC),
    "301 without a location": ([response(301), OK], 2, PUBLIC),
    "301 to another scheme": ([response(301, Location="data:,"), OK], 2, PUBLIC),
    "brotli": ([response(200, b"\x0b\x02\x80abc\x03", Content_Encoding="br"), OK], 2, PUBLIC),
    "503, then 404": ([response(503), response(404)], 2, ALL),
    "for ever": ([response(503, b"", Retry_After="3000")], 1, set()),
}


def ways(number):
    """For so many sites by their hosts how they answer: each tenth fails."""
    works, fails = list(WORKS.values()), list(FAILS.values())
    hosts = [f"site{index}.example" for index in range(number)]
    return {host: fails[index // 10 % len(fails)] if index % 10 == 0 else works[index % len(works)] for index, host in enumerate(hosts)}


class Proxy:
    """Answers requests for the sites in a thread, and notes them."""

    def __init__(self, sites):
        self.answers = {host: list(way[0]) for host, way in sites.items()}
        self.got = {host: [] for host in sites}
        self.loop, started = asyncio.new_event_loop(), threading.Event()
        threading.Thread(target=self._serve, args=[started], daemon=True).start()
        started.wait()

    def _serve(self, started):
        asyncio.set_event_loop(self.loop)
        self.server = self.loop.run_until_complete(asyncio.start_server(self._answer, "127.0.0.1", 0, backlog=1000))
        self.address = "http://127.0.0.1:%d" % self.server.sockets[0].getsockname()[1]
        self.loop.call_soon(started.set)
        self.loop.run_forever()

    def close(self):
        self.loop.call_soon_threadsafe(self.loop.stop)

    async def _answer(self, reader, writer):
        try:
            head = await reader.readuntil(b"\r\n\r\n")
            _, _, host, path = head.split()[1].decode().split("/", 3)
            self.got[host].append(f"/{path}")
            answer = response(200, b"a page")
            if path == "robots.txt":
                answer = self.answers[host].pop(0) if len(self.answers[host]) > 1 else self.answers[host][0]
            if answer is HANGS:
                await reader.read()  # until the client leaves
            writer.write(answer or b"")
            await writer.drain()
        except (OSError, asyncio.IncompleteReadError):
            pass
        finally:
            writer.close()
