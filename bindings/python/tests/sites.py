"""Small sites on 127.0.0.1 that answer in many ways, for crawls by Scrapy."""

import contextlib
import json
import subprocess
import sys
import threading
from http.server import BaseHTTPRequestHandler, ThreadingHTTPServer
from pathlib import Path

import package

PAGES = ["/", "/private/x", "/private/y", "/public/a", "/public/b"]
PUBLIC = ["/", "/public/a", "/public/b"]
RULES = b"User-agent: *\nDisallow: /private/\n"


class Site(ThreadingHTTPServer):
    """Pages with links, by default each to all, and the answers to requests for robots.txt, the last one again and again."""

    daemon_threads = True

    def __init__(self, *answers, settings, links=dict.fromkeys(PAGES, PAGES), host="127.0.0.1"):
        super().__init__((host, 0), Handler)
        self.answers, self.settings, self.links = list(answers), settings, links
        self.got, self.closing, self.peer = [], threading.Event(), self

    @property
    def address(self):
        return "http://%s:%d" % self.server_address

    def paths(self):
        """What was fetched, in this order."""
        return [path for _, path in self.got]

    def pages(self):
        """Which pages were fetched, as the first one is fetched twice."""
        return sorted({path for path in self.paths() if path in PAGES})


class Handler(BaseHTTPRequestHandler):
    protocol_version = "HTTP/1.1"

    def do_GET(self):
        site = self.server
        site.got.append((float(self.headers["Sent"]), self.path))
        if self.path == "/robots.txt":
            (site.answers.pop(0) if len(site.answers) > 1 else site.answers[0])(self)
        elif self.path.startswith("/step/"):
            redirects(int(self.path[6:]))(self)
        else:
            links = site.links.get(self.path, [])
            answers(200, "".join(f'<a href="{link}">x</a>' for link in links).encode(), kind="text/html")(self)

    def log_message(self, *_):
        pass


@contextlib.contextmanager
def served(sites):
    """Serves the sites in threads."""
    for site in sites:
        threading.Thread(target=site.serve_forever, kwargs={"poll_interval": 0.05}, daemon=True).start()
    try:
        yield
    finally:
        for site in sites:
            site.closing.set()
            site.shutdown()
            site.server_close()


def crawled(sites):
    """Crawls the sites side by side in one process, each with its settings, and returns its log."""
    given = [[f"{site.address}/", site.settings] for site in sites]
    words = [sys.executable, Path(__file__).with_name("crawl.py")]
    ended = subprocess.run(words, input=json.dumps(given), capture_output=True, text=True, timeout=600, env=package.WITH_PACKAGE)
    assert ended.returncode == 0, ended.stderr
    return ended.stderr


# ---- answers


def answers(status, body=RULES, length=None, kind="text/plain", **fields):
    """An answer with this status and body, or the first part of a body of this length."""

    def answer(handler):
        handler.send_response(status)
        for name, value in {"Content-Type": kind, "Content-Length": str(length or len(body)), **fields}.items():
            handler.send_header(name, value)
        handler.end_headers()
        handler.wfile.write(body)
        handler.close_connection = length is not None

    return answer


def redirects(times):
    """So many redirects in a row, from one authority to another one and back; then the rules."""

    def answer(handler):
        target = f"{handler.server.peer.address}/step/{times - 1}"
        (answers(301, b"", Location=target) if times else answers(200))(handler)

    return answer


def closes(handler):
    """Nothing: the connection is closed."""
    handler.close_connection = True


def never(handler):
    """Nothing, but the connection stays open."""
    handler.server.closing.wait(60)
    handler.close_connection = True


def endless(handler):
    """The rules, and then lines without an end."""
    handler.send_response(200)
    handler.end_headers()
    handler.wfile.write(RULES)
    with contextlib.suppress(OSError):
        while not handler.server.closing.is_set():
            handler.wfile.write(b"# filler\n" * 10_000)
    handler.close_connection = True
