"""The code in Python of docs/GUIDE.md and docs/MOVING.md, run as it is there."""

import http.server
import re
import threading

import package  # noqa: F401 (puts the package on the path)
import pytest
from support import DOCUMENTS
from test_documents import code

FILE = b"User-agent: *\nDisallow: /search\nCrawl-delay: 2.5\n"
URL = "https://example.com/search/tea"


class Handler(http.server.BaseHTTPRequestHandler):
    def do_GET(self):
        self.send_response(self.server.status)
        self.end_headers()
        self.wfile.write(FILE)

    def log_message(self, *_):
        pass


@pytest.fixture
def server():
    """A site on 127.0.0.1 whose responses all have its `status`."""
    with http.server.ThreadingHTTPServer(("127.0.0.1", 0), Handler) as server:
        threading.Thread(target=server.serve_forever, kwargs={"poll_interval": 0.05}, daemon=True).start()
        yield server
        server.shutdown()


@pytest.mark.parametrize("status, expected", [(200, [(False, 2.5), (True, 2.5)]), (404, [(True, 1)] * 2), (503, [(False, 1)] * 2)])
def test_guide_shows_a_small_crawler(server, status, expected):
    names, server.status = {}, status
    exec(code(DOCUMENTS["docs/GUIDE.md"], "python")[0], names)
    assert [names["visit"]("http://%s:%d%s" % (*server.server_address, path)) for path in ("/search/tea", "/shop")] == expected


MOVING = code(DOCUMENTS["docs/MOVING.md"], "python")


@pytest.mark.parametrize("block", MOVING, ids=[re.search(r"^(?:from|import) ([\w.]+)", it, re.M)[1] for it in MOVING])
def test_code_before_and_after_finds_the_same(block):
    """But that urllib knows no delay with a fraction."""
    for name in {"protego", "reppy"} & {*re.findall(r"^from (\w+)", block, re.M)}:
        pytest.importorskip(name)
    names = {"body": FILE, "url": URL}
    exec(block, names)
    assert (names["allowed"], names["delay"]) in ((False, 2.5), (False, None if "from urllib" in block else 2.5))
