"""examples/robots.py: texts whose types lie about their length, threads, and signal handlers that use and close what they interrupt."""

import os
import subprocess
import sys

import pytest
from support import ROOT

FILE = b"User-agent: *\nDisallow: /a\nSitemap: /s.xml\n"


class Bytes(bytes):
    def __len__(self):
        return 100_000


class Text(str):
    def __len__(self):
        return 100_000

    def encode(self, *how):
        return Bytes(str.encode(self, *how))


class Growing(list):
    """By its length a hundred times as many texts each time."""

    length = 1

    def __len__(self):
        self.length *= 100
        return self.length // 100


def test_a_text_has_as_many_bytes_as_there_are(robots):
    for file in [Bytes(FILE), bytearray(FILE), memoryview(FILE[::-1])[::-1], Text(FILE.decode())]:
        assert [len(it) if type(it) is bytes else it for it in robots.text(file)] == [len(FILE)] * 2
        assert robots.verdicts_of_file("x", file, [Text("/a"), "/"]) == [-2, 0] and robots.sitemaps(file) == ["/s.xml"]
        with robots.Robot(Text("x"), file) as robot:
            assert robot.verdict(Text("/a")) == robot.verdict(Bytes(b"/a")) == -2


def test_there_are_as_many_results_as_texts(robots):
    with robots.Robot("x", FILE) as robot, robots.Site(FILE) as site:
        for call in [lambda urls: robots.verdicts_of_file("x", FILE, urls), robot.verdicts]:
            assert call(Growing(["/a"] * 1000)) == [-2] * 1000
        for call in [lambda agents, urls: robots.matrix(agents, FILE, urls), site.matrix]:
            assert call(Growing(["x"] * 10), Growing(["/a"] * 100)) == [[-2] * 100] * 10


AT_EXIT = """
import os, sys, threading
sys.path.insert(0, sys.argv[1])
import robots

robot, urls = robots.Robot("x", b"User-agent: *\\n" + b"Disallow: /*a*b*c\\n" * 20000), ["/" + "ab" * 200] * 1000
threading.Thread(target=robot.verdicts, args=(urls,), daemon=True).start()
"""


def test_a_thread_may_be_in_a_call_at_the_end(robots):
    """What is open isn't freed then."""
    for _ in range(3):
        ended = subprocess.run([sys.executable, "-c", AT_EXIT, ROOT / "examples"], env=os.environ | {"MALLOC_PERTURB_": "165"}, capture_output=True, text=True)
        assert (ended.returncode, ended.stderr) == (0, "")


IN_A_HANDLER = """
import signal, sys, threading, time
sys.path.insert(0, sys.argv[1])
import robots

FILE, URLS, handled = b"User-agent: *\\nDisallow: /a\\n" * 100, ["/a", "/b"] * 50, 0
site, robot = robots.Site(FILE), robots.Robot("x", FILE)

def handle(*_):
    global handled
    handled += 1
    assert robot.verdict("/a") == -2 and site.delay("x") is None

def query():
    while handled < 50:
        assert robot.verdicts(URLS) == [-2, 0] * 50 and site.matrix(["x"], URLS) == [[-2, 0] * 50]

signal.signal(signal.SIGALRM, handle)
signal.setitimer(signal.ITIMER_REAL, 0.0005, 0.0005)
thread = threading.Thread(target=query)
thread.start()
query()
thread.join()
signal.setitimer(signal.ITIMER_REAL, 0)

text_of = robots.text
def text(data):
    robot.close()  # as a handler may, between what opens the call and the call
    return text_of(data)
robots.text = text
assert robot.verdict("/a") == -2
robots.text = text_of
try:
    robot.verdict("/a")
except ValueError as error:
    print(error)
"""


def test_a_signal_handler_may_use_and_close_what_it_interrupts(shared_object):
    words = [sys.executable, "-c", IN_A_HANDLER, ROOT / "examples"]
    ended = subprocess.run(words, env=os.environ | {"ROBOTS_SO": str(shared_object)}, capture_output=True, text=True, timeout=60)
    assert (ended.returncode, ended.stdout) == (0, "it is closed\n"), ended.stderr
