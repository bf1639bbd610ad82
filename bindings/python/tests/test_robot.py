"""A file for one crawler, columns of URLs, and children of a fork."""

import ctypes
import os
import pickle
import random
import signal
import threading
import time
from array import array

import package
import pytest
from library import random_case

from texting_robots import AgentError, OverlongRuleError, Robot, Site, TooCostlyError, Verdict, _robot

SHOP = b"User-agent: *\nDisallow: /search # \xff\nAllow: /search/help\nCrawl-delay: 2.5\nSitemap: /s.xml\n"
URLS = ["/search", "/search/help", "https://example.com/s\u00e9arch", ""]
NUMBERS = [-2, 3, 0, 0]


def test_a_robot_says_what_the_file_says_to_its_crawler():
    chance = random.Random(11)
    for _ in range(300):
        agent, file, urls = random_case(chance)
        robot, robots = Robot(file, agent), Site(file)
        assert [robot.verdict(url) for url in urls] == robot.verdicts(urls) == robots.verdicts(urls, agent)
        assert [robot.allowed(url) for url in urls] == [robots.allowed(url, agent) for url in urls]
        assert (robot.delay, robot.delay_microseconds) == (robots.delay(agent), robots.delay_microseconds(agent))
        assert robot.cost(40) == robots.cost(40, agent) and robot.verdict_within(urls[0], robot.cost(400)) == robots.verdict(urls[0], agent)
    assert Robot(SHOP.decode("utf-8", "surrogateescape"), "x").verdict("/search") == Verdict(False, 2)
    assert Robot(memoryview(SHOP), "x").verdicts(["/search\n", "/b"]) == [Verdict(False, 2), Verdict(True, None)]


def test_a_robots_of_one_agent_takes_the_memory_of_a_robot_and_of_the_file():
    file = b"User-agent: *\nCrawl-delay: 1\nSitemap:/\n" + b"".join(b"Disallow: /account/archives/%d\n" % n for n in range(10, 40))
    robots, robot = Site(file), Robot(file, "FerrisBot")
    assert robots.allowed("/", "FerrisBot") and robots.delay("FerrisBot") == robot.delay == 1 and robots.sitemaps == ["/"]
    assert robots.memory == len(file) + robot.memory < 3720 and len(file) == 969
    assert robots.allowed("/", "x") and robots.memory > 2 * len(file) + robot.memory


def test_its_errors(monkeypatch):
    overlong = b"User-agent: a\nDisallow: /" + b"a" * 5000 + b"$"
    with pytest.raises(OverlongRuleError) as error:
        Robot(overlong, "a")
    assert error.value.line == 2 and Robot(overlong, "b").allowed("/")
    with pytest.raises(AgentError):
        Robot(SHOP, "FerrisBot/1.0")
    with pytest.raises(TypeError, match="^agent has the type bytes"):
        Robot(SHOP, b"x")
    with pytest.raises(TypeError, match="^body has the type int"):
        Robot(7, "x")
    with pytest.raises(TypeError, match="^url has the type bytes"):
        Robot(SHOP, "x").allowed(b"/")
    with pytest.raises(TooCostlyError):
        Robot(SHOP, "x").verdict_within("/search/help", 1)
    with pytest.raises(TypeError):
        pickle.dumps(Robot(SHOP, "x"))
    monkeypatch.setattr(_robot, "_verdict", lambda *_: _robot.lib.NO_VERDICT - _robot.lib.ROBOTS_OUT_OF_MEMORY)
    with pytest.raises(MemoryError):
        Robot(SHOP, "x").allowed("/")


# ---- columns


def column(urls):
    """The URLs in a row, and where each ends."""
    texts = [url.encode() for url in urls]
    ends, total = [], 0
    for text in texts:
        total += len(text)
        ends.append(total)
    return b"".join(texts), ends


def test_a_column_in_buffers():
    robot, (text, ends) = Robot(SHOP, "x"), column(URLS)
    for kind in "qQlL":
        verdicts = array("q", [7] * 5)
        robot.verdicts_batch(text, verdicts, array(kind, ends))
        assert verdicts.tolist() == [*NUMBERS, 7]
    robot.verdicts_batch(bytearray(text), memoryview(verdicts)[1:], array("q", ends[:2]))
    assert verdicts.tolist() == [-2, -2, 3, 0, 7]
    robot.verdicts_batch(b"", verdicts, array("q"))


@pytest.mark.parametrize(
    "text, verdicts, ends, error",
    [
        (b"/a", array("q", [0]), array("q", [1, 2]), "verdicts has less room"),
        (b"/a", array("q", [0, 0]), array("q", [2, 1]), "the ends decrease"),
        (b"/a", array("q", [0]), array("q", [-1]), "the ends decrease"),
        (b"/\xff", array("q", [0]), array("q", [2]), "a URL isn't UTF-8"),
        (b"/a", array("i", [0]), array("q", [2]), "verdicts has the type array"),
        (b"/a", bytes(8), array("q", [2]), "verdicts has the type bytes"),
        (b"/a", memoryview(array("q", [0, 0, 0]))[::2], array("q", [2]), "verdicts has the type memoryview"),
        (b"/a", memoryview(bytes(8)).cast("q"), array("q", [2]), "verdicts has the type memoryview"),
        (b"/a", array("q", [0]), array("d", [2]), "ends has the type array"),
        (b"/a", array("q", [0]), [2], "ends has the type list"),
        ("/a", array("q", [0]), array("q", [2]), "urls has the type str"),
        (["/a"], array("q", [0]), None, "urls has the type list"),
    ],
)
def test_what_is_no_column(text, verdicts, ends, error):
    with pytest.raises((TypeError, ValueError), match=f"^{error}"):
        Robot(SHOP, "x").verdicts_batch(text, verdicts, ends)
    assert not any(bytes(memoryview(verdicts).cast("B") if memoryview(verdicts).c_contiguous else b""))


def test_a_column_of_numpy():
    numpy = pytest.importorskip("numpy")
    robot, (text, ends) = Robot(SHOP, "x"), column(URLS)
    verdicts = numpy.full(4, 7)
    robot.verdicts_batch(numpy.frombuffer(text, dtype=numpy.uint8), verdicts, numpy.array(ends))
    assert verdicts.tolist() == NUMBERS and (verdicts < 0).sum() == 1


class Schema(ctypes.Structure):
    _fields_ = [("format", ctypes.c_char_p), ("words", ctypes.c_char_p * 2), ("numbers", ctypes.c_int64 * 2), ("rest", ctypes.c_void_p * 4)]


class Array(ctypes.Structure):
    _fields_ = [("numbers", ctypes.c_int64 * 5), ("buffers", ctypes.POINTER(ctypes.c_void_p)), ("rest", ctypes.c_void_p * 4)]


class Arrow:
    """An array of strings as Arrow's C data interface has it: its type, its numbers and three buffers."""

    def __init__(self, urls, kind=b"U", before=(), nulls=0):
        text, ends = column([*before, *urls])
        offsets = (ctypes.c_int64 if kind == b"U" else ctypes.c_int32) * (len(ends) + 1)
        self.kept = [ctypes.create_string_buffer(b"\xfe"), offsets(0, *ends), ctypes.create_string_buffer(text)]
        self.buffers = (ctypes.c_void_p * 3)(ctypes.addressof(self.kept[0]) if nulls else None, *map(ctypes.addressof, self.kept[1:]))
        self.schema = Schema(format=kind)
        self.array = Array((ctypes.c_int64 * 5)(len(urls), nulls, len(before), 3, 0), self.buffers)

    def __arrow_c_array__(self, requested_schema=None):
        capsule = ctypes.pythonapi.PyCapsule_New
        capsule.restype, capsule.argtypes = ctypes.py_object, [ctypes.c_void_p, ctypes.c_char_p, ctypes.c_void_p]
        return capsule(ctypes.addressof(self.schema), b"arrow_schema", None), capsule(ctypes.addressof(self.array), b"arrow_array", None)


@pytest.mark.parametrize("kind", [b"u", b"U"])
@pytest.mark.parametrize("before", [[], ["/search", "/a"]], ids=["whole", "sliced"])
def test_a_column_of_arrow(kind, before):
    verdicts = array("q", [7] * 5)
    Robot(SHOP, "x").verdicts_batch(Arrow(URLS, kind, before), verdicts)
    assert verdicts.tolist() == [*NUMBERS, 7]
    Robot(SHOP, "x").verdicts_batch(Arrow([], kind, before), verdicts)
    assert verdicts.tolist() == [*NUMBERS, 7]


def test_other_columns_of_arrow():
    verdicts = array("q", [7])
    for wrong in (Arrow(["/a"], b"l"), Arrow(["/a"], nulls=1), Arrow(["/a"], nulls=-1)):
        with pytest.raises(TypeError, match="^urls has the type Arrow: it has to be an array of strings of Arrow without nulls"):
            Robot(SHOP, "x").verdicts_batch(wrong, verdicts)
    with pytest.raises(ValueError, match="^verdicts has less room"):
        Robot(SHOP, "x").verdicts_batch(Arrow(["/a", "/b"]), verdicts)
    assert verdicts.tolist() == [7]


# ---- forks


def test_children_of_a_fork_use_what_a_thread_is_using():
    """None hangs, of twenty that are made while a thread is in a call."""
    robots = Site(b"User-agent: *\n" + b"".join(b"Disallow: /*%d*x*y*z$\n" % n for n in range(20000)))
    stop = threading.Event()

    def work():
        while not stop.is_set():
            robots.allowed("/" + "1x" * 900, "a")

    assert robots.allowed("/a", "a")
    thread = threading.Thread(target=work)
    thread.start()
    hung = 0
    for turn in range(20):
        time.sleep(0.003 * turn)
        child = os.fork()
        if child == 0:
            os._exit(not robots.allowed("/a", "a"))
        until, ended = time.monotonic() + 10, (0, 0)
        while ended[0] == 0 and time.monotonic() < until:
            time.sleep(0.005)
            ended = os.waitpid(child, os.WNOHANG)
        if ended[0] == 0:
            hung += 1
            os.kill(child, signal.SIGKILL)
            ended = os.waitpid(child, 0)
        assert hung or ended[1] == 0
    stop.set()
    thread.join()
    assert hung == 0 and package.SITE.is_dir()
