"""The calls of robots.h: verdicts_of_file, matrix, delay, sitemaps, agents, robots_url; Robot, which is a robot that stays open; and
Site, which is a file that is read once for all crawlers.

The shared object is the one that ROBOTS_SO names, else librobots_c.so next to this file. A failed call raises a RobotsError, whose
`status` is that of robots.h, or a MemoryError.
"""

import ctypes
import os
import weakref
from ctypes import POINTER, byref, c_char_p, c_int32, c_int64, c_size_t, c_uint64, c_void_p

OK, NOT_UTF8, OUT_OF_MEMORY, BUFFER_TOO_SMALL, NO_DELAY, NO_ROBOTS_URL, OVERLONG_RULE = range(0, -7, -1)
TEXTS = ["no error", "the agent or a URL isn't UTF-8", "out of memory", "the buffer is too small"]
TEXTS += ["the file has no delay for this crawler", "the URL has no robots.txt file"]

NEXT_TO_THIS = os.path.join(os.path.dirname(os.path.abspath(__file__)), "librobots_c.so")
library = ctypes.CDLL(os.environ.get("ROBOTS_SO") or NEXT_TO_THIS)
TEXT = [c_char_p, c_size_t]
NUMBERS = [POINTER(c_int64), c_size_t]
LINE = [POINTER(c_size_t)]
WRITTEN = [POINTER(ctypes.c_char), c_size_t, POINTER(c_size_t)]
for name, arguments in {
    "robots_verdicts_of_file": TEXT * 3 + NUMBERS + LINE,
    "robots_url": TEXT + WRITTEN,
    "robots_open": TEXT * 2 + [POINTER(c_void_p)] + LINE,
    "robots_verdict": [c_void_p] + TEXT + [POINTER(c_int64)],
    "robots_verdicts": [c_void_p] + TEXT + NUMBERS,
    "robots_delay": [c_void_p, POINTER(c_uint64)],
    "robots_site_open": TEXT + [POINTER(c_void_p)],
    "robots_site_open_rfc9309": TEXT + [POINTER(c_void_p)],
    "robots_site_robot": [c_void_p] + TEXT + [POINTER(c_void_p)] + LINE,
    "robots_site_matrix": [c_void_p] + TEXT * 2 + NUMBERS,
    "robots_site_delay": [c_void_p] + TEXT + [POINTER(c_uint64)],
    "robots_site_sitemaps": [c_void_p] + WRITTEN,
    "robots_site_agents": [c_void_p] + WRITTEN,
    "robots_site_is_named": [c_void_p] + TEXT,
}.items():
    getattr(library, name).argtypes = arguments
    getattr(library, name).restype = c_int32
for close in (library.robots_close, library.robots_site_close):
    close.argtypes, close.restype = [c_void_p], None
NO_VERDICT = -(2**63)


class RobotsError(Exception):
    def __init__(self, status, line=0):
        overlong = f"the rule in line {line} is too long: the file can't be used for this crawler"
        super().__init__(overlong if status == OVERLONG_RULE else TEXTS[-status])
        self.status, self.line = status, line


def check(status, line=0):
    if status == OUT_OF_MEMORY:
        raise MemoryError
    if status != OK:
        raise RobotsError(status, line)


def text(data):
    """What is in a str or a buffer, as a bytes of just this type, and its length: so no method of another type decides how much is read."""
    data = str.encode(data, "utf-8", "surrogateescape") if isinstance(data, str) else memoryview(data).tobytes()
    return data, len(data)


def several(items):
    """URLs or crawlers in a list of its own, which no other thread makes shorter."""
    if isinstance(items, str):
        raise TypeError("URLs or crawlers are several texts, for example in a list, and not one")
    return list(items)


def joined(items):
    whole = "\n".join(items)
    if whole.count("\n") != len(items) - 1:
        raise ValueError("a URL or a crawler with a line feed: use Robot.verdict")
    return text(whole)


def written(call, *words):
    """What a call writes, with as much room as it asks for."""
    room, length = 256, c_size_t()
    while True:
        out = ctypes.create_string_buffer(room)
        status = call(*words, out, room, byref(length))
        if status != BUFFER_TOO_SMALL:
            check(status)
            return out.raw[: length.value].decode()
        room = length.value


def delay_of(status, out):
    """The delay that a call wrote, or None."""
    if status == NO_DELAY:
        return None
    check(status)
    return out.value


def verdicts_of_file(agent, file, urls):
    """For each URL 0, or n where line n allows it, or -n where line n denies it. A URL is a whole one, or a path."""
    urls = several(urls)
    if not urls:
        return []
    out, line = (c_int64 * len(urls))(), c_size_t()
    check(library.robots_verdicts_of_file(*text(agent), *text(file), *joined(urls), out, len(out), byref(line)), line.value)
    return list(out)


def matrix(agents, file, urls):
    """For each crawler the numbers of `verdicts_of_file`, or NO_VERDICT for each URL if a rule for the crawler is too long."""
    with Site(file) as site:
        return site.matrix(agents, urls)


def rows_of(call, agents, urls):
    """The rows of the matrix that a call writes."""
    out = (c_int64 * (len(agents) * len(urls)))()
    check(call(out, len(out)))
    return [out[at : at + len(urls)] for at in range(0, len(out), len(urls))]


def delay(agent, file):
    """How many microseconds the crawler waits between two requests, or None."""
    with Site(file) as site:
        return site.delay(agent)


def sitemaps(file):
    with Site(file) as site:
        return site.sitemaps()


def agents(file):
    """The crawlers that the file names, each once."""
    with Site(file) as site:
        return site.agents()


def robots_url(url):
    return written(library.robots_url, *text(url))


class Opened:
    """What a call opens, for `with`. Threads share it. What is closed is freed when no call uses it any more."""

    def __init__(self, handle, free):
        self.handle = handle
        # not at the end of the process, when a thread may still be in a call
        weakref.finalize(handle, free, c_void_p(handle.value)).atexit = False

    def open(self):
        if self.handle is None:
            raise ValueError("it is closed")
        return self.handle

    def close(self):
        self.handle = None

    def __enter__(self):
        return self

    def __exit__(self, *error):
        self.close()


class Robot(Opened):
    """What a file, or a Site, says to one crawler. It stays open when the Site is closed."""

    def __init__(self, agent, file):
        handle, line = c_void_p(), c_size_t()
        if isinstance(file, Site):
            status = library.robots_site_robot(file.open(), *text(agent), byref(handle), byref(line))
        else:
            status = library.robots_open(*text(agent), *text(file), byref(handle), byref(line))
        check(status, line.value)
        super().__init__(handle, library.robots_close)

    def verdict(self, url):
        """The number of `verdicts_of_file` for one URL."""
        out = c_int64()
        check(library.robots_verdict(self.open(), *text(url), byref(out)))
        return out.value

    def verdicts(self, urls):
        """The numbers of `verdicts_of_file`."""
        urls = several(urls)
        if not urls:
            return []
        out = (c_int64 * len(urls))()
        check(library.robots_verdicts(self.open(), *joined(urls), out, len(out)))
        return list(out)

    def delay(self):
        out = c_uint64()
        return delay_of(library.robots_delay(self.open(), byref(out)), out)


class Site(Opened):
    """What a file says to every crawler: it is read once. A Robot takes a Site in place of a file. With `by_rfc9309` the verdicts are those
    of RFC 9309."""

    def __init__(self, file, by_rfc9309=False):
        handle = c_void_p()
        opens = library.robots_site_open_rfc9309 if by_rfc9309 else library.robots_site_open
        check(opens(*text(file), byref(handle)))
        super().__init__(handle, library.robots_site_close)

    def matrix(self, agents, urls):
        agents, urls = several(agents), several(urls)
        if not agents or not urls:
            return [[] for _ in agents]
        return rows_of(lambda *out: library.robots_site_matrix(self.open(), *joined(agents), *joined(urls), *out), agents, urls)

    def delay(self, agent):
        out = c_uint64()
        return delay_of(library.robots_site_delay(self.open(), *text(agent), byref(out)), out)

    def sitemaps(self):
        return written(library.robots_site_sitemaps, self.open()).split("\n")[:-1]

    def agents(self):
        return written(library.robots_site_agents, self.open()).split("\n")[:-1]

    def is_named(self, agent):
        """Whether a user-agent line names the crawler."""
        named = library.robots_site_is_named(self.open(), *text(agent))
        check(min(named, OK))
        return named == 1
