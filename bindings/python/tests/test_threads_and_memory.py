"""Sites shared by threads, signal handlers that use them, and memory: flat, or a MemoryError."""

import gc
import os
import random
import signal
import threading
import time
import weakref
from concurrent.futures import ThreadPoolExecutor

import package
import pytest

from texting_robots import Matrix, OverlongRuleError, Site

pytestmark = pytest.mark.alone

RULES = "".join(f"Disallow: /shop/{n}/*?page=\nAllow: /shop/{n}/help$\n" for n in range(100))
LARGE = f"User-agent: *\nCrawl-delay: 2\n{RULES}User-agent: BobBot\nUser-agent: Googlebot\nDisallow: /s\n{RULES}Sitemap: /a.xml\n".encode()
URLS = [f"https://example.com/shop/{n}/{end}" for n in range(0, 100, 5) for end in ["", "help", "a?page=2"]]
AGENTS = ["BobBot", "FerrisBot", "Googlebot", "*"]
SMALL = b"User-agent: *\nDisallow: /search\nUser-agent: BobBot\nDisallow: /bob\nSitemap: /a.xml\nCrawl-delay: 2\n"


def test_eight_threads_share_one_robots():
    expected = {agent: [Site(LARGE).verdict(url, agent) for url in URLS] for agent in AGENTS}
    robots, matrix, start = Site(LARGE), Matrix(URLS, AGENTS), threading.Barrier(8)
    denied = [(agent, url, it.line) for agent in AGENTS for url, it in zip(URLS, expected[agent]) if not it]

    def wrong(seed):
        chance, wrong = random.Random(seed), 0
        start.wait()
        for turn in range(3000):
            agent, place = chance.choice(AGENTS), chance.randrange(len(URLS))
            wrong += robots.verdict(URLS[place], agent) != expected[agent][place]
            if turn % 100 == 0:
                wrong += robots.verdicts(URLS, agent) != expected[agent]
                wrong += robots.matrix(URLS, AGENTS) != [expected[agent] for agent in AGENTS]
                wrong += matrix.denials(LARGE) != denied
                wrong += (robots.sitemaps, robots.agents, robots.delay(agent)) != (["/a.xml"], ["*", "BobBot", "Googlebot"], robots.delay(agent))
        return wrong

    with ThreadPoolExecutor(8) as pool:
        assert list(pool.map(wrong, range(8))) == [0] * 8


def test_many_threads_make_the_same_robot_first():
    """Agents that no line names share one in the library, whichever thread is first."""
    with ThreadPoolExecutor(8) as pool:
        for turn in range(300):
            robots, start = Site(SMALL), threading.Barrier(8)

            def first(thread):
                start.wait()
                return robots.allowed("/search", f"a{thread % 4}"), robots.allowed("/bob", "BobBot")

            assert set(pool.map(first, range(8))) == {(False, False)}


def test_robots_may_be_dropped_on_any_thread():
    with ThreadPoolExecutor(8) as pool:
        made = [Site(LARGE) for _ in range(2000)]
        results = [pool.submit(lambda robots: robots.allowed("/shop/1/help", "FerrisBot"), made.pop()) for _ in range(len(made))]
        assert {result.result() for result in results} == {True}


def test_one_that_is_collected_in_a_cycle():
    class Holder:
        pass

    holder = Holder()
    holder.itself, holder.robots = holder, Site(SMALL)
    assert not holder.robots.allowed("/search", "FerrisBot")
    gone = weakref.ref(holder.robots)
    del holder
    gc.collect()
    assert gone() is None


def test_a_long_call_lets_other_threads_run():
    done, ticks = threading.Event(), 0

    def parse():
        for _ in range(20):
            Site(b"a\n" * 250_000).allowed("/", "a")
        done.set()

    thread = threading.Thread(target=parse)
    thread.start()
    while not done.is_set():
        ticks += 1
        time.sleep(0.001)
    thread.join()
    assert ticks >= 5


def test_a_signal_handler_may_use_what_it_interrupts():
    robots, handled = Site(LARGE), 0
    expected = robots.verdicts(URLS, "BobBot")

    def handle(*_):
        nonlocal handled
        handled += 1
        place = handled % len(URLS)
        assert robots.verdict(URLS[place], "BobBot") == expected[place]
        assert robots.matrix(URLS[:1], AGENTS[:1]) == [expected[:1]]

    before = signal.signal(signal.SIGALRM, handle)
    signal.setitimer(signal.ITIMER_REAL, 0.0005, 0.0005)
    try:
        until = time.monotonic() + 1
        while time.monotonic() < until:
            assert [robots.verdict(url, "BobBot") for url in URLS] == robots.verdicts(URLS, "BobBot") == expected
    finally:
        signal.setitimer(signal.ITIMER_REAL, 0)
        signal.signal(signal.SIGALRM, before)
    assert handled > 50


# ---- memory


def resident():
    """How many bytes of this process are in memory."""
    with open("/proc/self/statm") as statm:
        return int(statm.read().split()[1]) * os.sysconf("SC_PAGE_SIZE")


def grown(run, warm_up, times):
    """By how many bytes the process grows when it does this so many times."""
    run(warm_up)
    gc.collect()
    before = resident()
    run(times)
    gc.collect()
    return resident() - before


def test_a_hundred_thousand_robots_leave_nothing():
    def run(times):
        for _ in range(times):
            robots = Site(SMALL)
            assert robots.allowed("/bob", "FerrisBot") and not robots.allowed("/bob", "BobBot")

    assert grown(run, 5000, 100_000) < 1_000_000


def test_results_and_errors_leave_nothing():
    long = Site(b"User-agent: *\nDisallow: /" + b"a" * 5000 + b"$\nSitemap: /" + b"b" * 3000)

    def run(times):
        for _ in range(times):
            with pytest.raises(OverlongRuleError):
                long.allowed("/", "a")
            with pytest.raises(OverlongRuleError):
                Site(LARGE + b"Disallow: /" + b"a" * 5000 + b"$").verdicts(URLS, "Googlebot")
            assert len(long.sitemaps[0]) == 3001 and long.matrix(["/"] * 10, AGENTS) == [[None] * 10] * 4

    assert grown(run, 300, 3000) < 1_000_000


OUT_OF_MEMORY = """
import resource, sys
from texting_robots import Matrix, Site

body = sys.stdin.buffer.read()
urls = ["/", "/shop/1/a?page=2"] * 50
expected, matrix = Site(body).verdicts(urls, "BobBot"), Matrix(urls, ["BobBot", "a"])
denied = matrix.denials(body)
size = int(open("/proc/self/statm").read().split()[0]) * resource.getpagesize()
kept, errors = [], 0
resource.setrlimit(resource.RLIMIT_AS, (size + 48_000_000, resource.RLIM_INFINITY))
for turn in range(3):
    try:
        while True:
            robots = Site(body)
            robots.allowed("/", "BobBot")
            kept.append(robots)
    except MemoryError:
        errors += 1
    for robots in kept[:3]:
        try:
            assert robots.verdict(urls[1], "BobBot") == expected[1]
            robots.verdicts(urls, "BobBot"), robots.matrix(urls, ["BobBot", "a"]), robots.sitemaps, robots.agents, robots.delay("BobBot")
            assert matrix.denials(body) == denied
        except MemoryError:
            errors += 1
    made = len(kept)
    del kept[:], robots
    assert Site(body).verdicts(urls, "BobBot") == expected and matrix.denials(body) == denied
print(errors, made)
"""


def test_without_memory_there_is_a_memory_error():
    """And the same results as before, once what took the memory is dropped."""
    errors, made = map(int, package.run(["-c", OUT_OF_MEMORY], input=LARGE.decode() * 20).split())
    assert errors >= 3 and made > 3
