"""The database of a cache: what it keeps for the next start and for several processes, and what becomes of faults."""

import signal
import sqlite3
import subprocess
import sys
import time
import zlib
from concurrent.futures import ThreadPoolExecutor

import package
import pytest
from test_cache import A, BUSY, CLOSED, DAY, HOUR, HTTP, HTTPS, RULES, caches, fetched, file  # noqa: F401 (a fixture)

from texting_robots.cache import Action, Look, RobotsCache, State


@pytest.fixture
def path(tmp_path):
    return tmp_path / "robots.sqlite3"


def test_a_database_keeps_what_a_server_answered(caches, path):
    cache = caches(database=path)
    fetched(cache, A, file(RULES + b"Sitemap: /s.xml\n", ETag='"1"'))
    fetched(cache, "http://b.example", (404, {}, b""))
    fetched(cache, "http://c.example", (503, {"Retry-After": "900"}, b""))
    fetched(cache, "http://d.example", None)
    assert caches.sitemaps == [(A, ["/s.xml"])]
    cache.close()
    caches.now += 600
    cache = caches(database=path)
    states = {look.robots_url[7]: look.site.state for look in map(cache.look, ("http://a.example", "http://b.example", "http://c.example"))}
    assert states == {"a": State.FILE, "b": State.NO_FILE, "c": State.UNREACHABLE} and cache.look("http://d.example")[0] is Action.FETCH
    assert cache.verdict(cache.look(A).site, "http://a.example/private/", "x") == (False, 2, "")
    assert caches.sitemaps == [(A, ["/s.xml"])] * 2 and caches.events["read"] == 4
    caches.now += 23 * HOUR
    assert cache.look(A).fetch.headers["If-None-Match"] == '"1"'
    caches.now += 40 * DAY
    caches(database=path)
    assert sqlite3.connect(path).execute("SELECT COUNT(*) FROM sites").fetchone() == (0,)


def test_a_database_keeps_that_a_server_fails(caches, path):
    """So the file counts on after the next start."""
    cache = caches(database=path)
    fetched(cache, A, file())
    caches.now += DAY
    fetched(cache, A, BUSY)
    cache.close()
    caches.now += 300
    assert caches(database=path).look(A)[0] is Action.REFRESH


def test_a_clock_that_was_wrong(caches, path):
    """What was fetched in the future counts no longer than anything else."""
    caches.now += 400 * DAY
    cache = caches(database=path)
    fetched(cache, A, file())
    caches.now -= 400 * DAY
    for it in (cache, caches(database=path)):
        assert it.look(A).site.expires == caches.now + DAY


def test_a_database_that_fails(caches, path, tmp_path, caplog):
    """It is a warning, and what it doesn't keep is fetched again."""
    cache = caches(database=path, budget=1)
    fetched(cache, A, file())
    sqlite3.connect(path, isolation_level=None).execute("DROP TABLE sites")
    fetched(cache, "http://b.example", file())
    assert cache.look(A)[0] is Action.FETCH and len(caplog.records) == 1 and "fails, and is used no more" in caplog.text
    with pytest.raises(sqlite3.OperationalError):
        caches(database=tmp_path / "no folder/robots.sqlite3")


def damaged(path):
    path.write_bytes(b"SQLite format 3\0" + b"#" * 9000)


def text(path):
    path.write_bytes(b"#" * 9000)


def of_a_later_format(path):
    sqlite3.connect(path).execute("PRAGMA user_version = 9")


def of_another_program(path):
    connection = sqlite3.connect(path)
    connection.execute("PRAGMA user_version = 1")
    connection.execute("CREATE TABLE sites (name)")


@pytest.mark.parametrize("make", [damaged, text, of_a_later_format, of_another_program])
def test_a_file_that_is_no_such_database_is_put_aside(caches, path, tmp_path, caplog, make):
    make(path)
    before = path.read_bytes()
    with caches(database=path) as cache:
        fetched(cache, A, file())
    assert caches(database=path).look(A)[0] is Action.USE and (tmp_path / "robots.sqlite3.damaged").read_bytes()[100:] == before[100:]
    assert len(caplog.records) == 1 and f"begun anew, and the old file is now {path}.damaged" in caplog.text


def test_a_database_of_the_format_before_is_taken_over(caches, path):
    now = caches.now
    connection = sqlite3.connect(path)
    connection.execute("""CREATE TABLE sites (address TEXT PRIMARY KEY, state INTEGER, is_failing INTEGER, expires REAL, refresh REAL,
        source TEXT, etag TEXT, packed BLOB) WITHOUT ROWID""")
    packed = zlib.compress(RULES)
    connection.execute("INSERT INTO sites VALUES (?, 1, 0, ?, ?, ?, '1', ?)", (A, now + DAY, now + HOUR, A, packed))
    connection.execute("INSERT INTO sites VALUES (?, 1, 1, ?, ?, ?, '', ?)", (HTTP, now - DAY, now + 60, HTTPS, packed))
    connection.execute("PRAGMA user_version = 1")
    connection.commit()
    connection.close()
    cache = caches(database=path)
    good, failing = cache.look(A).site, cache.look(HTTP).site
    assert (good.is_failing, good.etag, good.expires) == (False, "1", now + DAY)
    assert (failing.failing_since, failing.failures, failing.source, failing.counts(now)) == (now - DAY, 1, HTTPS, True)


def test_a_database_may_be_used_from_any_thread(caches, path):
    cache = caches(database=path, budget=1)
    with ThreadPoolExecutor(1) as other:
        fetched(cache, A, file())
        other.submit(fetched, cache, "http://b.example", file()).result()
        assert other.submit(cache.look, A).result()[0] is cache.look("http://b.example")[0] is Action.USE


@pytest.mark.alone
def test_a_lock_of_another_program(caches, path, caplog):
    """It is waited for 0.2 seconds, once in a second; what couldn't be written is written afterwards."""
    cache = caches(database=path)
    other = sqlite3.connect(path, isolation_level=None)
    other.execute("BEGIN IMMEDIATE")
    began = time.monotonic()
    for name in "abcdefgi":
        fetched(cache, f"http://{name}.example", file())
    assert 0.15 < time.monotonic() - began < 0.9 and not caplog.records
    other.execute("COMMIT")
    assert other.execute("SELECT count(*) FROM sites").fetchone() == (0,)
    fetched(cache, HTTP, file())
    assert other.execute("SELECT count(*) FROM sites").fetchone() == (9,)
    cache._disk._locked_until -= 1
    assert cache._disk.get(HTTP) and not cache._disk._locked_until
    assert cache._disk._connection.execute("PRAGMA busy_timeout").fetchone() == (200,)


def test_many_sites_are_written_at_once(caches, path):
    cache, other = caches(database=path), sqlite3.connect(path)
    fetches = [cache.look(f"http://{number}.example").fetch for number in range(150)]
    counts = [other.execute("SELECT count(*) FROM sites").fetchone()[0] for fetch in fetches if cache.received(fetch, *file())]
    assert sorted({*counts}) == [0, 100, 150]
    first, last = (cache.look(f"http://{name}.example").fetch for name in "ab")
    cache.received(first, *file())
    assert other.execute("SELECT count(*) FROM sites").fetchone() == (150,)
    cache._disk._due = 0
    assert cache.look("http://c.example").fetch and other.execute("SELECT count(*) FROM sites").fetchone() == (151,)
    cache.received(last, *file())
    cache.close()
    assert other.execute("SELECT count(*) FROM sites").fetchone() == (152,)
    assert other.execute("SELECT count(*) FROM leases").fetchone() == (0,)


def test_of_several_processes_one_fetches_a_file(caches, path):
    """The others look again after a second, until it has, or for as long as an answer may take."""
    one, other = (caches(database=path) for _ in range(2))
    fetch = one.look(A).fetch
    assert other.look(A) == Look(Action.WAIT, A, again=1)
    one.received(fetch, *file())
    assert other.look(A).site.packed
    caches.now += 23 * HOUR
    fetch = one.look(A).fetch
    old = other.look(A).site
    assert other.look(A) == Look(Action.USE, A, old)
    new = one.received(fetch, *file(CLOSED)).known[A]
    assert other.look(A).site is not old and other.look(A).site.packed == new.packed and not other._flights
    caches.now += DAY
    assert one.look(A).fetch and other.look(A)[0] is Action.WAIT
    caches.now += 301
    assert other.look(A).fetch


def test_a_request_that_a_process_does_not_make_any_more(caches, path):
    """When it ends, others may make it at once."""
    one, other = (caches(database=path) for _ in range(2))
    assert one.look(A).fetch and other.look(A)[0] is Action.WAIT
    one.close()
    assert other.look(A).fetch


ENDS = """
import os, signal, sys
from texting_robots.cache import RobotsCache
assert RobotsCache(database=sys.argv[1]).look("http://a.example/").fetch
os.kill(os.getpid(), signal.SIGKILL)
"""


def test_a_request_of_a_process_that_was_killed(path):
    """Another one makes it, as soon as that process isn't there any more."""
    assert subprocess.run([sys.executable, "-c", ENDS, path], env=package.WITH_PACKAGE).returncode == -signal.SIGKILL
    with RobotsCache(database=path) as cache, RobotsCache(database=path) as other:
        assert cache.look(A).fetch and other.look(A)[0] is Action.WAIT


FORKED = """
import os, sys
from texting_robots.cache import Action, RobotsCache
cache = RobotsCache(database=sys.argv[1])
def fetch(name, number):
    for it in range(number):
        cache.received(cache.look(f"http://{name}-{it}.example").fetch, 200, {}, b"")
fetch("before", 50)
children = []
for name in "abc":
    children.append(os.fork())
    if not children[-1]:
        fetch(name, 200)
        cache.close()
        os._exit(0)
fetch("parent", 200)
cache.close()
print([os.waitpid(child, 0)[1] for child in children])
"""


@pytest.mark.alone
def test_a_fork_with_a_database(path):
    assert package.run(["-c", FORKED, path]) == "[0, 0, 0]\n"
    found = sqlite3.connect(path)
    assert found.execute("PRAGMA integrity_check").fetchone() == ("ok",)
    assert found.execute("SELECT count(*) FROM sites").fetchone() == (850,)


TOGETHER = """
import sys, time
from texting_robots.cache import RobotsCache
time.sleep(max(0, float(sys.argv[2]) - time.time()))
with RobotsCache(database=sys.argv[1]) as cache:
    print(sum(bool((fetch := cache.look(f"http://{number}.example").fetch) and cache.received(fetch, 200, {}, b"")) for number in range(300)))
"""


@pytest.mark.alone
def test_processes_that_start_at_the_same_time(path):
    """Fetch each file once between them, nearly."""
    words = [sys.executable, "-c", TOGETHER, path, str(time.time() + 3)]
    several = [subprocess.Popen(words, env=package.WITH_PACKAGE, stdout=subprocess.PIPE, stderr=subprocess.STDOUT, text=True) for _ in range(4)]
    assert 300 <= sum(int(it.communicate(timeout=120)[0]) for it in several) <= 312  # as a lock costs an entry on a busy machine


def test_the_first_file_for_which_there_is_no_room_is_a_warning(caches, path, caplog):
    for database, warnings in [("", 1), (path, 0)]:
        caplog.clear()
        cache = caches(budget=1, database=database)
        for name in "abc":
            fetched(cache, f"http://{name}.example", file())
        assert caplog.text.count("budget, or TEXTING_ROBOTS_BUDGET") == len(caplog.records) == warnings


def test_with_a_database_nothing_is_fetched_again(caches, path):
    cache = caches(database=path, budget=20_000)
    for number in range(100):
        fetched(cache, f"http://{number}.example", file())
    assert len(cache) <= 20_000 // 700 and cache.memory <= 20_000
    assert {cache.look(f"http://{number}.example")[0] for number in range(100)} == {Action.USE}
