"""The cache of robots.txt files while servers fail: when they are asked again, and what counts meanwhile."""

import random

import package  # noqa: F401 (puts the package on the path)
import pytest
from test_cache import A, BUSY, DAY, HOUR, HTTP, HTTPS, cache, caches, fetched, file, moved  # noqa: F401 (fixtures)

from texting_robots.cache import Action, Look, RobotsCache, State


@pytest.mark.parametrize(
    "seconds, fields",
    [
        (5, {}),
        (120, {"Retry-After": "120"}),
        (2, {"Retry-After": "2"}),
        (5, {"Retry-After": "0"}),
        (DAY, {"retry-after": "9" * 400}),
        (60, {b"Retry-After": b"Sun, 09 Sep 2001 01:47:40 GMT"}),
        (5, {"Retry-After": "Sun, 09 Sep 2001 00:00:00 GMT"}),
        (5, {"Retry-After": "soon"}),
        (5, {"Retry-After": ""}),
    ],
)
def test_when_a_server_that_fails_is_asked_again(caches, cache, seconds, fields):
    site, _ = fetched(cache, A, (503, fields, b""))
    assert (site.state, site.refresh) == (State.UNREACHABLE, caches.now + seconds)
    assert cache.verdict(site, "http://a.example/", "x") == (False, None, "unreachable") and cache.verdict(site, A, "x").allowed
    caches.now += seconds - 0.5
    assert cache.look(A) == Look(Action.USE, A, site)
    caches.now += 0.5
    assert cache.look(A)[0] is Action.FETCH


def waits(cache, caches, fields, number):
    """How many seconds there are between so many requests to a server that always fails with these fields."""
    found = []
    for _ in range(number):
        site = fetched(cache, A, (503, fields, b""))[0]
        found.append(site.refresh - caches.now)
        caches.now = site.refresh
    return found


USUAL = [5, 10, 20, 40, 80, 160, 300, 300]


@pytest.mark.parametrize(
    "fields, seconds", [({}, USUAL), ({"Retry-After": "0"}, [5, 5, *USUAL[2:]]), ({"Retry-After": "60"}, [60, 60, 60, 60, 80, 160, 300, 300])]
)
def test_the_longer_a_server_fails_the_less_often_it_is_asked(caches, cache, fields, seconds):
    """So at most 17 times in an hour, whatever it says itself; and often again as soon as it has answered."""
    assert waits(cache, caches, fields, 8) == seconds
    cache, start = caches(), caches.now
    assert start + sum(waits(cache, caches, fields, 17)) >= start + HOUR - 10
    fetched(cache, A, file())
    caches.now += DAY
    assert waits(cache, caches, {}, 2) == [5, 10]


def test_waits_are_up_to_a_tenth_longer_by_chance(caches):
    chance = random.Random(1)
    found = waits(caches(chance=chance.random), caches, {}, 8)
    expected = random.Random(1)
    assert found == pytest.approx([usual * (1 + expected.random() / 10) for usual in USUAL], abs=1e-4)
    assert waits(caches(retry=2, chance=lambda: 1), caches, {}, 2) == pytest.approx([2.2, 2.2], abs=1e-4)


def test_a_request_without_an_answer_counts_as_failed(caches, cache):
    """Its site isn't waited for any longer, and what is answered later has no effect."""
    first, other = cache.look(A).fetch, cache.look(HTTP).fetch
    assert cache.look(A) == Look(Action.WAIT, A, again=300)
    caches.now += 299
    assert cache.look(A).again == 1 and cache.received(other, *moved(HTTPS)).fetch.address == HTTPS
    caches.now += 1
    look = cache.look(A)
    assert (look.action, look.site.state, look.site.refresh) == (Action.USE, State.UNREACHABLE, caches.now + 5)
    assert cache.look(HTTPS)[0] is Action.WAIT and cache.received(first, *file()) == cache.failed(first) == ({}, None)
    caches.now += 299
    assert cache.look(HTTPS).site.state is cache.look(HTTP).site.state is State.UNREACHABLE
    assert cache.look(A)[0] is Action.FETCH and caches.events == {"unanswered": 2}
    assert caches(answer_within=7).look(A).fetch and cache.memory == 2 * 740 + 740 + 610


@pytest.mark.parametrize("set_back", [0, HOUR])
def test_a_request_without_an_answer_behind_one_that_lasts_longer(caches, cache, set_back):
    """The older one has followed a redirect meanwhile, or the clock has been set back."""
    older = cache.look(HTTP).fetch
    caches.now += 1 - set_back
    assert cache.look(A)[0] is Action.FETCH
    caches.now += 299
    assert cache.received(older, *moved(HTTPS)).fetch
    assert cache.look(A) == Look(Action.WAIT, A, again=1)
    caches.now += 1
    look = cache.look(A)
    assert (look.action, look.site.state) == (Action.USE, State.UNREACHABLE)
    assert caches.events == {"unanswered": 1}
    assert cache.look(HTTP)[0] is cache.look(HTTPS)[0] is Action.WAIT


def test_a_refresh_without_an_answer_counts_as_failed(caches, cache):
    """Also for sites that nobody asks about."""
    fetched(cache, A, file())
    caches.now += 23 * HOUR
    assert cache.look(A)[0] is Action.REFRESH
    caches.now += 301
    assert cache.look(HTTP)[0] is Action.FETCH and len(cache._flights) == 1
    site = cache.look(A).site
    assert (site.state, site.is_failing, site.failures, site.refresh) == (State.FILE, True, 1, caches.now + 5)


@pytest.mark.parametrize("call", [lambda cache, fetch: cache.received(fetch, 200, {}, "#"), lambda cache, fetch: cache.received(fetch, 200, {"ETag": 1}, b"")])
def test_an_answer_of_a_wrong_type_is_no_answer(cache, call):
    fetch = cache.look(A).fetch
    with pytest.raises(TypeError, match="body has the type str: it has to be bytes|headers have 'ETag': 1, and both have to be str or bytes"):
        call(cache, fetch)
    assert cache.received(fetch, *file()).known[A].state is State.FILE


def test_an_error_of_the_caller_leaves_nothing_on_its_way(caches):
    def fails(address, sitemaps):
        raise ValueError(address)

    cache = RobotsCache(clock=caches.clock, found=fails)
    fetch = cache.received(cache.look(HTTP).fetch, *moved(HTTPS)).fetch
    with pytest.raises(ValueError, match=HTTP):
        cache.received(fetch, *file(b"Sitemap: /s"))
    assert cache.look(HTTP)[0] is cache.look(HTTPS)[0] is Action.USE


def test_whether_a_host_was_ever_reached(caches, cache):
    """By it or by an earlier site of a row of redirects; and once it was, it always was."""
    first, second = cache.look(HTTP).fetch, cache.look(A).fetch
    assert not cache.failed(second, was_reached=False).known[A].was_reached
    second = cache.received(first, *moved(HTTPS)).fetch
    known = cache.failed(second, was_reached=False).known
    assert (known[HTTP].was_reached, known[HTTPS].was_reached) == (True, False)
    caches.now += HOUR
    assert cache.failed(cache.look(A).fetch).known[A].was_reached
    caches.now += HOUR
    assert cache.failed(cache.look(A).fetch, was_reached=False).known[A].was_reached


@pytest.mark.parametrize("after, later", [("last file", "FILE"), ("no file", "NO_FILE"), ("closed", "UNREACHABLE")])
@pytest.mark.parametrize("start", ["a file", "nothing"])
@pytest.mark.parametrize("is_restarted", [False, True])
def test_a_server_that_fails_for_thirty_days(caches, tmp_path, after, later, start, is_restarted):
    """A restart changes nothing, nor does the setting before."""

    def made():
        return caches(database=str(tmp_path / "robots.sqlite3"), after_30_days=after)

    cache, began = made(), caches.now
    before = "FILE" if start == "a file" else "UNREACHABLE"
    later = later if start == "a file" or after != "last file" else "UNREACHABLE"
    fetched(cache, A, file() if start == "a file" else BUSY)
    for day in range(1, 40):
        caches.now = began + day * DAY
        if is_restarted:
            cache.close()
            cache = made()
        site = fetched(cache, A, BUSY)[0]
        since = began + (DAY if start == "a file" else 0)
        assert (site.failing_since, site.state.name) == (since, before if caches.now < since + 30 * DAY else later), day
        assert cache.look(A) == Look(Action.USE, A, site)
    caches.now += DAY
    assert fetched(cache, A, file())[0].failing_since == 0
