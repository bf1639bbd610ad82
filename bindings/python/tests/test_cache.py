"""The cache of robots.txt files, which makes no requests: what it asks for, what counts when, and what it keeps."""

import doctest
import gzip
import pickle
import random
import zlib
from collections import Counter

import package  # noqa: F401 (puts the package on the path)
import pytest

from texting_robots import FILE_LIMIT, UrlError, _memory, _names, robots_url
from texting_robots import cache as module
from texting_robots.cache import Action, CacheVerdict, Decision, Look, RobotsCache, State

RULES, CLOSED = b"User-agent: *\nDisallow: /private/\n", b"User-agent: *\nDisallow: /\n"
A, HTTP, HTTPS = "http://a.example/robots.txt", "http://h.example/robots.txt", "https://h.example/robots.txt"
HOUR, DAY = 3600, 86_400
BUSY = (503, {}, b"")


class Caches:
    """Makes caches that share a clock, and counts what happens in them."""

    def __init__(self):
        self.now, self.events, self.sitemaps = 1_000_000_000.0, Counter(), []

    def clock(self):
        return self.now

    def __call__(self, **words):
        words = {"chance": lambda: 0.0} | words
        return RobotsCache(clock=self.clock, count=lambda name: self.events.update([name]), found=lambda *found: self.sitemaps.append(found), **words)


@pytest.fixture
def caches():
    return Caches()


@pytest.fixture
def cache(caches):
    return caches()


def fetched(cache, url, *responses):
    """What is known of a URL's site after these responses, and the addresses that were asked for."""
    look, asked, known = cache.look(url), [], {}
    fetch, responses = look.fetch, list(responses)
    while fetch and responses:
        asked.append(fetch.address)
        response = responses.pop(0)
        step = cache.received(fetch, *response) if response else cache.failed(fetch)
        known, fetch = known | step.known, step.fetch
    assert not fetch and not responses
    return known[look.robots_url], asked


def file(body=RULES, **fields):
    return 200, {name.replace("_", "-"): value for name, value in fields.items()}, body


def moved(address):
    return 301, {"Location": address}, b""


def test_what_to_do_for_a_url(caches, cache):
    """One request for all that want the file, and none before it is time."""
    look = cache.look("http://a.example/x")
    assert (look.action, look.robots_url, look.fetch.address, look.fetch.headers) == (Action.FETCH, A, A, {"Accept-Encoding": "identity"})
    assert cache.look("http://a.example/y")[0] is Action.WAIT and cache.look("https://a.example/")[0] is Action.FETCH
    site = cache.received(look.fetch, *file()).known[A]
    assert cache.look("http://a.example/x") == Look(Action.USE, A, site)
    assert (site.state, site.expires, site.refresh) == (State.FILE, caches.now + DAY, caches.now + 23 * HOUR)
    assert cache.verdict(site, "http://a.example/private/", "FerrisBot/1.0") == (False, 2, "")
    assert cache.verdict(site, "http://a.example/", "FerrisBot/1.0") == (True, None, "")
    with pytest.raises(UrlError):
        cache.look("ftp://a.example/")


def test_the_other_name_of_a_verdict():
    """A pickle that was made when the class had it can be read, too."""
    made = b"\x80\x02ctexting_robots._rules\nDecision\nq\x00\x89K\x02X\x00\x00\x00\x00q\x01\x87q\x02\x81q\x03."
    assert Decision is CacheVerdict and pickle.loads(made) == CacheVerdict(False, 2)
    assert CacheVerdict(True) and not CacheVerdict(False, 2) and not CacheVerdict(False, None, "unreachable")


def test_an_older_file_counts_while_a_newer_one_is_fetched_in_time(caches, cache):
    old, _ = fetched(cache, A, file())
    caches.now += DAY - 100
    look = cache.look(A)
    assert (look.action, look.site) == (Action.REFRESH, old) and cache.look(A) == Look(Action.USE, A, old)
    caches.now += 200
    assert cache.look(A) == Look(Action.USE, A, old)
    new = cache.received(look.fetch, *file(CLOSED)).known[A]
    assert cache.look(A) == Look(Action.USE, A, new) and new.expires == caches.now + DAY


def test_no_file_counts_for_longer_unless_its_server_fails(caches, cache):
    fetched(cache, A, file())
    caches.now += DAY
    look = cache.look(A)
    assert look[0] is Action.FETCH and cache.look(A)[0] is Action.WAIT
    site = cache.received(look.fetch, *BUSY).known[A]
    for seconds in (5, 10, 20):
        assert site.state is State.FILE and site.is_failing and cache.look(A) == Look(Action.USE, A, site)
        caches.now += seconds
        look = cache.look(A)
        assert look[:3] == (Action.REFRESH, A, site) and cache.look(A) == Look(Action.USE, A, site)
        site = cache.failed(look.fetch).known[A]
    assert not cache.verdict(site, "http://a.example/private/", "x").allowed and caches.events == {"stale": 4}
    caches.now += 40
    site, _ = fetched(cache, A, (404, {}, CLOSED))
    assert (site.state, site.is_failing) == (State.NO_FILE, False) and cache.verdict(site, "http://a.example/private/", "x").allowed
    caches.now += DAY - 4
    assert fetched(cache, A, BUSY)[0].state is State.UNREACHABLE


def test_a_file_that_has_not_changed(caches, cache):
    """It is asked for by its version, at the address where it was."""
    fetched(cache, HTTP, moved("http://cdn.example/r"), file(ETag='"1"'))
    for allowed, (status, fields, body) in [(True, (304, {}, b"")), (True, (304, {}, b"")), (False, (200, {}, CLOSED))]:
        caches.now += 23 * HOUR
        first = cache.look(HTTP).fetch
        assert "If-None-Match" not in first.headers
        second = cache.received(first, *moved("http://cdn.example/r")).fetch
        assert second.headers == {"Accept-Encoding": "identity", "If-None-Match": '"1"'}
        site = cache.received(second, status, fields, body).known[HTTP]
        assert site.expires == caches.now + DAY
        assert cache.verdict(site, "http://h.example/", "x").allowed is allowed and not cache.verdict(site, "http://h.example/private/", "x").allowed
    assert caches.events["not_modified"] == 2
    assert fetched(cache, A, (304, {}, b""))[0].state is State.UNREACHABLE
    for number, etag in enumerate(['"' + "x" * 200 + '"', '"\u00e9"', '"\n"']):
        fetched(cache, f"http://{number}.example", file(ETag=etag))
        caches.now += 23 * HOUR
        assert "If-None-Match" not in cache.look(f"http://{number}.example").fetch.headers


def test_a_file_that_has_not_changed_is_an_answer(caches, cache):
    """Its server doesn't fail any more."""
    fetched(cache, A, file(ETag='"1"'))
    caches.now += DAY
    assert fetched(cache, A, BUSY)[0].is_failing
    caches.now += 300
    site, _ = fetched(cache, A, (304, {}, b""))
    assert (site.is_failing, site.expires) == (False, caches.now + DAY)


def test_a_site_that_joins_another_gets_the_file_that_has_not_changed_there(caches, cache):
    """Its own file before had the same version, by accident."""
    fetched(cache, HTTPS, file(ETag='"1"'))
    fetched(cache, A, file(CLOSED, ETag='"1"'))
    caches.now += 23 * HOUR
    one, other = cache.look(HTTPS).fetch, cache.look(A).fetch
    assert cache.received(other, *moved(HTTPS)) == ({}, None)
    known = cache.received(one, 304, {}, b"").known
    assert [cache.verdict(known[address], "http://a.example/", "x").allowed for address in (HTTPS, A)] == [True, True]


def test_two_versions_of_a_file(caches, cache):
    """Neither is asked for, if one site knows this one and another that one."""
    fetched(cache, HTTP, moved(HTTPS), file(ETag='"1"'))
    caches.now += 23 * HOUR
    fetched(cache, HTTPS, file(ETag='"2"'))
    caches.now += 23 * HOUR
    step = cache.received(cache.look(HTTP).fetch, *moved(HTTPS))
    assert step.fetch.address == HTTPS and "If-None-Match" not in step.fetch.headers


def test_http_and_https_of_one_chain_are_fetched_once(cache):
    look = cache.look(HTTP)
    step = cache.received(look.fetch, *moved(HTTPS))
    assert (step.known, step.fetch.address) == ({}, HTTPS) and cache.look(HTTPS)[0] is Action.WAIT
    assert set(cache.received(step.fetch, *file()).known) == {HTTP, HTTPS}
    assert cache.look(HTTPS)[0] is cache.look(HTTP)[0] is Action.USE


def test_a_redirect_to_a_file_that_is_known_or_on_its_way(caches, cache):
    known, _ = fetched(cache, HTTPS, file())
    site, asked = fetched(cache, HTTP, moved(HTTPS))
    assert asked == [HTTP] and (site.packed, site.expires, site.robots_url) == (known.packed, known.expires, HTTP)
    cache = caches()
    one, other = cache.look(HTTP).fetch, cache.look(HTTPS).fetch
    assert cache.received(one, *moved(HTTPS)) == cache.failed(one) == ({}, None)
    assert set(cache.received(other, *file()).known) == {HTTP, HTTPS}
    cache = caches()
    one, other = cache.look(HTTP).fetch, cache.look(HTTPS).fetch
    assert cache.received(one, *moved(HTTPS)) == ({}, None) and cache.received(other, *moved(HTTP)).fetch.address == HTTP


def test_a_redirect_to_a_file_that_can_not_be_reached(caches, cache):
    """Then it isn't asked for either, and an older file counts on."""
    fetched(cache, HTTP, file())
    caches.now += DAY
    fetched(cache, HTTPS, BUSY)
    site, asked = fetched(cache, HTTP, moved(HTTPS))
    assert asked == [HTTP] and (site.state, site.is_failing) == (State.FILE, True)
    site, asked = fetched(cache, "http://b.example", moved(HTTPS))
    assert asked == ["http://b.example/robots.txt"] and site.state is State.UNREACHABLE


def test_redirects_are_counted_for_each_site(caches):
    """The sixth in a row is a missing file, but not for a site that is asked later in the row."""
    steps = [moved(f"/{number}") for number in range(4)]
    cache = caches()
    site, asked = fetched(cache, A, *steps, moved(A), file())
    assert site.state is State.FILE and len(asked) == 6
    assert fetched(caches(), A, *steps, moved(A), moved(A))[0].state is State.NO_FILE
    cache = caches()
    fetch = cache.look(HTTP).fetch
    for response in [moved(HTTPS), *steps]:
        fetch = cache.received(fetch, *response).fetch
    step = cache.received(fetch, *moved("http://a.example/9"))
    assert {address: site.state for address, site in step.known.items()} == {HTTP: State.NO_FILE}
    assert {address: site.state for address, site in cache.received(step.fetch, *file()).known.items()} == {HTTPS: State.FILE}


@pytest.mark.parametrize("location", ["ftp://a.example/", "data:,", "http://[/", "http://a.example/\udce9"])
def test_a_redirect_that_leads_nowhere(cache, location):
    assert fetched(cache, A, moved(location))[0].state is State.UNREACHABLE


def raw(body):
    return zlib.compress(body)[2:-4]


def gzipped(body):
    return gzip.compress(body, mtime=0)


CUT = gzipped(RULES + random.Random(1).randbytes(5000))[:-60]
BOMB = gzipped(RULES + b"#" * 50_000_000)


@pytest.mark.parametrize(
    "encoding, body, kept",
    [
        ("", RULES, RULES),
        ("identity", RULES, RULES),
        ("gzip", gzipped(RULES), RULES),
        ("GZIP, x-gzip", gzipped(gzipped(RULES)), RULES),
        ("gzip", gzipped(RULES) + gzipped(b"Disallow: /x\n"), RULES + b"Disallow: /x\n"),
        ("gzip", gzipped(b""), b""),
        ("gzip", b"", b""),
        ("gzip", RULES, RULES),
        ("gzip", b"# " + RULES, b"# " + RULES),
        ("gzip", gzipped(RULES)[:-8] + b"12345678", RULES),
        ("deflate", zlib.compress(RULES), RULES),
        ("deflate", raw(RULES), RULES),
        ("deflate", RULES, RULES),
    ],
)
def test_a_compressed_body(cache, encoding, body, kept):
    site, _ = fetched(cache, A, (200, {"Content-Encoding": encoding}, body))
    assert zlib.decompress(site.packed) == kept


@pytest.mark.parametrize("encoding, body", [("gzip", CUT), ("gzip", BOMB), ("deflate", zlib.compress(RULES + b"#" * 999)[:-9])])
def test_the_part_of_a_compressed_body_that_is_there_or_counts(cache, encoding, body):
    site, _ = fetched(cache, A, (200, {"Content-Encoding": encoding}, body))
    found = zlib.decompress(site.packed)
    assert found.startswith(RULES) and len(found) <= FILE_LIMIT


@pytest.mark.parametrize("encoding, body", [("gzip", b"\x1f\x8b\x08" + bytes(7)), ("gzip", b"\0\1\2"), ("deflate", raw(RULES)[:-5]), ("br", RULES)])
def test_a_body_that_can_not_be_unpacked(cache, encoding, body):
    """It's no file without rules, but one that can't be had."""
    assert fetched(cache, A, (200, {"Content-Encoding": encoding}, body))[0].state is State.UNREACHABLE


def test_encodings_in_fields_of_their_own(cache):
    class Fields(dict):
        def items(self):
            return [("Content-Encoding", "gzip")] * 2

    site, _ = fetched(cache, A, (200, Fields(), gzip.compress(gzip.compress(RULES))))
    assert zlib.decompress(site.packed) == RULES


def test_a_body_that_does_not_come_to_its_end(caches):
    assert fetched(caches(), A, (200, {}, RULES, False))[0].state is State.UNREACHABLE
    assert fetched(caches(), A, (200, {}, RULES.ljust(FILE_LIMIT, b"#"), False))[0].state is State.FILE


def test_a_file_is_parsed_again_rather_than_fetched(caches):
    """In the order in which they were used."""
    cache, filler = caches(budget=100_000), b"#" * 3000
    for number in range(60):
        fetched(cache, f"http://{number}.example", file(RULES + filler))
        assert cache.memory <= 100_000
    assert len(cache) == 60 and not caches.events["evicted"]
    for number in range(60):
        look = cache.look(f"http://{number}.example")
        assert look[0] is Action.USE and cache.verdict(look.site, f"http://{number}.example/private/", "x").line == 2 and cache.memory <= 100_000
    assert caches.events["parsed"] >= 50
    for number in range(60, 200):
        fetched(cache, f"http://{number}.example", file(RULES + filler))
    kept = [number for number in range(200) if cache.look(f"http://{number}.example")[0] is Action.USE]
    assert kept[-1] == 199 and kept == list(range(200 - len(kept), 200)) and 75_000 // 840 < len(kept) <= 100_000 // 740
    assert caches.events["evicted"] == 200 - len(kept)


def test_what_was_evicted_is_not_kept_again(caches):
    """Also if it is still used."""
    cache = caches(budget=1)
    old, new = (fetched(cache, f"http://{name}.example", file())[0] for name in "ab")
    assert not cache.verdict(old, "http://a.example/private/", "x").allowed
    assert old.rules is None and new.rules


def test_the_memory_of_each_crawler_counts(cache):
    site, _ = fetched(cache, A, file(b"".join(b"User-agent: b%d\nDisallow: /%d\n\n" % (number, number) for number in range(50))))
    before = cache.memory
    for number in range(50):
        cache.verdict(site, "http://a.example/", f"b{number}")
    assert cache.memory == site.memory + site.rules.memory > before + 50 * 100


def test_sitemaps_are_told_once(caches, cache):
    for number, names in enumerate(["a", "a", "ab", "", "ab"]):
        caches.now += DAY
        fetched(cache, A, file(b"# %d\n" % number + b"".join(b"Sitemap: /%c\n" % it for it in names.encode())))
    assert caches.sitemaps == [(A, ["/a"]), (A, ["/a", "/b"]), (A, ["/a", "/b"])]


def test_a_file_that_takes_too_long(caches):
    """10,000 rules with a star: each may be compared with all of a long URL."""
    body = b"User-agent: *\n" + b"".join(b"Disallow: *a*%d*b\n" % number for number in range(10)) + b"Disallow: *a*c*b\n" * 9_990
    cache = caches()
    site, _ = fetched(cache, A, file(body))
    assert cache.verdict(site, "http://a.example/short", "x").allowed
    assert cache.verdict(site, "http://a.example/a7b", "x") == (False, 9, "")
    assert cache.verdict(site, "http://a.example/" + "a" * 2000, "x") == (False, None, "a verdict may take too long")
    cache = caches(cost_limit=5)
    assert cache.verdict(fetched(cache, A, file())[0], "http://a.example/private/", "x").problem == "a verdict may take too long"
    cache = caches(cost_limit=10**9)
    assert cache.verdict(fetched(cache, A, file(body))[0], "http://a.example/" + "a" * 2000, "x").allowed


def test_a_long_url_that_takes_too_long(caches):
    """One rule with a star takes twice the length of the URL at most."""
    cache = caches(cost_limit=100_000)
    site, _ = fetched(cache, A, file(b"User-agent: *\nDisallow: /*a*b\n"))
    assert cache.verdict(site, "http://a.example/" + "a" * 2_000, "x").allowed
    assert cache.verdict(site, "http://a.example/" + "a" * 60_000, "x") == (False, None, "a verdict may take too long")
    assert cache.verdict(site, "http://a.example/" + "\u20ac" * 5_500, "x").allowed  # 49,500 bytes, escaped
    assert cache.verdict(site, "http://a.example/" + "\u20ac" * 6_000, "x").problem == "a verdict may take too long"


def test_without_memory(cache, monkeypatch):
    """A file that can't be parsed can't be reached, and what can't be decided is denied."""

    def no_memory(*words):
        raise MemoryError

    site, _ = fetched(cache, A, file())
    with monkeypatch.context() as changed:
        changed.setattr(_memory.Rules, "verdict", no_memory)
        assert cache.verdict(site, "http://a.example/", "x") == (False, None, "out of memory")
    monkeypatch.setattr(_memory, "Rules", no_memory)
    assert fetched(cache, "http://b.example", file())[0].state is State.UNREACHABLE
    site.rules = None
    assert not cache.verdict(site, "http://a.example/", "x").allowed and cache.delay(site, "x") == 0


def test_a_delay(cache):
    """The longest of those that were asked for."""
    site, _ = fetched(cache, A, file(b"User-agent: A\nCrawl-delay: 3\n\nUser-agent: B\nCrawl-delay: 2\n"))
    assert [cache.delay(site, name) for name in ("C", "B/1.0", "A", "B")] == [0, 2, 3, 3]
    assert cache.delay(fetched(cache, "http://b.example", (404, {}, b""))[0], "A") == 0


@pytest.mark.parametrize(
    "said, seconds",
    [("max-age=3600", HOUR), ("public, Max-Age=0", 300), ("max-age=301, x", 301), ("s-maxage=9, max-age = \"400\"", 400), ("max-age=99999999999", DAY), ("no-cache", DAY), ("max-age=x", DAY)],
)
@pytest.mark.parametrize("status", [200, 404])
def test_a_server_may_say_for_how_long_its_answer_counts(caches, cache, said, seconds, status):
    """Not for less than five minutes, and not for longer than usual."""
    site, _ = fetched(cache, A, (status, {"Cache-Control": said, "ETag": "1"}, RULES))
    assert site.expires == caches.now + seconds and site.refresh == site.expires - min(HOUR, seconds / 2)
    if status == 200:
        caches.now = site.refresh
        assert fetched(cache, A, (304, {"Cache-Control": said}, b""))[0].expires == caches.now + seconds
    assert fetched(caches(lifetime=100), A, (status, {"Cache-Control": said}, RULES))[0].expires == caches.now + 100


def test_hosts_that_are_exempt(caches):
    """With any port and scheme; no file of them is fetched, or kept."""
    cache = caches(exempt=["A.example", "b.example"])
    for url in ("http://a.example/private/", "https://A.EXAMPLE:8443/private/"):
        look = cache.look(url)
        assert look.action is Action.USE and cache.verdict(look.site, url, "x") == (True, None, "") and cache.delay(look.site, "x") == 0
    assert cache.look("http://www.a.example/").fetch and len(cache) == 0
    with pytest.raises(TypeError):
        caches(exempt="a.example")


NAMES = b"User-agent: A\nDisallow: /a\nCrawl-delay: 1\n\nUser-agent: B\nDisallow: /b\nCrawl-delay: 2\n\nUser-agent: *\nDisallow: /s\nCrawl-delay: 3\n"


@pytest.mark.parametrize("names, line, delay", [(["A", "B"], 2, 1), (["B/1.0", "A"], 6, 2), (("C", "B"), 6, 2), (["C", "D"], 10, 3), (["A"], 2, 1), ("C", 10, 3)])
def test_several_names_in_order_of_precedence(cache, names, line, delay):
    """The first that the file names counts, and the rules for * if it names none."""
    site, _ = fetched(cache, A, file(NAMES))
    denied = [verdict.line for path in "abs" if not (verdict := cache.verdict(site, f"http://a.example/{path}", names))]
    assert denied == [line] and cache.delay(site, names) == delay
    assert cache.verdict(site, "http://a.example/x", names) and cache.memory == site.memory + site.rules.memory


@pytest.mark.parametrize("names", [[], None, [1], b"x"])
def test_names_that_are_none(cache, names):
    site, _ = fetched(cache, A, file(NAMES))
    with pytest.raises(TypeError):
        cache.verdict(site, "http://a.example/x", names)


def test_when_the_next_request_may_go(caches, cache):
    """Each call counts as a request; a site without a delay needs none."""
    site, _ = fetched(cache, A, file(b"Crawl-delay: 2.5\n"))
    assert [cache.next_request(site, "x") for _ in range(3)] == [0, 2.5, 5]
    caches.now += 6
    assert [cache.next_request(site, "x", 1) for _ in range(2)] == [1.5, 2.5]
    caches.now += 100
    fetched(cache, HTTP, file(RULES))
    assert [cache.next_request(cache.look(HTTP).site, "x") for _ in range(2)] == [0, 0] and cache.next_request(site, "x") == 0
    for number in range(5000):
        cache.next_request(fetched(cache, f"http://{number}.example", file(b"Crawl-delay: 1\n"))[0], "x")
        caches.now += 1
    assert len(cache._turns) <= 1000


@pytest.mark.parametrize("name", ["lifetime", "retry", "answer_within", "budget", "cost_limit"])
@pytest.mark.parametrize("value", [0, -1, float("nan"), float("inf"), "9"])
def test_a_number_that_is_none(name, value):
    """Those that would deny or fetch everything again, too."""
    with pytest.raises(TypeError if value == "9" else ValueError, match=f"^{name} (is|has the type str)"):
        RobotsCache(**{name: value})
    with pytest.raises(ValueError, match="^after_30_days is 'open': it has to be"):
        RobotsCache(after_30_days="open")


FIELDS = {"Location": "http://b.example/r"}


@pytest.mark.parametrize(
    "headers", [FIELDS, {"LOCATION": b"http://b.example/r"}, {b"Location": [b"http://b.example/r"]}, [*FIELDS.items()], [(b"location", b"http://b.example/r")]]
)
def test_names_of_headers_may_be_bytes(cache, headers):
    """As a mapping or as pairs, with one or several values."""
    assert cache.received(cache.look(A).fetch, 301, headers, b"").fetch.address == "http://b.example/r"


def test_a_cache_is_not_pickled():
    with pytest.raises(TypeError, match="can't be pickled or copied: name a database"):
        pickle.dumps(RobotsCache())


def test_how_long_the_next_request_waits():
    """By the requests that were counted as made, and without counting another one."""
    now = [1e9]
    cache = RobotsCache(clock=lambda: now[0])
    (site,) = cache.received(cache.look(A).fetch, 200, {}, b"Crawl-delay: 3\n").known.values()
    assert [cache.until_next_request(site) for _ in range(2)] == [0.0] * 2
    assert [cache.next_request(site, "x") for _ in range(2)] == [0.0, 3.0]
    assert [cache.until_next_request(site) for _ in range(2)] == [6.0] * 2
    for seconds, waits in [(4, 2.0), (2, 0.0), (90, 0.0)]:
        now[0] += seconds
        assert cache.until_next_request(site) == waits
    assert cache.next_request(site, "x") == 0.0 and cache.until_next_request(site) == 3.0


def test_the_address_of_a_site_that_was_asked_about_before():
    """Is that of the same URL otherwise."""
    fronts = ["http://a.example", "HTTP://a.example", "https://a.example:443", "http://a.example:8080", "http://u@a.example", "http:///a.example", "http://127.1"]
    for front in fronts:
        for rest in ("", "/", "/x?y#z", "?q", "#f", "/\u00e9"):
            for address in (robots_url(front + rest), robots_url(front + rest)):
                _names._ADDRESSES.clear()
                assert address == robots_url(front + rest)
    robots_url("http://a.example/")
    for text in ("http://a.example\\@b.example/", "http://a.example:x/", "ftp://a.example/", "http://a.example:99999/", "http://a.example/\udc80"):
        if "b.example" in text:
            assert robots_url(text) == "http://a.example/robots.txt"
        else:
            with pytest.raises(ValueError):
                robots_url(text)
    for number in range(3000):
        robots_url(f"http://{number}.example/")
    assert len(_names._ADDRESSES) <= 2000


def test_the_lines_of_the_docstring():
    failed, tried = doctest.testmod(module)
    assert (failed, tried) == (0, 7)
