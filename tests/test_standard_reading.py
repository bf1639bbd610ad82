"""RFC 9309's reading of files: examples of the RFC and of Google's documentation, and random files. The library has it by
`Site(file, reading="rfc9309")`, and tests/standard_model.py is a model of it, which was written without the library."""

import collections
import json
import random
import sys

import pytest
import standard_model
from support import ROOT, bytes_in, crawler_and_file, rows_under, run, spelled

PACKAGE_TESTS = ROOT / "bindings/python/tests"


class Model:
    """The model, with the calls of the package."""

    Rejected = standard_model.Rejected

    def read(self, file):
        return standard_model.Reading(file)

    def verdicts(self, read, urls, agent):
        return [tuple(it) for it in read.verdicts([url.encode() for url in urls], agent.encode())]


class Library:
    """The Python package, and so the C library."""

    def __init__(self):
        sys.path.insert(0, str(PACKAGE_TESTS))
        import package  # noqa: F401 (builds it)
        import texting_robots

        self.package, self.Rejected = texting_robots, texting_robots.OverlongRuleError

    def read(self, file):
        return self.package.Site(file, reading="rfc9309")

    def verdicts(self, read, urls, agent):
        return [tuple(it) for it in read.verdicts(urls, agent)]


class Audit:
    """What `robots_audit` says of RFC 9309. It has no verdicts on a file that is rejected in the default reading."""

    Rejected = standard_model.Rejected

    def read(self, file):
        return file or b"\n"  # it rejects input without a byte

    def verdicts(self, file, urls, agent):
        (audit,) = json.loads(run("robots_audit", ["--json", "-q", "--agent", agent, "-", *urls], file).out)["agents"]
        if line := audit["rfc_9309"]["rejected_line"]:
            raise self.Rejected(line)
        if audit["rejected_line"]:
            pytest.skip("rejected in the default reading")
        return [(it["rfc_9309"]["allowed"], it["rfc_9309"]["line"]) for it in audit["verdicts"]]


@pytest.fixture(scope="module")
def library():
    return Library()


def reader_of(request):
    readers = {"model": Model, "library": lambda: request.getfixturevalue("library"), "audit": Audit}
    return readers[request.param]()


@pytest.fixture(scope="module", params=["model", "library"])
def reader(request):
    return reader_of(request)


@pytest.fixture(scope="module", params=["model", "library", "audit"])
def any_reader(request):
    """The audit takes only valid URLs, and a path that starts with a slash."""
    return reader_of(request)


def result(reader, file, agent, url):
    """`deny 4` if line 4 denies the URL, `allow -` if no line decides, `rejected 4` if the rule in line 4 is too long."""
    try:
        ((allowed, line),) = reader.verdicts(reader.read(file), [url], agent)
    except reader.Rejected as error:
        return f"rejected {error.line}"
    return f"{'allow' if allowed else 'deny'} {line or '-'}"


# ---- examples: each with paths, and again with URLs

SECTION_5_1 = """User-Agent: *
Disallow: *.gif$
Disallow: /example/
Allow: /publications/

User-Agent: foobot
Disallow:/
Allow:/example/page.html
Allow:/example/allowed.gif

User-Agent: barbot
User-Agent: bazbot
Disallow: /example/page.html

User-Agent: quxbot
"""
GOOGLES_GROUPS = """user-agent: googlebot-news
disallow: /fish

user-agent: *
disallow: /carrots

user-agent: googlebot-news
disallow: /shrimp
"""
FISH = "/fish /fish.html /fish/salmon.html /fishheads /fishheads/yummy.html /fish.php?id=anything"
NO_FISH = "/Fish.asp /catfish /?id=fish /desert/fish"

# the file, the crawler, and the URLs with each result
EXAMPLES = {
    "RFC 9309, 2.2.1: groups are combined": [
        ("user-agent: ExampleBot⏎disallow: /foo⏎disallow: /bar⏎⏎user-agent: examplebot⏎disallow: /baz", "ExampleBot")
        + ("/foo deny 2", "/bar deny 3", "/baz deny 6", "/qux allow -"),
    ],
    "RFC 9309, 2.2.1: without a group and `*` no rule applies": [
        ("user-agent: ExampleBot⏎disallow: /", "OtherBot", "/ allow -"),
        ("", "OtherBot", "/ allow -"),
    ],
    "RFC 9309, 2.2.2: what is compared is encoded alike": [
        ("User-agent: a⏎Allow: /foo/bar?baz=quz⏎Disallow: /", "a", "/foo/bar?baz=quz allow 2"),
        ("User-agent: a⏎Allow: /foo/bar/\\xE3\\x83\\x84⏎Disallow: /", "a", "/foo/bar/%E3%83%84 allow 2", "/foo/bar/ツ allow 2"),
        ("User-agent: a⏎Allow: /foo/bar/%E3%83%84⏎Disallow: /", "a", "/foo/bar/%E3%83%84 allow 2", "/foo/bar/ツ allow 2"),
        ("User-agent: a⏎Allow: /foo/bar/%62%61%7A⏎Disallow: /", "a", "/foo/bar/baz allow 2", "/foo/bar/%62%61%7A allow 2"),
        ("User-agent: a⏎Allow: /foo/bar/baz⏎Disallow: /", "a", "/foo/bar/baz allow 2", "/foo/bar/%62%61%7A allow 2"),
    ],
    # the second row of its table has the same path to match for both; by RFC 3986, which is followed here, `:` and `%3A` differ
    "RFC 9309, 2.2.2: a reserved character and its escape": [
        ("User-agent: a⏎Allow: /foo/bar?baz=https://foo.bar⏎Disallow: /", "a")
        + ("/foo/bar?baz=https://foo.bar allow 2", "/foo/bar?baz=https%3A%2F%2Ffoo.bar deny 3"),
    ],
    "RFC 9309, 2.2.2: a rule in no group": [
        ("Disallow: /⏎User-agent: a⏎Disallow: /b", "a", "/ allow -", "/b deny 3"),
        ("Disallow: /", "a", "/ allow -"),
    ],
    "RFC 9309, 2.2.2: an Allow wins, and /robots.txt is allowed": [
        ("User-agent: a⏎Disallow: /a⏎Allow: /a", "a", "/a allow 3", "/A allow -", "/robots.txt allow -"),
        ("User-agent: a⏎Disallow: /", "a", "/robots.txt allow -", "/robots.txt?x deny 2", "/a/robots.txt deny 2"),
    ],
    "RFC 9309, 2.2.3: special characters": [
        ("# comment only line⏎User-agent: a⏎disallow: /foo/bar # comment", "a", "/foo/bar deny 3", "/foo/ allow -"),
        ("User-agent: a⏎disallow: /this/path/exactly$", "a", "/this/path/exactly deny 2", "/this/path/exactly/ allow -"),
        ("User-agent: a⏎disallow: /this/*/exactly", "a", "/this/path/exactly deny 2", "/this//exactly/so deny 2", "/this/exactly allow -"),
        ("User-agent: a⏎disallow: /path/file-with-a-%2A.html", "a")
        + ("/path/file-with-a-*.html deny 2", "/path/file-with-a-%2a.html deny 2", "/path/file-with-a-b.html allow -"),
        ("User-agent: a⏎disallow: /path/foo-%24", "a", "/path/foo-$ deny 2", "/path/foo-$/b deny 2", "/path/foo- allow -"),
    ],
    "RFC 9309, 2.2.4: other records don't interfere": [
        ("User-agent: a⏎Sitemap: https://foo.bar/s⏎Crawl-delay: 5⏎x⏎User-agent: b⏎Disallow: /", "a", "/ deny 6"),
        ("User-agent: b⏎Disallow: /c⏎Sitemap: https://foo.bar/s⏎Disallow: /d", "b", "/c deny 2", "/d deny 4"),
    ],
    "RFC 9309, 5.1": [
        (SECTION_5_1, "otherbot", "/publications/ allow 4", "/example/page.html deny 3", "/picture.gif deny 2", "/picture.gif? allow -"),
        (SECTION_5_1, "foobot", "/example/page.html allow 8", "/example/allowed.gif allow 9", "/example/ deny 7", "/ deny 7"),
        (SECTION_5_1, "barbot", "/example/page.html deny 13", "/example/ allow -", "/picture.gif allow -"),
        (SECTION_5_1, "BazBot", "/example/page.html deny 13", "/example/ allow -", "/picture.gif allow -"),
        (SECTION_5_1, "quxbot", "/example/page.html allow -", "/example/ allow -", "/picture.gif allow -"),
    ],
    # its text has `disallow.gif`, which the rule doesn't match
    "RFC 9309, 5.2": [
        ("User-Agent: foobot⏎Allow: /example/page/⏎Disallow: /example/page/disallowed.gif", "foobot")
        + ("/example/page/disallowed.gif deny 3", "/example/page/disallow.gif allow 2", "/example/page/ allow 2", "/example/ allow -"),
    ],
    "Google, order of precedence": [
        ("User-agent: a⏎allow: /p⏎disallow: /", "a", "/page allow 2"),
        ("User-agent: a⏎allow: /folder⏎disallow: /folder", "a", "/folder/page allow 2"),
        ("User-agent: a⏎allow: /page⏎disallow: /*.htm", "a", "/page.htm deny 3"),
        ("User-agent: a⏎allow: /page⏎disallow: /*.ph", "a", "/page.php5 allow 2"),
        ("User-agent: a⏎allow: /$⏎disallow: /", "a", "/ allow 2", "/page.htm deny 3"),
    ],
    "Google, path matching": [
        ("User-agent: a⏎disallow: /", "a", "/ deny 2", "/any/level deny 2"),
        ("User-agent: a⏎disallow: /*", "a", "/ deny 2", "/any/level deny 2"),
        ("User-agent: a⏎disallow: /$", "a", "/ deny 2", "/any/level allow -"),
        ("User-agent: a⏎disallow: /fish", "a", *(f"{it} deny 2" for it in FISH.split()), *(f"{it} allow -" for it in NO_FISH.split())),
        ("User-agent: a⏎disallow: /fish*", "a", *(f"{it} deny 2" for it in FISH.split()), *(f"{it} allow -" for it in NO_FISH.split())),
        ("User-agent: a⏎disallow: /fish/", "a", "/fish/ deny 2", "/fish/?id=anything deny 2", "/fish/salmon.htm deny 2")
        + ("/fish allow -", "/fish.html allow -", "/animals/fish/ allow -", "/Fish/Salmon.asp allow -"),
        ("User-agent: a⏎disallow: /*.php", "a", "/index.php deny 2", "/folder/filename.php?parameters deny 2")
        + ("/folder/any.php.file.html deny 2", "/filename.php/ deny 2", "/ allow -", "/windows.PHP allow -"),
        ("User-agent: a⏎disallow: /*.php$", "a", "/filename.php deny 2", "/folder/filename.php deny 2")
        + ("/filename.php?parameters allow -", "/filename.php/ allow -", "/filename.php5 allow -", "/windows.PHP allow -"),
        ("User-agent: a⏎disallow: /fish*.php", "a", "/fish.php deny 2", "/fishheads/catfish.php?parameters deny 2", "/Fish.PHP allow -"),
    ],
    "Google, groups": [
        (GOOGLES_GROUPS, "Googlebot-News", "/fish deny 2", "/shrimp deny 8", "/carrots allow -"),
        (GOOGLES_GROUPS, "otherbot", "/fish allow -", "/carrots deny 5"),
        ("user-agent: a⏎sitemap: https://example.com/s.xml⏎⏎user-agent: b⏎disallow: /", "a", "/ deny 5"),
    ],
    # Google doesn't decode `%62`: there the rule is for `/%62` alone. RFC 9309 requires it.
    "another result than Google's: an escape of a letter": [
        ("User-agent: a⏎Disallow: /%62", "a", "/b deny 2", "/%62 deny 2"),
    ],
    # For Google an Allow of `index.html` also applies to its folder, of which RFC 9309 has nothing.
    "another result than Google's: index.html": [
        ("User-agent: a⏎Disallow: /⏎Allow: /d/index.html", "a", "/d/ deny 2", "/d/index.html allow 3"),
    ],
    "a delay between names": [
        ("User-agent: Googlebot⏎User-agent: Bingbot⏎Crawl-delay: 5⏎⏎User-agent: *⏎Disallow: /", name, "/ deny 6")
        for name in ("Googlebot", "Bingbot", "otherbot")
    ],
    "an empty Disallow is no rule, but ends a list of names": [
        ("User-agent: a⏎Disallow:⏎Disallow: /", "a", "/ deny 3"),
        ("User-agent: a⏎Disallow:⏎User-agent: b⏎Disallow: /", "a", "/ allow -"),
        ("User-agent: a⏎Allow:⏎User-agent: b⏎Disallow: /", "a", "/ allow -"),
    ],
    "a rule without a slash matches nothing, but ends a list of names": [
        ("User-agent: a⏎Disallow: b⏎User-agent: b⏎Disallow: /", "a", "/ allow -", "/b allow -"),
    ],
    "a $ before the end": [
        ("User-agent: a⏎Disallow: /$a", "a", "/$a deny 2", "/%24a deny 2", "/ allow -"),
        ("User-agent: a⏎Disallow: /a$*", "a", "/a allow -", "/a$ deny 2", "/a$b deny 2"),
        ("User-agent: a⏎Disallow: /a$$", "a", "/a allow -", "/a$ deny 2", "/a$b allow -"),
        ("User-agent: a⏎Disallow: $⏎Disallow: $$", "a", "/ allow -"),
    ],
    "escapes are decoded once": [
        ("User-agent: a⏎Disallow: /%%341", "a", "/%%341 deny 2", "/A allow -", "/%41 allow -"),
        ("User-agent: a⏎Disallow: /%2541", "a", "/%2541 deny 2", "/A allow -", "/%41 allow -"),
        ("User-agent: a⏎Disallow: /%4", "a", "/%4 deny 2", "/%41 allow -", "/%4g deny 2"),
    ],
    "a byte that isn't UTF-8 is as its escape": [
        ("User-agent: a⏎Disallow: /\\xFF", "a", "/%ff deny 2", "/%FF deny 2", "/ allow -"),
        ("User-agent: a⏎Disallow: /\\xC3", "a", "/é deny 2", "/%c3 deny 2", "/%C4 allow -"),
    ],
    "octets count in the normal form": [
        ("User-agent: a⏎Disallow: /%62%62⏎Allow: /b*", "a", "/bb allow 3"),
        ("User-agent: a⏎Disallow: /{⏎Allow: /***", "a", "/{ allow 3", "/%7b allow 3", "/a allow 3"),
        ("User-agent: a⏎Disallow: /{⏎Allow: /**", "a", "/{ deny 2", "/%7b deny 2"),
    ],
    "a rule is too long in its normal form, if it ends with $": [
        ("User-agent: a⏎Disallow: /\\{1400 {}$", "a", "/ rejected 2"),
        ("User-agent: a⏎Disallow: /b⏎Allow: /\\{1400 {}$⏎Allow: /\\{1400 {}$", "a", "/b rejected 3"),
        ("User-agent: b⏎Disallow: /\\{1400 {}$⏎User-agent: a⏎Disallow: /b", "a", "/b deny 4"),
        ("User-agent: a⏎Disallow: /\\{4094 b}$", "a", "/b allow -"),
        ("User-agent: a⏎Disallow: /\\{4095 b}$", "a", "/b rejected 2"),
        ("User-agent: a⏎Disallow: /\\{4095 %62}*$", "a", "/b rejected 2"),
        ("User-agent: a⏎Disallow: /\\{1364 %62}**$", "a", "/b allow -"),
        ("User-agent: a⏎Disallow: /\\{4095 b}$b", "a", "/b allow -"),
        ("User-agent: a⏎Disallow: /$\\{4095 b}", "a", "/b allow -"),
    ],
}


@pytest.mark.parametrize("host", ["", "https://example.com"], ids=["path", "URL"])
@pytest.mark.parametrize("file, agent, results", [pytest.param(it[0], it[1], it[2:], id=name) for name, rows in EXAMPLES.items() for it in rows])
def test_examples_have_the_documented_results(any_reader, file, agent, results, host):
    file = spelled(file.replace("⏎", "\n"))
    found = [f"{url} {result(any_reader, file, agent, host + url)}" for url in (it.split(" ")[0] for it in results)]
    assert found == list(results)


@pytest.mark.parametrize("file, url, standard, google, crate, here, reading, warning", rows_under("docs/COMPATIBILITY.md", "File", "URL"))
def test_library_reads_a_file_as_documented(library, file, url, standard, google, crate, here, reading, warning):
    crawler, text = crawler_and_file(file)
    if "/" in crawler:
        pytest.skip("no crawler of the package")
    word = result(library, text, crawler, bytes_in(url).decode()).split(" ")[0]
    assert {"allow": "allowed", "deny": "denied"}.get(word, word) == (here if reading == "same" else reading).split(":")[0]


def test_path_and_query_of_a_url_are_compared_as_they_are_written(reader):
    file = b"User-agent: a\nDisallow: /a/../b$\nDisallow: /?c'$\nAllow: *\nDisallow: /$\n"
    urls = {"https://h/a/../b": "deny 2", "https://h/b": "allow 4", "HTTP://h:80?c'#d": "deny 3", "/?c'#d": "deny 3"}
    urls |= {"https://u@h#/a": "deny 5", "https://h": "deny 5", "": "deny 5", "/#": "deny 5", "https://h/%2e": "allow 4"}
    urls |= {"ftp://h/a/../b": "deny 2", "+ftp://h/a/../b": "allow 4"}
    assert {url: result(reader, file, "a", url) for url in urls} == urls


def test_512_000_bytes_of_a_file_are_read(any_reader):
    """Its text with all escapes is longer by far. What the limit leaves of the last line is a line."""
    line = b"Allow: /{{{{{{{{{{{{{{{{{{\n"
    start, last = b"User-agent: a\n", b"Disallow: /c"
    many, rest = divmod(512_000 - len(start) - len(last), len(line))
    file = start + b" " * rest + line * many + last
    assert result(any_reader, file + b"d\n", "a", "/c") == f"deny {many + 2}"
    assert result(any_reader, file + b"d\n", "a", "/d") == "allow -"
    assert result(any_reader, b" " + file, "a", "/d") == f"deny {many + 2}"
    assert result(any_reader, b"\xef\xbb\xbf" + file, "a", "/c") == "allow -"


# ---- random files

PARTS = "a b A/ %62 %C3%a9 %2A %24 %2f %%34 %%341 % { ' * ** $ ? = : .. ~ é \x7f".split(" ") + [" ", "\t", "\x85", "\u3000"]
PARTS = [*(it.encode() for it in PARTS), b"\xff", b"\xc3", b"\xef\xbb\xbf"]
STARTS = [*[b"/"] * 6, b"/a", b"/b", b"*", b"/*", b"", b"a"]
LONG = [b"/" + b"{" * 1400 + b"$", b"/" + b"%62" * 1500 + b"$", b"/" + b"*" * 5000 + b"$", b"/$" + b"b" * 5000]
LONG += [b"/" + b"b" * 4095 + b"$", b"/" + b"b" * 4094 + b"$", b"*" + b"\xff" * 1366 + b"$"]
NAMES = [*[b"*"] * 4, *[b"a", b"Bot"] * 3, b"a*", b"", b"a b", b"Bot-2", b"\xff", "é".encode(), b"a/1", b"a\xc2\x85", b"b#c"]
TO_NAMES = [b"User-agent: ", b"User-agent: ", b"user agent:", b" USERAGENT ", b"User-agent"]
FIELDS = [b"Allow: ", b"Disallow: ", b"Disallow: ", b"disallow\t", b" ALLOW :", b"disalow:", b"dissallow :\t", b"Disallow"]
AFTER = [b"", b"", b"", b" ", b"\xc2\x85", b" # x"]
OTHERS = [b"Disallow:", b"Disallow:  # all", b"Allow:", b"Crawl-delay: 1", b"crawl delay x", b"Sitemap: /s", b"Host: h", b"# x", b"", b"Disallow #/"]
ENDS = [*[b"\n"] * 5, b"\r\n", b"\r", b"\r\r\n", b"\0", b"\r\0", b"\n\r"]
MARKS = [b"\xef\xbb\xbf", b"\xef", b"\xbb\xbf", b"\xbf\xef", b"\0"]
FILLINGS = [b"# x" * 100, b"Disallow: /{%62%c3*" + b"{" * 200, b"\0" + b" " * 200, b"Crawl-delay: 1" + b" " * 200, b"Disallow:" + b" " * 200]
# what a URL may have in place of what a rule has
INSTEAD = [("%62", "b"), ("b", "%62"), ("%C3%a9", "é"), ("é", "%c3%A9"), ("$", "%24"), ("%2A", "*"), ("{", "%7b"), ("\u3000", "%E3%80%80")]


def random_value(chance):
    return chance.choice(STARTS) + b"".join(chance.choices(PARTS, k=chance.choice([0, 1, 1, 2, 2, 3, 5]))) + b"$" * (chance.random() < 0.15)


def random_line(chance):
    """A line, or two names with a line between them, or two rules with the same value."""
    kind, value = chance.random(), random_value(chance)
    if kind < 0.15:
        return chance.choice(TO_NAMES) + chance.choice(NAMES)
    if kind < 0.2:
        return b"\n".join([b"User-agent: Bot", chance.choice(OTHERS), b"User-agent: " + chance.choice(NAMES)])
    if kind < 0.35:
        return chance.choice(OTHERS)
    if kind < 0.4:
        return b"Disallow: " + value + b"\n" + chance.choice(FIELDS) + value
    return chance.choice(FIELDS) + (chance.choice(LONG) if kind < 0.41 else value) + chance.choice(AFTER)


def random_lines(chance, many):
    return b"".join(random_line(chance) + chance.choice(ENDS) for _ in range(many))


def random_file(chance, is_long):
    """Three files in four have a user-agent line first. In a long one the limit is within its last lines."""
    file = b"User-agent: *\n" * (chance.random() < 0.75) + random_lines(chance, chance.randrange(1, 14))
    if is_long:
        filling = chance.choice(FILLINGS) + b"\n"
        file += filling * ((512_000 - len(file) - chance.randrange(200)) // len(filling))
        file += b"\nUser-agent: *\nUser-agent: Bot\n" + random_lines(chance, 10)
        file += b"Disallow: /" + b"b" * max(512_001 - len(file), 0)
    return (chance.choice(MARKS) if chance.random() < 0.1 else b"") + file


def lines_of(file):
    """The first and last lines of what is read of a file."""
    return [it for part in (file[:3000], file[3000:512_000][-3000:]) for it in standard_model.bodies(part)]


def agents_of(chance, file):
    """One of the names in a file, and another one. A crawler of the package has no `/` in its name."""
    found = {line.partition(b":")[2].strip() for line in lines_of(file) if line[:5].lower() == b"user-"}
    known = sorted(it.decode().swapcase() for it in found if b"/" not in it and it.isascii())
    return [chance.choice(known or ["a"]), chance.choice(["a", "bot", "other", "é"])]


def urls_of(chance, file):
    """URLs that rules of a file may match: with something in place of stars, and with other escapes."""
    values = [line.partition(b":")[2] for line in lines_of(file) if line.strip()[:1].lower() in (b"a", b"d")]
    made = ["/robots.txt", "/"]
    for value in chance.choices(values or [b"/"], k=8):
        path = value.decode("utf-8", "replace").partition("#")[0].strip().replace("\ufffd", "%ff").removesuffix("$")
        path = "".join(chance.choice(["", "x", "ab/", "*"]) if it == "*" else it for it in path)
        for old, new in chance.sample(INSTEAD, 3):
            path = path.replace(old, new)
        path = "/" + path.removeprefix("/") + chance.choice(["", "", "x", "?b", "#b", "$"])
        made.append(chance.choice(["", "", "https://example.com", "HTTP://h:80"]) + path)
    return made


def outcome(reader, read, urls, agent):
    """The verdicts, or the line for which the file is rejected."""
    try:
        return reader.verdicts(read, urls, agent)
    except reader.Rejected as error:
        return error.line


def kinds_of(found):
    if isinstance(found, int):
        return ["rejected"]
    return ["denied" if not allowed else "allowed by a line" if line else "allowed by no line" for allowed, line in found]


def compare(reader, file, crawlers, chance):
    """The kinds of the results for these crawlers, which are those of the model."""
    kinds, model = collections.Counter(), Model()
    expected, read = model.read(file), reader.read(file)
    for agent in crawlers:
        urls = urls_of(chance, file)
        found = outcome(model, expected, urls, agent)
        assert outcome(reader, read, urls, agent) == found, (lines_of(file), agent, urls)
        kinds.update(kinds_of(found))
    return kinds


@pytest.mark.parametrize("seed", range(6))
def test_random_files_have_the_verdicts_of_the_model(library, seed):
    """500 files, of which ten are longer than the limit."""
    chance, kinds = random.Random(seed), collections.Counter()
    for number in range(500):
        file = random_file(chance, number % 50 == 49)
        kinds += compare(library, file, agents_of(chance, file), chance)
    assert len(kinds) == 4 and min(kinds.values()) >= 5, kinds


@pytest.mark.parametrize("path", sorted((ROOT / "tests/wild").glob("*.txt")), ids=lambda it: it.stem)
def test_wild_files_have_the_verdicts_of_the_model(library, path):
    file = path.read_bytes()
    names = {name.decode() for names, _ in standard_model.groups(file) for name in names if b"/" not in name}
    compare(library, file, sorted({*names, "Googlebot", "other"}), random.Random(0))
