"""Functions and inputs that neither a program nor the C library has. The program texting_robots_tests prints what they return."""

import json
import re
from itertools import product

import pytest
from support import run

BOB = "BobBot"
NO_LIMIT = 2**64 - 1
SMALL_TEXTS = ["".join(letters) for length in range(7) for letters in product("/a*$", repeat=length)]
SIZES = sorted({2**power + more for power in range(15) for more in (-1, 0, 1)})


@pytest.fixture
def printed(tmp_path):
    """The lines that the program prints for each of these texts."""

    def lines(name, *texts, file=b"", number=0, word=""):
        (tmp_path / "file").write_bytes(file if isinstance(file, bytes) else file.encode())
        result = run("texting_robots_tests", [name, tmp_path / "file", str(number), word, *texts])
        assert (result.status, result.err) == (0, "")
        return result.out.splitlines()

    return lines


def shown(value):
    """A value as Rust's `{:?}` shows it, with bytes as a list of numbers, and a line as its name with a value."""
    match value:
        case None | bool():
            return str(value) if value is None else str(value).lower()
        case bytes():
            return str(list(value))
        case (name, content):
            return f"{name}({shown(content)})"
        case _:
            return str(value)


def some(value):
    return "None" if value is None else f"Some({shown(value)})"


def raw(*texts):
    return [("Raw", text) for text in texts]


def delay(microseconds):
    return "CrawlDelay", f"Some({microseconds})"


def allow(value):
    return "Allow", value


def disallow(value):
    return "Disallow", value


def agent(value):
    return "UserAgent", value


# ---- lines

SIX = [agent(b"foo"), allow(b"/some/path"), agent(b"bar"), *raw(b"", b""), disallow(b"/")]
MARKED = [agent(b"foo"), allow(b"/AnyValue")]

# Texts, and their lines: line terminators, byte order marks, of which a part is enough, and kinds of lines.
TEXTS = [
    (b"a\r\r\nb\n\nc", raw(b"a", b"b", b"", b"c")),
    (b"\n\r", raw(b"", b"")),
    (b"a\n", raw(b"a")),
    (b"", []),
    (b"Disallow: /a\r\0Allow: /b", [disallow(b"/a"), *raw(b"\0Allow: /b")]),
    (b"User-Agent: foo\nAllow: /some/path\nUser-Agent: bar\n\n\n        Disallow: /", SIX),
    (b"\xbbAllow: /", [allow(b"/")]),
    (b"\xef\x11\xbfUser-Agent: foo", raw(b"\x11\xbfUser-Agent: foo")),
    (b"User-Agent: foo\n\xef\xbb\xbfAllow: /AnyValue", [agent(b"foo"), *raw(b"\xef\xbb\xbfAllow: /AnyValue")]),
    (b"\xef\xbb\xbfUser-Agent: foo\nAllow: /AnyValue", MARKED),
    (b"\xef\xbbUser-Agent: foo\nAllow: /AnyValue", MARKED),
    (b"\xefUser-Agent: foo\nAllow: /AnyValue", MARKED),
    (b"Crawl-delay: 3.14", [delay(3_140_000)]),
    (b"Disallow#x", raw(b"Disallow#x")),
    (b"DISALLAW\t:\t/a\t# x", [disallow(b"/a")]),
    # a line's value is the bytes that it holds, and a delay has none
    (b"User-agent: A\nNoindex: /e\nSitemap: d", [agent(b"A"), *raw(b"Noindex: /e"), ("Sitemap", b"d")]),
    (b"\r" * 1_000_000, raw(b"")),
    (b"\r" * 1_000_000 + b"\n", raw(b"")),
    (b"Disallow:" + b" " * 1_000_000, [allow(b"/")]),
    (b"\0" * 1_000_000, raw(b"\0" * 1_000_000)),
    # every small text, each of which is a line
    ("\n".join(SMALL_TEXTS).encode(), raw(*(text.encode() for text in SMALL_TEXTS))),
]


@pytest.mark.parametrize("row", range(len(TEXTS)))
def test_texts_have_their_lines(printed, row):
    """As a vector and by iterators, which return `None` twice. Without NUL, a file has the same lines."""
    text, want = TEXTS[row]
    first, *rest = printed("lines", "nobody", file=text, number=len(want) + 2)
    assert first == f"false [{', '.join(map(shown, want))}]"
    for number, it in enumerate(rest):
        line = want[number] if number < len(want) else None
        value = line[1] if line and isinstance(line[1], bytes) else None
        split, whole, _, _ = it.split("; ")
        assert split == f"{some(line)} {some(value)}"
        assert b"\0" in text or whole == some(line)
    assert len(rest) == len(want) + 2


# A file with various line terminators, among them NUL, and its lines with their contents.
FILE = b"\xef\xbb\xbfAllow: /a\r\0b # c\0\0 Disallow /d \r\r\n\r\n\xef\xbb\xbfe\rf\r"
FILE_LINES = [
    (allow(b"/a"), b"Allow: /a"),
    (("Raw", b"b # c"), b"b # c"),
    (("Raw", b""), b""),
    (disallow(b"/d"), b" Disallow /d "),
    (("Raw", b""), b""),
    (("Raw", b"\xef\xbb\xbfe"), b"\xef\xbb\xbfe"),
    (("Raw", b"f"), b"f"),
]


def test_files_have_their_lines_and_bodies(printed):
    _, *rest = printed("lines", "nobody", file=FILE, number=len(FILE_LINES) + 2)
    found = [tuple(it.split("; ")[1:3]) for it in rest]
    assert found == [(some(line), some(body)) for line, body in FILE_LINES] + [("None", "None")] * 2


# A rule before the first user-agent line, a group of two crawlers, and a group of another one.
GROUPS = b"Disallow: /x\nUser-agent: a\nUser-agent: B\nDisallow: /y\nUser-agent: c\nAllow: /z"

# A crawler, a file, whether it names the crawler, and a character for each line: `+` in the crawler's group, `-` in another,
# a space in none.
MASKS = [
    ("B", GROUPS, True, " +++--"),
    ("d", GROUPS, False, " -----"),
]
MEMBERSHIPS = {"+": "Own", "-": "Other", " ": "Ungrouped"}


@pytest.mark.parametrize("crawler, file, named, mask", MASKS)
def test_each_line_has_its_group(printed, crawler, file, named, mask):
    first, *rest = printed("lines", crawler, file=file, number=len(mask) + 1)
    assert first.startswith(shown(named) + " ")
    for number, (it, sign) in enumerate(zip(rest, mask), 1):
        _, line, body, labeled = it.split("; ")
        parts = f"number: {number}, membership: {MEMBERSHIPS[sign]}, line: {line[5:-1]}, body: {body[5:-1]}"
        assert labeled == f"Some(LabeledLine {{ {parts} }})"
    assert rest[-1].endswith("; None; None; None")


# ---- patterns

# A pattern, a text, and whether the pattern matches it.
MATCHES = [
    ("", "/x", True),
    ("$", "/", False),
    ("$$", "", True),
    ("*$", "/x", True),
    # a star stands for any number of bytes
    ("/a*", "/a", True),
    ("/fish*$", "/fishy", True),
    # segments don't overlap
    ("a*a", "aba", True),
    ("/*ab*ba$", "/aba", False),
    ("/*ab*ba$", "/abba", True),
    # each is at the leftmost place, but the last one before `$` at the end
    ("/*aa*ab", "/aaab", True),
    ("/*abab$", "/ababab", True),
    ("/*aab*aab$", "/" + "a" * 500 + "b" + "a" * 500 + "b", True),
    *(("*" * 1_000_000 + "$", text, True) for text in ("", "/x", "$")),
]


def collapsed(pattern):
    """The pattern with each run of stars as one star."""
    return re.sub(r"\*+", "*", pattern)


def ordered(one, other):
    """How a pattern compares with another one: the longer one first, with all its stars, and then by bytes."""
    (one, other) = ((-len(it), it) for it in (one, other))
    return "Less" if one < other else "Greater" if other < one else "Equal"


def check_pattern(lines, pattern, other, stars=None, looks=None, matches=None):
    """Of a pattern and of its copy; and with orders, in both ways."""
    first, *both = lines
    orders = [ordered(pattern, other), ordered(other, pattern)]
    assert stars is None or first.startswith(shown(stars) + " ")
    assert first.split(" ", 1)[1] == f"[{', '.join(orders)}] Some({orders[0]}) {shown(pattern == other)} true"
    for line in both:
        found = re.fullmatch(r"(.*) MinRegex\((.*)\) \[(\w+), (\w+)\] (\d+)", line)
        assert (found[1], found[2]) == (collapsed(pattern), f'"{pattern}"')
        assert found[3] == found[4] and matches in (None, found[3] == "true")
        assert int(found[5]) == looks if looks is not None else int(found[5]) <= 2 * len(other)
    assert len(both) == 2


@pytest.mark.parametrize("row", range(len(MATCHES)))
def test_patterns_match_with_few_looks(printed, row):
    pattern, text, want = MATCHES[row]
    check_pattern(printed("pattern", file=pattern, word=text), pattern, text, matches=want)


# A pattern, a text, and whether it matches if `$` is an ordinary byte. The first segment is at the beginning.
STARS = [("/a$", "/a$b", True), ("/a$", "/a", False), ("b*c", "*abc", False)]


@pytest.mark.parametrize("pattern, text, want", STARS)
def test_stars_match(printed, pattern, text, want):
    check_pattern(printed("pattern", pattern, word=text), pattern, text, stars=want)


# A pattern, and how it is shown without its runs of stars.
COLLAPSED = [("/x***y/", "/x*y/"), ("**", "*"), ("/a**$", "/a*$"), ("/a", "/a"), ("$" + "*" * 4096, "$*"), ("/ab**b*", "/ab*b*")]


@pytest.mark.parametrize("pattern, want", COLLAPSED)
def test_runs_of_stars_are_one(printed, pattern, want):
    _, *both = printed("pattern", pattern)
    assert [line.split()[:2] for line in both] == [[want, f'MinRegex("{pattern}")']] * 2


# A pattern, another one, and how the first compares with it.
ORDERS = [("/ab", "/a", "Less"), ("/a", "/b", "Less"), ("/a**", "/abc", "Less"), ("/a**", "/a*", "Less"), ("/a", "/a", "Equal")]


@pytest.mark.parametrize("pattern, other, want", ORDERS)
def test_longer_patterns_come_first_and_then_bytes_decide(printed, pattern, other, want):
    assert ordered(pattern, other) == want
    check_pattern(printed("pattern", pattern, word=other), pattern, other)


def test_overlong_patterns_are_rejected(printed):
    assert printed("pattern", "/" + "a" * 4095 + "$") == ["Rule with $ is too long"]


# A pattern, a text, and the number of looks.
PATTERN_LOOKS = [("/*", "/abc", 1), ("/*ab*ba$", "?abba", 1), ("/*ab*ba$", "/abba", 5), ("/*b$", "/aaaaaaab", 2)]


@pytest.mark.parametrize("pattern, text, want", PATTERN_LOOKS)
def test_looks_of_patterns_are_counted(printed, pattern, text, want):
    check_pattern(printed("pattern", pattern, word=text), pattern, text, looks=want)


def test_small_patterns_and_their_copies(printed):
    lines = printed("pattern", *SMALL_TEXTS)
    assert len(lines) == 3 * len(SMALL_TEXTS)
    for number, text in enumerate(SMALL_TEXTS):
        check_pattern(lines[3 * number : 3 * number + 3], text, "")


@pytest.mark.parametrize("part", ["a*", "a"])
def test_patterns_of_each_size(printed, part):
    """With so many segments, and with one segment of so many letters: each matches itself."""
    for size in SIZES:
        text = part * size
        check_pattern(printed("pattern", text, word=text), text, text, matches=True)


# ---- texts

# Texts, and why they have no robots.txt address.
NO_ADDRESS = {
    "ftp://linux-isos.org/": "EmptyHost",
    "mailto:ferris@rust.com": "SetHostOnCannotBeABaseUrl",
    "/rust/v1/index.html": "RelativeUrlWithoutBase",
    "http://a:8o/": "InvalidPort",
    "http://[::1": "InvalidIpv6Address",
    "http://1.2.3.4.5/": "InvalidIpv4Address",
    "http://xn--.é/": "IdnaError",
}


def test_texts_have_no_address(printed):
    found = [line.split()[:2] for line in printed("text", *NO_ADDRESS)]
    assert found == [[f"Err({why})"] * 2 for why in NO_ADDRESS.values()]


def test_parsed_urls_have_an_address(printed):
    address = 'Ok("http://example.com/robots.txt")'
    assert printed("text", "http://user@example.com:80/x")[0].split()[:2] == [address] * 2


def test_white_space_is_no_delay(printed):
    assert " None " in printed("text", " 5")[0]


def test_small_texts_are_targets_and_paths_of_urls(printed):
    targets = printed("text", *SMALL_TEXTS)
    assert [line.split()[-1] for line in targets] == [text or "/" for text in SMALL_TEXTS]
    addresses = printed("text", *("http://a/" + text for text in SMALL_TEXTS))
    assert [line.split()[:2] for line in addresses] == [['Ok("http://a/robots.txt")'] * 2] * len(SMALL_TEXTS)


def test_small_inputs_are_ignored(printed):
    """Of every input of at most two bytes: its lines have no field name, and a robot has no rule, delay or sitemap."""
    assert printed("inputs", "") == ["true"]


# ---- robots and sites


def check_target(line, verdict, looks=(0, 2**64)):
    """By four functions: line n allows it (n), denies it (-n), or none decides (0); and the range of the looks."""
    allowed, decided = shown(verdict >= 0), f"Some({abs(verdict)})" if verdict else "None"
    decision = f"Decision {{ allowed: {allowed}, line: {decided} }}"
    start = f"[{allowed}, {allowed}] [{decision}, {decision}] "
    assert line.startswith(start)
    one, other = json.loads(line.removeprefix(start))
    assert one == other and looks[0] <= one <= looks[1]


@pytest.fixture
def of_robots(printed):
    """What a robot of the file and one of a site print: itself, and its verdicts on a text and its target."""

    def lines(text, file, number=NO_LIMIT):
        own, other = (printed(name, text, file=file, number=number, word=BOB) for name in ("robot", "robot of a site"))
        assert own == other and len(own) == 3
        return own

    return lines


def check_url(lines, verdict):
    """Of a text as a URL, parsed and not, and of its target."""
    robot, _, target = lines
    assert robot.endswith(f" {shown(verdict >= 0)}" * 2)
    check_target(target, verdict)


# A file, a limit, a text, and the verdict on it as a URL.
URLS = [
    ("User-agent: *\nDisallow: /%C3%A9?q", NO_LIMIT, "HTTPS://Example.com:443/x/../é?q#f", -2),
    # the limit cuts the value, what is before it, nothing, and what is after a byte order mark
    ("Disallow: /abc", 13, "/abx", -1),
    ("Disallow: /abc", 13, "/a", 0),
    ("Disallow: /abc", 10, "", 1),
    ("Disallow: /abc", 10, "/abc", 1),
    ("Disallow: /abc", 10, "x", 0),
    ("Disallow: /abc", 10, "/robots.txt", 0),
    ("\ufeffDisallow: /a", 15, "/a", -1),
    ("\ufeffDisallow: /a", 15, "/x", 0),
    ("\ufeffDisallow: /a", 14, "/x", -1),
]

# A file, and verdicts on match targets, which are neither the root if they are empty nor escaped.
TARGETS = [("Disallow: $", "", -1), ("Disallow: $", "/", 0), ("User-agent: *\nDisallow: /%C3%A9?q", "/é?q", 0)]


@pytest.mark.parametrize("file, limit, url, verdict", URLS)
def test_urls_are_prepared(of_robots, file, limit, url, verdict):
    check_url(of_robots(url, file, limit), verdict)


@pytest.mark.parametrize("file, target, verdict", TARGETS)
def test_targets_are_not_prepared(of_robots, file, target, verdict):
    check_target(of_robots(target, file)[1], verdict)


# A file that has no rule, delay or sitemap up to this limit: it cuts the key, everything, and a character.
@pytest.mark.parametrize("file, limit", [("Disallow: /abc", 8), ("Disallow: /abc", 0), ("Disallow: /é", 12)])
def test_nothing_is_left_below_the_limit(of_robots, file, limit):
    assert of_robots("/", file, limit)[0].endswith(" Robot { delay: None, sitemaps: [], rules: [] } true true")


# A file whose first 512,000 bytes are a comment and LF.
OVERLONG_RULE_AFTER = "#" * 511_999 + "\nSitemap: /s\nDisallow: /" + "a" * 4095 + "$"


def test_a_greater_limit_reads_on(printed, of_robots):
    rejected = printed("robot", "/a", file=OVERLONG_RULE_AFTER, number=600_000, word=BOB)
    assert rejected == ["Rule with $ is too long"]
    lines = of_robots("/a", OVERLONG_RULE_AFTER, 512_024)
    assert 'sitemaps: ["/s"]' in lines[0]
    check_url(lines, -3)


def test_robots_are_shown(of_robots):
    """The longest rule is first, with all its stars."""
    file = "Allow: /\nDisallow: /x***y$\nDisallow: /\nCrawl-Delay: 42\nSitemap: s"
    rules = '[("/x***y$", false, 2), ("/", true, 1), ("/", false, 3)]'
    want = f'Robot {{ delay: Some(42000000), sitemaps: ["s"], rules: {rules} }}'
    assert f" {want} " in of_robots("/", file)[0]


def test_bytes_of_sitemaps_are_counted(of_robots):
    """Beside the robot itself, each sitemap takes the size of a `String`, and its text."""
    file = "Sitemap: /s\nSitemap: /t\nSitemap: /u\nSitemap: /v"
    assert of_robots("/", file)[0].startswith(f"{4 * 26} ")


# A file and a match target, whether it may be fetched, and the least and the greatest number of looks. Each comparison with a
# byte of a rule takes a look, also with the byte that differs. What a final star matches takes none. In THREE, the rules are
# tried in the order of their lengths.
THREE = "Allow: /ocean\nDisallow: /rust\nDisallow: /forest*.py"
LOOKS = [
    (THREE, "/forest.py", -3, (10, 10)),
    (THREE, "/rustacean", -2, (9, 9)),
    (THREE, "/robots.txt", 0, (0, 0)),
    ("Disallow: /b\n" * 1000, "/" + "a" * 1000, 0, (2_000, 2_000)),
    # between one and two looks for each byte and rule
    ("Disallow: /*aaaab", "/" + "a" * 1000, 0, (1_001, 2_002)),
    ("Disallow: /*" + "a" * 2000 + "b", "/" + "a" * 100_000, 0, (100_001, 200_002)),
    ("Disallow: /*aaaab\n" * 1000, "/" + "a" * 1000, 0, (1_001_000, 2_002_000)),
    # a shorter rule is passed over
    ("Allow: /*b\n" * 1000 + "Disallow: /aaaa", "/" + "a" * 1004, -1001, (5, 2_010)),
]


@pytest.mark.parametrize("row", range(len(LOOKS)))
def test_looks_of_robots_are_counted(of_robots, row):
    file, target, verdict, looks = LOOKS[row]
    check_target(of_robots(target, file)[1], verdict, looks)


def test_files_of_each_size(printed):
    """Of so many equal rules a verdict compares two bytes each."""
    for size in SIZES:
        file = "Disallow: /a\n" * size
        assert printed("query", "/b", file=file, word=BOB) == [f"true {2 * size}"]
        assert printed("lines", "nobody", file=file)[0].count("Disallow") == size


# Two groups with a common name, a group for all others, and a name in two groups. The first two lines are above all user-agent
# lines. A value that isn't UTF-8 is no rule, and an empty Disallow is an Allow of `/`.
SITE = (
    b"Crawl-delay: 7\nDisallow: /nobody\nUser-agent: Alpha\nUser-agent: BETA\nDisallow: /a\nCrawl-delay: 2\n"
    b"User-agent: beta\nAllow: /b\nUser-agent: *\nDisallow: /\nuser-agent: ALPHA\nDisallow: /\xc3\xa9\nDisallow: /\xff\nDisallow:"
)

# A crawler, the name of its group, the numbers of its lines, and its rules: line, whether it is an Allow, pattern and value.
CRAWLERS = [
    ("aLpHa", b"aLpHa", [5, 6, 12, 13, 14], ["5 false /a /a", "12 false /%C3%A9 /é", "14 true / /"]),
    ("Beta", b"Beta", [5, 6, 8], ["5 false /a /a", "8 true /b /b"]),
    ("Gamma", b"*", [10], ["10 false / /"]),
]


@pytest.mark.parametrize("crawler, group, numbers, rules", CRAWLERS)
def test_each_crawler_gets_its_own_groups(printed, crawler, group, numbers, rules):
    assert printed("site", crawler, file=SITE) == [shown(group), *map(str, numbers), *rules]


# Two files, and whether they have the same verdicts.
FILES = [
    ("Disallow: /a*", "Disallow: /a", True),
    ("Disallow: /a$", "Disallow: /a", False),
    ("Disallow: /*a*b$", "Disallow: /*a*b", False),
]


@pytest.mark.parametrize("one, other, same", FILES)
def test_files_are_compared(printed, of_robots, one, other, same):
    """In both ways. Files that differ have opposite verdicts on the text that is printed."""
    for old, new in [(one, other), (other, one)]:
        (found,) = printed("same", BOB, file=old, number=100_000, word=new)
        if same:
            assert found == "Same"
            continue
        text = bytes(json.loads(re.fullmatch(r"Differ\((.*)\)", found)[1])).decode()
        was, now = (of_robots(text, file)[1].split()[0] for file in (old, new))
        assert {was, now} == {"[true,", "[false,"}


def test_small_budgets_decide_nothing(printed):
    assert printed("same", BOB, file="Disallow: /a") == ["Undecided"]


# A file, a page, and what the crawler of docs/GUIDE.md does about it.
FERRIS = "User-agent: FerrisBot\nDisallow: /forest\nCrawl-delay: 2.5\n"
REEF = "https://example.com/ocean/reef.html"
PLANS = [
    (FERRIS, REEF, "Fetch(2500000)"),
    (FERRIS, "/forest/tree", "Leave"),
    ("Crawl-delay: inf", REEF, "Fetch(60000000)"),
    ("", REEF, "Fetch(1000000)"),
]


@pytest.mark.parametrize("file, page, plan", PLANS)
def test_a_crawler_plans_its_visit(printed, file, page, plan):
    assert printed("visit", page, file=file) == [plan]


# ---- RFC 9309's reading of a file

# Here the delay ends the list of names, so that Googlebot may fetch everything.
ONLY = "# only these\nUser-agent: Googlebot\nUser-agent: Bingbot\nCrawl-delay: 5\n\nUser-agent: *\nDisallow: /\n"
ONLY_TEXT = "\nUser-agent: Googlebot\nUser-agent: Bingbot\n\n\nUser-agent: *\nDisallow: /\n"
MIXED = (
    b"\xef\xbb\xbfDisallow: /\nUser-agent: Bot\nCrawl-delay: 1\nUseragent: Other/1 # c\nDisallow:\n"
    b"Disalow: /%62{$a\xff\r\nAllow: /*\xc3\xa9$\0Disallow: /%%341"
)
MIXED_TEXT = (
    "\nUser-agent: Bot\n\nUser-agent: Other/1\nDisallow: $/\nDisallow: /b%7B%24a%FF\nAllow: /*%C3%A9$\nDisallow: /%41\n"
)
ABOVE = "Disallow: /a\nAllow: /b"

# A file, and the text that stands for it.
READ = [
    (ONLY.encode(), ONLY_TEXT),
    (MIXED, MIXED_TEXT),
    (b"", ""),
    (ABOVE.encode(), "\n\n"),
    (b"User-agent: \xff\xe9\nAllow:\nSitemap: s\nNoindex: /", b"User-agent: \xff\xe9\nAllow: $/\n\n\n"),
]


@pytest.mark.parametrize("file, text", READ)
def test_a_text_stands_for_a_file(printed, file, text):
    assert printed("standard text", "", file=file, number=512_000) == [
        shown(text if isinstance(text, bytes) else text.encode())
    ]


# A file, a crawler, a URL, the verdict, and the line that decides.
STANDARD = [
    (ONLY, "Googlebot", "https://example.com/", False, 7),
    (ONLY, "googlebot", "https://example.com/robots.txt?", False, 7),
    (ONLY, "Googlebot", "https://example.com/robots.txt#a", True, None),
    (MIXED, "BOT", "/%62%7b$a%ff", False, 6),
    (MIXED, "other/1", "HTTPS://example.com/b{$a%FF#b", False, 6),
    (MIXED, "Bot", "/é", True, 7),
    # each of them is put in normal form once
    (MIXED, "Bot", "/%%341", False, 8),
    (MIXED, "Bot", "/A", True, None),
    (ABOVE, "Bot", "/a", True, None),
    ("User-agent: *\nDisallow: /?a", "Bot", "https://example.com?a", False, 2),
    ("User-agent: *\nDisallow:\nDisallow: /", "Bot", "https://example.com", False, 3),
    # an identifier, since pytest hands it to the program in an environment variable
    pytest.param(
        "User-agent: *\nDisallow: /{\n" + "Allow: /{\n" * 51_196 + "Disallow: /b", "Bot", "/b", False, 51_199, id="long"
    ),
]


@pytest.mark.parametrize("file, crawler, url, allowed, line", STANDARD)
def test_files_are_read_as_by_the_standard(printed, file, crawler, url, allowed, line):
    assert printed("standard", url, file=file, number=512_000, word=crawler) == [
        "true",
        f"{shown(allowed)} Decision {{ allowed: {shown(allowed)}, line: {some(line)} }}",
    ]


def test_long_rules_with_a_dollar_are_rejected(printed):
    """In normal form the first rule for the crawler has 4,202 bytes, the last one 4,096."""
    file = "User-agent: a\nDisallow: /$\nUser-agent: b\nDisallow: /" + "{" * 1400 + "$"
    assert printed("standard", "/", file=file, number=512_000, word="B") == ["true", "Overlong(4)"]
    assert printed("standard", "/", file=file, number=512_000, word="a")[1].startswith("false")
    file = "User-agent: a\nDisallow: /" + "$" * 1364 + "aa$"
    assert printed("standard", "/", file=file, number=512_000, word="a")[1].startswith("true")
