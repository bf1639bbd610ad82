"""Each allocation, read and write of a program fails in turn: it gives the right result or reports the failure, writes nothing else, and
frees all that it allocated. No size of an input is out of memory.

The program texting_robots_tests makes the call of the library that its input names.
"""

import json
import os
import re
import tempfile
from itertools import count

import pytest
from support import CRATES, FORMATS, PHRASES, ROOT, SIZES, Result, run, warning_lines

CALLS = [line.removesuffix(": right") for line in (CRATES / "texting_robots_tests/stdout").read_text().splitlines()]
WITHOUT_MEMORY = [name for name in CALLS if name.endswith(" without memory")]

VERDICT_INPUT = (CRATES / "robots_verdict/stdin").read_bytes()
AUDIT_INPUT = (CRATES / "robots_audit/stdin").read_bytes()
AUDIT_ARGS = (CRATES / "robots_audit/args").read_text().splitlines()
VERDICT = Result(0, (CRATES / "robots_verdict/stdout").read_bytes(), "")
AUDIT_WARNINGS = warning_lines(["nul-in-line", "5 several-values space", "6 rule-not-utf-8", "11 noindex-line", "2 rule-before-user-agent"], agent="Ferris")
AUDIT = Result(1, (CRATES / "robots_audit/stdout").read_bytes(), AUDIT_WARNINGS)
URLS = ["https://example.com/b", "/a%20b/c"]
OLDER = ROOT / "examples/robots.txt"


class Failing:
    """Runs a program over the failing allocator, and keeps what that counted."""

    def __init__(self, heap, name, args=(), stdin=b"", **always):
        self.heap, self.name, self.args, self.stdin, self.always = heap, name, args, stdin, always
        self.allocations = 0

    def __call__(self, **failures):
        settings = {**self.always, **failures}
        with tempfile.TemporaryFile() as counts:
            settings |= {"LD_PRELOAD": self.heap, "COUNTS": counts.fileno()}
            given = {name: str(value) for name, value in settings.items()}
            result = run(self.name, self.args, self.stdin, env=os.environ | given, pass_fds=[counts.fileno()])
            counts.seek(0)
            told = counts.read().split()
        assert told, f"the program broke off: {result}"
        self.allocations, self.failed, self.leaked, self.broken, self.reads = map(int, told)
        assert self.leaked == 0, f"{settings} leaked {self.leaked} blocks"
        return result


def fail_each_allocation(program, right, reported, later):
    """Fails the first allocation, with `later` all that follow too, then the second, and so on, until a run meets no failure."""
    for number in count(1):
        result = program(FAIL_ALLOCATION=number, FAIL_LATER=int(later))
        if program.failed == 0:
            break
        assert result in (right, reported), f"allocation {number} failed"
    assert result == right
    assert number > 1


def break_each(program, kind, is_reported):
    """Makes the first call of a kind, READ or WRITE, fail, then the second, and so on, until a run meets no failure."""
    right = program()
    for number in count(1):
        result = program(**{f"FAIL_{kind}": number})
        if program.broken == 0:
            break
        assert is_reported(result, right, number), f"call {number} failed: {result}"
    assert result == right
    assert number > 1


def call_of(heap, name):
    return Failing(heap, "texting_robots_tests", stdin=f"{name}\n".encode())


later = pytest.mark.parametrize("later", [False, True], ids=["one allocation", "one and all later ones"])


@later
@pytest.mark.parametrize("name", [name for name in CALLS if name not in WITHOUT_MEMORY])
def test_call(failing_heap, name, later):
    call = call_of(failing_heap, name)
    fail_each_allocation(call, Result(0, f"{name}: right\n", ""), Result(0, f"{name}: out of memory\n", ""), later)


@pytest.mark.parametrize("name", WITHOUT_MEMORY)
def test_call_without_memory(failing_heap, name):
    """Every allocation fails after those of the call before `, then`, if there is one."""
    set_up, _, _ = name.rpartition(", then ")
    first = call_of(failing_heap, set_up)
    if set_up:
        first()
    call = call_of(failing_heap, name)
    assert call(FAIL_ALLOCATION=first.allocations + 1, FAIL_LATER=1) == Result(0, f"{name}: right\n", "")
    assert (call.allocations, call.failed) == (first.allocations, 0)


@later
def test_robots_verdict(failing_heap, later):
    program = Failing(failing_heap, "robots_verdict", stdin=VERDICT_INPUT)
    fail_each_allocation(program, VERDICT, Result(4, "", "robots_verdict: out of memory\n"), later)


BEYOND, JUNK, EXPECTED, ODD, NONE, NEEDLESS, LIST = "BEYOND", "JUNK", "EXPECTED", "ODD", "NONE", "NEEDLESS", "LIST"
AUDIT_RUNS = {
    "the example": AUDIT_ARGS,
    "a named file": ["--agent", "Ferris", CRATES / "robots_audit/stdin", *URLS],
    "each agent": ["-", *URLS],
    "agents by name": ["--agent", "Ferris", "--agent", "other", "-", *URLS],
    "URLs in a file": ["--urls-from", LIST, "--denied", "--agent", "Ferris", "-", *URLS],
    "a page about each agent": ["--html", "-", *URLS],
    "a comparison": ["--compare", OLDER, "-", *URLS],
    "a comparison as JSON": ["--compare", OLDER, "--json", "-", *URLS],
    "a comparison as annotations": ["--compare", OLDER, "--format", "github", "-", *URLS],
    "a comparison as a page": ["--compare", OLDER, "--format", "html", "-", *URLS],
    "a comparison with URLs in a file": ["--compare", OLDER, "--urls-from", LIST, "--agent", "Ferris", "-", *URLS],
    "expectations": ["--expect", EXPECTED, "-"],
    "expectations as JSON": ["--expect", EXPECTED, "--json", "-"],
    "expectations as annotations": ["--expect", EXPECTED, "--format", "github", "-"],
    "an expectation about no URL": ["--expect", ODD, "-"],
    "no expectations": ["--expect", NONE, "-"],
    **{form: ["--format", form, "--agent", "Ferris", "-", *URLS] for form in FORMATS},
    "the list of warnings": ["--list-warnings"],
    "an explanation": ["--explain", "missing-slash"],
    "wrong arguments": ["--none", "-"],
    "no arguments": [],
    "the name of no crawler": ["--agent", "Ferris/1", "-"],
    "an argument that is no URL": ["-", "/a", "a"],
    "a URL where a file is expected": ["https://example.com"],
    "a name after the first 512,000 bytes": ["--agent", "Ferris", BEYOND],
    "more than twenty warnings with one name": ["--agent", "Ferris", JUNK],
    "needless rules": ["--needless", NEEDLESS],
    "colors": ["--color", "always", "--agent", "Ferris", "-", *URLS],
    "warnings by name": ["--only", "noindex-line", "--only", "missing-slash", "--ignore", "host-line", "--strict", "--agent", "Ferris", "-", *URLS],
}


@pytest.fixture
def made(tmp_path):
    """The paths of the files that runs name."""
    texts = {BEYOND: b"#" * 512_000 + b"\nUser-agent: a\n", JUNK: b"Disallow: /a\n" + b"hello\nHost: a\n" * 22}
    texts |= {LIST: b"/a\nhttps://e.com/a%20b/c\n", EXPECTED: b"allow Ferris https://e.com/\ndeny other /a", ODD: b"allow Ferris a", NONE: b"# allow Ferris /"}
    texts[NEEDLESS] = b"User-agent: *\nDisallow: /a\nDisallow: /ab\nAllow: /c\n\nUser-agent: b\nDisallow: /*d\nDisallow: /d\nDisallow: /$e\n"
    for name, text in texts.items():
        (tmp_path / name).write_bytes(text)
    return {name: tmp_path / name for name in texts}


@later
@pytest.mark.parametrize("what", AUDIT_RUNS)
def test_robots_audit(failing_heap, made, what, later):
    args = [made.get(word, word) for word in AUDIT_RUNS[what]]
    program = Failing(failing_heap, "robots_audit", args, AUDIT_INPUT)
    right = AUDIT if what == "the example" else program()
    fail_each_allocation(program, right, Result(2, "", "robots_audit: out of memory\n"), later)


HINT = "before a path to check, write FILE, or - for standard input"


@pytest.fixture
def long_file(tmp_path):
    """A file that takes several reads."""
    path = tmp_path / "long"
    path.write_bytes(AUDIT_INPUT + b"#" * 200_000)
    return path


@pytest.mark.parametrize("is_named", [True, False], ids=["of a named file", "of standard input"])
def test_robots_audit_reports_a_failed_read(failing_heap, long_file, is_named):
    args = ["--agent", "Ferris", long_file if is_named else "-", URLS[0]]
    why = f"cannot read {long_file}; {HINT}" if is_named else "cannot read standard input"
    program = Failing(failing_heap, "robots_audit", args, b"" if is_named else long_file.read_bytes())
    break_each(program, "READ", lambda result, right, number: result == Result(2, "", f"robots_audit: {why}\n"))


OTHER_FILES = {
    "URLs": (["--urls-from"], b"/a\n" * 50_000),
    "expectations": (["--expect"], b"allow Ferris /\n" + b"#" * 200_000),
    "an older version": (["--compare"], AUDIT_INPUT + b"#" * 200_000),
}


@pytest.mark.parametrize("what", OTHER_FILES)
def test_robots_audit_reports_a_failed_read_of_one_of_two_files(failing_heap, long_file, tmp_path, what):
    args, text = OTHER_FILES[what]
    other = tmp_path / "other"
    other.write_bytes(text)
    files, unread = {long_file, other}, set()

    def is_reported(result, right, number):
        named = {file for file in files if result == Result(2, "", f"robots_audit: cannot read {file}; {HINT}\n")}
        unread.update(named)
        return named != set()

    break_each(Failing(failing_heap, "robots_audit", [long_file, *args, other]), "READ", is_reported)
    assert unread == files


WRITTEN = {
    **{form: ["--format", form, "--agent", "Ferris", "-", URLS[0]] for form in FORMATS},
    "a comparison": ["--compare", OLDER, "--agent", "Ferris", "-", URLS[0]],
    "expectations": ["--expect", EXPECTED, "-"],
    "the list of warnings": ["--list-warnings"],
    "an explanation": ["--explain", "missing-slash"],
}


@pytest.mark.parametrize("what", WRITTEN)
def test_robots_audit_reports_a_failed_write(failing_heap, long_file, made, what):
    """It writes a beginning of its report and says so, or all of it and a beginning of its messages."""

    def is_reported(result, right, number):
        if result.status == 2:
            return right.out.startswith(result.out) and result.err == "robots_audit: cannot write the report\n"
        return (result.status, result.out) == (right.status, right.out) and right.err.startswith(result.err)

    args = [made.get(word, word) for word in WRITTEN[what]]
    program = Failing(failing_heap, "robots_audit", args, long_file.read_bytes())
    break_each(program, "WRITE", is_reported)


@pytest.fixture
def byte_by_byte(failing_heap):
    """robots_verdict on its example, of which each read gives a byte and each write takes one."""
    return Failing(failing_heap, "robots_verdict", stdin=VERDICT_INPUT, PIECE=1)


def test_robots_verdict_byte_by_byte(byte_by_byte):
    assert byte_by_byte() == VERDICT


def test_robots_verdict_reports_a_failed_read(byte_by_byte):
    unread = Result(1, "", "robots_verdict: reading the input failed\n")
    break_each(byte_by_byte, "READ", lambda result, right, number: result == unread)


@pytest.mark.parametrize("writes_nothing", [0, 1], ids=["fails", "writes nothing"])
def test_robots_verdict_reports_a_failed_write(byte_by_byte, writes_nothing):
    byte_by_byte.always["WRITE_NOTHING"] = writes_nothing
    failed = "robots_verdict: writing the output failed\n"
    break_each(byte_by_byte, "WRITE", lambda result, right, number: result == Result(1, right.out[: number - 1], failed))


@pytest.mark.parametrize("size", [1_048_575, 1_048_576, None], ids=["at the end", "a byte before it", "without an end"])
def test_robots_verdict_reads_at_most_1048576_times(failing_heap, size):
    """Each read gives a byte, an LF; the last one can be the input's end."""
    with open(os.devnull if size else "/dev/zero", "rb") as endless:
        program = Failing(failing_heap, "robots_verdict", stdin=b"\n" * size if size else endless, PIECE=1)
        result = program()
    ended = Result(0, "delay none\n", "") if size == 1_048_575 else Result(1, "", "robots_verdict: reading the input failed\n")
    assert (result, program.reads) == (ended, 1_048_576)


@pytest.mark.parametrize("size", [1_048_575, 1_048_576], ids=["at the end", "a byte before it"])
def test_robots_audit_reads_at_most_1048576_times(failing_heap, size):
    program = Failing(failing_heap, "robots_audit", ["-q", "--agent", "a", "-"], b"Disallow: /" + b" " * (size - 11), PIECE=1)
    result = program()
    ended = (0, "") if size == 1_048_575 else (2, "robots_audit: cannot read standard input\n")
    assert (result.status, result.err if result.status else "", program.reads) == (*ended, 1_048_576)


# By what has a size: the crawler, the URLs and the file of a run, and the verdicts that both programs print.
ALL = "User-agent: *\n"
AT_EACH_SIZE = {
    "the crawler's name": lambda size: ("a" * size, ["/b"], f"User-agent: {'a' * size}\nDisallow: /", "deny 2 /b\n"),
    "a path": lambda size: ("a", ["/" + "b" * size], ALL + "Disallow: /", f"deny 2 /{'b' * size}\n"),
    "a path that is escaped": lambda size: ("a", [f"/{'é' * (size // 2)}"], ALL + "Disallow: /", f"deny 2 /{'é' * (size // 2)}\n"),
    "a URL": lambda size: ("a", [f"https://h/é{'b' * size}#c"], ALL + "Disallow: /", f"deny 2 https://h/é{'b' * size}#c\n"),
    "the number of URLs": lambda size: ("a", ["/b"] * size, ALL + "Disallow: /", "deny 2 /b\n" * size),
    "a rule": lambda size: ("a", ["/b"], f"{ALL}Disallow: /{'c' * size}\nDisallow: /", "deny 3 /b\n"),
    "a rule with $": lambda size: ("a", ["/b"], f"{ALL}Disallow: /{'c' * min(size, 4094)}$\nDisallow: /", "deny 3 /b\n"),
    "the number of stars in a row": lambda size: ("a", ["/b"], f"{ALL}Disallow: /{'*' * size}", "deny 2 /b\n"),
    "the number of stars": lambda size: ("a", ["/b"], f"{ALL}Disallow: /{'c*' * size}\nDisallow: /", "deny 3 /b\n"),
    "the number of rules": lambda size: ("a", ["/b"], ALL + "Disallow: /\n" * size, "deny 2 /b\n"),
    "the number of lines": lambda size: ("a", ["/b"], "\n" * size + ALL + "Disallow: /", f"deny {size + 2} /b\n"),
    "a sitemap": lambda size: ("a", ["/b"], f"{ALL}Disallow: /\nSitemap: {'s' * size}", "deny 2 /b\n"),
    "the number of sitemaps": lambda size: ("a", ["/b"], ALL + "Disallow: /\n" + "Sitemap: s\n" * min(size, 46_000), "deny 2 /b\n"),
    "the number of agents": lambda size: ("a", ["/b"], ALL + "Disallow: /\n" + "User-agent: b\n" * min(size, 36_000), "deny 2 /b\n"),
    "a delay": lambda size: ("a", ["/b"], f"{ALL}Disallow: /\nCrawl-delay: {size}", "deny 2 /b\n"),
}


@pytest.mark.parametrize("what", AT_EACH_SIZE)
def test_no_size_is_out_of_memory(what):
    for size in SIZES:
        agent, urls, file, verdicts = AT_EACH_SIZE[what](size)
        verdict = run("robots_verdict", stdin="\n".join([agent, *urls, "", file]).encode())
        assert (verdict.status, verdict.err, verdict.out.endswith("\n" + verdicts)) == (0, "", True), size
        audit = run("robots_audit", ["--agent", agent, "-", *urls], file.encode())
        assert (audit.status, "\n" + verdicts in audit.out) == (1, True), (size, audit.err)
        as_json = run("robots_audit", ["--json", "--agent", agent, "-", *urls], file.encode())
        assert (as_json.status, len(json.loads(as_json.out)["agents"][0]["verdicts"])) == (1, len(urls)), (size, as_json.err)


BY_STANDARD = "(by RFC 9309 and Google: "
DENIED = PHRASES["everyone"] + f"\ndelay: none\ndeny 1 /b   {BY_STANDARD}allow -)\n"


def standard(*names):
    """What a report on these crawlers says of a rule without a user-agent line by RFC 9309."""
    named = ", ".join(f"{name} (line 1)" for name in names[:3]) + f" and {len(names) - 3} more" * (len(names) > 3)
    return f"not RFC 9309 syntax, first at line 1\nRFC 9309 reads this file otherwise for {named}\n"


def crawlers(size):
    """So many names of crawlers, and the options that give them."""
    names = [f"a{number}" for number in range(size)]
    return names, [f"--agent={name}" for name in names]


def of_each(names, *lines):
    """These lines about each crawler."""
    return "".join("".join(lines).replace("NAME", name) for name in names)


def denied_to(size):
    """The report on this many crawlers."""
    names, _ = crawlers(size)
    each = of_each(names, f"crawler NAME: all rules (no User-agent line is read), 1 rule, may fetch nothing {BY_STANDARD}everything)\n")
    return (DENIED if size == 1 else each + of_each(names, f"deny 1 NAME /b   {BY_STANDARD}allow -)\n")) + standard(*names)


def error(message):
    """The status, the output and the end of the message after an error."""
    return 2, "", f"robots_audit: {message}\n"


def unread(name):
    """The same for a file that isn't there. A name of more than 255 bytes is no name of a file."""
    return error(f"cannot read {name}" + (": no such file" if len(name) <= 255 else ""))


GROUP_DIFFERS, SAME_VERDICTS = "crawler NAME: group everyone -> none\n", "crawler NAME: no URL's verdict changes\n"

# By what of an audit has a size: the arguments and the input of a run, its status, its output, and the end of its message.
OF_AN_AUDIT = {
    "the number of crawlers": lambda size: (["-q", *crawlers(size)[1], "-", "/b"], "Disallow: /", (1, denied_to(size), "")),
    "the number of compared crawlers": lambda size: (
        ["--compare", "/dev/null", *crawlers(size)[1], "-"], "User-agent: b",
        (1, "old: /dev/null (empty), new: -\n" + of_each(crawlers(size)[0], GROUP_DIFFERS, SAME_VERDICTS), ""),
    ),
    "a name that no warning has, explained": lambda size: (["--explain", "a" * size], "", error(f"unknown warning {'a' * size}; all are in --list-warnings")),
    "a name that no warning has": lambda size: (["--ignore", "a" * size, "-"], "", error(f"unknown warning {'a' * size}; all are in --list-warnings")),
    "the name of a missing file": lambda size: (["a" * size], "", unread("a" * size)),
    "the name of a missing older file": lambda size: (["--compare", "a" * size, "-"], "", unread("a" * size)),
    "a name that no crawler has": lambda size: (
        ["--agent", "%" * size, "-"], "",
        error(f"{'%' * size}: {PHRASES['token']}"),
    ),
    "neither a path nor a URL": lambda size: (
        ["-", "b" * size], "",
        error(f"{'b' * size}: {PHRASES['word']}"),
    ),
}  # fmt: skip


@pytest.mark.parametrize("size", [1, 1_001, 65_537])
@pytest.mark.parametrize("what", OF_AN_AUDIT)
def test_no_size_of_an_audit_is_out_of_memory(what, size):
    args, file, (status, out, end) = OF_AN_AUDIT[what](size)
    result = run("robots_audit", args, file.encode(), timeout=300)
    assert (result.status, result.out) == (status, out)
    assert result.err.endswith(end)


def test_many_crawlers_in_a_file():
    """Those that it names have the rule, and `*` has none."""
    file = "".join(f"User-agent: {number:x}\n" for number in range(10_000)) + "Disallow: /"
    result = run("robots_audit", ["-q", "-", "/b"], file.encode(), timeout=300)
    denied = re.findall(r"^deny 10001 [0-9a-f]+ /b$", result.out, re.M)
    assert (result.status, len(denied), result.out.count("\nallow - * /b\n")) == (1, 10_000, 1)


EACH = {"json": '"name":"unrecognized-line"', "github": "title=unrecognized-line", "sarif": '"ruleId":"unrecognized-line"'}


@pytest.mark.parametrize("form", EACH)
def test_many_listed_warnings(form):
    result = run("robots_audit", ["--format", form, "-"], b"a\n" * 65_537 + b"Disallow: /", timeout=300)
    assert (result.status, result.out.count(EACH[form]), result.err) == (0, 65_537, "")


# Of a file of 64 MB, its role, the arguments and its beginning, and the end of the report.
LARGE = b"#" * 2**26
OF_A = standard("a").partition("\n")[2]
OF_LARGE_FILES = {
    "robots.txt": (["-q", "--agent=a", "LARGE", "/b"], b"Disallow: /\n", DENIED + OF_A),
    "standard input": (["-q", "--agent=a", "-", "/b"], b"Disallow: /\n", DENIED + OF_A),
    "URLs": (["-q", "SMALL", "--agent=a", "--urls-from", "LARGE"], b"/b\n", DENIED + standard("a") + "0 allowed, 1 denied\n"),
    "expectations": (["NAMED", "--expect", "LARGE"], b"allow a /b\n", "LARGE:1: a must be allowed /b, but line 2 denies it\n"),
    "an older version": (["NAMED", "--compare", "LARGE", "--agent=a", "/b"], b"User-agent: *\nAllow: /\n", "crawler a /b: allow 2 -> deny 2, closed\n"),
}


@pytest.mark.parametrize("what", OF_LARGE_FILES)
def test_a_large_file_is_read(what, tmp_path):
    args, beginning, end = OF_LARGE_FILES[what]
    (tmp_path / "SMALL").write_bytes(b"Disallow: /\n")
    (tmp_path / "NAMED").write_bytes(b"User-agent: *\nDisallow: /\n")
    (tmp_path / "LARGE").write_bytes(beginning + LARGE)
    with (tmp_path / "LARGE").open("rb") as stdin:
        result = run("robots_audit", args, stdin, cwd=tmp_path, timeout=300)
    assert (result.status, result.out.endswith(end)) == (1, True), result.err


@pytest.mark.parametrize("length", [255, 256, 1_001, 4_095])
def test_a_file_with_a_long_path_is_read(length, tmp_path):
    """Linux opens paths of up to 4,095 bytes."""
    (tmp_path / "a").write_bytes(b"Disallow: /\n")
    path = "./" * (length // 2) + "a" if length % 2 else ".//" + "./" * (length // 2 - 2) + "a"
    result = run("robots_audit", ["-q", "--agent=a", path, "/b"], cwd=tmp_path)
    assert (len(path), result.status, result.out) == (length, 1, DENIED + standard("a")), result.err
