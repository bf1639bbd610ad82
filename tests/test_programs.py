r"""Golden tests of the programs: with these arguments and this input, a program writes exactly this and ends with this status.

A case is a table in tests/golden/PROGRAM/*.toml, named by what it shows:

```toml
["a URL is denied"]
args = '- -q --agent Ferris /a%20b'
rfc = '2'
file = '''
User-agent: Ferris
Disallow: /a b
Allow: b'''
out = '''
group: Ferris
delay: none
deny 2 /a%20b'''
warn = '''
2 several-values space
3 missing-slash'''
status = 1
```

`[[rows]]` is a table with a case in each line of its `cases`. Its `columns`, or else those above all cases, name the keys of the cells
between ` | `, in which ⏎ is a line feed and `-` an empty text. A cell replaces the table's value for its key, or the `{}` in that; an empty cell,
or one that is left out, leaves it. All cases are repeated with each word of `each` in place of `{each}`.

| Key | Meaning |
|---|---|
| `args` | the arguments, separated by spaces; a named file is the first one, so that `warn` can name it |
| `file`, `from` | standard input, or the path of a file with it |
| `expect`, `old` | runs in a folder with a file `expect.txt` or `old.txt` of this text |
| `agent`, `robots` | for `robots_verdict`: the input is this crawler, the URLs in `out`, and this file |
| `out`, `err` | the lines of standard output and standard error; none if left out |
| `warn` | instead of `err`, for each warning, also if the program counts it only, a line `[LINE] NAME [DETAIL]`; the detail is its URL, the name of one of several crawlers in quotes, or the directive that may be meant. `3-5 NAME` are three warnings. Messages come from tests/warnings.txt |
| `json` | instead of `out`, a report as JSON, with what `rfc` and `warn` say: `crawler NAME: GROUP [LINE], MAY_FETCH, RULES` and possibly `ignored`, `delay`, `rejected` and `vendor`; below it verdicts; then rows as `MEMBERSHIP KIND VALUE`, or `no rows`, and each `sitemap`. `; RFC 9309: MAY_FETCH, RULES` and possibly `rejected` after a crawler, or `; RFC 9309: deny 3` after a URL, if these differ |
| `status` | the exit status, if it isn't 0 |
| `rfc` | what the report says of the file by RFC 9309: `verdicts`, `syntax LINE` (only JSON has these), or the first line that isn't of its syntax |
| `reads` | how RFC 9309 reads the file, unless it reads it alike, such as `reads this file otherwise for Googlebot (line 4)` |
| `like`, `more` | a case above, whose keys apply here too; more lines of standard output. Keys above all cases apply to each |
| `pieces`, `room` | how many bytes are read at a time; how many standard output accepts, or `'closed'` |
| `indented` | also runs the case with each line of `robots` indented |

The detail in `warn` can also be the level, if the name has several; a word of the message, such as
`comma`, `invisible` or `=`; the number in `(3 rules)` or `(see line 3)`; or for `needless-rule`,
`never`, `nothing`, `allowed` or `covered`, and then the line. In strings, `\\` is a backslash, `\r`
CR, `\xHH` a byte, `\{N TEXT}` N times the TEXT, and `\[NAME]` a phrase of tests/support.py or a warning's message.
`pytest tests -k 'URL and denied'` runs the cases with these words in their names.

Larger inputs are made here.
"""

import json
import os
import re
import resource
import signal
import subprocess
import time
from itertools import product
from pathlib import Path

import pytest
from support import ROOT, WARNINGS, Result, cases_of, files_beside, input_of, parts_of, program, repeated, run, spelled, wanted_of, warning_lines, warnings_of, with_standard

def golden():
    """The arguments of test_golden for each case, those of this module's comment and of CONTRIBUTING too."""
    files = {f"{path.parent.name} {path.stem}": path.read_text() for path in sorted(Path(ROOT, "tests/golden").glob("*/*.toml"))}
    for name, text in {"example": __doc__, "contributing": (ROOT / "CONTRIBUTING.md").read_text()}.items():
        files[f"robots_audit {name}"] = re.search(r"^```toml\n(.*?)^```$", text, re.M | re.S)[1]
    for file, text in files.items():
        for name, case in cases_of(text).items():
            yield pytest.param(file.split()[0], case, False, id=f"{file}: {name}")
            if case.get("indented"):
                yield pytest.param(file.split()[0], case, True, id=f"{file}: {name}, indented")


def feed(pipe, text, size):
    """Writes a text in pieces with a pause after each, so that a reader gets one at a time."""
    for at in range(0, len(text), size):
        pipe.write(text[at : at + size])
        pipe.flush()
        time.sleep(0.05)
    pipe.close()


def run_in_pieces(name, args, text, size):
    with subprocess.Popen([program(name), *args], cwd=ROOT, stdin=subprocess.PIPE, stdout=subprocess.PIPE, stderr=subprocess.PIPE) as child:
        feed(child.stdin, text, size)
        return Result(child.wait(60), child.stdout.read(), child.stderr.read())


def run_with_room(name, args, stdin, room, folder):
    """Runs a program whose output takes so many bytes: a file with a limit, /dev/full, or a pipe that nobody reads."""
    if room == "closed":
        reader, writer = os.pipe()
        os.close(reader)
        with os.fdopen(writer, "wb") as out:
            return run(name, args, stdin, stdout=out)
    if room == 0:
        with open("/dev/full", "wb") as out:
            return run(name, args, stdin, stdout=out)

    def limit():
        signal.signal(signal.SIGXFSZ, signal.SIG_IGN)
        resource.setrlimit(resource.RLIMIT_FSIZE, (1024, 1024))

    path = folder / "out"
    path.write_bytes(bytes(1024 - room))
    with path.open("ab") as out:
        result = run(name, args, stdin, stdout=out, preexec_fn=limit)
    return Result(result.status, path.read_bytes()[1024 - room :], result.err)


@pytest.mark.parametrize("name, case, indented", golden())
def test_golden(name, case, indented, tmp_path):
    args = [spelled(word) for word in repeated(case.get("args", "")).split()]
    stdin = os.open(Path(ROOT, case["from"]), os.O_RDONLY) if case.get("from") else input_of(case, indented)
    try:
        if "pieces" in case:
            result = run_in_pieces(name, args, stdin, case["pieces"])
        elif "room" in case:
            result = run_with_room(name, args, stdin, case["room"], tmp_path)
            result.out = result.out or ""
        else:
            others = files_beside(case)
            for other, text in others.items():
                (tmp_path / other).write_bytes(text)
            result = run(name, args, stdin, cwd=tmp_path if others else ROOT)
    finally:
        if isinstance(stdin, int):
            os.close(stdin)
    assert result == wanted_of(case)
    if result.out.startswith("{") and "room" not in case:
        json.loads(result.out)


def test_all_golden_cases_are_run():
    """Each table of each file, each row of `[[rows]]`, and the cases in this module's comment and in CONTRIBUTING."""
    texts = [path.read_text() for path in Path(ROOT, "tests/golden").glob("*/*.toml")]
    count = sum(len(re.findall(r"""^\[["'].*["']\]$""", text, re.M)) for text in texts)
    tables = [it for text in texts for it in re.findall(r"^(?:each = '([^\n]*)'\ncolumns[^\n]*\n)?cases = '''\n(.*?)\n?'''$", text, re.M | re.S)]
    count += sum((rows.count("\n") + 1) * max(len(words.split()), 1) for words, rows in tables)
    folders = {path.name for path in Path(ROOT, "tests/golden").iterdir() if path.is_dir()}
    values = [it.values for it in golden()]
    assert len([indented for _, _, indented in values if not indented]) == count + 2
    assert {name for name, _, _ in values} == folders == {"robots_audit", "robots_verdict"}


def test_golden_cases_have_each_warning():
    assert {parts_of(line)[1] for it in golden() for line in warnings_of(it.values[1])} == set(WARNINGS)


@pytest.mark.parametrize("start, misses", [("/a", "\t\\^{}"), ("/a?x", "\t'`")], ids=["path", "query"])
def test_a_rule_with_a_byte_that_urls_escape_is_warned_about(start, misses):
    """The warning comes exactly if the rule misses here the very URL that it spells, as crawlers send it; else there may be the note."""
    warned = ""
    sent = {"\t": "", "\f": "%0C", " ": "%20", "<": "%3C", ">": "%3E"}
    for byte in map(chr, range(1, 128)):
        if byte in "\n\r#$*":
            continue
        rule = f"{start}{byte}/"
        args = ["--only", "unencoded-character", "--agent", "Ferris", "-", f"http://example.com{start}{sent.get(byte, byte)}/"]
        result = run("robots_audit", args, f"User-agent: *\nDisallow: {rule}".encode())
        if "\nallow - http" in result.out:
            assert result.err == warning_lines(["2 unencoded-character"], agent="Ferris")
            warned += byte
        else:
            assert "\ndeny 2 http" in result.out and result.err in ("", warning_lines(["2 unencoded-character note"], agent="Ferris"))
    assert warned == misses


def file_of(rules):
    """A file of so many rules: rule N is about /N/ alone, and denies it if N is odd."""
    return "User-agent: Ferris\n" + "".join(f"{'Disallow' if n % 2 else 'Allow'}: /{n}/\n" for n in range(1, rules + 1))


def report_on(rules, urls):
    """The report on such a file, with the lines on these URLs, each of which names a rule by its number."""
    width = len(str(rules + 1))
    out = [f"{1:{width}} + user-agent  Ferris"]
    out += [f"{n + 1:{width}} + {'disallow' if n % 2 else 'allow':11} /{n}/" for n in range(1, rules + 1)]
    out += ["group: Ferris", "delay: none"] + ["may fetch: everything"] * (rules == 0)
    for url in urls:
        n = int(url.split("/")[-2])
        line = f"{'deny' if n % 2 else 'allow'} {n + 1}" if n <= rules else "allow -"
        out.append(f"{line} {url}")
    return with_standard("\n".join(out), "verdicts") + "\n"


@pytest.mark.parametrize("rules, count", [(0, 70), (5000, 1), (5000, 1001)])
def test_many_rules_and_urls(rules, count):
    urls = [f"{'' if n % 2 else 'https://example.com'}/{17 * n}/" for n in range(1, count)]
    result = run("robots_audit", ["--agent", "Ferris", "-", *urls], file_of(rules).encode())
    warnings = ["1 empty-group"] * (rules == 0)
    out = report_on(rules, urls)
    assert result == Result(1 if "\ndeny" in out else 0, out, warning_lines(warnings, agent="Ferris"))


def test_many_agents():
    """Agent N, of 100, may not fetch /N/. Every other one is named again, in capitals, which makes no further agent."""
    urls = [f"/{n}/" for n in range(1, 31)]
    text, out = "", "crawler *: no group, may fetch everything\n"
    verdicts = "".join(f"allow - * {url}\n" for url in urls)
    for n in range(1, 101):
        name = f"{'a' * n}_"
        text += f"User-agent: {name}\nDisallow: /{n}/\n"
        out += f"crawler {name}: group {name} (line {2 * n - 1}), {'2 rules' if n % 2 else '1 rule'}\n"
        verdicts += "".join(f"{f'deny {2 * n}' if m == n else 'allow -'} {name} {url}\n" for m, url in enumerate(urls, 1))
    for n in range(1, 101, 2):
        text += f"User-agent: {'A' * n}_\nAllow: /none/{n}\n"
    out += verdicts + "RFC 9309 reads this file alike\n"
    assert run("robots_audit", ["-", *urls], text.encode()) == Result(1, out, "")


def test_many_pages():
    pages = [f"https://www.example.com/archive/page-number-{n}" for n in range(10_000)]
    text = "BobBot\n" + "".join(f"{page}/open\n{page}/closed\n" for page in pages) + "\nDisallow: /archive/*/closed\n"
    out = "delay none\n" + "".join(f"allow - {page}/open\ndeny 1 {page}/closed\n" for page in pages)
    assert run("robots_verdict", stdin=text.encode()) == Result(0, out, "")


@pytest.mark.parametrize("white", ["", " ", "\u00A0", "\u3000 "], ids=["none", "space", "no break", "wide"])
def test_the_name_of_a_file_begins_no_command(white, tmp_path):
    """GitHub's runner drops white space of Unicode at the start of a line before it looks for a command."""
    path = tmp_path / f"{white}::error::x"
    path.write_text("User-agent: *\nDisallow: a\n")
    assert run("robots_audit", [path.name], cwd=tmp_path).err.startswith(f"\\{path.name}:2: ")


def test_file_whose_reading_fails():
    """Linux reports an error for the first page of a process's memory."""
    assert run("robots_audit", ["mem"], cwd="/proc/self") == Result(2, "", "robots_audit: cannot read mem\n")


def test_messages_of_robots_examples(tmp_path):
    """The program of docs/GUIDE.md. `rt ci` runs it on its data."""
    path = tmp_path / "robots.txt"
    path.write_bytes(b"Disallow: /$" + b"a" * 4096)
    for words, message in [(["Ferris"], "usage: robots_examples AGENT FILE URL.."), (["Ferris", path, "/a"], "robots_examples: a rule of the file is too long")]:
        result = run("robots_examples", words)
        assert (result.status, result.out, result.err.splitlines()[0]) == (1, "", message)
    assert run("robots_examples", ["Ferris", tmp_path / "missing", "/a"]).status != 0


def test_small_rules():
    """Each text of / and at most six bytes out of /, a, * and $, as the one Allow rule, is allowed by that rule or by none."""
    for length in range(7):
        for text in map("".join, product("/a*$", repeat=length)):
            result = run("robots_verdict", stdin=f"B\n/{text}\n\nAllow: {text}".encode())
            assert (result.status, result.err) == (0, "")
            assert result.out in (f"delay none\nallow 1 /{text}\n", f"delay none\nallow - /{text}\n")
