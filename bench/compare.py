"""Compares the speed of this library with that of other parsers: with Protego and `urllib.robotparser` both called from Python, with the
crate `texting_robots` from Rust if cargo can get it, and with Google's parser from C++ if you have built it (see bench/google.cc):

    python3 bench/compare.py [--results] [--page] [--rounds N] [--only TEXT] [--google PROGRAM]

The Python package has to be importable; bindings/python/README.md says how to build it. Results are compared first. A parser with another
result isn't timed, unless docs/COMPATIBILITY.md lists the difference; then the URLs with the same result are timed. Of several rounds, in
which both parsers take turns, the least time counts. With --page the run replaces the one in docs/BENCHMARKS.md, and the bars for the
README are printed.
"""

import argparse
import datetime
import os
import platform
import re
import shutil
import statistics
import subprocess
import sys
import tempfile
import time
import urllib.robotparser
from importlib.metadata import version
from pathlib import Path
from typing import NamedTuple, Optional

sys.path.insert(0, str(Path(__file__).resolve().parent))
import corpus  # noqa: E402
from texting_robots import Site  # noqa: E402

try:
    import protego
except ImportError:
    protego = None

BENCH = Path(__file__).resolve().parent
PAGE = BENCH.parent / "docs/BENCHMARKS.md"
MARKS = "<!-- what follows is written by bench/compare.py --page -->\n", "<!-- up to here -->\n"
DIFFERENCES = (BENCH.parent / "docs/COMPATIBILITY.md").read_text("utf-8").split("\n## Parsers for Python\n")[1].split("\n## ")[0]


class OtherResults(Exception):
    """A parser has results that no listed difference explains."""


class Times(NamedTuple):
    """Nanoseconds from the bytes to the first result, and for a later one."""

    first: float
    later: float


class Row(NamedTuple):
    """A file, the URLs for which the other parser has another result, and the times of both parsers, if they were measured."""

    case: corpus.Case
    differ: list[str]
    ours: Optional[Times] = None
    theirs: Optional[Times] = None

    @property
    def first(self):
        """How many times as long the other parser takes to the first result."""
        return self.theirs and self.theirs.first / self.ours.first

    @property
    def later(self):
        """How many times as long the other parser takes for a later result."""
        return self.theirs and self.theirs.later / self.ours.later


def ours(case):
    robots = Site(case.file)
    return lambda url: robots.allowed(url, case.agent)


def with_protego(case):
    rules = protego.Protego.parse(case.file.decode("utf-8", "replace"))
    return lambda url: rules.can_fetch(url, case.agent)


def with_urllib(case):
    parser = urllib.robotparser.RobotFileParser()
    parser.parse(case.file.decode("utf-8", "replace").splitlines())
    return lambda url: parser.can_fetch(case.agent, url)


def listed(title):
    """The differences that docs/COMPATIBILITY.md lists for a parser."""
    rows = re.findall(r"^\| (.*?) \| (.*?) \|", DIFFERENCES, re.M)
    return {difference for difference, parsers in rows if parsers == "both" or title.split(".")[0] in parsers}


def check(title, found):
    """Rejects the parser if it has another result that isn't listed. `found` has for each file the URLs with another result."""
    names = listed(title)
    wrong = [f"{case.name}: {url}" for case, differ in found for url in differ if case.differs.get(url) not in names]
    if wrong:
        raise OtherResults("; ".join(wrong))


def once(call):
    """The processor time of a call, in nanoseconds; a short one is repeated for ten milliseconds."""
    repeats = 1
    while True:
        begun = time.process_time_ns()
        for _ in range(repeats):
            call()
        taken = time.process_time_ns() - begun
        if taken > 10_000_000:
            return taken / repeats
        repeats *= 4


def times(case, other, differ, rounds):
    """Our times and those of the other parser."""
    urls = [url for url in case.urls if url not in differ]
    parsers = [(ours, ours(case)), (other, other(case))]
    first = [[once(lambda: parse(case)(urls[0])) for parse, _ in parsers] for _ in range(rounds)]
    later = [[once(lambda: [decide(url) for url in urls]) / len(urls) for _, decide in parsers] for _ in range(rounds)]
    return [Times(*its) for its in zip(map(min, zip(*first)), map(min, zip(*later)))]


def rows_in_python(title, other, cases, rounds):
    """The rows of a parser that is called from Python; without times for no rounds."""
    found = []
    for case in cases:
        mine, theirs = ours(case), other(case)
        found.append((case, [url for url in case.urls if mine(url) != theirs(url)]))
    check(title, found)
    return [Row(*it, *(times(it[0], other, it[1], rounds) if rounds else ())) for it in found]


def rows_of_program(title, words, cases):
    """The rows of a program that calls both parsers: it prints a file's number, our and the other results, and four times."""
    with tempfile.TemporaryDirectory() as folder:
        corpus.written(Path(folder))
        ended = subprocess.run([*words, folder], capture_output=True, text=True)
    if ended.returncode:
        raise OSError(ended.stderr.strip().splitlines()[-1] if ended.stderr.strip() else f"exit status {ended.returncode}")
    rows, everything = [], list(corpus.cases())
    for line in ended.stdout.splitlines():
        number, mine, theirs, *nanoseconds = line.split("\t")
        case, (our_first, their_first, our_later, their_later) = everything[int(number)], map(float, nanoseconds)
        if case in cases:
            differ = [url for url, a, b in zip(case.urls, mine, theirs) if a != b]
            rows.append(Row(case, differ, Times(our_first, our_later), Times(their_first, their_later)))
    check(title, [row[:2] for row in rows])
    return rows


def shown(number):
    return "" if number is None else f"{number:.1f}" if number < 9.95 else f"{number:,.0f}"


def why(row):
    """How many URLs have another result, and because of which differences."""
    return f"{len(row.differ)} of {len(row.case.urls)}: {', '.join(sorted({row.case.differs[url] for url in row.differ}))}" if row.differ else ""


def table(rows):
    """The rows as a table in Markdown, the median and range of each column, and which files aren't read faster."""
    lines = ["| File | Bytes | First result | A later result | Other results |", "|---|---|---|---|---|"]
    lines += [f"| {it.case.name} | {len(it.case.file):,} | {shown(it.first)} | {shown(it.later)} | {why(it)} |" for it in rows]
    if any(row.first is None for row in rows):
        return lines
    columns = {"first result": [row.first for row in rows], "later result": [row.later for row in rows]}
    parts = [f"of the {name} {shown(statistics.median(its))} ({shown(min(its))} to {shown(max(its))})" for name, its in columns.items()]
    slower = [row.case.name for row in rows if min(row.first, row.later) < 1]
    return [*lines, "", f"Median and range {', '.join(parts)}.", "", f"Not faster: {', '.join(slower) or 'none'}."]


NAMES = {"Protego": "Protego", "urllib.robotparser": "`urllib`", "texting_robots": "crate `texting_robots`", "Google's parser": "Google's parser"}


def column(heading, number, rows):
    """A column of the table of the page: its heading, a cell for each row, and the median of the numbers."""
    numbers = [number(row) for row in rows]
    return [heading, *map(shown, numbers), f"**{shown(statistics.median(numbers))}**"]


def page(found):
    """A run for docs/BENCHMARKS.md, by the rows of each parser: our times as called from Python, and how many times as long each of the
    others takes."""
    rows = next(iter(found.values()))
    columns = [["File", *(row.case.name for row in rows), "**median**"], ["Bytes", *(f"{len(row.case.file):,}" for row in rows), ""]]
    columns.append(column("here: first URL, µs", lambda row: row.ours.first / 1000, rows))
    columns.append(column("here: a later URL, µs", lambda row: row.ours.later / 1000, rows))
    for title, its in found.items():
        columns.append(column(f"{NAMES[title]}: first URL, ×", lambda row: row.first, its))
        columns.append(column(f"{NAMES[title]}: later URLs, ×", lambda row: row.later, its))
    others = [[f"{NAMES[title]} {why(row)}" for title, row in zip(found, its) if row.differ] for its in zip(*found.values())]
    columns.append(["URLs with another verdict", *map("; ".join, others), ""])
    heading, *lines = [f"| {' | '.join(cells)} |" for cells in zip(*columns)]
    return "\n".join([f"It was made on {machine()}.", "", heading, "|" + "---|" * len(columns), *lines, ""])


def put_on_the_page(found):
    """Replaces the run of docs/BENCHMARKS.md."""
    before, _, rest = PAGE.read_text("utf-8").partition(MARKS[0])
    after = rest.partition(MARKS[1])[2]
    PAGE.write_text(f"{before}{MARKS[0]}\n{page(found)}\n{MARKS[1]}{after}", "utf-8")


def bars(found):
    """The bars of the README: the median of each parser to the first result."""
    python = ".".join(platform.python_version_tuple()[:2])
    names = {"Protego": f"Protego {protego and version('protego')}", "urllib.robotparser": f"urllib, {python}", "texting_robots": "Rust crate 0.2.2"}
    medians = sorted((statistics.median(row.first for row in rows), names.get(title, title)) for title, rows in found.items())
    lines = [("this library", "1", 1), *((name, shown(number), round(number)) for number, name in medians)]
    return [f"      {name:<17} {number:<4} {'=' * length}" for name, number, length in lines]


def machine():
    """The date, the processor, how busy it is, and what runs there."""
    cpu = Path("/proc/cpuinfo")
    names = re.findall(r"^model name\s*: (.*)$", cpu.read_text(), re.M) if cpu.exists() else [platform.processor()]
    load = f"load {os.getloadavg()[0]:.1f}"
    return f"{datetime.date.today()}, {names[0]}, {os.cpu_count()} processors, {load}, Python {platform.python_version()}"


def main():
    parser = argparse.ArgumentParser(description=__doc__, formatter_class=argparse.RawDescriptionHelpFormatter)
    parser.add_argument("--results", action="store_true", help="compare the results in Python only, and time nothing")
    parser.add_argument("--page", action="store_true", help="write this run into docs/BENCHMARKS.md")
    parser.add_argument("--rounds", type=int, default=5, help="how often each parser is timed")
    parser.add_argument("--only", default="", help="only files whose name contains this")
    parser.add_argument("--google", help="the program that bench/google.cc says how to build")
    arguments = parser.parse_args()
    cases = [case for case in corpus.cases() if arguments.only in case.name]
    rounds = 0 if arguments.results else arguments.rounds
    parsers = {"Protego": with_protego} if protego else {}
    made = {title: (rows_in_python, parse, cases, rounds) for title, parse in {**parsers, "urllib.robotparser": with_urllib}.items()}
    if shutil.which("cargo") and rounds:
        made["texting_robots"] = rows_of_program, ["cargo", "run", "-q", "--release", f"--manifest-path={BENCH}/rust/Cargo.toml", "--"], cases
    if arguments.google and rounds:
        made["Google's parser"] = rows_of_program, [arguments.google], cases
    print(machine())
    status, found = 0, {}
    for title, (rows_by, *its) in made.items():
        print(f"\n### {title}\n")
        try:
            found[title] = rows_by(title, *its)
            print(*table(found[title]), sep="\n", flush=True)
        except OtherResults as reason:
            status = 1
            print(f"Not timed, as it has other results for {reason}")
        except OSError as reason:
            print(f"Not compared: {reason}")
    if arguments.page and rounds and not arguments.only:
        put_on_the_page(found)
        print("", *bars(found), sep="\n")
    return status


if __name__ == "__main__":
    sys.exit(main())
