#!/usr/bin/env python3
"""Which sites keep which crawlers out of which paths, counted over many robots.txt files: in this process, or on workers of Dask.

    python census.py SOURCE.. [--agents A,B] [--paths /,/search] [--csv FILE] [--svg FILE] [--parts FOLDER] [--workers N | --scheduler ADDRESS]

A SOURCE is a folder of files HOST/robots.txt, HOST.robots.txt, HOST.txt or HOST, also in folders below; a JSONL file with a line {"host":
NAME, "body": BASE64} for each; or a WARC file, .warc or .warc.gz, of which complete responses for /robots.txt with a status 2xx count. A
site is a host, whatever the scheme and the port. If there are several files for one, the first is counted, by the path of its record and
by its place there. How many records are left out is shown, with the reason.

Workers read the sources themselves, so on a cluster they need the same paths, and the package texting_robots. A WARC file is read by one
of them, from its start, and a record ends where its length says, so that nothing in a body can be taken for a record. A record, or a file
of a folder, that can't be understood is listed as damaged. A source that can't be read on, or of which a worker dies, is listed as unread,
with the place of the last record that was read. The others are counted.

The rows of each JSONL or WARC file, and of each --batch files of a folder, are a part. Parts are written to files, which are then merged,
so that no process needs more memory for more sites. With --parts FOLDER, which all workers have to see, a run that was ended goes on: a
part is used again if it is whole, and this program, the agents and paths, and the names, sizes and times of its sources are the same.
FOLDER/NAME.json says what a part is made of; FOLDER/NAME.0.csv and so on are its rows: site, file, byte, and the results or, without a
site, an error. A run that is killed leaves a folder unfinished-.. there, which can be deleted.
"""

from __future__ import annotations

import argparse
import base64
import contextlib
import csv
import functools
import gzip
import hashlib
import heapq
import html
import io
import itertools
import json
import os
import re
import stat
import sys
import tempfile
import time
import uuid
import zlib
from collections import Counter
from pathlib import Path
from urllib.parse import urlsplit

from texting_robots import FILE_LIMIT, Matrix, OverlongRuleError, Site, __version__, robots_url

AGENTS = "GPTBot,CCBot,ClaudeBot,Google-Extended,Bingbot,Googlebot,Bytespider,PerplexityBot"
MOST = 4_000_000
"""No more bytes of a record in a WARC file, and of the rows of a part, are kept in memory, and no line of a record's head is longer."""
AT_ONCE = 16
"""So many files are merged at once."""
GZIP = b"\x1f\x8b"
ADDRESS = re.compile(r"(?i:https?)://(?:[^\s/?#\\@]*@)?([^\s/?#\\@]*)/robots\.txt")
STATUS = re.compile(rb"HTTP/[0-9.]+ +([1-9][0-9][0-9])\b")
CHUNK = re.compile(rb"([0-9A-Fa-f]{1,8})[ \t]*(?:;[^\n]*)?\r?\n")
CONTROL = re.compile(rb"[\x00-\x08\x0e-\x1f\x7f]")

# A batch is a tuple: 'files' and paths; or 'jsonl' or 'warc' and a path. Each reader yields the place of a record, a tuple of its path and
# its first byte (unpacked), with its site and body, with the reason for which it is left out, or with the error that damages it. It raises
# an error after which it can't go on.


def attempt(read, *given):
    try:
        return read(*given)
    except Exception as error:
        return error


def site_of(url):
    """The host of the address of a robots.txt file, as the library writes it, without a dot at its end; or None for another URL."""
    address = ADDRESS.fullmatch(url)
    if address is None:
        return None
    if not address[1].strip("."):
        raise ValueError("the URL has no host")
    return urlsplit(robots_url(url)).hostname.rstrip(".")


def site_named(host):
    site = site_of("https://" + host + "/robots.txt")
    if site is None:
        raise ValueError(f"{host!r} is no host")
    return site


def files(*paths):
    for path in paths:
        yield (path,), attempt(read_file, path)


def at_once(path, flags):
    """Opens a file without waiting for the writer of a pipe."""
    return os.open(path, flags | os.O_NONBLOCK)


def read_file(path):
    with open(path, "rb", opener=at_once) as file:
        status = os.fstat(file.fileno())
        if not stat.S_ISREG(status.st_mode):
            raise ValueError("it isn't a regular file")
        body = file.read(min(status.st_size, FILE_LIMIT))
    folder, name = os.path.split(path)
    return site_named(os.path.basename(folder) if name == "robots.txt" else name.removesuffix(".txt").removesuffix(".robots")), body


def json_lines(path):
    with open(path, "rb") as lines:
        while line := lines.readline():
            yield (path, lines.tell() - len(line)), attempt(read_json, line) if line.strip() else "empty lines"


def read_json(line):
    record = json.loads(line)
    return site_named(record["host"]), base64.b64decode(record["body"], validate=True)


def warc(path):
    with open(path, "rb") as file:
        for place, *record in records_of(file):
            yield (path, place), attempt(read_response, *record)


def records_of(file):
    """The place of each record, its fields and its content."""
    stream = gzip.open(file) if file.peek(2).startswith(GZIP) else file
    place, version = next_record(stream)
    while version:
        record = read_record(stream, version)
        following = attempt(next_record, stream)
        # only here gzip has compared the checksum of the record
        if not str(following).startswith(("CRC check failed", "Incorrect length")):
            yield place, *record
        if isinstance(following, Exception):
            raise following
        place, version = following


def next_record(stream):
    """Where the next record begins, and its first line, which is empty at the end of the file."""
    place = stream.tell()
    while (line := stream.readline(MOST)) in (b"\r\n", b"\n"):
        place = stream.tell()
    return place, line


def read_record(stream, version):
    """The fields of a record, and its content."""
    if not version.startswith(b"WARC/"):
        raise ValueError("no record begins here")
    fields = fields_of(stream)
    return fields, content_of(stream, fields)


def content_of(stream, fields):
    """The content of a record, of which no more than MOST bytes are kept."""
    missing, content = length_of(fields), io.BytesIO()
    if missing is None:
        raise ValueError("a record has no length")
    while missing and (piece := stream.read(min(missing, MOST))):
        missing -= len(piece)
        content.write(piece[: MOST - content.tell()])
    if missing:
        raise ValueError("the record is cut")
    return content.getvalue()


def fields_of(stream):
    """The fields of a head, by their names in small letters, up to its empty line."""
    fields = {}
    while line := stream.readline(MOST):
        if not line.endswith(b"\n"):
            break
        if line in (b"\r\n", b"\n"):
            return fields
        name, _, value = line.decode(errors="replace").partition(":")
        fields[name.strip().lower()] = value.strip()
    raise ValueError("a head is cut or too long")


def length_of(fields):
    length = fields.get("content-length", "")
    return int(length) if re.fullmatch("[0-9]{1,18}", length) else None


def read_response(fields, block):
    """The site and the body of a response for a robots.txt file, or why the record is left out."""
    kind = fields.get("warc-type")
    site = site_of(fields.get("warc-target-uri", "").strip("<>")) if kind in ("response", "revisit") else None
    if site is None:
        return "other records"
    if kind == "revisit":
        return "revisits"
    stream = io.BytesIO(block)
    status = STATUS.match(stream.readline())
    if status is None:
        raise ValueError("the response has no status")
    if not status[1].startswith(b"2"):
        return f"with status {status[1][:1].decode()}xx"
    body, is_whole = body_of(fields_of(stream), stream.read())
    if status[1] == b"206" or len(body) < FILE_LIMIT and ("warc-truncated" in fields or not is_whole):
        return "incomplete"
    return site, body


def body_of(headers, body):
    """The body without its encodings, of a packed one no more than counts, and whether its end is there. An archive may have undone an
    encoding and kept its header, so what has no control character isn't packed."""
    encoding, length, is_whole = headers.get("content-encoding", "").lower(), length_of(headers), True
    if "chunked" in headers.get("transfer-encoding", "").lower():
        body, is_whole = unchunked(body)
    elif encoding in ("", "identity") and length is not None:
        is_whole = len(body) >= length
    if encoding in ("", "identity") or not CONTROL.search(body):
        return body, is_whole
    if encoding not in ("gzip", "x-gzip"):
        raise ValueError(f"the body is encoded as {encoding}, which isn't understood")
    return unpacked(body)


def unchunked(body):
    """The chunks of a body together, and whether the last one is there; or the body, if it doesn't begin with a chunk."""
    chunks, place = [], 0
    while chunk := CHUNK.match(body, place):
        size, start = int(chunk[1], 16), chunk.end()
        if size == 0:
            return b"".join(chunks), True
        chunks.append(body[start : start + size])
        place = start + size + 2
    return (b"".join(chunks), False) if chunks else (body, True)


def unpacked(body):
    """What gzip has packed, in one member or in several, and whether the end is there. Other bytes after it don't count."""
    whole = b""
    for _ in range(100):  # each of them copies the rest
        unpacker = zlib.decompressobj(31)
        whole += unpacker.decompress(body, FILE_LIMIT - len(whole))
        body = unpacker.unused_data
        if len(whole) == FILE_LIMIT or not body.startswith(GZIP):
            return whole, unpacker.eof
    raise ValueError("the body is packed in too many members")


READERS = {"files": files, "jsonl": json_lines, "warc": warc}


# ---- the parts, in files with a row for each site and each error, ordered by site and place


def denials_of(body, matrix):
    """Each path that a crawler is kept out of, with the line that says so."""
    return [
        (agent, path, "deny", line) if line else (agent, path, "unusable", overlong_line(body, agent, path))
        for agent, path, line in matrix.denials(body)
    ]


def overlong_line(body, agent, path):
    """The line of the rule for which the file can't be used for a crawler."""
    try:
        Site(body).verdict(path, agent)
    except OverlongRuleError as error:
        return error.line


def printable(text):
    """The text with escapes for control characters, for those that change the direction of writing, and for lone surrogates."""
    return text if text.isprintable() else "".join(it if it.isprintable() else it.encode("unicode_escape").decode() for it in text)


def safe(text):
    """The text, so that a spreadsheet doesn't take it for a formula."""
    return f"'{text}" if text.startswith(("'", "=", "+", "-", "@")) else text


def row_of(site, place, result):
    return [safe(site), printable(place[0]), *(place[1:] or [""]), result]


def error_row(what, place, error, tally):
    """A row without a site. A part with an error that may be gone in the next run is read again."""
    tally[what] += 1
    tally["again"] += what == "unread" or isinstance(error, OSError)
    return row_of("", place, printable(f"{what}: {type(error).__name__}: {error}"[:500]))  # a text of the archive in it may be of any length


def add(tally, denials, by):
    tally["sites"] += by
    for agent, path, result, _ in denials:
        tally[agent, path, result] += by


def rows_of(batch, matrix, tally):
    """A row for each site and each error of a batch. The tally counts them, the results for a crawler and a path, and what is left out."""
    place = batch[1:2]
    try:
        for place, read in READERS[batch[0]](*batch[1:]):
            result = attempt(denials_of, read[1], matrix) if isinstance(read, tuple) else read
            if isinstance(result, Exception):
                yield error_row("damaged", place, result, tally)
            elif isinstance(result, str):
                tally["left out", result] += 1
            else:
                add(tally, result, 1)
                yield row_of(read[0], place, json.dumps(result))
    except Exception as error:
        yield error_row("unread", place, error, tally)


def order(row):
    return row[0], row[1], int(row[2] or 0)


def firsts(rows, tally):
    """The errors, and the first row of each site. The others are taken from the tally."""
    last = ""
    for row in rows:
        if row[0] and row[0] == last:
            add(tally, json.loads(row[3]), -1)
            tally["left out", "more files of a site"] += 1
        else:
            yield row
        last = row[0]


def pieces(rows):
    """Lists of rows, so long as memory has room for."""
    some, size = [], 0
    for row in rows:
        some.append(row)
        size += 300 + len(row[0] + row[1] + row[3])
        if size > MOST:
            yield some
            some, size = [], 0
    yield some


def rows_in(paths):
    """The rows of files, in order."""
    csv.field_size_limit(2**31 - 1)
    with contextlib.ExitStack() as opened:
        files = [opened.enter_context(open(path, newline="", encoding="utf-8")) for path in paths]
        yield from heapq.merge(*map(csv.reader, files), key=order)


@contextlib.contextmanager
def new_file(path, scratch):
    """A file that has its name only once it is whole."""
    unfinished = os.path.join(scratch, uuid.uuid4().hex)
    with open(unfinished, "x", newline="", encoding="utf-8") as file:
        yield file
        file.flush()
        if os.path.dirname(path) != scratch:
            os.fsync(file.fileno())
    os.replace(unfinished, path)


def write_rows(rows, tally, scratch, path=None):
    path = path or os.path.join(scratch, f"{uuid.uuid4().hex}.csv")
    with new_file(path, scratch) as file:
        csv.writer(file).writerows(firsts(rows, tally))
    return path


def merged(paths, *words):
    """One file with the rows of several, and what this changes in the tally."""
    tally = Counter()
    return [write_rows(rows_in(paths), tally, words[-1])], tally


def part_of(batch, agents, paths, program, parts, scratch):
    """The files with the rows of a batch, and its tally: from the folder of parts, if an earlier run has made them of the same."""
    made_of = [program, __version__, agents, paths, batch, [stamp(path) for path in batch[1:]]]
    name = os.path.join(parts, hashlib.sha256(json.dumps(made_of).encode()).hexdigest()[:32])
    with contextlib.suppress(FileNotFoundError), open(f"{name}.json", encoding="utf-8") as file:
        _, count, items = json.load(file)
        tally = Counter({tuple(key) if isinstance(key, list) else key: number for key, number in items})
        return [f"{name}.{number}.csv" for number in range(count)], tally + Counter(kept=files_in(tally))
    tally, written = Counter(), []
    for rows in pieces(rows_of(batch, Matrix(sorted(paths), sorted(agents)), tally)):
        written.append(write_rows(sorted(rows, key=order), tally, scratch, f"{name}.{len(written)}.csv"))
    if not tally.pop("again", 0):
        with new_file(f"{name}.json", scratch) as file:
            json.dump([made_of, len(written), list(tally.items())], file)
    return written, tally


def stamp(path):
    it = attempt(os.stat, path)
    return None if isinstance(it, Exception) else [it.st_size, it.st_mtime_ns]


def files_in(tally):
    return tally["sites"] + tally["left out", "more files of a site"]


def paths_below(source):
    """The files below a folder, and the folders that can't be read, which can't be read as files either."""
    unreadable = []
    for folder, folders, names in os.walk(source, onerror=lambda error: unreadable.append(error.filename)):
        folders.sort()
        yield from (os.path.join(folder, name) for name in sorted(names))
    yield from unreadable


def batches_of(source, size):
    """The batches of a source, for a folder of so many files."""
    if os.path.isdir(source):
        paths = paths_below(source)
        while some := tuple(itertools.islice(paths, size)):
            yield ("files", *some)
    elif os.path.isfile(source):
        yield "warc" if source.endswith((".warc", ".warc.gz")) else "jsonl", source
    else:
        raise ValueError(f"{source} isn't a folder, or a file that can be read")


# ---- where they are written, and merged


def run_here(batches, *words, work=part_of):
    bytes(2**24)  # since so much has been freed, malloc keeps as much from one file to the next, and doesn't return it each time
    for batch in batches:
        yield work(batch, *words)


def unread(batch, error, words, work):
    """The part of a batch that no worker could read."""
    if work is merged:
        raise error
    tally = Counter()
    rows = [error_row("unread", place, error, tally) for place in zip(batch[1:])]
    return [write_rows(sorted(rows, key=order), tally, words[-1])], tally


def run_on(client, batches, *words, work=part_of):
    """The results from the workers of a client, which has only as many batches as keep them busy. When one dies, so may others' batches
    with it: they are tried again at the end, one after the other."""
    from distributed import KilledWorker, as_completed

    batches, sent, suspects, done = iter(batches), {}, [], as_completed()

    def send(count):
        for batch in itertools.islice(batches, count):
            future = client.submit(work, batch, *words, pure=False)
            sent[future] = batch
            done.add(future)

    send(20 + 2 * sum(client.nthreads().values()))
    for future in done:
        batch = sent.pop(future)
        send(1)
        try:
            yield future.result()
        except KilledWorker:
            suspects.append(batch)
        except Exception as error:
            yield unread(batch, error, words, work)
    for batch in suspects:
        yield from run_alone(client, batch, words, work)


def run_alone(client, batch, words, work):
    """The results of a batch while nothing else runs: of one with which a worker dies, file by file if it is of files."""
    try:
        yield client.submit(work, batch, *words, pure=False).result()
    except Exception as error:
        if batch[0] == "files" and len(batch) > 2:
            for path in batch[1:]:
                yield from run_alone(client, ("files", path), words, work)
        else:
            yield unread(batch, error, words, work)


@contextlib.contextmanager
def client_of(workers, scheduler):
    import dask
    from distributed import Client, LocalCluster

    if scheduler:
        with Client(scheduler) as client:
            yield client
        return
    options = {"n_workers": workers, "threads_per_worker": 1, "processes": True, "host": "127.0.0.1", "dashboard_address": None}
    # Dask's settings let a worker return memory and take it again for most files, and look every 10 ms at what its threads do
    settings = {"distributed.nanny.pre-spawn-environ.MALLOC_TRIM_THRESHOLD_": 2**26, "distributed.worker.profile.enabled": False}
    # and a cluster would give up a worker that isn't there 15 s after one of its name has died
    settings |= {"distributed.scheduler.allowed-failures": 0, "distributed.deploy.lost-worker-timeout": 86400}
    with dask.config.set(settings), LocalCluster(**options) as cluster, Client(cluster) as client:
        yield client


def progress(total):
    """A function that shows a tally after so many parts: at the end, and once a second."""
    start = shown = time.monotonic()

    def show(done, tally):
        nonlocal shown
        now, files = time.monotonic(), files_in(tally)
        if done == total or now >= shown + 1:
            shown, rate = now, (files - tally["kept"]) / (now - start)
            end = "\r" if sys.stderr.isatty() and done < total else "\n"
            print(f"{done} of {total} parts, {files} files, {rate:.0f} files a second", end=end, file=sys.stderr, flush=True)

    return show


def census(run, batches, words, show=lambda *_: None):
    """The sum of the tallies, and the file with all rows, in a list. Neither depends on where and in which order the batches are read."""
    total, paths = Counter(), []
    for done, (more, tally) in enumerate(run(batches, *words), 1):
        paths += more
        total.update(tally)
        show(done, total)
    while len(paths) > 1:
        earlier, paths = paths, []
        groups = (earlier[start : start + AT_ONCE] for start in range(0, len(earlier), AT_ONCE))
        for more, tally in run(groups, *words, work=merged):
            paths += more
            total.update(tally)
        for path in set(earlier):
            if os.path.dirname(path) == words[-1]:
                os.remove(path)
    return total, paths


# ---- what is shown


def errors_in(paths, what):
    """The places with such an error, and the error."""
    for site, path, byte, result in rows_in(paths):
        if site:
            return
        if result.startswith(what):
            yield f"{path}:{byte}" if byte else path, result


def write_csv(file, paths):
    table = csv.writer(file)
    table.writerow(["site", "crawler", "path", "result", "line"])
    rows = ((site, json.loads(result)) for site, _, _, result in rows_in(paths) if site)
    table.writerows((site, safe(agent), safe(path), *it) for site, results in rows for agent, path, *it in results)
    table.writerows((safe(place), "", "", error, "") for place, error in errors_in(paths, ""))


COLOURS = ["#4c72b0", "#dd8452", "#55a868", "#c44e52", "#8172b3", "#937860"]


def chart(sites, counts, agents, paths):
    """A bar chart as SVG: how many sites keep each crawler out of each path."""
    bar, left, full = 14, 170, 400
    group = bar * len(paths) + 12
    width, height = left + max(full + 130, 110 * len(paths)), 70 + group * len(agents)
    parts = [f'<svg xmlns="http://www.w3.org/2000/svg" width="{width}" height="{height}" font-family="sans-serif" font-size="12">']
    parts.append(f'<rect width="100%" height="100%" fill="#fff"/><text x="10" y="22" font-size="15">Of {sites} sites with a robots.txt file, how many keep a crawler out</text>')
    for number, path in enumerate(paths):
        x, colour = left + 110 * number, COLOURS[number % len(COLOURS)]
        parts.append(f'<rect x="{x}" y="34" width="10" height="10" fill="{colour}"/><text x="{x + 15}" y="44">{html.escape(path)}</text>')
    for row, agent in enumerate(agents):
        top = 60 + row * group
        parts.append(f'<text x="{left - 10}" y="{top + group // 2}" text-anchor="end">{html.escape(agent)}</text>')
        for number, path in enumerate(paths):
            count, y = counts[agent, path, "deny"], top + bar * number
            length, share = full * count / max(sites, 1), f"{count} ({100 * count / max(sites, 1):.1f} %)"
            parts.append(f'<rect x="{left}" y="{y}" width="{length:.1f}" height="{bar - 2}" fill="{COLOURS[number % len(COLOURS)]}"/>')
            parts.append(f'<text x="{left + length + 5:.1f}" y="{y + 11}">{share}</text>')
    return "\n".join([*parts, "</svg>", ""])


def report(tally, rows, agents, paths):
    print(f"{'kept out of':20}" + "".join(f"{path:>12}" for path in [*paths, "unusable"]))
    for agent in agents:
        words = [*((path, "deny") for path in paths), (paths[0], "unusable")]
        print(f"{agent:20}" + "".join(f"{tally[agent, path, result]:12}" for path, result in words))
    print(f"{tally['sites']} sites with a robots.txt file, {tally['damaged']} damaged, {tally['unread']} unread")
    for reason in sorted(key[1] for key in tally if key[:-1] == ("left out",)):
        print(f"left out: {tally['left out', reason]} {reason}")
    for what, most in (("unread", None), ("damaged", 20)):
        for place, error in itertools.islice(errors_in(rows, what), most):
            print(error.replace(": ", f": {place}: ", 1))


def items(text):
    """What is between the commas, each once."""
    return list(dict.fromkeys(item.strip() for item in text.split(",") if item.strip()))


def parsed():
    """What the command line says, with the batches of its sources. What can't be used is an error before any of them is read."""
    words = argparse.ArgumentParser(description=__doc__, formatter_class=argparse.RawDescriptionHelpFormatter)
    words.add_argument("sources", nargs="+", metavar="SOURCE")
    words.add_argument("--agents", type=items, default=AGENTS, help=f"crawlers, separated by commas; {AGENTS}")
    words.add_argument("--paths", type=items, default="/,/search", help="paths or URLs, separated by commas; /,/search")
    words.add_argument("--csv", metavar="FILE", help="writes each path that a site keeps a crawler out of")
    words.add_argument("--svg", metavar="FILE", help="writes a bar chart")
    words.add_argument("--batch", type=int, default=500, help="files of a folder in a part; 500")
    words.add_argument("--parts", metavar="FOLDER", help="keeps the parts, and uses those that an earlier run has kept")
    words.add_argument("--progress", action="store_true", help="shows what is done also if standard error is no terminal")
    where = words.add_mutually_exclusive_group()
    where.add_argument("--workers", type=int, default=0, help="workers of a LocalCluster; without, this process does it")
    where.add_argument("--scheduler", metavar="ADDRESS", help="the scheduler of a Dask cluster, as tcp://HOST:8786")
    given = words.parse_args()
    if given.batch < 1 or given.workers < 0:
        words.error("a batch has at least one record, and no number of workers is negative")
    if given.scheduler and not given.parts:
        words.error("--scheduler needs --parts, a folder that all workers see")
    try:
        Matrix(given.paths, given.agents)
        if given.parts and any(Path(given.parts).resolve().is_relative_to(Path(source).resolve()) for source in given.sources):
            raise ValueError(f"{given.parts} is in a source, so the parts would be read as files of sites")
        given.total = sum(1 for _ in batches(given))
        if given.parts:
            os.makedirs(given.parts, exist_ok=True)
        for path in filter(None, [given.csv, given.svg]):
            open(path, "a").close()
    except (OSError, ValueError) as error:
        words.error(printable(str(error)))
    return given


def batches(given):
    return (batch for source in given.sources for batch in batches_of(source, given.batch))


def main():
    sys.stdout.reconfigure(errors="backslashreplace")
    given = parsed()
    agents, paths, show = given.agents, given.paths, [progress(given.total)] if given.progress or sys.stderr.isatty() else []
    program = hashlib.sha256(Path(__file__).read_bytes()).hexdigest()
    with contextlib.ExitStack() as opened:
        scratch = opened.enter_context(tempfile.TemporaryDirectory(prefix="unfinished-", dir=given.parts))
        run = run_here
        if given.workers or given.scheduler:
            run = functools.partial(run_on, opened.enter_context(client_of(given.workers, given.scheduler)))
        tally, rows = census(run, batches(given), (agents, paths, program, given.parts or scratch, scratch), *show)
        report(tally, rows, agents, paths)
        if given.csv:
            with open(given.csv, "w", newline="", encoding="utf-8") as file:
                write_csv(file, rows)
    if given.svg:
        Path(given.svg).write_text(chart(tally["sites"], tally, agents, paths), encoding="utf-8")


if __name__ == "__main__":
    main()
