"""What the tests share: running a program, the messages in tests/warnings.txt, and the notation of golden cases."""

import json
import os
import re
import subprocess
import tomllib
from dataclasses import dataclass
from pathlib import Path

import pytest

ROOT = Path(__file__).resolve().parent.parent
CRATES = ROOT / "crates"
CC = os.environ.get("CC", "cc")
SIZES = sorted({max(2**power + more, 1) for power in range(17) for more in (-1, 0, 1)})
DOCUMENTS = {path.relative_to(ROOT).as_posix(): path.read_text() for path in [*sorted(ROOT.glob("*.md")), *sorted(ROOT.glob("docs/*.md"))]}
READMES = [f"bindings/{it}/README.md" for it in ("c", "node/audit", "node/library", "node/robots-parser", "pip", "python", "rust", "rust/compat")]
PAGES = DOCUMENTS | {it: (ROOT / it).read_text() for it in READMES}


def toolchain():
    """The toolchain that PROOFS names; `rt` may be another build of it with the same logic."""
    (named,) = re.findall(r"^ +(rattle-kit-\w+ logic [0-9a-f]+)$", DOCUMENTS["docs/PROOFS.md"], re.M)
    ours = subprocess.run(["rt", "version"], capture_output=True, text=True).stdout.splitlines()[0]
    assert named.split()[1:] == ours.split()[1:], f"PROOFS names {named}, and this is {ours}"
    return named


# what `--version` says of the program
PROOF = "not proved" if (CRATES / "robots_audit/out/not-proved").exists() else f"proved with {toolchain()}"


@dataclass
class Result:
    """What a program wrote and ended with. Bytes that aren't UTF-8 are surrogates."""

    status: int
    out: str
    err: str

    def __init__(self, status, out, err):
        self.status, self.out, self.err = status, decoded(out), decoded(err)


def decoded(text):
    return text.decode("utf-8", "surrogateescape") if isinstance(text, bytes) else text


def program(name):
    """The path of a program that was proved and built."""
    path = CRATES / name / "out" / name
    if not path.is_file():
        pytest.fail(f"{path} isn't built: `rt run` in crates/{name} builds it, and `rt ci` builds all programs")
    return path


def run(command, args=(), stdin=b"", **options):
    """Runs a program of the repository, by its name, or any other, by its path."""
    path = program(command) if isinstance(command, str) else command
    given = {"input": stdin} if isinstance(stdin, bytes) else {"stdin": stdin}
    given = {"cwd": ROOT, "stdout": subprocess.PIPE, "stderr": subprocess.PIPE, "timeout": 180, **given, **options}
    ended = subprocess.run([path, *args], **given)
    return Result(ended.returncode, ended.stdout, ended.stderr)


def compiled(to, *words):
    """The path of what the C compiler makes of these words."""
    ended = subprocess.run([CC, "-std=c11", "-O2", "-Wall", "-Wextra", *words, "-o", to], cwd=ROOT, capture_output=True, text=True)
    assert ended.returncode == 0, ended.stderr
    return to


def repeated(text):
    r"""The text with N times TEXT in place of each \{N TEXT}."""
    return re.sub(r"\\(?:\{(\d+) ([^}]*)\}|.)", lambda it: it[2] * int(it[1]) if it[1] else it[0], text)


# the known crawlers that ignore the group of `*`
IGNORING = ["AdsBot-Google", "AdsBot-Google-Mobile", "APIs-Google", "Mediapartners-Google", "YandexMobileBot", "YandexMetrika", "YandexDirect"]

# what a report on `*` says of them, if its group denies something
STILL_OPEN = f"; but crawlers that obey only a group with their own name may fetch all: {', '.join(IGNORING[:3])} and 4 more"


# what the program says in many golden cases
PHRASES = {
    "everyone": "group: everyone (no User-agent line is read; all rules are applied)",
    "star": "group: * (Ferris has no group of its own)",
    "none": "group: none (no group for Ferris or *; everything is allowed)",
    "no group": "crawler *: no group, may fetch everything",
    "ignores": "; but it ignores the group *, and obeys only one with its own name, so it may fetch all: the verdicts are the file's, not the crawler's",
    "vendor": "; but its vendor applies another group, whose verdicts may differ",
    "same": "same group, delay and rules as read here, so the same verdicts",
    "one allows": "but only one reading allows it:",
    "one denies": "but only one reading denies it:",
    "rfc": "(by RFC 9309:",
    "google": "(by RFC 9309 and Google:",
    "long": "a pattern with $ longer than 4,096 bytes isn't supported; shorten it",
    "token": "a crawler's name is a product token without a version, such as Googlebot",
    "url": "this is neither a path that starts with / nor a valid http:// or https:// URL",
    "word": "this is neither a path that starts with / nor a URL; for a crawler, write --agent NAME, for a file of URLs --urls-from FILE, for a level --strict=LEVEL",
    "segment": "URL has a . or .. segment or a #, which crawlers resolve or drop; write the path that they ask for",
    "space": "white space in a URL; write it as %20, and another URL or a comment on a line of its own",
    "usage": "usage: robots_audit [OPTIONS] FILE [URL]..",
    "1": "expect.txt:1:",
    "applies": "but its vendor applies the group Googlebot to it, and",
    "not applied": "but its vendor doesn't apply the group * to it; add a group with User-agent:",
    "ignoring": f"{', '.join(IGNORING)} ignore *: add a group that names them, or write",
    "near": "no known crawler and no group of the file has this name; did you mean",
    "other path": "but crawlers may ask for another path or query:",
    "form": 'write "allow AGENT URL" or "deny AGENT URL", or for a pattern allow-all or deny-all',
    "pattern": "a pattern starts with / or *, has no #, a $ only at its end (a rule with text after it matches nothing), and with a $ at most 4,096 bytes",
    "help": "For more information, try '--help'.",
    "options": "Usage: robots_audit [OPTIONS] FILE [URL]..",
    "files": "old: old.txt, new: -",
    "no change": "no URL's verdict changes",
}
PHRASES["no file"] = f"""robots_audit: missing FILE; {PHRASES['usage']}
example: robots_audit robots.txt /search
example: curl -fsSL https://example.com/robots.txt | robots_audit --agent Googlebot -"""


def spelled(text):
    r"""The bytes that a golden case means, by tests/test_programs.py; \* is who may fetch what is denied to *, \i their names in JSON,
    and \v what --version says of proofs."""
    escapes = {"\\": "\\", "r": "\r", "*": STILL_OPEN, "i": json.dumps(IGNORING, separators=(",", ":")), "v": PROOF}
    escapes |= {f"[{name}]": phrase for name, phrase in [*PHRASES.items(), *((name, its[-1][1]) for name, its in WARNINGS.items())]}
    found = re.compile(rb"\\(?:x([0-9A-F]{2})|(\[[^]]+\]|.?))")
    return found.sub(lambda it: bytes.fromhex(it[1].decode()) if it[1] else escapes[it[2].decode()].encode(), repeated(text).encode())


def tables(document):
    """The rows of a document's tables, each the list of its cells."""
    rows = [line[1:-1].split("|") for line in document.splitlines() if line.startswith("| ")]
    return [[cell.strip() for cell in row] for row in rows]


def bytes_in(cell):
    """The bytes that a cell shows in its first code span."""
    return spelled(re.search(r"`([^`]*)`", cell)[1].replace("⏎", "\n"))


def rows_under(name, *columns):
    """The rows of a document's tables that begin with these columns."""
    blocks = re.findall(r"(?:^\|.*\n)+", DOCUMENTS[name], re.M)
    found = [row for rows in map(tables, blocks) if rows[0][: len(columns)] == [*columns] for row in rows[1:] if row[0][0] != "-"]
    assert found, f"{name} has no table that begins with {columns}"  # pytest would skip a test without rows
    return [pytest.param(*row, id=" ".join(row[:2])) for row in found]


def crawler_and_file(cell):
    """The crawler and the file that a cell of COMPATIBILITY means."""
    crawler = (re.search(r"crawler `(.*)`", cell) or [0, "a"])[1]
    return crawler, bytes_in(cell) if "ser-agent" in cell else b"User-agent: a\n" + bytes_in(cell)


def shown(document):
    """The indented lines of a document."""
    return "".join(line[4:] + "\n" for line in document.splitlines() if line.startswith("    "))


# each warning in the order of the program's list, of which tests/warnings.txt is the approved output
ALL_WARNINGS = [re.fullmatch(r"(?P<level>\w+) (?P<name>[a-z0-9-]+): (?P<text>.*)", it).groupdict() for it in (ROOT / "tests/warnings.txt").read_text().splitlines()]

# the levels and messages of each warning by its name
WARNINGS = {}
for row in ALL_WARNINGS:
    WARNINGS.setdefault(row["name"], []).append((row["level"], row["text"]))


FORMATS = re.findall(r'"(\w+)"', re.search(r"const NAMES: [^=]*= &\[(.*?)\];", (CRATES / "audit_core/src/request.rt").read_text(), re.S)[1])
OF_A_URL = {"url-not-normal"}
OF_A_CRAWLER = {"vendor-group", "star-ignoring-crawler"}
OF_GROUP = {"vendor-group"}
FIELDS = ("User-agent", "Allow", "Disallow", "Sitemap", "Crawl-delay")
OF_RULES = {"group-without-star-rules"}
OF_SIZE = {"repeated-delay", "repeated-rule"}
OF_CLOSED = {"closed-site", "closed-home-page"}
OF_A_LINE = {"allowed-and-disallowed", "empty-disallow", "sitemap-denied", "repeated-sitemap"}
NEEDLESS = ["never", "nothing", "allowed", "covered"]  # in the order of the messages of `needless-rule`
WORDS = {"space", "comma", "tag", "invisible", "=", "??", "nothing"}  # each in one message of a name, or in an earlier one than in others


def level_and_text(name, detail=""):
    """The level and message of a warning with this detail; tests/test_programs.py says what that may be."""
    if name == "needless-rule":
        kind, _, other = detail.partition(" ")
        level, text = WARNINGS[name][NEEDLESS.index(kind)]
        return level, f"{text} (see line {other})" if other else text
    if name in OF_SIZE:
        return WARNINGS[name][detail == "large"]
    if name in OF_CLOSED:
        level, standard, crawler, others = re.fullmatch(r"(\w+)( rfc)? ('.*')(?: (\d+))?", detail).groups()
        more = f" (and {others} other crawler{'' if others == '1' else 's'})" if others else ""
        texts = [text for its, text in WARNINGS[name] if its == level]
        return level, f"crawler {crawler}: {texts[-1 if standard else 0]}{more}"
    for level, text in WARNINGS[name]:
        if detail == level or detail in WORDS and f" {detail} " in text or detail in FIELDS and f'"{detail}:"' in text:
            return level, text
    level, text = WARNINGS[name][-1]
    if name in OF_RULES:
        return level, f"{text} ({detail} rule{'' if detail == '1' else 's'})"
    if name in OF_A_LINE:
        number, _, size = detail.partition(" ")
        level, text = WARNINGS[name][size == "large"]
        return level, f"{text} (see line {number})"
    if name == "misspelled-name":
        agent, warns, meant = re.fullmatch(r"('.*' )?(warning )?(\S+)", detail).groups()
        level, text = WARNINGS[name][0 if warns else 1]
        return level, f"{f'crawler {agent[:-1]}: ' if agent else ''}{text} (did you mean {meant}?)"
    if name in OF_GROUP:
        detail, group = re.fullmatch(r"('.*')? ?([^' ]+)?", detail).groups()
        text += f" (see the group of {group or 'Googlebot'})"
    if name in OF_A_CRAWLER:
        return level, f"crawler {detail}: {text}" if detail else text
    return level, f"URL '{detail}': {text}" if name in OF_A_URL else text


def parts_of(warning):
    """The line, name, level and text of a warning that a golden case writes as `[LINE] NAME [DETAIL]`."""
    line, name, detail = re.fullmatch(r"(?:(\d+) )?([a-z0-9-]+)(?: (.*))?", warning).groups()
    return line or "", name, *level_and_text(name, detail or "")


def also_in(lines, text):
    """The end of a message that stands for those in these lines, too, or for so many that are about no line."""
    if "" in lines:
        return f" (and {len(lines)} more {'URL' if text.startswith('URL ') else 'crawler'}{'s' * (len(lines) > 1)})"
    more = [*map(str, lines[:3]), *[f"{len(lines) - 3} more"] * (len(lines) > 3)]
    listed = ", ".join(more[:-1]) + " and " * (len(more) > 1) + "".join(more[-1:])
    others = "for other crawlers, " if text.startswith("crawler '") else ""
    return f" (also {others}in line{'s' * (len(lines) > 1)} {listed})" if lines else ""


def warning_line(warning, file="robots.txt", also=()):
    """The line on standard error for a warning about this file; `also` are the other lines that it has."""
    line, name, level, text = parts_of(warning)
    return f"{file}:{line}{':' if line else ''} {level}: {text}{also_in(also, text)} [{name}]\n"


def counted(counts):
    """The numbers of errors, warnings and notes, if there are any."""
    return ", ".join(f"{count} {level}{'s' * (count > 1)}" for level in ("error", "warning", "note") if (count := counts.count(level)))


def order_of(warning):
    line, _, level, _ = parts_of(warning)
    return int(line or 0), ["error", "warning", "note"].index(level)


def shared(level, name, text):
    """What warnings that share a line have in common; nothing if this one has a line of its own."""
    if "(see " in text or "(did you mean" in text:
        return None
    return name, re.sub(r"^(crawler|URL) '.*?': |( \(and \d+ other crawlers?\))$", "", text) if level == "note" else text


def ranges(lines):
    """Lines, those that follow one another as a range, such as `3-27, 31`."""
    starts = [line for line in lines if line - 1 not in lines]
    ends = [line for line in lines if line + 1 not in lines]
    return ", ".join(str(start) if start == end else f"{start}-{end}" for start, end in zip(starts, ends, strict=True))


def together(lines):
    """The message that stands for those about the needless rules in these lines."""
    return f"lines {ranges(lines)} can be deleted together; deleting only some may change a verdict"


def warning_lines(warnings, file="robots.txt", agent=None, seeks_needless=False):
    """The lines for such warnings: those with one message as one, of each name and level the first twenty, and how many there are."""
    joined, met = [], {}
    ordered = sorted(warnings, key=order_of)
    needless = [int(line) for line, name, *_ in map(parts_of, ordered) if name == "needless-rule"]
    for warning in ordered:
        line, name, level, text = parts_of(warning)
        if name == "needless-rule" and int(line) != needless[0]:
            continue
        key = shared(level, name, text)
        if key:
            met.setdefault(key, []).append(line)
            if len(met[key]) > 1:
                continue
            joined.append((warning, name, level, met[key]))
        else:
            joined.append((warning, name, level, [line]))
    shown, counts = [], {}
    for warning, name, level, lines in joined:
        kind = level, name
        counts[kind] = counts.get(kind, 0) + 1
        line = warning_line(warning, file, lines[1:])
        if name == "needless-rule" and len(needless) > 1:
            line = f"{file}:{needless[0]}: note: {together(needless)} [needless-rule]\n"
        shown += [line] * (counts[kind] <= 20)
        if counts[kind] == 21:  # the numbers are in the order of these
            counts[kind] = counts.pop(kind)
    more = [f"{file}: {level}: and {count - 20} more [{name}]\n" for (level, name), count in counts.items() if count > 20]
    messages = f" in {len(joined)} message{'s' * (len(joined) > 1)}" if len(joined) < len(warnings) else ""
    others = "are only checked for being needless" if seeks_needless else "aren't checked"
    rules = f" (rules for crawlers other than {agent} {others})" if agent else ""
    total = [f"{file}: {counted([parts_of(warning)[2] for warning in warnings])}{messages}{rules}\n"] if warnings else []
    return "".join(shown + more + total)


ALIKE = "RFC 9309 reads this file alike"
KEYS = set("like args agent robots file expect old from pieces room out json more rfc reads warn err status indented".split())


def files_beside(case):
    """The files of the folder in which a golden case runs, if it has any, by name."""
    return {f"{key}.txt": spelled(case[key]) for key in ("expect", "old") if key in case}


def rows_of(table, columns):
    """The cases of a table of `[[rows]]`, each with the table's keys and those of its cells, once for each word of `each`."""
    keys = {key: value for key, value in table.items() if key not in ("columns", "each", "cases")}
    for row in [it.replace("{each}", word) for word in table.get("each", "-").split() for it in table["cases"].splitlines()]:
        case = dict(keys)
        for key, cell in zip(table.get("columns", columns).split(), row.split(" | ")):
            if cell or key == "name":
                cell = "" if cell == "-" else cell.replace("⏎", "\n")
                case[key] = str(keys.get(key, "{}")).replace("{}", cell) if "{}" in str(keys.get(key, "{}")) else cell
        yield case.pop("name").removesuffix(": "), case | ({"status": int(case["status"])} if "status" in case else {})


def cases_of(text):
    """The cases of a file by name, each with the keys of the case that it is `like`, and the file's defaults."""
    tables = tomllib.loads(text)
    defaults = {key: value for key, value in tables.items() if isinstance(value, (bool, int, str))}
    columns = defaults.pop("columns", "")
    given = [row for table in tables.pop("rows", []) for row in rows_of(table, columns)]
    given += [(name, it) for name, it in tables.items() if isinstance(it, dict)]
    cases = {}
    for name, own in given:
        case = {**(cases[own["like"]] if "like" in own else defaults), **own}
        assert name not in cases and case.keys() <= KEYS, f"{name}: {case.keys() - KEYS}"
        if "more" in own:
            case["out"] += "\n" + case.pop("more")
        cases[name] = case
    return cases


def warnings_of(case):
    """What `warn` lists; `3-5 NAME` are three of them."""
    for line in spelled(case.get("warn", "")).decode().splitlines():
        several = re.match(r"(\d+)-(\d+) ", line)
        yield from [f"{number} {line[several.end():]}" for number in range(int(several[1]), int(several[2]) + 1)] if several else [line]


def lines(text):
    """The bytes of these lines, each ended by LF."""
    return spelled(text) + b"\n" if text else b""


def input_of(case, indented=False):
    """The bytes on standard input. For robots_verdict: an agent, the URLs of the expected lines, and a file, whose later lines `indented` indents."""
    if "agent" not in case:
        return spelled(case.get("file", ""))
    robots = spelled(case["robots"])
    if indented:
        robots = re.sub(rb"\n(?!\Z)", b"\n        ", robots)
    urls = re.findall(r"^(?:allow|deny) \S+ (.*)$", case["out"], re.M)
    return b"".join(spelled(line) + b"\n" for line in [case["agent"], *urls, ""]) + robots


def decision_of(kind, line):
    """The members of a verdict in JSON."""
    return {"allowed": kind == "allow", "line": None if line == "-" else int(line)}


def json_of(case):
    """The report of `json` in one line: crawlers with their verdicts, rows and sitemaps."""
    agents, rows, sitemaps = [], [], []
    for line in spelled(case["json"]).decode().split("\n"):
        kind, first, *rest = [*line.split(" ", 2), ""]
        value = rest[0] or None if rest else None
        if kind == "crawler":
            line, _, standard = line.partition("; RFC 9309: ")
            name, group, place, fetch, rules, more = re.fullmatch(r"crawler (.*): (\w+)(?: (\d+))?, (\S+), (\d+)(.*)", line).groups()
            ignored_by = IGNORING if ", ignored" in more else []
            own = {key: int(number) for key, number in re.findall(r", (delay|rejected) (\d+)", more)}
            fetch_there, rules_there, rejected = re.fullmatch(r"(\S+), (\d+)(?:, rejected (\d+))?", standard or f"{fetch}, {rules}").groups()
            there = {
                "group_line": place and int(place), "may_fetch": None if fetch_there == "null" else fetch_there,
                "rejected_line": int(rejected) if rejected else None if standard else own.get("rejected"), "rules": int(rules_there),
            }  # fmt: skip
            agents.append({
                "agent": name, "delay_microseconds": own.get("delay"), "group": {"ignored_by": ignored_by, "kind": group, "line": place and int(place)},
                "may_fetch": None if fetch == "null" else fetch, "rejected_line": own.get("rejected"), "rfc_9309": there, "rules": int(rules),
                "vendor_group": (re.search(r", vendor (\w+)", more) or ["", "same"])[1], "verdicts": [],
            })  # fmt: skip
        elif kind in ("allow", "deny"):
            value, _, standard = (value or "").partition("; RFC 9309: ")
            decisions = [decision_of(*words.split()) for words in (f"{kind} {first}", standard or f"{kind} {first}")]
            agents[-1]["verdicts"].append(decisions[0] | {"rfc_9309": None if standard == "none -" else decisions[1], "url": value})
        elif kind == "sitemap":
            sitemaps.append(line.removeprefix("sitemap "))
        elif line != "no rows":
            shown = int(value) if first == "crawl-delay" else value
            rows.append({"comment": None, "field": first, "line": len(rows) + 1, "membership": kind, "value": shown})
    standard, _, place = case.get("rfc", "").rpartition(" ")
    has_verdicts, place = place == "verdicts", int(place) if place.isdecimal() else None
    findings = []
    for line, name, level, text in map(parts_of, warnings_of(case)):
        about = dict(re.findall("^(crawler|URL) '(.*?)': ", text))
        own = {"level": level, "line": int(line) if line else None, "name": name, "text": text}
        findings.append({"agent": about.get("crawler"), **own, "url": about.get("URL")})
    report = {
        "format": 1, "agents": agents, "findings": findings,
        "has_rfc_9309_syntax": has_verdicts or standard == "syntax", "has_rfc_9309_verdicts": has_verdicts,
        "lines": rows if rows or "no rows" in case["json"] else None, "rfc_9309_line": place, "sitemaps": sitemaps,
    }  # fmt: skip
    return json.dumps(report, ensure_ascii=False, separators=(",", ":")).encode() + b"\n"


def standard_lines(words, reads=None):
    """What a text report says of a file by RFC 9309; `words` and `reads` are those of the keys `rfc` and `reads`."""
    kind, _, line = words.partition(" ")
    syntax = f"not RFC 9309 syntax, first at line {kind}\n" if kind.isdecimal() else ""
    return syntax + (f"RFC 9309 {reads}" if reads else ALIKE)


def with_standard(out, words, reads=None):
    """The lines, with these before the numbers of allowed and denied URLs."""
    numbers = re.search(r"^\d+ allowed, \d+ denied\Z", out, re.M)
    at = numbers.start() if numbers else len(out) + 1
    return "\n".join(part for part in (out[: at - 1], standard_lines(words, reads), out[at:]) if part)


def wanted_of(case):
    out = case.get("out", "")
    out = lines(with_standard(out, case["rfc"], case.get("reads")) if case.get("rfc") else out)
    if "json" in case:
        return Result(case.get("status", 0), json_of(case), lines(case.get("err", "")))
    if "room" in case:
        out = out[: case["room"] if case["room"] != "closed" else 0]
    named = re.match(r"(?!-)\S+", case.get("args", ""))  # a named file is the first argument in golden cases
    file = named[0] if named else "robots.txt"
    agents = re.findall(r"--(?:user-)?agent[ =](\S+)", case.get("args", ""))
    agent = agents[0] if len(agents) == 1 else None
    seeks_needless = bool(re.search(r"--needless|--only[ =]needless-", case.get("args", "")))
    return Result(case.get("status", 0), out, lines(case.get("err", "")) + warning_lines([*warnings_of(case)], file, agent, seeks_needless).encode())
