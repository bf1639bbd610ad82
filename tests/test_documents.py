"""What documents show is what the sources and the programs have. tests/test_claims.py has what is called proved or tested."""

import json
import os
import re
import shlex
import shutil
import subprocess
import sys
from pathlib import Path

import pytest
import standard_model
from support import CRATES, DOCUMENTS, PAGES, ROOT, WARNINGS, bytes_in, cases_of, crawler_and_file, program, rows_under, run, shown, spelled, tables

sys.path.insert(0, str(ROOT / "tools"))
import warnings_page  # noqa: E402

LIBRARY = CRATES / "texting_robots"
# of comparisons and expectations, by golden cases
FINDINGS = {
    name for file in ("compare", "formats")
    for pair in re.findall(r'title=([a-z-]+)::|"name":"([a-z-]+)"', (ROOT / f"tests/golden/robots_audit/{file}.toml").read_text())
    for name in pair
} - {"", "denied", *WARNINGS}  # fmt: skip
README, GUIDE, PROGRAMS, PROOFS = map(DOCUMENTS.get, ["README.md", *(f"docs/{name}.md" for name in ("GUIDE", "PROGRAMS", "PROOFS"))])


def code(document, language):
    """The fenced blocks of a document in a language."""
    return re.findall(rf"^```{language}\n(.*?)^```$", document, re.M | re.S)


def prose(document):
    """The lines of a document outside of code, tables and headings."""
    document = re.sub(r"^```.*?^```$", "", document, flags=re.M | re.S)
    return [line for line in document.splitlines() if not re.match(r"    |\||#", line)]


def section(document, heading):
    """What is below a heading of the second level, up to the next one."""
    return document.split(f"\n## {heading}\n")[1].split("\n## ")[0]


# ---- public contracts rest on specifications alone, and on nothing that follows the code


def imports(path):
    """The modules of specs/ that a file imports: `Line` for `specs.Line.{..}` or `Line.by_value`; `specs.declared` is generated."""
    found = set()
    for names in re.findall(r"^ *(?:pub )?(?:ghost )?use Rattle\.texting_robots\.specs\.(.*)$", path.read_text(), re.M):
        group = re.fullmatch(r"\{(.*)\};?", names)
        for name in group[1].split(",") if group else [re.sub(r"\.\{.*|[ ;].*", ".", names)]:
            found.add(re.sub(r"\.[A-Za-z0-9_]*$", "", re.sub(r" as .*", "", name).strip()))
    return {name for name in found if not name.startswith("declared")}


def reached(path):
    """All modules to which a file's imports lead."""
    seen, todo = set(), imports(path)
    while todo:
        name = todo.pop()
        seen.add(name)
        todo |= imports(LIBRARY / "specs" / f"{name.replace('.', '/')}.antt") - seen
    return seen


@pytest.mark.parametrize("module", ["lib", "in_file", "robot", "decision", "address", "error", "escape"])
def test_public_contracts_rest_on_specifications(module):
    assert not [name for name in reached(LIBRARY / f"src/{module}.rt") if re.match(r"(Executable|Internal)\b", name)]


@pytest.mark.parametrize("module", ["laws", "parser"])
def test_imports_that_compute_are_seen(module):
    """These modules name functions that compute: if they didn't show, the test above would see nothing."""
    assert [name for name in reached(LIBRARY / f"src/{module}.rt") if re.match(r"(Executable|Internal)\b", name)]


# ---- contracts that documents quote


def split(function, text):
    """The signature and the clauses in a function's text, each with the function."""
    text = re.sub(r",? \)", ")", text.replace("( ", "("))
    return {(function, part) for part in re.split(r" (?=(?:ensures|requires)\b)", text)}


def contracts(path):
    """The signature and the clauses of each function in a source file, each with the function, as `View::len`."""
    found, owner, words = set(), "", None
    for line in path.read_text().splitlines():
        if line.startswith("impl"):
            owner = re.sub(r" \{$", "", re.sub(r"^impl(<[^ ]*>)? (.* for )?", "", line))
        if line.startswith("}"):
            owner = ""
        if words is None and re.match(r" *(pub(\([a-z]+\))? )?(const )?fn ", line):
            words = []
        if words is None:
            continue
        words.append(line.strip())
        if words[-1] == "{" or (len(words) == 1 and line.endswith(" {")):
            text = re.sub(r"^(pub(\([a-z]+\))? )?(const )?", "", re.sub(r" ?\{$", "", " ".join(words)))
            function = re.match(r"fn (\w+)", text)[1]
            if owner:
                text, function = text.replace("Self", owner), f"{re.sub(r'<.*', '', owner)}::{function}"
            found |= split(function, text)
            words = None
    return found


def quoted(document):
    """The same of the functions that a document quotes, with `fn View::len(`, and `ensures name: ..` or `ensures ..`."""
    found = set()
    for block in code(document, "text"):
        for text in re.split(r"^(?=fn )", block, flags=re.M)[1:]:
            function = re.match(r"fn ([\w:]+)", text)[1]
            parts = [" ".join(part.split()) for part in re.split(r"\n  (?=ensures|requires)", text)]
            clauses = [re.sub(r"^(ensures|requires) (?:(\w+): )?(.*)$", lambda it: f"{it[1]} {it[2] + ' ' if it[2] else ''}{{ {it[3]} }}", it) for it in parts[1:]]
            found |= {(function, part) for part in [re.sub(r"^fn \w+::", "fn ", parts[0]), *clauses]}
    return found


def test_quoted_contracts_are_those_of_the_source():
    found = set().union(*map(contracts, (LIBRARY / "src").rglob("*.rt")))
    parts = quoted(PROOFS)
    assert "allowed_in_file" in {name for name, _ in parts}
    assert parts - found == set()


# ---- links, names and layout


def anchors(document):
    """The anchors of a document's headings, as GitHub makes them."""
    headings = re.findall(r"^#+ (.*)$", re.sub(r"^```.*?^```$", "", document, flags=re.M | re.S), re.M)
    return {re.sub(r"[^\w\- ]", "", heading.lower()).replace(" ", "-") for heading in headings}


@pytest.mark.parametrize("name", PAGES)
def test_links_lead_to_files_and_headings(name):
    for target in re.findall(r"\]\(([^)\s]+)\)", "\n".join(re.sub(r"`[^`]*`", "", line) for line in PAGES[name].splitlines())):
        path, _, anchor = target.partition("#")
        if path.startswith("https://"):
            continue
        file = (ROOT / name).parent / path if path else ROOT / name
        assert file.exists(), target
        assert not anchor or anchor in anchors(file.read_text()), target


@pytest.mark.parametrize("name", DOCUMENTS)
def test_documents_name_what_exists(name):
    """Paths in the repository or in a crate, theorems, and predicates of the specifications."""
    spans = set(re.findall(r"`([^`\n]+)`", DOCUMENTS[name]))
    assert not [span for span in spans if re.fullmatch(r"(crates|docs|tests|examples|bindings|bench)/[\w./-]+", span) and not (ROOT / span).exists()]
    assert not [span for span in spans if re.fullmatch(r"(specs|src|proofs)/[\w./-]+", span) and not [*CRATES.glob(f"*/{span.rstrip('/')}")]]
    laws = (LIBRARY / "src/laws.rt").read_text()
    assert not [span for span in spans if span.startswith("laws::") and f"pub fn {span[6:]}()" not in laws]
    specified = "".join(path.read_text() for path in CRATES.glob("*/specs/**/*.antt"))
    assert not [span for span in spans if re.fullmatch(r"(Is|Are|Has)[A-Z]\w+", span) and not re.search(rf"\b{span} :|record {span}\b", specified)]


@pytest.mark.parametrize("name", DOCUMENTS)
def test_documents_name_functions_and_lemmas_that_exist(name):
    """Names with an underscore: functions, lemmas, clauses, members of JSON, and crates, also those of the toolchain; and methods in Python."""
    spans = set(re.findall(r"`([a-z0-9]+(?:_[a-z0-9]+)+)(?:\(\))?`", DOCUMENTS[name]))
    crates = set(re.findall(r"\w+", (ROOT / "crates.txt").read_text() + (ROOT / "bindings/rust/Cargo.toml").read_text() + section(PROOFS, "What is assumed")))
    text = "".join(path.read_text() for kind in ("src/**/*.rt", "specs/**/*.antt", "proofs/**/*.antt", "robots.h") for path in CRATES.glob(f"*/{kind}"))
    text += "".join(path.read_text() for path in ROOT.glob("bindings/python/src/texting_robots/*.py"))
    assert not [span for span in spans - crates if not re.search(rf'\b(?:fn|mod|def|ensures|int32_t|uint64_t|size_t|char) \*?{span}\b|\b{span} :|"{span}"', text)]


@pytest.mark.parametrize("name", DOCUMENTS)
def test_documents_name_warnings_and_options_that_exist(name):
    """Others are field names, Debian's packages, and options of pytest, `rt check` and bench/compare.py."""
    names = set(re.findall(r"`(?!python3-)([a-z0-9]+(?:-[a-z0-9]+)+)`", DOCUMENTS[name]))
    assert names <= {*WARNINGS, *FINDINGS, "allow-all", "crawl-delay", "deny-all", "depends-on-rules", "only-what-lines-allow", "site-map", "user-agent"}
    options = set(re.findall(r"`(?:robots_audit )?(--[a-z-]+)", DOCUMENTS[name])) - {"--allow-holes", "--google", "--lf", "--page", "--results"}
    assert options <= set(re.findall(r"`(--[a-z-]+)", "".join(row[0] for row in tables(PROGRAMS))))


@pytest.mark.parametrize("name", [name for name in PAGES if name != "README.md"])
def test_page_begins_with_whom_it_is_for(name):
    assert re.match(r"# .*\n\nThis page is for ", PAGES[name])


def test_readme_is_short():
    """The other pages are as long as their readers need."""
    assert len(README.encode()) <= 7_000


def test_readme_shows_the_file_that_it_audits():
    lines = (ROOT / "examples/robots.txt").read_text().splitlines()
    assert code(README, "")[0].splitlines() == [f"{number:2}  {line}".rstrip() for number, line in enumerate(lines, 1)]


@pytest.mark.parametrize("name", PAGES)
def test_prose_has_at_most_100_columns(name):
    assert not [line for line in prose(PAGES[name]) if len(line) > 100]


@pytest.mark.parametrize("name", PAGES)
def test_words_of_the_papers_stay_in_the_main_theorem(name):
    text = PAGES[name].replace(section(PROOFS, "The main theorem"), "") if name == "docs/PROOFS.md" else PAGES[name]
    text = re.sub(r"`[^`]*`", "", re.sub(r"^```.*?^```$|^ {4}.*$", "", text, flags=re.M | re.S))
    assert not re.findall(r"(?i)\b(want of memory|captured|overlong|lent|handed)\b", text)


def test_architecture_names_every_crate_and_module():
    named = {name for row in tables(DOCUMENTS["docs/ARCHITECTURE.md"]) for name in re.findall(r"`(\w+)`", row[0])}
    crates = re.findall(r"^(\w+).*:", (ROOT / "crates.txt").read_text(), re.M)
    assert set(crates) == {path.name for path in CRATES.iterdir() if path.is_dir()}
    assert {*crates, *(path.stem for path in (LIBRARY / "src").glob("*.rt"))} - {"lib"} <= named


def test_contributing_shows_a_row_of_the_warnings():
    (row,) = code(DOCUMENTS["CONTRIBUTING.md"], "rust")
    assert row in (CRATES / "robots_warnings/src/rows.rt").read_text()


# ---- code, commands and their output


def test_guide_shows_the_example():
    assert code(GUIDE, "rust")[0] in (CRATES / "texting_robots_tests/src/example.rt").read_text()


def test_guide_runs_its_program():
    words = shlex.split(re.search(r"^    rt run -- (.*)$", GUIDE, re.M)[1])
    result = run("robots_examples", words, cwd=CRATES / "robots_examples")
    assert (result.status, result.err) == (0, "") and words[-1] in result.out


@pytest.fixture(scope="session")
def clone(tmp_path_factory):
    """A folder with what `./build` and the commands of the README use."""
    folder = tmp_path_factory.mktemp("clone")
    for name in ("build", "crates.txt"):
        shutil.copy(ROOT / name, folder)
    for name in ("crates", "examples", "tools", "web"):
        shutil.copytree(ROOT / name, folder / name, ignore=shutil.ignore_patterns("out", "__pycache__"))
    return folder


def blocks_of_commands(document):
    """Each indented block of commands of this repository, with the block below it if 'prints:' is between them."""
    parts = re.findall(r"((?:^ {4}.*\n)+)|((?:^(?! {4}).*\n)+)", document, re.M)
    for number, (block, _) in enumerate(parts):
        if re.match(r" +(\./build|robots_audit) ", block):
            yield shown(block), shown(parts[number + 2][0]) if parts[number + 1][1].endswith("prints:\n\n") else None


@pytest.mark.parametrize("commands, printed", blocks_of_commands(README))
def test_readme_shows_what_its_commands_print(clone, commands, printed):
    """As somebody types them in a clone, one after the other."""
    environment = os.environ | {"PATH": f"{clone}/bin:{os.environ['PATH']}"}
    subprocess.run(["./build"], cwd=clone, capture_output=True, check=True)
    words = {"stdin": subprocess.DEVNULL, "stdout": subprocess.PIPE, "stderr": subprocess.STDOUT, "text": True}
    ended = [subprocess.run(["bash", "-c", it], cwd=clone, env=environment, **words) for it in commands.splitlines()]
    assert [it.stdout for it in ended if it.returncode not in (0, 1, 3)] == []
    assert printed is None or "".join(it.stdout for it in ended) == printed


COMMANDS = [line for line in shown(PROGRAMS).splitlines() if re.match("(robots_audit|curl) ", line)]
COMMANDS += [re.match(r"`(.*?)`", row[1])[1] for row in tables(PROGRAMS) if row[1].startswith("`robots_audit ")]


@pytest.mark.parametrize("command", COMMANDS)
def test_command_runs(command, tmp_path):
    """In a folder with the files that it names; curl is a script here that fetches nothing."""
    files = {"robots.txt": "User-agent: *\nDisallow: /search\n", "old.txt": "User-agent: *\nAllow: /\n", "urls.txt": "/search/tea\n", "expect.txt": "deny B /search\n"}
    for name, text in {**files, "curl": "#!/bin/sh\ncat robots.txt\n"}.items():
        (tmp_path / name).write_text(text)
    (tmp_path / "curl").chmod(0o755)
    (tmp_path / "robots_audit").symlink_to(program("robots_audit"))
    result = run(Path("/bin/bash"), ["-ec", command], cwd=tmp_path, env={"PATH": f"{tmp_path}:{os.environ['PATH']}"})
    assert result.status in (0, 1) and "robots_audit: " not in result.err


def group(name, *rules):
    """Lines of a file."""
    return "\n".join([f"User-agent: {name}", *rules, ""])


HIDDEN = group("*", "Disallow: /")
SEARCH = group("*", "Disallow: /search")

# For each question that docs/PROGRAMS.md answers by a command: files with different answers, with the exit status and what is printed.
# The other files of the command are below.
ANSWERS = {
    "Is the site closed?": [(HIDDEN, 1, ["1 rule, may fetch nothing", "deny 2 * /"]), (SEARCH, 0, ["allow - * /"])],
    "Is it closed to Google?": [(HIDDEN, 1, ["may fetch: nothing", "deny 2 /"]), (HIDDEN + group("Googlebot", "Allow: /"), 0, ["allow 4 /"])],
    "Is it closed to AI crawlers and open to search engines?": [(group("GPTBot", "Disallow: /"), 1, ["deny 2 GPTBot /", "allow - ClaudeBot /", "allow - Googlebot /"])],
    "Which known crawlers may fetch a page?": [(group("Bingbot", "Disallow: /search"), 1, ["deny 2 Bingbot /search", "allow - Googlebot /search"])],
    "Why may Bing not fetch a page?": [(SEARCH, 1, ["group: * (Bingbot has no group of its own)", "deny 2 /search"])],
    "Did an edit change a verdict?": [(group("*", "Disallow: /b", "Disallow: /a"), 0, ["so the same verdicts"]), (SEARCH, 1, ["verdicts change"])],
    "Which URLs of a list are denied?": [(SEARCH, 1, ["deny 2 * /search/tea", "1 allowed, 1 denied"])],
    "Is a folder closed?": [
        (group("*", "Disallow: /private/"), 0, ["1 expectation holds"]),
        (group("*", "Disallow: /private/", "Allow: /private/press"), 1, ["* must be denied all of /private/, but line 3 allows /private/press"]),
    ],
    "Which rules can go?": [(group("*", "Disallow: /a", "Disallow: /ab"), 0, ["robots.txt:3: note: ", "[needless-rule]"]), (SEARCH, 0, ["RFC 9309 reads this file alike"])],
    "Which lines are mistakes?": [(group("*", "Disalow: /a"), 3, ["robots.txt:2: warning: "]), (SEARCH, 0, [])],
}  # fmt: skip
QUESTIONS = {row[0]: re.match(r"`(.*?)`(?:.*`(.*)`)?", row[1]).groups() for row in tables(PROGRAMS) if row[1].startswith("`robots_audit ")}


@pytest.mark.parametrize("question, file, status, printed", [(question, *answer) for question in ANSWERS for answer in ANSWERS[question]])
def test_question_is_answered(question, file, status, printed, tmp_path):
    command, expectation = QUESTIONS[question]
    files = {"robots.txt": file, "old.txt": group("*", "Disallow: /a", "Disallow: /b"), "urls.txt": "/search/tea\n/b\n", "expect.txt": expectation or ""}
    for name, text in files.items():
        (tmp_path / name).write_text(text)
    result = run(shlex.split(command)[0], shlex.split(command)[1:], cwd=tmp_path)
    assert result.status == status
    assert [text for text in printed if text not in result.out + result.err] == []


def test_questions_are_those_of_the_document():
    assert list(QUESTIONS) == list(ANSWERS)


# ---- docs/PROGRAMS.md and docs/WARNINGS.md


def test_page_of_warnings_is_what_the_program_prints():
    """tools/warnings_page.py writes it anew."""
    assert DOCUMENTS["docs/WARNINGS.md"] == warnings_page.page(lambda *words: run("robots_audit", words).out)


def test_documented_messages_of_robots_verdict_have_their_status():
    """That is the status of the golden cases with this message."""
    rows = [(int(row[0]), re.match("`(.*?)`", row[1])[1]) for row in tables(section(PROGRAMS, "`robots_verdict`")) if row[0].isdigit()]
    cases = [case for path in ROOT.glob("tests/golden/robots_verdict/*.toml") for case in cases_of(path.read_text()).values()]
    found = {(case["status"], case["err"].splitlines()[0]) for case in cases if case.get("err")}
    assert {*rows} == found | {(4, "robots_verdict: out of memory")}


OPTION = r"(?<![\w-])(?:--[a-z-]+|-[a-zA-Z])(?![\w-])"


@pytest.fixture(scope="module")
def options():
    """The lines on options that help has."""
    return run("robots_audit", ["--help"]).out.split("\nOptions:")[1].split("\n\n")[0]


def values(text):
    """What the value of each option is called, if it has one, and in which brackets."""
    return {name: "".join(value.split()) for name, value in re.findall(r"(--[a-z-]+) *(\[?=? *[A-Z]{3,} *\]?)", text)}


def test_documented_options_are_those_of_help(options):
    """And those of the manual page; and their values have equal names."""
    documented = "\n".join(row[0] for row in tables(PROGRAMS) if row[0].startswith("`-"))
    page = (ROOT / "man/robots_audit.1").read_text().split(".SH OPTIONS")[1].split("\n.SH ")[0]
    headings = re.sub(r"\\f[BIR]", " ", "\n".join(re.findall(r"^\.TP\n(.*)$", page, re.M)).replace("\\-", "-"))
    assert sorted(re.findall(OPTION, documented)) == sorted(re.findall(OPTION, headings)) == sorted(set(re.findall(OPTION, options)))
    helped = values(re.sub("[<>]", "", options))
    for found in map(values, (documented, headings)):
        assert {**found, "--user-agent": "NAME"} == {**helped, "--user-agent": "NAME"}


def test_documented_words_are_those_of_help(options):
    """The formats, the levels and when colors are used."""
    offered = dict(re.findall(r"^ +(--[a-z-]+)\b.*\[possible values: (.*)\]$", options, re.M))
    rows = {re.findall(OPTION, row[0])[0]: row[1] for row in tables(PROGRAMS) if row[0].startswith("`--")}
    page = (ROOT / "man/robots_audit.1").read_text().replace("\\-", "-").replace("\\fB", "").replace("\\fR", "")
    for name, words in offered.items():
        of_the_page = page.split(f"{name}", 1)[1].split("\n.TP\n")[0]
        for word in words.split(", "):
            assert f"`{word}`" in rows[name] and re.search(rf"\b{word}\b", of_the_page), (name, word)
    assert {"--format", "--strict", "--color"} <= set(offered)


def test_the_web_page_gives_options_of_the_program(options):
    given = set(re.findall(r"--[a-z]+", (ROOT / "web/page.js").read_text()))
    assert {"--html", "--compare", "--expect"} <= given <= set(re.findall(OPTION, options))


def test_documented_json_is_that_of_the_program():
    report = json.loads(run("robots_audit", ["--json", "--agent", "FerrisBot", "-", "/search"], b"User-agent: *\nDisallow: search").out)
    assert json.loads(code(PROGRAMS, "json")[0]) == report


def test_robots_verdict_prints_the_documented_report():
    text = section(PROGRAMS, "`robots_verdict`")
    stdin, out = (part.group(0) for part in re.finditer(r"(?:^    .*\n(?:\n(?=    ))?)+", text, re.M))
    result = run("robots_verdict", (), re.sub("^    ", "", stdin, flags=re.M).encode())
    assert (result.status, result.out) == (0, re.sub("^    ", "", out, flags=re.M))


def test_documented_settings_are_those_of_the_middleware():
    """With their defaults, as its docstring has them."""
    rows = [[cell.strip("`") for cell in row] for row in tables(PAGES["bindings/python/README.md"]) if row[0].startswith("`TEXTING_ROBOTS_")]
    docstring = (ROOT / "bindings/python/src/texting_robots/middleware.py").read_text()
    assert rows and all(f"- ``{name}{'' if default == 'none' else f' = {default}'}``:" in docstring for name, default, _ in rows)


# ---- examples in docs/SPECIFICATION.md and docs/COMPATIBILITY.md


@pytest.mark.parametrize("line, read", rows_under("docs/SPECIFICATION.md", "Line", "Read as"))
def test_line_is_read_as_documented(line, read):
    """The row of an empty Disallow, which is the Allow of `/` that the document names, shows what is written."""
    row = run("robots_audit", ["--agent", "FerrisBot", "-"], bytes_in(line)).out.splitlines()[0]
    shown_row = row[4:].partition("  #")[0].replace("disallow    (empty: an Allow of / here)", "allow /")
    assert shown_row.split(maxsplit=1) == read.strip("`").split(maxsplit=1)


def verdict(crawler, file, url):
    """What the library says about a URL, of which it keeps the fragment, unlike `robots_audit`."""
    result = run("robots_verdict", (), b"\n".join([crawler, url, b"", file]))
    words = {"allow": "allowed", "deny": "denied"}
    return "rejected" if result.status == 3 else words[re.search(r"^(allow|deny) ", result.out, re.M)[1]]


@pytest.mark.parametrize("file, url, result", rows_under("docs/SPECIFICATION.md", "File", "URL", "Result"))
def test_url_has_the_documented_verdict(file, url, result):
    out = run("robots_audit", ["-q", "--agent", "FerrisBot", "-", bytes_in(url)], bytes_in(file)).out
    assert [line for line in out.splitlines() if line.startswith(result.strip("`") + " ")]


@pytest.mark.parametrize("url, target", rows_under("docs/SPECIFICATION.md", "URL", "Match target"))
def test_url_has_the_documented_match_target(url, target):
    """A rule that ends with $ denies exactly the target that is written before it."""
    assert verdict(b"FerrisBot", b"Disallow: " + bytes_in(target) + b"$", bytes_in(url)) == "denied"


@pytest.mark.parametrize("file, url, standard, google, crate, here, reading, warning", rows_under("docs/COMPATIBILITY.md", "File", "URL"))
def test_file_is_read_as_documented(file, url, standard, google, crate, here, reading, warning):
    """tests/test_standard_reading.py has what the library makes of the column for RFC 9309's reading."""
    crawler, text = crawler_and_file(file)
    urls = re.findall(rb"^(?:/|https?:).*$", bytes_in(url))  # robots_audit takes no others
    result = run("robots_audit", ["-q", "--agent", crawler, "-", *urls], text)
    assert here.split(":")[0] == verdict(crawler.encode(), text, bytes_in(url))
    assert (here if reading == "same" else reading).split(":")[0] == standard_model.word(text, crawler.encode(), bytes_in(url))
    warned, documented = set(re.findall(r" \[([a-z0-9-]+)\]$", result.err, re.M)), set(re.findall(r"`(.*)`", warning))
    assert documented <= warned and bool(documented) == bool(warned)


@pytest.mark.parametrize("url, crate, here", rows_under("docs/COMPATIBILITY.md", "URL", "Rust crate", "Here"))
def test_url_has_the_documented_path(url, crate, here):
    """Where a path is documented; a rule that ends with $ denies exactly this path."""
    for given, path in zip(re.findall(r"`(.*?)`", url), re.findall(r"`(/.*?)`", here)):
        assert verdict(b"FerrisBot", f"Disallow: {path}$".encode(), given.encode()) == "denied"
