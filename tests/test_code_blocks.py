"""Each block of code in a page is run by a test, or is compared with what it shows, or is marked, in a comment above it, as one that needs
something from outside of the repository. Of the latter the files that they name are checked."""

import re

import pytest
from support import CRATES, PAGES, ROOT, compiled, run
from test_documents import GUIDE, PROGRAMS, code, group, section

PARTS = re.compile(r"(?:<!-- needs (?P<needs>.*) -->\n+)?(?:^```(?P<language>\w*)\n(?P<fenced>(?:.*\n)*?)```$|(?P<indented>(?:^ {4}.*\n(?:\n(?= {4}))?)+))", re.M)

# For each page, by the language of a block, or by what its first line begins with if it is indented: the tests that run or compare it.
TESTS = {
    "CHANGELOG.md": {"rattle-kit": "test_place_names_the_toolchain"},
    "CONTRIBUTING.md": {
        "PAGE": "test_size_of_the_module",
        "```toml": "test_contributing_shows_a_golden_case",
        "```rust": "test_contributing_shows_a_row_of_the_warnings",
    },
    "README.md": {
        "```": "test_readme_shows_the_file_that_it_audits",
        "./build": "test_readme_shows_what_its_commands_print",
        "bin/robots_audit": "test_readme_shows_what_its_commands_print",
        "robots_audit": "test_readme_shows_what_its_commands_print",
        "2 expectations": "test_readme_shows_what_its_commands_print",
        "./test": "test_scripts_exist",
        "this library": "test_the_document_and_the_readme_have_the_medians",
        "```python": "test_lines_of_the_readme_in_python",
        "tar": "test_the_report_of_the_readme",
    },
    "bindings/c/README.md": {"tar": "test_c_library_as_the_guide_says", "```c": "test_code_in_c_compiles"},
    "bindings/node/audit/README.md": {
        "npx": "test_from_the_archive_in_an_empty_folder",
        "npm install": "test_npm_installs_the_archives",
        "```json": "test_script_of_a_project",
    },
    "bindings/node/library/README.md": {"npm install": "test_npm_installs_the_archives", "```js": "test_lines_of_the_readme_in_javascript"},
    "bindings/node/robots-parser/README.md": {
        "```json": "test_npm_installs_the_archives",
        "```js": "test_lines_of_the_readme_in_javascript",
    },
    "bindings/pip/README.md": {"pip install": "test_pip_installs_the_program"},
    "bindings/python/README.md": {
        "pip install": "test_the_readme_prints_what_it_says",
        "```python": "test_lines_of_the_readme_in_python",
        "ROBOTSTXT_OBEY": "test_scrapy_project_obeys_a_damaged_file",
        "DOWNLOADER_MIDDLEWARES": "test_middleware",
    },
    "bindings/rust/README.md": {"```sh": "test_lines_of_the_readme_in_rust", "```toml": "test_lines_of_the_readme_in_rust", "```rust": "test_cargo_test"},
    "bindings/rust/compat/README.md": {"```toml": "test_callers_of_the_former_crate"},
    "docs/ARCHITECTURE.md": {"```": "test_pictures_name_crates_and_modules"},
    "docs/BENCHMARKS.md": {},
    "docs/CI.md": {
        "npx": "test_from_the_archive_in_an_empty_folder",
        "robots_audit": "test_commands_of_the_page_guard_a_file",
        "```make": "test_good_file_passes",
        "```sh": "test_good_file_passes",
        "```yaml": "test_workflows_are_yaml",
    },
    "docs/FAQ.md": {"": "test_page_shows_what_its_commands_print"},
    "docs/GUIDE.md": {
        "```python": "test_guide_shows_a_small_crawler",
        "(cd crates/robots_c": "test_guide_shows_how_to_build_the_programs_in_c_and_python",
        "ROBOTS_SO": "test_guide_shows_how_to_build_the_programs_in_c_and_python",
        "```c": "test_code_in_c_compiles",
        "texting_robots:": "test_guide_shows_lines_of_crates",
        "rt run": "test_guide_runs_its_program",
        "```rust": "test_guide_shows_the_example",
    },
    "docs/MOVING.md": {
        "```python": "test_code_before_and_after_finds_the_same",
        "```js": "test_code_before_and_after_finds_the_same_in_javascript",
        "```toml": "test_the_lines_of_the_readme_in_another_crate",
        "```rust": "test_the_lines_of_the_readme_in_another_crate",
    },
    "docs/PROGRAMS.md": {
        "usage:": "test_usage",
        "robots_audit": "test_command_runs",
        "curl": "test_command_runs",
        "crawler": "test_programs_shows_reports",
        "```": "test_programs_shows_reports",
        "expect.txt:": "test_programs_shows_reports",
        "old:": "test_programs_shows_reports",
        "::error": "test_programs_shows_reports",
        "robots.txt:": "test_programs_shows_reports",
        "```json": "test_documented_json_is_that_of_the_program",
        "FerrisBot": "test_robots_verdict_prints_the_documented_report",
        "delay": "test_robots_verdict_prints_the_documented_report",
    },
    "docs/PROOFS.md": {"```text": "test_quoted_contracts_are_those_of_the_source", "rattle-kit": "test_place_names_the_toolchain"},
    "docs/TUTORIAL.md": {"": "test_page_shows_what_its_commands_print"},
    "docs/WARNINGS.md": {"": "test_page_of_warnings_is_what_the_program_prints"},
}
SOURCES = "".join(path.read_text() for pattern in ("tests/*.py", "bindings/*/tests/*.py") for path in ROOT.glob(pattern))


def blocks(page):
    """What each block of a page needs from outside, what it is known by, and its text."""
    for it in PARTS.finditer(page):
        text = it["fenced"] if it["indented"] is None else re.sub("^ {4}", "", it["indented"], flags=re.M)
        yield it["needs"], text.strip() if it["indented"] else f"```{it['language']}", text


@pytest.mark.parametrize("name", PAGES)
def test_block_is_tested_or_needs_more(name):
    tests, found = TESTS.get(name, {}), set()
    for needs, known, text in blocks(PAGES[name]):
        matching = [it for it in tests if (known == it if known.startswith("```") and it else known.startswith(it))]
        assert len(matching) == 1 or (needs and not matching) or (needs and known.startswith("```")), text
        found |= {*matching}
    assert found == set(tests), "blocks that the page doesn't have"


@pytest.mark.parametrize("test", sorted({test for tests in TESTS.values() for test in tests.values()}))
def test_tests_exist(test):
    assert f"def {test}(" in SOURCES or (ROOT / f"bindings/python/tests/{test}.py").exists()


@pytest.mark.parametrize("name, text", [(name, text) for name in PAGES for needs, _, text in blocks(PAGES[name]) if needs])
def test_block_that_needs_more_names_files_that_exist(name, text):
    for path in re.findall(r"\b(?:crates|bindings|bench|tools|examples)/[\w./-]+", text):
        assert (ROOT / path).exists(), path


# ---- tests of blocks that no other module has


def test_scripts_exist():
    scripts = set(re.findall(r"(?m)(?:^ {4}|`)\./(\w+)", "".join(PAGES.values())))
    assert {"build", "check", "release", "test"} <= scripts and all((ROOT / it).stat().st_mode & 0o100 for it in scripts - {"ask"})


def test_contributing_shows_a_golden_case():
    """It is one of the example's keys, and its output is that of the program."""
    import tomllib

    (case,) = tomllib.loads(code(PAGES["CONTRIBUTING.md"], "toml")[0]).values()
    result = run("robots_audit", case["args"].split(), case["file"].encode())
    assert result.status == case["status"] and case["rfc"] == "verdicts"
    group, *lines, line = result.out.splitlines()
    assert group.split(" (")[0] == case["out"].splitlines()[0] and lines == case["out"].splitlines()[1:] and line == "RFC 9309 reads this file alike"


def test_code_in_c_compiles(tmp_path):
    """What declares an allocator, and how the library is used."""
    (used,), (declared,) = code(PAGES["bindings/c/README.md"], "c"), code(GUIDE, "c")
    function = "void use(const char *file, size_t file_len, const char *url, size_t url_len)"
    (tmp_path / "use.c").write_text(f'#include "robots.h"\n#include <stddef.h>\n{declared}void fetch(const char *);\n{function};\n{function} {{\n{used}}}\n')
    compiled(tmp_path / "use.o", "-Werror", "-c", "-Icrates/robots_c", tmp_path / "use.c")


def test_guide_shows_lines_of_crates():
    """That of the library, and one of a crate that uses it."""
    own, other = re.search(r"^    (texting_robots: .*)\n    (fetcher: .*)$", GUIDE, re.M).groups()
    assert own in (ROOT / "crates.txt").read_text().splitlines() and other.split(": ")[1] == "texting_robots"


def test_pictures_name_crates_and_modules():
    modules, crates = code(PAGES["docs/ARCHITECTURE.md"], "")
    named = set(re.findall(r"[a-z]+", modules)) - set(re.findall(r"lines|rules|file|crawler|s|a|URL|match|target|verdict", modules))
    assert {"parser", "matching"} <= named and all((CRATES / f"texting_robots/src/{it}.rt").exists() for it in named)
    uses = dict(re.findall(r"^(\w+).*?:(.*)$", (ROOT / "crates.txt").read_text(), re.M))
    shown = set(re.findall(r"[a-z]+_\w+|rfc9309", crates))
    assert shown == set(uses) - {"robots_verdict", "warning_theorems", "robots_examples", "texting_robots_tests"}


def test_usage():
    assert run("robots_audit").err.splitlines()[0].endswith(section(PROGRAMS, "`robots_audit`").split("    ")[1].splitlines()[0])


STAR = group("*", "Allow: /products", "Disallow: /search", "Crawl-delay: 2")
EXPECTED = group("Googlebot", "Disallow: /b", "Disallow: /products") + group("*", "Disallow: /private/a")
SHOWN = {
    "crawler": (STAR.rstrip() + "\n" + group("GPTBot", "Disallow: /"), ["/products/tea"], {}),
    "expect.txt:": (EXPECTED, ["--expect", "expect.txt"], {"expect.txt": "#\nallow Googlebot /products/tea\nallow Googlebot /%62\ndeny-all * /private/*.pdf$\n"}),
    "old:": (group("*", "Disallow: /search", "", "") + group("Googlebot", "Disallow: /products"), ["--agent", "Googlebot", "--compare", "old.txt", "/products/tea"], {"old.txt": group("*", "Disallow: /search")}),
    "::error": ("\n" + group("FerrisBot", "Disallow: /search"), ["--agent", "FerrisBot", "--format", "github", "/search"], {}),
    "robots.txt:": ((ROOT / "examples/robots.txt").read_text(), [], {}),
}  # fmt: skip


@pytest.mark.parametrize("begin", SHOWN)
def test_programs_shows_reports(begin, tmp_path):
    """Each line is printed, one that ends with .. as far as it is shown; and the expectations can be read."""
    (block,) = [text for _, known, text in blocks(PROGRAMS) if known.startswith(begin)]
    file, words, files = SHOWN[begin]
    for name, text in {"robots.txt": file, "ours.txt": code(PROGRAMS, "")[0], **files}.items():
        (tmp_path / name).write_text(text)
    result = run("robots_audit", ["robots.txt", *words], cwd=tmp_path)
    printed = (result.out + result.err).splitlines()
    assert [line for line in block.splitlines() if not any(it == line or (line.endswith("..") and it.startswith(line[:-2])) for it in printed)] == []
    assert run("robots_audit", ["robots.txt", "--expect", "ours.txt"], cwd=tmp_path).status in (0, 1)
