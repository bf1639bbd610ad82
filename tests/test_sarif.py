"""`robots_audit --format sarif`: the log has the members that SARIF 2.1.0 requires, none that it forbids, and all warnings and verdicts."""

import json
import re
from urllib.parse import unquote

import pytest
from support import WARNINGS, run

ROBOTS = b"""User-agent: *
Disallow: search
Disallow: /b
Clean-param: ref /
Noindex: /x
"""

# The description of `needless-rule`, each of whose messages has another reason.
NEEDLESS = "this rule can be deleted together with all other needless rules, and every verdict stays the same"

# By the definition in https://json.schemastore.org/sarif-2.1.0.json: the required members of an object and the others that are written.
# Each has the definition of its value, in brackets if the value is a list of such; the rest are strings and numbers.
SCHEMA = {
    "log": ({"version": None, "runs": ["run"]}, {"$schema": None}),
    "run": ({"tool": "tool"}, {"results": ["result"]}),
    "tool": ({"driver": "toolComponent"}, {}),
    "toolComponent": ({"name": None}, {"version": None, "rules": ["reportingDescriptor"]}),
    "reportingDescriptor": ({"id": None}, {"shortDescription": "message", "fullDescription": "message", "help": "message", "defaultConfiguration": "reportingConfiguration"}),
    "reportingConfiguration": ({}, {"level": None}),
    "result": ({"message": "message"}, {"ruleId": None, "level": None, "locations": ["location"]}),
    "message": ({"text": None}, {}),
    "location": ({}, {"physicalLocation": "physicalLocation"}),
    "physicalLocation": ({"artifactLocation": "artifactLocation"}, {"region": "region"}),
    "artifactLocation": ({}, {"uri": None}),
    "region": ({}, {"startLine": None}),
}


def assert_meets(name, value):
    """Fails unless the value is as the schema's definition of this name says."""
    if name is None:
        assert isinstance(value, (str, int))
        return
    if isinstance(name, list):
        assert isinstance(value, list)
        for item in value:
            assert_meets(name[0], item)
        return
    required, others = SCHEMA[name]
    assert required.keys() <= value.keys() <= {**required, **others}.keys()
    for member, of in {**required, **others}.items():
        if member in value:
            assert_meets(of, value[member])


def log(*args, file=ROBOTS, status=0, **options):
    result = run("robots_audit", ["--format", "sarif", *args], file, **options)
    assert (result.status, result.err, result.out.count("\n")) == (status, "", 1)
    return json.loads(result.out)


def message(name):
    """The message of the first warning with this name."""
    return WARNINGS[name][-1][1]


def read(message):
    """The text that a message shows: braces, brackets and backslashes are escaped, so it has no placeholder or link."""
    assert re.fullmatch(r"(?:[^{}\[\]\\]|\{\{|\}\}|\\[\[\]\\])*", message["text"], re.S)
    return re.sub(r"([{}])\1|\\(.)", lambda it: it[1] or it[2], message["text"])


def results(log):
    """Level, rule, message, file and line of each result."""
    for it in log["runs"][0]["results"]:
        place = it["locations"][0]["physicalLocation"]
        yield it["level"], it["ruleId"], read(it["message"]), place["artifactLocation"]["uri"], place["region"]["startLine"]


@pytest.mark.parametrize("args", [["--agent=Ferris", "-", "/b"], ["-", "/b"]], ids=["one crawler", "all"])
def test_schema(args):
    found = log(*args, status=1)
    assert_meets("log", found)
    assert (found["version"], len(found["runs"])) == ("2.1.0", 1)
    assert {it["level"] for it in found["runs"][0]["results"]} == {"error", "warning", "note"}


def test_results():
    """Errors, what crawlers may not fetch, and other warnings. What isn't about a line is at the first."""
    assert list(results(log("--agent=Ferris", "-", "/b", "/c", status=1))) == [
        ("error", "missing-slash", message("missing-slash"), "robots.txt", 2),
        ("error", "denied", "Ferris may not fetch /b", "robots.txt", 3),
        ("note", "clean-param-line", message("clean-param-line"), "robots.txt", 4),
        ("warning", "noindex-line", message("noindex-line"), "robots.txt", 5),
    ]
    assert list(results(log("-", file=b"#"))) == [("note", "empty-file", message("empty-file"), "robots.txt", 1)]
    named = f"URL '/%c3': {message('url-not-normal')}"
    assert list(results(log("-", "/%c3", file=b"Sitemap: http://a"))) == [("note", "url-not-normal", named, "robots.txt", 1)]


@pytest.mark.parametrize("url", ["/b{0}", "/b[ok](https://evil.example)", "/b\\[ok](1)", "/b{{}}\\\\[]\u00fc\u20ac\U0001f600"])
def test_texts_are_neither_placeholders_nor_links(url):
    assert list(results(log("--agent=Ferris", "-", url, "--only=several-directives", status=1))) == [("error", "denied", f"Ferris may not fetch {url}", "robots.txt", 3)]


def test_rejected_file():
    text = "rejected for Ferris: line 2: a pattern with $ longer than 4,096 bytes isn't supported; shorten it"
    file = b"User-agent: *\nDisallow: /" + b"a" * 4095 + b"$"
    assert list(results(log("--agent=Ferris", "-", "/b", file=file, status=2))) == [("error", "rejected", text, "robots.txt", 2)]


def test_rules():
    driver = log("-")["runs"][0]["tool"]["driver"]
    assert run("robots_audit", ["--version"]).out.startswith(f"{driver['name']} {driver['version']} (")
    levels = [(it["id"], it["defaultConfiguration"]["level"]) for it in driver["rules"]]
    most_serious = [(name, min((it[0] for it in its), key=["error", "warning", "note"].index)) for name, its in WARNINGS.items()]
    assert levels == [("denied", "error"), ("rejected", "error"), *most_serious]
    rules = {it["id"]: it for it in driver["rules"]}
    for name, its in WARNINGS.items():  # the general message is the last one
        text = NEEDLESS if name == "needless-rule" else its[-1][1]
        assert {read(rules[name][key]) for key in ("shortDescription", "fullDescription")} == {text}
        assert read(rules[name]["help"]) == explained(name)[-1]


def explained(name):
    """The examples that `--explain` prints, without the spaces before their lines."""
    text = run("robots_audit", ["--explain", name]).out
    return [re.sub("^    ", "", it, flags=re.M).removesuffix("\n") for it in re.findall(r"^for example:\n(?:    .*\n)+", text, re.M)]


@pytest.mark.parametrize("name", ["a b.txt", "a:b/c,d%41#e?f.txt", "gr\u00f6\u00dfe\x1b~_-.txt", "[a]+;@&=$!'()*"])
def test_uri(tmp_path, name):
    path = tmp_path / name
    path.parent.mkdir(exist_ok=True)
    path.write_bytes(ROBOTS)
    (_, _, _, uri, _), *_ = results(log("--agent=Ferris", name, cwd=tmp_path))
    assert re.fullmatch(r"(?:[A-Za-z0-9._~/-]|%[0-9A-F]{2})+", uri) and unquote(uri) == name


@pytest.mark.parametrize("slashes", ["/", "//", "///"])
def test_several_slashes_are_not_before_a_host(tmp_path, slashes):
    path = tmp_path / "robots.txt"
    path.write_bytes(ROBOTS)
    (_, _, _, uri, _), *_ = results(log("--agent=Ferris", f"{slashes}{str(path)[1:]}"))
    assert unquote(uri) == str(path)


def test_bytes_of_a_file_name_that_need_no_escape_have_none(tmp_path):
    (tmp_path / "robots_A-0.9~.txt").write_bytes(ROBOTS)
    assert {it[3] for it in results(log("--agent=Ferris", "robots_A-0.9~.txt", cwd=tmp_path))} == {"robots_A-0.9~.txt"}


def test_each_needless_rule_is_a_result():
    file = b"User-agent: Ferris\nDisallow: /a\nDisallow: /ab\nDisallow: /ac\n"
    found = [(line, text) for _, name, text, _, line in results(log("--agent=Ferris", "--needless", "-", file=file)) if name == "needless-rule"]
    assert [line for line, _ in found] == [3, 4]
    assert all(text.endswith("; all needless rules: lines 3-4") for _, text in found)
