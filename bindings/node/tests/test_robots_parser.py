"""The package with the calls of robots-parser: the differences in its README are those from an algorithm that was written from memory (port.cjs),
and in ordinary files there is none."""

import json
from pathlib import Path

from in_node import node

HERE = Path(__file__).resolve().parent


def test_as_robots_parser(packages):
    found = json.loads(node(HERE / "parser.cjs", packages["texting-robots-parser"]))
    assert found["wrong"] == []
    assert found["rows"] >= 10 and found["results"] > 10_000


CHECK = """const assert = require("node:assert"), parser = require(process.argv[1]);
assert.equal(parser.default, parser);
const file = "User-agent: *\\nDisallow: /a\\nHost: A.example\\nhost:\\nUser-agent: bot\\nDisallow: /b", robots = parser("https://a.example/robots.txt", file);
assert.equal(robots.isAllowed("https://b.example/a"), undefined);
assert.equal(robots.isAllowed("http://a.example/a"), undefined);
assert.equal(robots.isAllowed("https://a.example.evil/a"), undefined);
assert.equal(robots.isAllowed("https://a.example:443/a"), false);
assert.equal(robots.isAllowed("https://a.example/a#b"), false);
assert.equal(robots.isDisallowed("https://b.example/a"), true);
assert.equal(robots.getMatchingLineNumber("https://a.example/x"), -1);
assert.equal(robots.getMatchingLineNumber("https://a.example/a"), 2);
assert.equal(robots.getMatchingLineNumber("https://b.example/a"), -1);
assert.equal(robots.isExplicitlyDisallowed("https://a.example/a", "x"), false);
assert.equal(robots.isExplicitlyDisallowed("https://a.example/b", "Bot/1"), true);
assert.equal(robots.isExplicitlyDisallowed("https://b.example/b", "Bot/1"), undefined);
assert.equal(robots.getPreferredHost(), "a.example");
assert.equal(parser("https://a.example/robots.txt", "").getPreferredHost(), null);
assert.equal(parser("/robots.txt", file).isAllowed("/a"), false);
assert.equal(robots.isAllowed("https://a.example/a", ""), false);
const long = parser("https://a.example/robots.txt", "User-agent: *\\nDisallow: /$" + "a".repeat(4096));
assert.equal(long.isAllowed("https://a.example/x"), false);
assert.equal(long.getMatchingLineNumber("https://a.example/x"), 2);
const empty = "User-agent: *\\nDisallow:\\nDisallow: /", read = options => parser("/robots.txt", empty, options).isAllowed("/x");
assert.deepEqual([undefined, { reading: "crate" }, { reading: "rfc9309" }].map(read), [true, true, false]);
for (const bad of ["rfc9309", null, { reding: "rfc9309" }]) assert.throws(() => parser("/robots.txt", "", bad), /^TypeError: options has /);
console.log("ok");"""


def test_calls(packages):
    assert node("-e", CHECK, packages["texting-robots-parser"]) == "ok\n"
