"use strict";
// node parser.cjs FOLDER: compares the package in this folder, which has the calls of robots-parser, with port.cjs, for the rows of the table
// in its README and for random files, and prints what doesn't agree. In a row, a line feed is `⏎`.
const fs = require("node:fs");
const path = require("node:path");
const folder = process.argv[2], ours = require(folder), port = require("./port.cjs");

const SITE = "https://a.example";
const wrong = [];

/** What a call gives, as a text. */
function answer(parser, file, call) {
  const robots = parser(`${SITE}/robots.txt`, file), [, name, words] = /^(\w+)\((.*)\)$/.exec(call);
  const given = words ? words.split(", ").map(it => it.startsWith("/") ? SITE + it : it) : [];
  return JSON.stringify(robots[name](...given)) ?? "undefined";
}

const rows = [...fs.readFileSync(path.join(folder, "README.md"), "utf8").matchAll(/^\| .* \| `(.*)` \| `(.*)` \| (.*) \| (.*) \|$/gm)];
for (const [, text, call, there, here] of rows) {
  const file = text.replaceAll("\u23ce", "\n").replace(/(\S)\{(\d+)\}/g, (_, it, count) => it.repeat(Number(count)));
  const found = [port, ours].map(it => answer(it, file, call));
  if (found[0] !== there || found[1] !== here) wrong.push([file.slice(0, 200), call, ...found]);
}

// ---- ordinary files: none of these is a difference in the table

let seed = Number(process.argv[3] ?? 1);
const random = below => (seed = seed * 48271 % 2147483647) % below;
const one = list => list[random(list.length)];
const PARTS = ["a", "b", "ab", "/", "/", "/a", "*", "-", "_", "?", "=", "%20", "%C3%A9", ".html", "a/"];
const text = most => Array.from({ length: random(most) }, () => one(PARTS)).join("");
const NAMES = ["*", "Bot", "other", "Third-Bot"];

function file() {
  const lines = [], delayed = random(8); // one group has a delay, or none
  for (let groups = 1 + random(3); groups > 0; groups--) {
    for (let names = 1 + random(2); names > 0; names--) lines.push(`User-agent: ${one(NAMES)}`);
    for (let rules = 1 + random(7); rules > 0; rules--) lines.push(`${one(["Allow", "Disallow", "Disallow", "disallow"])}: /${text(5)}${one(["", "", "", "$", "*", " # x"])}`);
    if (groups === delayed) lines.push(`Crawl-delay: ${random(20)}${one(["", ".5"])}`);
    lines.push("");
  }
  if (random(3) === 0) lines.push(`Sitemap: ${SITE}/s${random(9)}.xml`, `Host: ${one(["a.example", "B.example"])}`);
  return lines.join(one(["\n", "\r\n"]));
}

let results = 0;
for (let count = 0; count < 1000; count++) {
  const content = file(), robots = ours(`${SITE}/robots.txt`, content), other = port(`${SITE}/robots.txt`, content);
  for (let tries = 0; tries < 12; tries++) {
    const url = one([SITE, SITE, SITE, "", "http://a.example", "https://b.example"]) + "/" + text(6), agent = one(["Bot", "bot/1.0", "other/2", "x", undefined]);
    if (url.endsWith("?")) continue; // a difference in the table
    const found = [robots, other].map(it => [it.isAllowed(url, agent), it.isDisallowed(url, agent), it.getMatchingLineNumber(url, agent)]);
    results++;
    if (String(found[0]) !== String(found[1])) wrong.push([content, url, agent, ...found]);
  }
  for (const agent of ["Bot", "x"]) if (robots.getCrawlDelay(agent) !== other.getCrawlDelay(agent)) wrong.push([content, agent, robots.getCrawlDelay(agent), other.getCrawlDelay(agent)]);
  if (String(robots.getSitemaps()) !== String(other.getSitemaps()) || robots.getPreferredHost() !== other.getPreferredHost()) wrong.push([content, robots.getPreferredHost()]);
}
console.log(JSON.stringify({ rows: rows.length, results, count: wrong.length, wrong: wrong.slice(0, 8) }, null, 1));
