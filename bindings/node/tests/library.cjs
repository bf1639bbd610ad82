"use strict";
// node library.cjs FOLDER NAME: checks the package in this folder, one thing by its name. test_library.py runs all of them.
const assert = require("node:assert");
const path = require("node:path");

const [folder, wanted] = process.argv.slice(2);
const FILE = Buffer.from(`User-agent: *
Disallow: /search # \xff
Allow: /search/help
Crawl-delay: 2.5

User-agent: SlowBot
Disallow: /
Crawl-delay: 1e300
Sitemap: https://example.com/one.xml
Sitemap: \xef\xbb\xbfzw\xc3\xb6lf
`, "latin1");
const LONG = "User-agent: *\nDisallow: /a\nDisallow: /$" + "a".repeat(4096);

const { Instance } = WebAssembly;
const checks = new Map();
const check = (name, action) => checks.set(name, action);
const load = () => require(path.join(folder, "lib/index.cjs"));
const code = wanted => ({ name: "RobotsError", code: wanted });
const same = assert.deepStrictEqual;

check("verdicts", () => {
  const { Robot } = load(), robot = new Robot("FerrisBot", FILE);
  same(robot.verdict("https://example.com/search/tea"), { allowed: false, line: 2 });
  same(robot.verdict(new URL("https://example.com/search/help")), { allowed: true, line: 3 });
  same(robot.verdict(""), { allowed: true, line: null });
  assert.equal(robot.allowed("/search"), false);
  assert.equal(robot.allowed("/tea"), true);
  assert.equal(robot.delay, 2.5);
  assert.equal(new Robot("FerrisBot", "").delay, undefined);
  assert.ok(robot.memory > 64);
});

check("a verdict within a budget", () => {
  const { Robot } = load(), robot = new Robot("FerrisBot", FILE), enough = robot.cost("/search/tea".length);
  same(robot.verdictWithin("/search/tea", enough), { allowed: false, line: 2 });
  same(robot.verdictWithin("/search/tea", Infinity), { allowed: false, line: 2 });
  assert.throws(() => robot.verdictWithin("/search/tea", 1), code("TOO_COSTLY"));
  for (const [bad, shown] of [[-1, "-1"], [NaN, "NaN"], ["9", "string"], [undefined, "undefined"], [null, "null"], [[], "an array"]]) {
    const message = `budget has to be a number that isn't negative, and is ${shown}`;
    assert.throws(() => robot.verdictWithin("/", bad), { name: "TypeError", message });
  }
});

check("a site", () => {
  const { Site } = load(), site = new Site(FILE);
  assert.deepEqual(site.agents, ["*", "SlowBot"]);
  assert.deepEqual(site.sitemaps, ["https://example.com/one.xml", "\ufeffzw\u00f6lf"]);
  assert.ok(site.isNamed("slowbot") && !site.isNamed("x"));
  assert.equal(site.delay("SLOWBOT"), 18446744073709.552);
  assert.equal(site.delay("x"), 2.5);
  const robot = site.robot("SlowBot");
  site.free();
  same(robot.verdict("/tea"), { allowed: false, line: 7 });
  assert.throws(() => site.agents, code("FREED"));
  assert.deepEqual(new Site("Sitemap: \ufeffa").sitemaps, ["\ufeffa"]);
  const many = new Site(Array.from({ length: 9000 }, (_, at) => `Sitemap: /${at}\n`).join(""));
  assert.equal(many.sitemaps[8999], "/8999");
});

check("readings", () => {
  const { Robot, Site, RobotCache } = load(), rfc9309 = { reading: "rfc9309" };
  for (const [rules, url] of [["Disallow:\nDisallow: /", "/a"], ["Disallow: /x$y", "/x$y"], ["Disallow: /%62", "/b"]]) {
    const isAllowed = options => new Robot("FerrisBot", `User-agent: *\n${rules}`, options).allowed(url);
    for (const options of [undefined, {}, { reading: undefined }, { reading: "crate" }]) assert.equal(isAllowed(options), true);
    assert.equal(isAllowed(rfc9309), false);
  }
  const delayed = "User-agent: a\nCrawl-delay: 2\nUser-agent: *\nDisallow: /";
  for (const [options, isAllowed] of [[undefined, true], [rfc9309, false]]) {
    const site = new Site(delayed, options), cache = new RobotCache("a", options);
    assert.equal(site.robot("a").allowed("/"), isAllowed);
    assert.equal(cache.set("https://a.example/", delayed).allowed("/"), isAllowed);
    assert.deepEqual([site.delay("a"), site.agents, cache.get("https://a.example/").delay], [2, ["a", "*"], 2]);
  }
  assert.equal(new Robot("x", LONG, rfc9309).allowed("/a"), false);
  assert.throws(() => new Robot("x", `User-agent: *\nDisallow: /${"a".repeat(4096)}$`, rfc9309), { ...code("OVERLONG_RULE"), line: 2 });
  for (const reading of ["RFC9309", null, 1]) {
    for (const open of [it => new Robot("x", "", it), it => new Site("", it), it => new RobotCache("x", it)]) assert.throws(() => open({ reading }), TypeError);
  }
});

check("options are objects with known members", () => {
  const { Robot, Site, RobotCache, responseMeaning } = load(), cache = new RobotCache("x");
  const calls = [it => new Robot("x", "", it), it => new Site("", it), it => new RobotCache("x", it), it => cache.set("https://a.example/", "", it), responseMeaning];
  for (const call of calls) {
    const name = call === responseMeaning ? "response" : "options";
    for (const bad of ["rfc9309", 1, true, null, [], () => {}]) assert.throws(() => call(bad), { name: "TypeError", message: RegExp(`^${name} has to be an object`) });
    assert.throws(() => call({ reding: "rfc9309" }), { name: "TypeError", message: RegExp(`^${name} has the member reding, and can have only [a-zA-Z, ]+$`) });
    for (const good of [undefined, {}, Object.create(null)]) call(good);
  }
});

check("kinds of files", () => {
  const { Robot } = load(), bytes = new Uint8Array(FILE), shared = new Uint8Array(new SharedArrayBuffer(FILE.length));
  shared.set(bytes);
  for (const it of [bytes, bytes.buffer, new DataView(bytes.buffer), FILE, shared, shared.buffer]) {
    assert.equal(new Robot("FerrisBot", it).allowed("/search"), false);
  }
  for (const bad of [null, undefined, 5, {}, [1]]) assert.throws(() => new Robot("FerrisBot", bad), TypeError);
  const detached = new Uint8Array(9);
  structuredClone(detached.buffer, { transfer: [detached.buffer] });
  assert.throws(() => new Robot("FerrisBot", detached), TypeError);
});

check("the first bytes of a file count", () => {
  const { Robot, FILE_LIMIT } = load(), rule = "User-agent: *\nDisallow: /b";
  for (const front of ["#" + "a".repeat(FILE_LIMIT - rule.length - 2), "#" + "\u20ac".repeat((FILE_LIMIT - rule.length - 2) / 3)]) {
    for (const [more, isAllowed] of [["\n", false], ["\naa", true]]) {
      const filler = FILE_LIMIT - Buffer.byteLength(front) - 1 - rule.length, text = `${front}${" ".repeat(filler)}${more}${rule}`;
      assert.equal(new Robot("x", text).allowed("/b"), new Robot("x", Buffer.from(text)).allowed("/b"));
      assert.equal(new Robot("x", text).allowed("/b"), isAllowed);
    }
  }
  const cut = `User-agent: x\nDisallow: /${"b".repeat(9)}\n#${"a".repeat(FILE_LIMIT - 37)}\u{1f600}`;
  assert.equal(new Robot("x", cut).memory, new Robot("x", Buffer.from(cut)).memory);
});

check("a lone surrogate counts as U+FFFD", () => {
  const { Robot, robotsUrl } = load(), robot = new Robot("x", "User-agent: *\nDisallow: /\ufffd");
  assert.equal(robot.allowed("/\ud800"), false);
  assert.equal(robotsUrl("https://h/\ud800"), "https://h/robots.txt");
});

check("names of crawlers", () => {
  const { Robot, Site, productToken } = load();
  assert.equal(productToken(" FerrisBot/1.0 (+https://example.com/bot)"), "FerrisBot");
  assert.equal(productToken("(x)"), "*");
  assert.throws(() => new Robot("FerrisBot/1.0", FILE), code("NO_TOKEN"));
  for (const bad of [null, undefined, 5, Buffer.from("x")]) assert.throws(() => new Robot(bad, FILE), TypeError);
  const site = new Site("User-agent: __proto__\nDisallow: /\n");
  assert.deepEqual(site.agents, ["__proto__"]);
  assert.ok(site.isNamed("__proto__") && !site.isNamed("constructor"));
  assert.equal(site.robot("__proto__").allowed("/"), false);
});

check("a verdict is an ordinary object", () => {
  const { Robot } = load(), verdict = new Robot("x", FILE).verdict("/");
  assert.equal(require("node:util").inspect(verdict), "{ allowed: true, line: null }");
  assert.equal(`${verdict}`, "[object Object]");
});

check("a rule that is too long", () => {
  const { Robot, Site } = load();
  assert.throws(() => new Robot("FerrisBot", LONG), { ...code("OVERLONG_RULE"), line: 3 });
  const site = new Site(LONG);
  assert.throws(() => site.robot("FerrisBot"), { ...code("OVERLONG_RULE"), line: 3 });
  assert.equal(site.delay("FerrisBot"), undefined);
});

check("addresses", () => {
  const { robotsUrl } = load();
  assert.equal(robotsUrl("HTTPS://B\u00fccher.example:443/\u00e4?b#c"), "https://xn--bcher-kva.example/robots.txt");
  assert.equal(robotsUrl(new URL("http://h:8080/")), "http://h:8080/robots.txt");
  assert.equal(robotsUrl(require("node:vm").runInNewContext("({ href: 'http://h/a' })")), "http://h/robots.txt");
  const long = `http://${"a.".repeat(2000)}example/`;
  assert.equal(robotsUrl(long), `${long}robots.txt`);
  for (const bad of ["ftp://x/", "/a", "", "http://"]) assert.throws(() => robotsUrl(bad), code("NO_ROBOTS_URL"));
  for (const bad of [5, null, undefined, {}, { href: 5 }]) assert.throws(() => robotsUrl(bad), TypeError);
});

check("responses", () => {
  const { responseMeaning } = load(), meanings = { 200: "parse", 404: "allowAll", 401: "allowAll", 429: "denyAll", 503: "denyAll", 206: "denyAll" };
  for (const [status, meaning] of Object.entries(meanings)) assert.equal(responseMeaning({ status: Number(status) }), meaning);
  for (const none of [{}, undefined, { status: 0 }, { status: null }, { status: 200, isComplete: false }]) assert.equal(responseMeaning(none), "denyAll");
  assert.equal(responseMeaning({ status: 301, hasLocation: true, redirects: 4 }), "follow");
  assert.equal(responseMeaning({ status: 301, hasLocation: true, redirects: 5 }), "allowAll");
  assert.equal(responseMeaning({ status: 301 }), "denyAll");
  assert.equal(responseMeaning({ status: 2 ** 32 + 200 }), "denyAll");
  const wrong = { status: ["200", true, {}, -1], redirects: ["1", null], hasLocation: [{}, "/", 1, null], isComplete: ["no", 0, null] };
  for (const [name, values] of Object.entries(wrong)) {
    for (const bad of values) assert.throws(() => responseMeaning({ status: 200, [name]: bad }), { name: "TypeError", message: RegExp(`^${name} has to be a `) });
  }
});

check("free", () => {
  const { Robot, Site, moduleMemory } = load(), before = moduleMemory().used;
  for (const it of [new Robot("x", FILE), new Site(FILE)]) {
    assert.equal(it.isFreed, false);
    it.free();
    assert.equal(it.isFreed, true);
    assert.throws(() => it.free(), { ...code("FREED"), message: "this robot or site was freed before, by free() or by a cache" });
    assert.throws(() => it.memory, code("FREED"));
    if (it instanceof Robot) {
      for (const use of [() => it.allowed("/"), () => it.verdict("/"), () => it.verdictWithin("/", 9), () => it.cost(1), () => it.delay]) {
        assert.throws(use, code("FREED"));
      }
    } else {
      for (const use of [() => it.robot("x"), () => it.isNamed("x"), () => it.delay("x"), () => it.sitemaps]) assert.throws(use, code("FREED"));
    }
    if (Symbol.dispose) it[Symbol.dispose]();
  }
  if (Symbol.dispose) {
    const robot = new Robot("x", FILE);
    robot[Symbol.dispose]();
    assert.throws(() => robot.allowed("/"), code("FREED"));
  }
  assert.equal(moduleMemory().used, before);
});

check("what is forgotten is freed", async () => {
  const { Robot, Site, moduleMemory } = load(), before = moduleMemory().used;
  for (let at = 0; at < 500; at++) { new Robot("x", FILE); new Site(FILE); }
  for (let tries = 0; tries < 100 && moduleMemory().used > before; tries++) {
    globalThis.gc();
    await new Promise(resolve => setImmediate(resolve));
  }
  assert.equal(moduleMemory().used, before);
});

check("huge inputs", () => {
  const { Robot, Site, robotsUrl } = load(), robot = new Robot("x", FILE), huge = "/" + "a".repeat(2 ** 29 - 100);
  assert.throws(() => robot.allowed(huge), code("OUT_OF_MEMORY"));
  assert.throws(() => robotsUrl("https://h" + huge), code("OUT_OF_MEMORY"));
  assert.equal(robot.allowed("/search"), false);
  assert.equal(robot.allowed("/search" + "\u20ac".repeat(1e7)), false);
  assert.equal(new Site("a".repeat(1e7)).agents.length, 0);
});

/** Loads the package so that `changed` makes the exports of each of its instances. */
function loadWith(changed) {
  delete require.cache[require.resolve(path.join(folder, "lib/index.cjs"))];
  WebAssembly.Instance = function (module) { return { exports: changed(new Instance(module).exports) }; };
  return load();
}

check("memory that is used up", () => {
  const MOST = 64 * 2 ** 20, rules = Array.from({ length: 20000 }, (_, at) => `Disallow: /${at}`).join("\n");
  const file = Buffer.from(`User-agent: *\n${rules}`);
  for (const kind of ["Robot", "Site"]) {
    const { Robot, Site, robotsUrl, moduleMemory } = loadWith(exports => {
      exports.limit_memory(MOST);
      return exports;
    });
    const make = () => kind === "Robot" ? new Robot("x", file) : new Site(file), kept = [], small = [];
    assert.throws(() => { for (;;) kept.push(make()); }, code("OUT_OF_MEMORY"));
    assert.ok(kept.length > 5 && moduleMemory().size <= MOST + 2 ** 21, `${kept.length} ${moduleMemory().size}`);
    assert.throws(() => { for (;;) small.push(new Robot("x", "User-agent: *\nDisallow: /search")); }, code("OUT_OF_MEMORY"));
    assert.throws(make, code("OUT_OF_MEMORY"));
    assert.equal(small[0].allowed("/search"), false);
    assert.throws(() => small[0].allowed("/" + "\u20ac".repeat(5e6)), code("OUT_OF_MEMORY"));
    assert.throws(() => robotsUrl("https://" + "\u20ac".repeat(5e6)), code("OUT_OF_MEMORY"));
    for (const it of [...kept, ...small]) it.free();
    assert.equal(make().isFreed, false);
  }
});

/** Loads the package so that this call of each of its instances traps when `planted.isOn`. */
function withTraps(name) {
  const planted = { isOn: false };
  const robots = loadWith(exports => ({
    ...exports,
    [name](...words) {
      if (!planted.isOn) return exports[name](...words);
      throw new WebAssembly.RuntimeError("unreachable");
    },
  }));
  return [robots, planted];
}

check("after a trap the instance isn't used again", () => {
  for (const name of ["verdict", "site_robot", "give"]) {
    const [{ Robot, RobotCache, Site }, planted] = withTraps(name), robot = new Robot("x", FILE), site = new Site(FILE), other = new Robot("x", FILE);
    const cache = new RobotCache("x");
    cache.set("https://a.example/", FILE);
    planted.isOn = true;
    const use = { verdict: () => robot.allowed("/"), site_robot: () => site.robot("x"), give: () => robot.allowed("/".repeat(1e5)) }[name];
    assert.throws(use, error => error.code === "TRAPPED" && error.cause instanceof WebAssembly.RuntimeError);
    planted.isOn = false;
    assert.throws(() => other.allowed("/"), code("TRAPPED"));
    assert.throws(() => site.agents, code("TRAPPED"));
    assert.ok(other.isFreed && site.isFreed);
    other.free(); // of an instance that isn't used any more, so nothing is called
    assert.deepEqual([cache.get("https://a.example/"), cache.size, cache.memory], [undefined, 0, 0]);
    assert.equal(cache.set("https://a.example/", FILE).allowed("/search"), false);
    const fresh = new Robot("x", FILE);
    assert.equal(fresh.allowed("/search"), false);
  }
});

check("the cache has a budget", () => {
  const { RobotCache } = load(), cache = new RobotCache("FerrisBot", { budget: 3 * 5000 });
  const file = `User-agent: *\n${"Disallow: /aaaaaaaaaaaaaaaaaaaaaaaaaaaaaaaaaaaa\n".repeat(40)}Disallow: /x`;
  const robot = cache.set("https://a.example/1", file), size = robot.memory;
  assert.ok(size > 3000 && size < 7500, `${size}`);
  assert.equal(cache.get("https://a.example/2?b"), robot);
  assert.equal(cache.get("http://a.example/"), undefined);
  assert.equal(cache.memory, size);
  for (const host of ["b", "c", "d"]) cache.set(`https://${host}.example/`, file);
  assert.ok(cache.memory <= 15000 && cache.size === Math.floor(15000 / size));
  assert.ok(robot.isFreed && cache.get("https://a.example/") === undefined);
  cache.set("https://d.example/x", "");
  assert.equal(cache.get("https://d.example/").allowed("/x"), true);
  cache.get("https://d.example/").free();
  assert.equal(cache.get("https://d.example/"), undefined);
  assert.throws(() => cache.set("https://c.example/", LONG), code("OVERLONG_RULE"));
  assert.equal(cache.get("https://c.example/"), undefined);
  cache.clear();
  assert.deepEqual([cache.size, cache.memory], [0, 0]);
  const short = new RobotCache("FerrisBot", { budget: 0, lifetime: 0 });
  assert.equal(short.set("https://a.example/", file).allowed("/x"), false);
  assert.deepEqual([short.size, short.get("https://a.example/"), short.size], [1, undefined, 0]);
  const own = short.set("https://a.example/", file, { lifetime: 60 });
  assert.equal(short.get("https://a.example/"), own);
  assert.throws(() => short.set("https://a.example/", file, { lifetime: -1 }), TypeError);
  assert.equal(short.get("https://a.example/"), own);
});

check("10,000 files in a cache", () => {
  const { RobotCache, moduleMemory } = load(), budget = 4 * 2 ** 20, cache = new RobotCache("FerrisBot", { budget });
  let seed = 1, most = 0;
  const random = below => (seed = seed * 48271 % 2147483647) % below;
  for (let at = 0; at < 10000; at++) {
    const rules = Array.from({ length: random(120) }, () => `Disallow: /${random(1e9).toString(36).repeat(1 + random(6))}*\n`);
    cache.set(`https://site${at}.example/`, `User-agent: *\n${rules.join("")}Disallow: /x`);
    assert.equal(cache.get(`https://site${at}.example/a`).allowed("/x"), false);
    most = Math.max(most, moduleMemory().used);
  }
  assert.ok(cache.memory <= budget && most < 1.25 * budget + 2e6, `${most}`);
  assert.ok(moduleMemory().size < 4 * budget, `${moduleMemory().size}`);
});

check("1,000 hostile inputs", () => {
  const { Robot, Site, robotsUrl } = load();
  let seed = 7;
  const random = below => (seed = seed * 48271 % 2147483647) % below;
  const PIECES = ["*", "$", "/", "%", "%zz", "%00", "\0", "\ud800", "\u{10ffff}", "\ufeff", "a", "\r", "\n", "#", "?", ":", "//", "..", "User-agent:", "Disallow:", "Allow:", "Sitemap:", "\u202e", "[", "@", "xn--", "\u00df"];
  const text = () => Array.from({ length: random(40) }, () => PIECES[random(PIECES.length)].repeat(random(50) ? 1 : random(5000))).join("");
  for (let at = 0; at < 1000; at++) {
    const file = "User-agent: *\nDisallow: /" + text() + "\n" + text(), url = (at % 2 ? "https://" : "/") + text();
    try {
      const site = new Site(at % 3 ? file : Buffer.from(file, "latin1")), robot = site.robot(text().replaceAll("/", ""));
      robot.verdict(url);
      assert.ok(Array.isArray(site.sitemaps) && Array.isArray(site.agents));
      robot.verdictWithin(url, random(1000));
      robotsUrl(url);
    } catch (error) {
      assert.ok(["TOO_COSTLY", "NO_ROBOTS_URL", "OVERLONG_RULE"].includes(error.code), error);
    }
  }
  const robot = new Robot("x", `User-agent: *\n${`Disallow: /${"*a".repeat(2000)}*b\n`.repeat(100)}`);
  assert.throws(() => robot.verdictWithin("/" + "a".repeat(2000), 1e5), code("TOO_COSTLY"));
});

check("import", async () => {
  const module = await import(path.join(folder, "lib/index.mjs")), robots = load();
  assert.deepEqual(Object.keys(module).sort(), Object.keys(robots).sort());
  for (const name of Object.keys(robots)) assert.equal(module[name], robots[name]);
});

check("the entry without files", async () => {
  const { init } = await import(path.join(folder, "lib/init.mjs"));
  const bytes = require("node:fs").readFileSync(path.join(folder, "lib/robots.wasm"));
  for (const source of [bytes, new WebAssembly.Module(bytes), new Response(bytes), Promise.resolve(bytes.buffer.slice(bytes.byteOffset, bytes.byteOffset + bytes.length))]) {
    const robots = await init(source);
    assert.deepEqual(Object.keys(robots), Object.keys(load()));
    assert.equal(new robots.Robot("x", FILE).allowed("/search"), false);
  }
  await assert.rejects(init(), { message: /^file:.* can't be fetched: pass init\(\) the bytes of texting-robots\/robots\.wasm$/ });
  const empty = new Uint8Array([0, 97, 115, 109, 1, 0, 0, 0]);
  for (const source of [empty, new WebAssembly.Module(empty)]) await assert.rejects(init(source), { name: "TypeError", message: /^source has to be / });
});

check("threads have modules of their own", async () => {
  const { Worker } = require("node:worker_threads");
  const source = `const { Robot } = require(${JSON.stringify(path.join(folder, "lib/index.cjs"))});
    require("node:worker_threads").parentPort.postMessage(new Robot("x", "User-agent: *\\nDisallow: /a").allowed("/a"));`;
  const answers = [1, 2].map(() => new Promise((resolve, reject) => new Worker(source, { eval: true }).on("message", resolve).on("error", reject)));
  assert.deepEqual(await Promise.all(answers), [false, false]);
});

Promise.resolve(checks.get(wanted)()).then(() => console.log("ok"));
