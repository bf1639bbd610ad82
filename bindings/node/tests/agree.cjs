"use strict";
// node agree.cjs FOLDER: compares the package in this folder with results of the native library, which test_library.py passes as lines of
// JSON. Prints how many files and results there were, and the first that differ.
const path = require("node:path");
const { Robot, Site, robotsUrl } = require(path.join(process.argv[2], "lib/index.cjs"));

/** What a call gives, or the code of its error. */
function given(action) {
  try { return action(); } catch (error) {
    if (!error.code) throw error;
    return error.code;
  }
}

const number = ({ allowed, line }) => line === null ? 0 : allowed ? line : -line;

function results({ agent, file, urls, reading }) {
  const content = Buffer.from(file, "base64"), site = new Site(content, { reading }), robot = given(() => new Robot(agent, content, { reading }));
  const texts = [site.sitemaps, site.agents, site.isNamed(agent), site.memory, site.delay(agent) ?? null];
  const ofRobot = typeof robot === "string" ? robot : [robot.memory, robot.delay ?? null, robot.cost(40)];
  const other = given(() => site.robot(agent));
  site.free();
  const verdicts = urls.map(url => typeof robot === "string" ? [robot, other] : [
    number(robot.verdict(url)), robot.allowed(url), number(other.verdict(url)),
    given(() => number(robot.verdictWithin(url, 30))), given(() => robotsUrl(url))]);
  for (const it of [robot, other]) if (typeof it !== "string") it.free();
  return [texts, ofRobot, verdicts];
}

let files = 0, count = 0;
const wrong = [];
require("node:readline").createInterface({ input: process.stdin }).on("line", line => {
  const given = JSON.parse(line), found = results(given);
  files++;
  count += found.flat(3).length;
  if (JSON.stringify(found) !== JSON.stringify(given.wanted)) wrong.push([given, found]);
}).on("close", () => console.log(JSON.stringify({ files, count, wrong: wrong.slice(0, 2) })));
