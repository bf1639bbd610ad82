"use strict";
// node golden.cjs FOLDER CASES: runs the command of the package in this folder once for each case in a file of JSON, in this process, and
// prints what it ends with and writes. Each run has an instance of its own. A case has arguments in base64, the path of standard input, and
// the folder in which it runs.
const fs = require("node:fs");
const os = require("node:os");
const path = require("node:path");

const [folder, cases] = process.argv.slice(2).map(it => path.resolve(it));
const { audit, compiled } = require(path.join(folder, "lib/command.cjs"));
const module_ = compiled(), place = fs.mkdtempSync(path.join(os.tmpdir(), "golden-"));

function ran({ words, input, cwd }) {
  process.chdir(cwd);
  const written = ["out", "err"].map(name => path.join(place, name));
  const files = [fs.openSync(input, "r"), ...written.map(it => fs.openSync(it, "w"))];
  let status;
  try { status = audit(words.map(it => Buffer.from(it, "base64")), { module: module_, variables: {}, files }); } catch (error) { status = error.stack; }
  for (const it of files) fs.closeSync(it);
  return [status, ...written.map(it => fs.readFileSync(it, "base64"))];
}

const results = JSON.parse(fs.readFileSync(cases, "utf8")).map(ran);
process.chdir(os.tmpdir());
fs.rmSync(place, { recursive: true });
process.stdout.write(JSON.stringify(results));
