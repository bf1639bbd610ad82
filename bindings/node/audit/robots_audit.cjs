#!/usr/bin/env node
"use strict";
const { audit, bytesOf } = require("../lib/command.cjs");

try {
  process.exitCode = audit(bytesOf(process.argv.slice(2)));
} catch (error) {
  process.stderr.write(`robots_audit: the program stopped: ${error.message}\n`);
  process.exitCode = 2;
}
