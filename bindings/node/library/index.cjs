"use strict";
const fs = require("node:fs");
const path = require("node:path");
const library = require("./core.cjs");

module.exports = library(new WebAssembly.Module(fs.readFileSync(path.join(__dirname, "robots.wasm"))));
