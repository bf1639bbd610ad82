"use strict";
// The calls of the C library, which is a module of WebAssembly that asks its host for nothing (bindings/node/calls.c has its functions).
// It decides everything: nothing here reads a file or compares a rule. The package has this file twice, as lib/core.cjs and lib/core.mjs.

const FILE_LIMIT = 512000, REDIRECT_LIMIT = 5, LIFETIME = 86400;
const DENY_ALL_FILE = "User-agent: *\nDisallow: *\n";
const MEANINGS = ["parse", "follow", "allowAll", "denyAll"]; // in the order of robots.h
const BUFFER_TOO_SMALL = -3, NO_DELAY = -4;
const FAILED = 2147483647, LEAST_FAILED = FAILED - 16; // a verdict from there on is a status
const LEAST_ROOM = 4096, MOST_COUNTED = 2 ** 53;

const MESSAGES = {
  OUT_OF_MEMORY: "out of memory",
  NO_ROBOTS_URL: "this is no URL of http or https with a host, so it has no robots.txt file",
  OVERLONG_RULE: "a rule is too long: the file can't be used for this crawler",
  TOO_COSTLY: "the verdict is too costly for its budget",
  NO_TOKEN: "a crawler's name is a product token without a version; productToken() makes one of a User-Agent",
  FREED: "this robot or site was freed before, by free() or by a cache",
  TRAPPED: "the module stopped, which is an error of this package",
};
const CODES = new Map([[-2, "OUT_OF_MEMORY"], [-5, "NO_ROBOTS_URL"], [-6, "OVERLONG_RULE"], [-8, "TOO_COSTLY"]]); // those of robots.h

class RobotsError extends Error {
  constructor(code, line, cause) {
    super(line === undefined ? MESSAGES[code] : `line ${line}: ${MESSAGES[code]}`, cause && { cause });
    this.name = "RobotsError";
    this.code = code;
    if (line !== undefined) this.line = line;
  }
}

const OF_READING = ["reading"], OF_CACHE = ["budget", "lifetime", "reading"], OF_RESPONSE = ["status", "redirects", "hasLocation", "isComplete"];

const encoder = new TextEncoder(), decoder = new TextDecoder("utf-8", { fatal: true, ignoreBOM: true });

function wrongType(argument, wanted, value) {
  const given = value === null || typeof value === "number" ? String(value) : Array.isArray(value) ? "an array" : typeof value;
  return new TypeError(`${argument} has to be ${wanted}, and is ${given}`);
}

/** What a caller chose: an object that has no other members than these. */
function chosen(given, argument, names) {
  if (given === undefined) return {};
  if (typeof given !== "object" || given === null || Array.isArray(given)) throw wrongType(argument, "an object", given);
  for (const name in given) {
    if (!names.includes(name)) throw new TypeError(`${argument} has the member ${name}, and can have only ${names.join(", ")}`);
  }
  return given;
}

/** A URL as a text. One of another realm has an `href`, too. */
function urlText(url) {
  if (typeof url === "string") return url;
  if (typeof url?.href === "string") return url.href;
  throw wrongType("url", "a string or a URL", url);
}

function agentText(agent) {
  if (typeof agent !== "string") throw wrongType("agent", "a string", agent);
  if (agent.includes("/")) throw new RobotsError("NO_TOKEN");
  return agent;
}

/** A file's text or bytes, of which the first FILE_LIMIT bytes count. */
function fileContent(file) {
  if (typeof file === "string") return file.length > FILE_LIMIT ? file.slice(0, FILE_LIMIT + 1) : file;
  if (ArrayBuffer.isView(file)) return new Uint8Array(file.buffer, file.byteOffset, Math.min(file.byteLength, FILE_LIMIT));
  const isBuffer = file instanceof ArrayBuffer || typeof SharedArrayBuffer !== "undefined" && file instanceof SharedArrayBuffer;
  if (!isBuffer) throw wrongType("file", "bytes or a string", file);
  return new Uint8Array(file, 0, Math.min(file.byteLength, FILE_LIMIT));
}

/** Whether a file is read as RFC 9309 reads it: 1 or 0. */
function isRfc9309(options) {
  const { reading = "crate" } = chosen(options, "options", OF_READING);
  if (reading !== "crate" && reading !== "rfc9309") throw new TypeError(`reading has to be "crate" or "rfc9309", and is ${String(reading)}`);
  return reading === "rfc9309" ? 1 : 0;
}

/** A whole number from 0 to a limit. */
function counted(value, argument, most) {
  if (typeof value !== "number" || !(value >= 0)) throw wrongType(argument, "a number that isn't negative", value);
  return Math.min(Math.floor(value), most);
}

/** Whether something is so: 1 or 0. */
function flag(value, argument) {
  if (typeof value !== "boolean") throw wrongType(argument, "a boolean", value);
  return value ? 1 : 0;
}

/** The name at the front of a User-Agent, after any spaces and up to a space or one of /(),;: or else `*`. */
function productToken(userAgent) {
  if (typeof userAgent !== "string") throw wrongType("userAgent", "a string", userAgent);
  return /^\s*([^\s/(),;:]+)/u.exec(userAgent)?.[1] ?? "*";
}

/** The verdict that a number is: a line, which is negative if it denies, or 0 if none decides. */
const verdictOf = number => ({ allowed: number >= 0, line: Math.abs(number) || null });

// The calls of an instance that has stopped.
const STOPPED = new Proxy({}, { get() { throw new RobotsError("TRAPPED"); } });

/** An instance of the module, with a text that is passed to it. If it traps, it isn't used again, since it may have stopped half-way. */
class Instance {
  constructor(module) {
    this.calls = new WebAssembly.Instance(module).exports;
    this.memory = this.calls.memory;
    this.at = this.room = 0; // of the text
    this.bytes = this.view = new Uint8Array(); // of the memory and of the text, until the memory grows
    this.reserve(LEAST_ROOM);
  }

  get hasStopped() { return this.calls === STOPPED; }

  /** The error for what a call threw. */
  stopped(error) {
    if (error instanceof RobotsError) return error;
    this.calls = STOPPED;
    return new RobotsError("TRAPPED", undefined, error);
  }

  /** What any call returns; those for verdicts are called without this, which takes longer. */
  call(name, ...words) {
    try { return this.calls[name](...words); } catch (error) { throw this.stopped(error); }
  }

  /** What a call returns that has a status as a negative number. */
  number(name, ...words) {
    const result = this.call(name, ...words);
    if (result < 0) throw this.error(result);
    return result;
  }

  /** The error of a status. */
  error(status) {
    const code = CODES.get(status);
    return code ? new RobotsError(code, code === "OVERLONG_RULE" ? this.call("line") : undefined) : new Error(`status ${status}`);
  }

  look() {
    this.bytes = new Uint8Array(this.memory.buffer);
    this.view = this.bytes.subarray(this.at, this.at + this.room);
  }

  /** Makes room for a text; what was there is lost, if there is memory. */
  reserve(length) {
    if (length > this.room) {
      const room = Math.max(length, LEAST_ROOM), at = this.call("take", room) >>> 0, before = this.at;
      if (!at) throw new RobotsError("OUT_OF_MEMORY");
      [this.at, this.room] = [at, room];
      this.call("give", before);
    }
    this.look();
  }

  /** Passes a text, and returns its length in bytes. A lone surrogate becomes U+FFFD. */
  put(text) {
    if (3 * text.length > this.room) this.reserve(3 * text.length);
    if (this.view.length === 0) this.look();
    return encoder.encodeInto(text, this.view).written;
  }

  /** Passes a file, and behind it another text, for which there is room. Returns both lengths. */
  putFile(content, text = "") {
    const isText = typeof content === "string";
    this.reserve((isText ? 3 : 1) * content.length + 3 * text.length);
    if (!isText) this.view.set(content);
    const length = isText ? Math.min(encoder.encodeInto(content, this.view).written, FILE_LIMIT) : content.length;
    return [length, encoder.encodeInto(text, this.view.subarray(length)).written];
  }

  /** What a call writes into a buffer, of which it is given the address and the length, behind a text of this length. */
  written(call, text = "") {
    for (let room = 1024; ;) {
      this.reserve(3 * text.length + room);
      const length = this.put(text), result = call(length, this.at + length, room);
      if (result !== BUFFER_TOO_SMALL) {
        if (result < 0) throw this.error(result);
        this.look();
        return decoder.decode(this.view.slice(length, length + result));
      }
      room = this.call("needed");
    }
  }
}

// The collector knows nothing of the memory behind a handle, so free() comes first, and this is for what was forgotten.
const forgotten = new FinalizationRegistry(({ instance, close, at }) => {
  try { if (!instance.hasStopped) instance.call(close, at); } catch { /* the next call of the instance says so */ }
});

/** What a call opened, until it is freed. */
class Handle {
  constructor(instance, at, close) { Object.assign(this, { instance, at, close }); }

  /** A module that has stopped took it along. */
  get isFreed() { return this.at === 0 || this.instance.hasStopped; }

  /** The address, which is 0 once it is freed. */
  get open() {
    if (this.at === 0) throw new RobotsError("FREED");
    return this.at;
  }

  free() {
    const { open } = this;
    forgotten.unregister(this);
    this.at = 0;
    if (!this.instance.hasStopped) this.instance.call(this.close, open);
  }

  /** Frees it when nobody has this object any more. */
  belongsTo(owner) {
    // the registry keeps what it passes, which therefore doesn't refer to the owner
    forgotten.register(owner, { instance: this.instance, close: this.close, at: this.at }, this);
    return this;
  }
}

/** The classes and functions over this module. */
function library(module) {
  let current;
  const instance = () => !current || current.hasStopped ? current = new Instance(module) : current;
  const OPENED = Symbol("opened");

  class Robot {
    #instance; #handle; #at;

    constructor(agent, file, options) {
      let it = agent === OPENED ? file : undefined;
      if (!it) {
        const own = instance(), by = isRfc9309(options), name = agentText(agent), [length, size] = own.putFile(fileContent(file), name);
        it = { own, at: own.number("open", own.at + length, size, own.at, length, by) };
      }
      this.#instance = it.own;
      this.#at = it.at;
      this.#handle = new Handle(it.own, it.at, "close").belongsTo(this);
    }

    #verdict(url) {
      const own = this.#instance, length = own.put(typeof url === "string" ? url : urlText(url));
      if (this.#at === 0) throw new RobotsError("FREED");
      let result;
      try { result = own.calls.verdict(this.#at, own.at, length); } catch (error) { throw own.stopped(error); }
      if (result >= LEAST_FAILED) throw own.error(result - FAILED);
      return result;
    }

    allowed(url) { return this.#verdict(url) >= 0; }

    verdict(url) { return verdictOf(this.#verdict(url)); }

    verdictWithin(url, budget) {
      const own = this.#instance, most = counted(budget, "budget", MOST_COUNTED), length = own.put(urlText(url));
      const result = own.call("verdict_within", this.#handle.open, own.at, length, most);
      if (result >= LEAST_FAILED) throw own.error(result - FAILED);
      return verdictOf(result);
    }

    cost(length) { return this.#instance.number("cost", this.#handle.open, counted(length, "length", MOST_COUNTED)); }

    get delay() { return seconds(this.#instance, this.#instance.call("delay", this.#handle.open)); }

    get memory() { return this.#instance.number("memory_of", this.#handle.open); }

    get isFreed() { return this.#handle.isFreed; }

    free() {
      this.#handle.free();
      this.#at = 0;
    }
  }

  function seconds(own, microseconds) {
    if (microseconds === NO_DELAY) return undefined;
    if (microseconds < 0) throw own.error(microseconds);
    return microseconds / 1e6;
  }

  class Site {
    #instance; #handle;

    constructor(file, options) {
      const own = instance(), by = isRfc9309(options), [length] = own.putFile(fileContent(file));
      this.#instance = own;
      this.#handle = new Handle(own, own.number("site_open", own.at, length, by), "site_close").belongsTo(this);
    }

    /** Calls a function about the site and a crawler. */
    #of(call, agent) {
      const own = this.#instance, length = own.put(agentText(agent));
      return own.call(call, this.#handle.open, own.at, length);
    }

    #texts(areAgents) {
      const own = this.#instance, { open } = this.#handle;
      const text = own.written((length, out, room) => own.call("site_texts", open, areAgents, out, room));
      return text.split("\n").slice(0, -1);
    }

    robot(agent) {
      const own = this.#instance, at = this.#of("site_robot", agent);
      if (at < 0) throw own.error(at);
      return new Robot(OPENED, { own, at });
    }

    isNamed(agent) { return this.#of("site_is_named", agent) === 1; }

    delay(agent) { return seconds(this.#instance, this.#of("site_delay", agent)); }

    get sitemaps() { return this.#texts(0); }

    get agents() { return this.#texts(1); }

    get memory() { return this.#instance.number("site_memory", this.#handle.open); }

    get isFreed() { return this.#handle.isFreed; }

    free() { this.#handle.free(); }
  }

  /** The robots of many sites for one crawler, by the address of the site's file. The one that was used last is the last one. */
  class RobotCache {
    #agent; #reading; #budget; #lifetime; #kept = new Map(); #memory = 0;

    constructor(agent, options) {
      const { budget = 64 * 2 ** 20, lifetime = LIFETIME, reading } = chosen(options, "options", OF_CACHE);
      this.#agent = agentText(agent);
      isRfc9309(this.#reading = { reading });
      this.#budget = counted(budget, "budget", MOST_COUNTED);
      this.#lifetime = counted(lifetime, "lifetime", MOST_COUNTED);
    }

    get(url) {
      const address = robotsUrl(url), found = this.#kept.get(address);
      if (!found) return undefined;
      if (found.until <= Date.now() || found.robot.isFreed) return void this.#drop(address, found);
      this.#kept.delete(address);
      this.#kept.set(address, found);
      return found.robot;
    }

    set(url, file, options) {
      const { lifetime = this.#lifetime } = chosen(options, "options", ["lifetime"]);
      const address = robotsUrl(url), until = Date.now() + 1000 * counted(lifetime, "lifetime", MOST_COUNTED);
      this.delete(url);
      const robot = new Robot(this.#agent, file, this.#reading), { memory } = robot;
      this.#kept.set(address, { robot, memory, until });
      this.#memory += memory;
      for (const [other, found] of this.#kept) {
        if (this.#memory <= this.#budget || other === address) break;
        this.#drop(other, found);
      }
      return robot;
    }

    delete(url) {
      const address = robotsUrl(url), found = this.#kept.get(address);
      if (found) this.#drop(address, found);
    }

    clear() { for (const [address, found] of this.#kept) this.#drop(address, found); }

    #drop(address, { robot, memory }) {
      this.#kept.delete(address);
      this.#memory -= memory;
      if (!robot.isFreed) robot.free();
    }

    get size() { return this.#kept.size; }

    get memory() { return this.#memory; }
  }

  if (Symbol.dispose) {
    for (const it of [Robot, Site]) {
      const value = function () { if (!this.isFreed) this.free(); };
      Object.defineProperty(it.prototype, Symbol.dispose, { value, configurable: true, writable: true });
    }
  }

  function robotsUrl(url) {
    const own = instance();
    return own.written((length, out, room) => own.call("robots_url", own.at, length, out, room), urlText(url));
  }

  function responseMeaning(response) {
    const { status, redirects = 0, hasLocation = false, isComplete = true } = chosen(response, "response", OF_RESPONSE), most = 2 ** 32 - 1;
    const given = [counted(status ?? 0, "status", most), counted(redirects, "redirects", most)];
    return MEANINGS[instance().call("meaning", ...given, flag(hasLocation, "hasLocation"), flag(isComplete, "isComplete"))];
  }

  /** Bytes of the module's memory, and of the blocks in it that are in use. */
  function moduleMemory() {
    const own = instance();
    return { size: own.memory.buffer.byteLength, used: own.call("held") };
  }

  const functions = { productToken, robotsUrl, responseMeaning, moduleMemory };
  return { Robot, Site, RobotCache, RobotsError, ...functions, DENY_ALL_FILE, FILE_LIMIT, REDIRECT_LIMIT, LIFETIME };
}

module.exports = library;
