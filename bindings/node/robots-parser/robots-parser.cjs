"use strict";
// The calls of npm `robots-parser` 3, for programs that use it. The verdicts are those of this library.
const { Robot, Site, DENY_ALL_FILE } = require("./index.cjs");

const NOWHERE = "http://relative.invalid"; // a text that isn't a URL counts as a path of the site

/** The name of a crawler without its version, or `*`. */
const token = agent => String(agent || "*").split("/", 1)[0].trim();

/** A URL without its fragment, which isn't compared with rules. */
const withoutFragment = url => String(url).split("#", 1)[0];

/** Scheme, host and port of a URL, or null. */
function originOf(url) {
  try { return new URL(url, NOWHERE).origin; } catch { return null; }
}

/** The robot of a crawler; if the file has a rule for it that is too long, one that denies all, with the line of that rule. */
function robotOf(site, name) {
  try { return { robot: site.robot(name) }; } catch (error) {
    if (error.code !== "OVERLONG_RULE") throw error;
    return { robot: new Robot("*", DENY_ALL_FILE), line: error.line };
  }
}

class Robots {
  #site; #origin; #text; #robots = new Map(); #lastAgent; #last;

  constructor(url, contents, options) {
    this.#text = typeof contents === "string" ? contents : "";
    this.#site = new Site(contents ?? "", options);
    this.#origin = originOf(url);
  }

  #isOwn(url) {
    const own = this.#origin, isFront = own !== null && typeof url === "string" && url.startsWith(own);
    return isFront && url[own.length] === "/" || originOf(url) === own;
  }

  /** The robot for a URL of the site. Crawlers that the file doesn't name share one. */
  #own(url, agent) {
    if (!this.#isOwn(url)) return undefined;
    if (this.#last && agent === this.#lastAgent) return this.#last;
    const name = token(agent), key = this.#site.isNamed(name) ? name : "*";
    const found = this.#robots.get(key) ?? robotOf(this.#site, key);
    this.#robots.set(key, found);
    [this.#lastAgent, this.#last] = [agent, found];
    return found;
  }

  isAllowed(url, agent) { return this.#own(url, agent)?.robot.allowed(withoutFragment(url)); }

  isDisallowed(url, agent) { return !this.isAllowed(url, agent); }

  isExplicitlyDisallowed(url, agent) {
    const isAllowed = this.isAllowed(url, agent);
    return isAllowed === undefined ? undefined : !isAllowed && this.#site.isNamed(token(agent));
  }

  getMatchingLineNumber(url, agent) {
    const own = this.#own(url, agent);
    return own?.line ?? own?.robot.verdict(withoutFragment(url)).line ?? -1;
  }

  getCrawlDelay(agent) { return this.#site.delay(token(agent)); }

  getSitemaps() { return this.#site.sitemaps.filter(it => it); }

  getPreferredHost() {
    const lines = this.#text.matchAll(/^[ \t]*host[ \t]*:([^#\r\n]*)/gim), hosts = Array.from(lines, it => it[1].trim());
    return hosts.filter(it => it).pop()?.toLowerCase() ?? null;
  }
}

module.exports = (url, contents, options) => new Robots(url, contents, options);
module.exports.default = module.exports;
