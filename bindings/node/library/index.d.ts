/** A `URL`, which only some libraries of TypeScript declare. */
export interface UrlObject {
  readonly href: string;
}

/** Whether a crawler may fetch a URL, and the line of the file that decides, counted from 1, or null if none does. */
export interface Verdict {
  readonly allowed: boolean;
  readonly line: number | null;
}

export type RobotsErrorCode =
  | "OUT_OF_MEMORY" | "NO_ROBOTS_URL" | "OVERLONG_RULE" | "TOO_COSTLY" | "NO_TOKEN" | "FREED" | "TRAPPED";

/** What a call throws that can't give its result. It never means that a URL may be fetched. */
export declare class RobotsError extends Error {
  private constructor();
  readonly code: RobotsErrorCode;
  /** With OVERLONG_RULE: the first line with such a rule. */
  readonly line?: number;
}

/** The body of a response: its bytes, or a text. Only the first FILE_LIMIT bytes count. */
export type RobotsFile = ArrayBuffer | SharedArrayBuffer | ArrayBufferView | string;

/**
 * How a file is read: as the Rust crate texting_robots reads it, by default, or with the verdicts of RFC 9309. Then URLs are compared as they
 * are written: pass what `new URL()` makes of them. Delays, sitemaps and names are the same. Other members are a TypeError.
 */
export interface RobotsOptions {
  reading?: "crate" | "rfc9309" | undefined;
}

/** A file as one crawler reads it. */
export declare class Robot {
  /**
   * `agent` is a product token without a version, such as "FerrisBot", which productToken() makes. But for capital letters it is compared as it
   * is: with a space too many, it gets the rules of `*`. Throws OVERLONG_RULE, NO_TOKEN (for a name with `/`) and OUT_OF_MEMORY.
   */
  constructor(agent: string, file: RobotsFile, options?: RobotsOptions);
  /** Whether the crawler may fetch an absolute URL or a path. */
  allowed(url: string | UrlObject): boolean;
  /** The same with the line that decides. */
  verdict(url: string | UrlObject): Verdict;
  /** The same for a file that may be hostile: throws TOO_COSTLY before it compares more than this number of bytes. */
  verdictWithin(url: string | UrlObject, budget: number): Verdict;
  /** A budget that suffices for each URL whose path, query and fragment, escaped, have this length. */
  cost(length: number): number;
  /** Seconds between two requests, if the file asks for that. A file may ask for 584,542 years: limit it. */
  readonly delay: number | undefined;
  /** Bytes that it takes of the module's memory. */
  readonly memory: number;
  /** Whether free() was called, or the module stopped. */
  readonly isFreed: boolean;
  /** Gives the memory back. Throws FREED the second time, as each later call does. */
  free(): void;
}

/** A file that is read once for many crawlers. */
export declare class Site {
  constructor(file: RobotsFile, options?: RobotsOptions);
  /** The file as this crawler reads it. The robot stays open when the site is freed. */
  robot(agent: string): Robot;
  /** Whether a user-agent line names the crawler. Those that none names share the rules of `*`. */
  isNamed(agent: string): boolean;
  /** The delay of a crawler, in seconds. */
  delay(agent: string): number | undefined;
  /** The sitemaps, in the file's order. */
  readonly sitemaps: string[];
  /** The names in the user-agent lines, in the file's order. */
  readonly agents: string[];
  readonly memory: number;
  readonly isFreed: boolean;
  free(): void;
}

/** The robots of many sites for one crawler. Those that were used least recently are freed when all take more than the budget. */
export declare class RobotCache {
  /** `budget` is in bytes, 64 MiB by default; `lifetime` in seconds, a day by default. */
  constructor(agent: string, options?: RobotsOptions & { budget?: number | undefined; lifetime?: number | undefined });
  /** The robot of the site of this URL, if its file is known. It may be freed by the next call of set(), so don't keep it. */
  get(url: string | UrlObject): Robot | undefined;
  /**
   * Reads the file of the site of this URL, and keeps it for the lifetime of the cache or another one, in seconds. It is kept even if it takes
   * more than the budget alone. What the constructor of Robot throws, this throws, and then forgets the site.
   */
  set(url: string | UrlObject, file: RobotsFile, options?: { lifetime?: number | undefined }): Robot;
  delete(url: string | UrlObject): void;
  clear(): void;
  /** How many sites are kept, and how many bytes their robots take. A file whose lifetime is over counts until get() or set() is called for it. */
  readonly size: number;
  readonly memory: number;
}

/** The name at the front of a User-Agent, such as "FerrisBot" of "FerrisBot/1.0 (+https://example.com/bot)", or "*". */
export declare function productToken(userAgent: string): string;

/** The address of the robots.txt file for a URL. Throws NO_ROBOTS_URL for what isn't a URL of http or https with a host. */
export declare function robotsUrl(url: string | UrlObject): string;

/** What a response to the request for a file means, by RFC 9309, 2.3.1. */
export interface RobotsResponse {
  /** The final status, and 0, null or undefined if there was no answer. */
  status?: number | null | undefined;
  /** How many redirects in a row led to this request. */
  redirects?: number | undefined;
  /** Whether it has a `Location` that can be asked. */
  hasLocation?: boolean | undefined;
  /** Whether its body came to the end or had FILE_LIMIT bytes; true by default. */
  isComplete?: boolean | undefined;
}

/**
 * "parse": the body is the site's file. "follow": the file is at the address in `Location`. "allowAll": there is none, which is as the
 * empty file. "denyAll": it can't be reached, so keep an earlier one if you have it (a RobotCache forgets it after its lifetime), or else take
 * DENY_ALL_FILE, and ask again soon.
 */
export declare function responseMeaning(response?: RobotsResponse): "parse" | "follow" | "allowAll" | "denyAll";

/** Bytes of the module's memory, and of its blocks that are in use. */
export declare function moduleMemory(): { size: number; used: number };

/** A file that denies everything but /robots.txt to each crawler. */
export declare const DENY_ALL_FILE: string;
/** Bytes of a file that count: no more need be fetched. */
export declare const FILE_LIMIT: 512000;
/** Redirects in a row that are followed, to any host. */
export declare const REDIRECT_LIMIT: 5;
/** Seconds for which a file is used, unless the next can't be reached. */
export declare const LIFETIME: 86400;
