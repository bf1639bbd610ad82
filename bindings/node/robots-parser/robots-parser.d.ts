declare namespace robotsParser {
  export interface Robot {
    isAllowed(url: string, ua?: string): boolean | undefined;
    isDisallowed(url: string, ua?: string): boolean | undefined;
    isExplicitlyDisallowed(url: string, ua: string): boolean | undefined;
    getMatchingLineNumber(url: string, ua?: string): number;
    getCrawlDelay(ua?: string): number | undefined;
    getSitemaps(): string[];
    getPreferredHost(): string | null;
  }
  export { robotsParser as default };
}

/** The last argument, which robots-parser doesn't have, chooses how the file is read. */
declare function robotsParser(url: string, robotstxt: string, options?: { reading?: "crate" | "rfc9309" | undefined }): robotsParser.Robot;
export = robotsParser;
