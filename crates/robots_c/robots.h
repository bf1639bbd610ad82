/* robots.h: what a robots.txt file means for a crawler: the URLs that it may fetch, its delay, and the sitemaps.
 *
 *     robots_robot *robot = NULL;
 *     int64_t verdict;
 *     int32_t status = robots_open(ROBOTS_STRING("MyBot"), file, file_len, &robot, NULL);
 *     if (status != ROBOTS_OK)
 *         fprintf(stderr, "robots.txt: %s\n", robots_status_text(status));
 *     else if (robots_verdict(robot, ROBOTS_STRING("https://example.com/a"), &verdict) == ROBOTS_OK && robots_may_fetch(verdict))
 *         fetch("https://example.com/a");
 *     robots_close(robot);
 *
 * A site is a file that is read once for all crawlers. Here two crawlers and two URLs give four verdicts:
 *
 *     robots_site *site = NULL;
 *     int64_t verdicts[2][2];
 *     if (robots_site_open(file, file_len, &site) == ROBOTS_OK &&
 *         robots_site_matrix(site, ROBOTS_STRING("MyBot\nOtherBot"), ROBOTS_STRING("/a\n/b"), verdicts[0], 4) == ROBOTS_OK &&
 *         robots_may_fetch(verdicts[1][0]))
 *         fetch_for("OtherBot", "/a");
 *     robots_site_close(site);
 *
 * TEXTS. Each text is a pointer and a length in bytes; no NUL is needed at the end, and one inside is a byte like any other. NULL with
 * length 0 is the empty text. `agent` is the crawler's product token without a version ("MyBot", not "MyBot/1.0"), in UTF-8; ASCII
 * letters match in any case. `file` is the body of the response, any bytes; only the first ROBOTS_FILE_LIMIT count. A URL is UTF-8:
 * an absolute URL (https://example.com/a?b) or a path (/a?b). Any other text, as example.com/a, isn't an error: it is escaped and
 * compared with the rules, usually matches none, and then may be fetched; in RFC 9309's reading it is a path without its first slash.
 * Check URLs before you ask about them.
 *
 * STATUS. Each call that returns int32_t returns 0 (ROBOTS_OK) or a negative status; robots_site_is_named returns 1 too. Where the status
 * isn't 0, nothing is written, except where the call's comment says so, and nothing stays allocated. A text that isn't UTF-8 is found
 * first, then a buffer that is too small for the verdicts of URLs; neither needs memory (in robots_verdicts_batch, ends that are invalid
 * are found first and need none). ROBOTS_OUT_OF_MEMORY can replace any other status than these, and never comes from a call that is
 * documented not to allocate.
 *
 * OUTPUTS. A variable or a buffer that a call writes may be uninitialized; what is in it is never read. `line` may be NULL.
 *
 * VERDICT. The verdict for a URL is a number: 0 if the crawler may fetch it and no line decides, n if line n of the file allows it, and -n
 * if line n denies it. Lines count from 1. Don't write `if (verdict)`: use robots_may_fetch(verdict) and robots_verdict_line(verdict).
 *
 * MEMORY comes from malloc, realloc and free. A call frees what it allocates, except for a robot or a site that it opens. Another
 * allocator: define rattle_alloc, rattle_realloc and rattle_dealloc in your program, before the archive (docs/GUIDE.md).
 *
 * THREADS. A pointer to a robot or a site is a handle, and `const` means what it means in C++: any number of calls with a const handle may
 * run at the same time, in any threads, also on one handle, without a lock and without copies: such calls only read what is open. After a
 * fork they may in the child, too, if malloc may be called there, as that of the GNU C library. robots_close and robots_site_close run
 * alone: after all other calls with the handle, as after the threads that made them were joined. The library has no global state. No call
 * may run in a signal handler.
 *
 * PRECONDITIONS, which nothing checks: each pointer is valid for its length; the buffers that a call writes overlap none of its other
 * arguments; nobody writes to the texts during a call; a robot is one that robots_open or robots_site_robot opened, and a site one that
 * robots_site_open or robots_site_open_rfc9309 opened; each is closed once, in any order. Robots and sites don't need each other, nor the
 * texts that they were opened with. No call keeps a pointer to a text.
 *
 * PROOF. crates/robots_c/src has a contract for each function that bindings/c/robots.c makes these calls of, from the file's bytes to
 * every number written; of robots_memory and robots_site_memory it has only a lower bound, and tests compare them with malloc. For which
 * URLs robots_verdict doesn't allocate is tested. What robots.c adds isn't in the contracts, and is tested: NULL and uninitialized outputs
 * are allowed, since it replaces NULL by an address, and single outputs by variables of its own; and it says which of its results it wants
 * of a function that serves several calls. Of threads it is proved that robots and sites can be shared between them (Send and Sync), and
 * that several calls with one handle can have what each requires (robots_lent_to_two_calls); as the logic is one of sequential programs,
 * that calls which overlap don't disturb each other is tested, by ThreadSanitizer, helgrind and DRD. docs/PROOFS.md states what is proved
 * and what is tested. The compiled library is for Linux on x86-64-v2 processors (SSE4.2, POPCNT), and on arm64. */
#ifndef ROBOTS_H
#define ROBOTS_H
#include <stdbool.h>
#include <stddef.h>
#include <stdint.h>
#include <string.h>

#define ROBOTS_VERSION_MAJOR 1
#define ROBOTS_VERSION_MINOR 0
#define ROBOTS_VERSION_PATCH 0
#define ROBOTS_VERSION (10000 * ROBOTS_VERSION_MAJOR + 100 * ROBOTS_VERSION_MINOR + ROBOTS_VERSION_PATCH)
#define ROBOTS_VERSION_TEXT "1.0.0"

#define ROBOTS_FILE_LIMIT 512000 /* bytes of a file that count: no more need be fetched */

#if defined(__GNUC__) || defined(__clang__)
#define ROBOTS_CHECK __attribute__((warn_unused_result))
#define ROBOTS_NONNULL(...) __attribute__((nonnull(__VA_ARGS__))) /* these parameters, counted from 1, aren't NULL */
#else
#define ROBOTS_CHECK
#define ROBOTS_NONNULL(...)
#endif

#ifdef __cplusplus
extern "C" {
#endif

enum robots_status {
    ROBOTS_OK = 0,
    ROBOTS_NOT_UTF8 = -1,         /* the agent or a URL isn't UTF-8 */
    ROBOTS_OUT_OF_MEMORY = -2,    /* an allocation failed, or a URL, escaped, has 4 GiB or more; the call may be repeated */
    ROBOTS_BUFFER_TOO_SMALL = -3, /* the verdicts don't fit into the buffer */
    ROBOTS_NO_DELAY = -4,         /* the file has no delay for this crawler */
    ROBOTS_NO_ROBOTS_URL = -5,    /* the text isn't a URL of http or https with a host */
    ROBOTS_OVERLONG_RULE = -6,    /* a rule for this crawler contains '$' (in RFC 9309's reading, ends with it) and has more than 4,096
                                   * bytes when escaped, each run of stars counted as one: the file can't be used for this crawler. What
                                   * to do then is its policy. */
    ROBOTS_INVALID_ENDS = -7,     /* the places where URLs end decrease, or one is after the end of the text */
    ROBOTS_TOO_COSTLY = -8        /* the call gave up, since the verdict might have cost more than its budget */
};

/* What a crawler does after a response to its request for a robots.txt file (RFC 9309, 2.3.1): see robots_response_meaning. */
enum robots_meaning {
    ROBOTS_PARSE = 0,     /* parse the body, which is the site's file */
    ROBOTS_FOLLOW = 1,    /* ask at the address in `Location`; what comes from there counts for the site that was asked first */
    ROBOTS_ALLOW_ALL = 2, /* there is no file: everything may be fetched, as by the file of length 0 */
    ROBOTS_DENY_ALL = 3   /* the file can't be reached: keep an earlier one, or fetch nothing, as by ROBOTS_DENY_ALL_FILE */
};

/* A file that denies everything but /robots.txt to every crawler. */
#define ROBOTS_DENY_ALL_FILE "User-agent: *\nDisallow: *\n"

#define ROBOTS_REDIRECT_LIMIT 5 /* redirects in a row that are followed, to any host */
#define ROBOTS_LIFETIME 86400   /* seconds for which a file is used, unless the next can't be reached (RFC 9309, 2.4) */

/* A file as one crawler reads it: its rules and delay. */
typedef struct robots_robot robots_robot;

/* A file that is read once for all crawlers. */
typedef struct robots_site robots_site;

/* In the matrix of robots_site_matrix: a rule for this crawler is too long. No verdict is this number. */
#define ROBOTS_NO_VERDICT INT64_MIN

/* A C string as a pointer and a length. The string is evaluated twice. */
#define ROBOTS_STRING(string) (string), strlen(string)

/* ROBOTS_VERSION of the library that is linked. */
uint32_t robots_version(void);

/* Reads a file for a crawler, and writes a new robot to *robot, which robots_close frees. If the status is ROBOTS_OVERLONG_RULE, and only
 * then, *line is written, unless `line` is NULL: the number of the first line with such a rule. */
ROBOTS_CHECK int32_t robots_open(const char *agent, size_t agent_len, const void *file, size_t file_len, robots_robot **robot,
                                 size_t *line) ROBOTS_NONNULL(5);

/* Writes the verdict for one URL. It doesn't allocate for the empty text, a path in which nothing has to be escaped, and most URLs. */
ROBOTS_CHECK int32_t robots_verdict(const robots_robot *robot, const char *url, size_t url_len, int64_t *verdict) ROBOTS_NONNULL(1, 4);

/* robots_verdict for a robot whose file may be hostile. Each rule that is tried costs one, and each comparison of a byte of the URL one,
 * and no more is spent than the budget. Before a rule that might cost more than is left, it gives up: the status is ROBOTS_TOO_COSTLY,
 * and there is no verdict. Otherwise the verdict is that of robots_verdict. Parsing the URL isn't counted, nor is one reading of it for
 * its pairs of adjacent bytes: a rule with a pair after a '*' that isn't among them is usually passed over, and then costs one. It
 * allocates. */
ROBOTS_CHECK int32_t robots_verdict_within(const robots_robot *robot, const char *url, size_t url_len, uint64_t budget,
                                           int64_t *verdict) ROBOTS_NONNULL(1, 5);

/* With so much as a budget, robots_verdict_within doesn't give up for any URL whose path, query and fragment, escaped, have this length. A
 * rule costs one; unless it has more bytes before its first '*' or '$' than this length, it also costs one for each of these bytes, or, if
 * a '*' follows them, two for each byte of the length. The sum is at most UINT64_MAX. It doesn't allocate. */
uint64_t robots_cost(const robots_robot *robot, size_t length) ROBOTS_NONNULL(1);

/* How many bytes of memory the robot takes: what robots_open or robots_site_robot allocated and didn't free. It doesn't allocate. A rule
 * takes 64 and its length, 8 more if there are 48 rules or more, and for each text after a '*', unless '$' follows it, 12 and 4 for each
 * byte but the first. */
size_t robots_memory(const robots_robot *robot) ROBOTS_NONNULL(1);

/* Writes the verdicts for many URLs, in their order. `urls` has one '\n' between one URL and the next, so n of them are n + 1 URLs, and the
 * empty text is one empty URL; for a URL that contains '\n' use robots_verdict. If there are more URLs than `verdicts_len`, the status is
 * ROBOTS_BUFFER_TOO_SMALL. What is in `verdicts` after the last verdict isn't touched. */
ROBOTS_CHECK int32_t robots_verdicts(const robots_robot *robot, const char *urls, size_t urls_len, int64_t *verdicts,
                                     size_t verdicts_len) ROBOTS_NONNULL(1);

/* robots_verdicts for URLs that follow one another in a text, without '\n': URL i is the bytes of `urls` from ends[i - 1], or from 0
 * for i = 0, up to but not including ends[i], so an array `large_string` of Arrow that isn't sliced needs no copy: pass its offsets without
 * the first one. A URL may contain '\n', too, and n may be 0. Bytes after the last end belong to no URL. `verdicts` has room for n numbers.
 * If the ends decrease, or one is more than `urls_len`, the status is ROBOTS_INVALID_ENDS. */
ROBOTS_CHECK int32_t robots_verdicts_batch(const robots_robot *robot, const void *urls, size_t urls_len, const size_t *ends, size_t n,
                                           int64_t *verdicts) ROBOTS_NONNULL(1);

/* Writes how many microseconds the crawler waits between two requests. A file may ask for UINT64_MAX: limit the number before you add
 * it to a time. It doesn't allocate: the status is ROBOTS_OK or ROBOTS_NO_DELAY. */
ROBOTS_CHECK int32_t robots_delay(const robots_robot *robot, uint64_t *microseconds) ROBOTS_NONNULL(1, 2);

/* Frees a robot, or does nothing if `robot` is NULL. */
void robots_close(robots_robot *robot);

/* robots_open, robots_verdicts and robots_close in one call. */
ROBOTS_CHECK int32_t robots_verdicts_of_file(const char *agent, size_t agent_len, const void *file, size_t file_len, const char *urls,
                                             size_t urls_len, int64_t *verdicts, size_t verdicts_len, size_t *line);

/* Reads a file for all crawlers, and writes a new site to *site, which robots_site_close frees. The status is ROBOTS_OK or
 * ROBOTS_OUT_OF_MEMORY: a rule that is too long is an error only for the crawlers that it applies to. */
ROBOTS_CHECK int32_t robots_site_open(const void *file, size_t file_len, robots_site **site) ROBOTS_NONNULL(3);

/* robots_site_open with the verdicts of RFC 9309, also on files that the library reads otherwise by default: a Crawl-delay ends no list
 * of names, a Disallow without a value is no rule, rules above the first user-agent line don't count, a '$' is special only at the end
 * of a rule, and an escape such as %62 is the same as what it stands for. URLs are compared as they are written, up to a '#': trim and
 * parse them before you ask. The robots of such a site and its matrix have these verdicts; of the matrix that is only tested.
 * ROBOTS_OVERLONG_RULE is about rules that end with '$' and have more than 4,096 bytes when all that isn't allowed in a URI is escaped.
 * robots_verdict doesn't allocate if path and query of the URL are escaped as in a URI, with escapes in uppercase only where they are
 * needed; robots_cost is about the length of these two. Delays, sitemaps and names are those of robots_site_open. Take it if you have
 * to obey the standard (docs/COMPATIBILITY.md says in which points this reading doesn't), and robots_site_open to decide as the Rust
 * crate texting_robots does. */
ROBOTS_CHECK int32_t robots_site_open_rfc9309(const void *file, size_t file_len, robots_site **site) ROBOTS_NONNULL(3);

/* robots_open for a site, with the same robot, errors and line. The robot stays open when the site is closed. */
ROBOTS_CHECK int32_t robots_site_robot(const robots_site *site, const char *agent, size_t agent_len, robots_robot **robot,
                                       size_t *line) ROBOTS_NONNULL(1, 4);

/* Writes the verdicts of many crawlers for many URLs: a row for each crawler and in it a verdict for each URL, so
 * that the verdict of crawler i for URL j is verdicts[i * URLs + j], counted from 0. `agents` and `urls` have one '\n' between one item and
 * the next, as in robots_verdicts. The verdicts are those of the crawlers' robots; but in the row of a crawler with a rule that is too
 * long each is ROBOTS_NO_VERDICT, which robots_may_fetch doesn't allow. If there are more verdicts than `verdicts_len`, the status is
 * ROBOTS_BUFFER_TOO_SMALL. All crawlers that the file doesn't name cost little more than one. */
ROBOTS_CHECK int32_t robots_site_matrix(const robots_site *site, const char *agents, size_t agents_len, const char *urls,
                                        size_t urls_len, int64_t *verdicts, size_t verdicts_len) ROBOTS_NONNULL(1);

/* robots_delay for a site. No rule of the file matters, so it never returns ROBOTS_OVERLONG_RULE. It doesn't allocate. */
ROBOTS_CHECK int32_t robots_site_delay(const robots_site *site, const char *agent, size_t agent_len,
                                       uint64_t *microseconds) ROBOTS_NONNULL(1, 4);

/* robots_memory for a site: what was allocated to open it, and not freed. It doesn't allocate. */
size_t robots_site_memory(const robots_site *site) ROBOTS_NONNULL(1);

/* Writes the sitemaps, which are the same for every crawler, each with '\n' at its end, and their length in bytes to *len. At
 * ROBOTS_BUFFER_TOO_SMALL *len is the length that is needed: call with (NULL, 0, &len) to get it. A buffer as long as the file is
 * always large enough. An empty sitemap is written, and one that isn't UTF-8 is left out. No rule of the file matters. */
ROBOTS_CHECK int32_t robots_site_sitemaps(const robots_site *site, char *out, size_t out_len, size_t *len) ROBOTS_NONNULL(1, 4);

/* Writes the names in the file's user-agent lines, as robots_site_sitemaps writes sitemaps: in the file's order, `*` like any other, and
 * of names that differ only in the case of ASCII letters the first. A name that isn't UTF-8 is left out. */
ROBOTS_CHECK int32_t robots_site_agents(const robots_site *site, char *out, size_t out_len, size_t *len) ROBOTS_NONNULL(1, 4);

/* Returns 1 if a user-agent line names the crawler, 0 if none does, or ROBOTS_NOT_UTF8. All crawlers that none names have the robot of
 * `*`, so they can share it. It doesn't allocate. */
ROBOTS_CHECK int32_t robots_site_is_named(const robots_site *site, const char *agent, size_t agent_len) ROBOTS_NONNULL(1);

/* Frees a site, or does nothing if `site` is NULL. */
void robots_site_close(robots_site *site);

/* Writes the address of the robots.txt file of the site of an http or https URL, in ASCII with no NUL at its end, and its length to *len.
 * At ROBOTS_BUFFER_TOO_SMALL *len is the length that is needed. */
ROBOTS_CHECK int32_t robots_url(const char *url, size_t url_len, char *out, size_t out_len, size_t *len) ROBOTS_NONNULL(5);

/* What a response means, as a number of robots_meaning. `status` is the final one, and 0 if there was no answer; `redirects` is how many
 * in a row led to this request; `has_location` is whether the response has a `Location` that can be asked, and `is_complete` whether its
 * body came to the end or had ROBOTS_FILE_LIMIT bytes. 429 and whatever the standard doesn't name, as 206, 304 and a redirect without
 * `Location`, means that the file can't be reached. */
int robots_response_meaning(uint32_t status, uint32_t redirects, bool has_location, bool is_complete);

/* Whether the crawler may fetch the URL with this verdict: 1 if it may, and 0 if it may not. */
int robots_may_fetch(int64_t verdict);

/* The number of the line that this verdict follows from, or 0 if no line decides. */
int64_t robots_verdict_line(int64_t verdict);

/* What a status means, in English. */
const char *robots_status_text(int32_t status);

#ifdef __cplusplus
}
#endif
#endif
