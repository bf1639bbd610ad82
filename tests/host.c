/* Calls the functions of robots.h: worked examples, what a failed call leaves unchanged, buffers that are one byte or number too small,
 * and then each allocation failing in turn. It is linked with --wrap, so that it sees the allocations. Each line says how a case went. */
#include "robots.h"
#include <stdbool.h>
#include <stdio.h>
#include <stdlib.h>
#include <string.h>

#define FILE_OF(text) (text), sizeof(text) - 1

static int passed, failed;

static void tell(const char *name, bool well) {
    *(well ? &passed : &failed) += 1;
    printf("%s ... %s\n", name, well ? "ok" : "FAILED");
}

/* ---- memory: allocation `fail_at`, counted from 1, fails, and with `later` all that follow it; with 0 none does */

static long allocations, failures, blocks, fail_at;
static bool later;

void *__real_malloc(size_t length);
void *__real_realloc(void *block, size_t length);
void __real_free(void *block);
void *__wrap_malloc(size_t length);
void *__wrap_realloc(void *block, size_t length);
void __wrap_free(void *block);

static bool fails_now(void) {
    allocations++;
    bool is = fail_at != 0 && (allocations == fail_at || (later && allocations > fail_at));
    failures += is;
    return is;
}

void *__wrap_malloc(size_t length) {
    void *block = fails_now() ? NULL : __real_malloc(length);
    blocks += block != NULL;
    return block;
}

void *__wrap_realloc(void *old, size_t length) {
    void *block = fails_now() ? NULL : __real_realloc(old, length);
    blocks += block != NULL && old == NULL;
    return block;
}

void __wrap_free(void *block) {
    blocks -= block != NULL;
    __real_free(block);
}

/* ---- the worked examples: lines 2, 3 and 6 are rules, 4 is a delay, 5 and 7 are sitemaps; lines 8 and 10 name a crawler */

static const char file[] = "User-agent: *\nDisallow: /private\nAllow: /private/open\nCrawl-delay: 2.5\n"
                           "Sitemap: https://example.com/a.xml\nDisallow: /*.pdf$\nSitemap: https://example.com/b.xml\n"
                           "User-agent: A\nAllow: /\nuser-agent: a\n";
static const char urls[] = "https://example.com/a\n/private/x\nhttps://example.com/private/open\n/x.pdf\n/x.pdf?y\n"
                           "/private/\xC3\xA9 b";
static const int64_t verdicts[] = {0, -2, 3, -6, 0, -2};
static const char sitemaps[] = "https://example.com/a.xml\nhttps://example.com/b.xml\n";
static const char page[] = "https://user@Example.com:8080/a?b";
static const char address[] = "https://example.com:8080/robots.txt";
enum { COUNT = sizeof verdicts / sizeof *verdicts };

/* What came of a call: its status, whether what it wrote is right, and whether it wrote nothing. */
struct outcome {
    int32_t status;
    bool right, untouched;
};

static bool all_are(const void *bytes, size_t count, int byte) {
    for (size_t i = 0; i < count; i++)
        if (((const unsigned char *)bytes)[i] != byte)
            return false;
    return true;
}

/* What a call wrote to `out`, which has COUNT + 1 numbers that held 0x77. */
static struct outcome outcome_of(int32_t status, const int64_t *out, size_t line) {
    bool right = status == ROBOTS_OK && memcmp(out, verdicts, sizeof verdicts) == 0 && all_are(out + COUNT, 8, 0x77) && line == 7;
    return (struct outcome){status, right, all_are(out, 8 * (COUNT + 1), 0x77) && line == 7};
}

static struct outcome ask_file_with(const char *agent, const char *these, size_t room) {
    int64_t out[COUNT + 1];
    size_t line = 7;
    memset(out, 0x77, sizeof out);
    int32_t status = robots_verdicts_of_file(ROBOTS_STRING(agent), FILE_OF(file), ROBOTS_STRING(these), out, room, &line);
    return outcome_of(status, out, line);
}

static struct outcome ask_file(void) { return ask_file_with("Bot", urls, COUNT); }

/* Two rows of a matrix: crawlers that the file doesn't name have the same. */
static struct outcome matrix_with(const robots_site *site, const char *agents, size_t room) {
    int64_t out[2 * COUNT + 1];
    memset(out, 0x77, sizeof out);
    int32_t status = robots_site_matrix(site, ROBOTS_STRING(agents), ROBOTS_STRING(urls), out, room);
    bool rows = memcmp(out, verdicts, sizeof verdicts) == 0 && memcmp(out + COUNT, verdicts, sizeof verdicts) == 0;
    return (struct outcome){status, status == ROBOTS_OK && rows && all_are(out + 2 * COUNT, 8, 0x77), all_are(out, sizeof out, 0x77)};
}

/* What a call wrote to `out`, which has so much room, next to the text that it is to write. */
static struct outcome text_is(int32_t status, const char *out, size_t len, const char *wanted, size_t room) {
    size_t length = strlen(wanted);
    bool right = status == ROBOTS_OK && len == length && memcmp(out, wanted, length) == 0 && all_are(out + length, 99 - length, 77);
    bool counted = status == ROBOTS_BUFFER_TOO_SMALL ? len == length && room < length : len == 7;
    return (struct outcome){status, right, counted && all_are(out, 99, 77)};
}

static struct outcome list(int32_t (*call)(const robots_site *, char *, size_t, size_t *), const robots_site *site, const char *wanted, size_t room) {
    char out[99];
    size_t len = 7;
    memset(out, 77, sizeof out);
    int32_t status = call(site, out, room, &len);
    return text_is(status, out, len, wanted, room);
}

static struct outcome list_sitemaps(const robots_site *site, size_t room) { return list(robots_site_sitemaps, site, sitemaps, room); }

static struct outcome list_agents(const robots_site *site, size_t room) { return list(robots_site_agents, site, "*\nA\n", room); }

static struct outcome find_robots_url(const char *url, size_t room) {
    char out[99];
    size_t len = 7;
    memset(out, 77, sizeof out);
    int32_t status = robots_url(ROBOTS_STRING(url), out, room, &len);
    return text_is(status, out, len, address, room);
}

static struct outcome whole_address(void) { return find_robots_url(page, sizeof address - 1); }

static struct outcome verdicts_with(const robots_robot *robot, size_t room) {
    int64_t out[COUNT + 1];
    memset(out, 0x77, sizeof out);
    return outcome_of(robots_verdicts(robot, ROBOTS_STRING(urls), out, room), out, 7);
}

/* The same URLs in a text without line feeds, and where each ends in it. */
static struct outcome batch_with(const robots_robot *robot) {
    char joined[sizeof urls];
    size_t ends[COUNT], length = 0, count = 0;
    int64_t out[COUNT + 1];
    memset(out, 0x77, sizeof out);
    for (const char *at = urls; *at != '\0'; at++)
        if (*at == '\n')
            ends[count++] = length;
        else
            joined[length++] = *at;
    ends[count++] = length;
    return outcome_of(robots_verdicts_batch(robot, joined, length, ends, count, out), out, 7);
}

/* What RFC 9309, 2.3.1 says about responses, and the file for those that bring none. */
static void try_responses(void) {
    static const struct {
        uint32_t status, redirects;
        bool has_location, is_complete;
        int meaning;
    } cases[] = {
        {0, 0, false, false, ROBOTS_DENY_ALL},  {200, 0, false, true, ROBOTS_PARSE},      {200, 0, false, false, ROBOTS_DENY_ALL},
        {204, 6, true, true, ROBOTS_PARSE},     {206, 0, false, true, ROBOTS_DENY_ALL},   {300, 0, true, true, ROBOTS_FOLLOW},
        {301, 0, false, true, ROBOTS_DENY_ALL}, {301, 4, true, false, ROBOTS_FOLLOW},     {301, 5, true, true, ROBOTS_ALLOW_ALL},
        {304, 0, true, true, ROBOTS_DENY_ALL},  {400, 0, true, false, ROBOTS_ALLOW_ALL},  {429, 5, true, true, ROBOTS_DENY_ALL},
        {500, 0, true, true, ROBOTS_DENY_ALL},  {65736, 0, false, true, ROBOTS_DENY_ALL}};
    for (size_t i = 0; i < sizeof cases / sizeof *cases; i++)
        tell("a response", robots_response_meaning(cases[i].status, cases[i].redirects, cases[i].has_location, cases[i].is_complete)
            == cases[i].meaning);
    int64_t out[3];
    size_t line;
    bool has_verdicts = robots_verdicts_of_file("Bot", 3, ROBOTS_STRING(ROBOTS_DENY_ALL_FILE), ROBOTS_STRING("/\na\n/robots.txt"), out, 3, &line) == ROBOTS_OK;
    tell("a file that denies everything", has_verdicts && out[0] == -2 && out[1] == -2 && out[2] == 0);
}

/* URLs with the places where they end. Line 1 of the file denies any URL with a line feed, which is escaped as %0A. */
static void try_batch(void) {
    static const struct {
        const char *name, *text;
        size_t length, count, ends[4];
        int32_t status;
        int64_t wanted[4];
    } cases[] = {
        {"no URLs", "/a", 2, 0, {0}, ROBOTS_OK, {77, 77, 77, 77}},
        {"an empty URL", "", 0, 1, {0}, ROBOTS_OK, {0, 77, 77, 77}},
        {"a line feed in a URL", "/a\nb/a", 6, 2, {4, 6}, ROBOTS_OK, {-1, 0, 77, 77}},
        {"an empty URL between two", "/\n/b", 4, 3, {2, 2, 4}, ROBOTS_OK, {-1, 0, 0, 77}},
        {"a text after the last URL", "/b/\n", 4, 1, {2}, ROBOTS_OK, {0, 77, 77, 77}},
        {"ends that decrease", "/a/b", 4, 2, {3, 2}, ROBOTS_INVALID_ENDS, {77, 77, 77, 77}},
        {"an end after the text", "/a/b", 4, 2, {2, 5}, ROBOTS_INVALID_ENDS, {77, 77, 77, 77}},
        {"a URL that isn't UTF-8", "/a\xFF/b", 5, 2, {3, 5}, ROBOTS_NOT_UTF8, {77, 77, 77, 77}},
        {"a character in two URLs", "/\xC3\xA9", 3, 2, {2, 3}, ROBOTS_NOT_UTF8, {77, 77, 77, 77}},
        {"ends that are invalid before what isn't UTF-8", "\xFF/b", 3, 2, {1, 4}, ROBOTS_INVALID_ENDS, {77, 77, 77, 77}},
    };
    robots_robot *robot = NULL;
    bool opened = robots_open("Bot", 3, "Disallow: /*%0A\nAllow: /c\n", 26, &robot, NULL) == ROBOTS_OK;
    for (size_t i = 0; i < sizeof cases / sizeof *cases; i++) {
        int64_t out[4] = {77, 77, 77, 77};
        bool is = opened && robots_verdicts_batch(robot, cases[i].text, cases[i].length, cases[i].ends, cases[i].count, out) == cases[i].status;
        tell(cases[i].name, is && memcmp(out, cases[i].wanted, sizeof out) == 0);
    }
    tell("no URLs at all", opened && robots_verdicts_batch(robot, NULL, 0, NULL, 0, NULL) == ROBOTS_OK);
    robots_close(robot);
}

/* One for each rule, and for each that isn't too long one look at each byte before its first star or dollar, or two at each byte of the
 * target if that is a star. */
static void try_costs(void) {
    static const char three[] = "Allow: /ocean\nDisallow: /rust\nDisallow: /forest*.py";
    static const struct {
        const char *file;
        size_t length;
        uint64_t cost;
    } cases[] = {
        {three, 0, 3},
        {three, 6, 3 + 5 + 6},
        {three, 10, 3 + 5 + 6 + 2 * 10},
        {"Disallow: /a$", 1, 1},
        {"Disallow: /a$*", 100, 1 + 2},
        {"Disallow: *", 100, 1 + 2 * 100},
        {"Disallow: *\nDisallow: *", SIZE_MAX, UINT64_MAX},
        {"User-agent: other\nDisallow: /b", 10, 0},
    };
    for (size_t i = 0; i < sizeof cases / sizeof *cases; i++) {
        robots_robot *robot = NULL;
        bool opened = robots_open("Bot", 3, ROBOTS_STRING(cases[i].file), &robot, NULL) == ROBOTS_OK;
        tell("a cost by the rules", opened && robots_cost(robot, cases[i].length) == cases[i].cost);
        robots_close(robot);
    }
}

/* The file has the rules "/a*b" in line 1 and "/c$" in line 2, which are tried in this order. */
static void try_budgets(void) {
    static const struct {
        const char *url;
        uint64_t budget;
        int32_t status;
        int64_t wanted;
    } cases[] = {
        {"/a1b", 9, ROBOTS_OK, -1},
        {"/a1b", 8, ROBOTS_TOO_COSTLY, 77},
        {"/c", 6, ROBOTS_OK, 2},
        {"/c", 5, ROBOTS_TOO_COSTLY, 77},
        {"/d", UINT64_MAX, ROBOTS_OK, 0},
        {"", 1, ROBOTS_TOO_COSTLY, 77},
        {"", 2, ROBOTS_OK, 0},
        {"/robots.txt", 0, ROBOTS_OK, 0},
        {"\xFF", 99, ROBOTS_NOT_UTF8, 77},
    };
    static const struct {
        size_t length;
        uint64_t cost;
    } costs[] = {{0, 2}, {1, 2}, {2, 8}, {4, 12}, {SIZE_MAX, UINT64_MAX}};
    robots_robot *robot = NULL;
    bool opened = robots_open("Bot", 3, FILE_OF("Disallow: /a*b\nAllow: /c$\n"), &robot, NULL) == ROBOTS_OK;
    for (size_t i = 0; i < sizeof cases / sizeof *cases; i++) {
        int64_t out = 77;
        bool is = opened && robots_verdict_within(robot, ROBOTS_STRING(cases[i].url), cases[i].budget, &out) == cases[i].status;
        tell("a verdict with a budget", is && out == cases[i].wanted);
    }
    for (size_t i = 0; i < sizeof costs / sizeof *costs; i++)
        tell("a cost", opened && robots_cost(robot, costs[i].length) == costs[i].cost);
    robots_close(robot);
    try_costs();
}

/* Opens a robot, asks it, and closes it. What needs no memory is never reported as out of memory. */
static struct outcome keep(void) {
    robots_robot *robot = NULL;
    int64_t out = 77, plain = 77, within = 77;
    uint64_t wait = 77;
    size_t line = 7;
    int32_t status = robots_open(ROBOTS_STRING("Bot"), FILE_OF(file), &robot, &line);
    if (status != ROBOTS_OK)
        return (struct outcome){status, false, robot == NULL && line == 7};
    bool known = robots_verdict(robot, "/private/open", 13, &plain) == ROBOTS_OK && plain == 3;
    known &= robots_verdict(robot, "", 0, &plain) == ROBOTS_OK && plain == 0;
    known &= robots_verdict(robot, ROBOTS_STRING("https://example.com:8080/private/open?a#b"), &plain) == ROBOTS_OK && plain == 3;
    known &= robots_delay(robot, &wait) == ROBOTS_OK && wait == 2500000 && line == 7 && robots_memory(robot) > 3 * 64;
    known &= robots_cost(robot, 0) == 3;
    struct outcome many = verdicts_with(robot, COUNT);
    status = robots_verdict(robot, ROBOTS_STRING("/private/\xC3\xA9 b"), &out);
    known &= status == ROBOTS_OK ? out == -2 : out == 77;
    if (status == ROBOTS_OK) {
        status = robots_verdict_within(robot, "/private/x", 10, 99, &within);
        known &= status == ROBOTS_OK ? within == -2 : within == 77;
    }
    robots_close(robot);
    return status == ROBOTS_OK ? (struct outcome){many.status, known && many.right, known && many.untouched}
                               : (struct outcome){status, false, known && (many.right || many.untouched)};
}

static bool is(struct outcome outcome, int32_t status) {
    return outcome.status == status && (status == ROBOTS_OK ? outcome.right : outcome.untouched);
}

/* Opens a robot of a site, closes the site, and asks for a batch of verdicts. */
static struct outcome keep_robot_of(robots_site *site) {
    robots_robot *robot = NULL;
    size_t line = 7;
    int32_t status = robots_site_robot(site, ROBOTS_STRING("Bot"), &robot, &line);
    robots_site_close(site);
    if (status != ROBOTS_OK)
        return (struct outcome){status, false, robot == NULL && line == 7};
    struct outcome batch = batch_with(robot);
    robots_close(robot);
    return (struct outcome){batch.status, batch.right && line == 7, batch.untouched && line == 7};
}

/* Opens a site and makes each call on it. What needs no memory is never reported as out of memory. */
static struct outcome keep_site_of(int32_t (*opens)(const void *, size_t, robots_site **)) {
    robots_site *site = NULL;
    uint64_t wait = 77;
    int32_t status = opens(FILE_OF(file), &site);
    if (status != ROBOTS_OK)
        return (struct outcome){status, false, site == NULL};
    bool known = robots_site_delay(site, "Bot", 3, &wait) == ROBOTS_OK && wait == 2500000;
    known &= robots_site_memory(site) > sizeof file && robots_site_is_named(site, "Bot", 3) == 0 && robots_site_is_named(site, "a", 1) == 1;
    struct outcome each[] = {matrix_with(site, "Bot\nOther", 2 * COUNT), list_sitemaps(site, sizeof sitemaps - 1), list_agents(site, 4),
                             keep_robot_of(site)};
    struct outcome all = {ROBOTS_OK, known, known};
    for (size_t i = 0; i < sizeof each / sizeof *each; i++) {
        all.right &= each[i].right;
        all.untouched &= is(each[i], ROBOTS_OK) || is(each[i], ROBOTS_OUT_OF_MEMORY);
        all.status = all.status == ROBOTS_OK ? each[i].status : all.status;
    }
    return all;
}

static struct outcome keep_site(void) { return keep_site_of(robots_site_open); }

/* RFC 9309 reads this file alike. */
static struct outcome keep_standard_site(void) { return keep_site_of(robots_site_open_rfc9309); }

/* The errors of each call on a site. A rule for the crawler Long is too long. */
static void try_site(void) {
    char text[5000] = "User-agent: Long\nDisallow: /$";
    robots_site *site = NULL;
    robots_robot *robot = NULL;
    uint64_t wait = 77;
    size_t line = 7, start = strlen(text);
    int64_t out[] = {77, 77, 77, 77};
    memset(text + start, 'a', 4095);
    strcpy(text + start + 4095, "\nUser-agent: B\nDisallow: /b");
    tell("a site with a rule that is too long", robots_site_open(ROBOTS_STRING(text), &site) == ROBOTS_OK && site != NULL);
    tell("no robot of a site", robots_site_robot(site, "long", 4, &robot, &line) == ROBOTS_OVERLONG_RULE && robot == NULL && line == 2);
    tell("no robot of a site, and no line", robots_site_robot(site, "long", 4, &robot, NULL) == ROBOTS_OVERLONG_RULE && robot == NULL);
    tell("no robot", robots_open("long", 4, ROBOTS_STRING(text), &robot, &line) == ROBOTS_OVERLONG_RULE && robot == NULL && line == 2);
    tell("no robot, and no line", robots_open("long", 4, ROBOTS_STRING(text), &robot, NULL) == ROBOTS_OVERLONG_RULE && robot == NULL);
    tell("no verdicts, and no line", robots_verdicts_of_file("long", 4, ROBOTS_STRING(text), "/", 1, out, 4, NULL) == ROBOTS_OVERLONG_RULE && out[0] == 77);
    tell("a robot of what isn't UTF-8", robots_site_robot(site, "\xFF", 1, &robot, &line) == ROBOTS_NOT_UTF8 && robot == NULL && line == 2);
    tell("no delay of a site", robots_site_delay(site, "Long", 4, &wait) == ROBOTS_NO_DELAY && wait == 77);
    tell("a delay of what isn't UTF-8", robots_site_delay(site, "\xFF", 1, &wait) == ROBOTS_NOT_UTF8 && wait == 77);
    tell("a name that isn't UTF-8", robots_site_is_named(site, "\xFF", 1) == ROBOTS_NOT_UTF8);
    tell("no sitemaps of a site", robots_site_sitemaps(site, NULL, 0, &line) == ROBOTS_OK && line == 0);
    tell("a row of no verdicts", robots_site_matrix(site, "Long\nB", 6, "/b\n/c", 5, out, 4) == ROBOTS_OK && out[0] == ROBOTS_NO_VERDICT
        && out[1] == ROBOTS_NO_VERDICT && out[2] == -4 && out[3] == 0);
    robots_site_close(site);
    site = NULL;
    bool opened = robots_site_open(FILE_OF(file), &site) == ROBOTS_OK;
    tell("a matrix of a site with a number too little room", opened && is(matrix_with(site, "Bot\nOther", 2 * COUNT - 1), ROBOTS_BUFFER_TOO_SMALL));
    tell("a matrix of a site, a crawler that isn't UTF-8", opened && is(matrix_with(site, "Bot\n\xFF", 2 * COUNT), ROBOTS_NOT_UTF8));
    tell("sitemaps of a site with a byte too little room", opened && is(list_sitemaps(site, sizeof sitemaps - 2), ROBOTS_BUFFER_TOO_SMALL));
    tell("crawlers of a site with a byte too little room", opened && is(list_agents(site, 3), ROBOTS_BUFFER_TOO_SMALL));
    tell("the length of sitemaps", opened && robots_site_sitemaps(site, NULL, 0, &line) == ROBOTS_BUFFER_TOO_SMALL && line == sizeof sitemaps - 1);
    robots_site_close(site);
    robots_site_close(NULL);
}

/* NULL with length 0 is the empty text in each call, and `line` may be NULL where a file can be used, too. */
static void try_null(void) {
    int64_t out = 77;
    uint64_t wait = 77;
    size_t length = 7;
    robots_robot *robot = NULL;
    robots_site *site = NULL;
    bool opened = robots_open(NULL, 0, NULL, 0, &robot, NULL) == ROBOTS_OK && robot != NULL;
    tell("a robot of empty texts", opened);
    tell("a verdict on the empty text", opened && robots_verdict(robot, NULL, 0, &out) == ROBOTS_OK && out == 0);
    tell("verdicts on the empty text", opened && robots_verdicts(robot, NULL, 0, &out, 1) == ROBOTS_OK && out == 0);
    tell("verdicts into an empty buffer", opened && robots_verdicts(robot, NULL, 0, NULL, 0) == ROBOTS_BUFFER_TOO_SMALL);
    robots_close(robot);
    tell("verdicts of empty texts", robots_verdicts_of_file(NULL, 0, NULL, 0, NULL, 0, &out, 1, NULL) == ROBOTS_OK && out == 0);
    tell("no address of the empty text", robots_url(NULL, 0, NULL, 0, &length) == ROBOTS_NO_ROBOTS_URL && length == 7);
    tell("a site of the empty text as RFC 9309 reads it", robots_site_open_rfc9309(NULL, 0, &site) == ROBOTS_OK && site != NULL);
    robots_site_close(site);
    site = NULL;
    opened = robots_site_open(NULL, 0, &site) == ROBOTS_OK && site != NULL;
    tell("a site of the empty text", opened);
    robot = NULL;
    tell("its robot", opened && robots_site_robot(site, NULL, 0, &robot, NULL) == ROBOTS_OK && robot != NULL);
    robots_close(robot);
    tell("its matrix", opened && robots_site_matrix(site, NULL, 0, NULL, 0, &out, 1) == ROBOTS_OK && out == 0);
    tell("its matrix in an empty buffer", opened && robots_site_matrix(site, NULL, 0, NULL, 0, NULL, 0) == ROBOTS_BUFFER_TOO_SMALL);
    tell("no delay", opened && robots_site_delay(site, NULL, 0, &wait) == ROBOTS_NO_DELAY && wait == 77);
    tell("its sitemaps", opened && robots_site_sitemaps(site, NULL, 0, &length) == ROBOTS_OK && length == 0);
    length = 7;
    tell("its crawlers", opened && robots_site_agents(site, NULL, 0, &length) == ROBOTS_OK && length == 0);
    tell("not named", opened && robots_site_is_named(site, NULL, 0) == 0);
    robots_site_close(site);
}

/* A buffer that is too small for the verdicts of URLs is found before anything is allocated. */
static void try_small_buffers(void) {
    int64_t out = 77;
    size_t line = 7;
    robots_robot *robot = NULL;
    robots_site *site = NULL;
    bool opened = robots_open("Bot", 3, FILE_OF(file), &robot, &line) == ROBOTS_OK && robots_site_open(FILE_OF(file), &site) == ROBOTS_OK;
    long before = allocations;
    tell("verdicts", robots_verdicts_of_file("Bot", 3, FILE_OF(file), "/a\n/b", 5, &out, 1, &line) == ROBOTS_BUFFER_TOO_SMALL && out == 77);
    tell("many verdicts", opened && robots_verdicts(robot, "/a\n/b", 5, &out, 1) == ROBOTS_BUFFER_TOO_SMALL && out == 77);
    tell("a matrix of a site", opened && robots_site_matrix(site, "A\nB", 3, "/a", 2, &out, 1) == ROBOTS_BUFFER_TOO_SMALL && out == 77);
    tell("nothing was allocated for them", allocations == before && line == 7);
    robots_close(robot);
    robots_site_close(site);
}

static void try_examples(void) {
    int64_t out = 77;
    uint64_t wait = 77;
    size_t length = 7;
    robots_robot *robot = NULL;
    tell("verdicts with their lines", is(ask_file(), ROBOTS_OK));
    tell("verdicts with a number too little room", is(ask_file_with("Bot", urls, COUNT - 1), ROBOTS_BUFFER_TOO_SMALL));
    tell("verdicts, an agent that isn't UTF-8", is(ask_file_with("\xFF", urls, COUNT), ROBOTS_NOT_UTF8));
    tell("verdicts, a URL that isn't UTF-8", is(ask_file_with("Bot", "/a\n\xFF", COUNT), ROBOTS_NOT_UTF8));
    tell("NULL is an empty buffer", robots_verdicts_of_file(NULL, 0, NULL, 0, NULL, 0, NULL, 0, &length) == ROBOTS_BUFFER_TOO_SMALL && length == 7);
    try_null();
    tell("no verdict", !robots_may_fetch(ROBOTS_NO_VERDICT) && robots_verdict_line(ROBOTS_NO_VERDICT) == 0);
    tell("an address", is(whole_address(), ROBOTS_OK));
    tell("an address with a byte too little room", is(find_robots_url(page, sizeof address - 2), ROBOTS_BUFFER_TOO_SMALL));
    static const char *const none[] = {"mailto:a@example.com", "example.com/a", "", "https://example.com:port/", "https://"};
    for (size_t i = 0; i < sizeof none / sizeof *none; i++)
        tell("no address", is(find_robots_url(none[i], 99), ROBOTS_NO_ROBOTS_URL));
    tell("an address of what isn't UTF-8", is(find_robots_url("\xFF", 99), ROBOTS_NOT_UTF8));
    tell("a robot", is(keep(), ROBOTS_OK));
    bool opened = robots_open("Bot", 3, "Disallow: /", 11, &robot, &length) == ROBOTS_OK;
    tell("no delay of a robot", opened && robots_delay(robot, &wait) == ROBOTS_NO_DELAY && wait == 77);
    tell("a URL that isn't UTF-8", opened && robots_verdict(robot, "\xFF", 1, &out) == ROBOTS_NOT_UTF8 && out == 77);
    tell("verdicts with too little room", opened && is(verdicts_with(robot, COUNT - 1), ROBOTS_BUFFER_TOO_SMALL));
    robots_close(robot);
    robots_close(NULL);
    tell("a site", is(keep_site(), ROBOTS_OK));
    tell("a site as RFC 9309 reads it", is(keep_standard_site(), ROBOTS_OK));
    try_site();
    try_small_buffers();
    try_batch();
    try_budgets();
    tell("verdicts and their lines", robots_may_fetch(0) == 1 && robots_may_fetch(3) == 1 && robots_may_fetch(-2) == 0
        && robots_verdict_line(0) == 0 && robots_verdict_line(3) == 3 && robots_verdict_line(-2) == 2);
    try_responses();
    tell("the version", robots_version() == ROBOTS_VERSION);
}

/* Fails the first allocation of a call, then the second, and so on, until a call meets no failure. */
static void fail_each(const char *name, struct outcome (*call)(void), bool all_later) {
    bool well = true, ends = false;
    long reported = 0;
    later = all_later;
    for (fail_at = 1; well && !ends; fail_at++) {
        allocations = failures = 0;
        struct outcome outcome = call();
        bool wants = outcome.status == ROBOTS_OUT_OF_MEMORY && outcome.untouched && failures > 0;
        ends = failures == 0;
        reported += wants;
        well = blocks == 0 && (wants || is(outcome, ROBOTS_OK));
    }
    fail_at = 0;
    printf("%ld allocation failures%s reported: ", reported, all_later ? ", with all later ones," : "");
    tell(name, well && reported > 0);
}

int main(void) {
    try_examples();
    tell("no block is kept", blocks == 0);
    for (int all_later = 0; all_later < 2; all_later++) {
        fail_each("verdicts", ask_file, all_later);
        fail_each("an address", whole_address, all_later);
        fail_each("a robot", keep, all_later);
        fail_each("a site", keep_site, all_later);
        fail_each("a site as RFC 9309 reads it", keep_standard_site, all_later);
    }
    printf("%d passed, %d failed\n", passed, failed);
    return failed != 0;
}
