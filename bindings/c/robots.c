/* The calls of robots.h. Each calls a proved function, whose name the Makefile begins with `proved_`: that of the same name, or one that
 * serves several calls. Here is what no contract grants: a text or a buffer of length 0 and a line may be NULL, and a variable for a
 * result may be uninitialized. A buffer is passed as it is. */
#include "robots.h"

#define HIDDEN __attribute__((visibility("hidden")))
#define PROVED(name) extern __typeof__(name) proved_##name HIDDEN
PROVED(robots_version);
PROVED(robots_open);
PROVED(robots_verdict);
PROVED(robots_verdict_within);
PROVED(robots_close);
PROVED(robots_verdicts_of_file);
PROVED(robots_site_robot);
PROVED(robots_site_matrix);
PROVED(robots_site_close);
PROVED(robots_url);
PROVED(robots_response_meaning);
PROVED(robots_may_fetch);
PROVED(robots_verdict_line);

/* The numbers of a robot, of which only the cost takes a length; and of a site, of which its memory takes no crawler. */
enum { COST, ROBOT_MEMORY, ROBOT_DELAY };
enum { SITE_MEMORY, IS_NAMED, SITE_DELAY };
extern int32_t proved_robots_number(const robots_robot *robot, size_t which, size_t length, uint64_t *number) HIDDEN;
extern int32_t proved_robots_site_number(const robots_site *site, size_t which, const char *agent, size_t agent_len,
                                         uint64_t *number) HIDDEN;

/* As RFC 9309 reads the file, or else as the Rust crate does. */
extern int32_t proved_robots_site_open(const void *file, size_t file_len, bool by_rfc9309, robots_site **site) HIDDEN;

/* Its sitemaps, or else the names in its user-agent lines. */
extern int32_t proved_robots_site_texts(const robots_site *site, bool are_agents, char *out, size_t out_len, size_t *len) HIDDEN;

/* URLs that end at these places, or else those that LF separates. */
extern int32_t proved_robots_verdict_list(const robots_robot *robot, const void *urls, size_t urls_len, const size_t *ends, size_t n,
                                          bool are_ended, int64_t *verdicts, size_t verdicts_len) HIDDEN;

/* A text or a buffer, with an address in place of NULL if the length is 0, so that nothing is read or written there. */
static int64_t nowhere;
#define AT(pointer, length) ((pointer) != NULL || (length) != 0 ? (pointer) : (void *)&nowhere), (length)

/* What a call that returned this status wrote. */
static int32_t with_line(int32_t status, size_t *line, size_t number) {
    if (status == ROBOTS_OVERLONG_RULE && line != NULL)
        *line = number;
    return status;
}

static int32_t with_length(int32_t status, size_t *len, size_t length) {
    if (status == ROBOTS_OK || status == ROBOTS_BUFFER_TOO_SMALL)
        *len = length;
    return status;
}

static int32_t with_delay(int32_t status, uint64_t *microseconds, uint64_t delay) {
    if (status == ROBOTS_OK)
        *microseconds = delay;
    return status;
}

static int32_t site_open(const void *file, size_t file_len, bool by_rfc9309, robots_site **site) {
    robots_site *opened = NULL;
    int32_t status = proved_robots_site_open(AT(file, file_len), by_rfc9309, &opened);
    if (status == ROBOTS_OK)
        *site = opened;
    return status;
}

static int32_t texts(const robots_site *site, bool are_agents, char *out, size_t out_len, size_t *len) {
    size_t length = 0;
    int32_t status = proved_robots_site_texts(site, are_agents, AT(out, out_len), &length);
    return with_length(status, len, length);
}

uint32_t robots_version(void) { return proved_robots_version(); }

int32_t robots_open(const char *agent, size_t agent_len, const void *file, size_t file_len, robots_robot **robot, size_t *line) {
    robots_robot *opened = NULL;
    size_t number = 0;
    int32_t status = proved_robots_open(AT(agent, agent_len), AT(file, file_len), &opened, &number);
    if (status == ROBOTS_OK)
        *robot = opened;
    return with_line(status, line, number);
}

int32_t robots_verdict(const robots_robot *robot, const char *url, size_t url_len, int64_t *verdict) {
    int64_t number = 0;
    int32_t status = proved_robots_verdict(robot, AT(url, url_len), &number);
    if (status == ROBOTS_OK)
        *verdict = number;
    return status;
}

int32_t robots_verdict_within(const robots_robot *robot, const char *url, size_t url_len, uint64_t budget, int64_t *verdict) {
    int64_t number = 0;
    int32_t status = proved_robots_verdict_within(robot, AT(url, url_len), budget, &number);
    if (status == ROBOTS_OK)
        *verdict = number;
    return status;
}

uint64_t robots_cost(const robots_robot *robot, size_t length) {
    uint64_t cost = 0;
    proved_robots_number(robot, COST, length, &cost);
    return cost;
}

size_t robots_memory(const robots_robot *robot) {
    uint64_t memory = 0;
    proved_robots_number(robot, ROBOT_MEMORY, 0, &memory);
    return memory;
}

int32_t robots_verdicts(const robots_robot *robot, const char *urls, size_t urls_len, int64_t *verdicts, size_t verdicts_len) {
    return proved_robots_verdict_list(robot, AT(urls, urls_len), AT(NULL, 0), false, AT(verdicts, verdicts_len));
}

int32_t robots_verdicts_batch(const robots_robot *robot, const void *urls, size_t urls_len, const size_t *ends, size_t n,
                              int64_t *verdicts) {
    return proved_robots_verdict_list(robot, AT(urls, urls_len), AT(ends, n), true, AT(verdicts, n));
}

int32_t robots_delay(const robots_robot *robot, uint64_t *microseconds) {
    uint64_t delay = 0;
    int32_t status = proved_robots_number(robot, ROBOT_DELAY, 0, &delay);
    return with_delay(status, microseconds, delay);
}

void robots_close(robots_robot *robot) { proved_robots_close(robot); }

int32_t robots_verdicts_of_file(const char *agent, size_t agent_len, const void *file, size_t file_len, const char *urls, size_t urls_len,
                                int64_t *verdicts, size_t verdicts_len, size_t *line) {
    size_t number = 0;
    int32_t status =
        proved_robots_verdicts_of_file(AT(agent, agent_len), AT(file, file_len), AT(urls, urls_len), AT(verdicts, verdicts_len), &number);
    return with_line(status, line, number);
}

int32_t robots_site_open(const void *file, size_t file_len, robots_site **site) { return site_open(file, file_len, false, site); }

int32_t robots_site_open_rfc9309(const void *file, size_t file_len, robots_site **site) { return site_open(file, file_len, true, site); }

int32_t robots_site_robot(const robots_site *site, const char *agent, size_t agent_len, robots_robot **robot, size_t *line) {
    robots_robot *opened = NULL;
    size_t number = 0;
    int32_t status = proved_robots_site_robot(site, AT(agent, agent_len), &opened, &number);
    if (status == ROBOTS_OK)
        *robot = opened;
    return with_line(status, line, number);
}

int32_t robots_site_matrix(const robots_site *site, const char *agents, size_t agents_len, const char *urls, size_t urls_len,
                           int64_t *verdicts, size_t verdicts_len) {
    return proved_robots_site_matrix(site, AT(agents, agents_len), AT(urls, urls_len), AT(verdicts, verdicts_len));
}

int32_t robots_site_delay(const robots_site *site, const char *agent, size_t agent_len, uint64_t *microseconds) {
    uint64_t delay = 0;
    int32_t status = proved_robots_site_number(site, SITE_DELAY, AT(agent, agent_len), &delay);
    return with_delay(status, microseconds, delay);
}

size_t robots_site_memory(const robots_site *site) {
    uint64_t memory = 0;
    proved_robots_site_number(site, SITE_MEMORY, AT("", 0), &memory);
    return memory;
}

int32_t robots_site_sitemaps(const robots_site *site, char *out, size_t out_len, size_t *len) {
    return texts(site, false, out, out_len, len);
}

int32_t robots_site_agents(const robots_site *site, char *out, size_t out_len, size_t *len) {
    return texts(site, true, out, out_len, len);
}

int32_t robots_site_is_named(const robots_site *site, const char *agent, size_t agent_len) {
    uint64_t is_named = 0;
    int32_t status = proved_robots_site_number(site, IS_NAMED, AT(agent, agent_len), &is_named);
    return status == ROBOTS_OK ? (int32_t)is_named : status;
}

void robots_site_close(robots_site *site) { proved_robots_site_close(site); }

int32_t robots_url(const char *url, size_t url_len, char *out, size_t out_len, size_t *len) {
    size_t length = 0;
    int32_t status = proved_robots_url(AT(url, url_len), AT(out, out_len), &length);
    return with_length(status, len, length);
}

int robots_response_meaning(uint32_t status, uint32_t redirects, bool has_location, bool is_complete) {
    return proved_robots_response_meaning(status, redirects, has_location, is_complete);
}

int robots_may_fetch(int64_t verdict) { return proved_robots_may_fetch(verdict); }

int64_t robots_verdict_line(int64_t verdict) { return proved_robots_verdict_line(verdict); }

const char *robots_status_text(int32_t status) {
    switch (status) {
    case ROBOTS_OK: return "no error";
    case ROBOTS_NOT_UTF8: return "the agent or a URL isn't UTF-8";
    case ROBOTS_OUT_OF_MEMORY: return "out of memory";
    case ROBOTS_BUFFER_TOO_SMALL: return "the buffer is too small";
    case ROBOTS_NO_DELAY: return "the file has no delay for this crawler";
    case ROBOTS_NO_ROBOTS_URL: return "the URL has no robots.txt file";
    case ROBOTS_OVERLONG_RULE: return "a rule is too long: the file can't be used for this crawler";
    case ROBOTS_INVALID_ENDS: return "the places where the URLs end are invalid";
    case ROBOTS_TOO_COSTLY: return "the verdict is too costly for its budget";
    default: return "unknown status";
    }
}
