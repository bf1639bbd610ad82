/* A site and a robot of robots.h for Python, whose threads share them without a lock: each call but a close only reads what is open. */
#include "robots.h"
#include <stdatomic.h>
#include <stdlib.h>

static const int64_t NO_VERDICT = ROBOTS_NO_VERDICT;
static const char *const DENY_ALL_FILE = ROBOTS_DENY_ALL_FILE;

/* Whether the processor has what the library is compiled for. On x86-64 that is x86-64-v2; this file itself is compiled for every one. */
static int processor_fits(void)
{
#ifdef __x86_64__
    __builtin_cpu_init();
    return __builtin_cpu_supports("sse3") && __builtin_cpu_supports("ssse3") && __builtin_cpu_supports("sse4.1")
        && __builtin_cpu_supports("sse4.2") && __builtin_cpu_supports("popcnt");
#else
    return 1;
#endif
}

/* Without a robot, `line` is the line of a rule that is too long. `users` are those that will close it. `is_unnamed` is whether it is the
 * robot of all crawlers that no line of a site names. */
struct robot {
    atomic_size_t users;
    robots_robot *robot;
    size_t line;
    bool is_unnamed;
};

/* `unnamed` is the robot of all crawlers that no line names, or NULL before the first of them. */
struct site {
    robots_site *site;
    struct robot *_Atomic unnamed;
};

/* As RFC 9309 reads the file, or else as the Rust crate does. */
static int32_t open_site(const char *file, size_t file_len, bool by_rfc9309, robots_site **site)
{
    return by_rfc9309 ? robots_site_open_rfc9309(file, file_len, site) : robots_site_open(file, file_len, site);
}

/* Returns NULL if an allocation fails. */
static struct site *site_open(const char *file, size_t file_len, bool by_rfc9309)
{
    struct site *shared = calloc(1, sizeof *shared);
    if (shared != NULL && open_site(file, file_len, by_rfc9309, &shared->site) != ROBOTS_OK) {
        free(shared);
        return NULL;
    }
    return shared;
}

static void robot_close(struct robot *shared)
{
    if (atomic_fetch_sub(&shared->users, 1) != 1)
        return;
    robots_close(shared->robot);
    free(shared);
}

static void site_close(struct site *shared)
{
    robots_site_close(shared->site);
    if (shared->unnamed != NULL)
        robot_close(shared->unnamed);
    free(shared);
}

static int32_t site_matrix(const struct site *shared, const char *agents, size_t agents_len, const char *urls, size_t urls_len,
                           int64_t *verdicts, size_t verdicts_len)
                           {
    return robots_site_matrix(shared->site, agents, agents_len, urls, urls_len, verdicts, verdicts_len);
}

/* The same for a file that isn't kept. */
static int32_t file_matrix(const char *agents, size_t agents_len, const char *file, size_t file_len, bool by_rfc9309, const char *urls,
                           size_t urls_len, int64_t *verdicts, size_t verdicts_len)
                           {
    robots_site *site = NULL;
    int32_t status = open_site(file, file_len, by_rfc9309, &site);
    if (status == ROBOTS_OK)
        status = robots_site_matrix(site, agents, agents_len, urls, urls_len, verdicts, verdicts_len);
    robots_site_close(site);
    return status;
}

static int32_t site_delay(const struct site *shared, const char *agent, size_t agent_len, uint64_t *microseconds)
{
    return robots_site_delay(shared->site, agent, agent_len, microseconds);
}

static int32_t site_sitemaps(const struct site *shared, char *out, size_t out_len, size_t *len)
{
    return robots_site_sitemaps(shared->site, out, out_len, len);
}

static int32_t site_agents(const struct site *shared, char *out, size_t out_len, size_t *len)
{
    return robots_site_agents(shared->site, out, out_len, len);
}

static int32_t site_is_named(const struct site *shared, const char *agent, size_t agent_len)
{
    return robots_site_is_named(shared->site, agent, agent_len);
}

/* The robot of a site, or of a file, which has one user. Returns NULL if an allocation fails. A rule that is too long is kept, so that the
 * rules aren't read again for it. The agent is UTF-8. */
static struct robot *robot_new(const robots_site *site, const char *file, size_t file_len, const char *agent, size_t agent_len)
{
    struct robot *shared = calloc(1, sizeof *shared);
    if (shared == NULL)
        return NULL;
    int32_t status = site != NULL ? robots_site_robot(site, agent, agent_len, &shared->robot, &shared->line)
                                  : robots_open(agent, agent_len, file, file_len, &shared->robot, &shared->line);
    if (status == ROBOTS_OK || status == ROBOTS_OVERLONG_RULE) {
        atomic_init(&shared->users, 1);
        return shared;
    }
    free(shared);
    return NULL;
}

static struct robot *robot_of_file(const char *file, size_t file_len, bool by_rfc9309, const char *agent, size_t agent_len)
{
    if (!by_rfc9309)
        return robot_new(NULL, file, file_len, agent, agent_len);
    robots_site *site = NULL;
    struct robot *made = NULL;
    if (robots_site_open_rfc9309(file, file_len, &site) == ROBOTS_OK)
        made = robot_new(site, NULL, 0, agent, agent_len);
    robots_site_close(site);
    return made;
}

/* Of several threads that need the robot of unnamed crawlers first, the first one's stays with the site. */
static struct robot *robot_open(struct site *site, const char *agent, size_t agent_len)
{
    if (robots_site_is_named(site->site, agent, agent_len) != 0)
        return robot_new(site->site, NULL, 0, agent, agent_len);
    struct robot *kept = site->unnamed;
    if (kept == NULL) {
        struct robot *made = robot_new(site->site, NULL, 0, agent, agent_len);
        if (made == NULL)
            return NULL;
        made->is_unnamed = true;
        if (atomic_compare_exchange_strong(&site->unnamed, &kept, made))
            kept = made;
        else
            robot_close(made);
    }
    atomic_fetch_add(&kept->users, 1);
    return kept;
}

/* The line of the rule that is too long, or 0. */
static size_t robot_overlong_line(const struct robot *shared)
{
    return shared->line;
}

static size_t memory_of(const struct robot *shared)
{
    return sizeof *shared + (shared->robot == NULL ? 0 : robots_memory(shared->robot));
}

/* How many bytes of memory the site takes, with the robot of all crawlers that no line names. */
static size_t site_memory(const struct site *shared)
{
    const struct robot *unnamed = shared->unnamed;
    return sizeof *shared + robots_site_memory(shared->site) + (unnamed == NULL ? 0 : memory_of(unnamed));
}

/* How many bytes of memory the robot takes next to its site. */
static size_t robot_memory(const struct robot *shared)
{
    return shared->is_unnamed ? 0 : memory_of(shared);
}

/* The verdict for a URL, or NO_VERDICT - status for another status than ROBOTS_OK: no file has that many lines. */
static int64_t robot_verdict(const struct robot *shared, const char *url, size_t url_len)
{
    int64_t verdict = 0;
    int32_t status = shared->robot == NULL ? ROBOTS_OVERLONG_RULE : robots_verdict(shared->robot, url, url_len, &verdict);
    return status == ROBOTS_OK ? verdict : NO_VERDICT - status;
}

static int32_t robot_verdict_within(const struct robot *shared, const char *url, size_t url_len, uint64_t budget, int64_t *verdict)
{
    return shared->robot == NULL ? ROBOTS_OVERLONG_RULE : robots_verdict_within(shared->robot, url, url_len, budget, verdict);
}

static int32_t robot_cost(const struct robot *shared, size_t length, uint64_t *cost)
{
    if (shared->robot == NULL)
        return ROBOTS_OVERLONG_RULE;
    *cost = robots_cost(shared->robot, length);
    return ROBOTS_OK;
}

static int32_t robot_delay(const struct robot *shared, uint64_t *microseconds)
{
    return shared->robot == NULL ? ROBOTS_OVERLONG_RULE : robots_delay(shared->robot, microseconds);
}

static int32_t robot_verdicts(const struct robot *shared, const char *urls, size_t urls_len, int64_t *verdicts, size_t verdicts_len)
{
    return shared->robot == NULL ? ROBOTS_OVERLONG_RULE : robots_verdicts(shared->robot, urls, urls_len, verdicts, verdicts_len);
}

static int32_t robot_verdicts_batch(const struct robot *shared, const char *urls, size_t urls_len, const size_t *ends, size_t n,
                                    int64_t *verdicts)
                                    {
    return shared->robot == NULL ? ROBOTS_OVERLONG_RULE : robots_verdicts_batch(shared->robot, urls, urls_len, ends, n, verdicts);
}

/* The C data interface of Arrow. */
struct ArrowSchema {
    const char *format, *name, *metadata;
    int64_t flags, n_children;
    struct ArrowSchema **children, *dictionary;
    void (*release)(struct ArrowSchema *);
    void *private_data;
};

struct ArrowArray {
    int64_t length, null_count, offset, n_buffers, n_children;
    const void **buffers;
    struct ArrowArray **children, *dictionary;
    void (*release)(struct ArrowArray *);
    void *private_data;
};

/* How many texts are in an array without nulls, whose type is utf8 or large_utf8, or -1 for another one. */
static int64_t array_length(const struct ArrowSchema *schema, const struct ArrowArray *array)
{
    bool is_text = strcmp(schema->format, "u") == 0 || strcmp(schema->format, "U") == 0;
    return is_text && (array->null_count == 0 || array->buffers[0] == NULL) ? array->length : -1;
}

/* Texts of any type have their places as size_t here, counted from the first one. */
static int32_t robot_verdicts_array(const struct robot *shared, const struct ArrowSchema *schema, const struct ArrowArray *array,
                                    int64_t *verdicts)
                                    {
    size_t n = (size_t)array->length, *ends = malloc((n + 1) * sizeof *ends);
    if (ends == NULL)
        return ROBOTS_OUT_OF_MEMORY;
    const char *text = array->buffers[2];
    const int32_t *narrow = (const int32_t *)array->buffers[1] + array->offset;
    const int64_t *wide = (const int64_t *)array->buffers[1] + array->offset;
    bool is_wide = schema->format[0] == 'U';
    size_t start = n == 0 ? 0 : (size_t)(is_wide ? wide[0] : narrow[0]);
    for (size_t i = 0; i < n; i++)
        ends[i] = (size_t)(is_wide ? wide[i + 1] : narrow[i + 1]) - start;
    int32_t status = robot_verdicts_batch(shared, n == 0 ? NULL : text + start, n == 0 ? 0 : ends[n - 1], ends, n, verdicts);
    free(ends);
    return status;
}
