/* What Python calls: of robots.h, and of shared.c. build.py gives this file to cffi's `cdef`, which knows what
   `...` means; no C file includes it. */
#define ROBOTS_OK ...
#define ROBOTS_OUT_OF_MEMORY ...
#define ROBOTS_BUFFER_TOO_SMALL ...
#define ROBOTS_NO_DELAY ...
#define ROBOTS_NO_ROBOTS_URL ...
#define ROBOTS_OVERLONG_RULE ...
#define ROBOTS_NOT_UTF8 ...
#define ROBOTS_INVALID_ENDS ...
#define ROBOTS_TOO_COSTLY ...
#define ROBOTS_FILE_LIMIT ...
#define ROBOTS_PARSE ...
#define ROBOTS_FOLLOW ...
#define ROBOTS_ALLOW_ALL ...
#define ROBOTS_DENY_ALL ...
#define ROBOTS_REDIRECT_LIMIT ...
#define ROBOTS_LIFETIME ...
static const char *const DENY_ALL_FILE;
static const int64_t NO_VERDICT;
int processor_fits(void);
int32_t file_matrix(const char *agents, size_t agents_len, const char *file, size_t file_len, bool by_rfc9309, const char *urls,
                    size_t urls_len, int64_t *verdicts, size_t verdicts_len);
int32_t robots_url(const char *url, size_t url_len, char *out, size_t out_len, size_t *len);
int robots_response_meaning(uint32_t status, uint32_t redirects, bool has_location, bool is_complete);

struct site;
struct site *site_open(const char *file, size_t file_len, bool by_rfc9309);
void site_close(struct site *site);
int32_t site_matrix(const struct site *site, const char *agents, size_t agents_len, const char *urls, size_t urls_len, int64_t *verdicts,
                    size_t verdicts_len);
int32_t site_delay(const struct site *site, const char *agent, size_t agent_len, uint64_t *microseconds);
int32_t site_sitemaps(const struct site *site, char *out, size_t out_len, size_t *len);
int32_t site_agents(const struct site *site, char *out, size_t out_len, size_t *len);
size_t site_memory(const struct site *site);
int32_t site_is_named(const struct site *site, const char *agent, size_t agent_len);

struct robot;
struct robot *robot_open(struct site *site, const char *agent, size_t agent_len);
struct robot *robot_of_file(const char *file, size_t file_len, bool by_rfc9309, const char *agent, size_t agent_len);
void robot_close(struct robot *robot);
size_t robot_memory(const struct robot *robot);
size_t robot_overlong_line(const struct robot *robot);
int64_t robot_verdict(const struct robot *robot, const char *url, size_t url_len);
int32_t robot_verdict_within(const struct robot *robot, const char *url, size_t url_len, uint64_t budget, int64_t *verdict);
int32_t robot_cost(const struct robot *robot, size_t length, uint64_t *cost);
int32_t robot_verdicts(const struct robot *robot, const char *urls, size_t urls_len, int64_t *verdicts, size_t verdicts_len);
int32_t robot_delay(const struct robot *robot, uint64_t *microseconds);
int32_t robot_verdicts_batch(const struct robot *robot, const char *urls, size_t urls_len, const size_t *ends, size_t n, int64_t *verdicts);

struct ArrowSchema;
struct ArrowArray;
int64_t array_length(const struct ArrowSchema *schema, const struct ArrowArray *array);
int32_t robot_verdicts_array(const struct robot *robot, const struct ArrowSchema *schema, const struct ArrowArray *array, int64_t *verdicts);
