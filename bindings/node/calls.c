/* What the package for Node calls: the proved functions of robots_c, with addresses of 32 bits, and with numbers that JavaScript has, so
 * that no BigInt is made. This file isn't proved.
 *
 * Each address that JavaScript passes is one that `take` or one of the calls that open something returned. A text of length 0 has such an
 * address too. What else a call has for JavaScript is in `answer`. */
#include "heap.h"

extern i32 robots_open(const void *agent, u64 agent_len, const void *file, u64 file_len, void **robot, u64 *line);
extern i32 robots_verdict(const void *robot, const void *url, u64 url_len, i64 *verdict);
extern i32 robots_verdict_within(const void *robot, const void *url, u64 url_len, u64 budget, i64 *verdict);
extern i32 robots_number(const void *robot, u64 which, u64 length, u64 *number);
extern void robots_close(void *robot);
extern i32 robots_site_open(const void *file, u64 file_len, bool by_rfc9309, void **site);
extern i32 robots_site_robot(const void *site, const void *agent, u64 agent_len, void **robot, u64 *line);
extern i32 robots_site_number(const void *site, u64 which, const void *agent, u64 agent_len, u64 *number);
extern i32 robots_site_texts(const void *site, bool are_agents, void *out, u64 out_len, u64 *len);
extern void robots_site_close(void *site);
extern i32 robots_url(const void *url, u64 url_len, void *out, u64 out_len, u64 *len);
extern i32 robots_response_meaning(u32 status, u32 redirects, bool has_location, bool is_complete);

/* The numbers of a robot, and of a site, as bindings/c/robots.c names them. */
enum { COST, ROBOT_MEMORY, ROBOT_DELAY };
enum { SITE_MEMORY, IS_NAMED, SITE_DELAY };

#define AT(address) ((void *)(u64)(address))
static struct {
    void *opened;
    u64 line, length, number;
    i64 verdict;
} answer;

EXPORT(take) u32 take(u32 length) { return (u32)(u64)heap_take(length); }

EXPORT(give) void give(u32 block) {
    if (block != 0)
        heap_give(AT(block));
}

EXPORT(held) double held(void) { return (double)heap_held(); }

/* ---- what opens something returns its address, or a negative status; as a double, since an address may have 32 bits */

static double opened(i32 status) { return status != 0 ? status : (double)(u64)answer.opened; }

/* A file is read as RFC 9309 reads it, or else as the Rust crate does. */
EXPORT(site_open) double open_site(u32 file, u32 len, u32 by_rfc9309) {
    return opened(robots_site_open(AT(file), len, by_rfc9309 != 0, &answer.opened));
}

EXPORT(site_robot) double robot_of_site(u32 site, u32 agent, u32 len) {
    return opened(robots_site_robot(AT(site), AT(agent), len, &answer.opened, &answer.line));
}

EXPORT(open) double open_robot(u32 agent, u32 agent_len, u32 file, u32 file_len, u32 by_rfc9309) {
    if (by_rfc9309 == 0)
        return opened(robots_open(AT(agent), agent_len, AT(file), file_len, &answer.opened, &answer.line));
    double site = open_site(file, file_len, by_rfc9309);
    if (site < 0)
        return site;
    double robot = robot_of_site((u32)site, agent, agent_len);
    robots_site_close(AT((u32)site));
    return robot;
}

/* The line of the rule that is too long, after that status. */
EXPORT(line) double overlong_line(void) { return (double)answer.line; }

EXPORT(close) void close_robot(u32 robot) { robots_close(AT(robot)); }

EXPORT(site_close) void close_site(u32 site) { robots_site_close(AT(site)); }

/* ---- verdicts: a file has at most 512,000 lines, so a verdict has 20 bits; a status is added to FAILED */

#define FAILED 2147483647

static i32 verdict(i32 status) { return status != 0 ? FAILED + status : (i32)answer.verdict; }

EXPORT(verdict) i32 verdict_for(u32 robot, u32 url, u32 len) {
    return verdict(robots_verdict(AT(robot), AT(url), len, &answer.verdict));
}

/* JavaScript passes a whole number from 0 to 2^53. */
EXPORT(verdict_within) i32 verdict_within(u32 robot, u32 url, u32 len, double budget) {
    return verdict(robots_verdict_within(AT(robot), AT(url), len, (u64)budget, &answer.verdict));
}

/* ---- numbers, or a negative status */

static double number(i32 status) { return status != 0 ? status : (double)answer.number; }

EXPORT(cost) double cost(u32 robot, double length) { return number(robots_number(AT(robot), COST, (u64)length, &answer.number)); }

EXPORT(memory_of) double memory_of(u32 robot) { return number(robots_number(AT(robot), ROBOT_MEMORY, 0, &answer.number)); }

EXPORT(delay) double delay(u32 robot) { return number(robots_number(AT(robot), ROBOT_DELAY, 0, &answer.number)); }

static double site_number(u32 site, u64 which, void *agent, u32 len) {
    return number(robots_site_number(AT(site), which, agent, len, &answer.number));
}

EXPORT(site_memory) double site_memory(u32 site) { return site_number(site, SITE_MEMORY, &answer, 0); }

EXPORT(site_is_named) double site_is_named(u32 site, u32 agent, u32 len) { return site_number(site, IS_NAMED, AT(agent), len); }

EXPORT(site_delay) double site_delay(u32 site, u32 agent, u32 len) { return site_number(site, SITE_DELAY, AT(agent), len); }

EXPORT(meaning) i32 meaning(u32 status, u32 redirects, u32 has_location, u32 is_complete) {
    return robots_response_meaning(status, redirects, has_location != 0, is_complete != 0);
}

/* ---- texts: their length, or a negative status; if the buffer is too small, `needed` is the length */

static double written(i32 status) { return status != 0 ? status : (double)answer.length; }

EXPORT(site_texts) double site_texts(u32 site, u32 are_agents, u32 out, u32 room) {
    return written(robots_site_texts(AT(site), are_agents != 0, AT(out), room, &answer.length));
}

EXPORT(robots_url) double url_of_robots(u32 url, u32 len, u32 out, u32 room) {
    return written(robots_url(AT(url), len, AT(out), room, &answer.length));
}

EXPORT(needed) double needed(void) { return (double)answer.length; }
