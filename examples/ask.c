/* ask AGENT [URL..] < robots.txt: what the file says to the crawler AGENT: the address of the robots.txt file of the first URL, the
 * delay in microseconds, the sitemaps, and for each URL whether it may be fetched, and by which line.
 *
 * The status is 0 if every URL is allowed, 1 if one is denied, and 2 after an error. */
#include "robots.h"
#include <inttypes.h>
#include <stdio.h>
#include <string.h>

static int report(int32_t status, size_t line) {
    if (status == ROBOTS_OVERLONG_RULE)
        fprintf(stderr, "ask: the rule in line %zu is too long: the file can't be used for this crawler\n", line);
    else
        fprintf(stderr, "ask: %s\n", robots_status_text(status));
    return 2;
}

/* Writes the lines of a text, each after this word. */
static void print_lines(const char *word, const char *text, size_t len) {
    for (const char *end = text + len, *next; text < end; text = next) {
        next = memchr(text, '\n', (size_t)(end - text));
        next = next == NULL ? end : next + 1;
        printf("%s %.*s\n", word, (int)(next - text - 1), text);
    }
}

/* Writes the verdict on each URL, and returns the exit status. */
static int print_verdicts(const robots_robot *robot, char **urls, int count) {
    int denied = 0;
    for (int i = 0; i < count; i++) {
        int64_t verdict;
        int32_t status = robots_verdict(robot, ROBOTS_STRING(urls[i]), &verdict);
        if (status != ROBOTS_OK)
            return report(status, 0);
        printf("%s ", robots_may_fetch(verdict) ? "allow" : "deny");
        if (robots_verdict_line(verdict) == 0)
            printf("- %s\n", urls[i]);
        else
            printf("%" PRId64 " %s\n", robots_verdict_line(verdict), urls[i]);
        denied |= !robots_may_fetch(verdict);
    }
    return denied;
}

int main(int argc, char **argv) {
    static char file[ROBOTS_FILE_LIMIT], text[ROBOTS_FILE_LIMIT];
    if (argc < 2)
        return fputs("usage: ask AGENT [URL..] < robots.txt\n", stderr), 2;
    size_t file_len = fread(file, 1, sizeof file, stdin), len, line = 0;
    uint64_t delay;
    robots_site *site = NULL;
    robots_robot *robot = NULL;

    if (ferror(stdin)) /* the rest of the file is missing, perhaps with the rules that deny */
        return perror("ask: standard input"), 2;
    if (argc > 2 && robots_url(ROBOTS_STRING(argv[2]), text, sizeof text, &len) == ROBOTS_OK)
        printf("robots %.*s\n", (int)len, text);
    int32_t status = robots_site_open(file, file_len, &site);
    if (status == ROBOTS_OK)
        status = robots_site_robot(site, ROBOTS_STRING(argv[1]), &robot, &line);
    if (status != ROBOTS_OK) {
        robots_site_close(site);
        return report(status, line);
    }
    if (robots_delay(robot, &delay) == ROBOTS_OK)
        printf("delay %" PRIu64 "\n", delay);
    else
        puts("delay none");
    status = robots_site_sitemaps(site, text, sizeof text, &len);
    if (status == ROBOTS_OK)
        print_lines("sitemap", text, len);
    int exit_status = status == ROBOTS_OK ? print_verdicts(robot, argv + 2, argc - 2) : report(status, 0);
    robots_close(robot);
    robots_site_close(site);
    if (fflush(stdout) != 0 || ferror(stdout))
        return perror("ask: standard output"), 2;
    return exit_status;
}
