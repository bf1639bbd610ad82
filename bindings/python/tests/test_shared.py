"""native/shared.c, by which threads share a file, with sanitizers: each block is freed once, after its last user."""

import subprocess
from pathlib import Path

import pytest
from library import LIBRARY
from support import CC, Result, compiled, run

NATIVE = Path(__file__).resolve().parent.parent / "native"

PROGRAM = r"""
#include <stdatomic.h>
static void meanwhile(void);
#undef atomic_compare_exchange_strong
#define atomic_compare_exchange_strong(at, known, made) \
    (meanwhile(), atomic_compare_exchange_strong_explicit(at, known, made, memory_order_seq_cst, memory_order_seq_cst))
#include "shared.c"
#include <pthread.h>
#include <stdio.h>

/* The site whose robot another thread opens while this one does. */
static struct site *contended;

static void meanwhile(void) {
    struct site *site = contended;
    if (site != NULL)
        contended = NULL, robot_close(robot_open(site, "two", 3));
}

static int failures;

/* Says which condition doesn't hold. */
static void check(const char *name, int holds) {
    if (!holds)
        failures++, printf("%s is wrong\n", name);
}

static void *use(void *given) {
    struct site *site = given;
    int64_t verdicts[2];
    size_t right = 0;
    for (int i = 0; i < 200; i++) {
        struct robot *one = robot_open(site, "one", 3), *own = robot_open(site, "own", 3);
        right += robot_verdict(one, "/a", 2) == -2 && robot_verdict(own, "/a", 2) == 0 && robot_memory(one) == 0 && robot_memory(own) > 0
            && site_memory(site) > 0 && site_matrix(site, "x", 1, "/a", 2, verdicts, 2) == ROBOTS_OK && verdicts[0] == -2;
        robot_close(one);
        robot_close(own);
    }
    return right == 200 ? site : NULL;
}

static void share(void) {
    const char file[] = "User-agent: *\nDisallow: /a\nUser-agent: own\nDisallow: /b";
    struct site *site = site_open(file, sizeof file - 1, false);
    pthread_t threads[16];
    int right = 0;
    for (int i = 0; i < 16; i++)
        right += pthread_create(&threads[i], NULL, use, site) == 0;
    for (int i = 0; i < 16; i++) {
        void *used = NULL;
        right += pthread_join(threads[i], &used) == 0 && used == site;
    }
    check("what threads share", right == 32);
    site_close(site);
}

int main(void) {
    char file[5000] = "User-agent: *\nDisallow: /a\nCrawl-delay: 1\nSitemap: s\nUser-agent: Long\nDisallow: /$", text[9];
    memset(file + strlen(file), 'a', 4096);
    int64_t verdicts[2];
    uint64_t delay = 0;
    size_t length = 0, ends[2] = {2, 4};
    struct site *site = site_open(file, strlen(file), false);
    struct robot *one = robot_open(site, "one", 3);
    check("a robot", one != NULL);
    struct robot *two = robot_open(site, "two", 3);
    check("the same for all that no line names", one == two);
    robot_close(one);
    robot_close(two);
    one = robot_open(site, "one", 3);
    check("again", one == two && robot_verdict(one, "/a", 2) == -2);
    check("many", robot_verdicts(one, "/a\n/b", 5, verdicts, 2) == ROBOTS_OK && verdicts[0] == -2 && verdicts[1] == 0);
    check("a batch", robot_verdicts_batch(one, "/b/a", 4, ends, 2, verdicts) == ROBOTS_OK && verdicts[0] == 0 && verdicts[1] == -2);
    check("the delay of a robot", robot_delay(one, &delay) == ROBOTS_OK && delay == 1000000);
    struct robot *own = robot_open(site, "long", 4);
    check("a rule that is too long", own != one && robot_overlong_line(own) == 6);
    check("no verdict", robot_verdict(own, "/a", 2) == NO_VERDICT - ROBOTS_OVERLONG_RULE);
    check("no verdicts", robot_verdicts(own, "/a", 2, verdicts, 2) == ROBOTS_OVERLONG_RULE);
    check("what isn't UTF-8", robot_verdict(one, "\xFF", 1) == NO_VERDICT - ROBOTS_NOT_UTF8);
    check("a matrix", site_matrix(site, "x", 1, "/a", 2, verdicts, 2) == ROBOTS_OK && verdicts[0] == -2);
    check("a delay", site_delay(site, "x", 1, &delay) == ROBOTS_OK && delay == 1000000);
    check("sitemaps", site_sitemaps(site, text, 9, &length) == ROBOTS_OK && length == 2);
    check("agents", site_agents(site, text, 9, &length) == ROBOTS_OK && length == 7);
    check("named", site_is_named(site, "LONG", 4) == 1);
    check("not named", site_is_named(site, "Lon", 3) == 0);
    site_close(site);
    check("without the site", robot_verdict(one, "/a", 2) == -2);
    robot_close(one);
    robot_close(own);
    one = robot_of_file(file, strlen(file), false, "one", 3);
    own = robot_of_file(file, strlen(file), false, "long", 4);
    check("robots of a file", robot_verdict(one, "/a", 2) == -2 && robot_memory(one) > 0 && robot_overlong_line(own) == 6);
    robot_close(one);
    robot_close(own);
    one = robot_of_file("User-agent: *\nDisallow: /%62", 28, true, "one", 3);
    own = robot_of_file("User-agent: *\nDisallow: /%62", 28, false, "one", 3);
    check("readings of a file", robot_verdict(one, "/b", 2) == -2 && robot_verdict(own, "/b", 2) == 0);
    robot_close(one);
    robot_close(own);
    check("a file that isn't kept", file_matrix("x", 1, file, strlen(file), false, "/a", 2, verdicts, 2) == ROBOTS_OK && verdicts[0] == -2);
    site = contended = site_open("", 0, true);
    robot_close(robot_open(site, "one", 3));
    check("two threads at once", contended == NULL);
    site_close(site);
    share();
    return failures;
}
"""


@pytest.mark.parametrize("sanitizers", ["address,undefined", "thread"])
def test_called_from_c(objects, tmp_path, sanitizers):
    words = ["-g", f"-fsanitize={sanitizers}", "-fno-sanitize-recover=all"]
    if subprocess.run([CC, *words, "-xc", "-", "-o", "/dev/null"], input="int main(void) { return 0; }", text=True, capture_output=True).returncode:
        pytest.skip("the compiler has no sanitizers")
    (tmp_path / "program.c").write_text(PROGRAM)
    words += ["-Wno-unused-function", f"-I{LIBRARY}", f"-I{NATIVE}", "-pthread", tmp_path / "program.c", *objects]
    assert run(compiled(tmp_path / "program", *words)) == Result(0, "", "")
