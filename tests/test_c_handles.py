"""Threads that share a robot or a site of the C library, URLs with the places where they end, and programs in C++ and Go."""

import ctypes
import os
import random
import re
import shutil
import subprocess
from pathlib import Path

import pytest
from library import HEADER, batch, random_case
from support import CC, Result, compiled, run
from test_c_library import STRICT, needs, sanitized

TOOLS = {
    "sanitizer": ["-fsanitize=thread"],
    "helgrind": ["valgrind", "-q", "--tool=helgrind", "--error-exitcode=9"],
    "drd": ["valgrind", "-q", "--tool=drd", "--error-exitcode=9"],
    "memcheck": ["valgrind", "-q", "--error-exitcode=9", "--leak-check=full", "--errors-for-leak-kinds=all"],
}


@pytest.mark.parametrize("tool", TOOLS)
def test_threads_share_one_robot_and_one_site(objects, tmp_path, tool):
    """ThreadSanitizer sees what the program does, the others what the library does too."""
    under, sanitizer = (TOOLS[tool], []) if tool != "sanitizer" else ([], TOOLS[tool])
    needs(CC, *sanitizer, "-xc")
    if under and not shutil.which("valgrind"):
        pytest.skip("valgrind is missing")
    (tmp_path / "threads.c").write_text(THREADS)
    words = [*under, compiled(tmp_path / "threads", *STRICT, "-gdwarf-4", *sanitizer, "-pthread", tmp_path / "threads.c", *objects)]
    assert run(Path(shutil.which(words[0])), words[1:]) == Result(0, b"", b"")


def test_children_of_a_fork_use_what_threads_are_using(objects, tmp_path):
    (tmp_path / "threads.c").write_text(THREADS)
    program = compiled(tmp_path / "forks", *STRICT, "-DFORKS=20", "-pthread", tmp_path / "threads.c", *objects)
    assert run(program) == Result(0, b"", b"")


THREADS = r"""
#include "robots.h"
#include <pthread.h>
#include <sys/wait.h>
#include <unistd.h>
#ifndef FORKS
#define FORKS 0
#endif
#define FILE_TEXT "User-agent: *\nDisallow: /a\nCrawl-delay: 3\nSitemap: b"
enum { COUNT = 16 };
struct thread { int right; pthread_t id; };
static robots_robot *robot;
static robots_site *site;
static bool asks(void) {
    int64_t verdicts[2];
    uint64_t delay;
    char text[2];
    size_t len, ends[] = {2, 5};
    robots_robot *own = NULL;
    bool right = robots_verdicts_batch(robot, "/a/\xC3\xA9", 5, ends, 2, verdicts) == ROBOTS_OK && verdicts[0] == -2 && verdicts[1] == 0
        && robots_verdicts(robot, "/a\n/b", 5, verdicts, 2) == ROBOTS_OK && verdicts[0] == -2 && verdicts[1] == 0
        && robots_verdict(robot, "/a", 2, verdicts) == ROBOTS_OK && verdicts[0] == -2
        && robots_verdict_within(robot, "/a", 2, robots_cost(robot, 2), verdicts) == ROBOTS_OK && verdicts[0] == -2
        && robots_delay(robot, &delay) == ROBOTS_OK && delay == 3000000
        && robots_site_matrix(site, "A\nB", 3, "/a", 2, verdicts, 2) == ROBOTS_OK && verdicts[0] == -2 && verdicts[1] == -2
        && robots_site_delay(site, "A", 1, &delay) == ROBOTS_OK && robots_site_is_named(site, "A", 1) == 0
        && robots_site_sitemaps(site, text, 2, &len) == ROBOTS_OK && robots_site_agents(site, text, 2, &len) == ROBOTS_OK
        && robots_site_robot(site, "A", 1, &own, &len) == ROBOTS_OK && robots_memory(own) == robots_memory(robot) && robots_site_memory(site) > 0;
    robots_close(own);
    return right;
}
static void *query(void *given) {
    for (int i = 0; i < (FORKS ? 20000 : 20); i++)
        ((struct thread *)given)->right += asks();
    return NULL;
}
int main(void) {
    struct thread threads[COUNT] = {{0}};
    int32_t status = robots_site_open(FILE_TEXT, sizeof FILE_TEXT - 1, &site);
    status |= robots_site_robot(site, "Bot", 3, &robot, NULL);
    for (int i = 0; i < COUNT; i++)
        status |= pthread_create(&threads[i].id, NULL, query, &threads[i]);
    for (int i = 0; i < FORKS; i++) {
        int ended = 1;
        pid_t child = fork();
        if (child == 0)
            _exit(!asks());
        status |= waitpid(child, &ended, 0) != child || ended != 0;
    }
    for (int i = 0; i < COUNT; i++) {
        status |= pthread_join(threads[i].id, NULL);
        status |= threads[i].right != (FORKS ? 20000 : 20);
    }
    robots_close(robot);
    robots_site_close(site);
    return status != 0;
}
"""


@pytest.mark.parametrize("site_open", ["robots_site_open", "robots_site_open_rfc9309"])
def test_bytes_are_those_that_were_allocated(installed, tmp_path, site_open):
    """Robots have no sitemaps, so all without rules take as much."""
    (tmp_path / "bytes.c").write_text(BYTES)
    counted = compiled(tmp_path / "bytes", *STRICT, f"-DSITE_OPEN={site_open}", tmp_path / "bytes.c", installed / "lib/librobots_c.a")
    robots = []
    for file in [b"", b"Sitemap: /s\n" * 2000, b"User-agent: a\n" * 9, b"User-agent: *\nDisallow: /a*bcd\n", b"User-agent: *\n" + b"Disallow: /a\n" * 60]:
        result = run(counted, [], file)
        robot, robot_bytes, own, own_bytes, site, site_bytes = map(int, result.out.split())
        assert (result.status, result.err) == (0, "") and (robot, own, site) == (robot_bytes, own_bytes, site_bytes)
        assert robot == own and site >= len(file)
        robots.append(robot)
    assert [it - robots[0] for it in robots] == [0, 0, 0, 64 + 6 + 12 + 2 * 4, 60 * (64 + 2 + 8)]  # as robots.h says


BYTES = r"""
#include "robots.h"
#include <stdio.h>
#include <stdlib.h>
/* The length of each block is in front of it. */
static size_t held;
static char nothing;
static bool fails;
struct rattle_allocation { _Bool worked; void *block; };
struct rattle_allocation rattle_alloc(size_t length, size_t alignment) {
    size_t *block = alignment <= 16 && !fails ? malloc(16 + length) : NULL;
    if (block == NULL)
        return (struct rattle_allocation){0, &nothing};
    held += *block = length;
    return (struct rattle_allocation){1, (char *)block + 16};
}
void rattle_dealloc(void *block) {
    size_t *start = (void *)((char *)block - 16);
    held -= *start;
    free(start);
}
struct rattle_allocation rattle_realloc(void *block, size_t used, size_t length, size_t alignment) {
    struct rattle_allocation tried = rattle_alloc(length, alignment);
    if (tried.worked) {
        memcpy(tried.block, block, used);
        rattle_dealloc(block);
    }
    return tried;
}
int main(void) {
    static char file[100000];
    size_t length = fread(file, 1, sizeof file, stdin), before;
    robots_robot *robot = (void *)&nothing, *own = robot, *other; /* an old value is never closed */
    robots_site *site = (void *)&nothing, *same;
    int64_t verdict;
    if (robots_open("Bot", 3, file, length, &robot, NULL) != ROBOTS_OK || robots_verdict(robot, "/\xC3\xA9", 3, &verdict) != ROBOTS_OK)
        return 2;
    printf("%zu %zu\n", before = held, robots_memory(robot));
    fails = true; /* then nothing is written */
    robots_robot *kept = other = robot;
    if (robots_open("Bot", 3, file, length, &other, NULL) != ROBOTS_OUT_OF_MEMORY || other != kept || held != before)
        return 7;
    fails = false;
    robots_close(robot);
    if (held != 0 || SITE_OPEN(file, length, &site) != ROBOTS_OK)
        return 4;
    before = held;
    if (robots_site_robot(site, "Bot", 3, &own, NULL) != ROBOTS_OK)
        return 5;
    printf("%zu %zu\n", held - before, robots_memory(own));
    robots_close(own);
    printf("%zu %zu\n", held, robots_site_memory(site));
    fails = true;
    before = held;
    robots_site *whole = same = site;
    if (SITE_OPEN(file, length, &same) != ROBOTS_OUT_OF_MEMORY || robots_site_robot(site, "Bot", 3, &other, NULL) != ROBOTS_OUT_OF_MEMORY
        || same != whole || other != kept || held != before)
        return 8;
    robots_site_close(site);
    return held != 0;
}
"""


def test_batches_of_random_files(robots, shared_object):
    """What robots_verdicts writes for the same URLs, and what robots_verdict writes for URLs with line feeds."""
    chance, library = random.Random(7), ctypes.CDLL(str(shared_object))
    for _ in range(300):
        agent, file, urls = random_case(chance)
        with robots.Robot(agent, file) as robot:
            wanted = robot.verdicts(urls)
            assert batch(library, robot, urls) == (robots.OK, wanted)
            joined = ["\n".join(urls), *urls]
            assert batch(library, robot, joined) == (robots.OK, [robot.verdict(joined[0]), *wanted])


def test_null_is_reported_where_it_is_forbidden(tmp_path):
    """The compiler warns of it, by the header alone, for each parameter that isn't a text, a buffer or `line`."""
    needs(CC, "-xc")
    calls = re.findall(r"\b(robots_\w+)\(([^)]*)\)\s+ROBOTS_NONNULL\(([\d, ]+)\)", HEADER)
    assert len(calls) >= 17
    for name, parameters, numbers in calls:
        pointers = [number for number, it in enumerate(parameters.split(","), 1) if "*" in it]
        outputs = {number for number in pointers if re.search(r"\*(robot|site|verdict|microseconds|len)$", parameters.split(",")[number - 1].strip())}
        assert {int(it) for it in numbers.split(",")} == outputs, name
        source = tmp_path / f"{name}.c"
        zeros = ", ".join("0" for _ in parameters.split(","))
        source.write_text(f'#include "robots.h"\nint main(void) {{ return {name}({zeros}); }}\n')
        ended = subprocess.run([CC, "-std=c11", "-Wnonnull", *STRICT, "-fsyntax-only", source], capture_output=True, text=True)
        assert ended.returncode != 0 and "onnull" in ended.stderr, name


@sanitized
def test_called_from_cplusplus(objects, tmp_path, sanitizers):
    needs("g++", *sanitizers, "-xc++")
    (tmp_path / "program.cpp").write_text(CPLUSPLUS)
    words = ["g++", "-std=c++11", "-Wall", "-Wextra", *STRICT, *sanitizers, tmp_path / "program.cpp", *objects, "-pthread", "-o", tmp_path / "program"]
    subprocess.run(words, check=True)
    assert run(tmp_path / "program") == Result(0, b"1 -2 0 -2\n", b"")


CPLUSPLUS = r"""
#include "robots.h"
#include <iostream>
#include <memory>
#include <string>
#include <thread>
#include <vector>
namespace robots {
using Robot = std::shared_ptr<const robots_robot>;
static Robot opened(const std::string &agent, const std::string &file) {
    robots_robot *robot = nullptr;
    return Robot(robots_open(agent.data(), agent.size(), file.data(), file.size(), &robot, nullptr) == ROBOTS_OK ? robot : nullptr,
                 [](const robots_robot *it) { robots_close(const_cast<robots_robot *>(it)); });
}
}
int main() {
    robots_close(nullptr);
    if (robots_may_fetch(-1) || robots_version() != ROBOTS_VERSION) return 6;
    robots::Robot robot = robots::opened("Bot", "User-agent: *\nDisallow: /a");
    if (!robot) return 2;
    int64_t one = 0;
    std::vector<int64_t> many(2), batch(2);
    const std::string urls = "/b\n/a", joined = "/a\n/b";
    const std::vector<std::size_t> ends = {2, 5};
    if (robots_verdict(robot.get(), "/b", 2, &one) != ROBOTS_OK) return 3;
    if (robots_verdicts(robot.get(), urls.data(), urls.size(), many.data(), many.size()) != ROBOTS_OK) return 4;
    robots::Robot other = robot;
    robot.reset();
    int32_t status = ROBOTS_OUT_OF_MEMORY;
    std::thread([&] { status = robots_verdicts_batch(other.get(), joined.data(), joined.size(), ends.data(), ends.size(), batch.data()); }).join();
    std::cout << robots_may_fetch(one) << ' ' << many[1] << ' ' << batch[1] << ' ' << batch[0] << '\n';
    return status == ROBOTS_OK && robots_status_text(status) == std::string("no error") ? 0 : 5;
}
"""


def test_called_from_go(installed, tmp_path):
    if not shutil.which("go"):
        pytest.skip("go is missing")
    (tmp_path / "go.mod").write_text("module caller\n\ngo 1.18\n")
    (tmp_path / "main.go").write_text(GO)
    flags = {"CGO_ENABLED": "1", "CGO_CFLAGS": f"-I{installed}/include", "CGO_LDFLAGS": f"{installed}/lib/librobots_c.a", "CC": CC}
    caches = {"GOCACHE": f"{tmp_path}/cache", "GOPATH": f"{tmp_path}/path", "GOFLAGS": "-mod=mod", "GOPROXY": "off", "GO111MODULE": "on"}
    ended = subprocess.run(["go", "build", "-o", "program"], cwd=tmp_path, env=os.environ | flags | caches, capture_output=True, text=True)
    assert ended.returncode == 0, ended.stderr
    assert run(tmp_path / "program") == Result(0, b"true 0 [0 -2] [-2 0]\n", b"")


GO = r"""
package main

// #include "robots.h"
import "C"

import (
	"fmt"
	"os"
	"unsafe"
)

func text(s string) (*C.char, C.size_t) { return (*C.char)(unsafe.Pointer(&[]byte(s)[0])), C.size_t(len(s)) }

func must(status C.int32_t) {
	if status != C.ROBOTS_OK {
		fmt.Fprintln(os.Stderr, C.GoString(C.robots_status_text(status)))
		os.Exit(1)
	}
}

func main() {
	agent, agentLen := text("Bot")
	file, fileLen := text("User-agent: *\nDisallow: /a")
	var robot *C.robots_robot
	must(C.robots_open(agent, agentLen, unsafe.Pointer(file), fileLen, &robot, nil))
	var one C.int64_t
	url, urlLen := text("/b")
	must(C.robots_verdict(robot, url, urlLen, &one))
	many := make([]C.int64_t, 2)
	urls, urlsLen := text("/b\n/a")
	must(C.robots_verdicts(robot, urls, urlsLen, &many[0], 2))
	done := make(chan []C.int64_t)
	go func() {
		batch, ends := make([]C.int64_t, 2), []C.size_t{2, 4}
		joined, joinedLen := text("/a/b")
		must(C.robots_verdicts_batch(robot, unsafe.Pointer(joined), joinedLen, &ends[0], 2, &batch[0]))
		done <- batch
	}()
	fmt.Println(C.robots_may_fetch(one) == 1, C.robots_verdict_line(one), many, <-done)
	C.robots_close(robot)
}
"""
