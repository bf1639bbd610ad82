"""examples/crawl.py crawls 1,000 sites, of which a tenth fails in many ways: no URL is lost, and no file is fetched too often."""

import re
import subprocess
import sys

import package
import pytest
from proxied import PATHS, PUBLIC, Proxy, ways

package.needs("aiohttp")
SITES, BUDGET = 1000, 500_000
SITES_OF = ways(SITES)
URLS = [f"http://{host}{path}" for path in PATHS for host in SITES_OF]


def crawled(proxy, *words):
    """The output and the messages of a crawl of all URLs."""
    command = [sys.executable, package.PACKAGE / "examples/crawl.py", "--agent", "FerrisBot/1.0", "--proxy", proxy.address, "--retry", "1"]
    command += ["--timeout", "20", "--patience", "120", "--budget", str(BUDGET), *words]
    measure = "import resource, subprocess, sys; s = subprocess.run(sys.argv[1:]); print(resource.getrusage(resource.RUSAGE_CHILDREN).ru_maxrss, file=sys.stderr); sys.exit(s.returncode)"
    command = [sys.executable, "-c", measure, *command]
    ended = subprocess.run(command, input="\n".join(URLS), capture_output=True, text=True, timeout=300, env=package.WITH_PACKAGE)
    assert ended.returncode == 0, ended.stderr[-2000:]
    return ended.stdout.splitlines(), ended.stderr


@pytest.fixture(scope="module")
def crawl(tmp_path_factory):
    """The proxy after two crawls with one database, what it got in the first, and the output and the messages of both."""
    database = tmp_path_factory.mktemp("crawl") / "robots.sqlite3"
    proxy = Proxy(SITES_OF)
    first = crawled(proxy, "--database", database)
    got = {host: list(paths) for host, paths in proxy.got.items()}
    second = crawled(proxy, "--database", database)
    proxy.close()
    return proxy, got, first, second


def test_each_file_is_fetched_as_often_as_the_standard_allows(crawl):
    assert {host: paths.count("/robots.txt") for host, paths in crawl[1].items()} == {host: way[1] for host, way in SITES_OF.items()}


def test_no_url_is_lost(crawl):
    """Each is fetched, or denied by a rule, or its site fails for longer than the crawl."""
    lines = crawl[2][0]
    assert sorted(line.rpartition(": ")[2] for line in lines) == sorted(URLS)
    for host, (_, _, pages) in SITES_OF.items():
        assert sorted(set(crawl[1][host]) - {"/robots.txt"}) == sorted(pages), host
    words = [re.sub(r"[\d.]+ s$", "SECONDS", re.sub(r"of http.*", "of ADDRESS", line.rpartition(": ")[0])) for line in lines]
    denied = sum(way[2] == PUBLIC for way in SITES_OF.values())
    unreachable = sum(len(PATHS) for way in SITES_OF.values() if not way[2])
    assert sum(word.startswith("denied, line") for word in words) == denied
    assert words.count("unreachable, again in SECONDS") == unreachable > 0
    assert words.count("200") == len(URLS) - denied - unreachable


def test_memory_stays_within_the_setting(crawl):
    for _, messages in crawl[2:]:
        assert 0 < int(re.search(r"sites take (\d+) bytes", messages)[1]) <= BUDGET
        assert int(messages.split()[-1]) < 150_000


def test_the_second_crawl_fetches_no_file(crawl):
    """Also not those that can't be reached for longer."""
    proxy, got, first, second = crawl
    for host, paths in got.items():
        later = proxy.got[host][len(paths) :]
        assert "/robots.txt" not in later and sorted(later) == sorted(set(paths) - {"/robots.txt"}), host
    assert sorted(re.sub(r"\d+ s", "", line) for line in first[0]) == sorted(re.sub(r"\d+ s", "", line) for line in second[0])
