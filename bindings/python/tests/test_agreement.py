"""Random files: the package gives what the C library does, called through examples/robots.py, and what robots_verdict prints."""

import random

import package  # noqa: F401 (builds it)
import pytest
import support
from library import random_case

from texting_robots import Matrix, OverlongRuleError, Site, Verdict, robots_url

BITS = [b"\0", b"\xff", b"\xef\xbb\xbf", b"\xe2\x80\x83", b"%41", b"*", b"$", b"\r", b"#", b":", b" "]
BITS += [b"\nUser-agent: *\n", b"\nuseragent: bot\n", b"\nDisallow: /", b"\nAllow: ", b"\nCrawl-delay: 1.5\n", b"\nSitemap: /s\xc3\xb6.xml\n"]
LONG_RULE = b"\nDisallow: /" + b"a" * 5000 + b"$"


def damaged(chance, body):
    made = bytearray(body)
    for _ in range(chance.randrange(8)):
        place = chance.randrange(len(made) + 1)
        if chance.random() < 0.2:
            del made[place : place + chance.randrange(20)]
        else:
            made[place:place] = chance.choice([*BITS, chance.randbytes(3)])
    return bytes(made) + (LONG_RULE if chance.random() < 0.02 else b"")


def verdict_of(number):
    return Verdict(number >= 0, abs(number) or None)


def report_of(robots, agent, urls):
    """What robots_verdict prints for this Site."""
    delay = robots.delay_microseconds(agent)
    lines = [f"delay {'none' if delay is None else delay}"] + [f"sitemap {it}" for it in robots.sitemaps]
    lines += [f"{'allow' if it else 'deny'} {it.line or '-'} {url}" for it, url in zip(robots.verdicts(urls, agent), urls)]
    return "".join(f"{line}\n" for line in lines)


@pytest.mark.parametrize("seed", range(5))
def test_random_files_have_the_results_of_the_c_library_and_of_robots_verdict(robots, seed):
    """4,000 files with a crawler and a URL each: 1,000 files, each with four URLs."""
    chance, program = random.Random(seed), support.program("robots_verdict")
    seen = {"deny": 0, "by a line": 0, "delay": 0, "sitemap": 0, "overlong": 0}
    for _ in range(1000):
        agent, file, urls = random_case(chance)
        file = damaged(chance, file)
        ours, text = Site(file), "".join(f"{line}\n" for line in [agent, *urls, ""]).encode() + file
        printed = support.run(program, (), text)
        rows = robots.matrix([agent, "o"], file, urls)
        assert ours.matrix(urls, [agent, "o"]) == [[None if it == robots.NO_VERDICT else verdict_of(it) for it in row] for row in rows]
        denied = [(name, url, it) for name, row in zip([agent, "o"], rows) for url, it in zip(urls, row) if it < 0]
        denied = [(name, url, None if it == robots.NO_VERDICT else -it) for name, url, it in denied]
        assert Matrix(urls, [agent, "o"]).denials(file) == denied
        assert (ours.sitemaps, ours.agents) == (robots.sitemaps(file), robots.agents(file))
        assert ours.delay_microseconds(agent) == robots.delay(agent, file)
        assert ours.is_named(agent) == (agent.encode().lower() in [it.encode().lower() for it in ours.agents])
        try:
            expected = [verdict_of(it) for it in robots.verdicts_of_file(agent, file, urls)]
        except robots.RobotsError as error:
            with pytest.raises(OverlongRuleError) as raised:
                ours.allowed(urls[0], agent)
            assert raised.value.line == error.line and printed.status == 3
            seen["overlong"] += 1
            continue
        assert [ours.verdict(url, agent) for url in urls] == expected, (file, agent, urls)
        assert [ours.allowed(url, agent) for url in urls] == [it.allowed for it in expected]
        assert (printed.status, printed.out) == (0, report_of(ours, agent, urls)), (file, agent, urls)
        seen["deny"] += sum(not it for it in expected)
        seen["by a line"] += sum(it.line is not None for it in expected)
        seen["delay"] += ours.delay(agent) is not None
        seen["sitemap"] += bool(ours.sitemaps)
    assert min(seen.values()) >= 5, seen


def address_of(call, url, *errors):
    try:
        return call(url)
    except errors:
        return None


def test_random_urls_have_the_address_and_the_result_of_the_c_library(robots):
    """URLs with line feeds too, which go one by one."""
    chance, file = random.Random(9309), b"User-agent: *\nDisallow: /*a\nAllow: /%0A\nDisallow: /\xc3\xb6"
    ours = Site(file)
    with robots.Robot("Bot", file) as robot:
        for _ in range(2000):
            start = chance.choice(["", "/", "https://example.com/", "http://", "HTTPS://b\u00fccher.example:8080", "mailto:"])
            url = start + "".join(chance.choices(["a", "\n", "%", "?", "#", "\0", "/../", " ", "\u00f6", "\U0001f916", "@", ":"], k=5))
            assert address_of(robots_url, url, ValueError) == address_of(robots.robots_url, url, robots.RobotsError), url
            assert ours.verdict(url, "Bot") == ours.verdicts([url, "/"], "Bot")[0] == verdict_of(robot.verdict(url)), url
