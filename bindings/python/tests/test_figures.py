"""What the middleware tells of its work, by the log, the stats and a signal; and some of its settings."""

import re
import time

import package
import pytest
from test_middleware import DOWNLOADER_MIDDLEWARES, GROUPS, RULES, allowed, fails, file, ours

package.needs("scrapy")

from scrapy.http import Request  # noqa: E402
from scrapy.settings import Settings  # noqa: E402
from twisted.internet.defer import Deferred, ensureDeferred  # noqa: E402

from texting_robots import middleware  # noqa: E402
from texting_robots.cache import KnownSite, State  # noqa: E402
from texting_robots.scrapy import RobotsAddon  # noqa: E402


def levels(caplog):
    return [it.levelname for it in caplog.records if re.match(r"http://\S+ can't be fetched: (?!it is asked)", it.getMessage())]


def test_the_first_failure_of_a_site_is_a_warning(caplog):
    """Also while an older file counts on. Later ones are for debugging, until the server has answered."""
    caplog.set_level("DEBUG")
    robots, crawler = ours(file(), TEXTING_ROBOTS_LIFETIME=0.01, TEXTING_ROBOTS_RETRY=0.01)
    for status in (200, 503, 503, 200, 503):
        crawler.engine.answer = file(status=status)
        assert allowed(robots, "http://a.example/")
        time.sleep(0.02)
    assert levels(caplog) == ["WARNING", "DEBUG", "WARNING"]
    caplog.clear()
    crawler.engine.answer = fails(RuntimeError("in other code"))
    for _ in range(2):
        assert not allowed(robots, "http://b.example/")
        time.sleep(0.02)
    assert levels(caplog) == ["ERROR", "DEBUG"] and [bool(it.exc_info) for it in caplog.records if "in other code" in it.getMessage()] == [True, False]


def test_figures(caplog):
    """As often as Scrapy logs its own, and at the end."""
    caplog.set_level("INFO")
    robots, crawler = ours(file(status=503))
    names = ["waiting", "in_flight", "outages", "oldest_outage_seconds"]

    def figures():
        return [crawler.stats.get_value(f"robotstxt/{name}") for name in names]

    caplog.clear()
    robots._figures.write()
    assert figures() == [0, 0, 0, 0] and not caplog.records
    for name in "ab":
        assert not allowed(robots, f"http://{name}.example/")
    robots._figures._outages = {address: since - 90 for address, since in robots._figures._outages.items()}
    crawler.engine.answer = lambda request: Deferred()
    ensureDeferred(robots.process_request(Request("http://c.example/")))
    caplog.clear()
    robots._figures._spider_opened()
    robots._figures._call.clock, robots._figures._interval = None, 0
    robots._spider_closed()
    assert figures() == [0, 1, 2, 90]
    assert [it.getMessage() for it in caplog.records] == [
        "robots.txt files that can't be fetched: 2, the first for 90 s; requests that wait: 0;"
        " files that are being fetched: 1"
    ]
    crawler.engine.answer = file()
    robots._figures.known([KnownSite("http://a.example/robots.txt", State.FILE, 1, 1)])
    robots._figures.write()
    assert figures()[2] == 1


@pytest.mark.parametrize("places, warnings", [({}, 1), (DOWNLOADER_MIDDLEWARES, 0), ({"scrapy.downloadermiddlewares.robotstxt.RobotsTxtMiddleware": 500}, 1)])
def test_a_warning_if_the_middleware_of_scrapy_is_still_on(caplog, places, warnings):
    ours(file(), DOWNLOADER_MIDDLEWARES=places)
    assert caplog.text.count("RobotsTxtMiddleware is still on: every robots.txt file is fetched twice") == warnings


def test_the_response_itself_comes_by_a_signal():
    robots, crawler = ours(lambda request: file(RULES + b"\xff", 301, Location="/r")(request) if "robots" in request.url else file()(request))
    found = []
    crawler.signals.connect(lambda response, spider: found.append((response.url, response.status, response.body)), middleware.robots_received, weak=False)
    assert allowed(robots, "http://a.example/")
    assert found == [("http://a.example/robots.txt", 301, RULES + b"\xff"), ("http://a.example/r", 200, RULES)]


def test_hosts_that_are_exempt_and_several_names():
    robots, crawler = ours(file(GROUPS), TEXTING_ROBOTS_EXEMPT=["a.example"], ROBOTSTXT_USER_AGENT=["Nobody", "Other"])
    assert allowed(robots, "http://a.example/private/") and not crawler.engine.requests
    assert allowed(robots, "http://b.example/private/") and not allowed(robots, "http://b.example/public/")


def test_cache_control_shortens_the_lifetime():
    robots, _ = ours(file(**{"Cache-Control": "max-age=600"}))
    assert allowed(robots, "http://a.example/")
    (site,) = robots._cache._memory.sites.values()
    assert site.expires == pytest.approx(time.time() + 600, abs=60)


class SettingsOfLater(Settings):
    """Those of Scrapy 2.10 and later, as far as add-ons use them."""

    def set(self, name, value, priority="project"):
        super().set(name, value, 15 if priority == "addon" else priority)


@pytest.mark.parametrize("project", [{}, {"DOWNLOADER_MIDDLEWARES": {"own.Middleware": 5}}, {"DOWNLOADER_MIDDLEWARES": {"texting_robots.middleware.RobotsMiddleware": 7}}])
def test_the_addon_for_a_newer_scrapy(project):
    settings = SettingsOfLater(project)
    RobotsAddon().update_settings(settings)
    expected = DOWNLOADER_MIDDLEWARES | project.get("DOWNLOADER_MIDDLEWARES", {})
    assert dict(settings["DOWNLOADER_MIDDLEWARES"]) == expected and settings.getbool("ROBOTSTXT_OBEY")
    settings = SettingsOfLater({"ROBOTSTXT_OBEY": False})
    RobotsAddon().update_settings(settings)
    assert not settings.getbool("ROBOTSTXT_OBEY")
