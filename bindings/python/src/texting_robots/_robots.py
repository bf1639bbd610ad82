"""What a robots.txt file says to any crawler."""

from __future__ import annotations

from collections.abc import Iterable
from typing import TYPE_CHECKING, Final

from ._calls import (
    LAST_FAILURE,
    NO_VERDICT,
    Body,
    Reading,
    Verdict,
    check,
    delay_of,
    file_bytes,
    is_rfc9309,
    joined,
    name_bytes,
    owned,
    several,
    verdict_of,
    written,
    wrong_type,
)
from ._errors import OverlongRuleError
from ._native import ffi, lib
from ._robot import Robot

if TYPE_CHECKING:
    from _typeshed import ReadableBuffer
    from typing_extensions import Self

    from ._native import CData

_AGENTS_KEPT: Final = 1000
"""For so many agents a Site keeps what the file says to them, so that it doesn't grow forever."""

_verdict: Final = lib.robot_verdict
_encode: Final = str.encode


class Site:
    """A robots.txt file. When one crawler is asked about, it is parsed for that one alone, and from a second one on once for all.

    ``body`` is the file: preferably its bytes as received, which needn't be UTF-8, in a ``bytes`` or any other buffer, which is copied. A
    ``str`` is encoded as UTF-8; what ``surrogateescape`` made of other bytes becomes these again. An ``agent`` is a product token without a
    version (see `product_token`).

    A ``url`` is an absolute URL, or a path with its query. In a URL ``.`` and ``..`` are resolved, as by browsers, but in a path they aren't:
    a rule for ``/private`` matches ``https://example.com/a/../private``, and not ``/a/../private``.

    With ``reading="rfc9309"`` the verdicts are those of RFC 9309, also for a file that is read otherwise by default, as the Rust crate
    ``texting_robots`` reads it: see COMPATIBILITY. Then a URL is compared as it is written, so trim and parse it first. Delays, sitemaps and
    agents are the same in both readings.

    Threads share it without a lock. It can be pickled, as its bytes and the attributes of a subclass.

    The methods raise `OverlongRuleError` if the file can't be used for the agent, and `AgentError`, also a TypeError and a ValueError,
    for an agent with ``/``: each is a `RobotsError`. What isn't a ``str``, and one ``str`` in place of several, is a TypeError, a lone
    surrogate a ValueError, and a failed allocation a MemoryError.
    """

    def __init__(self, body: Body, reading: Reading = "crate") -> None:
        self._site = _Site(file_bytes(body), reading)

    @classmethod
    def parse(cls, body: Body, reading: Reading = "crate") -> Self:
        """The constructor by Protego's name."""
        return cls(body) if reading == "crate" else cls(body, reading)

    @classmethod
    def allow_all(cls) -> Self:
        """A file that allows everything to every crawler."""
        return cls(b"")

    @classmethod
    def deny_all(cls) -> Self:
        """A file that denies everything but ``/robots.txt`` to every crawler."""
        return cls(ffi.string(lib.DENY_ALL_FILE))

    def allowed(self, url: str, agent: str) -> bool:
        """Whether the crawler may fetch the URL."""
        # the lookup of its robot and that robot's verdict, written out to save two calls; most callers have one `str` for their agent
        newest, opened = self._site.newest
        if newest is not agent:
            site = self._site
            opened = ((type(agent) is str and site.robots.get(agent)) or site.robot(agent))._opened
            site.newest = agent, opened
        try:
            text = _encode(url)
        except TypeError:
            raise wrong_type("url", url) from None
        number = _verdict(opened, text, len(text))
        if number >= 0:
            return True
        return number <= LAST_FAILURE and self._site.robot(agent)._fails(number)

    can_fetch = allowed
    """Protego's name. (The one of urllib.robotparser has the agent first.)"""

    def verdict(self, url: str, agent: str) -> Verdict:
        """Whether the crawler may fetch the URL, and the line that decides it."""
        return self._site.robot(agent).verdict(url)

    def verdict_within(self, url: str, agent: str, budget: int) -> Verdict:
        """The verdict for a URL, for a file that may be hostile. Each rule that is tried costs one, and each comparison of a byte of the URL
        one; before a rule that might cost more than is left of the budget, from 0 to 2**64 - 1, it raises `TooCostlyError`."""
        return self._site.robot(agent).verdict_within(url, budget)

    def cost(self, length: int, agent: str) -> int:
        """With so much as a budget, `verdict_within` raises no `TooCostlyError` for any URL whose path, query and fragment, escaped, have
        this length. It is at most 2**64 - 1."""
        return self._site.robot(agent).cost(length)

    def verdicts(self, urls: Iterable[str], agent: str) -> list[Verdict]:
        """The verdict for each URL, in their order: faster than one by one."""
        return self._site.robot(agent).verdicts(urls)

    def matrix(self, urls: Iterable[str], agents: Iterable[str]) -> list[list[Verdict | None]]:
        """The verdicts of many crawlers: for each agent a list with the verdict for each URL, or with None, which doesn't allow either,
        if the file can't be used for the agent. Agents that the file doesn't name cost little."""
        urls, agents = several(urls, "urls"), several(agents, "agents")
        urls_text, agents_text = joined(urls, "urls"), joined(agents, "agents")
        for agent in agents if agents_text is None or b"/" in agents_text else ():
            name_bytes(agent)
        if urls_text is None or agents_text is None:
            return [[self._verdict_or_none(url, agent) for url in urls] for agent in agents]
        width, length = len(urls), len(urls) * len(agents)
        out = ffi.new("int64_t[]", length)
        check(lib.site_matrix(self._site.opened, agents_text, len(agents_text), urls_text, len(urls_text), out, length))
        numbers = ffi.unpack(out, length)
        verdicts = {number: None if number == NO_VERDICT else verdict_of(number) for number in set(numbers)}
        return [[verdicts[number] for number in numbers[start : start + width]] for start in range(0, length, width)]

    def delay(self, agent: str) -> float | None:
        """How many seconds the crawler waits between two requests, or None: up to 1.8e13, so limit it before you sleep."""
        microseconds = self.delay_microseconds(agent)
        return None if microseconds is None else microseconds / 1_000_000

    crawl_delay = delay
    """The name that Protego and urllib.robotparser have for it."""

    def delay_microseconds(self, agent: str) -> int | None:
        """The delay in microseconds, exactly, or None."""
        robot = type(agent) is str and self._site.robots.get(agent)
        return self._site.delay(name_bytes(agent)) if not robot or lib.robot_overlong_line(robot._opened) else robot.delay_microseconds

    @property
    def sitemaps(self) -> list[str]:
        """The sitemaps, which are the same for every crawler, in the file's order; also empty ones, but none that isn't UTF-8."""
        # for sitemaps the length of the file is always enough room
        site = self._site.read()
        return written(lambda *out: lib.site_sitemaps(site, *out), len(self._site.body)).split("\n")[:-1]

    @property
    def agents(self) -> list[str]:
        """The names in the file's user-agent lines, ``*`` too, in its order; of names that differ only in case the first."""
        site = self._site.read()
        return written(lambda *out: lib.site_agents(site, *out), 256).split("\n")[:-1]

    @property
    def memory(self) -> int:
        """How many bytes of memory it takes: the file, and the rules for the agents that were asked about; with a second agent the file once
        more, and what its lines are."""
        site = self._site
        kept = 0 if site.kept is None else lib.site_memory(site.kept)
        return len(site.body) + kept + sum(robot.memory for robot in list(site.robots.values()))

    @property
    def reading(self) -> Reading:
        """How the file is read: ``"crate"`` or ``"rfc9309"``."""
        return "rfc9309" if self._site.by_rfc9309 else "crate"

    def is_named(self, agent: str) -> bool:
        """Whether a user-agent line names the crawler. All crawlers that none names have the rules and the delay of ``*``."""
        return self._site.is_named(name_bytes(agent))

    def _verdict_or_none(self, url: str, agent: str) -> Verdict | None:
        try:
            return self.verdict(url, agent)
        except OverlongRuleError:
            return None

    def __repr__(self) -> str:
        reading = ", reading='rfc9309'" if self._site.by_rfc9309 else ""
        return f"<{type(self).__name__} of {len(self._site.body)} bytes{reading}>"


Robots = Site
"""Another name of `Site`, also in older pickles."""

_NONE: Final = (object(), ffi.NULL)


class _Site:
    """A file, and what it says to each agent that was asked about. C reads it for the first agent alone, and for all from the second one on,
    so that for one crawler no more is kept than its bytes and the robot. C's part is closed when nothing refers to it.

    It is pickled as its bytes and its reading, and so a `Site` as any object is, with all its attributes.
    """

    __slots__ = ("body", "by_rfc9309", "kept", "newest", "robots")

    def __init__(self, body: bytes, reading: Reading = "crate") -> None:
        self.body, self.by_rfc9309 = body, is_rfc9309(reading)
        self.kept: CData | None = None
        self.newest: tuple[object, CData] = _NONE
        self.robots: dict[str, Robot] = {}

    def read(self) -> CData:
        """The file as C reads it for all crawlers."""
        return self.kept or owned(lib.site_open(self.body, len(self.body), self.by_rfc9309), lib.site_close)

    @property
    def opened(self) -> CData:
        """The same, and it is kept. The first agent's robot may be one that the library shares from now on, so it is made anew."""
        if self.kept is None:
            self.kept, self.newest = self.read(), _NONE
            self.robots.clear()
        return self.kept

    def robot(self, agent: str) -> Robot:
        """What the file says to an agent. A `str` of another type may have its own equality, so its robot isn't looked up."""
        return (type(agent) is str and self.robots.get(agent)) or self._open(agent)

    def is_named(self, name: bytes) -> bool:
        """Whether a user-agent line has this name, which may be one that isn't a product token."""
        return lib.site_is_named(self.opened, name, len(name)) == 1

    def delay(self, name: bytes) -> int | None:
        """The delay in microseconds, even if a rule for this name is too long."""
        site, microseconds = self.read(), ffi.new("uint64_t *")
        return delay_of(lib.site_delay(site, name, len(name), microseconds), microseconds)

    def open_robot(self, name: bytes) -> Robot:
        """Opens the robot for a name, which isn't kept. The library shares it among all agents that no line names."""
        if self.robots or self.kept:
            opened = lib.robot_open(self.opened, name, len(name))
        else:
            opened = lib.robot_of_file(self.body, len(self.body), self.by_rfc9309, name, len(name))
        return Robot.__new__(Robot)._open(opened)

    def _open(self, agent: str) -> Robot:
        name = name_bytes(agent)
        robot = self.open_robot(name)
        if len(self.robots) >= _AGENTS_KEPT:
            self.robots.clear()
        self.robots[str(name, "utf-8")] = robot
        return robot

    def __reduce__(self) -> tuple[type[_Site], tuple[bytes] | tuple[bytes, Reading]]:
        return _Site, (self.body, "rfc9309") if self.by_rfc9309 else (self.body,)


class Matrix:
    """The same URLs and agents for many files: what `Site.matrix` decides, in one call of the library for each file.

    Threads share it without a lock. The constructor raises what `Site.matrix` raises, and ValueError without URLs
    or agents, or for a line feed in one.
    """

    __slots__ = ("_agents", "_by_rfc9309", "_pairs", "_urls")

    def __init__(self, urls: Iterable[str], agents: Iterable[str], reading: Reading = "crate") -> None:
        urls, agents = several(urls, "urls"), several(agents, "agents")
        for agent in agents:
            name_bytes(agent)
        urls_text, agents_text = joined(urls, "urls"), joined(agents, "agents")
        if urls_text is None or agents_text is None:
            raise ValueError("there has to be a URL and an agent, and no line feed in one")
        self._urls, self._agents, self._by_rfc9309 = urls_text, agents_text, is_rfc9309(reading)
        self._pairs = [(agent, url) for agent in agents for url in urls]

    def denials(self, body: ReadableBuffer) -> list[tuple[str, str, int | None]]:
        """Each agent with each URL that the file denies it, and the number of the line that does, or None if the file can't be used for
        the agent: agent by agent, in the order of the constructor's arguments. ``body`` is the file, as received: a ``bytes``, or any
        other buffer, which is copied."""
        if isinstance(body, str):
            raise wrong_type("body", body)
        file, length = file_bytes(body), len(self._pairs)
        out = ffi.new("int64_t[]", length)
        agents, urls = self._agents, self._urls
        check(lib.file_matrix(agents, len(agents), file, len(file), self._by_rfc9309, urls, len(urls), out, length))
        return [
            (agent, url, None if number == NO_VERDICT else -number)
            for (agent, url), number in zip(self._pairs, ffi.unpack(out, length))
            if number < 0
        ]
