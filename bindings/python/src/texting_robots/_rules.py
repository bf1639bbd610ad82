"""A file as a crawler obeys it: what can't be decided is denied."""

from __future__ import annotations

from collections.abc import Iterable, Sequence
from typing import Final, NamedTuple, Union

from . import OverlongRuleError, Reading, Site, TooCostlyError, product_token
from ._robot import Robot

COST_LIMIT: Final = 20_000_000
"""A verdict may take so many comparisons. One that could take more is asked for with this budget."""

Agents = Union[str, Sequence[str]]
"""A crawler's User-Agent or product token, or several in order of precedence: the first that a file names counts, or else ``*``."""

_URL_LENGTH: Final = 2000
_URL_CHARACTERS: Final = _URL_LENGTH // 12
"""A character is at most four bytes, which are twelve when escaped. So the cost for `_URL_LENGTH` bounds that of so many characters."""

_NAMES_KEPT: Final = 1000
_RULES_BYTES: Final = 800  # of Python's objects for a file, and
_NAME_BYTES: Final = 230  # for each crawler that was asked about: both measured


class CacheVerdict(NamedTuple):
    """Whether a crawler may fetch a URL, and the line that decides it. If there is a problem, the URL is denied because of it.

    It is true only if the crawler may fetch the URL. The problem is ``"unreachable"`` if the file can't be fetched now, ``"the
    rule in line 2 is too long: .."``, where ``line`` is that line, ``"a verdict may take too long"`` or ``"out of memory"``.
    """

    allowed: bool
    line: int | None = None
    problem: str = ""

    def __bool__(self) -> bool:
        return self.allowed


Decision = CacheVerdict
"""Another name of `CacheVerdict`, also in older pickles."""

OUT_OF_MEMORY: Final = CacheVerdict(False, None, "out of memory")  # made in advance, as it can't be made without memory
_TOO_COSTLY: Final = CacheVerdict(False, None, "a verdict may take too long")


_VERDICTS: Final[dict[int, CacheVerdict]] = {}  # those that were made, by what the library returns
_VERDICTS_KEPT: Final = 10_000


def _verdict(number: int) -> CacheVerdict:
    verdict = CacheVerdict(number >= 0, abs(number) or None)
    if len(_VERDICTS) < _VERDICTS_KEPT:
        _VERDICTS[number] = verdict
    return verdict


class Rules:
    """The rules of a file, for crawlers by their names."""

    __slots__ = ("_file", "_known", "_limit", "learned")

    def __init__(self, body: bytes, cost_limit: int = COST_LIMIT, reading: Reading = "crate") -> None:
        self._file = Site(body, reading)
        self._limit = cost_limit
        self.learned = 0
        """How often another crawler was asked about, as that changes the memory."""
        self._known: dict[str | tuple[str, ...], tuple[Robot, bool, float]] = {}

    def verdict(self, url: str, agents: Agents) -> CacheVerdict:
        """Whether the crawler with these names may fetch the URL."""
        try:
            robot, is_costly, _ = (type(agents) is str and self._known.get(agents)) or self._learned(agents)
            if is_costly or len(url) > _URL_CHARACTERS:
                return CacheVerdict(*robot.verdict_within(url, self._limit))
            number = robot._number(url)
            verdict = _VERDICTS.get(number)
            return _verdict(number) if verdict is None else verdict
        except OverlongRuleError as error:
            return CacheVerdict(False, error.line, str(error))
        except TooCostlyError:
            return _TOO_COSTLY
        except MemoryError:
            return OUT_OF_MEMORY

    def delay(self, agents: Agents) -> float:
        """How many seconds the crawler waits between two requests, or 0 if the file doesn't say."""
        try:
            return ((type(agents) is str and self._known.get(agents)) or self._learned(agents))[2]
        except OverlongRuleError:
            return self._file.delay(self._token(names_of(agents))) or 0.0

    @property
    def sitemaps(self) -> list[str]:
        """The sitemaps, as the file has them."""
        return self._file.sitemaps

    @property
    def memory(self) -> int:
        """How many bytes of memory the file takes, with a sixteenth for what is lost between allocations. It grows with each crawler that is asked
        about."""
        memory = self._file.memory
        return memory + memory // 16 + _RULES_BYTES + len(self._known) * _NAME_BYTES

    def _token(self, names: tuple[str, ...]) -> str:
        """The product token that counts."""
        tokens = [product_token(name) for name in names]
        return tokens[0] if len(tokens) == 1 else next(filter(self._file.is_named, tokens), "*")

    def _learned(self, agents: Agents) -> tuple[Robot, bool, float]:
        """What the file says to a crawler, which is kept; whether a verdict may take too long; and the delay."""
        names = names_of(agents)
        key: str | tuple[str, ...] = names[0] if len(names) == 1 else names
        known = self._known.get(key)
        if not known:
            site, token = self._file._site, self._token(names)
            before, robot = site.kept, site.robot(token)
            if len(self._known) >= _NAMES_KEPT or site.kept is not before:
                self._known.clear()  # of the second crawler on, all share what C has read
            self.learned += 1
            known = self._known[key] = robot, robot.cost(_URL_LENGTH) > self._limit, robot.delay or 0.0
        return known


def names_of(agents: Agents) -> tuple[str, ...]:
    """The names as plain `str`, whose equality is their text's."""
    names = (agents,) if isinstance(agents, str) else tuple(agents) if isinstance(agents, Iterable) else ()
    if not names or not all(isinstance(name, str) for name in names):
        raise TypeError(f"user_agent is {agents!r}: it has to be a str, such as 'FerrisBot/1.0', or several in order of precedence")
    return tuple(str.__str__(name) for name in names)
