"""What a robots.txt file says to one crawler."""

from __future__ import annotations

from collections.abc import Iterable
from typing import TYPE_CHECKING, Final

from ._calls import (
    LAST_FAILURE,
    NO_VERDICT,
    Body,
    Reading,
    Verdict,
    arrow,
    check,
    delay_of,
    encoded,
    file_bytes,
    integers,
    is_rfc9309,
    joined,
    name_bytes,
    owned,
    several,
    verdict_of,
    wrong_type,
)
from ._native import ffi, lib

if TYPE_CHECKING:
    from _typeshed import ReadableBuffer, WriteableBuffer

    from ._native import CData

_verdict: Final = lib.robot_verdict
_encode: Final = str.encode
_MISFITS: Final = {
    lib.ROBOTS_INVALID_ENDS: "the ends decrease, or one is after the end of the URLs",
    lib.ROBOTS_NOT_UTF8: "a URL isn't UTF-8",
}


class Robot:
    """What a robots.txt file says to one crawler. It takes less memory than a `Site`, as it keeps no file.

    ``body``, ``agent`` and ``reading`` are those of a `Site`, and so are the methods and their errors, but that the constructor already raises
    `OverlongRuleError`. Threads share it without a lock. It can't be pickled: keep the bytes.
    """

    __slots__ = ("__weakref__", "_opened")

    def __init__(self, body: Body, agent: str, reading: Reading = "crate") -> None:
        file, name = file_bytes(body), name_bytes(agent)
        self._open(lib.robot_of_file(file, len(file), is_rfc9309(reading), name, len(name)))
        if lib.robot_overlong_line(self._opened):
            check(lib.ROBOTS_OVERLONG_RULE, self._opened)

    def _open(self, opened: CData) -> Robot:
        self._opened = owned(opened, lib.robot_close)
        return self

    def allowed(self, url: str) -> bool:
        """Whether the crawler may fetch the URL."""
        try:
            text = _encode(url)
        except TypeError:
            raise wrong_type("url", url) from None
        number = _verdict(self._opened, text, len(text))
        if number >= 0:
            return True
        return number <= LAST_FAILURE and self._fails(number)

    def verdict(self, url: str) -> Verdict:
        """Whether the crawler may fetch the URL, and the line that decides it."""
        return verdict_of(self._number(url))

    def verdict_within(self, url: str, budget: int) -> Verdict:
        """The verdict for a URL, for a file that may be hostile: before a rule that might cost more than is left of the budget, it raises
        `TooCostlyError` (see `Site.verdict_within`)."""
        text, number = encoded(url, "url"), ffi.new("int64_t *")
        check(lib.robot_verdict_within(self._opened, text, len(text), budget, number), self._opened)
        return verdict_of(number[0])

    def cost(self, length: int) -> int:
        """A budget that suffices for any URL whose path, query and fragment, escaped, have this length."""
        cost = ffi.new("uint64_t *")
        check(lib.robot_cost(self._opened, length, cost), self._opened)
        return int(cost[0])

    def verdicts(self, urls: Iterable[str]) -> list[Verdict]:
        """The verdict for each URL, in their order: faster than one by one."""
        urls = several(urls, "urls")
        text = joined(urls, "urls")
        if text is None:
            return [self.verdict(url) for url in urls]
        out = ffi.new("int64_t[]", len(urls))
        check(lib.robot_verdicts(self._opened, text, len(text), out, len(urls)), self._opened)
        numbers = ffi.unpack(out, len(urls))
        verdicts = {number: verdict_of(number) for number in set(numbers)}
        return [verdicts[number] for number in numbers]

    def verdicts_batch(self, urls: ReadableBuffer | object, verdicts: WriteableBuffer, ends: ReadableBuffer | None = None) -> None:
        """Writes a number for each URL of a column to ``verdicts``, such as an ``int64`` array of NumPy: 0 if no line decides, the line that
        allows the URL, or minus the line that denies it. It copies no URL, and makes no object for one.

        ``urls`` is an array of strings of Arrow (by ``__arrow_c_array__``), or, with ``ends``, a buffer in which the URLs follow one
        another, in UTF-8: each ends at one of these places, and begins at the end of the one before. Nobody may write to a buffer
        meanwhile.
        """
        room, opened = integers(verdicts, "verdicts", "int64_t[]"), self._opened
        if ends is None:
            schema, array, _kept = arrow(urls)
            count = lib.array_length(schema, array)
            if count < 0:
                raise wrong_type("column", urls, "urls")
        else:
            places = integers(ends, "ends", "size_t[]")
            count = len(places)
            try:
                text = ffi.from_buffer(urls)
            except (TypeError, BufferError):
                raise wrong_type("column", urls, "urls") from None
        if count > len(room):
            raise ValueError("verdicts has less room than there are URLs")
        if ends is None:
            status = lib.robot_verdicts_array(opened, schema, array, room)
        else:
            status = lib.robot_verdicts_batch(opened, text, len(text), places, count, room)
        if status in _MISFITS:
            raise ValueError(_MISFITS[status])
        check(status, opened)

    @property
    def delay(self) -> float | None:
        """How many seconds the crawler waits between two requests, or None: up to 1.8e13, so limit it before you sleep."""
        microseconds = self.delay_microseconds
        return None if microseconds is None else microseconds / 1_000_000

    @property
    def delay_microseconds(self) -> int | None:
        """The delay in microseconds, exactly, or None."""
        microseconds = ffi.new("uint64_t *")
        return delay_of(lib.robot_delay(self._opened, microseconds), microseconds)

    @property
    def memory(self) -> int:
        """How many bytes of memory it takes."""
        return lib.robot_memory(self._opened)

    def _number(self, url: str) -> int:
        """0 or the line that allows the URL, or minus the line that denies it."""
        try:
            text = _encode(url)
        except TypeError:
            raise wrong_type("url", url) from None
        number = _verdict(self._opened, text, len(text))
        if number <= LAST_FAILURE:
            self._fails(number)
        return number

    def _fails(self, number: int) -> bool:
        check(NO_VERDICT - number, self._opened)
        return False
