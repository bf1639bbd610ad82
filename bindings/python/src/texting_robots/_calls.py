"""The calls of the C library: what it is given, and what it returns. It decides everything: nothing here reads a file or compares a rule."""

from __future__ import annotations

from collections.abc import Callable, Iterable
from typing import TYPE_CHECKING, Final, Literal, NamedTuple, Union

from ._errors import AgentError, OverlongRuleError, TooCostlyError, UrlError
from ._native import ffi, lib

if TYPE_CHECKING:
    from _typeshed import ReadableBuffer  # collections.abc.Buffer, which Python has from 3.12 on

    from ._native import CData

if not lib.processor_fits():
    raise ImportError("texting_robots needs a processor of the level x86-64-v2 (SSE4.2 and POPCNT), and this one is older")

FILE_LIMIT: Final = lib.ROBOTS_FILE_LIMIT
"""How many bytes of a file count: no more need be fetched."""

NO_VERDICT: Final = lib.NO_VERDICT
LAST_FAILURE: Final = NO_VERDICT - lib.ROBOTS_OVERLONG_RULE
Body = Union["ReadableBuffer", str]
Reading = Literal["crate", "rfc9309"]
"""How a file is read: as the Rust crate ``texting_robots`` reads it, or as RFC 9309 does."""

_MAY_BE: Final = {
    "url": "a str, such as 'https://example.com/a'",
    "agent": "a str, such as 'FerrisBot'",
    "user_agent": "a str, such as 'FerrisBot/1.0'",
    "urls": "several str, for example in a list",
    "agents": "several str, for example in a list",
    "body": "bytes or another buffer, or for a Site or a Robot a str",
    "column": "an array of strings of Arrow without nulls, or a buffer with `ends`",
    "verdicts": "a buffer of 64-bit integers that can be written to, with room for each URL",
    "ends": "a buffer of 64-bit integers, which don't decrease, up to the length of the URLs",
}
"""What an argument may be, for the error about another type."""


class Verdict(NamedTuple):
    """Whether a crawler may fetch a URL, and the number of the line that decides it, counted from 1, or None if none does.

    It is true if the crawler may fetch the URL.
    """

    allowed: bool
    line: int | None

    def __bool__(self) -> bool:
        return self.allowed


def is_rfc9309(reading: Reading) -> bool:
    """Whether it is the standard's reading."""
    if reading not in ("crate", "rfc9309"):
        raise ValueError(f"reading is {reading!r}: it has to be 'crate' or 'rfc9309'")
    return reading == "rfc9309"


# C is given a bytes of just this type, with its len(): no method of another type decides how much is read. `str.encode` and `str.join`
# make such a bytes and such a str of any str.


def file_bytes(body: Body) -> bytes:
    """The bytes of a file that count, however they lie in memory; copied, since another thread may write to a buffer."""
    if isinstance(body, str):
        body = str.encode(body, "utf-8", "surrogateescape")
    if type(body) is bytes:
        return body[:FILE_LIMIT]
    try:
        opened = memoryview(body)
    except TypeError:
        raise wrong_type("body", body) from None
    with opened as view:
        return (view[:FILE_LIMIT] if view.ndim == 1 else view).tobytes()[:FILE_LIMIT]


def encoded(text: str, argument: str) -> bytes:
    try:
        return str.encode(text)
    except TypeError:
        raise wrong_type(argument, text) from None


def several(texts: Iterable[str], argument: str) -> list[str]:
    if isinstance(texts, (str, bytes)):
        raise wrong_type(argument, texts)
    try:
        found = iter(texts)
    except TypeError:
        raise wrong_type(argument, texts) from None
    return list(found)


def joined(texts: list[str], argument: str) -> bytes | None:
    """The texts with a line feed between them, or None if one contains a line feed or there is none."""
    try:
        text = "\n".join(texts).encode()
    except TypeError:
        place = next(place for place, text in enumerate(texts) if not issubclass(type(text), str))
        raise wrong_type(argument[:-1], texts[place], f"{argument}[{place}]") from None
    return text if texts and text.count(b"\n") == len(texts) - 1 else None


def wrong_type(argument: str, value: object, name: str = "") -> TypeError:
    return TypeError(f"{name or argument} has the type {type(value).__name__}: it has to be {_MAY_BE[argument]}")


def name_bytes(agent: str) -> bytes:
    name = encoded(agent, "agent")
    if b"/" in name:
        raise AgentError(f"{agent!r} is no product token: the URL comes first, and product_token() makes one of a User-Agent")
    return name


def integers(buffer: ReadableBuffer, argument: str, kind: str) -> CData:
    """A buffer of 64-bit integers, which can be written to if it is for verdicts."""
    try:
        with memoryview(buffer) as view:
            fits = view.format.strip("@=<") in tuple("lqLQnN") and view.itemsize == 8 and view.c_contiguous
        if fits:
            return ffi.from_buffer(kind, buffer, argument == "verdicts")
    except (TypeError, BufferError):
        pass
    raise wrong_type(argument, buffer)


def arrow(column: object) -> tuple[CData, CData, object]:
    """The type and the content of an array of Arrow, and what both belong to."""
    try:
        kept = column.__arrow_c_array__()  # type: ignore[attr-defined]
    except AttributeError:
        raise wrong_type("column", column, "urls") from None
    from ctypes import c_char_p, c_void_p, py_object, pythonapi

    pointer = pythonapi.PyCapsule_GetPointer
    pointer.restype, pointer.argtypes = c_void_p, [py_object, c_char_p]
    schema, array = (pointer(capsule, name) for capsule, name in zip(kept, (b"arrow_schema", b"arrow_array")))
    return ffi.cast("struct ArrowSchema *", schema), ffi.cast("struct ArrowArray *", array), kept


def verdict_of(number: int) -> Verdict:
    return Verdict(number >= 0, abs(number) or None)


def delay_of(status: int, microseconds: CData) -> int | None:
    """What a call that returned this status wrote."""
    if status == lib.ROBOTS_NO_DELAY:
        return None
    check(status)
    return int(microseconds[0])


def owned(opened: CData, close: Callable[[CData], None]) -> CData:
    """What a call opened, which is NULL if an allocation failed; closed when nothing refers to it."""
    if not opened:
        raise MemoryError
    return ffi.gc(opened, close)


def written(call: Callable[[CData, int, CData], int], room: int, url: str = "") -> str:
    """What a call writes, for a URL if it is about one, with this room, or with as much as it then asks for."""
    length = ffi.new("size_t *")
    while True:
        out = ffi.new("char[]", room)
        status = call(out, room, length)
        if status != lib.ROBOTS_BUFFER_TOO_SMALL:
            check(status, url=url)
            return str(ffi.unpack(out, length[0]), "utf-8")
        room = length[0]


def check(status: int, robot: CData | None = None, url: str = "") -> None:
    if status == lib.ROBOTS_OK:
        return
    if status == lib.ROBOTS_OUT_OF_MEMORY:
        raise MemoryError
    if status == lib.ROBOTS_NO_ROBOTS_URL:
        raise UrlError(f"{url!r} is no URL of http or https with a host, so it has no robots.txt file")
    if status == lib.ROBOTS_TOO_COSTLY:
        raise TooCostlyError("the verdict is too costly for its budget")
    if status == lib.ROBOTS_OVERLONG_RULE and robot is not None:
        raise OverlongRuleError(lib.robot_overlong_line(robot))
    raise AssertionError(f"robots.h: status {status}")
