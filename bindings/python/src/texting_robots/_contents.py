"""What the fields of a response say: how its body is packed, where the file is, and when to come again."""

from __future__ import annotations

import re
import zlib
from collections.abc import Iterable, Mapping
from email.utils import parsedate_to_datetime
from typing import Any, Final, Union
from urllib.parse import urljoin

from . import FILE_LIMIT, robots_url

Headers = Union[Mapping[str, str], Mapping[bytes, bytes], Iterable[tuple[str, str]], Iterable[tuple[bytes, bytes]]]
"""The fields of a response, as any library for HTTP has them: names with values, or pairs of these, in ``str`` or in bytes."""

_MAX_AGE: Final = re.compile(r"(?:^|[,\s])max-age\s*=\s*\"?([0-9]+)", re.I)
_STEP: Final = 64  # an error in a packed body loses no more of it
_CONTROLS: Final = bytes({*range(32)} - {*b"\t\n\r"})


def fields_of(headers: Headers) -> dict[str, str]:
    """The fields by their names in small letters. A body may have several encodings, each in a field of its own; else the last one counts."""
    pairs: Iterable[tuple[Any, Any]] = headers.items() if hasattr(headers, "items") else headers
    fields: dict[str, str] = {}
    for name, values in pairs:
        for value in values if isinstance(values, (list, tuple)) else [values]:
            key, text = _text(name, name, value).lower(), _text(value, name, value)
            fields[key] = f"{fields[key]},{text}" if key == "content-encoding" and key in fields else text
    return fields


def _text(text: object, name: object, value: object) -> str:
    if isinstance(text, str):
        return text
    if isinstance(text, bytes):
        return text.decode("latin-1")
    raise TypeError(f"headers have {name!r}: {value!r}, and both have to be str or bytes")


def max_age(fields: Mapping[str, str]) -> float | None:
    """For how many seconds a response may be kept, if it says so."""
    found = _MAX_AGE.search(fields.get("cache-control", ""))
    return float(found[1]) if found else None


def unpacked(body: bytes, encodings: str) -> bytes | None:
    """The body without these content encodings, and no more of it than counts; None if it can't be unpacked.

    There are servers that say gzip and send text, which is taken as it is, and others that cut a packed body, of which the part that is
    there counts.
    """
    result: bytes | None = body
    for name in reversed(encodings.lower().split(",")):
        name = name.strip()
        if result is None or name in ("", "identity"):
            continue
        result = _inflated(result) if name in ("gzip", "x-gzip", "deflate") else None
    return result


def _inflated(body: bytes, step: int = _STEP) -> bytes | None:
    """A body of gzip or zlib, unpacked as far as it goes; a text as it is; or else a body of deflate, which has to be complete."""
    decoder, parts, room, position = zlib.decompressobj(zlib.MAX_WBITS | 32), [], FILE_LIMIT, 0
    has_ended = not body
    while position < len(body) and room > 0:
        try:
            parts.append(decoder.decompress(body[position : position + step], room))
        except zlib.error:
            break
        room -= len(parts[-1])
        position += step
        if decoder.eof:  # another one may follow
            has_ended = True
            position -= len(decoder.unused_data)
            decoder = zlib.decompressobj(zlib.MAX_WBITS | 16)
    if room < FILE_LIMIT or has_ended:
        return b"".join(parts)
    if step > 1:
        return _inflated(body, 1)
    if not any(byte in _CONTROLS for byte in body[:1000]):
        return body
    return _deflated(body)


def _deflated(body: bytes) -> bytes | None:
    decoder = zlib.decompressobj(-zlib.MAX_WBITS)
    try:
        result = decoder.decompress(body, FILE_LIMIT)
    except zlib.error:
        return None
    return result if decoder.eof or len(result) == FILE_LIMIT else None


def target(address: str, location: str | None) -> str:
    """Where a redirect from this address leads, or nothing if that isn't a URL of http or https."""
    try:
        url = urljoin(address, (location or "").strip())
        return url if location is not None and robots_url(url) else ""
    except ValueError:
        return ""


def seconds_of(retry_after: str, now: float) -> float | None:
    """How many seconds a Retry-After field asks to wait, if it can be read."""
    try:
        if retry_after.strip().isdecimal():
            return float(retry_after)
        return parsedate_to_datetime(retry_after).timestamp() - now
    except (TypeError, ValueError, OverflowError, IndexError):
        return None
