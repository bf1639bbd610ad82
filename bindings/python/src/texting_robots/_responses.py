"""What a response to a request for a robots.txt file means, by RFC 9309, 2.3.1."""

from __future__ import annotations

import enum
from typing import Final

from ._native import lib

REDIRECT_LIMIT: Final = lib.ROBOTS_REDIRECT_LIMIT
"""How many redirects in a row are followed, to any host."""

LIFETIME: Final = lib.ROBOTS_LIFETIME
"""For how many seconds a file is used, unless the next can't be reached."""


class Meaning(enum.Enum):
    """What a crawler does after a response.

    - ``PARSE``: the body is the site's file.
    - ``FOLLOW``: the file is at the address in ``Location``. It counts for the site that was asked first.
    - ``ALLOW_ALL``: there is no file. `Site.allow_all` allows everything.
    - ``DENY_ALL``: the file can't be reached. An earlier one is kept, or nothing is fetched, as by `Site.deny_all`.
    """

    PARSE = lib.ROBOTS_PARSE
    FOLLOW = lib.ROBOTS_FOLLOW
    ALLOW_ALL = lib.ROBOTS_ALLOW_ALL
    DENY_ALL = lib.ROBOTS_DENY_ALL


def meaning(status: int | None, *, redirects: int = 0, has_location: bool = False, is_complete: bool = True) -> Meaning:
    """What the response with this final status means, or None if there was no answer.

    ``redirects`` is how many redirects in a row led to the request; ``has_location`` is whether the response has a ``Location`` that can
    be asked, and ``is_complete`` whether its body came to the end or had `FILE_LIMIT` bytes. 429 and whatever the standard doesn't name,
    as 206, 304 and a redirect without ``Location``, means that the file can't be reached.

    >>> meaning(200), meaning(404), meaning(503)
    (<Meaning.PARSE: 0>, <Meaning.ALLOW_ALL: 2>, <Meaning.DENY_ALL: 3>)
    """
    return Meaning(lib.robots_response_meaning(status or 0, redirects, has_location, is_complete))


def reason_of(status: int) -> str:
    """Why a file can't be had by a response with this status."""
    is_success = meaning(status) is Meaning.PARSE
    return f"status {status}, but the body breaks off or can't be unpacked" if is_success else f"status {status}"
