"""What a User-Agent and a URL begin with: the name of a crawler, and the address of a site's robots.txt file."""

from __future__ import annotations

import re
from typing import Final

from ._calls import encoded, written, wrong_type
from ._native import lib

_FRONT: Final = re.compile(r"\s*([^\s/(),;:]+)")
_SITE: Final = re.compile(r"https?://[A-Za-z0-9.-]+(?::[0-9]{1,5})?(?=[/?#]|\Z)")
"""The front of a usual URL, on which alone the address of its robots.txt file depends."""

_ADDRESSES: Final[dict[str, str]] = {}
_ADDRESSES_KEPT: Final = 2000


def product_token(user_agent: str) -> str:
    """The name at the front of a User-Agent, after any spaces and up to a space or one of ``/(),;:``, or ``*`` if there is none.

    >>> product_token("GPTBot/1.2 (+https://openai.com/gptbot)")
    'GPTBot'

    The front of a User-Agent like a browser's is ``Mozilla``. Such a crawler gives its name itself.
    """
    try:
        front = _FRONT.match(user_agent)
    except TypeError:
        raise wrong_type("user_agent", user_agent) from None
    return front[1] if front else "*"


def robots_url(url: str) -> str:
    """The address of the robots.txt file for a URL of http or https. Two URLs are of one site if it is the same for both. Any other text is a
    `UrlError`."""
    front = _SITE.match(url) if type(url) is str and url.isascii() else None
    address = _ADDRESSES.get(front[0]) if front else None
    if address is None:
        text = encoded(url, "url")
        address = written(lambda *out: lib.robots_url(text, len(text), *out), 256, url)
        if front:
            if len(_ADDRESSES) >= _ADDRESSES_KEPT:
                _ADDRESSES.clear()
            _ADDRESSES[front[0]] = address
    return address
