"""Files that RFC 9309 reads otherwise than the Rust crate: what a package has to decide in each reading."""

from typing import NamedTuple


class Case(NamedTuple):
    """A file, a crawler and a URL, with the verdict in both readings: 0, the line that allows the URL, or minus the line that denies it."""

    file: bytes
    agent: str
    url: str
    crate: int
    rfc9309: int


ONLY_TWO = b"""\
# only Google and Bing may crawl this site
User-agent: Googlebot
User-agent: Bingbot
Crawl-delay: 5

User-agent: *
Disallow: /
Sitemap: https://example.com/s.xml
"""
EVERY = b"User-agent: *\n"
CASES = {
    "a delay between two names": Case(ONLY_TWO, "Googlebot", "/", 0, -7),
    "a delay between two names, for the second": Case(ONLY_TWO, "Bingbot", "https://example.com/a", 0, -7),
    "an escape in a rule": Case(EVERY + b"Disallow: /%62", "Bot", "https://example.com/b", 0, -2),
    "an escape in a URL": Case(EVERY + b"Disallow: /b", "Bot", "/%62", 0, -2),
    "an escape in lowercase": Case(EVERY + b"Disallow: /%c3", "Bot", "/%C3", 0, -2),
    "an escape of a star": Case(EVERY + b"Disallow: /a%2Ab", "Bot", "https://example.com/a*b", 0, -2),
    "a byte that has to be escaped": Case(EVERY + b"Disallow: /{", "Bot", "https://example.com/{", 0, -2),
    "an escape that becomes another one": Case(EVERY + b"Disallow: /%%341\nAllow: /A", "Bot", "/%%341", -2, -2),
    "an empty Disallow": Case(EVERY + b"Disallow:\nDisallow: /", "Bot", "/", 2, -3),
    "a dollar inside": Case(EVERY + b"Disallow: /$a", "Bot", "/$a", 0, -2),
    "a star after a dollar": Case(EVERY + b"Disallow: /a$*", "Bot", "/a", -2, 0),
    "no name": Case(b"Disallow: /", "Bot", "/", -1, 0),
    "a rule above the first name": Case(b"Disallow: /a\nUser-agent: *\nDisallow: /b", "Bot", "/a", 0, 0),
    "a fragment": Case(EVERY + b"Disallow: /$", "Bot", "https://example.com/#b", 0, -2),
    "a way up": Case(EVERY + b"Disallow: /a/", "Bot", "https://example.com/a/../b", 0, -2),
    "the file itself": Case(EVERY + b"Disallow: /", "Bot", "https://example.com/robots.txt", 0, 0),
    "a rule that both read alike": Case(EVERY + b"Disallow: /\nAllow: /a", "Bot", "/ab", 3, 3),
}


def filled(length: int) -> bytes:
    """A file of so many bytes, which in normal form are almost three times as many. Its last line denies `/last`, and no other line does."""
    last = b"Disallow: /last"
    line = b"Disallow: /" + b"{" * 988 + b"\n"
    body = EVERY + line * ((length - len(EVERY) - len(last)) // len(line))
    return body + b"#" * (length - len(body) - len(last) - 1) + b"\n" + last


FULL = filled(512_000)
LAST_LINE = FULL.count(b"\n") + 1

REJECTED = EVERY + b"Allow: /\nDisallow: /" + b"{" * 1400 + b"$\n"
"""A file whose line 3 is too long for the standard's reading alone."""
