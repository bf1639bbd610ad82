"""What a robots.txt file says to a crawler: which URLs it may fetch and by which line, how long it waits, which sitemaps there are.

    >>> from texting_robots import Site, product_token, robots_url
    >>> robots_url("https://example.com/shop?page=2")
    'https://example.com/robots.txt'
    >>> site = Site(b"User-agent: *\\nDisallow: /private # \\xff\\xfe junk\\nCrawl-delay: 2.5\\n")
    >>> site.allowed("https://example.com/private/x", "FerrisBot")
    False
    >>> site.verdict("https://example.com/private/x", "FerrisBot")
    Verdict(allowed=False, line=2)
    >>> site.delay("FerrisBot")
    2.5
    >>> product_token("FerrisBot/1.0 (+https://example.com/bot)")
    'FerrisBot'

``FILE_LIMIT`` is how many bytes of a file count (512,000). ``LIFETIME`` is for how many seconds a file is in force (86,400, a day), unless a
new one can't be fetched. ``REDIRECT_LIMIT`` is how many redirects in a row are followed to a file (5).

`Robots` is another name of `Site`.

Crawlers also need to know when each file is fetched, and what to do if it can't be: `texting_robots.aio` decides that for asyncio,
`texting_robots.middleware` for Scrapy, and `texting_robots.cache`, which both use, for any other way to make requests.
"""

from ._calls import FILE_LIMIT, Reading, Verdict
from ._errors import AgentError, OverlongRuleError, RobotsError, TooCostlyError, UrlError
from ._names import product_token, robots_url
from ._responses import LIFETIME, REDIRECT_LIMIT, Meaning, meaning
from ._robot import Robot
from ._robots import Matrix, Robots, Site

__all__ = [
    "FILE_LIMIT",
    "LIFETIME",
    "REDIRECT_LIMIT",
    "AgentError",
    "Matrix",
    "Meaning",
    "OverlongRuleError",
    "Reading",
    "Robot",
    "Robots",
    "RobotsError",
    "Site",
    "TooCostlyError",
    "UrlError",
    "Verdict",
    "meaning",
    "product_token",
    "robots_url",
]
__version__ = "1.0.0"
