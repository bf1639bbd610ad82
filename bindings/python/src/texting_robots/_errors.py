"""The errors of this package."""

from __future__ import annotations


class RobotsError(Exception):
    """The base of this package's errors: `OverlongRuleError`, `TooCostlyError`, `AgentError` and `UrlError`."""


class OverlongRuleError(RobotsError):
    """A rule for this crawler is too long, so the file can't be used for it. What that means is the crawler's policy.

    Such a rule contains ``$`` and has more than 4,096 bytes when escaped, each run of stars counted as one. ``line`` is the number of the
    first such line, counted from 1.
    """

    def __init__(self, line: int) -> None:
        super().__init__(line)
        self.line = line

    def __str__(self) -> str:
        return f"the rule in line {self.line} is too long: the file can't be used for this crawler"


class TooCostlyError(RobotsError):
    """`Site.verdict_within` gave up, since the verdict might have cost more than its budget."""


class AgentError(RobotsError, TypeError, ValueError):
    """An agent contains ``/``, so it is a URL, which comes first, or a User-Agent with a version."""


class UrlError(RobotsError, ValueError):
    """A text is no URL of http or https with a host, so it has no robots.txt file."""
