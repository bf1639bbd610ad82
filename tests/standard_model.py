"""How RFC 9309 reads any robots.txt file: a model, written from the RFC and from docs/ alone, for tests of the library's reading of it.

Which lines a file has, what a directive is, and which names match are this library's (docs/SPECIFICATION.md, "Lines" and "Groups"). All
else is the RFC's, as docs/COMPATIBILITY.md understands it under "What RFC 9309 means here".
"""

import re
from typing import NamedTuple

FILE_LIMIT = 512_000
PATTERN_LIMIT = 4096
WHITE_SPACE = "\t\n\v\f\r \x85\xa0\u1680\u2000\u2001\u2002\u2003\u2004\u2005\u2006\u2007\u2008\u2009\u200a\u2028\u2029\u202f\u205f\u3000"
FIELD = rb"(user-agent|user agent|useragent)|(allow)|(disallow|dissallow|dissalow|disalow|diasllow|disallaw)"
DIRECTIVE = re.compile(rb"[ \t]*(?:%s)(?:[ \t]*:|[ \t]+)([^#]*)" % FIELD, re.I)
UNRESERVED = b"ABCDEFGHIJKLMNOPQRSTUVWXYZabcdefghijklmnopqrstuvwxyz0123456789-._~"
# an escape, or a byte that no URL contains by RFC 3986
TO_REWRITE = re.compile(rb"%[0-9A-Fa-f]{2}|[^%A-Za-z0-9\-._~:/?#\[\]@!$&'()*+,;=]")


class Rejected(Exception):
    """A rule for the crawler ends with $ and is too long. `line` is the first such line."""

    def __init__(self, line):
        super().__init__(line)
        self.line = line


class Rule(NamedTuple):
    line: int
    allows: bool
    pattern: bytes  # in normal form; empty for a rule without a value, which is no rule


class Verdict(NamedTuple):
    allowed: bool
    line: int | None


def bodies(file):
    """The lines of a file, without what ends them. It is cut after its first bytes; then a byte order mark goes, or a part of one."""
    text = file[:FILE_LIMIT]
    for byte in (b"\xef", b"\xbb", b"\xbf"):
        text = text.removeprefix(byte)
    found = re.split(rb"\r+\n?|\n", text.replace(b"\0", b"\n"))
    return found if found[-1] else found[:-1]


def groups(file):
    """The names of each group, in lowercase, and its rules. Only a rule ends a list of names, and also one without a value does. What is
    above the first name is in no group."""
    found = []
    for line, body in enumerate(bodies(file), 1):
        directive = DIRECTIVE.match(body)
        if not directive:
            continue
        value = trimmed(directive[4])
        if directive[1]:
            if not found or found[-1][1]:
                found.append((set(), []))
            found[-1][0].add(value.lower())
        elif found:
            found[-1][1].append(Rule(line, directive[2] is not None, pattern_of(value)))
    return found


def trimmed(value):
    """The value without Unicode white space at both ends, also if something in it isn't UTF-8."""
    return value.decode("utf-8", "surrogateescape").strip(WHITE_SPACE).encode("utf-8", "surrogateescape")


def normal(text):
    """Escapes of unreserved characters are decoded, others have capital letters, and what no URL contains is escaped. It is done once, from
    the left: `%%34` has the normal form `%4`, of which nothing is decoded again."""

    def rewritten(found):
        byte = int(found[0][1:], 16) if len(found[0]) == 3 else found[0][0]
        return bytes([byte]) if byte in UNRESERVED else b"%%%02X" % byte

    return TO_REWRITE.sub(rewritten, text)


def pattern_of(value):
    """A `$` is special at the end alone."""
    path = value.removesuffix(b"$")
    return normal(path).replace(b"$", b"%24") + value[len(path) :]


def target_of(url):
    """The path and the query of an absolute URL, or of a path, as they are written, in normal form. They begin with a slash, also if none is
    written. A star and a `$` in a URL are no wildcards."""
    written = re.sub(rb"\A[a-z][a-z0-9+.-]*://[^/?]*", b"", url.partition(b"#")[0], flags=re.I)
    slash = b"" if written.startswith(b"/") else b"/"
    return (slash + normal(written)).replace(b"*", b"%2A").replace(b"$", b"%24")


def matches(pattern, target):
    """Whether a target begins with something that a pattern means, or is all of it if the pattern ends with `$`. What is between two stars
    may as well be found as early as it can be."""
    path = pattern.removesuffix(b"$")
    start, *others = path.split(b"*")
    if not target.startswith(start):
        return False
    place = len(start)
    last = others.pop() if others and path != pattern else None
    for part in others:
        place = target.find(part, place)
        if place < 0:
            return False
        place += len(part)
    if path == pattern:
        return True
    return place == len(target) if last is None else target.endswith(last, place)


class Reading:
    """A file as RFC 9309 reads it."""

    def __init__(self, file):
        self.groups = groups(file)

    def rules(self, agent):
        """The rules of all groups with the agent's name, or else of all groups of `*`."""
        name = agent.lower() if any(agent.lower() in names for names, _ in self.groups) else b"*"
        found = [rule for names, rules in self.groups if name in names for rule in rules if rule.pattern]
        for rule in found:
            if rule.pattern.endswith(b"$") and len(re.sub(rb"\*+", b"*", rule.pattern)) > PATTERN_LIMIT:
                raise Rejected(rule.line)
        return found

    def verdicts(self, urls, agent):
        """The verdict for each URL, or an exception if the file is rejected for the agent."""
        rules = self.rules(agent)
        return [decided(rules, target_of(url)) for url in urls]


def decided(rules, target):
    """The longest pattern decides, of equally long ones an Allow, and then the first one."""
    found = [rule for rule in rules if matches(rule.pattern, target)]
    if target == b"/robots.txt" or not found:
        return Verdict(True, None)
    best = min(found, key=lambda rule: (-len(rule.pattern), not rule.allows, rule.line))
    return Verdict(best.allows, best.line)


def word(file, agent, url):
    """What COMPATIBILITY says of a URL."""
    try:
        ((allowed, _),) = Reading(file).verdicts([url], agent)
    except Rejected:
        return "rejected"
    return "allowed" if allowed else "denied"
