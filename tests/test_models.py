"""Models of warnings, from what `--explain` says, and `robots_audit` on random files; in the notation of golden cases."""

import functools
import json
import random
import re

from support import CRATES, parts_of, run

FORMS = "user-agent,allow,disallow,sitemap,crawl-delay,user agent,useragent,site-map,site map,crawl delay,crawldelay,"
NAMES = dict(zip(f"{FORMS}dissallow,dissalow,disalow,diasllow,disallaw".split(","), "uadscuussccddddd"))
USUAL = dict(zip(NAMES, "User-agent Allow Disallow Sitemap Crawl-delay".split()))
IGNORED = "noindex nofollow host request-rate visit-time clean-param content-signal content-usage robot-version comment no-index no-follow".split()
DIRECTIVE = re.compile(rf"[ \t]*({'|'.join(NAMES)})([ \t]*:|[ \t]+)([^#]*)", re.I | re.A)
DELAYS = "1 1. .5 1e1 +2".split()
TABLES = (CRATES / "robots_warnings/src/crawlers.rt").read_text().split("static WRONG_NAMES")
KNOWN, WRONG = ({it[0].lower(): it for it in re.findall(r'\("([^"]+)", "([^"]*)"\)', part)} for part in TABLES)
LARGE = "googlebot yandex yandexbot bingbot duckduckbot baiduspider slurp".split()
STATIC = tuple(".css .js .png .jpg .jpeg .gif .svg .ico .webp .woff .woff2 .ttf .txt .xml .json".split())


def parsed(text):
    """Of each line number, text, match, kind (`e`: an empty Disallow, `x`: ignored), value."""
    for no, line in enumerate(text.split("\n")[:-1], 1):
        it = DIRECTIVE.match(line)
        kind, value = (NAMES[it[1].lower()], it[3].strip()) if it else ("x", "")
        if kind + value == "d":
            kind, value = "e", "/"
        yield no, line, it, "x" if kind == "c" and value not in DELAYS else kind, value


def matches(pattern, path):
    head, dollar, rest = pattern.partition("$")
    return not rest.strip("*$") and bool(re.match(".*".join(map(re.escape, head.split("*"))) + r"\Z" * bool(dollar), path))


def is_whole(pattern):
    return matches(pattern, "/") and matches(pattern, "/q")


def opens_little(it, sitemaps):
    none = it and it[0] not in "/*" or it.partition("$")[2].strip("*$")
    return none or it in ("/$", *sitemaps) or it.startswith(("/.well-known", "/sitemap")) or it.rstrip("*$?").endswith(STATIC)


def closing(rules, closes, counts):
    longest = max((len(it) for _, kind, it in rules if kind in "ae" and counts(it)), default=-1)
    return next((line for line, kind, it in rules if kind == "d" and len(it) > longest and closes(it)), None)


def front(name):
    return re.match("[A-Za-z_-]*", name)[0].lower()


@functools.cache
def near(a, b, left, swaps=0):
    if abs(len(a) - len(b)) > left or not a or not b:
        return abs(len(a) - len(b)) <= left
    others = [(a[1:], b[1:], left - (a[0] != b[0])), (a[1:], b, left - 1), (a, b[1:], left - 1)]
    return any(near(*it, swaps) for it in others + [(a[2:], b[2:], left - 1)] * (swaps and a[:2] == b[1::-1]))


@functools.cache
def meant(name):
    names = name.lower(), front(name)
    if names[0] in WRONG:
        return f"warning {WRONG[names[0]][1]}"
    if KNOWN.keys() & set(names):
        return None
    return next((KNOWN[it][0] for it in KNOWN if any(text[:1] == it[0] and near(text, it, (len(it) > 4) + (len(it) > 8), 1) for text in names)), None)


def at_vendor(agent, named):
    """The group that the vendor applies, and whether no line names the crawler."""
    if agent.lower() not in KNOWN or agent.lower() in map(str.lower, named):
        return None
    lines = {front(it): it for it in reversed(named)}
    group = KNOWN[agent.lower()][1].lower()
    if agent.lower() in lines:
        return lines[agent.lower()], False
    found = lines.get(group) if group else "" if "*" in named else None
    return None if found is None or group == "*" else (found, True)


def own_rules(lines, ends="adec", is_loose=True):
    """The rules of a crawler; members of these kinds end a list of names, and without a name, rules apply or not."""
    rules, now, ended = {}, [None], True
    for no, _, _, kind, value in lines:
        if kind == "u":
            now = [*([] if ended else now), value.lower()]
            rules.setdefault(value.lower(), [])
        for to in {*now} if kind in "ade" else ():
            rules.setdefault(to, []).append((no, kind, value.replace(" ", "%20")))
        ended = kind != "u" and (ended or kind in ends)
    loose = rules.pop(None, [])
    return lambda agent: rules.get(agent.lower(), rules.get("*", [])) if rules else loose if is_loose else []


def standard_rules(lines):
    """Those in RFC 9309's reading: an empty rule matches nothing, and a `$` before the end is no end."""
    own = own_rules(lines, "ade", is_loose=False)

    def literal(pattern):
        return pattern[:-1].replace("$", "%24") + pattern[-1:]

    return lambda agent: [(no, kind, literal(value)) for no, kind, value in own(agent) if kind != "e" and value]


def of_closed(agents, named, own, standard, sitemaps):
    low = [*map(str.lower, named)]

    @functools.cache
    def site(agent):
        if at_vendor(agent, named) or agent.lower() in low and meant(agent):
            return -1
        return closing(own(agent), is_whole, lambda it: not opens_little(it, sitemaps)) or 0

    def is_major(agent, let_in):
        return front(agent) in LARGE or not let_in and (agent == "*" or agent.lower() not in low)

    let_in = any(it in low and site(it) < 1 for it in LARGE)
    home = lambda it: closing(own(it), *[lambda path: matches(path, "/")] * 2) if is_major(it, False) and site(it) == 0 else None
    for name, of in ("closed-site", site), ("closed-home-page", home):
        found = {}
        for agent in agents:
            found.setdefault(of(agent), []).append(agent)
        for no, whom in found.items():
            major = [it for it in whom if is_major(it, let_in)]
            if no and no > 0:
                yield f"{no} {name} {'warning' if major else 'note'} '{(major or whom)[0]}'" + f" {len(whom) - 1}" * (len(whom) > 1)

    def most(rules):
        return closing(rules, is_whole, lambda it: not opens_little(it, sitemaps)) or closing(rules, is_whole, lambda it: matches(it, "/"))

    google = ["Googlebot"] * ("*" in agents and "googlebot" not in map(str.lower, [*agents, *named]))
    for agent in [*google, *agents]:
        here, there = most(own(agent)), most(standard(agent))
        if at_vendor(agent, named) or agent.lower() in low and meant(agent) or bool(here) == bool(there):
            continue
        if agent.lower() == "googlebot":
            yield f"{here or there} closed-site error '{agent}'"
        elif there:
            yield f"{there} closed-site {'warning' if is_major(agent, False) else 'note'} rfc '{agent}'"


def of_conflicts(agents, own):
    found = {}
    for agent in agents:
        rules = [(no, kind, "/" if it == "*" else it) for no, kind, it in own(agent)]
        allows = {it: no for no, kind, it in reversed(rules) if kind == "a"}
        closed = [no for no, kind, it in rules if kind == "d" and it == "/"]
        for no, kind, it in rules:
            if kind == "d" and it in allows:
                found.setdefault(f"{no} allowed-and-disallowed", allows[it])
            if kind == "e" and closed and "/" not in allows:
                found.setdefault(f"{no} empty-disallow", closed[0])
    return [f"{warning} {other}" for warning, other in found.items()]


def of_groups(text, args):
    lines = [*parsed(text)]
    named = [value for *_, kind, value in lines if kind == "u"]
    given = args[1::2] or ([name for name, _ in KNOWN.values()] if args else ["*", *(it for it in named if re.fullmatch(r"[\w-]+|\*", it, re.A))])
    agents = [it for at, it in enumerate(given) if it.lower() not in map(str.lower, given[:at])]
    own, paths = own_rules(lines), [value[11:] for *_, kind, value in lines if kind == "s" and len(value) > 12]
    yield from of_closed(agents, named, own, standard_rules(lines), paths + [f"{it}$" for it in paths])
    yield from of_conflicts(agents, own)
    for no, _, _, kind, value in lines:
        if kind == "u" and meant(value):
            yield f"{no} misspelled-name {meant(value)}"
    for agent in agents:
        if agent.lower() not in map(str.lower, named) and meant(agent):
            yield f"misspelled-name '{agent}' {meant(agent)}"
        group, is_other = at_vendor(agent, named) or ("", False)
        if is_other:
            name = f" '{KNOWN[agent.lower()][0]}'" * (len(agents) > 1)
            yield f"vendor-group{name} {KNOWN[agent.lower()][1]}" if group else f"star-ignoring-crawler{name}"


def octets(text):
    return text.encode("utf-8", "surrogateescape").decode("latin-1")


def suggested(words):
    others = {"agent": "user-agent", "allowed": "allow", "disallowed": "disallow"}
    for name in USUAL:
        for it in (others.get(words[0], words[0]), words[1]):
            more = it.removeprefix(name)
            goes_on = re.match("[a-z_-]{2}" if "allow" in name else "[a-z][a-z_-]", more)
            if not goes_on if it.startswith(name) else near(it, name, 2):
                return f" {USUAL[name]}"
    return ""


def of_ignored(line):
    body, value = octets(line).strip(" \t"), line.split("#")[0].partition(":")[2].strip(" \t")
    words = [body.split(":")[0].strip(" \t").lower(), re.split("[ \t]", body)[0].lower()]
    if not line.split("#")[0].strip(" \t"):
        return None
    if re.search("\xc2\xad|\xe2\x80\x8b|\xe2\x81\xa0|\xef\xbb\xbf", words[1].split(":")[0]):
        return "unrecognized-line invisible"
    if "=" in body and body.split("=")[0].strip(" \t").lower() in NAMES:
        return "unrecognized-line ="
    if "c" in map(NAMES.get, words):
        return "invalid-delay"
    for name in IGNORED:
        if name in words:
            level = " note" if re.match(r"(?i:https?://)|[A-Za-z0-9.:-]+$", value) else " warning"
            return f"{name.replace('no-', 'no')}-line" + level * (name == "host")
    return f"unrecognized-line{suggested(words)}"


def of_lines(text, args):
    for no, line, it, kind, value in parsed(text):
        after = line.split("#")[0].partition(":")[2]
        found = [re.search(INNER, after) and "several-directives", kind == "x" and of_ignored(line)]
        if kind != "x":
            found += [it[1].lower() not in USUAL and "nonstandard-field", ":" not in it[2] and "missing-colon"]
            found += [kind != "c" and ":" in it[2] and it[3].strip(" \t") not in ("", value) and "space-around-value"]
        yield from (f"{no} {each}" for each in found if each)


PATHS = "/ * /* ** */ /$ *$ /*$ */$ /a /a$ $ a /*.js /x.js$ /x.css?* /*.png /x.pdf /x.js/ /js /x.woff2 /robots.txt /.well-known".split()
PATHS += "/.well-known/a /.well /sitemap /site /feed /s /? *.txt /b%20c /$* /m?n=1 /m /m?n=1$ /x.webp?$".split() + ["", "", "/b c"]
AGENTS = "* * * * Applebot other Googlebot/2.1 Googlebot-Image YandexImages AdsBot-Google chatgpt openai all googelbot".split()
AGENTS += [*LARGE, *"Bingbotx CCBoot Slurpp GPTBat Claude-Usr/1 Yandx".split()]


def group_file(r):
    some, paths = [*r.sample(AGENTS, 3), "*"], [*r.sample(PATHS, r.randint(2, 5)), *r.sample(["/", "*", "/*", ""], 2)]
    lines = r.choice([["Disallow: /"], ["User-agent: Bingbot", "Disallow: /a", "User-agent: *"], *[[f"User-agent: {some[0]}"]] * 5])
    for _ in range(r.randint(1, 10)):
        kind = r.choices(["User-agent", "Disallow", "Allow", "Sitemap", "Crawl-delay"], [30, 50, 40, 10, 3])[0]
        value = {"User-agent": r.choice(some), "Sitemap": f"https://a.b{r.choice(['/feed', '/m?n=1', '', '/', '/s'])}", "Crawl-delay": "1"}
        lines += [f"{kind}: {value.get(kind) or r.choice(paths)}"] * (kind != "User-agent" or lines[0] != "Disallow: /")
    two = [word for it in r.sample([*some, *AGENTS], 2) if "/" not in it for word in ("--agent", it)]
    return "\n".join([*lines, ""]), r.choice([[], [], two, two[:2], ["--known-crawlers"]])


FIELDS = [*NAMES, *map(str.title, NAMES), *IGNORED, "", "Disallow\u200b", "User-agent\u200b", "Host", "Host", "\xe9llow"]
FIELDS += "User-agnet User-agents Agent Usragnt Alow Allowed Sitemaps xAllow Allow- Allow-x Disallow_ Disallowed Stmp Allow/ab Disallow.ab Sitemap/ab".split()
SEPARATORS = [": "] * 5 + [":", " :", "  :", "\t:\t", " ", "\t", "", "=", ";", "::", ":\xa0", " \xa0"]
VALUES = ["", "*", "/a ", "/a\xa0", "\u3000/a", "/a \x0b", "/a\u200b", "a.b/", "a.b:80", "http://a", "/\udcff", "/ # Allow: /"]
SEAMS = [*" \t*x-$?=/9\xa0#", "\\n", "\\r"]
INNER_FIELDS = "Allow: DISALLOW: disallow: Sitemap: Crawl-delay: User-agent: Useragent: Allow User-agent".split()
INNER = r"(?i:user-agent:)|([ \t*]|\\[nr]|[A-Za-z0-9/$?=](?=[ADSC]))(?i:allow|disallow|sitemap|crawl-delay):"


def line_file(r):
    lines = ["User-agent: *", "Disallow: /x"]
    for _ in range(r.randint(1, 10)):
        field, rest = r.choice(FIELDS), r.choice(SEPARATORS) + r.choice(VALUES)
        rest += r.choice(["", r.choice(SEAMS) + r.choice(INNER_FIELDS)])
        if field.lower().startswith("crawl"):
            rest = r.choice([": ", "\t", " :", ":\u3000"]) + r.choice([*DELAYS, "ten", "-1", ""])
        lines.append(r.choice(["", " ", "\t"]) + field + rest)
    return "\n".join([*lines, ""]), []


def check(make, model):
    r = random.Random(120)
    files = [make(r) for _ in range(1000)]
    wanted = [sorted(map(parts_of, model(*file))) for file in files]
    names = {name for some in wanted for _, name, *_ in some}
    for (text, args), some in zip(files, wanted):
        warnings = json.loads(run("robots_audit", ["--json", "-", *args], text.encode("utf-8", "surrogateescape")).out)["findings"]
        assert some == sorted((str(it["line"] or ""), it["name"], it["level"], it["text"]) for it in warnings if it["name"] in names), f"{args}\n{text}"


def test_groups():
    check(group_file, of_groups)


def test_lines():
    check(line_file, of_lines)
