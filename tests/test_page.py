"""The HTML page: it has what the JSON has, and untrusted text becomes no element. Chromium, where it is installed, reads the same."""

import json
import re
import shutil
from html.parser import HTMLParser

import page_style
import pytest
import readings
from browser import Browser
from support import ROOT, also_in, level_and_text, run, shared

SOURCE, STYLE = page_style.SOURCE.read_text(), page_style.STYLE.read_text()

EXAMPLE = (ROOT / "examples/robots.txt").read_bytes()
URLS = ["https://example.com/search/tea", "/drafts/tea", "/a?x=1&y=2"]
VERSION = (ROOT / "VERSION").read_text().strip()
FERRIS = ["--agent=FerrisBot", "-"]

# What an HTML parser or a terminal could take for something else than text.
HOSTILE = [
    b"<script>document.title='x'</script>",
    b"</code></td></tr></table></main><h1 id=L1>x</h1>",
    b'" onmouseover="x',
    b"'><img src=x onerror=x>",
    b"&lt;b&gt; &amp; &#60; &notit;",
    b"]]><!-- <![CDATA[ -->",
    b"</title></style><style>*{display:none}",
    b"a\0b\x01\x1b[31m\x7f",
    b"\xff\xc3(\x80\xed\xa0\x80",
    "\u202e\u2066\u200f\u2028\u0085\ufeff".encode(),
]


# ---- the style


def constant(name):
    """The value of a string constant: a backslash at the end of a line leaves out the line end and the spaces after it."""
    return re.sub(r"\\\n\s*", "", re.search(rf'const {name}: &str =\s*"((?:[^"\\]|\\\n)*)";', SOURCE)[1])


def test_style_is_the_file():
    assert constant("CSS") == STYLE and page_style.embedded(SOURCE, STYLE) == SOURCE


def test_policy_permits_the_style_by_its_hash():
    policy = f"default-src 'none'; style-src '{page_style.hash_of(STYLE)}'; base-uri 'none'; form-action 'none'"
    assert constant("POLICY") == policy


def contrast(one, other):
    """The contrast of two colors, by the definition in WCAG 2.2."""

    def luminance(color):
        channels = [int(color[1 + i] * 2, 16) if len(color) == 4 else int(color[1 + 2 * i : 3 + 2 * i], 16) for i in range(3)]
        linear = [c / 255 / 12.92 if c / 255 <= 0.04045 else ((c / 255 + 0.055) / 1.055) ** 2.4 for c in channels]
        return sum(weight * channel for weight, channel in zip((0.2126, 0.7152, 0.0722), linear, strict=True))

    high, low = sorted((luminance(one), luminance(other)), reverse=True)
    return (high + 0.05) / (low + 0.05)


def test_texts_have_contrast():
    """In light and dark mode and in print, texts have a contrast of at least 4.5 to each background."""
    schemes = [dict(re.findall(r"--(\w+): (#\w+)", block)) for block in re.findall(r":root \{([^}]*)\}", STYLE)]
    assert len(schemes) == 3
    used = {"fg": "bg head alert warn hint hit", "dim": "bg head hit", "link": "bg", "yes": "bg", "no": "bg"}
    pairs = [(scheme[text], scheme[back]) for scheme in schemes for text, backs in used.items() for back in backs.split()]
    assert [pair for pair in pairs if contrast(*pair) < 4.5] == []


# ---- the page


class Reader(HTMLParser):
    """The elements of a page in order: name, attributes, text."""

    def __init__(self, text):
        super().__init__()
        self.elements, self.opened = [], []
        self.feed(text)
        self.close()
        assert not self.opened
        self.elements = [(name, attributes, "".join(texts)) for name, attributes, texts in self.elements]

    def handle_starttag(self, tag, attrs):
        self.handle_startendtag(tag, attrs)
        self.opened.append(self.elements[-1])

    def handle_startendtag(self, tag, attrs):
        assert len(dict(attrs)) == len(attrs)
        self.elements.append((tag, dict(attrs), []))

    def handle_endtag(self, tag):
        assert self.opened.pop()[0] == tag

    def handle_data(self, data):
        for _, _, texts in self.opened:
            texts.append(data)

    def handle_comment(self, data):
        raise AssertionError(data)


def page(*args, file=EXAMPLE):
    """The page on a file."""
    ended = run("robots_audit", ["--html", *args], file)
    assert ended.status in (0, 1, 2) and ended.err == ""
    return ended.out


def elements_of(*args, **options):
    return Reader(page(*args, **options)).elements


def audit(*args, file=EXAMPLE):
    """The JSON on a file."""
    return json.loads(run("robots_audit", ["--json", *args], file).out)


def texts(elements, tag, **attributes):
    """The texts of the elements with this name and these attributes."""
    return [text for name, own, text in elements if name == tag and attributes.items() <= own.items()]


def children(elements, tag):
    """Each element with this name: its attributes, and the texts of the elements between it and the next one."""
    rows = []
    for name, attributes, text in elements:
        if name == tag:
            rows.append((attributes, []))
        elif rows and name in ("th", "td"):
            rows[-1][1].append(text)
    return rows


def words(warning):
    return f"{warning['level'].capitalize()}: {warning['text']} [{warning['name']}]"


def delay(micros):
    return "none" if micros is None else f"{micros / 1e6:g} s"


def in_order(warnings):
    """By line, and for one line errors first."""
    return sorted(warnings, key=lambda it: (it["line"] or 0, ["error", "warning", "note"].index(it["level"])))


def joined(warnings):
    """The items of the list of findings: those with one message are one."""
    found = {}
    for at, it in enumerate(in_order(warnings)):
        found.setdefault(shared(it["level"], it["name"], it["text"]) or at, []).append(it)
    for first, *others in found.values():
        text = words({**first, "text": first["text"] + also_in([it["line"] or "" for it in others], first["text"])})
        yield f"line {first['line']}: {text}" if first["line"] else text


def rows_of(found):
    """The rows that the lines and the warnings of a report have."""
    rows = []
    for line in found["lines"]:
        value = delay(line["value"]) if line["field"] == "crawl-delay" else line["value"] or ""
        value += f"  {line['comment']}" if line["comment"] else ""
        cells = [str(line["line"]), line["membership"], line["field"], value]
        rows.append(({"id": f"L{line['line']}", "class": line["membership"]}, cells))
        rows += [({"class": it["level"]}, [words(it)]) for it in in_order(found["findings"]) if it["line"] == line["line"]]
    return rows


SMALL = """<!DOCTYPE html><html lang="en"><head><meta charset="utf-8"/>
<meta http-equiv="Content-Security-Policy" content="{policy}"/>
<meta name="viewport" content="width=device-width, initial-scale=1"/>
<style>{style}</style><title>robots.txt for Ferris</title></head>
<body><main><h1>robots.txt for Ferris</h1>
<dl><dt>File</dt><dd><code dir="ltr">robots.txt</code></dd>
<dt>Date</dt><dd>27 &amp; 28 November</dd>
<dt>Findings</dt><dd><b class="error">1 error</b> (rules for crawlers other than Ferris aren't checked)<ul><li class="error"><a href="#L2">line 2</a>: {warning}</li></ul></dd>
<dt>Group</dt><dd>* (Ferris has no group of its own), <a href="#L1">line 1</a></dd>
<dt>Rules</dt><dd>1</dd><dt>Crawl delay</dt><dd>none</dd><dt>May fetch</dt><dd class="everything">everything</dd>
<dt>Sitemaps</dt><dd><ul></ul></dd><dt>Syntax</dt><dd>not RFC 9309 syntax, first at line 2</dd><dt>RFC 9309</dt><dd>RFC 9309 reads this file alike</dd></dl>
<h2>URLs</h2><table class="urls"><caption>May the crawler fetch it?</caption>
<thead><tr><th scope="col">URL</th><th scope="col">Verdict</th></tr></thead>
<tbody><tr><th scope="row"><code dir="ltr">/a&amp;b</code></th><td class="allowed">allowed, no line</td></tr></tbody></table>
<h2>File</h2><table class="lines"><caption>Lines, and whether they are in the group of Ferris</caption>
<thead><tr><th scope="col">Line</th><th scope="col">Group</th><th scope="col">Directive</th><th scope="col">Value</th></tr></thead>
<tbody><tr id="L1" class="own"><th scope="row">1</th><td>own</td><td class="agent">user-agent</td><td>*</td></tr>
<tr id="L2" class="own"><th scope="row">2</th><td>own</td><td>disallow</td><td>search  # &lt;b&gt;</td></tr>
<tr class="error"><td colspan="4">{warning}</td></tr></tbody></table><footer>robots_audit {version}</footer></main></body></html>"""


def test_page_on_a_small_file():
    """Apart from the style, a page has no line ends."""
    warning = f"Error: {level_and_text('missing-slash')[1]} &lsqb;missing-slash]"
    wanted = SMALL.replace("\n", "").format(policy=constant("POLICY"), style=STYLE, warning=warning, version=VERSION)
    assert page("--agent=Ferris", "--date", "27 & 28 November", "-", "/a&b", file=b"User-agent: *\nDisallow: search # <b>\n") == wanted


def test_page_has_no_start_of_a_command():
    """GitHub takes `##[` for one, whether it is in one text or between two."""
    file = b"User-agent: *\nDisallow: /##[error]a\nDisallow: /##\xff[a # ##[error]b\nSitemap: https://example.com/##[error]c\n##[error]d\n"
    written = page("--agent=Ferris", "--date", "##[error]e", "-", "/##[error]f", "/#", "/[", file=file)
    assert "##[" not in written and "<dd>%23%23&lsqb;error]e</dd>" in written


CRAWLERS = """
<h2>Crawlers</h2><div class="scroll" tabindex="0"><table class="agents"><caption>What each crawler may fetch</caption>
<thead><tr><th scope="col">Crawler</th><th scope="col">Group</th>
<th scope="col">Rules</th><th scope="col">Crawl delay</th><th scope="col">May fetch</th>
<th scope="col"><code dir="ltr">/b</code></th></tr></thead><tbody>
<tr><th scope="row"><code dir="ltr">Long</code></th><td>Long, <a href="#L4">line 4</a>; rejected: <a href="#L5">line 5</a></td>
<td>1</td><td>none</td><td class="some">not decided (by RFC 9309 and Google: some)</td></tr>
<tr><th scope="row"><code dir="ltr">B</code></th><td>* (B has no group of its own), <a href="#L1">line 1</a></td>
<td>1</td><td>2.5 s</td><td class="depends-on-rules">what its rules allow</td>
<td class="denied"><code dir="ltr">/b</code>denied, <a href="#L2">line 2</a></td></tr></tbody></table></div><h2>File</h2>
"""


def test_table_of_crawlers():
    """Each byte of it. The specification takes the longer texts from the source, so no proof sees a wrong one."""
    file = b"User-agent: *\nDisallow: /b\nCrawl-delay: 2.5\nUser-agent: Long\nDisallow: /$" + b"a" * 4096
    assert CRAWLERS.replace("\n", "") in page("--agent", "Long", "--agent", "B", "-", "/b", file=file)


@pytest.mark.parametrize("agent, group", [
    ("AdsBot-Google", "none (AdsBot-Google ignores the group *, and obeys only one with its own name; everything is allowed)"),
    ("Googlebot-Image", "Googlebot (Google applies it to Googlebot-Image), line 4"),
])
def test_page_has_what_vendors_do(agent, group):
    file = b"User-agent: *\nDisallow: /a\nCrawl-delay: 10\nUser-agent: Googlebot\nDisallow:"
    found = entries_of(f"--agent={agent}", "-", file=file)
    assert (found["Group"], found["Crawl delay"], found["May fetch"]) == (group, "none", "everything")
    line = "no line" if group.startswith("none") else "line 5"
    assert ["/a", f"allowed, {line}"] in [cells for _, cells in children(elements_of(f"--agent={agent}", "-", "/a", file=file), "tr")]
    assert "<td>disallow</td><td>(empty: an Allow of / here)</td>" in page(f"--agent={agent}", "-", file=file)


def test_page_has_the_verdicts_of_both_readings():
    """A URL that one of them denies is marked as denied."""
    verdict = 'allowed, no line (by RFC 9309 and Google: denied, <a href="#L7">line 7</a>)'
    fetched = "everything (by RFC 9309 and Google: nothing)"
    row = f'<td class="some">{fetched}</td><td class="denied"><code dir="ltr">/</code>{verdict}</td></tr>'
    assert page("-", "/", file=readings.ONLY_TWO).count(row) == 2
    alone = page("--agent=Googlebot", "-", "/", file=readings.ONLY_TWO)
    assert f'<dd class="some">{fetched}</dd>' in alone and f'<td class="denied">{verdict}</td>' in alone


def test_page_has_the_lines_and_warnings_of_the_json():
    elements, found = elements_of(*FERRIS, *URLS), audit(*FERRIS, *URLS)
    rows = rows_of(found)
    assert len(rows) > len(found["lines"]) and [row for row in children(elements, "tr") if row[0]] == rows
    assert texts(elements, "li") == [*joined(found["findings"]), *found["sitemaps"]]


@pytest.mark.parametrize("file, syntax, reading", [
    (b"User-agent: *\nDisallow: /", None, "RFC 9309 reads this file alike"),
    (b"User-agent: *\nDisallow: /a$b", None, "RFC 9309 reads this file otherwise for * (line 2)"),
    (b"User-agent: *\nDisallow: a", "not RFC 9309 syntax, first at line 2", "RFC 9309 reads this file alike"),
    (b"# nothing", None, None),
])
def test_page_has_the_sentences_about_the_standard(file, syntax, reading):
    entries = entries_of("-", file=file)
    assert (entries.get("Syntax"), entries.get("RFC 9309")) == (syntax, reading)


@pytest.mark.parametrize("agents, file, crawlers", [
    ([], b"Disallow: /a", "all crawlers"),
    ([], b"User-agent: A\nDisallow: /a", "2 crawlers"),  # `*` and `A`
    (["--agent=*"], b"Disallow: /a", "*"),
    (["--agent=Ferris", "--agent=ferris"], b"User-agent: A", "Ferris"),
])
def test_title(agents, file, crawlers):
    assert f"<title>robots.txt for {crawlers}</title>" in page(*agents, "-", file=file)


@pytest.mark.parametrize("file, heading", [(b"Disallow: /a", "Crawler"), (b"User-agent: A\nDisallow: /a", "Crawlers")])
def test_heading_without_an_agent(file, heading):
    assert f"<h2>{heading}</h2>" in page("-", file=file)


def entries_of(*args, **options):
    """The entries of the summary."""
    elements = elements_of(*args, **options)
    return dict(zip(texts(elements, "dt"), texts(elements, "dd"), strict=True))


FILES = {
    b"\n": ("0", "everything"),
    b"User-agent: *\nAllow: /a\nAllow: /b": ("2", "everything"),
    b"User-agent: *\nDisallow: /": ("1", "nothing"),
    b"User-agent: *\nDisallow: /a": ("1", "what its rules allow"),
}


@pytest.mark.parametrize("file", FILES)
def test_page_says_what_a_crawler_may_fetch(file):
    entries = entries_of("--agent=Ferris", "-", file=file)
    assert (entries["Rules"], entries["May fetch"]) == FILES[file]
    (row,) = [cells for _, cells in children(elements_of("-", file=file), "tr") if cells[0] == "*"]
    assert (row[2], row[4]) == FILES[file]


@pytest.mark.parametrize("file, is_mistake", [(b"<html>", True), (b"\n", True), (b"U\0s\0e\0r\0", True), (b"User-agent: *", False)])
def test_what_a_mistake_opens_is_not_marked_as_good(file, is_mistake):
    assert ('<main class="mistake">' in page("-", file=file)) is is_mistake


@pytest.mark.parametrize("date, text", [("2026-11-27", "2026-11-27"), ("", '""'), ("a\nb\x1b[31m\u202e", "a%0Ab%1B[31m%E2%80%AE")])
def test_page_has_the_date(date, text):
    assert entries_of("-", "--date", date)["Date"] == text
    assert "Date" not in entries_of("-")


def test_page_has_the_numbers_of_warnings():
    """They are those of the last line of the text."""
    for file in (EXAMPLE, b"User-agent: *\nDisallow: a\nDisallow: b\nhello\n", b"hello\n", b"User-agent: *\nDisallow: /a"):
        listed = run("robots_audit", ["-"], file).err.splitlines()
        numbers = listed[-1].removeprefix("robots.txt: ").split(" in ")[0].replace(", ", "") if listed else "none"
        assert entries_of("-", file=file)["Findings"] == numbers + "".join(joined(audit("-", file=file)["findings"]))


@pytest.mark.parametrize("agents", [["-"], FERRIS], ids=["all crawlers", "one crawler"])
def test_page_has_allowed_urls_too(agents):
    """The tables have a row or a column for each URL, so `--denied` leaves nothing out."""
    whole = run("robots_audit", ["--html", *agents, *URLS], EXAMPLE)
    assert run("robots_audit", ["--html", "--denied", *agents, *URLS], EXAMPLE) == whole


def test_at_most_100_warnings_are_listed():
    elements = elements_of(*FERRIS, file=b"User-agent: *\n" + b"".join(b"Disallow: /%d\nAllow: /%d\n" % (n, n) for n in range(104)))
    assert len(texts(elements, "li")) == 100 and "and 4 more, below their lines" in texts(elements, "p")
    assert len(texts(elements, "tr", **{"class": "warning"})) == 104


def test_what_has_a_row_and_is_not_listed_is_counted():
    """Of 106 warnings, those about the file and about a group past the size limit have no row, so five are left."""
    rules = b"User-agent: *\n" + b"".join(b"Disallow: /%d\nAllow: /%d\n" % (n, n) for n in range(104))
    file = rules + b"#".ljust(511_999 - len(rules), b"x") + b"\nUser-agent: a\nDisallow: /"
    elements = elements_of(*FERRIS, file=file)
    listed = texts(elements, "li")
    assert len(listed) == 101 and "[group-past-size-limit]" in listed[-1] and "and 5 more, below their lines" in texts(elements, "p")


def test_all_warnings_without_a_row_are_listed():
    """Warnings about URLs have no line, and those past the size limit have no row."""
    urls = [f"/%c3{number}" for number in range(150)]
    elements = elements_of(*FERRIS, *urls, file=b"User-agent: *\nDisallow: /a\nhello\n")
    listed = texts(elements, "li")
    assert len(listed) == 2 and "'/%c30'" in listed[0] and "(and 149 more URLs)" in listed[0] and "[unrecognized-line]" in listed[1]
    names = b"".join(b"User-agent: a%d\nDisallow: /\n" % number for number in range(150))
    elements = elements_of(*FERRIS, file=b"User-agent: *\nDisallow: /a\n" + b"#".ljust(511_973, b"x") + b"\n" + names)
    found = [text for text in texts(elements, "li") if "[group-past-size-limit]" in text]
    assert [(text.split(":")[0], "(also in lines 6, 8, 10 and 146 more)" in text) for text in found] == [("line 4", True)]


def test_line_past_the_size_limit_is_no_link():
    """It has no row."""
    elements = elements_of("--agent=A", "-", file=b"#".ljust(511_999, b"x") + b"\nUser-agent: a")
    assert [text.split(":")[0] for text in texts(elements, "li")] == ["Warning", "line 2"]
    assert texts(elements, "tr", id="L1") and not texts(elements, "tr", id="L2") and not texts(elements, "a")


def test_table_of_lines_has_bodies_of_500_lines():
    elements = elements_of(*FERRIS, file=b"User-agent: *\n" + b"x\n" * 1000)
    bodies = []
    for name, attributes, _ in elements:
        if name == "tbody":
            bodies.append([])
        elif name == "tr" and "id" in attributes:
            bodies[-1].append(attributes["id"])
    ids = [f"L{number}" for number in range(1, 1002)]
    assert bodies == [ids[:500], ids[500:1000], ids[1000:]]


def test_page_is_accessible():
    """Links have targets, headings are in order, a table has a caption, and headings say of what they are."""
    for args in ([*FERRIS, *URLS], ["-", *URLS]):
        elements = elements_of(*args)
        ids = [own["id"] for _, own, _ in elements if "id" in own]
        links = [own["href"] for name, own, _ in elements if name == "a"]
        assert links and len(set(ids)) == len(ids) and {link.removeprefix("#") for link in links} <= set(ids)
        headings = [name for name, _, _ in elements if re.fullmatch(r"h\d", name)]
        assert headings[0] == "h1" and set(headings[1:]) == {"h2"}
        names = [name for name, _, _ in elements]
        assert [names[at + 1] for at, name in enumerate(names) if name == "table"] == ["caption"] * 2
        assert all(own["scope"] in ("row", "col") for name, own, _ in elements if name == "th")
        assert elements[0][:2] == ("html", {"lang": "en"}) and ("meta", {"charset": "utf-8"}, "") in elements


def with_text(text):
    """A file with this text in a rule, a sitemap and a line that is ignored."""
    return b"User-agent: *\nDisallow: /" + text + b"\nSitemap: /" + text + b"\nx " + text + b"\n"


def harmless(text):
    """A text that makes the same lines: NUL ends a line, and a sitemap that isn't UTF-8 isn't listed."""
    return re.sub(rb"[^\0]+", b"\xff" if b"\xff" in text else b"harmless", text)


def shape(elements):
    return [element[:2] for element in elements]


@pytest.mark.parametrize("text", HOSTILE)
def test_text_of_a_file_becomes_no_element(text):
    args = ["--only", "sitemap-not-absolute", *FERRIS, "/x"]
    elements = [elements_of(*args, file=with_text(it)) for it in (text, harmless(text))]
    assert shape(elements[0]) == shape(elements[1])


@pytest.mark.parametrize("text", [text.replace(b"\0", b"").decode() for text in HOSTILE if b"\xff" not in text])
@pytest.mark.parametrize("args", [FERRIS, ["-"]], ids=["one crawler", "all crawlers"])
def test_name_and_url_become_no_element(text, args):
    """A URL has neither white space nor `<` and `>`: the program rejects those."""
    pages = []
    for it in (text, "harmless/1"):
        url = "/" + re.sub(r"[<>\s]", "", it)
        pages.append(page("--only", "host-line", f"--date={it}", *args, url, file=f"User-agent: {it}\nDisallow: /\n".encode()))
    assert shape(Reader(pages[0]).elements) == shape(Reader(pages[1]).elements)


# ---- in a browser


@pytest.fixture(scope="module")
def browser(tmp_path_factory):
    path = shutil.which("chromium")
    if path is None:
        pytest.skip("chromium isn't installed")
    opened = Browser(path, tmp_path_factory.mktemp("chromium"))
    yield opened
    opened.close()


NAMES = ["*", "SlowBot", "GPTBot", "Long", "Google-Extended", "facebookexternalhit", "a" * 200, "B"]

# the right end of the widest element
RIGHT_END = "Math.max(...[...document.querySelectorAll('main *')].map(it => it.getBoundingClientRect().right))"

PAGES = {
    "one crawler": ([*FERRIS, *URLS], EXAMPLE),
    "all crawlers": (["-", *URLS], EXAMPLE),
    "neither URLs nor lines": (["--agent=FerrisBot", "/dev/null"], b""),
    "several bodies": (FERRIS, b"User-agent: *\n" + b"Disallow: x\nx\n" * 500),
    "a rejected file": ([*FERRIS, "/"], b"User-agent: *\nDisallow: /" + b"a" * 4096 + b"$\n"),
    **{f"hostile text {at}": ([*FERRIS, "/&lt;i"], with_text(text)) for at, text in enumerate(HOSTILE)},
    "many crawlers": ([*(f"--agent={name}" for name in NAMES), "-", *URLS, "/" + "a1-%20" * 80], EXAMPLE + b"User-agent: Long\nDisallow: /$" + b"a" * 4096),
    "hostile text of all crawlers": (["-", "/&lt;i"], b"".join(b"User-agent: " + text + b"\nDisallow: /\n" for text in HOSTILE)),
}


@pytest.mark.parametrize("name", PAGES)
def test_browser_reads_the_page(browser, tmp_path, name):
    """It reads the same elements, reports and requests nothing, applies the style, and needs no sideways scrolling."""
    args, file = PAGES[name]
    path = tmp_path / "page.html"
    path.write_text(page(*args, file=file), newline="")
    for width in (360, 1000):
        browser.open(path, width)
        assert browser.elements() == Reader(path.read_text()).elements
        assert browser.messages() == [] and browser.requests() == [path.as_uri()]
        assert browser.value("document.documentElement.scrollWidth") <= width
        assert width > 640 or browser.value(RIGHT_END) <= width
        assert browser.value("getComputedStyle(document.querySelector('main')).maxWidth") == "1024px"
        assert browser.value("document.compatMode + document.characterSet") == "CSS1CompatUTF-8"


def test_link_leads_to_its_line(browser, tmp_path):
    """The row of a line is at the top of the window, although those above it aren't laid out."""
    path = tmp_path / "page.html"
    path.write_text(page(*FERRIS, file=b"User-agent: *\n" + b"Disallow: x\nx\n" * 500), newline="")
    for width in (360, 1000):
        for line in (20, 450, 700, 900):
            browser.open(path, width)
            browser.value(f"location.hash = '#L{line}'")
            browser.screenshot()
            browser.screenshot()
            top = browser.value(f"document.getElementById('L{line}').getBoundingClientRect().top")
            assert abs(top) < 1, (width, line)
