"""The page of web/ in Chromium: it writes what the program writes, requests nothing, runs no file of a link unasked, and can be used by
the keyboard alone, in a small window, and in light and dark."""

import base64
import datetime
import gzip
import json
import os
import re
import runpy
import shutil
import time
from pathlib import Path
from types import SimpleNamespace

import pytest
from browser import Browser
from builds import built
from library import kit
from support import PROOF, ROOT, Result, files_beside, input_of, repeated, run, spelled, wanted_of
from test_page import HOSTILE, contrast, with_text
from test_programs import golden

EXAMPLE = ROOT / "examples/robots.txt"
URLS = ["/search/tea", "/drafts/tea"]
MISSING = [it for it in ("chromium", "wasm-opt") if not shutil.which(it)]
pytestmark = pytest.mark.skipif(bool(MISSING), reason=f"{', '.join(MISSING)} is missing")


RELEASE = runpy.run_path(str(ROOT / "release"))


@pytest.fixture(scope="module")
def path(tmp_path_factory):
    """The page in the environment variable PAGE, or one as `./release --all` makes it, but of a module that isn't proved."""
    if page := os.environ.get("PAGE"):
        return Path(page).absolute()
    folder = tmp_path_factory.mktemp("web")
    made = folder / "robots_audit.html"
    RELEASE["page_of"](built("page")["page"], folder, kit(), made)
    return made


@pytest.fixture(scope="module")
def browser(path, tmp_path_factory):
    opened = Browser(shutil.which("chromium"), tmp_path_factory.mktemp("chromium"))
    yield opened
    opened.close()


@pytest.fixture
def page(browser, path):
    """The page with its first report. It requests nothing but its own worker, and reports no message."""
    browser.open(path, 1280, 800)
    ended(browser)
    yield browser
    assert browser.messages() == []
    assert [it for it in browser.requests() if not it.startswith("blob:")] == [path.as_uri()]


def ended(page):
    """What the page says once the audit has ended."""
    until_true(lambda: page.value("byId('output').ariaBusy") == "false", 60)
    return page.value("status_.textContent")


def fill(page, **texts):
    """What the page says after these texts were written into the fields with these names, as if they were typed."""
    for name, text in texts.items():
        page.value(f"byId('{name}').value = {json.dumps(text)}; byId('{name}').dispatchEvent(new Event('input', {{bubbles: true}}))")
    return ended(page)


def click(page, name):
    page.value(f"byId('{name}').click()")


def choose(page, field, *files):
    """What the page says after a file was chosen."""
    chooser = page.call("Runtime.evaluate", expression=f"byId('{field}-file')")["result"]["objectId"]
    page.call("DOM.setFileInputFiles", files=[str(it) for it in files], objectId=chooser)
    until(page, f"{field}.file?.name === {json.dumps(files[0].name)}")
    return ended(page)


def until_true(condition, seconds=10):
    limit = time.monotonic() + seconds
    while not condition():
        assert time.monotonic() < limit
        time.sleep(0.02)


def until(page, condition):
    until_true(lambda: page.value(condition))


def shown(page):
    """The report as the page has it."""
    return page.value("byId('page').hidden ? byId('text').textContent : byId('page').srcdoc")


def native(*args, **options):
    """The report of the built program."""
    return run("robots_audit", args, **options).out


def audited(page, file, *args, urls=URLS):
    """The report of the built program on a file, with the date of the page."""
    return native("--html", f"--date={page.value('today()')}", *args, "--", file.name, *urls, cwd=file.parent)


# ---- the program

RUN_ALL = """(async packed => {
    const module = await compiled(), worker = new Worker(host), bytes = it => Uint8Array.fromBase64(it), results = [];
    const cases = await new Response(new Blob([bytes(packed)]).stream().pipeThrough(new DecompressionStream("gzip"))).json();
    for (const [words, input, files] of cases) {
        const ended = new Promise(resolve => { worker.onmessage = ({ data }) => resolve(data); });
        worker.postMessage([module, words.map(bytes), bytes(input), files.map(it => it.map(bytes))]);
        const { status, out, err, failed } = await ended;
        results.push(failed ? [failed, "", ""] : [status, out.toBase64(), err.toBase64()]);
    }
    worker.terminate();
    return results;
})"""


def text_of(data):
    return base64.b64encode(data).decode()


def opened_by(words):
    """The files of the repository that these arguments name."""
    names = {name for word in words for name in (word, word.partition(b"=")[2])}
    paths = {name: os.path.join(os.fsencode(ROOT), name) for name in sorted(names) if name}
    return [(name, Path(os.fsdecode(path)).read_bytes()) for name, path in paths.items() if os.path.isfile(path) or name == b"/dev/null"]


def cases_in_the_page():
    """The golden cases of the program but those about an output that is full or closed, or a file that can't be read."""
    for it in golden():
        name, case, indented = it.values
        source = Path(ROOT, case["from"]) if case.get("from") else None
        if name == "robots_audit" and "room" not in case and not (source and source.is_dir()):
            words = [spelled(word) for word in repeated(case.get("args", "")).split()]
            stdin = source.read_bytes() if source else input_of(case, indented)
            if "it is a folder" not in str(case.get("err")):  # a page has no folders
                beside = [(os.fsencode(name), text) for name, text in files_beside(case).items()]
                yield it.id, wanted_of(case), words, stdin, beside or opened_by(words)


def test_golden_cases(page):
    cases = [*cases_in_the_page()]
    given = [[[text_of(it) for it in (b"robots_audit", *words)], text_of(stdin), [[*map(text_of, it)] for it in files]] for *_, words, stdin, files in cases]
    results = page.value(f"{RUN_ALL}('{text_of(gzip.compress(json.dumps(given).encode(), 1))}')")
    results = [Result(status, base64.b64decode(out).replace(b"not proved", PROOF.encode()), base64.b64decode(err)) for status, out, err in results]
    assert [(case[0], result, case[1]) for case, result in zip(cases, results, strict=True) if result != case[1]][:3] == []
    assert len(cases) > 1000


def test_example_of_the_readme(page):
    assert page.value("status_.textContent") == "A URL is denied to a crawler."
    assert shown(page) == audited(page, EXAMPLE, "--agent=FerrisBot")
    earliest = datetime.date.today().isoformat()
    assert earliest <= page.value("today()") <= datetime.date.today().isoformat()
    click(page, "needless")
    ended(page)
    assert shown(page) == audited(page, EXAMPLE, "--agent=FerrisBot", "--needless")


@pytest.mark.parametrize("text", HOSTILE)
def test_hostile_file(page, tmp_path, text):
    """The bytes of a file count, and its name; neither becomes an element."""
    path = tmp_path / "<b>&'\".txt"
    path.write_bytes(with_text(text))
    choose(page, "robots", path)
    assert shown(page) == audited(page, path, "--agent=FerrisBot")


@pytest.mark.parametrize("name", ["-", "--strict", "old"])
def test_name_of_a_file(page, tmp_path, name):
    """None is taken for standard input or an option."""
    (tmp_path / name).write_bytes(b"User-agent: *\nDisallow: /search")
    (tmp_path / "robots.txt").write_bytes((tmp_path / name).read_bytes())
    choose(page, "robots", tmp_path / name)
    assert shown(page) == audited(page, tmp_path / ("robots.txt" if name == "-" else name), "--agent=FerrisBot")


def test_hostile_names_and_urls(page):
    urls = ["/\"'onmouseover=x", "/&lt;b&gt;", "/\u202e%"]
    fill(page, crawlers="", urls="\n".join(["", *urls, " "]))
    assert shown(page) == audited(page, EXAMPLE, urls=urls)
    said = fill(page, crawlers="<b>x</b>\n--strict")
    assert said.startswith(run("robots_audit", ["--html", "--agent=<b>x</b>", "--agent=--strict", "--", "robots.txt", *urls], cwd=EXAMPLE.parent).err)


def test_comparison(page, tmp_path):
    (tmp_path / "old").mkdir()
    (tmp_path / "old/robots.txt").write_bytes(b"User-agent: *\nDisallow: /<b>\xff\n")
    shutil.copy(EXAMPLE, tmp_path)
    page.value("document.querySelector('[value=compare]').click()")
    assert ended(page) == "Paste or choose a file: The older robots.txt."
    assert choose(page, "old", tmp_path / "old/robots.txt") == "Something differs."
    args = ["--compare=old/robots.txt", "--agent=FerrisBot", "--", "robots.txt", *URLS]
    assert shown(page) == native(*args, cwd=tmp_path) != ""
    assert fill(page, old=EXAMPLE.read_text()) == "Nothing differs."


DROP = """((element, name, text) => {
    const files = new DataTransfer();
    files.items.add(new File([text], name));
    element.dispatchEvent(new DragEvent("drop", { dataTransfer: files, bubbles: true, cancelable: true }));
})"""


def test_dropped_files(page):
    """A file belongs to the field on which it is dropped, or is the file to audit."""
    page.value("document.querySelector('[value=compare]').click()")
    for element, field in {"document.body": "robots", "old.area": "old"}.items():
        page.value(f"{DROP}({element}, 'dropped.txt', 'User-agent: *')")
        until(page, f"{field}.file?.name === 'dropped.txt' && {field}.area.value === 'User-agent: *'")
    assert ended(page) == "Nothing differs."


def test_expectations(page, tmp_path):
    page.value("document.querySelector('[value=expect]').click()")
    assert fill(page, expect="deny * /search\ndeny SlowBot /\n") == "All expectations hold."
    assert fill(page, expect="allow * /search/tea") == "An expectation fails."
    (tmp_path / "expect").mkdir()
    (tmp_path / "expect/expect.txt").write_text("allow * /search/tea")
    shutil.copy(EXAMPLE, tmp_path)
    assert shown(page) == native("--expect=expect/expect.txt", "--", "robots.txt", cwd=tmp_path) != ""


def test_next_run_ends_the_last_one(page):
    first = "let ended = false; run(...Object.values(given(TASKS.audit))).then(() => { ended = true; })"
    assert page.value(f"(async () => {{ {first}; const {{ status }} = await run(...Object.values(given(TASKS.audit))); return [ended, status]; }})()") == [False, 1]


def test_saved_report(page, tmp_path):
    page.call("Page.setDownloadBehavior", behavior="allow", downloadPath=str(tmp_path))
    click(page, "save")
    until_true(lambda: [it.name for it in tmp_path.iterdir()] == ["robots-report.html"])
    assert (tmp_path / "robots-report.html").read_bytes().decode() == shown(page)


WITH_LITTLE_MEMORY = """(async () => {
    const source = byId("host").textContent.replace("MOST = 2 ** 30", "MOST = 9 * 2 ** 20");
    const worker = new Worker(URL.createObjectURL(new Blob([source]))), { words } = given(TASKS.audit);
    const ended = new Promise(resolve => { worker.onmessage = ({ data }) => resolve(data); });
    worker.postMessage([await compiled(), words, new Uint8Array(), [[encoder.encode("robots.txt"), new Uint8Array(1e6)]]]);
    const { status, err } = await ended;
    return [status, decoder.decode(err)];
})()"""


NEVER_ENDS = "window.Worker = class { postMessage() {} terminate() {} }; 0"
FAILS = "window.Worker = class { postMessage() { this.onmessage({ data: { failed: 'no memory' } }); } terminate() {} }; 0"


def test_memory_is_limited(page):
    """By `MOST` of host.js, here to less than the file takes; the stack takes 8 MiB of it."""
    assert page.value(WITH_LITTLE_MEMORY) == [2, "robots_audit: out of memory\n"]


def test_run_that_takes_long_or_fails(page):
    page.value(NEVER_ENDS)
    click(page, "needless")
    until(page, "status_.textContent === 'The program is still running. The next change ends it.'")
    page.value(FAILS)
    assert fill(page, urls="/") == "The program stopped: no memory"


# ---- what is typed, and links


def test_error_keeps_what_is_typed(page):
    report = shown(page)
    said = fill(page, crawlers="FerrisBot/1.0", urls="tea")
    native_error = run("robots_audit", ["--html", "--agent=FerrisBot/1.0", "--", "robots.txt", "tea"], cwd=EXAMPLE.parent).err
    assert said == native_error + "Below is the report before this change."
    assert page.value("[crawlers.value, urls.value, status_.className]") == ["FerrisBot/1.0", "tea", "failed"] and shown(page) == report
    fill(page, crawlers="", urls="/tea")
    assert shown(page) == audited(page, EXAMPLE, urls=["/tea"])


def test_text_of_a_file_can_be_edited(page, tmp_path):
    """From then on, the text counts, and not the bytes."""
    (tmp_path / "mine.txt").write_bytes(b"# \xff\r\nUser-agent: *\r\n")
    choose(page, "robots", tmp_path / "mine.txt")
    fill(page, robots=page.value("robots.area.value") + "Disallow: /\n")
    (tmp_path / "robots.txt").write_bytes("# \ufffd\nUser-agent: *\nDisallow: /\n".encode())
    assert shown(page) == audited(page, tmp_path / "robots.txt", "--agent=FerrisBot")
    choose(page, "robots", tmp_path / "mine.txt")
    click(page, "share")
    assert "isn't that of the file" in page.value("status_.textContent")
    click(page, "clear")
    assert ended(page) == "Paste or choose a file: robots.txt."


def test_known_crawlers(page):
    page.value("known.value = 'Googlebot-News'; byId('add').click(); byId('add').click()")
    ended(page)
    assert page.value("crawlers.value") == "FerrisBot\nGooglebot-News" and page.value("known.options.length") > 100
    assert shown(page) == audited(page, EXAMPLE, "--agent=FerrisBot", "--agent=Googlebot-News")


TEXT = "User-agent: *\nDisallow: /<script>&robots=#%41+\u00e9\n"


def test_link_is_shown_and_not_run(page):
    """It is read once, and its file is audited when somebody asks for it."""
    fill(page, robots=TEXT, crawlers="", urls="/a?b=c&d")
    report = shown(page)
    click(page, "share")
    link = page.value("byId('link').value")
    page.open(SimpleNamespace(as_uri=lambda: link), 1280, 800)
    page.events.clear()
    fill(page, urls="/a?b=c&d")
    time.sleep(0.5)
    assert "came with the link" in page.value("status_.textContent")
    assert page.value("[robots.area.value, crawlers.value, urls.value, location.hash]") == [TEXT, "", "/a?b=c&d", ""]
    assert page.value("worker") is None and page.value("byId('page').hidden") and page.requests() == []
    page.value("document.querySelector('.ask > button').click()")
    ended(page)
    assert shown(page) == report
    page.value("location.hash = '#robots=x&task=toString'")
    until(page, "robots.area.value === 'x'")
    assert page.value("[location.hash, form.elements.task.value, byId('page').hidden, worker]") == ["", "audit", True, None]
    page.open(SimpleNamespace(as_uri=lambda: link.split("#")[0]), 1280, 800)


# ---- for everybody


def press(page, key, code, text=""):
    for kind in ("keyDown", "keyUp"):
        page.call("Input.dispatchKeyEvent", type=kind, key=key, windowsVirtualKeyCode=code, text=text if kind == "keyDown" else "")


def test_keyboard_alone(page):
    focused = "document.activeElement.id || document.activeElement.name || document.activeElement.localName"
    reached = ["body"]
    while "page" not in reached:
        press(page, "Tab", 9)
        until_true(lambda: page.value(focused) not in ("body", reached[-1]))
        reached.append(page.value(focused))
        if reached[-1] == "urls":
            page.call("Input.insertText", text="/typed\n")
        if reached[-1] == "needless":
            press(page, " ", 32, " ")
        if reached[-1] == "button":
            press(page, "Enter", 13, "\r")
            ended(page)
    fields = ["robots", "robots-file", "clear", "task", "crawlers", "known", "add", "urls", "needless"]
    assert reached[1:] == [*fields, "button", "summary", "save", "share", "page"]
    assert shown(page) == audited(page, EXAMPLE, "--agent=FerrisBot", "--needless", urls=["/typed", *URLS])


def test_keyboard_in_a_small_window(page, path):
    """The arrow keys lead from the file to the task and the report."""
    page.open(path, 360, 640)
    ended(page)
    visible = "[robots.area, crawlers, byId('page')].map(it => it.checkVisibility())"
    press(page, "Tab", 9)
    for at in range(3):
        assert page.value(visible) == [it == at for it in range(3)]
        press(page, "ArrowRight", 39)


CONTROLS = {"textbox", "checkbox", "radio", "button", "combobox", "link", "Iframe", "region"}


@pytest.mark.parametrize("task", ["audit", "compare", "expect"])
def test_each_control_has_a_name(page, task):
    page.value(f"document.querySelector('[value={task}]').click()")
    ended(page)
    nodes = [it for it in page.call("Accessibility.getFullAXTree")["nodes"] if not it["ignored"]]
    names = [(it["role"]["value"], it.get("name", {}).get("value", "")) for it in nodes]
    assert [it for it in names if it[0] in CONTROLS and not it[1].strip()] == []
    assert {"status", "main", "heading", "textbox", "radio", "button"} <= {role for role, _ in names}


COLORS = """(() => {
    const backs = it => !it ? "rgb(0, 0, 0)" : /, 0\\)$/.test(getComputedStyle(it).backgroundColor) ? backs(it.parentElement)
        : getComputedStyle(it).backgroundColor;
    const written = it => it.matches("textarea, input, select") || [...it.childNodes].some(one => one.nodeType === 3 && one.data.trim());
    const seen = [...document.querySelectorAll("body *")].filter(it => it.checkVisibility());
    return [
        seen.filter(written).map(it => [it.id || it.localName, getComputedStyle(it).color, backs(it)]),
        seen.filter(it => it.matches("textarea, select, button, #output > *"))
            .map(it => [it.id || it.localName, getComputedStyle(it).borderTopColor, backs(it.parentElement)])];
})()"""


def in_hexadecimal(color):
    return "#" + "".join(f"{int(it):02x}" for it in re.findall(r"\d+", color)[:3])


@pytest.mark.parametrize("scheme", ["light", "dark"])
def test_contrast(page, path, scheme):
    """Texts have a contrast of at least 4.5, and borders of controls 3, also while there is an error."""
    page.open(path, 1280, 800, scheme=scheme)
    ended(page)
    for text in ("FerrisBot", "/"):
        fill(page, crawlers=text)
        texts, borders = page.value(COLORS)
        assert len(texts) > 20 and len(borders) > 5
        for least, colors in ((4.5, texts), (3, borders)):
            assert [it for it in colors if contrast(*map(in_hexadecimal, it[1:])) < least] == []


NESTED = """(() => {
    const scrolled = it => it.localName === "iframe" || it.scrollHeight > it.clientHeight + 1
        && (it === document.documentElement || /auto|scroll/.test(getComputedStyle(it).overflowY));
    const all = [...document.querySelectorAll("*")].filter(it => it.checkVisibility() && scrolled(it));
    return all.filter(it => all.some(other => other !== it && other.contains(it))).map(it => it.id || it.localName);
})()"""
CUT = "[...document.querySelectorAll('.ask textarea')].filter(it => it.scrollHeight > it.clientHeight + 1).length"


@pytest.mark.parametrize("width, height", [(360, 640), (768, 1024), (640, 360), (1280, 800)])
def test_window(page, path, width, height):
    """Nothing that is scrolled is in something that is scrolled, and nothing is scrolled sideways."""
    page.open(path, width, height)
    fill(page, robots="User-agent: *\n" + "Disallow: /a\n" * 300, urls="/search/tea\n" * 60 + "/" + "a" * 200)
    for task in ("audit", "compare", "expect"):
        page.value(f"document.querySelector('[value={task}]').click()")
        fill(page, old="User-agent: *\n" * 100, expect="allow * /\n" * 99)
        for view in ("file", "ask", "result"):
            page.value(f"document.querySelector('[value={view}]').click()")
            assert page.value(NESTED) == [], (task, view)
            assert page.value("document.documentElement.scrollWidth") <= width and page.value(CUT) == 0


# ---- what the page is


def test_page_is_one_small_file_without_markup_from_texts(page, path):
    text = path.read_text()
    assert len(text.encode()) <= (680_000 if "PAGE" in os.environ else 1_000_000)  # a module that isn't proved is larger
    assert "connect-src" not in text
    assert all((ROOT / name).read_text().splitlines()[0] in text for name in ("LICENSE-MIT", "LICENSE-APACHE")) and "---- memchr" in text
    scripts = "".join((ROOT / f"web/{name}.js").read_text() for name in ("page", "program", "host"))
    assert not re.findall(r"innerHTML|outerHTML|insertAdjacent|document\.write|\beval\b|new Function|fetch\(|XMLHttp|import\(", scripts)
    assert page.value("byId('page').sandbox.length") == 0 and page.value("byId('page').hasAttribute('sandbox')")


def test_page_is_left_out_without_binaryen(tmp_path, monkeypatch, capsys):
    monkeypatch.setenv("PATH", "")
    RELEASE["release_modules"](tmp_path, tmp_path, None, "0")
    said = "release: binaryen is missing, so neither robots_audit.html nor the packages for Node are made\n"
    assert capsys.readouterr().out == said and not [*tmp_path.iterdir()]


def test_no_release_without_node(tmp_path, monkeypatch):
    """Since nobody could try its packages for Node."""
    (tmp_path / "wasm-opt").touch(0o755)
    monkeypatch.setenv("PATH", str(tmp_path))
    with pytest.raises(SystemExit, match="release: node is missing"):
        RELEASE["release_modules"](tmp_path, tmp_path, None, "0")
