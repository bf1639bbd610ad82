"""The command for Node: it writes what the built program writes, in the golden cases and at pipes, terminals and names of files."""

import base64
import fcntl
import json
import os
import pty
import re
import shutil
import subprocess
import time
from pathlib import Path

import pytest
from in_node import node, unpacked
from support import PROOF, ROOT, Result, files_beside, input_of, repeated, run, spelled, wanted_of
from test_programs import feed, golden

HERE = Path(__file__).resolve().parent
COMMAND = "bin/robots_audit.cjs"


def text_of(data):
    return base64.b64encode(data).decode()


def as_proved(result):
    """What a program writes in place of this one, which may say that it isn't proved."""
    result.out = (result.out or "").replace("not proved", PROOF)
    return result


def prepared(case, indented, folder):
    """Arguments, the path of standard input, and the folder of a golden case."""
    folder.mkdir()
    source, beside = Path(ROOT, case["from"]) if case.get("from") else folder / "input", folder / "beside"
    if not case.get("from"):
        source.write_bytes(input_of(case, indented))
    files = files_beside(case)
    if files:
        beside.mkdir()
    for name, text in files.items():
        (beside / name).write_bytes(text)
    return [spelled(word) for word in repeated(case.get("args", "")).split()], source, beside if files else ROOT


CASES = [it for it in golden() if it.values[0] == "robots_audit"]


def test_golden_cases(packages, tmp_path):
    """All but those about pieces of input and room for output, in one process."""
    cases = [it for it in CASES if not {"pieces", "room"} & it.values[1].keys()]
    given = []
    for at, it in enumerate(cases):
        words, source, cwd = prepared(*it.values[1:], tmp_path / str(at))
        given.append({"words": [*map(text_of, words)], "input": str(source), "cwd": str(cwd)})
    (tmp_path / "cases.json").write_text(json.dumps(given))
    found = json.loads(node(HERE / "golden.cjs", packages["robots-audit"], tmp_path / "cases.json", timeout=900))
    results = [as_proved(Result(status, *map(base64.b64decode, texts))) for status, *texts in found]
    wrong = [(it.id, result, wanted_of(it.values[1])) for it, result in zip(cases, results, strict=True) if result != wanted_of(it.values[1])]
    assert wrong[:3] == [] and len(cases) > 1000


@pytest.fixture
def command(packages):
    """The words that run the command."""
    return ["node", packages["robots-audit"] / COMMAND]


def ended(command, args, stdin=b"", **options):
    """What the command ends with and writes."""
    return as_proved(run(Path(shutil.which(command[0])), [*command[1:], *args], stdin, **options))


@pytest.mark.parametrize("case", [pytest.param(it.values[1], id=it.id) for it in CASES if "room" in it.values[1]])
def test_output_that_is_full_or_closed(command, case, tmp_path):
    """The golden cases about that, in a process of their own. Where a limit cuts a file, a pipe that is closed is another test."""
    words, source, cwd = prepared(case, False, tmp_path / "case")
    wanted, room = wanted_of(case), case["room"]
    if room not in (0, "closed"):
        pytest.skip("Node is ended by a limit for files")
    reader, writer = os.pipe()
    os.close(reader)
    with source.open("rb") as stdin, os.fdopen(writer, "wb") as closed, open("/dev/full", "wb") as full:
        result = ended(command, words, stdin.fileno(), stdout=closed if room == "closed" else full, cwd=cwd)
    assert (result.status, result.err) == (wanted.status, wanted.err)


@pytest.mark.parametrize("case", [pytest.param(it.values[1], id=it.id) for it in CASES if "pieces" in it.values[1]])
def test_input_in_pieces(command, case):
    words = [spelled(word) for word in repeated(case.get("args", "")).split()]
    with subprocess.Popen([*command, *words], cwd=ROOT, stdin=subprocess.PIPE, stdout=subprocess.PIPE, stderr=subprocess.PIPE) as child:
        feed(child.stdin, input_of(case), case["pieces"])
        result = Result(child.wait(60), child.stdout.read(), child.stderr.read())
    assert result == wanted_of(case)


def not_waiting(pipe):
    """A pipe that gives EAGAIN instead of waiting."""
    fcntl.fcntl(pipe, fcntl.F_SETFL, fcntl.fcntl(pipe, fcntl.F_GETFL) | os.O_NONBLOCK)
    return pipe


def test_pipes_that_do_not_wait(command, tmp_path):
    """Input that comes late, and output that nobody takes for a while, which is more than a pipe holds."""
    file = b"User-agent: *\n" + b"".join(b"Disallow: /%d\n" % it for it in range(20000))
    (tmp_path / "robots.txt").write_bytes(file)
    words = ["--json", "-", "--agent", "FerrisBot"]
    wanted = run("robots_audit", words, file)
    assert len(wanted.out) > 1 << 20
    (from_us, to_it), (from_it, to_us) = os.pipe(), os.pipe()
    child = subprocess.Popen([*command, *words], stdin=not_waiting(from_us), stdout=not_waiting(to_us), stderr=subprocess.PIPE)
    os.close(from_us), os.close(to_us)
    time.sleep(0.5)
    with os.fdopen(to_it, "wb") as pipe:
        pipe.write(file)
    time.sleep(0.5)
    with os.fdopen(from_it, "rb") as pipe:
        out = pipe.read()
    assert as_proved(Result(child.wait(60), out, child.stderr.read())) == wanted


def on_a_terminal(command, args, **variables):
    """What a program writes to a terminal as its standard error."""
    ours, its = pty.openpty()
    environment = {name: os.environ[name] for name in ("PATH",)} | variables
    child = subprocess.Popen([*command, *args], stdin=subprocess.DEVNULL, stdout=subprocess.DEVNULL, stderr=its, env=environment, cwd=ROOT)
    os.close(its)
    out = b""
    while True:
        try:
            read = os.read(ours, 4096)
        except OSError:  # Linux's end of a terminal
            break
        if not read:
            break
        out += read
    os.close(ours)
    child.wait(60)
    return out


@pytest.mark.parametrize("variables", [{}, {"TERM": "xterm"}, {"TERM": "dumb"}, {"TERM": "xterm", "NO_COLOR": "1"}, {"TERM": "xterm", "NO_COLOR": ""}])
def test_colors_on_a_terminal(command, variables):
    args = ["examples/robots.txt", "--agent", "FerrisBot"]
    native = on_a_terminal([ROOT / "crates/robots_audit/out/robots_audit"], args, **variables)
    assert on_a_terminal(command, args, **variables) == native != b""
    assert (b"\x1b[" in native) == (variables.get("TERM") != "dumb" and not variables.get("NO_COLOR"))


@pytest.mark.parametrize("name", [b"\xff\xfe.txt", "\u00e4 b\n.txt".encode(), b"a/b", b"missing", b"folder", b"-", b"a" * 300, b"a/" * 3000])
def test_names_of_files(command, tmp_path, name):
    (tmp_path / "folder").mkdir()
    if name[:1] in b"\xff\xc3":
        (Path(os.fsdecode(os.path.join(os.fsencode(tmp_path), name)))).write_bytes(b"User-agent: *\nDisallow: /x\n")
    for args in ([name, b"/x"], [b"--compare", name, b"/dev/null"]):
        assert ended(command, args, cwd=tmp_path) == run("robots_audit", args, cwd=tmp_path)


def test_a_file_that_may_not_be_read(command, tmp_path):
    """Of errors that Node names, the program knows what it knows of the system's."""
    (tmp_path / "robots.txt").write_text("")
    (tmp_path / "robots.txt").chmod(0)
    (tmp_path / "loop").symlink_to("loop")
    for name in ("robots.txt", "loop", "robots.txt/x"):
        assert ended(command, [name], cwd=tmp_path) == run("robots_audit", [name], cwd=tmp_path)


NAMES = """const { nameFor } = require(process.argv[1] + "/lib/command.cjs"), of = text => nameFor(Buffer.from(text), "win32");
console.log(JSON.stringify(["/dev/null", "C:\\\\site\\\\robots.txt", "C:/site/robots.txt", "\\\\\\\\host\\\\share\\\\\\u00e4.txt"].map(of)));"""


def test_names_of_files_on_windows(packages):
    """By path.win32, since no Windows is at hand."""
    names = json.loads(node("-e", NAMES, packages["robots-audit"]))
    assert names == ["\\\\.\\nul", "\\\\?\\C:\\site\\robots.txt", "\\\\?\\C:\\site\\robots.txt", "\\\\?\\UNC\\host\\share\\\u00e4.txt"]


WINDOWS = """const { fileCalls } = require(process.argv[1] + "/lib/command.cjs"), fs = require("node:fs");
const run = { bytes: new Uint8Array(64), errno: 0, nameAt: () => Buffer.from("x") }, calls = fileCalls(run, [0, 1, 2]), found = [];
const failing = code => () => { throw Object.assign(new Error(code), { code }); };
for (const code of ["EOF", "EPERM", "EBUSY", "UNKNOWN", "EISDIR"]) {
  [fs.readSync, fs.writeSync, fs.openSync] = [failing(code), failing(code), failing(code)];
  found.push([calls.read(0, 0n, 9n), calls.write(1, 0n, 9n), calls.open(0n)].map(Number), run.errno);
}
console.log(JSON.stringify(found));"""


def test_errors_of_windows(packages):
    """The end of a pipe is an error there; those that Linux doesn't have are EIO, and a pipe that nobody reads is EPIPE."""
    found = json.loads(node("-e", WINDOWS, packages["robots-audit"]))
    failed = [-1, -1, -1]
    assert found == [[0, -1, -1], 32, failed, 1, failed, 16, failed, 5, failed, 21]


def test_a_module_that_stops(packages, tmp_path):
    """As a trap, which is an error and not a verdict."""
    archive = tmp_path / "copy"
    shutil.copytree(packages["robots-audit"], archive)
    host = archive / "lib/command.cjs"
    host.write_text(re.sub(r"isatty: number => .*", "isatty: () => { throw new WebAssembly.RuntimeError('unreachable'); },", host.read_text()))
    result = ended(["node", archive / COMMAND], [ROOT / "examples/robots.txt"])
    assert result == Result(2, result.out, "robots_audit: the program stopped: unreachable\n")


@pytest.mark.skipif(not shutil.which("npx"), reason="npx is missing")
def test_from_the_archive_in_an_empty_folder(archives, tmp_path):
    """As the README has it, without a network."""
    shutil.copy(archives["robots-audit"], tmp_path)
    (tmp_path / "robots.txt").write_text("User-agent: *\nDisallow: /search\n")
    environment = {"PATH": os.environ["PATH"], "HOME": str(tmp_path), "npm_config_offline": "true", "npm_config_update_notifier": "false"}
    words = ["npx", "--yes", f"./{archives['robots-audit'].name}", "robots.txt", "--agent", "FerrisBot", "/search/tea"]
    result = subprocess.run(words, cwd=tmp_path, env=environment, capture_output=True, text=True, timeout=120)
    native = run("robots_audit", words[3:], cwd=tmp_path)
    assert (result.returncode, result.stdout) == (native.status, native.out) and native.err in result.stderr
    assert unpacked(archives["robots-audit"], tmp_path / "unpacked").joinpath(COMMAND).stat().st_mode & 0o111
