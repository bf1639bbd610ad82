"""`robots_audit --color`: levels have colors on a terminal, unless an option or the environment says otherwise."""

import os
import pty
import subprocess

import pytest
from support import FORMATS, program, warning_lines

FILE = b"User-agent: *\nDisallow: a\n"
PLAIN = warning_lines(["2 missing-slash"])
COLORED = PLAIN.replace("error", "\x1b[1;31merror\x1b[0m", 1)
TERMINAL = {"TERM": "xterm"}


def read_all(end):
    """What can be read until the other end is closed, which Linux reports as an error for a terminal."""
    text = b""
    try:
        while piece := os.read(end, 4096):
            text += piece
    except OSError:
        pass
    return text.decode().replace("\r\n", "\n")


def audit(args, environment, is_terminal, file=FILE):
    """What the program writes to standard error, which is a terminal or a pipe, and to standard output, which is a pipe."""
    unset = {key: value for key, value in os.environ.items() if key not in ("NO_COLOR", "TERM")}
    reader, writer = pty.openpty() if is_terminal else os.pipe()
    try:
        command = [program("robots_audit"), *args]
        with subprocess.Popen(command, stdin=subprocess.PIPE, stdout=subprocess.PIPE, stderr=writer, env=unset | environment) as child:
            os.close(writer)
            out = child.communicate(file, timeout=60)[0].decode()
        return read_all(reader), out
    finally:
        os.close(reader)


@pytest.mark.parametrize(
    "args, environment, is_terminal, colored",
    [
        ([], TERMINAL, True, True),
        ([], {}, True, True),
        ([], TERMINAL, False, False),
        ([], {"NO_COLOR": "1"}, True, False),
        ([], {"NO_COLOR": ""}, True, True),
        ([], {"NO_COLOR": b"\xff"}, True, False),
        ([], {"TERM": "dumb"}, True, False),
        (["--color=auto"], TERMINAL, True, True),
        (["--color", "auto"], {"NO_COLOR": "1"}, True, False),
        (["--color", "auto"], TERMINAL, False, False),
        (["--color=always"], {"NO_COLOR": "1"}, True, True),
        (["--color=always"], {"NO_COLOR": "1", "TERM": "dumb"}, False, True),
        (["--color=never"], TERMINAL, True, False),
    ],
)
def test_colors(args, environment, is_terminal, colored):
    assert audit([*args, "-q", "-"], environment, is_terminal)[0] == (COLORED if colored else PLAIN)


def test_a_report_has_no_colors():
    colored, plain = (audit([f"--color={when}", "-", "/a"], TERMINAL, True)[1] for when in ("always", "never"))
    assert colored == plain and "\x1b" not in colored


def test_other_formats_have_no_colors():
    for form in set(FORMATS) - {"text"}:
        error, out = audit(["--color=always", "--format", form, "-"], TERMINAL, True)
        assert (error, "\x1b" in out) == ("", False)


def test_an_error_has_no_colors():
    assert audit(["--color=always"], TERMINAL, True)[0].startswith("robots_audit: missing FILE")


def test_the_file_adds_no_codes():
    """Codes in the names of files and in URLs are escaped, as without colors."""
    error, _ = audit(["--color=always", "-q", "-", "/%c3\x1b[31m"], TERMINAL, True)
    plain = warning_lines(["url-not-normal /%c3%1B[31m", "2 missing-slash"])
    assert error == plain.replace("note", "\x1b[1;36mnote\x1b[0m", 1).replace("error", "\x1b[1;31merror\x1b[0m", 1)
