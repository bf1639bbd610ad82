"""Writes docs/WARNINGS.md from what `robots_audit --list-warnings` and `--explain` print: tools/warnings_page.py [PROGRAM].

PROGRAM is bin/robots_audit unless it is named. tests/test_documents.py compares the page with the program.
"""

import re
import subprocess
import sys
import textwrap
from pathlib import Path

ROOT = Path(__file__).resolve().parent.parent
TOP = """\
# Warnings

This page is for owners whose robots.txt file has a warning. It explains each one: the message, an
example, for most of them an example without the mistake, and when exactly the program gives it.
Once you have read about yours, you know whether to change your file, and how.

- An **error** is very likely not what you intended: fix it first.
- A **warning** is probably not what you intended, or crawlers don't agree about the line, or much
  depends on it, such as whether the site is closed.
- A **note** is worth a look.

`robots_audit --explain NAME` prints what is below a heading. [PROGRAMS](PROGRAMS.md#warnings) says
how warnings are printed, chosen and left out. `tools/warnings_page.py` writes this page from the
program.

In the examples `\\xFF` is a byte, and `\\{3 x}` is three times `x`. An example that needs options
begins with the command as a comment. A change that is shown as "Write instead" can change what the
file means, so look at it with `--compare`. Where the page says "proved", a machine-checked theorem
with that name shows it ([PROOFS](PROOFS.md)).

"""
MESSAGE = re.compile(r"(?P<level>\w+) (?P<name>[a-z0-9-]+): (?P<text>.*)")
EXAMPLES = re.compile(r"for example:\n(?P<bad>(?:    .*\n)+)(?:instead:\n(?P<good>(?:    .*\n)+))?")


def escaped(text):
    """A text of the program as Markdown shows it unchanged."""
    return re.sub(r"([\\`*_<>\[\]|#$])", r"\\\1", text)


def paragraph(label, text):
    """A paragraph with a label, in lines of at most 100 columns."""
    return textwrap.fill(f"**{label}:** {escaped(text)}", 100, break_long_words=False, break_on_hyphens=False) + "\n\n"


def section(name, explanation):
    """What the page has of a warning."""
    made = [f"## {name}\n\n"]
    *messages, below = re.split(r"^(?=given: )", explanation, flags=re.M)
    for part in re.split(r"^(?=(?:error|warning|note) [a-z0-9-]+: )", "".join(messages), flags=re.M)[1:]:
        level, _, text = MESSAGE.match(part).groups()
        bad, good = EXAMPLES.search(part).groups()
        made += [paragraph(level.capitalize(), text), f"For example:\n\n{bad}\n"]
        made += [f"Write instead:\n\n{good}\n"] * bool(good)
    for line in below.splitlines():
        label, text = line.split(": ", 1)
        made.append(paragraph({"given": "When it is given", "proved": "Proved"}[label], text))
    return "".join(made)


def page(run):
    """The page, by a function that returns what the program prints for options."""
    messages = [MESSAGE.fullmatch(line).groups() for line in run("--list-warnings").splitlines()]
    names = list(dict.fromkeys(name for _, name, _ in messages))
    rows = ["| Name | Level | First message |\n", "|---|---|---|\n"]
    for name in names:
        levels = sorted({level for level, other, _ in messages if other == name}, key=["error", "warning", "note"].index)
        text = re.match(r"(?:\([^)]*\)|[^;])*", next(text for _, other, text in messages if other == name))[0]
        rows.append(f"| [`{name}`](#{name}) | {', '.join(levels)} | {escaped(text)} |\n")
    return (TOP + "".join(rows) + "\n" + "".join(section(name, run("--explain", name)) for name in names)).rstrip() + "\n"


if __name__ == "__main__":
    program = sys.argv[1] if len(sys.argv) > 1 else ROOT / "bin/robots_audit"
    (ROOT / "docs/WARNINGS.md").write_text(page(lambda *words: subprocess.run([program, *words], capture_output=True, text=True, check=True).stdout))
