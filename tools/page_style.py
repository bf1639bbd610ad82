"""Embeds the style of the HTML page, crates/audit_reports/page.css, in the program: run this file after an edit of the style."""

import base64
import hashlib
import re
from pathlib import Path

CRATE = Path(__file__).resolve().parent.parent / "crates/audit_reports"
SOURCE, STYLE = CRATE / "src/page/style.rt", CRATE / "page.css"


def hash_of(style):
    """The hash of a style, as a Content-Security-Policy names it."""
    return "sha256-" + base64.b64encode(hashlib.sha256(style.encode()).digest()).decode()


def embedded(source, style):
    """The source with this style and its hash."""
    assert style.isascii() and not set(style) & set('"\\<&[\0\r'), "this character would need an escape"
    source = re.sub(r'(const CSS: &str = "\\\n)[^"]*', lambda it: it[1] + style, source)
    return re.sub(r"sha256-[^']*", hash_of(style), source)


if __name__ == "__main__":
    SOURCE.write_text(embedded(SOURCE.read_text(), STYLE.read_text()))
