"""Puts the page into one file: python3 web/make_page.py PROGRAM FOLDER OUT, for a compiled program and a folder with licenses."""

import base64
import gzip
import hashlib
import re
import sys
from html import escape
from pathlib import Path
from string import Template

HERE = Path(__file__).resolve().parent
ROOT = HERE.parent
POLICY = (
    "default-src 'none'; script-src {script} 'wasm-unsafe-eval'; style-src {style} {report}; worker-src blob:; "
    "base-uri 'none'; form-action 'none'"
)


def hash_of(text):
    """The hash of a script or a style, as a Content-Security-Policy names it."""
    return f"'sha256-{base64.b64encode(hashlib.sha256(text.encode()).digest()).decode()}'"


def known_crawlers():
    """The names of the crawlers that `robots_audit` knows."""
    table = re.search(r"static CRAWLERS.*?^\];", (ROOT / "crates/robots_warnings/src/crawlers.rt").read_text(), re.M | re.S)[0]
    return sorted(re.findall(r'\("([^"]+)", "[^"]*"\)', table), key=str.lower)


def page(program, licenses):
    """The page. The report in its frame is under the same policy, so that has the hash of the report's style too."""
    style, script, *host = ((HERE / name).read_text() for name in ("page.css", "page.js", "program.js", "host.js"))
    host = "".join(host)
    report = (ROOT / "crates/audit_reports/page.css").read_text()
    assert "</" not in script + host + style
    return Template((HERE / "page.html").read_text()).substitute(
        policy=POLICY.format(script=hash_of(script), style=hash_of(style), report=hash_of(report)),
        style=style,
        script=script,
        host=host,
        crawlers="".join(f"<option>{escape(it)}</option>" for it in known_crawlers()),
        example=escape((ROOT / "examples/robots.txt").read_text(), quote=False),
        licenses=escape(licenses, quote=False),
        program=base64.b64encode(gzip.compress(program, 9, mtime=0)).decode(),
    )


if __name__ == "__main__":
    program, folder, out = map(Path, sys.argv[1:])
    licenses = "\n".join(it.read_text() for it in sorted(folder.iterdir()))
    out.write_text(page(program.read_bytes(), licenses))
