"""Writes docs/report.png, the picture in README of a page. It needs the built program and Chromium."""

import shutil
import sys
import tempfile
from pathlib import Path

sys.path.insert(0, str(Path(__file__).resolve().parent.parent / "tests"))
from browser import Browser  # noqa: E402
from support import ROOT, run  # noqa: E402

ARGS = ["--html", "examples/robots.txt", "--agent", "FerrisBot", "https://example.com/search/tea", "/drafts/tea"]


def main():
    with tempfile.TemporaryDirectory(ignore_cleanup_errors=True) as folder:
        page = Path(folder) / "report.html"
        page.write_text(run("robots_audit", ARGS).out, newline="")
        browser = Browser(shutil.which("chromium"), Path(folder) / "profile")
        browser.open(page, width=760, height=800)
        (ROOT / "docs/report.png").write_bytes(browser.screenshot())
        browser.close()


if __name__ == "__main__":
    main()
