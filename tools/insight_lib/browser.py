"""Chromium without a screen, for the tests of pages."""

import html
import re
import shutil
import subprocess
import tempfile
from pathlib import Path

from shared_lib.faults import Fault

NAMES = ["chromium", "chromium-browser", "google-chrome"]
SECONDS = 120


def find_browser() -> str | None:
    """The browser, where one is installed."""
    return next((path for name in NAMES if (path := shutil.which(name))), None)


def result_of_check(browser: str, page: Path) -> tuple[str | None, list[str]]:
    """What the check in a page found, as JSON, and what the page said on its console."""
    with tempfile.TemporaryDirectory() as profile:
        words = [browser, "--headless", "--no-sandbox", "--disable-gpu", "--hide-scrollbars"]
        words += ["--window-size=1500,850", f"--user-data-dir={profile}", "--dump-dom"]
        words += ["--enable-logging=stderr", "--v=0", f"file://{page.absolute()}"]
        try:
            done = subprocess.run(
                words, capture_output=True, text=True, timeout=SECONDS, check=False
            )
        except subprocess.TimeoutExpired:
            raise Fault(f"{browser} took more than {SECONDS} seconds for {page.name}") from None
    said = [line for line in done.stderr.splitlines() if "CONSOLE" in line]
    found = re.search(r'<pre[^>]* id="checked">(.*?)</pre>', done.stdout, re.DOTALL)
    return html.unescape(found.group(1)) if found else None, said
