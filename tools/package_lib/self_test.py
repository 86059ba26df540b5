"""The test of this program. Silent where it passes."""

import subprocess
import sys
import tempfile
from collections.abc import Iterator
from pathlib import Path

from .manual import block_lines, blocks_of, inline, page_of_fast
from .tools import TOOLS
from .tree import REPOSITORY, START, Tree, put_tools

INLINE = {
    "a `--word` of [text](OTHER.md#part)": r"a \fB\-\-word\fR of text",
    "**bold** and *slanted*": r"\fBbold\fR and \fIslanted\fR",
    ".dot": r"\&.dot",
    "back\\slash": r"back\eslash",
}
DOCUMENT = """\
## Exit statuses

Words
go on.

    as  it stands

| status | when | line |
|---|---|---|
| 0 | it passed | |
| 1 | it failed | `fail CODE` |

### A part

1. One.
2. Two.
"""
LINES = [
    ".SH EXIT STATUSES",
    ".PP",
    "Words go on.",
    ".PP",
    ".nf",
    r"\&as  it stands",
    ".fi",
    ".TP",
    "0",
    "it passed",
    ".TP",
    "1",
    r"when: it failed; line: \fBfail CODE\fR",
    ".PP",
    ".SS A part",
    ".PP",
    "1. One.",
    ".PP",
    "2. Two.",
]


def self_test() -> int:
    """Tests the making of manual pages, and that the texts have what these are made of."""
    found = {text: inline(text) for text in INLINE}
    faults = [f"{text!r} became {found[text]!r}" for text in INLINE if found[text] != INLINE[text]]
    lines = [line for block in blocks_of(DOCUMENT) for line in block_lines(block)]
    if lines != LINES:
        faults.append(f"the document became {lines!r}")
    texts = (START / "help.txt").read_text(), (REPOSITORY / "docs" / "COMMANDS.md").read_text()
    page = page_of_fast(*texts, "1.0", "2026-01-01")
    for part in ".SH NAME", ".SH OPTIONS", ".SH FILES", ".SS Exit statuses", ".SH EXAMPLES":
        if f"\n{part}\n" not in page:
            faults.append(f"fast(1) lacks {part!r}")
    faults.extend(faults_of_tools())
    for fault in faults:
        print(f"package: {fault}", file=sys.stderr)
    return 1 if faults else 0


def faults_of_tools() -> Iterator[str]:
    """Tools that don't start from where the package has them."""
    with tempfile.TemporaryDirectory() as folder:
        put_tools(Tree(Path(folder)))
        for tool in TOOLS:
            words = [sys.executable, f"{folder}/usr/share/fast/tools/{tool.name}", "--help"]
            done = subprocess.run(words, capture_output=True, text=True, check=False)
            if done.returncode != 0:
                yield f"{tool.name} doesn't start: {done.stderr.strip().splitlines()[-1]}"
