"""The test of this program. Silent where it passes."""

import sys
import tempfile
from collections.abc import Iterator
from pathlib import Path

from . import contracts, links, quotes, runs, spans
from .markdown import document_of
from .sources import Sources

SOURCES = Sources(
    paths=frozenset({"README.md", "docs/A.md", "docs", "crates/part/src/some_file.rt", "crates"}),
    names=frozenset({"known_name", "Shape", "area", "still-single"}),
    members={"Shape": frozenset({"area"})},
    commands=frozenset({"run"}),
    options=frozenset({"--cycles"}),
    tool_options={"tools/tool": frozenset({"--check"})},
    exceptions=frozenset({"gcc", "elsewhere"}),
)
SPANS = {
    "known_name": [],
    "still-single": [],
    "lost_name": ["lost_name is no name of the sources"],
    "known_name lost_name a IMAGE": ["lost_name is no name of the sources"],
    "Shape::area": [],
    "Shape::known_name": ["Shape has no known_name"],
    "part/some_file": [],
    "some_file.rt": [],
    "lost_file.rt": ["lost_file.rt is no path"],
    "part/lost": ["part/lost is no path"],
    "/tmp/any": [],
    "./fast run IMAGE --cycles 3": [],
    "./fast rum IMAGE --cycle 3": ["rum is no command", "--cycle is no option"],
    "--check": [],
    "--checks": ["--checks is no option"],
    "tools/tool --check": [],
    "tools/lost": ["tools/lost is no path"],
    "gcc -o lost": [],
    "elsewhere": [],
    "0xffff": [],
}
DOCUMENT = """\
# A `b` [c](README.md)

One [link](README.md#none), one [to here](#two-words) and
`a span
of two lines` and [a loss](lost.md).

## Two words

## Two words

1. In a list
   that goes on

Then

    $ ./fast one
    out

    ./fast two x \\
      y | cat
    other

It prints

    more

Here `./fast run a/b` and `./fast run IMAGE`.
"""
COMMANDS = [
    ("./fast one", 0, ["out"]),
    ("./fast two x \\\n  y | cat", 0, ["more"]),
    ("./fast run a/b", 0, []),
]
CONTRACTS = {
    "`Shape::area`: `exact`": True,
    "`Shape::area`: `exact`, `lost`": False,
    "`Shape::area`: `exact`, `law`: `holds`": True,
    "law `law`, clause `holds`": True,
    "law `law`, clause `lost`": False,
    "`other`: `lost`": True,
}
RUNS = {
    "    $ ./fast run x\n    said run x\n": [
        "ends with status [1], and not 0",
        "prints something else",
    ],
    "    $ ./fast run x\n    said run x\n    status: fail 3\n": [],
    "    ./fast run x\n\nIt ends as `status: fail 3`.\n": [],
    "    ./fast run x | cat\n": ["ends with status [1], and not 0"],
    "    ./fast cut x | cat\n": ["ends with status [15], and not 0"],
    "    ./fast cut x | head -n 1\n": [],
    "    ./fast run x\n\n    said more\n    status: fail 3\n": ["prints no line 'said more'"],
}
PROGRAM = """#!/bin/sh
echo "said $*"
echo "status: fail 3"
[ "$1" = cut ] && exit 15
exit 1
"""


def self_test() -> int:
    """Tests each part on small texts."""
    found = [
        *faults_of_spans(),
        *faults_of_parts(),
        *faults_of_contracts(),
        *faults_of_quotes(),
        *faults_of_runs(),
    ]
    for fault in found:
        print(f"check_docs: {fault}", file=sys.stderr)
    return 1 if found else 0


def faults_of_spans() -> Iterator[str]:
    """Spans that are judged wrongly."""
    for span, wanted in SPANS.items():
        if (found := list(spans.faults_of(span, SOURCES))) != wanted:
            yield f"of `{span}` is said {found}"


def faults_of_parts() -> Iterator[str]:
    """What is wrong with how a document is taken apart."""
    document = document_of("docs/A.md", DOCUMENT)
    if document.anchors != {"a-b-c", "two-words", "two-words-1"}:
        yield f"the anchors are {document.anchors}"
    texts = [(span.text, span.line) for span in document.spans]
    if texts[:2] != [("b", 1), ("a span of two lines", 4)]:
        yield f"the spans are {texts}"
    lost = [fault for _, fault in links.faults_of(document, {"docs/A.md": document}, SOURCES)]
    if lost != [f"{path} leads to no file" for path in ("README.md", "README.md#none", "lost.md")]:
        yield f"of the links is said {lost}"
    commands = [(one.text, one.status, one.printed) for one in runs.commands_of(document)]
    if commands != COMMANDS:
        yield f"the commands are {commands}"


def faults_of_contracts() -> Iterator[str]:
    """Clauses after a call that are judged wrongly."""
    clauses = {"Shape::area": frozenset({"exact"}), "law": frozenset({"holds"})}
    for text, is_right in CONTRACTS.items():
        document = document_of("A.md", text)
        if (not list(contracts.faults_of(document, clauses))) != is_right:
            yield f"the clauses of {text!r} are judged wrongly"


def faults_of_quotes() -> Iterator[str]:
    """Quotations that are judged wrongly."""
    with tempfile.TemporaryDirectory() as folder:
        Path(folder, "a.rt").write_text("fn one()\n    two\nthree\n")
        for lines, is_there in {"two\nthree": True, "    one()": False, "two\nthre": False}.items():
            document = document_of("A.md", f"```rust a.rt\n{lines}\n```\n")
            if (not list(quotes.faults_of(document, Path(folder)))) != is_there:
                yield f"the quotation {lines!r} is judged wrongly"


def faults_of_runs() -> Iterator[str]:
    """Runs that are judged wrongly."""
    with tempfile.TemporaryDirectory() as folder:
        program = Path(folder, "program")
        program.write_text(PROGRAM)
        program.chmod(0o755)
        for text, wanted in RUNS.items():
            document = document_of("A.md", text)
            found = [fault for _, fault in runs.faults_of(document, Path(folder), program)]
            if found != wanted:
                yield f"of {text!r} is said {found}"
