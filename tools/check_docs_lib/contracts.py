"""Clauses that the documents name after their call: `Type::call`: `clause`, `clause`."""

import re
from collections.abc import Iterator, Mapping
from pathlib import Path

from clauses_lib.crates import read_crates

from .markdown import Document, Found

NAMED = (
    re.compile(r"`((?:\w+::)?\w+)`:((?:,?\s+`\w+`(?!:))+)"),
    re.compile(r"law `(\w+)`, clause(\s+`\w+`)"),
)


def clauses_of_calls(repository: Path) -> dict[str, frozenset[str]]:
    """The clauses of each public call, by its name with its type and without."""
    clauses: dict[str, set[str]] = {}
    for crate in read_crates(repository):
        for group in (*crate.groups, *crate.laws):
            for call in group.calls:
                names = {clause.name for clause in call.clauses}
                for key in (call.name, f"{group.name}::{call.name}"):
                    clauses.setdefault(key, set()).update(names)
        clauses.pop(crate.name, None)
    return {call: frozenset(names) for call, names in clauses.items()}


def faults_of(
    document: Document, clauses: Mapping[str, frozenset[str]]
) -> Iterator[tuple[Found, str]]:
    """Clauses that their call doesn't have."""
    for paragraph in document.paragraphs:
        for call, names in (pair for form in NAMED for pair in form.findall(paragraph.text)):
            for name in re.findall(r"\w+", names):
                if call in clauses and name not in clauses[call]:
                    yield Found(call, paragraph.line), f"it has no clause {name}"
