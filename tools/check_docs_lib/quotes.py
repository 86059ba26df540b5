"""Blocks that quote a source file: their fence names it after the language."""

from collections.abc import Iterable, Iterator
from pathlib import Path

from .markdown import Document, Found


def faults_of(document: Document, repository: Path) -> Iterator[tuple[Found, str]]:
    """Quotations that don't stand in their file, line by line, whatever the blanks."""
    for block in document.blocks:
        words = block.info.split()
        if len(words) != 2 or not block.lines:
            continue
        path = repository / words[1]
        if not path.is_file():
            yield block.lines[0], f"{words[1]} is no file"
            continue
        quoted = text_of(line.text for line in block.lines)
        if quoted not in text_of(path.read_text().split("\n")):
            yield block.lines[0], f"this doesn't stand in {words[1]}"


def text_of(lines: Iterable[str]) -> str:
    """Lines without the blanks at their ends."""
    return "\n".join(["", *(line.strip() for line in lines), ""])
