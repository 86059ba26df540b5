"""A document: its headings, links, spans of code, and blocks of code."""

import re
from collections.abc import Iterator
from dataclasses import dataclass, field
from pathlib import Path

FENCE = re.compile(r" {0,3}(```+|~~~+)(.*)")
HEADING = re.compile(r"(#{1,6}) +(.*?) *#*$")
ITEM = re.compile(r" *(?:[-*+]|\d+\.) ")
SPAN = re.compile(r"(?<!`)(`+)(?!`)(.+?)(?<!`)\1(?!`)", re.DOTALL)
LINK = re.compile(r"!?\[(?:[^][]|\[[^][]*\])*\]\(([^()\s]+)\)")


@dataclass(frozen=True)
class Found:
    """A text with the number of its line."""

    text: str
    line: int


@dataclass
class Block:
    """A block of code, with what its fence says and the paragraphs before and after it."""

    lines: list[Found]
    info: str
    before: str
    after: str = ""


@dataclass
class Document:
    """A document by its parts."""

    name: str
    anchors: set[str] = field(default_factory=set)
    paragraphs: list[Found] = field(default_factory=list)
    spans: list[Found] = field(default_factory=list)
    links: list[Found] = field(default_factory=list)
    blocks: list[Block] = field(default_factory=list)


def read_document(repository: Path, name: str) -> Document:
    """The document of this name."""
    return document_of(name, (repository / name).read_text())


def document_of(name: str, text: str) -> Document:
    """A document by its text."""
    document = Document(name)
    taken: dict[str, int] = {}
    paragraph = ""
    for info, lines in parts_of(text):
        if info is not None:
            document.blocks.append(Block(lines, info, paragraph))
            continue
        paragraph = "\n".join(line.text for line in lines)
        first = lines[0].line
        document.paragraphs.append(Found(paragraph, first))
        if heading := HEADING.match(paragraph):
            document.anchors.add(anchor_of(heading[2], taken))
        for found in SPAN.finditer(paragraph):
            line = first + paragraph.count("\n", 0, found.start())
            document.spans.append(Found(" ".join(found[2].split()), line))
        bare = SPAN.sub(lambda span: re.sub(r"[^\n]", "x", span[0]), paragraph)
        for found in LINK.finditer(bare):
            document.links.append(Found(found[1], first + bare.count("\n", 0, found.start())))
        if document.blocks and not document.blocks[-1].after:
            document.blocks[-1].after = paragraph
    return document


def parts_of(text: str) -> Iterator[tuple[str | None, list[Found]]]:
    """The blocks of code and the paragraphs, each heading and row of a table by itself.

    With a block comes what its fence says, with anything else None.
    """
    lines = [Found(line, number) for number, line in enumerate(text.split("\n"), 1)]
    place = 0
    in_list = False
    while place < len(lines):
        line = lines[place].text
        if fence := FENCE.match(line):
            end = place + 1
            while end < len(lines) and not lines[end].text.lstrip().startswith(fence[1]):
                end += 1
            yield fence[2].strip(), lines[place + 1 : end]
            place = end + 1
        elif not line.strip():
            place += 1
        elif line.startswith("    ") and not in_list:
            end = place
            while end < len(lines) and (lines[end].text[:4].strip() == ""):
                end += 1
            yield "", [Found(line.text[4:], line.line) for line in lines[place:end]]
            place = end
        elif line.startswith(("#", "|")):
            in_list = False
            yield None, [lines[place]]
            place += 1
        else:
            end = place + 1
            while end < len(lines) and lines[end].text.strip() and not FENCE.match(lines[end].text):
                if lines[end].text.startswith(("#", "|")) or ITEM.match(lines[end].text):
                    break
                end += 1
            in_list = bool(ITEM.match(line)) or (in_list and line.startswith(" "))
            yield None, lines[place:end]
            place = end


def anchor_of(heading: str, taken: dict[str, int]) -> str:
    """The anchor of a heading; the second of two that are alike gets a number."""
    text = re.sub(r"\[([^]]*)\]\([^)]*\)", r"\1", heading).replace("`", "")
    anchor = re.sub(r"[^\w\- ]", "", text.lower()).replace(" ", "-")
    number = taken.get(anchor, 0)
    taken[anchor] = number + 1
    return f"{anchor}-{number}" if number else anchor
