"""The manual pages, made of the text of `--help` and of docs/COMMANDS.md."""

import re
from collections.abc import Iterator
from dataclasses import dataclass

from .tools import TOOLS, Tool

# What an installed program has no use for.
LEFT_OUT = "Making the program"
FOLDER = "/usr/share/doc/fast"
LINK = re.compile(r"\[([^\]]*)\]\([^)]*\)")
MARK = re.compile(r"`([^`]+)`|\*\*([^*]+)\*\*|\*([^*]+)\*")


@dataclass(frozen=True)
class Heading:
    """A heading of a document: 2 for a section, 3 for a part of one."""

    level: int
    text: str


@dataclass(frozen=True)
class Paragraph:
    """Lines that are filled."""

    text: str


@dataclass(frozen=True)
class Verbatim:
    """Lines as they stand."""

    lines: list[str]


@dataclass(frozen=True)
class Table:
    """The heads of the columns, and the rows."""

    heads: list[str]
    rows: list[list[str]]


Block = Heading | Paragraph | Verbatim | Table


def blocks_of(document: str) -> Iterator[Block]:
    """The blocks of a document in the marks that docs/COMMANDS.md uses."""
    for part in re.split(r"\n\n+", document.strip("\n")):
        lines = part.split("\n")
        if mark := re.match(r"(#+) (.*)", lines[0]):
            yield Heading(len(mark[1]), mark[2])
        elif lines[0].startswith("|"):
            rows = [cells_of(line) for line in lines]
            yield Table(rows[0], rows[2:])
        elif lines[0].startswith("    "):
            yield Verbatim([line[4:] for line in lines])
        elif lines[0].startswith("1. "):
            yield from map(Paragraph, lines)
        else:
            yield Paragraph(" ".join(lines))


def cells_of(line: str) -> list[str]:
    """The cells of a table's row."""
    return [cell.strip() for cell in line.strip("|").split("|")]


def escaped(text: str) -> str:
    """Text as roff takes it, in the middle of a line."""
    return text.replace("\\", "\\e").replace("-", "\\-")


def inline(text: str) -> str:
    """A line of roff: links without their targets, code and stress in other type."""
    done, at = "", 0
    plain = LINK.sub(r"\1", text)
    for mark in MARK.finditer(plain):
        done += escaped(plain[at : mark.start()])
        font, inner = ("I", mark[3]) if mark[3] else ("B", mark[1] or mark[2])
        done += f"\\f{font}{escaped(inner)}\\fR"
        at = mark.end()
    done += escaped(plain[at:])
    return f"\\&{done}" if done.startswith((".", "'")) else done


def table_lines(table: Table) -> Iterator[str]:
    """A table as a list: the first cell is the tag; more than one other cell has its head."""
    for row in table.rows:
        yield ".TP"
        yield inline(row[0]) or "\\&"
        others = [(head, cell) for head, cell in zip(table.heads[1:], row[1:]) if cell]
        last = len(others) == 1
        texts = [inline(cell if last else f"{head}: {cell}") for head, cell in others]
        yield "; ".join(texts) or "\\&"


def verbatim_lines(lines: list[str]) -> Iterator[str]:
    """Lines that aren't filled."""
    yield ".PP"
    yield ".nf"
    for line in lines:
        yield f"\\&{escaped(line)}"
    yield ".fi"


def block_lines(block: Block) -> Iterator[str]:
    """A block as roff."""
    match block:
        case Heading(level, text):
            yield f".SH {inline(text.upper())}" if level == 2 else f".SS {inline(text)}"
        case Paragraph(text):
            yield ".PP"
            yield inline(text)
        case Verbatim(lines):
            yield from verbatim_lines(lines)
        case Table():
            yield from table_lines(block)
            yield ".PP"


def filled_in(text: str) -> str:
    """The text of `--help` with the names that hold for an installed program."""
    names = {"fast": "fast", "docs": f"{FOLDER}/docs/", "examples": f"{FOLDER}/examples/"}
    for name, value in names.items():
        text = text.replace(f"{{{name}}}", value)
    return text


def page_of_fast(help_text: str, commands: str, version: str, date: str) -> str:
    """fast(1)."""
    first, *parts = filled_in(help_text).split("\n== ")
    examples = first.split("\nExamples:\n")[1].split("\n\n")[0].split("\n")
    lines = [f'.TH FAST 1 {date} "fast {version}" "User Commands"', ".SH NAME"]
    lines += ["fast \\- cycle\\-accurate simulator of a small RISC\\-V computer", ".SH SYNOPSIS"]
    lines += verbatim_lines([part.split("\n")[1] for part in parts])
    lines += [".SH DESCRIPTION", inline(first.split("\n\n")[0].replace("\n", " ")), ".SH COMMANDS"]
    for part in parts:
        name, meaning = part.split("\n")[0], part.split("\n\n")[1]
        lines += [".TP", f"\\fB{name}\\fR", inline(meaning.strip().replace("\n", " "))]
    lines += option_lines(commands.replace("./fast", "fast"))
    lines += [".SH EXAMPLES", *verbatim_lines([line.strip() for line in examples])]
    others = ", ".join(f"\\fBfast\\-{tool.name}\\fR(1)" for tool in TOOLS)
    lines += [".SH SEE ALSO", f"{others}, the documents in {FOLDER}"]
    return "\n".join(lines) + "\n"


def option_lines(commands: str) -> Iterator[str]:
    """What docs/COMMANDS.md has from its table of options on."""
    has_begun, section = False, ""
    for block in blocks_of(commands):
        if isinstance(block, Table) and block.heads[0] == "option":
            has_begun = True
            yield ".SH OPTIONS"
        if isinstance(block, Heading) and block.level == 2:
            section = block.text
        if has_begun and section != LEFT_OUT:
            yield from block_lines(block)


def page_of_tool(tool: Tool, help_text: str, version: str, date: str) -> str:
    """The page of a tool, of what `--help` of it writes."""
    name = f"fast\\-{tool.name}"
    lines = [f'.TH {name.upper()} 1 {date} "fast {version}" "User Commands"', ".SH NAME"]
    lines += [f"{name} \\- {tool.about}", ".SH SYNOPSIS"]
    lines += verbatim_lines(help_text.strip("\n").split("\n"))
    lines += [".SH SEE ALSO", f"\\fBfast\\fR(1), {FOLDER}/docs/{tool.document}"]
    return "\n".join(lines) + "\n"
