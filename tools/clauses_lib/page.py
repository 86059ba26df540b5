"""The page: contents, the calls crate by crate, the laws, and the worked examples."""

import textwrap
from collections.abc import Iterator
from pathlib import Path

from .crates import Crate, Group
from .items import Clause, Function

HEAD = Path(__file__).with_name("head.md")
WIDTH = 100
EXAMPLES = ("examples", "gdb_model")
ABOUT_LAWS = (
    "A law is a function that takes, does and gives nothing: its clauses hold of the definitions"
    " alone."
)
ABOUT_EXAMPLES = (
    "Each is a law too: the checker computes what the definitions say of one small program or"
    " session. After the name come the names of the clauses; their texts are long, and stand in the"
    " source."
)


def page_of(crates: list[Crate]) -> str:
    """The text of the page."""
    with_calls = [crate for crate in crates if crate.groups]
    with_laws = [crate for crate in crates if crate.laws and not is_computed(crate)]
    computed = [crate for crate in crates if crate.laws and is_computed(crate)]
    lines = [
        *HEAD.read_text().rstrip().split("\n"),
        *contents(with_calls, with_laws, computed),
        "",
        "## Calls",
        *(line for crate in with_calls for line in calls_of(crate)),
        "",
        "## Laws",
        "",
        *wrapped(ABOUT_LAWS),
        *(line for crate in with_laws for line in laws_of(crate)),
        "",
        "## Worked examples",
        "",
        *wrapped(ABOUT_EXAMPLES),
        *(line for crate in computed for line in examples_of(crate)),
    ]
    return "\n".join(lines) + "\n"


def is_computed(crate: Crate) -> bool:
    """Whether the laws of a crate are worked examples."""
    return crate.name.endswith(EXAMPLES)


def contents(calls: list[Crate], laws: list[Crate], computed: list[Crate]) -> Iterator[str]:
    """The table of contents."""
    yield from ("", "## Contents", "", "[Calls](#calls)", "")
    for section in dict.fromkeys(crate.section for crate in calls):
        inside = [crate for crate in calls if crate.section == section]
        yield from wrapped(f"- {section}: {links(inside, '')}", "  ")
    yield from ("", *wrapped(f"[Laws](#laws): {links(laws, 'laws-of-')}"), "")
    yield from wrapped(f"[Worked examples](#worked-examples): {links(computed, 'examples-of-')}")


def links(crates: list[Crate], before: str) -> str:
    """Links to the headings of crates."""
    return ", ".join(f"[{crate.name}](#{before}{crate.name})" for crate in crates)


def wrapped(text: str, indent: str = "") -> list[str]:
    """A paragraph in lines; those after the first begin with some blanks."""
    return textwrap.wrap(
        text, WIDTH, subsequent_indent=indent, break_long_words=False, break_on_hyphens=False
    )


def calls_of(crate: Crate) -> Iterator[str]:
    """The public calls of a crate."""
    yield from ("", f"### {crate.name}", "", *wrapped(crate.sentence))
    for group in sorted(crate.groups, key=lambda group: group.name != ""):
        if group.name:
            yield from ("", f"#### {group.name}", "", *wrapped(about(group)))
        for call in group.calls:
            yield from block(call, "" if group.name else f" ({link(group)})")


def about(group: Group) -> str:
    """What a type or trait is, with its file."""
    types = ", ".join(f"`{name}`" for name in dict.fromkeys(group.implementors))
    where = f"A trait, in {link(group)}" if group.kind == "trait" else f"In {link(group)}"
    implemented = f" The crate implements it for {types}." if types else ""
    return f"{where}. {group.sentence}{implemented}"


def link(group: Group) -> str:
    """The file of a group as a link."""
    return f"[{Path(group.file).name}](../{group.file})"


def laws_of(crate: Crate) -> Iterator[str]:
    """The laws of a crate."""
    yield from ("", f"### Laws of {crate.name}")
    if not crate.groups:
        yield from ("", *wrapped(crate.sentence))
    for group in crate.laws:
        for law in group.calls:
            yield from block(law, f" ({link(group)})")


def examples_of(crate: Crate) -> Iterator[str]:
    """The worked examples of a crate, without the texts of their clauses."""
    yield from ("", f"### Examples of {crate.name}", "", *wrapped(crate.sentence))
    for group in crate.laws:
        yield from ("", *wrapped(f"{group.sentence} ({link(group)})".strip()), "")
        for example in group.calls:
            names = ", ".join(f"`{clause.name}`" for clause in example.clauses if clause.name)
            yield from wrapped(f"- `{example.name}` ({names}): {example.sentence}", "  ")


def block(call: Function, where: str) -> Iterator[str]:
    """A call with its sentence and its contract."""
    sentence = f": {call.sentence}" if call.sentence else ""
    yield from ("", *wrapped(f"**`{call.name}`**{where}{sentence}"), "", "```")
    yield from signature(call)
    for clause in call.clauses:
        yield from clause_lines(clause)
    yield "```"


def signature(call: Function) -> Iterator[str]:
    """The signature in short, in one line where it fits."""
    params = ["alloc" if param == "alloc: Global" else param for param in call.params]
    answer = f" -> {call.answer}" if call.answer else ""
    whole = f"fn {call.name}{call.generics}({', '.join(params)}){answer}"
    if len(whole) <= WIDTH:
        yield whole
        return
    yield f"fn {call.name}{call.generics}("
    yield from textwrap.wrap(
        ", ".join(params), WIDTH, initial_indent=" " * 4, subsequent_indent=" " * 4,
        break_long_words=False, break_on_hyphens=False,
    )  # fmt: skip
    yield f"){answer}"


def clause_lines(clause: Clause) -> Iterator[str]:
    """A clause as it stands in the source."""
    for comment in clause.comment:
        yield f"    {comment}"
    name = f" {clause.name}" if clause.name else ""
    first, *rest = clause.lines
    yield f"    {clause.kind}{name} {first}"
    for line in rest:
        yield f"        {line}".rstrip()
