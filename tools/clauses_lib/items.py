"""The items of a source file: functions with their contracts, types, traits and impls."""

import re
from collections.abc import Iterator
from dataclasses import dataclass, field

from .source import Source

CLAUSE = re.compile(r"\s*((?:requires|ensures)\b\*?)(?:\s+(\w+))?\s*")
FUNCTION = re.compile(r"(?:(?:const|final)\s+)*fn\s+(\w+)")
TYPE = re.compile(r"(struct|enum|type)\s+(\w+)")
TRAIT = re.compile(r"trait\s+(\w+)")
IMPL = re.compile(r"impl\b")
MODULE = re.compile(r"mod\s+(\w+)\s*;")
VISIBLE = re.compile(r"pub(\s*\([^)]*\))?\s+")
GAP = re.compile(r"\s+")
SENTENCE = re.compile(r"(?<=[.!?])\s+(?=[A-Z0-9`\[])")


@dataclass(frozen=True)
class Clause:
    """A condition of a call (`requires`), or what it promises (`ensures`)."""

    kind: str
    name: str
    comment: list[str]
    lines: list[str]
    """Its text as in the source, the first line from the opening bracket on."""


@dataclass(frozen=True)
class Function:
    """A function or a method, as its contract has it."""

    name: str
    sentence: str
    is_public: bool
    generics: str
    params: list[str]
    answer: str
    clauses: list[Clause]

    @property
    def is_law(self) -> bool:
        """Whether it takes and gives nothing, so that its clauses are all that it is."""
        return not self.params and not self.answer and bool(self.clauses)


@dataclass(frozen=True)
class Type:
    """A type that is declared, by its name."""

    name: str
    sentence: str
    is_public: bool


@dataclass(frozen=True)
class Trait:
    """A trait with its methods."""

    name: str
    sentence: str
    is_public: bool
    methods: list[Function]


@dataclass(frozen=True)
class Impl:
    """The methods of a type; those of a trait, if it names one."""

    of: str
    trait: str
    methods: list[Function]


@dataclass(frozen=True)
class Module:
    """What a source file declares."""

    sentence: str = ""
    functions: list[Function] = field(default_factory=list)
    types: list[Type] = field(default_factory=list)
    traits: list[Trait] = field(default_factory=list)
    impls: list[Impl] = field(default_factory=list)


@dataclass(frozen=True)
class Head:
    """How an item begins: its comment, and the place of its first word after `pub`."""

    comment: str
    is_public: bool
    is_test: bool
    place: int


def module_of(source: Source) -> Module:
    """All that a source file declares."""
    about = re.findall(r"^//! ?(.*)$", source.text, re.M)
    module = Module(first_sentence("\n".join(about)))
    for head in heads(source, 0, len(source.text)):
        if head.is_test:
            continue
        place, rest = head.place, source.bare
        if FUNCTION.match(rest, place):
            module.functions.append(function_of(source, head))
        elif found := TYPE.match(rest, place):
            module.types.append(Type(found[2], first_sentence(head.comment), head.is_public))
        elif found := TRAIT.match(rest, place):
            methods = methods_of(source, place)
            module.traits.append(
                Trait(found[1], first_sentence(head.comment), head.is_public, methods)
            )
        elif IMPL.match(rest, place):
            module.impls.append(impl_of(source, place))
    return module


def heads(source: Source, place: int, end: int) -> Iterator[Head]:
    """How each item between two places begins."""
    comment: list[str] = []
    attributes = ""
    while place < end:
        text = source.text
        if gap := GAP.match(text, place, end):
            place = gap.end()
        elif text.startswith("//", place):
            line_end = text.find("\n", place) % (len(text) + 1)
            if text.startswith("///", place):
                comment.append(text[place + 3 : line_end].removeprefix(" "))
            place = line_end
        elif text.startswith("/*", place):
            place = text.index("*/", place) + 2
        elif found := re.compile(r"#!?\[").match(text, place):
            behind = source.behind(found.end() - 1)
            attributes += text[place:behind]
            place = behind
        else:
            visible = VISIBLE.match(source.bare, place)
            word = visible.end() if visible else place
            is_public = visible is not None and visible[1] is None
            yield Head("\n".join(comment), is_public, "cfg(test)" in attributes, word)
            comment, attributes = [], ""
            place = end_of_item(source, word, end)


def end_of_item(source: Source, place: int, end: int) -> int:
    """The place after an item."""
    if FUNCTION.match(source.bare, place):
        return function_at(source, place)[1]
    has_body = re.compile(r"struct|enum|union|trait|impl|mod|unsafe|extern").match(
        source.bare, place
    )
    while found := source.find(r"[;{]", place, end):
        if found[1] == ";":
            return found.end()
        place = source.behind(found.start())
        if has_body:
            return place
    return end


def methods_of(source: Source, place: int) -> list[Function]:
    """The functions in the body of the trait or impl at a place."""
    body = source.find(r"\{", place, len(source.text))
    if body is None:
        raise source.fault(place, "this has no body")
    inner = heads(source, body.start() + 1, source.partners[body.start()])
    return [function_of(source, head) for head in inner if FUNCTION.match(source.bare, head.place)]


def impl_of(source: Source, place: int) -> Impl:
    """The impl at a place."""
    begin = source.skip_angles(place + len("impl"))
    body = source.find(r"\{", begin, len(source.text))
    header = source.bare[begin : body.start() if body else begin].split(" where ")[0]
    trait, _, of = header.rpartition(" for ")
    return Impl(name_in(of), name_in(trait), methods_of(source, place))


def name_in(path: str) -> str:
    """The name of a type without its path and its generics."""
    found = re.match(r"\s*(?:\w+::)*(\w+)", path)
    return found[1] if found else ""


def function_of(source: Source, head: Head) -> Function:
    """The function that begins so."""
    return function_at(source, head.place, head)[0]


def function_at(source: Source, place: int, head: Head | None = None) -> tuple[Function, int]:
    """The function at a place, and the place after it."""
    named = FUNCTION.match(source.bare, place)
    if named is None:
        raise source.fault(place, "this is no function")
    params = source.skip_angles(named.end())
    if source.bare[params] != "(":
        raise source.fault(params, "this function has no parameters")
    answer_end, contract = places_after(source, source.behind(params))
    clauses, place = clauses_at(source, contract)
    body = found_in(source, r"[{;]", place)
    function = Function(
        named[1],
        first_sentence(head.comment) if head else "",
        head is not None and head.is_public,
        one_line(source.text[named.end() : params]),
        params_of(source, params),
        one_line(source.bare[source.behind(params) : answer_end]).removeprefix("-> "),
        clauses,
    )
    return function, source.behind(body.start()) if body[1] == "{" else body.end()


def places_after(source: Source, place: int) -> tuple[int, int]:
    """Where the answer ends that a function gives, and where its contract begins."""
    found = found_in(source, r"\b(?:requires|ensures|where)\b|[{;]", place)
    if found[1] != "where":
        return found.start(), found.start()
    return found.start(), found_in(source, r"\b(?:requires|ensures)\b|[{;]", found.end()).start()


def found_in(source: Source, pattern: str, place: int) -> re.Match[str]:
    """The first match outside of all brackets, which has to be there."""
    found = source.find(pattern, place, len(source.text))
    if found is None:
        raise source.fault(place, "this function has no end")
    return found


def clauses_at(source: Source, place: int) -> tuple[list[Clause], int]:
    """The clauses from a place on, and the place after them."""
    clauses: list[Clause] = []
    while found := CLAUSE.match(source.bare, place):
        comment = [line.strip() for line in source.text[place : found.start(1)].split("\n")]
        place = source.behind(found.end())
        lines = source.text[found.end() : place].split("\n")
        clauses.append(
            Clause(found[1], found[2] or "", [line for line in comment if line], dedented(lines))
        )
    return clauses, place


def params_of(source: Source, place: int) -> list[str]:
    """The parameters between the brackets at a place."""
    params: list[str] = []
    here, end = place + 1, source.partners[place]
    begin, depth = here, 0
    while found := source.find(r"->|[<>,]", here, end):
        here = found.end()
        depth += {"<": 1, ">": -1}.get(found[1], 0)
        if found[1] == "," and depth == 0:
            params.append(one_line(source.text[begin : found.start()]))
            begin = here
    return [param for param in [*params, one_line(source.text[begin:end])] if param]


def dedented(lines: list[str]) -> list[str]:
    """The lines of a clause; those after the first without the blanks that all of them have."""
    rest = [line for line in lines[1:] if line.strip()]
    indent = min((len(line) - len(line.lstrip()) for line in rest), default=0)
    return [lines[0].rstrip(), *(line[indent:].rstrip() for line in rest)]


def one_line(text: str) -> str:
    """A text with single blanks."""
    return " ".join(text.split())


def first_sentence(comment: str) -> str:
    """The first sentence of a comment; links to names become the names."""
    paragraph = one_line(comment.strip().split("\n\n")[0])
    sentence = SENTENCE.split(paragraph)[0]
    return re.sub(r"\[(`[^`]*`)\](\([^)]*\))?", r"\1", sentence)
