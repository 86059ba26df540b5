"""The text of a source file: where its comments, texts and brackets are."""

import re
from dataclasses import dataclass
from functools import cached_property

CLOSING = {"(": ")", "[": "]", "{": "}"}
HIDDEN = re.compile(
    r"""
      //[^\n]*
    | /\*.*?\*/
    | b?r(?P<fence>\#*)".*?"(?P=fence)
    | b?"(?:\\.|[^"\\])*"
    | b?'(?:\\[^']+|[^'\\\n])'
    """,
    re.VERBOSE | re.DOTALL,
)


class SourceFault(Exception):
    """A source file that this program can't take apart."""


@dataclass(frozen=True)
class Source:
    """A source file. A place is an offset in its text."""

    name: str
    text: str

    @cached_property
    def bare(self) -> str:
        """The text with blanks in place of comments, strings and characters."""
        return HIDDEN.sub(lambda hidden: re.sub(r"[^\n]", " ", hidden[0]), self.text)

    @cached_property
    def partners(self) -> dict[int, int]:
        """For the place of each opening bracket that of the one that closes it."""
        partners: dict[int, int] = {}
        waiting: list[int] = []
        for found in re.finditer(r"[][(){}]", self.bare):
            if found[0] in CLOSING:
                waiting.append(found.start())
                continue
            if not waiting or CLOSING[self.bare[waiting[-1]]] != found[0]:
                raise self.fault(found.start(), f"{found[0]!r} closes nothing")
            partners[waiting.pop()] = found.start()
        if waiting:
            raise self.fault(waiting[-1], "a bracket stays open")
        return partners

    def fault(self, place: int, what: str) -> SourceFault:
        """What is wrong at a place."""
        line = self.text.count("\n", 0, place) + 1
        return SourceFault(f"{self.name}:{line}: {what}")

    def behind(self, place: int) -> int:
        """The place after a bracket's partner."""
        return self.partners[place] + 1

    def find(self, pattern: str, place: int, end: int) -> re.Match[str] | None:
        """The first match outside of all brackets, of one that a match itself begins with too."""
        wanted = re.compile(rf"({pattern})|[(\[{{]")
        while found := wanted.search(self.bare, place, end):
            if found[1] is not None:
                return found
            place = self.behind(found.start())
        return None

    def skip_angles(self, place: int) -> int:
        """The place after the generics that begin at a place, or the place itself."""
        if self.bare[place : place + 1] != "<":
            return place
        depth = 0
        for found in re.finditer(r"->|[<>]", self.bare[place:]):
            depth += {"<": 1, ">": -1, "->": 0}[found[0]]
            if depth == 0:
                return place + found.end()
        raise self.fault(place, "generics stay open")
