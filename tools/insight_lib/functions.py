"""Rows by function."""

from .elf import Functions
from .rows import Row

NO_TEXT = "(no text)"
NO_FUNCTION = "(none)"


def name_of(row: Row, functions: Functions) -> str:
    """The function that a row's address is in, or what stands for it."""
    if row.address is None:
        return NO_TEXT
    function = functions.at(row.address)
    return function.name if function else NO_FUNCTION


def by_function(rows: list[Row], functions: Functions) -> dict[str, list[Row]]:
    """The rows of each function."""
    groups: dict[str, list[Row]] = {}
    for row in rows:
        groups.setdefault(name_of(row, functions), []).append(row)
    return groups
