"""A table of the input: typed values of its names, and faults that say where they stand."""

from collections.abc import Collection
from pathlib import Path

from shared_lib.faults import InputFault

from .keys import show


class Table:
    """A table of a TOML file, with its place in it."""

    def __init__(self, file: Path, place: str, content: object):
        self.file = file
        self.place = place
        if not isinstance(content, dict):
            raise InputFault(f"{file}: {place}: {show(content)} is no table")
        self.content: dict[str, object] = content

    def fault(self, name: str, text: str) -> InputFault:
        """A fault at a name of this table."""
        where = ": ".join(part for part in (self.place, name, text) if part)
        return InputFault(f"{self.file}: {where}")

    def known(self, names: Collection[str]) -> None:
        """Refuses a name that has no meaning here."""
        for name in self.content:
            if name not in names:
                raise self.fault(name, f"unknown; known are {', '.join(sorted(names))}")

    def text(self, name: str) -> str | None:
        """A text, or None where it is left out."""
        value = self.content.get(name)
        if value is None or isinstance(value, str) and value:
            return value
        raise self.fault(name, f"{show(value)} is no text")

    def choice(self, name: str, texts: Collection[str], usual: str | None = None) -> str:
        """One of some texts."""
        value = self.content.get(name, usual)
        if value is None:
            raise self.fault("", f"{name} is missing")
        if not isinstance(value, str) or value not in texts:
            raise self.fault(name, f"{show(value)} is none of {', '.join(texts)}")
        return value

    def whole(self, name: str, low: int, high: int) -> int | None:
        """A whole number of a range, or None where it is left out."""
        value = self.content.get(name)
        if value is None:
            return None
        if isinstance(value, bool) or not isinstance(value, int):
            raise self.fault(name, f"{show(value)} is no whole number")
        if not low <= value <= high:
            raise self.fault(name, f"{value} is out of range ({low} to {high})")
        return value

    def percent(self, name: str, usual: float) -> float:
        """A number from 0 to below 100."""
        value = self.content.get(name, usual)
        if isinstance(value, bool) or not isinstance(value, (int, float)) or not 0 <= value < 100:
            raise self.fault(name, f"{show(value)} is no number from 0 to below 100")
        return float(value)

    def names(self, name: str) -> list[str]:
        """A text or a list of texts, empty where it is left out."""
        value = self.content.get(name, [])
        names = value if isinstance(value, list) else [value]
        if not all(isinstance(text, str) and text for text in names) or value == [] != names:
            raise self.fault(name, f"{show(value)} is no text and no list of texts")
        return names

    def table(self, name: str) -> "Table":
        """A table inside this one, empty where it is left out."""
        return Table(self.file, self._place_of(name), self.content.get(name, {}))

    def tables(self, name: str) -> list["Table"]:
        """The tables of an array, or the one that stands there alone."""
        value = self.content.get(name, [])
        if not isinstance(value, list):
            return [self.table(name)]
        place = self._place_of(name)
        return [Table(self.file, f"{place} {i}", part) for i, part in enumerate(value, 1)]

    def path(self, name: str, most_bytes: int) -> Path | None:
        """A file that is named from the input's own folder, of no more than so many bytes."""
        text = self.text(name)
        return None if text is None else self.path_of(name, text, most_bytes)

    def path_of(self, name: str, text: str, most_bytes: int) -> Path:
        """The file of a text that stands at a name, as in `path`."""
        path = self.file.parent / text
        if not path.exists():
            raise self.fault(name, f"there is no file {path}")
        if not path.is_file():
            raise self.fault(name, f"{path} is no file")
        if path.stat().st_size > most_bytes:
            raise self.fault(name, f"{path} is longer than {most_bytes:,} bytes")
        try:
            path.open("rb").close()
        except OSError as fault:
            raise self.fault(name, f"{path}: {fault.strerror}") from None
        return path

    def _place_of(self, name: str) -> str:
        return f"{self.place}: {name}" if self.place else name
