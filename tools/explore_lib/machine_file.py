"""Machine files: reading the base file, and writing the file of a machine."""

from collections.abc import Iterator, Mapping
from pathlib import Path

import tomllib

from shared_lib.faults import InputFault

from .input_table import Table
from .keys import DEFAULTS, KEYS, Value, show, unknown_key

MOST_BYTES = 65536


def read_toml(path: Path) -> Table:
    """A file's content as TOML."""
    try:
        return Table(path, "", tomllib.loads(path.read_bytes().decode()))
    except OSError as fault:
        raise InputFault(f"{path}: {fault.strerror}") from None
    except UnicodeDecodeError:
        raise InputFault(f"{path} isn't TOML: it isn't UTF-8") from None
    except (tomllib.TOMLDecodeError, RecursionError) as fault:
        raise InputFault(f"{path} isn't TOML: {fault or 'too deep'}") from None


def flat(content: Mapping[str, object], before: str = "") -> Iterator[tuple[str, object]]:
    """The keys of nested tables, with dots, and their values."""
    for name, value in content.items():
        if isinstance(value, dict):
            yield from flat(value, f"{before}{name}.")
        else:
            yield f"{before}{name}", value


def known_keys(table: Table) -> dict[str, object]:
    """The keys of a machine that a table names, each once."""
    values: dict[str, object] = {}
    for name, value in flat(table.content):
        if name not in KEYS:
            raise table.fault("", unknown_key(name))
        if name in values:
            raise table.fault(name, "given twice")
        values[name] = value
    return values


def key_values(table: Table) -> dict[str, Value]:
    """The values of a table's keys, each in its range."""
    values: dict[str, Value] = {}
    for name, value in known_keys(table).items():
        if fault := KEYS[name].fault_of(value):
            raise table.fault(name, fault)
        values[name] = value  # type: ignore[assignment]
    return values


def read_base(path: Path) -> dict[str, Value]:
    """The values of the base machine file."""
    table = read_toml(path)
    version = table.content.pop("version", 1)
    if type(version) is not int or version not in (1, 2):
        raise table.fault("version", f"{show(version)} is neither 1 nor 2")
    values = key_values(table)
    for name in values:
        if KEYS[name].version > version:
            raise table.fault(name, "a key of version 2, and the file is of version 1")
    return values


def differing(values: Mapping[str, Value]) -> dict[str, Value]:
    """The values that aren't the defaults, in the order of the table of keys."""
    return {name: values[name] for name in KEYS if values[name] != DEFAULTS[name]}


def machine_text(values: Mapping[str, Value]) -> str:
    """The machine file of a machine: what differs from the plain machine, in sections."""
    named = differing(values)
    lines = ["version = 2"] if any(KEYS[name].version == 2 for name in named) else []
    section = ""
    for name, value in named.items():
        if name.partition(".")[0] != section:
            section = name.partition(".")[0]
            lines += [f"[{section}]"]
        lines += [f"{name.partition('.')[2]} = {show(value)}"]
    return "".join(line + "\n" for line in lines)
