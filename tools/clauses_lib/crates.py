"""The crates, and what each of them hands out."""

import re
from collections.abc import Iterator
from dataclasses import dataclass
from pathlib import Path

from .items import Function, Impl, Module, Type, module_of
from .source import Source


@dataclass(frozen=True)
class Group:
    """The public calls of one type or trait, or those that belong to none (no name)."""

    name: str
    kind: str
    sentence: str
    file: str
    """Where it is declared, from the top of the repository."""
    calls: list[Function]
    implementors: tuple[str, ...] = ()
    """The types that a trait is implemented for."""


@dataclass(frozen=True)
class Crate:
    """A crate, with what it hands out."""

    name: str
    section: str
    """The heading of `crates.txt` under which it stands."""
    sentence: str
    groups: list[Group]
    laws: list[Group]


@dataclass(frozen=True)
class Exports:
    """The names that a crate hands out: of a module each, or all of a module."""

    names: set[tuple[str, str]]
    modules: set[str]

    def has(self, module: str, name: str) -> bool:
        """Whether an item of a module is handed out."""
        return module in self.modules or (module, name) in self.names


def read_crates(repository: Path) -> list[Crate]:
    """All crates, in the order of `crates.txt`."""
    crates: list[Crate] = []
    section = ""
    for line in (repository / "crates.txt").read_text().split("\n"):
        if line.startswith("# "):
            section = line.removeprefix("# ")
        elif found := re.match(r"(\w+)[^:]*:", line):
            crates.append(read_crate(repository, found[1], section))
    return crates


def read_crate(repository: Path, name: str, section: str) -> Crate:
    """A crate by its sources."""
    folder = repository / "crates" / name / "src"
    modules = {path.stem: read_module(repository, path) for path in source_files(folder)}
    root = folder / "lib.rt"
    if root.exists():
        about = modules["lib"].sentence
        exports = exports_of(Source(str(root), root.read_text()))
    else:
        about = modules["main"].sentence
        exports = Exports(set(), set(modules))
    groups = list(groups_of(name, modules, exports))
    calls = [group for group in groups if group.kind != "law"]
    return Crate(name, section, about, calls, [group for group in groups if group.kind == "law"])


def source_files(folder: Path) -> list[Path]:
    """The source files of a crate without its tests."""
    return sorted(path for path in folder.glob("*.rt") if path.stem != "tests")


def read_module(repository: Path, path: Path) -> Module:
    """What a source file declares."""
    return module_of(Source(str(path.relative_to(repository)), path.read_text()))


def exports_of(root: Source) -> Exports:
    """What the root of a crate hands out."""
    names: set[tuple[str, str]] = set()
    modules = {"lib"} | set(re.findall(r"^pub mod (\w+);", root.bare, re.M))
    for path in re.findall(r"^pub use ([^;]+);", root.bare, re.M):
        for full in expanded("".join(path.split())):
            *before, name = full.split("::")
            names.add((before[-1] if before else "", name.split(" as ")[0]))
    return Exports(names, modules)


def expanded(path: str) -> Iterator[str]:
    """The paths of a `use`: `a::{b, c::d}` is `a::b` and `a::c::d`."""
    found = re.match(r"(.*?)\{(.*)\}$", path)
    if not found:
        yield path
        return
    depth, part = 0, ""
    for letter in found[2] + ",":
        depth += {"{": 1, "}": -1}.get(letter, 0)
        if letter == "," and depth == 0:
            if part:
                yield from (found[1] + inner for inner in expanded(part))
            part = ""
        else:
            part += letter


def groups_of(crate: str, modules: dict[str, Module], exports: Exports) -> Iterator[Group]:
    """What is handed out, by type and trait, in the order of the names of the source files."""
    for stem, module in modules.items():
        file = f"crates/{crate}/src/{stem}.rt"
        public = [
            call for call in module.functions if call.is_public and exports.has(stem, call.name)
        ]
        laws = [call for call in public if call.is_law]
        calls = [call for call in public if not call.is_law]
        if laws:
            yield Group("", "law", module.sentence, file, laws)
        if calls:
            yield Group("", "", "", file, calls)
        for trait in module.traits:
            if trait.is_public and exports.has(stem, trait.name):
                types = implementors(trait.name, modules)
                yield Group(trait.name, "trait", trait.sentence, file, trait.methods, types)
        for kind in module.types:
            if kind.is_public and exports.has(stem, kind.name):
                methods = list(methods_of(kind, modules))
                if methods:
                    yield Group(kind.name, "type", kind.sentence, file, methods)


def implementors(trait: str, modules: dict[str, Module]) -> tuple[str, ...]:
    """The types of a crate for which a trait is implemented."""
    impls = (impl for module in modules.values() for impl in module.impls)
    return tuple(impl.of for impl in impls if impl.trait == trait)


def methods_of(kind: Type, modules: dict[str, Module]) -> Iterator[Function]:
    """The public methods of a type, and those of its traits that have clauses of their own."""
    for module in modules.values():
        for impl in module.impls:
            if impl.of == kind.name:
                yield from (call for call in impl.methods if is_told(impl, call))


def is_told(impl: Impl, call: Function) -> bool:
    """Whether a method of an impl is public and has a contract of its own."""
    return bool(call.clauses) if impl.trait else call.is_public
