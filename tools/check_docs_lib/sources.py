"""What the sources have: files, names, and the words of command lines."""

import fnmatch
import os
import re
from collections.abc import Iterable
from dataclasses import dataclass
from functools import cache
from pathlib import Path, PurePosixPath

NAME = re.compile(r"[^\W\d][\w']*(?:-[^\W\d][\w']*)*")
TEXTS = {
    ".rt", ".antt", ".edit", ".py", ".sh", ".c", ".h", ".S", ".s", ".ld", ".toml", ".awk", ".csv",
    "",
}  # fmt: skip
BUILT = {".git", "out", "own", "__pycache__"}
COMMENTS = {
    ".rt": r"//[^\n]*",
    ".antt": r"--[^\n]*",
    ".c": r"//[^\n]*|/\*.*?\*/",
    ".h": r"//[^\n]*|/\*.*?\*/",
    ".py": r"^\s*#[^\n]*",
    ".sh": r"^\s*#[^\n]*",
    ".toml": r"#[^\n]*",
}
SHORT_ENDINGS = (".rt", ".antt")
BODY = re.compile(
    r"^(?:pub )?(?:impl|trait|enum|struct)(?:<[^{]*?>)? ([^{]*?)\{\n(.*?)^\}", re.M | re.DOTALL
)
OWNER = re.compile(r"[<: ].*", re.DOTALL)
MEMBER = re.compile(r"^    (?:pub(?:\(\w+\))? )?(?:(?:const|final) )*(?:fn )?(\w+)", re.M)
LIBRARY = re.compile(r"^from (\w+_lib)\.", re.M)
OPTION = re.compile(r"(?<![\w-])--?[a-z][a-z-]*")


@dataclass(frozen=True)
class Sources:
    """The repository as the documents may speak of it."""

    paths: frozenset[str]
    names: frozenset[str]
    members: dict[str, frozenset[str]]
    """The methods, constants, fields and variants of each type and trait."""
    commands: frozenset[str]
    options: frozenset[str]
    tool_options: dict[str, frozenset[str]]
    exceptions: frozenset[str]

    @property
    def all_options(self) -> frozenset[str]:
        """The options of the program and of all tools."""
        return self.options.union(*self.tool_options.values())

    def has_path(self, path: str) -> bool:
        """Whether some file or folder ends so."""
        wanted = path.removeprefix("./").removeprefix("../").strip("/").replace("..", "*")
        if "*" in wanted:
            return any(fnmatch.fnmatch(known, f"*{wanted}") for known in self.paths)
        return wanted in self.ends

    @property
    def ends(self) -> frozenset[str]:
        """The ends of all paths, from each folder on."""
        return ends_of(self.paths)


@cache
def ends_of(paths: frozenset[str]) -> frozenset[str]:
    """The ends of some paths, from each folder on, also without an ending that may be left out."""
    ends: set[str] = set()
    for path in paths:
        parts = PurePosixPath(path).parts
        for start in range(len(parts)):
            end = "/".join(parts[start:])
            ends.add(end)
            for ending in SHORT_ENDINGS:
                if end.endswith(ending):
                    ends.add(end.removesuffix(ending))
                    ends.add(re.sub(r"(^|/)(src|specs|proofs)/", r"\1", end).removesuffix(ending))
    return frozenset(ends)


def read_sources(repository: Path, exceptions: Iterable[str]) -> Sources:
    """All that the documents may name."""
    files = listed(repository)
    folders = {str(parent) for file in files for parent in PurePosixPath(file).parents}
    help_text = (repository / "tools" / "start" / "help.txt").read_text()
    tools = {
        str(PurePosixPath(file)): frozenset(OPTION.findall(tool_text(repository, file)))
        for file in files
        if re.fullmatch(r"tools/\w+(\.py)?|bench/\w+\.(py|sh)|fast", file)
    }
    return Sources(
        frozenset(files) | (folders - {"."}),
        names_of(repository, files),
        members_of(repository, files),
        frozenset(re.findall(r"^== (\w+)", help_text, re.M)) | {"help"},
        frozenset(OPTION.findall(help_text)) | tools["fast"],
        tools,
        frozenset(exceptions),
    )


def listed(repository: Path) -> list[str]:
    """The files of the repository, without what is built."""
    files: list[str] = []
    for folder, folders, names in os.walk(repository):
        folders[:] = sorted(set(folders) - BUILT)
        files.extend(str(Path(folder, name).relative_to(repository)) for name in sorted(names))
    return files


def tool_text(repository: Path, file: str) -> str:
    """The text of a tool, with that of the library that it starts from."""
    text = (repository / file).read_text()
    for library in LIBRARY.findall(text):
        for path in sorted((repository / "tools" / library).glob("*.py")):
            text += f"\n{path.read_text()}"
    return text


def names_of(repository: Path, files: Iterable[str]) -> frozenset[str]:
    """The names in the sources, outside of comments."""
    names: set[str] = set()
    for file in files:
        path = PurePosixPath(file)
        names.update(NAME.findall(path.stem), NAME.findall(path.name))
        if file != "crates.txt" and path.suffix not in TEXTS or "check_docs" in file:
            continue
        text = (repository / file).read_text(errors="replace")
        if comment := COMMENTS.get(path.suffix):
            text = re.sub(comment, " ", text, flags=re.M | re.DOTALL if "?" in comment else re.M)
        for name in NAME.findall(text):
            names.add(name)
            names.update(name.split("-"))
    return frozenset(names)


def members_of(repository: Path, files: Iterable[str]) -> dict[str, frozenset[str]]:
    """The members of each type and trait, of all that have one name."""
    members: dict[str, set[str]] = {}
    for file in files:
        if not file.endswith(".rt"):
            continue
        text = (repository / file).read_text()
        for header, body in BODY.findall(text):
            of = members.setdefault(OWNER.sub("", header.split(" for ")[-1]), set())
            of.update(MEMBER.findall(body))
    return {of: frozenset(names) for of, names in members.items()}
