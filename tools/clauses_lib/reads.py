"""What is to be read to judge the clauses of the top call: the definitions that they stand on."""

import re
from collections.abc import Iterator
from pathlib import Path

TOP = Path("crates", "fast_run", "src", "answer.rt")
USE = re.compile(r"^(?:pub |ghost )?use Rattle\.(\w+)\.specs\.([\w.]+?)\.\{", re.M)


def files_read(repository: Path) -> list[Path]:
    """The files of definitions that the top call's clauses lead to, in no order."""
    waiting = list(definitions_of(repository, repository / TOP))
    read: set[Path] = set()
    while waiting:
        path = waiting.pop()
        if path not in read:
            read.add(path)
            waiting.extend(definitions_of(repository, path))
    return sorted(read)


def definitions_of(repository: Path, path: Path) -> Iterator[Path]:
    """The files of definitions that a file uses; those of the kit's libraries are left out."""
    for crate, module in USE.findall(path.read_text()):
        file = repository / "crates" / crate / "specs" / (module.replace(".", "/") + ".antt")
        if file.exists():
            yield file


def table_of(repository: Path, crates: list[str]) -> Iterator[str]:
    """A line for each crate, with its files and how many lines these have, and one for all."""
    files = files_read(repository)
    lines = {path: len(path.read_text().splitlines()) for path in files}
    for crate in crates:
        inside = [path for path in files if path.parent.parent.name == crate]
        if inside:
            names = " ".join(path.stem for path in inside)
            yield f"{crate}: {sum(lines[path] for path in inside)} lines: {names}"
    yield f"in all {sum(lines.values())} lines in {len(files)} files"
