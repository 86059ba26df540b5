"""The command line of `tools/package`."""

import argparse
import os
import subprocess
import sys
import tempfile
from pathlib import Path

from .tree import REPOSITORY, Release, Tree, lay_out

GATE = REPOSITORY / "crates" / "fast_run" / "out" / "fast_run"


class Fault(Exception):
    """The package can't be made."""


def main(words: list[str]) -> int:
    """Does what the words say, and gives the exit status."""
    options = parser().parse_args(words)
    try:
        if options.self_test:
            from .self_test import self_test

            return self_test()
        print(make(options))
    except Fault as fault:
        print(f"package: {fault}", file=sys.stderr)
        return 1
    except OSError as fault:
        print(f"package: {fault.filename or 'a file'}: {fault.strerror}", file=sys.stderr)
        return 1
    except KeyboardInterrupt:
        print("package: interrupted", file=sys.stderr)
        return 130
    return 0


def parser() -> argparse.ArgumentParser:
    """The words that are known."""
    words = argparse.ArgumentParser(
        prog="package",
        description="Makes fast_VERSION_amd64.deb, with the program that `rt ci` made here.",
        allow_abbrev=False,
    )
    add = words.add_argument
    text = "compile the program without proving it, by tools/quick_build.py"
    add("--quick", action="store_true", help=text)
    text = "where the package goes (out)"
    add("--folder", type=Path, default=REPOSITORY / "out", help=text)
    add("--self-test", action="store_true", help="test this program; silent where it passes")
    return words


def make(options: argparse.Namespace) -> Path:
    """Makes the package, and gives its name."""
    with tempfile.TemporaryDirectory() as rest:
        root = Path(rest) / "root"
        root.mkdir(mode=0o755)
        program = quick_program(Path(rest) / "fast") if options.quick else gate_program()
        release = release_of(options.quick)
        lay_out(Tree(root), program, release)
        options.folder.mkdir(parents=True, exist_ok=True)
        package = Path(options.folder) / f"fast_{release.version}_amd64.deb"
        words = ["dpkg-deb", "--root-owner-group", "-Zxz", "--build", str(root), str(package)]
        run(words, SOURCE_DATE_EPOCH=str(release.seconds))
        return package


def run(words: list[str], **more: str) -> str:
    """Runs a tool that has to succeed, and gives what it writes."""
    try:
        done = subprocess.run(
            words, env={**os.environ, **more}, capture_output=True, text=True, check=False
        )
    except FileNotFoundError:
        raise Fault(f"there is no {words[0]}") from None
    if done.returncode:
        said = (done.stdout + done.stderr).strip().split("\n")[-1]
        raise Fault(f"{Path(words[0]).name}: {said}")
    return done.stdout.strip()


def quick_program(out: Path) -> Path:
    """The program, compiled without proving."""
    run([sys.executable, str(REPOSITORY / "tools" / "quick_build.py"), str(out)])
    return out


def gate_program() -> Path:
    """The program that `rt ci` made of these sources: its second build came after it."""
    second = GATE.with_name(f"{GATE.name}.by-rattle")
    if not GATE.exists() or not second.exists():
        raise Fault("there is no program of the gate: run `rt ci` first, or say --quick")
    made = GATE.stat().st_mtime
    if second.stat().st_mtime < made or any(path.stat().st_mtime > made for path in sources()):
        raise Fault("the gate's program is of other sources: run `rt ci` first, or say --quick")
    return GATE


def sources() -> list[Path]:
    """The files that the program is made of."""
    parts = [REPOSITORY / "crates.txt"]
    for folder in "src", "specs", "proofs":
        parts += (REPOSITORY / "crates").glob(f"*/{folder}/**/*")
    return [path for path in parts if path.is_file()]


def release_of(is_quick: bool) -> Release:
    """What the package says of itself."""
    version = (REPOSITORY / "VERSION").read_text().strip()
    git = ["git", "-C", str(REPOSITORY)]
    commit = run([*git, "describe", "--always", "--dirty=, and changes", "--exclude=*"])
    kit = run(["rt", "version"])
    made = "compiled without proving" if is_quick else "made by the gate"
    return Release(
        version=version,
        maintainer=run([*git, "log", "-1", "--format=%an <%ae>"]),
        seconds=int(run([*git, "log", "-1", "--format=%ct"])),
        about=f"fast {version}\ncommit: {commit}\nkit: {kit}\nprogram: {made}\n",
    )
