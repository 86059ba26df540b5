"""What the package holds, laid out as Debian's policy wants it."""

import gzip
import hashlib
import re
import shutil
import subprocess
import sys
from dataclasses import dataclass
from email.utils import formatdate
from pathlib import Path
from time import gmtime, strftime

from .manual import page_of_fast, page_of_tool
from .tools import LIBRARIES, TOOLS, Tool

REPOSITORY = Path(__file__).resolve().parent.parent.parent
START = REPOSITORY / "tools" / "start"
FOREIGN = """\
# The examples are images for the computer that is simulated.
fast: binary-from-other-architecture [usr/share/doc/fast/examples/*]
fast: arch-dependent-file-in-usr-share [usr/share/doc/fast/examples/*]
fast: statically-linked-binary [usr/share/doc/fast/examples/*]
fast: unstripped-binary-or-object [usr/share/doc/fast/examples/*]
"""
NO_LICENSE = """\
fast, a cycle-accurate simulator of a small RISC-V computer.

Copyright: its authors, whom the history of its repository names. The repository states no license.
"""


@dataclass(frozen=True)
class Release:
    """What a package says of itself."""

    version: str
    maintainer: str
    seconds: int
    about: str

    @property
    def day(self) -> str:
        """The day of the commit."""
        return strftime("%Y-%m-%d", gmtime(self.seconds))


class Tree:
    """A folder that is laid out."""

    def __init__(self, root: Path):
        self.root = root

    def write(self, name: str, content: bytes, mode: int = 0o644) -> None:
        """Writes a file, and the folders above it."""
        path = self.root / name
        path.parent.mkdir(parents=True, exist_ok=True)
        path.write_bytes(content)
        path.chmod(mode)

    def copy(self, source: Path, name: str, mode: int = 0o644) -> None:
        """Copies a file."""
        self.write(name, source.read_bytes(), mode)

    def pack(self, name: str, text: str) -> None:
        """Writes a text, compressed, the same whenever it is done."""
        self.write(f"{name}.gz", gzip.compress(text.encode(), 9, mtime=0))

    def link(self, name: str, target: str) -> None:
        """Makes a symbolic link."""
        path = self.root / name
        path.parent.mkdir(parents=True, exist_ok=True)
        path.symlink_to(target)

    def files(self) -> list[Path]:
        """All files but those of control, in order."""
        found = sorted(path for path in self.root.rglob("*") if path.is_file())
        inner = [path for path in found if not path.is_symlink()]
        return [path for path in inner if path.relative_to(self.root).parts[0] != "DEBIAN"]


def tracked(folder: str) -> list[Path]:
    """The files of a folder that the repository holds."""
    words = ["git", "-C", str(REPOSITORY), "ls-files", "-z", "--", folder]
    names = subprocess.run(words, capture_output=True, text=True, check=True).stdout
    return [REPOSITORY / name for name in names.split("\0") if name]


def lay_out(tree: Tree, program: Path, release: Release) -> None:
    """Lays out all that the package holds."""
    put_program(tree, program, release)
    put_tools(tree)
    put_documents(tree, release)
    put_manual(tree, release)
    put_control(tree, program, release)


def put_program(tree: Tree, program: Path, release: Release) -> None:
    """The program, and the script in front of it."""
    tree.copy(program, "usr/libexec/fast/fast", 0o755)
    if strip := shutil.which("strip"):
        subprocess.run([strip, str(tree.root / "usr/libexec/fast/fast")], check=True)
    tree.copy(START / "installed", "usr/bin/fast", 0o755)
    for name in "help.txt", "words.sh", "refused.awk":
        tree.copy(START / name, f"usr/share/fast/{name}")
    tree.write("usr/share/fast/version", release.about.encode())


def put_tools(tree: Tree) -> None:
    """The tools, in a folder that looks to them as the repository does."""
    for tool in TOOLS:
        tree.copy(path_of(tool), f"usr/share/fast/tools/{tool.name}", 0o755)
        tree.link(f"usr/bin/fast-{tool.name}", f"../share/fast/tools/{tool.name}")
    for library in LIBRARIES:
        for path in tracked(f"tools/{library}"):
            tree.copy(path, f"usr/share/fast/{path.relative_to(REPOSITORY)}")
    tree.link("usr/share/fast/fast", "../../libexec/fast/fast")
    for name in "docs", "examples":
        tree.link(f"usr/share/fast/{name}", f"../doc/fast/{name}")


def put_documents(tree: Tree, release: Release) -> None:
    """Documents and examples, and what Debian wants beside them."""
    folder = "usr/share/doc/fast"
    for path in [REPOSITORY / "README.md", *tracked("docs"), *tracked("examples")]:
        mode = 0o755 if path.stat().st_mode & 0o100 and path.suffix != ".elf" else 0o644
        tree.copy(path, f"{folder}/{path.relative_to(REPOSITORY)}", mode)
    tree.pack(f"{folder}/NEWS.md", (REPOSITORY / "CHANGELOG.md").read_text())
    stamp = formatdate(release.seconds)
    entry = f"fast ({release.version}) unstable; urgency=medium\n\n  * NEWS.md.gz has the changes."
    tree.pack(f"{folder}/changelog", f"{entry}\n\n -- {release.maintainer}  {stamp}\n")
    license_file = REPOSITORY / "LICENSE"
    terms = license_file.read_text() if license_file.exists() else NO_LICENSE
    tree.write(f"{folder}/copyright", terms.encode())
    tree.write("usr/share/lintian/overrides/fast", FOREIGN.encode())


def put_manual(tree: Tree, release: Release) -> None:
    """The manual pages."""
    folder = "usr/share/man/man1"
    help_text = (START / "help.txt").read_text()
    commands = (REPOSITORY / "docs" / "COMMANDS.md").read_text()
    page = page_of_fast(help_text, commands, release.version, release.day)
    tree.pack(f"{folder}/fast.1", page)
    for tool in TOOLS:
        words = [sys.executable, str(path_of(tool)), "--help"]
        said = subprocess.run(words, capture_output=True, text=True, check=True).stdout
        said = said.replace(f"usage: {tool.name}", f"usage: fast-{tool.name}")
        page = page_of_tool(tool, said, release.version, release.day)
        tree.pack(f"{folder}/fast-{tool.name}.1", page)


def path_of(tool: Tool) -> Path:
    """A tool in the repository."""
    return REPOSITORY / "tools" / tool.name


def libc_of(program: Path) -> str:
    """The version of the C library that a program needs."""
    found = re.findall(rb"GLIBC_(\d+)\.(\d+)", program.read_bytes())
    major, minor = max((int(major), int(minor)) for major, minor in found)
    return f"{major}.{minor}"


def put_control(tree: Tree, program: Path, release: Release) -> None:
    """What dpkg reads."""
    files = tree.files()
    size = sum(path.stat().st_size for path in files) // 1024 + 1
    control = f"""\
Package: fast
Version: {release.version}
Architecture: amd64
Maintainer: {release.maintainer}
Installed-Size: {size}
Depends: libc6 (>= {libc_of(program)}), python3 (>= 3.11)
Suggests: python3-matplotlib
Section: electronics
Priority: optional
Description: cycle-accurate simulator of a small RISC-V computer
 It runs an ELF image for RV32I with M, Zicsr and Zifencei in machine mode,
 with or without a pipeline, and writes what the program prints, how it ends,
 cycles, predictions and misses. The source is proved against a definition of
 the machine. fast-explore runs an image on hundreds of machines, fast-pipeline
 and fast-profile show where cycles went.
"""
    tree.write("DEBIAN/control", control.encode())
    sums = [
        f"{hashlib.md5(path.read_bytes()).hexdigest()}  {path.relative_to(tree.root)}\n"
        for path in files
    ]
    tree.write("DEBIAN/md5sums", "".join(sums).encode())
