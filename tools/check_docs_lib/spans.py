"""What stands in backticks, against the names of the sources."""

import re
from collections.abc import Iterator

from .sources import NAME, OPTION, Sources

ENDINGS = (
    "rt", "antt", "md", "toml", "elf", "py", "sh", "txt", "csv", "c", "S", "s", "ld", "edit", "png",
    "svg",
)  # fmt: skip
PATH = re.compile(rf"[\w./*{{}}-]*/[\w./*{{}}-]*|[\w*-]+\.(?:{'|'.join(ENDINGS)})")
PLACEHOLDER = re.compile(r"[A-Z][A-Z0-9_]*")
CAPITALS = re.compile(r"(?<![A-Za-z0-9-])[A-Z]{4,}(?![A-Za-z0-9-])(?!\.md)")
MEMBER = re.compile(r"\b([A-Z]\w*)::(\w+)")
FAST = ("./fast", "fast")


def faults_of(span: str, sources: Sources) -> Iterator[str]:
    """What a span names that isn't there."""
    words = span.split()
    if not words or span in sources.exceptions:
        return
    if words[0] in FAST or words[0].startswith("tools/"):
        yield from faults_of_command(words, sources)
    elif words[0].startswith("--"):
        yield from faults_of_options(words[:1], sources.all_options | sources.exceptions)
    elif is_elsewhere(words, sources):
        yield from faults_of_paths(examples_in(words), sources)
    elif PATH.fullmatch(span):
        yield from faults_of_paths([span], sources)
    else:
        yield from faults_of_members(span, sources)
        yield from faults_of_names(span, sources)


def is_elsewhere(words: list[str], sources: Sources) -> bool:
    """Whether these are words of another program: its command line, or an option with one dash."""
    is_command = len(words) > 1 and words[0] in sources.exceptions
    return is_command or re.match(r"-[A-Za-z]", words[0]) is not None


def faults_of_command(words: list[str], sources: Sources) -> Iterator[str]:
    """What a command line of the program or of a tool has that isn't there."""
    tool, *rest = words
    if tool in FAST:
        options = sources.options
        if rest and re.fullmatch(r"[a-z]+", rest[0]) and rest[0] not in sources.commands:
            yield f"{rest[0]} is no command"
    elif tool not in sources.tool_options:
        yield from faults_of_paths([tool], sources)
        return
    else:
        options = sources.tool_options[tool]
    yield from faults_of_options(rest, options)
    yield from faults_of_paths(examples_in(rest), sources)


def examples_in(words: list[str]) -> list[str]:
    """The words that name files of the examples."""
    return [word for word in words if word.startswith("examples/")]


def faults_of_options(words: list[str], options: frozenset[str]) -> Iterator[str]:
    """Options that aren't there."""
    for word in words:
        option = OPTION.match(word)
        if option and option[0] not in options:
            yield f"{option[0]} is no option"


def faults_of_paths(paths: list[str], sources: Sources) -> Iterator[str]:
    """Paths that aren't there."""
    for path in paths:
        plain = path.rstrip(".,;:)")
        if path.startswith("/") or plain in sources.exceptions or CAPITALS.search(path):
            continue
        if not any(sources.has_path(one) for one in (path, plain)):
            yield f"{path} is no path"


def faults_of_members(span: str, sources: Sources) -> Iterator[str]:
    """Methods and variants that their type doesn't have."""
    for of, member in MEMBER.findall(span):
        if of in sources.members and member not in sources.members[of]:
            yield f"{of} has no {member}"


def faults_of_names(span: str, sources: Sources) -> Iterator[str]:
    """Names that aren't there."""
    text = re.sub(r"\"[^\"]*\"", " ", span)
    text = re.sub(r"\b0[xob][\w]*", " ", text)
    for name in NAME.findall(text):
        if PLACEHOLDER.fullmatch(name) and name != span:
            continue
        if len(name) < 3 and name != span:
            continue
        if not is_known(name, sources):
            yield f"{name} is no name of the sources"


def is_known(name: str, sources: Sources) -> bool:
    """Whether a name stands in the sources or among the exceptions."""
    known = sources.names | sources.exceptions | sources.commands
    return name in known or name.removesuffix("'s") in known or all(
        part in known for part in name.split("-")
    )
