"""The command line of `tools/check_docs`."""

import argparse
import sys
import tomllib
from collections.abc import Iterator
from pathlib import Path

from . import contracts, links, quotes, runs, spans
from .markdown import Document, Found, read_document
from .sources import Sources, listed, read_sources

REPOSITORY = Path(__file__).resolve().parent.parent.parent
EXCEPTIONS = Path(__file__).with_name("exceptions.toml")
NO_DOCUMENTS = ("CHANGELOG.md", "bench/", "tools/")
Fault = tuple[Document, Found, str]


def main(words: list[str]) -> int:
    """Does what the words say, and gives the exit status."""
    options = parser().parse_args(words)
    if options.self_test:
        from .self_test import self_test

        return self_test()
    found = list(faults(options))
    for document, where, fault in found:
        print(f"{document.name}:{where.line}: `{where.text}`: {fault}", file=sys.stderr)
    return 1 if found else 0


def faults(options: argparse.Namespace) -> Iterator[Fault]:
    """All that is wrong in the documents."""
    table = tomllib.loads(EXCEPTIONS.read_text())
    exceptions = [name for names in table["names"].values() for name in names]
    sources = read_sources(REPOSITORY, exceptions)
    clauses = contracts.clauses_of_calls(REPOSITORY)
    documents = {name: read_document(REPOSITORY, name) for name in document_names(REPOSITORY)}
    exceptions_page = Document(str(EXCEPTIONS.relative_to(REPOSITORY)))
    for name in unused(exceptions, documents):
        yield exceptions_page, Found(name, 1), "no document names it"
    left_out = () if options.all else tuple(table["left_out"])
    for document in documents.values():
        if document.name in left_out:
            continue
        yield from faults_of_text(document, documents, sources)
        for found, fault in contracts.faults_of(document, clauses):
            yield document, found, fault
        if options.fast and is_example(document.name):
            program = options.fast.resolve()
            for found, fault in runs.faults_of(document, REPOSITORY, program):
                yield document, found, fault


def unused(names: list[str], documents: dict[str, Document]) -> list[str]:
    """Exceptions that no document needs."""
    spans = "\n".join(span.text for document in documents.values() for span in document.spans)
    return [name for name in names if name not in spans]


def faults_of_text(
    document: Document, documents: dict[str, Document], sources: Sources
) -> Iterator[Fault]:
    """Names and links of a document that aren't there."""
    for span in document.spans:
        for fault in spans.faults_of(span.text, sources):
            yield document, span, fault
    for link, fault in links.faults_of(document, documents, sources):
        yield document, link, fault
    for line, fault in quotes.faults_of(document, REPOSITORY):
        yield document, line, fault


def document_names(repository: Path) -> list[str]:
    """The documents, by their paths."""
    return [
        file
        for file in listed(repository)
        if file.endswith(".md") and not file.startswith(NO_DOCUMENTS)
    ]


def is_example(name: str) -> bool:
    """Whether the command lines of a document are run."""
    return name == "README.md" or name.startswith("examples/")


def parser() -> argparse.ArgumentParser:
    """The words that are understood."""
    words = argparse.ArgumentParser(
        prog="tools/check_docs",
        description="Checks names, links and command lines of the documents.",
    )
    words.add_argument("--fast", type=Path, metavar="PROGRAM", help="also run the command lines")
    words.add_argument("--all", action="store_true", help="also documents that are left out")
    words.add_argument("--self-test", action="store_true", help="test this program")
    return words
