"""The links of the documents: files and anchors."""

import posixpath
from collections.abc import Iterator, Mapping

from .markdown import Document, Found
from .sources import Sources


def faults_of(
    document: Document, documents: Mapping[str, Document], sources: Sources
) -> Iterator[tuple[Found, str]]:
    """Links of a document that lead nowhere."""
    for link in document.links:
        path, _, anchor = link.text.partition("#")
        if ":" in path:
            continue
        folder = posixpath.dirname(document.name)
        target = posixpath.normpath(posixpath.join(folder, path)) if path else document.name
        if target not in sources.paths:
            yield link, f"{link.text} leads to no file"
        elif anchor and target in documents and anchor not in documents[target].anchors:
            yield link, f"{target} has no heading #{anchor}"
