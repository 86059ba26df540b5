"""The test of this program. Silent where it passes."""

import re
import sys
from collections.abc import Iterator
from pathlib import Path

from .crates import expanded, source_files
from .items import Function, first_sentence, module_of
from .page import block, wrapped
from .reads import files_read
from .source import Source, SourceFault

TEXT = '''//! A small crate: `{` in a comment. More.

use std::{a, b};

/// Takes [`Pair::of`] and an "{". Then more.
#[inline(always)]
pub fn both<'a, F: Fn(u32) -> u8>(alloc: Global, pair: &'a [u8; 2], other: Vec<(A, B)>) -> u8
where
    F: Drop,
    requires small { pair < 256 }
    // Why it is so.
    ensures same { IfOk result
        (λ it.
          it ≡ '}') }
    ensures* { true }
{
    let text = "}{";
}

/// A law.
pub fn law()
    ensures holds { x ≡ x }
{}

impl<T: Copy> Shown for Pair<T> {
    ghost use A.{b};
    const SIZE: usize = 3;
    fn show(&self)
        ensures shown { p };
    fn hide(self) {}
}

#[cfg(test)]
mod tests {
    pub fn test() {}
}
'''
BOTH = """
**`both`** (here): Takes `Pair::of` and an "{".

```
fn both<'a, F: Fn(u32) -> u8>(alloc, pair: &'a [u8; 2], other: Vec<(A, B)>) -> u8
    requires small { pair < 256 }
    // Why it is so.
    ensures same { IfOk result
        (λ it.
          it ≡ '}') }
    ensures* { true }
```""".split("\n")
SENTENCES = {
    "One sentence. And more.": "One sentence.",
    "It is 2.5 times as fast. Really.": "It is 2.5 times as fast.",
    "a first\nline\n\nanother": "a first line",
}


def self_test(repository: Path) -> int:
    """Tests the reading of a text, and that no clause of the sources is lost."""
    found = [
        *faults_of_text(),
        *faults_of_sources(repository),
        *faults_of_reads(repository),
    ]
    for fault in found:
        print(f"clauses: {fault}", file=sys.stderr)
    return 1 if found else 0


def faults_of_text() -> Iterator[str]:
    """What is wrong with how a text is read and laid out."""
    module = module_of(Source("text", TEXT))
    if [call.name for call in module.functions] != ["both", "law"]:
        yield f"the functions of the text are {[call.name for call in module.functions]}"
        return
    both, law = module.functions
    if (lines := list(block(both, " (here)"))) != BOTH:
        yield f"a call is laid out as {lines}"
    if both.is_law or not law.is_law:
        yield "a law is one that takes and gives nothing"
    impls = [(impl.of, impl.trait, len(impl.methods)) for impl in module.impls]
    if impls != [("Pair", "Shown", 2)]:
        yield f"the impls of the text are {impls}"
    if module.sentence != "A small crate: `{` in a comment.":
        yield f"the text's sentence is {module.sentence!r}"
    for comment, wanted in SENTENCES.items():
        if (sentence := first_sentence(comment)) != wanted:
            yield f"the first sentence of {comment!r} is {sentence!r}"
    if list(expanded("a::{b,c::{d,e}}")) != ["a::b", "a::c::d", "a::c::e"]:
        yield f"a::{{b,c::{{d,e}}}} is {list(expanded('a::{b,c::{d,e}}'))}"
    if any(len(line) > 100 for line in wrapped("word " * 60)):
        yield "a line is too long"
    try:
        module_of(Source("text", "fn f() { ("))
        yield "an open bracket is not seen"
    except SourceFault:
        pass


def faults_of_sources(repository: Path) -> Iterator[str]:
    """Source files of which some functions are not read."""
    for folder in sorted((repository / "crates").glob("*/src")):
        for path in source_files(folder):
            source = Source(str(path.relative_to(repository)), path.read_text())
            named = set(re.findall(r"^ *(?:pub(?:\(\w+\))? )?(?:\w+ )*fn (\w+)", source.bare, re.M))
            tests = set(re.findall(r"#\[test\]\s+fn (\w+)", source.bare))
            if lost := named - tests - {call.name for call in all_functions(source)}:
                yield f"{source.name}: these functions are not read: {', '.join(sorted(lost))}"


def faults_of_reads(repository: Path) -> Iterator[str]:
    """Definitions that the top call's clauses are known to stand on."""
    read = {str(path.relative_to(repository)) for path in files_read(repository)}
    wanted = {"crates/fast_run/specs/Answer.antt", "crates/mono_model/specs/Cycle.antt"}
    if lost := wanted - read:
        yield f"these definitions are not found: {sorted(lost)}"


def all_functions(source: Source) -> Iterator[Function]:
    """Each function of a source file, whoever may call it."""
    module = module_of(source)
    yield from module.functions
    for part in (*module.traits, *module.impls):
        yield from part.methods
