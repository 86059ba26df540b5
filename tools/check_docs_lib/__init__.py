"""Checks the documents against the sources.

`command` reads the words. `markdown` takes a document apart. `spans` checks what stands in
backticks against the names that `sources` gathers, `contracts` the clauses that are named after a
call, `links` the links, `quotes` the blocks that quote a source file, and `runs` the command lines
of the README and of the examples, by running them.

What stands in backticks is one of these, and is checked so:

- a command line (its first word is `./fast`, `fast` or a path in tools/): the command, and each
  option, is one that the program or the tool has; paths are there;
- a path (it has a slash or the ending of a file): some file or folder of the repository ends so,
  also without `.rt` and `.antt`; `*` and `..` stand for any letters;
- anything else: each name in it (of three letters or more, or one that is all of the span) stands
  in a source file, outside of comments.

Words in capitals stand for something else (IMAGE), and names of one or two letters inside of an
expression for anything. Names from elsewhere are told in `exceptions.toml`, by what they belong to.
"""
