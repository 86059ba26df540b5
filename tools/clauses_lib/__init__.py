"""Makes docs/CLAUSES.md from the sources: the contract of each public call, crate by crate.

`command` reads the words. `source` finds brackets and comments in the text of a source file,
`items` takes the file apart into its functions, types, traits and impls, `crates` tells which of
them a crate hands out, and `page` lays them out. `reads` lists the definitions that the clauses of
the top call stand on.
"""
