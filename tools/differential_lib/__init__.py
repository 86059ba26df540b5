"""Compares two programs on inputs drawn from a seed.

`command` reads the words and calls `comparing`, which plays seeds until it is told to end. A seed's
files and calls are a case (`cases`), drawn by `programs`, `images`, `machines`, `texts` and
`lines`, on `draws` and `assembler`. `answers` calls a program and says how two answers differ,
`kinds` which calls a program knows, `simulators` where the two programs are, and `keeping` puts
what differs into a folder.
"""
