"""Makes a Debian package of the simulator.

`command` reads the words, `tree` lays out what the package holds, among it the programs that
`tools` names, and `manual` makes the manual pages of the texts that the programs and the documents
have.
"""
