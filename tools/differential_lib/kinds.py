"""The kinds of calls."""

KINDS = [
    *("func", "run", "sched", "inorder", "back", "sweep"),
    *("stack", "profile", "trace", "count", "gdb"),
    *("image", "machine", "words", "soak"),
]
# The reference alone, whose two machines and two ways through idle cycles are compared.
ITSELF = "itself"
ALL_KINDS = [*KINDS, ITSELF]
