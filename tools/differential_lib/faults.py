"""What ends a comparison: one line each, and a status."""


class Fault(Exception):
    """The comparison can't go on."""

    status = 2
