"""What ends a tool: one line each, and a status."""


class Fault(Exception):
    """The tool can't go on. What was finished is kept."""

    status = 1


class InputFault(Fault):
    """The input is wrong: nothing was done."""

    status = 2
