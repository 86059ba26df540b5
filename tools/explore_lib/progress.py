"""How far an exploration is, on standard error."""

import sys
import time

from .space import Space

WIDTH = 30
SECONDS_BETWEEN_LINES = 10.0


class Progress:
    """A bar with the time left: in place on a terminal, else a line from time to time."""

    def __init__(self, finished: int, space: Space, is_quiet: bool):
        self._first = finished
        self._finished = finished
        self._total = space.run_count
        self._name = space.run_name
        self._is_quiet = is_quiet
        self._is_terminal = sys.stderr.isatty()
        self._began = time.monotonic()
        self._told = self._began
        self._told_count = finished

    def add(self, count: int) -> None:
        """Counts runs as finished."""
        self._finished += count

    def draw(self) -> None:
        """Shows the bar."""
        now = time.monotonic()
        if self._is_quiet:
            return
        if self._is_terminal:
            print(f"\r\033[K{self._bar(now)}", end="", file=sys.stderr, flush=True)
        elif now - self._told >= SECONDS_BETWEEN_LINES and self._finished > self._told_count:
            print(f"explore: {self._text(now)}", file=sys.stderr, flush=True)
            self._told = now
            self._told_count = self._finished

    def end(self) -> None:
        """Takes the bar away."""
        if self._is_terminal and not self._is_quiet:
            print("\r\033[K", end="", file=sys.stderr, flush=True)

    def _bar(self, now: float) -> str:
        full = WIDTH * self._finished // max(self._total, 1)
        return f"[{'#' * full}{'.' * (WIDTH - full)}] {self._text(now)}"

    def _text(self, now: float) -> str:
        done = self._finished - self._first
        left = "the time left isn't known yet"
        if done:
            seconds = (now - self._began) / done * (self._total - self._finished)
            left = f"{duration(seconds)} left"
        return f"{self._finished} of {self._total} {self._name}, {left}"


def duration(seconds: float) -> str:
    """A time in the two largest units that it has."""
    minutes, rest = divmod(round(seconds), 60)
    hours, minutes = divmod(minutes, 60)
    if hours:
        return f"{hours} h {minutes:02} min"
    return f"{minutes} min {rest:02} s" if minutes else f"{rest} s"
