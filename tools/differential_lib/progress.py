"""How far a comparison is, on standard error."""

import sys
import time

WIDTH = 30
SECONDS_BETWEEN_DRAWINGS = 0.1


class Progress:
    """A bar in place on a terminal, and nothing elsewhere."""

    def __init__(self, seconds: float | None, count: int | None, is_quiet: bool):
        self._seconds = seconds
        self._count = count
        self._is_shown = sys.stderr.isatty() and not is_quiet
        self._began = time.monotonic()
        self._drawn = 0.0

    def draw(self, seeds: int, calls: int, differing: int) -> None:
        """Shows the bar, unless it was shown just now."""
        now = time.monotonic()
        if not self._is_shown or now - self._drawn < SECONDS_BETWEEN_DRAWINGS:
            return
        self._drawn = now
        share = self._share(now - self._began, seeds)
        full = int(WIDTH * share)
        bar = f"[{'#' * full}{'.' * (WIDTH - full)}] {seeds:,} seeds, {calls:,} calls"
        if differing:
            bar += f", {differing:,} seeds differ"
        print(f"\r\033[K{bar}", end="", file=sys.stderr, flush=True)

    def end(self) -> None:
        """Takes the bar away."""
        if self._is_shown:
            print("\r\033[K", end="", file=sys.stderr, flush=True)

    def _share(self, seconds: float, seeds: int) -> float:
        """How much is done, by the clock or by the count, whichever is further."""
        by_clock = seconds / self._seconds if self._seconds else 0.0
        by_count = seeds / self._count if self._count else 0.0
        return min(max(by_clock, by_count), 1.0)
