"""Draws from a seed."""

import random
from collections.abc import Sequence
from typing import TypeVar

T = TypeVar("T")


class Draws(random.Random):
    """Random numbers that are the same for a seed wherever it is played."""

    def chance(self, share: float) -> bool:
        """True in this share of draws."""
        return self.random() < share

    def weighted(self, weights: Sequence[tuple[int, T]]) -> T:
        """One of some things, each as often as its weight says."""
        return self.choices([thing for _, thing in weights], [weight for weight, _ in weights])[0]
