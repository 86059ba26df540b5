"""The best front: the machines that no other one beats in both cost and cycles."""

from collections.abc import Sequence

Point = tuple[float, float]


def front_of(points: Sequence[Point]) -> list[int]:
    """The places of the best front, the cheapest first.

    A machine is in it where no other one costs no more and takes no more cycles, and is better in
    one of the two. Of machines that are equal in both all are in it.
    """
    front: list[int] = []
    for place in sorted(range(len(points)), key=lambda place: points[place]):
        best = points[front[-1]] if front else None
        if best is None or points[place][1] < best[1] or points[place] == best:
            front.append(place)
    return front


def knee_of(values: Sequence[float], percent: float) -> int:
    """The first place whose value is within so many percent of the largest."""
    wanted = max(values) * (1 - percent / 100)
    return next(place for place, value in enumerate(values) if value >= wanted)
