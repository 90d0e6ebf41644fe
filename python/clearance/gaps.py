"""Gaps of an outline: ends of edges that no other end meets."""

from collections import Counter
from dataclasses import dataclass


@dataclass(frozen=True)
class Gap:
    """An end that meets no other: its edge, its place, and the squared distance to the end that it would have to meet."""

    edge: int
    end: tuple
    squared: int


def gaps(edges):
    """The gaps of an outline, the widest first. A closed edge's own ends meet each other.

    What a free end would have to meet is the nearest free end of another edge; where there is none, the nearest end of another
    edge; and of a single edge its own other end.
    """
    ends = sorted((*end, index) for index, edge in enumerate(edges) for end in (edge[:2], edge[-2:]))
    times = Counter(end[:2] for end in ends)
    free = [end for end in ends if times[end[:2]] == 1]
    found = []
    for end in free:
        ways = (nearest_squared(among, among.index(end), own) for among, own in ((free, end[2]), (ends, end[2]), (ends, None)))
        found.append(Gap(end[2], end[:2], next(squared for squared in ways if squared is not None)))
    return sorted(found, key=lambda gap: (-gap.squared, gap.edge, gap.end))


def nearest_squared(ends, at, own):
    """How far the nearest end of another edge than `own` is, or none; sorted ends to both sides are looked at until x alone is farther."""
    x, y, _ = ends[at]
    nearest = None
    for others in (range(at + 1, len(ends)), range(at - 1, -1, -1)):
        for other in others:
            across, up, edge = ends[other]
            if nearest is not None and (across - x) ** 2 >= nearest:
                break
            if edge != own:
                squared = (across - x) ** 2 + (up - y) ** 2
                nearest = squared if nearest is None else min(nearest, squared)
    return nearest
