"""The outline of job sheets as polylines in millimetres, read without the package."""

import re

from .plane import FLAT, bezier_line, size_of

EDGE = re.compile(rb"^\((edge|line)((?: \(-?\d+ -?\d+\))+)\)$", re.MULTILINE)
NUMBER = re.compile(rb"-?\d+")


def edges_of(sheets):
    """The control points of all edges of the bytes of sheets, in millimetres."""
    found = []
    for sheet in sheets:
        for _, words in EDGE.findall(sheet):
            numbers = [int(word) / 100 for word in NUMBER.findall(words)]
            found.append(list(zip(numbers[::2], numbers[1::2])))
    return found


def outline_lines(edges):
    """Edges as polylines; an edge may be a point."""
    flat = FLAT * size_of(edges) or FLAT
    return [bezier_line(edge, flat) for edge in edges]
