"""The rectangles of clear cells in a map that no larger one contains: what a part may be dropped into."""

from dataclasses import dataclass

from .maps import CLEAR


@dataclass(frozen=True)
class Rectangle:
    """Cells: the lower left one, counted from 0 at the map's lower left, and how many there are each way."""

    column: int
    row: int
    columns: int
    rows: int

    @property
    def cells(self):
        return self.columns * self.rows

    def holds(self, width, height):
        """Whether a rectangle of so many cells, any numbers, fits in parallel to the axes, either way round."""
        return (width <= self.columns and height <= self.rows) or (height <= self.columns and width <= self.rows)


def maximal(rows):
    """Every rectangle of clear cells that no larger one contains, each once: the largest first, then the lowest, the
    leftmost, the widest.

    Of a rectangle with its highest row here, the cells below it are as many as the lowest of its columns has clear cells
    from this row down; it cannot grow sideways where both neighbours have fewer. So a maximal one is one of `spans`, and
    a span is one exactly if the row above it is not clear all along. A span is taken off the stack once for each one put
    on, and a cell puts on one at most: there are no more of them than cells.
    """
    heights = [0] * len(rows)
    found = []
    for row, letters in enumerate(rows):
        heights = [height + 1 if letter == CLEAR else 0 for height, letter in zip(heights, letters)]
        ends = clear_ends(rows[row + 1]) if row + 1 < len(rows) else range(len(letters))
        for left, right, height in spans(heights):
            if ends[left] < right:
                found.append(Rectangle(left, row + 1 - height, right - left, height))
    return sorted(found, key=lambda r: (-r.cells, r.row, r.column, -r.columns))


def clear_ends(letters):
    """For each cell of a row the first from it on that is not clear."""
    ends = [0] * len(letters)
    end = len(letters)
    for column in range(len(letters) - 1, -1, -1):
        if letters[column] != CLEAR:
            end = column
        ends[column] = end
    return ends


def spans(heights):
    """Left end, right end (past it) and height of each rectangle under the heights that can grow neither sideways nor up."""
    begun = []  # left ends and heights, the heights rising
    for column, height in enumerate([*heights, 0]):
        left = column
        while begun and begun[-1][1] > height:
            left, taller = begun.pop()
            yield left, column, taller
        if height and (not begun or begun[-1][1] < height):
            begun.append((left, height))
