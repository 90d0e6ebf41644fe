"""A clearance map: its letters, where they stand, and its text."""

from dataclasses import dataclass
from typing import Optional

from .lengths import millimetres

CLEAR, INSIDE, DOUBTFUL = "C", "I", "D"
LETTERS = (CLEAR, INSIDE, DOUBTFUL)


@dataclass(frozen=True)
class Map:
    """A square of `side` by `side` cells. Lengths with `_hundredths` are whole; the others are in millimetres."""

    letters: bytes  # one a cell: rows from the lowest y upward, in a row from the lowest x on
    side: int
    x_hundredths: int
    y_hundredths: int
    cell_hundredths: int
    nodes: Optional[int]  # of the trees; none of a map that was joined

    @property
    def corner(self):
        """The plate's lower left corner."""
        return millimetres(self.x_hundredths), millimetres(self.y_hundredths)

    @property
    def cell(self):
        """A cell's side."""
        return millimetres(self.cell_hundredths)

    @property
    def rows(self):
        """The rows as texts, the lowest first."""
        text = self.letters.decode("ascii")
        return [text[at : at + self.side] for at in range(0, len(text), self.side)]

    def at(self, column, row):
        """The letter of one cell, both counted from 0 at the lower left."""
        if not (0 <= column < self.side and 0 <= row < self.side):
            raise IndexError(f"column {column}, row {row} of a map of {self.side} cells a side")
        return chr(self.letters[row * self.side + column])

    def counts(self):
        """How many cells have each letter."""
        return {letter: self.letters.count(letter.encode("ascii")) for letter in LETTERS}

    def text(self):
        """The map as the program `clearmap` prints it."""
        return map_text(self.rows)

    def array(self):
        """The letters as a NumPy array of bytes, rows from the lowest y upward. Needs NumPy."""
        import numpy

        return numpy.frombuffer(self.letters, dtype=numpy.uint8).reshape(self.side, self.side)


def map_text(rows):
    """The text of a map's rows."""
    lines = [f"(map {len(rows)}", *(f"(row {row})" for row in rows), ")"]
    return ("\n".join(lines) + "\n").encode("ascii")


def refusal_text(number):
    """What the program prints for a refused sheet."""
    return f"(refused {number})\n".encode("ascii")


def joined(maps):
    """One map of several of the same cells: I where one is I, C where all are C, D elsewhere. Why that is right: docs/USING.md."""
    maps = list(maps)
    if not maps:
        raise ValueError("there are no maps to join")
    first = maps[0]
    cells = [(m.side, m.x_hundredths, m.y_hundredths, m.cell_hundredths) for m in maps]
    if any(other != cells[0] for other in cells):
        raise ValueError("the maps are not of the same cells")
    letters = bytes(map(joined_letter, zip(*(m.letters for m in maps))))
    return Map(letters, first.side, first.x_hundredths, first.y_hundredths, first.cell_hundredths, None)


def joined_letter(letters):
    if ord(INSIDE) in letters:
        return ord(INSIDE)
    return ord(CLEAR) if all(letter == ord(CLEAR) for letter in letters) else ord(DOUBTFUL)
