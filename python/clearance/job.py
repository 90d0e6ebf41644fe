"""A job: a plate, its cells, a reach, a grain, and an outline of lines and cubics."""

import ctypes
import operator
from dataclasses import dataclass

from . import library
from .lengths import hundredths
from .maps import Map
from .nearest import Nearest
from .refusals import check

DEFAULT_GRAIN = 10


def is_line(edge):
    """Whether an edge is a line: it has four numbers, x0 y0 x1 y1, and a cubic eight."""
    return len(edge) == library.LINE_NUMBERS


def whole(number):
    """A whole number of 32 bits, of Python's own kind or another, as NumPy's."""
    try:
        found = None if isinstance(number, bool) else operator.index(number)
    except TypeError:
        found = None
    if found is None or not -(2**31) <= found < 2**31:
        raise ValueError(f"{number!r} is no whole number of 32 bits")
    return found


@dataclass(frozen=True)
class Job:
    """The numbers of a job, whole hundredths of a millimetre; the plate's side is 2^n and a smallest cell's 2^m.

    An edge is a tuple of four numbers, a line's ends x0 y0 x1 y1, or of eight, a cubic's control points
    x0 y0 x1 y1 x2 y2 x3 y3. Any number of 32 bits may stand anywhere: which jobs are legal is for the library to say, and
    each call below raises Refused with its number. At most 64 edges can be handed over; more are refused as 2 (edges).
    """

    x: int
    y: int
    n: int
    m: int
    reach: int
    edges: tuple
    grain: int = DEFAULT_GRAIN

    def __post_init__(self):
        edges = tuple(tuple(map(whole, edge)) for edge in self.edges)
        for edge in edges:
            if len(edge) not in (library.LINE_NUMBERS, library.PLACE_NUMBERS):
                raise ValueError(f"an edge has four numbers or eight, not {len(edge)}")
        object.__setattr__(self, "edges", edges)
        for name in ("x", "y", "n", "m", "reach", "grain"):
            object.__setattr__(self, name, whole(getattr(self, name)))

    @staticmethod
    def from_sheet(sheet):
        """The job of a sheet's bytes. Refuses with 1 to 4."""
        number, row = library.read(bytes(memoryview(sheet)))
        check(number)
        return job_of(row)

    def to_sheet(self):
        """The job's sheet. Refuses with 2, 3 and 4."""
        number, sheet = library.write(self.row())
        check(number)
        return sheet

    def row(self):
        """The job as the library takes it. Of more than 64 edges only their count goes along, which is refused."""
        row = (ctypes.c_int32 * library.JOB_NUMBERS)()
        row[: library.PLACES] = [self.x, self.y, self.n, self.m, self.reach, self.grain, len(self.edges)]
        for index, edge in enumerate(self.edges[: library.EDGES_MOST]):
            start = library.PLACES + library.PLACE_NUMBERS * index
            row[start : start + len(edge)] = edge
            row[library.MARKS + index] = int(is_line(edge))
        return row

    def drawn(self, store=library.STORE_MOST):
        """The job with its map and its trees, for a map and points of one job. Refuses with 2 to 6."""
        return Drawn(self, store)

    def map(self, store=library.STORE_MOST):
        """The job's map. Refuses with 2 to 5, and with 6 where fewer numbers of store are lent than the trees need."""
        return self.drawn(store).map

    def point(self, x, y, store=library.STORE_MOST):
        """Bounds on the distance of the point (x, y), in millimetres, from the outline. Refuses with 2 to 6."""
        return self.drawn(store).point(x, y)

    def points(self, spots, store=library.STORE_MOST):
        """The same of each of any number of points (x, y), in their order."""
        return self.drawn(store).points(spots)


class Drawn:
    """A job with what one map call left: the map, and the trees that points are asked of."""

    def __init__(self, job, store=library.STORE_MOST):
        self.job = job
        self._row = job.row()
        lent = library.store_of(store)
        number, cells, nodes = library.draw(self._row, lent)
        check(number)
        self._store = library.trees_in(lent, nodes)
        side = 1 << (job.n - job.m)
        self.map = Map(bytes(cells[: side * side]), side, job.x, job.y, 1 << job.m, nodes)

    def point(self, x, y):
        """Bounds of the point (x, y), in millimetres. Refuses with 3 where it is out of range."""
        return self.points([(x, y)])[0]

    def points(self, spots):
        """Bounds of each of any number of points (x, y), in millimetres and in their order."""
        return self.points_at([place(spot) for spot in spots])

    def points_at(self, spots):
        """The same of points in whole hundredths of 32 bits."""
        return [Nearest(*numbers) for numbers in zip(*self.replies(spots))]

    def replies(self, spots):
        """The same as three lists: lo, hi and edge of each point."""
        found = []
        for start in range(0, len(spots), library.SPOTS_MOST):
            asked = spots[start : start + library.SPOTS_MOST]
            number, reply = library.points(self._row, [z for spot in asked for z in spot], self._store)
            check(number)
            found += reply
        return [found[at :: library.NEAREST_NUMBERS] for at in range(library.NEAREST_NUMBERS)]


def place(spot):
    """A point in hundredths. One that no 32 bits hold is out of range, as the library would say."""
    if isinstance(spot, str):
        raise ValueError(f"{spot!r} is no pair of an x and a y")
    x, y = map(hundredths, spot)
    if not all(-(2**31) <= number < 2**31 for number in (x, y)):
        check(3)
    return x, y


def job_of(row):
    """The job that a row stands for."""
    x, y, n, m, reach, grain, count = row[: library.PLACES]
    edges = []
    for index in range(count):
        start = library.PLACES + library.PLACE_NUMBERS * index
        line = row[library.MARKS + index]
        edges.append(tuple(row[start : start + (library.LINE_NUMBERS if line else library.PLACE_NUMBERS)]))
    return Job(x, y, n, m, reach, tuple(edges), grain)
