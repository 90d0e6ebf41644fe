"""Plates, cells and grains for an outline: the smallest plate around it, its finest cells, and the smallest grain that is accepted."""

from . import library, sheets, trees
from .bounds import outline_box
from .job import Job
from .lengths import millimetres, plain
from .refusals import Refused


# What an option says that lends other store than the program.
STORE = f"numbers of store that the grain may need; `clearance map` lends up to {library.STORE_MOST}"


class Unadvisable(Exception):
    """There is no plate or no grain for an outline; the message says why."""


def plate_for(edges, reach):
    """The smallest plate, as x, y, n, that holds the box of one or more edges grown by the reach, and has it in its middle.

    A middle between two whole numbers is rounded down; the plate holds the grown box still: either its side is the grown
    width and nothing is rounded, or it is at least 1 longer. Near the lowest corner that is allowed the plate is moved up
    to it, and holds what lies above it all the same.
    """
    if not edges:
        raise Unadvisable("there are no edges")
    left, low, right, high = outline_box(edges)
    width = max(right - left, high - low) + 2 * reach
    n = (width - 1).bit_length()
    lowest, most = sheets.COORDINATES[0], sheets.EXPONENTS[1]
    if n > most:
        raise Unadvisable(f"the outline with its reach is {told(width)} mm wide or high, and the largest plate {told(1 << most)} mm")
    if min(left, low) - reach < lowest:
        raise Unadvisable(f"the outline with its reach goes below {told(lowest)} mm, where no plate begins")
    x, y = (max(lowest, (least + greatest - (1 << n)) // 2) for least, greatest in ((left, right), (low, high)))
    return x, y, n


def told(hundredths):
    return plain(millimetres(hundredths))


def advised(edges, reach, plate=None, store=library.PROGRAM_STORE):
    """The job of an outline on the smallest plate, or on the one given as x, y, n, that the library draws with so much store.

    Its cells are the finest that the plate may have. Its grain is the smallest that is accepted from half a cell's side on:
    there the grain's part of the band E, 3 grains, is no more than the cell's, 1.5 sides, and a finer one mends little.
    """
    if len(edges) > library.EDGES_MOST:
        raise Unadvisable(f"there are {len(edges)} edges, and a job has {library.EDGES_MOST} at most")
    x, y, n = plate if plate is not None else plate_for(edges, reach)
    m = max(0, n - sheets.SPREAD_LIMIT)
    try:
        grain = trees.least_grain(edges, store, max(1, (1 << m) // 2))
        if grain is None:
            raise Unadvisable(f"no grain makes the trees of the edges fit {store:,} numbers of store")
        job = Job(x, y, n, m, reach, edges, grain)
        job.to_sheet()  # the library's word that every number is in its range
    except Refused as refused:
        raise Unadvisable(refused.cause) from refused
    return job
