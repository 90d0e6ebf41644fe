"""The verb `rects`: the clear rectangles of a map."""

import argparse
import re
from decimal import Decimal
from fractions import Fraction

from .. import console, inputs
from ..lengths import millimetres, plain
from ..rectangles import maximal
from .look import add_files

SUMMARY = "the largest clear rectangles of a map"
DESCRIPTION = f"""\
Lists the rectangles of C cells that no larger one contains, the largest area first (then the lowest, the leftmost, the
widest), in cells and in millimetres. Columns and rows are counted from 0 at the lower left; x and y are the drawing's,
of the rectangle's lower left corner. Every point of a listed rectangle is at least the reach away from the outline,
since every point of a C cell is. C does not tell part from stock: a rectangle may lie in either. Without MAP the library
draws the map, of several sheets as `clearance map` does.

{inputs.PARTS}"""
EXAMPLES = """\
  clearance rects bracket.sheet
  clearance rects flange.part --also bracket.sheet
  clearance rects bracket.sheet bracket.map --holds 12 30.5 --json
  clearance rects bracket.sheet --stock -10 -15 70 75.5
"""
STOCK = "only cells that lie on a stock with this lower left corner, width and height in mm, where the plate is larger than the metal"
MOST = 20
HEADS = ("column", "row", "columns", "rows", "x mm", "y mm", "width mm", "height mm", "area mm²")


def count(word):
    if not re.fullmatch("[1-9][0-9]{0,8}", word):
        raise argparse.ArgumentTypeError(f"{word!r} is no whole number from 1 on")
    return int(word)


def length(word):
    # Few digits and no exponent: a short word must not stand for a number of a million digits.
    if not (re.fullmatch(r"[0-9]{1,9}(\.[0-9]{1,9})?", word) and Decimal(word) > 0):
        raise argparse.ArgumentTypeError(f"{word!r} is no length in millimetres above 0")
    return Decimal(word)


def arguments(parser):
    add_files(parser)
    parser.add_argument(
        "--holds",
        metavar=("W", "H"),
        nargs=2,
        type=length,
        help="only those that a part of W by H mm fits in, parallel to the axes, either way round",
    )
    parser.add_argument("--stock", metavar=("X", "Y", "W", "H"), nargs=4, type=inputs.whole_length, help=STOCK)
    many = parser.add_mutually_exclusive_group()
    many.add_argument("--most", metavar="COUNT", type=count, default=MOST, help=f"list so many at most ({MOST})")
    many.add_argument("--all", action="store_true", help="list all")
    parser.add_argument("--json", action="store_true", help="as JSON")


def told(job, rectangle):
    """A rectangle's numbers, named as in JSON and in the order of the table."""
    cell = 1 << job.m
    return {
        "column": rectangle.column,
        "row": rectangle.row,
        "columns": rectangle.columns,
        "rows": rectangle.rows,
        "x_mm": millimetres(job.x + rectangle.column * cell),
        "y_mm": millimetres(job.y + rectangle.row * cell),
        "width_mm": millimetres(rectangle.columns * cell),
        "height_mm": millimetres(rectangle.rows * cell),
        "area_mm2": Decimal(rectangle.cells * cell * cell).scaleb(-4),
    }


def table(numbers):
    """Columns as wide as the widest of them, ranged right."""
    lines = [HEADS, *([plain(Decimal(number)) for number in row.values()] for row in numbers)]
    widths = [max(map(len, column)) for column in zip(*lines)]
    return ["  ".join(word.rjust(width) for word, width in zip(line, widths)) for line in lines]


def wanted(job, rectangles, part):
    """Those that hold a part, if one is asked for. Cells are fractions of one here, so nothing is rounded."""
    if not part:
        return rectangles
    width, height = (Fraction(side) * 100 / (1 << job.m) for side in part)
    return [rectangle for rectangle in rectangles if rectangle.holds(width, height)]


def on_stock(job, rows, stock):
    """The rows with the cells blotted out that do not lie wholly on the stock."""
    if not stock:
        return rows
    x, y, width, height = stock
    cell, places = 1 << job.m, range(len(rows))
    columns = [x <= job.x + cell * i and job.x + cell * (i + 1) <= x + width for i in places]
    lines = [y <= job.y + cell * j and job.y + cell * (j + 1) <= y + height for j in places]
    return ["".join(letter if column and line else " " for letter, column in zip(row, columns)) for row, line in zip(rows, lines)]


def condition(part):
    return f" for a part of {plain(part[0])} by {plain(part[1])} mm" if part else ""


def heading(total, listed, part):
    what = "clear rectangle" if total == 1 else "clear rectangles"
    return f"{total} {what}{condition(part)}" + (f"; the first {listed}:" if listed < total else ":")


def run(asked):
    inputs.one_standard_input(asked.sheet, asked.map, *asked.also)
    work = inputs.load(asked.sheet, asked.also)
    job = work.job
    rows = on_stock(job, inputs.rows_of(asked.map, work, inputs.drawn_of(work)), asked.stock)
    found = wanted(job, maximal(rows), asked.holds)
    if not found:
        raise console.found(f"{asked.map or asked.sheet}: there is no clear rectangle{condition(asked.holds)}")
    numbers = [told(job, one) for one in (found if asked.all else found[: asked.most])]
    if asked.json:
        listed = [{name: as_json(number) for name, number in row.items()} for row in numbers]
        console.put_json({"count": len(found), "rectangles": listed})
    else:
        console.put("\n".join([heading(len(found), len(numbers), asked.holds), *table(numbers)]) + "\n")
    return console.DONE


def as_json(number):
    """Every length and area here has 15 digits at most, which a float keeps."""
    return number if isinstance(number, int) else float(number)
