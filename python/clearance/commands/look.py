"""The verb `look`: a picture of a map."""

import argparse
import os
import re

from .. import console, figures, inputs, page, picture

SUMMARY = "a picture of a map: SVG, or an HTML page that tells about each cell"
DESCRIPTION = f"""\
Writes a picture of a sheet and its map: the cells, the outline over them, and axes with the drawing's own x and y in
millimetres. Without MAP the library draws the map, of several sheets as `clearance map` does.

{inputs.PARTS}"""
EXAMPLES = """\
  clearance look bracket.sheet -o bracket.svg
  clearance look bracket.sheet bracket.map --html -o bracket.html
  clearance look bracket.sheet --overlay > over-the-drawing.svg
  clearance look flange.part --html -o flange.html
  clearance look flange.sheet --also bracket.sheet -o plate.svg
"""
OVERLAY = """\
the cells alone, see-through, to be laid over another SVG: a unit is a millimetre, x is the drawing's x, and y is turned over: \
the drawing's y is at -y
"""
HTML = """\
one HTML page that needs no network: for the cell under the pointer, or moved to with the arrow keys, its letter, its place, and \
the library's bounds on the distance of its centre from the outline (of its lower left corner where the cell's side is 0.01 mm), \
of several sheets the least of each; \
#COLUMN,ROW at the end of its address begins at that cell
"""


def width(word):
    lowest, highest = picture.WIDTHS
    if not (re.fullmatch("[0-9]{1,9}", word) and lowest <= int(word) <= highest):
        raise argparse.ArgumentTypeError(f"{word!r} is no whole number from {lowest} to {highest}")
    return int(word)


def arguments(parser):
    add_files(parser)
    parser.add_argument("-o", "--output", metavar="FILE", default="-", help="where the picture is written (standard output)")
    kind = parser.add_mutually_exclusive_group()
    kind.add_argument("--actual", action="store_true", help="true size: printed at 100 %%, the plate's side is as long as it is in metal")
    kind.add_argument("--overlay", action="store_true", help=OVERLAY)
    kind.add_argument("--html", action="store_true", help=HTML)
    parser.add_argument("--outline", action="store_true", help="with --overlay: the outline too")
    parser.add_argument(
        "--width",
        metavar="PX",
        type=width,
        help=f"the picture's width ({picture.DEFAULT_WIDTH}); with --actual a smaller one makes larger text",
    )
    parser.add_argument("--grid", action="store_true", help=f"draw the grid also with more than {picture.GRID_LIMIT} cells a side")


def add_files(parser):
    """A sheet or several, and their map."""
    parser.add_argument("sheet", metavar="SHEET", help="a job sheet or a part; - is standard input, for a sheet")
    parser.add_argument("map", metavar="MAP", nargs="?", help="its map; without it the library draws it; - is standard input")
    inputs.add_also(parser)


def check_usage(asked):
    inputs.one_standard_input(asked.sheet, asked.map, *asked.also)
    if asked.outline and not asked.overlay:
        raise console.misused("--outline goes with --overlay; the other pictures have the outline")
    if asked.overlay and (asked.width or asked.grid):
        raise console.misused("--width and --grid do not go with --overlay")


def shown_name(path):
    """A file's name as a page shows it: also one whose bytes are no text."""
    name = "standard input" if path == "-" else os.path.basename(path)
    return name.encode("utf-8", "replace").decode("utf-8")


def made(asked, work, drawn, rows):
    """What is asked for, as text."""
    first, *others = [given.job for given in work.sheets]
    if asked.overlay:
        return picture.overlay(work.job, rows, asked.outline)
    wide = asked.width or picture.DEFAULT_WIDTH
    svg = picture.picture(first, rows, wide, asked.grid, asked.actual, others)
    if not asked.html:
        return svg
    return page.page(shown_name(work.path), source(asked, work), svg, wide, drawn, rows)


def source(asked, work):
    """Where the letters and the bounds of a page are from."""
    letters = "The letters are the library's" if asked.map is None else "The letters are those of the map file that was given"
    if len(work.sheets) == 1:
        return f"{letters}."
    names = figures.these([shown_name(given.path) for given in work.sheets])
    return f"{letters}, for {len(work.sheets)} sheets as one outline: {names}. Each bound is the least of the sheets' bounds."


def run(asked):
    check_usage(asked)
    work = inputs.load(asked.sheet, asked.also)
    drawn = inputs.drawn_of(work)
    rows = inputs.rows_of(asked.map, work, drawn)
    console.write_bytes(asked.output, made(asked, work, drawn, rows).encode("utf-8"))
    return console.DONE
