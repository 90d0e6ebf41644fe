"""The verb `spot`: bounds on how far places are from the outline."""

from .. import console, inputs
from ..lengths import hundredths
from ..refusals import Refused

SUMMARY = "bound how far places are from the outline"
DESCRIPTION = f"""\
Bounds the distance of each place X Y from the outline of a sheet, in millimetres: no point of the outline is nearer than
the first number, and some point of it is within the second. The library gives both; the first is rounded down and the
second up, to a ten-thousandth of a millimetre. The edge is the first whose strips give the second number. Of several sheets
each number is the least of theirs, and the edge is told with its sheet.

X and Y are millimetres with at most two decimals: places are whole hundredths. Any number of places may be asked.

{inputs.PARTS}"""
EXAMPLES = """\
  clearance spot bracket.sheet 12.5 30
  clearance spot bracket.sheet 12.5 30 -4 7.25
  clearance spot flange.part 80 80
  clearance spot --json bracket.sheet 0 0 10 0 20 0
"""


def arguments(parser):
    parser.add_argument("sheet", metavar="SHEET", help="a job sheet or a part; - is standard input, for a sheet")
    parser.add_argument("places", metavar="X Y", nargs="+", help="places in millimetres")
    inputs.add_also(parser)
    parser.add_argument("--json", action="store_true", help="the answers as data")


def run(asked):
    spots = pairs(asked.places)
    inputs.one_standard_input(asked.sheet, *asked.also)
    work = inputs.load(asked.sheet, asked.also)
    try:
        found = inputs.drawn_of(work).points(spots)
    except Refused as refused:
        raise out_of_range(spots) from refused
    answers = [answer(work.sheets[nearest.sheet], spot, nearest) for spot, nearest in zip(spots, found)]
    if asked.json:
        console.put_json(answers)
    else:
        console.put("".join(line(told, len(work.sheets) > 1) for told in answers))
    return console.DONE


def pairs(words):
    """The places that were asked, each as two texts."""
    if len(words) % 2:
        raise console.misused("every place has an X and a Y")
    for word in words:
        try:
            hundredths(word)
        except ValueError as error:
            raise console.misused(str(error)) from error
    return list(zip(words[::2], words[1::2]))


def out_of_range(spots):
    """The one refusal of points that a drawn job leaves: the first place that is too far off."""
    far = next(spot for spot in spots if any(abs(hundredths(word)) > 1_000_000 for word in spot))
    return console.found("{} {}: refused 3 (range): a place is within 10,000 mm of 0 in x and in y".format(*far))


def answer(given, spot, nearest):
    edge = given.sheet.edges[nearest.edge]
    return {
        "x": spot[0],
        "y": spot[1],
        "lo": str(nearest.lo),
        "hi": str(nearest.hi),
        "lo_squared_fine": nearest.lo_squared,
        "hi_squared_fine": nearest.hi_squared,
        "sheet": given.path,
        "edge": nearest.edge,
        "line": edge[0].line,
    }


def line(told, several):
    place = "({sheet}, line {line})" if several else "(line {line})"
    return ("{x} {y}: {lo} to {hi} mm, edge {edge} " + place + "\n").format(**told)
