"""The verb `diff`: where two maps differ."""

from collections import Counter

from .. import console, inputs

SUMMARY = "the cells in which two maps differ"
DESCRIPTION = """\
Says how many cells have one letter in the first map and another in the second, for each pair of letters, or "the same".

In place of a map a job sheet may stand, or a part, as `clearance from --split` writes it: the library draws its map then, of
a part the joined one. What a file is its first bytes tell. Where both are drawn they have to be of one plate and cell.
"""
EXAMPLES = """\
  clearance diff before.map after.map
  clearance map bracket.sheet | clearance diff bracket.map - --cells
  clearance diff flange.part flange.map
"""


def arguments(parser):
    parser.add_argument("old", metavar="MAP", help="the first map, or a sheet or part; - is standard input, for one of the two")
    parser.add_argument("new", metavar="MAP", help="the second map, or a sheet or part")
    parser.add_argument("--cells", action="store_true", help="each cell too: column and row, from 0 at the lower left, and its two letters")
    parser.add_argument("--json", action="store_true", help="as JSON")


def changed(old, new):
    """Column, row and both letters of each cell that differs, the lowest row first."""
    return [
        (column, row, before, after)
        for row, (olds, news) in enumerate(zip(old, new))
        for column, (before, after) in enumerate(zip(olds, news))
        if before != after
    ]


def pairs(cells):
    """How often each pair of letters comes, the most frequent first."""
    numbers = Counter((before, after) for _, _, before, after in cells)
    return sorted(numbers.items(), key=lambda pair: (-pair[1], pair[0]))


def as_json(side, cells, each):
    answer = {
        "same": not cells,
        "cells": side * side,
        "different": len(cells),
        "changes": [{"old": before, "new": after, "cells": number} for (before, after), number in pairs(cells)],
    }
    if each:
        answer["each"] = [dict(zip(("column", "row", "old", "new"), cell)) for cell in cells]
    return answer


def as_text(side, cells, each):
    if not cells:
        return "the same\n"
    counted = pairs(cells)
    wide = max(len(str(number)) for _, number in counted)
    lines = [f"{len(cells)} of {side * side} cells differ:"]
    lines += [f"{before} to {after}  {number:>{wide}}" for (before, after), number in counted]
    if each:
        lines += ["column row old new:", *(f"{column} {row} {before} {after}" for column, row, before, after in cells)]
    return "\n".join(lines) + "\n"


def run(asked):
    inputs.one_standard_input(asked.old, asked.new)
    (old, first), (new, second) = inputs.load_map_or_sheets(asked.old), inputs.load_map_or_sheets(asked.new)
    if first and second:
        inputs.same_plate(first.sheets[0], second.sheets[0])
    if len(old) != len(new):
        raise console.found(f"{asked.new}: {len(new)} cells a side, but {asked.old} has {len(old)}")
    cells = changed(old, new)
    if asked.json:
        console.put_json(as_json(len(old), cells, asked.cells))
    else:
        console.put(as_text(len(old), cells, asked.cells))
    return console.FOUND if cells else console.DONE
