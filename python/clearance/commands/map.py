"""The verb `map`: draws maps of sheets."""

import os

from .. import console, inputs
from ..figures import many
from ..library import PROGRAM_STORE, STORE_MOST
from ..maps import LETTERS, refusal_text
from ..parts import SUFFIX

SUMMARY = "draw the clearance maps of sheets"
DESCRIPTION = f"""\
Draws the map of a sheet and writes it to standard output, in the text of the program `clearmap`. Of a refused sheet that
text is `(refused N)`, and the cause goes to standard error.

Several sheets: with -o each gets a file of its own and a line that tells of it; where one is refused, a file that its map
would have replaced stays. Without, they have to be of one plate and cell, and one map is drawn of all: a cell is I where one
sheet's map has I, C where all have C, and D elsewhere. Where reaches differ each outline keeps its own.

{inputs.PARTS}With -o a part has one map.

A sheet is never refused for want of store (6) unless --store lends less than it needs.
"""
EXAMPLES = f"""\
  clearance map bracket.sheet > bracket.map
  clearance map flange.part > flange.map
  clearance map flange-1.sheet flange-2.sheet > flange.map
  clearance map -o maps *.sheet
  clearance map --store {PROGRAM_STORE} bracket.sheet        as `clearmap < bracket.sheet`
"""


def arguments(parser):
    parser.add_argument("sheets", metavar="SHEET", nargs="+", help="a job sheet or a part; - is standard input, for a sheet")
    parser.add_argument("-o", "--output", metavar="DIR", help="write SHEET's map to DIR/SHEET.map, with .map for .sheet or .part")
    inputs.add_store(parser, STORE_MOST, "numbers of store to lend; left out, as many as any job needs")
    parser.add_argument("--json", action="store_true", help="with -o: the lines as data")


def run(asked):
    if asked.output is None:
        if asked.json:
            raise console.misused("--json goes with -o: a map is text")
        return one_map(asked)
    return many_maps(asked)


def one_map(asked):
    inputs.one_standard_input(*asked.sheets)
    try:
        drawn = inputs.drawn_of(inputs.load(asked.sheets[0], asked.sheets[1:]), asked.store)
    except inputs.RefusedSheet as refused:
        console.put(refusal_text(refused.number))
        raise
    console.put(drawn.map.text())
    return console.DONE


def named(path, folder):
    """The file of a sheet's or a part's map."""
    stem, suffix = os.path.splitext(os.path.basename(path))
    return os.path.join(folder, (stem if suffix in (".sheet", SUFFIX) else stem + suffix) + ".map")


def many_maps(asked):
    targets = [named(path, asked.output) for path in asked.sheets]
    if "-" in asked.sheets or len(set(targets)) < len(targets):
        raise console.misused("with -o every sheet is a file, and no two have the same name")
    try:
        os.makedirs(asked.output, exist_ok=True)
    except OSError as error:
        raise console.failed(asked.output, error) from error
    progress = console.Progress(len(asked.sheets))
    told = []
    for index, (path, target) in enumerate(zip(asked.sheets, targets)):
        progress.step(index, path)
        told.append(one_of_many(path, target, asked.store))
        progress.end()
        if told[-1]["status"] != console.DONE:
            console.say(told[-1]["message"])
    # Told when all are drawn, so that a reader who has gone does not keep a map from being drawn.
    if asked.json:
        console.put_json(told)
    else:
        console.put("".join(line(answer) for answer in told if answer["status"] == console.DONE))
    return max(answer["status"] for answer in told)


def one_of_many(path, target, store):
    """Draws and writes one sheet's or part's map; one that cannot be drawn does not keep the others from it."""
    try:
        drawn = inputs.drawn_of(inputs.load(path), store)
        found = drawn.map
        console.write_bytes(target, found.text())
    except console.Ended as ended:
        return {"sheet": path, "status": ended.status, "refusal": getattr(ended, "number", None), "message": str(ended)}
    told = {"map": target, "sheets": len(drawn.each), "cells": found.side, "nodes": drawn.nodes(), **found.counts()}
    return {"sheet": path, "status": console.DONE, **told}


def line(answer):
    counts = ", ".join(f"{answer[letter]} {letter}" for letter in LETTERS)
    sheets = f", {answer['sheets']} sheets" if answer["sheets"] > 1 else ""
    return f"{answer['sheet']}: {answer['map']}{sheets}, {answer['cells']} cells a side, {counts}, {many(answer['nodes'], 'node')}\n"
