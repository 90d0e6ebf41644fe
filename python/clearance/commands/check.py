"""`clearance check`: whether sheets are accepted, their figures, and what is likely wrong with them."""

from dataclasses import asdict, dataclass

from .. import console, figures, inputs, library, trees
from ..findings import findings
from ..lengths import plain
from ..parts import DrawnPart

SUMMARY = "say whether sheets are accepted, with figures and warnings"
DESCRIPTION = f"""\
Says of each job sheet whether it is refused, and where; else its figures: plate, cell, reach, grain, edges, the outline's
box, nodes and numbers of store ({library.NODE_NUMBERS} a node), whether the program clearmap, which lends
{library.PROGRAM_STORE:,} numbers, accepts it too, the band E = 3 grains + 1.5 cell sides (a doubtful cell lies within E of the
reach, both ways), and how many cells are clear (C), in reach (I) and doubtful (D).

It warns where the outline goes off the plate, or comes closer than the reach to its border; where the reach is below E;
where the outline is smaller than 5 mm (were millimetres written instead of hundredths?); and where an end of an edge
meets no other end. A warning changes no verdict, and the status only with --strict.

{inputs.PARTS}A part has one report: edges, outline, gaps and cells are those of the whole, E is the largest of its sheets.

Status 1 means that a sheet is refused or, with --strict, that there is a warning; 3 that a file cannot be read. The report of
the others is written all the same.
"""
EXAMPLES = """\
  clearance check part.sheet
  clearance check flange.part
  clearance check --strict sheets/*.sheet
  clearance check --json - < part.sheet
"""


def arguments(parser):
    parser.add_argument("sheets", metavar="SHEET", nargs="+", help="a job sheet or a part; - is standard input, for a sheet")
    parser.add_argument("--strict", action="store_true", help="a warning too gives status 1")
    parser.add_argument("--json", action="store_true", help="write a list with one object a SHEET")


def run(asked):
    inputs.one_standard_input(*asked.sheets)
    reports = [checked(path) for path in asked.sheets]
    for report in reports:
        report.complain()
    if asked.json:
        console.put_json([report.data() for report in reports])
    else:
        console.put("\n".join(filter(None, (report.text() for report in reports))))
    return max(report.status(asked.strict) for report in reports)


def checked(path):
    try:
        work = inputs.load(path)
        drawn = inputs.drawn_of(work)
    except console.Ended as ended:
        return Unaccepted(path, ended)
    by_program = [not trees.refusal(given.job.edges, given.job.grain, library.PROGRAM_STORE) for given in work.sheets]
    return Accepted(work, drawn, by_program, findings(work))


@dataclass(frozen=True)
class Unaccepted:
    """A sheet that is refused, or a file that is none: it has only a message."""

    path: str
    ended: console.Ended

    def complain(self):
        console.say(self.ended)

    def status(self, _strict):
        return self.ended.status

    def text(self):
        return ""

    def data(self):
        told = self.ended.data() if isinstance(self.ended, inputs.RefusedSheet) else None
        return {"file": self.path, "accepted": False, "refused": told, "message": str(self.ended)}


@dataclass(frozen=True)
class Accepted:
    """An outline that is drawn: its map, of which of its sheets the program accepts each too, and its warnings."""

    work: inputs.Work
    drawn: DrawnPart
    by_program: list
    warnings: list

    def complain(self):
        pass

    def status(self, strict):
        return console.FOUND if strict and self.warnings else console.DONE

    def text(self):
        job, nodes = self.work.job, self.drawn.nodes()
        rows = {
            **self.sheets_row(),
            **figures.sizes(job),
            "grain": figures.grains([given.job.grain for given in self.work.sheets]),
            "trees": f"{figures.many(nodes, 'node')}, {nodes * library.NODE_NUMBERS:,} numbers of store",
            "clearmap": f"{self.program()}: it lends {library.PROGRAM_STORE:,} numbers",
            "band E": f"{plain(figures.band(job.grain, job.m))} mm",
            "cells": figures.shares_text(self.drawn.map),
        }
        lines = [f"{self.work.path}: accepted", *(f"  {name:9} {told}" for name, told in rows.items())]
        lines += [f"{console.at(found.file, found.line)}: warning: {found.text}" for found in self.warnings]
        return "\n".join(lines) + "\n"

    def sheets_row(self):
        names = [given.path for given in self.work.sheets]
        return {"sheets": f"{len(names)}: {figures.these(names)}"} if names != [self.work.path] else {}

    def program(self):
        """What the program says of the sheets, which it reads one at a time."""
        refused = [given.path for given, accepts in zip(self.work.sheets, self.by_program) if not accepts]
        if len(self.by_program) == 1:
            return "refuses it with 6 (store)" if refused else "accepts it too"
        return f"refuses {', '.join(refused)} with 6 (store)" if refused else "accepts each sheet too"

    def data(self):
        shares = figures.shares(self.drawn.map)
        return {
            "file": self.work.path,
            "accepted": True,
            **figures.sizes_data(self.work.job),
            "nodes": self.drawn.nodes(),
            "store_numbers": self.drawn.nodes() * library.NODE_NUMBERS,
            "accepted_by_clearmap": all(self.by_program),
            "sheets": [self.sheet_data(index) for index in range(len(self.by_program))],
            "cells": {letter: {"count": count, "per_cent": round(share, 4)} for letter, (count, share) in shares.items()},
            "warnings": [asdict(found) for found in self.warnings],
        }

    def sheet_data(self, index):
        given, nodes = self.work.sheets[index], self.drawn.each[index].map.nodes
        return {
            "file": given.path,
            "edges": len(given.job.edges),
            "grain": given.job.grain,
            "nodes": nodes,
            "store_numbers": nodes * library.NODE_NUMBERS,
            "accepted_by_clearmap": self.by_program[index],
        }
