"""A part: one outline on several sheets of one plate and cell, and the file that names them.

What is told of a part is true of its whole outline. Maps are joined cell by cell (docs/USING.md, "Why maps may be joined"). Of a
point's bounds the least of each is taken: no point of a sheet's outline is nearer than that sheet's lo, so no point of the
whole is nearer than the least lo; and the least hi is one sheet's, so some point of that sheet's outline is within it.
"""

import hashlib
import json
import os
import re
from dataclasses import dataclass

from . import library
from .bounds import outline_box
from .figures import these
from .job import Job, is_line, place
from .lengths import millimetres, plain
from .maps import joined
from .nearest import Nearest
from .refusals import Refused
from .version import VERSION

# ---- parts


@dataclass(frozen=True)
class Part:
    """Jobs of one plate and cell that make one outline, and the names of their sheets' files where they have any."""

    jobs: tuple
    names: tuple = ()

    def __post_init__(self):
        object.__setattr__(self, "jobs", tuple(self.jobs))
        if len({(job.x, job.y, job.n, job.m) for job in self.jobs}) != 1:
            raise ValueError("a part has one job or more, all of one plate and cell")

    @staticmethod
    def read(path):
        """The part of a file that names its sheets. BadPart where that or a sheet is not as it was written; Refused as Job.from_sheet."""
        path = os.fspath(path)
        listed = read_part(read_file(path))
        files = sheets_of(path, listed, read_file)
        return Part(tuple(Job.from_sheet(data) for _, data in files), tuple(name for name, _ in files))

    def drawn(self, store=library.STORE_MOST):
        """The part with the map and the trees of each job. Refuses as the first job that does."""
        return DrawnPart([job.drawn(store) for job in self.jobs])

    def map(self, store=library.STORE_MOST):
        """One map of all jobs."""
        return self.drawn(store).map

    def point(self, x, y, store=library.STORE_MOST):
        """Bounds on the distance of the point (x, y), in millimetres, from the whole outline."""
        return self.drawn(store).point(x, y)

    def points(self, spots, store=library.STORE_MOST):
        """The same of each of any number of points (x, y), in their order."""
        return self.drawn(store).points(spots)


class DrawnPart:
    """Drawn jobs of one plate and cell: their joined map, and bounds of the whole outline. `job` is the first: it has the plate."""

    def __init__(self, each):
        self.each = list(each)
        self.job = self.each[0].job
        self.map = self.each[0].map if len(self.each) == 1 else joined(drawn.map for drawn in self.each)

    def nodes(self):
        """How many nodes all trees have."""
        return sum(drawn.map.nodes for drawn in self.each)

    def point(self, x, y):
        return self.points([(x, y)])[0]

    def points(self, spots):
        """Bounds of each point: of all sheets' the least, and the first sheet and edge with the least upper one."""
        return self.points_at([place(spot) for spot in spots])

    def points_at(self, spots):
        """The same of points in whole hundredths of 32 bits. The head of this file says why the least are right."""
        lows, highs, edges = self.each[0].replies(spots)
        sheets = [0] * len(lows)
        for sheet, drawn in enumerate(self.each[1:], 1):
            more_lows, more_highs, more_edges = drawn.replies(spots)
            lows = list(map(min, lows, more_lows))
            for index, (before, high) in enumerate(zip(highs, more_highs)):
                if high < before:
                    highs[index], edges[index], sheets[index] = high, more_edges[index], sheet
        return [Nearest(*numbers) for numbers in zip(lows, highs, edges, sheets)]


# ---- the file of a part

SUFFIX = ".part"
MARK, FORMAT = "clearance_part", 1
# `from` makes 4,096 edges at most, 64 sheets of 64.
SHEETS_MOST = 64
# 64 names of 255 bytes, each byte written as \udcff, fit.
BYTES_MOST = 200_000
MEND = "make the part anew with `clearance from --split`, or with `clearance advise --write` of the sheets"
BRIEF = 100
# What the sheets show.
SHOWN = ("edges", "bounds", "reach_written", "reach_hundredths")
# What a drawing tells; a part that was made of sheets lacks it.
SOURCE = ("drawing", "unit", "left_out", "w", "w_hundredths", "reach_asked")


class BadPart(ValueError):
    """A file that is no part, or a sheet that is not as the part has it; `place` is line and column, or nothing."""

    def __init__(self, message, *place):
        super().__init__(message)
        self.place = place


@dataclass(frozen=True)
class Listed:
    """What a part's file says: names and digests of its sheets, what the sheets themselves show, and what the drawing told."""

    sheets: tuple
    shown: dict
    source: dict


def shown(jobs):
    """What a part's file tells that its sheets show: all lengths in millimetres but for the hundredths."""
    edges = [edge for job in jobs for edge in job.edges]
    lines = sum(map(is_line, edges))
    left, low, right, high = (plain(millimetres(number)) for number in outline_box(edges))
    return {
        "edges": {"count": len(edges), "lines": lines, "cubics": len(edges) - lines},
        "bounds": {"x": [left, right], "y": [low, high]},
        "reach_written": plain(millimetres(jobs[0].reach)),
        "reach_hundredths": jobs[0].reach,
    }


def names(output, count):
    """The names of so many sheets and of their part: F-1.sheet, F-2.sheet … and F.part of F.sheet."""
    stem, suffix = os.path.splitext(output)
    if suffix == SUFFIX:
        suffix = ".sheet"
    return [f"{stem}-{number}{suffix}" for number in range(1, count + 1)], stem + SUFFIX


def told_written(output, count):
    """What is said when a part of so many sheets is written; a part of more sheets that was there before leaves some behind."""
    sheet_names, part_name = names(output, count)
    older = []
    while os.path.lexists(names(output, count + len(older) + 1)[0][-1]):
        older.append(names(output, count + len(older) + 1)[0][-1])
    behind = f"; from before, and none of its sheets: {these(older)}" if older else ""
    return f"written: {these(sheet_names)}, and {part_name}, which stands for the whole part{behind}"


def files(output, jobs, source):
    """The names and bytes of a part's sheets and, last, of its own file; of `source` what a drawing told is kept."""
    sheet_names, part_name = names(output, len(jobs))
    sheets = [(name, job.to_sheet()) for name, job in zip(sheet_names, jobs)]
    told = {
        MARK: FORMAT,
        "version": VERSION,
        **{name: source[name] for name in SOURCE if name in source},
        **shown(jobs),
        "sheets": [{"name": os.path.basename(name), "sha256": digest(data)} for name, data in sheets],
    }
    return [*sheets, (part_name, (json.dumps(told, indent=2) + "\n").encode("ascii"))]


def digest(data):
    return hashlib.sha256(data).hexdigest()


def looks_like(data):
    """Whether a file is taken for a part: it begins with {, as no sheet and no map does."""
    return data.lstrip()[:1] == b"{"


def read_file(path):
    with open(path, "rb") as file:
        return file.read(BYTES_MOST + 1)


def read_part(data):
    """What a part's file says; BadPart where it is no such file."""
    if len(data) > BYTES_MOST:
        raise BadPart(f"this is no part: it has more than {BYTES_MOST:,} bytes")
    told = parsed(data)
    if not isinstance(told, dict) or MARK not in told:
        raise BadPart(f'this is no part: it has no "{MARK}"')
    if type(told[MARK]) is not int or told[MARK] != FORMAT:
        raise BadPart(f'"{MARK}" is {brief(told[MARK])}, and parts of format {FORMAT} are read here')
    known = {MARK, "version", "sheets", *SHOWN}
    for name in [*sorted(known - set(told)), *sorted(set(told) - known - set(SOURCE))]:
        raise BadPart(f"this is no part: {brief(name)} is {'missing' if name in known else 'not known'}")
    for name in ("version", *SOURCE):
        if name in told and not is_right(name, told[name]):
            raise BadPart(f'this is no part: "{name}" is {brief(told[name])}')
    source = {name: told[name] for name in SOURCE if name in told}
    return Listed(listed_sheets(told["sheets"]), {name: told[name] for name in SHOWN}, source)


def brief(value):
    """A value of the file as a message names it: in one line, without control characters, and not too long."""
    try:
        text = json.dumps(value)
    except RecursionError:
        return "too deep to tell"
    return text if len(text) <= BRIEF else text[:BRIEF] + "..."


def is_right(name, value):
    """Whether a value that a drawing told has its type: counts by kinds, or a text."""
    if name != "left_out":
        return isinstance(value, str)
    return isinstance(value, dict) and all(type(count) is int for count in value.values())


def parsed(data):
    """The value of a JSON text; nothing in it is named twice."""
    try:
        return json.loads(data.decode("utf-8"), object_pairs_hook=once, parse_constant=no_number)
    except json.JSONDecodeError as error:
        raise BadPart(f"this is no part: {error.msg}", error.lineno, error.colno) from error
    except BadPart:
        raise
    except (ValueError, RecursionError) as error:
        raise BadPart("this is no part: its text is no JSON that can be read") from error


def once(pairs):
    found = dict(pairs)
    if len(found) < len(pairs):
        raise BadPart("this is no part: a name stands twice in it")
    return found


def no_number(word):
    raise BadPart(f"this is no part: {word} is no number")


def listed_sheets(value):
    """Names and digests of a part's sheets."""
    if not isinstance(value, list) or not 1 <= len(value) <= SHEETS_MOST:
        raise BadPart(f'this is no part: "sheets" is a list of 1 to {SHEETS_MOST}')
    found = []
    for sheet in value:
        if not isinstance(sheet, dict) or set(sheet) != {"name", "sha256"} or not all(isinstance(text, str) for text in sheet.values()):
            raise BadPart('this is no part: a sheet has a "name" and a "sha256"')
        if not is_plain(sheet["name"]):
            raise BadPart(f"{brief(sheet['name'])} is no plain name of a file: a part's sheets stand beside it")
        if not re.fullmatch("[0-9a-f]{64}", sheet["sha256"]):
            raise BadPart(f'this is no part: "sha256" of {sheet["name"]} has 64 digits of base 16')
        found.append((sheet["name"], sheet["sha256"]))
    if len({name for name, _ in found}) < len(found):
        raise BadPart("this is no part: it names a sheet twice")
    return tuple(found)


def is_plain(name):
    """Whether a name is one of a file in the part's own folder, without control characters; - would be standard input."""
    try:
        os.fsencode(name)
    except UnicodeEncodeError:
        return False
    return name not in ("", ".", "..", "-") and not re.search(r"[/\x00-\x1f\x7f]", name)


def sheets_of(path, listed, read):
    """The paths of a part's sheets with their bytes, which `read` gives. BadPart where one is not as the part was written with it."""
    found = []
    for name, written in listed.sheets:
        where = os.path.join(os.path.dirname(path), name)
        data = read(where)
        if digest(data) != written:
            raise BadPart(f"its sheet {name} has been changed or replaced since the part was written: {MEND}")
        found.append((where, data))
    try:
        compare(listed, [Job.from_sheet(data) for _, data in found])
    except Refused:
        pass  # Whoever asked reads the sheets too, and says where and why.
    return found


def compare(listed, jobs):
    """BadPart where the sheets of a part are not of one plate, cell and reach, or not what its file tells of them."""
    if len({(job.x, job.y, job.n, job.m, job.reach) for job in jobs}) > 1:
        raise BadPart("its sheets are not of one plate, cell and reach")
    for name, value in shown(jobs).items():
        if listed.shown[name] != value:
            raise BadPart(f'"{name}" is {brief(listed.shown[name])}, and its sheets have {brief(value)}: {MEND}')


# ---- parts beside a sheet

# So many parts of a folder are looked into, those whose names begin as the sheet's does first.
LOOKED_MOST = 50


def naming(path):
    """The parts beside a sheet that name it, each with the paths of all its sheets, and whether the sheet is as the part has it."""
    folder, sheet = os.path.split(path)
    found = []
    for name in beside(folder, sheet)[:LOOKED_MOST]:
        part = os.path.join(folder, name)
        try:
            listed = dict(read_part(read_file(part)).sheets)
            is_own = sheet in listed and digest(read_file(path)) == listed[sheet]
        except (OSError, BadPart):
            continue
        if sheet in listed:
            found.append((part, [os.path.join(folder, other) for other in listed], is_own))
    return found


def beside(folder, sheet):
    """The names of the parts in a folder; none where it cannot be listed."""
    try:
        with os.scandir(folder or ".") as entries:
            found = [entry.name for entry in entries if entry.name.endswith(SUFFIX) and entry.is_file()]
    except OSError:
        return []
    return sorted(found, key=lambda name: (not sheet.startswith(name[: -len(SUFFIX)]), name))
