"""Files that the verbs are given: job sheets, parts and maps. What cannot be used ends the verb with a message that names its place."""

import argparse
import os
from dataclasses import dataclass, replace
from typing import Optional

from . import console, library, parts, reasons, sheets
from .job import Job
from .lengths import hundredths
from .maps import CLEAR, DOUBTFUL, INSIDE
from .refusals import WORDS, Refused

# A map of 256 cells a side takes 67,339 bytes; anything longer is none.
MAP_LIMIT = 67_339
# Further edges only ever move a cell's letter to the right in this row.
RISING = CLEAR + DOUBTFUL + INSIDE
# A sheet has 8,192 bytes at most; so much of a longer text is read to tell how many edges it has.
SHEET_GLANCE = 4_000_000
# What every verb that takes a sheet says of parts.
PARTS = """\
SHEET may be a part, as `clearance from --split` writes it: a file that begins with { and names the sheets of one outline,
which stand beside it. All of them are taken then, as one.
"""
ALSO = "another sheet or part of the same plate and cell, taken with the first as one outline; may be repeated"


@dataclass(frozen=True)
class Files:
    """The sheets of one outline as paths and bytes, the name they go by, and what the part says that was given, if one was."""

    name: str
    sheets: list
    part: Optional[parts.Listed]


@dataclass(frozen=True)
class Input:
    """A sheet that reading accepts: its file's name, its bytes, its numbers with their places, and its job."""

    path: str
    data: bytes
    sheet: sheets.Sheet
    job: Job


@dataclass(frozen=True)
class Work:
    """One outline: its sheets, which are of one plate and cell, and the name that they go by."""

    path: str
    sheets: tuple

    @property
    def job(self):
        """All edges with the first sheet's plate, cell and reach, and the coarsest grain, whose band E is the largest."""
        jobs = [given.job for given in self.sheets]
        return replace(jobs[0], edges=sum((job.edges for job in jobs), ()), grain=max(job.grain for job in jobs))

    def place(self, index):
        """The file and the line of an edge of the whole outline."""
        for given in self.sheets:
            if index < len(given.sheet.edges):
                return given.path, given.sheet.edges[index][0].line
            index -= len(given.sheet.edges)
        raise IndexError(index)


class RefusedSheet(console.Ended):
    """A sheet that the library refused; `number` is the refusal."""

    def __init__(self, path, place, number, cause):
        super().__init__(console.FOUND, refusal_text(path, place, number, cause))
        self.path = path
        self.place = place
        self.number = number
        self.cause = cause

    def data(self):
        """The same for JSON."""
        line, column = (place or None for place in self.place)
        return {"sheet": self.path, "number": self.number, "word": WORDS[self.number], "line": line, "column": column, "cause": self.cause}


def sheet_bytes(path):
    """The bytes of a file that should be a sheet: all that can be one, and enough of any other to say what it is."""
    return console.read_bytes(path, SHEET_GLANCE)


def files(path, also=()):
    """The sheets that the arguments of a verb stand for, as one outline. Says where they are not all of a part."""
    found = [files_of(argument, sheet_bytes(argument)) for argument in (path, *also)]
    together = Files(path, [file for one in found for file in one.sheets], None if also else found[0].part)
    say_beside(together)
    return together


def files_of(path, data):
    """The sheets that one argument with these bytes stands for: itself, or those that a part names."""
    if not parts.looks_like(data):
        return Files(path, [(path, data)], None)
    if path == "-":
        raise console.misused("a part is given by its file's name, since its sheets stand beside it")

    def read(sheet):
        try:
            return sheet_bytes(sheet)
        except console.Ended as ended:
            raise console.Ended(ended.status, f"{ended}; {path} names it as a sheet: {parts.MEND}") from ended

    try:
        listed = parts.read_part(data)
        return Files(path, parts.sheets_of(path, listed, read), listed)
    except parts.BadPart as error:
        raise console.found(f"{console.at(path, *error.place)}: {error}") from error


def say_beside(given):
    """Says of sheets that are taken as one which part has others too, and what to give instead."""
    taken = {os.path.abspath(path) for path, _ in given.sheets}
    told = set()
    for path, _ in given.sheets:
        for part, names, is_own in parts.naming(path) if path != "-" else ():
            if part not in told and not taken.issuperset(map(os.path.abspath, names)):
                whole = f"give {part} for the whole part" if is_own else "it has been changed since, and the part is to be made anew"
                console.say(f"{path} is {'one' if is_own else 'named as one'} of {len(names)} sheets of {part}: {whole}")
                told.add(part)


def load(path, also=()):
    """One outline of sheets that the library reads."""
    return work_of(files(path, also))


def work_of(given):
    found = tuple(read_sheet(*file) for file in given.sheets)
    for other in found[1:]:
        same_plate(found[0], other)
    return Work(given.name, found)


def read_sheet(path, data):
    """A sheet that the library reads."""
    try:
        job = Job.from_sheet(data)
    except Refused as refused:
        raise refusal(path, data, refused.number) from refused
    return Input(path, data, sheets.read_sheet(data), job)


def refusal(path, data, number, store=library.STORE_MOST):
    """How a verb ends whose sheet the library refused with this number, with so many numbers of store lent: else all a job can need."""
    where, cause = reasons.first_place(data, number, store)
    return RefusedSheet(path, where, number, cause)


def refusal_text(path, where, number, cause):
    return f"{console.at(path, *where)}: refused {number} ({WORDS[number]}): {cause}"


def whole_length(word):
    """A word of the command line for a length in millimetres that is whole hundredths: how many."""
    try:
        return hundredths(word)
    except ValueError as error:
        raise argparse.ArgumentTypeError(str(error)) from error


def store_numbers(word):
    """A count of store numbers that can be lent."""
    if not (word.isascii() and word.isdecimal()) or int(word) > library.STORE_MOST:
        raise argparse.ArgumentTypeError(f"{word} is no whole number from 0 to {library.STORE_MOST}")
    return int(word)


def add_store(parser, default, help_text):
    """The option that says how much store is lent."""
    parser.add_argument("--store", metavar="NUMBERS", type=store_numbers, default=default, help=f"{help_text} ({default})")


def add_also(parser):
    """The option that takes further sheets."""
    parser.add_argument("--also", metavar="SHEET", action="append", default=[], help=ALSO)


def drawn_of(work, store=library.STORE_MOST):
    """An outline's joined map, and the trees of its sheets, by the library, with so many numbers of store lent for each."""
    progress = console.Progress(len(work.sheets))
    drawn = []
    try:
        for index, given in enumerate(work.sheets):
            progress.step(index, given.path)
            drawn.append(drawn_sheet(given, store))
    finally:
        progress.end()
    return parts.DrawnPart(drawn)


def drawn_sheet(given, store):
    try:
        return given.job.drawn(store)
    except Refused as refused:
        raise refusal(given.path, given.data, refused.number, store) from refused


def same_plate(first, given):
    """Sheets of one map have one plate and one cell."""
    for name in ("x", "y", "n", "m"):
        if getattr(first.job, name) != getattr(given.job, name):
            number = getattr(given.sheet, name)
            where = console.at(given.path, number.line, number.column)
            raise console.found(f"{where}: another plate or cell than {first.path}, and one map is of one plate")


def one_standard_input(*paths):
    """Standard input can be read once."""
    if paths.count("-") > 1:
        raise console.misused("standard input can be read for one file only")


def load_map(path):
    """The rows of a map, the lowest first."""
    return map_rows(path, console.read_bytes(path, MAP_LIMIT))


def is_outline(data):
    """Whether a file begins as a part or a sheet does, and no map."""
    return parts.looks_like(data) or data.startswith(b"(job")


def load_map_or_sheets(path):
    """The rows of a map, or of the map of a sheet or part that stands in its place, and the outline of these."""
    data = sheet_bytes(path)
    if not is_outline(data):
        return map_rows(path, data[: MAP_LIMIT + 1]), None
    given = files_of(path, data)
    say_beside(given)
    work = work_of(given)
    return drawn_of(work).map.rows, work


def map_rows(path, data):
    if is_outline(data):
        raise console.found(f"{path}: this is a sheet or a part, and a map is expected here; --also takes further sheets")
    try:
        return sheets.read_map(data)
    except sheets.FormError as error:
        raise console.found(f"{console.at(path, error.line, error.column)}: expected {error.expected}, found {error.found}") from error
    except sheets.RefusedMap as error:
        raise console.found(f"{path}: {error}") from error


def load_map_of(path, work):
    """The rows of a map that has the size of an outline's."""
    rows = load_map(path)
    side = work.sheets[0].sheet.cells_a_side()
    if len(rows) != side:
        raise console.found(f"{path}: {len(rows)} cells a side, but {work.path} has {side}")
    return rows


def rows_of(path, work, drawn):
    """The rows of the library's map, or of a map file that does not contradict it.

    A file may be of further sheets of the plate: then C may have become D or I, and D may have become I.
    """
    own = drawn.map.rows
    if path is None:
        return own
    rows = load_map_of(path, work)
    for row, (letters, owns) in enumerate(zip(rows, own)):
        for column, (letter, library_letter) in enumerate(zip(letters, owns)):
            if RISING.index(letter) < RISING.index(library_letter):
                place = f"column {column}, row {row} is {letter}, where the library draws {library_letter}"
                raise console.found(f"{path}: this is no map of {work.path}: {place}")
    return rows
