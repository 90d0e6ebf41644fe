"""What has most likely gone wrong where a sheet breaks its form, and what to do about it: guesses that help a person, no rules."""

import re
from dataclasses import dataclass
from decimal import ROUND_FLOOR, Decimal

from . import sheets

# What comes after a line that begins with a word, and at the start.
NEXT = {
    b"": "(job",
    b"job": "(plate X Y N)",
    b"plate": "(cell M)",
    b"cell": "(reach R)",
    b"reach": "(grain T) or the first edge",
    b"grain": "the first edge",
    b"edge": "another edge or the closing parenthesis",
    b"line": "another edge or the closing parenthesis",
}
ORDER = "job, plate, cell, reach, grain (may be left out), then edge for each cubic and line for each straight edge"
# The most of a line past its break that is looked at; the longest line of the right form has 86 bytes.
GLANCE = 100
# How many numbers stand in a line of a word.
NUMBERS = {b"plate": 3, b"cell": 1, b"reach": 1, b"grain": 1}

# How a file begins that is something else than a sheet.
OTHERS = [
    (rb"\xef\xbb\xbf", "the file begins with a byte order mark: save it as plain text, UTF-8 without BOM"),
    (rb"\xff\xfe|\xfe\xff", "the file is UTF-16: save it as plain text, ASCII or UTF-8 without BOM"),
    (rb"\s*<(\?xml|svg|!DOCTYPE)", "the file looks like an SVG drawing: `clearance from` makes sheets of drawings"),
    (rb"\s*(999\r?\n.*\n\s*)?0\r?\nSECTION", "the file looks like a DXF drawing: `clearance from` makes sheets of drawings"),
    (rb"\(map |\(refused ", "the file is a map, or a refusal in place of one, and no sheet"),
]


@dataclass(frozen=True)
class Break:
    """A break of the form: the whole text, the offset of the break in it, and its line's text and column, counted from 0."""

    data: bytes
    at: int
    line: bytes
    column: int

    @property
    def byte(self):
        return self.data[self.at : self.at + 1]


def break_of(data, error):
    start = 0
    for _ in range(error.line - 1):
        start = data.index(b"\n", start) + 1
    at = start + error.column - 1
    return Break(data, at, data[start : at + GLANCE].partition(b"\n")[0], error.column - 1)


def hint(data, error):
    """One sentence on a FormError of these bytes, or an empty text."""
    broken = break_of(data, error)
    guesses = (other_file, too_long, line_end, decimal, number_sign, comment, counts, space, blank_or_cut, word)
    return next(filter(None, (guess(broken) for guess in guesses)), "")


def other_file(broken):
    if broken.data == b"":
        return "the file is empty"
    return next((text for start, text in OTHERS if re.match(start, broken.data)), "")


def too_long(broken):
    if broken.at < sheets.SHEET_LIMIT or len(broken.data) <= sheets.SHEET_LIMIT:
        return ""
    edges = len(re.findall(rb"^\((?:edge|line) ", broken.data, re.MULTILINE))
    return (
        f"the sheet is too long: {len(broken.data):,} bytes and {edges:,} edge lines were read, "
        f"and it may have {sheets.SHEET_LIMIT:,} bytes and {sheets.EDGE_LIMIT} edges"
    )


def line_end(broken):
    if broken.byte != b"\r":
        return ""
    if broken.data[broken.at + 1 : broken.at + 2] == b"\n":
        return "Windows line ends: a line ends in one line feed; `tr -d '\\r' < SHEET > NEW` takes the carriage returns out"
    return "a carriage return: a line ends in one line feed; `tr '\\r' '\\n' < SHEET > NEW` puts line feeds in their place"


def decimal(broken):
    """A number with a point in it. The break may be in front of the point, as in -0.5."""
    if first_word([broken.line]) not in NEXT:
        return ""
    for found in re.finditer(rb"[+-]?(\d+\.\d*|\.\d+)", broken.line):
        if found.start() <= broken.column < found.end():
            text = found.group().decode("ascii")
            return exponent(broken.line, found.start()) or whole_for(text)
    return ""


def exponent(line, start):
    """What to write for N or M, which are no lengths."""
    before = line[:start].split()
    name, thing = {(b"(plate", 3): ("N", "plate"), (b"(cell", 1): ("M", "cell")}.get((*before[:1], len(before)), ("", ""))
    return f"{name} is a whole number from 0 to 20: the {thing}'s side is 2^{name} hundredths of a millimetre" if name else ""


def whole_for(text):
    """The hundredths to write for a length in millimetres."""
    exact = Decimal(text).scaleb(2)
    below = int(exact.to_integral_value(ROUND_FLOOR))
    choice = f"{below}" if exact == below else f"{below} or {below + 1}"
    if not -(10**sheets.DIGIT_LIMIT) < below < 10**sheets.DIGIT_LIMIT - 1:
        return "lengths are whole hundredths of a millimetre, without a point"
    return f"lengths are whole hundredths of a millimetre: write {choice} for {text} mm"


def number_sign(broken):
    if broken.byte == b",":
        return "a number has no comma: lengths are whole hundredths of a millimetre, with one space between them"
    if broken.byte == b"+":
        return "a number has no plus: leave it out"
    if broken.byte in (b"e", b"E") and broken.line[:broken.column][-1:].isdigit():
        return "a number has no exponent: write it out in digits"
    return ""


def comment(broken):
    if broken.byte and broken.byte in b"#;%/" and broken.line[: broken.column].strip() in (b"", b")"):
        return "a sheet has no comments: take it out"
    return ""


def space(broken):
    if broken.byte == b"\t":
        return "a tab: write one space instead, and none in front of a line"
    if broken.byte != b" ":
        return ""
    if broken.line[: broken.column].strip() == b"":
        return "spaces in front of a line: take them out"
    if broken.line[broken.column :].strip() == b"":
        return "spaces at the end of a line: take them out"
    return "a space too many: one separates two numbers or points, and none stands beside a parenthesis else"


def blank_or_cut(broken):
    if broken.byte == b"\n" and broken.line.strip() == b"":
        return "a blank line: take it out"
    if broken.byte != b"":
        return ""
    if broken.data.endswith(b"\n)"):
        return "the last line lacks its line feed: add it"
    return "the text is cut short: a sheet's last line is a closing parenthesis alone"


def word(broken):
    """The word that the line begins with is not the one that comes next."""
    found = re.match(rb"\(?(\w*)", broken.line)
    if broken.column > found.end():
        return ""
    written = found.group(1)
    if written.lower() in NEXT and written != written.lower():
        return "words are written in small letters"
    if broken.data[: broken.at].endswith(b"\n)\n"):
        return "a file holds one sheet: take out what follows its last line"
    before = broken.line[: broken.column]
    if before[1:] in NUMBERS or before[1:] in (b"edge", b"line"):
        return f"one space follows {before.decode('ascii')}"
    comes = NEXT[first_word(broken.data[: broken.at - broken.column].splitlines()[-1:])]
    return f"{comes} is what comes here: a sheet's lines are {ORDER}"


def first_word(lines):
    return re.match(rb"\(?(\w*)", lines[0]).group(1) if lines else b""


def counts(broken):
    """A line of a known word with too few numbers or points, or with too many."""
    start = first_word([broken.line])
    if broken.byte not in (b" ", b")", b"\n"):
        return ""
    if start in NUMBERS:
        count, want, what = len(re.findall(rb"-?\d+", broken.line)), NUMBERS[start], "number"
    elif b"(%s (" % start in sheets.POINTS:
        count, want, what = broken.line.count(b"(") - 1, sheets.POINTS[b"(%s (" % start], "point"
    else:
        return ""
    several = what if want == 1 else what + "s"
    return f"a line of {start.decode('ascii')} has {want} {several}, and this one {count or 'none'}" if count != want else ""
