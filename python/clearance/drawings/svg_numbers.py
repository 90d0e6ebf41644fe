"""Numbers of an SVG drawing as they stand."""

import re
from fractions import Fraction

# As svgelements has it: it stops at a number of another form.
NUMBER = re.compile(r"[-+]?[0-9]*\.?[0-9]+(?:[eE][-+]?[0-9]+)?")
SPACE = re.compile(r"[ \t\r\n\f]*")
# A comma stands between two numbers only: what programs do with others differs.
BETWEEN = re.compile(r"[ \t\r\n\f]*(?:,[ \t\r\n\f]*(?=[-+.0-9]))?")
# No number of a drawing is as large as this: it would be out of every sheet, and doubles would lose its places.
NUMBER_MOST = 1e15
DIGITS_MOST = 300


class Fault(Exception):
    """What an element has that is not read; who reads the element knows its place."""


def in_range(text):
    """The text of a number that is not too large; a fraction of 1e999999999 would take all memory."""
    if len(text) > DIGITS_MOST:
        raise Fault(f"a number has more than {DIGITS_MOST} digits")
    if not abs(float(text)) < NUMBER_MOST:
        raise Fault(f"the number {text[:40]} is too large")
    return text


def exact(text):
    """A number as a fraction; below 10^-15 it is 0."""
    return Fraction(text) if abs(float(in_range(text))) > 1 / NUMBER_MOST else Fraction(0)


def numbers(text):
    """The numbers of a list, or nothing where there is something else in it."""
    at, found = SPACE.match(text).end(), []
    while at < len(text):
        match = NUMBER.match(text, at)
        if match is None:
            return None
        found.append(exact(match.group()))
        at = BETWEEN.match(text, match.end()).end()
    return found
