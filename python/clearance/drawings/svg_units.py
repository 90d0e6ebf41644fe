"""Numbers, lengths and viewports of an SVG drawing, all exact.

A user unit is a pixel, 1/96 inch, where no viewBox says otherwise. Per cents are of the nearest viewport.
"""

import math
import re
from dataclasses import dataclass
from fractions import Fraction
from typing import Optional

from .svg_numbers import NUMBER, Fault, exact, numbers
from .svg_transforms import Affine

LENGTH = re.compile(rf"({NUMBER.pattern})(px|mm|cm|in|pt|pc|q|%)?", re.ASCII | re.IGNORECASE)
ALIGNED = re.compile(r"(?:defer\s+)?(none|x(Min|Mid|Max)Y(Min|Mid|Max))(?:\s+(meet|slice))?", re.ASCII)

# User units in a unit.
INCH = Fraction(96)
PIXELS = {
    "": Fraction(1),
    "px": Fraction(1),
    "in": INCH,
    "cm": INCH * 100 / 254,
    "mm": INCH * 10 / 254,
    "q": INCH * 10 / 1016,
    "pt": INCH / 72,
    "pc": INCH / 6,
}
PHYSICAL = ("in", "cm", "mm", "q", "pt", "pc")

@dataclass(frozen=True)
class Size:
    """A viewport's width and height in its own user units, or nothing where they are not known."""

    width: Optional[Fraction]
    height: Optional[Fraction]

    def along(self, axis):
        """What 100 per cent of is meant along x or y, or of a radius."""
        if axis in "xy":
            found = self.width if axis == "x" else self.height
        elif self.width is None or self.height is None:
            found = None
        else:
            found = Fraction(math.sqrt((self.width**2 + self.height**2) / 2))
        if found is None:
            raise Fault("a per cent of a viewport whose size is not known is not read: give it a width and a height or a viewBox")
        return found


def split_length(text):
    """The number and the unit of a length, or nothing."""
    match = LENGTH.fullmatch(text.strip())
    return (match[1], (match[2] or "").lower()) if match else None


def length(name, text, size, axis):
    """A length in user units."""
    parts = split_length(text)
    if parts is None:
        raise Fault(f"{name}={text[:40]!r} is no length that is read: write a number, or one with {', '.join(filter(None, PIXELS))} or %")
    number, unit = parts
    return exact(number) * (size.along(axis) / 100 if unit == "%" else PIXELS[unit])


def view_box(attributes):
    """The four numbers of a viewBox, or nothing where there is none."""
    if "viewBox" not in attributes:
        return None
    box = numbers(attributes["viewBox"])
    if box is None or len(box) != 4:
        raise Fault("its viewBox has not four numbers")
    if min(box[2:]) <= 0:
        raise Fault("its viewBox has no size")
    return tuple(box)


def alignment(attributes):
    """What preserveAspectRatio says: none or a share of the room to the left and above, and whether the viewBox is to fill the room."""
    text = attributes.get("preserveAspectRatio", "xMidYMid").strip()
    match = ALIGNED.fullmatch(text)
    if match is None:
        raise Fault(f"its preserveAspectRatio {text[:40]!r} is none that is read")
    shares = {"Min": Fraction(0), "Mid": Fraction(1, 2), "Max": Fraction(1)}
    return None if match[1] == "none" else (shares[match[2]], shares[match[3]]), match[4] == "slice"


def scales(box, sides, attributes):
    """By how much a viewBox grows across and down in a viewport with these sides."""
    each = tuple(side / of for side, of in zip(sides, box[2:]))
    shares, fill = alignment(attributes)
    one = max(each) if fill else min(each)
    return each if shares is None else (one, one)


def fitted(box, corner, sides, attributes):
    """The map from a viewBox's numbers into a viewport by its upper left corner and its sides."""
    across, down = scales(box, sides, attributes)
    share_x, share_y = alignment(attributes)[0] or (0, 0)
    left = corner[0] + share_x * (sides[0] - across * box[2]) - across * box[0]
    top = corner[1] + share_y * (sides[1] - down * box[3]) - down * box[1]
    return Affine.of(across, Fraction(0), Fraction(0), down, Fraction(left), Fraction(top))


def corners(place, corner, sides):
    """The corners of a rectangle, one after the other around it, on the sheet."""
    (x, y), (width, height) = corner, sides
    return tuple(place.moved(*point) for point in ((x, y), (x + width, y), (x + width, y + height), (x, y + height)))
