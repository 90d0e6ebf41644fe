"""The page of an SVG drawing: what a unit of its viewBox stands for, and how that comes onto a sheet.

The lower left corner of the viewBox, or of the page where there is none, is the origin, and y goes up.
"""

from dataclasses import dataclass
from fractions import Fraction
from typing import Optional

from .reading import UNITS
from .svg_numbers import Fault, exact
from .svg_transforms import Affine
from .svg_windows import Window
from .svg_units import PHYSICAL, PIXELS, Size, alignment, corners, scales, split_length, view_box

# Hundredths of a millimetre in a pixel.
PIXEL = UNITS["px"]
SIDES = ("width", "height")


@dataclass(frozen=True)
class Page:
    """The map from user units to hundredths with y upward, the viewport, the unit in words, and the page's border where it is known."""

    place: Affine
    size: Size
    unit: str
    border: Optional[Window]


def page_of(root, styles, wish):
    """The page of a document's root. A unit that is asked for is that of the viewBox, in place of the page's size."""
    box = view_box(root.attrib)
    styled = [name for name in SIDES if name in styles]
    if styled and not (wish.unit and box):
        raise Fault(f"its {styled[0]} in a style is not read: write it as an attribute")
    sides = {} if styled else {name: pixels(root.get(name, "auto")) for name in SIDES}
    across, up = (UNITS[wish.unit],) * 2 if wish.unit else page_scale(root, box, sides)
    unit = wish.by_option() if wish.unit else in_words(root, box, across, up)
    left, low = (box[0], box[1] + box[3]) if box else (Fraction(0), sides["height"] or Fraction(0))
    place = Affine.of(across, Fraction(0), Fraction(0), -up, -across * left, up * low)
    size = Size(box[2], box[3]) if box else Size(sides["width"], sides["height"])
    return Page(place, size, unit, border(root, box, sides, place))


def pixels(text):
    """A side of the page in pixels, or nothing where it is stated in none or in per cent."""
    if text.strip() == "auto":
        return None
    parts = split_length(text)
    if parts is None:
        raise Fault(f"its size {text[:40]!r} is no length that is read")
    number, unit = parts
    if unit == "%":
        return None
    size = exact(number) * PIXELS[unit]
    if size <= 0:
        raise Fault(f"its size {text[:40]!r} is not above 0")
    return size


def is_physical(text):
    return (split_length(text) or ("", ""))[1] in PHYSICAL


def page_scale(root, box, sides):
    """Hundredths for a unit of the viewBox, across and up."""
    stated = [name for name in SIDES if is_physical(root.get(name, ""))]
    open_sides = [name for name in SIDES if root.get(name, "auto").strip().endswith("%")]
    if not stated or (box and open_sides):
        raise Fault(f"its width and height state no physical size: give --units {'|'.join(UNITS)}")
    if box is None:
        return PIXEL, PIXEL
    # A side that is not stated follows from the other one.
    ratio = box[2] / box[3]
    width, height = sides["width"], sides["height"]
    width, height = width or height * ratio, height or width / ratio
    return tuple(PIXEL * scale for scale in scales(box, (width, height), root.attrib))


def in_words(root, box, across, up):
    """The unit that was taken, and from what."""
    name = next(name for name in SIDES if is_physical(root.get(name, "")))
    stated = root.get(name).strip()
    if box is None:
        return f"px (1/96 in), by {name} {stated[:40]} without a viewBox"
    unit = split_length(stated)[1]
    size = PIXEL * PIXELS[unit]
    each = "" if across == up == size else f" (a unit of it is {float(across / size):g} {unit})"
    each = each if across == up else f" (a unit of it is {float(across / size):g} by {float(up / size):g} {unit})"
    return f"{unit}, by {name} {stated[:40]} and the viewBox{each}"


def border(root, box, sides, place):
    """The border of the page on the sheet, or of its viewBox where its size is not stated, or nothing."""
    if all(sides.get(name) for name in SIDES):
        width, height = (sides[name] for name in SIDES)
        left, top, across, down = Fraction(0), Fraction(0), Fraction(1), Fraction(1)
        if box:
            across, down = scales(box, (width, height), root.attrib)
            share_x, share_y = alignment(root.attrib)[0] or (0, 0)
            left, top = box[0] - share_x * (width / across - box[2]), box[1] - share_y * (height / down - box[3])
        box = left, top, width / across, height / down
    return Window(corners(place, box[:2], box[2:])) if box else None
