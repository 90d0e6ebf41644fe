"""What rsvg-convert draws of an SVG drawing: all its strokes, as polylines in millimetres.

The drawing is put as an inner <svg> into a larger page, so that what lies beyond its own page is drawn too. rsvg-convert
writes the strokes as paths of lines and cubics, to 1/256 of its pixel; of an arc its cubics are up to 2.8e-4 of a radius off.
"""

import re
import shutil
import subprocess
import tempfile
import xml.etree.ElementTree as Tree
from pathlib import Path

from .plane import FLAT, IDENTITY, bezier_line, moved

PROGRAM = "rsvg-convert"
SECONDS_MOST = 60
STYLE = Path(__file__).with_name("strokes.css")
SPACE = "{http://www.w3.org/2000/svg}"
# How far the cubics that it draws for arcs may be off, as a part of the drawing's size. An arc of a quarter turn, which is as
# long as one cubic goes, is 1.4 radii across: 2e-4 of its size is 2.8e-4 of its radius.
SLACK = 2.5e-4
# The pixels across the box that is asked for, as far as the page has not more than can be told in 1/256 of one.
PIXELS, PAGE_MOST = 10_000, 4_000_000
# The page goes beyond what is known of the drawing by so many times its size on all sides.
BEYOND = 4
# The width of strokes in pixels. A symbol is clipped to its viewBox whatever a style says, and what is clipped whole is not
# written; what has so wide a stroke never is.
WIDE = 100_000

# The pixels of a length: 96 to the inch.
LENGTHS = {"": 1, "px": 1, "mm": 96 / 25.4, "cm": 960 / 25.4, "in": 96, "pt": 96 / 72, "pc": 16, "q": 24 / 25.4}
LENGTH = re.compile(r"\s*([-+]?(?:\d+\.?\d*|\.\d+)(?:[eE][-+]?\d+)?)\s*(px|mm|cm|in|pt|pc|q|)\s*", re.IGNORECASE)
PATH = re.compile(r'<path [^>]*?d="([^"]*)"(?: transform="matrix\(([^)]*)\)")?')
CONDITIONED = "switch, [systemLanguage], [requiredFeatures], [requiredExtensions]"
CLIP = re.compile(r"<clipPath\b.*?</clipPath>", re.DOTALL)
OTHERS = re.compile(r"<(?:use|image|mask|pattern|symbol)\b")


class CannotTell(Exception):
    """The other program does not draw this."""


def is_there():
    return shutil.which(PROGRAM) is not None


class Page:
    """The page of a drawing: its size in pixels, the pixel that is the sheet's origin, the millimetres of a pixel, and the pixels
    of a unit of the viewBox."""

    def __init__(self, root, unit=None):
        sides = [pixels(root.get(name)) for name in ("width", "height")]
        box = [float(word) for word in re.split(r"[\s,]+", root.get("viewBox", "").strip()) if word]
        self.millimetres = unit if unit is not None else 25.4 / 96
        self.user = 1.0
        if len(box) != 4:
            if unit is None and None in sides:
                raise CannotTell("the drawing's page has no size")
            self.width, self.height = (side if side is not None else 100.0 for side in sides)
            self.corner = 0.0, sides[1] or 0.0
        elif unit is not None:
            self.width, self.height = box[2:]
            self.corner = 0.0, box[3]
        else:
            self.fitted(sides, box, root.get("preserveAspectRatio", ""))

    def fitted(self, sides, box, words):
        """The page of a size with a viewBox, whose lower left corner is the origin."""
        if sides == [None, None]:
            raise CannotTell("the drawing's page has no size")
        scales = [side / length for side, length in zip(sides, box[2:]) if side is not None]
        self.width, self.height = (scales[0] * length if side is None else side for side, length in zip(sides, box[2:]))
        align, *how = words.replace("defer", "").split() or ["xMidYMid"]
        scales = [self.width / box[2], self.height / box[3]]
        if align != "none":
            scales = [max(scales) if how == ["slice"] else min(scales)] * 2
        parts = [0.0 if align == "none" or part == "Min" else 0.5 if part == "Mid" else 1.0 for part in (align[1:4], align[5:8])]
        left = parts[0] * (self.width - scales[0] * box[2])
        top = parts[1] * (self.height - scales[1] * box[3])
        self.corner, self.user = (left, top + scales[1] * box[3]), max(scales)

    def point(self, point):
        """A pixel of the page in millimetres of the sheet."""
        return (point[0] - self.corner[0]) * self.millimetres, (self.corner[1] - point[1]) * self.millimetres

    def pixel(self, point):
        return point[0] / self.millimetres + self.corner[0], self.corner[1] - point[1] / self.millimetres


def pixels(text):
    match = LENGTH.fullmatch(text or "")
    return float(match[1]) * LENGTHS[match[2].lower()] if match and float(match[1]) > 0 else None


def drawn(data, box, unit=None, left_out=()):
    """The strokes of a drawing's bytes, around a box in millimetres; `unit` is the millimetres of a unit of the viewBox, and
    `left_out` has kinds as `from` leaves them out."""
    try:
        root = Tree.fromstring(data)
    except (Tree.ParseError, ValueError, LookupError) as error:
        raise CannotTell(f"{type(error).__name__}: {error}") from error
    if root.tag == "svg":  # no namespace: `from` takes it for SVG's, rsvg-convert does not
        for element in root.iter():
            element.tag = SPACE + element.tag if not str(element.tag).startswith("{") else element.tag
    page = Page(root, unit)
    outer, first, scale = wrapped(root, page, box, unit is not None)
    text = CLIP.sub("", strokes(outer, WIDE / scale / page.user, "switch" in left_out))
    if OTHERS.search(text):
        raise CannotTell(f"{PROGRAM} draws more than strokes")
    lines, flat = [], FLAT * scale * max(box[2] - box[0], box[3] - box[1]) / page.millimetres
    for words, matrix in PATH.findall(text):
        lines += path_lines(words, [float(word) for word in matrix.split(",")] if matrix else IDENTITY, flat)
    return [[page.point((first[0] + x / scale, first[1] + y / scale)) for x, y in line] for line in lines]


def strokes(outer, wide, unswitched):
    """The drawing as rsvg-convert writes it, with strokes of a width in units of the viewBox; without what is on conditions."""
    with tempfile.NamedTemporaryFile("w", suffix=".css") as style:
        style.write(f"{STYLE.read_text()}* {{ stroke-width: {wide}px !important; }}\n")
        style.write(f"{CONDITIONED} {{ display: none !important; }}\n" if unswitched else "")
        style.flush()
        words = [PROGRAM, "--format=svg", f"--stylesheet={style.name}"]
        done = subprocess.run(words, input=outer, capture_output=True, check=False, timeout=SECONDS_MOST)
    if done.returncode:
        raise CannotTell(f"{PROGRAM}: {' '.join(done.stderr.decode(errors='replace').split())[:200]}")
    return done.stdout.decode()


def wrapped(root, page, box, plain):
    """The bytes of the larger page, the pixel of the drawing's page where it begins, and its pixels to one of these."""
    corners = [page.pixel(box[:2]), page.pixel(box[2:])]
    size = max(abs(a - b) for a, b in zip(*corners)) or 1.0
    corners += [(0, 0), (page.width, page.height)]
    low, high = ([pick(point[axis] for point in corners) for axis in (0, 1)] for pick in (min, max))
    beyond = BEYOND * max(b - a for a, b in zip(low, high))
    first = [a - beyond for a in low]
    sides = [b - a + 2 * beyond for a, b in zip(low, high)]
    scale = min(PIXELS / size, PAGE_MOST / max(sides))
    for name in ("x", "y", "width", "height"):
        root.attrib.pop(name, None)
    root.set("width", repr(page.width))
    root.set("height", repr(page.height))
    if plain and "viewBox" in root.attrib:
        root.set("preserveAspectRatio", "none")
    if "style" in root.attrib:
        root.set("style", re.sub(r"(?:^|(?<=;))\s*(?:width|height|x|y)\s*:[^;]*", "", root.get("style")))
    words = {"width": sides[0] * scale, "height": sides[1] * scale, "viewBox": " ".join(map(repr, first + sides))}
    outer = Tree.Element(SPACE + "svg", {name: str(value) for name, value in words.items()})
    outer.append(root)
    return Tree.tostring(outer), first, scale


def path_lines(words, place, flat):
    """The polylines of path data that has M, L, C and Z only, with absolute numbers."""
    lines, line, begin = [], [], None
    tokens = iter(words.split())
    for token in tokens:
        if token == "Z":
            line.append(begin)
            continue
        points = [moved(place, (float(next(tokens)), float(next(tokens)))) for _ in range(3 if token == "C" else 1)]
        if token == "M":
            lines.append(line)
            line, begin = points, points[0]
        elif token == "L":
            line += points
        else:
            line += bezier_line((line[-1], *points), flat)[1:]
    lines.append(line)
    return [line for line in lines if len(set(line)) > 1]
