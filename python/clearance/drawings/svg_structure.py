"""The shapes of an SVG drawing, each with the one map that puts it in its place.

Groups, clones (<use>), symbols and inner <svg> elements are resolved here, with viewBox, preserveAspectRatio, lengths in any unit,
display and visibility as the standard has them. What is drawn and makes no edge goes to `Undrawn`; what is not read, or read
differently by different programs, is a finding.
"""

import re
from dataclasses import dataclass, field, replace
from urllib.parse import unquote

from .curves import Unusable
from .svg_numbers import Fault
from .svg_styles import ANIMATING, BESIDE, MARKERS, MOVING, PAINT
from .svg_transforms import Affine, placed, transform_of, translation
from .svg_units import Size, corners, fitted, length, view_box
from .svg_windows import Window

CLONES_MOST = 10_000
CLONES_DEEP_MOST = 50

SHAPES = ("path", "rect", "circle", "ellipse", "line", "polyline", "polygon")
MARKED = ("path", "line", "polyline", "polygon")
GROUPS = ("g", "a")
TEXTS = ("text", "flowRoot")
# What is drawn and makes no edge: its kind as --leave-out has it.
KIND_OF = {"text": "text", "flowRoot": "text", "image": "image", "foreignObject": "foreign", "switch": "switch"}
WHAT_TO_DO = {
    "text": "it makes no edge: convert it to paths",
    "flowRoot": "it makes no edge: convert it to paths",
    "switch": "which of its children is drawn is open: take the right one out of it",
}
ANIMATIONS = ("animate", "animateColor", "animateMotion", "animateTransform", "set", "discard")
# What is never drawn where it stands.
NEVER = {
    *("defs", "symbol", "clipPath", "mask", "marker", "pattern", "linearGradient", "radialGradient", "meshgradient", "hatch", "solidcolor"),
    *("filter", "style", "script", "title", "desc", "metadata", "view", "cursor", "font", "font-face", "color-profile", "stop", "mpath"),
    *("tspan", "tref", "textPath", "altGlyphDef", "glyph", "flowRegion", "flowPara", "flowDiv", *ANIMATIONS),
}
COUNTED = {*SHAPES, *KIND_OF, "use"}
USABLE = {*SHAPES, *GROUPS, *KIND_OF, "svg", "symbol", "use"}
CONDITIONS = ("requiredFeatures", "requiredExtensions", "systemLanguage")
SMOOTH_PAINT = ("linearGradient", "radialGradient", "meshgradient", "solidcolor", "solidColor")

INHERITED = ("visibility", *MARKERS, *PAINT)
INITIAL = {"visibility": "visible"}
INHERITING = ("inherit", "unset", "revert", "revert-layer")
DISPLAYS = re.compile(
    r"(?:inline|block|flow|flow-root|run-in|compact|marker|list-item|inherit|initial|unset|revert|(?:inline-)?(?:block|flex|grid|table)"
    r"|table(?:-[a-z]+)+)"
)
# The geometry that may be given in styles, by element.
SIDES = ("x", "y", "width", "height")
STYLED = {
    **{name: SIDES for name in ("svg", "symbol", "use", "image", "foreignObject")},
    "rect": (*SIDES, "rx", "ry"),
    "circle": ("cx", "cy", "r"),
    "ellipse": ("cx", "cy", "rx", "ry"),
    "path": ("d",),
}
# Transforms in styles that change nothing.
IDLE = ("none", "initial", "unset", "revert", "auto")
IDLE_ORIGIN = re.compile(r"0(?:px)?(?:\s+0(?:px)?){0,2}|initial|unset")
IDLE_BOX = ("view-box", "initial", "unset", "border-box")
LOCAL = re.compile(r"url\(\s*(['\"]?)#([^'\")]*)\1\s*\)")


@dataclass(frozen=True)
class Where:
    """Where an element is drawn: its map onto the sheet, the viewport around it, what it inherits, the viewports that cut it off
    with their elements, and the originals of which it is a clone, the outermost first.
    """

    place: Affine
    size: Size
    inherited: dict = field(default_factory=dict)
    windows: tuple = ()
    originals: tuple = ()


class Structure:
    """Goes through all that is drawn: `shapes` are the elements that make edges, each with where it is."""

    def __init__(self, document, styles, undrawn):
        self.document, self.styles, self.undrawn = document, styles, undrawn
        self.shapes, self.hidden, self.clones = [], 0, 0
        self.counts, self.reshown = {}, {}

    def run(self, place, size):
        """All that is drawn on a page with this map and size."""
        self.stack = [(self.document.root, Where(place, size), None)]
        while self.stack:
            element, where, given = self.stack.pop()
            try:
                self.visit(element, where, given)
            except Fault as error:
                self.fault(element, str(error))
        return self

    def fault(self, element, message):
        self.undrawn.findings.append(Unusable(f"{element}: {message}", *element.place))

    def beside(self, kind, element, message):
        self.undrawn.add(kind, f"{element}: {message}", element.place)

    def push(self, elements, where):
        self.stack.extend((element, where, None) for element in reversed(elements))

    def visit(self, element, where, given):
        """One element; `given` is the width and height that a <use> gives an <svg> or <symbol>."""
        name = element.name
        if not name or (name in NEVER and given is None):
            return
        self.count_clone(element, where)
        styles = self.styles.of(element, where.originals[-1] if where.originals else None)
        if "all" in styles:
            raise Fault("the property all in a style is not read: take it away")
        if not self.is_displayed(element, styles):
            self.hidden += self.shapes_in(element)
            return
        where = replace(where, inherited=inherit(where.inherited, styles))
        if name in (*SHAPES, *KIND_OF) and not self.is_visible(element, where):
            self.hidden += 1
            return
        if name != "switch" and any(condition in element.attrib for condition in CONDITIONS):
            self.beside("switch", element, "it is drawn on conditions, which are not read")
            return
        self.check_beside(element, styles)
        self.check_styled(element, styles)
        self.draw(element, where, styles, given)

    def draw(self, element, where, styles, given):
        """An element that is displayed."""
        name = element.name
        if element is self.document.root:
            if element.get("transform", "").strip():
                raise Fault("a transform of the root is not read: put it on a <g> around all")
            self.push(element.children, where)
        elif name in ("svg", "symbol"):
            self.viewport(element, where, styles, given or (None, None))
        elif name in (*SHAPES, *GROUPS, "use"):
            where = replace(where, place=placed(where.place, transform_of(element.get("transform", ""))))
            if name == "use":
                self.use(element, where)
            elif name in GROUPS:
                self.push(element.children, where)
            else:
                self.check_paint(element, where)
                self.shapes.append((element, where))
        elif name in KIND_OF:
            if self.draws(element):
                self.beside(KIND_OF[name], element, WHAT_TO_DO.get(name, "it makes no edge"))
        elif self.shapes_in(element):
            raise Fault("it is no element of SVG 1.1 or 2, and whether what is in it is drawn is open: take it out of it")

    @staticmethod
    def draws(element):
        """Whether what makes no edge has anything to draw."""
        if element.name in TEXTS:
            return element.has_words
        return bool(element.link()) if element.name == "image" else bool(element.children) or element.has_words

    def count_clone(self, element, where):
        if where.originals:
            self.clones += 1
            if self.clones > CLONES_MOST:
                raise Unusable(f"its clones come to more than {CLONES_MOST:,} elements, the most that are read", *element.place)

    # What styles say.

    def is_displayed(self, element, styles):
        word = styles["display"].word() if "display" in styles else "inline"
        if word == "none" and element.name == "symbol":
            raise Fault("display: none of a <symbol> that is used is not read: take it away")
        if word != "none" and not DISPLAYS.fullmatch(word):
            raise Fault(f"its display {word[:40]!r} is none that is read")
        return word != "none"

    def is_visible(self, element, where):
        word = where.inherited.get("visibility", "visible").strip().lower()
        if word not in ("visible", "hidden", "collapse"):
            raise Fault(f"its visibility {word[:40]!r} is none that is read")
        return word == "visible" or self.shows_again(element)

    def shows_again(self, element):
        """Whether something in an element that is hidden, as words of a text, may be made visible again."""
        if element not in self.reshown:
            inside = (one for child in element.children for one in child.subtree())
            self.reshown[element] = any("visibility" in self.styles.of(one) for one in inside)
        return self.reshown[element]

    def shapes_in(self, element):
        """How many shapes and the like an element has in it."""
        if element not in self.counts:
            self.counts[element] = sum(one.name in COUNTED for one in element.subtree())
        return self.counts[element]

    def check_beside(self, element, styles):
        """What is cut off, masked, filtered or animated."""
        for name, kind in BESIDE.items():
            if name in styles and styles[name].word() not in ("", "none", "initial", "unset", "auto"):
                self.beside(kind, element, f"its {name} may change what is drawn of it, and is not read")
        if any(name in styles and styles[name].word() not in ("none", "initial", "unset") for name in ANIMATING):
            self.beside("animation", element, "its style animates it")

    def check_styled(self, element, styles):
        """Transforms and geometry in styles, which are not read."""
        for name in MOVING - {"transform-origin", "transform-box"}:
            if name in styles and (styles[name].word() not in IDLE or (name == "transform" and "transform" in element.attrib)):
                raise Fault(f"its {name} in a style is not read: write it as a transform attribute")
        if element.get("transform", "").strip():
            origin, box = styles.get("transform-origin"), styles.get("transform-box")
            if (origin and not IDLE_ORIGIN.fullmatch(origin.word())) or (box and box.word() not in IDLE_BOX):
                raise Fault("its transform-origin or transform-box is not read: write the transform with its centre")
        for name in STYLED.get(element.name, ()):
            if name in styles and element is not self.document.root:
                raise Fault(f"its {name} in a style is not read: write it as an attribute")

    def check_paint(self, element, where):
        """Markers and patterns."""
        if element.name in MARKED and any(self.refers(where.inherited.get(name), ("marker",)) for name in MARKERS):
            self.beside("marker", element, "it has markers, which make no edges")
        for name in PAINT:
            if self.refers(where.inherited.get(name), (), SMOOTH_PAINT):
                self.beside("pattern", element, f"its {name} is a pattern, which makes no edges")

    def refers(self, value, wanted, unwanted=()):
        """Whether a value refers to another file, or to an element of the wanted kind that is there and not empty; var() may."""
        if value is None or not re.search(r"(?:url|var)\(", value, re.IGNORECASE):
            return False
        match = LOCAL.search(value)
        if match is None:
            return True
        target = self.document.ids.get(match[2])
        if target is None or target.name in unwanted:
            return False
        return not wanted or (target.name in wanted and bool(target.children))

    # Clones and viewports.

    def use(self, element, where):
        target = self.target(element.link())
        x, y = (length(name, element.get(name, "0"), where.size, name) for name in "xy")
        if target in where.originals:
            raise Fault(f"it is a clone of what it is in, {element.link()[:40]!r}: a circle of clones is not drawn")
        if len(where.originals) >= CLONES_DEEP_MOST:
            raise Fault(f"clones of clones go deeper than {CLONES_DEEP_MOST}")
        where = replace(where, place=where.place.after(translation(x, y)), originals=(*where.originals, target))
        given = None
        if target.name in ("svg", "symbol"):
            given = tuple(self.side(element, name, where.size, axis) for name, axis in (("width", "x"), ("height", "y")))
        self.stack.append((target, where, given))

    def target(self, link):
        """The element that a <use> is of."""
        if not link.startswith("#"):
            raise Fault(f"it is of {link[:40]!r}, and only elements of the same file are read: copy that into it")
        own = link[1:] if link[1:] in self.document.ids else unquote(link[1:])
        target = self.document.ids.get(own)
        if target is None:
            raise Fault(f"there is no element with the id {own[:40]!r} in the file")
        if own in self.document.twice:
            raise Fault(f"the id {own[:40]!r} is there more than once: which is meant is open")
        if target.name not in USABLE:
            raise Fault(f"it is of a <{target.name or target.tag}>, which cannot be drawn")
        return target

    @staticmethod
    def side(element, name, size, axis):
        """A width or height, or nothing where it is not stated."""
        text = element.get(name, "auto").strip()
        if text == "auto":
            return None
        found = length(name, text, size, axis)
        if found < 0:
            raise Fault(f"{name} is below 0")
        return found

    def viewport(self, element, where, styles, given):
        """An inner <svg>, or a <symbol> that is used."""
        if element.get("transform", "").strip():
            raise Fault("a transform of it is not read: put it on a <g> around it")
        if element.name == "symbol" and any(name in element.attrib for name in (*SIDES, "refX", "refY")):
            raise Fault("a place or a size of its own is not read: give them to the <use>")
        size = where.size
        corner = tuple(length(name, element.get(name, "0"), size, name) for name in "xy")
        own = [side if side is not None else self.side(element, name, size, axis) for side, name, axis in zip(given, SIDES[2:], "xy")]
        sides = tuple(side if side is not None else size.along(axis) for side, axis in zip(own, "xy"))
        if not all(sides):
            self.hidden += 1
            return
        box = view_box(element.attrib)
        inner = fitted(box, corner, sides, element.attrib) if box else translation(*corner)
        overflow = [styles[name].word() for name in ("overflow", "overflow-x", "overflow-y") if name in styles] or ["hidden"]
        windows = where.windows
        if set(overflow) != {"visible"}:
            windows += ((element, Window(corners(where.place, corner, sides))),)
        # Of what per cents are in a symbol without a viewBox programs differ.
        known = box or element.name == "svg" or sides == (size.width, size.height)
        inside = Size(*(box[2:] if box else sides)) if known else Size(None, None)
        self.push(element.children, replace(where, place=placed(where.place, inner), size=inside, windows=windows))


def inherit(above, styles):
    """What an element hands on to all in it."""
    found = dict(above)
    for name in INHERITED:
        if name in styles and styles[name].word() not in INHERITING:
            found[name] = INITIAL.get(name, "none") if styles[name].word() == "initial" else styles[name].value
    return found


def programs(document):
    """What a document has that changes it as time goes by: kinds and elements."""
    for element in document.root.subtree():
        if element.name in ANIMATIONS:
            yield "animation", element
        elif element.name == "script" or "onload" in element.attrib:
            yield "script", element

