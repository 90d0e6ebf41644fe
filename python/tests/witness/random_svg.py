"""Random SVG drawings with known places: clones, symbols, inner <svg>s, transforms, units, styles and all shapes.

What is drawn is computed here from the numbers as they are written, apart from any reader.
"""

import math
import random
from dataclasses import dataclass, field

from .plane import IDENTITY, after, all_moved, ellipse_line, moved
from .random_paths import near, path, rounded_rect, told
from .svg_drawn import LENGTHS

ALIGNS = [f"x{x}Y{y}" for x in ("Min", "Mid", "Max") for y in ("Min", "Mid", "Max")]


@dataclass
class Piece:
    """A part of a drawing: its text, and its polylines by whether they are visible: None where that is inherited."""

    text: str
    lines: list = field(default_factory=list)

    def placed(self, place):
        return [(line, visible) for (points, visible) in self.lines for line in all_moved(place, [points])]


@dataclass
class RandomDrawing:
    """A drawing's bytes, the options that `from` needs for it, its known polylines in millimetres, the millimetres of a unit
    where these options tell it, and whether the other program is known to draw it otherwise than the standard has it."""

    data: bytes
    words: tuple
    lines: list
    unit: float = None
    known_only: bool = False


class Maker:
    """Makes one drawing."""

    def __init__(self, rng):
        self.rng = rng
        self.rules, self.targets, self.named, self.known_only = [], [], 0, False
        # Each drawing has some of these only, so that a reader that refuses one is tried with the others.
        self.has_styles, self.has_units, self.has_inner, self.has_views = (rng.random() < share for share in (0.3, 0.3, 0.25, 0.25))

    def name(self):
        self.named += 1
        return f"n{self.named}"

    # Lengths. A viewport is the width and the height that percentages are of, or None where they cannot be told.

    def length(self, value, viewport=None, axis=0):
        """A length as it is written, and its value in user units as written."""
        choice = self.rng.random()
        if not self.has_units or choice < 0.5:
            word = told(value)
            return word, float(word)
        if viewport is not None and choice < 0.75:
            whole = (*viewport, math.hypot(*viewport) / math.sqrt(2))[axis]
            word = told(100 * value / whole)
            return word + "%", float(word) * whole / 100
        unit = self.rng.choice([unit for unit in LENGTHS if unit != "q"])
        word = told(value / LENGTHS[unit])
        return word + unit, float(word) * LENGTHS[unit]

    def lengths(self, viewport, **values):
        """Attributes of lengths, and their values."""
        axes = {"x": 0, "width": 0, "cx": 0, "rx": 0, "x1": 0, "x2": 0, "r": 2}
        found = {name: self.length(value, viewport, axes.get(name, 1)) for name, value in values.items()}
        return "".join(f' {name}="{word}"' for name, (word, _) in found.items()), {name: value for name, (_, value) in found.items()}

    # Shapes.

    def shape(self, span, viewport):
        kind = self.rng.choice(("rect", "circle", "ellipse", "line", "polyline", "polygon", "path", "path", "path"))
        words, lines = getattr(self, kind)(span, viewport)
        return Piece(f"<{kind}{words}", [(line, None) for line in lines])

    def at(self, span):
        return near(self.rng, span)

    def rect(self, span, viewport):
        sizes = {"x": self.at(span), "y": self.at(span), "width": near(self.rng, span, 1.0), "height": near(self.rng, span, 1.0)}
        for name in ("rx", "ry"):
            if self.rng.random() < 0.3:
                sizes[name] = near(self.rng, span / 3, 0.5)
        words, found = self.lengths(viewport, **sizes)
        return words, [rounded_rect(*(found.get(name) for name in ("x", "y", "width", "height", "rx", "ry")))]

    def circle(self, span, viewport):
        words, found = self.lengths(viewport, cx=self.at(span), cy=self.at(span), r=near(self.rng, span / 2, 1.0))
        return words, [ellipse_line((found["cx"], found["cy"]), (found["r"], 0), (0, found["r"]), 0, math.tau)]

    def ellipse(self, span, viewport):
        sizes = {name: near(self.rng, span / 2, 1.0) for name in ("rx", "ry")}
        words, found = self.lengths(viewport, cx=self.at(span), cy=self.at(span), **sizes)
        return words, [ellipse_line((found["cx"], found["cy"]), (found["rx"], 0), (0, found["ry"]), 0, math.tau)]

    def line(self, span, viewport):
        words, found = self.lengths(viewport, **{name: self.at(span) for name in ("x1", "y1", "x2", "y2")})
        return words, [[(found["x1"], found["y1"]), (found["x2"], found["y2"])]]

    def polyline(self, span, _viewport):
        points = [(self.at(span), self.at(span)) for _ in range(self.rng.randint(2, 6))]
        words = " ".join(f"{told(x)},{told(y)}" for x, y in points)
        return f' points="{words}"', [[(float(told(x)), float(told(y))) for x, y in points]]

    def polygon(self, span, viewport):
        words, ((*line,),) = self.polyline(span, viewport)
        return words, [[*line, line[0]]]

    def path(self, span, _viewport):
        words, lines = path(self.rng, span)
        return f' d="{words}"', lines

    # Transforms.

    def transform(self, span, often=0.5):
        """The attribute, and its map."""
        if self.rng.random() >= often:
            return "", IDENTITY
        words, place = [], IDENTITY
        for _ in range(self.rng.randint(1, 3)):
            kind = self.rng.choice(("translate", "scale", "rotate", "skewX", "skewY", "matrix"))
            numbers = [float(told(number)) for number in self.numbers(kind, span)]
            words.append(f"{kind}({self.rng.choice((' ', ',', ', ')).join(map(told, numbers))})")
            place = after(place, matrix(kind, numbers))
        return f' transform="{" ".join(words)}"', place

    def numbers(self, kind, span):
        """Numbers of a transform; none makes a drawing vanish or grow without bound."""
        rng = self.rng
        if kind == "translate":
            return [rng.uniform(-span, span) for _ in range(rng.choice((1, 2)))]
        if kind == "scale":
            return [rng.choice((1, 1, -1)) * rng.uniform(0.4, 1.6) for _ in range(rng.choice((1, 2)))]
        if kind == "rotate":
            return [rng.uniform(-360, 360)] + ([rng.uniform(0, span), rng.uniform(0, span)] if rng.random() < 0.5 else [])
        if kind == "matrix":
            turn, size = rng.uniform(0, math.tau), rng.uniform(0.4, 1.5)
            a, b = size * math.cos(turn), size * math.sin(turn)
            return [a, b, -b * rng.uniform(0.5, 1.5), a, rng.uniform(-span, span), rng.uniform(-span, span)]
        return [rng.uniform(-50, 50)]

    # Styles.

    def styled(self, tag):
        """Attributes that decide whether an element is displayed and visible, by the cascade; the rules are laid up."""
        if not self.has_styles or self.rng.random() < 0.5:
            return "", True, None
        name, classes = self.name(), [f"c{self.rng.randrange(1000, 9999)}" for _ in range(2)]
        words, style, answers = f' id="{name}" class="{" ".join(classes)}"', [], {}
        for key, values in (("display", ("none", "inline")), ("visibility", ("hidden", "visible"))):
            ranks = []
            for _ in range(self.rng.choice((0, 1, 1, 2, 3))):
                value, important = self.rng.choice(values), self.rng.random() < 0.2
                self.declare(tag, name, classes, style, (key, value, important), ranks)
            if self.rng.random() < 0.2:
                value = self.rng.choice(values)
                words += f' {key}="{value}"'
                ranks.append(((False, False, (-1,), 0), value))
            answers[key] = max(ranks)[1] if ranks else None
        if style:
            words += f' style="{";".join(style)}"'
        shown = answers["display"] != "none"
        return words, shown, None if answers["visibility"] is None else answers["visibility"] == "visible"

    def declare(self, tag, name, classes, style, declaration, ranks):
        """One declaration, in the style attribute or in a rule, and its rank in the cascade."""
        key, value, important = declaration
        text = f"{key}:{value}{' !important' if important else ''}"
        selectors = {
            f".{classes[0]}": (0, 1, 0),
            f".{classes[0]}.{classes[1]}": (0, 2, 0),
            f"{tag}.{classes[1]}": (0, 1, 1),
            f"svg .{classes[0]}": (0, 1, 1),
            f"[class~={classes[1]}]": (0, 1, 0),
            f"#{name}": (1, 0, 0),
            f"{tag}#{name}": (1, 0, 1),
        }
        selector = self.rng.choice([*selectors, "style"])
        if selector == "style":
            # A later declaration of the same kind wins within the attribute.
            ranks.append(((important, True, (0,), len(style)), value))
            style.append(text)
        else:
            ranks.append(((important, False, selectors[selector], len(self.rules)), value))
            self.rules.append(f"{selector}{{{text}}}")

    # Structure. A piece's lines are in the units around its element.

    def element(self, span, viewport, deep=0):
        """A shape, a group, a clone, or an inner <svg>."""
        choice = self.rng.random()
        if deep < 3 and choice < 0.25:
            return self.group(span, viewport, deep)
        if deep < 3 and choice < 0.5 and self.targets:
            return self.clone(span, viewport)
        if deep < 3 and choice < 0.65 and self.has_inner:
            return self.inner(span, viewport)
        return self.styled_shape(span, viewport)

    def styled_shape(self, span, viewport):
        shape = self.shape(span, viewport)
        style, shown, visible = self.styled(shape.text[1:].split(" ")[0])
        words, place = self.transform(span, 0.3)
        lines = shape.placed(place) if shown else []
        return Piece(f"{shape.text}{words}{style}/>", inherited(lines, visible))

    def group(self, span, viewport, deep):
        inner = [self.element(span, viewport, deep + 1) for _ in range(self.rng.randint(1, 3))]
        style, shown, visible = self.styled("g")
        words, place = self.transform(span)
        lines = [line for piece in inner for line in piece.placed(place)] if shown else []
        return Piece(f"<g{words}{style}>{''.join(piece.text for piece in inner)}</g>", inherited(lines, visible))

    def target(self, span):
        """Lays up something that clones may show: an element, a symbol, an inner <svg>, a clone. Percentages are not in it,
        because each clone might stand in another viewport."""
        name, choice = self.name(), self.rng.random()
        if choice < 0.3 and self.has_views:
            text, view = self.view(span)
            self.targets.append((f'<symbol id="{name}"{text}>{view.text}</symbol>', name, view))
        elif choice < 0.4 and self.has_views:
            text, view = self.view(span)
            words, sizes = self.lengths(None, x=self.at(span), y=self.at(span), width=self.at(span) + 5, height=self.at(span) + 5)
            view.sizes = sizes
            self.targets.append((f'<svg id="{name}"{words}{text}>{view.text}</svg>', name, view))
        elif choice < 0.55 and self.targets:
            piece = self.clone(span, None)
            self.targets.append((f'<g id="{name}">{piece.text}</g>', name, piece))
        else:
            piece = self.group(span, None, 1)
            words, place = self.transform(span)
            self.targets.append((f'<g id="{name}"{words}>{piece.text}</g>', name, Piece("", piece.placed(place))))

    def clone(self, span, viewport):
        _, name, target = self.rng.choice(self.targets)
        values = {key: self.at(span) for key in ("x", "y") if self.rng.random() < 0.7}
        if isinstance(target, View) and (viewport is None or self.rng.random() < 0.8):
            values.update(width=self.at(span) + 5, height=self.at(span) + 5)
        words, found = self.lengths(viewport, **values)
        style, shown, visible = self.styled("use")
        turn, place = self.transform(span)
        place = after(place, (1, 0, 0, 1, found.get("x", 0.0), found.get("y", 0.0)))
        if isinstance(target, View):
            # rsvg-convert 2.54 passes over the size that a clone of an <svg> tells.
            self.known_only |= bool(target.sizes and "width" in found)
            lines = target.within(found, viewport)
        else:
            lines = target.lines
        lines = Piece("", lines).placed(place) if shown else []
        link = self.rng.choice(("href", "xlink:href"))
        return Piece(f'<use {link}="#{name}"{words}{turn}{style}/>', inherited(lines, visible))

    def view(self, span):
        """The inside of a symbol or an inner <svg>, mostly with a viewBox."""
        # What is cut off is known here as if it were not.
        text = self.rng.choice(("", ' overflow="visible"', ' overflow="visible"', ' style="overflow:visible"'))
        box, align, how = None, "", ""
        if self.rng.random() < 0.8:
            box = [round(self.rng.uniform(-5, 5), 2), round(self.rng.uniform(-5, 5), 2)]
            box += [round(self.rng.uniform(5, span), 2), round(self.rng.uniform(5, span), 2)]
            align = self.rng.choice(["", "none", *ALIGNS])
            how = self.rng.choice(("", " meet", " slice")) if align else ""
            text += f' viewBox="{" ".join(map(told, box))}"' + (f' preserveAspectRatio="{align}{how}"' if align else "")
        inside = min(box[2:]) if box else span / 2
        pieces = [self.element(inside, box and box[2:], 3) for _ in range(self.rng.randint(1, 2))]
        lines = [line for piece in pieces for line in piece.lines]
        return text, View("".join(piece.text for piece in pieces), lines, box, align or "xMidYMid", how.strip())

    def inner(self, span, viewport):
        """An <svg> in the drawing."""
        sizes = {"x": self.at(span), "y": self.at(span), "width": self.at(span) + 5, "height": self.at(span) + 5}
        words, view = self.view(span)
        lengths, found = self.lengths(viewport, **sizes)
        view.sizes = found
        turn, place = self.transform(span, 0.2)
        return Piece(f"<svg{lengths}{words}{turn}>{view.text}</svg>", Piece("", view.within({}, viewport)).placed(place))


@dataclass
class View(Piece):
    """What is in a viewBox, in its own units; and the sizes that its <svg> tells."""

    box: list = None
    align: str = "xMidYMid"
    how: str = ""
    sizes: dict = field(default_factory=dict)

    def within(self, found, viewport):
        """The lines in the units around it, in the size that a clone tells, or else its <svg>, or else all of the viewport."""
        told_sizes = {**self.sizes, **{name: found[name] for name in ("width", "height") if name in found}}
        width, height = (told_sizes.get(name, viewport and viewport[axis]) for axis, name in enumerate(("width", "height")))
        place = fitted(self.box, (width, height), self.align, self.how) if self.box else IDENTITY
        return self.placed(after((1, 0, 0, 1, self.sizes.get("x", 0.0), self.sizes.get("y", 0.0)), place))


def fitted(box, sizes, align, how):
    """The map of a viewBox into a size, as preserveAspectRatio has it."""
    scales = [size / side for size, side in zip(sizes, box[2:])]
    if align != "none":
        scales = [max(scales) if how == "slice" else min(scales)] * 2
    shares = {"Min": 0.0, "Mid": 0.5, "Max": 1.0}
    rest = [size - scale * side for size, scale, side in zip(sizes, scales, box[2:])]
    shift = [0.0, 0.0] if align == "none" else [shares[align[1:4]] * rest[0], shares[align[5:8]] * rest[1]]
    return (scales[0], 0.0, 0.0, scales[1], shift[0] - scales[0] * box[0], shift[1] - scales[1] * box[1])


def inherited(lines, visible):
    """Lines whose visibility is inherited get it from the element around them, where that tells one."""
    return [(line, visible if own is None else own) for line, own in lines]


def matrix(kind, numbers):
    if kind == "translate":
        return (1.0, 0.0, 0.0, 1.0, numbers[0], numbers[1] if len(numbers) > 1 else 0.0)
    if kind == "scale":
        return (numbers[0], 0.0, 0.0, numbers[-1], 0.0, 0.0)
    if kind == "rotate":
        cos, sin = math.cos(math.radians(numbers[0])), math.sin(math.radians(numbers[0]))
        x, y = numbers[1:] or (0.0, 0.0)
        return after((1, 0, 0, 1, x, y), after((cos, sin, -sin, cos, 0.0, 0.0), (1, 0, 0, 1, -x, -y)))
    if kind == "skewX":
        return (1.0, 0.0, math.tan(math.radians(numbers[0])), 1.0, 0.0, 0.0)
    if kind == "skewY":
        return (1.0, math.tan(math.radians(numbers[0])), 0.0, 1.0, 0.0, 0.0)
    return tuple(numbers)


def make(seed):
    """The drawing of a seed."""
    rng = random.Random(f"svg {seed}")
    maker, span = Maker(rng), 60.0
    head, viewport, place, words, unit = page(rng)
    for _ in range(rng.choice((0, 1, 2, 4))):
        maker.target(span)
    pieces = [maker.element(span, viewport) for _ in range(rng.randint(1, 4))]
    targets = list(laid(rng, maker.targets))
    pieces = targets + pieces
    if rng.random() < 0.5:  # what is cloned may stand later
        rng.shuffle(pieces)
    style = f"<style>{' '.join(maker.rules)}</style>" if maker.rules else ""
    pieces.insert(rng.randrange(len(pieces) + 1), Piece(style))
    text = head + "\n".join(piece.text for piece in pieces) + "</svg>\n"
    lines = [[moved(place, point) for point in line] for piece in pieces for line, visible in piece.lines if visible is not False]
    return RandomDrawing(text.encode(), words, lines, unit, maker.known_only)


def laid(rng, targets):
    """The targets in the drawing: in <defs>, or drawn where they stand."""
    for text, _name, target in targets:
        if rng.random() < 0.5 or isinstance(target, View) and target.sizes and rng.random() < 0.5:
            yield Piece(f"<defs>{text}</defs>")
        elif not isinstance(target, View):
            yield Piece(text, target.lines)
        else:
            yield Piece(text, target.within({}, None) if target.sizes else [])


def page(rng):
    """The head of a drawing: its text, the viewport, the map to millimetres of the sheet, options, and the unit they tell."""
    space = '<svg xmlns="http://www.w3.org/2000/svg" xmlns:xlink="http://www.w3.org/1999/xlink"'
    width, height = (round(rng.uniform(60, 200), rng.choice((0, 2))) for _ in range(2))
    choice = rng.random()
    if choice < 0.15:  # no viewBox: a unit is 1/96 in
        unit = rng.choice(("mm", "cm", "in", "pt", "pc"))
        sides = [float(told(side / LENGTHS[unit])) for side in (width, height)]
        head = f'{space} width="{told(sides[0])}{unit}" height="{told(sides[1])}{unit}">'
        viewport = [side * LENGTHS[unit] for side in sides]
        return head, viewport, (25.4 / 96, 0, 0, -25.4 / 96, 0, 25.4 / 96 * viewport[1]), (), None
    box = [0.0, 0.0] if rng.random() < 0.5 else [round(rng.uniform(-50, 50), 1) for _ in range(2)]
    box += [width, height] if rng.random() < 0.5 else [round(rng.uniform(30, 300), 1) for _ in range(2)]
    view = f'viewBox="{" ".join(map(told, box))}"'
    if choice < 0.35:  # a unit that the options tell
        name, unit = rng.choice((("mm", 1.0), ("in", 25.4), ("cm", 10.0)))
        head = rng.choice((f"{space} {view}>", f'{space} width="{told(width)}" height="{told(height)}" {view}>'))
        return head, box[2:], (unit, 0, 0, -unit, -unit * box[0], unit * (box[1] + box[3])), ("--units", name), unit
    unit = rng.choice(("mm", "mm", "cm", "in", "pt", "pc"))
    sides = [float(told(side / LENGTHS[unit])) for side in (width, height)]
    align = rng.choice(["", "", "none", *ALIGNS])
    how = rng.choice(("", " meet", " slice")) if align else ""
    ratio = f' preserveAspectRatio="{align}{how}"' if align else ""
    head = f'{space} width="{told(sides[0])}{unit}" height="{told(sides[1])}{unit}" {view}{ratio}>'
    scales = fitted(box, [side * LENGTHS[unit] * 25.4 / 96 for side in sides], align or "xMidYMid", how.strip())
    # The lower left corner of the viewBox is the origin of the sheet.
    return head, box[2:], (scales[0], 0, 0, -scales[3], -scales[0] * box[0], scales[3] * (box[1] + box[3])), (), None
