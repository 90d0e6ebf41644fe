"""Draws a map as an SVG picture: the cells, the outline over them, axes in millimetres, a scale bar and a legend.

`overlay` draws the cells alone, to be laid over another drawing.
"""

import textwrap
from dataclasses import dataclass, replace
from decimal import Decimal
from itertools import groupby
from xml.sax.saxutils import escape

from .figures import per_cent
from .job import is_line
from .lengths import millimetres, plain
from .maps import CLEAR, DOUBTFUL, INSIDE

# Light, middle and dark, so that they differ in grey too; blue, yellow and red-brown differ for colour-blind eyes.
COLOURS = {CLEAR: "#dfe8f1", DOUBTFUL: "#f0b429", INSIDE: "#b5460f"}
NAMES = {CLEAR: "clear", DOUBTFUL: "doubtful", INSIDE: "in reach"}
# What a letter says of every point of its cell.
MEANINGS = {
    CLEAR: "at least the reach away from the outline",
    DOUBTFUL: "too close to call",
    INSIDE: "closer than the reach all over",
}
NOTE = "C does not tell part from stock"
TITLE = "<title>clearance map</title>"
INK = "#111111"
PAPER = "#ffffff"

MARGIN = 24
ROW = 22
KEY = 14
LEGEND_WIDTH = 292
# With less width the legend stands under the job's lengths instead of beside them.
BESIDE_WIDTH = 700
WIDTHS = (340, 10_000)
DEFAULT_WIDTH = 800
GRID_LIMIT = 64
# Outline and halo in pixels: black with a white edge shows on every colour.
LINE, HALO = 1.8, 4.2
OVERLAY_OPACITY = 0.5

# The letters' meanings: size, height of a line, and a character's mean width, which in wide fonts is half the size.
SMALL, SMALL_ROW, SMALL_WIDTH = 12, 18, 6.2
# The axes' labels: their size, a digit's width, the mark's length, and the least gap between two labels.
LABEL, DIGIT_WIDTH, MARK, LABEL_GAP = 11, 7, 5, 9
TICKS_MOST = 11
# Steps between ticks in thousandths of a millimetre: 1, 2 and 5 times powers of ten.
STEPS = [digit * 10**power for power in range(8) for digit in (1, 2, 5)]


@dataclass(frozen=True)
class Layout:
    """Where things stand, in pixels."""

    width: int
    left: int  # of the plate; its top is at MARGIN
    plate: int  # side of the plate
    step: int  # between ticks, in thousandths of a millimetre
    foot: tuple  # left end and top of the part under the axes
    legend: tuple  # left end and top
    meanings: tuple  # its lines, under the legend
    height: int


def layout(job, width):
    """The finest step whose labels fit settles the room that the axes take, and with it the rest."""
    for step in STEPS:
        across, up = labels(job.x, job.n, step), labels(job.y, job.n, step)
        wide = max(map(label_width, across), default=0)
        left = max(MARGIN, 8 + max(map(label_width, up), default=0) + MARK + 4)
        plate = width - left - max(MARGIN, wide // 2 + 4)
        apart = plate * step / (10 << job.n)
        if max(len(across), len(up)) <= TICKS_MOST and wide + LABEL_GAP <= apart:
            return under_plate(width, left, plate, step)
    raise AssertionError("a step longer than the plate's side always fits")


def under_plate(width, left, plate, step):
    beside = width >= BESIDE_WIDTH
    foot = (left if beside else MARGIN, MARGIN + plate + MARK + LABEL + ROW)
    legend_at = (left + plate - LEGEND_WIDTH, foot[1]) if beside else (MARGIN, foot[1] + 4 * ROW - 6)
    most = int((width - foot[0] - MARGIN) / SMALL_WIDTH)
    sentences = [f"{NAMES[letter]}: {meaning}" for letter, meaning in MEANINGS.items()]
    lines = [line for sentence in [*sentences, NOTE] for line in textwrap.wrap(sentence, most)]
    height = legend_at[1] + 4 * ROW + 6 + len(lines) * SMALL_ROW + MARGIN // 2
    return Layout(width, left, plate, step, foot, legend_at, tuple(lines), height)


def ticks(start, power, step):
    """The multiples of a step on a side of 2^power hundredths from `start` on, in thousandths of a millimetre."""
    first = -(-10 * start // step)
    last = 10 * (start + (1 << power)) // step
    return [step * number for number in range(first, last + 1)]


def labels(start, power, step):
    # Of a step that is far too fine only so many ticks are looked at as show it.
    if (10 << power) // step > TICKS_MOST:
        return ["0"] * (TICKS_MOST + 1)
    return [tick_label(tick) for tick in ticks(start, power, step)]


def tick_label(tick):
    return plain(Decimal(tick).scaleb(-3))


def label_width(label):
    return DIGIT_WIDTH * len(label)


def counts(rows):
    """How many cells have each letter."""
    return {letter: sum(row.count(letter) for row in rows) for letter in NAMES}


def area(cells, side):
    """Square millimetres of so many cells of a side in hundredths."""
    return Decimal(cells * side * side) / 10_000


def bar_length(side):
    """The longest of 1, 2 or 5 times a power of ten, in millimetres, within a third of the plate's side."""
    most = millimetres(side) / 3
    steps = [Decimal(digit).scaleb(power) for power in range(-4, 5) for digit in (1, 2, 5)]
    return max(step for step in steps if step <= most)


def blocks(rows, letter):
    """Rectangles x, y, width, height, in cells, with each cell of a letter in one: equal runs above each other are one."""
    begun = {}
    for y, row in enumerate([*rows, ""]):
        now = set(runs(row, letter))
        for run in [run for run in begun if run not in now]:
            start = begun.pop(run)
            yield run[0], start, run[1], y - start
        for run in now:
            begun.setdefault(run, y)


def runs(row, letter):
    """Start and length of each run of a letter."""
    x = 0
    for found, same in groupby(row):
        length = len(list(same))
        if found == letter:
            yield x, length
        x += length


def cell_paths(rows):
    """One path a letter, in cells from the lower left corner."""
    lines = []
    for letter, name in NAMES.items():
        path = "".join(f"M{x} {y}h{width}v{height}h-{width}z" for x, y, width, height in sorted(blocks(rows, letter)))
        lines.append(f'<path class="{name.replace(" ", "-")}" fill="{COLOURS[letter]}" d="{path}"/>')
    return lines


def outline_path(job):
    """The edges as commands of cubics and lines, in hundredths from the plate's corner: whole numbers, so exact."""
    commands = []
    last = None
    for edge in job.edges:
        points = [f"{edge[i] - job.x} {edge[i + 1] - job.y}" for i in range(0, len(edge), 2)]
        start = "" if points[0] == last else f"M{points[0]}"
        command = "L" if is_line(edge) else "C"
        commands.append(f"{start}{command}{' '.join(points[1:])}")
        last = points[-1]
    return "".join(commands)


def outline_lines(job, scale):
    """The outline with its halo, in hundredths from the plate's corner, where a hundredth is `scale` units long."""
    path = f'd="{outline_path(job)}" fill="none" stroke-linejoin="round" stroke-linecap="round"'
    return [
        f'<path id="halo" {path} stroke="{PAPER}" stroke-width="{HALO / scale:.6g}"/>',
        f'<path id="outline" {path} stroke="{INK}" stroke-width="{LINE / scale:.6g}"/>',
    ]


def grid_path(side):
    return "".join(f"M{i} 0V{side}M0 {i}H{side}" for i in range(1, side))


def turned(place, scale):
    """From the plate's lower left corner on, and y upward."""
    return f'transform="translate({place.left} {MARGIN + place.plate}) scale({scale:.9g} -{scale:.9g})"'


def cells_group(rows, place, grid):
    side = len(rows)
    move = turned(place, place.plate / side)
    lines = [f'<g id="cells" {move} shape-rendering="crispEdges">', *cell_paths(rows), "</g>"]
    if grid and side > 1:
        # In cells: a tenth at most, so that a close grid does not darken the colours.
        thin = min(0.6 * side / place.plate, 0.1)
        stroke = f'stroke="{INK}" stroke-opacity="0.22" stroke-width="{thin:.6g}"'
        lines.append(f'<path id="grid" {move} d="{grid_path(side)}" fill="none" {stroke}/>')
    return lines


def outline_group(job, place):
    """The outline, cut at the plate's frame, which is drawn last."""
    scale = place.plate / (1 << job.n)
    frame = f'x="{place.left}" y="{MARGIN}" width="{place.plate}" height="{place.plate}"'
    return [
        f'<clipPath id="plate"><rect {frame}/></clipPath>',
        f'<g clip-path="url(#plate)"><g {turned(place, scale)}>',
        *outline_lines(job, scale),
        "</g></g>",
        f'<rect id="frame" {frame} fill="none" stroke="{INK}" stroke-width="1.2"/>',
    ]


def axes(job, place):
    """Ticks along the plate's lower and left side, with their places on the drawing in millimetres."""
    scale = place.plate / (10 << job.n)
    bottom = MARGIN + place.plate
    marks, words = [], []
    for tick in ticks(job.x, job.n, place.step):
        x = place.left + (tick - 10 * job.x) * scale
        marks.append(f"M{x:.6g} {bottom}v{MARK}")
        words.append(text(x, bottom + MARK + LABEL + 1, tick_label(tick), "middle"))
    for tick in ticks(job.y, job.n, place.step):
        y = bottom - (tick - 10 * job.y) * scale
        marks.append(f"M{place.left} {y:.6g}h-{MARK}")
        words.append(text(place.left - MARK - 4, y + 4, tick_label(tick), "end"))
    return [
        f'<g id="axes" font-size="{LABEL}">',
        f'<path d="{"".join(marks)}" stroke="{INK}" stroke-width="1.2"/>',
        text(place.left, MARGIN - 7, "x and y in mm"),
        *words,
        "</g>",
    ]


def scale_bar(job, place):
    length = bar_length(1 << job.n)
    left, top = place.foot
    end = left + float(length / millimetres(1 << job.n)) * place.plate
    y = top + 6
    return [
        f'<path id="bar" d="M{left} {y - 5}V{y + 5}M{left} {y}H{end:.3f}M{end:.3f} {y - 5}V{y + 5}" '
        f'fill="none" stroke="{INK}" stroke-width="1.6"/>',
        text(end + 10, y + 4.5, f"{plain(length)} mm"),
    ]


def facts(jobs, place):
    """The jobs' lengths, under the scale bar. They have one plate and cell; reaches and grains may differ."""
    lengths = {"plate": [1 << jobs[0].n], "cell": [1 << jobs[0].m], "reach": [j.reach for j in jobs], "grain": [j.grain for j in jobs]}
    words = [f"{name} {these(some)} mm" for name, some in lengths.items()]
    left, top = place.foot
    return [
        text(left, top + 2 * ROW - 4, ", ".join(words[:2])),
        text(left, top + 3 * ROW - 4, ", ".join(words[2:])),
    ]


def these(lengths):
    """Lengths that may differ, in millimetres: one or two of them, or the least and the greatest of more."""
    found = [plain(millimetres(length)) for length in dict.fromkeys(lengths)]
    if len(found) <= 2:
        return " and ".join(found)
    return " to ".join(plain(millimetres(length)) for length in (min(lengths), max(lengths)))


def legend(job, rows, place):
    left, top = place.legend
    numbers = counts(rows)
    total = sum(numbers.values())
    side = 1 << job.m
    digits = 2 if area(sum(numbers.values()), side) >= 1 else 4
    lines = ['<g id="legend">']
    for index, (letter, name) in enumerate(NAMES.items()):
        y = top + index * ROW
        lines += [
            f'<rect x="{left}" y="{y}" width="{KEY}" height="{KEY}" fill="{COLOURS[letter]}" stroke="{INK}" '
            'stroke-width="0.7"/>',
            text(left + KEY + 8, y + 11.5, f"{letter} {name}"),
            text(left + 160, y + 11.5, per_cent(numbers[letter], total), "end"),
            text(left + LEGEND_WIDTH, y + 11.5, f"{area(numbers[letter], side):.{digits}f} mm²", "end"),
        ]
    y = top + len(NAMES) * ROW
    lines.append(f'<path d="M{left} {y + 7}h{KEY}" stroke="{INK}" stroke-width="{LINE}"/>')
    lines.append(text(left + KEY + 8, y + 11.5, "outline"))
    return lines + ["</g>"]


def meanings(place):
    """What the letters say, under the legend."""
    top = place.legend[1] + 4 * ROW + 6
    lines = [text(place.foot[0], top + index * SMALL_ROW + SMALL, words) for index, words in enumerate(place.meanings)]
    return [f'<g id="meanings" font-size="{SMALL}">', *lines, "</g>"]


def text(x, y, words, anchor="start"):
    return f'<text x="{x:.6g}" y="{y:.6g}" text-anchor="{anchor}">{escape(words)}</text>'


def size(job, place, actual):
    """Width and height: pixels, or the millimetres with which the plate's side has its true length."""
    if not actual:
        return f'width="{place.width}" height="{place.height}"'
    scale = float(millimetres(1 << job.n)) / place.plate
    return f'width="{place.width * scale:.9g}mm" height="{place.height * scale:.9g}mm"'


def picture(job, rows, width=DEFAULT_WIDTH, grid=False, actual=False, others=()):
    """The whole SVG text. The job is right and the map is of its size; `others` are further jobs of its plate, drawn with it."""
    place = layout(job, width)
    lines = [
        f'<svg xmlns="http://www.w3.org/2000/svg" {size(job, place, actual)} '
        f'viewBox="0 0 {width} {place.height}" role="img" font-family="sans-serif" font-size="14" fill="{INK}">',
        TITLE,
        f'<rect width="{width}" height="{place.height}" fill="{PAPER}"/>',
        *cells_group(rows, place, grid or len(rows) <= GRID_LIMIT),
        *outline_group(together(job, others), place),
        *axes(job, place),
        *scale_bar(job, place),
        *facts([job, *others], place),
        *legend(job, rows, place),
        *meanings(place),
        "</svg>",
    ]
    return "\n".join(lines) + "\n"


def together(job, others):
    """A job with the edges of others too, to be drawn."""
    return replace(job, edges=sum((other.edges for other in others), job.edges))


def overlay(job, rows, outline=False):
    """The cells alone, see-through, in millimetres of the drawing: x is the drawing's x, and y its y turned over, -y."""
    side, cell = plain(millimetres(1 << job.n)), plain(millimetres(1 << job.m))
    x, y = plain(millimetres(job.x)), plain(millimetres(-job.y))
    top = plain(millimetres(-job.y - (1 << job.n)))
    lines = [
        f'<svg xmlns="http://www.w3.org/2000/svg" width="{side}mm" height="{side}mm" viewBox="{x} {top} {side} {side}">',
        TITLE,
        f'<g id="cells" transform="translate({x} {y}) scale({cell} -{cell})" fill-opacity="{OVERLAY_OPACITY}" '
        'shape-rendering="crispEdges">',
        *cell_paths(rows),
        "</g>",
    ]
    if outline:
        # Lines as wide as in a picture of the usual width.
        lines += [f'<g transform="translate({x} {y}) scale(0.01 -0.01)">', *outline_lines(job, DEFAULT_WIDTH / (1 << job.n)), "</g>"]
    return "\n".join([*lines, "</svg>"]) + "\n"
