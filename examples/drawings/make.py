#!/usr/bin/env python3
"""Makes the drawings of this folder: four parts, each as DXF and as SVG. `clearance from` makes their sheets.

A part is a list of contours, each a list of sides: ("line", p, q), ("arc", p, q, bulge), ("bezier", points); or
("circle", centre, radius) alone. Lengths are millimetres; a bulge is the tangent of a quarter of the angle that an arc sweeps.
"""

import math
from pathlib import Path

HERE = Path(__file__).resolve().parent


def number(value):
    """A number of at most four decimals, as short as it goes."""
    text = f"{value:.4f}".rstrip("0").rstrip(".")
    return "0" if text == "-0" else text


def place(radius, degrees, centre=(0, 0)):
    angle = math.radians(degrees)
    return round(centre[0] + radius * math.cos(angle), 4), round(centre[1] + radius * math.sin(angle), 4)


# The parts.


def bracket():
    """An angle bracket with rounded corners and two holes."""
    quarter = math.tan(math.pi / 8)
    corners = [(120, 0, 6), (120, 30, 6), (40, 30, -10), (40, 90, 6), (0, 90, 6), (0, 0, 6)]
    sides, count = [], len(corners)
    for index, (x, y, radius) in enumerate(corners):
        (ax, ay, _), (bx, by, _) = corners[index - 1], corners[(index + 1) % count]
        size = abs(radius)
        start, end = toward((x, y), (ax, ay), size), toward((x, y), (bx, by), size)
        sides.append(("arc", start, end, quarter if radius > 0 else -quarter))
        ahead = corners[(index + 1) % count]
        sides.append(("line", end, toward(ahead[:2], (x, y), abs(ahead[2]))))
    return [sides, [("circle", (20, 70), 4.25)], [("circle", (95, 15), 4.25)]]


def toward(point, other, length):
    """So far from a point toward another that is straight across or up from it."""
    return tuple(p + math.copysign(length, o - p) if o != p else p for p, o in zip(point, other))


def flange():
    """A flange with a bore and 16 bolt holes."""
    centre = (85, 85)
    holes = [[("circle", place(62.5, 22.5 * index, centre), 5.5)] for index in range(16)]
    return [[("circle", centre, 80)], [("circle", centre, 40)], *holes]


def gear():
    """A gear of twelve teeth with straight flanks, and its bore."""
    sides, centre = [], (55, 55)
    for tooth in range(12):
        middle = 30 * tooth
        points = [place(radius, middle + turn, centre) for radius, turn in ((42, -9.5), (50, -4.5), (50, 4.5), (42, 9.5), (42, 20.5))]
        sides.append(("line", points[0], points[1]))
        sides.append(("arc", points[1], points[2], math.tan(math.radians(9) / 4)))
        sides.append(("line", points[2], points[3]))
        sides.append(("arc", points[3], points[4], math.tan(math.radians(11) / 4)))
    return [sides, [("circle", centre, 12.5)]]


def text():
    """The word CUT, drawn with cubics, quadratics and lines."""
    c = chain(
        (52, 18),
        [(48, 9.5), (40, 4), (30, 4)],
        [(15.6, 4), (5, 15.4), (5, 34)],
        [(5, 52.6), (15.6, 64), (30, 64)],
        [(40, 64), (48, 58.5), (52, 50)],
        [(43, 46)],
        [(40.5, 51), (36, 54.2), (30, 54.2)],
        [(21.2, 54.2), (15.5, 46.8), (15.5, 34)],
        [(15.5, 21.2), (21.2, 13.8), (30, 13.8)],
        [(36, 13.8), (40.5, 17), (43, 22)],
        [(52, 18)],
    )
    u = chain(
        (62, 64), [(62, 24)], [(62, 4.1), (82, 4.1)], [(102, 4.1), (102, 24)], [(102, 64)], [(92, 64)],
        [(92, 25.3)], [(92, 13.6), (82, 13.6)], [(72, 13.6), (72, 25.3)], [(72, 64)], [(62, 64)],
    )  # fmt: skip
    t = chain((110, 64), [(154, 64)], [(154, 54)], [(137, 54)], [(137, 4)], [(127, 4)], [(127, 54)], [(110, 54)], [(110, 64)])
    return [c, u, t]


def chain(start, *steps):
    """Sides that follow each other: a step has one point for a line, two for a quadratic, three for a cubic."""
    sides = []
    for step in steps:
        sides.append(("line", start, step[0]) if len(step) == 1 else ("bezier", (start, *step)))
        start = step[-1]
    return sides


# DXF.


def tags(*pairs):
    return "".join(f"{code}\n{value}\n" for code, value in pairs)


def point_tags(code, point):
    return tags((code, number(point[0])), (code + 10, number(point[1])), (code + 20, "0.0"))


def dxf_entity(kind, subclass, body):
    return tags((0, kind), (100, "AcDbEntity"), (8, "CUT"), (100, subclass)) + body


def dxf_side(side):
    kind, *words = side
    if kind == "line":
        return dxf_entity("LINE", "AcDbLine", point_tags(10, words[0]) + point_tags(11, words[1]))
    if kind == "circle":
        return dxf_entity("CIRCLE", "AcDbCircle", point_tags(10, words[0]) + tags((40, number(words[1]))))
    if kind == "arc":
        return dxf_arc(*words)
    points, degree = words[0], len(words[0]) - 1
    head = tags((70, 8), (71, degree), (72, 2 * degree + 2), (73, degree + 1), (74, 0))
    knots = tags(*[(40, 0)] * (degree + 1), *[(40, 1)] * (degree + 1))
    return dxf_entity("SPLINE", "AcDbSpline", head + knots + "".join(point_tags(10, point) for point in points))


def dxf_arc(start, end, bulge):
    """An ARC goes against the clock: one with a bulge below 0 goes from its end to its start."""
    if bulge < 0:
        start, end, bulge = end, start, -bulge
    away = (1 - bulge * bulge) / (4 * bulge)
    centre = ((start[0] + end[0]) / 2 - away * (end[1] - start[1]), (start[1] + end[1]) / 2 + away * (end[0] - start[0]))
    angles = [math.degrees(math.atan2(y - centre[1], x - centre[0])) % 360 for x, y in (start, end)]
    body = point_tags(10, centre) + tags((40, number(math.dist(start, centre))), (100, "AcDbArc"), *zip((50, 51), map(number, angles)))
    return dxf_entity("ARC", "AcDbCircle", body)


def dxf_polyline(sides):
    corners = "".join(tags((10, number(x)), (20, number(y)), (42, f"{(words or [0])[0]:.12f}")) for _, (x, y), _, *words in sides)
    return dxf_entity("LWPOLYLINE", "AcDbPolyline", tags((90, len(sides)), (70, 1)) + corners)


def dxf(contours, as_polyline):
    body = ""
    for sides in contours:
        body += dxf_polyline(sides) if as_polyline and len(sides) > 1 else "".join(map(dxf_side, sides))
    header = tags((0, "SECTION"), (2, "HEADER"), (9, "$ACADVER"), (1, "AC1015"), (9, "$INSUNITS"), (70, 4), (0, "ENDSEC"))
    return header + tags((0, "SECTION"), (2, "ENTITIES")) + body + tags((0, "ENDSEC"), (0, "EOF"))


# SVG.


def svg_side(side, up):
    kind, *words = side
    if kind == "line":
        return "L" + up(words[1])
    if kind == "arc":
        start, end, bulge = words
        radius = math.dist(start, end) * (1 + bulge * bulge) / (4 * abs(bulge))
        return f"A{number(radius)} {number(radius)} 0 {int(abs(bulge) > 1)} {int(bulge < 0)} {up(end)}"
    return "_LQC"[len(words[0]) - 1] + " ".join(map(up, words[0][1:]))


def svg(contours, width, height):
    def up(point):
        return f"{number(point[0])} {number(height - point[1])}"

    lines = [f'<svg xmlns="http://www.w3.org/2000/svg" width="{width}mm" height="{height}mm" viewBox="0 0 {width} {height}">']
    lines.append('<g fill="none" stroke="black" stroke-width="0.2">')
    for sides in contours:
        if sides[0][0] == "circle":
            (_, (x, y), radius), = sides
            lines.append(f'<circle cx="{number(x)}" cy="{number(height - y)}" r="{number(radius)}"/>')
        else:
            start = sides[0][1][0] if sides[0][0] == "bezier" else sides[0][1]
            lines.append('<path d="M' + up(start) + "".join(svg_side(side, up) for side in sides) + 'Z"/>')
    return "\n".join([*lines, "</g>", "</svg>", ""])


PARTS = {"bracket": (bracket, 120, 90), "flange": (flange, 170, 170), "gear": (gear, 110, 110), "text": (text, 160, 70)}


def main():
    for name, (part, width, height) in PARTS.items():
        contours = part()
        (HERE / f"{name}.dxf").write_text(dxf(contours, as_polyline=name == "gear"), encoding="ascii")
        (HERE / f"{name}.svg").write_text(svg(contours, width, height), encoding="ascii")


if __name__ == "__main__":
    main()
