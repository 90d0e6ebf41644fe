"""Curves of a DXF drawing, which the package ezdxf reads.

The model space is read, or the layout that is asked for, on all layers or on those that are asked for, whether a layer is
shown or not. Blocks are gone into. Everything must lie in the plane z = 0, seen from above or from below.
"""

import math
from dataclasses import dataclass
from fractions import Fraction

from .curves import FLAT, Arc, Bezier, Spline, Unusable, floats, taken
from .dxf_choice import MODEL, Layers, chosen, same, shown
from .dxf_file import File, Notices, looks_like, quiet, told  # noqa: F401  (looks_like is for those who read drawings)
from .dxf_kinds import KINDS, REFERENCE, Groups  # noqa: F401  (KINDS too)
from .reading import PARTS_MOST, UNITS, Drawing, Undrawn, package

BLOCKS_DEEP_MOST = 50
# Measured: following splines of so many control points takes about 5 s. Those that are one Bézier do not count, and those
# with weights or a degree above 3 count twice.
SPLINE_POINTS_MOST = 500
# The flags of a block that stands for another file, and of attributes.
EXTERNAL, INVISIBLE, CONSTANT = 4 | 8, 1, 2
# Marks the frame of a fitted polyline, which is not drawn.
FRAME = 16
# By so much, in degrees or radians, an arc may go past a whole turn and is still meant as one.
TURN_DOUBT = 1e-3

# The units of the header's $INSUNITS that have one length, in hundredths of a millimetre.
INSUNITS = {
    1: UNITS["in"],
    2: UNITS["ft"],
    4: UNITS["mm"],
    5: UNITS["cm"],
    6: UNITS["m"],
    8: UNITS["in"] / 1_000_000,
    9: UNITS["in"] / 1000,
    10: 3 * UNITS["ft"],
    13: UNITS["mm"] / 1000,
    14: 10 * UNITS["cm"],
}
INSUNIT_NAMES = {1: "in", 2: "ft", 4: "mm", 5: "cm", 6: "m", 8: "microinch", 9: "mil", 10: "yard", 13: "micrometre", 14: "decimetre"}


def read(data, wish):
    """The curves of a drawing's bytes."""
    package("ezdxf")
    notices, undrawn = Notices(), Undrawn(wish.leave_out)
    with quiet(notices):
        try:
            file = File(data)
            for message, line in (*((message, 0) for message in file.losses()), *file.odd):
                undrawn.refuse(message, (line, 0))
            unit, told_unit = (UNITS[wish.unit], wish.by_option()) if wish.unit else stated(data, file.document)
            layers = Layers(wish, file.document)
            layout, entities, choice = chosen(file.document, wish, layers, undrawn)
            reader = Reader(file, unit, layers)
            for entity in entities:
                reader.entity(entity, Above(on_paper=layout != MODEL))
        except Unusable:
            raise
        except Exception as error:  # ezdxf raises what comes
            raise Unusable(f"it is no DXF drawing that can be read: {told(error)}") from error
    for message in notices.lost:
        undrawn.refuse(f"ezdxf has lost or mended something: {message}")
    layers.settle(undrawn)
    reader.groups.settle(undrawn)
    undrawn.settle()
    remarks = [*reader.remarks(), *file.remarks(), *notices.remarks()]
    return Drawing(reader.curves, told_unit, undrawn.counts, remarks, {**choice, **layers.facts()})


def stated(data, document):
    """The unit that a drawing states, with words for it. For a file without a header ezdxf makes one up, in metres: that counts as none."""
    code = document.header.get("$INSUNITS", 0) if b"$INSUNITS" in data else 0
    if code not in INSUNITS:
        words = "states no unit" if code == 0 else f"states a unit that is not known here ($INSUNITS {code})"
        raise Unusable(f"it {words}: give --units {'|'.join(UNITS)}")
    return INSUNITS[code], f"{INSUNIT_NAMES[code]}, by $INSUNITS {code}"


@dataclass(frozen=True)
class Above:
    """What an entity stands in: a paper space or not, how many inserts deep, the layer of the last, and whether that is hidden."""

    on_paper: bool = False
    depth: int = 0
    layer: str = "0"
    hidden: bool = False


class Reader:
    """The curves of a document, and what is drawn beside them."""

    def __init__(self, file, unit, layers):
        self.file, self.scale, self.layers = file, unit, layers
        self.curves, self.groups = [], Groups()
        self.entities, self.spline_points = 0, 0
        self.hidden, self.wide, self.thick = 0, 0, 0
        self.readers = {
            "LINE": self.line,
            "ARC": self.arc,
            "CIRCLE": self.circle,
            "ELLIPSE": self.ellipse,
            "LWPOLYLINE": self.light_polyline,
            "POLYLINE": self.polyline,
            "SPLINE": self.spline,
        }

    def remarks(self):
        """What there is to say of what was taken."""
        for what, count in (
            ("hidden entities, taken as if they were shown; --not-layer leaves a layer out", self.hidden),
            ("polylines with a width, of which the centre line is taken", self.wide),
            ("entities with a thickness along z, of which the plane's part is taken", self.thick),
        ):
            if count:
                yield f"{what}: {count}"

    def entity(self, entity, above):
        self.room_for(1)
        try:
            if entity.dxftype() == "INSERT":
                self.block(entity, above)
            elif self.is_taken(entity, above):
                self.taken_entity(entity, above)
        except Unusable as error:
            raise error if any(error.place) else Unusable(str(error), self.file.line(entity)) from error

    def is_taken(self, entity, above):
        """Whether the layer of an entity is taken. Of those that are taken the hidden ones are counted."""
        layer = self.layer(entity, above)
        is_taken = self.layers.meet(layer)
        self.hidden += is_taken and (above.hidden or same(layer) in self.layers.hidden or bool(attribute(entity, "invisible", 0)))
        return is_taken

    @staticmethod
    def layer(entity, above):
        """The layer of an entity: of one on layer 0 in a block it is the insert's."""
        own = shown(attribute(entity, "layer", "0"))
        return above.layer if own == "0" else own

    def taken_entity(self, entity, above):
        kind = entity.dxftype()
        if kind in self.readers:
            if attribute(entity, "thickness", 0):
                self.side(entity)  # along another axis it would lie beside the entity
                self.thick += 1
            self.readers[kind](entity)
        elif kind != "VIEWPORT" or above.on_paper and attribute(entity, "id", 0) != 1:  # 1 is the paper itself
            self.undrawn(kind, entity)

    def undrawn(self, name, entity, count=1):
        """Entities of one type that make no edge; this one tells where they are."""
        where = f"{named(entity)} on layer {shown(attribute(entity, 'layer', '0'))!r}"
        self.groups.add(name, where, (self.file.line(entity), 0), count)

    def room_for(self, count):
        self.entities += count
        if self.entities > PARTS_MOST:
            raise Unusable(f"it comes to more than {PARTS_MOST:,} entities")

    # Blocks.

    def block(self, insert, above):
        """The entities of a block, in each place that an insert puts it."""
        if above.depth > BLOCKS_DEEP_MOST:
            raise Unusable(f"{named(insert)}: blocks in blocks go deeper than {BLOCKS_DEEP_MOST}")
        if insert.block() is None:
            raise Unusable(f"{named(insert)}: its block {insert.dxf.get('name', '')!r} is missing")
        counts = sorted(insert.dxf.get(name, 1) for name in ("column_count", "row_count"))
        if counts[0] < 0 or counts[0] == 0 and counts[1] > 1:
            raise Unusable(f"{named(insert)}: its array has {counts[0]} by {counts[1]} places, which programs read in different ways")
        places, layer = max(1, insert.mcount), self.layer(insert, above)
        self.room_for(places)
        hidden = above.hidden or same(layer) in self.layers.frozen or bool(insert.dxf.get("invisible", 0))
        below = Above(above.on_paper, above.depth + 1, layer, hidden)
        self.undrawn_of(insert, below, places)
        block = insert.block().block
        if block.dxf.get("flags", 0) & EXTERNAL or block.dxf.get("xref_path", "") and not len(insert.block()):
            self.external(insert, above)
            return
        self.misplaced(insert)
        for placed in insert.multi_insert() if places > 1 else [insert]:
            self.placed(insert, placed, below)

    def undrawn_of(self, insert, below, places):
        """What an insert draws that makes no edge: its attributes, and such entities of its block; ATTDEFs only where they are constant."""
        for entity in [*insert.attribs, *insert.block()]:
            if self.is_read(entity):
                continue
            self.room_for(places)
            kind, flags = entity.dxftype(), attribute(entity, "flags", 0)
            if kind == "ATTRIB" and flags & INVISIBLE or kind == "ATTDEF" and flags & (INVISIBLE | CONSTANT) != CONSTANT:
                continue
            if self.is_taken(entity, below):
                self.undrawn(kind, entity, places)

    def external(self, insert, above):
        """An insert of another file, which is not read."""
        if self.is_taken(insert, above):
            block = insert.block().block
            name = block.dxf.get("xref_path", "") or block.dxf.get("name", "")
            self.undrawn(f"{REFERENCE} {name!r}", insert)

    def placed(self, insert, placed, below):
        """The entities of a block at one place. Those that make no edge have been told."""
        matrix = placed.matrix44()
        for entity in filter(self.is_read, insert.block()):
            try:
                parts = list(moved(entity.copy(), matrix))
            except Exception as error:  # ezdxf raises what comes
                raise Unusable(f"{named(insert)}: ezdxf cannot place {named(entity)} of its block: {told(error)}") from error
            for part in parts:
                self.entity(part, below)

    def is_read(self, entity):
        return entity.dxftype() in self.readers or entity.dxftype() == "INSERT"

    def misplaced(self, insert):
        """Ends at an insert that flattens its block, and at one within it that ezdxf would put elsewhere.

        An insert has no shear, nor spacing that is scaled.
        """
        scales = [abs(insert.dxf.get(name, 1.0)) for name in ("xscale", "yscale")]
        if not all(scales):
            raise Unusable(f"{named(insert)}: its scale is 0")
        uneven = abs(scales[0] - scales[1]) > 1e-12 * max(scales)
        for inner in insert.block():
            if inner.dxftype() != "INSERT":
                continue
            if inner.mcount > 1:
                raise Unusable(f"{named(insert)}: its block has an array of inserts, which is not read within an insert: explode it")
            if uneven and inner.dxf.get("rotation", 0.0) % 360:
                what = "it is scaled unevenly, and its block has a rotated insert, which is not read so"
                raise Unusable(f"{named(insert)}: {what}: explode it")

    # Points and lengths.

    def flat(self, entity, point):
        """A point of the world as x and y in hundredths."""
        number = [Fraction(0) if axis >= len(point) else self.hundredths(point[axis]) for axis in range(3)]
        if number[2]:
            raise Unusable(f"{named(entity)} is not in the plane z = 0: it has a point at z = {float(number[2]) / 100:g} mm")
        return number[0], number[1]

    def hundredths(self, number):
        if not math.isfinite(number):
            raise Unusable(f"there is a number in it that is none: {number}")
        return taken(Fraction(number) * self.scale)

    @staticmethod
    def needed(entity, *names):
        for name in names:
            if not entity.dxf.hasattr(name):
                raise Unusable(f"{named(entity)} has no {name.replace('_', ' ')}")
        return [entity.dxf.get(name) for name in names]

    @staticmethod
    def side(entity):
        """1 for an entity that is drawn seen from above, -1 from below: then its own x goes the other way."""
        x, y, z = entity.dxf.get("extrusion", (0, 0, 1))
        if max(abs(x), abs(y)) > 1e-12 * abs(z) or not z:
            raise Unusable(f"{named(entity)} is not in the plane z = 0: its extrusion is ({x:g}, {y:g}, {z:g})")
        return 1 if z > 0 else -1

    def own(self, entity, point, side):
        """A point of an entity's own plane, as x and y in hundredths."""
        x, y = self.flat(entity, point)
        return side * x, y

    # Entities.

    def line(self, entity):
        start, end = self.needed(entity, "start", "end")
        self.curves.append(Bezier((self.flat(entity, start), self.flat(entity, end))))

    def circle(self, entity):
        self.round(entity, 0.0, 360.0)

    def arc(self, entity):
        first, last, radius = self.needed(entity, "start_angle", "end_angle", "radius")
        if radius < 0:
            raise Unusable(f"{named(entity)}: its radius is below 0, which programs read in different ways")
        self.round(entity, first, last)

    def round(self, entity, first, last):
        """A part of a circle, from one angle against the clock to another, in degrees."""
        centre, radius = self.needed(entity, "center", "radius")
        if not (math.isfinite(first) and math.isfinite(last)):
            raise Unusable(f"{named(entity)} has an angle that is no number")
        if last - first > 360 + TURN_DOUBT:
            raise Unusable(f"{named(entity)} goes around more than once: from {first:g} to {last:g} degrees")
        side, size = self.side(entity), float(self.hundredths(abs(radius)))
        # What goes around by a hair more than once is whole; so is an arc that ends where it begins.
        sweep = 360.0 if last - first >= 360 else (last - first) % 360 or 360.0
        middle = floats(self.own(entity, centre, side))
        self.curves.append(Arc(middle, (side * size, 0.0), (0.0, size), math.radians(first % 360), math.radians(sweep)))

    def ellipse(self, entity):
        centre, major, ratio = self.needed(entity, "center", "major_axis", "ratio")
        first, last = entity.dxf.get("start_param", 0.0), entity.dxf.get("end_param", math.tau)
        if not all(math.isfinite(number) for number in (first, last, ratio)):
            raise Unusable(f"{named(entity)} has a number that is none")
        if last - first > math.tau + TURN_DOUBT:
            raise Unusable(f"{named(entity)} goes around more than once: from {first:g} to {last:g}")
        side = self.side(entity)
        u = floats(self.flat(entity, major))
        v = (-side * ratio * u[1], side * ratio * u[0])
        # Two pi has no exact decimal: what lacks less than 10^-9 of it is whole, and what that adds is doubt.
        sweep = math.tau if last - first >= math.tau - 1e-9 else (last - first) % math.tau or math.tau
        doubt = math.hypot(*u) * 1e-9 if 0 < math.tau - (last - first) < 1e-9 else 0.0
        self.curves.append(Arc(floats(self.flat(entity, centre)), u, v, first % math.tau, sweep, doubt=doubt))

    def light_polyline(self, entity):
        self.room_for(len(entity))
        side, height = self.side(entity), entity.dxf.get("elevation", 0)
        corners = [(self.own(entity, (x, y, height), side), bulge) for x, y, bulge in entity.get_points("xyb")]
        self.wide += entity.has_width
        self.corners(corners, side, entity.closed)

    def polyline(self, entity):
        if not (entity.is_2d_polyline or entity.is_3d_polyline):
            self.undrawn("polyface" if entity.is_poly_face_mesh else "polymesh", entity)
            return
        self.room_for(len(entity.vertices))
        side = self.side(entity) if entity.is_2d_polyline else 1
        self.flat(entity, entity.dxf.get("elevation", (0, 0, 0)))
        corners = []
        for vertex in entity.vertices:
            if not vertex.dxf.get("flags", 0) & FRAME:
                corners.append((self.own(entity, vertex.dxf.location, side), vertex.dxf.get("bulge", 0)))
        if entity.vertices and not corners:
            raise Unusable(f"{named(entity)} has the frame of a fitted curve, and not the curve: explode it in the CAD program")
        self.wide += entity.has_width
        self.corners(corners, side, entity.is_closed)

    def corners(self, corners, side, closed):
        """The sides of a polyline; one corner alone is a side without length. 

        A bulge is the tangent of a quarter of the angle that a side's arc sweeps, 0 for a line.
        """
        following = corners[1:] + (corners[:1] if closed or len(corners) == 1 else [])
        for (start, bulge), (end, _) in zip(corners, following):
            if not math.isfinite(bulge):
                raise Unusable(f"there is a number in it that is none: {bulge}")
            self.curves.append(bulged(start, end, side * bulge))

    def spline(self, entity):
        if not entity.control_point_count():
            what = "has fit points only, which do not tell the curve between them"
            raise Unusable(f"{named(entity)} {what}: have its control points written")
        count, degree = entity.control_point_count(), entity.dxf.degree
        self.spline_points += count * (2 if degree > 3 or len(entity.weights) else 1) if count > degree + 1 else 0
        if self.spline_points > SPLINE_POINTS_MOST:
            twice = "those with weights or of a degree above 3 count twice"
            raise Unusable(f"its splines have more than {SPLINE_POINTS_MOST:,} control points; {twice}")
        points = tuple(self.flat(entity, point) for point in entity.control_points)
        weights = tuple(map(float, entity.weights)) or (1.0,) * len(points)
        knots = tuple(map(float, entity.knots))
        if len(knots) == count + degree + 1 and any(
            knots[at] >= knots[count] or knots[at + degree + 1] <= knots[degree] for at in range(count)
        ):
            raise Unusable(f"{named(entity)} has control points that its knots leave out, and programs draw it in different ways")
        self.curves.append(Spline(degree, knots, points, weights))


def moved(entity, matrix):
    """A copy of an entity where a matrix takes it. What is round and scaled unevenly becomes ellipses, as a part of a polyline too."""
    from ezdxf.entities import Ellipse
    from ezdxf.math.transformtools import NonUniformScalingError

    try:
        yield entity.transform(matrix)
    except NonUniformScalingError:
        if entity.dxftype() in ("ARC", "CIRCLE"):
            yield Ellipse.from_arc(entity).transform(matrix)
        else:
            for part in entity.virtual_entities():
                yield from moved(part, matrix)


def attribute(entity, name, default):
    """An attribute of an entity, also of one whose type has none such."""
    return entity.dxf.get(name, default) if entity.dxf.is_supported(name) else default


def named(entity):
    """An entity of the file by its type and handle; one of a block by that of which it is a copy."""
    handle, source = entity.dxf.get("handle"), entity.source_of_copy
    return named(source) if not handle and source is not None else f"{entity.dxftype()}(#{handle})"


def bulged(start, end, bulge):
    """The line or the arc between two points that a bulge tells."""
    (ax, ay), (bx, by) = floats(start), floats(end)
    half = math.hypot(bx - ax, by - ay) / 2
    # At its middle the arc is half a chord times the bulge from its chord, elsewhere less.
    if abs(bulge) < 0.1 and abs(bulge) * half <= FLAT:
        return Bezier((start, end), abs(bulge) * half)
    # The centre lies (1 - bulge^2) / (4 bulge) chords to the left of the chord's middle.
    away = (1 - bulge * bulge) / (4 * bulge)
    centre = (ax + bx) / 2 - away * (by - ay), (ay + by) / 2 + away * (bx - ax)
    radius = half * (1 + bulge * bulge) / (2 * abs(bulge))
    first = math.atan2(ay - centre[1], ax - centre[0])
    return Arc(centre, (radius, 0.0), (0.0, radius), first, 4 * math.atan(bulge), start, end)
