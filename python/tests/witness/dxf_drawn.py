"""What GDAL's ogr2ogr reads of a DXF drawing, as polylines in millimetres: the lines and curves of its model space, or all that
is drawn but text, which it gives as points.

Blocks are inserted and arcs followed by chords there. A spline has eight chords for each control point, which may be far from
it, so those polylines come with how far they may be off.
"""

import json
import math
import re
import shutil
import subprocess

from .plane import from_segment
from .svg_drawn import SECONDS_MOST, CannotTell

PROGRAM = "ogr2ogr"
WORDS = "-f GeoJSON -lco COORDINATE_PRECISION=10 -lco RFC7946=NO --config OGR_ARC_STEPSIZE 1 --config DXF_MERGE_BLOCK_GEOMETRIES FALSE"
# A chord of one degree is 3.8e-5 of the radius off.
SLACK = 5e-5
KINDS = {"AcDbLine", "AcDbCircle", "AcDbArc", "AcDbEllipse", "AcDbPolyline", "AcDb2dPolyline", "AcDb3dPolyline", "AcDbSpline"}
INSUNITS = re.compile(rb"\$INSUNITS\s+70\s+(\d+)\s")
# Millimetres of the units that the header may state.
UNITS = {1: 25.4, 2: 304.8, 4: 1.0, 5: 10.0, 6: 1000.0, 8: 25.4e-6, 9: 0.0254, 10: 914.4, 13: 0.001, 14: 100.0}


def is_there():
    return shutil.which(PROGRAM) is not None


def unit_of(data):
    stated = INSUNITS.search(data)
    if stated is None or int(stated[1]) not in UNITS:
        raise CannotTell("the drawing states no unit")
    return UNITS[int(stated[1])]


def drawn(path, unit, everything=False):
    """The polylines of a drawing, and how far they may be from the curves that they stand for, in millimetres."""
    words = [PROGRAM, *WORDS.split(), "/vsistdout/", str(path)]
    done = subprocess.run(words, capture_output=True, check=False, timeout=SECONDS_MOST)
    try:
        features = json.loads(done.stdout.decode("utf-8", "replace"))["features"]
    except (ValueError, KeyError) as error:
        raise CannotTell(f"{PROGRAM}: {' '.join(done.stderr.decode(errors='replace').split())[:200]}") from error
    lines, slack = [], 0.0
    for feature in features:
        found = [[(unit * point[0], unit * point[1]) for point in line] for line in taken(feature, everything)]
        if "AcDbSpline" in (feature["properties"].get("SubClasses") or ""):
            slack = max([slack, *map(off_curve, found)])
        lines += found
    return lines, slack


def taken(feature, everything):
    """The lines of a feature: of all, or of those of the model space that make edges. Old drawings do not name kinds, and all
    lines of these are taken."""
    about, geometry = feature["properties"], feature["geometry"]
    kinds = set((about.get("SubClasses") or "").split(":")) - {""}
    if geometry is None or not everything and (about.get("PaperSpace") or kinds and not kinds & KINDS):
        return []
    return [line for line in geometry_lines(geometry, everything) if len(set(map(tuple, line))) > 1]


def geometry_lines(geometry, filled):
    """The lines of a geometry, and the borders of its areas where these are asked for."""
    kind, inside = geometry["type"], geometry.get("coordinates")
    if kind == "GeometryCollection":
        return [line for part in geometry["geometries"] for line in geometry_lines(part, filled)]
    if kind == "LineString":
        return [inside]
    if kind == "MultiLineString" or kind == "Polygon" and filled:
        return inside
    return [line for area in inside for line in area] if kind == "MultiPolygon" and filled else []


def off_curve(line):
    """How far a smooth curve may be from a polyline through points of it. Where steps are even, its chords are off by a quarter of
    what a corner is off the chord of its neighbours; four times that is allowed. Where the curve turns back within a step, it may
    have gone on by half of that step."""
    return max((max(from_segment(b, a, c), turned_back(a, b, c)) for a, b, c in zip(line, line[1:], line[2:])), default=0.0)


def turned_back(a, b, c):
    """Half of the longer of two steps that go against each other, or 0."""
    (ux, uy), (vx, vy) = ((q[0] - p[0], q[1] - p[1]) for p, q in ((a, b), (b, c)))
    return max(math.hypot(ux, uy), math.hypot(vx, vy)) / 2 if ux * vx + uy * vy < 0 else 0.0
