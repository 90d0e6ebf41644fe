"""The verb `from`: a job sheet from a DXF or an SVG drawing."""

import argparse
import os
import textwrap
from dataclasses import replace
from decimal import Decimal, InvalidOperation
from fractions import Fraction

from .. import advice, console, inputs, library, parts, sheets
from ..bounds import outline_box
from ..drawings import dxf, svg
from ..drawings.curves import Unusable
from ..drawings.outline import outline_of, placed, reach_for
from ..drawings.reading import BYTES_MOST, UNITS, PackageMissing, Wish
from ..findings import off_plate
from ..gaps import gaps
from ..lengths import millimetres, plain, root_up



def kinds_text(kinds_of):
    """Kinds with what they stand for, in lines that stand under others."""
    return textwrap.fill("; ".join(f"{kind} ({meaning})" for kind, meaning in kinds_of.items()), 120, break_on_hyphens=False)


SUMMARY = "make a job sheet from a DXF or an SVG drawing"
DESCRIPTION = f"""\
Makes a job sheet from a drawing: its lines as lines, its curves as cubics of whole hundredths of a millimetre. What a map
of the sheet proves, it proves of the sheet's curves; W says how far these are from the drawing at most, both ways, and the
sheet's reach is the one that is asked for and W, rounded up. So a C cell keeps the reach that is asked for from the
drawing itself. W is derived and not sampled; it is 0 where all lines and cubics have whole hundredths.

The numbers of a drawing are taken to the nearest 10^-6 of a hundredth of a millimetre. Circles and their arcs are followed
by the fewest standard cubics that stay within --within of them, ellipses and splines by cubics that do where their numbers
allow it, before these are rounded; W tells. Lines that go on exactly straight are joined; edges without length are left out. Plate, cell and grain are those of
`clearance advise`, but for a plate that is given. Of a drawing that is split, a cell is clear where the maps of all its sheets
say C, and in reach where one of them says I.

Everything that is drawn is taken, or nothing is written: whatever makes no edge is a finding, unless --leave-out names its kind.
Then, and where a layout or layers are chosen, W is said of what was taken.

DXF, read by the package ezdxf: the model space, or the layout that --layout names; LINE, LWPOLYLINE, POLYLINE, ARC, CIRCLE,
ELLIPSE, SPLINE and INSERT, all in the plane z = 0, on all layers, hidden ones too, or on those that --layer names; of polylines
with a width the centre lines. An entity on layer 0 of a block is on its insert's layer. A POINT has no length: it is left out,
and counted. What ezdxf had to mend is a finding.

SVG: all shapes and paths that are displayed, by their centre lines, clones and inner viewports in their places, y upward from
the lower left corner of the viewBox. The package svgelements reads path data, tinycss2 and cssselect2 read stylesheets.

Files have {BYTES_MOST:,} bytes at most.

Kinds that --leave-out takes of a DXF drawing:
{kinds_text(dxf.KINDS)}.
Of an SVG drawing: {kinds_text(svg.KINDS)}.
"""
EXAMPLES = """\
  clearance from examples/drawings/bracket.dxf --reach 2.5 -o bracket.sheet
  clearance from examples/drawings/flange.svg --reach 2.5 --split -o flange.sheet
  clearance from part.dxf --units in --reach 1.5 > part.sheet
  clearance from part.dxf --reach 1.5 --layer CUT --leave-out text,point -o part.sheet
  clearance from part.dxf --reach 1.5 --plate 0 0 300 --at 180 12.5 -o part.sheet
"""
PLATE = "the plate: its lower left corner, and a side that it has at least, in millimetres (the smallest around the part)"
AT = "move the part so that the lower left corner of its box is there, in millimetres"
SPLIT = """\
write FILE-1.sheet, FILE-2.sheet ... of up to 64 edges each, on one plate, and FILE.part, which stands for the whole part; also \
where one sheet is enough
"""
LEAVE_OUT = "kinds of what is drawn to leave out, with commas between them, as text,hatch; may be repeated"
LAYER = "of a DXF drawing this layer alone, its name in any case; may be repeated"
NOT_LAYER = "of a DXF drawing all but this layer; may be repeated"
KINDS = {**dxf.KINDS, **svg.KINDS}
WITHIN = Fraction(1, 10_000), Fraction(10)
# So many findings are told one by one.
FINDINGS_MOST = 20


def length(word):
    """A length in millimetres, exact."""
    try:
        number = Decimal(word)
    except InvalidOperation as error:
        raise argparse.ArgumentTypeError(f"{word} is no length in millimetres") from error
    # The exponent is looked at first: a fraction of 1e999999999 would take all memory.
    if not number.is_finite() or number <= 0 or not -12 <= number.adjusted() <= 12:
        raise argparse.ArgumentTypeError(f"{word} is no length above 0 in millimetres")
    return Fraction(number)


def plate_of(x, y, side):
    """The plate of a corner and a side in hundredths: x, y, n with the smallest 2^n that is not below the side."""
    lowest, highest = sheets.COORDINATES
    for name, number in (("X", x), ("Y", y)):
        if not lowest <= number <= highest:
            raise console.misused(f"--plate: {name} is {told(number)} mm, and goes from {told(lowest)} to {told(highest)} mm")
    most = 1 << sheets.EXPONENTS[1]
    if not 0 < side <= most:
        raise console.misused(f"--plate: the side is {told(side)} mm, and goes from 0.01 to {told(most)} mm")
    return x, y, (side - 1).bit_length()


def closeness(word):
    number = length(word)
    if not WITHIN[0] <= number <= WITHIN[1]:
        raise argparse.ArgumentTypeError(f"{word} is not from {float(WITHIN[0])} to {WITHIN[1]} mm")
    return number


def kinds(word):
    """The kinds of a list with commas."""
    found = frozenset(filter(None, word.split(",")))
    unknown = sorted(found - set(KINDS))
    if unknown or not found:
        raise argparse.ArgumentTypeError(f"{word!r}: the kinds are {', '.join(KINDS)}")
    return found


def arguments(parser):
    parser.add_argument("drawing", metavar="DRAWING", help="a DXF or an SVG file")
    parser.add_argument("--reach", metavar="MM", type=length, required=True, help="the jet's reach in millimetres")
    parser.add_argument("--units", choices=UNITS, help="the unit of the drawing's numbers, whatever the drawing says")
    parser.add_argument("--leave-out", metavar="KINDS", type=kinds, action="append", default=[], help=LEAVE_OUT)
    parser.add_argument("--layout", metavar="NAME", help="of a DXF drawing this layout in place of its model space")
    parser.add_argument("--layer", metavar="NAME", action="append", default=[], help=LAYER)
    parser.add_argument("--not-layer", metavar="NAME", action="append", default=[], help=NOT_LAYER)
    parser.add_argument(
        "--within", metavar="MM", type=closeness, default=Fraction(1, 100), help="how close cubics stay to arcs and splines (0.01)"
    )
    parser.add_argument("--plate", metavar=("X", "Y", "SIDE"), nargs=3, type=inputs.whole_length, help=PLATE)
    parser.add_argument("--at", metavar=("X", "Y"), nargs=2, type=inputs.whole_length, help=AT)
    inputs.add_store(parser, library.PROGRAM_STORE, advice.STORE)
    parser.add_argument("-o", "--output", metavar="FILE", default="-", help="the sheet (standard output)")
    parser.add_argument(
        "--split",
        action="store_true",
        help=SPLIT,
    )
    parser.add_argument("--json", action="store_true", help="write what is said of the sheet as JSON to standard output; needs -o")


def run(asked):
    if asked.split and asked.output == "-":
        raise console.misused("--split needs -o FILE.sheet")
    if asked.json and asked.output == "-":
        raise console.misused("--json needs -o FILE")
    if is_same_file(asked.drawing, asked.output):
        raise console.misused(f"{asked.output}: -o would write the sheet over its drawing")
    plate = plate_of(*asked.plate) if asked.plate else None
    try:
        drawing, outline = read(asked)
        reach = reach_for(asked.reach * 100, outline.off)
        jobs = jobs_of(outline.edges, reach, plate, asked)
    except PackageMissing as error:
        raise console.misused(f"{asked.drawing}: {error}") from error
    except Unusable as error:
        raise unfit(asked.drawing, error.all) from error
    except advice.Unadvisable as error:
        raise console.found(f"{asked.drawing}: {error}") from error
    files = written_names(asked, len(jobs))
    facts = facts_of(drawing, outline, asked.reach, reach, files)
    facts["drawing"] = os.path.basename(asked.drawing)
    facts["part"] = parts.names(asked.output, len(jobs))[1] if asked.split else None
    off = off_plate(replace(jobs[0], edges=outline.edges))
    facts["warnings"] = [off[2]] if off else []
    console.write_all(parts.files(asked.output, jobs, facts) if asked.split else [(asked.output, jobs[0].to_sheet())])
    written = [parts.told_written(asked.output, len(jobs))] if asked.split else []
    for sentence in (*sentences(facts), *written):
        console.say(f"{asked.drawing}: {sentence}")
    if asked.json:
        console.put_json(facts)
    return console.DONE


def is_same_file(path, other):
    try:
        return os.path.samefile(path, other)
    except OSError:
        return False


def unfit(path, reasons):
    """Says the findings of a drawing but the last, with which the verb ends."""
    told = [f"{console.at(path, *reason.place)}: {reason}" for reason in reasons[:FINDINGS_MOST]]
    if len(reasons) > FINDINGS_MOST:
        told.append(f"{path}: and {len(reasons) - FINDINGS_MOST} findings more")
    for message in told[:-1]:
        console.say(message)
    return console.found(told[-1])


def wish_of(asked):
    return Wish(asked.units, frozenset().union(*asked.leave_out), asked.layout, tuple(asked.layer), tuple(asked.not_layer))


def read(asked):
    """The drawing and its outline. What a file is its first bytes tell, not its name."""
    data = console.read_bytes(asked.drawing, BYTES_MOST)
    kind = dxf if dxf.looks_like(data) else svg if svg.looks_like(data) else None
    if kind is None:
        raise Unusable("it is no DXF and no SVG drawing")
    if len(data) > BYTES_MOST:
        raise Unusable(f"it has more than {BYTES_MOST:,} bytes, the most of a drawing that are read")
    if kind is svg and (asked.layout is not None or asked.layer or asked.not_layer):
        raise console.misused(f"{asked.drawing}: --layout, --layer and --not-layer are of DXF drawings, and this is an SVG drawing")
    drawing = kind.read(data, wish_of(asked))
    if not drawing.curves:
        raise Unusable("; ".join(["there is nothing in it that makes an edge", *choices(drawing.left_out, drawing.chosen)]))
    return drawing, placed(outline_of(drawing.curves, float(asked.within * 100)), asked.at)


def jobs_of(edges, reach, plate, asked):
    """One job, or as many on one plate as it takes."""
    most = library.EDGES_MOST
    if not asked.split and len(edges) > most:
        several = "--split -o FILE.sheet writes several sheets, and FILE.part, which stands for the whole part"
        raise Unusable(f"it has {len(edges)} edges, and a sheet has {most} at most; {several}")
    plate = plate or advice.plate_for(edges, reach)
    groups = [edges[start : start + most] for start in range(0, len(edges), most)]
    return [advice.advised(group, reach, plate, asked.store) for group in groups]


def written_names(asked, count):
    return parts.names(asked.output, count)[0] if asked.split else [asked.output]


def facts_of(drawing, outline, asked_reach, reach, files):
    """What there is to say, as data: lengths in millimetres, but for those that say otherwise."""
    open_ends = gaps(outline.edges)
    left, low, right, high = outline_box(outline.edges)
    lines = outline.lines()
    return {
        "files": [name for name in files if name != "-"],
        "edges": {"count": len(outline.edges), "lines": lines, "cubics": len(outline.edges) - lines},
        "unit": drawing.unit,
        "size": [told(right - left), told(high - low)],
        "joined": outline.joined,
        "without_length": outline.dropped,
        "left_out": dict(sorted(drawing.left_out.items())),
        "chosen": drawing.chosen,
        "remarks": drawing.remarks,
        "loose_ends": len(open_ends),
        "widest_gap": widest_gap(open_ends),
        "bounds": {"x": [told(left), told(right)], "y": [told(low), told(high)]},
        "w_hundredths": plain(Decimal(outline.off.numerator) / Decimal(outline.off.denominator)),
        "w": plain(Decimal(outline.off.numerator) / Decimal(outline.off.denominator) / 100),
        "reach_asked": plain(Decimal(asked_reach.numerator) / Decimal(asked_reach.denominator)),
        "reach_written": told(reach),
        "reach_hundredths": reach,
    }


def told(number):
    """Hundredths in millimetres."""
    return plain(millimetres(number))


def widest_gap(open_ends):
    """The widest gap, its width rounded up, and where it is."""
    if not open_ends:
        return None
    widest = open_ends[0]
    # root_up takes squared fine units, sixteenths of a hundredth.
    return {"mm": plain(root_up(widest.squared * 256)), "at": [told(number) for number in widest.end]}


def choices(left_out, chosen):
    """What was left out, and what was chosen, in words."""
    if left_out:
        yield f"left out: {many(left_out)}"
    for what, choice in chosen.items():
        yield f"{what} taken: {many(choice['taken']) or 'none'}; not taken: {many(choice['not_taken']) or 'none'}"


def many(counts):
    return ", ".join(f"{count} {name}" for name, count in sorted(counts.items()))


def counted(number, thing):
    return f"{number} {thing}{'' if number == 1 else 's'}"


def sentences(facts):
    """The same in words."""
    edges, files = facts["edges"], facts["files"]
    room = f"on {len(files)} sheets" if len(files) > 1 else f"of {library.EDGES_MOST}"
    yield f"{counted(edges['count'], 'edge')} {room}: {counted(edges['lines'], 'line')}, {counted(edges['cubics'], 'cubic')}"
    yield f"unit: {facts['unit']}; the outline is {facts['size'][0]} by {facts['size'][1]} mm"
    if facts["joined"]:
        yield f"{counted(facts['joined'], 'line')} joined to others that go on straight"
    if facts["without_length"]:
        yield f"{counted(facts['without_length'], 'edge')} without length left out"
    yield from choices(facts["left_out"], facts["chosen"])
    yield from facts["remarks"]
    gap = facts["widest_gap"]
    if gap:
        meet = "meets" if facts["loose_ends"] == 1 else "meet"
        widest = f"the widest gap is {gap['mm']} mm, at ({', '.join(gap['at'])}) mm"
        yield f"{counted(facts['loose_ends'], 'end')} that {meet} no other; {widest}"
    else:
        yield "closed: every end meets another"
    across, up = facts["bounds"]["x"], facts["bounds"]["y"]
    yield f"bounds: x from {across[0]} to {across[1]} mm, y from {up[0]} to {up[1]} mm"
    partial = facts["left_out"] or any(choice["not_taken"] for choice in facts["chosen"].values())
    drawn = "of what was taken" if partial else "of the drawing"
    yield f"W is {facts['w_hundredths']} hundredths ({facts['w']} mm): no point {drawn} or of the outline is farther from the other"
    yield f"reach: {facts['reach_hundredths']} hundredths, {facts['reach_asked']} mm and W rounded up"
    yield from (f"warning: {warning}" for warning in facts["warnings"])
