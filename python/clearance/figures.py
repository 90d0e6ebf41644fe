"""A job's figures as people read them: lengths in millimetres, counts and shares."""

from decimal import Decimal

from .bounds import outline_box
from .job import is_line
from .lengths import millimetres, plain


NAMES_MOST = 6


def twice_band(grain, m):
    """Twice the band E = 3 grains + 1.5 cell sides, which is whole."""
    return 6 * grain + 3 * (1 << m)


def band(grain, m):
    """E in millimetres, exactly."""
    return Decimal(5 * twice_band(grain, m)).scaleb(-3)


def length(hundredths):
    """A length in millimetres, as text."""
    return plain(millimetres(hundredths))


def spot(x, y):
    return f"({length(x)}, {length(y)})"


def many(count, thing):
    """A count of things, as text."""
    return f"{count:,} {thing}" + ("" if count == 1 else "s")


def these(names):
    """Names, as text: all of a few, or the first and the last."""
    return ", ".join(names) if len(names) <= NAMES_MOST else f"{names[0]} ... {names[-1]}"


def grains(found):
    """The grain of one sheet or of several, as text."""
    least, most = min(found), max(found)
    return f"{least} ({length(least)} mm)" if least == most else f"{least} to {most} ({length(least)} to {length(most)} mm)"


def sizes(job):
    """What a job's sheet states, for a report: names and texts."""
    left, low, right, high = outline_box(job.edges)
    lines = sum(map(is_line, job.edges))
    side = 1 << (job.n - job.m)
    return {
        "plate": f"{length(1 << job.n)} mm a side, lower left corner at {spot(job.x, job.y)} mm",
        "cell": f"{length(1 << job.m)} mm a side, {side} by {side} cells",
        "reach": f"{length(job.reach)} mm",
        "grain": grains([job.grain]),
        "edges": f"{len(job.edges)}: {lines} straight, {len(job.edges) - lines} cubic",
        "outline": f"{length(right - left)} by {length(high - low)} mm, from {spot(left, low)} to {spot(right, high)} mm",
    }


def sizes_data(job):
    """The same as data; lengths in millimetres but for the grain, which is told as the sheet has it."""
    lines = sum(map(is_line, job.edges))
    return {
        "plate": {"x_mm": number(job.x), "y_mm": number(job.y), "side_mm": number(1 << job.n)},
        "cell_mm": number(1 << job.m),
        "cells_a_side": 1 << (job.n - job.m),
        "reach_mm": number(job.reach),
        "grain": job.grain,
        "edges": {"lines": lines, "cubics": len(job.edges) - lines},
        "outline": dict(zip(("left_mm", "low_mm", "right_mm", "high_mm"), map(number, outline_box(job.edges)))),
        "band_mm": float(band(job.grain, job.m)),
    }


def number(hundredths):
    """Millimetres as JSON has them: the shortest decimal that names the float is the exact length."""
    return float(millimetres(hundredths))


def shares(drawn):
    """Each letter's count of cells in a map, and its share in per cent."""
    total = drawn.side * drawn.side
    return {letter: (count, 100 * count / total) for letter, count in drawn.counts().items()}


def per_cent(count, total):
    """A share in per cent to the nearest tenth, halves upward, as text. Three of them may add up to a tenth more or less than 100."""
    tenths = (2000 * count + total) // (2 * total)
    return f"{tenths // 10}.{tenths % 10} %"


def shares_text(drawn):
    total = drawn.side * drawn.side
    return ", ".join(f"{letter} {count:,} ({per_cent(count, total)})" for letter, count in drawn.counts().items())
