"""What is likely wrong with an outline whose sheets are accepted: check's warnings. None of them changes a verdict."""

from dataclasses import dataclass

from .bounds import edge_box, outline_box
from .figures import band, length, twice_band
from .gaps import gaps
from .lengths import plain, root_up

# Below so many hundredths in width and height, millimetres may have been written in place of hundredths.
SMALL = 500
FINE_SQUARED = 16**2


@dataclass(frozen=True)
class Finding:
    """A warning: its kind in one word, the sheet and its line that it is about (0 for none), and its text."""

    kind: str
    file: str
    line: int
    text: str


def findings(work):
    """The warnings of one outline, in the order of a sheet's concerns: plate, reach, size, gaps."""
    found = (plate_finding(work), reach_finding(work), size_finding(work), gap_finding(work))
    return [finding for finding in found if finding]


def beyond(box, job, margin):
    """Whether a box grown by a margin goes beyond the plate.

    The plate's sides and the margin are whole numbers, so this is true of the edge's own box, which may not be
    whole, exactly where it is true of that box rounded outward.
    """
    left, low, right, high = box
    side = 1 << job.n
    return left - margin < job.x or low - margin < job.y or right + margin > job.x + side or high + margin > job.y + side


def plate_finding(work):
    """The outline goes off the plate, or comes closer to its border than the reach."""
    found = off_plate(work.job)
    if found is None:
        return None
    kind, index, text = found
    return Finding(kind, *work.place(index), text)


def off_plate(job):
    """The same of a job: the warning's kind, the first such edge, and the text, or none."""
    boxes = [edge_box(edge) for edge in job.edges]
    off = [index for index, box in enumerate(boxes) if beyond(box, job, 0)]
    if off:
        several = f"{len(off)} of {len(boxes)} edges go" if len(boxes) > 1 else "the edge goes"
        return "plate", off[0], f"{several} off the plate; what lies beyond it is not mapped"
    near = [index for index, box in enumerate(boxes) if beyond(box, job, job.reach)]
    if near:
        several = f"{len(near)} of {len(boxes)} edges come" if len(boxes) > 1 else "the edge comes"
        text = f"{several} closer than the reach to the plate's border; what is in reach beyond it is not mapped"
        return "border", near[0], text
    return None


def reach_finding(work):
    job = work.job
    if 2 * job.reach >= twice_band(job.grain, job.m):
        return None
    told = plain(band(job.grain, job.m))
    text = f"the reach, {length(job.reach)} mm, is below the band E, {told} mm; there may be few cells in reach (I), or none"
    given = next(one for one in work.sheets if one.job.grain == job.grain)
    return Finding("reach", given.path, given.sheet.reach.line, text)


def size_finding(work):
    left, low, right, high = outline_box(work.job.edges)
    width, height = right - left, high - low
    if max(width, height) >= SMALL:
        return None
    text = f"the outline is only {length(width)} by {length(height)} mm; were millimetres written instead of hundredths?"
    return Finding("size", *work.place(0), text)


def gap_finding(work):
    """Ends that no other end meets exactly, also none of another sheet."""
    free = gaps(work.job.edges)
    if not free:
        return None
    widest = free[0]
    ends_told = f"{len(free)} ends of edges meet" if len(free) > 1 else "1 end of an edge meets"
    distance = plain(root_up(widest.squared * FINE_SQUARED))
    text = f"the outline has gaps: {ends_told} no other end; the widest gap, at this edge, is {distance} mm to the nearest other end"
    return Finding("gap", *work.place(widest.edge), text)
