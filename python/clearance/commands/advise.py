"""`clearance advise`: the plate, cells and grain for a sheet's outline and reach."""

from decimal import Decimal

from .. import advice, console, figures, inputs, library, parts, sheets, trees
from ..job import Job
from ..lengths import plain
from ..reasons import EDGES, FORM, RANGE, named, range_text, refusal

SUMMARY = "find plate, cell and grain for a sheet's outline"
DESCRIPTION = f"""\
Finds, for the outline and the reach of a job sheet, the smallest plate that holds the outline and all that is in its
reach, the finest cells that this plate may have, and the smallest grain from half a cell's side on that the library
accepts with the {library.PROGRAM_STORE:,} numbers of store that the program clearmap lends, or with --store others. It tells what the
sheet has now and what is advised, or with --write gives the sheet that is advised.

The sheet may be refused for its cell (4), its trees (5 and 6), or a plate's, cell's or grain's number out of range;
form, edges and reach have to be right, else they are a finding.

{inputs.PARTS}The plate is the smallest around the whole outline then, each sheet has its own grain, nodes are those of all sheets
and E is the largest. With --write -o FILE.sheet the advised sheets are written, FILE-1.sheet, FILE-2.sheet ..., and FILE.part.
"""
EXAMPLES = """\
  clearance advise part.sheet
  clearance advise part.sheet --write -o better.sheet
  clearance advise flange.part --write -o better.sheet
  clearance advise --write - < part.sheet | clearance map -
"""


def arguments(parser):
    parser.add_argument("sheet", metavar="SHEET", help="a job sheet or a part; - is standard input, for a sheet")
    inputs.add_also(parser)
    parser.add_argument("--write", action="store_true", help="give the advised sheet instead of a comparison")
    parser.add_argument("-o", "--output", metavar="FILE", help="write the advised sheet to FILE instead of standard output")
    parser.add_argument("--json", action="store_true", help="write the comparison as data")
    inputs.add_store(parser, library.PROGRAM_STORE, advice.STORE)


def run(asked):
    write = asked.write or asked.output is not None
    if write and asked.json:
        raise console.misused("--json is for the comparison: leave out --write and -o")
    inputs.one_standard_input(asked.sheet, *asked.also)
    given = inputs.files(asked.sheet, asked.also)
    is_part = given.part is not None or len(given.sheets) > 1
    if write and is_part and asked.output in (None, "-"):
        raise console.misused("the advised sheets of a part are several files: -o FILE.sheet")
    found = [usable(path, data) for path, data in given.sheets]
    same_work(given, found)
    jobs = advised(given.name, found, asked.store)
    if not write:
        tell(asked, given, [job_now(sheet) for sheet in found], jobs)
    elif is_part:
        write_part(asked.output, given, jobs)
    else:
        console.write_bytes("-" if asked.output is None else asked.output, jobs[0].to_sheet())
    return console.DONE


def same_work(given, found):
    """Sheets that are one outline have one plate, cell and reach."""
    for (path, _), sheet in zip(given.sheets, found):
        for name in ("x", "y", "n", "m", "reach"):
            number = getattr(sheet, name)
            if number.value != getattr(found[0], name).value:
                where = console.at(path, number.line, number.column)
                raise console.found(f"{where}: another plate, cell or reach than {given.sheets[0][0]}, and advice is for one of each")


def advised(name, found, store):
    """The advised jobs of the sheets of one outline, on one plate."""
    reach = found[0].reach.value
    try:
        plate = advice.plate_for([edge for sheet in found for edge in sheet.edge_values()], reach)
        return [advice.advised(sheet.edge_values(), reach, plate, store) for sheet in found]
    except advice.Unadvisable as reason:
        raise console.found(f"{name}: there is no advice: {reason}") from reason


def write_part(output, given, jobs):
    if len(jobs) > parts.SHEETS_MOST:
        raise console.found(f"{given.name}: {len(jobs)} sheets are given, and a part has {parts.SHEETS_MOST} at most")
    console.write_all(parts.files(output, jobs, given.part.source if given.part else {}))
    console.say(f"{given.name}: {parts.told_written(output, len(jobs))}")


def tell(asked, given, now, then):
    """The comparison of the jobs as they are with the advised ones."""
    refused_now = [refusal(data, asked.store) for _, data in given.sheets]
    refused_then = [refusal(job.to_sheet(), asked.store) for job in then]
    both = facts(now, refused_now), facts(then, refused_then)
    if asked.json:
        names = [path for path, _ in given.sheets]
        console.put_json({"file": given.name, "sheets": names, "now": both[0], "advised": both[1]})
    else:
        sheets_told = f", {len(now)} sheets" if len(now) > 1 else ""
        console.put(comparison(f"{given.name}{sheets_told}, with {asked.store:,} numbers of store", *both))


def usable(path, data):
    """The sheet, where its form, its count of edges, its edges and its reach are right."""
    number = refusal(data)
    if number in (FORM, EDGES):
        raise inputs.refusal(path, data, number)
    sheet = sheets.read_sheet(data)
    for fault in sheets.outline_faults(sheet):
        place = fault[0].line, fault[0].column
        raise console.found(inputs.refusal_text(path, place, RANGE, range_text(*fault)))
    return sheet


def job_now(sheet):
    """The job that a sheet states, whether it is legal or not."""
    numbers = (sheet.x, sheet.y, sheet.n, sheet.m, sheet.reach)
    return Job(*(number.value for number in numbers), sheet.edge_values(), sheet.grain.value)


def facts(jobs, refused):
    """What is compared, as data; none where a number out of range leaves nothing to tell. `refused` has 0 for each that is accepted."""
    first, most = jobs[0], max(job.grain for job in jobs)
    plate, cell = (1 << power if in_range(power, sheets.EXPONENTS) else None for power in (first.n, first.m))
    return {
        "refused": next(filter(None, refused), 0),
        "x_mm": figures.number(first.x),
        "y_mm": figures.number(first.y),
        "side_mm": plate and figures.number(plate),
        "cell_mm": cell and figures.number(cell),
        "grain": most,
        "grains": [job.grain for job in jobs],
        "nodes": nodes_of(jobs),
        "band_mm": float(figures.band(most, first.m)) if in_range(most, sheets.GRAINS) and cell else None,
    }


def nodes_of(jobs):
    """How many nodes the trees of all jobs have, or none where one has no trees."""
    grained = all(in_range(job.grain, sheets.GRAINS) and not trees.refusal(job.edges, job.grain) for job in jobs)
    return sum(trees.nodes(job.edges, job.grain) for job in jobs) if grained else None


def in_range(number, limits):
    return limits[0] <= number <= limits[1]


def comparison(heading, now, then):
    """The two in columns."""
    lines = [f"{'':10}{'now':36}advised"]
    for name, tell in COLUMNS.items():
        lines.append(f"{name:10}{tell(now):36}{tell(then)}")
    return "\n".join([heading, *lines]) + "\n"


def length(value):
    """A length in millimetres as text: the shortest decimal that names the float is exact."""
    return plain(Decimal(repr(value)))


def side(value):
    return "not allowed" if value is None else f"{length(value)} mm"


COLUMNS = {
    "sheet": lambda told: "refused " + named(told["refused"]) if told["refused"] else "accepted",
    "plate": lambda told: f"{side(told['side_mm'])} at ({length(told['x_mm'])}, {length(told['y_mm'])})",
    "cell": lambda told: side(told["cell_mm"]),
    "grain": lambda told: " to ".join(str(grain) for grain in sorted({min(told["grains"]), max(told["grains"])})),
    "nodes": lambda told: "none" if told["nodes"] is None else f"{told['nodes']:,}",
    "band E": lambda told: side(told["band_mm"]),
}
