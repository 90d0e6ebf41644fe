"""The manual pages of `clearance` and `clearmap`, in the macros of man(7), from one source: the command's parser and the verbs' own texts.

argparse's formatted help is not used, since its layout differs between versions of Python: the parser's actions are walked
instead. tools/make-manual writes the pages to docs/man.
"""

import argparse
import re
import textwrap

from . import cli, console, library, maps, refusals, sheets
from .job import DEFAULT_GRAIN
from .version import VERSION

# ---- what both pages say of the sheet, the map and the refusals


def span(limits):
    return "{:,} to {:,}".format(*limits)


SHEET = f"""\
A job sheet is lines of text, each ended by a line feed (byte 10), at most {sheets.SHEET_LIMIT:,} bytes in all. All lengths are
whole hundredths of a millimetre. One space separates. A number has 1 to {sheets.DIGIT_LIMIT} digits and may have a minus; `-0` and leading
zeros are not numbers. The lines are these, in this order:
"""
SHEET_LINES = {
    "(job": "The first line.",
    "(plate X Y N)": f"""\
The plate: a square with the lower left corner X, Y and the side 2^N. X and Y are {span(sheets.COORDINATES)}; N is
{span(sheets.EXPONENTS)}.""",
    "(cell M)": f"""\
The side of the smallest cells, 2^M. M is {span(sheets.EXPONENTS)}, not more than N and not less than N - {sheets.SPREAD_LIMIT}.""",
    "(reach R)": f"How far from the outline the jet takes metal: {span(sheets.REACHES)}.",
    "(grain T)": f"""\
How fine the outline is enclosed: {span(sheets.GRAINS)}. The line may be left out; T is {DEFAULT_GRAIN} then.""",
    "(edge (X Y) (X Y) (X Y) (X Y))": "An edge that is a cubic Bezier curve, by its four control points; X and Y as of the plate.",
    "(line (X Y) (X Y))": f"""\
An edge that is straight, by its two ends. There are 1 to {sheets.EDGE_LIMIT} edges in all, of both kinds and in any order.""",
    ")": "The last line.",
}
MAP = """\
The first line tells how many cells there are a side. The row of the lowest y comes first, and in a row the cell of the
lowest x. Each smallest cell has one letter. What the letters say is proved of every point of the cell, its border
included, and of every point of the outline:
"""
LETTERS = {
    maps.CLEAR: "Clear: every point of the cell is at least the reach away from every point of the outline (theorem clear_byte).",
    maps.INSIDE: "In reach: every point of the cell has a point of the outline that is closer than the reach (theorem inside_byte).",
    maps.DOUBTFUL: """\
Doubtful: neither is claimed. With E = 3 grains + 1.5 cell sides, no point of the outline is closer to a point of the cell than
the reach less E, and each point of the cell has a point of the outline at the reach and E or closer (theorem doubtful_byte).""",
}
STOCK = "C does not tell part from stock. A cell that is the reach away exactly may be C: the jet does not mark metal at its reach."
SAMPLE = """\
(job
(plate -8 -8 4)
(cell 1)
(reach 4)
(grain 1)
(edge (0 0) (0 0) (0 0) (0 0))
)
"""
SAMPLE_MAP = """\
(map 8
(row CCCCCCCC)
(row CCCCCCCC)
(row CCDDDDCC)
(row CCDIIDCC)
(row CCDIIDCC)
(row CCDDDDCC)
(row CCCCCCCC)
(row CCCCCCCC)
)
"""
# Those that a sheet alone can bring about; the others come from calls of the library.
SHEET_REFUSALS = [1, 2, 3, 4, 5, 6]

# ---- what only one of them says

NAMES = {"clearance": "clearance maps of a plate, by the proved library", "clearmap": "draw the clearance map of a job sheet"}
HELP = {
    argparse._HelpAction: "tell what there is to be asked; after a verb, the verb's own text with examples",
    argparse._VersionAction: "tell the version",
}
LIBRARY = f"""\
The file of the library to load. Without it {library.FILE} is looked for beside the files of the Python package, then in
build/prefix/lib of the repository that the package stands in, then where the system's loader looks. A library is not called
where its rows or nodes have other lengths, its major version is another, or it is older by its minor version.
"""
COMMAND_FILES = {
    "*.sheet": "Job sheets.",
    "*.part": "Parts: JSON that names the sheets of one outline, which stand beside it.",
    "*.map": "Maps, as `clearmap` and `clearance map` write them.",
    library.FILE: "The proved library; tools/build-library of the repository builds it.",
}
COMMAND_REFUSED = """\
A message on standard error names its place as FILE:LINE:COLUMN, lines and columns counted from 1, where there is one. A sheet
is refused with the lowest number that applies (theorems read_lowest and map_lowest). 7, 8 and 9 come from calls of the
library alone, and 6 only where less store is lent than the sheet's trees need.
"""
PROGRAM = f"""\
Reads a job sheet from standard input, and writes its map to standard output, or `(refused N)` with the number of the
refusal. Arguments are ignored.

No more than {sheets.SHEET_LIMIT + 1:,} bytes are read, one more than a sheet may have. The program lends
{library.PROGRAM_STORE:,} numbers of store to the trees that enclose the outline; a sheet that needs more is refused with 6 (store).
`clearance map` lends as many as any job needs, and `clearance explain` says why a sheet is refused.

The program needs a stack of 256 KB (measured with the Rattle kit 5b: about 240).
"""
PROGRAM_REFUSED = """\
In place of a map the program writes `(refused N)`, where N is the lowest number that applies. It never writes
7 (theorem never_space); 8 and 9 come from calls of the library alone.
"""
PROGRAM_STATUS = "The status is 0, also where a sheet is refused, and where reading or writing fails: the program has no other."
PROGRAM_FAILED = """\
Where the input cannot be read to its end, no answer is written. One of these lines on standard error tells of a failure
(tested):
"""
PROGRAM_MESSAGES = ["clearmap: the input could not be read to its end", "clearmap: the answer could not be written"]
RULES = "In the repository docs/RULES.md has the rules, and docs/GUIDE.md leads from each claim to its theorem."

# ---- text as roff takes it

# What means something in roff, by the name of the character that is meant. A minus is the one that options are typed with.
ESCAPES = {"\\": r"\(rs", "-": r"\-", "'": r"\(aq", "`": r"\(ga", "^": r"\(ha", "~": r"\(ti", '"': r"\(dq"}
WIDE = 100


def escaped(text):
    """Text that is printed as it stands. What is not ASCII goes by its number, so that a page needs no encoding."""
    return "".join(ESCAPES.get(letter) or (letter if letter.isascii() else rf"\[u{ord(letter):04X}]") for letter in text)


def bold(text):
    return rf"\fB{escaped(text)}\fR"


def italic(text):
    return rf"\fI{escaped(text)}\fR"


def marked(text):
    """Escaped, and what stands between two backticks in bold."""
    parts = re.split(r"`([^`]*)`", text)
    return "".join(bold(part) if index % 2 else escaped(part) for index, part in enumerate(parts))


def guarded(line):
    """A line of text that is not taken for a macro."""
    return rf"\&{line}" if line.startswith(".") else line


def unended(line):
    """A line at which no sentence ends, whatever its last character is."""
    return rf"{line}\&" if line.endswith((".", "?", "!", ")", "]")) else line


def filled(text):
    """One paragraph, each sentence on lines of its own: roff sets the space between sentences by the ends of lines."""
    source = []
    for sentence in re.split(r"(?<=[.?!]) (?=[A-Z0-9`(])", " ".join(text.split())):
        lines = textwrap.wrap(marked(sentence), WIDE, break_long_words=False, break_on_hyphens=False)
        source += [guarded(unended(line)) for line in lines[:-1]] + [guarded(line) for line in lines[-1:]]
    return source


def literal(text):
    """Lines that stay as they are, set in."""
    lines = textwrap.dedent(text).strip("\n").split("\n")
    return ['.IP "" 4', ".nf", *(guarded(escaped(line)) for line in lines), ".fi"]


def prose(text):
    """Paragraphs, parted by empty lines; one that is set in stays as it is."""
    source = []
    for paragraph in re.split(r"\n\s*\n", text.strip("\n")):
        source += literal(paragraph) if paragraph.startswith(" ") else [".PP", *filled(paragraph)]
    return source


def tagged(tag, text):
    return [".TP", guarded(tag), *filled(text)]


def listed(texts):
    """A list of words, each with its text."""
    return [line for word, text in texts.items() for line in tagged(bold(word), text)]


def section(name, *parts):
    return [f".SH {name}", *(line for part in parts for line in part)]


# ---- a parser's actions


def shown(parser):
    """The actions that a reader is told of; the verbs have sections of their own."""
    actions = [action for action in parser._actions if not isinstance(action, argparse._SubParsersAction)]
    return [action for action in actions if action.help != argparse.SUPPRESS]


def options(parser):
    return [action for action in shown(parser) if action.option_strings]


def own(parser):
    """What a verb has beside --help, which is told once for all."""
    return [action for action in shown(parser) if not isinstance(action, argparse._HelpAction)]


def values(action):
    """What is to be filled in for an action, empty where nothing is: its names as often as they are taken."""
    if action.nargs == 0:
        return ""
    if action.metavar is None and action.choices is not None:
        name = "|".join(bold(str(choice)) for choice in action.choices)
    elif isinstance(action.metavar, tuple):
        name = r"\ ".join(map(italic, action.metavar))
    else:
        name = italic(action.metavar or action.dest.upper())
    if isinstance(action.nargs, int) and not isinstance(action.metavar, tuple):
        name = r"\ ".join([name] * action.nargs)
    return {"?": f"[{name}]", "+": rf"{name}\ ...\&", "*": rf"[{name}\ ...]\&"}.get(action.nargs, name)


def usage(action):
    """An action as the synopsis has it: an option by the first of its names."""
    return r"\ ".join(filter(None, [*map(bold, action.option_strings[:1]), values(action)]))


def exclusive(parser, action):
    """The options of which at most one goes, this one among them, and whether one has to."""
    for group in parser._mutually_exclusive_groups:
        if action in group._group_actions:
            return group._group_actions, group.required
    return [action], action.required


def synopsis(words, parser):
    """The line that shows how a verb is called; its parts stand on lines of their own, so that a line is broken between them."""
    source = [bold(words)]
    for action in own(parser):
        together, required = exclusive(parser, action)
        if action.option_strings and action is together[0]:
            text = r"\ |\ ".join(map(usage, together))
            source.append(text if required else f"[{text}]")
    return source + [usage(action) for action in own(parser) if not action.option_strings]


def told(action, prog):
    """An action's help, with what it names by % filled in."""
    if type(action) in HELP:
        return HELP[type(action)]
    choices = ", ".join(map(str, action.choices or []))
    return (action.help or "") % {**vars(action), "choices": choices, "prog": prog}


def described(action, prog):
    names = ", ".join(map(bold, action.option_strings))
    return tagged(r"\ ".join(filter(None, [names, values(action)])), told(action, prog))


# ---- the pages


def page(name, *sections):
    """The page's date is left out: it would be the day on which it was made. Lines are ragged, so that no commands are stretched."""
    head = [
        r'.\" Made by tools/make-manual from python/clearance/manual.py and the texts of the verbs: change those.',
        f'.TH {name.upper()} 1 "" "clearance {VERSION}" "User Commands"',
        ".ad l",
        *section("NAME", [rf"{name} \- {escaped(NAMES[name])}"]),
    ]
    text = "\n".join(head + [line for lines in sections for line in lines]) + "\n"
    # A heading begins a paragraph by itself.
    return re.sub(r"^(\.S[HS] .*)\n\.PP$", r"\1", text, flags=re.MULTILINE)


def sheet_section():
    return section('"THE JOB SHEET"', prose(SHEET), listed(SHEET_LINES))


def map_section():
    return section('"THE MAP"', prose(MAP), listed(LETTERS), prose(STOCK))


def refusal_section(text, numbers):
    return section("REFUSALS", prose(text), listed({f"{number} {refusals.WORDS[number]}": refusals.CAUSES[number] for number in numbers}))


def verb_section(verb, module, parser):
    words = f"clearance {verb}"
    source = [f'.SS "{escaped(verb)}: {escaped(module.SUMMARY)}"', ".PP", *synopsis(words, parser), *prose(module.DESCRIPTION)]
    return source + [line for action in own(parser) for line in described(action, words)]


def statuses():
    """The statuses of the command with their meanings."""
    return dict(re.findall(r"(\d+) ([^;.]+)", console.STATUS))


def clearance_page():
    top = cli.parser()
    below = next(action for action in top._actions if isinstance(action, argparse._SubParsersAction)).choices
    verbs = cli.verbs()
    return page(
        "clearance",
        section("SYNOPSIS", [".B clearance", italic("VERB"), r"[\fIoption\fR\ ...]\&", r"[\fIfile\fR\ ...]"]),
        section("DESCRIPTION", prose(cli.DESCRIPTION)),
        section("OPTIONS", *(described(action, "clearance") for action in options(top))),
        section("VERBS", *(verb_section(verb, module, below[verb]) for verb, module in verbs.items())),
        sheet_section(),
        map_section(),
        refusal_section(COMMAND_REFUSED, refusals.WORDS),
        section('"EXIT STATUS"', listed(statuses())),
        section("ENVIRONMENT", listed({"CLEARANCE_LIBRARY": LIBRARY})),
        section("FILES", listed(COMMAND_FILES)),
        section("EXAMPLES", *(literal(module.EXAMPLES) for module in verbs.values())),
        section('"SEE ALSO"', [".BR clearmap (1)"], prose(RULES)),
    )


def clearmap_page():
    return page(
        "clearmap",
        section("SYNOPSIS", [".B clearmap", r"<\ \fIsheet\fR", r">\ \fImap\fR"]),
        section("DESCRIPTION", prose(PROGRAM)),
        sheet_section(),
        map_section(),
        refusal_section(PROGRAM_REFUSED, SHEET_REFUSALS),
        section('"EXIT STATUS"', prose(PROGRAM_STATUS)),
        section("DIAGNOSTICS", prose(PROGRAM_FAILED), literal("\n".join(PROGRAM_MESSAGES))),
        section("EXAMPLES", prose("For the sheet"), literal(SAMPLE), prose("the program writes"), literal(SAMPLE_MAP)),
        section('"SEE ALSO"', [".BR clearance (1)"], prose(RULES)),
    )


def pages():
    """Each page by its file's name."""
    return {"clearance.1": clearance_page(), "clearmap.1": clearmap_page()}
