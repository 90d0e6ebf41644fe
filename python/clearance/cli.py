"""The command `clearance`: one verb a file of `commands/`. Each has SUMMARY, DESCRIPTION, EXAMPLES, arguments(parser) and run(asked).

A verb's file is imported when the command line needs it: that of the verb that it names, or all for the help.
"""

import os
import sys
from importlib import import_module

from . import console
from .version import VERSION

# Verb and file, in the order of the help.
VERBS = {
    "map": "map",
    "look": "look",
    "spot": "spot",
    "check": "check",
    "explain": "explain",
    "advise": "advise",
    "from": "from_drawing",
    "rects": "rects",
    "diff": "diff",
}
TOLD_VERSION = f"clearance {VERSION}"
DESCRIPTION = """\
Clearance maps of a plate, by the proved library. A cell is C, clear: at least the reach away from the outline; I, in
reach: closer than that all over; or D, doubtful: too close to call. C does not tell part from stock.
"""


def verbs(names=None):
    """Verbs with their modules: those that are named, or all."""
    return {verb: import_module(f".commands.{VERBS[verb]}", __package__) for verb in (VERBS if names is None else names)}


def needed(words):
    """The verbs whose texts or arguments a command line needs."""
    named = next((word for word in words if not word.startswith("-")), None)
    return [named] if named in VERBS else list(VERBS)


def parser(names=None):
    """The parser of the verbs that are named, or of all; the others are known by name alone."""
    from argparse import ArgumentParser, RawDescriptionHelpFormatter

    top = ArgumentParser(
        prog="clearance",
        description=DESCRIPTION,
        epilog=f"clearance VERB --help has an example of each verb. {console.STATUS}",
    )
    top.add_argument("--version", action="version", version=TOLD_VERSION)
    below = top.add_subparsers(dest="verb", metavar="VERB", required=True)
    modules = verbs(names)
    for verb in VERBS:
        if verb not in modules:
            below.add_parser(verb)
            continue
        module = modules[verb]
        made = below.add_parser(
            verb,
            help=module.SUMMARY,
            description=module.DESCRIPTION,
            epilog=f"examples:\n{module.EXAMPLES}\n{console.STATUS}",
            formatter_class=RawDescriptionHelpFormatter,
        )
        module.arguments(made)
        made.set_defaults(run=module.run)
    return top


def main(words=None):
    words = sys.argv[1:] if words is None else words
    console.unsaid.clear()
    try:
        if words == ["--version"]:  # without the parser, which takes longer to load than all else
            console.put(f"{TOLD_VERSION}\n")
            return console.DONE
        asked = parser(needed(words)).parse_args(words)
        status = asked.run(asked)
        return console.FAILED if console.unsaid else status
    except console.Ended as ended:
        console.say(ended)
        return ended.status
    except BrokenPipeError:
        # Whoever read the answer has gone: nothing more can be written, also not when Python ends.
        os.dup2(os.open(os.devnull, os.O_WRONLY), sys.stdout.fileno())
        return console.FAILED
