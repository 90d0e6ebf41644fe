"""What reading a DXF and an SVG drawing share: what is asked of it, units, the packages that read it, and what reading gives."""

import os
import shutil
import subprocess
import sys
from collections import Counter
from dataclasses import dataclass, field
from fractions import Fraction
from importlib import import_module
from typing import Optional

from .curves import Findings, Unusable

# Measured: the slowest files of this size take a few seconds to read.
BYTES_MOST = 1_000_000
# Blocks in blocks, and uses of uses, can stand for any number of lines and curves.
PARTS_MOST = 20_000

# So long another Python is asked for a package.
PYTHON_SECONDS = 5

# Hundredths of a millimetre in a unit.
INCH = Fraction(2540)
UNITS = {
    "mm": Fraction(100),
    "cm": Fraction(1000),
    "m": Fraction(100_000),
    "in": INCH,
    "ft": 12 * INCH,
    "px": INCH / 96,
    "pt": INCH / 72,
    "pc": INCH / 6,
}


@dataclass(frozen=True)
class Wish:
    """What the user asks of a drawing: a unit in place of its own, kinds to leave out, and of a DXF drawing a layout and layers."""

    unit: Optional[str] = None
    leave_out: frozenset = frozenset()
    layout: Optional[str] = None
    layers: tuple = ()
    not_layers: tuple = ()

    def by_option(self):
        """The unit that --units gives, in words."""
        return f"{self.unit}, by --units"


@dataclass(frozen=True)
class Drawing:
    """Curves in their order, the unit that was taken and whence, in words, counts of what was left out by its kind, and remarks.

    `chosen` has what was asked for by name, "layout" or "layers": how many entities each has under "taken" and "not_taken".
    """

    curves: list
    unit: str
    left_out: Counter
    remarks: list
    chosen: dict = field(default_factory=dict)


class Undrawn:
    """What a drawing draws and a sheet cannot: counted where the user leaves its kind out, else a finding."""

    def __init__(self, leave_out):
        self.leave_out = leave_out
        self.counts = Counter()
        self.findings = []

    def add(self, kind, message, place=(0, 0), count=1):
        """`message` names the element and says what is wrong; what to do is said here."""
        if kind in self.leave_out:
            self.counts[kind] += count
        else:
            self.findings.append(Unusable(f"{message}; --leave-out {kind} goes on without it", *place))

    def refuse(self, message, place=(0, 0)):
        """A finding that nothing leaves out."""
        self.findings.append(Unusable(message, *place))

    def settle(self):
        """Ends the reading where there are findings."""
        if self.findings:
            raise Findings(self.findings)


class PackageMissing(Unusable):
    """A package that reads drawings is not there: nothing is wrong with the drawing."""


def package(name):
    """A package that reads drawings; the command works without it in all else."""
    try:
        return import_module(name)
    except ImportError as error:
        needs = f"reading it needs the Python package {name} (Debian: python3-{name}; pip: {name})"
        other = other_python(name)
        raise PackageMissing(needs + (f"; PYTHON={other} clearance ... has it" if other else "")) from error


def other_python(name):
    """Another Python of this machine that has a package."""
    for python in filter(None, ("/usr/bin/python3", shutil.which("python3"))):
        try:
            if not os.path.samefile(python, sys.executable):
                subprocess.run([python, "-c", f"import {name}"], capture_output=True, check=True, timeout=PYTHON_SECONDS)
                return python
        except (OSError, ValueError, subprocess.SubprocessError):
            continue
    return None
