"""Lengths in millimetres and in hundredths of one, exactly: whole numbers and decimals, never a rounded float."""

import re
from decimal import Decimal, InvalidOperation
from fractions import Fraction
from math import isqrt

# A fine unit is a sixteenth of a hundredth of a millimetre.
FINE_A_MILLIMETRE = 1600
# Distances are told in ten-thousandths of a millimetre; a fine unit is 6.25 of them.
PLACES = 4
NUMBER = re.compile(r"[+-]?(?:[0-9]+\.?[0-9]*|\.[0-9]+)(?:[eE][+-]?[0-9]+)?")
# No length has so many digits in front of its point or behind it.
LARGEST = 50


def millimetres(hundredths):
    return Decimal(hundredths).scaleb(-2)


def hundredths(length):
    """The whole hundredths of a length in millimetres: a number, or its text. ValueError where it is not whole.

    A float is taken as the shortest decimal that names it, so 0.29 is 29 hundredths.
    """
    if isinstance(length, str) and not NUMBER.fullmatch(length):
        raise ValueError(f"{length} is no length in millimetres")
    try:
        text = repr(float(length)) if isinstance(length, float) else length
        exact = Decimal(text) if isinstance(text, (str, Decimal)) else Fraction(text)
    except (InvalidOperation, ValueError, TypeError) as error:
        raise ValueError(f"{length} is no length in millimetres") from error
    # The exponent is looked at first: a fraction of 1e999999999 would take all memory.
    if isinstance(exact, Decimal) and not (exact.is_finite() and -LARGEST < exact.adjusted() < LARGEST):
        raise ValueError(f"{length} is no length in millimetres")
    found = Fraction(exact) * 100
    if found.denominator != 1:
        raise ValueError(f"{length} mm is no whole number of hundredths of a millimetre")
    return found.numerator


def root_down(squared):
    """A distance in millimetres from its square in fine units, rounded down, so that a lower bound stays one."""
    return Decimal(isqrt(squared * 100**PLACES // FINE_A_MILLIMETRE**2)).scaleb(-PLACES)


def root_up(squared):
    """The same rounded up, so that an upper bound stays one."""
    scaled = -(-squared * 100**PLACES // FINE_A_MILLIMETRE**2)
    root = isqrt(scaled)
    return Decimal(root + (root * root < scaled)).scaleb(-PLACES)


def plain(number):
    """A decimal number without an exponent or idle zeros."""
    text = f"{number:f}"
    return text.rstrip("0").rstrip(".") if "." in text else text
