"""Polynomials on 0 to 1 by their Bernstein coefficients: the values of a polynomial are means of its coefficients.

So the largest coefficient bounds the polynomial, and a vector-valued one is never longer than its longest coefficient.
Halving the interval brings the coefficients closer to the values. All of it works for fractions and for floats.
"""

from functools import lru_cache
from math import comb


def split(row, at):
    """The coefficients of the same polynomial on 0 to `at` and on `at` to 1: de Casteljau's scheme."""
    row = list(row)
    left, right = [row[0]], [row[-1]]
    while len(row) > 1:
        row = [low + (high - low) * at for low, high in zip(row, row[1:])]
        left.append(row[0])
        right.append(row[-1])
    return left, right[::-1]


def halves(row):
    row = list(row)
    left, right = [row[0]], [row[-1]]
    while len(row) > 1:
        row = [(low + high) / 2 for low, high in zip(row, row[1:])]
        left.append(row[0])
        right.append(row[-1])
    return left, right[::-1]


def halved(rows, times):
    """Several polynomials on each of 2^times equal parts of the interval, the parts in order."""
    parts = [tuple(rows)]
    for _ in range(times):
        parts = [half for part in parts for half in zip(*(halves(row) for row in part))]
    return parts


@lru_cache(maxsize=None)
def shares(p, q):
    """For each i, j what the product of the i-th and the j-th coefficient counts in the i+j-th one of a product."""
    return [[comb(p, i) * comb(q, j) / comb(p + q, i + j) for j in range(q + 1)] for i in range(p + 1)]


def product(first, second):
    """The coefficients of a product, as floats."""
    p, q = len(first) - 1, len(second) - 1
    found = [0.0] * (p + q + 1)
    for i, row in enumerate(shares(p, q)):
        for j, share in enumerate(row):
            found[i + j] += share * first[i] * second[j]
    return found


def between(row, start, end):
    """The coefficients on start to end, within 0 to 1."""
    if start > 0:
        row = split(row, start)[1]
        end = (end - start) / (1 - start)
    return split(row, min(end, 1))[0] if end < 1 else list(row)
