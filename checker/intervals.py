"""Plain interval arithmetic: the range of a sum, a product and so on, from the ranges of its
operands alone.

Section 2.1 of source document 000, and the request 2026-06: "low ends rounded down and high ends
up, the root's two ends rounded down" (manual, section 5.15). A range is its low and its high in
whole numbers of 1/4096. In the quoted formulas X is from a to b and Y from c to d.
"""

import rows
from rows import Range


class NoRange(Exception):
    """No range comes out: of the reciprocal of a range that holds 0, of the root of one that starts
    below 0, of two ranges that have no number in common. No accepted sheet comes to this."""


def add(x: Range, y: Range) -> Range:
    """"X + Y = [a + c, b + d]"."""
    return Range(x.low + y.low, x.high + y.high)


def subtract(x: Range, y: Range) -> Range:
    """"X - Y = [a - d, b - c]"."""
    return Range(x.low - y.high, x.high - y.low)


def multiply(x: Range, y: Range) -> Range:
    """"X · Y = [min{ac, ad, bc, bd}, max{ac, ad, bc, bd}]", over 4096: of two numbers of units the
    product is their product over 4096. A row times itself has no rule of its own."""
    products = [first * second for first in x for second in y]
    return Range(min(products) // rows.UNIT, rows.up(max(products), rows.UNIT))


def reciprocal(x: Range) -> Range:
    """"[1/d, 1/c], 0 ∉ Y": the reciprocal of X units is N / X units, and falls from one end of a
    range on either side of 0 to the other."""
    if x.low <= 0 <= x.high:
        raise NoRange(x)
    return Range(rows.N // x.high, rows.up(rows.N, x.low))


def root(x: Range) -> Range:
    """"the root's two ends rounded down": an exact root is rounded down itself."""
    if x.low < 0:
        raise NoRange(x)
    return Range(rows.unit_root(x.low), rows.unit_root(x.high))


def overlap(x: Range, y: Range) -> Range:
    """The numbers that lie in both ranges."""
    both = Range(max(x.low, y.low), min(x.high, y.high))
    if both.low > both.high:
        raise NoRange(x, y)
    return both
