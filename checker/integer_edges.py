#!/usr/bin/env python3
"""The lines that the program integer_edges must print: by Python's own division and whole-number root, which round down, and by fractions for the nearest."""

from fractions import Fraction
from math import isqrt

LEAST, GREATEST, MOST = -2**63, 2**63 - 1, 2**64 - 1

DIVIDENDS = [0, 1, -1, 4095, -4095, 4096, -4096, 4097, -4097, 2**60, -2**60, GREATEST, LEAST]
HALVES = [sign * half for half in (2048, 6144, 2**60 + 2048, 2**63 - 2048) for sign in (1, -1)]
DIVISORS = [1, -1, 3, -3, 4096, -4096, 2**30, -2**30, GREATEST, LEAST]
NATURALS = [1, 3, 4095, 4096, 2**30, 2**60, MOST - 1, MOST]
SQUARES = [9, 2**24, 2**42, 2**44, (2**32 - 1) ** 2]
RADICANDS = [0, 1, 2, 3, 4, *(n + d for n in SQUARES for d in (-1, 0, 1)), MOST]


def nearest(a, d):
    """Of the two whole numbers about a / d the nearer one, and of two that are as near the upper."""
    exact = Fraction(a, d)
    return min((a // d + 1, a // d), key=lambda whole: abs(exact - whole))


def print_by_4096(a):
    quotient = nearest(a, 4096)
    print("4096", a, a // 4096, quotient, abs(a - 4096 * quotient), abs(a))


for a in DIVIDENDS:
    for d in DIVISORS:
        quotient = a // d if LEAST <= a // d <= GREATEST else "none"
        print("floor", a, d, quotient, a % d)
    print_by_4096(a)
for half in HALVES:
    for a in (half - 1, half, half + 1):
        print_by_4096(a)
for d in NATURALS:
    for n in [0] + NATURALS:
        print("ceiling", n, d, -(-n // d))
for n in RADICANDS:
    print("root", n, isqrt(n))
