"""Demand 3 by number: exact values, form's values and found values in fractions.

    python3 checker/demand3.py SEED COUNT      checks the accepted ones among so many sheets

The specification, demand 3 and "The words of demand 3" (manual, section 4). `violations` checks
every clause on one accepted schedule, for one choice of inputs within their ends and one choice of
noise symbols. A row's range is there its answered range, as the second table holds it. It also
checks what the request 2026-06 says of the ranges that this one is made from. spoilt.py holds ways
to get rows and ranges wrong in which it must find violations.
"""

import math
import random
import sys
from fractions import Fraction

import evaluation
import generate
import intervals
import rows
import sheet

# The clauses of demand 3, in its order, and what a root asks for its exact value.
EQUAL_EXACTLY_WHEN = "the two are equal at every row exactly when each symbol has its found value"
FOUND = "every found value lies from -1 to 1"
DIVISOR = "no exact divisor is zero"
ROOT = "every exact value that a root names is at least a unit"
RANGE = "each exact value lies in its row's range"
SAME = "rows of one sheet with identical numbers have equal exact values"

# "It holds the exact value and is never empty."; so both ranges of which it is the overlap hold it.
OWN_RANGE = "each exact value lies in its row's own range"
PLAIN_RANGE = "each exact value lies in its row's plain range"
NEVER_EMPTY = "no row's answered range is empty"

# Exact values of long products have millions of digits; such a sheet is left out.
BITS_LIMIT = 4_000


class ZeroDivisor(Exception):
    """An exact divisor is zero."""


class NoRoot(Exception):
    """The exact value that a root names is below a unit."""


class TooLong(Exception):
    """An exact value has more bits than BITS_LIMIT."""


def exact_root(value: Fraction) -> Fraction:
    """"for an exact value of X units, the whole-number root of 4096 × X, rounded down": the greatest
    whole number whose square is at most 4096 × X, over 4096. A whole number's square is at most a
    fraction exactly when it is at most the fraction rounded down."""
    return Fraction(math.isqrt(math.floor(rows.UNIT * rows.UNIT * value)), rows.UNIT)


def exact_step(step, exact):
    """"The exact value of a step is its code's sum, difference, product or reciprocal of the exact
    values named, in fractions, a whole number meaning itself over 4096"; of code 6 the root."""
    if step.code == sheet.CONSTANT:
        return Fraction(step.value, rows.UNIT)
    first = exact[step.first - 1]
    if step.code == sheet.RECIPROCAL:
        if first == 0:
            raise ZeroDivisor
        return 1 / first
    if step.code == sheet.ROOT:
        if rows.UNIT * first < 1:
            raise NoRoot
        return exact_root(first)
    second = exact[step.second - 1]
    if step.code == sheet.ADD:
        return first + second
    if step.code == sheet.SUBTRACT:
        return first - second
    return first * second


def exact_values(schedule, inputs) -> list[Fraction]:
    """The exact value of each row; "that of an input is the fraction given"."""
    exact = list(inputs)
    for step in schedule.steps[: schedule.counts.steps]:
        value = exact_step(step, exact)
        if max(value.numerator.bit_length(), value.denominator.bit_length()) > BITS_LIMIT:
            raise TooLong
        exact.append(value)
    return exact


def form_value(row, symbols) -> Fraction:
    """"The form's value is the centre plus each coefficient times its symbol, or times the product
    of its pair's two symbols, all worked in fractions and divided by 4096; it is not rounded."

    Place i of `symbols` is symbol i's value; place 0 is not used."""
    total = Fraction(row[0])
    for i in rows.LINEAR_PLACES:
        if row[i]:
            total += row[i] * symbols[i]
    for (i, j), place in rows.PAIR_PLACE.items():
        if row[place]:
            total += row[place] * symbols[i] * symbols[j]
    return total / rows.UNIT


def found_values(form_rows, exact) -> dict[int, Fraction]:
    """"A symbol whose own coefficient is not zero has a found value, worked from the first row on.
    Give each earlier symbol its found value where it has one, and every other symbol 0. The row's
    exact value less its form's value there, times 4096, divided by the own coefficient, is the
    found value"."""
    found = {}
    symbols = [Fraction(0)] * (1 + rows.SYMBOLS)
    for number, (row, value) in enumerate(zip(form_rows, exact), 1):
        if row[number] != 0:
            found[number] = (value - form_value(row, symbols)) * rows.UNIT / row[number]
            symbols[number] = found[number]
    return found


def equal_at_every_row(form_rows, exact, symbols) -> bool:
    return all(form_value(row, symbols) == value for row, value in zip(form_rows, exact))


def equal_exactly_when_found(form_rows, exact, found, symbols) -> bool:
    """"The two are equal at every row exactly when each noise symbol whose own coefficient is not
    zero has its found value", at these symbols."""
    has_found = all(symbols[number] == value for number, value in found.items())
    return equal_at_every_row(form_rows, exact, symbols) == has_found


def symbol_choices(found, symbols):
    """The symbols given; the same with all found values put in; the same again with the first and
    the last found value missed by one part in seven."""
    at_found = [found.get(number, value) for number, value in enumerate(symbols)]
    yield symbols
    yield at_found
    for number in [*found][:1] + [*found][-1:]:
        missed = list(at_found)
        missed[number] += Fraction(1, 7)
        yield missed


def in_range(value: Fraction, low: int, high: int) -> bool:
    """"A fraction lies within ends, or in a range, if it is neither below the low one nor above
    the high one, each over 4096."."""
    return Fraction(low, rows.UNIT) <= value <= Fraction(high, rows.UNIT)


def each_in_range(exact, ranges) -> bool:
    return all(in_range(value, *ends) for value, ends in zip(exact, ranges))


def is_refused(schedule) -> bool:
    """Whether evaluation refuses a schedule. One that comes to a row without a range counts as
    accepted: that is a violation."""
    try:
        return evaluation.work(schedule).number != 0
    except intervals.NoRange:
        return False


def violations(schedule, inputs, symbols) -> list[str]:
    """The clauses that fail, for inputs within their ends and any symbols."""
    if is_refused(schedule):
        raise ValueError("demand 3 speaks of accepted sheets")
    if not all(in_range(value, *end) for value, end in zip(inputs, schedule.ends)):
        raise ValueError("demand 3 speaks of inputs within their ends")
    try:
        exact = exact_values(schedule, inputs)
    except ZeroDivisor:
        return [DIVISOR]
    except NoRoot:
        return [ROOT]
    count = evaluation.row_count(schedule)
    table, ranges = [0] * (rows.NUMBERS * count), [0] * (evaluation.RANGE_NUMBERS * count)
    try:
        evaluation.evaluate(schedule, table, ranges)
    except intervals.NoRange:
        return [NEVER_EMPTY]
    numbers = range(1, count + 1)
    form_rows = [evaluation.row_part(table, count, number) for number in numbers]
    found = found_values(form_rows, exact)
    answers = [evaluation.row_range(table, ranges, count, number) for number in numbers]
    worked = evaluation.work(schedule).rows
    failed = {
        EQUAL_EXACTLY_WHEN: not all(
            equal_exactly_when_found(form_rows, exact, found, choice)
            for choice in symbol_choices(found, symbols)
        ),
        FOUND: not all(-1 <= value <= 1 for value in found.values()),
        RANGE: not each_in_range(exact, [(answer.low, answer.high) for answer in answers]),
        SAME: any(
            evaluation.same_rows(table, count, first, second).same
            and exact[first - 1] != exact[second - 1]
            for second in numbers
            for first in range(1, second)
        ),
        OWN_RANGE: not each_in_range(exact, [row.own_range for row in worked]),
        PLAIN_RANGE: not each_in_range(exact, [row.plain_range for row in worked]),
        NEVER_EMPTY: any(answer.number for answer in answers),
    }
    return [clause for clause, fails in failed.items() if fails]


def any_inputs(rng, schedule) -> list[Fraction]:
    """Inputs within their ends: at an end, at the middle, anywhere between, or about a square."""
    ends = schedule.ends[: schedule.counts.inputs]
    parts = [rng.choice((0, 0, 1, 1, Fraction(1, 2), any_part(rng))) for _ in ends]
    inputs = [low + (high - low) * part for (low, high), part in zip(ends, parts)]
    return [about_square(rng, *end, units) / rows.UNIT for end, units in zip(ends, inputs)]


def about_square(rng, low: int, high: int, units) -> Fraction:
    """So many units, or moved to where 4096 times them is a square, or short of one by 1/1000: there
    the root, rounded down, loses nothing or nearly 1."""
    if units < 0 or rng.random() < 0.5:
        return Fraction(units)
    square = math.isqrt(math.floor(rows.UNIT * units)) ** 2
    moved = (square - rng.choice((0, Fraction(1, 1000), Fraction(1, 1000)))) / Fraction(rows.UNIT)
    return min(max(moved, Fraction(low)), Fraction(high))


def any_part(rng) -> Fraction:
    """A fraction from 0 to 1."""
    lower = rng.choice((2, 3, 7, 10, 1000))
    return Fraction(rng.randint(0, lower), lower)


def any_symbols(rng) -> list[Fraction]:
    """"its noise symbols whatever fractions at all"."""
    wide = rng.choice((1, 1, 5, 10**6))
    return [Fraction(rng.randint(-wide * 6, wide * 6), 6) for _ in range(1 + rows.SYMBOLS)]


def check_sheet(seed, index: int):
    """The violations on one generated sheet, or None where it is refused or too long to work."""
    answer = sheet.read(generate.sheet_bytes(seed, index))
    if answer.number or is_refused(answer.schedule):
        return None
    rng = random.Random(f"{seed}/{index}/inputs")
    inputs, symbols = any_inputs(rng, answer.schedule), any_symbols(rng)
    try:
        return violations(answer.schedule, inputs, symbols)
    except TooLong:
        return None


def main(seed: str, count: str) -> int:
    passed = failed = 0
    for index in range(int(count)):
        violated = check_sheet(seed, index)
        if violated:
            failed += 1
            print(f"seed {seed} index {index}: {'; '.join(violated)}")
        elif violated is not None:
            passed += 1
    print(f"{passed} passed, {failed} failed")
    return 1 if failed else 0


if __name__ == "__main__":
    sys.exit(main(*sys.argv[1:]))
