"""Rows and sheets got wrong in one place at a time: what the checker must be able to notice.

`spoilt(name)` is a context in which one module is wrong in the way named. In those of UNSOUND, in
`rows`, of UNSOUND_RANGES, in `evaluation`, and of UNSOUND_INTERVALS, in `intervals`, demand 3 fails,
and demand3.py must find a sheet where it does. Those of OTHER_NUMBERS, OTHER_RANGES and
OTHER_INTERVALS give other numbers than the specification, those of OTHER_SHEETS read otherwise: the
generated sheets must tell them all from the right ones, and the cases of sheet_cases.py the last.
Those of OTHER_CALLS are wrong in `evaluation`, those of OTHER_LISTINGS in `listing` and those of
OTHER_FORMULAS in `formula`, and the calls of library_calls.py must tell them, every fault of a range
(FAULTS_OF_RANGES), and those of OF_PRODUCTS and OF_ROOTS.
"""

import contextlib
import math
import re
import unittest.mock
from fractions import Fraction

import evaluation
import formula
import intervals
import listing
import rows
import sheet

REAL = {name: getattr(rows, name) for name in dir(rows) if callable(getattr(rows, name))}


def one_less(name):
    """The operation with its own coefficient one smaller."""

    def operation(*arguments):
        row = list(REAL[name](*arguments))
        own = arguments[-1]
        row[own] = max(row[own] - 1, 0)
        return row

    return {name: operation}


def on_shared_symbol(name):
    """The operation with its own coefficient moved to the last symbol. The row that owns that symbol
    itself is refused, so that sheets of the most rows play no part."""

    def operation(*arguments):
        own = arguments[-1]
        if own == rows.SYMBOLS:
            raise rows.RowRefusal(6)
        row = list(REAL[name](*arguments))
        row[own], moved = 0, row[own]
        row[rows.SYMBOLS] += moved
        return row

    return operation


def half_width_input(low_end, high_end, own):
    row = REAL["input_row"](low_end, high_end, own)
    row[own] = (high_end - low_end) // 2
    return row


def multiply_without_remainders(x, y, squares, own):
    row = REAL["multiply"](x, y, squares, own)
    row[own] = rows.up(rows.dropped_part(x, y, squares), rows.UNIT)
    return row


def multiply_with_own_rounded_down(x, y, squares, own):
    row = REAL["multiply"](x, y, squares, own)
    totals = rows.product_totals(x, y, squares)
    remainders = sum(map(rows.product_remainder, totals))
    row[own] = (rows.dropped_part(x, y, squares) + remainders) // rows.UNIT
    return row


def signed_remainder(total):
    return total - rows.UNIT * rows.product_quotient(total)


def error_without_dropped_part(x, candidate, squares):
    return REAL["candidate_error"](x, candidate, squares) - rows.dropped_part(x, candidate, squares)


def reciprocal_by_centre(x, own_range, squares, own):
    """The distance is that of the centre."""
    rows.distance_from_zero(own_range)
    return REAL["reciprocal"](x, rows.Range(x[0], x[0]), squares, own)


def root_by_centre(x, own_range, squares, own):
    """The low is the centre."""
    if own_range.low < 1:
        raise rows.RowRefusal(12)
    return REAL["root"](x, rows.Range(x[0], x[0]), squares, own)


def distance_of_far_end(own_range):
    REAL["distance_from_zero"](own_range)
    return max(map(abs, own_range))


def root_error_without_dropped_part(x, candidate, squares):
    error = REAL["square_error"](x, candidate, squares)
    return error - rows.dropped_part(candidate, candidate, squares)


def root_with_own(own_coefficient):
    """A root with its own coefficient from B and from the operand's own range."""

    def root(x, own_range, squares, own):
        row = list(REAL["root"](x, own_range, squares, own))
        row[own] = 0
        row[own] = own_coefficient(rows.square_error(x, row, squares), own_range)
        return rows.span_tested(row)

    return {"root": root}


def root_on(change):
    """A root with another own range of its operand; where its centre is below 1 it is refused, since
    no candidate is there."""

    def root(x, own_range, squares, own):
        if x[0] < 1:
            raise rows.RowRefusal(12)
        return REAL["root"](x, change(x, own_range), squares, own)

    return {"root": root}


def low_with_pairs_from_0(row):
    """Pairs of different symbols counted from 0, as if they were squares."""
    return REAL["low"](row) + sum(max(row[place], 0) for place in rows.MIXED_PLACES)


def low_without_squares(row):
    return REAL["low"](row) - sum(min(row[place], 0) for place in rows.SQUARED_PLACES)


def high_without_squares(row):
    return REAL["high"](row) - sum(max(row[place], 0) for place in rows.SQUARED_PLACES)


def totals_with_one_cross_product(x, y, squares):
    totals = REAL["product_totals"](x, y, squares)
    for place, i, j in rows.PAIRS_IN_USE[squares]:
        if i != j:
            totals[place] -= x[j] * y[i]
    return totals


def pairs_in_use_but(left_out):
    """The pairs in use without some of them."""
    return [[pair for pair in pairs if not left_out(*pair)] for pairs in rows.PAIRS_IN_USE]


UNSOUND = {
    "an input's own coefficient one smaller": one_less("input_row"),
    "a product's own coefficient one smaller": one_less("multiply"),
    "a reciprocal's own coefficient one smaller": one_less("reciprocal"),
    "a root's own coefficient without the 1 more": one_less("root"),
    "one symbol for the rounding of all steps": {
        "multiply": on_shared_symbol("multiply"),
        "reciprocal": on_shared_symbol("reciprocal"),
        "root": on_shared_symbol("root"),
    },
    "half the width as an input's own coefficient": {"input_row": half_width_input},
    "a product without its remainders": {"multiply": multiply_without_remainders},
    "remainders summed with their signs": {"product_remainder": signed_remainder},
    "a product's own coefficient rounded down": {"multiply": multiply_with_own_rounded_down},
    "no dropped part": {"dropped_part": lambda x, y, squares: 0},
    "B without the dropped part": {"candidate_error": error_without_dropped_part},
    "B divided by the far end": {"distance_from_zero": distance_of_far_end},
    "B of a root without the dropped part": {"square_error": root_error_without_dropped_part},
    "B of a root divided by the root of high": root_with_own(
        lambda error, own_range: rows.up(error, rows.unit_root(own_range.high)) + 1
    ),
    "a root's own coefficient rounded down": root_with_own(
        lambda error, own_range: error // rows.unit_root(own_range.low) + 1
    ),
    "a root where low is below 1": root_on(
        lambda x, own_range: own_range._replace(low=max(own_range.low, 1))
    ),
    "pairs of different symbols counted from 0": {"low": low_with_pairs_from_0},
    "low without negative squares": {"low": low_without_squares},
    "high without positive squares": {"high": high_without_squares},
    "one cross product missing": {"product_totals": totals_with_one_cross_product},
    "the pairs of the last input left out": {
        "PAIRS_IN_USE": pairs_in_use_but(lambda place, i, j: j == rows.SQUARES_LIMIT)
    },
    "the pair of the last two inputs left out": {
        "PAIRS_IN_USE": pairs_in_use_but(lambda place, i, j: rows.PAIRS[-2] == (i, j))
    },
    "the symbols of the last rows left out": {"LINEAR_PLACES": rows.LINEAR_PLACES[: -rows.SYMBOLS // 4]},
}


def toward_zero(dividend, divisor):
    quotient = abs(dividend) // abs(divisor)
    return quotient if (dividend < 0) == (divisor < 0) else -quotient


def to_nearest(dividend, divisor):
    return (2 * dividend + divisor) // (2 * divisor)


def halves_downward(total):
    return -((rows.UNIT // 2 - total) // rows.UNIT)


def halves_away_from_zero(total):
    return halves_downward(total) if total < 0 else REAL["product_quotient"](total)


def root_candidate_to_nearest(x):
    z = rows.unit_root(x[0])
    return [z, *(to_nearest(rows.UNIT // 2 * number, z) for number in x[1:])]


def candidate_by(divide, divide_pair):
    """A candidate with other divisions, by the same formula."""

    def candidate(x, squares):
        c = x[0]
        row = [0] * rows.NUMBERS
        row[0] = divide(rows.N, c)
        for i in rows.LINEAR_PLACES:
            row[i] = divide(-rows.N * x[i], c * c)
        for place, i, j in rows.PAIRS_IN_USE[squares]:
            row[place] = divide_pair(x, row, place, i, j)
        return row

    return {"candidate": candidate}


def floor(dividend, divisor):
    return dividend // divisor


def crossing(x, row, i, j):
    """The products that are taken from a candidate's pair."""
    return row[i] * x[i] if i == j else row[i] * x[j] + row[j] * x[i]


def first_quotient(x, place):
    return (-rows.N * x[place]) // x[0] ** 2


def right_pair(x, row, place, i, j):
    return first_quotient(x, place) + (-crossing(x, row, i, j)) // x[0]


def pair_in_one_division(x, row, place, i, j):
    return (-rows.N * x[place] - crossing(x, row, i, j) * x[0]) // x[0] ** 2


def pair_in_three_divisions(x, row, place, i, j):
    crossings = [row[i] * x[j]] if i == j else [row[i] * x[j], row[j] * x[i]]
    return first_quotient(x, place) + sum(-part // x[0] for part in crossings)


def pair_minus_rounded_quotient(x, row, place, i, j):
    return first_quotient(x, place) - crossing(x, row, i, j) // x[0]


def pair_minus_rounded_first_quotient(x, row, place, i, j):
    return -(rows.N * x[place] // x[0] ** 2) + (-crossing(x, row, i, j)) // x[0]


def pair_with_one_cross_product(x, row, place, i, j):
    return first_quotient(x, place) + (-row[i] * x[j]) // x[0]


def pair_without_its_own_coefficient(x, row, place, i, j):
    return (-crossing(x, row, i, j)) // x[0]


def pair_toward_zero(x, row, place, i, j):
    return first_quotient(x, place) + toward_zero(-crossing(x, row, i, j), x[0])


def linear_by_two_divisions(x, squares):
    row = REAL["candidate"](x, squares)
    for i in rows.LINEAR_PLACES:
        row[i] = (-rows.N * x[i] // x[0]) // x[0]
    return row


def low_with_squares_from_minus_1(row):
    return REAL["low"](row) - sum(max(row[place], 0) for place in rows.SQUARED_PLACES)


def high_with_squares_from_minus_1(row):
    return REAL["high"](row) - sum(min(row[place], 0) for place in rows.SQUARED_PLACES)


def dropped_part_whole(x, y, squares):
    return rows.absolute_sum(x[1:]) * rows.absolute_sum(y[1:])


def dropped_part_linear_only(x, y, squares):
    linear = slice(1, 1 + rows.SYMBOLS)
    used = slice(1, 1 + squares)
    return rows.absolute_sum(x[linear]) * rows.absolute_sum(y[linear]) - rows.absolute_sum(
        x[used]
    ) * rows.absolute_sum(y[used])


def error_with_totals_divided(x, candidate, squares):
    totals = [total // rows.UNIT * rows.UNIT for total in rows.product_totals(x, candidate, squares)]
    totals[0] -= rows.N
    return rows.absolute_sum(totals) + rows.dropped_part(x, candidate, squares)


def error_with_n_kept(x, candidate, squares):
    totals = rows.product_totals(x, candidate, squares)
    totals[0] = 0
    return rows.absolute_sum(totals) + rows.dropped_part(x, candidate, squares)


def multiply_without_remainder_of_centre(x, y, squares, own):
    row = REAL["multiply"](x, y, squares, own)
    totals = rows.product_totals(x, y, squares)
    remainders = sum(map(rows.product_remainder, totals[1:]))
    row[own] = rows.up(rows.dropped_part(x, y, squares) + remainders, rows.UNIT)
    return row


def multiply_with_roundings_apart(x, y, squares, own):
    row = REAL["multiply"](x, y, squares, own)
    totals = rows.product_totals(x, y, squares)
    remainders = sum(map(rows.product_remainder, totals))
    row[own] = rows.up(rows.dropped_part(x, y, squares), rows.UNIT) + rows.up(remainders, rows.UNIT)
    return rows.span_tested(row)


def reciprocal_with_6_first(x, own_range, squares, own):
    if x[0] != 0:
        rows.span_tested(rows.candidate(x, squares))
    return REAL["reciprocal"](x, own_range, squares, own)


def reciprocal_with_0_at_low(x, own_range, squares, own):
    if x[0] != 0 and own_range.low == 0:
        own_range = own_range._replace(low=1)
    return REAL["reciprocal"](x, own_range, squares, own)


def reciprocal_with_0_at_high(x, own_range, squares, own):
    if x[0] != 0 and own_range.high == 0:
        own_range = own_range._replace(high=-1)
    return REAL["reciprocal"](x, own_range, squares, own)


def reciprocal_tested_by_form(x, own_range, squares, own):
    """7 is tested by the form's range, and the distance taken from the operand's own."""
    rows.distance_from_zero(rows.form_range(x))
    return REAL["reciprocal"](x, own_range, squares, own)


def reciprocal_by_distance_of_form(x, own_range, squares, own):
    """7 is tested by the operand's own range, and the distance is that of the form, or 1."""
    rows.distance_from_zero(own_range)
    low, high = rows.form_range(x)
    formed = rows.Range(max(low, 1), high) if x[0] > 0 else rows.Range(low, min(high, -1))
    return REAL["reciprocal"](x, formed, squares, own)


def reciprocal_by_form(x, own_range, squares, own):
    """Test and distance are those of the form."""
    return REAL["reciprocal"](x, rows.form_range(x), squares, own)


def root_rounded_up(value):
    root = REAL["unit_root"](value)
    return root if root * root == rows.UNIT * value else root + 1


def root_candidate_by(centre=lambda z: z, half=rows.UNIT // 2, divide=floor):
    """A candidate of a root with another centre, another factor or another division."""

    def root_candidate(x):
        z = centre(rows.unit_root(x[0]))
        return [z, *(divide(half * number, z) for number in x[1:])]

    return {"root_candidate": root_candidate}


def root_candidate_divided_by_the_next(x):
    """The slopes are divided by the root rounded up."""
    z = REAL["unit_root"](x[0])
    return [z, *(rows.UNIT // 2 * number // (z + 1) for number in x[1:])]


def root_candidate_without_pairs(x):
    return REAL["root_candidate"](x)[: 1 + rows.SYMBOLS] + [0] * len(rows.PAIRS)


def root_error_from(change):
    """B with the totals of candidate times candidate, or what they are taken from, changed."""

    def square_error(x, candidate, squares):
        totals = rows.product_totals(candidate, candidate, squares)
        missed = change([rows.UNIT * number for number in x], totals)
        return rows.absolute_sum(missed) + rows.dropped_part(candidate, candidate, squares)

    return {"square_error": square_error}


def missed_without_centre(numbers, totals):
    return [p - q for p, q in zip(numbers[1:], totals[1:])]


def missed_from_divided_totals(numbers, totals):
    return [p - q // rows.UNIT * rows.UNIT for p, q in zip(numbers, totals)]


def missed_as_absolutes(numbers, totals):
    return [abs(p) - abs(q) for p, q in zip(numbers, totals)]


def root_with_6_first(x, own_range, squares, own):
    if x[0] > 0:
        rows.span_tested(rows.root_candidate(x))
    return REAL["root"](x, own_range, squares, own)


def root_refused_at_1(x, own_range, squares, own):
    if own_range.low == 1:
        raise rows.RowRefusal(12)
    return REAL["root"](x, own_range, squares, own)


def root_tested_by_form(x, own_range, squares, own):
    """12 is tested by the form's range, and the low taken from the operand's own."""
    if rows.form_range(x).low < 1:
        raise rows.RowRefusal(12)
    return REAL["root"](x, own_range, squares, own)


def root_by_low_of_form(x, own_range, squares, own):
    """12 is tested by the operand's own range, and the low is that of the form, or 1."""
    if own_range.low < 1:
        raise rows.RowRefusal(12)
    formed = rows.form_range(x)
    return REAL["root"](x, formed._replace(low=max(formed.low, 1)), squares, own)


def root_by_form(x, own_range, squares, own):
    """Test and low are those of the form."""
    return REAL["root"](x, rows.form_range(x), squares, own)


def root_refused_by_7(x, own_range, squares, own):
    if own_range.low < 1:
        raise rows.RowRefusal(7)
    return REAL["root"](x, own_range, squares, own)


def pairs_placed_for_one_input_fewer():
    """The pairs in use, each where it would stand if there were one input fewer: that of the first
    input and the last stands where that of the second input and itself does, and so on."""
    starts = [0, 0]
    for i in range(1, rows.SQUARES_LIMIT):
        starts.append(starts[i] + rows.SQUARES_LIMIT - i)
    first = 1 + rows.SYMBOLS
    return [[(first + starts[i] + j - i, i, j) for _, i, j in pairs] for pairs in rows.PAIRS_IN_USE]


def input_centre_toward_zero(low_end, high_end, own):
    row = REAL["input_row"](low_end, high_end, own)
    row[0] = toward_zero(low_end + high_end, 2)
    row[own] = max(high_end - row[0], row[0] - low_end)
    return row


# Reciprocals and roots by the form of their operand, where the ends of an input decide.
BY_FORM = {
    "the test of 7 by the form": {"reciprocal": reciprocal_tested_by_form},
    "a reciprocal's distance that of the form": {"reciprocal": reciprocal_by_distance_of_form},
    "a reciprocal by the form alone": {"reciprocal": reciprocal_by_form},
    "the test of 12 by the form": {"root": root_tested_by_form},
    "a root's low that of the form": {"root": root_by_low_of_form},
    "a root by the form alone": {"root": root_by_form},
}

OTHER_NUMBERS = BY_FORM | {
    "a product rounded down": {"product_quotient": lambda total: total // rows.UNIT},
    "a product rounded toward zero": {"product_quotient": lambda total: toward_zero(total, rows.UNIT)},
    "exact halves downward": {"product_quotient": halves_downward},
    "exact halves away from zero": {"product_quotient": halves_away_from_zero},
    "exact halves to even": {"product_quotient": lambda total: round(Fraction(total, rows.UNIT))},
    "remainders of the quotient rounded down": {"product_remainder": lambda total: total % rows.UNIT},
    "a candidate rounded toward zero": candidate_by(toward_zero, right_pair),
    "a candidate rounded to the nearest": candidate_by(to_nearest, right_pair),
    "a root's slope rounded to the nearest": {"root_candidate": root_candidate_to_nearest},
    "a candidate's pair rounded toward zero": candidate_by(floor, pair_toward_zero),
    "a candidate's pair in one division": candidate_by(floor, pair_in_one_division),
    "a candidate's pair in three divisions": candidate_by(floor, pair_in_three_divisions),
    "a candidate's pair less a rounded quotient": candidate_by(floor, pair_minus_rounded_quotient),
    "minus outside the division by c²": candidate_by(floor, pair_minus_rounded_first_quotient),
    "a candidate's pair with one cross product": candidate_by(floor, pair_with_one_cross_product),
    "a candidate's pair without the operand's": candidate_by(
        floor, pair_without_its_own_coefficient
    ),
    "a candidate's linear part by two divisions": {"candidate": linear_by_two_divisions},
    "low with squares from -1": {"low": low_with_squares_from_minus_1},
    "high with squares from -1": {"high": high_with_squares_from_minus_1},
    "the dropped part without the subtraction": {"dropped_part": dropped_part_whole},
    "the dropped part of linear absolutes alone": {"dropped_part": dropped_part_linear_only},
    "B from divided totals": {"candidate_error": error_with_totals_divided},
    "B without the centre's total": {"candidate_error": error_with_n_kept},
    "B divided by the centre": {"reciprocal": reciprocal_by_centre},
    "a product without the centre's remainder": {"multiply": multiply_without_remainder_of_centre},
    "a product with two roundings up": {"multiply": multiply_with_roundings_apart},
    "6 before 7": {"reciprocal": reciprocal_with_6_first},
    "a reciprocal where low is 0": {"reciprocal": reciprocal_with_0_at_low},
    "a reciprocal where high is 0": {"reciprocal": reciprocal_with_0_at_high},
    "whole-number roots rounded up": {"unit_root": root_rounded_up},
    "a root's centre one more": root_candidate_by(centre=lambda z: z + 1),
    "a root's centre one less": root_candidate_by(centre=lambda z: z - 1),
    "a root's slopes toward zero": root_candidate_by(divide=toward_zero),
    "a root's slopes rounded up": root_candidate_by(divide=rows.up),
    "a root's slopes by 4096": root_candidate_by(half=rows.UNIT),
    "a root's slopes divided by the root rounded up": {
        "root_candidate": root_candidate_divided_by_the_next
    },
    "a root without pairs": {"root_candidate": root_candidate_without_pairs},
    "B of a root without the centre": root_error_from(missed_without_centre),
    "B of a root from divided totals": root_error_from(missed_from_divided_totals),
    "B of a root from absolutes": root_error_from(missed_as_absolutes),
    "B of a root divided by the root of the centre": {"root": root_by_centre},
    "a root's own coefficient 0 where B is 0": root_with_own(
        lambda error, own_range: error and rows.up(error, rows.unit_root(own_range.low)) + 1
    ),
    "a root's 1 more added before the division": root_with_own(
        lambda error, own_range: rows.up(error + 1, rows.unit_root(own_range.low))
    ),
    "6 before 12": {"root": root_with_6_first},
    "a root where low is 0": root_on(
        lambda x, own_range: own_range._replace(low=own_range.low or 1)
    ),
    "a root refused where low is 1": {"root": root_refused_at_1},
    "a root refused by 7": {"root": root_refused_by_7},
    "the span limit one more": {"SPAN_LIMIT": rows.SPAN_LIMIT + 1},
    "the span limit one less": {"SPAN_LIMIT": rows.SPAN_LIMIT - 1},
    "an input's centre toward zero": {"input_row": input_centre_toward_zero},
    "one square more in use": {"PAIRS_IN_USE": rows.PAIRS_IN_USE[1:] + rows.PAIRS_IN_USE[-1:]},
    "one square less in use": {"PAIRS_IN_USE": rows.PAIRS_IN_USE[:1] + rows.PAIRS_IN_USE[:-1]},
    "pairs placed for one input fewer": {"PAIRS_IN_USE": pairs_placed_for_one_input_fewer()},
}


# Every fault of a root.
ROOT_PARTS = {"root", "root_candidate", "square_error", "unit_root"}
PRODUCT_PARTS = {"multiply", "product_quotient", "product_remainder"}
OF_PRODUCTS = {
    name: parts for name, parts in (UNSOUND | OTHER_NUMBERS).items() if PRODUCT_PARTS & parts.keys()
}
OF_ROOTS = {name: parts for name, parts in (UNSOUND | OTHER_NUMBERS).items() if ROOT_PARTS & parts.keys()}


class WithoutEnd(sheet.TextLines):
    def end(self):
        """Bytes that follow the last line are not looked at."""


class WithoutLastByte10(sheet.TextLines):
    def __init__(self, data):
        super().__init__(data if data.endswith(b"\n") else data + b"\n")


class WithCarriageReturns(sheet.TextLines):
    def content(self):
        return super().content().removesuffix(b"\r")


class WithAnyBlanks(sheet.TextLines):
    def numbers(self, count):
        fields = self.content().split()
        if len(fields) != count or not all(sheet.NUMBER.fullmatch(field) for field in fields):
            raise sheet.Refusal(2, self.line)
        return [int(field) for field in fields]


class WithMoreFields(sheet.TextLines):
    def numbers(self, count):
        fields = self.content().split(b" ")
        if len(fields) < count or not all(map(sheet.NUMBER.fullmatch, fields[:count])):
            raise sheet.Refusal(2, self.line)
        return [int(field) for field in fields[:count]]


class WithNamesByLength(sheet.TextLines):
    def names(self, expected):
        if len(self.content()) != len(expected):
            raise sheet.Refusal(2, self.line)


class WithFirstFieldTestedFirst(sheet.TextLines):
    """A first number beyond every limit gives 3, 4 or 5 before the rest of its line is read."""

    def numbers(self, count):
        first = self.data[self.start :].split(b"\n")[0].split(b" ")[0]
        if sheet.NUMBER.fullmatch(first) and abs(int(first)) > sheet.END_LIMIT:
            raise sheet.Refusal({3: 3, 2: 4, 4: 5}[count], self.line + 1)
        return super().numbers(count)


def counts_with_squares_to_the_limit(counts):
    within = 0 <= counts.squares <= sheet.INPUTS_LIMIT
    return REAL_SHEET["counts_in_order"](counts._replace(squares=0 if within else counts.squares))


def ends_of_some_width(ends):
    return REAL_SHEET["ends_in_order"](ends) and ends.low < ends.high


def ends_in_any_order(ends):
    return sheet.within_limits(ends.low) and sheet.within_limits(ends.high)


def step_naming_itself(step, row):
    return REAL_SHEET["step_in_order"](step, row + 1)


def step_naming_row_0(step, row):
    if step.code != sheet.CONSTANT:
        step = step._replace(first=step.first or 1)
    return REAL_SHEET["step_in_order"](step, row)


def step_with_any_second(step, row):
    if step.code in (sheet.CONSTANT, sheet.RECIPROCAL, sheet.ROOT):
        step = step._replace(second=0)
    return REAL_SHEET["step_in_order"](step, row)


def step_with_any_value(step, row):
    if step.code != sheet.CONSTANT:
        step = step._replace(value=0)
    return REAL_SHEET["step_in_order"](step, row)


def root_step_with(**changes):
    """A root with other fields is looked at."""

    def step_in_order(step, row):
        step = step._replace(**changes) if step.code == sheet.ROOT else step
        return REAL_SHEET["step_in_order"](step, row)

    return {"step_in_order": step_in_order}


def root_of_itself(step, row):
    return REAL_SHEET["step_in_order"](step, row + (step.code == sheet.ROOT))


def root_of_row_0(step, row):
    if step.code == sheet.ROOT:
        step = step._replace(first=step.first or 1)
    return REAL_SHEET["step_in_order"](step, row)


def code_7_as_a_root(step, row):
    step = step._replace(code=sheet.ROOT) if step.code == 7 else step
    return REAL_SHEET["step_in_order"](step, row)


def root_with_two_rows(step, row):
    """A root is looked at as a product is."""
    step = step._replace(code=sheet.MULTIPLY) if step.code == sheet.ROOT else step
    return REAL_SHEET["step_in_order"](step, row)


def step_with_any_first_for_constant(step, row):
    if step.code == sheet.CONSTANT:
        step = step._replace(first=0)
    return REAL_SHEET["step_in_order"](step, row)


REAL_SHEET = {
    name: getattr(sheet, name) for name in ("counts_in_order", "ends_in_order", "step_in_order")
}

OTHER_SHEETS = {
    "-0 is a number": {"NUMBER": re.compile(rb"-?0|-?[1-9][0-9]{0,9}")},
    "a leading zero is read": {"NUMBER": re.compile(rb"0|-?[0-9]{1,10}")},
    "a plus is read": {"NUMBER": re.compile(rb"0|[-+]?[1-9][0-9]{0,9}")},
    "11 digits are read": {"NUMBER": re.compile(rb"0|-?[1-9][0-9]{0,10}")},
    "9 digits at most": {"NUMBER": re.compile(rb"0|-?[1-9][0-9]{0,8}")},
    "1,023 bytes at most": {"SHEET_LIMIT": 1023},
    "1,025 bytes are read": {"SHEET_LIMIT": 1025},
    "bytes may follow the last line": {"TextLines": WithoutEnd},
    "the last byte 10 may be missing": {"TextLines": WithoutLastByte10},
    "a line may end in 13 and 10": {"TextLines": WithCarriageReturns},
    "any blanks between fields": {"TextLines": WithAnyBlanks},
    "more fields than a line has": {"TextLines": WithMoreFields},
    "names of the right length": {"TextLines": WithNamesByLength},
    "3, 4 or 5 before 2": {"TextLines": WithFirstFieldTestedFirst},
    "one input less": {"INPUTS_LIMIT": sheet.INPUTS_LIMIT - 1},
    "one input more": {"INPUTS_LIMIT": sheet.INPUTS_LIMIT + 1},
    "one step less": {"STEPS_LIMIT": sheet.STEPS_LIMIT - 1},
    "one step more": {"STEPS_LIMIT": sheet.STEPS_LIMIT + 1},
    "squares above inputs": {"counts_in_order": counts_with_squares_to_the_limit},
    "ends one further": {"END_LIMIT": sheet.END_LIMIT + 1},
    "ends one less far": {"END_LIMIT": sheet.END_LIMIT - 1},
    "ends of zero width refused": {"ends_in_order": ends_of_some_width},
    "low above high": {"ends_in_order": ends_in_any_order},
    "a step that names itself": {"step_in_order": step_naming_itself},
    "a step that names row 0": {"step_in_order": step_naming_row_0},
    "second not looked at where unused": {"step_in_order": step_with_any_second},
    "value not looked at where unused": {"step_in_order": step_with_any_value},
    "first not looked at where unused": {"step_in_order": step_with_any_first_for_constant},
    "code 6 refused": root_step_with(code=0),
    "code 7 read as a root": {"step_in_order": code_7_as_a_root},
    "a root with any second": root_step_with(second=0),
    "a root with any value": root_step_with(value=0),
    "a root of itself": {"step_in_order": root_of_itself},
    "a root of row 0": {"step_in_order": root_of_row_0},
    "a root of two rows": {"step_in_order": root_with_two_rows},
}


def narrower_input_range(schedule, row, numbers):
    """The high end of an input is left out."""
    low, high = REAL_CALLS["own_range"](schedule, row, numbers)
    return rows.Range(low, max(low, high - 1) if row <= schedule.counts.inputs else high)


def store_numbers_alone(worked, table, ranges):
    """The second table is left alone."""
    REAL_CALLS["store"](worked, table, list(ranges))


def store_ranges_of_rows_before(worked, table, ranges):
    """A row's place in the second table has the range of the row before it."""
    before = [row.answered_range for row in [*worked[:1], *worked]]
    moved = [row._replace(answered_range=earlier) for row, earlier in zip(worked, before)]
    REAL_CALLS["store"](moved, table, ranges)


def stored_as(change):
    """The rows are stored with other ranges in the second table."""

    def store(worked, table, ranges):
        stored = [row._replace(answered_range=change(row)) for row in worked]
        REAL_CALLS["store"](stored, table, ranges)

    return {"store": store}


def range_of_form(schedule, row, numbers):
    return rows.form_range(numbers)


def code_of(schedule, row):
    """The code of a step's row, and 0 of an input's."""
    inputs = schedule.counts.inputs
    return schedule.steps[row - inputs - 1].code if row > inputs else 0


def numbers_with(code, change):
    """The rows of one code are worked with another own range of their operand: the change is handed
    the operand's row, and answers a range."""

    def input_or_step_numbers(schedule, row, worked):
        if code_of(schedule, row) == code:
            worked = [earlier._replace(own_range=change(earlier)) for earlier in worked]
        return REAL_CALLS["input_or_step_numbers"](schedule, row, worked)

    return {"input_or_step_numbers": input_or_step_numbers}


def holds_0(ends):
    return ends.low <= 0 <= ends.high


def overlap_for_distance(row):
    """7 is tested by the own range, and the distance is that of the overlap."""
    return row.own_range if holds_0(row.own_range) else row.answered_range


def overlap_for_7(row):
    """7 is tested by the overlap, and the distance is that of the own range where it has one."""
    return row.answered_range if holds_0(row.own_range) and row.numbers[0] else row.own_range


def overlap_for_low(row):
    """12 is tested by the own range, and the low is that of the overlap."""
    return row.own_range if row.own_range.low < 1 else row.answered_range


def overlap_for_12(row):
    """12 is tested by the overlap, and the low is that of the own range where it has one."""
    return row.answered_range if row.own_range.low < 1 <= row.numbers[0] else row.own_range


def plain_range_of_own_ranges(schedule, row, worked):
    """The plain range is made from the own ranges of the operands."""
    before = [earlier._replace(answered_range=earlier.own_range) for earlier in worked]
    return REAL_CALLS["plain_range"](schedule, row, before)


def plain_range_but_of(code):
    """The rows of one code have no plain range, so that their own is answered."""

    def plain_range(schedule, row, worked):
        if code_of(schedule, row) == code:
            return rows.Range(-(2**99), 2**99)
        return REAL_CALLS["plain_range"](schedule, row, worked)

    return {"plain_range": plain_range}


def plain_range_of_squares(schedule, row, worked):
    """A row times itself starts at 0 or above."""
    plain = REAL_CALLS["plain_range"](schedule, row, worked)
    step = schedule.steps[row - schedule.counts.inputs - 1]
    if code_of(schedule, row) == sheet.MULTIPLY and step.first == step.second:
        return plain._replace(low=max(plain.low, 0))
    return plain


def range_beside_row(table, ranges, count, row):
    """The range of the row that follows, or of the last."""
    answer = REAL_CALLS["row_range"](table, ranges, count, row)
    if answer.number:
        return answer
    return evaluation.RangeAnswer(0, 0, *evaluation.ends_of(ranges, min(row + 1, count)))


def range_of_first_table(table, ranges, count, row):
    """The range is worked from the numbers of the first table."""
    answer = REAL_CALLS["row_range"](table, ranges, count, row)
    if answer.number:
        return answer
    return evaluation.RangeAnswer(0, 0, *rows.form_range(evaluation.numbers_of(table, row)))


def refusal_in(order, rows_limit=evaluation.ROWS_LIMIT, wrapping=2**70, rows_order=sorted):
    """The refusal of an asking call with its causes in another order, counts to another limit,
    sums that wrap, or the rows asked for in another order."""

    def refusal(table, count, asked, ranges=None):
        def by_9():
            return (9, 0) if count > rows_limit or not all(0 < n <= count for n in asked) else None

        def by_8():
            needed = rows.NUMBERS * count % wrapping
            short = ranges is not None and len(ranges) < evaluation.RANGE_NUMBERS * count % wrapping
            return (8, 0) if short or len(table) < needed else None

        def by_6():
            for row in rows_order(asked):
                numbers = evaluation.numbers_of(table, row) if row else []
                reversed_ends = ranges is not None and ends_reversed(ranges, row, wrapping)
                if rows.span(numbers) % wrapping > rows.SPAN_LIMIT or reversed_ends:
                    return (6, row)
            return None

        tests = {9: by_9, 8: by_8, 6: by_6}
        answers = [tests[number]() for number in order]
        return evaluation.Answer(*next(filter(None, answers), (0, 0)))

    return refusal


def ends_reversed(ranges, row, wrapping):
    """Whether the low end that stands for a row is above the high end, by a difference that wraps."""
    ends = ranges[evaluation.RANGE_NUMBERS * (row - 1) :][:2] if row else []
    return len(ends) == 2 and (ends[1] - ends[0] + wrapping // 2) % wrapping < wrapping // 2


def asking_refusal_in(*order, **changes):
    return {"asking_refusal": refusal_in(order, **changes)}


def ends_or_zeros(ranges, row):
    """The ends that stand for a row; 0 where the table does not go so far."""
    return REAL_CALLS["ends_of"]([*ranges, *[0] * listing.RANGES_LENGTH], row)


def range_refusal_in(*order, **changes):
    refusal = refusal_in(order, **changes)

    def range_refusal(table, ranges, count, row):
        return refusal(table, count, [row], ranges)

    return {"range_refusal": range_refusal, "ends_of": ends_or_zeros}


def range_refusal_on(change):
    """A range is refused as it would be with other tables: the change is handed the tables and the
    row asked for, and answers tables."""

    def range_refusal(table, ranges, count, row):
        return REAL_CALLS["range_refusal"](*change(list(table), list(ranges), row), count, row)

    return {"range_refusal": range_refusal, "ends_of": ends_or_zeros}


def with_ends(change):
    """The ends of the row asked for changed in the second table."""

    def changed(table, ranges, row):
        if len(ranges) >= 2 * row > 0:
            ranges[2 * row - 2 : 2 * row] = change(*ranges[2 * row - 2 : 2 * row])
        return table, ranges

    return changed


def refused_by_any_row(table, ranges, count, row):
    """A low above its high is 6 wherever it stands in the rows of the count."""
    refusal = REAL_CALLS["range_refusal"](table, ranges, count, row)
    if refusal.number:
        return refusal
    ends = [evaluation.ends_of(ranges, number) for number in range(1, count + 1)]
    reversed_rows = [number for number, (low, high) in enumerate(ends, 1) if low > high]
    return evaluation.Answer(6, reversed_rows[0]) if reversed_rows else refusal


def same_by_ranges(table, count, first, second):
    answer = REAL_CALLS["same_rows"](table, count, first, second)
    if answer.number:
        return answer
    ends = [rows.form_range(evaluation.numbers_of(table, row)) for row in (first, second)]
    return answer._replace(same=ends[0] == ends[1])


def same_by_first_numbers(table, count, first, second):
    answer = REAL_CALLS["same_rows"](table, count, first, second)
    parts = [evaluation.numbers_of(table, row)[:-1] for row in (first, second)]
    return answer._replace(same=not answer.number and parts[0] == parts[1])


def evaluate_with_8_first(schedule, table, ranges):
    if evaluation.too_short(table, ranges, evaluation.row_count(schedule)):
        return evaluation.Answer(8, 0)
    return REAL_CALLS["evaluate"](schedule, table, ranges)


def evaluate_needing(table_length, ranges_length):
    """Tables of so many numbers are needed, whatever the rows."""

    def evaluate(schedule, table, ranges):
        answer = REAL_CALLS["evaluate"](schedule, list(table), list(ranges))
        short = len(table) < table_length or len(ranges) < ranges_length
        if answer.number in (0, *ROW_CAUSES) and short:
            return evaluation.Answer(8, 0)
        return REAL_CALLS["evaluate"](schedule, table, ranges)

    return {"evaluate": evaluate}


def evaluate_without_measuring(schedule, table, ranges):
    """The second table is written as far as it goes."""
    room = [0] * max(0, listing.RANGES_LENGTH - len(ranges))
    longer = ranges + room
    answer = REAL_CALLS["evaluate"](schedule, table, longer)
    ranges[:] = longer[: len(ranges)]
    return answer


# The causes for which a row does not come about.
ROW_CAUSES = (6, 7, 12)


def clear_row(table, width, row):
    table[width * (row - 1) : width * row] = [0] * width


def evaluate_and_fill(first, second, causes=ROW_CAUSES):
    """After these causes the row refused is filled with 0, in the tables named."""

    def evaluate(schedule, table, ranges):
        answer = REAL_CALLS["evaluate"](schedule, table, ranges)
        if answer.number in causes and first:
            clear_row(table, rows.NUMBERS, answer.place)
        if answer.number in causes and second:
            clear_row(ranges, evaluation.RANGE_NUMBERS, answer.place)
        return answer

    return {"evaluate": evaluate}


def evaluate_and_undo(first, second, causes=ROW_CAUSES):
    """After these causes no row is written, in the tables named."""

    def evaluate(schedule, table, ranges):
        before = list(table), list(ranges)
        answer = REAL_CALLS["evaluate"](schedule, table, ranges)
        if answer.number in causes and first:
            table[:] = before[0]
        if answer.number in causes and second:
            ranges[:] = before[1]
        return answer

    return {"evaluate": evaluate}


def evaluate_and_write_before_8(schedule, table, ranges):
    """Where the second table is too short, the first one is written all the same."""
    answer = REAL_CALLS["evaluate"](schedule, table, ranges)
    if answer.number == 8:
        REAL_CALLS["evaluate"](schedule, table, [0] * listing.RANGES_LENGTH)
    return answer


def store_without_the_last(worked, table, ranges):
    """The last of the most rows is not written."""
    REAL_CALLS["store"](worked[: evaluation.ROWS_LIMIT - 1], table, ranges)


def evaluate_one_number_further(schedule, table, ranges):
    answer = REAL_CALLS["evaluate"](schedule, table, ranges)
    needed = rows.NUMBERS * evaluation.row_count(schedule)
    if not answer.number and len(table) > needed:
        table[needed] = 0
    return answer


def evaluate_one_end_further(schedule, table, ranges):
    answer = REAL_CALLS["evaluate"](schedule, table, ranges)
    needed = evaluation.RANGE_NUMBERS * evaluation.row_count(schedule)
    if not answer.number and len(ranges) > needed:
        ranges[needed] = 0
    return answer


REAL_CALLS = {
    name: getattr(evaluation, name)
    for name in (
        "evaluate", "same_rows", "row_range", "range_refusal", "own_range", "ends_of", "store",
        "plain_range", "input_or_step_numbers",
    )
}

UNSOUND_RANGES = {
    "an input's range one narrower": {"own_range": narrower_input_range},
    "the second table left alone": {"store": store_numbers_alone},
    "ranges of the rows before": {"store": store_ranges_of_rows_before},
    "a range of its low end alone": stored_as(lambda row: row.answered_range[:1] * 2),
}

OTHER_RANGES = {
    "an input's range taken from its form": {"own_range": range_of_form},
    "an input's range stored from its form": stored_as(lambda row: rows.form_range(row.numbers)),
    "low and high stored in the other order": stored_as(lambda row: row.answered_range[::-1]),
    "the own range alone answered": {"answered_range": lambda own, plain: own},
    "the plain range alone answered": stored_as(lambda row: row.plain_range),
    "a plain range from the own ranges of the operands": {"plain_range": plain_range_of_own_ranges},
    "no plain range of a sum": plain_range_but_of(sheet.ADD),
    "no plain range of a difference": plain_range_but_of(sheet.SUBTRACT),
    "no plain range of a product": plain_range_but_of(sheet.MULTIPLY),
    "no plain range of a reciprocal": plain_range_but_of(sheet.RECIPROCAL),
    "no plain range of a root": plain_range_but_of(sheet.ROOT),
    "a plain range of squares from 0": {"plain_range": plain_range_of_squares},
    "a reciprocal's distance that of the overlap": numbers_with(
        sheet.RECIPROCAL, overlap_for_distance
    ),
    "the test of 7 by the overlap": numbers_with(sheet.RECIPROCAL, overlap_for_7),
    "a root's low that of the overlap": numbers_with(sheet.ROOT, overlap_for_low),
    "the test of 12 by the overlap": numbers_with(sheet.ROOT, overlap_for_12),
}


def difference_end_by_end(x, y):
    """Low less low, and high less high."""
    return rows.Range(min(x.low - y.low, x.high - y.high), max(x.low - y.low, x.high - y.high))


def product_without(forgotten):
    """One of the four products of ends is forgotten: that of low and low 0, low and high 1, high and
    low 2, high and high 3."""

    def multiply(x, y):
        products = [first * second for first in x for second in y]
        del products[forgotten]
        return rows.Range(min(products) // rows.UNIT, rows.up(max(products), rows.UNIT))

    return {"multiply": multiply}


def product_by(down=floor, up=rows.up):
    """A product with other divisions."""

    def multiply(x, y):
        products = [first * second for first in x for second in y]
        return rows.Range(down(min(products), rows.UNIT), up(max(products), rows.UNIT))

    return {"multiply": multiply}


def reciprocal_by(down=floor, up=rows.up):
    """A reciprocal with other divisions."""

    def reciprocal(x):
        REAL_INTERVALS["reciprocal"](x)
        return rows.Range(down(rows.N, x.high), up(rows.N, x.low))

    return {"reciprocal": reciprocal}


def down_and_one(dividend, divisor):
    return dividend // divisor + 1


def up_less_one(dividend, divisor):
    return rows.up(dividend, divisor) - 1


def interval_root_by(low=math.isqrt, high=math.isqrt):
    """A root with other roundings, its low end at most its high end."""

    def root(x):
        REAL_INTERVALS["root"](x)
        high_end = high(rows.UNIT * x.high)
        return rows.Range(min(low(rows.UNIT * x.low), high_end), high_end)

    return {"root": root}


def root_up(square):
    root = math.isqrt(square)
    return root if root * root == square else root + 1


def union(x, y):
    return rows.Range(min(x.low, y.low), max(x.high, y.high))


REAL_INTERVALS = {name: getattr(intervals, name) for name in ("reciprocal", "root")}

UNSOUND_INTERVALS = {
    "a difference of low and low, high and high": {"subtract": difference_end_by_end},
    "a product without low times low": product_without(0),
    "a product without low times high": product_without(1),
    "a product without high times low": product_without(2),
    "a product without high times high": product_without(3),
    "a product's low end rounded up": product_by(down=rows.up),
    "a product's high end rounded down": product_by(up=floor),
    "a product's high end left out": product_by(up=up_less_one),
    "a product's ends rounded toward zero": product_by(toward_zero, toward_zero),
    "a product's ends rounded to the nearest": product_by(to_nearest, to_nearest),
    "a reciprocal's low end rounded up": reciprocal_by(down=rows.up),
    "a reciprocal's high end rounded down": reciprocal_by(up=floor),
    "a reciprocal's ends rounded toward zero": reciprocal_by(toward_zero, toward_zero),
    "a root's low end rounded up": interval_root_by(low=root_up),
}

OTHER_INTERVALS = {
    "the union for the overlap": {"overlap": union},
    "a product's exact high end one higher": product_by(up=down_and_one),
    "a reciprocal's exact high end one higher": reciprocal_by(up=down_and_one),
    "a root's high end rounded up": interval_root_by(high=root_up),
}

# Every fault of a range, own, plain or answered.
FAULTS_OF_RANGES = (
    UNSOUND_RANGES | OTHER_RANGES | UNSOUND_INTERVALS | OTHER_INTERVALS | BY_FORM
)

OTHER_CALLS = {
    "8 before 9": asking_refusal_in(8, 9, 6),
    "6 before 8": asking_refusal_in(9, 6, 8),
    "a count above the limit": asking_refusal_in(9, 8, 6, rows_limit=evaluation.ROWS_LIMIT + 1),
    "a count below the limit at most": asking_refusal_in(
        9, 8, 6, rows_limit=evaluation.ROWS_LIMIT - 1
    ),
    "sums that wrap at 2^64": asking_refusal_in(9, 8, 6, wrapping=2**64),
    "sums that wrap at 2^32": asking_refusal_in(9, 8, 6, wrapping=2**32),
    "6 of the higher row first": asking_refusal_in(
        9, 8, 6, rows_order=lambda asked: sorted(asked, reverse=True)
    ),
    "6 of the row named first": asking_refusal_in(9, 8, 6, rows_order=list),
    "a range with 8 before 9": range_refusal_in(8, 9, 6),
    "a range with 6 before 8": range_refusal_in(9, 6, 8),
    "a range of a count above the limit": range_refusal_in(
        9, 8, 6, rows_limit=evaluation.ROWS_LIMIT + 1
    ),
    "a range of a count below the limit at most": range_refusal_in(
        9, 8, 6, rows_limit=evaluation.ROWS_LIMIT - 1
    ),
    "a range with sums that wrap at 2^64": range_refusal_in(9, 8, 6, wrapping=2**64),
    "a range with sums that wrap at 2^32": range_refusal_in(9, 8, 6, wrapping=2**32),
    "a range whose second table is not measured": range_refusal_on(
        lambda table, ranges, row: (table, ranges + [0] * listing.RANGES_LENGTH)
    ),
    "a range whose first table is not measured": range_refusal_on(
        lambda table, ranges, row: (table + [0] * listing.TABLE_LENGTH, ranges)
    ),
    "low above high answered": range_refusal_on(with_ends(lambda low, high: (low, low))),
    "low at high refused": range_refusal_on(with_ends(lambda low, high: (low, high - 1))),
    "low one above high answered": range_refusal_on(with_ends(lambda low, high: (low - 1, high))),
    "low above high of any row refused": {"range_refusal": refused_by_any_row},
    "a range of a row over the span": range_refusal_on(
        lambda table, ranges, row: ([0] * len(table), ranges)
    ),
    "a range read from the first table": {"row_range": range_of_first_table},
    "a range read one row further": {"row_range": range_beside_row},
    "rows the same by their ranges": {"same_rows": same_by_ranges},
    "rows the same without their last number": {"same_rows": same_by_first_numbers},
    "8 before 3, 4, 5": {"evaluate": evaluate_with_8_first},
    "a full table needed": evaluate_needing(listing.TABLE_LENGTH, 0),
    "a full second table needed": evaluate_needing(0, listing.RANGES_LENGTH),
    "the second table not measured": {"evaluate": evaluate_without_measuring},
    "the first table written where the second is too short": {
        "evaluate": evaluate_and_write_before_8
    },
    "the refused row cleared": evaluate_and_fill(True, False),
    "the refused row cleared in the second table": evaluate_and_fill(False, True),
    "no row written beside a refusal": evaluate_and_undo(True, False),
    "no range written beside a refusal": evaluate_and_undo(False, True),
    "the row refused by 12 cleared": evaluate_and_fill(True, False, (12,)),
    "the row refused by 12 cleared in the second table": evaluate_and_fill(False, True, (12,)),
    "no row written beside a 12": evaluate_and_undo(True, False, (12,)),
    "no range written beside a 12": evaluate_and_undo(False, True, (12,)),
    "the last of the most rows not written": {"store": store_without_the_last},
    "a number written beyond the rows": {"evaluate": evaluate_one_number_further},
    "a number written beyond the ranges": {"evaluate": evaluate_one_end_further},
}


def list_and_work_first(data, table, ranges, text):
    """The tables are touched where the text is too short."""
    if len(text) < listing.TEXT_ROOM:
        listing.printed_text(data, table, ranges)
    return REAL_LISTING["list_into"](data, table, ranges, text)


def list_with_a_byte_behind(data, table, ranges, text):
    """A byte 0 is written behind the text."""
    answer = REAL_LISTING["list_into"](data, table, ranges, text)
    if answer.length:
        text[answer.length] = 0
    return answer


def list_and_clear(data, table, ranges, text):
    """Every byte lent is 0 before the text is written."""
    if len(text) >= listing.TEXT_ROOM:
        text[:] = bytes(len(text))
    return REAL_LISTING["list_into"](data, table, ranges, text)


def list_refusing_short_tables(data, table, ranges, text):
    """A table too short is refused as bytes too short are, with no text."""
    before = bytes(text)
    answer = REAL_LISTING["list_into"](data, table, ranges, text)
    if text.startswith(b"refused place\n8 "):
        text[:] = before
        return sheet.WriteAnswer(8, 0, 0)
    return answer


def list_with_ranges_apart(data, table, ranges, text):
    """The second table is measured, and another one filled in its place."""
    return REAL_LISTING["list_into"](data, table, list(ranges), text)


def text_into_cleared(first, second):
    """A refusal of reading clears the tables named."""

    def printed_text(data, table, ranges):
        if sheet.read(data).number and first:
            table[:] = [0] * len(table)
        if sheet.read(data).number and second:
            ranges[:] = [0] * len(ranges)
        return REAL_LISTING["printed_text"](data, table, ranges)

    return {"printed_text": printed_text}


def line_with_range_of_form(table, ranges, count, row):
    """Low and high are those of the form."""
    formed = rows.form_range(evaluation.numbers_of(table, row))
    fields = REAL_LISTING["listing_line"](table, ranges, count, row).split()
    return b"%b %d %d %b %b\n" % (fields[0], *formed, *fields[3:])


def line_with(change):
    """A row's line with its numbers changed."""

    def listing_line(table, ranges, count, row):
        numbers = map(int, REAL_LISTING["listing_line"](table, ranges, count, row).split())
        return b"%d %d %d %d %d\n" % change(*numbers)

    return {"listing_line": listing_line}


def text_without_the_last(data, table, ranges):
    """The line of the last of the most rows is left out."""
    text = REAL_LISTING["printed_text"](data, table, ranges)
    return b"".join(text.splitlines(keepends=True)[: evaluation.ROWS_LIMIT])


def last_same_row(table, row):
    numbers = evaluation.numbers_of(table, row)
    return max((n for n in range(1, row) if evaluation.numbers_of(table, n) == numbers), default=0)


REAL_LISTING = {
    name: getattr(listing, name) for name in ("list_into", "printed_text", "listing_line")
}

OTHER_LISTINGS = {
    "the tables touched where the text is too short": {"list_into": list_and_work_first},
    "a byte written behind the text": {"list_into": list_with_a_byte_behind},
    "the bytes behind the text cleared": {"list_into": list_and_clear},
    "a short table refused without a text": {"list_into": list_refusing_short_tables},
    "a text of 4,095 bytes": {"TEXT_ROOM": listing.TEXT_ROOM - 1},
    "a text of 4,097 bytes": {"TEXT_ROOM": listing.TEXT_ROOM + 1},
    "a listing that fills a second table of its own": {"list_into": list_with_ranges_apart},
    "the table cleared beside a refusal of reading": text_into_cleared(True, False),
    "the second table cleared beside a refusal of reading": text_into_cleared(False, True),
    "the form's range listed": {"listing_line": line_with_range_of_form},
    "the sign of a negative low end lost": line_with(
        lambda row, low, high, own, same: (row, abs(low), high, own, same)
    ),
    "low and high exchanged": line_with(
        lambda row, low, high, own, same: (row, high, low, own, same)
    ),
    "the last row that is the same": {"first_same_row": last_same_row},
    "the last of the most rows not listed": {"printed_text": text_without_the_last},
}


class FromTheRight(formula.Reader):
    def chain(self, signs, operand):
        tree = operand()
        if self.here() not in signs:
            return tree
        sign = self.here()
        self.at += 1
        return formula.Signed(sign, tree, self.chain(signs, operand))


class OneRank(formula.Reader):
    def sum(self, open_brackets):
        signs = formula.SUM_SIGNS + formula.PRODUCT_SIGNS
        return self.chain(signs, lambda: self.operand(open_brackets))


class SumsFirst(formula.Reader):
    def sum(self, open_brackets):
        return self.chain(formula.PRODUCT_SIGNS, lambda: self.product(open_brackets))

    def product(self, open_brackets):
        return self.chain(formula.SUM_SIGNS, lambda: self.operand(open_brackets))


class WithEveryLetter(formula.Reader):
    def __init__(self, text, inputs):
        super().__init__(text, sheet.INPUTS_LIMIT)


class WithCapitals(formula.Reader):
    def __init__(self, text, inputs):
        super().__init__(text.lower(), inputs)


class WithBlanks(formula.Reader):
    def here(self):
        while self.text[self.at : self.at + 1] in (b" ", b"\n"):
            self.at += 1
        return super().here()


class WithMinus(formula.Reader):
    """A minus may stand before a literal."""

    def operand(self, open_brackets):
        if self.here() == b"-" and formula.LITERAL.match(self.text, self.at + 1):
            self.at += 1
        return super().operand(open_brackets)


class WithoutEndOfText(formula.Reader):
    """What follows a formula is not looked at."""

    def formula(self):
        return self.sum(0)


class WithPlaceMoved(formula.Reader):
    moved = 1

    def wrong(self):
        return sheet.Refusal(10, self.at + 1 + self.moved)


class WithPlaceBefore(WithPlaceMoved):
    moved = -1


class WithPlaceOfBracket(formula.Reader):
    """A bracket that is not closed is the place itself."""

    def bracket(self, open_brackets):
        opened = self.at
        try:
            return super().bracket(open_brackets)
        except sheet.Refusal as refusal:
            raise sheet.Refusal(10, opened + 1 if self.at >= len(self.text) else refusal.place)


def place_beyond_200(text, inputs):
    """The first wrong byte of a long text also where it lies behind the first 200."""
    tree = formula.Reader(text, inputs).formula()
    if len(text) > formula.LENGTH_LIMIT:
        raise sheet.Refusal(10, formula.LENGTH_LIMIT + 1)
    return tree


def length_first(text, inputs):
    if len(text) > formula.LENGTH_LIMIT:
        raise sheet.Refusal(10, formula.LENGTH_LIMIT + 1)
    return REAL_FORMULA["tree_of"](text, inputs)


def right_steps_first(tree, inputs, steps):
    if not isinstance(tree, formula.Signed):
        return REAL_FORMULA["add_steps"](tree, inputs, steps)
    second = right_steps_first(tree.right, inputs, steps)
    first = right_steps_first(tree.left, inputs, steps)
    if tree.sign == b"/":
        steps.append(sheet.Step(sheet.RECIPROCAL, second, 0, 0))
        second = inputs + len(steps)
    steps.append(sheet.Step(formula.CODES.get(tree.sign, sheet.MULTIPLY), first, second, 0))
    return inputs + len(steps)


def steps_with(change):
    """The steps of a tree, changed as a whole."""

    def add_steps(tree, inputs, steps):
        made = []
        REAL_FORMULA["add_steps"](tree, inputs, made)
        steps.extend(change(inputs, made))
        return inputs + len(steps)

    return {"add_steps": add_steps}


def exchanged(code):
    """Where a step has this code, its two operands are exchanged."""

    def change(inputs, steps):
        return [
            step._replace(first=step.second, second=step.first) if step.code == code else step
            for step in steps
        ]

    return steps_with(change)


def literals_that_wrap(bits):
    """Literals are read into so many bits."""

    def test_literals(tree):
        for literal in formula.literals(tree):
            if int(literal.digits) % 2**bits > formula.LITERAL_LIMIT:
                raise sheet.Refusal(5, literal.place)

    return {"test_literals": test_literals}


def place_of_last_literal(tree):
    beyond = [
        literal for literal in formula.literals(tree) if int(literal.digits) > formula.LITERAL_LIMIT
    ]
    if beyond:
        raise sheet.Refusal(5, beyond[-1].place)


def place_behind_literal(tree):
    for literal in formula.literals(tree):
        if int(literal.digits) > formula.LITERAL_LIMIT:
            raise sheet.Refusal(5, literal.place + len(literal.digits))


def schedule_with_literals_last(inputs, squares, ends, text):
    """11 before 5."""
    formula.test_inputs(inputs, squares, ends)
    tree = formula.tree_of(text, inputs)
    steps = []
    formula.add_steps(tree, inputs, steps)
    if not 1 <= len(steps) <= sheet.STEPS_LIMIT:
        raise sheet.Refusal(11, 0)
    formula.test_literals(tree)
    return sheet.schedule(squares, ends[:inputs], steps)


def schedule_with_text_first(inputs, squares, ends, text):
    """10 before 3 and 4."""
    formula.tree_of(text, min(max(inputs, 0), sheet.INPUTS_LIMIT))
    return REAL_FORMULA["schedule_of"](inputs, squares, ends, text)


def schedule_of_steps(least, most):
    """Another number of steps is accepted."""

    def schedule_of(inputs, squares, ends, text):
        formula.test_inputs(inputs, squares, ends)
        tree = formula.tree_of(text, inputs)
        formula.test_literals(tree)
        steps = []
        formula.add_steps(tree, inputs, steps)
        if not least <= len(steps) <= most:
            raise sheet.Refusal(11, 0)
        return sheet.schedule(squares, ends[:inputs], steps)

    return {"schedule_of": schedule_of}


def schedule_with_all_ends(inputs, squares, ends, text):
    """The ends beyond the inputs are kept."""
    return REAL_FORMULA["schedule_of"](inputs, squares, ends, text)._replace(ends=tuple(ends))


def inputs_with_all_ends(inputs, squares, ends):
    """The ends beyond the inputs are tested."""
    REAL_FORMULA["test_inputs"](inputs, squares, ends)
    REAL_FORMULA["test_inputs"](sheet.INPUTS_LIMIT, squares, ends)


REAL_FORMULA = {
    name: getattr(formula, name) for name in ("tree_of", "add_steps", "schedule_of", "test_inputs")
}

OTHER_FORMULAS = {
    "equal rank from the right": {"Reader": FromTheRight},
    "products and sums of one rank": {"Reader": OneRank},
    "sums before products": {"Reader": SumsFirst},
    "the right operand's steps first": {"add_steps": right_steps_first},
    "a subtraction with its operands exchanged": exchanged(sheet.SUBTRACT),
    "a product with its operands exchanged": exchanged(sheet.MULTIPLY),
    "17 brackets are read": {"NESTING_LIMIT": formula.NESTING_LIMIT + 1},
    "15 brackets at most": {"NESTING_LIMIT": formula.NESTING_LIMIT - 1},
    "201 bytes are read": {"LENGTH_LIMIT": formula.LENGTH_LIMIT + 1},
    "199 bytes at most": {"LENGTH_LIMIT": formula.LENGTH_LIMIT - 1},
    "the place of 10 one further": {"Reader": WithPlaceMoved},
    "the place of 10 one before": {"Reader": WithPlaceBefore},
    "the place of 10 an open bracket": {"Reader": WithPlaceOfBracket},
    "the place of 10 behind the first 200 bytes": {"tree_of": place_beyond_200},
    "the length before every byte": {"tree_of": length_first},
    "a literal one beyond the limit": {"LITERAL_LIMIT": formula.LITERAL_LIMIT + 1},
    "literals one less far": {"LITERAL_LIMIT": formula.LITERAL_LIMIT - 1},
    "literals that wrap at 2^32": literals_that_wrap(32),
    "literals that wrap at 2^64": literals_that_wrap(64),
    "a leading zero in a literal": {"LITERAL": re.compile(rb"[0-9]+")},
    "no literal 0": {"LITERAL": re.compile(rb"[1-9][0-9]*")},
    "literals of ten digits at most": {"LITERAL": re.compile(rb"0|[1-9][0-9]{0,9}")},
    "a minus before a literal": {"Reader": WithMinus},
    "the place of 5 that of the last literal": {"test_literals": place_of_last_literal},
    "the place of 5 behind the literal": {"test_literals": place_behind_literal},
    "letters beyond the inputs": {"Reader": WithEveryLetter},
    "no letter of the last input": {"LETTERS": formula.LETTERS[:-1]},
    "capital letters": {"Reader": WithCapitals},
    "blanks passed over": {"Reader": WithBlanks},
    "bytes behind a formula": {"Reader": WithoutEndOfText},
    "11 before 5": {"schedule_of": schedule_with_literals_last},
    "10 before 3 and 4": {"schedule_of": schedule_with_text_first},
    "no step accepted": schedule_of_steps(0, sheet.STEPS_LIMIT),
    "a formula of one step more": schedule_of_steps(1, sheet.STEPS_LIMIT + 1),
    "a formula of one step fewer at most": schedule_of_steps(1, sheet.STEPS_LIMIT - 1),
    "ends kept beyond the inputs": {"schedule_of": schedule_with_all_ends},
    "ends tested beyond the inputs": {"test_inputs": inputs_with_all_ends},
}


@contextlib.contextmanager
def spoilt(name):
    """The module that the name's group is about, with the parts named replaced."""
    groups = [(rows, UNSOUND), (rows, OTHER_NUMBERS), (sheet, OTHER_SHEETS)]
    groups += [(evaluation, group) for group in (UNSOUND_RANGES, OTHER_RANGES, OTHER_CALLS)]
    groups += [(intervals, group) for group in (UNSOUND_INTERVALS, OTHER_INTERVALS)]
    groups += [(listing, OTHER_LISTINGS), (formula, OTHER_FORMULAS)]
    module, parts = next((module, group[name]) for module, group in groups if name in group)
    with unittest.mock.patch.multiple(module, **parts):
        yield
