"""Row arithmetic in exact whole numbers.

The specification, "A row" and "What each row becomes" (manual, section 5), with the request 2026-07:
"a row has 85 numbers: centre, 48 linear, 36 pairs in the same manner". A row is a list of these:
place 0 is the centre, place i the linear coefficient of symbol i, and behind the last symbol stand
the pair coefficients in their order.
"""

import math
from typing import NamedTuple

import sheet

UNIT = 4_096
N = UNIT * UNIT
SPAN_LIMIT = 1_073_741_824

# "Row r owns symbol r": every input and every step has one.
SYMBOLS = sheet.INPUTS_LIMIT + sheet.STEPS_LIMIT
SQUARES_LIMIT = sheet.INPUTS_LIMIT

# "(1,1), (1,2)" to (1,8), "(2,2) and so on" to (8,8)
PAIRS = [(i, j) for i in range(1, SQUARES_LIMIT + 1) for j in range(i, SQUARES_LIMIT + 1)]
PAIR_PLACE = {pair: 1 + SYMBOLS + index for index, pair in enumerate(PAIRS)}
NUMBERS = 1 + SYMBOLS + len(PAIRS)
LINEAR_PLACES = range(1, 1 + SYMBOLS)
SQUARED_PLACES = [PAIR_PLACE[pair] for pair in PAIRS if pair[0] == pair[1]]
MIXED_PLACES = [PAIR_PLACE[pair] for pair in PAIRS if pair[0] != pair[1]]

# "Pairs are used only among the first "squares" inputs."
PAIRS_IN_USE = [
    [(place, i, j) for (i, j), place in PAIR_PLACE.items() if j <= squares]
    for squares in range(SQUARES_LIMIT + 1)
]


class Range(NamedTuple):
    low: int
    high: int


class RowRefusal(Exception):
    """The number of the cause, 6, 7 or 12, for which a row does not come about."""

    def __init__(self, number: int):
        super().__init__(number)
        self.number = number


def up(dividend: int, divisor: int) -> int:
    """The quotient of a division where "up" is written."""
    return -(-dividend // divisor)


def absolute_sum(numbers) -> int:
    return sum(map(abs, numbers))


def span(row) -> int:
    """"Span: the sum of the absolute values of all" 85 "numbers."."""
    return absolute_sum(row)


def span_tested(row):
    """"It is at most 1,073,741,824 in an accepted row."."""
    if span(row) > SPAN_LIMIT:
        raise RowRefusal(6)
    return row


def low(row) -> int:
    """"low is the centre, less every absolute linear coefficient, less every absolute coefficient
    of a pair of different symbols, plus every negative coefficient of a pair (i,i)."."""
    return (
        row[0]
        - absolute_sum(row[1 : 1 + SYMBOLS])
        - sum(abs(row[place]) for place in MIXED_PLACES)
        + sum(min(row[place], 0) for place in SQUARED_PLACES)
    )


def high(row) -> int:
    """"High is the mirror of that, with the positive ones."."""
    return (
        row[0]
        + absolute_sum(row[1 : 1 + SYMBOLS])
        + sum(abs(row[place]) for place in MIXED_PLACES)
        + sum(max(row[place], 0) for place in SQUARED_PLACES)
    )


def form_range(row) -> Range:
    """"Range, after formula (8) of source document 000": the range of the form that the numbers of a
    row make."""
    return Range(low(row), high(row))


def input_row(low_end: int, high_end: int, own: int):
    """"Input: centre is (low + high) / 2. Own coefficient is high less centre."."""
    row = [0] * NUMBERS
    row[0] = (low_end + high_end) // 2
    row[own] = high_end - row[0]
    return span_tested(row)


def constant_row(value: int):
    """"Constant: centre alone."."""
    row = [0] * NUMBERS
    row[0] = value
    return span_tested(row)


def add(x, y):
    """"Add, subtract: number by number, own coefficient 0."."""
    return span_tested([p + q for p, q in zip(x, y)])


def subtract(x, y):
    """"3 subtract second from first"; "number by number, own coefficient 0."."""
    return span_tested([p - q for p, q in zip(x, y)])


def product_totals(x, y, squares: int):
    """"With c and d the centres, form these totals: centre cd; for symbol i, c times the second's
    coefficient plus d times the first's; for each pair in use, c and d times the pair coefficients
    crosswise, plus the linear products that meet in that pair (one for (i,i), two otherwise)."."""
    c, d = x[0], y[0]
    totals = [0] * NUMBERS
    totals[0] = c * d
    for i in LINEAR_PLACES:
        totals[i] = c * y[i] + d * x[i]
    for place, i, j in PAIRS_IN_USE[squares]:
        meeting = x[i] * y[i] if i == j else x[i] * y[j] + x[j] * y[i]
        totals[place] = c * y[place] + d * x[place] + meeting
    return totals


def dropped_part(x, y, squares: int) -> int:
    """"Dropped part: (all linear and pair absolutes of the first) × (the same of the second), less
    (linear absolutes of the first "squares" symbols of the first) × (the same of the second)."."""
    everything = absolute_sum(x[1:]) * absolute_sum(y[1:])
    kept = absolute_sum(x[1 : 1 + squares]) * absolute_sum(y[1 : 1 + squares])
    return everything - kept


def product_quotient(total: int) -> int:
    """"A multiply's totals are divided to the nearest whole number, exact halves upward"."""
    return (total + UNIT // 2) // UNIT


def product_remainder(total: int) -> int:
    """"remainders run from -2048 to 2047; their absolute values are summed": what a quotient
    leaves, without its sign."""
    return abs(total - UNIT * product_quotient(total))


def multiply(x, y, squares: int, own: int):
    """"Own coefficient: (dropped part + all remainders) / 4096, up."."""
    totals = product_totals(x, y, squares)
    row = [product_quotient(total) for total in totals]
    remainders = sum(product_remainder(total) for total in totals)
    assert totals[own] == 0, "an earlier row has no coefficient of a later row's symbol"
    row[own] = up(dropped_part(x, y, squares) + remainders, UNIT)
    return span_tested(row)


def distance_from_zero(own_range: Range) -> int:
    """"a the distance of its range from 0"; 7 is "reciprocal where low is at most 0 and high at
    least 0"."""
    if own_range.low <= 0 <= own_range.high:
        raise RowRefusal(7)
    return own_range.low if own_range.low > 0 else -own_range.high


def candidate(x, squares: int):
    """"Candidate: centre N / c; for each symbol, (-N × coefficient) / c²; for each pair in use,
    (-N × pair coefficient) / c², plus the following, divided by c: for (i,i) minus the candidate's
    i coefficient times the operand's; for (i,j) minus both cross products." "Every division below
    is rounded by itself.": the two of a pair, one by c² and one by c."""
    c = x[0]
    row = [0] * NUMBERS
    row[0] = N // c
    for i in LINEAR_PLACES:
        row[i] = (-N * x[i]) // (c * c)
    for place, i, j in PAIRS_IN_USE[squares]:
        crossing = row[i] * x[i] if i == j else row[i] * x[j] + row[j] * x[i]
        row[place] = (-N * x[place]) // (c * c) + (-crossing) // c
    return row


def candidate_error(x, reciprocal_candidate, squares: int) -> int:
    """"Form the totals of operand times candidate, before any division, and take N from the
    centre's total. B is the sum of absolute totals plus the dropped part."."""
    totals = product_totals(x, reciprocal_candidate, squares)
    totals[0] -= N
    return absolute_sum(totals) + dropped_part(x, reciprocal_candidate, squares)


def reciprocal(x, own_range: Range, squares: int, own: int):
    """"Own coefficient: B / a, up."; 7 before 6; "span passed, by a new row, by a candidate
    alone". Test and distance are those of the operand's own range."""
    a = distance_from_zero(own_range)
    row = span_tested(candidate(x, squares))
    assert row[own] == 0, "an earlier row has no coefficient of a later row's symbol"
    row[own] = up(candidate_error(x, row, squares), a)
    return span_tested(row)


def unit_root(value: int) -> int:
    """"for an exact value of X units, the whole-number root of 4096 × X, rounded down", of a whole
    X."""
    return math.isqrt(UNIT * value)


def root_candidate(x):
    """"With centre c the candidate's centre z is that root of 4096 × c; each other number is 2048 ×
    the operand's, divided by z."."""
    z = unit_root(x[0])
    return [z, *(UNIT // 2 * number // z for number in x[1:])]


def square_error(x, candidate_row, squares: int) -> int:
    """"B bounds 4096 × operand less candidate times candidate, totals and dropped part as for a
    reciprocal."."""
    totals = product_totals(candidate_row, candidate_row, squares)
    missed = [UNIT * number - total for number, total in zip(x, totals)]
    return absolute_sum(missed) + dropped_part(candidate_row, candidate_row, squares)


def root(x, own_range: Range, squares: int, own: int):
    """"Own coefficient is B divided by the root of 4096 × low, up, plus 1."; 12 is "low below 1, or
    the candidate's own range starts below 0"; "A candidate over the span limit gives 6 before its
    range is looked at.". Test and low are those of the operand's own range."""
    if own_range.low < 1:
        raise RowRefusal(12)
    row = span_tested(root_candidate(x))
    if low(row) < 0:
        raise RowRefusal(12)
    assert row[own] == 0, "an earlier row has no coefficient of a later row's symbol"
    row[own] = up(square_error(x, row, squares), unit_root(own_range.low)) + 1
    return span_tested(row)
