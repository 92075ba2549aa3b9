"""Generators of sheets: valid, extreme and damaged ones, each named by a seed and an index.

    python3 checker/generate.py SEED INDEX          prints that sheet
    python3 checker/generate.py SEED INDEX COUNT    counts what becomes of COUNT sheets from there

Every sheet depends on its seed and index alone, so a sheet found by compare.py can be made again.
"""

import collections
import math
import random
import sys

import evaluation
import listing
import rows
import sheet

LIMIT = sheet.END_LIMIT

# The limits of counts and rows, and one beyond each.
ABOUT_LIMITS = [
    limit + off for limit in (sheet.INPUTS_LIMIT, sheet.STEPS_LIMIT, rows.SYMBOLS) for off in (0, 1)
]


class Draft:
    """A schedule under construction, with its rows worked until the first refusal."""

    def __init__(self, squares, ends):
        self.squares = squares
        self.ends = [sheet.Ends(*end) for end in ends]
        self.steps = []
        self.rows = []
        self.refused = False
        for row in range(1, len(self.ends) + 1):
            self.work(row)

    def last(self) -> int:
        """The number of the last row."""
        return len(self.ends) + len(self.steps)

    def is_full(self) -> bool:
        return len(self.steps) == sheet.STEPS_LIMIT

    def step(self, code, first=0, second=0, value=0) -> int:
        """Adds a step and answers its row number."""
        self.steps.append(sheet.Step(code, first, second, value))
        if not self.refused:
            self.work(self.last())
        return self.last()

    def work(self, row) -> None:
        counts = sheet.Counts(len(self.ends), self.squares, len(self.steps))
        drafted = sheet.Schedule(counts, self.ends, self.steps)
        try:
            self.rows.append(evaluation.work_row(drafted, row, self.rows))
        except rows.RowRefusal:
            self.refused = True

    def undo(self) -> None:
        """Takes back a last step that was refused."""
        self.steps.pop()
        self.refused = False

    def constant(self, value) -> int:
        return self.step(sheet.CONSTANT, value=value)

    def add(self, first, second) -> int:
        return self.step(sheet.ADD, first, second)

    def subtract(self, first, second) -> int:
        return self.step(sheet.SUBTRACT, first, second)

    def multiply(self, first, second) -> int:
        return self.step(sheet.MULTIPLY, first, second)

    def reciprocal(self, first) -> int:
        return self.step(sheet.RECIPROCAL, first)

    def root(self, first) -> int:
        return self.step(sheet.ROOT, first)

    def schedule(self) -> sheet.Schedule:
        return sheet.schedule(self.squares, self.ends, self.steps)


# Ends and constants


def magnitude(rng) -> int:
    """A whole number from 0 to the limit, all sizes about equally often."""
    return min(LIMIT, rng.randrange(1 << rng.randint(0, 28)) + rng.randint(0, 1))


def near_square(rng) -> int:
    """A whole number c from 0 on for which 4096 × c is a square, or c itself one off such a number;
    or one for which 4096 × c is one less than a square, that of 2048 × m ± 1."""
    if rng.random() < 0.3:
        m = rng.randint(1, 1 << rng.randint(0, 9))
        return min(LIMIT, 1024 * m * m + rng.choice((-m, m)) + rng.choice((0, 0, 1)))
    k = rng.randint(1, 1 << rng.randint(1, 14))
    return min(LIMIT, k * k + rng.choice((-1, 0, 0, 1)))


def any_value(rng) -> int:
    """A constant: small, near a power of two, a multiple of the unit, at the limits, near a square,
    or any."""
    kind = rng.randrange(7)
    if kind == 0:
        return rng.randint(-3, 3)
    if kind == 1:
        near = (1 << rng.randint(0, 28)) + rng.randint(-1, 1)
        return rng.choice((-1, 1)) * min(near, LIMIT)
    if kind == 2:
        return rows.UNIT * rng.randint(-40, 40)
    if kind == 3:
        return rng.choice((-LIMIT, -LIMIT + 1, LIMIT - 1, LIMIT))
    if kind == 4:
        return near_square(rng)
    return rng.choice((-1, 1)) * magnitude(rng)


def around_zero(rng):
    return (-magnitude(rng), magnitude(rng))


def symmetric(rng):
    wide = magnitude(rng)
    return (-wide, wide)


def one_sided(rng):
    """Ends on one side of 0, from narrow to wide."""
    near = magnitude(rng)
    far = min(LIMIT, near + rng.randint(0, rng.choice((0, 1, 2, 3, near, 4 * near))))
    return (near, far) if rng.random() < 0.6 else (-far, -near)


def near_one(rng):
    """Ends about the unit, so that long products stay within the span."""
    near = rows.UNIT + rng.randint(-900, 900)
    far = near + rng.randint(0, rng.choice((1, 50, 1500)))
    return (near, far) if rng.random() < 0.8 else (-far, -near)


def at_zero_width(rng):
    value = any_value(rng)
    return (value, value)


def touching_zero(rng):
    far = magnitude(rng)
    return rng.choice(((0, far), (-far, 0), (1, far + 1), (-far - 1, -1)))


def odd_sum(rng):
    """Ends whose sum is odd, so that the form reaches one below the low end: next to each other or
    apart, near 0 or far from it."""
    near = rng.choice((0, 1, 1, 2, rng.randint(1, 9), magnitude(rng)))
    far = near + rng.choice((1, 1, 1, 3, 2 * rng.randint(0, near) + 1))
    if far > LIMIT:
        near, far = LIMIT - 1, LIMIT
    return (near, far) if rng.random() < 0.6 else (-far, -near)


def whole_slope(rng):
    """Ends about 1024 × j² so far apart that a root's slope is whole, and B below the divisor: then
    the own coefficient is 2, the least for a form with a slope."""
    j = rng.randint(1, 1 << rng.randint(0, 6))
    apart = j * rng.randint(1, math.isqrt(1900 * j))
    return (1024 * j * j - apart, 1024 * j * j + apart)


def at_squares(rng):
    """Ends from 0 on, at squares or one off: far apart, or about one square."""
    if rng.random() < 0.3:
        return whole_slope(rng)
    low = near_square(rng)
    high = rng.choice((low, low + 1, low + 2, near_square(rng), near_square(rng)))
    return (min(low, high), min(max(low, high), LIMIT))


def from_low(rng):
    """Ends from a low one about 1, where a root begins to be accepted."""
    low = rng.choice((0, 1, 1, 1, 2))
    return (low, low + min(LIMIT - 2, rng.choice((0, 1, 1, 2, 3, rng.randint(1, 40), magnitude(rng)))))


def at_the_limits(rng):
    ends = [rng.choice((-LIMIT, -LIMIT + 1, -1, 0, 1, LIMIT - 1, LIMIT)) for _ in range(2)]
    return tuple(sorted(ends))


ENDS = [
    around_zero, symmetric, one_sided, near_one, near_one, at_zero_width, touching_zero, odd_sum,
    at_squares, from_low, at_the_limits,
]


def any_ends(rng):
    low, high = rng.choice(ENDS)(rng)
    return (max(low, -LIMIT), min(high, LIMIT))


# Valid sheets of all codes, counts and squares


def any_draft(rng, ends=any_ends) -> Draft:
    inputs = rng.randint(1, sheet.INPUTS_LIMIT)
    return Draft(rng.randint(0, inputs), [ends(rng) for _ in range(inputs)])


def any_step(rng, draft):
    """A step with earlier rows, recent ones more often."""
    def named():
        return max(rng.randint(1, draft.last()) for _ in range(rng.randint(1, 2)))

    code = rng.choices((1, 2, 3, 4, 5, 6), weights=(3, 3, 3, 6, 4, 5))[0]
    if code == sheet.CONSTANT:
        return draft.constant(any_value(rng))
    if code == sheet.RECIPROCAL:
        return draft.reciprocal(named())
    if code == sheet.ROOT:
        return draft.root(named())
    return draft.step(code, named(), named())


def add_accepted_step(rng, draft) -> None:
    """Adds a step that is accepted where one is found soon, and else a small constant."""
    for _ in range(6):
        any_step(rng, draft)
        if not draft.refused:
            return
        draft.undo()
    draft.constant(rng.randint(-4 * rows.UNIT, 4 * rows.UNIT))


def accepted(rng, steps=None, ends=any_ends) -> Draft:
    """A sheet whose every row is accepted."""
    draft = any_draft(rng, ends)
    for _ in range(steps or rng.randint(1, sheet.STEPS_LIMIT)):
        add_accepted_step(rng, draft)
    return draft


def late_refusal(rng) -> Draft:
    """A sheet with accepted rows and then steps of any kind, so that 6, 7 and 12 come at every
    row."""
    draft = accepted(rng, rng.randint(1, sheet.STEPS_LIMIT - 4))
    for _ in range(rng.randint(1, sheet.STEPS_LIMIT - len(draft.steps))):
        any_step(rng, draft)
    return draft


def unguided(rng) -> Draft:
    draft = any_draft(rng)
    for _ in range(rng.randint(1, sheet.STEPS_LIMIT)):
        any_step(rng, draft)
    return draft


def then_anything(rng, draft) -> Draft:
    """The draft with a few more accepted steps behind it."""
    for _ in range(rng.randint(0, 3)):
        if not draft.is_full() and not draft.refused:
            add_accepted_step(rng, draft)
    return draft


# Extremes


def limit_ends(rng) -> Draft:
    """Ends at ±268,435,456, and every code on them."""
    draft = any_draft(rng, at_the_limits)
    for _ in range(rng.randint(1, 8)):
        add_accepted_step(rng, draft)
    any_step(rng, draft)
    return draft


def span_by_sums(rng) -> Draft:
    """A span of 2^30 exactly, one less and one over, in centre, linear coefficients or both."""
    ends = rng.choice(((-LIMIT, LIMIT), (LIMIT, LIMIT), (-LIMIT, -LIMIT), (0, LIMIT), (-LIMIT, 0)))
    draft = Draft(rng.randint(0, 1), [ends])
    twice = draft.add(1, 1)
    fourfold = draft.add(twice, twice)
    if rng.random() < 0.5:
        fourfold = draft.add(draft.add(twice, 1), draft.constant(rng.choice((-LIMIT, LIMIT))))
    small = draft.constant(rng.randint(-2, 2))
    draft.step(rng.choice((2, 3)), fourfold, small)
    return then_anything(rng, draft)


def span_by_product(rng) -> Draft:
    """A product whose centre and rounding add up to 2^30 or one to either side of it."""
    target = rows.SPAN_LIMIT * rows.UNIT
    while True:
        second = rng.randint(16_384, 1 << rng.randint(15, 26))
        first = target // second + rng.randint(0, 1)
        if first <= LIMIT and abs(first * second - target) <= 2 * rows.UNIT:
            break
    signs = rng.choice(((1, 1), (-1, 1), (1, -1), (-1, -1)))
    draft = Draft(rng.randint(0, 1), [(0, rng.randint(0, 1))])
    draft.multiply(draft.constant(signs[0] * first), draft.constant(signs[1] * second))
    return then_anything(rng, draft)


def range_at_zero(rng) -> Draft:
    """A row shifted so that an end of its range is -1, 0, 1 or 2, and then its reciprocal or its
    root."""
    draft = accepted(rng, rng.randint(1, 6))
    chosen = rng.randint(1, draft.last())
    end = rng.choice(draft.rows[chosen - 1].own_range)
    shift = draft.constant(max(-LIMIT, min(LIMIT, end + rng.randint(-2, 1))))
    shifted = draft.step(rng.choice((3, 3, 3, 2)), chosen, shift)
    if rng.random() < 0.3:
        shifted = draft.subtract(shift, chosen)
    draft.step(rng.choice((sheet.RECIPROCAL, sheet.ROOT)), shifted)
    return then_anything(rng, draft)


def above_zero(rng, draft, row) -> int:
    """The row, or where it is worked and starts below 1 the row with a constant added, so that it
    starts above 0."""
    low = 1 if draft.refused else draft.rows[row - 1].own_range.low
    if low >= 1:
        return row
    return draft.add(row, draft.constant(min(LIMIT, rng.randint(1, 2 * rows.UNIT) - low)))


def mixed_pairs(rng) -> Draft:
    """Reciprocals, roots and products of rows in which pairs of different symbols meet, of any sign."""
    inputs = rng.randint(2, sheet.INPUTS_LIMIT)
    draft = Draft(rng.randint(2, inputs), [near_one(rng) for _ in range(inputs)])
    total = draft.multiply(1, 2)
    for _ in range(rng.randint(0, 3)):
        product = draft.multiply(rng.randint(1, draft.last()), rng.randint(1, inputs))
        total = draft.step(rng.choice((2, 2, 3)), total, product)
    if rng.random() < 0.6:
        total = above_zero(rng, draft, total)
    draft.step(rng.choice((sheet.RECIPROCAL, sheet.ROOT)), total)
    return then_anything(rng, draft)


def large_squares(rng) -> Draft:
    """Products of wide inputs about 0: pair coefficients far larger than the centre, then a
    reciprocal near them (a candidate over the span, or a large own coefficient)."""
    inputs = rng.randint(1, sheet.INPUTS_LIMIT)
    ends = rng.choice((around_zero, symmetric))
    draft = Draft(inputs - rng.randint(0, 1), [ends(rng) for _ in range(inputs)])
    total = draft.multiply(1, 1)
    for _ in range(rng.randint(0, 5)):
        product = draft.multiply(rng.randint(1, inputs), rng.randint(1, inputs))
        total = draft.step(rng.choice((2, 3)), total, product)
    if not draft.refused:
        end = rng.choice(draft.rows[total - 1].own_range)
        gap = rng.choice((-1, 1)) * rng.randint(0, 1 << rng.randint(0, 20))
        total = draft.subtract(total, draft.constant(max(-LIMIT, min(LIMIT, end + gap))))
    draft.reciprocal(total)
    return then_anything(rng, draft)


def large_roots(rng) -> Draft:
    """Squares of wide inputs about 0 above a low about 1: positive pair coefficients far larger than
    the centre, and then a root (a candidate over the span, a row over it, or a large own
    coefficient)."""
    inputs = rng.randint(1, sheet.INPUTS_LIMIT)
    draft = Draft(inputs - rng.randint(0, 1), [symmetric(rng) for _ in range(inputs)])
    total = draft.multiply(1, 1)
    for _ in range(rng.randint(0, 4)):
        number = rng.randint(1, inputs)
        total = draft.add(total, draft.multiply(number, number))
    if not draft.refused:
        low = rng.choice((0, 1, 1, 2, rng.randint(1, 1 << rng.randint(1, 26))))
        shift = low - draft.rows[total - 1].own_range.low
        total = draft.add(total, draft.constant(max(-LIMIT, min(LIMIT, shift))))
    draft.root(total)
    return then_anything(rng, draft)


def small_above_large(rng) -> Draft:
    """A root of a small centre beside a large positive square, and of a linear part or none: its
    range starts at 1 or just below, and its candidate passes the span or keeps within it."""
    wide = 2 ** rng.randint(16, 20) + rng.randint(-1, 1)
    draft = Draft(rng.randint(1, 2), [(-wide, wide), rng.choice(((-1, 1), (0, 0), (-2, 2)))])
    total = draft.add(draft.multiply(1, 1), draft.constant(rng.randint(1, 3)))
    draft.root(draft.add(total, 2) if rng.random() < 0.6 else total)
    return then_anything(rng, draft)


def roots_of_squares(rng) -> Draft:
    """Roots of inputs and constants at squares and one off, and products that give these back."""
    draft = any_draft(rng, at_squares)
    for _ in range(rng.randint(1, 6)):
        operand = rng.randint(1, len(draft.ends))
        if rng.random() < 0.5:
            operand = draft.constant(near_square(rng))
        made = draft.root(operand)
        if draft.refused:
            break
        if rng.random() < 0.5:
            draft.subtract(draft.multiply(made, made), operand)
    return then_anything(rng, draft)


def roots_of_low_ends(rng) -> Draft:
    """Roots of inputs whose low end is about 1, beside those of a sum with 0, which has the same
    form and its range."""
    draft = any_draft(rng, from_low)
    zero = draft.constant(0)
    for number in range(1, len(draft.ends) + 1):
        draft.root(number if rng.random() < 0.7 else draft.add(number, zero))
        if draft.refused and rng.random() < 0.9:
            draft.undo()
        if draft.refused:
            break
    return then_anything(rng, draft)


def root_chain(rng) -> Draft:
    """Roots of roots, and roots after multiplies and reciprocals of what came before."""
    ends = rng.choice((near_one, at_squares, from_low))
    draft = Draft(rng.randint(0, 1), [tuple(map(abs, sorted(ends(rng), key=abs)))])
    between = rng.choice(((), (sheet.MULTIPLY,), (sheet.RECIPROCAL,), (sheet.MULTIPLY, sheet.RECIPROCAL)))
    for _ in range(rng.randint(1, 8)):
        draft.root(draft.last())
        for code in between:
            second = rng.randint(1, draft.last()) if code == sheet.MULTIPLY else 0
            draft.step(code, draft.last(), second)
    return draft


def reciprocal_chain(rng) -> Draft:
    """Reciprocal of a reciprocal, with both signs."""
    draft = Draft(rng.randint(0, 1), [rng.choice((near_one, one_sided))(rng)])
    for _ in range(rng.randint(2, sheet.STEPS_LIMIT)):
        draft.reciprocal(draft.last())
    return draft


SMALL_ENDS = [
    (1, 1), (1, 2), (1, 3), (1, 4), (2, 3), (3, 8), (-1, -1), (-2, -1), (-3, -1), (-3, -2), (-9, -4),
]


def small_divisors(rng) -> Draft:
    """Reciprocals of rows with tiny or huge centres, and products of the results."""
    draft = Draft(1, [rng.choice(SMALL_ENDS)])
    draft.reciprocal(draft.constant(rng.choice((-1, 1)) * rng.randint(1, 9)))
    draft.reciprocal(draft.constant(rng.choice((-1, 1)) * rng.randint(2**23, LIMIT)))
    draft.reciprocal(1)
    for _ in range(rng.randint(1, 8)):
        add_accepted_step(rng, draft)
    return draft


def odd_ends(rng) -> Draft:
    """Reciprocals of inputs whose ends have an odd sum, beside those of a sum with 0, which has the
    same form and its range; products that give the operand back."""
    draft = any_draft(rng, odd_sum)
    zero = draft.constant(0)
    for number in range(1, len(draft.ends) + 1):
        operand = number if rng.random() < 0.7 else draft.add(number, zero)
        inverse = draft.reciprocal(operand)
        if draft.refused and rng.random() < 0.9:
            draft.undo()
        elif not draft.refused and rng.random() < 0.5:
            draft.multiply(operand, inverse)
        if draft.refused:
            break
    return then_anything(rng, draft)


def cancellation(rng) -> Draft:
    """Sums taken apart again, exchanged operands, products by one and by zero: rows that are the
    same, and rows that differ only in the symbol of a rounding."""
    draft = accepted(rng, rng.randint(1, 5))
    first, second = rng.randint(1, draft.last()), rng.randint(1, draft.last())
    draft.subtract(draft.add(first, second), second)
    draft.subtract(first, first)
    draft.add(second, first)
    draft.subtract(draft.multiply(first, second), draft.multiply(second, first))
    one = draft.constant(rng.choice((rows.UNIT, rows.UNIT, -rows.UNIT, 0)))
    draft.multiply(first, one)
    draft.subtract(draft.last(), first)
    draft.subtract(draft.subtract(second, first), draft.subtract(first, second))
    return draft


def long_products(rng) -> Draft:
    """As many multiplies as a sheet has steps, on rows about one."""
    draft = any_draft(rng, near_one)
    while not draft.is_full():
        draft.multiply(rng.randint(1, draft.last()), rng.randint(1, draft.last()))
        if draft.refused:
            draft.undo()
            draft.multiply(rng.randint(1, len(draft.ends)), rng.randint(1, len(draft.ends)))
    return draft


def about_one(rng) -> int:
    return rows.UNIT + rng.randint(-900, 900)


def constant_chain(rng) -> Draft:
    """Multiplies one after another, each by one of four constants about one, to the last step."""
    draft = Draft(0, [(0, 0)])
    constants = [draft.constant(about_one(rng)) for _ in range(4)]
    while not draft.is_full():
        draft.multiply(draft.last(), rng.choice(constants))
    return draft


def narrow_chain(rng) -> Draft:
    """Multiplies one after another, each by one of the most inputs about one, whose ends are near
    each other, to the last step."""
    lows = [about_one(rng) for _ in range(sheet.INPUTS_LIMIT)]
    draft = Draft(rng.randint(0, sheet.INPUTS_LIMIT), [(low, low + rng.randint(0, 9)) for low in lows])
    while not draft.is_full():
        draft.multiply(draft.last(), rng.randint(1, sheet.INPUTS_LIMIT))
    return draft


def last_pairs(rng) -> Draft:
    """The most inputs, all about one, and most of them in pairs: products of the last ones with each
    other and with any, their sums and differences, and then a reciprocal or a root, which a product
    takes up again."""
    inputs = sheet.INPUTS_LIMIT
    draft = Draft(inputs - rng.choice((0, 0, 0, 1, 2)), [near_one(rng) for _ in range(inputs)])
    total = draft.multiply(inputs - 1, inputs)
    for _ in range(rng.randint(0, 4)):
        product = draft.multiply(rng.randint(inputs - 1, inputs), rng.randint(1, draft.last()))
        total = draft.step(rng.choice((2, 2, 3)), total, product)
    total = above_zero(rng, draft, total)
    made = draft.step(rng.choice((sheet.RECIPROCAL, sheet.ROOT)), total)
    draft.multiply(made, rng.choice((made, inputs - 1, inputs)))
    return then_anything(rng, draft)


def at_halves(rng) -> Draft:
    """Products whose totals are exact halves of the unit, or one to either side, on both sides of 0:
    in the centre, in a linear coefficient, in both, and in a square's."""
    def half():
        return rows.UNIT * rng.randint(-9, 9) + rows.UNIT // 2 + rng.choice((-1, 0, 0, 1))

    centre, wide = half(), abs(half())
    near = 32 * (2 * rng.randint(-9, 9) + 1)
    draft = Draft(rng.randint(0, 2), [(centre - wide, centre + wide), (near - 32, near + 32)])
    one = draft.constant(rng.choice((-1, 1, 1, 3)))
    draft.multiply(1, one)
    draft.multiply(draft.constant(half()), one)
    draft.multiply(2, 2)
    power = 1 << rng.randint(0, 11)
    draft.multiply(draft.constant(power), draft.constant((2 * rng.randint(-9, 9) + 1) * 2048 // power))
    return then_anything(rng, draft)


def as_wide_as_large(rng):
    """Ends of either sign or about 0, whose distance is about as large as they are."""
    near = rng.randint(1, 1 << rng.randint(1, 15))
    far = near * rng.randint(1, 5) + rng.randint(0, near)
    return rng.choice(((near, far), (near, far), (-far, -near), (-near, far), (-far, near), (0, far)))


def wide_inputs(rng) -> Draft:
    """Products, sums and differences of wide inputs, of which now the own range and now the plain one
    is the narrower, and then the reciprocal or the root of a row whose answered range lies above 0:
    by its own range it may be refused."""
    inputs = rng.randint(1, 3)
    draft = Draft(rng.randint(0, inputs), [as_wide_as_large(rng) for _ in range(inputs)])
    for _ in range(rng.randint(1, 6)):
        named = [rng.randint(1, draft.last()) for _ in range(2)]
        draft.step(rng.choice((sheet.ADD, sheet.SUBTRACT, *[sheet.MULTIPLY] * 3)), *named)
        if draft.refused:
            draft.undo()
    above = [row for row, worked in enumerate(draft.rows, 1) if worked.answered_range.low > 0]
    if above:
        draft.step(rng.choice((sheet.RECIPROCAL, sheet.ROOT)), max(rng.choices(above, k=2)))
    return then_anything(rng, draft)


EXTREMES = [
    limit_ends, span_by_sums, span_by_product, range_at_zero, large_squares, mixed_pairs,
    reciprocal_chain, small_divisors, odd_ends, cancellation, long_products, large_roots,
    small_above_large, roots_of_squares, roots_of_low_ends, root_chain, at_halves,
    constant_chain, narrow_chain, wide_inputs, last_pairs,
]


def extreme(rng) -> Draft:
    return rng.choice(EXTREMES)(rng)


# Damaged bytes

HOSTILE_FIELDS = [
    b"", b"-", b"+1", b"-0", b"00", b"01", b"1.0", b"0", b"1", b"-1", b"2", b"5", b"6", b"7",
    *(b"%d" % limit for limit in ABOUT_LIMITS), b"268435456", b"268435457", b"-268435456",
    b"-268435457", b"2147483648", b"4294967296", b"4294967297", b"9999999999", b"-9999999999", b"10000000000",
    b"18446744073709551616",
]


def any_place(rng, data):
    return rng.randint(0, len(data))


def flip_bit(rng, data):
    place = rng.randrange(len(data))
    return data[:place] + bytes([data[place] ^ (1 << rng.randrange(8))]) + data[place + 1 :]


def replace_byte(rng, data):
    place = rng.randrange(len(data))
    return data[:place] + rng.choice((b" ", b"\n", b"0", b"-", b"\t", b"9")) + data[place + 1 :]


def cut_end(rng, data):
    return data[: any_place(rng, data)]


def cut_middle(rng, data):
    start = any_place(rng, data)
    return data[:start] + data[start + rng.randint(1, 4) :]


def insert_bytes(rng, data):
    place = any_place(rng, data)
    put = rng.choice((b" ", b"\n", b"0", b"-", b"\r", b"\t", b"\x00", bytes([rng.randrange(256)])))
    return data[:place] + put + data[place:]


def append_bytes(rng, data):
    size = rng.choice((1, 1, 2, 9, 1023 - len(data), 1024 - len(data), 1025 - len(data), 2000))
    return data + rng.choice((b"\n", b"0", b" ", b"1 0 0 0\n", b"\xff")) * max(size, 1)


def pad_to_the_limit(rng, data):
    return append_bytes(rng, data)[: rng.choice((1023, 1024, 1025, 1026))]


def change_lines(rng, data):
    """Two lines exchanged, one left out, or one given twice."""
    lines = data.split(b"\n")
    i, j = rng.randrange(len(lines)), rng.randrange(len(lines))
    kind = rng.randrange(3)
    if kind == 0:
        lines[i], lines[j] = lines[j], lines[i]
    elif kind == 1:
        del lines[i]
    else:
        lines.insert(j, lines[i])
    return b"\n".join(lines)


def change_field(rng, data):
    lines = data.split(b"\n")
    chosen = rng.randrange(len(lines))
    fields = lines[chosen].split(b" ")
    fields[rng.randrange(len(fields))] = rng.choice(HOSTILE_FIELDS)
    lines[chosen] = b" ".join(fields)
    return b"\n".join(lines)


DAMAGES = [
    flip_bit, replace_byte, cut_end, cut_middle, insert_bytes, append_bytes, pad_to_the_limit,
    change_lines, change_field, change_field, change_field,
]


def damaged(rng) -> bytes:
    """A short sheet with one to three damages."""
    data = sheet.text(accepted(rng, rng.randint(1, 6)).schedule())
    for _ in range(rng.choice((1, 1, 1, 2, 3))):
        data = rng.choice(DAMAGES)(rng, data or b"0")
    return data


FAR_VALUES = [
    -9_999_999_999, -LIMIT - 1, -LIMIT, -1, *range(9), *ABOUT_LIMITS, LIMIT, LIMIT + 1, 2**31,
    2**32, 2**32 + 1, 9_999_999_999,
]


def wrong_step(rng) -> bytes:
    """A sheet in good layout with a step whose code, rows or unused fields are right or just wrong:
    cause 5."""
    draft = accepted(rng, rng.randint(1, 6))
    number = rng.randrange(len(draft.steps))
    row = len(draft.ends) + number + 1
    named = (0, 1, row - 1, row, row + 1)
    first, second = rng.choice(named), rng.choice((0, 0, 0, 0, 0, *named))
    code, value = rng.choice((0, 1, 2, 3, 4, 5, 6, 6, 6, 7, 8)), rng.choice((0, 0, 0, 0, 1))
    draft.steps[number] = sheet.Step(code, first, second, value)
    return sheet.text(draft.schedule())


def counts_about_limits(rng) -> bytes:
    """A sheet in good layout with all lines that its counts ask for, each count at its limit, one
    beyond it, or small: accepted, or cause 3."""
    inputs, steps = (
        rng.choice((1, 2, limit, limit, limit + 1))
        for limit in (sheet.INPUTS_LIMIT, sheet.STEPS_LIMIT)
    )
    counts = sheet.Counts(inputs, rng.choice((0, inputs - 1, inputs, inputs, inputs + 1)), steps)
    ends = [near_one(rng) for _ in range(inputs)]
    step = rng.choice((sheet.ADD, sheet.MULTIPLY)), rng.randint(1, inputs), rng.randint(1, inputs), 0
    return sheet.text(sheet.Schedule(counts, ends, [sheet.Step(*step)] * steps))


def wrong_value(rng) -> bytes:
    """A sheet in good layout with one or two numbers replaced: causes 3, 4 and 5. At times one of
    their lines also breaks the layout: 2 comes first there."""
    if rng.random() < 0.05:
        return counts_about_limits(rng)
    if rng.random() < 0.4:
        return wrong_step(rng)
    data = sheet.text(accepted(rng, rng.randint(1, 6)).schedule())
    lines = data.split(b"\n")
    for _ in range(rng.randint(1, 2)):
        chosen = rng.choice([n for n, line in enumerate(lines) if line[-1:].isdigit()])
        fields = lines[chosen].split(b" ")
        fields[rng.randrange(len(fields))] = b"%d" % rng.choice(FAR_VALUES)
        lines[chosen] = b" ".join(fields)
    if rng.random() < 0.15:
        lines[chosen] += rng.choice((b" ", b" 0", b"\r", b"x", b"00000000000"))
    return b"\n".join(lines)


# One sheet for each seed and index

KINDS = [accepted, late_refusal, unguided, extreme, extreme, extreme, damaged, wrong_value]


def sheet_bytes(seed, index: int) -> bytes:
    """The sheet that a seed and an index name."""
    rng = random.Random(f"{seed}/{index}")
    made = KINDS[index % len(KINDS)](rng)
    return made if isinstance(made, bytes) else sheet.text(made.schedule())


SWEPT_SHEET = sheet.text(sheet.schedule(0, [(0, 1)], [(4, 1, 1, 0)]))


def every_byte_at_every_place() -> list[bytes]:
    """Every ASCII byte, and some above 127, at every place of one sheet."""
    return [
        SWEPT_SHEET[:place] + bytes([byte]) + SWEPT_SHEET[place + 1 :]
        for place in range(len(SWEPT_SHEET))
        for byte in [*range(128), 128, 160, 176, 255]
    ]


def outcomes(seed, start: int, count: int) -> collections.Counter:
    """How many sheets are accepted, and how many are refused by each number."""
    counter = collections.Counter()
    for index in range(start, start + count):
        answer = listing.listing(sheet_bytes(seed, index))
        refused = answer.startswith(b"refused")
        counter[int(answer.split()[2]) if refused else 0] += 1
    return counter


if __name__ == "__main__":
    if len(sys.argv) == 4:
        for number, times in sorted(outcomes(sys.argv[1], *map(int, sys.argv[2:])).items()):
            print(number, times)
    else:
        sys.stdout.buffer.write(sheet_bytes(sys.argv[1], int(sys.argv[2])))
