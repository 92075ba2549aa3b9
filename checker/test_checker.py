"""Tests of the checker itself: the specification's examples, its listing, its traps, and demand 3.

    python3 -m unittest discover checker
    python3 checker/test_checker.py           (prints `N passed, M failed` as its last line)
"""

import collections
import itertools
import math
import pathlib
import random
import re
import subprocess
import sys
import tempfile
import unittest
import unittest.mock

import demand3
import evaluation
import formula
import formula_again
import formula_cases
import generate
import intervals
import library_calls
import listing
import overlap
import rows
import samples
import sheet
import sheet_cases
import spoilt
import stored


def worked_rows(squares, ends, steps):
    """The rows of the sheet with these ends and steps, or its refusal (number, place)."""
    handed = sheet.schedule(squares, ends, steps)
    sheet.test(handed)
    worked = evaluation.work(handed)
    return worked.rows if not worked.number else (worked.number, worked.place)


def last_row(squares, ends, steps):
    """The numbers of its last row, or its refusal."""
    worked = worked_rows(squares, ends, steps)
    return worked[-1].numbers if isinstance(worked, list) else worked


def input_alone(low, high):
    """The input's row on a sheet with these ends."""
    return worked_rows(0, [(low, high)], constant_steps(0))[0]


def constant_steps(*values):
    return [(1, 0, 0, value) for value in values]


def row_of_two_constants(code, first, second):
    """Constants as rows 2 and 3 of a sheet with one input 0 0, and row 4 their sum, product ..."""
    return worked_rows(0, [(0, 0)], [*constant_steps(first, second), (code, 2, 3, 0)])[-1]


def of_two_constants(code, first, second):
    """The numbers of that row 4, or its refusal."""
    return last_row(0, [(0, 0)], [*constant_steps(first, second), (code, 2, 3, 0)])


def reciprocal_of_constant(value):
    return last_row(0, [(0, 0)], [*constant_steps(value), (5, 2, 0, 0)])


def reciprocal_of_input(low, high, squares):
    return last_row(squares, [(low, high)], [(5, 1, 0, 0)])


def numbers(centre, linear, pairs=()):
    """A row from its centre and the coefficients that are not 0."""
    row = [0] * rows.NUMBERS
    row[0] = centre
    for symbol, coefficient in linear.items():
        row[symbol] = coefficient
    for index, coefficient in enumerate(pairs):
        row[rows.PAIR_PLACE[1, 1] + index] = coefficient
    return row


class ProvedExamples(unittest.TestCase):
    """P1 to P13, "Proved examples" (manual, section 5.13), and the listing."""

    def test_p1_ends_0_1(self):
        row = input_alone(0, 1)
        self.assertEqual(row.numbers, numbers(0, {1: 1}))
        self.assertEqual(row.answered_range, (0, 1))

    def test_p2_ends_minus_1_0(self):
        row = input_alone(-1, 0)
        self.assertEqual(row.numbers, numbers(-1, {1: 1}))
        self.assertEqual(row.answered_range, (-1, 0))

    def test_p3_1_times_1(self):
        """"the range of P3 becomes 0 to 1": 1/4096 of a unit, down and up."""
        row = row_of_two_constants(4, 1, 1)
        self.assertEqual(row.own_range, (-1, 1))
        self.assertEqual(row.plain_range, (0, 1))
        self.assertEqual(row.answered_range, (0, 1))

    def test_p4_minus_1_times_1(self):
        self.assertEqual(of_two_constants(4, -1, 1), numbers(0, {4: 1}))

    def test_p5_reciprocal_of_8192(self):
        self.assertEqual(reciprocal_of_constant(8192), numbers(2048, {}))

    def test_p6_reciprocal_of_12288(self):
        self.assertEqual(reciprocal_of_constant(12288), numbers(1365, {3: 1}))

    def test_p7_reciprocal_of_minus_12288(self):
        self.assertEqual(reciprocal_of_constant(-12288), numbers(-1366, {3: 1}))

    def test_p8_square_with_squares_1(self):
        row = last_row(1, [(4096, 8192)], [(4, 1, 1, 0)])
        self.assertEqual(row, numbers(9216, {1: 6144}, [1024]))

    def test_p9_square_with_squares_0(self):
        """"that of P9 4096 to 16384": 1 times 1 to 2 times 2."""
        row = worked_rows(0, [(4096, 8192)], [(4, 1, 1, 0)])[-1]
        self.assertEqual(row.numbers, numbers(9216, {1: 6144, 2: 1024}))
        self.assertEqual(row.own_range, (2048, 16384))
        self.assertEqual(row.answered_range, (4096, 16384))

    def test_p10_reciprocal_with_squares_1(self):
        row = reciprocal_of_input(4096, 8192, 1)
        self.assertEqual(row, numbers(2730, {1: -911, 2: 155}, [303]))

    def test_p11_reciprocal_with_squares_0(self):
        row = reciprocal_of_input(4096, 8192, 0)
        self.assertEqual(row, numbers(2730, {1: -911, 2: 458}))

    def test_p12_reciprocal_of_narrow_inputs(self):
        row = reciprocal_of_input(1, 2, 0)
        self.assertEqual(row, numbers(16_777_216, {1: -16_777_216, 2: 16_777_216}))
        for squares in (0, 1):
            self.assertEqual(len(reciprocal_of_input(1, 2, squares)), rows.NUMBERS)
            self.assertEqual(len(reciprocal_of_input(1, 3, squares)), rows.NUMBERS)

    def test_p13_span(self):
        self.assertEqual(of_two_constants(4, 268_435_456, 16_384), numbers(2**30, {}))
        self.assertEqual(of_two_constants(4, 268_435_456, 16_385), (6, 4))

    def test_the_listing_of_the_specification(self):
        """"In the listing of 01 row 4 now starts at 3136"."""
        printed = listing.listing(listing.EXAMPLE_SHEET)
        self.assertEqual(printed, listing.EXAMPLE_LISTING)
        self.assertEqual(printed.split(b"\n")[4], b"4 3136 5184 0 0")


class Traps(unittest.TestCase):
    """"Traps for the builder": each one changes an example as the specification says it does."""

    def test_rounding_a_product_down(self):
        with spoilt.spoilt("a product rounded down"):
            self.assertNotEqual(of_two_constants(4, -1, 1)[0], 0)

    def test_rounding_toward_zero(self):
        with spoilt.spoilt("a product rounded toward zero"):
            self.assertNotEqual(of_two_constants(4, 2048, 1)[0], 1)
        with spoilt.spoilt("a candidate rounded toward zero"):
            self.assertNotEqual(reciprocal_of_constant(-12288)[0], -1366)

    def test_counting_squares_from_minus_1(self):
        with spoilt.spoilt("low with squares from -1"):
            self.assertEqual(listing.listing(listing.EXAMPLE_SHEET).split(b"\n")[7], b"7 4032 4160 0 0")

    def test_one_symbol_for_all_roundings(self):
        steps = [*constant_steps(1, 2), (4, 2, 2, 0), (4, 2, 3, 0), (3, 5, 4, 0)]
        self.assertEqual(rows.form_range(last_row(0, [(0, 0)], steps)), (-2, 2))
        with spoilt.spoilt("one symbol for the rounding of all steps"):
            self.assertEqual(rows.form_range(last_row(0, [(0, 0)], steps)), (0, 0))

    def test_half_the_width(self):
        with spoilt.spoilt("half the width as an input's own coefficient"):
            self.assertEqual(rows.high(rows.input_row(0, 1, 1)), 0)


def answer_of(answer, data):
    """What is answered for a sheet or for calls, or None where a range that is wrong in one place
    leaves a later row without one."""
    try:
        return answer(data)
    except intervals.NoRange:
        return None


def alike(lines, expected):
    """Whether lines are the expected ones; none is made behind the first that is not."""
    return all(line == right for line, right in itertools.zip_longest(lines, expected))


def place_of(term):
    """The place in a row of a term, given as the symbols that it multiplies."""
    return rows.PAIR_PLACE[term] if len(term) == 2 else sum(term)


def multiplied_out(x, y):
    """The product of two forms, each of its terms by itself."""
    terms = [(), *((i,) for i in rows.LINEAR_PLACES), *rows.PAIRS]
    product = collections.Counter()
    for first, p in zip(terms, x):
        for second, q in zip(terms, y):
            product[tuple(sorted(first + second))] += p * q
    return product


class Rows(unittest.TestCase):
    def test_the_numbers_of_the_specification(self):
        """"a row has 85 numbers: centre, 48 linear, 36 pairs in the same manner. A full table is 4,080
        numbers; the row count given may reach 48." The table of ranges has two a row."""
        self.assertEqual((1, rows.SYMBOLS, len(rows.PAIRS)), (1, 48, 36))
        self.assertEqual(rows.NUMBERS, 85)
        self.assertEqual(evaluation.ROWS_LIMIT, 48)
        self.assertEqual((listing.TABLE_LENGTH, listing.RANGES_LENGTH), (4080, 96))
        self.assertEqual(formula.LETTERS, b"abcdefgh")

    def test_pair_places(self):
        """(1,1), (1,2) to (1,8), (2,2) and so on to (8,8), behind the centre and 48 symbols: 8 pairs
        with 1, 7 with 2, and the last pair is the 36th."""
        self.assertEqual(rows.PAIR_PLACE[1, 1], 49)
        self.assertEqual(rows.PAIR_PLACE[1, 8], 56)
        self.assertEqual(rows.PAIR_PLACE[2, 2], 57)
        self.assertEqual(rows.PAIR_PLACE[7, 8], 83)
        self.assertEqual(rows.PAIR_PLACE[8, 8], 84)
        self.assertEqual(list(rows.PAIR_PLACE.values()), [*range(49, 85)])
        self.assertEqual(sorted(rows.SQUARED_PLACES + rows.MIXED_PLACES), [*range(49, 85)])

    def test_product_of_two_inputs(self):
        """(1 + a)(2 + 3b) with squares 2, in units of 4096 and by hand."""
        row = last_row(2, [(0, 8192), (-4096, 20480)], [(4, 1, 2, 0)])
        self.assertEqual(row, numbers(8192, {1: 8192, 2: 12288}, [0, 12288]))

    def test_exact_halves_and_their_neighbours(self):
        """4096 × k + 2048 is half-way between k and k + 1, and goes up; one below it goes down. Each
        leaves more than nothing, so the own coefficient is 1."""
        for k in (-65_535, -3, -2, -1, 0, 1, 2, 3, 65_534):
            for off, quotient in ((-1, k), (0, k + 1), (1, k + 1)):
                row = of_two_constants(4, 4096 * k + 2048 + off, 1)
                self.assertEqual(row, numbers(quotient, {4: 1}))

    def test_remainders_count_without_their_signs(self):
        """32 + 32a times itself: totals 1024, 2048 and 1024, remainders 1024, -2048 and 1024, which
        are 4096 without their signs, and nothing with them."""
        row = last_row(1, [(0, 64)], [(4, 1, 1, 0)])
        self.assertEqual(row, numbers(0, {1: 1, 2: 1}))
        with spoilt.spoilt("remainders summed with their signs"):
            self.assertEqual(last_row(1, [(0, 64)], [(4, 1, 1, 0)]), numbers(0, {1: 1}))

    def test_a_remainder_runs_from_minus_2048_to_2047(self):
        for total in [*range(-9000, 9000), *range(2**60 - 9000, 2**60 + 9000)]:
            left = total - 4096 * rows.product_quotient(total)
            self.assertTrue(-2048 <= left <= 2047)
            self.assertEqual(rows.product_remainder(total), abs(left))

    def test_product_with_one_square_drops_the_rest(self):
        row = last_row(1, [(0, 8192), (-4096, 20480)], [(4, 1, 2, 0)])
        self.assertEqual(row, numbers(8192, {1: 8192, 2: 12288, 3: 12288}))

    def test_totals_are_the_kept_part_of_the_polynomial_product(self):
        """Multiplied out term by term, the kept terms are the totals, and the absolutes of the
        others add up to at most the dropped part (to just that where all numbers are positive)."""
        rng = random.Random(8)
        for _ in range(60):
            squares = rng.randint(0, rows.SQUARES_LIMIT)
            low = rng.choice((-9, 1))
            x, y = ([rng.randint(low, 9) for _ in range(rows.NUMBERS)] for _ in range(2))
            kept = [(), *((i,) for i in rows.LINEAR_PLACES)]
            kept += [pair for pair in rows.PAIRS if pair[1] <= squares]
            for row in (x, y):
                for pair, place in rows.PAIR_PLACE.items():
                    row[place] *= pair in kept
            product = multiplied_out(x, y)
            totals = rows.product_totals(x, y, squares)
            self.assertEqual([product.pop(term, 0) for term in kept], [
                totals[place_of(term)] for term in kept
            ])
            left = sum(map(abs, product.values()))
            dropped = rows.dropped_part(x, y, squares)
            (self.assertEqual if low > 0 else self.assertLessEqual)(left, dropped)
            self.assertLessEqual(rows.absolute_sum(totals) + dropped, rows.span(x) * rows.span(y))

    def test_candidate_pair_has_two_divisions(self):
        """x = 5 + a + b + 2ab: by hand 16777216/5 and -16777216/25, then for (1,2)
        floor(-2·16777216/25) + floor(2·671089/5)."""
        operand = numbers(5, {1: 1, 2: 1}, [0, 2])
        made = rows.candidate(operand, 2)
        expected = numbers(3355443, {1: -671089, 2: -671089}, [134217, -1342178 + 268435])
        expected[rows.PAIR_PLACE[2, 2]] = 134217
        self.assertEqual(made, expected)

    def test_the_pairs_of_the_last_two_inputs(self):
        """Of the last inputs g = 1 + a and h = 2 + b the product is 2 + 2a + b + ab; where the last one
        is in no pair, ab is dropped. The candidate of 5 + a + b + 2ab is as above, and that of its root
        143 with the slopes 14, 14 and 28."""
        last = rows.SQUARES_LIMIT
        before, mixed, square = (last - 1,) * 2, (last - 1, last), (last,) * 2
        g, h = numbers(4096, {last - 1: 4096}), numbers(8192, {last: 4096})
        product = numbers(8192, {last - 1: 8192, last: 4096})
        product[rows.PAIR_PLACE[mixed]] = 4096
        self.assertEqual(rows.multiply(g, h, last, last + 1), product)
        self.assertEqual(rows.multiply(h, g, last, last + 1), product)
        dropped = numbers(8192, {last - 1: 8192, last: 4096, last + 1: 4096})
        self.assertEqual(rows.multiply(g, h, last - 1, last + 1), dropped)
        operand = numbers(5, {last - 1: 1, last: 1})
        operand[rows.PAIR_PLACE[mixed]] = 2
        made = numbers(3355443, {last - 1: -671089, last: -671089})
        made[rows.PAIR_PLACE[before]] = made[rows.PAIR_PLACE[square]] = 134217
        made[rows.PAIR_PLACE[mixed]] = -1342178 + 268435
        self.assertEqual(rows.candidate(operand, last), made)
        root = numbers(143, {last - 1: 14, last: 14})
        root[rows.PAIR_PLACE[mixed]] = 28
        self.assertEqual(rows.root_candidate(operand), root)

    def test_range_of_every_kind_of_number(self):
        row = numbers(10, {1: -1, rows.SYMBOLS: 2}, [4, -8])
        row[rows.PAIR_PLACE[2, 2]] = -16
        self.assertEqual(rows.form_range(row), (10 - 3 - 8 - 16, 10 + 3 + 8 + 4))


class Reading(unittest.TestCase):
    """Reader and writer, with the readings that the team decided (docs/DECISIONS.md)."""

    def refusal(self, data):
        answer = sheet.read(data)
        if answer.number:
            self.assertEqual(answer.schedule, sheet.ZEROS)
        return answer.number, answer.place

    def test_order_of_causes(self):
        most, most_steps = sheet.INPUTS_LIMIT, sheet.STEPS_LIMIT
        start = b"inputs squares steps\n"
        ends = start + b"1 0 1\nlow high\n"
        steps = ends + b"0 0\nstep first second value\n"
        for data, expected in [
            (b"", (2, 1)),
            (b"x" * 1024, (2, 1)),
            (b"x" * 1025, (1, 0)),
            (start, (2, 2)),
            (start[:-1], (2, 1)),
            (start + b"9 0 01\n", (2, 2)),
            (start + b"9 0 1\n", (3, 2)),
            (start + b"9 0 1", (2, 2)),
            (start + b"1 2 1\n", (3, 2)),
            (start + b"1 -1 1\n", (3, 2)),
            (start + b"1 0 %d\n" % (most_steps + 1), (3, 2)),
            (start + b"%d 0 1\n" % (most + 1), (3, 2)),
            (start + b"%d %d %d\n" % (most, most + 1, most_steps), (3, 2)),
            (start + b"%d %d %d\n" % (most, most, most_steps), (2, 3)),
            (start + b"1 0 10000000000\n", (2, 2)),
            (start + b"1 0 9999999999\n", (3, 2)),
            (start + b"1 0 1\n", (2, 3)),
            (ends, (2, 4)),
            (ends + b"1 0\n", (4, 4)),
            (ends + b"1 00\n", (2, 4)),
            (ends + b"1 0", (2, 4)),
            (ends + b"-268435457 0\n", (4, 4)),
            (steps, (2, 6)),
            (steps + b"1 0 0 268435456\n", (0, 0)),
            (steps + b"1 0 0 268435457\n", (5, 6)),
            (steps + b"1 0 0 268435456", (2, 6)),
            (steps + b"1 0 0 0\n\n", (2, 7)),
            (steps + b"1 0 0 0\n" + b"0" * 2000, (1, 0)),
            (steps + b"0 1 0 0\n\n", (5, 6)),
            (steps + b"2 1 2 0\n", (5, 6)),
            (steps + b"2 1 0 0\n", (5, 6)),
            (steps + b"2 1 1 1\n", (5, 6)),
            (steps + b"5 1 1 0\n", (5, 6)),
            (steps + b"5 1 0 0\n", (0, 0)),
            (steps + b"6 1 0 0\n", (0, 0)),
            (steps + b"6 0 0 0\n", (5, 6)),
            (steps + b"6 2 0 0\n", (5, 6)),
            (steps + b"6 1 1 0\n", (5, 6)),
            (steps + b"6 1 0 1\n", (5, 6)),
            (steps + b"7 1 0 0\n", (5, 6)),
            (steps + b"1 1 0 0\n", (5, 6)),
        ]:
            with self.subTest(data=data[:200]):
                self.assertEqual(self.refusal(data), expected)

    def test_numbers(self):
        start = b"inputs squares steps\n1 0 1\nlow high\n"
        for field in (b"-0", b"00", b"01", b"+1", b"-", b"", b"1\r", b"\t1", b"1\0", b"- 1", b"1_0"):
            with self.subTest(field=field):
                self.assertEqual(self.refusal(start + field + b" 0\n"), (2, 4))
        self.assertEqual(self.refusal(start + b"-9999999999 0\n"), (4, 4))

    def test_sheet_cases_are_many_and_of_every_kind(self):
        cases = sheet_cases.cases()
        self.assertGreaterEqual(len(cases), 300)
        self.assertLessEqual(max(map(len, cases)), sheet_cases.LONGEST_CASE)
        outcomes = {self.refusal(case) for case in cases}
        layout = {(2, line) for line in range(1, 11)}
        self.assertLessEqual({(0, 0), (1, 0), (3, 2), (4, 4), (4, 5)} | layout, outcomes)
        self.assertLessEqual({(5, 7), (5, 8), (5, 9)}, outcomes)

    def test_both_round_trips(self):
        for index in range(400):
            data = generate.sheet_bytes("round trip", index)
            answer = sheet.read(data)
            out = bytearray(b"?" * (len(data) + 3))
            written = sheet.write(answer.schedule, out)
            if answer.number:
                self.assertEqual(written, (3, 2, 0))
                self.assertEqual(out, b"?" * len(out))
            else:
                self.assertEqual(written, (0, 0, len(data)))
                self.assertEqual(out, data + b"???")
                self.assertEqual(sheet.read(bytes(out[:-3])).schedule, answer.schedule)

    def test_the_longest_sheet(self):
        """The most inputs and steps, each number as long as it can be: names and counts are 21 and 7
        bytes, names and ends 9 and 22 for each input, names and steps 24 and 17 for each step."""
        length = 21 + 7 + 9 + 22 * sheet.INPUTS_LIMIT + 24 + 17 * sheet.STEPS_LIMIT
        self.assertEqual(length, 917)
        data = sheet.text(sheet_cases.LARGEST)
        self.assertEqual(len(data), length)
        self.assertEqual(sheet.read(data), (0, 0, sheet_cases.LARGEST))
        out = bytearray(length)
        self.assertEqual(sheet.write(sheet_cases.LARGEST, out), (0, 0, length))
        self.assertEqual(out, data)
        self.assertEqual(sheet.write(sheet_cases.LARGEST, bytearray(length - 1)), (8, 0, 0))
        self.assertEqual(len(listing.listing(data).splitlines()), 1 + rows.SYMBOLS)

    def test_no_line_of_a_sheet_is_longer(self):
        """None of a step that passes is longer than that of the least constant."""
        longest = len(sheet.text(sheet_cases.LARGEST).splitlines()[-1])
        for code in range(sheet.CONSTANT, sheet.ROOT + 1):
            named = [0, 1, rows.SYMBOLS - 1]
            values = [0, sheet.END_LIMIT, -sheet.END_LIMIT]
            for first, second, value in itertools.product(named, named, values):
                step = sheet.Step(code, first, second, value)
                if sheet.step_in_order(step, rows.SYMBOLS):
                    self.assertLessEqual(len(" ".join(map(str, step))), longest)

    def test_writer_needs_room(self):
        handed = sheet.read(listing.EXAMPLE_SHEET).schedule
        out = bytearray(len(listing.EXAMPLE_SHEET) - 1)
        self.assertEqual(sheet.write(handed, out), (8, 0, 0))
        self.assertEqual(out, bytes(len(out)))

    def test_counts_of_any_value_are_3(self):
        inputs, steps = sheet.INPUTS_LIMIT + 1, sheet.STEPS_LIMIT + 1
        far = [(-(2**63), 0, 1), (1, 2**63 - 1, 1), (1, 0, 2**63 - 1)]
        for counts in [*far, (inputs, inputs, steps), (inputs, 0, 1), (1, 0, steps)]:
            handed = sheet.ZEROS._replace(counts=sheet.Counts(*counts))
            self.assertEqual(sheet.write(handed, bytearray(2000)), (3, 2, 0))
            tables = [0] * listing.TABLE_LENGTH, [0] * listing.RANGES_LENGTH
            self.assertEqual(evaluation.evaluate(handed, *tables), (3, 2))

    def test_what_lies_beyond_the_counts_changes_nothing(self):
        handed = sheet.read(listing.EXAMPLE_SHEET).schedule
        filled = handed._replace(
            ends=handed.ends[:1] + (sheet.Ends(2**63 - 1, -(2**63)),) * (sheet.INPUTS_LIMIT - 1),
            steps=handed.steps[:6] + (sheet.Step(9, 2**63 - 1, -(2**63), 5),) * (sheet.STEPS_LIMIT - 6),
        )
        tables, outs = [([7] * 800, [8] * 20) for _ in range(2)], (bytearray(300), bytearray(300))
        for schedule, lent, out in zip((handed, filled), tables, outs):
            self.assertEqual(evaluation.evaluate(schedule, *lent), (0, 0))
            self.assertEqual(sheet.write(schedule, out).length, len(listing.EXAMPLE_SHEET))
        self.assertEqual(*tables)
        self.assertEqual(*outs)


def bracketed(tree) -> bytes:
    """A text of a tree with brackets around every sign's part."""
    if isinstance(tree, formula.Letter):
        return formula.LETTERS[tree.input - 1 : tree.input]
    if isinstance(tree, formula.Literal):
        return tree.digits
    return b"(" + bracketed(tree.left) + tree.sign + bracketed(tree.right) + b")"


class Formulas(unittest.TestCase):
    """Formulas, against samples of another implementation and against second definitions."""

    nesting = formula.NESTING_LIMIT

    def test_the_samples(self):
        count = 0
        for case, refusal, expected in formula_cases.sample_cases():
            answer = formula.read(*case)
            counts, ends, steps = answer.schedule
            self.assertEqual(answer[:2], refusal, case)
            self.assertEqual(list(counts), expected["counts"], case)
            self.assertEqual([list(end) for end in ends[: counts.inputs]], expected["ends"], case)
            self.assertEqual([list(step) for step in steps[: counts.steps]], expected["steps"], case)
            count += 1
        self.assertEqual(count, 271)

    def place(self, text, inputs):
        """The place of 10, or 0."""
        try:
            formula.tree_of(text, inputs)
        except sheet.Refusal as refusal:
            return refusal.place
        return 0

    def test_every_short_text(self):
        """Brackets nest to 2 here, so that three bytes more close every beginning."""
        alphabet, longest = b"a01*()", 5
        with unittest.mock.patch.object(formula, "NESTING_LIMIT", 2):
            beginnings = [b""]
            for _ in range(longest):
                texts = [text + bytes([byte]) for text in beginnings for byte in alphabet]
                beginnings = []
                for text in texts:
                    if formula_again.begins_by_search(text, 1, 2, alphabet, 3):
                        beginnings.append(text)
                        whole = formula_again.is_formula(text, 1, 2)
                        self.assertEqual(self.place(text, 1), 0 if whole else len(text) + 1)
                    else:
                        self.assertEqual(self.place(text, 1), len(text))
                        self.assertEqual(self.place(text + b"a)", 1), len(text))
                    again = formula_again.begins_formula(text, 1, 2)
                    self.assertEqual(again, text in beginnings[-1:])

    def test_every_byte_behind_every_kind_of_beginning(self):
        for start in (b"", b"a", b"0", b"7", b"(", b"(b", b"(0", b"(31", b"(a)", b"a+", b"(a/", b"(" * 16):
            for byte in range(256):
                text = start + bytes([byte])
                begins = formula_again.begins_formula(text, 2, self.nesting)
                whole = formula_again.is_formula(text, 2, self.nesting)
                expected = len(text) if not begins else 0 if whole else len(text) + 1
                self.assertEqual(self.place(text, 2), expected, text)

    def test_the_place_of_10_in_long_texts(self):
        """The bytes before the place begin a formula, and those up to it do not; or the text is cut."""
        begins = formula_again.begins_formula
        texts = (formula_cases.long_formulas(), formula_cases.any_formulas("places", 30, 30))
        for inputs, _, _, text in itertools.chain(*texts):
            place = self.place(text, inputs)
            if place == 0:
                self.assertTrue(formula_again.is_formula(text, inputs, self.nesting), text)
                self.assertLessEqual(len(text), 200)
                continue
            self.assertLessEqual(place, 201)
            self.assertTrue(begins(text[: place - 1], inputs, self.nesting), text)
            if place == 201:
                self.assertTrue(len(text) > 200 or not formula_again.is_formula(text, inputs, self.nesting))
            elif place <= len(text):
                self.assertFalse(begins(text[:place], inputs, self.nesting), text)
            else:
                self.assertEqual(place, len(text) + 1)
                self.assertFalse(formula_again.is_formula(text, inputs, self.nesting), text)

    def accepted(self):
        for case in itertools.chain(
            formula_cases.short_formulas(), formula_cases.deep_formulas(),
            formula_cases.counted_formulas(), formula_cases.literal_formulas(),
            formula_cases.any_formulas("accepted", 30, 50),
        ):
            answer = formula.read(*case)
            if answer.number == 0:
                yield case, answer.schedule

    def test_python_reads_the_same_steps(self):
        for (inputs, squares, ends, text), schedule in self.accepted():
            steps = formula_again.python_steps(text, inputs)
            self.assertEqual(schedule, sheet.schedule(squares, ends[:inputs], steps), text)

    def test_5_and_11_as_python_reads(self):
        for inputs, squares, ends, text in formula_cases.any_formulas("5 and 11", 20, 50):
            number, place, _ = formula.read(inputs, squares, ends, text)
            if number in (0, 5, 11):
                steps = formula_again.python_steps(text, inputs)
                beyond = [step[3] for step in steps if step[0] == 1 and step[3] > 2**28]
                self.assertEqual(number == 5, bool(beyond), text)
                if beyond:
                    self.assertTrue(text[place - 1 :].startswith(b"%d" % beyond[0]))
                    self.assertTrue(all(int(part) <= 2**28 for part in re.findall(rb"[0-9]+", text[: place - 1])))
                else:
                    self.assertEqual(number == 11, not 1 <= len(steps) <= sheet.STEPS_LIMIT, text)

    def test_the_last_row_has_the_value_of_the_formula(self):
        rng = random.Random("values")
        worked = 0
        for (inputs, _, _, text), schedule in self.accepted():
            given = [demand3.Fraction(rng.randint(-9, 9), rng.randint(1, 5)) for _ in range(inputs)]
            try:
                exact = formula.value(formula.tree_of(text, inputs), given)
            except ZeroDivisionError:
                with self.assertRaises(ZeroDivisionError):
                    formula_again.python_value(text, given)
                with self.assertRaises(demand3.ZeroDivisor):
                    demand3.exact_values(schedule, given)
                continue
            self.assertEqual(formula_again.python_value(text, given), exact, text)
            self.assertEqual(demand3.exact_values(schedule, given)[-1], exact, text)
            worked += 1
        self.assertGreater(worked, 500)

    def test_one_reading(self):
        """A tree's text with all brackets is read as the same tree."""
        limits = {"NESTING_LIMIT": 1000, "LENGTH_LIMIT": 100_000}
        for (inputs, _, _, text), schedule in self.accepted():
            tree = formula.tree_of(text, inputs)
            with unittest.mock.patch.multiple(formula, **limits):
                again = formula.tree_of(bracketed(tree), inputs)
            steps, steps_again = [], []
            formula.add_steps(tree, inputs, steps)
            formula.add_steps(again, inputs, steps_again)
            self.assertEqual(steps, steps_again)

    def test_accepted_schedules_pass_the_tests_of_a_sheet(self):
        for _, schedule in self.accepted():
            sheet.test(schedule)
            self.assertEqual(sheet.read(sheet.text(schedule)), (0, 0, schedule))

    def test_order_of_causes(self):
        good, wrong = [(0, 1), (0, 1)], [(0, 1), (1, 0)]
        most, most_steps = sheet.INPUTS_LIMIT, sheet.STEPS_LIMIT
        last, beyond = formula.LETTERS[-1:], bytes([formula.LETTERS[-1] + 1])
        ends = good * most
        wrong_at_last = ends[: most - 1] + [(1, 0)]
        for inputs, squares, ends, text, expected in [
            (2, 3, wrong, b"?", (3, 2)),
            (2, 2, wrong, b"?", (4, 5)),
            (1, 1, wrong, b"b", (10, 1)),
            (2, 0, good, b"a+268435457+", (10, 13)),
            (2, 0, good, b"a+268435457" + b"+a" * most_steps, (5, 3)),
            (2, 0, good, b"a+268435456" + b"+a" * (most_steps - 2), (0, 0)),
            (2, 0, good, b"a+268435456" + b"+a" * (most_steps - 1), (11, 0)),
            (2, 0, good, b"b", (11, 0)),
            (most, most, ends, b"a*" + last, (0, 0)),
            (most, most, ends, b"a*" + beyond, (10, 3)),
            (most - 1, 0, ends, b"a*" + last, (10, 3)),
            (most + 1, 0, ends, b"a*" + last, (3, 2)),
            (most, most + 1, ends, b"a*" + last, (3, 2)),
            (most, 0, wrong_at_last, b"?", (4, 3 + most)),
            (most - 1, 0, wrong_at_last, b"?", (10, 1)),
        ]:
            self.assertEqual(formula.read(inputs, squares, ends, text)[:2], expected, text)


class OddEnds(unittest.TestCase):
    """An input's range is its ends, and a reciprocal goes by the range of its operand."""

    def test_an_input_has_its_ends(self):
        for low, high in [(0, 1), (-1, 0), (1, 2), (-2, -1), (-3, -2), (-5, 6), (7, 7), (-(2**28), 1)]:
            row = input_alone(low, high)
            self.assertEqual(row.own_range, (low, high))
            self.assertEqual(row.answered_range, (low, high))
            formed = (low - (low + high) % 2, high)
            self.assertEqual(rows.form_range(row.numbers), formed)

    def test_other_rows_have_the_range_of_their_form(self):
        """A sum with 0 has the input's numbers, and by itself not its ends: those are its plain
        range."""
        _, _, total = worked_rows(0, [(1, 2)], [(1, 0, 0, 0), (2, 1, 2, 0)])
        self.assertEqual(total.numbers, numbers(1, {1: 1}))
        self.assertEqual(total.own_range, (0, 2))
        self.assertEqual(total.answered_range, (1, 2))
        steps = [(1, 0, 0, 0), (2, 1, 2, 0), (5, 3, 0, 0)]
        self.assertEqual(worked_rows(0, [(1, 2)], steps), (7, 4))

    def test_the_distance_is_that_of_the_ends(self):
        """x = 3 + a, by hand: 16777216/3 and -16777216/9, each rounded down; the totals of the
        product with x are -1 in the centre and -3 for a, and 1864136 is dropped. By the ends the sum
        is divided by 3, by the form it would be by 2."""
        error = 1 + 3 + 1_864_136
        row = reciprocal_of_input(3, 4, 0)
        self.assertEqual(row, numbers(5_592_405, {1: -1_864_136, 2: -(-error // 3)}))
        formed = last_row(0, [(3, 4)], [(1, 0, 0, 0), (2, 1, 2, 0), (5, 3, 0, 0)])
        self.assertEqual(formed, numbers(5_592_405, {1: -1_864_136, 4: -(-error // 2)}))

    def test_a_negative_input_of_odd_sum(self):
        """Its form reaches one below the low end, and so no nearer to 0."""
        row = reciprocal_of_input(-2, -1, 0)
        self.assertEqual(row, numbers(-8_388_608, {1: -4_194_304, 2: 4_194_304}))

    def test_7_at_the_ends(self):
        for low, high in [(0, 1), (-1, 0), (0, 0), (-1, 1), (-2, 1), (-1, 2)]:
            self.assertEqual(reciprocal_of_input(low, high, 0), (7, 2))
        for low, high in [(1, 1), (-1, -1), (1, 2), (-2, -1), (1, 4), (-4, -1), (1, 2**13)]:
            self.assertEqual(len(reciprocal_of_input(low, high, 0)), rows.NUMBERS)


# Ranges on either side of 0 and around it, the product of each with each, and the four products of
# their ends of which it is the least and the greatest: all in ones, as 3 for 12288 units.
SIGNED_PRODUCTS = [
    ((2, 3), (5, 7), (10, 21)),
    ((2, 3), (-7, -5), (-21, -10)),
    ((-3, -2), (5, 7), (-21, -10)),
    ((-3, -2), (-7, -5), (10, 21)),
    ((2, 3), (-5, 7), (-15, 21)),
    ((-3, -2), (-5, 7), (-21, 15)),
    ((-2, 3), (-5, 7), (-15, 21)),
    ((-3, 2), (-5, 7), (-21, 15)),
    ((-2, 3), (-7, 5), (-21, 15)),
    ((-3, 2), (-7, 5), (-15, 21)),
    ((0, 3), (-5, 0), (-15, 0)),
    ((0, 0), (-5, 7), (0, 0)),
]


def ones(low, high):
    """The range of so many ones."""
    return rows.Range(4096 * low, 4096 * high)


class Intervals(unittest.TestCase):
    """Plain interval arithmetic, with numbers worked by hand."""

    def test_sums_and_differences(self):
        x, y = rows.Range(1, 5), rows.Range(-3, 10)
        self.assertEqual(intervals.add(x, y), (-2, 15))
        self.assertEqual(intervals.subtract(x, y), (-9, 8))
        self.assertEqual(intervals.subtract(y, x), (-8, 9))
        self.assertEqual(intervals.subtract(x, x), (-4, 4))

    def test_products_of_every_sign(self):
        for x, y, product in SIGNED_PRODUCTS:
            self.assertEqual(intervals.multiply(ones(*x), ones(*y)), ones(*product))
            self.assertEqual(intervals.multiply(ones(*y), ones(*x)), ones(*product))

    def test_a_product_is_rounded_outward(self):
        """4095, 4096 and 4097 times 1, over 4096, are 1 or one off; 64 times 64 is 4096."""
        for first, second, product in [
            (1, 1, (0, 1)),
            (-1, 1, (-1, 0)),
            (4095, 1, (0, 1)),
            (4096, 1, (1, 1)),
            (4097, 1, (1, 2)),
            (-4095, 1, (-1, 0)),
            (-4096, 1, (-1, -1)),
            (-4097, 1, (-2, -1)),
            (64, 64, (1, 1)),
            (2**28, -(2**28), (-(2**44), -(2**44))),
        ]:
            x, y = rows.Range(first, first), rows.Range(second, second)
            self.assertEqual(intervals.multiply(x, y), product)
        self.assertEqual(intervals.multiply(rows.Range(-65, 64), rows.Range(64, 65)), (-2, 2))

    def test_a_range_times_itself_has_no_rule_of_its_own(self):
        """From -3 to 2 the squares lie from 0 to 9; the plain range starts at -3 × 2."""
        self.assertEqual(intervals.multiply(ones(-3, 2), ones(-3, 2)), ones(-6, 9))

    def test_reciprocals(self):
        """N is 4096 × 4096, and 4095 × 4097 one less. N / 12288 is 1365 and a third, N / 3 is
        5592405 and a third, N / 5 is 3355443 and a fifth."""
        for ends, expected in [
            ((4096, 8192), (2048, 4096)),
            ((12288, 12288), (1365, 1366)),
            ((3, 5), (3_355_443, 5_592_406)),
            ((4095, 4097), (4095, 4098)),
            ((1, 2**24), (1, 2**24)),
            ((2**28, 2**28), (0, 1)),
        ]:
            low, high = expected
            mirrored = rows.Range(-ends[1], -ends[0])
            self.assertEqual(intervals.reciprocal(rows.Range(*ends)), expected)
            self.assertEqual(intervals.reciprocal(mirrored), (-high, -low))

    def test_no_reciprocal_of_a_range_that_holds_0(self):
        for ends in [(0, 5), (-5, 0), (0, 0), (-1, 1)]:
            with self.assertRaises(intervals.NoRange):
                intervals.reciprocal(rows.Range(*ends))

    def test_roots(self):
        """4096 × 1023 is one less than 2047²; 4096 × 2 lies between 90² and 91², 4096 × 3 between
        110² and 111², 4096 × 5 between 143² and 144², 4096 × 8192 between 5792² and 5793²."""
        for ends, expected in [
            ((1, 4), (64, 128)),
            ((2, 3), (90, 110)),
            ((5, 5), (143, 143)),
            ((1023, 1024), (2046, 2048)),
            ((4096, 8192), (4096, 5792)),
            ((0, 2**28), (0, 2**20)),
        ]:
            self.assertEqual(intervals.root(rows.Range(*ends)), expected)
        with self.assertRaises(intervals.NoRange):
            intervals.root(rows.Range(-1, 5))

    def test_overlaps(self):
        for x, y, both in [
            ((1, 5), (3, 9), (3, 5)),
            ((1, 9), (3, 5), (3, 5)),
            ((1, 5), (1, 5), (1, 5)),
            ((-7, 2), (2, 4), (2, 2)),
        ]:
            self.assertEqual(intervals.overlap(rows.Range(*x), rows.Range(*y)), both)
            self.assertEqual(intervals.overlap(rows.Range(*y), rows.Range(*x)), both)
        with self.assertRaises(intervals.NoRange):
            intervals.overlap(rows.Range(1, 2), rows.Range(3, 4))


class PlainRanges(unittest.TestCase):
    """Own, plain and answered ranges of rows, with numbers worked by hand."""

    def test_inputs_and_constants(self):
        worked = worked_rows(0, [(-3, 6)], constant_steps(-7))
        for row, ends in zip(worked, [(-3, 6), (-7, -7)]):
            self.assertEqual(row[1:], (ends, ends, ends))

    def test_each_end_by_itself(self):
        """x² - x for x from 0 to 3: 9/4 + 9/2 a + 9/4 b less 3/2 + 3/2 a is 3/4 + 3 a + 9/4 b, from
        -9/2 to 6; and 0 to 9 less 0 to 3 is -3 to 9."""
        row = worked_rows(0, [(0, 12288)], [(4, 1, 1, 0), (3, 2, 1, 0)])[-1]
        self.assertEqual(row.own_range, (-18432, 24576))
        self.assertEqual(row.plain_range, ones(-3, 9))
        self.assertEqual(row.answered_range, (-12288, 24576))

    def test_from_the_answered_ranges_of_the_operands(self):
        """x² for x from 1 to 2 has the own range 1/2 to 4 (P9), and so has 1 times it; answered is 1
        to 4, from which the plain range of that product is made."""
        steps = [(4, 1, 1, 0), (1, 0, 0, 4096), (4, 2, 3, 0)]
        _, square, _, product = worked_rows(0, [(4096, 8192)], steps)
        self.assertEqual(square.answered_range, ones(1, 4))
        self.assertEqual(product.own_range, (2048, 16384))
        self.assertEqual(product.plain_range, ones(1, 4))

    def test_the_own_range_where_terms_cancel(self):
        """Row 7 of the specification's listing: row 4 less row 6, 3136 to 5184 less -1024 to 1024."""
        row = evaluation.work(sheet.read(listing.EXAMPLE_SHEET).schedule).rows[6]
        self.assertEqual(row.plain_range, (2112, 6208))
        self.assertEqual(row.answered_range, (4096, 4160))

    def test_rows_that_are_the_same_may_have_different_ranges(self):
        """x² + y - y for x from 1 to 2 and y from 0 to 2: by intervals from 1 + 0 - 2 to 4 + 2 - 0."""
        steps = [(4, 1, 1, 0), (2, 3, 2, 0), (3, 4, 2, 0)]
        _, _, square, _, last = worked_rows(0, [(4096, 8192), (0, 8192)], steps)
        self.assertEqual(last.numbers, square.numbers)
        self.assertEqual(square.answered_range, ones(1, 4))
        self.assertEqual(last.plain_range, ones(-1, 6))
        self.assertEqual(last.answered_range, (2048, 16384))

    def test_7_and_12_go_by_the_own_range(self):
        """Twice an input with the ends 1 and 2: its own range is 0 to 4, the answered one 2 to 4."""
        row = worked_rows(0, [(1, 2)], [(2, 1, 1, 0)])[-1]
        self.assertEqual(row.own_range, (0, 4))
        self.assertEqual(row.answered_range, (2, 4))
        self.assertEqual(worked_rows(0, [(1, 2)], [(2, 1, 1, 0), (5, 2, 0, 0)]), (7, 3))
        self.assertEqual(worked_rows(0, [(1, 2)], [(2, 1, 1, 0), (6, 2, 0, 0)]), (12, 3))

    def test_the_distance_of_a_reciprocal_is_that_of_the_own_range(self):
        """x² of P9 is 9216 + 6144 a + 1024 b, from 2048 by its form, answered from 4096. Its
        candidate is 1820 - 1214 a - 203 b; 4096 + 6144 + 7168 + 7168 × 1417 over 2048 is 4968."""
        row = worked_rows(0, [(4096, 8192)], [(4, 1, 1, 0), (5, 2, 0, 0)])[-1]
        self.assertEqual(row.numbers, numbers(1820, {1: -1214, 2: -203, 3: 4968}))
        self.assertEqual(row.own_range, (-4565, 8205))
        self.assertEqual(row.answered_range, (1024, 4096))

    def test_the_low_of_a_root_is_that_of_the_own_range(self):
        """The same row: its candidate is 6144 + 2048 a + 341 b; 4096 + 2389² over 2896, the root of
        4096 × 2048, up, is 1973."""
        row = worked_rows(0, [(4096, 8192)], [(4, 1, 1, 0), (6, 2, 0, 0)])[-1]
        self.assertEqual(row.numbers, numbers(6144, {1: 2048, 2: 341, 3: 1974}))
        self.assertEqual(row.own_range, (1781, 10507))
        self.assertEqual(row.answered_range, (4096, 8192))

    def test_the_published_quotient(self):
        """xy/z for x from 1 to 2, y from 3 to 4, z from 5 to 6 lies from 1/2 to 8/5, 4505.6 units
        apart. N / 24576 is 682 and two thirds, N / 20480 is 819.2; 3 times 682, and 8 times 820."""
        for squares, own in ((0, (1252, 6560)), (3, (1282, 6562))):
            ends = [(4096, 8192), (12288, 16384), (20480, 24576)]
            row = worked_rows(squares, ends, [(4, 1, 2, 0), (5, 3, 0, 0), (4, 4, 5, 0)])[-1]
            self.assertEqual(row.own_range, own)
            self.assertEqual(row.answered_range, (2046, 6560))
        self.assertLess(row.answered_range.high - row.answered_range.low, 4505.6 + 10)

    def test_intervals_alone(self):
        """Without forms row 7 of the specification's listing lies from 3136 - 1024 to 5184 + 1024; a
        row less itself holds 0, and what is divided by 1 less it has no range."""
        found = overlap.intervals_alone(sheet.read(listing.EXAMPLE_SHEET).schedule)
        self.assertEqual(found[3:], [(3136, 5184), (8192, 8192), (-1024, 1024), (2112, 6208)])
        steps = [(3, 1, 1, 0), (1, 0, 0, 4096), (3, 3, 2, 0), (5, 4, 0, 0), (2, 5, 5, 0), (2, 2, 2, 0)]
        handed = sheet.schedule(0, [(4096, 8192)], steps)
        self.assertEqual(overlap.intervals_alone(handed)[1:4], [ones(-1, 1), ones(1, 1), ones(0, 2)])
        self.assertEqual(overlap.intervals_alone(handed)[4:], [None, None, ones(-2, 2)])

    def test_rows_of_every_kind_are_generated(self):
        """The overlap is now the own range, now the plain one, and now neither; and sheets are
        refused by 7 and by 12 where only the own range of the operand says so."""
        found, refused = collections.Counter(), collections.Counter()
        for schedule in schedules_read("overlaps", 3000):
            worked = evaluation.work(schedule)
            for row in worked.rows[schedule.counts.inputs :]:
                found[row.answered_range == row.own_range, row.answered_range == row.plain_range] += 1
            if worked.number in (7, 12):
                step = schedule.steps[worked.place - schedule.counts.inputs - 1]
                operand = worked.rows[step.first - 1]
                refused[worked.number] += operand.answered_range.low > 0
        self.assertGreater(min(found[kind] for kind in itertools.product((True, False), repeat=2)), 100)
        self.assertGreater(min(refused[7], refused[12]), 15)

    def test_no_number_and_no_refusal_goes_by_an_answered_range(self):
        """With the own range answered the same rows come about, and the same refusals."""
        narrowed = 0
        for schedule in schedules_read("numbers", 2000):
            worked = evaluation.work(schedule)
            with spoilt.spoilt("the own range alone answered"):
                again = evaluation.work(schedule)
            self.assertEqual(again[1:], worked[1:])
            for row, other in zip(worked.rows, again.rows, strict=True):
                self.assertEqual(row[:2], other[:2])
                narrowed += row.answered_range != other.answered_range
        self.assertGreater(narrowed, 1000)


def root_of_constant(value):
    return last_row(0, [(0, 0)], [*constant_steps(value), (6, 2, 0, 0)])


def root_of_input(low, high, squares):
    return last_row(squares, [(low, high)], [(6, 1, 0, 0)])


def small_above_square(wide, linear, constant):
    """The sheet of constant + wide²/4096 × a² + linear × b, and its root as the last row."""
    ends = [(-wide, wide), (-linear, linear)]
    steps = [(4, 1, 1, 0), (1, 0, 0, constant), (2, 3, 4, 0), (2, 5, 2, 0), (6, 6, 0, 0)]
    return 1, ends, steps


class Roots(unittest.TestCase):
    """Code 6, with numbers worked by hand."""

    def test_constants_that_are_squares(self):
        """4096 × k² is the square of 64 × k, so B is 0, and the own coefficient the 1 more."""
        for k in (1, 2, 3, 64, 100, 16_384):
            self.assertEqual(root_of_constant(k * k), numbers(64 * k, {3: 1}))

    def test_constants_beside_squares(self):
        """4096 × 2 = 90² + 92, and 92/90, up, is 2; 4096 × 3 = 110² + 188; 4096 × 5 = 143² + 31, and
        31/143, up, is 1; 4096 × 1023 is one less than 2047², and 4091/2046, up, is 2."""
        for value, root, own in [(2, 90, 3), (3, 110, 3), (5, 143, 2), (1023, 2046, 3)]:
            self.assertEqual(root_of_constant(value), numbers(root, {3: own}))

    def test_ends_4096_8192(self):
        """4096 × 6144 = 5016² + 5568; 2048 × 2048 / 5016 is 836, and 4096 × 2048 is 2 × 5016 × 836 +
        1856; 836² is a pair's total or dropped. 5568 + 1856 + 698896 over 4096, up, is 173."""
        for squares in (0, 1):
            row = root_of_input(4096, 8192, squares)
            self.assertEqual(row, numbers(5016, {1: 836, 2: 174}))
            self.assertEqual(rows.form_range(row), (4006, 6026))

    def test_ends_1_3(self):
        """z is 90, the slope 2048/90 = 22; 92 + 136 + 484 over 64, up, is 12."""
        self.assertEqual(root_of_input(1, 3, 0), numbers(90, {1: 22, 2: 13}))

    def test_a_slope_is_rounded_down(self):
        """3 - a: -2048/110 is -19; 188 + |-4096 + 4180| + 361 over 90, up, is 8."""
        operand = numbers(3, {1: -1})
        row = rows.root(operand, rows.form_range(operand), 0, 2)
        self.assertEqual(row, numbers(110, {1: -19, 2: 9}))

    def test_pairs_have_slopes_too(self):
        """4 + a + 2ab - b² with squares 2 has its low at 0; with 5 the root is 143, the slopes 14, 28
        and -15. B: 31, a 4096 - 4004, ab 8192 - 8008, b² |-4096 + 4290|, a² 196 as a total; the
        product of all, 57², less 14² is dropped. (31 + 92 + 184 + 194 + 196 + 3053) / 64 is 58.6."""
        operand = numbers(4, {1: 1}, [0, 2])
        operand[rows.PAIR_PLACE[2, 2]] = -1
        self.assertEqual(rows.form_range(operand).low, 0)
        with self.assertRaises(rows.RowRefusal) as refused:
            rows.root(operand, rows.form_range(operand), 2, 3)
        self.assertEqual(refused.exception.number, 12)
        operand[0] = 5
        expected = numbers(143, {1: 14, 3: 60}, [0, 28])
        expected[rows.PAIR_PLACE[2, 2]] = -15
        self.assertEqual(rows.root(operand, rows.form_range(operand), 2, 3), expected)

    def test_12_at_the_ends(self):
        """An input goes by its low end; a sum with 0 by its form, which reaches one lower where low +
        high is odd."""
        for low, high in [(0, 0), (0, 1), (0, 5), (-1, 1), (-5, -1), (-1, 2**28), (-(2**28), 2**28)]:
            self.assertEqual(root_of_input(low, high, 0), (12, 2))
        for low, high in [(1, 1), (1, 2), (1, 3), (1, 2**20), (2, 2), (2, 3), (2**28, 2**28)]:
            self.assertEqual(len(root_of_input(low, high, 0)), rows.NUMBERS)
        steps = [(1, 0, 0, 0), (2, 1, 2, 0), (6, 3, 0, 0)]
        self.assertEqual(last_row(0, [(1, 2)], steps), (12, 4))
        self.assertEqual(len(last_row(0, [(1, 3)], steps)), rows.NUMBERS)
        self.assertEqual(len(last_row(0, [(2, 3)], steps)), rows.NUMBERS)

    def test_low_is_that_of_the_ends(self):
        """3 + a, with the ends 3 and 4: 188 + |4096 - 3960| + 324 over the root of 4096 × 3, 110, up,
        is 6; by the form it would be over 90, which is 8."""
        self.assertEqual(root_of_input(3, 4, 0), numbers(110, {1: 18, 2: 7}))
        steps = [(1, 0, 0, 0), (2, 1, 2, 0), (6, 3, 0, 0)]
        self.assertEqual(last_row(0, [(3, 4)], steps), numbers(110, {1: 18, 4: 9}))

    def test_12_before_6(self):
        """A candidate over the span: 32 × 2^26. With a linear part its operand starts at 0."""
        wide = 2**19
        self.assertEqual(last_row(*small_above_square(wide, 0, 1)), (6, 7))
        self.assertEqual(last_row(*small_above_square(wide, 1, 1)), (12, 7))
        self.assertEqual(last_row(*small_above_square(wide, 1, 2)), (6, 7))

    def test_6_of_the_finished_row(self):
        """1 + p a²: the candidate is 64 + 32 p a², and (32 p)² is dropped, so that the own coefficient
        is 16 p² + 1. With p = 90² the row keeps within the span, with 91² its candidate alone does."""
        for k, accepted in ((90, True), (91, False)):
            squares, ends, steps = small_above_square(64 * k, 0, 1)
            candidate = rows.root_candidate(last_row(squares, ends, steps[:-1]))
            self.assertEqual(candidate, numbers(64, {}, [32 * k**2]))
            own = 16 * k**4 + 1
            self.assertEqual(64 + 32 * k**2 + own <= rows.SPAN_LIMIT, accepted)
            expected = numbers(64, {7: own}, [32 * k**2]) if accepted else (6, 7)
            self.assertEqual(last_row(squares, ends, steps), expected)

    def refusal(self, operand, own_range, squares=0):
        with self.assertRaises(rows.RowRefusal) as refused:
            rows.root(operand, own_range, squares, 3)
        return refused.exception.number

    def test_order_of_the_causes_of_one_row(self):
        """Of rows with a range that is not theirs, since with its own no candidate starts below 0."""
        above, below = rows.Range(1, 1), rows.Range(0, 9)
        passes_and_starts_below = numbers(1, {1: 2**26})
        starts_below = numbers(1, {1: 3})
        starts_at_0, starts_at_minus_1 = numbers(64, {1: 128}), numbers(64, {1: 129})
        self.assertEqual(self.refusal(passes_and_starts_below, below), 12)
        self.assertEqual(self.refusal(passes_and_starts_below, above), 6)
        self.assertEqual(self.refusal(starts_below, above), 12)
        self.assertEqual(rows.root_candidate(starts_at_0)[:2], [512, 512])
        self.assertEqual(len(rows.root(starts_at_0, above, 0, 3)), rows.NUMBERS)
        self.assertEqual(rows.root_candidate(starts_at_minus_1)[:2], [512, 516])
        self.assertEqual(self.refusal(starts_at_minus_1, above), 12)

    def test_no_candidate_of_a_sheet_starts_below_0(self):
        """Where a row's own range starts at 1 or above, its candidate starts far above 0."""
        count = 0
        for schedule in schedules_read("candidates", 3000):
            for row in evaluation.work(schedule).rows:
                if row.own_range.low >= 1:
                    made = rows.root_candidate(row.numbers)
                    self.assertGreaterEqual(3 * rows.low(made), made[0])
                    count += 1
        self.assertGreater(count, 5000)

    def test_every_own_coefficient_is_above_0(self):
        count = 0
        for schedule in schedules_read("own coefficients", 1000):
            inputs = schedule.counts.inputs
            worked = evaluation.work(schedule).rows[inputs:]
            for row, (step, made) in enumerate(zip(schedule.steps, worked), inputs + 1):
                if step.code == sheet.ROOT:
                    self.assertGreater(made.numbers[row], 0)
                    count += 1
        self.assertGreater(count, 300)

    def test_exact_roots(self):
        """By definition: the greatest whole number whose square is at most N times the value."""
        rng = random.Random("exact roots")
        values = [demand3.Fraction(*part) for part in [(0, 1), (1, 4096), (2, 4096), (1, 3), (1, 10**9)]]
        for _ in range(300):
            below = rng.choice((1, 1, 3, 4096, 10**6))
            near = rng.randint(0, 1 << rng.randint(1, 30)) ** 2 + rng.randint(-1, 1)
            values.append(demand3.Fraction(abs(near), below * rng.choice((1, rows.N))))
        for value in values:
            root = demand3.exact_root(value) * rows.UNIT
            self.assertEqual(root.denominator, 1)
            self.assertGreaterEqual(root, 0)
            self.assertLessEqual(root**2, rows.N * value)
            self.assertGreater((root + 1) ** 2, rows.N * value)
        below_a_unit = demand3.Fraction(rows.UNIT - 1, rows.UNIT * rows.UNIT)
        with self.assertRaises(demand3.NoRoot):
            demand3.exact_step(sheet.Step(sheet.ROOT, 1, 0, 0), [below_a_unit])

    def test_demand_3_about_every_square(self):
        """Roots of small inputs, and what follows from them, at and just below every square."""
        count = 0
        for (low, high), squares in itertools.product(ROOT_ENDS, (0, 1)):
            steps = [(6, 1, 0, 0), (4, 2, 2, 0), (3, 3, 1, 0), (6, 2, 0, 0), (5, 2, 0, 0)]
            handed = sheet.schedule(squares, [(low, high)], steps)
            if evaluation.work(handed).number:
                handed = sheet.schedule(squares, [(low, high)], steps[:3])
            for value in about_squares(low, high):
                symbols = demand3.any_symbols(random.Random(count))
                self.assertEqual(demand3.violations(handed, [value / rows.UNIT], symbols), [])
                count += 1
        self.assertGreater(count, 1000)

    def test_a_root_that_cannot_be_taken_is_found(self):
        """Where a root of a row below 1 is let through, an exact value below 0 is no root's."""
        handed = sheet.schedule(0, [(-1, 9)], [(6, 1, 0, 0)])
        with spoilt.spoilt("a root where low is below 1"):
            seen = demand3.violations(handed, [demand3.Fraction(-1, 4096)], [0] * (1 + rows.SYMBOLS))
        self.assertEqual(seen, [demand3.ROOT])

    def test_roots_are_as_frequent_as_reciprocals(self):
        codes, accepted = collections.Counter(), collections.Counter()
        for schedule in schedules_read("roots", 2000):
            steps = schedule.steps[: schedule.counts.steps]
            codes.update(step.code for step in steps)
            worked = len(evaluation.work(schedule).rows) - schedule.counts.inputs
            accepted.update(step.code for step in steps[: max(worked, 0)])
        for counted in (codes, accepted):
            share = counted[sheet.ROOT] / counted[sheet.RECIPROCAL]
            self.assertTrue(0.6 < share < 1.5, share)

    def test_roots_of_squares_and_low_ends_are_generated(self):
        """Constants and low ends at squares and one off, low ends 0, 1 and 2, and every refusal."""
        constants, lows, refused = collections.Counter(), collections.Counter(), collections.Counter()
        for schedule in schedules_read("root operands", 4000):
            inputs, _, count = schedule.counts
            worked = evaluation.work(schedule)
            for row, step in enumerate(schedule.steps[:count], inputs + 1):
                if step.code != sheet.ROOT:
                    continue
                refused[worked.number] += row == worked.place
                if step.first <= inputs:
                    lows[min(max(schedule.ends[step.first - 1].low, -1), 3)] += 1
                elif schedule.steps[step.first - inputs - 1].code == sheet.CONSTANT:
                    constants[distance_to_square(schedule.steps[step.first - inputs - 1].value)] += 1
        self.assertGreater(min(lows[low] for low in (-1, 0, 1, 2, 3)), 25)
        self.assertGreater(min(constants[near] for near in (-1, 0, 1)), 20)
        self.assertGreater(min(refused[6], refused[12]), 30)


ROOT_ENDS = [
    (1, 1), (1, 2), (1, 3), (1, 4), (2, 3), (2, 9), (3, 4), (4, 4), (15, 17), (1, 1000), (984, 1064),
    (1023, 1024), (4096, 8192), (4096, 8191), (2**20 - 1, 2**20 + 1), (2**28 - 1, 2**28),
]


def about_squares(low, high):
    """Both ends, the middle, and values within the ends for which 4096 times them is a square or
    1/1000 less, up to 40 squares."""
    values = {demand3.Fraction(low), demand3.Fraction(high), demand3.Fraction(low + high, 2)}
    first, last = math.isqrt(rows.UNIT * low), math.isqrt(rows.UNIT * high)
    for root in range(first, last + 1, max(1, (last - first) // 40)):
        for short in (0, demand3.Fraction(1, 1000)):
            values.add((root**2 - short) / demand3.Fraction(rows.UNIT))
    return sorted(value for value in values if low <= value <= high)


def distance_to_square(value):
    """The least number, by its absolute value, that takes the value to a square; 2 where it is
    another, or the value is below 1."""
    for near in (0, -1, 1):
        if value >= 1 and value + near >= 0 and math.isqrt(value + near) ** 2 == value + near:
            return near
    return 2


class Evaluating(unittest.TestCase):
    example = sheet.read(listing.EXAMPLE_SHEET).schedule

    def test_writes_its_rows_and_no_others(self):
        needed = rows.NUMBERS * 7
        table, ranges = [-9] * (needed + 5), [-9] * (2 * 7 + 5)
        self.assertEqual(evaluation.evaluate(self.example, table, ranges), (0, 0))
        self.assertEqual(table[needed:], [-9] * 5)
        self.assertNotIn(-9, table[:needed])
        lines = [line.split() for line in listing.EXAMPLE_LISTING.splitlines()[1:]]
        listed = [int(end) for line in lines for end in line[1:3]]
        self.assertEqual(ranges, listed + [-9] * 5)

    def test_needs_its_numbers_and_2_for_each_row(self):
        needed, full, full_ranges = rows.NUMBERS * 7, listing.TABLE_LENGTH, listing.RANGES_LENGTH
        for lengths in [
            (needed - 1, 14), (needed, 13), (0, 14), (needed, 0), (full, 2), (rows.NUMBERS, full_ranges),
        ]:
            table, ranges = [-9] * lengths[0], [-8] * lengths[1]
            self.assertEqual(evaluation.evaluate(self.example, table, ranges), (8, 0))
            self.assertEqual((table, ranges), ([-9] * lengths[0], [-8] * lengths[1]))

    def test_the_most_rows(self):
        """A sheet of the most inputs, squares and steps fills full tables; one number less is 8. Each of
        its rows may be asked for, under a count of as many and no more."""
        handed = library_calls.FULLEST
        most, full, full_ranges = evaluation.ROWS_LIMIT, listing.TABLE_LENGTH, listing.RANGES_LENGTH
        self.assertEqual(handed.counts, (sheet.INPUTS_LIMIT, sheet.INPUTS_LIMIT, sheet.STEPS_LIMIT))
        for lengths in [(full - 1, full_ranges), (full, full_ranges - 1)]:
            table, ranges = [-9] * lengths[0], [-8] * lengths[1]
            self.assertEqual(evaluation.evaluate(handed, table, ranges), (8, 0))
            self.assertEqual((table, ranges), ([-9] * lengths[0], [-8] * lengths[1]))
        table, ranges = [2**40] * full, [2**40] * full_ranges
        self.assertEqual(evaluation.evaluate(handed, table, ranges), (0, 0))
        self.assertNotIn(2**40, table + ranges)
        asked = evaluation.row_range
        self.assertEqual(asked(table, ranges, most, most), (0, 0, *ranges[-2:]))
        self.assertEqual(evaluation.row_part(table, most, most), table[-rows.NUMBERS :])
        self.assertEqual(asked(table, ranges, most + 1, most), (9, 0, 0, 0))
        self.assertEqual(asked(table, ranges, most, most + 1), (9, 0, 0, 0))
        self.assertEqual(asked(table[1:], ranges, most, 1), (8, 0, 0, 0))
        self.assertEqual(asked(table, ranges[1:], most, 1), (8, 0, 0, 0))

    def test_after_a_refusal_the_rows_before_are_written(self):
        for step, number in [((5, 1, 0, 0), 7), ((4, 2, 2, 0), 6), ((6, 1, 0, 0), 12)]:
            handed = sheet.schedule(0, [(-5, 4)], [(1, 0, 0, 2**28), step, (2, 1, 1, 0)])
            written = 2 * rows.NUMBERS
            table, ranges = [-9] * (2 * written), [-8] * (2 * 4)
            self.assertEqual(evaluation.evaluate(handed, table, ranges), (number, 3))
            self.assertEqual(table[:written], numbers(-1, {1: 5}) + numbers(2**28, {}))
            self.assertEqual(table[written:], [-9] * written)
            self.assertEqual(ranges, [-5, 4, 2**28, 2**28, -8, -8, -8, -8])

    def test_7_before_6(self):
        """The operand is 1 - 2^20·a², squares 1: its range holds 0 and its candidate is over the
        span."""
        steps = [(4, 1, 1, 0), (1, 0, 0, 1), (3, 3, 2, 0), (5, 4, 0, 0)]
        self.assertEqual(last_row(1, [(-65536, 65536)], steps), (7, 5))
        steps[2] = (2, 3, 2, 0)
        self.assertEqual(last_row(1, [(-65536, 65536)], steps), (6, 5))

    def test_order_of_causes_where_rows_are_asked_for(self):
        good, least = numbers(5, {2: 3}), [-(2**63)] * rows.NUMBERS
        table, ranges = good + least + good + least, [2, 7, 3, 4, 8, 7, 9, 8]
        asked = evaluation.row_range
        self.assertEqual(asked(table, ranges, 4, 1), (0, 0, 2, 7))
        self.assertEqual(asked(table, ranges, 4, 2), (6, 2, 0, 0))
        self.assertEqual(asked(table, ranges, 4, 3), (6, 3, 0, 0))
        self.assertEqual(asked(table, ranges, 4, 4), (6, 4, 0, 0))
        self.assertEqual(asked(table, ranges, 4, 0), (9, 0, 0, 0))
        self.assertEqual(asked(table, ranges, 4, 5), (9, 0, 0, 0))
        self.assertEqual(asked(table, ranges, 5, 1), (8, 0, 0, 0))
        most = evaluation.ROWS_LIMIT
        self.assertEqual(asked(table, ranges, most, 1), (8, 0, 0, 0))
        self.assertEqual(asked(table, ranges, most + 1, 1), (9, 0, 0, 0))
        self.assertEqual(asked([], [], 0, 0), (9, 0, 0, 0))
        self.assertEqual(asked([], [], most, 1), (8, 0, 0, 0))
        self.assertEqual(asked([], [], most + 1, 1), (9, 0, 0, 0))
        self.assertEqual(asked(table[:-1], ranges, 4, 2), (8, 0, 0, 0))
        self.assertEqual(asked(table, ranges[:-1], 4, 2), (8, 0, 0, 0))
        self.assertEqual(asked(table, ranges[:-1], 3, 1), (0, 0, 2, 7))
        self.assertEqual(asked(table, [], 4, 2), (8, 0, 0, 0))
        self.assertEqual(evaluation.row_part(table, 4, 3), good)
        self.assertEqual(evaluation.row_part(table, 4, 2), [])
        compare = evaluation.same_rows
        self.assertEqual(compare(table, 4, 1, 3), (0, 0, True))
        self.assertEqual(compare(table, 4, 4, 2), (6, 2, False))
        self.assertEqual(compare(table, 4, 4, 1), (6, 4, False))
        self.assertEqual(compare(table, 4, 2, 5), (9, 0, False))
        self.assertEqual(compare(table, 5, 2, 4), (8, 0, False))

    def test_the_second_table_is_told_as_it_stands(self):
        """Whatever was put there, and whatever range the numbers of the row make."""
        row = numbers(5, {2: 3})
        least, greatest = -(2**63), 2**63 - 1
        for ends in [(0, 0), (100, 200), (least, greatest), (least, least), (greatest, greatest)]:
            self.assertEqual(evaluation.row_range(row, [*ends], 1, 1), (0, 0, *ends))
        for ends in [(1, 0), (greatest, least), (least + 1, least), (0, -1)]:
            self.assertEqual(evaluation.row_range(row, [*ends], 1, 1), (6, 1, 0, 0))

    def test_span_of_a_lent_row(self):
        for over in (0, 1):
            row = numbers(-(2**30) + rows.NUMBERS, {rows.SYMBOLS: -1}, [-1] * len(rows.PAIRS))
            row[2] = rows.SYMBOLS + over
            self.assertEqual(evaluation.row_range(row, [0, 0], 1, 1).number, 6 if over else 0)


# Faults that no sheet of 6 inputs and 24 steps shows.
BEYOND_6_AND_24 = {
    "the pairs of the last input left out", "the pair of the last two inputs left out",
    "the symbols of the last rows left out",
}


class Samples(unittest.TestCase):
    """The answers of another implementation."""

    def test_listings(self):
        """400 of 2026-07, and 400 of 2026-06; 281 refusals and 57 listings of the requests before."""
        found = samples.listings()
        for sample in found:
            self.assertEqual(listing.listing(sample.sheet), sample.printed)
        self.assertEqual(len(found), 1138)

    def test_listings_within_6_inputs_and_24_steps(self):
        """"Old sheets give their old listings." The sheets are of every size within these limits, and
        some are refused in evaluation."""
        found = samples.listings_within_6_and_24()
        sizes, outcomes = collections.Counter(), collections.Counter()
        for sample in found:
            self.assertEqual(listing.listing(sample.sheet), sample.printed)
            counts = sheet.read(sample.sheet).schedule.counts
            self.assertTrue(1 <= counts.inputs <= 6 and 1 <= counts.steps <= 24)
            sizes.update([("inputs", counts.inputs), ("squares", counts.squares), ("steps", counts.steps)])
            refused = sample.printed.startswith(b"refused")
            outcomes[int(sample.printed.split()[2]) if refused else 0] += 1
        self.assertEqual(len(found), len({sample.sheet for sample in found}))
        self.assertEqual(len(found), 3000)
        self.assertEqual(len(sizes), 6 + 7 + 24)
        self.assertGreater(min(sizes.values()), 40)
        self.assertEqual(outcomes.keys(), {0, 6, 7, 12})
        self.assertGreater(min(outcomes.values()), 250)

    def test_the_listings_within_6_inputs_and_24_steps_tell_every_fault(self):
        """But those of inputs and rows beyond."""
        found = samples.listings_within_6_and_24()
        faults = spoilt.UNSOUND | spoilt.OTHER_NUMBERS | spoilt.FAULTS_OF_RANGES
        for name in faults.keys() - BEYOND_6_AND_24:
            with self.subTest(name), spoilt.spoilt(name):
                pairs = ((answer_of(listing.listing, s.sheet), s.printed) for s in found)
                self.assertTrue(any(answered != printed for answered, printed in pairs))

    def test_writings(self):
        """150 of 2026-07."""
        found = samples.writings()
        for sample in found:
            out = bytearray(samples.UNTOUCHED * sample.lent)
            answer = sheet.write(sample.schedule, out)
            self.assertEqual(answer, (*sample.refusal, sample.length), sample)
            rest = samples.UNTOUCHED * (sample.lent - sample.length)
            self.assertEqual(out, sample.written + rest, sample)
        self.assertEqual(len(found), 150)

    def test_evaluations(self):
        """150 of 2026-07; of the requests before it 291 that write nothing."""
        found = samples.evaluations()
        for sample in found:
            tables = [[sample.fill] * length for length in sample.lengths]
            answer = evaluation.evaluate(sample.schedule, *tables)
            self.assertEqual(answer, sample.refusal, sample)
            for table, length, written in zip(tables, sample.lengths, sample.written):
                self.assertEqual(table, written + [sample.fill] * (length - len(written)))
        self.assertEqual(len(found), 441)

    def test_ranges(self):
        """150 of 2026-07; of the requests before it 78 refusals by 8 and 9."""
        found = samples.ranges()
        for sample in found:
            answer = evaluation.row_range(*sample[:4])
            self.assertEqual(answer, sample.answer, sample)
        self.assertEqual(len(found), 228)

    def test_comparisons(self):
        """150 of 2026-07."""
        found = samples.comparisons()
        for sample in found:
            answer = evaluation.same_rows(*sample[:4])
            self.assertEqual(answer, sample.answer, sample)
        self.assertEqual(len(found), 150)

    def test_the_listings_tell_every_fault_of_ranges(self):
        """But one: no listing has a root of an input of odd sum whose own coefficient is another by
        the form. The generated sheets tell it."""
        found = samples.listings()
        for name in spoilt.FAULTS_OF_RANGES.keys() - {"a root's low that of the form"}:
            with self.subTest(name), spoilt.spoilt(name):
                pairs = ((answer_of(listing.listing, s.sheet), s.printed) for s in found)
                self.assertTrue(any(answered != printed for answered, printed in pairs))

    def test_no_call_is_of_another_kind(self):
        kinds = collections.Counter(made["call"] for made in samples.objects("calls.jsonl"))
        self.assertEqual(kinds, {"write": 150, "evaluate": 441, "range": 228, "compare": 150})


def schedules_read(seed, count):
    """The schedules that are read among the first `count` sheets of a seed."""
    answers = [sheet.read(generate.sheet_bytes(seed, index)) for index in range(count)]
    return [answer.schedule for answer in answers if not answer.number]


def violated_clauses(schedules):
    """Each clause of demand 3 that fails on an accepted schedule, one after another, for two
    choices of inputs and symbols."""
    for index, schedule in enumerate(schedules):
        rng = random.Random(index)
        if demand3.is_refused(schedule):
            continue
        for _ in range(2):
            inputs, symbols = demand3.any_inputs(rng, schedule), demand3.any_symbols(rng)
            try:
                yield from demand3.violations(schedule, inputs, symbols)
            except demand3.TooLong:
                break


# Ends of odd sum, next to each other and apart, at 0, on either side of it and around it.
ODD_ENDS = [
    (0, 1), (-1, 0), (1, 2), (-2, -1), (-3, -2), (2, 3), (1, 4), (-4, -1), (3, 8), (-9, -4), (-2, 1),
    (-1, 2), (-512, 1023), (4096, 8191), (-8191, -4096), (2**28 - 1, 2**28), (-(2**28), 1 - 2**28),
    (-(2**28), 2**28 - 1),
]


def sheets_of_odd_ends():
    """Sheets of one input of odd sum with everything that is accepted of it: itself, a sum with 0,
    its square and its reciprocal, and what gives the input back."""
    for ends, squares in itertools.product(ODD_ENDS, (0, 1)):
        for steps in (
            [(1, 0, 0, 0), (2, 1, 2, 0), (3, 3, 1, 0)],
            [(4, 1, 1, 0), (3, 2, 1, 0)],
            [(5, 1, 0, 0), (4, 1, 2, 0)],
            [(5, 1, 0, 0), (5, 2, 0, 0)],
        ):
            handed = sheet.schedule(squares, [ends], steps)
            if not evaluation.work(handed).number:
                yield handed


class Demand3(unittest.TestCase):
    def test_holds_on_generated_sheets(self):
        self.assertEqual(list(violated_clauses(schedules_read("demand 3", 1500))), [])

    def test_holds_within_ends_of_odd_sum(self):
        """At both ends, at the centre, one unit to either side of it, and between."""
        count = 0
        for handed in sheets_of_odd_ends():
            low, high = handed.ends[0]
            centre = (low + high) // 2
            middle, third = demand3.Fraction(low + high, 2), demand3.Fraction(2 * low + high, 3)
            for value in {low, high, centre, max(low, centre - 1), centre + 1, middle, third}:
                inputs = [demand3.Fraction(value) / rows.UNIT]
                symbols = demand3.any_symbols(random.Random(count))
                self.assertEqual(demand3.violations(handed, inputs, symbols), [])
                count += 1
        self.assertGreater(count, 500)

    def test_an_input_is_found_from_minus_1_to_1(self):
        """The low end of an odd sum is found short of -1, the high end at 1."""
        for low, high in ODD_ENDS:
            row = input_alone(low, high)
            units = [demand3.Fraction(end, rows.UNIT) for end in (low, high)]
            found = [demand3.found_values([row.numbers], [unit])[1] for unit in units]
            self.assertEqual(found[1], 1)
            self.assertTrue(-1 < found[0] <= 0)
            self.assertEqual(found[0], demand3.Fraction(low - row.numbers[0], row.numbers[1]))

    def test_odd_ends_are_generated(self):
        """Each of these is read often enough, and its reciprocal taken."""
        read, inverted = collections.Counter(), collections.Counter()
        for schedule in schedules_read("odd ends", 4000):
            read.update(schedule.ends[: schedule.counts.inputs])
            for step in schedule.steps[: schedule.counts.steps]:
                if step.code == sheet.RECIPROCAL and step.first <= schedule.counts.inputs:
                    inverted[schedule.ends[step.first - 1]] += 1
        for ends in [(0, 1), (-1, 0), (1, 2), (-2, -1), (2, 3), (-3, -2)]:
            self.assertGreater(read[ends], 5, ends)
        for ends in [(1, 2), (-2, -1), (2, 3), (-3, -2), (1, 4), (-4, -1)]:
            self.assertGreater(inverted[ends], 5, ends)

    def test_holds_at_every_corner_of_a_sheet(self):
        """(a·b + 1) / (a + b + 5/4), with a from -1/8 to 1/4 and b from 1/3 or so to 1."""
        handed = sheet.schedule(
            2,
            [(-512, 1023), (1365, 4096)],
            [(4, 1, 2, 0), (1, 0, 0, 4096), (2, 3, 4, 0), (2, 1, 2, 0), (1, 0, 0, 5120)]
            + [(2, 6, 7, 0), (5, 8, 0, 0), (4, 5, 9, 0)],
        )
        rng = random.Random(3)
        for a in range(-512, 1024, 307):
            for b in range(1365, 4097, 683):
                inputs = [demand3.Fraction(a, 4096), demand3.Fraction(b, 4096)]
                symbols = demand3.any_symbols(rng)
                self.assertEqual(demand3.violations(handed, inputs, symbols), [])

    def test_teeth(self):
        """In each unsound arithmetic a violation is found."""
        schedules = schedules_read("teeth", 2000)
        for name in spoilt.UNSOUND | spoilt.UNSOUND_RANGES | spoilt.UNSOUND_INTERVALS:
            with self.subTest(name), spoilt.spoilt(name):
                self.assertTrue(any(violated_clauses(schedules)))

    def test_teeth_of_every_clause(self):
        """Each clause is found violated in some unsound arithmetic; that of roots: `Roots`."""
        clauses = {demand3.EQUAL_EXACTLY_WHEN, demand3.FOUND, demand3.DIVISOR, demand3.RANGE}
        clauses |= {demand3.SAME, demand3.OWN_RANGE, demand3.PLAIN_RANGE, demand3.NEVER_EMPTY}
        schedules = schedules_read("clauses", 600)
        seen = set()
        for name in (
            "an input's own coefficient one smaller", "no dropped part", "a product's high end left out",
        ):
            with spoilt.spoilt(name):
                seen |= set(violated_clauses(schedules))
        self.assertEqual(seen - {demand3.ROOT}, clauses)

    def test_a_shared_symbol_narrows_ranges_and_confuses_rows(self):
        schedules = schedules_read("shared", 1000)
        with spoilt.spoilt("one symbol for the rounding of all steps"):
            seen = set(violated_clauses(schedules))
        self.assertLessEqual({demand3.RANGE, demand3.SAME}, seen)


class Generators(unittest.TestCase):
    def test_a_sheet_depends_on_seed_and_index_alone(self):
        for index in range(40):
            self.assertEqual(generate.sheet_bytes("1", index), generate.sheet_bytes("1", index))

    def test_every_outcome_occurs(self):
        outcomes = generate.outcomes("outcomes", 0, 2000)
        self.assertEqual(sorted(outcomes), [*range(8), 12])
        self.assertGreater(outcomes[0], 600)

    def test_the_first_sheets_tell_every_fault(self):
        """A program with any of these faults would not get through compare.py."""
        sheets = [generate.sheet_bytes("01", index) for index in range(6000)]
        self.assert_told(listing.listing, sheets, spoilt.UNSOUND | spoilt.OTHER_NUMBERS)
        self.assert_told(listing.listing, sheets, spoilt.FAULTS_OF_RANGES)
        self.assert_told(lambda data: sheet.read(data)[:2], sheets, spoilt.OTHER_SHEETS)

    def test_the_cases_tell_every_fault_of_reading(self):
        self.assert_told(sheet_cases.expected, sheet_cases.cases(), spoilt.OTHER_SHEETS)

    def assert_told(self, answer, sheets, names):
        expected = [answer(data) for data in sheets]
        for name in names:
            with self.subTest(name), spoilt.spoilt(name):
                pairs = zip(sheets, expected)
                self.assertTrue(any(answer_of(answer, data) != right for data, right in pairs))


class LibraryCalls(unittest.TestCase):
    def test_within_the_room_that_the_format_promises(self):
        for call in library_calls.calls():
            if call[0] == library_calls.TABLE:
                self.assertLessEqual(call[1], library_calls.TABLE_ROOM)
            if call[0] == library_calls.RANGES:
                self.assertLessEqual(call[1], library_calls.RANGES_ROOM)
            if call[0] == library_calls.WRITE:
                self.assertLessEqual(call[1], library_calls.WRITE_ROOM)
            if call[0] == library_calls.LIST:
                self.assertLessEqual(len(call[1]), library_calls.SHEET_ROOM)
                self.assertLessEqual(call[2], library_calls.LIST_ROOM)
            if call[0] == library_calls.FORMULA:
                self.assertLessEqual(len(call[1]), library_calls.FORMULA_ROOM)
            if call[0] not in (library_calls.SCHEDULE, library_calls.INPUTS):
                with_bytes = call[0] in (library_calls.LIST, library_calls.FORMULA)
                behind = len(call[1]) + 1 if with_bytes else 0
                self.assertEqual(len(library_calls.encoded(call)), 17 * len(call) + behind)

    def test_schedules_can_be_taken_from_their_fields(self):
        """As the program takes them: so many ends and so many steps, and 0 in the others."""
        for call in library_calls.calls():
            if call[0] not in (library_calls.SCHEDULE, library_calls.INPUTS):
                continue
            fields = [int(field, 16) for field in library_calls.encoded(call).split()]
            taken = iter([field - 2**64 if field >= 2**63 else field for field in fields])
            has_steps = next(taken) == library_calls.SCHEDULE
            numbers = [next(taken) for _ in range(3 if has_steps else 2)]
            for width, room in ((2, sheet.INPUTS_LIMIT), (4, sheet.STEPS_LIMIT))[: 1 + has_steps]:
                count = next(taken)
                self.assertLessEqual(count, room)
                numbers += [next(taken) for _ in range(width * count)] + [0] * (width * (room - count))
            self.assertEqual([*taken], [])
            self.assertEqual(tuple(numbers), tuple(call[1:]))

    def test_every_number_occurs(self):
        lines = library_calls.expected(library_calls.calls()).split(b"\n")
        fields = [line.split() for line in lines]
        seen = {
            word: {int(field[1]) for field in fields if field[:1] == [word]}
            for word in (b"evaluate", b"range", b"same", b"write", b"list", b"formula")
        }
        self.assertEqual(seen[b"evaluate"], {0, 3, 4, 5, 6, 7, 8, 12})
        self.assertEqual(seen[b"range"], {0, 6, 8, 9})
        self.assertEqual(seen[b"same"], {0, 6, 8, 9})
        self.assertEqual(seen[b"write"], {0, 3, 4, 5, 8})
        self.assertEqual(seen[b"list"], {0, 8})
        self.assertEqual(seen[b"formula"], {0, 3, 4, 5, 10, 11})
        texts = [after for line, after in zip(fields, fields[1:]) if line == [b"refused", b"place"]]
        self.assertEqual({int(number) for number, _ in texts}, {*range(1, 9), 12})

    def test_the_calls_tell_every_fault(self):
        """Listings tell the faults of listing, formulas those of formula, the other calls those of
        evaluation and of roots, and listings and other calls those of ranges."""
        every = library_calls.calls()
        of_listing = (library_calls.TABLE, library_calls.RANGES, library_calls.LIST)
        of_formula = (library_calls.INPUTS, library_calls.FORMULA)
        listings = [call for call in every if call[0] in of_listing]
        formulas = [call for call in every if call[0] in of_formula]
        others = [call for call in every if call[0] not in (library_calls.LIST, *of_formula)]
        self.assert_told(others, spoilt.OTHER_CALLS | spoilt.OF_PRODUCTS | spoilt.OF_ROOTS)
        for calls in (others, listings):
            self.assert_told(calls, spoilt.FAULTS_OF_RANGES)
        self.assert_told(listings, spoilt.OTHER_LISTINGS)
        self.assert_told(formulas, spoilt.OTHER_FORMULAS)

    def assert_told(self, calls, names):
        expected = list(library_calls.printed(calls))
        for name in names:
            with self.subTest(name), spoilt.spoilt(name):
                self.assertFalse(answer_of(lambda made: alike(library_calls.printed(made), expected), calls))

    def test_the_samples_of_formulas_are_among_the_calls(self):
        block, made = None, set()
        for code, *arguments in library_calls.calls():
            if code == library_calls.INPUTS:
                block = tuple(arguments)
            elif code == library_calls.FORMULA:
                made.add((*block, *arguments))
        for inputs, squares, ends, text in formula_cases.samples():
            self.assertIn((inputs, squares, *itertools.chain(*ends), text), made)

    def test_the_samples_of_calls_are_among_the_calls(self):
        """What the library prints for these calls is what the samples answer; lent bytes are there
        others before."""
        lines = []
        for sample in samples.writings():
            lines.append(("write", *sample.refusal, sample.length))
            lines += [(sample.written.decode(),), ("left", sample.lent - sample.length)]
        for sample in samples.evaluations():
            lines.append(("evaluate", *sample.refusal))
            for word, written, length in zip(("table", "ranges"), sample.written, sample.lengths):
                whole = written + [sample.fill] * (length - len(written))
                lines.append((word, *library_calls.runs(whole)))
        for sample in library_calls.questions():
            word = "range" if isinstance(sample, samples.Range) else "same"
            lines.append((word, *map(int, sample.answer)))
        expected = "".join(" ".join(map(str, line)) + "\n" for line in lines).encode()
        self.assertIn(expected, library_calls.expected(library_calls.calls()))

    def test_a_schedule_comes_back_from_its_numbers(self):
        numbers = library_calls.flat(library_calls.GOOD)
        self.assertEqual(library_calls.schedule_of(numbers), library_calls.GOOD)


class StoredOutputs(unittest.TestCase):
    def test_a_file_that_differs_or_is_missing_fails(self):
        files = sheet_cases.files()
        with tempfile.TemporaryDirectory() as folder:
            self.assertFalse(stored.agrees(folder, "stdout", files["stdout"]))
            stored.write(folder, files)
            for path, content in files.items():
                self.assertTrue(stored.agrees(folder, path, content))
                self.assertFalse(stored.agrees(folder, path, content + b"\n"))

    def test_the_data_can_be_taken_apart_again(self):
        data = sheet_cases.files()["data/sheets"]
        taken = []
        while data:
            length, _, data = data.partition(b"\n")
            taken.append(data[: int(length)])
            data = data[int(length) :]
        self.assertEqual(taken, sheet_cases.cases())


class Comparison(unittest.TestCase):
    def test_a_wrong_program_fails(self):
        """/bin/cat prints the sheet, which no answer is."""
        program = pathlib.Path(__file__).with_name("compare.py")
        stored_count = len(samples.listings()) + len(samples.listings_within_6_and_24())
        for options, count in ((["--seed", "1", "--count", "40"], 40), (["--stored"], stored_count)):
            ended = subprocess.run([sys.executable, program, "/bin/cat", *options], capture_output=True)
            self.assertEqual(ended.returncode, 1)
            self.assertEqual(ended.stdout.split(b"\n")[-2], b"0 passed, %d failed" % count)
            self.assertIn(b"inputs squares steps", ended.stdout)


def main() -> int:
    ended = unittest.main(exit=False).result
    failed = len(ended.failures) + len(ended.errors)
    print(f"{ended.testsRun - min(failed, ended.testsRun)} passed, {failed} failed")
    return 1 if failed else 0


if __name__ == "__main__":
    sys.exit(main())
