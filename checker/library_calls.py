"""Library calls on hostile arguments, and what a program that makes them must print.

    python3 checker/library_calls.py crates/library_calls

writes `data/calls` and `stdout` into the folder given.

`data/calls` is a row of fields of 17 bytes: 16 hexadecimal digits (0 to 9, a to f), which are the 64
bits of an i64 or a usize, most significant first, and one byte that means nothing (a space, or
byte 10 behind the last field of a call). The program keeps a table of at most TABLE_ROOM i64, a table
of ranges of at most RANGES_ROOM i64, of each of which it lends the first so many, and one schedule; at
the start all three are all 0 and the tables lend nothing. A call is a code and its arguments, each one
field. The ends of a schedule are their number and then low and high of each, its steps are their
number and then step, first, second and value of each; all ends and steps beyond are zeros.

    1 LENGTH FILL         the table lends LENGTH numbers (at most TABLE_ROOM), each of them FILL
    2 PLACE VALUE         number PLACE of the table, from 0 and below its length, becomes VALUE
    3 INPUTS SQUARES STEPS
                          and behind these fields ends and steps: the schedule
    4                     evaluate the schedule into both tables; prints `evaluate NUMBER PLACE` and
                          both tables, afterwards
    5 COUNT ROW           prints `range NUMBER PLACE LOW HIGH`
    6 COUNT ROW           prints `row` with the numbers of the part handed back
    7 COUNT FIRST SECOND  prints `same NUMBER PLACE YES`, where YES is 1 or 0
    8 LENGTH              write the schedule into LENGTH bytes (at most WRITE_ROOM), each `?` before;
                          prints `write NUMBER PLACE LENGTH_OF_SHEET` and the bytes, afterwards
    9 LENGTH ROOM         and behind these fields LENGTH bytes of a sheet (at most SHEET_ROOM), as
                          they are, and byte 10: list the sheet into both tables and ROOM bytes of
                          text (at most LIST_ROOM), each `?` before; prints `list NUMBER PLACE
                          LENGTH_OF_TEXT`, the bytes and both tables, afterwards
    10 INPUTS SQUARES     and behind these fields ends: these of the schedule are replaced
    11 LENGTH             and behind this field LENGTH bytes of a formula (at most FORMULA_ROOM), as
                          they are, and byte 10: read the formula over the inputs, squares and ends
                          of the schedule, which stays; prints `formula NUMBER PLACE INPUTS SQUARES
                          STEPS`, and behind them ` end I LOW HIGH` and ` step J STEP FIRST SECOND
                          VALUE` for each end and each step that is not all zeros
    12 LENGTH FILL        the table of ranges lends LENGTH numbers (at most RANGES_ROOM), each of them
                          FILL
    13 PLACE VALUE        number PLACE of the table of ranges, from 0 and below its length, becomes
                          VALUE
    0                     the end

Here a call is a tuple of its code and its arguments; that of a 9 is (9, SHEET, ROOM), and that of an
11 is (11, TEXT). That of a 3 or a 10 has all ends and steps, and not their number.

Every printed number is decimal, has one space before it, and every line ends in byte 10. Both tables
are a line `table` and a line `ranges` with every number lent. There and behind `row`, numbers that
follow each other and are equal stand as one, ` VALUExCOUNT`. Bytes lent are printed without those
`?` that end them, then byte 10, and a line `left COUNT` with the number of these.
"""

import itertools
import sys

import evaluation
import formula
import formula_cases
import listing
import rows
import samples
import sheet
import sheet_cases
import stored

(
    END, TABLE, PUT, SCHEDULE, EVALUATE, RANGE, ROW, SAME, WRITE, LIST, INPUTS, FORMULA, RANGES,
    PUT_END,
) = range(14)

# The numbers of a row in each table, and of the most rows.
WIDTH, ENDS = rows.NUMBERS, evaluation.RANGE_NUMBERS
MOST_ROWS = evaluation.ROWS_LIMIT
FULL, FULL_ENDS = listing.TABLE_LENGTH, listing.RANGES_LENGTH

# Room for a row more than a sheet may have, and for every sheet that is read.
TABLE_ROOM = FULL + WIDTH
RANGES_ROOM = FULL_ENDS + ENDS
WRITE_ROOM = sheet.SHEET_LIMIT
SHEET_ROOM = 1_100
LIST_ROOM = 4_200
FORMULA_ROOM = 700
LEAST, GREATEST = -(2**63), 2**63 - 1
GREATEST_USIZE = 2**64 - 1
SPAN = rows.SPAN_LIMIT
# The least count whose product with the numbers of a row passes 2^64: what is kept of it in 64 bits is
# less than a row.
COUNT_THAT_WRAPS = 2**64 // WIDTH + 1

# Where ends and steps begin among the numbers of a schedule, and how many these are.
FIRST_END = len(sheet.Counts._fields)
FIRST_STEP = FIRST_END + len(sheet.Ends._fields) * sheet.INPUTS_LIMIT
SCHEDULE_NUMBERS = FIRST_STEP + len(sheet.Step._fields) * sheet.STEPS_LIMIT


def flat(schedule) -> list[int]:
    """The numbers of a schedule."""
    return [*schedule.counts, *itertools.chain(*schedule.ends), *itertools.chain(*schedule.steps)]


def ends_of(numbers) -> tuple[sheet.Ends, ...]:
    """The ends that numbers make, two by two."""
    return tuple(sheet.Ends(*numbers[at : at + 2]) for at in range(0, len(numbers), 2))


def schedule_of(numbers) -> sheet.Schedule:
    """The schedule of its numbers."""
    steps = numbers[FIRST_STEP:]
    return sheet.Schedule(
        sheet.Counts(*numbers[:FIRST_END]),
        ends_of(numbers[FIRST_END:FIRST_STEP]),
        tuple(sheet.Step(*steps[at : at + 4]) for at in range(0, len(steps), 4)),
    )


def not_zero(schedule):
    """The ends and steps of a schedule that are not all zeros, each with its kind and number."""
    for word, block in (("end", schedule.ends), ("step", schedule.steps)):
        for number, numbers in enumerate(block, 1):
            if any(numbers):
                yield from (word, number, *numbers)


def runs(numbers):
    """Numbers as they are printed, equal ones that follow each other as one."""
    for value, equal in itertools.groupby(numbers):
        count = len([*equal])
        yield f"{value}x{count}" if count > 1 else f"{value}"


class Library:
    """Makes the calls with the checker's own library and keeps what is printed."""

    def __init__(self):
        self.table = []
        self.ranges = []
        self.schedule = sheet.ZEROS
        self.printed = []

    def line(self, word, *numbers):
        self.printed.append(" ".join([word, *map(str, numbers)]).encode() + b"\n")

    def tables(self):
        self.line("table", *runs(self.table))
        self.line("ranges", *runs(self.ranges))

    def bytes_lent(self, lent):
        front = bytes(lent).rstrip(b"?")
        self.printed.append(front + b"\n")
        self.line("left", len(lent) - len(front))

    def lend_table(self, length, fill):
        self.table = [fill] * length

    def put(self, place, value):
        self.table[place] = value

    def lend_ranges(self, length, fill):
        self.ranges = [fill] * length

    def put_end(self, place, value):
        self.ranges[place] = value

    def take_schedule(self, *numbers):
        self.schedule = schedule_of(numbers)

    def take_inputs(self, *block):
        numbers = flat(self.schedule)
        numbers[:2], numbers[FIRST_END:FIRST_STEP] = block[:2], block[2:]
        self.schedule = schedule_of(numbers)

    def evaluate(self):
        self.line("evaluate", *evaluation.evaluate(self.schedule, self.table, self.ranges))
        self.tables()

    def range(self, count, row):
        self.line("range", *evaluation.row_range(self.table, self.ranges, count, row))

    def row(self, count, row):
        self.line("row", *runs(evaluation.row_part(self.table, count, row)))

    def same(self, count, first, second):
        self.line("same", *map(int, evaluation.same_rows(self.table, count, first, second)))

    def write(self, length):
        out = bytearray(b"?" * length)
        self.line("write", *sheet.write(self.schedule, out))
        self.bytes_lent(out)

    def list(self, data, room):
        text = bytearray(b"?" * room)
        self.line("list", *listing.list_into(data, self.table, self.ranges, text))
        self.bytes_lent(text)
        self.tables()

    def formula(self, text):
        inputs, squares, _ = self.schedule.counts
        number, place, schedule = formula.read(inputs, squares, self.schedule.ends, text)
        self.line("formula", number, place, *schedule.counts, *not_zero(schedule))

    def end(self):
        """Nothing is printed."""


METHODS = {
    END: Library.end,
    TABLE: Library.lend_table,
    PUT: Library.put,
    SCHEDULE: Library.take_schedule,
    EVALUATE: Library.evaluate,
    RANGE: Library.range,
    ROW: Library.row,
    SAME: Library.same,
    WRITE: Library.write,
    LIST: Library.list,
    INPUTS: Library.take_inputs,
    FORMULA: Library.formula,
    RANGES: Library.lend_ranges,
    PUT_END: Library.put_end,
}


GOOD = sheet.schedule(
    2,
    [(-512, 512), (4096, 8191)],
    [(1, 0, 0, -7), (4, 1, 2, 0), (5, 2, 0, 0), (2, 4, 5, 0), (3, 6, 4, 0), (6, 2, 0, 0)],
)
GOOD_ROWS = 8
LARGEST = sheet_cases.LARGEST


def changed(places) -> list[int]:
    """The numbers of GOOD with some of them replaced; `places` are places among them."""
    numbers = flat(GOOD)
    for place, value in places.items():
        numbers[place] = value
    return numbers


def end_place(input_number, field):
    return FIRST_END + len(sheet.Ends._fields) * (input_number - 1) + field


def step_place(step_number, field):
    return FIRST_STEP + len(sheet.Step._fields) * (step_number - 1) + field


def beyond_counts(value):
    """Every number of GOOD beyond its counts replaced."""
    inputs, _, steps = GOOD.counts
    ends = range(end_place(inputs + 1, 0), FIRST_STEP)
    steps = range(step_place(steps + 1, 0), SCHEDULE_NUMBERS)
    return {place: value for place in [*ends, *steps]}


HOSTILE = [LEAST, -(2**32), -1, 0, 1, 2**32 + 1, GREATEST]


def hostile_schedules():
    """Counts of any value, ends and steps of any value, and garbage beyond the counts."""
    inputs, steps = sheet.INPUTS_LIMIT, sheet.STEPS_LIMIT
    yield flat(GOOD)
    yield flat(sheet.ZEROS)
    for value in (LEAST, -1, 1, 5, 6, GREATEST):
        yield changed(beyond_counts(value))
        yield [value] * SCHEDULE_NUMBERS
    for place in range(3):
        for value in HOSTILE + [3, inputs, inputs + 1, steps, steps + 1]:
            yield changed({place: value} | beyond_counts(1))
    for counts in (
        (inputs, inputs, steps), (inputs + 1, inputs + 1, steps), (inputs, inputs, steps + 1),
        (inputs + 1, inputs + 1, steps + 1), (2**32 + 2, 2, 6), (2, 2**32 + 2, 6),
    ):
        yield changed(dict(enumerate(counts)) | beyond_counts(0))
    for place in (end_place(1, 0), end_place(1, 1), end_place(2, 0), end_place(2, 1)):
        for value in HOSTILE + [sheet.END_LIMIT + 1, -sheet.END_LIMIT - 1]:
            yield changed({place: value})
    for step in (1, 2, 3, 5, 6):
        for field in range(4):
            for value in HOSTILE + [3, 5, 6, 7, 8]:
                yield changed({step_place(step, field): value})
    yield changed({1: 3, end_place(1, 0): GREATEST})
    yield changed({end_place(2, 0): GREATEST, step_place(1, 0): 0})
    yield changed({end_place(1, 0): GREATEST, end_place(2, 0): GREATEST})
    yield changed({step_place(2, 3): 1, step_place(5, 0): 7})
    for fields in ((6, 8, 0, 0), (6, 9, 0, 0), (6, 7, 1, 0), (6, 7, 0, -1), (7, 2, 0, 0)):
        yield changed({step_place(6, field): value for field, value in enumerate(fields)})
    for code in (2**32 + 6, 6 - 2**32, 2**63 - 2**32 + 6, 262):
        yield changed({step_place(6, 0): code})


def lent(table_length, fill, ranges_length, ranges_fill):
    """Both tables, each of one number."""
    yield TABLE, table_length, fill
    yield RANGES, ranges_length, ranges_fill


def evaluated(table_length, fill, ranges_length, ranges_fill):
    """The schedule evaluated into fresh tables."""
    yield from lent(table_length, fill, ranges_length, ranges_fill)
    yield EVALUATE,


def put_row(row, numbers, ends):
    """Numbers of a row, by their places in it, and its ends in the table of ranges."""
    for place, value in numbers.items():
        yield PUT, WIDTH * (row - 1) + place, value
    for place, value in enumerate(ends):
        yield PUT_END, ENDS * (row - 1) + place, value


def calls_on_schedules():
    """Each hostile schedule, with tables and bytes that suffice, and with ones that are empty."""
    numbers, ends = WIDTH * GOOD_ROWS, ENDS * GOOD_ROWS
    for hostile in hostile_schedules():
        yield SCHEDULE, *hostile
        yield from evaluated(numbers, -3, ends, 5)
        yield from evaluated(0, 0, 0, 0)
        yield from evaluated(numbers, -3, 0, 0)
        yield from evaluated(0, 0, ends, 5)
        yield WRITE, 200
        yield WRITE, 0


def calls_on_lengths():
    """Tables one number short, just long enough and longer, each with the other; bytes likewise."""
    numbers, ends = WIDTH * GOOD_ROWS, ENDS * GOOD_ROWS
    lengths = (0, 1, WIDTH - 1, WIDTH, numbers - 1, numbers, numbers + 1, numbers + WIDTH)
    ranges_lengths = (0, 1, 2, ends - 2, ends - 1, ends, ends + 1, ends + 2)
    yield SCHEDULE, *flat(GOOD)
    for fill, ranges_fill in ((0, 0), (7, -8), (LEAST, GREATEST), (GREATEST, LEAST)):
        for length, ranges_length in itertools.product(lengths, ranges_lengths):
            yield from evaluated(length, fill, ranges_length, ranges_fill)
    sheet_length = len(sheet.text(GOOD))
    for length in (0, 1, sheet_length - 1, sheet_length, sheet_length + 1, WRITE_ROOM):
        yield WRITE, length
    yield SCHEDULE, *flat(LARGEST)
    lengths, ranges_lengths = (FULL - 1, FULL, TABLE_ROOM), (FULL_ENDS - 1, FULL_ENDS, RANGES_ROOM)
    for length, ranges_length in itertools.product(lengths, ranges_lengths):
        yield from evaluated(length, 1, ranges_length, 2)
    sheet_length = len(sheet.text(LARGEST))
    for length in (sheet_length - 1, sheet_length, sheet_length + 1, WRITE_ROOM):
        yield WRITE, length


def calls_on_refused_rows():
    """6, 7 and 12 at each row: the rows before are written, that row and later ones are left."""
    for row in range(3, GOOD_ROWS + 1):
        for refused_step in ((5, 1, 0, 0), (4, 2, row - 1, 0), (6, 1, 0, 0)):
            steps = [(1, 0, 0, 2**28)] * (row - 3) + [refused_step]
            steps += [(2, 1, 1, 0)] * (GOOD_ROWS - row)
            yield SCHEDULE, *flat(sheet.schedule(1, [(-5, 6), (-(2**28), 2**28)], steps))
            yield from evaluated(WIDTH * GOOD_ROWS + 3, 11, ENDS * GOOD_ROWS + 3, 12)


# Ends of odd and of even sum, on either side of 0 and at it.
SMALL_ENDS = [
    (0, 1), (-1, 0), (1, 2), (-2, -1), (2, 3), (-3, -2), (1, 3), (-3, -1), (1, 4), (-4, -1), (3, 4),
    (3, 8), (-9, -4), (0, 0), (1, 1), (-1, -1), (-1, 1), (-1, 2), (4096, 8191), (-8191, -4096),
    (2**28 - 1, 2**28), (-(2**28), 1 - 2**28),
]


def steps_of_one_row(code):
    """The reciprocal or the root of an input, and that of its sum with 0."""
    yield [(code, 1, 0, 0), (4, 1, 2, 0)]
    yield [(1, 0, 0, 0), (2, 1, 2, 0), (code, 3, 0, 0)]


def calls_on_small_ends():
    """Reciprocals and roots of inputs, which go by the ends, and of the same forms as sums with 0,
    which go by the form; every row's range asked for."""
    for ends, squares in itertools.product(SMALL_ENDS, (0, 1)):
        for steps in itertools.chain(*map(steps_of_one_row, (sheet.RECIPROCAL, sheet.ROOT))):
            count = 1 + len(steps)
            yield SCHEDULE, *flat(sheet.schedule(squares, [ends], steps))
            yield from evaluated(WIDTH * count, 76, ENDS * count, 77)
            for row in range(1, count + 1):
                yield RANGE, count, row


# Squares and their neighbours, and 1024 m² ± m, 4096 times which is one less than a square.
ROOT_VALUES = [
    1, 2, 3, 4, 5, 8, 9, 15, 16, 17, 1023, 1024, 1025, 4094, 4095, 4096, 4097, 4098, 2**20 - 1, 2**20,
    2**20 + 1, 16_383**2 - 1, 16_383**2, 16_383**2 + 1, 2**28 - 512, 2**28 - 1, 2**28, 0, -1, -(2**28),
]


def calls_on_roots():
    """Roots of constants and of points, of roots, and of wide inputs."""
    for value in ROOT_VALUES:
        steps = [(1, 0, 0, value), (6, 2, 0, 0), (6, 3, 0, 0), (4, 3, 3, 0), (6, 1, 0, 0)]
        yield SCHEDULE, *flat(sheet.schedule(1, [(value, value)], steps))
        yield from evaluated(WIDTH * 6, 21, ENDS * 6, 22)
    for low, high in itertools.product((1, 2, 4095, 4096, 2**28 - 1), (4097, 2**20, 2**28 - 1, 2**28)):
        if low <= high:
            steps = [(6, 1, 0, 0), (6, 2, 0, 0), (4, 2, 2, 0), (3, 4, 1, 0)]
            for squares in (0, 1):
                yield SCHEDULE, *flat(sheet.schedule(squares, [(low, high)], steps))
                yield from evaluated(WIDTH * 5, 23, ENDS * 5, 24)


def calls_on_roots_of_pairs():
    """Roots of a sum less a product, whose pair is negative beside large linear parts, and of the
    sum with it."""
    for second, code, squares in itertools.product((1, 2), (sheet.SUBTRACT, sheet.ADD), (0, 1, 2)):
        sums = [(2, 1, 2, 0), *((2, row, row, 0) for row in range(4, 9))]
        steps = [(4, 1, second, 0), *sums, (code, 9, 3, 0), (6, 10, 0, 0)]
        yield SCHEDULE, *flat(sheet.schedule(squares, [(4096, 8192), (4096, 8191)], steps))
        yield from evaluated(WIDTH * 11, 29, ENDS * 11, 30)


def above_a_square(wide, linear, constant):
    """The schedule of constant + wide²/4096 × a² + linear × b, its root, and the root once more."""
    steps = [(4, 1, 1, 0), (1, 0, 0, constant), (2, 3, 4, 0), (2, 5, 2, 0), (6, 6, 0, 0), (6, 6, 0, 0)]
    return sheet.schedule(1, [(-wide, wide), (-linear, linear)], steps)


def calls_on_roots_at_the_span():
    """The least centres beside large squares, where the candidate or the root passes the span, and
    ranges that start at 0, 1 and 2, so that 12 comes first; each with tables one number short."""
    widths = (64, 5760, 5824, 2**17, 2**19 - 64, 2**19, 2**20)
    for wide, linear, constant in itertools.product(widths, (0, 1), (0, 1, 2, 3, 4096)):
        yield SCHEDULE, *flat(above_a_square(wide, linear, constant))
        yield from evaluated(WIDTH * 8, 25, ENDS * 8, 26)
    for lengths in ((WIDTH * 8 - 1, ENDS * 8), (WIDTH * 8, ENDS * 8 - 1)):
        for linear in (0, 1):
            yield SCHEDULE, *flat(above_a_square(2**19, linear, 1))
            yield from evaluated(lengths[0], 27, lengths[1], 28)


def about_one(wide):
    """Ends about 1 of the most inputs, each wider than the one before."""
    numbers = range(1, sheet.INPUTS_LIMIT + 1)
    return [(4096 - 3 * wide * number, 4096 + 4 * wide * number) for number in numbers]


def calls_on_last_inputs():
    """The most inputs: products of the last two with each other and with themselves, a sum and a
    difference in which their pairs meet, a reciprocal, a root and the products of both, under every
    count of squares, so that each pair of the last inputs is in use or is not."""
    last = sheet.INPUTS_LIMIT
    steps = [(4, last - 1, last, 0), (4, last, last, 0), (4, last - 1, last - 1, 0), (4, 1, last, 0)]
    products = [last + number for number in range(1, len(steps) + 1)]
    steps += [(2, products[0], products[1], 0), (2, products[2], products[3], 0)]
    total = last + len(steps) + 1
    steps += [(2, total - 2, total - 1, 0), (5, total, 0, 0), (6, total, 0, 0)]
    steps += [(4, total + 1, total + 2, 0), (4, total + 1, total, 0), (3, total + 4, total + 3, 0)]
    for squares in range(last + 1):
        yield SCHEDULE, *flat(sheet.schedule(squares, about_one(25), steps))
        count = last + len(steps)
        yield from evaluated(WIDTH * count, 35, ENDS * count, 36)


# The most inputs, pairs and steps: a product of the row before and an input, time and again, and in
# between its reciprocal and its root.
FULLEST = sheet.schedule(
    sheet.INPUTS_LIMIT,
    about_one(2),
    [
        (5, row - 1, 0, 0) if row % 7 == 5
        else (6, row - 1, 0, 0) if row % 7 == 6
        else (4, row - 1, row % sheet.INPUTS_LIMIT + 1, 0)
        for row in range(sheet.INPUTS_LIMIT + 1, MOST_ROWS + 1)
    ],
)


def calls_on_most_rows():
    """Every row of a table of the most rows asked for, with the most for the count, one less and one
    more; tables one number short."""
    yield SCHEDULE, *flat(FULLEST)
    for lengths in ((FULL - 1, FULL_ENDS), (FULL, FULL_ENDS - 1), (FULL, FULL_ENDS)):
        yield from evaluated(lengths[0], 37, lengths[1], 38)
    yield from asking([MOST_ROWS], range(MOST_ROWS + 2))
    yield from asking([MOST_ROWS - 1, MOST_ROWS + 1], [1, MOST_ROWS - 1, MOST_ROWS, MOST_ROWS + 1])
    yield SAME, MOST_ROWS, MOST_ROWS, MOST_ROWS - 1
    yield WRITE, WRITE_ROOM


# Inputs on either side of 0 and around it, far apart.
WIDE_ENDS = [(4096, 12287), (-12287, -4096), (-8192, 12289), (-12289, 8192)]


def schedules_of_wide_inputs():
    """Products of inputs of every sign, with sums and differences of them; reciprocals and roots of
    rows that start lower by themselves than they are answered, and so at 0 or below it."""
    products = [(4, 1, 2, 0), (4, 1, 1, 0), (3, 3, 1, 0), (3, 4, 2, 0), (2, 3, 4, 0)]
    for first, second in itertools.product(WIDE_ENDS, repeat=2):
        yield sheet.schedule(0, [first, second], products)
    of_square = [(4, 1, 1, 0), (5, 2, 0, 0), (6, 2, 0, 0), (4, 3, 4, 0), (3, 5, 1, 0), (2, 3, 3, 0)]
    for ends in ((4096, 8192), (-8191, -4096), (4096, 9001)):
        yield sheet.schedule(0, [ends], of_square)
    for ends, code in itertools.product([(1, 2), (7, 30)], (sheet.RECIPROCAL, sheet.ROOT)):
        yield sheet.schedule(0, [ends], [(2, 1, 1, 0), (4, 2, 2, 0), (code, 2, 0, 0)])


def calls_on_wide_inputs():
    """Each evaluated, its last range asked for."""
    for schedule in schedules_of_wide_inputs():
        count = evaluation.row_count(schedule)
        yield SCHEDULE, *flat(schedule)
        yield from evaluated(WIDTH * count, 31, ENDS * count, 32)
        yield RANGE, count, count


def asking(counts, asked):
    for count in counts:
        for row in asked:
            yield RANGE, count, row
            yield ROW, count, row
            yield SAME, count, row, row


COUNTS = [0, 1, 2, MOST_ROWS, MOST_ROWS + 1, 2**32 + 1, COUNT_THAT_WRAPS, 2**63, GREATEST_USIZE]
ROWS = [0, 1, 2, 3, MOST_ROWS, MOST_ROWS + 1, 2**32 + 1, GREATEST_USIZE]


def calls_on_counts_and_rows():
    """Counts and rows of any value, tables empty, one number short and full of one number: among
    them the largest that as many times as a row has numbers is within the span."""
    most, last = SPAN // WIDTH, MOST_ROWS
    for length, fill in [
        (0, 0), (1, 0), (WIDTH - 1, 0), (WIDTH, 0), (2 * WIDTH - 1, 0), (2 * WIDTH, -1), (FULL - 1, 0),
        (FULL, 0), (FULL, most), (FULL, most + 1), (FULL, -most), (FULL, -most - 1), (FULL, LEAST),
        (FULL, GREATEST), (TABLE_ROOM, 1),
    ]:
        yield from lent(length, fill, FULL_ENDS, -9)
        yield from asking(COUNTS, ROWS)
        for first, second in [
            (1, 2), (2, 1), (0, 1), (1, 0), (1, last + 1), (last, 1), (1, last), (last + 1, 0),
        ]:
            for count in (2, last - 1, last, last + 1):
                yield SAME, count, first, second


def calls_on_lent_ranges():
    """Counts and rows of any value, tables of ranges empty, one number short and full of one number,
    beside a table that suffices, one that is short, and one over the span."""
    for length, fill in [(FULL, 3), (FULL - 1, 3), (TABLE_ROOM, 3), (FULL, SPAN)]:
        for ranges_length, ranges_fill in [
            (0, 0), (1, 0), (2, 0), (3, -1), (4, 5), (FULL_ENDS - 3, 0), (FULL_ENDS - 2, 6),
            (FULL_ENDS - 1, 0), (FULL_ENDS, LEAST), (FULL_ENDS, GREATEST), (FULL_ENDS + 1, 0),
            (RANGES_ROOM, 1),
        ]:
            yield from lent(length, fill, ranges_length, ranges_fill)
            for count, row in itertools.product([*COUNTS, MOST_ROWS - 1], ROWS):
                yield RANGE, count, row


# Places in a row: the last symbol, the first pair and the last one.
LAST_SYMBOL, FIRST_PAIR, LAST_PAIR = rows.SYMBOLS, rows.SYMBOLS + 1, WIDTH - 1

# Low and high as no evaluation leaves them, and as one does; differences that pass 2^31, 2^32 and
# 2^63.
LENT_ENDS = [
    (0, 0), (0, 1), (1, 0), (-1, 0), (0, -1), (-1, -2), (-2, -1), (7, 7), (8, 7), (LEAST, LEAST),
    (GREATEST, GREATEST), (LEAST, GREATEST), (GREATEST, LEAST), (LEAST, LEAST + 1),
    (LEAST + 1, LEAST), (GREATEST - 1, GREATEST), (GREATEST, GREATEST - 1), (LEAST, 0), (0, LEAST),
    (0, GREATEST), (GREATEST, 0), (-1, GREATEST), (GREATEST, -1), (-(2**62), 2**62),
    (2**62, -(2**62)), (-(2**31), 2**31), (2**31, -(2**31)), (2**32, 0), (0, 2**32),
    (2**32, 2**33 - 1), (SPAN, SPAN + 1), (-SPAN - 1, -SPAN),
]


def calls_on_lent_ends():
    """Any ends put into the second table, at the first, a middle and the last row of it: they are
    told as they stand, or refused where low is above high, whatever the row's numbers make and
    whatever stands beside them; a row over the span is refused whatever its ends."""
    for ends, row in itertools.product(LENT_ENDS, (1, 2, 3)):
        yield from lent(3 * WIDTH, 0, 3 * ENDS, 4)
        yield from put_row(row, {0: 40, 1: -2, FIRST_PAIR: 1}, ends)
        for asked in (1, 2, 3):
            yield RANGE, 3, asked
        yield RANGE, row, row
        yield SAME, 3, 1, row
        yield ROW, 3, row
    for ends, value in itertools.product([(0, 0), (1, 0), (LEAST, GREATEST)], (SPAN, SPAN + 1)):
        yield from lent(2 * WIDTH, 0, 2 * ENDS, 0)
        yield from put_row(2, {17: value}, ends)
        yield RANGE, 2, 1
        yield RANGE, 2, 2
        yield RANGE, 1, 2


def calls_on_spans():
    """A row over the span by each of its numbers; sums that pass 2^63 and 2^64."""
    for place in range(WIDTH):
        for value in (SPAN, -SPAN, SPAN + 1, -SPAN - 1, LEAST):
            yield from lent(2 * WIDTH, 0, 2 * ENDS, 6)
            yield PUT, WIDTH + place, value
            yield RANGE, 2, 2
            yield SAME, 2, 2, 1
    for group in [
        {0: LEAST, 1: LEAST},
        {0: GREATEST, 1: GREATEST, 2: 2},
        {LAST_SYMBOL: 2**62, FIRST_PAIR: -(2**62), LAST_PAIR - 1: 2**62, LAST_PAIR: -(2**62)},
        {0: LEAST, LAST_PAIR: GREATEST, 7: 1},
        {0: 2**63 - 2**29, 1: 2**29, 2: LEAST},
        {0: 2**32, 1: -(2**32)},
        {0: SPAN - 1, LAST_PAIR: 1},
        {0: SPAN - 1, LAST_PAIR: 2},
        {0: -SPAN + 2, 1: 1, FIRST_PAIR: -1},
        {0: -SPAN + 2, 1: -2, FIRST_PAIR: -1},
    ]:
        yield from lent(WIDTH, 0, ENDS, 0)
        yield from put_row(1, group, (-5, 6))
        yield RANGE, 1, 1
        yield ROW, 1, 1
        yield SAME, 1, 1, 1


def calls_on_comparison():
    """Rows that differ in one number, or in numbers of equal ranges; rows over the span, the lower
    one first. What the table of ranges lends, nothing or other ends, does not matter."""
    for place in range(WIDTH):
        yield from lent(3 * WIDTH, 3, 0, 0)
        yield PUT, WIDTH + place, 4
        for first, second in ((1, 2), (2, 1), (1, 3), (2, 2)):
            yield SAME, 3, first, second
    mixed, last_mixed = rows.MIXED_PLACES[0], rows.MIXED_PLACES[-1]
    for first_place, second_place, value in (
        (7, 8, 3), (7, 7, -3), (7, mixed, 3), (LAST_SYMBOL, last_mixed, -3),
    ):
        # The ranges agree, the numbers do not.
        yield from lent(2 * WIDTH, 0, 2 * ENDS, 0)
        yield from put_row(1, {first_place: 3}, (-3, 3))
        yield from put_row(2, {second_place: value}, (-3, 3))
        yield SAME, 2, 1, 2
        yield RANGE, 2, 1
        yield RANGE, 2, 2
    for first_ends, second_ends in (((0, 1), (0, 2)), ((1, 0), (0, 1)), ((0, 0), (2, 1))):
        # The numbers agree, the ranges do not.
        yield from lent(2 * WIDTH, 1, 2 * ENDS, 0)
        yield from put_row(1, {}, first_ends)
        yield from put_row(2, {}, second_ends)
        yield SAME, 2, 1, 2
        yield ROW, 2, 1
    for over in itertools.product((0, SPAN + 1), repeat=3):
        yield from lent(3 * WIDTH, 0, 3 * ENDS, 0)
        for row, value in enumerate(over, 1):
            yield from put_row(row, {5: value}, (-5, 6))
        for first, second in itertools.product((1, 2, 3), repeat=2):
            yield SAME, 3, first, second
        yield SAME, 2, 3, 1
        yield SAME, 4, 3, 1
        yield SAME, 3, 4, 1


def calls_on_an_evaluated_table():
    """Every row of an accepted evaluation asked for; then again with its low end put to its high
    end, and above it."""
    yield SCHEDULE, *flat(GOOD)
    yield from evaluated(WIDTH * GOOD_ROWS + 34, 5, ENDS * GOOD_ROWS + 4, 3)
    yield from asking([GOOD_ROWS], range(GOOD_ROWS + 2))
    for first, second in itertools.product(range(1, GOOD_ROWS + 1), repeat=2):
        yield SAME, GOOD_ROWS, first, second
    for row, worked in enumerate(evaluation.work(GOOD).rows, 1):
        for low in (worked.answered_range.high, worked.answered_range.high + 1):
            yield from put_row(row, {}, (low,))
            yield from asking([GOOD_ROWS], (1, row))


def listed(data, tables, room=listing.TEXT_ROOM):
    """A sheet listed into fresh tables."""
    yield from lent(*tables)
    yield LIST, data, room


# Two rows; their ends have either sign, and low and high differ in digits too; the sum is odd.
SHORT = sheet.text(sheet.schedule(1, [(-300, 21)], [(3, 1, 1, 0)]))
SHORT_NUMBERS = 2 * WIDTH
SHORT_ENDS = 2 * ENDS

# Each is refused, by 1 to 7 and 12 in turn: the last three after one row or more.
REFUSED = [
    SHORT + b"\n" * (1025 - len(SHORT)),
    SHORT[:-1],
    SHORT.replace(b"1 1 1\n", b"1 2 1\n"),
    SHORT.replace(b"-300 21\n", b"22 21\n"),
    SHORT.replace(b"3 1 1 0\n", b"3 1 2 0\n"),
    sheet.text(sheet.schedule(0, [(5, 2**28)], [(4, 1, 1, 0)])),
    sheet.text(sheet.schedule(0, [(-5, 6)], [(1, 0, 0, -9), (5, 1, 0, 0), (2, 1, 1, 0)])),
    sheet.text(sheet.schedule(0, [(0, 7)], [(1, 0, 0, 9), (6, 2, 0, 0), (6, 1, 0, 0)])),
]


def listings_into_lent_bytes():
    """Too few bytes, just enough and more: for a sheet that is listed, and, of the rooms that are
    too small, for sheets and tables that would be refused otherwise."""
    for room in (0, 1, 4095, 4096, 4097, LIST_ROOM):
        yield from listed(SHORT, (SHORT_NUMBERS + 1, 7, SHORT_ENDS + 1, 8), room)
    for data in (b"", REFUSED[0], REFUSED[1], REFUSED[6], REFUSED[7]):
        yield from listed(data, (SHORT_NUMBERS, -7, SHORT_ENDS, -8), 4095)
    yield from listed(SHORT, (SHORT_NUMBERS - 1, LEAST, SHORT_ENDS, 0), 1)
    yield from listed(SHORT, (SHORT_NUMBERS, LEAST, SHORT_ENDS - 1, 0), 1)


def listings_into_lent_tables():
    """Tables empty, one number short, just long enough and longer, of any numbers, each with the
    other."""
    lengths = (0, SHORT_NUMBERS - 1, SHORT_NUMBERS, SHORT_NUMBERS + WIDTH // 2)
    ranges_lengths = (0, SHORT_ENDS - 1, SHORT_ENDS, SHORT_ENDS + 3)
    for fill, ranges_fill in ((0, 0), (7, -8), (LEAST, GREATEST), (GREATEST, LEAST)):
        for length, ranges_length in itertools.product(lengths, ranges_lengths):
            yield from listed(SHORT, (length, fill, ranges_length, ranges_fill))
    for length, ranges_length in ((0, FULL_ENDS), (FULL - 1, FULL_ENDS), (FULL, FULL_ENDS - 1), (FULL, 0)):
        yield from listed(sheet.text(LARGEST), (length, 1, ranges_length, 2))


def listings_of_refused_sheets():
    """Each cause, with tables that are long enough, and with one that is none: reading comes before
    the tables, and the tables before the rows."""
    for data in REFUSED:
        yield from listed(data, (4 * WIDTH, 11, 4 * ENDS, 12))
    for data in REFUSED[1:]:
        yield from listed(data, (0, 0, 4 * ENDS, 12))
        yield from listed(data, (4 * WIDTH, 11, 0, 0))


def listings_of_any_bytes():
    """Sheets of no byte and of the most bytes, and more than the most."""
    for data in (b"", b"\n", b"\0" * 1024, SHORT + b"\n" * (1024 - len(SHORT)), b"?" * SHEET_ROOM):
        yield from listed(data, (3, GREATEST, 2, LEAST))


def listings_of_good_sheets():
    """Rows of every kind, ends of odd sum with their reciprocals and roots, rows that are the same as
    several before, the widest numbers, the most rows."""
    widest = [(-(2**28), 2**28), (-(2**28), -(2**28))]
    sums = [(2, 1, 1, 0), (2, 3, 3, 0), (3, 2, 3, 0), (2, 2, 2, 0), (2, 6, 6, 0)]
    again = [(1, 0, 0, -7), (3, 1, 1, 0), (1, 0, 0, -7), (1, 0, 0, -7), (3, 2, 2, 0), (2, 3, 4, 0)]
    odd = [(5, 1, 0, 0), (5, 2, 0, 0), (5, 3, 0, 0), (4, 1, 4, 0), (2, 2, 2, 0)]
    roots = [(6, 1, 0, 0), (6, 2, 0, 0), (6, 3, 0, 0), (4, 5, 5, 0), (6, 6, 0, 0)]
    for data, fill in [
        (listing.EXAMPLE_SHEET, LEAST),
        (sheet.text(GOOD), GREATEST),
        (sheet.text(sheet.schedule(0, widest, sums)), 7),
        (sheet.text(sheet.schedule(2, [(-5, 6), (-6, 5)], again)), 7),
        (sheet.text(sheet.schedule(3, [(1, 2), (-2, -1), (3, 8)], odd)), -4),
        (sheet.text(sheet.schedule(2, [(1, 2), (4096, 8191), (3, 8)], roots)), 6),
    ]:
        yield from listed(data, (WIDTH * 8, fill, ENDS * 8, -1 - fill))
    for schedule in (LARGEST, FULLEST):
        yield from listed(sheet.text(schedule), (TABLE_ROOM, -1, RANGES_ROOM, -2))


def listings_of_wide_inputs():
    for schedule in schedules_of_wide_inputs():
        count = evaluation.row_count(schedule)
        yield from listed(sheet.text(schedule), (WIDTH * count, 33, ENDS * count, 34))


def sampled_evaluations():
    """The schedules of another implementation's samples, evaluated."""
    for sample in samples.evaluations():
        yield SCHEDULE, *flat(sample.schedule)
        yield from evaluated(sample.lengths[0], sample.fill, sample.lengths[1], sample.fill)


def sampled_writings():
    """The schedules of another implementation's samples, written."""
    for sample in samples.writings():
        yield SCHEDULE, *flat(sample.schedule)
        yield WRITE, sample.lent


def questions() -> list:
    """The ranges and comparisons of another implementation's samples, those of one table together."""
    return sorted([*samples.ranges(), *samples.comparisons()], key=lambda sample: sample.table)


def filled(lend, put, numbers):
    """A table with these numbers."""
    yield lend, len(numbers), 0
    yield from ((put, place, value) for place, value in enumerate(numbers) if value)


def sampled_questions():
    """Their tables, a row asked for, and two compared; a table is lent where it changes."""
    table = None
    for sample in questions():
        if sample.table != table:
            table = sample.table
            yield from filled(TABLE, PUT, table)
        if isinstance(sample, samples.Range):
            yield from filled(RANGES, PUT_END, sample.ranges)
            yield RANGE, sample.count, sample.row
        else:
            yield SAME, sample.count, sample.first, sample.second


def formulas_read():
    """Every case of formula_cases.py; the inputs are told where they change."""
    told = None
    for inputs, squares, ends, text in formula_cases.cases():
        block = inputs, squares, *itertools.chain(*ends)
        if block != told:
            yield INPUTS, *block
            told = block
        yield FORMULA, text


def calls() -> list[tuple]:
    groups = (
        calls_on_schedules, calls_on_lengths, calls_on_refused_rows, calls_on_small_ends,
        calls_on_roots, calls_on_roots_of_pairs, calls_on_roots_at_the_span, calls_on_last_inputs,
        calls_on_most_rows, calls_on_wide_inputs, calls_on_counts_and_rows, calls_on_lent_ranges,
        calls_on_lent_ends, calls_on_spans, calls_on_comparison, calls_on_an_evaluated_table,
        sampled_writings, sampled_evaluations, sampled_questions, listings_into_lent_bytes,
        listings_into_lent_tables, listings_of_refused_sheets, listings_of_any_bytes,
        listings_of_good_sheets, listings_of_wide_inputs, formulas_read,
    )
    return [call for group in groups for call in group()] + [(END,)]


def numbered(block) -> list[int]:
    """How many ends or steps there are up to the last that is not all zeros, and these."""
    number = max((at for at, numbers in enumerate(block, 1) if any(numbers)), default=0)
    return [number, *itertools.chain(*block[:number])]


def fields(numbers) -> bytes:
    return " ".join(f"{number % 2**64:016x}" for number in numbers).encode() + b"\n"


def encoded(call) -> bytes:
    """The fields of one call, and the bytes behind them."""
    if call[0] == LIST:
        code, data, room = call
        return fields([code, len(data), room]) + data + b"\n"
    if call[0] == FORMULA:
        code, text = call
        return fields([code, len(text)]) + text + b"\n"
    if call[0] == SCHEDULE:
        counts, ends, steps = schedule_of(call[1:])
        return fields([SCHEDULE, *counts, *numbered(ends), *numbered(steps)])
    if call[0] == INPUTS:
        code, inputs, squares, *ends = call
        return fields([code, inputs, squares, *numbered(ends_of(ends))])
    return fields(call)


def printed(every):
    """What is printed, line by line, as the calls are made."""
    library = Library()
    for code, *arguments in every:
        METHODS[code](library, *arguments)
        yield from library.printed
        library.printed.clear()


def expected(every) -> bytes:
    return b"".join(printed(every))


def files() -> dict[str, bytes]:
    """The files of the crate, by their paths in it."""
    every = calls()
    return {"data/calls": b"".join(map(encoded, every)), "stdout": expected(every)}


if __name__ == "__main__":
    stored.write(sys.argv[1], files())
