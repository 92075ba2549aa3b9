"""Evaluation into two lent tables, and the calls that ask about rows of a table.

The specification, causes 6 to 9 of "Causes and what follows" and 12 (manual, section 6), and the
requests 2026-02, 2026-04, 2026-06 and 2026-07. A lent table is a Python list of numbers. The first
holds the 85 numbers of each row; the second, the table of ranges, holds two numbers a row: the low
and the high that are answered.

A row has three ranges. Its own range is that of its form, or of an input its ends; a reciprocal
takes its test and its distance from there, a root its test and its low. Its plain range is made
from the answered ranges of its operands alone. Its answered range, the overlap of both, is what is
stored, told and printed.
"""

from typing import NamedTuple

import intervals
import rows
import sheet

# "the row count given may reach 48"
ROWS_LIMIT = rows.SYMBOLS
RANGE_NUMBERS = 2


class Answer(NamedTuple):
    number: int
    place: int


class RangeAnswer(NamedTuple):
    number: int
    place: int
    low: int
    high: int


class SameAnswer(NamedTuple):
    number: int
    place: int
    same: bool


class WorkedRow(NamedTuple):
    """The numbers of a row that came about, and its three ranges."""

    numbers: list
    own_range: rows.Range
    plain_range: rows.Range
    answered_range: rows.Range


class Work(NamedTuple):
    """The rows that came about, and number and place of the refusal that ended them, or 0 and 0."""

    rows: list[WorkedRow]
    number: int
    place: int


def input_or_step_numbers(schedule, row: int, worked):
    """The numbers that a row becomes, from the rows worked before it: "Rows are numbered from 1:
    inputs first, then steps."."""
    inputs, squares, _ = schedule.counts
    if row <= inputs:
        return rows.input_row(*schedule.ends[row - 1], row)
    step = schedule.steps[row - inputs - 1]
    if step.code == sheet.CONSTANT:
        return rows.constant_row(step.value)
    first = worked[step.first - 1]
    if step.code == sheet.RECIPROCAL:
        return rows.reciprocal(first.numbers, first.own_range, squares, row)
    if step.code == sheet.ROOT:
        return rows.root(first.numbers, first.own_range, squares, row)
    second = worked[step.second - 1]
    if step.code == sheet.ADD:
        return rows.add(first.numbers, second.numbers)
    if step.code == sheet.SUBTRACT:
        return rows.subtract(first.numbers, second.numbers)
    return rows.multiply(first.numbers, second.numbers, squares, row)


def own_range(schedule, row: int, numbers) -> rows.Range:
    """"an input row's range is its own low and high, and a reciprocal takes its distance from 0
    from that"; every other row has the range of its form."""
    if row <= schedule.counts.inputs:
        return rows.Range(*schedule.ends[row - 1])
    return rows.form_range(numbers)


def plain_range(schedule, row: int, worked) -> rows.Range:
    """"Each row also gets a plain range [...] from the answered ranges of its operands."; that of
    an input is its ends, that of a constant its value."""
    inputs = schedule.counts.inputs
    if row <= inputs:
        return rows.Range(*schedule.ends[row - 1])
    step = schedule.steps[row - inputs - 1]
    if step.code == sheet.CONSTANT:
        return rows.Range(step.value, step.value)
    first = worked[step.first - 1].answered_range
    if step.code == sheet.RECIPROCAL:
        return intervals.reciprocal(first)
    if step.code == sheet.ROOT:
        return intervals.root(first)
    second = worked[step.second - 1].answered_range
    if step.code == sheet.ADD:
        return intervals.add(first, second)
    if step.code == sheet.SUBTRACT:
        return intervals.subtract(first, second)
    return intervals.multiply(first, second)


def answered_range(own: rows.Range, plain: rows.Range) -> rows.Range:
    """"The answered and printed range is the overlap with the row's own. It holds the exact value
    and is never empty."."""
    return intervals.overlap(own, plain)


def work_row(schedule, row: int, worked) -> WorkedRow:
    """A row with its ranges, from the rows worked before it."""
    numbers = input_or_step_numbers(schedule, row, worked)
    own = own_range(schedule, row, numbers)
    plain = plain_range(schedule, row, worked)
    return WorkedRow(numbers, own, plain, answered_range(own, plain))


def row_count(schedule) -> int:
    return schedule.counts.inputs + schedule.counts.steps


def work(schedule) -> Work:
    """The rows of a schedule that passes 3, 4, 5: "then row by row, 7 before 6"; 12
    "stands where 7 does"."""
    worked = []
    for row in range(1, row_count(schedule) + 1):
        try:
            worked.append(work_row(schedule, row, worked))
        except rows.RowRefusal as refusal:
            return Work(worked, refusal.number, row)
    return Work(worked, 0, 0)


def too_short(table, ranges, count: int) -> bool:
    """Whether a table does not hold 85 numbers, or the table of ranges two, for each row of the
    count: "It follows the first one's rules"."""
    return len(table) < rows.NUMBERS * count or len(ranges) < RANGE_NUMBERS * count


def store(worked, table: list, ranges: list) -> None:
    """Writes the rows, and their answered ranges, to the start of both tables."""
    for index, row in enumerate(worked):
        table[rows.NUMBERS * index : rows.NUMBERS * (index + 1)] = row.numbers
        ranges[RANGE_NUMBERS * index : RANGE_NUMBERS * (index + 1)] = row.answered_range


def evaluate(schedule, table: list, ranges: list) -> Answer:
    """"Evaluation needs" 85 "numbers for each row and writes no others. After 6 or 7 the rows
    before the place are written."; of 12 "place and table as for 7"; "evaluation also fills a
    second lent table, two numbers a row, with the answered low and high"."""
    try:
        sheet.test(schedule)
    except sheet.Refusal as refusal:
        return Answer(refusal.number, refusal.place)
    if too_short(table, ranges, row_count(schedule)):
        return Answer(8, 0)
    worked = work(schedule)
    store(worked.rows, table, ranges)
    return Answer(worked.number, worked.place)


def numbers_of(table, row: int):
    """The numbers that a table holds for a row."""
    return table[rows.NUMBERS * (row - 1) : rows.NUMBERS * row]


def ends_of(ranges, row: int) -> rows.Range:
    """The low and the high that a table of ranges holds for a row."""
    return rows.Range(*ranges[RANGE_NUMBERS * (row - 1) : RANGE_NUMBERS * row])


def wrong_rows(count: int, asked) -> bool:
    """9: "a row asked for is 0 or above the count given, or the count is above" 48."""
    return count > ROWS_LIMIT or any(row == 0 or row > count for row in asked)


def over_the_span(table, row: int) -> bool:
    """6: "span passed [...] by a row lent to us"."""
    return rows.span(numbers_of(table, row)) > rows.SPAN_LIMIT


def asking_refusal(table, count: int, asked) -> Answer:
    """"Asking about rows: 9, 8, 6, the lower row first; the table must hold" 85 "numbers for each
    row of the count given."."""
    if wrong_rows(count, asked):
        return Answer(9, 0)
    if len(table) < rows.NUMBERS * count:
        return Answer(8, 0)
    for row in sorted(asked):
        if over_the_span(table, row):
            return Answer(6, row)
    return Answer(0, 0)


def range_refusal(table, ranges, count: int, row: int) -> Answer:
    """"a range is read there, with both tables lent; a row over the span or a low above its high
    gives 6"."""
    if wrong_rows(count, [row]):
        return Answer(9, 0)
    if too_short(table, ranges, count):
        return Answer(8, 0)
    low, high = ends_of(ranges, row)
    if over_the_span(table, row) or low > high:
        return Answer(6, row)
    return Answer(0, 0)


def row_range(table, ranges, count: int, row: int) -> RangeAnswer:
    """"tells a row's range": the low and the high of the second table; "Beside a refusal every
    other answer is 0"."""
    refusal = range_refusal(table, ranges, count, row)
    if refusal.number:
        return RangeAnswer(*refusal, 0, 0)
    return RangeAnswer(0, 0, *ends_of(ranges, row))


def row_part(table, count: int, row: int) -> list:
    """"A row asked for is handed back as a part of the lent table itself. Where it is refused the
    part is empty"."""
    if asking_refusal(table, count, [row]).number:
        return []
    return numbers_of(table, row)


def same_rows(table, count: int, first: int, second: int) -> SameAnswer:
    """"An accepted comparison calls two rows of one table the same, and answers yes, exactly when
    all their numbers agree."."""
    refusal = asking_refusal(table, count, [first, second])
    if refusal.number:
        return SameAnswer(*refusal, False)
    return SameAnswer(0, 0, numbers_of(table, first) == numbers_of(table, second))
