"""Schedule sheets: reading, writing, and the tests of a schedule that is handed over.

The specification, "The sheet" and causes 1 to 5 and 8 of "Causes and what follows" (manual,
sections 2 and 6).
"""

import re
from typing import NamedTuple

INPUTS_LIMIT = 8
STEPS_LIMIT = 40
END_LIMIT = 268_435_456
SHEET_LIMIT = 1_024

COUNT_NAMES = b"inputs squares steps"
END_NAMES = b"low high"
STEP_NAMES = b"step first second value"

CONSTANT, ADD, SUBTRACT, MULTIPLY, RECIPROCAL, ROOT = 1, 2, 3, 4, 5, 6

NUMBER = re.compile(rb"0|-?[1-9][0-9]{0,9}")


class Counts(NamedTuple):
    """"`inputs squares steps`, one line"."""

    inputs: int
    squares: int
    steps: int


class Ends(NamedTuple):
    """"`low high`, one line for each input"."""

    low: int
    high: int


class Step(NamedTuple):
    """"`step first second value`, one line for each step"."""

    code: int
    first: int
    second: int
    value: int


class Schedule(NamedTuple):
    """Counts, room for the ends of the most inputs and room for the most steps.

    A schedule handed over may hold any whole number anywhere; what lies beyond the counts
    means nothing.
    """

    counts: Counts
    ends: tuple[Ends, ...]
    steps: tuple[Step, ...]


class ReadAnswer(NamedTuple):
    number: int
    place: int
    schedule: Schedule


class WriteAnswer(NamedTuple):
    number: int
    place: int
    length: int


class Refusal(Exception):
    """A cause's number and the place returned with it."""

    def __init__(self, number: int, place: int):
        super().__init__(number, place)
        self.number = number
        self.place = place


def schedule(squares, ends, steps) -> Schedule:
    """The schedule with just these ends and steps: "What is read holds 0 beyond its counts"."""
    counts = Counts(len(ends), squares, len(steps))
    spare_ends = [(0, 0)] * (INPUTS_LIMIT - len(ends))
    spare_steps = [(0, 0, 0, 0)] * (STEPS_LIMIT - len(steps))
    return Schedule(
        counts,
        tuple(Ends(*end) for end in [*ends, *spare_ends]),
        tuple(Step(*step) for step in [*steps, *spare_steps]),
    )


ZEROS = Schedule(
    Counts(0, 0, 0), (Ends(0, 0),) * INPUTS_LIMIT, (Step(0, 0, 0, 0),) * STEPS_LIMIT
)


def within_limits(value: int) -> bool:
    """"from -268,435,456 to 268,435,456"."""
    return -END_LIMIT <= value <= END_LIMIT


def counts_in_order(counts: Counts) -> bool:
    """"inputs 1 to" 8, "squares 0 to inputs, steps 1 to" 40: "Limits become 8 inputs and 40
    steps"."""
    return (
        1 <= counts.inputs <= INPUTS_LIMIT
        and 0 <= counts.squares <= counts.inputs
        and 1 <= counts.steps <= STEPS_LIMIT
    )


def ends_in_order(ends: Ends) -> bool:
    """"Both ends lie from -268,435,456 to 268,435,456, and low is at most high."."""
    return within_limits(ends.low) and within_limits(ends.high) and ends.low <= ends.high


def step_in_order(step: Step, row: int) -> bool:
    """"A step's first and second name earlier rows"; "A field that its code does not use is 0:
    first and second for 1, value for 2 to 5, second for 5."; "Code 6 takes the root of its first
    row; second and value are 0."."""
    first_earlier = 1 <= step.first < row
    second_earlier = 1 <= step.second < row
    if step.code == CONSTANT:
        return step.first == 0 and step.second == 0 and within_limits(step.value)
    if step.code in (ADD, SUBTRACT, MULTIPLY):
        return first_earlier and second_earlier and step.value == 0
    if step.code in (RECIPROCAL, ROOT):
        return first_earlier and step.second == 0 and step.value == 0
    return False


COUNTS_LINE = 2


def end_line(input_number: int) -> int:
    """The text line of an input's ends: lines 1 to 3 are names, counts, names."""
    return 3 + input_number


def step_line(inputs: int, step_number: int) -> int:
    """The text line of a step: three lines, the inputs' lines and one line of names before it."""
    return 4 + inputs + step_number


def test(handed: Schedule) -> None:
    """"A schedule handed to the writer or to evaluation is tested by 3, 4, 5 as its lines would
    stand"."""
    counts = handed.counts
    if not counts_in_order(counts):
        raise Refusal(3, COUNTS_LINE)
    for number in range(1, counts.inputs + 1):
        if not ends_in_order(handed.ends[number - 1]):
            raise Refusal(4, end_line(number))
    for number in range(1, counts.steps + 1):
        if not step_in_order(handed.steps[number - 1], counts.inputs + number):
            raise Refusal(5, step_line(counts.inputs, number))


class TextLines:
    """The bytes of a sheet, taken line by line; every fault of layout is a 2 at its text line."""

    def __init__(self, data: bytes):
        self.data = data
        self.start = 0
        self.line = 0

    def content(self) -> bytes:
        """The next line without its byte 10: "Text lines end in byte 10 (decimal)."."""
        self.line += 1
        end = self.data.find(b"\n", self.start)
        if end < 0:
            raise Refusal(2, self.line)
        content = self.data[self.start : end]
        self.start = end + 1
        return content

    def names(self, expected: bytes) -> None:
        """"each a line of names and then lines of values in that order"."""
        if self.content() != expected:
            raise Refusal(2, self.line)

    def numbers(self, count: int) -> list[int]:
        """"Fields have one space between them and none elsewhere. A number is an optional minus
        and 1 to 10 decimal digits; no leading zero except 0 itself, and no minus before 0."."""
        fields = self.content().split(b" ")
        if len(fields) != count or not all(NUMBER.fullmatch(field) for field in fields):
            raise Refusal(2, self.line)
        return [int(field) for field in fields]

    def end(self) -> None:
        """"or bytes follow the last (a line more)"."""
        if self.start != len(self.data):
            raise Refusal(2, self.line + 1)


def read_lines(data: bytes) -> Schedule:
    """"Order: 1; then text line by line, 2 before 3, 4 or 5 on a line"."""
    if len(data) > SHEET_LIMIT:
        raise Refusal(1, 0)
    text = TextLines(data)
    text.names(COUNT_NAMES)
    counts = Counts(*text.numbers(3))
    if not counts_in_order(counts):
        raise Refusal(3, text.line)
    text.names(END_NAMES)
    ends = []
    for _ in range(counts.inputs):
        ends.append(Ends(*text.numbers(2)))
        if not ends_in_order(ends[-1]):
            raise Refusal(4, text.line)
    text.names(STEP_NAMES)
    steps = []
    for number in range(1, counts.steps + 1):
        steps.append(Step(*text.numbers(4)))
        if not step_in_order(steps[-1], counts.inputs + number):
            raise Refusal(5, text.line)
    text.end()
    return schedule(counts.squares, ends, steps)


def read(data: bytes) -> ReadAnswer:
    """The schedule of a sheet's bytes. "Beside a refusal every other answer is 0, no, or a
    schedule of zeros. An accepted call has number 0 and place 0."."""
    try:
        return ReadAnswer(0, 0, read_lines(data))
    except Refusal as refusal:
        return ReadAnswer(refusal.number, refusal.place, ZEROS)


def text(written: Schedule) -> bytes:
    """The sheet of a schedule: "Three blocks, each a line of names and then lines of values in
    that order". What lies beyond the counts is not written; nothing is tested here."""
    counts = written.counts
    blocks = [
        (COUNT_NAMES, [counts]),
        (END_NAMES, written.ends[: max(counts.inputs, 0)]),
        (STEP_NAMES, written.steps[: max(counts.steps, 0)]),
    ]
    lines = []
    for names, values in blocks:
        lines.append(names)
        lines.extend(" ".join(map(str, fields)).encode() for fields in values)
    return b"".join(line + b"\n" for line in lines)


def write(written: Schedule, out: bytearray) -> WriteAnswer:
    """"tested by 3, 4, 5 as its lines would stand, then 8. The writer returns the sheet's length
    and touches no byte beyond the sheet."."""
    try:
        test(written)
    except Refusal as refusal:
        return WriteAnswer(refusal.number, refusal.place, 0)
    sheet = text(written)
    if len(out) < len(sheet):
        return WriteAnswer(8, 0, 0)
    out[: len(sheet)] = sheet
    return WriteAnswer(0, 0, len(sheet))
