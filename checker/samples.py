"""Answers of another implementation, stored in tests/samples/: what each is given, and what it
answers.

Kept are the answers that hold of the specification as it stands: where a later request changes what
decides an answer, it goes. Of the answers from before 2026-06, a listing and a second table are kept
where for every row the plain range, from the ranges that stand there, holds the row's own: there the
overlap changes nothing. The request 2026-07 makes rows wider and limits higher. Of the answers from
before it these go: a 3 where the counts are within the limits, an 11 of more than 24 steps and at most
40, every call that wrote rows of 52 numbers or read such a row (a range of number 0 or 6), and a 9 by a
count alone that is at most 48. The others hold: listings and refusals show no width, 4, 5 and 10 come
before the tables, and a table that is too short for rows of 52 numbers is too short for wider ones.

"Old sheets give their old listings": within_6_inputs_24_steps.jsonl has 3,000 sheets that the program
read without refusal while 6 inputs and 24 steps were its limits, and what it printed for them, as
commit c42faeb built it. The sheets are generate.py's, as it stood there, in the order of their indices
under the seed `old sheets`, each once, the refused ones of reading left out.

An object of JSON a line. The text of a sheet stands byte for byte, as code points 0 to 255. A
schedule is its counts, and its ends and steps as far as the counts go; beyond the counts it holds 0.
Lent bytes are those of UNTOUCHED before the call.
"""

import json
import pathlib
from typing import NamedTuple

import sheet

FOLDER = pathlib.Path(__file__).parent.parent / "tests" / "samples"


class Listing(NamedTuple):
    """A sheet, and what is printed for it."""

    sheet: bytes
    printed: bytes


class Writing(NamedTuple):
    """A schedule, and how many bytes are lent; the refusal, the length of the sheet, and the bytes in
    front of the untouched rest."""

    schedule: sheet.Schedule
    lent: int
    refusal: tuple[int, int]
    length: int
    written: bytes


class Evaluation(NamedTuple):
    """A schedule, the lengths of both tables and the number that fills them before; the refusal,
    and what stands in front of the untouched rest of each table afterwards."""

    schedule: sheet.Schedule
    lengths: tuple[int, int]
    fill: int
    refusal: tuple[int, int]
    written: tuple[list, list]


class Range(NamedTuple):
    """Both tables, a count and a row; number and place, low and high."""

    table: list
    ranges: list
    count: int
    row: int
    answer: tuple[int, int, int, int]


class Comparison(NamedTuple):
    """A table, a count and two rows; number and place, and whether they are the same."""

    table: list
    count: int
    first: int
    second: int
    answer: tuple[int, int, bool]


# What stands in lent bytes before a call.
UNTOUCHED = b"\xa5"


def objects(name: str) -> list[dict]:
    return [json.loads(line) for line in (FOLDER / name).read_text().splitlines()]


def listings(name: str = "listings.jsonl") -> list[Listing]:
    return [
        Listing(made["sheet"].encode("latin-1"), made["listing"].encode("latin-1"))
        for made in objects(name)
    ]


def listings_within_6_and_24() -> list[Listing]:
    """Of sheets with at most 6 inputs and 24 steps, as a program with these limits printed them."""
    return listings("within_6_inputs_24_steps.jsonl")


def schedule_of(made: dict) -> sheet.Schedule:
    """The schedule with counts as they are given, of any value, and no more ends and steps than a
    schedule has room for."""
    ends = made["ends"][: sheet.INPUTS_LIMIT]
    steps = made["steps"][: sheet.STEPS_LIMIT]
    padded = sheet.schedule(0, ends, steps)
    return padded._replace(counts=sheet.Counts(*made["counts"]))


def calls(kind: str) -> list[dict]:
    """The stored calls of one kind."""
    return [made for made in objects("calls.jsonl") if made["call"] == kind]


def writings() -> list[Writing]:
    return [
        Writing(
            schedule_of(made["schedule"]),
            made["lent"],
            tuple(made["refusal"]),
            made["length"],
            bytes.fromhex(made["bytes"]),
        )
        for made in calls("write")
    ]


def evaluations() -> list[Evaluation]:
    return [
        Evaluation(
            schedule_of(made["schedule"]),
            (made["table"], made["table2"]),
            made["fill"],
            tuple(made["refusal"]),
            (made["written"], made["written2"]),
        )
        for made in calls("evaluate")
    ]


def ranges() -> list[Range]:
    return [
        Range(
            made["table"],
            made["table2"],
            made["count"],
            made["row"],
            (*made["refusal"], made["low"], made["high"]),
        )
        for made in calls("range")
    ]


def comparisons() -> list[Comparison]:
    return [
        Comparison(made["table"], made["count"], *made["rows"], (*made["refusal"], made["yes"]))
        for made in calls("compare")
    ]
