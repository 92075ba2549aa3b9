#!/usr/bin/env python3
"""How often the answered range of a row is narrower than its own range, than its plain range, and
than what intervals alone come to, and what is then left of their widths.

    python3 checker/overlap.py [COUNT]

prints a line for each kind of row, as the manual has it in section 5.15: how many rows there are on
so many random sheets; the share of them that is narrower than the own range, and the mean of the
answered width over the own one where it is; the same of the plain range; the share that is narrower
than both; and the same two of intervals alone. These are plain ranges made from plain ranges, from
the inputs and constants on, without forms; rows that they give no range, since one that they divide
by holds 0 or one whose root they take starts below 0, do not count there.
"""

import functools
import random
import statistics
import sys
from typing import NamedTuple

import evaluation
import generate
import intervals
import sheet

COUNT = 1_000


def about_one(apart: int):
    """Ends about 1, at most so many units apart."""

    def ends(rng):
        low = generate.about_one(rng)
        return low, low + rng.randint(0, apart)

    return ends


ANY_STEP = (sheet.ADD, sheet.SUBTRACT, sheet.MULTIPLY, sheet.RECIPROCAL, sheet.ROOT)
KINDS = {
    "sums": (generate.any_ends, (sheet.ADD,)),
    "differences": (generate.any_ends, (sheet.SUBTRACT,)),
    "products": (generate.any_ends, (sheet.MULTIPLY,)),
    "reciprocals": (generate.any_ends, (sheet.RECIPROCAL,)),
    "roots": (generate.any_ends, (sheet.ROOT,)),
} | {
    f"all five, of inputs about 1 whose ends are at most {apart:,} units apart": (
        about_one(apart), ANY_STEP
    )
    for apart in (4, 400, 4_000)
}


class Widths(NamedTuple):
    """The code of a row, and how wide its ranges are; None where intervals alone have none."""

    code: int
    answered: int
    own: int
    plain: int
    alone: int | None


def interval_alone(schedule, row: int, before: list):
    """The plain range of a row, from those of the rows before it; None where an operand has none,
    or where none comes out."""
    inputs = schedule.counts.inputs
    step = schedule.steps[row - inputs - 1] if row > inputs else sheet.Step(0, 0, 0, 0)
    if any(before[named - 1] is None for named in (step.first, step.second) if named):
        return None
    worked = [ends and evaluation.WorkedRow([], ends, ends, ends) for ends in before]
    try:
        return evaluation.plain_range(schedule, row, worked)
    except intervals.NoRange:
        return None


def intervals_alone(schedule) -> list:
    """The ranges that intervals alone come to, row by row."""
    found = []
    for row in range(1, evaluation.row_count(schedule) + 1):
        found.append(interval_alone(schedule, row, found))
    return found


def width(ends) -> int | None:
    return ends and ends.high - ends.low


def widths_of(draft: generate.Draft) -> list[Widths]:
    """Of each step of an accepted sheet but the constants."""
    inputs = len(draft.ends)
    alone = intervals_alone(draft.schedule())[inputs:]
    return [
        Widths(step.code, *map(width, (row.answered_range, row.own_range, row.plain_range, ends)))
        for step, row, ends in zip(draft.steps, draft.rows[inputs:], alone)
        if step.code != sheet.CONSTANT
    ]


@functools.cache
def widths_on_sheets(ends, count: int) -> list[Widths]:
    """Of the steps of so many random sheets with such ends."""
    found = []
    for index in range(count):
        draft = generate.accepted(random.Random(f"overlap/{index}"), ends=ends)
        found += widths_of(draft)
    return found


def percent(part: float) -> str:
    return f"{100 * part:.1f} %"


def narrower_than(pairs) -> list[str]:
    """Of pairs of widths, how often the first is the smaller one, and what is then left."""
    pairs = list(pairs)
    left = [answered / other for answered, other in pairs if answered < other]
    return [percent(len(left) / len(pairs)), percent(statistics.mean(left)) if left else "none"]


def figures(kind: str, count: int = COUNT) -> list[str]:
    """How many rows of a kind there are, and the seven shares."""
    ends, codes = KINDS[kind]
    found = [row for row in widths_on_sheets(ends, count) if row.code in codes]
    both = sum(row.answered < min(row.own, row.plain) for row in found)
    return [
        f"{len(found):,}",
        *narrower_than((row.answered, row.own) for row in found),
        *narrower_than((row.answered, row.plain) for row in found),
        percent(both / len(found)),
        *narrower_than((row.answered, row.alone) for row in found if row.alone is not None),
    ]


if __name__ == "__main__":
    for name in KINDS:
        print("|", " | ".join([name, *figures(name, *map(int, sys.argv[1:]))]), "|")
