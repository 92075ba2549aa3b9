#!/usr/bin/env python3
"""How far the last row of a long sheet of multiplies drifts, where each total is rounded down and where
it is rounded to the nearest.

    python3 checker/drift.py [COUNT]

prints a line for each kind of sheet, as the manual has it in section 5.14: how many sheets count, and
under both rules the mean error of the last row's centre, the mean width of its own range and that of
its answered range, in units. The error is the centre less the exact value that the row has with every input at its own
centre. Sheets that one of the rules refuses, and those whose exact values have too many digits, do
not count.
"""

import contextlib
import random
import statistics
import sys
from fractions import Fraction

import demand3
import generate
import rows
import sheet
import spoilt

KINDS = {
    f"{sheet.STEPS_LIMIT - 4}, each of the row before and one of 4 constants about 1":
        generate.constant_chain,
    f"{sheet.STEPS_LIMIT}, each of the row before and one of {sheet.INPUTS_LIMIT} inputs about 1, "
    "whose ends are at most 9 units apart":
        generate.narrow_chain,
    f"{sheet.STEPS_LIMIT}, of any two rows, on inputs about 1 and -1, whose ends are at most 1,500 "
    "units apart":
        generate.long_products,
}
COUNT = 1_000


def rules():
    """Rounded down, and to the nearest."""
    return spoilt.spoilt("a product rounded down"), contextlib.nullcontext()


def worked(draft: generate.Draft, rule) -> generate.Draft:
    """The same sheet, worked under a rule."""
    with rule:
        again = generate.Draft(draft.squares, draft.ends)
        for step in draft.steps:
            again.step(*step)
    return again


def measured(draft: generate.Draft):
    """The errors under both rules, then the widths of own and of answered ranges; nothing of a sheet
    that does not count."""
    drafts = [worked(draft, rule) for rule in rules()]
    if any(again.refused for again in drafts):
        return None
    inputs = [Fraction(row.numbers[0], rows.UNIT) for row in draft.rows[: len(draft.ends)]]
    try:
        exact = demand3.exact_values(draft.schedule(), inputs)[-1]
    except demand3.TooLong:
        return None
    lasts = [again.rows[-1] for again in drafts]
    errors = [last.numbers[0] - rows.UNIT * exact for last in lasts]
    ranges = [last.own_range for last in lasts] + [last.answered_range for last in lasts]
    return (*errors, *(high - low for low, high in ranges))


def figures(kind, count: int = COUNT) -> list[str]:
    """How many sheets of a kind count, and the six means."""
    found = [measured(kind(random.Random(f"drift/{index}"))) for index in range(count)]
    columns = list(zip(*filter(None, found)))
    means = [round(float(statistics.mean(column)), 2) + 0.0 for column in columns]
    return [f"{len(columns[0]):,}", *(f"{mean:,.2f}" for mean in means)]


if __name__ == "__main__":
    for name, made in KINDS.items():
        print("|", " | ".join([name, *figures(made, *map(int, sys.argv[1:]))]), "|")
