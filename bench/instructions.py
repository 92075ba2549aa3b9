"""Instructions of one evaluation, of a whole listing and of a formula by one build of ours, without times: other work on the machine does not change them.

    python3 bench/instructions.py BENCH_EVALUATE [RANGES [FORMULA]]

How they are taken: `bench/measure.py`. They go by where the stack starts, so each is taken with four starts, 16 bytes apart: the least and the greatest are
printed. What the program refuses is marked; a sheet that is refused in reading is not evaluated.
"""

import os
import sys
from typing import Callable

import measure

# The stack starts lower by the bytes of the environment.
PADDINGS = ["x" * bytes_more for bytes_more in (0, 16, 32, 48)]


def counts(count: Callable[[], float]) -> list[float]:
    """The counts with each start of the stack."""
    taken = []
    for padding in PADDINGS:
        os.environ["PADDING"] = padding
        taken.append(count())
    return taken


def line(name: str, count: Callable[[], float], printed: bytes = b"") -> None:
    taken = counts(count)
    print(f"{name:<14}{min(taken):>12,.0f}{max(taken):>12,.0f}{'  refused' if printed.startswith(b'refused') else ''}", flush=True)


def evaluations(program: str) -> None:
    for name in measure.EVALUATED:
        sheet = (measure.SHEETS / name).read_bytes()
        line(name, lambda: measure.evaluation_instructions(program, sheet), measure.output([program], measure.counted(1, sheet)))
    sheet = (measure.SHEETS / "multiply").read_bytes()
    line("reading", lambda: measure.reading_instructions(program, sheet))


def line_of_run(name: str, run: measure.Run) -> None:
    line(name, lambda: measure.run_instructions(run), measure.output(run.command, measure.given_to(run)))


def listings(program: str) -> None:
    for name in measure.EVALUATED:
        line_of_run(name, measure.Run([program], str(measure.SHEETS / name), "main"))


def formulas(program: str) -> None:
    for name in measure.READ:
        words = (measure.FORMULAS / name).read_text().split()
        line_of_run(name, measure.Run([program, *words], os.devnull, "main"))


def main() -> None:
    programs = sys.argv[1:4]
    if not programs:
        sys.exit(__doc__)
    kinds = (("evaluation", evaluations), ("listing", listings), ("formula", formulas))
    for program, (kind, lines) in zip(programs, kinds):
        print(f"{kind:<14}{'least':>12}{'greatest':>12}")
        lines(program)


if __name__ == "__main__":
    main()
