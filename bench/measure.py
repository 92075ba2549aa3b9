"""Instructions and times of one evaluation, of a whole listing and of a formula, ours beside the plain Rust version (bench/run.sh calls this).

    python3 bench/measure.py BENCH_EVALUATE PLAIN_EVALUATE RANGES PLAIN_LISTING FORMULA PLAIN_FORMULA

Instructions are callgrind's and vary by under 1 part in 100 with where the stack starts (memcpy goes by alignment). Those of one evaluation
are a difference of two counts N, so that start and reading fall out. Times are processor time, the median of several runs in turn, and noisy on
a shared machine. Reading has no count N: its instructions are those of a sheet with one byte too many (read whole, then refused) less those of
an empty one.

Of a listing and of a formula, the instructions are those in each program's own `main` and all that it calls. The time is the processor time of the
whole run, the user's and the system's, start and loader included: the median of runs in turn.
"""

import os
import pathlib
import re
import resource
import statistics
import subprocess
import sys
import tempfile
from typing import NamedTuple

SHEETS = pathlib.Path(__file__).resolve().parent / "sheets"
FORMULAS = pathlib.Path(__file__).resolve().parent / "formulas"
FEW, MANY = 100, 400
TIMED = 20_000
RUNS = 15
LISTING_RUNS = 3_000
FORMULA_RUNS = 1_000
EVALUATED = ("multiply", "reciprocal", "reciprocals", "root", "roots", "add", "largest")
LISTED = ("multiply", "reciprocals", "roots", "add", "largest")
READ = ("short", "long", "nested", "refused", "longest")


class Run(NamedTuple):
    """A whole run: the program and its arguments, the file that is its standard input, and the name of its own `main`."""

    command: list[str]
    given: str
    main: str


def output(command: list[str], given: bytes) -> bytes:
    return subprocess.run(command, input=given, capture_output=True, check=True).stdout


def counted(times: int, sheet: bytes) -> bytes:
    """The input of a program that evaluates a sheet so many times."""
    return b"%d\n" % times + sheet


def instructions(command: list[str], given: bytes, *options: str) -> int:
    counting = ["valgrind", "--tool=callgrind", "--callgrind-out-file=/dev/null", *options]
    run = subprocess.run([*counting, *command], input=given, capture_output=True, check=True)
    return int(re.search(rb"Collected : (\d+)", run.stderr).group(1))


def evaluation_instructions(program: str, sheet: bytes) -> float:
    return (instructions([program], counted(MANY, sheet)) - instructions([program], counted(FEW, sheet))) / (MANY - FEW)


def reading_instructions(program: str, sheet: bytes) -> float:
    return instructions([program], counted(0, sheet + b"x")) - instructions([program], counted(0, b""))


def seconds(program: str, sheet: bytes) -> float:
    """Processor time of one run, which other work on the machine disturbs less than the clock's."""
    before = resource.getrusage(resource.RUSAGE_CHILDREN).ru_utime
    output([program], counted(TIMED, sheet))
    return resource.getrusage(resource.RUSAGE_CHILDREN).ru_utime - before


def evaluation_times(programs: list[str], sheet: bytes) -> list[float]:
    """The median time of one evaluation by each program, in millionths of a second; the programs run in turn."""
    turns = [[seconds(program, sheet) for program in programs] for _ in range(RUNS)]
    return [statistics.median(column) * 1e6 / TIMED for column in zip(*turns)]


def must_be_alike(name: str, ours: bytes, plain: bytes) -> None:
    if ours != plain:
        sys.exit(f"{name}: the two programs print different lines")


def line(name: str, ours: float, plain: float, more: str = "") -> None:
    print(f"{name:<14}{ours:>12,.0f}{plain:>12,.0f}{ours / plain:>8.2f}{more}")


def measure_evaluation(ours: str, plain: str) -> None:
    print(f"{'sheet':<14}{'ours':>12}{'plain Rust':>12}{'ratio':>8}{'ours, us':>12}{'Rust, us':>12}{'ratio':>8}")
    for name in EVALUATED:
        sheet = (SHEETS / name).read_bytes()
        must_be_alike(name, output([ours], counted(1, sheet)), output([plain], counted(1, sheet)))
        a, b = evaluation_times([ours, plain], sheet)
        times = f"{a:>12.2f}{b:>12.2f}{a / b:>8.2f}"
        line(name, evaluation_instructions(ours, sheet), evaluation_instructions(plain, sheet), times)
    sheet = (SHEETS / "multiply").read_bytes()
    line("reading", reading_instructions(ours, sheet), reading_instructions(plain, sheet))


def given_to(run: Run) -> bytes:
    return pathlib.Path(run.given).read_bytes()


def run_instructions(run: Run) -> int:
    """Instructions in the program's own `main` and all that it calls, the C library's too."""
    count = instructions(run.command, given_to(run), f"--toggle-collect={run.main}")
    if count == 0:
        sys.exit(f"{run.command[0]} has no function {run.main}")
    return count


def run_seconds(run: Run) -> float:
    opened = (0, run.given, os.O_RDONLY, 0), (1, os.devnull, os.O_WRONLY, 0)
    actions = [(os.POSIX_SPAWN_OPEN, *arguments) for arguments in opened]
    child = os.posix_spawn(run.command[0], run.command, {}, file_actions=actions)
    _, status, used = os.wait4(child, 0)
    if status != 0:
        sys.exit(f"{run.command} failed")
    return used.ru_utime + used.ru_stime


def writes(run: Run) -> int:
    """How many calls of write one run makes."""
    with tempfile.NamedTemporaryFile() as calls:
        tracing = ["strace", "-qq", "-e", "trace=write,writev,pwrite64", "-o", calls.name]
        subprocess.run([*tracing, *run.command], input=given_to(run), capture_output=True, check=True)
        return len(calls.readlines())


def measure_run(name: str, ours: Run, plain: Run, turns: int) -> None:
    must_be_alike(name, *(output(run.command, given_to(run)) for run in (ours, plain)))
    pairs = [(run_seconds(ours), run_seconds(plain)) for _ in range(turns)]
    a, b = (statistics.median(column) * 1e6 for column in zip(*pairs))
    more = f"{a:>12.0f}{b:>12.0f}{a / b:>8.2f}{writes(ours):>8}{writes(plain):>8}"
    line(name, run_instructions(ours), run_instructions(plain), more)


def print_run_names(what: str) -> None:
    times_and_writes = f"{'ours, us':>12}{'Rust, us':>12}{'ratio':>8}{'writes':>8}{'Rust':>8}"
    print(f"\n{what:<14}{'ours':>12}{'plain Rust':>12}{'ratio':>8}{times_and_writes}")


def measure_listing(ours: str, plain: str) -> None:
    print_run_names("listing")
    for name in LISTED:
        given = str(SHEETS / name)
        measure_run(name, Run([ours], given, "main"), Run([plain], given, "plain_listing::main"), LISTING_RUNS)


def measure_formula(ours: str, plain: str) -> None:
    print_run_names("formula")
    for name in READ:
        words = (FORMULAS / name).read_text().split()
        runs = Run([ours, *words], os.devnull, "main"), Run([plain, *words], os.devnull, "plain_formula::main")
        measure_run(name, *runs, FORMULA_RUNS)


def main() -> None:
    bench_evaluate, plain_evaluate, ranges, plain_listing, formula, plain_formula = sys.argv[1:7]
    measure_evaluation(bench_evaluate, plain_evaluate)
    measure_listing(ranges, plain_listing)
    measure_formula(formula, plain_formula)


if __name__ == "__main__":
    main()
