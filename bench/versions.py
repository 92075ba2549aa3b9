"""Instructions and times of one evaluation by several builds in turn, as one of another commit beside ours.

    python3 bench/versions.py PROGRAM PROGRAM ..

Each program reads and prints as `bench_evaluate` does, and all must print the same. A line for each sheet and program: instructions, the median time, and
the ratios of both to those of the first program. How they are taken: `bench/measure.py`. A sheet that a program refuses, as one beyond its limits, is left out.
"""

import sys

import measure


def main() -> None:
    programs = sys.argv[1:]
    if not programs:
        sys.exit(__doc__)
    print(f"{'sheet':<14}{'instructions':>14}{'ratio':>8}{'us':>8}{'ratio':>8}  program")
    for name in measure.EVALUATED:
        sheet = (measure.SHEETS / name).read_bytes()
        printed = [measure.output([program], measure.counted(1, sheet)) for program in programs]
        refusing = [program for program, line in zip(programs, printed) if line.startswith(b"refused")]
        if refusing:
            print(f"{name:<14}refused by {' '.join(refusing)}")
            continue
        for line in printed:
            measure.must_be_alike(name, printed[0], line)
        counts = [measure.evaluation_instructions(program, sheet) for program in programs]
        times = measure.evaluation_times(programs, sheet)
        for program, count, time in zip(programs, counts, times):
            print(f"{name:<14}{count:>14,.0f}{count / counts[0]:>8.2f}{time:>8.2f}{time / times[0]:>8.2f}  {program}")


if __name__ == "__main__":
    main()
