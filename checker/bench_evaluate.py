"""What the program `bench_evaluate` reads and must print.

    python3 checker/bench_evaluate.py crates/bench_evaluate     (writes `stdin` and `stdout` there)
    python3 checker/bench_evaluate.py 100000 | target/bin/bench_evaluate        (a measurement)

The program reads a line with a count N, of 1 to 8 digits and at most 10,000,000, and then a sheet.
It evaluates the sheet N times into one full table and one full table of ranges, all zero at the
start, and prints one line: N, then low and high of the last row; or `refused NUMBER PLACE` where the
sheet is refused; or `no count` where the first line is none.
"""

import re
import sys

import evaluation
import listing
import sheet
import stored

COUNT_LIMIT = 10_000_000
STORED_COUNT = 3


def products() -> sheet.Schedule:
    """As many products as a sheet may have, on as many inputs and squares, each of the row before
    it and an input; the ends lie near 4096, so that every product is near 1 and accepted."""
    inputs = sheet.INPUTS_LIMIT
    ends = [(4096 - 7 * i, 4096 + 11 * i) for i in range(1, inputs + 1)]
    steps = [(sheet.MULTIPLY, inputs + k, k % inputs + 1, 0) for k in range(sheet.STEPS_LIMIT)]
    return sheet.schedule(inputs, ends, steps)


def standard_input(count: int) -> bytes:
    return b"%d\n" % count + sheet.text(products())


def printed(data: bytes) -> bytes:
    """What the program prints for its standard input."""
    line, end, rest = data.partition(b"\n")
    if not end or not re.fullmatch(rb"[0-9]{1,8}", line) or int(line) > COUNT_LIMIT:
        return b"no count\n"
    read = sheet.read(rest)
    refusal = (read.number, read.place)
    tables = [0] * listing.TABLE_LENGTH, [0] * listing.RANGES_LENGTH
    if not read.number and int(line):
        refusal = evaluation.evaluate(read.schedule, *tables)
    if refusal[0]:
        return b"refused %d %d\n" % tuple(refusal)
    last = evaluation.row_count(read.schedule)
    return b"%d %d %d\n" % (int(line), *evaluation.row_range(*tables, last, last)[2:])


def files() -> dict[str, bytes]:
    """The files of the crate, by their paths in it."""
    data = standard_input(STORED_COUNT)
    return {"stdin": data, "stdout": printed(data)}


if __name__ == "__main__":
    if sys.argv[1].isdigit():
        sys.stdout.buffer.write(standard_input(int(sys.argv[1])))
    else:
        stored.write(sys.argv[1], files())
