"""Sheets for the program `sheet_cases`, and what it must print for them.

    python3 checker/sheet_cases.py crates/sheet_cases

writes `data/sheets` and `stdout` into the folder given.

`data/sheets` holds the cases one after another, each as a decimal byte length, byte 10, then that
many bytes. `stdout` holds for each case either the line `refused NUMBER PLACE`, or the line
`accepted LENGTH` followed by the LENGTH bytes of the sheet written again. No case is longer than
1,200 bytes.
"""

import itertools
import sys

import sheet
import stored

TINY = sheet.schedule(0, [(0, 0)], [(1, 0, 0, 0)])
PLAIN = sheet.schedule(
    1, [(-512, 512), (4096, 8192)], [(1, 0, 0, -7), (4, 1, 3, 0), (5, 2, 0, 0)]
)
LARGEST = sheet.schedule(
    sheet.INPUTS_LIMIT,
    [(-sheet.END_LIMIT, -sheet.END_LIMIT)] * sheet.INPUTS_LIMIT,
    [(1, 0, 0, -sheet.END_LIMIT)] * sheet.STEPS_LIMIT,
)


def every_code() -> sheet.Schedule:
    """The most inputs and steps: each code on the first inputs, on the last ones and on what came
    before, and then products of the two rows before."""
    ends = [(0, 1), (-1, 0), (-268_435_456, 268_435_456), (7, 7), (-2, -1), (268_435_455, 268_435_456)]
    ends = (ends * sheet.INPUTS_LIMIT)[: sheet.INPUTS_LIMIT]
    last = len(ends)
    steps = [(1, 0, 0, 268_435_456), *((code, last - 1, last, 0) for code in (2, 3, 4))]
    steps += [(5, last, 0, 0), (6, last - 1, 0, 0)]
    steps += [*((code, 1 + code, 3 + code, 0) for code in (2, 3, 4)), (5, 1, 0, 0), (6, 1, 0, 0)]
    steps += [(code, last + 4, last + 5, 0) for code in (2, 3, 4)]
    steps += [(code, last + 6, 0, 0) for code in (5, 6)]
    for row in range(last + len(steps) + 1, last + sheet.STEPS_LIMIT + 1):
        steps.append((4, row - 1, row - 2, 0))
    return sheet.schedule(last, ends, steps)

# One line of each kind in the sheet of PLAIN, as (kind, text line).
LINE_KINDS = [
    ("names of counts", 1),
    ("counts", 2),
    ("names of ends", 3),
    ("first ends", 4),
    ("last ends", 5),
    ("names of steps", 6),
    ("first step", 7),
    ("last step", 9),
]


def lines_of(schedule):
    return sheet.text(schedule).split(b"\n")[:-1]


def joined(lines):
    return b"".join(line + b"\n" for line in lines)


def with_line(schedule, number, content):
    """The sheet with one text line's content replaced."""
    lines = lines_of(schedule)
    lines[number - 1] = content
    return joined(lines)


def with_field(schedule, line, field, content):
    """The sheet with one field of one text line replaced; `field` counts from 0."""
    fields = lines_of(schedule)[line - 1].split(b" ")
    fields[field] = content
    return with_line(schedule, line, b" ".join(fields))


def valid_sheets():
    yield from (sheet.text(schedule) for schedule in (TINY, PLAIN, LARGEST, every_code()))
    for inputs in range(1, sheet.INPUTS_LIMIT + 1):
        for squares in range(inputs + 1):
            ends = [(-number, number * 1000) for number in range(1, inputs + 1)]
            yield sheet.text(sheet.schedule(squares, ends, [(4, 1, inputs, 0)]))
    for steps in range(1, sheet.STEPS_LIMIT + 1):
        chain = [(2, number, number, 0) for number in range(1, steps + 1)]
        yield sheet.text(sheet.schedule(0, [(-1, 1)], chain))
    for value in (0, 1, -1, 9, 10, -10, 4095, -4096, 268_435_455, 268_435_456, -268_435_456):
        yield sheet.text(sheet.schedule(1, [(value, value)], [(1, 0, 0, value)]))


LONGEST_CASE = 1_200


def lengths():
    """Cause 1 and its border, and sheets that stop short."""
    plain = sheet.text(PLAIN)
    yield b""
    for end in range(1, len(plain)):
        if plain[end - 1 : end] == b"\n" or plain[end : end + 1] == b"\n":
            yield plain[:end]
    for byte in (b"\n", b" ", b"0", b"\x00", b"\xff"):
        yield byte
        yield plain + byte
        for size in (1023, 1024, 1025, 1026, LONGEST_CASE):
            yield plain + byte * (size - len(plain))
    for size in (1024, 1025):
        yield b"\n" * size
        yield b"i" * size
        yield (sheet.text(LARGEST) + b"1 0 0 0\n" * size)[:size]
        yield sheet.COUNT_NAMES + b"\n" + b"1" * (size - 21)
        yield (sheet.text(LARGEST) * 2)[:size]
    yield plain + plain
    yield plain + b"1 0 0 0\n"


def line_layouts():
    """Every fault of layout at every kind of line."""
    for _, number in LINE_KINDS:
        lines = lines_of(PLAIN)
        content = lines[number - 1]
        before, after = lines[: number - 1], lines[number:]
        yield joined(before + after)
        yield joined(before + [content, content] + after)
        yield joined(before + [b"", content] + after)
        yield joined(before + [b"#", content] + after)
        if after:
            yield joined(before + [after[0], content] + after[1:])
            yield joined(before) + content + joined(after)
        for changed in changed_contents(content):
            yield joined(before + [changed] + after)


def changed_contents(content):
    first, _, rest = content.partition(b" ")
    yield from (b"", b" ", first, rest)
    yield from (b" " + content, content + b" ", content + b" 0", content + b"\r", b"\r" + content)
    yield content.replace(b" ", b"  ", 1)
    yield content.replace(b" ", b"\t", 1)
    yield content.replace(b" ", b"\n", 1)
    yield content.replace(b" ", b"\x00", 1)
    yield content.replace(b" ", b",", 1)
    yield content.replace(b" ", b"", 1)
    for byte in (b"\x00", b"\x0b", b"\x7f", b"\x80", b"\xa0", b"\xff"):
        yield content + byte
        yield byte + content
        yield content[:1] + byte + content[1:]
    yield content.upper() if content.upper() != content else content + b"A"
    yield content.swapcase()[:1] + content[1:] if content[:1].isalpha() else b"a" + content[1:]


NOT_NUMBERS = [
    b"", b"-", b"+1", b"-0", b"00", b"01", b"-01", b"-00", b"--1", b"1-", b"1.0", b"1e3", b"0x1",
    b"1_0", b"1,0", b"/", b":", b"1/", b"1:", b"\xd9\xa1", b"\xb2", b"10000000000",
    b"-10000000000", b"00000000001", b"99999999999", b"18446744073709551617", b"4294967297 ",
    b"\x001", b"1\x00", b"0-", b"a",
]
FAR_NUMBERS = [
    b"9999999999", b"-9999999999", b"1000000000", b"-1000000000", b"268435457", b"-268435457",
    b"268435456", b"-268435456", b"2147483648", b"-2147483648", b"4294967296", b"4294967297",
    b"-1", b"0", b"7", b"25",
]


def number_fields():
    """Every fault of a number, and numbers beyond limits, in every field of every kind of line."""
    for kind, line in LINE_KINDS:
        if kind.startswith("names"):
            continue
        for field in range(lines_of(PLAIN)[line - 1].count(b" ") + 1):
            for content in NOT_NUMBERS + FAR_NUMBERS:
                yield with_field(PLAIN, line, field, content)


def count_limits():
    """Cause 3: one beyond each limit, alone and with the others at theirs, and far beyond."""
    inputs, steps = sheet.INPUTS_LIMIT, sheet.STEPS_LIMIT
    for counts in (
        "0 0 1", f"{inputs + 1} 0 1", f"{inputs} {inputs + 1} 1", "1 2 1", "2 3 3", "1 -1 1", "-1 0 1",
        "-1 -1 1", "-1 -2 1", "1 0 0", f"1 0 {steps + 1}", "1 0 -1", f"{inputs} {inputs} {steps + 1}",
        f"{inputs + 1} {inputs + 1} {steps}", f"{inputs + 1} {inputs + 1} {steps + 1}", "0 0 0", "0 1 1",
        "1 0 9999999999", "9999999999 0 1", "9999999999 9999999999 1", "-9999999999 0 0",
    ):
        yield with_line(PLAIN, 2, counts.encode())
        yield sheet.COUNT_NAMES + b"\n" + counts.encode() + b"\n"
        yield sheet.COUNT_NAMES + b"\n" + counts.encode()


def whole_sheets_about_the_limits():
    """Sheets with all lines that their counts ask for, at the limits and one beyond each; and at the
    limits with a line of ends or of a step more than counted."""
    at_limits = sheet.INPUTS_LIMIT, sheet.STEPS_LIMIT
    for counts in itertools.product(*((1, limit, limit + 1) for limit in at_limits)):
        yield sheet_of_counts(*counts, *counts)
    inputs, steps = at_limits
    yield sheet_of_counts(inputs, steps, inputs + 1, steps)
    yield sheet_of_counts(inputs, steps, inputs, steps + 1)


def sheet_of_counts(inputs, steps, end_lines, step_lines):
    """Bytes with these counts and so many lines."""
    lines = [sheet.COUNT_NAMES, b"%d 1 %d" % (inputs, steps), sheet.END_NAMES, *[b"-9 9"] * end_lines]
    return joined([*lines, sheet.STEP_NAMES, *[b"4 1 1 0"] * step_lines])


def end_limits():
    """Cause 4 at the first and the last input."""
    for line in (4, 5):
        for ends in (
            "1 0", "0 -1", "-268435457 0", "0 268435457", "268435457 268435457",
            "-268435457 -268435457", "268435457 -268435457", "268435456 -268435456",
            "-9999999999 9999999999", "9999999999 9999999999", "-268435456 268435456",
            "268435456 268435456", "2147483648 2147483649", "-4294967296 4294967296",
        ):
            yield with_line(PLAIN, line, ends.encode())


def step_faults():
    """Cause 5: code, row named, unused field, constant; at the first, a middle and the last step.

    PLAIN has 2 inputs, so the steps on text lines 7, 8, 9 are rows 3, 4, 5.
    """
    for line in (7, 8, 9):
        row = line - 4
        for code in (-1, 0, 7, 8, 10, 256, 257, 262, 9_999_999_999):
            yield with_line(PLAIN, line, b"%d 1 1 0" % code)
            yield with_line(PLAIN, line, b"%d 0 0 0" % code)
            yield with_line(PLAIN, line, b"%d 1 0 0" % code)
        for fields in ((1, 0, 1), (0, 1, 1), (1, 1, 1), (-1, 0, 1), (0, -1, 1)):
            yield with_line(PLAIN, line, b"1 %d %d %d" % fields)
        for value in (268_435_457, -268_435_457, 9_999_999_999, 268_435_456, -268_435_456):
            yield with_line(PLAIN, line, b"1 0 0 %d" % value)
        last = sheet.INPUTS_LIMIT + sheet.STEPS_LIMIT
        named = (0, 1, row - 1, row, row + 1, last, last + 1, -1, 256, 257, 9_999_999_999)
        for code in (2, 3, 4):
            for other in named:
                yield with_line(PLAIN, line, b"%d %d 1 0" % (code, other))
                yield with_line(PLAIN, line, b"%d 1 %d 0" % (code, other))
            yield with_line(PLAIN, line, b"%d 1 1 1" % code)
            yield with_line(PLAIN, line, b"%d 1 1 -1" % code)
        for code in (5, 6):
            for other in named:
                yield with_line(PLAIN, line, b"%d %d 0 0" % (code, other))
            for fields in ((1, 1, 0), (1, 0, 1), (1, 1, 1), (1, -1, 0), (1, 0, -1), (0, 1, 0)):
                yield with_line(PLAIN, line, b"%d %d %d %d" % (code, *fields))


def competing_causes():
    """Every two faults of a list on one sheet: the order decides which is reported.

    A fault is a text line's number and its content; PLAIN has text lines 1 to 9.
    """
    faults = [(line, lines_of(PLAIN)[line - 1] + b" ") for line in range(1, 10)]
    faults += [(2, b"2 3 3"), (2, b"2 3 03"), (2, b"0 0 1 1")]
    faults += [(4, b"1 0"), (5, b"0 268435457"), (4, b"1 00"), (5, b"0 0268435457")]
    faults += [(7, b"1 0 0 268435457"), (8, b"4 1 4 0"), (9, b"7 0 0 0"), (9, b"5 0 0 0")]
    faults += [(7, b"7 0 0 -0"), (8, b"4 1 4"), (9, b"5 1 1 0 ")]
    faults += [(8, b"6 4 0 0"), (9, b"6 1 1 0"), (7, b"6 1 0 01")]
    for index, first in enumerate(faults):
        for second in faults[index:]:
            lines = lines_of(PLAIN)
            lines[second[0] - 1] = second[1]
            lines[first[0] - 1] = first[1]
            yield joined(lines)
    for line, content in faults:
        damaged = with_line(PLAIN, line, content)
        yield damaged + b"0"
        yield damaged + b"\n"
        yield damaged[:-1]
        yield damaged + b" " * (1024 - len(damaged))
        yield damaged + b" " * (1025 - len(damaged))
        yield joined(damaged.split(b"\n")[: line - 1]) + content


def cases() -> list[bytes]:
    """Every case once, in a fixed order."""
    groups = (
        valid_sheets, lengths, line_layouts, number_fields, count_limits,
        whole_sheets_about_the_limits, end_limits, step_faults, competing_causes,
    )
    return list(dict.fromkeys(case for group in groups for case in group()))


def expected(case: bytes) -> bytes:
    """What the program prints for one case."""
    answer = sheet.read(case)
    if answer.number:
        return b"refused %d %d\n" % (answer.number, answer.place)
    out = bytearray(sheet.SHEET_LIMIT)
    written = sheet.write(answer.schedule, out)
    return b"accepted %d\n" % written.length + out[: written.length]


def files() -> dict[str, bytes]:
    """The files of the crate, by their paths in it."""
    every = cases()
    return {
        "data/sheets": b"".join(b"%d\n" % len(case) + case for case in every),
        "stdout": b"".join(map(expected, every)),
    }


if __name__ == "__main__":
    stored.write(sys.argv[1], files())
