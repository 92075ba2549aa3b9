"""What the program prints for the bytes of a sheet ("What the program prints": manual, section 3),
and the call of the library that writes it into lent bytes.

    python3 checker/listing.py < SHEET
"""

import sys

import evaluation
import rows
import sheet

# "A full table is 4,080 numbers"
TABLE_LENGTH = rows.NUMBERS * evaluation.ROWS_LIMIT
RANGES_LENGTH = evaluation.RANGE_NUMBERS * evaluation.ROWS_LIMIT
TEXT_ROOM = 4_096

# "This one is (x + 1)² - 2x"; "and it prints"; "In the listing of 01 row 4 now starts at 3136".
EXAMPLE_SHEET = b"""\
inputs squares steps
1 1 6
low high
-512 512
step first second value
1 0 0 4096
2 1 2 0
4 3 3 0
1 0 0 8192
4 5 1 0
3 4 6 0
"""

EXAMPLE_LISTING = b"""\
row low high own same
1 -512 512 512 0
2 4096 4096 0 0
3 3584 4608 0 0
4 3136 5184 0 0
5 8192 8192 0 0
6 -1024 1024 0 0
7 4096 4160 0 0
"""


def refusal_text(number: int, place: int) -> bytes:
    """"For a refusal it prints `refused place` and one line with both."."""
    return b"refused place\n%d %d\n" % (number, place)


def first_same_row(table, row: int) -> int:
    """"same is the first earlier row with identical" 85 "numbers, or 0."."""
    numbers = evaluation.numbers_of(table, row)
    for earlier in range(1, row):
        if evaluation.numbers_of(table, earlier) == numbers:
            return earlier
    return 0


def listing_line(table, ranges, count: int, row: int) -> bytes:
    """"row low high own same"; "Own is the own coefficient". Low and high are those answered."""
    low, high = evaluation.row_range(table, ranges, count, row)[2:]
    own = evaluation.row_part(table, count, row)[row]
    return b"%d %d %d %d %d\n" % (row, low, high, own, first_same_row(table, row))


def printed_text(data: bytes, table: list, ranges: list) -> bytes:
    """The listing of a sheet evaluated into two lent tables, which evaluation leaves as it leaves
    them, or the refusal of reading or evaluation, a table too short among them."""
    answer = sheet.read(data)
    if answer.number:
        return refusal_text(answer.number, answer.place)
    refusal = evaluation.evaluate(answer.schedule, table, ranges)
    if refusal.number:
        return refusal_text(*refusal)
    count = evaluation.row_count(answer.schedule)
    lines = [listing_line(table, ranges, count, row) for row in range(1, count + 1)]
    return b"row low high own same\n" + b"".join(lines)


def list_into(data: bytes, table: list, ranges: list, text: bytearray) -> sheet.WriteAnswer:
    """The call of the library: the text at the start of the lent bytes, every byte behind it as it
    was; fewer than 4,096 bytes are 8 at place 0, and nothing is touched."""
    if len(text) < TEXT_ROOM:
        return sheet.WriteAnswer(8, 0, 0)
    printed = printed_text(data, table, ranges)
    text[: len(printed)] = printed
    return sheet.WriteAnswer(0, 0, len(printed))


def listing(data: bytes) -> bytes:
    """"It reads a sheet from standard input [...] and it prints"; "The program lends a table of"
    4,080 "numbers, all zero at the start.", and a table of ranges of 96, all zero too."""
    text = bytearray(TEXT_ROOM)
    answer = list_into(data, [0] * TABLE_LENGTH, [0] * RANGES_LENGTH, text)
    return bytes(text[: answer.length])


def files() -> dict[str, bytes]:
    """The files of the crate `ranges`, by their paths in it: the specification's example."""
    return {"stdin": EXAMPLE_SHEET, "stdout": EXAMPLE_LISTING}


if __name__ == "__main__":
    sys.stdout.buffer.write(listing(sys.stdin.buffer.read()))
