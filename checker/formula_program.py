"""What the program `formula` prints for its arguments, and what it tells of a wrong call.

    python3 checker/formula_program.py FORMULA SQUARES LOW HIGH ..

prints the formula's sheet or its refusal, or nothing for a wrong call.
"""

import os
import sys

import formula
import listing
import sheet

EXAMPLE = [b"(a+8192)*b/c", b"2", b"4096", b"8192", b"-512", b"512", b"4096", b"12288"]


SHOWN = 40


def shown(word: bytes) -> bytes:
    """A word as a line shows it: what is no printable character of ASCII is a question mark, and one of more than 40 bytes is cut."""
    text = bytes(byte if 32 <= byte <= 126 else ord("?") for byte in word)
    return text if len(text) <= SHOWN else text[: SHOWN - 3] + b"..."


def wrong_call(words: list[bytes]) -> bytes | None:
    """The line that tells what is wrong with a call; None where it is right. Words are counted from the formula, which is the first."""
    told = None
    if not words:
        told = b"no formula is given"
    elif len(words) == 1:
        told = b"no squares are given (argument 2)"
    elif len(words) % 2:
        told = b"the low end '%s' has no high end (argument %d)" % (shown(words[-1]), len(words))
    for place, word in reversed(list(enumerate(words, 1))[1:]):
        if not sheet.NUMBER.fullmatch(word):
            told = b"'%s' is no number of a sheet (argument %d)" % (shown(word), place)
    return told and b"formula: " + told + b": see formula --help\n"


def printed(words: list[bytes]) -> bytes | None:
    """What stands on standard output; None for a wrong call. The number of inputs is that of the
    pairs of ends; numbers are written as on a sheet."""
    text, *numbers = words or [b""]
    if len(numbers) % 2 == 0 or not all(map(sheet.NUMBER.fullmatch, numbers)):
        return None
    squares, *ends = map(int, numbers)
    pairs = list(zip(ends[::2], ends[1::2]))
    answer = formula.read(len(pairs), squares, pairs, text)
    if answer.number:
        return listing.refusal_text(answer.number, answer.place)
    return sheet.text(answer.schedule)


def files() -> dict[str, bytes]:
    """The files of the crate `formula`, by their paths in it."""
    return {"args": b"".join(word + b"\n" for word in EXAMPLE), "stdout": printed(EXAMPLE)}


if __name__ == "__main__":
    sys.stdout.buffer.write(printed([os.fsencode(word) for word in sys.argv[1:]]) or b"")
