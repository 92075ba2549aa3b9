#!/usr/bin/env python3
"""The program formula, as tools/build built it, prints what the checker says for its arguments: sheets, refusals, wrong calls.

A wrong call prints nothing on standard output, one line on standard error that tells what is wrong, and ends with status 2; any other
prints nothing on standard error and ends with 0, or, where a write fails, one line there and ends with 1. Each sheet that is printed is
handed to ranges. The last line is `N passed, M failed`.
"""

import itertools
import pathlib
import subprocess
import sys

ROOT = pathlib.Path(__file__).resolve().parent.parent
sys.path.insert(0, str(ROOT / "checker"))

import formula_cases
import formula_program
import listing
import sheet

FORMULA = ROOT / "target/bin/formula"
RANGES = ROOT / "target/bin/ranges"
VERSION = b"formula (Doqhuymi) 1.7.0\n"
# What stands in the help: the call and what else may be asked.
HELP_NAMES = [b"formula FORMULA SQUARES LOW HIGH LOW HIGH ...", b"formula --help", b"formula --version", b"exit status"]

# The most inputs, and one more.
MOST, BEYOND = sheet.INPUTS_LIMIT, sheet.INPUTS_LIMIT + 1

PLAIN = [b"1", b"4096", b"8192", b"-512", b"512"]
NOT_NUMBERS = [
    b"", b"-", b"-0", b"00", b"01", b"-01", b"+1", b"1.0", b"1,000", b" 1", b"1 ", b"1\n", b"\n", b"1\n2", b"\n1", b"--1", b"1-", b"a", b"0x1",
    b"1e5", b"12345678901", b"-12345678901", b"123456789012", b"-123456789012", b"0" * 12, b"1" * 13, b"1" * 100_000, b"\xef\xbc\x91", b"1\x01",
]
NUMBERS = [b"0", b"1", b"-1", b"268435456", b"-268435456", b"268435457", b"9999999999", b"-9999999999", b"1234567890"]


def wrong_calls():
    """Too few words, an odd number of ends, a word that is no number in each place."""
    yield []
    for formula in (b"", b"a+1", b"?", b"0"):
        yield [formula]
        for count in (2, 4, 6, 2 * MOST, 2 * BEYOND, 2 * BEYOND + 2, 200):
            yield [formula, b"0", *[b"0"] * (count - 1)]
    for word in NOT_NUMBERS:
        for place in range(1, 6):
            yield [*[b"a+b", *PLAIN][:place], word, *[b"a+b", *PLAIN][place + 1 :]]
        yield [b"a+1", b"0", *[b"0", b"1"] * BEYOND, b"0", word]
        yield [b"a+1", word]


def refusals():
    """3 for no inputs and for more than the most, 4 at each input, 10, 5 and 11 behind them."""
    for formula in (b"", b"a+1", b"a", b"268435457", b"?"):
        for pairs in (0, 1, MOST - 1, MOST, BEYOND, BEYOND + 1, 100, 5000):
            for squares in (b"-1", b"0", b"1", b"%d" % MOST, b"%d" % BEYOND):
                yield [formula, squares, *[b"0", b"1"] * pairs]
        for word in NUMBERS:
            yield [formula, word, b"0", b"1"]
            for place in range(2, 6):
                yield [*[formula, *PLAIN][:place], word, *[formula, *PLAIN][place + 1 :]]
        for place in range(MOST):
            ends = [[b"0", b"1"]] * MOST
            ends[place] = [b"1", b"0"]
            yield [formula, b"0", *itertools.chain(*ends)]


def long_formulas():
    """Longer than any room: not cut into a formula, and wrong at the byte that is wrong."""
    for length in (198, 199, 200, 201, 202, 203, 204, 255, 256, 257, 300, 4095, 4096, 4097, 100_001):
        whole = formula_cases.of_length(length)
        for text in (whole, b"a+" * (length // 2), b"7" * length, whole[:-1], whole[:-1] + b"?"):
            yield [text, *PLAIN]
        for place in (1, 150, 199, 200, 201, 202):
            if place <= length:
                yield [whole[: place - 1] + b"?" + whole[place:], *PLAIN]


def formulas():
    """Formulas of the library's cases, with their own inputs; no argument holds a byte 0."""
    groups = [formula_cases.samples(), formula_cases.short_formulas(), formula_cases.deep_formulas(), formula_cases.literal_formulas()]
    groups += [formula_cases.letters_of_inputs(), formula_cases.all_letters(), formula_cases.counted_formulas()]
    groups += [formula_cases.any_formulas("program", 20, 20)]
    for group in groups:
        for inputs, squares, ends, text in group:
            within = [b"%d" % number for end in ends[: max(inputs, 0)] for number in end]
            if b"\0" not in text:
                yield [text, b"%d" % squares, *within]


def shown(words) -> str:
    return " ".join(repr(word[:60].decode(errors="replace")) for word in words[:8])


def run(words):
    """What the program writes to standard output and to standard error, and its exit status."""
    done = subprocess.run([FORMULA, *words], stdin=subprocess.DEVNULL, capture_output=True, timeout=60)
    return done.stdout, done.stderr, done.returncode


def expected(words):
    text = formula_program.printed(words)
    return (b"", formula_program.wrong_call(words), 2) if text is None else (text, b"", 0)


def told_of(word: bytes, place: int) -> bytes:
    return b"formula: '%s' is no number of a sheet (argument %d): see formula --help\n" % (word, place)


def wrong_words():
    """Messages that are written out here: each kind of wrong call, and how a word is shown that is long, or no text."""
    yield [], b"formula: no formula is given: see formula --help\n"
    yield [b"a"], b"formula: no squares are given (argument 2): see formula --help\n"
    yield [b"--help", b"--help"], told_of(b"--help", 2)
    yield [b"a", b"--version"], told_of(b"--version", 2)
    yield [b"a", b"1", b"x"], told_of(b"x", 3)
    yield [b"a", b"1", b"0", b"x", b"y"], told_of(b"x", 4)
    yield [b"a", b"1", b"0", b"1", b"2"], b"formula: the low end '2' has no high end (argument 5): see formula --help\n"
    yield [b"a", b""], told_of(b"", 2)
    yield [b"a", b"1\n2"], told_of(b"1?2", 2)
    yield [b"a", b"\x1b[1m\xff"], told_of(b"?[1m?", 2)
    yield [b"a", b"x" * 40], told_of(b"x" * 40, 2)
    yield [b"a", b"x" * 41], told_of(b"x" * 37 + b"...", 2)
    yield [b"a", b"x" * 100_000], told_of(b"x" * 37 + b"...", 2)


def failing(words, what):
    """Onto a device that is full, and onto no output at all."""
    with open("/dev/full", "wb") as full:
        done = subprocess.run([FORMULA, *words], stdout=full, stderr=subprocess.PIPE)
    yield f"{shown(words)} onto /dev/full", (b"formula: cannot write the %s: No space left on device\n" % what, 1), (done.stderr, done.returncode)
    done = subprocess.run(["sh", "-c", 'exec "$0" "$@" >&-', FORMULA, *words], stderr=subprocess.PIPE)
    yield f"{shown(words)}, output closed", (b"formula: cannot write the %s: Bad file descriptor\n" % what, 1), (done.stderr, done.returncode)


def piped(words) -> bytes:
    """What ranges prints for what the program prints."""
    with subprocess.Popen([FORMULA, *words], stdout=subprocess.PIPE) as first:
        return subprocess.run([RANGES], stdin=first.stdout, stdout=subprocess.PIPE, timeout=60).stdout


def tests():
    """Each test: its name, what is expected, and what is so."""
    for group in (wrong_calls, refusals, long_formulas, formulas):
        for words in group():
            yield shown(words), expected(words), run(words)
    for words in [formula_program.EXAMPLE, [b"7", b"0", b"0", b"1"], *list(formulas())[::40]]:
        sheet_text = formula_program.printed(words)
        yield f"{shown(words)} | ranges", listing.listing(sheet_text), piped(words)
    for words, line in wrong_words():
        yield shown(words), (b"", line, 2), run(words)
    yield "--version", (VERSION, b"", 0), run([b"--version"])
    help_text, errors, status = run([b"--help"])
    yield "--help", (True, b"", 0), (all(name in help_text for name in HELP_NAMES), errors, status)
    for words, what in [(formula_program.EXAMPLE, b"sheet"), ([b"?", b"0"], b"sheet"), ([b"--help"], b"help"), ([b"--version"], b"version")]:
        yield from failing(words, what)
    with open("/dev/full", "wb") as full:
        done = subprocess.run([FORMULA], stdout=subprocess.PIPE, stderr=full)
    yield "a wrong call, errors onto /dev/full", (b"", 2), (done.stdout, done.returncode)


def main() -> int:
    passed = failed = 0
    for name, right, found in tests():
        if right == found:
            passed += 1
        else:
            failed += 1
            print(f"{name}: expected {right!r}, found {found!r}"[:600])
    print(f"{passed} passed, {failed} failed")
    return 1 if failed or not passed else 0


if __name__ == "__main__":
    sys.exit(main())
