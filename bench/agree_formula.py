"""Runs both programs that read a formula over lists of arguments and compares what they print with the checker: a time counts only beside right sheets.

    python3 bench/agree_formula.py FORMULA PLAIN_FORMULA

The arguments are those of `bench/formulas` and `examples`, the checker's cases and those of a fresh seed, and wrong calls, which print nothing on
standard output and one line on standard error, and end with status 2; what ours says there is tested by `tests/formula.py`.
"""

import pathlib
import secrets
import subprocess
import sys

ROOT = pathlib.Path(__file__).resolve().parent.parent
sys.path.insert(0, str(ROOT / "checker"))

import formula_cases
import formula_program
import sheet

NO_NUMBERS = [b"", b"-", b"-0", b"01", b"+1", b" 1", b"1\n", b"a", b"12345678901", b"-12345678901", b"1" * 40]


def stored():
    for path in [*sorted((ROOT / "bench/formulas").iterdir()), *sorted((ROOT / "examples").glob("*.formula"))]:
        yield path.read_bytes().split()


def made():
    """The checker's cases as arguments, which hold no byte 0."""
    groups = [formula_cases.samples(), formula_cases.short_formulas(), formula_cases.deep_formulas(), formula_cases.counted_formulas()]
    groups += [formula_cases.literal_formulas(), formula_cases.long_formulas(), formula_cases.any_formulas(secrets.token_hex(4), 20, 20)]
    for group in groups:
        for inputs, squares, ends, text in group:
            numbers = [squares, *(number for end in ends[: max(inputs, 0)] for number in end)]
            if b"\0" not in text:
                yield [text, *(b"%d" % number for number in numbers)]


def inputs_and_wrong_calls():
    """No inputs, as many as there may be and more, low above high, and calls without squares, with half an input, with a word that is no number."""
    most, beyond = sheet.INPUTS_LIMIT, sheet.INPUTS_LIMIT + 1
    for words in ([], [b"0", b"1"] * most, [b"0", b"1"] * beyond, [b"0", b"1"] * 100, [b"2", b"1"], [b"0", b"1", b"0", b"268435457"]):
        for squares in (b"-1", b"0", b"1", b"%d" % most, b"%d" % beyond):
            yield [b"a+1", squares, *words]
            yield [b"a+1", squares, *words, b"0"]
    yield from ([], [b""], [b"a+1"])
    for word in NO_NUMBERS:
        yield from ([b"a+1", word], [b"a+1", word, b"0", b"1"], [b"a+1", b"0", word, b"1"], [b"a+1", b"0", b"0", word])


def agrees(program: str, words: list[bytes]) -> bool:
    text = formula_program.printed(words)
    expected = (b"", 1, 2) if text is None else (text, 0, 0)
    run = subprocess.run([program, *words], stdin=subprocess.DEVNULL, capture_output=True)
    found = run.stdout, run.stderr.count(b"\n"), run.returncode
    if found == expected:
        return True
    print(f"mismatch: {program} {words}: {found}, expected {expected}")
    return False


def main() -> int:
    programs = sys.argv[1:3]
    lists = [*stored(), *made(), *inputs_and_wrong_calls()]
    outcomes = [agrees(program, words) for words in lists for program in programs]
    failed = outcomes.count(False)
    print(f"{len(outcomes) - failed} passed, {failed} failed, on {len(lists)} lists of arguments")
    return 1 if failed else 0


if __name__ == "__main__":
    sys.exit(main())
