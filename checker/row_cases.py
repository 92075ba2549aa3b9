"""What the program `row_examples` must print: P1 to P13 (manual, section 5.13), R1 to R6 of
roots, and N1 to N5 of products to the nearest, row by row.

    python3 checker/row_cases.py crates/row_examples

writes `stdout` into the folder given.

One line for each example, its fields separated by one space: the label (`P1`); then `refused 6`,
`refused 7` or `refused 12`, or the 85 numbers of the resulting row (centre, 48 linear coefficients,
36 pair coefficients) followed by low and high of its own range, which are an input's ends. P12 and
P13, which are in two parts, have a line for each part, with `a` and `b` behind the label.

Which row owns which symbol (row r owns symbol r):

- P1, P2: the input is row 1 and owns symbol 1.
- P3, P4: input 0 0 is row 1, the constants are rows 2 and 3, the product is row 4 and owns
  symbol 4; squares 0.
- P5, P6, P7: input 0 0 is row 1, the constant is row 2, the reciprocal is row 3 and owns symbol 3;
  squares 0.
- P8 (squares 1), P9 (squares 0): the input is row 1, the product is row 2 and owns symbol 2.
- P10 (squares 1), P11 (squares 0): the input is row 1, the reciprocal is row 2 and owns symbol 2.
- P12a (ends 1, 2), P12b (ends 1, 3): the input is row 1, the reciprocal is row 2 and owns symbol 2;
  squares 0.
- P13a (times 16,384), P13b (times 16,385): as P3.
- R1 (root of 4096), R2 (root of 2): as P5, with a root for the reciprocal.
- R3 (ends 4096, 8192, squares 1), R4 (the same, squares 0), R5 (ends 0, 5, squares 0), R6 (ends 1, 3,
  squares 0): as P10, with a root for the reciprocal.
- N1 (2047 times 1), N2 (2048), N3 (-2048), N4 (-2049): as P3. N5 (ends 0, 64): as P8.
"""

import sys

import rows
import stored


def with_form_range(row):
    return row, rows.form_range(row)


def input_alone(low, high):
    return lambda: (rows.input_row(low, high, 1), rows.Range(low, high))


def product_of_constants(first, second):
    return lambda: with_form_range(
        rows.multiply(rows.constant_row(first), rows.constant_row(second), 0, 4)
    )


def reciprocal_of_constant(value):
    return lambda: with_form_range(
        rows.reciprocal(*with_form_range(rows.constant_row(value)), 0, 3)
    )


def square_of_input(low, high, squares):
    return lambda: with_form_range(
        rows.multiply(rows.input_row(low, high, 1), rows.input_row(low, high, 1), squares, 2)
    )


def reciprocal_of_input(low, high, squares):
    return lambda: with_form_range(rows.reciprocal(*input_alone(low, high)(), squares, 2))


def root_of_constant(value):
    return lambda: with_form_range(rows.root(*with_form_range(rows.constant_row(value)), 0, 3))


def root_of_input(low, high, squares):
    return lambda: with_form_range(rows.root(*input_alone(low, high)(), squares, 2))


EXAMPLES = [
    ("P1", input_alone(0, 1)),
    ("P2", input_alone(-1, 0)),
    ("P3", product_of_constants(1, 1)),
    ("P4", product_of_constants(-1, 1)),
    ("P5", reciprocal_of_constant(8192)),
    ("P6", reciprocal_of_constant(12288)),
    ("P7", reciprocal_of_constant(-12288)),
    ("P8", square_of_input(4096, 8192, 1)),
    ("P9", square_of_input(4096, 8192, 0)),
    ("P10", reciprocal_of_input(4096, 8192, 1)),
    ("P11", reciprocal_of_input(4096, 8192, 0)),
    ("P12a", reciprocal_of_input(1, 2, 0)),
    ("P12b", reciprocal_of_input(1, 3, 0)),
    ("P13a", product_of_constants(268_435_456, 16_384)),
    ("P13b", product_of_constants(268_435_456, 16_385)),
    ("R1", root_of_constant(4096)),
    ("R2", root_of_constant(2)),
    ("R3", root_of_input(4096, 8192, 1)),
    ("R4", root_of_input(4096, 8192, 0)),
    ("R5", root_of_input(0, 5, 0)),
    ("R6", root_of_input(1, 3, 0)),
    ("N1", product_of_constants(2047, 1)),
    ("N2", product_of_constants(2048, 1)),
    ("N3", product_of_constants(-2048, 1)),
    ("N4", product_of_constants(-2049, 1)),
    ("N5", square_of_input(0, 64, 1)),
]


def example_line(label, work) -> str:
    try:
        row, own_range = work()
    except rows.RowRefusal as refusal:
        return f"{label} refused {refusal.number}"
    return " ".join(map(str, [label, *row, *own_range]))


def files() -> dict[str, bytes]:
    """The files of the crate, by their paths in it."""
    lines = [example_line(label, work) + "\n" for label, work in EXAMPLES]
    return {"stdout": "".join(lines).encode()}


if __name__ == "__main__":
    stored.write(sys.argv[1], files())
