"""Formulas as they are typed: reading one into a schedule, and its value in fractions.

The request 2026-01 (manual, section 2.8). A text is read once, from sums down to products and to
operands, into a tree; the steps, the literals and the value are then taken from the tree.
"""

import re
from fractions import Fraction
from typing import NamedTuple

import rows
import sheet

LENGTH_LIMIT = 200
NESTING_LIMIT = 16
LITERAL_LIMIT = sheet.END_LIMIT

# "Formula letters run to h": one for each input.
LETTERS = bytes(range(ord("a"), ord("a") + sheet.INPUTS_LIMIT))
# "A literal is a sheet's number without minus, of any length."
LITERAL = re.compile(rb"0|[1-9][0-9]*")
SUM_SIGNS = (b"+", b"-")
PRODUCT_SIGNS = (b"*", b"/")
CODES = {b"+": sheet.ADD, b"-": sheet.SUBTRACT, b"*": sheet.MULTIPLY}

INPUTS_LINE = sheet.COUNTS_LINE


class Letter(NamedTuple):
    """"Letters a to" h "are inputs 1 to" 8."""

    input: int


class Literal(NamedTuple):
    """Its digits, and where the first of them stands, from 1."""

    digits: bytes
    place: int


class Signed(NamedTuple):
    """Two operands with a sign between them."""

    sign: bytes
    left: "Letter | Literal | Signed"
    right: "Letter | Literal | Signed"


class Reader:
    """The bytes of a formula, taken from the left. It stops at the first byte that cannot stand
    where it stands, or behind the last byte: a 10 at that place."""

    def __init__(self, text: bytes, inputs: int):
        self.text = text
        self.letters = LETTERS[:inputs]
        self.at = 0

    def here(self) -> bytes:
        """The byte that is to be read, or none behind the last one."""
        return self.text[self.at : self.at + 1]

    def wrong(self) -> sheet.Refusal:
        return sheet.Refusal(10, self.at + 1)

    def chain(self, signs, operand):
        """"equal rank from the left"."""
        tree = operand()
        while self.here() in signs:
            sign = self.here()
            self.at += 1
            tree = Signed(sign, tree, operand())
        return tree

    def sum(self, open_brackets: int):
        """"products before sums"."""
        return self.chain(SUM_SIGNS, lambda: self.product(open_brackets))

    def product(self, open_brackets: int):
        return self.chain(PRODUCT_SIGNS, lambda: self.operand(open_brackets))

    def operand(self, open_brackets: int):
        """A letter of the inputs, a literal, or a sum in brackets: "Brackets nest to 16 at most"."""
        literal = LITERAL.match(self.text, self.at)
        if literal:
            self.at = literal.end()
            return Literal(literal[0], literal.start() + 1)
        if self.here() and self.here() in self.letters:
            self.at += 1
            return Letter(self.letters.index(self.text[self.at - 1]) + 1)
        if self.here() == b"(" and open_brackets < NESTING_LIMIT:
            return self.bracket(open_brackets + 1)
        raise self.wrong()

    def bracket(self, open_brackets: int):
        self.at += 1
        tree = self.sum(open_brackets)
        if self.here() != b")":
            raise self.wrong()
        self.at += 1
        return tree

    def formula(self):
        tree = self.sum(0)
        if self.at < len(self.text):
            raise self.wrong()
        return tree


def tree_of(text: bytes, inputs: int):
    """"For 10 it is the first byte that no formula over these inputs, length aside, has after the
    bytes before it; one past the end where the formula stops short; 201 where a longer one has no
    such byte in its first 200."."""
    try:
        tree = Reader(text, inputs).formula()
    except sheet.Refusal as refusal:
        raise sheet.Refusal(10, min(refusal.place, LENGTH_LIMIT + 1)) from None
    if len(text) > LENGTH_LIMIT:
        raise sheet.Refusal(10, LENGTH_LIMIT + 1)
    return tree


def literals(tree):
    """The literals of a tree, from the left."""
    if isinstance(tree, Literal):
        yield tree
    elif isinstance(tree, Signed):
        yield from literals(tree.left)
        yield from literals(tree.right)


def test_literals(tree) -> None:
    """"A literal beyond a constant's limits gives 5"; "it is the first byte of the first such
    literal"."""
    for literal in literals(tree):
        if int(literal.digits) > LITERAL_LIMIT:
            raise sheet.Refusal(5, literal.place)


def add_steps(tree, inputs: int, steps: list) -> int:
    """"Steps come as left operand, right operand, then the sign; each literal is a constant step
    and a letter is none; a division is a reciprocal of the right and then the left multiplied by
    it." Puts the steps of a tree behind those that are there; the row of its value."""
    if isinstance(tree, Letter):
        return tree.input
    if isinstance(tree, Literal):
        steps.append(sheet.Step(sheet.CONSTANT, 0, 0, int(tree.digits)))
        return inputs + len(steps)
    first = add_steps(tree.left, inputs, steps)
    second = add_steps(tree.right, inputs, steps)
    if tree.sign == b"/":
        steps.append(sheet.Step(sheet.RECIPROCAL, second, 0, 0))
        second = inputs + len(steps)
    steps.append(sheet.Step(CODES.get(tree.sign, sheet.MULTIPLY), first, second, 0))
    return inputs + len(steps)


def test_inputs(inputs: int, squares: int, ends) -> None:
    """"Inputs, ends and squares come beside the formula and are tested first by 3 and 4, as on a
    sheet."."""
    if not (1 <= inputs <= sheet.INPUTS_LIMIT and 0 <= squares <= inputs):
        raise sheet.Refusal(3, INPUTS_LINE)
    for number in range(1, inputs + 1):
        if not sheet.ends_in_order(sheet.Ends(*ends[number - 1])):
            raise sheet.Refusal(4, sheet.end_line(number))


def schedule_of(inputs: int, squares: int, ends, text: bytes) -> sheet.Schedule:
    """"11: no step, or more than" 40, "11 counts to 40". "Tested 10, 5, 11."; "for 11 it is 0"."""
    test_inputs(inputs, squares, ends)
    tree = tree_of(text, inputs)
    test_literals(tree)
    steps = []
    add_steps(tree, inputs, steps)
    if not 1 <= len(steps) <= sheet.STEPS_LIMIT:
        raise sheet.Refusal(11, 0)
    return sheet.schedule(squares, ends[:inputs], steps)


def read(inputs: int, squares: int, ends, text: bytes) -> sheet.ReadAnswer:
    """The schedule of a formula, with its inputs beside it. Ends beyond the inputs mean nothing."""
    try:
        return sheet.ReadAnswer(0, 0, schedule_of(inputs, squares, ends, text))
    except sheet.Refusal as refusal:
        return sheet.ReadAnswer(refusal.number, refusal.place, sheet.ZEROS)


def value(tree, inputs) -> Fraction:
    """The exact value of a tree, each input a fraction and each literal "a whole number meaning
    itself over 4096". A divisor of 0 raises ZeroDivisionError."""
    if isinstance(tree, Letter):
        return inputs[tree.input - 1]
    if isinstance(tree, Literal):
        return Fraction(int(tree.digits), rows.UNIT)
    left, right = value(tree.left, inputs), value(tree.right, inputs)
    if tree.sign == b"+":
        return left + right
    if tree.sign == b"-":
        return left - right
    return left * right if tree.sign == b"*" else left / right
