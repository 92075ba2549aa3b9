"""Formulas defined a second time, in other ways than formula.py, whose tests compare both.

What a formula is: its innermost brackets are taken away by a regular expression until none are left.
What begins a formula: some continuation makes one. Its steps and its value: Python's own reading.
"""

import ast
import itertools
import re
import string
from fractions import Fraction

SIGN_CODES = {ast.Add: 2, ast.Sub: 3, ast.Mult: 4, ast.Div: 4}


def deepest(text: bytes) -> int:
    """How far brackets nest."""
    return max(itertools.accumulate((byte == 40) - (byte == 41) for byte in text), default=0)


def flat_formula(inputs: int) -> bytes:
    """The regular expression of a formula without brackets."""
    operand = rb"(?:[a-%c]|0|[1-9][0-9]*)" % (ord("a") + inputs - 1)
    return operand + rb"(?:[-+*/]" + operand + rb")*"


def is_formula(text: bytes, inputs: int, nesting: int) -> bool:
    """Length aside. What stood in brackets becomes the letter a."""
    flat = flat_formula(inputs)
    if deepest(text) > nesting:
        return False
    shorter = re.sub(rb"\(" + flat + rb"\)", b"a", text)
    while shorter != text:
        text, shorter = shorter, re.sub(rb"\(" + flat + rb"\)", b"a", shorter)
    return re.fullmatch(flat, text) is not None


def begins_by_search(text: bytes, inputs: int, nesting: int, alphabet: bytes, longest: int) -> bool:
    """Whether some continuation over the alphabet, of at most `longest` bytes, makes a formula."""
    return any(
        is_formula(text + bytes(more), inputs, nesting)
        for length in range(longest + 1)
        for more in itertools.product(alphabet, repeat=length)
    )


def begins_formula(text: bytes, inputs: int, nesting: int) -> bool:
    """Whether some continuation makes a formula. Where one does, so does closing the brackets that
    are open, at once or behind one operand more."""
    closing = b")" * (text.count(b"(") - text.count(b")"))
    return any(is_formula(text + more + closing, inputs, nesting) for more in (b"", b"a"))


def python_steps(text: bytes, inputs: int) -> list[tuple]:
    """The steps of a formula, in the order in which Python works its parts: operands from the
    left, then the sign."""
    steps = []

    def row(node) -> int:
        if isinstance(node, ast.Name):
            return ord(node.id) - ord("a") + 1
        if isinstance(node, ast.Constant):
            steps.append((1, 0, 0, node.value))
        else:
            first, second = row(node.left), row(node.right)
            if isinstance(node.op, ast.Div):
                steps.append((5, second, 0, 0))
                second = inputs + len(steps)
            steps.append((SIGN_CODES[type(node.op)], first, second, 0))
        return inputs + len(steps)

    row(ast.parse(text.decode(), mode="eval").body)
    return steps


def python_value(text: bytes, inputs) -> Fraction:
    """The value of a formula as Python works it with fractions in place of its numbers."""
    fractions = re.sub(rb"[0-9]+", rb"Fraction(\g<0>, 4096)", text)
    return eval(fractions, {"Fraction": Fraction}, dict(zip(string.ascii_lowercase, inputs)))
