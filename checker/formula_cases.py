"""Formulas to read: the stored samples, valid, deep, long and damaged ones, and hostile inputs
beside them. Each case is (inputs, squares, as many ends as a schedule has, text); library_calls.py
makes calls of them.
"""

import itertools
import random

import formula
import sheet
from samples import objects

LEAST, GREATEST = -(2**63), 2**63 - 1
LIMIT = formula.LITERAL_LIMIT
SIGNS = b"+-*/"
# The most bytes of a formula that is made here, but for one that is inserted.
LONGEST = 600
BYTES = formula.LETTERS + SIGNS + b"()0123456789"

# Also numbers that are small again where a sum wraps at 2^32, 2^63 or 2^64.
LITERALS = [
    0, 1, 9, 10, 4096, 8192, 99_999_999, LIMIT - 1, LIMIT, LIMIT, LIMIT + 1, LIMIT + 4, 10 * LIMIT,
    2**31, 2**32, 2**32 + 5, 9_999_999_999, 10**10, 2**63, 2**63 + 1, 2**64 - 1, 2**64, 2**64 + 1,
    2**64 + LIMIT, 10**20, 2**128 + 7, 2**64 * 10**20 + 5,
]
ENDS = [(4096, 8192), (-512, 512), (1, 3), (-LIMIT, LIMIT), (0, 0), (7, 4096)]
ENDS = (ENDS * sheet.INPUTS_LIMIT)[: sheet.INPUTS_LIMIT]
# The letters of the inputs, and the first one beyond them all.
LETTERS = formula.LETTERS + bytes([formula.LETTERS[-1] + 1])


def sample_cases():
    """What is stored of another implementation's answers, with the refusal and schedule of each: an
    object a line, the text in hexadecimal, ends and steps as far as the counts go."""
    for call in objects("formulas.jsonl"):
        ends = [tuple(end) for end in call["ends"][: sheet.INPUTS_LIMIT]]
        ends += [(0, 0)] * (sheet.INPUTS_LIMIT - len(ends))
        case = call["inputs"], call["squares"], ends, bytes.fromhex(call["text"])
        yield case, tuple(call["refusal"]), call["schedule"]


def samples():
    for case, _, _ in sample_cases():
        yield case


def over(inputs, *texts):
    """Texts over so many inputs with plain ends."""
    for text in texts:
        yield inputs, inputs // 2, ENDS, text


def any_operand(rng, letters) -> bytes:
    if rng.random() < 0.7:
        return bytes([rng.choice(letters)])
    if rng.random() < 0.7:
        return b"%d" % rng.randint(0, rng.choice((9, 9999, LIMIT)))
    return b"%d" % rng.choice(LITERALS)


def any_formula(rng, letters, operands, room, brackets) -> bytes:
    """A formula of so many operands, in which brackets nest to `room` at most. `brackets` is how
    often a part stands in brackets that need not be there."""
    if room and rng.random() < brackets:
        return b"(" + any_formula(rng, letters, operands, room - 1, brackets) + b")"
    if operands == 1:
        return any_operand(rng, letters)
    split = rng.randint(1, operands - 1)
    left = any_formula(rng, letters, split, room, brackets)
    right = any_formula(rng, letters, operands - split, room, brackets)
    return left + bytes([rng.choice(SIGNS)]) + right


def any_text(rng, inputs) -> bytes:
    """A formula over the inputs, now and then over one letter more."""
    letters = formula.LETTERS[:inputs]
    if rng.random() < 0.05:
        letters = LETTERS[: inputs + 1]
    most = sheet.STEPS_LIMIT
    near_most = (most // 2, most // 2 + 1, most - 4, most + 1, most + 2)
    operands = rng.choice((1, 2, 3, 3, 4, 4, 5, 6, 7, 8, 9, 12, 13, *near_most, 60, 120))
    return any_formula(rng, letters, operands, rng.choice((1, 3, 16)), rng.choice((0.05, 0.3, 0.6)))


def damaged(rng, text) -> bytes:
    """One byte changed, inserted or taken away, or the text cut."""
    at = rng.randint(0, len(text) - 1)
    byte = bytes([rng.choice(BYTES)]) if rng.random() < 0.9 else rng.randbytes(1)
    return rng.choice(
        (
            text[:at] + byte + text[at + 1 :],
            text[:at] + byte + text[at:],
            text[:at] + text[at + 1 :],
            text[:at],
            text[at:],
        )
    )


def any_blocks(rng):
    """Inputs, squares and ends that pass, anything beyond the inputs."""
    inputs = rng.randint(1, sheet.INPUTS_LIMIT)
    ends = [(rng.choice((-LIMIT, -8, 0)), rng.choice((0, 4096, LIMIT))) for _ in range(inputs)]
    ends += [(rng.choice((LEAST, -1, 5, GREATEST)), 7)] * (sheet.INPUTS_LIMIT - inputs)
    return inputs, rng.randint(0, inputs), ends


def any_formulas(seed, blocks, texts):
    """Formulas over any inputs, one half of them damaged."""
    rng = random.Random(seed)
    for _ in range(blocks):
        block = any_blocks(rng)
        for index in range(texts):
            text = any_text(rng, block[0])[:LONGEST]
            yield *block, damaged(rng, text) if index % 2 else text


def short_formulas():
    """By hand: no step, one step, the rank of signs, each way to stop short or go wrong."""
    for inputs in (1, 2, 3, sheet.INPUTS_LIMIT):
        yield from over(
            inputs, b"", b"a", b"(a)", b"((a))", b"A", b"0", b"7", b"(7)", b"a+b",
            b"a-b-c", b"a-(b-c)", b"a/b/c", b"a/(b/c)", b"a-b+c", b"a*b/c", b"a/b*c", b"a+b*c",
            b"a*b+c", b"a-b/c", b"a/b-c", b"(a-b)*(b-a)", b"(a-b)/(b-a)", b"1/2", b"1-2-3", b"a/a",
            b"a+", b"a*", b"+a", b"-a", b"-1", b"*", b"a+-1", b"a--b", b"a//b", b"(", b")", b"()",
            b"(a", b"a)", b"(a))", b"((a)", b"(a)(b)", b"a(b)", b"(a)b", b"(a)1", b"1(a)", b"ab",
            b"1a", b"a1", b"01", b"00", b"0", b"10", b"a+0", b"a+00", b"a+01", b"a+10", b"0+0",
            b"0.5", b"1,5", b"1e5", b"0x1", b"a b", b" a", b"a ", b"a\n", b"a\0", b"a+b\n", b"a=b",
            b"(a+8192)*b/c", b"[a]", b"{a}", b"a^b", b"a%b", b"a**b", b"\xe2\x88\x921", b"a\xc3\x97b",
        )


def nested(levels):
    """Brackets to so many levels: around one operand, on the left, on the right, closed or not."""
    opening, closing = b"(" * levels, b")" * levels
    for inside in (b"5", b"a", b"a-b"):
        yield opening + inside + closing
    yield opening + b"a" + b"+1)" * levels
    yield b"(1-" * levels + b"a" + closing
    yield b"b*(1-" + opening + b"a" + closing + b")"
    yield opening + b"a" + closing + b"-" + opening + b"7" + closing
    yield opening
    yield opening + b")"
    yield opening + b"a" + closing[1:]
    yield opening + b"a" + closing + b")"


def deep_formulas():
    for levels in (1, 2, 8, 14, 15, 16, 17, 18, 40):
        yield from over(2, *nested(levels))


def letters_of_inputs():
    """Each letter, by itself and within a formula, over each number of inputs: those of the inputs
    are read, those beyond them are not, nor is the one behind the last of all."""
    for inputs in range(1, sheet.INPUTS_LIMIT + 1):
        for letter in LETTERS:
            one = bytes([letter])
            yield from over(inputs, one, one + b"*a", b"a/" + one, b"(1-" + one + b")*" + one)


def all_letters():
    """Every letter of the inputs once: one step fewer than there are letters."""
    for sign in (b"+", b"-", b"*"):
        for inputs in (sheet.INPUTS_LIMIT, sheet.INPUTS_LIMIT - 1):
            yield from over(inputs, sign.join(bytes([letter]) for letter in formula.LETTERS))


def counted_formulas():
    """Formulas of so many steps: around the most, and very many."""
    most = sheet.STEPS_LIMIT
    for count in (1, 2, *range(most - 2, most + 3), 2 * most, 99):
        yield from over(1, b"a" + b"+a" * count, b"a" + b"/a" * (count // 2) + b"-a" * (count % 2))
        yield from over(2, b"1" + b"*b" * (count - 1), b"(b-" * min(count, 16) + b"a" + b")" * min(count, 16))


def literal_formulas():
    """Literals around the limit and of very many digits, in each operand's place."""
    digits = [b"%d" % literal for literal in LITERALS]
    digits += [b"1" + b"0" * 149, b"9" * 150, b"%d" % (2**64 * 10**130 + 5), b"2" * 199, b"3" * 200]
    digits += [b"26843545" + last for last in (b"5", b"6", b"7", b"60", b"6+0", b"7+0")]
    for literal in digits:
        yield from over(1, literal, b"(" + literal + b")", b"a+" + literal, literal + b"*a")
        yield from over(1, literal + b"-" + literal, b"1/(2-" + literal + b")", literal + b"x")
    two = b"%d-%d" % (LIMIT + 1, LIMIT + 2)
    yield from over(1, b"%d+" % LIMIT + two, two + b"+", b"a" + b"+a" * (sheet.STEPS_LIMIT + 1) + b"+" + two, b"a*01+" + two)


def of_length(length):
    """A formula with few steps of just so many bytes, 7 at least."""
    text = b"12+a" if length % 2 == 0 else b"a"
    while len(text) < length:
        levels = min((length - len(text) - 2) // 2, formula.NESTING_LIMIT)
        text += b"+" + b"(" * levels + b"a" + b")" * levels
    return text


def long_formulas():
    """Around 200 bytes and longer: whole, cut short, and with a wrong byte at a place."""
    for length in (7, 8, 100, 197, 198, 199, 200, 201, 202, 203, 300, LONGEST):
        text = of_length(length)
        yield from over(1, text, text[:-1], text[:-1] + b"+", text[:-1] + b"?", b"?" + text[1:])
        yield from over(1, b"a+" * (length // 2) + b"a" * (length % 2), b"4" * length, b"0" * length)
        for place in (2, 150, 198, 199, 200, 201, 202, 250):
            if place <= length:
                yield from over(1, text[: place - 1] + b"?" + text[place:])


def each_byte():
    """Each of 256 bytes at each place of one formula."""
    text = b"(a+8192)*b/c"
    for place in range(len(text)):
        yield from over(3, *(text[:place] + bytes([byte]) + text[place + 1 :] for byte in range(256)))


def hostile_inputs():
    """Counts of any value, ends of any value, with formulas that would be accepted or refused."""
    texts = (b"", b"a+1", b"a", b"b*2", b"?", b"268435457")
    limit = sheet.INPUTS_LIMIT
    counts = [LEAST, -(2**32), -1, 0, 1, 2, limit, limit + 1, 2**32 + 1, GREATEST]
    for inputs, squares in itertools.product(counts, repeat=2):
        for text in texts[:2]:
            yield inputs, squares, ENDS, text
    values = [LEAST, -LIMIT - 1, -LIMIT, -1, 0, LIMIT, LIMIT + 1, 2**32, GREATEST]
    pairs = [pair for value in values for pair in ((value, 0), (0, value), (value, value))]
    for number, end, inputs in itertools.product((0, 1, 2, limit - 1), pairs, (1, 2, limit)):
        yield inputs, 1, ENDS[:number] + [end] + ENDS[number + 1 :], texts[1]
    for text in texts:
        for wrong in ([], [0], [1], [0, 1], [2]):
            ends = [(8, 7) if number in wrong else end for number, end in enumerate(ENDS)]
            yield 2, 0, ends, text
            yield 2, 3, ends, text


def cases():
    yield from samples()
    yield from short_formulas()
    yield from letters_of_inputs()
    yield from all_letters()
    yield from deep_formulas()
    yield from counted_formulas()
    yield from literal_formulas()
    yield from long_formulas()
    yield from each_byte()
    yield from hostile_inputs()
    yield from any_formulas("formulas", 40, 40)
