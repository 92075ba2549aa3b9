#!/usr/bin/env python3
"""What docs/MANUAL.md, README.md and examples/README.md show is so.

Fenced blocks, by the words behind the fence:

    console       a line `$ COMMAND` is run from the top folder, and the lines behind it are what it prints
    sheet PATH    the block is the whole file
    KIND PATH     each paragraph of the block stands in the file, in one piece

A block of another kind fails, as does a command that is neither run nor among NOT_RUN. Also tested: the sums and commands in
code spans, the paths there, the numbers of the sections and who refers to them, the tables that TABLES names, and the limits
that sentences repeat, as REPEATED has them. What is expected is what the documents say; numbers that no command prints come from the checker. The programs are those that
`tools/build` built. The last line is `N passed, M failed`.
"""

import ast
import math
import operator
import pathlib
import re
import subprocess
import sys
from fractions import Fraction

ROOT = pathlib.Path(__file__).resolve().parent.parent
sys.path.insert(0, str(ROOT / "checker"))

import drift
import evaluation
import formula
import listing
import overlap
import rows
import sheet
import sheet_cases

MANUAL = "docs/MANUAL.md"
DOCUMENTS = [MANUAL, "README.md", "examples/README.md"]
SOURCES = ("*.antt", "*.rt", "*.py", "*.sh", "*.md", "*.rs", "*.edit")

# Commands that build, and the gate itself, which runs this test: they are shown without what they print. Another one of the toolchain or the gate fails.
NOT_RUN = {"tools/build ranges", "tools/build formula", ".ci/run", "rt check"}
LONG = ("rt ", ".ci/", "bench/", "tools/")
# How a code span begins that is a command.
COMMAND = re.compile(r"(rt|python3|bash|target/bin/\S+) |\.ci/|bench/run\.sh|tools/build")
TOP_FOLDERS = ("bench/", "checker/", "crates/", "docs/", "examples/", "tests/", "tools/", ".ci/")

SUM = re.compile(r"(?P<work>[-+×/() 0-9]+) = (?P<is>-?[0-9]+)(?:, (?P<rounded>down|up|nearest))?")
OPERATIONS = {ast.Add: operator.add, ast.Sub: operator.sub, ast.Mult: operator.mul, ast.Div: operator.truediv}
SECTION = re.compile(r"#{2,3} (\d+(?:\.\d+)?) ")
REFERENCE = re.compile(r"\bsections?\s+(\d+(?:\.\d+)?)(?:(?:,| and| to) (\d+(?:\.\d+)?))*")

REFUSED = re.compile(r"refused (\d+) at row (\d+)")

passed = 0
failures = []


def expect(what: str, shown, is_so) -> None:
    """One test: what a document shows is so."""
    global passed
    if shown == is_so:
        passed += 1
    else:
        failures.append(what)
        print(f"{what}: shown {shown!r}, and it is {is_so!r}")


def number(text: str) -> int:
    return int(text.replace(",", ""))


# ---- the parts of a document


def split(text: str):
    """The fenced blocks of a document, each with the words behind its fence, and the lines outside them."""
    blocks, prose, kind, lines = [], [], None, []
    for line in text.splitlines():
        if kind is not None and line == "```":
            blocks.append((kind, lines))
            kind = None
        elif kind is not None:
            lines.append(line)
        elif line.startswith("```"):
            kind, lines = line[3:].strip(), []
        else:
            prose.append(line)
    if kind is not None:
        blocks.append(("a fence that is not closed", lines))
    return blocks, prose


def spans(prose) -> list[str]:
    """The code spans outside fenced blocks."""
    return re.findall(r"`([^`]+)`", "\n".join(prose))


def cells(line: str) -> list[str]:
    return [cell.strip() for cell in line.strip().strip("|").split(" | ")]


def table(prose, header: str):
    """The rows of the table under a line of names."""
    if header not in prose:
        return []
    under = prose[prose.index(header) + 2 :]
    ends = next((at for at, line in enumerate(under) if not line.startswith("|")), len(under))
    return [cells(line) for line in under[:ends]]


# ---- blocks


def printed(command: str) -> str:
    """What a command prints, on both streams."""
    if command in NOT_RUN:
        return ""
    if command.startswith(LONG):
        return "neither run nor among NOT_RUN"
    done = subprocess.run(
        ["bash", "-c", command], cwd=ROOT, stdin=subprocess.DEVNULL, stdout=subprocess.PIPE, stderr=subprocess.STDOUT, timeout=60
    )
    return done.stdout.decode(errors="replace")


def check_console(document: str, lines) -> None:
    commands = []
    for line in lines:
        if line.startswith("$ "):
            commands.append((line[2:], []))
        elif commands:
            commands[-1][1].append(line + "\n")
        else:
            expect(f"{document}: output without a command", line, None)
    for command, shown in commands:
        expect(f"{document}: {command}", "".join(shown), printed(command))


def check_quotation(document: str, kind: str, path: str, lines) -> None:
    """A block that stands in a file of the repository."""
    file = ROOT / path
    if not file.is_file():
        expect(f"{document}: {path}", "a file", "no file")
        return
    shown, text = "\n".join(lines) + "\n", file.read_text()
    if kind == "sheet":
        expect(f"{document}: {path}", shown, text)
        return
    for paragraph in shown.strip("\n").split("\n\n"):
        if f"\n{paragraph}\n" in f"\n{text}":
            expect(f"{document}: {path}", True, True)
        else:
            expect(f"{document}: {path}", paragraph, "something else")


def check_blocks(document: str, blocks) -> None:
    for words, lines in blocks:
        kind, _, path = words.partition(" ")
        if words == "console":
            check_console(document, lines)
        elif kind in ("sheet", "rattle", "text") and path:
            check_quotation(document, kind, path, lines)
        else:
            expect(f"{document}: a block", words, "console, or a kind and a file")


# ---- code spans


def worked(node) -> Fraction:
    """The value of a sum, in fractions."""
    if isinstance(node, ast.BinOp):
        return OPERATIONS[type(node.op)](worked(node.left), worked(node.right))
    if isinstance(node, ast.UnaryOp) and isinstance(node.op, ast.USub):
        return -worked(node.operand)
    return Fraction(node.value)


def upper_nearest(exact: Fraction) -> int:
    """The nearest whole number, and of two that are as near the upper one."""
    return min((math.ceil(exact), math.floor(exact)), key=lambda whole: abs(exact - whole))


def check_sum(document: str, span: str, shown) -> None:
    value = worked(ast.parse(shown["work"].strip().replace("×", "*"), mode="eval").body)
    rounding = {"down": math.floor, "up": math.ceil, "nearest": upper_nearest, None: lambda exact: exact}[shown["rounded"]]
    expect(f"{document}: {span}", int(shown["is"]), rounding(value))


def check_spans(document: str, prose, run) -> int:
    """Tests sums, commands and paths; how many sums there are."""
    sums = 0
    for span in spans(prose):
        shown = SUM.fullmatch(span)
        if shown:
            sums += 1
            check_sum(document, span, shown)
        elif COMMAND.match(span):
            expect(f"{document}: the command {span}", span in NOT_RUN or span in run, True)
        elif span.startswith(TOP_FOLDERS) and " " not in span:
            expect(f"{document}: the path {span}", (ROOT / span).exists(), True)
    return sums


def check_plain(document: str, prose) -> None:
    """Code stands in fences, where it is tested, and not in indented blocks."""
    for before, line in zip(["", *prose], prose):
        if before == "" and line.startswith(("    ", "\t")):
            expect(f"{document}: an indented block", line, None)


# ---- sections


def check_sections(prose) -> set[str]:
    """The sections of the manual, which are numbered one after another."""
    found = [match[1] for match in map(SECTION.match, prose) if match]
    expected, chapter, part = [], 0, 0
    for section in found:
        chapter, part = (chapter, part + 1) if "." in section else (chapter + 1, 0)
        expected.append(f"{chapter}.{part}" if part else f"{chapter}")
    expect(f"{MANUAL}: sections", found, expected)
    return set(found)


def sources():
    """The files of the repository that may refer to the manual."""
    for pattern in SOURCES:
        for path in ROOT.rglob(pattern):
            if not {"target", ".git"} & set(path.relative_to(ROOT).parts):
                yield path


def referred(text: str):
    """The sections that a text names behind "section" or "sections"."""
    for match in REFERENCE.finditer(text):
        yield from re.findall(r"\d+(?:\.\d+)?", match[0])


def check_references(sections) -> int:
    """Sections that are referred to are there: in the documents, and wherever else "manual, section" stands."""
    count = 0
    for path in sources():
        text = path.read_text(errors="replace")
        name = str(path.relative_to(ROOT))
        whole = name in DOCUMENTS or name.startswith("docs/")
        parts = [text] if whole else re.findall(r"(?:manual|MANUAL.md`),\s+sections? [-0-9., adnto]+", text)
        for section in [section for part in parts for section in referred(part)]:
            count += 1
            expect(f"{name}: section {section}", section in sections, True)
    return count


# ---- tables


def sheet_of(squares: str, ends: str, steps: str) -> bytes:
    """The sheet of an example: one input, and its steps."""
    lines = steps.split(", ")
    counts = f"1 {squares} {len(lines)}"
    return "\n".join(["inputs squares steps", counts, "low high", ends, "step first second value", *lines, ""]).encode()


def listed(data: bytes) -> list[list[str]]:
    """The lines that the program prints for a sheet, behind the line of names, field by field."""
    text = subprocess.run([ROOT / "target/bin/ranges"], input=data, stdout=subprocess.PIPE).stdout.decode()
    return [line.split(" ") for line in text.splitlines()[1:]]


def worked_row(data: bytes, row: int) -> evaluation.WorkedRow:
    """A row of a sheet, as the checker works it."""
    return evaluation.work(sheet.read(data).schedule).rows[row - 1]


def shown_ends(shown: str) -> tuple[int, int]:
    """The ends of a range that is shown as `-1 to 1`."""
    low, high = shown.split(" to ")
    return int(low), int(high)


def lent_numbers(data: bytes, row: int) -> tuple[list[int], list[int]]:
    """What the checker's evaluation leaves for a row of a sheet in the first and in the second table."""
    table, ranges = [0] * listing.TABLE_LENGTH, [0] * listing.RANGES_LENGTH
    evaluation.evaluate(sheet.read(data).schedule, table, ranges)
    return table[rows.NUMBERS * (row - 1) : rows.NUMBERS * row], ranges[2 * (row - 1) : 2 * row]


def check_example(name, squares, ends, steps, shown, *numbers) -> None:
    """An example, as the program and as the checker work it."""
    data = sheet_of(squares, ends, steps)
    refused = REFUSED.fullmatch(numbers[0])
    if refused:
        expect(f"{MANUAL}: {name}, program", [list(refused.groups())], listed(data))
        expect(f"{MANUAL}: {name}, checker", listing.refusal_text(*map(int, refused.groups())), listing.listing(data))
        return
    *formed, own_range, low, high = numbers
    expect(f"{MANUAL}: {name}, program", [shown, low, high, formed[-1]], listed(data)[int(shown) - 1][:4])
    row, answered = lent_numbers(data, int(shown))
    worked = [row[0], row[1], row[rows.PAIR_PLACE[1, 1]], row[int(shown)], *answered]
    expect(f"{MANUAL}: {name}, checker", [int(number) for number in (*formed, low, high)], worked)
    expect(f"{MANUAL}: {name}, own range", shown_ends(own_range), worked_row(data, int(shown)).own_range)


def check_lent(row, centre, first, second, places, low, high) -> None:
    """A row of the manual's sheet with odd ends, as it stands in both tables; its numbers of the second one begin at twice the rows before it."""
    numbers, answered = lent_numbers((ROOT / "examples/odd_ends.sheet").read_bytes(), int(row))
    begin = 2 * (int(row) - 1)
    shown = [places, [int(centre), int(first), int(second)], [int(low), int(high)]]
    expect(f"{MANUAL}: row {row} in both tables", shown, [f"{begin} and {begin + 1}", numbers[:3], answered])
    expect(f"{MANUAL}: row {row}, numbers that are not 0", [], [number for number in numbers[3:] if number])


def check_pairs(pairs, places) -> None:
    """The pairs of a first symbol, shown as `(2,2) to (2,8)`, stand at numbers that are shown as `57 to 63`."""
    first, last = (tuple(map(int, pair.strip("()").split(","))) for pair in pairs.split(" to "))
    among = [place for pair, place in rows.PAIR_PLACE.items() if first <= pair <= last]
    expect(f"{MANUAL}: pairs {pairs}", [int(place) for place in places.split(" to ")], [among[0], among[-1]])


FIELDS = {
    "inputs": ["1", f"{sheet.INPUTS_LIMIT}"],
    "squares": ["0", "inputs"],
    "steps": ["1", f"{sheet.STEPS_LIMIT}"],
    "low, high": [f"-{sheet.END_LIMIT:,}", f"{sheet.END_LIMIT:,}"],
}


def check_field(field, *limits) -> None:
    expect(f"{MANUAL}: {field}", list(limits), FIELDS.get(field))


def stack_measured() -> int:
    return number(re.search(r"needs ([0-9,]+) bytes besides", (ROOT / "docs/SPEED.md").read_text())[1])


def longest_accepted():
    """The length of the sheet with the most and the longest fields, which the program accepts."""
    data = sheet.text(sheet_cases.LARGEST)
    return len(data) if len(listed(data)) == evaluation.ROWS_LIMIT else "refused"


SIZES = {
    "inputs": lambda: sheet.INPUTS_LIMIT,
    "steps": lambda: sheet.STEPS_LIMIT,
    "rows": lambda: evaluation.ROWS_LIMIT,
    "numbers of a row in the first table": lambda: rows.NUMBERS,
    "numbers of a row in the second table": lambda: listing.RANGES_LENGTH // evaluation.ROWS_LIMIT,
    f"numbers of the first table for {evaluation.ROWS_LIMIT} rows": lambda: listing.TABLE_LENGTH,
    f"numbers of the second table for {evaluation.ROWS_LIMIT} rows": lambda: listing.RANGES_LENGTH,
    "bytes of that first table": lambda: 8 * listing.TABLE_LENGTH,
    "bytes of that second table": lambda: 8 * listing.RANGES_LENGTH,
    "bytes of a schedule": lambda: 8 * (3 + 2 * sheet.INPUTS_LIMIT + 4 * sheet.STEPS_LIMIT),
    "bytes of a sheet that is read": lambda: sheet.SHEET_LIMIT,
    "bytes of the longest sheet that is accepted": longest_accepted,
    "bytes to lend for the text of `listing::list`": lambda: 4_096,
    "bytes of a formula": lambda: formula.LENGTH_LIMIT,
    "brackets of a formula inside each other": lambda: formula.NESTING_LIMIT,
    "greatest end, and greatest constant": lambda: sheet.END_LIMIT,
    "greatest span": lambda: rows.SPAN_LIMIT,
    "bytes of stack for one `evaluate`, beside the caller's tables and schedule": stack_measured,
}


def check_size(what, shown) -> None:
    expect(f"{MANUAL}: {what}", number(shown), SIZES[what]() if what in SIZES else "not among SIZES")


PLACES = {
    "the centre": ["0"],
    f"the linear coefficients of noise symbols 1 to {rows.SYMBOLS}": [f"1 to {rows.SYMBOLS}"],
    "the pair coefficients": [f"{1 + rows.SYMBOLS} to {rows.NUMBERS - 1}"],
}


def check_places(places, holds) -> None:
    expect(f"{MANUAL}: the numbers of {holds}", [places], PLACES.get(holds))


# What stands around a limit that a sentence repeats, and which limit it is.
REPEATED = [
    (r"up to (\S+) quantities", sheet.INPUTS_LIMIT),
    (r"for inputs 1 to (\S+): as many letters", sheet.INPUTS_LIMIT),
    (r"`MAX_INPUTS` is (\S+) and", sheet.INPUTS_LIMIT),
    (r"up to (\S+) steps of arithmetic", sheet.STEPS_LIMIT),
    (r"makes 1 to (\S+) steps", sheet.STEPS_LIMIT),
    (r"no step, or more than (\S+) ", sheet.STEPS_LIMIT),
    (r"`MAX_STEPS` is (\S+)\. ", sheet.STEPS_LIMIT),
    (r"count is above (\S+) ", evaluation.ROWS_LIMIT),
    (r"a count of at most (\S+)\. ", evaluation.ROWS_LIMIT),
    (r"the tables hold, at most (\S+), ", evaluation.ROWS_LIMIT),
    (r"with (\S+) numbers for each row", rows.NUMBERS),
    (r"with (\S+) numbers in the first", rows.NUMBERS),
    (r"from number (\S+) × \(r - 1\) of the first table", rows.NUMBERS),
    (r"a first table of (\S+) zeros", listing.TABLE_LENGTH),
    (r"`TABLE_NUMBERS` is (\S+) ", listing.TABLE_LENGTH),
    (r"a second one of (\S+); ", listing.RANGES_LENGTH),
    (r"`RANGES_NUMBERS` is (\S+): ", listing.RANGES_LENGTH),
    (r"the longest that is accepted has (\S+) bytes", len(sheet.text(sheet_cases.LARGEST))),
    (r"bytes for the sheet; (\S+) hold any", len(sheet.text(sheet_cases.LARGEST))),
    (r"\| `a` to `(\S+)`, for inputs", formula.LETTERS[-1:].decode()),
]


def check_repeated(text: str) -> None:
    """Each limit that the sentences of the documents repeat is shown, and as it is."""
    for around, limit in REPEATED:
        shown = re.findall(around, text)
        expect(f"limits: {around}", shown, [f"{limit:,}" if isinstance(limit, int) else limit] * max(1, len(shown)))


def check_drift(sheets_of, *shown) -> None:
    expect(f"{MANUAL}: drift of {sheets_of}", list(shown), drift.figures(drift.KINDS[sheets_of]))


def check_overlap(kind, *shown) -> None:
    expect(f"{MANUAL}: overlaps of {kind}", list(shown), overlap.figures(kind))


def check_ranges(name, row, *shown) -> None:
    """Own, plain and answered range of a row of a sheet in examples/."""
    worked = worked_row((ROOT / "examples" / f"{name.strip('`')}.sheet").read_bytes(), int(row))
    expect(f"{MANUAL}: ranges of {name}, row {row}", [*map(shown_ends, shown)], [worked.own_range, worked.plain_range, worked.answered_range])


# The ranges of xy/z that are ours: a sheet of examples/, and which range of its last row.
QUOTIENTS = {
    "ours, own range, squares 0": ("quotient", "own_range"),
    "ours, own range, squares 3": ("quotient_squares", "own_range"),
    "ours, answered range, squares 0": ("quotient", "answered_range"),
    "ours, answered range, squares 3": ("quotient_squares", "answered_range"),
}
TRUE_QUOTIENT = (Fraction(1, 2), Fraction(8, 5))
# How much wider than the exact values the answered range may be, in units.
ALLOWED = 10


def check_quotient(which, *shown) -> None:
    """A range of xy/z, low, high and width, as numbers and in units: ours as the checker works it, another one as it was published."""
    decimals, units = shown[:3], shown[3:]
    if which == "the exact values":
        low, high = TRUE_QUOTIENT
        expect(f"examples/README.md: {which}", [*map(Fraction, decimals)], [low, high, high - low])
    if which not in QUOTIENTS:
        low, high, width = map(float, decimals)
        expect(f"examples/README.md: {which}, width", round(width, 6), round(high - low, 6))
        expect(f"examples/README.md: {which} in units", list(units), [f"{rows.UNIT * number:.1f}" for number in (low, high, width)])
        return
    name, kind = QUOTIENTS[which]
    low, high = getattr(worked_row((ROOT / "examples" / f"{name}.sheet").read_bytes(), 6), kind)
    expect(f"examples/README.md: {which} in units", [*map(int, units)], [low, high, high - low])
    expect(f"examples/README.md: {which}", list(decimals), [f"{end / rows.UNIT:.7f}" for end in (low, high, high - low)])
    if kind == "answered_range":
        exact = rows.UNIT * (TRUE_QUOTIENT[1] - TRUE_QUOTIENT[0])
        expect(f"examples/README.md: {which}, at most {ALLOWED} units wider than the exact values", high - low - exact <= ALLOWED, True)


def check_example_sheet(name, prints, why) -> None:
    """A sheet of examples/README.md prints its listing, or its refusal."""
    path = ROOT / "examples" / f"{name.strip('`')}.sheet"
    lines = listed(path.read_bytes()) if path.is_file() else [["no", "file"]]
    refused = len(lines) == 1 and len(lines[0]) == 2
    expect(f"examples/README.md: {name}", prints, f"`{' '.join(lines[0])}`" if refused else "the listing")


def check_example_formula(name, prints, why) -> None:
    """A formula of examples/README.md makes its sheet, or is refused."""
    path = ROOT / "examples" / f"{name.strip('`')}.formula"
    words = path.read_text().split() if path.is_file() else []
    lines = subprocess.run([ROOT / "target/bin/formula", *words], stdout=subprocess.PIPE).stdout.decode().splitlines()
    refused = len(lines) == 2 and lines[0] == "refused place"
    expect(f"examples/README.md: {name}", prints, f"`{lines[1]}`" if refused else "the sheet")


def check_formula_row(row, part, step) -> None:
    """A row of the manual's formula over three inputs is made by this step."""
    made = formula.read(3, 0, [(0, 0)] * 3, b"(a+8192)*b/c").schedule.steps[int(row) - 4]
    expect(f"{MANUAL}: row {row} of the formula", step.strip("`"), " ".join(map(str, made)))


def check_letter(letter, what, *known) -> None:
    """What is known of an input of `hours.formula` makes its ends: low rounded down, high rounded up."""
    words = (ROOT / "examples/hours.formula").read_text().split()[2:]
    place = 2 * (ord(letter.strip("`")) - ord("a"))
    low, high = (Fraction(text) * rows.UNIT for text in known)
    expect(f"{MANUAL}: the ends of {what}", [math.floor(low), math.ceil(high)], [*map(int, words[place : place + 2])])


TABLES = [
    (MANUAL, "| example | squares | ends | steps | shown | centre | symbol 1 | pair (1,1) | own | own range | low | high |", check_example, 27),
    (MANUAL, "| row | its centre | its symbol 1 | its symbol 2 | numbers of the second table | low | high |", check_lent, 3),
    (MANUAL, "| field | from | to |", check_field, len(FIELDS)),
    (MANUAL, "| number of the row, from 0 | holds |", check_places, len(PLACES)),
    (MANUAL, "| pairs | numbers |", check_pairs, sheet.INPUTS_LIMIT),
    (MANUAL, "| what | how much |", check_size, len(SIZES)),
    (MANUAL, "| row | is the part | step |", check_formula_row, 5),
    (MANUAL, "| letter | input | from | to |", check_letter, sheet.INPUTS_LIMIT),
    (
        MANUAL,
        "| sheets of multiplies | sheets | mean error, down | mean error, nearest | mean own width, down | mean own width, nearest "
        "| mean answered width, down | mean answered width, nearest |",
        check_drift,
        len(drift.KINDS),
    ),
    (MANUAL, "| sheet | row | own range | plain range | answered range |", check_ranges, 7),
    (
        MANUAL,
        "| rows | how many | narrower than own | left | narrower than plain | left | narrower than both | narrower than intervals alone | left |",
        check_overlap,
        len(overlap.KINDS),
    ),
    ("examples/README.md", "| range of xy/z | low | high | width | low in units | high in units | width in units |", check_quotient, 4 + len(QUOTIENTS)),
    ("examples/README.md", "| sheet | prints | why |", check_example_sheet, len([*ROOT.glob("examples/*.sheet")])),
    ("examples/README.md", "| formula | prints | why |", check_example_formula, len([*ROOT.glob("examples/*.formula")])),
]


def check_table(prose, document: str, header: str, check, count: int) -> None:
    found = table(prose, header)
    expect(f"{document}: rows under {header}", len(found), count)
    for row in found:
        check(*row)


def main() -> int:
    parts = {document: split((ROOT / document).read_text()) for document in DOCUMENTS}
    run = [line[2:] for blocks, _ in parts.values() for kind, lines in blocks if kind == "console" for line in lines if line.startswith("$ ")]
    sums = 0
    for document, (blocks, prose) in parts.items():
        check_blocks(document, blocks)
        check_plain(document, prose)
        sums += check_spans(document, prose, run)
    check_repeated(" ".join(line for _, prose in parts.values() for line in prose))
    references = check_references(check_sections(parts[MANUAL][1]))
    for document, *rest in TABLES:
        check_table(parts[document][1], document, *rest)
    print(f"{len(run)} commands shown, {sums} sums, {references} references to sections")
    print(f"{passed} passed, {len(failures)} failed")
    return 1 if failures or not (run and sums and references) else 0


if __name__ == "__main__":
    sys.exit(main())
