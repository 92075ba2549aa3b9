#!/usr/bin/env python3
"""Respells the repository's own definitions, lemmas, fields and variables: words in snake case, facts and types in camel case.

usage: respell.py [--list]        at the top of the repository, once, right after port.py; --list writes nothing and prints the names

A word has its humps and dashes turned to '_', as in floorQuotient -> floor_quotient and nearest-unique -> nearest_unique. A dash stays
before an operator's name, as in zero-*R. A name that begins with a capital is a type or a fact: Nearest-unique -> NearestUnique. Names
that would fall together with another are listed in APART. Rewritten are the .antt files, the clauses of the .rt files, the must-fail
edits, and in the pages what stands between backticks. Functions of src/, strings, inputs and outputs keep their names.
"""
import os
import re
import sys

W = r"[^\s(){}.;,@\"«»\[\]\\`]+"
WORD = re.compile(W)
DECLARES = re.compile(
    r"^\s*(?:(?:abbrev|unfoldable|pub|ruleset)\s+)*(?:(?:record|data)\s+)?(" + W + r")(?=[\s({].*:|\s*:)(?:.*?)\s:(?:\s|$)"
)
HEADS = re.compile(r"^\s*(use|pub use|mod|pub mod|infix)\b")
# Names that would otherwise be those of another definition beside them.
APART = {
    "Is-nearest": "QuotientIsNearest",
    "Is-root": "RootIsRoot",
    "Is-floor-root": "FloorRootIsRoot",
    "Demand-3": "Demand3Holds",
    "noFormula": "no_formula_refusal",
    "own-at": "own_range_at",
    # a lemma that would have its function's name
    "accepted-row": "accepted_row_lem",
    "counts-pass": "counts_pass_lem",
    "digit-of": "digit_of_lem",
    "front_length": "front_length_lem",
    "front-value": "front_value_lem",
    "input-answer": "input_answer_lem",
    "linear-totals": "linear_totals_lem",
    "named-range": "named_range_lem",
    "named-row": "named_row_lem",
    "named_value": "named_value_lem",
    "names-told": "names_told_lem",
    "own-of": "own_of_lem",
    "pair-totals": "pair_totals_lem",
    "plain_step": "plain_step_lem",
    "product-own": "product_own_lem",
    "range-told": "range_told_lem",
    "ranges-of": "ranges_of_lem",
    "read-lines": "read_lines_lem",
    "reciprocal-own": "reciprocal_own_lem",
    "root-own": "root_own_lem",
    "root_in": "root_in_lem",
    "row-of": "row_of_lem",
    "sheet-of": "sheet_of_lem",
    "sign-value": "sign_value_lem",
    "step-answer": "step_answer_lem",
    "step-at": "step_at_lem",
    "step_in": "step_in_lem",
    "steps-beyond": "steps_beyond_lem",
    "symbols-of": "symbols_of_lem",
    "token-of": "token_of_lem",
    "values-read": "values_read_lem",
    "values-told": "values_told_lem",
    "within-limit": "within_limit_lem",
}
# Names of the library, which have its spelling.
KEPT = set("get_or-eq_default le-leb length-replicate mul-zero to_z-of_z zero-add".split())
# Words of the library that its own respelling has turned.
LIBRARY = [("getD", "get_or"), ("natAbs", "nat_abs"), ("get_d", "get_or")]


def files(end, tops=("crates",)):
    for top in tops:
        for folder, dirs, names in os.walk(top):
            dirs[:] = sorted(d for d in dirs if d not in ("out", ".git", "target"))
            yield from (os.path.join(folder, n) for n in sorted(names) if n.endswith(end))


def read(path):
    with open(path, encoding="utf-8", newline="") as f:
        return f.read()


def respelled(name):
    if name.startswith("◌"):
        return name
    if name in APART:
        return APART[name]
    if re.match(r"[A-Z]", name):
        parts = name.split("-")
        return "".join(p[:1].upper() + p[1:] for p in parts)
    out = name.replace("′", "'")
    for old, new in LIBRARY:
        out = re.sub(rf"(?<![A-Za-z]){old}(?![a-z])", new, out)
    out = re.sub(r"(?<=[a-z0-9])([A-Z])", lambda m: "_" + m[1].lower(), out)
    out = re.sub(r"(?<=[a-z])([ℤℚℕ])", r"_\1", out)
    return re.sub(r"-(?=[\w])", "_", out) if not out.startswith("-") else out


def declared():
    """The names that this repository declares, and of these the fields: name -> files."""
    names, fields, bound = {}, set(), set()
    for path in files(".antt"):
        generated_types = re.search(r"/proofs/.+/(Proof|Answers|Invariants)\.antt$", path) is not None
        in_record = False
        for line in read(path).split("\n"):
            if line.lstrip().startswith("--"):
                continue
            m = DECLARES.match(line)
            if m and not HEADS.match(line):
                names.setdefault(m[1], set()).add(path)
                if line[:1] == " ":
                    fields.add(m[1])
            for m in re.finditer(r"(?:let |λ )((?:" + W + r"\s+)*?)(" + W + r")\s*(?=[:=.])", line):
                bound.update((m[1] + " " + m[2]).split())
            for m in re.finditer(r"[({]((?:" + W + r"\s+)*" + W + r")\s+:\s", line):
                bound.update(m[1].split())
            m = re.match(r"^(\s*)(" + W + r")((?:\s+[^\s=]+)*)\s+=(\s|$)", line)
            if m and not HEADS.match(line):
                bound.update(WORD.findall(m[3]))
    return names, fields, bound


def turned(names, bound):
    every = set(names) | bound
    return {n: respelled(n) for n in every if n not in KEPT and respelled(n) != n and not n.startswith(("tie", "Need-")) and re.search(r"[^\W\d]", n)}


def clash(names, bound, turn):
    """New names that two old ones share, or that a name had before."""
    by_new = {}
    for n in set(names) | bound:
        by_new.setdefault(turn.get(n, n), set()).add(n)
    return {new: olds for new, olds in by_new.items() if len(olds) > 1}


PATH = re.compile(W + r"(?:\." + W + r")*")


def turn_path(path, turn, fields):
    parts = path.split(".")
    if parts[0] == "tie":
        return path
    module = parts[0] in ("Rattle",) or re.match(r"[A-Z]", parts[0]) or parts[0] in ("interval", "Spec")
    out = []
    for i, it in enumerate(parts):
        if parts[0] == "Rattle" and i < len(parts) - 1:
            out.append(it)
        elif i == 0 or module or it in fields:
            out.append(turn.get(it, it))
        else:
            out.append(it)
    return ".".join(out)


def in_code(text, turn, fields):
    """Antt text that has no comment."""
    return PATH.sub(lambda m: turn_path(m[0], turn, fields), text)


def in_comment(text, turn, fields, names):
    def quoted(m):
        return "`" + in_code(m[1], {k: v for k, v in turn.items() if k in names}, fields) + "`"

    text = re.sub(r"`([^`]*)`", quoted, text)
    humps = lambda m: turn[m[0]] if m[0] in turn and m[0] in names and re.search(r"[a-z][A-Z]", m[0]) else m[0]
    return re.sub(r"(?<![\w`-])[a-z]\w*[A-Z]\w*(?![\w-])", humps, text)


def in_antt(text, turn, fields, names):
    out = []
    for line in text.split("\n"):
        m = re.search(r"(^|\s)--(\s|$)", line)
        if m:
            at = m.start()
            out.append(in_code(line[:at], turn, fields) + in_comment(line[at:], turn, fields, names))
        else:
            out.append(in_code(line, turn, fields))
    return "\n".join(out)


def in_rt(text, turn, fields, names):
    """In .rt files: the ghost use lines, the clauses, and quoted names of comments."""
    out, depth = [], 0
    for line in text.split("\n"):
        at = line.find("//")
        code, comment = (line[:at], line[at:]) if at >= 0 and '"' not in line[:at] else (line, "")
        clause = depth > 0 or re.match(r"\s*(pub )?ghost\b|\s*(requires|ensures)\b", code)
        if clause:
            turned_code = in_code(code, turn, fields)
            depth += code.count("{") - code.count("}")
            depth = max(depth, 0)
        else:
            turned_code = code
        out.append(turned_code + in_comment(comment, turn, fields, names))
    return "\n".join(out)


def in_edit(text, turn, fields, names):
    out, of = [], ""
    for line in text.split("\n"):
        m = re.match(r"(old|new): ?(.*)$", line)
        f = re.match(r"file: ?(.*)$", line)
        of = f[1] if f else of
        if m and of.endswith(".antt"):
            line = m[1] + ": " + in_antt(m[2], turn, fields, names)
        elif m and re.match(r"\s*(pub )?ghost\b|\s*(requires|ensures)\b", m[2]):
            line = m[1] + ": " + in_rt(m[2], turn, fields, names)
        out.append(line)
    return "\n".join(out)


def in_page(text, turn, names):
    only = {k: v for k, v in turn.items() if k in names}
    return re.sub(r"`([^`\n]+)`", lambda m: "`" + PATH.sub(lambda p: only.get(p[0], p[0]), m[1]) + "`", text)


def write(path, new):
    if new != read(path):
        with open(path, "w", encoding="utf-8", newline="") as f:
            f.write(new)


def main():
    names, fields, bound = declared()
    turn = turned(names, bound)
    if "--list" in sys.argv:
        for new, olds in sorted(clash(names, bound, turn).items()):
            print("together:", new, "<-", " ".join(f"{o}[{' '.join(sorted(os.path.relpath(p, 'crates') for p in names.get(o, ['bound'])))[:160]}]" for o in sorted(olds)))
        for n, new in sorted(turn.items()):
            print(n, "->", new)
        return
    for path in files(".antt"):
        write(path, in_antt(read(path), turn, fields, names))
    for path in files(".rt"):
        write(path, in_rt(read(path), turn, fields, names))
    for path in files(".edit"):
        write(path, in_edit(read(path), turn, fields, names))
    for path in ["README.md", *files(".md", ("docs", "examples", "checker", "bench"))]:
        if os.path.basename(path) not in ("PORT.md",):
            write(path, in_page(read(path), turn, names))


if __name__ == "__main__":
    main()
