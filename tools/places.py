#!/usr/bin/env python3
"""Lists the places of docs/DESIGN-PASS.md: functions, types and loops of src/ that a form of the language could serve better.

    python3 tools/places.py            the counts, of the files as they stand
    python3 tools/places.py -v         each place too
    python3 tools/places.py -v COMMIT  of a commit

A place is found by its text: a shape of a type, a test, a loop, a contract. What is found is read by a person; what stays has its reason beside it in the code.
"""
import collections
import difflib
import re
import subprocess
import sys


def sources(commit):
    """Path and text of each file of src/."""
    if commit is None:
        names = subprocess.run(["git", "ls-files", "crates/*/src/*.rt"], capture_output=True, text=True, check=True).stdout.split()
        return [(name, open(name, encoding="utf-8").read()) for name in names]
    names = subprocess.run(["git", "ls-tree", "-r", "--name-only", commit, "crates/"], capture_output=True, text=True, check=True).stdout.split()
    show = lambda name: subprocess.run(["git", "show", f"{commit}:{name}"], capture_output=True, text=True, check=True).stdout
    return [(name, show(name)) for name in names if re.fullmatch(r"crates/\w+/src/.*\.rt", name)]


Item = collections.namedtuple("Item", "where kind name head body")


def items(path, text):
    """The functions, structs and enums of a file, with what stands before the first brace of the body and the body."""
    text = re.sub(r"^\s*//.*$", "", text, flags=re.M)
    short = path.replace("crates/", "").replace("/src/", "/")
    for start in re.finditer(r"^[ \t]*(?:pub(?:\(crate\))? )?(fn|struct|enum) (\w+)", text, flags=re.M):
        indent = re.match(r"[ \t]*", start.group(0)).group(0)
        rest = text[start.start():]
        end = re.search(rf"^{indent}\}}[ \t]*$|^[^\n]*;[ \t]*$|^[^\n]*\{{[^\n]*\}}[ \t]*$", rest, flags=re.M)
        if start.group(1) == "fn":
            end = re.search(rf"^{indent}\}}[ \t]*$", rest, flags=re.M)
        whole = rest[: end.end()] if end else rest
        brace = re.search(rf"^{indent}\{{[ \t]*$|\{{[ \t]*$", whole, flags=re.M)
        head, body = (whole[: brace.start()], whole[brace.start():]) if brace else (whole, "")
        yield Item(f"{short}:{start.group(2)}", start.group(1), start.group(2), head, body)


FLAGS = r"(?:status|ok|within|wrong|whole|done|refusal|number|beyond)"


def own_options(all_items):
    """1: types of the shape of Option or Result, values that stand for none, numbers for kinds and refusals."""
    for item in all_items:
        if item.kind == "struct" and re.search(rf"^\s*(?:pub )?{FLAGS}\s*:", item.body, flags=re.M):
            yield item.where
        elif item.kind == "enum" and re.search(r"^\s*(?:Broken|Failed|Accepted|Other)\b", item.body, flags=re.M):
            yield item.where
        elif item.kind == "fn" and (
            re.search(rf"\b(?:{FLAGS}) (?:!=|==) \d|\.(?:ok|within|whole|done)\b", item.body)
            or re.search(r"\bRefusal \{|Field::Broken|Word::Other|== NONE|\bNONE\b|number: \d", item.body)
            or re.search(r"\bcode (?:==|<=|>=|<|>) |match code\b", item.body)
            or re.search(r"return 10\b|\b10 <= d\b|\bd < 10\b|9 < d\b|_ => 10\b", item.body)
        ):
            yield item.where


def skeleton(item):
    """The tokens of a body with one name for all names, one number for all numbers and one sign for + and -."""
    tokens = re.findall(r"[A-Za-z_]\w*|\d+|\S", item.body)
    words = {"if", "else", "while", "for", "in", "return", "let", "mut", "match", "as", "true", "false"}
    return [t if t in words else "x" if re.match(r"[A-Za-z_]", t) else "1" if t.isdigit() else "+" if t in "+-" else t for t in tokens]


def twins(all_items):
    """2: pairs of functions whose bodies are alike but for names, numbers and signs."""
    functions = [(item, skeleton(item)) for item in all_items if item.kind == "fn"]
    functions = [(item, tokens) for item, tokens in functions if len(tokens) >= 24]
    for i, (a, s) in enumerate(functions):
        for b, t in functions[i + 1:]:
            if min(len(s), len(t)) * 1.2 < max(len(s), len(t)):
                continue
            matcher = difflib.SequenceMatcher(None, s, t, autojunk=False)
            if matcher.quick_ratio() >= 0.93 and matcher.ratio() >= 0.93:
                yield f"{a.where} ~ {b.where}"


def hand_loops(all_items):
    """3: loops that count by hand."""
    for item in all_items:
        for loop in re.findall(r"\bwhile [^{]*", item.body):
            yield f"{item.where}: {loop.strip()}"


def by_hand(all_items):
    """4: order, absolute values, copies, conversions and printing written out."""
    patterns = {
        "the less or the greater": r"if (\w+) <=? (\w+) \{ (?:\1|\2) \} else \{ (?:\1|\2|\w+ \+ 1|MAX_\w+|0) \}",
        "an absolute value": r"-1 - \w+\) as u64",
        "0 for what is below 0": r"if \w+ [<>] 0 \{ (?:0|\w+ as \w+) \} else",
        "a copy by element": r"\b\w+\[[^\]]+\] = (?:\w+\[\w+\]|x|value|e);",
        "a minus printed by hand": r'print!\(rt; "-"\)',
        "bytes by number": r"(?:==|<|<=) (?:48|57|45|32|10)\b|\+ 48\b|- 48\b",
        "a byte's kind by tests in a row": r"b == b'.'[^}]*\} else if b == b'",
        "numbers of an enum's cases": r"=> \d+,\s*\w+::\w+ => \d+",
        "a table of numbers by match": r"\d+ => -?\d+,\s*\d+ => -?\d+",
        "element by element equality": r"if (?:v|s\[[^\]]+\]) != (?:w|t\[[^\]]+\])",
    }
    for item in all_items:
        if item.kind == "fn":
            for name, pattern in patterns.items():
                if re.search(pattern, item.body):
                    yield f"{item.where}: {name}"


def facts(all_items):
    """5: facts of contracts that stand in three functions or more, and parameters that travel together through three or more."""
    conjuncts = collections.defaultdict(set)
    groups = collections.defaultdict(set)
    for item in all_items:
        if item.kind != "fn":
            continue
        for clause in re.findall(r"requires \w* ?\{ (.*) \}", item.head):
            for fact in re.split(r" × ", clause):
                conjuncts[fact.strip().strip("()")].add(item.where)
        params = re.search(r"\((.*?)\)\s*(?:->|$|\n\s*requires|\n\s*ensures)", item.head, flags=re.S)
        names = re.findall(r"(\w+): ([^,\n]+)", params.group(1)) if params else []
        names = [f"{name}: {re.sub(chr(39) + '[a-z]+ ', '', kind).strip()}" for name, kind in names if name != "rt"]
        for i in range(len(names) - 2):
            groups[", ".join(names[i: i + 3])].add(item.where)
    for fact, places in sorted(conjuncts.items()):
        if len(places) >= 3:
            yield f"{fact}  in {len(places)}"
    for group, places in sorted(groups.items()):
        if len(places) >= 3:
            yield f"({group})  in {len(places)}"


def lengths_beside(all_items):
    """6: a buffer and a length or a position beside it."""
    for item in all_items:
        if item.kind == "fn" and re.search(r"\[u8(?:; [\w:]+)?\],?\s+(?:n|at): usize|\(out: &mut \[i64\], at: usize", item.head):
            yield item.where
        elif item.kind == "struct" and re.search(r"\[\w+; \w+\]", item.body) and re.search(r"(?:count|inputs|steps|length|n|next)\s*:\s*(?:i64|usize)", item.body):
            yield item.where


def switches(all_items):
    """7: a number or a kind that is tested to choose the step to run."""
    for item in all_items:
        if item.kind == "fn" and re.search(r"match code\b|code == \d[^;]*;?[\s\S]*code == \d|if code ==", item.body):
            yield item.where


POINTS = [own_options, twins, hand_loops, by_hand, facts, lengths_beside, switches]


def main():
    arguments = [a for a in sys.argv[1:] if a != "-v"]
    commit = arguments[0] if arguments else None
    found = [item for path, text in sources(commit) for item in items(path, text)]
    for number, point in enumerate(POINTS, 1):
        places = sorted(set(point(found))) if point is not hand_loops else list(point(found))
        print(f"{number} {len(places):4}  {point.__doc__.split(': ', 1)[1]}")
        if "-v" in sys.argv:
            for place in places:
                print(f"         {place}")


main()
