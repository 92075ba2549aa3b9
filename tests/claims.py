#!/usr/bin/env python3
"""Finds what could be lost unseen: statements in a crate's specs/ that no contract has, and promises that changed.

1. A claim is a statement without parameters in specs/: an `abbrev` or an `unfoldable` whose type is `Type 0`, or such a `record` of facts alone. It is certain to be proved only where a
   function's contract has it: then the crate's check fails as soon as its proof is gone. So each claim must be a clause `ensures` of some function in
   crates/*/src that has no `requires`, whole or one of the facts that a clause joins by ×, or it must be a part of another claim; a comment, or a clause in which
   it is only a premise, does not count.
2. Every other definition in specs/ must be reached from a clause or a ghost field in crates/*/src, by way of other definitions: what no contract needs would be
   read for nothing, and a statement that only proofs name can be lost.
3. What the public functions of the libraries and the functions of both programs promise, clause by clause, and the fields of each record in specs/, are those that
   tests/promises.txt has: a clause that is dropped, that gets a premise or becomes a `requires`, and a field that goes, fail here. The file is no proof of anything;
   it asks whoever changes a promise to do so twice, and to say so in docs/CHANGES.md. `tests/claims.py --write` makes it anew.

The last line is 'N passed, M failed', with a line above it for each failure.
"""

import difflib
import re
import sys
import tempfile
from pathlib import Path

ROOT = Path(__file__).resolve().parent.parent
PROMISES = ROOT / "tests" / "promises.txt"
LIBRARIES = ("capacity", "integer", "affine", "interval", "sheet", "evaluation", "formulas", "listing", "streams")
PROGRAMS = ("ranges", "formula")

PATH = r"[\w«»]+(?:\.[\w«»]+)*"
CLAIM = re.compile(r"^\s*(?:(?:abbrev|unfoldable) pub|pub (?:abbrev|unfoldable|record)) ([^\s({:]+) : Type 0(?: where)?\s*$", re.M)
DEFINITION = re.compile(r"^(?:(?:abbrev|unfoldable) pub|pub (?:abbrev|unfoldable|record|data)|pub)\s+(?!use\b|mod\b)([^\s({:]+)", re.M)
RECORD = re.compile(r"^pub record ([^\s({:]+)", re.M)
FIELD = re.compile(r"^  pub ([^\s({:]+)", re.M)
FACT = re.compile("[≡≢≤<≈↔⊎¬⊥]")
IMPORT = re.compile(rf"^(?:ghost |pub |    ghost )?use\s+({PATH})(?:\.\{{([^}}]*)\}})?(?:\s+as\s+(\w+))?", re.M)
FUNCTION = re.compile(r"\b(pub(?:\(crate\))? )?(?:const )?fn (\w+)")
CLAUSE = re.compile(r"\s*(requires|ensures)(\*?)(?:\s+(\w+))?\s*\{")
GHOST = re.compile(r"\bghost\s+\w+\s*(?::|=)\s*\{|\b(?:requires|ensures)\*?(?:\s+\w+)?\s*\{")
WORD = re.compile(r"[^\s(){}\[\];,λ]+")


def module_of(root, path):
    """The module that a file of specs/ is, as imports name it."""
    crate = path.relative_to(root / "crates").parts[0]
    below = path.relative_to(root / "crates" / crate / "specs").with_suffix("").parts
    return ".".join(("Rattle", crate, "specs") + below)


def specs_of(root):
    """Each file of specs/: its module and its text without comments."""
    for path in sorted(root.glob("crates/*/specs/**/*.antt")):
        yield module_of(root, path), re.sub(r"--[^\n]*", "", path.read_text())


def sources_of(root):
    """Each Rattle source: its path, and its text with comments blanked."""
    for path in sorted(root.glob("crates/*/src/**/*.rt")):
        text = re.sub(r'("(?:\\.|[^"\\])*")|//[^\n]*|/\*.*?\*/', lambda found: found.group(1) or " ", path.read_text(), flags=re.S)
        yield path.relative_to(root / "crates"), text


def imports_of(text):
    """What a file's names mean: each name, and each module under another name."""
    names, modules = {}, {}
    for found in IMPORT.finditer(text):
        if found.group(2) is None:
            modules[found.group(3) or found.group(1).split(".")[-1]] = found.group(1)
            continue
        for item in found.group(2).split(","):
            words = item.split()
            if words:
                names[words[-1]] = (found.group(1), words[0])
    return names, modules


def meant(word, names, modules):
    """The definition that a word of a file means, if it is imported; of an operator as it is written between its operands too."""
    for spelled in (word, f"◌{word}◌"):
        if spelled in names:
            return names[spelled]
    first, _, rest = word.partition(".")
    if rest and first in modules:
        return modules[first], rest
    return names.get(first)


def braced(text, at):
    """The text from a position up to the brace that closes it, and the position behind that brace."""
    depth, end = 1, at
    while end < len(text) and depth:
        depth += {"{": 1, "}": -1}.get(text[end], 0)
        end += 1
    return text[at : end - 1], end


def functions_of(text):
    """Each function with a contract: whether it is public, its name, and its clauses (kind, label, text), in the order in which they stand."""
    for found in FUNCTION.finditer(text):
        start = re.compile(r"\b(?:requires|ensures)\b|\{|;").search(text, found.end())
        at, clauses = start.start() if start else len(text), []
        while clause := CLAUSE.match(text, at):
            said, at = braced(text, clause.end())
            clauses.append((clause.group(1) + clause.group(2), clause.group(3) or "", " ".join(said.split())))
        if clauses:
            yield found.group(1) == "pub ", found.group(2), clauses


def facts_of(clause):
    """The facts that a clause joins by ×, each without brackets around it; a clause that says more than that of them is one fact."""
    clause = clause.strip()
    parts, depth, start = [], 0, 0
    for at, sign in enumerate(clause):
        depth += {"(": 1, "{": 1, ")": -1, "}": -1}.get(sign, 0)
        if depth == 0 and sign in "→↔⊎λ¬":
            return [clause]
        if depth == 0 and sign == "×":
            parts.append(clause[start:at])
            start = at + 1
    if parts:
        return [fact for part in parts + [clause[start:]] for fact in facts_of(part)]
    if clause.startswith("(") and clause.endswith(")") and braces_match(clause):
        return facts_of(clause[1:-1])
    return [clause]


def braces_match(clause):
    """Whether the first bracket of a clause is closed by its last."""
    depth = 0
    for at, sign in enumerate(clause):
        depth += {"(": 1, ")": -1}.get(sign, 0)
        if depth == 0:
            return at == len(clause) - 1
    return False


def body_of(text, one, after):
    """What a definition says: its text up to the next one, its signature aside."""
    return text[one.end() : after.start() if after else len(text)]


def of_facts(body):
    """Whether each field of a record is a fact, and none is data."""
    starts = [found.start() for found in FIELD.finditer(body)]
    return bool(starts) and all(FACT.search(body[a:b]) for a, b in zip(starts, starts[1:] + [len(body)]))


def unnamed(root):
    """All claims, and those of them that are no fact of a clause, nor of a claim that is one."""
    claims, parts = [], {}
    for module, text in specs_of(root):
        names, modules = imports_of(text)
        found = list(DEFINITION.finditer(text))
        names.update({one.group(1): (module, one.group(1)) for one in found})
        own = set(CLAIM.findall(text))
        for one, after in zip(found, found[1:] + [None]):
            if one.group(1) in own and (not RECORD.match(text, one.start()) or of_facts(body_of(text, one, after))):
                claims.append((module, one.group(1)))
                said = body_of(text, one, after).partition("\n" + one.group(1) + " =")[2]
                parts[claims[-1]] = {meant(fact, names, modules) for fact in facts_of(" ".join(said.split()))}
    stands = set()
    for _, text in sources_of(root):
        names, modules = imports_of(text)
        for _, _, clauses in functions_of(text):
            if all(kind.startswith("ensures") for kind, _, _ in clauses):
                stands |= {meant(fact, names, modules) for _, _, said in clauses for fact in facts_of(said)}
    left = [claim for claim in claims if claim in stands]
    while left:
        more = parts[left.pop()] - stands
        stands |= more
        left += [claim for claim in more if claim in parts]
    return claims, [claim for claim in claims if claim not in stands]


def definitions_of(module, text):
    """Each definition of a file as (module, name), with those that its text names."""
    names, modules = imports_of(text)
    found = list(DEFINITION.finditer(text))
    names.update({one.group(1): (module, one.group(1)) for one in found})
    for one, after in zip(found, found[1:] + [None]):
        yield (module, one.group(1)), {meant(word, names, modules) for word in WORD.findall(body_of(text, one, after))}


def unreached(root):
    """All definitions, and those of them that no clause and no ghost field reaches."""
    named = {one: others for module, text in specs_of(root) for one, others in definitions_of(module, text)}
    reached, left = set(), []
    for _, text in sources_of(root):
        names, modules = imports_of(text)
        for found in GHOST.finditer(text):
            left += [meant(word, names, modules) for word in WORD.findall(braced(text, found.end())[0])]
    while left:
        one = left.pop()
        if one in named and one not in reached:
            reached.add(one)
            left += named[one]
    return list(named), [one for one in named if one not in reached]


def promises_of(root):
    """What is promised: each contract, clause by clause, and the fields of each record, a line each."""
    for path, text in sources_of(root):
        crate = path.parts[0]
        for public, name, clauses in functions_of(text):
            if crate in PROGRAMS or crate in LIBRARIES and public:
                yield f"{crate}/{'/'.join(path.parts[2:])}: fn {name}"
                yield from (f"    {kind}{' ' + label if label else ''}: {said}" for kind, label, said in clauses)
    for module, text in specs_of(root):
        found = list(DEFINITION.finditer(text))
        for one, after in zip(found, found[1:] + [None]):
            if RECORD.match(text, one.start()):
                yield f"{module}.{one.group(1)}: {' '.join(FIELD.findall(body_of(text, one, after)))}"


def finds_what_it_should():
    """Whether this script tells claims that stand on contracts from those that do not, definitions that contracts reach from others, and a promise from one that
    is weaker, by a small repository of all."""
    specs = "use Rattle.a.specs.E.{below, ◌⊕◌}\n"
    specs += "\n".join(f"abbrev pub {name} : Type 0\n{name} = ℕ" for name in "Alone Joined Aliased Required Premise Commented Missing Behind Kept Part".split())
    specs += "\nabbrev pub Whole : Type 0\nWhole = Part × (InRecord × Unfolded)\npub record InRecord : Type 0 where\n  pub is : 1 ≡ 1\nunfoldable pub Unfolded : Type 0\nUnfolded = ℕ\n"
    specs += "\n-- abbrev pub Noted : Type 0\nunfoldable pub sum : ℕ → ℕ\nsum n = below n ⊕ n\npub record Data : Type 0 where\n  pub size : ℕ\n  pub small : size < 5\npub record Odd (n : ℕ) : Type 0 where\n  pub is : n ≡ Missing\n  pub more : n ≡ n\n"
    source = """
ghost use Rattle.a.specs.C.{Alone, Joined as Both, Required,
    Premise, Commented, Behind, Kept, Whole, sum};
ghost use Rattle.a.specs.C as Other;
// ensures { Commented }
pub fn one() ensures { Alone } {}
pub fn two() ensures both { (1 ≡ 1) × Both } ensures implied { Premise → 1 ≡ 1 } {}
pub fn three() ensures { Other.Aliased } {}
pub fn four(n: u64) -> u64 ensures { result ≡ sum n } { n }
pub fn five() requires { Required } ensures { Required } {}
pub fn six() ensures { 0 ≡ 1 → (1 ≡ 1) × Behind } ensures kept { (0 ≡ 1) ⊎ Kept } {}
pub fn seven() ensures { Whole } { let x = Odd; }
"""
    files = {
        "specs/C.antt": specs,
        "specs/D.antt": "abbrev pub Alone : Type 0\n",
        "specs/E.antt": "abbrev pub below : ℕ → ℕ\nbelow n = n\nunfoldable pub ◌⊕◌ : ℕ → ℕ → ℕ\na ⊕ b = a\nabbrev pub above : ℕ → ℕ\nabove n = below n\n",
        "src/lib.rt": source,
    }
    lost_wanted = {("Rattle.a.specs.C", name) for name in ("Required", "Premise", "Commented", "Missing", "Behind", "Kept")} | {("Rattle.a.specs.D", "Alone")}
    loose_wanted = {("Rattle.a.specs.C", name) for name in ("Commented", "Missing", "Data", "Odd")} | {("Rattle.a.specs.D", "Alone"), ("Rattle.a.specs.E", "above")}
    with tempfile.TemporaryDirectory() as folder:
        root = Path(folder)
        for name, text in files.items():
            path = root / "crates" / "sheet" / name
            path.parent.mkdir(parents=True, exist_ok=True)
            path.write_text(text.replace("Rattle.a.", "Rattle.sheet."))
        wanted = lambda pairs: {(module.replace("Rattle.a.", "Rattle.sheet."), name) for module, name in pairs}
        claims, lost = unnamed(root)
        named, loose = unreached(root)
        found = len(claims) == 14 and set(lost) == wanted(lost_wanted) and len(named) == 20 and set(loose) == wanted(loose_wanted)
        promised = list(promises_of(root))
        for old, new in (("{ Alone }", "{ 0 ≡ 1 → Alone }"), (" ensures implied { Premise → 1 ≡ 1 }", ""), ("ensures { Whole }", "requires { Whole }")):
            (root / "crates/sheet/src/lib.rt").write_text(source.replace("Rattle.a.", "Rattle.sheet.").replace(old, new))
            found = found and list(promises_of(root)) != promised
        (root / "crates/sheet/src/lib.rt").write_text(source.replace("Rattle.a.", "Rattle.sheet."))
        found = found and list(promises_of(root)) == promised
        (root / "crates/sheet/specs/C.antt").write_text(specs.replace("Rattle.a.", "Rattle.sheet.").replace("  pub more : n ≡ n\n", ""))
        return found and list(promises_of(root)) != promised


def main():
    promised = list(promises_of(ROOT))
    if sys.argv[1:] == ["--write"]:
        PROMISES.write_text("".join(line + "\n" for line in promised))
        return 0
    failures = [] if finds_what_it_should() else ["the script does not find what it should"]
    claims, lost = unnamed(ROOT)
    definitions, loose = unreached(ROOT)
    if not claims or not definitions or not promised:
        failures.append("no claim, no definition or no promise was found")
    failures += [f"{module}.{name} stands on no contract" for module, name in lost]
    failures += [f"{module}.{name} is reached from no contract" for module, name in loose if (module, name) not in lost]
    changed = [line for line in difflib.ndiff(PROMISES.read_text().splitlines(), promised) if line[0] in "-+"]
    failures += [f"tests/promises.txt {'has' if line[0] == '-' else 'lacks'} {line[2:].strip()}" for line in changed]
    for failure in failures:
        print(f"claims: {failure}")
    print(f"{len(definitions) + len(promised) + 1 - len(failures)} passed, {len(failures)} failed")
    return 1 if failures else 0


if __name__ == "__main__":
    sys.exit(main())
