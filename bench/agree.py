"""Runs all four programs over sheets and compares what they print with the checker: a time counts only beside right numbers.

    python3 bench/agree.py BENCH_EVALUATE PLAIN_EVALUATE RANGES PLAIN_LISTING [COUNT]

The sheets are those of `bench/sheets` and `examples`, no bytes at all, and COUNT of each of two seeds, one of them fresh.
"""

import pathlib
import secrets
import subprocess
import sys

ROOT = pathlib.Path(__file__).resolve().parent.parent
sys.path.insert(0, str(ROOT / "checker"))

import generate
import listing


def expected_line(data: bytes) -> bytes:
    """What a program that evaluates once prints: N, and low and high of the last row of the listing, or the refusal."""
    last = listing.listing(data).splitlines()
    if last[0] == b"refused place":
        return b"refused " + last[1] + b"\n"
    _, low, high, _, _ = last[-1].split()
    return b"1 " + low + b" " + high + b"\n"


def sheets(count: int):
    """Each sheet and its name."""
    for path in [*sorted((ROOT / "bench/sheets").iterdir()), *sorted((ROOT / "examples").glob("*.sheet"))]:
        yield path.name, path.read_bytes()
    yield "no bytes", b""
    for seed in ("bench", secrets.token_hex(4)):
        for index in range(count):
            yield f"seed {seed} index {index}", generate.sheet_bytes(seed, index)


def agrees(program: str, name: str, given: bytes, expected: bytes) -> bool:
    run = subprocess.run([program], input=given, capture_output=True)
    if run.returncode == 0 and run.stdout == expected:
        return True
    print(f"mismatch: {program} {name}: {run.stdout!r}, expected {expected!r}")
    return False


def main() -> int:
    evaluating, listing_programs = sys.argv[1:3], sys.argv[3:5]
    count = int(sys.argv[5]) if len(sys.argv) > 5 else 300
    outcomes = []
    for name, data in sheets(count):
        outcomes += [agrees(program, name, b"1\n" + data, expected_line(data)) for program in evaluating]
        outcomes += [agrees(program, name, data, listing.listing(data)) for program in listing_programs]
    failed = outcomes.count(False)
    print(f"{len(outcomes) - failed} passed, {failed} failed")
    return 1 if failed else 0


if __name__ == "__main__":
    sys.exit(main())
