"""Runs the built program over samples and generated sheets and compares what it prints, byte for
byte.

    python3 checker/compare.py target/bin/ranges
    python3 checker/compare.py target/bin/ranges --count 1000000      (a longer run)
    python3 checker/compare.py target/bin/ranges --seed 7 --count 100 (those sheets again)
    python3 checker/compare.py target/bin/ranges --stored             (those with a stored listing alone)

One process for each sheet: the samples of another implementation and the sheets of at most 6 inputs
and 24 steps, whose listings are stored beside them, the sheets of a fixed seed, as many of a fresh
seed, and one sheet with every byte at every place. Each sheet is a file on standard input, but one in
16 comes through a pipe, a few bytes at a time. A program that ends by a signal, with a status other
than 0, or not within 10 seconds fails on that sheet. A mismatch prints the sheet; the last line is
`N passed, M failed`.
"""

import argparse
import multiprocessing
import os
import secrets
import select
import signal
import subprocess
import sys
from typing import NamedTuple

import generate
import listing
import samples

FIXED_SEED = "01"
COUNT_OF_EACH_SEED = 15_000
SECONDS_ALLOWED = 10
PIPED_ONE_IN = 16
CHUNK = 100
SHOWN = 5


class Name(NamedTuple):
    """A sheet, by where it comes from and its index there."""

    origin: str
    index: int


SAMPLE, WITHIN, SWEEP, SEED = "sample", "within 6 inputs and 24 steps", "sweep", "seed "


class Runner:
    """Runs one program again and again, with files in memory as its input and output."""

    def __init__(self, program: str):
        self.program = program
        self.input = os.memfd_create("input")
        self.output = os.memfd_create("output")

    def from_file(self, data: bytes) -> tuple[int, bytes]:
        for file in (self.input, self.output):
            os.ftruncate(file, 0)
            os.lseek(file, 0, os.SEEK_SET)
        os.pwrite(self.input, data, 0)
        process = os.posix_spawn(
            self.program,
            [self.program],
            {},
            file_actions=[
                (os.POSIX_SPAWN_DUP2, self.input, 0),
                (os.POSIX_SPAWN_DUP2, self.output, 1),
            ],
        )
        watch = os.pidfd_open(process)
        if not select.select([watch], [], [], SECONDS_ALLOWED)[0]:
            os.kill(process, signal.SIGKILL)
        os.close(watch)
        status = os.waitstatus_to_exitcode(os.waitpid(process, 0)[1])
        return status, os.pread(self.output, os.fstat(self.output).st_size, 0)

    def from_pipe(self, data: bytes) -> tuple[int, bytes]:
        process = subprocess.Popen(
            [self.program], stdin=subprocess.PIPE, stdout=subprocess.PIPE, bufsize=0
        )
        try:
            for start in range(0, len(data), 7):
                process.stdin.write(data[start : start + 7])
        except BrokenPipeError:
            pass
        try:
            output, _ = process.communicate(timeout=SECONDS_ALLOWED)
        except subprocess.TimeoutExpired:
            process.kill()
            output, _ = process.communicate()
        return process.returncode, output


def sheet_and_text(name: Name) -> tuple[bytes, bytes]:
    """The sheet of a name, and what must be printed for it."""
    if name.origin in stored:
        return stored[name.origin][name.index]
    if name.origin == SWEEP:
        data = swept[name.index]
    else:
        data = generate.sheet_bytes(name.origin.removeprefix(SEED), name.index)
    return data, listing.listing(data)


def compare(name: Name):
    """None where the program prints what it must, and else what is to be shown."""
    data, expected = sheet_and_text(name)
    run = runner.from_pipe if name.index % PIPED_ONE_IN == 0 else runner.from_file
    status, printed = run(data)
    if status == 0 and printed == expected:
        return None
    return name, data, status, printed, expected


def stored_listings() -> dict[str, list[samples.Listing]]:
    return {SAMPLE: samples.listings(), WITHIN: samples.listings_within_6_and_24()}


def start_worker(program: str) -> None:
    global runner, stored, swept
    runner = Runner(program)
    stored = stored_listings()
    swept = generate.every_byte_at_every_place()


def show(name, data, status, printed, expected) -> None:
    print(f"mismatch: {name.origin} index {name.index}, {len(data)} bytes, status {status}")
    for title, content in (("sheet", data), ("printed", printed), ("expected", expected)):
        print(f"--- {title}")
        print(content.decode("ascii", "backslashreplace"))
    print("---", flush=True)


def stored_names() -> list[Name]:
    counts = {origin: len(found) for origin, found in stored_listings().items()}
    return [Name(origin, index) for origin, count in counts.items() for index in range(count)]


def names_of(options) -> list[Name]:
    if options.seed is not None:
        indices = range(options.first, options.first + options.count)
        return [Name(SEED + options.seed, index) for index in indices]
    if options.stored:
        return stored_names()
    fresh = secrets.token_hex(4)
    print(f"seeds {FIXED_SEED} and {fresh}", flush=True)
    names = stored_names()
    names += [Name(SWEEP, index) for index in range(len(generate.every_byte_at_every_place()))]
    for seed in (FIXED_SEED, fresh):
        names += [Name(SEED + seed, index) for index in range(options.count)]
    return names


def main() -> int:
    parser = argparse.ArgumentParser(description=__doc__.split("\n")[0])
    parser.add_argument("program")
    parser.add_argument("--count", type=int, default=COUNT_OF_EACH_SEED, help="sheets of each seed")
    parser.add_argument("--seed", help="the sheets of this seed alone")
    parser.add_argument("--stored", action="store_true", help="the stored listings alone")
    parser.add_argument("--first", type=int, default=0, help="with --seed: the first index")
    options = parser.parse_args()
    program = os.path.abspath(options.program)
    names = names_of(options)
    failed = 0
    with multiprocessing.Pool(os.cpu_count(), start_worker, (program,)) as pool:
        for failure in pool.imap_unordered(compare, names, CHUNK):
            if failure:
                failed += 1
                if failed <= SHOWN:
                    show(*failure)
    print(f"{len(names) - failed} passed, {failed} failed")
    return 1 if failed else 0


if __name__ == "__main__":
    sys.exit(main())
