"""Runs the built program while its reads and writes are interrupted, cut short or fail.

    python3 checker/failing_calls.py target/bin/ranges LIBRARY

LIBRARY is tests/failing_calls.c, built as a shared library and loaded before the C library: it does
to a call what it is told, and logs each call. First the calls of a run are counted, then each of
them fails in a run of its own. A run passes where what came out is

- the right text and no message, if calls were only interrupted or cut short, and status 0,
- the bytes taken before a write that failed, and then no other write and one line that says why,
  and status 1,
- nothing but one line that says why, if a read failed, and status 1,

and where the log shows that calls were changed as planned. Then come failures of the system's own:
a full pipe, a file that may not grow, closed descriptors. Last come calls with arguments: `--help`
and `--version`, and wrong calls, which read nothing, write one line on standard error and end with
status 2. The right text is the one stored in examples/, or the checker's. The last line is `N passed,
M failed`.
"""

import collections
import dataclasses
import errno
import fcntl
import functools
import multiprocessing
import os
import pathlib
import resource
import select
import signal
import sys
import tempfile

import listing

ROOT = pathlib.Path(__file__).resolve().parent.parent
# a listing with low ends below 0, one of the most rows, a refusal of reading, one of evaluation, and a
# sheet that does not fit the program's buffer
SHEETS = (
    "examples/square.sheet",
    "bench/sheets/largest",
    "examples/broken_line.sheet",
    "examples/span_passed.sheet",
    "examples/over_1024_bytes.sheet",
)
WRITE_ERRORS = (errno.EIO, errno.ENOSPC, errno.EAGAIN)
READ_ERRORS = (errno.EIO, errno.EAGAIN)
INTERRUPTIONS = (1, 5)
SECONDS_ALLOWED = 10
# after so many runs that did not end in time a process makes no other, and each counts as failed
UNENDED_ALLOWED = 2
VERSION = b"ranges (Doqhuymi) 1.7.0\n"
NO_ARGUMENT = "ranges: '{}' is no argument that it takes: see ranges --help\n"
TOO_MANY = "ranges: '{}' is one argument too many: see ranges --help\n"
# the arguments of each call that is neither `--help` nor `--version`, the line that tells what is wrong, and the word that it shows
WRONG_CALLS = (
    (("",), NO_ARGUMENT, ""),
    (("help",), NO_ARGUMENT, "help"),
    (("-h",), NO_ARGUMENT, "-h"),
    (("--hel",), NO_ARGUMENT, "--hel"),
    (("--helpx",), NO_ARGUMENT, "--helpx"),
    (("--help\n",), NO_ARGUMENT, "--help?"),
    (("--versions",), NO_ARGUMENT, "--versions"),
    (("--version-of-the-program",), NO_ARGUMENT, "--version-of-the-program"),
    (("examples/square.sheet",), NO_ARGUMENT, "examples/square.sheet"),
    ((b"\x1b[1m \x7f\xff~",), NO_ARGUMENT, "?[1m ??~"),
    (("x" * 40,), NO_ARGUMENT, "x" * 40),
    (("x" * 41,), NO_ARGUMENT, "x" * 37 + "..."),
    (("x" * 100_000,), NO_ARGUMENT, "x" * 37 + "..."),
    (("--help", "y"), TOO_MANY, "y"),
    (("--help", "--help"), TOO_MANY, "--help"),
    (("--help", "--version"), TOO_MANY, "--version"),
    (("--version", ""), TOO_MANY, ""),
    (("", "--help"), TOO_MANY, "--help"),
    (("x", "y", "z"), TOO_MANY, "y"),
)
# of more calls than this, in a run that moves a byte at a time, some are left out
CALLS_TRIED = 140


@dataclasses.dataclass(frozen=True)
class Plan:
    """What is done to the calls of a run: `most` bytes a call, and `count` calls from the `first`
    on fail with `error`. The failing ones are reads or writes, as `call` says."""

    read_most: int = 0
    write_most: int = 0
    call: str = ""
    first: int = 0
    count: int = 0
    error: int = 0

    def environment(self) -> dict[str, str]:
        most = {"READ_MOST": self.read_most, "WRITE_MOST": self.write_most}
        variables = {name: str(number) for name, number in most.items() if number}
        if self.call:
            fails = f"{self.first} {self.count} {self.error}"
            variables[f"{self.call.upper()}_FAILS"] = fails
        return variables


@dataclasses.dataclass(frozen=True)
class Call:
    """A line of the log; `done` is "failed", "short" or "nothing"."""

    name: str
    asked: int
    answer: int
    done: str


@dataclasses.dataclass(frozen=True)
class Outcome:
    """What a run left."""

    status: int
    output: bytes
    message: bytes
    calls: tuple[Call, ...] = ()


@functools.cache
def sheet_of(name: str) -> tuple[bytes, bytes]:
    """A sheet of the repository, and what the program must print for it."""
    file = ROOT / name
    sheet, stored = file.read_bytes(), file.with_suffix(".out")
    return sheet, stored.read_bytes() if stored.is_file() else listing.listing(sheet)


def file_of(content: bytes) -> int:
    """A file in memory, read from its start."""
    file = os.memfd_create("file")
    os.write(file, content)
    os.lseek(file, 0, os.SEEK_SET)
    return file


def rest_of(descriptor: int) -> bytes:
    """All that is left to read; the descriptor is then closed."""
    with open(descriptor, "rb") as file:
        return file.read()


unended = 0


def spawn(
    program: str, stdin, stdout, variables=(), ignored=(), arguments=()
) -> tuple[int, bytes]:
    """Runs the program on two descriptors; None is a closed one, and bytes are a file of them.
    Closes the first. Answers the status and what was written to standard error."""
    global unended
    if unended == UNENDED_ALLOWED:
        return -signal.SIGKILL, b""
    source = file_of(stdin) if isinstance(stdin, bytes) else stdin
    message, writable = os.pipe()
    actions = [(os.POSIX_SPAWN_DUP2, writable, 2)]
    for number, descriptor in ((0, source), (1, stdout)):
        if descriptor is None:
            actions.append((os.POSIX_SPAWN_CLOSE, number))
        else:
            actions.append((os.POSIX_SPAWN_DUP2, descriptor, number))
    defaults = {signal.SIGPIPE, signal.SIGXFSZ} - set(ignored)
    process = os.posix_spawn(
        program, [program, *arguments], dict(variables), file_actions=actions, setsigdef=defaults
    )
    os.close(writable)
    if source is not None:
        os.close(source)
    watch = os.pidfd_open(process)
    if not select.select([watch], [], [], SECONDS_ALLOWED)[0]:
        os.kill(process, signal.SIGKILL)
        unended += 1
    os.close(watch)
    status = os.waitstatus_to_exitcode(os.waitpid(process, 0)[1])
    return status, rest_of(message)


def into_file(program: str, stdin, variables=(), ignored=()) -> Outcome:
    """Runs the program, its standard output a file."""
    stdout = file_of(b"")
    status, message = spawn(program, stdin, stdout, variables, ignored)
    os.lseek(stdout, 0, os.SEEK_SET)
    return Outcome(status, rest_of(stdout), message)


class Runner:
    """Runs the program under plans."""

    def __init__(self, program: str, library: str, folder: str):
        self.program = program
        self.library = library
        self.log = pathlib.Path(folder, f"calls-{os.getpid()}")

    def run(self, sheet: bytes, plan: Plan, loaded: bool = True) -> Outcome:
        """Where the library is not loaded, nothing is done to any call, and nothing is logged."""
        self.log.write_bytes(b"")
        variables = plan.environment()
        if loaded:
            variables |= {"LD_PRELOAD": self.library, "CALLS_LOG": str(self.log)}
        outcome = into_file(self.program, sheet, variables)
        lines = (line.split() for line in self.log.read_text("ascii").splitlines())
        calls = (Call(name, int(asked), int(answer), done) for name, asked, answer, done in lines)
        return dataclasses.replace(outcome, calls=tuple(calls))


def wrong_line(message: bytes, text: str) -> list[str]:
    """The message is one line, with the program's name at its start and the text in it."""
    one_line = message.endswith(b"\n") and message.count(b"\n") == 1
    if one_line and message.startswith(b"ranges: ") and text.encode() in message:
        return []
    return [f"standard error is {message!r}, not one line with {text!r}"]


def wrong_end(outcome: Outcome, error: int = 0) -> list[str]:
    """Where there is an error the status is 1, and standard error has one line with the system's
    text for it; else the status is 0, and there is no line."""
    wanted = 1 if error else 0
    problems = [f"status {outcome.status}"] if outcome.status != wanted else []
    if error:
        return problems + wrong_line(outcome.message, os.strerror(error))
    if outcome.message:
        problems.append(f"standard error is {outcome.message!r}")
    return problems


def wrong_whole(outcome: Outcome, right: bytes) -> list[str]:
    """The right text came out."""
    problems = wrong_end(outcome)
    if outcome.output != right:
        problems.append(f"not the right text, {outcome.output!r}")
    return problems


def wrong_beginning(outcome: Outcome, right: bytes, error: int) -> list[str]:
    """A beginning of the right text came out, not all of it, and a message."""
    problems = wrong_end(outcome, error)
    if not right.startswith(outcome.output) or outcome.output == right:
        problems.append(f"not a beginning of the right text, {outcome.output!r}")
    return problems


def wrong_nothing(outcome: Outcome, error: int) -> list[str]:
    """Only a message came out."""
    problems = wrong_end(outcome, error)
    if outcome.output:
        problems.append(f"standard output is {outcome.output!r}")
    return problems


def wrong_under(plan: Plan, outcome: Outcome, right: bytes) -> list[str]:
    """What is wrong with a run under a plan; empty where it passes."""
    failed = [place for place, call in enumerate(outcome.calls) if call.done == "failed"]
    if len(failed) != plan.count:
        return [f"{len(failed)} calls were made to fail, not {plan.count}"]
    if not plan.call or plan.error == errno.EINTR:
        problems = wrong_whole(outcome, right)
        for name, most in (("read", plan.read_most), ("write", plan.write_most)):
            if most and not any(c.name == name and c.done == "short" for c in outcome.calls):
                problems.append(f"no {name} was cut short")
        return problems
    if plan.call == "read":
        problems = wrong_nothing(outcome, plan.error)
        if any(call.name == "write" for call in outcome.calls):
            problems.append("a write after a read that failed")
        return problems
    problems = wrong_beginning(outcome, right, plan.error)
    taken = sum(c.answer for c in outcome.calls if c.name == "write" and c.answer > 0)
    if len(outcome.output) != taken:
        problems.append(f"{len(outcome.output)} bytes came out where {taken} were taken")
    if failed[0] + 1 != len(outcome.calls):
        problems.append("a call after a write that failed")
    return problems


def tried(count: int, each: bool) -> list[int]:
    """The calls that are made to fail, each in a run of its own: all, or of many the first, the
    last and some between."""
    calls = list(range(1, count + 1))
    if each or count <= CALLS_TRIED:
        return calls
    third = CALLS_TRIED // 3
    between = calls[third:-third]
    return calls[:third] + between[:: -(-len(between) // third)] + calls[-third:]


def failing_plans(call: str, base: Plan, count: int) -> list[Plan]:
    """Plans in which one of so many calls is interrupted or fails."""
    whole = not base.read_most and not base.write_most
    fails = [(errno.EINTR, times) for times in INTERRUPTIONS]
    fails += [(error, 1) for error in (READ_ERRORS if call == "read" else WRITE_ERRORS)]
    return [
        dataclasses.replace(base, call=call, first=first, count=times, error=error)
        for first in tried(count, whole)
        for error, times in fails
    ]


def plans_of(runner: Runner, name: str) -> list[Plan]:
    """All plans for a sheet."""
    sheet, right = sheet_of(name)
    plans = [Plan(read_most=1, write_most=1)]
    for call, half in (("read", len(sheet) // 2), ("write", len(right) // 2)):
        for most in (0, half, 1):
            base = Plan(**{f"{call}_most": most})
            count = sum(made.name == call for made in runner.run(sheet, base).calls)
            plans += ([base] if most else []) + failing_plans(call, base, count)
    return plans


def described(name: str, plan: Plan) -> tuple[str, str]:
    """The group that a run is counted in, and which of the group it is."""
    parts = [name]
    for call, most in (("read", plan.read_most), ("write", plan.write_most)):
        if most:
            parts.append(f"{call}s of at most {most} bytes")
    if not plan.call:
        return ", ".join(parts), "the run"
    parts.append(f"{plan.count} x {errno.errorcode[plan.error]} on {plan.call}")
    return ", ".join(parts), f"from {plan.call} {plan.first} on"


def start_worker(program: str, library: str, folder: str) -> None:
    global runner
    runner = Runner(program, library, folder)


def tested(case: tuple[str, Plan]):
    """A run, as `under_plans` yields it."""
    name, plan = case
    sheet, right = sheet_of(name)
    return *described(name, plan), wrong_under(plan, runner.run(sheet, plan), right)


def under_plans(program: str, library: str, folder: str):
    """The runs under plans: the group of each, its name in the group, and what is wrong."""
    runner = Runner(program, library, folder)
    cases = [(name, plan) for name in SHEETS for plan in plans_of(runner, name)]
    with multiprocessing.Pool(os.cpu_count(), start_worker, (program, library, folder)) as pool:
        yield from pool.imap(tested, cases, 20)


def one_write(program: str, library: str, folder: str):
    """Where nothing is done to any call, the text goes out in one write."""
    runner = Runner(program, library, folder)
    for name in SHEETS:
        sheet, right = sheet_of(name)
        outcome = runner.run(sheet, Plan())
        problems = wrong_under(Plan(), outcome, right)
        writes = [call.asked for call in outcome.calls if call.name == "write"]
        if writes != [len(right)]:
            problems.append(f"{len(writes)} writes to standard output")
        yield "one write", name, problems


def into_full_pipe(program: str, sheet: bytes, room: int) -> Outcome:
    """Runs the program into a pipe that does not wait and has room for so many bytes."""
    readable, writable = os.pipe()
    size = fcntl.fcntl(writable, fcntl.F_SETPIPE_SZ, 4096)
    filled = os.write(writable, b"." * (size - room))
    os.set_blocking(writable, False)
    status, message = spawn(program, sheet, writable)
    os.close(writable)
    return Outcome(status, rest_of(readable)[filled:], message)


def into_limited_file(program: str, sheet: bytes, limit: int) -> Outcome:
    """Runs the program into a file of so many bytes at most, the signal for more ignored."""
    limits = resource.getrlimit(resource.RLIMIT_FSIZE)
    stdin = file_of(sheet)
    resource.setrlimit(resource.RLIMIT_FSIZE, (limit, limits[1]))
    try:
        return into_file(program, stdin, ignored=(signal.SIGXFSZ,))
    finally:
        resource.setrlimit(resource.RLIMIT_FSIZE, limits)


def into_unread_pipe(program: str, sheet: bytes, ignored) -> Outcome:
    """Runs the program into a pipe whose other end is closed."""
    readable, writable = os.pipe()
    os.close(readable)
    status, message = spawn(program, sheet, writable, ignored=ignored)
    os.close(writable)
    return Outcome(status, b"", message)


def failures_of_writing(program: str):
    """Standard output that the system itself does not take all of: a full pipe that does not wait,
    a file that may not grow (the write before is cut short), a full device, none, and a pipe that
    nobody reads, whose signal the program ignores, be it ignored before or not."""
    sheet, right = sheet_of(SHEETS[0])

    def wrong(outcome: Outcome, room: int, error: int) -> list[str]:
        if room < len(right):
            return wrong_beginning(outcome, right, error)
        return wrong_whole(outcome, right)

    for room in (0, 1, 2, 10, 25, 100, len(right) - 1, len(right)):
        outcome = into_full_pipe(program, sheet, room)
        yield "a full pipe", f"room for {room} bytes", wrong(outcome, room, errno.EAGAIN)
    for limit in range(len(right) + 1):
        outcome = into_limited_file(program, sheet, limit)
        problems = wrong(outcome, limit, errno.EFBIG)
        if outcome.output != right[:limit]:
            problems.append(f"{len(outcome.output)} bytes came out")
        yield "a file of limited size", f"{limit} bytes", problems
    device = os.open("/dev/full", os.O_WRONLY)
    for name, stdout, error in (
        ("a full device", device, errno.ENOSPC),
        ("closed", None, errno.EBADF),
    ):
        status, message = spawn(program, sheet, stdout)
        yield "standard output", name, wrong_nothing(Outcome(status, b"", message), error)
    os.close(device)
    for name, ignored in (
        ("an unread pipe", (signal.SIGPIPE,)),
        ("an unread pipe, with its signal", ()),
    ):
        outcome = into_unread_pipe(program, sheet, ignored)
        yield "standard output", name, wrong_nothing(outcome, errno.EPIPE)


def failures_of_reading(program: str):
    """Standard input that the system itself does not let read: none, a folder, and a pipe that does
    not wait, at its start and behind a part of a sheet or all of it."""
    sheet, _ = sheet_of(SHEETS[0])
    folder = os.open(ROOT / "examples", os.O_RDONLY)
    cases = [("closed", None, errno.EBADF), ("a folder", folder, errno.EISDIR)]
    writable_ends = []
    for part in (b"", sheet[:1], sheet[:60], sheet):
        readable, writable = os.pipe()
        writable_ends.append(writable)
        os.write(writable, part)
        os.set_blocking(readable, False)
        cases.append((f"a pipe with {len(part)} bytes", readable, errno.EAGAIN))
    for name, stdin, error in cases:
        yield "standard input", name, wrong_nothing(into_file(program, stdin), error)
    for writable in writable_ends:
        os.close(writable)


def with_arguments(program: str, arguments, stdout=None) -> tuple[Outcome, int]:
    """Runs the program with arguments on a sheet, into a descriptor or, where that is None, a file.
    Answers also how many bytes of the sheet were read."""
    sheet, _ = sheet_of(SHEETS[0])
    stdin, into = file_of(sheet), file_of(b"")
    try:
        target = into if stdout is None else stdout
        status, message = spawn(program, os.dup(stdin), target, arguments=arguments)
        os.lseek(into, 0, os.SEEK_SET)
        return Outcome(status, rest_of(into), message), os.lseek(stdin, 0, os.SEEK_CUR)
    finally:
        os.close(stdin)


def wrong_call(outcome: Outcome, line: bytes) -> list[str]:
    """Status 2, the line that says what was wrong, and nothing on standard output."""
    problems = [f"status {outcome.status}"] if outcome.status != 2 else []
    if outcome.output:
        problems.append(f"standard output is {outcome.output!r}")
    if outcome.message != line:
        problems.append(f"standard error is {outcome.message!r}")
    return problems


def calls_with_arguments(program: str):
    """`--help` and `--version`, also where they cannot be written, and wrong calls: none reads."""
    device = os.open("/dev/full", os.O_WRONLY)
    cases = []
    for word in ("--help", "--version"):
        outcome, read = with_arguments(program, (word,))
        problems = wrong_end(outcome)
        if word == "--version" and outcome.output != VERSION:
            problems.append(f"the version is {outcome.output!r}")
        if word == "--help" and not all(
            part in outcome.output for part in (b"ranges", b"--help", b"--version", b"status")
        ):
            problems.append(f"the help is {outcome.output!r}")
        if not outcome.output.endswith(b"\n"):
            problems.append("no line's end")
        cases.append((word, problems, read))
        outcome, read = with_arguments(program, (word,), device)
        cases.append((f"{word} on a full device", wrong_nothing(outcome, errno.ENOSPC), read))
    for arguments, line, word in WRONG_CALLS:
        told, name = line.format(word).encode(), f"{arguments}"[:60]
        outcome, read = with_arguments(program, arguments)
        cases.append((name, wrong_call(outcome, told), read))
        outcome, read = with_arguments(program, arguments, device)
        cases.append((f"{name} on a full device", wrong_call(outcome, told), read))
    os.close(device)
    for name, problems, read in cases:
        yield "arguments", name, problems + ([f"{read} bytes were read"] if read else [])


def wrong_outcomes(program: str, library: str, folder: str):
    """That a run can fail: without the library, where no call fails, and with wrong outcomes."""
    sheet, right = sheet_of(SHEETS[0])
    runner = Runner(program, library, folder)
    for plan in (
        Plan(call="write", first=1, count=1, error=errno.EINTR),
        Plan(call="write", first=1, count=1, error=errno.EIO),
        Plan(call="read", first=1, count=1, error=errno.EIO),
        Plan(read_most=1),
        Plan(write_most=1),
    ):
        noticed = wrong_under(plan, runner.run(sheet, plan, loaded=False), right)
        yield "noticed", f"no library under {plan}", [] if noticed else ["not noticed"]
    message = b"ranges: " + os.strerror(errno.EIO).encode() + b"\n"
    interrupted = Plan(call="write", first=2, count=1, error=errno.EINTR)
    failing = dataclasses.replace(interrupted, error=errno.EIO)
    calls = (Call("write", len(right), 25, "nothing"), Call("write", 111, -1, "failed"))
    after = Call("write", 111, 111, "nothing")
    signless = right.replace(b"-", b"", 1)
    for plan, outcome in (
        (interrupted, Outcome(0, signless, b"", (*calls, after))),
        (interrupted, Outcome(0, right, message, (*calls, after))),
        (interrupted, Outcome(1, right, b"", (*calls, after))),
        (failing, Outcome(1, signless[:25], message, calls)),
        (failing, Outcome(1, right[:24], message, calls)),
        (failing, Outcome(1, right[:25], b"", calls)),
        (failing, Outcome(1, right[:25], message + message, calls)),
        (failing, Outcome(1, right[:25], b"ranges: Success\n", calls)),
        (failing, Outcome(1, right, message, (*calls, after))),
        (failing, Outcome(1, right[:25], message, (*calls, Call("write", 1, 0, "nothing")))),
        (failing, Outcome(0, right[:25], message, calls)),
        (failing, Outcome(2, right[:25], message, calls)),
    ):
        noticed = wrong_under(plan, outcome, right)
        yield "noticed", f"{outcome}", [] if noticed else ["not noticed"]
    accepted = wrong_under(failing, Outcome(1, right[:25], message, calls), right)
    yield "noticed", "a right outcome", accepted
    line = NO_ARGUMENT.format("x").encode()
    for outcome in (
        Outcome(0, b"", line),
        Outcome(1, b"", line),
        Outcome(2, right, line),
        Outcome(2, b"", b""),
        Outcome(2, b"", line + line),
        Outcome(2, b"", NO_ARGUMENT.format("y").encode()),
    ):
        noticed = wrong_call(outcome, line)
        yield "noticed", f"{outcome}", [] if noticed else ["not noticed"]
    yield "noticed", "a right outcome of a wrong call", wrong_call(Outcome(2, b"", line), line)


def main() -> int:
    program, library = (os.path.abspath(path) for path in sys.argv[1:])
    runs, failures = collections.Counter(), {}
    with tempfile.TemporaryDirectory() as folder:
        parts = (
            wrong_outcomes(program, library, folder),
            one_write(program, library, folder),
            under_plans(program, library, folder),
            failures_of_writing(program),
            failures_of_reading(program),
            calls_with_arguments(program),
        )
        for part in parts:
            for group, name, problems in part:
                runs[group] += 1
                if problems:
                    failures.setdefault(group, []).append(f"{name}: {'; '.join(problems)}")
    for group, found in failures.items():
        print(f"{group}: {len(found)} of {runs[group]} fail; {found[0]}")
    failed = sum(len(found) for found in failures.values())
    print(f"{runs.total() - failed} passed, {failed} failed")
    return 1 if failed else 0


if __name__ == "__main__":
    sys.exit(main())
