#!/usr/bin/env python3
"""on_terminal.py PROGRAM WORD..    calls a program of a command on a Viper file, and tells on the error stream in words what it says

The program's own bytes come as they are, and its status is that of the call. Behind them stands where the file is refused and why, or
which check a run fails, as `verify` tells it. Only what a person reads on a terminal gets these lines."""
import os
import re
import signal
import subprocess
import sys

if __name__ == "__main__":
    sys.dont_write_bytecode = True
    sys.path.insert(0, os.path.dirname(os.path.dirname(os.path.realpath(__file__))))

from verifying import colour, failures, refusals, telling           # noqa: E402
from verifying.files import bytes_of, shown_path, source_of         # noqa: E402

REFUSED, FAILED, INTERRUPTED = 1, 10, 130
RUNS = ("run", "exec")      # the words of these are a file, a unit, and a run file
FIRST = re.compile(rb"// failed ([^\n]{1,100})\n")
OF_RUN = {
    "run-size": "the run file is too long", "run-syntax": "this line is none of a run file (docs/run-files.md)",
}
OF_UNIT = {
    "no-unit": "there is no unit `{unit}` that this command runs",
    "unframed": "`exec` takes no file with `wildcard`, `inhale` or `assume`",
}
REASON = re.compile(r"error: ([a-z-]+)(?: ([0-9]{1,9}):([0-9]{1,9}))?")


def call(program, words, is_run):
    """Calls the program. Returns its status, the first bytes of its output where that is looked at, and its errors."""
    with subprocess.Popen([program, *words], stdout=subprocess.PIPE if is_run else None, stderr=subprocess.PIPE) as done:
        try:
            first = passed_on(done.stdout) if is_run else b""
            errors = done.stderr.read()
        except BaseException:   # somebody stops the call
            done.kill()
            raise
    sys.stderr.buffer.write(errors)
    sys.stderr.flush()
    return done.returncode if done.returncode >= 0 else 128 - done.returncode, first, errors.decode(errors="replace")


def passed_on(stream):
    """Writes all of a stream to the output, and returns how it begins."""
    first = b""
    for piece in iter(lambda: stream.read1(65536), b""):
        first = (first + piece)[:200] if len(first) < 200 else first
        sys.stdout.buffer.write(piece)
        sys.stdout.flush()
    return first


def lines_of(words, status, first, errors):
    """What is told in words of a call that has ended. Of a stream, which can be read once, nothing is."""
    if not os.path.isfile(words[1]):
        return []
    source, failed = source_of(words[1], bytes_of(words[1])), FIRST.match(first)
    if status == FAILED and failed is not None:
        return telling.error_lines(source, failures.told(source, failed[1].decode()))
    said = errors.strip().split("\n")[-1]
    found = REASON.match(said)
    if status != REFUSED or found is None:
        return []
    line, column = (int(it) if it else 1 for it in found.groups()[1:])
    if found[1] in OF_RUN:
        return [f"{shown_path(words[3])}:{line}:{column}: error: {OF_RUN[found[1]]}"]
    if found[1] in OF_UNIT:
        told = failures.Told(line, column, OF_UNIT[found[1]].format(unit=words[2]), whole=found[2] is None)
        return telling.error_lines(source, told)
    return telling.error_lines(source, refusals.told(source, said)) if found[1] in refusals.REASONS else []


def stopped(number, _):
    raise SystemExit(128 + number)


def main(program, words):
    """Calls the program and tells of it. What cannot be told is left out."""
    for it in (signal.SIGTERM, signal.SIGHUP):
        signal.signal(it, stopped)
    try:
        status, first, errors = call(program, words, words[0] in RUNS and sys.stdout.isatty())
        for it in lines_of(words, status, first, errors):
            print(colour.colored(it) if colour.is_wanted(colour.AUTO, sys.stderr) else it, file=sys.stderr)
    except KeyboardInterrupt:
        return INTERRUPTED
    except OSError as fault:
        print(f"remduska: {program}: {fault.strerror}", file=sys.stderr)
        return 70
    return status


if __name__ == "__main__":
    sys.exit(main(sys.argv[1], sys.argv[2:]))
