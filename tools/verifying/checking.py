"""Compares what is told of the examples with what is expected, and has each run that is told confirmed anew.

`examples/verdicts` has a line for each label of an example, `FILE LABEL`, or `FILE verified N`. What README.md and docs/verifying.md
show behind a call is compared with what that call prints now."""
import os
import re
import subprocess
import tempfile

from .command import Command
from .program import TOP, Program
from .report import Report
from .units import VERIFIED

SHOWN = re.compile(r"^```\n\$ (?:\./remduska verify|tools/verify) ([^\n]*)\n(.*?)^```", re.M | re.S)
EXAMPLES = os.path.join(TOP, "examples")
ERRORS = os.path.join(EXAMPLES, "errors")
END = re.compile(r"examples/errors/(\S+\.vpr): .*\bunits?\b")      # the last line that is told of a file
LABEL = re.compile(r"(\d+):(\d+) (\d+):(\d+) (\w+)")


def expected():
    """What examples/verdicts says of each example, by its name below examples/: `verified N`, or its labels."""
    found = {}
    with open(os.path.join(EXAMPLES, "verdicts"), encoding="utf-8") as it:
        for line in it:
            if line.strip() and not line.startswith("#"):
                file, rest = line.split(maxsplit=1)
                found.setdefault(file, []).append(rest.strip())
    return found


def examples():
    """The names of the examples below examples/."""
    found = []
    for folder, _, names in os.walk(EXAMPLES):
        found += [os.path.relpath(os.path.join(folder, it), EXAMPLES) for it in names if it.endswith(".vpr")]
    return sorted(found)


def in_order(label):
    found = LABEL.fullmatch(label)
    return (*map(int, found.groups()[:4]), found[5])


def verdict(results):
    """What is told of a file, in the words of examples/verdicts; a unit without a verdict is told as such."""
    odd = [f"undecided: {it.unit}: {it.why}" for it in results if it.why]
    odd += [f"undecided: {label.label}: {label.why}" for it in results for label in it.open]
    odd += [f"not confirmed: {label.label}" for it in results for label in it.labels if not label.confirmed]
    odd += [f"not proved: {it.unit}" for it in results if it.verdict == VERIFIED and not it.is_checked()]
    labels = {label.label for it in results for label in it.labels if label.confirmed}
    return odd + sorted(labels, key=in_order) or [f"verified {len(results)}"]


def not_confirmed(program, file, results, room):
    """What the program does not confirm when it is asked anew: on the file itself, and on the whole text that it writes."""
    text, run_file = os.path.join(room, "text.bpl"), os.path.join(room, "run")
    with open(text, "w", encoding="utf-8") as into:
        into.write(program.translate(file).out)
    for result in results:
        for label in result.labels:
            calls = ((label.run, lambda: program.run(file, result.unit, run_file)), (label.boogie_run, lambda: program.replay(text, run_file)))
            for run, call in calls:
                with open(run_file, "w", encoding="utf-8") as into:
                    into.write(run or "")
                said = call()
                if not said.out.startswith(f"// failed {label.label}\n"):
                    yield f"{label.label}: {said.first()}"


def other_transcripts():
    """The calls that print something else than the documents show."""
    for page in ("README.md", "docs/verifying.md"):
        with open(os.path.join(TOP, page), encoding="utf-8") as it:
            shown = SHOWN.findall(it.read())
        for words, text in shown:
            done = subprocess.run(["tools/verify", *words.split()], cwd=TOP, stdin=subprocess.DEVNULL, stdout=subprocess.PIPE, stderr=subprocess.PIPE)
            if done.stdout.decode(errors="replace") != text:
                yield f"{page}: tools/verify {words} prints something else than is shown"
    yield from other_errors()


def other_errors():
    """The files of examples/errors of which something else is told than the text beside each has. All are verified by one call."""
    files = sorted([it for it in os.listdir(ERRORS) if it.endswith(".vpr")])
    done = subprocess.run(["tools/verify", *[f"examples/errors/{it}" for it in files], "--jobs", "1"], cwd=TOP, stdin=subprocess.DEVNULL,
                          stdout=subprocess.PIPE, stderr=subprocess.DEVNULL)
    told, lines = {}, []
    for line in done.stdout.decode(errors="replace").splitlines():
        lines.append(line)
        end = END.match(line)
        if end:
            told[end[1]], lines = "".join([f"{it}\n" for it in lines]), []
    for file in files:
        with open(os.path.join(ERRORS, f"{file[:-len('.vpr')]}.txt"), encoding="utf-8") as it:
            if it.read() != told.get(file):
                yield f"examples/errors/{file}: tools/verify prints something else than stands beside it"


def check(options, programs):
    """Prints where the examples differ from what is expected, and returns the status."""
    wanted, files = expected(), examples()
    command = Command([os.path.join(EXAMPLES, it) for it in files], options._replace(all=True, json=True), Report(options), programs)
    command.status()
    told = {os.path.relpath(path, EXAMPLES): results for path, results in command.results}
    status, runs, program = 0, 0, Program(programs)
    with tempfile.TemporaryDirectory(prefix="verify-") as room:
        for file in sorted({*files, *wanted}):
            results = told.get(file)
            found = ["it is refused, or not there"] if results is None else verdict(results)
            if found != wanted.get(file):
                print(f"{file}: {'; '.join(found)}, where examples/verdicts has {'; '.join(wanted.get(file, ['nothing']))}")
                status = 1
            for it in not_confirmed(program, os.path.join(EXAMPLES, file), results or [], room):
                print(f"{file}: the run for {it}")
                status = 1
            runs += sum([len(it.labels) for it in results or []])
    for it in other_transcripts():
        print(it)
        status = 1
    if status == 0:
        print(f"the verdicts on {len(files)} examples are as expected, and {runs} runs are confirmed")
    return status
