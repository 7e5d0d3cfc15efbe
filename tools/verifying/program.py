"""Calls of the programs: which file is started, and what it says."""
import os
import subprocess
import sys
from typing import Dict, List, NamedTuple, Optional

from .boogie_text import NotAsWritten

TOP = os.path.dirname(os.path.dirname(os.path.dirname(os.path.realpath(__file__))))
PART_OF = {"run": "remduska", "replay": "remduska"}
UNPROVED = "-unproved"      # so end the names of programs that are compiled and not proved
DONE, REFUSED, OPEN = 0, 1, 10


def variables():
    """The variable of the environment that names another file for a program, by the name of the program."""
    with open(f"{TOP}/tools/programs.txt", encoding="utf-8") as it:
        return dict(line.split() for line in it if line.strip() and not line.startswith("#"))


VARIABLES = variables()


class NoProgram(Exception):
    """A program cannot be started."""


class TooLate(Exception):
    """A call did not end in the time that it had."""


class Paths(NamedTuple):
    """The files of the programs. `searches` tells whether `prove` is asked for proofs: it writes conditions in any case."""
    remduska: str
    prove: str
    searches: bool = True


def find() -> Paths:
    """The files of the programs: those that variables of the environment name, those of an installed copy, or those that `tools/program`
    tells. Which ones are not proved is told in one line."""
    names = list(VARIABLES)
    found = {name: named(name) or installed(name) for name in names}
    asked = [name for name in names if not found[name]]
    paths = Paths(**{**found, **dict(zip(asked, told(asked)))})
    unproved = [it for it in names if is_proved(paths, it) is False]
    if unproved:
        print(f"remduska: {' and '.join(unproved)} {'are' if len(unproved) > 1 else 'is'} compiled and not proved", file=sys.stderr)
    return paths


def named(program):
    """The file of a program that a variable of the environment names, or nothing."""
    file = os.environ.get(VARIABLES[program])
    if file and (not os.access(file, os.X_OK) or os.path.isdir(file)):
        raise NoProgram(f"{VARIABLES[program]} names {file}, which is no program")
    return file and os.path.abspath(file)


def installed(program):
    """The file of a program in an installed copy, or nothing in a checkout."""
    file = f"{TOP}/programs/{program}"
    return file if os.path.exists(file) else None


def told(programs):
    """The files of these programs of a checkout. What has to be compiled is so side by side."""
    if not programs:
        return []
    try:
        done = subprocess.run([f"{TOP}/tools/program", *programs], stdin=subprocess.DEVNULL, stdout=subprocess.PIPE,
                              universal_newlines=True, env={**os.environ, "REMDUSKA_QUIET": "1"})
    except OSError as fault:
        raise NoProgram(f"tools/program cannot be run: {fault.strerror}") from None
    found = done.stdout.splitlines()
    if done.returncode != 0 or len(found) != len(programs):
        raise NoProgram("there is no program to ask; ./remduska --build makes it")
    return found


def is_proved(paths, name):
    """Whether a program is one that was proved. None where nobody knows, as of a file that a variable of the environment names."""
    program = PART_OF.get(name, name)
    if program not in VARIABLES:
        return False
    path = getattr(paths, program)
    if path is None or os.environ.get(VARIABLES[program]):
        return None
    return says_proved() if path == installed(program) else not path.endswith(UNPROVED)


def says_proved():
    """Whether the programs of an installed copy were proved, as its MANIFEST says."""
    with open(f"{TOP}/MANIFEST", encoding="utf-8") as it:
        return "# programs proved\n" in it


class Said:
    """What a call said: its status, its output and its errors."""

    __slots__ = ("status", "out", "error")

    def __init__(self, status, out, error):
        self.status, self.out, self.error = status, out, error

    def first(self) -> str:
        """The first line of what it said, for a reader."""
        lines = (self.out + self.error).strip().splitlines()
        return lines[0] if lines else f"nothing, with status {self.status}"


def says(path, *words, seconds=None) -> Said:
    """What a call of the program at a path says, or TooLate where it takes longer than it may."""
    try:
        done = subprocess.run([path, *words], stdin=subprocess.DEVNULL, stdout=subprocess.PIPE, stderr=subprocess.PIPE, timeout=seconds)
    except subprocess.TimeoutExpired:
        raise TooLate(f"{path} took longer than {seconds} s") from None
    except OSError as fault:
        raise NoProgram(f"{path} cannot be run: {fault.strerror}") from None
    return Said(done.returncode, done.stdout.decode(errors="replace"), done.stderr.decode(errors="replace"))


class Answers(NamedTuple):
    """What `prove` says of a file: the units that are proved, in order; of each other one the first label that is not shown, or nothing
    where the budget was spent; or the line with which the file is refused."""
    proved: List[str]
    open: Dict[str, str]
    refusal: str


class Program:
    """The programs, as files that can be started."""

    def __init__(self, paths: Paths):
        self.paths = paths

    def searches(self):
        """Whether `prove` is asked for proofs."""
        return self.paths.searches

    def says(self, *words) -> Said:
        """What a call of remduska says."""
        return says(self.paths.remduska, *words)

    def translate(self, file) -> Said:
        """The Boogie program of a Viper file."""
        return self.says("translate", file)

    def cut(self, file) -> Said:
        """The program without loops and calls of one of Boogie."""
        return self.says("cut", file)

    def run(self, file, unit, run_file) -> Said:
        """How a run of a unit of a Viper file ends."""
        return self.says("run", file, unit, run_file)

    def replay(self, text, run_file) -> Said:
        """How a run of a procedure of Boogie ends."""
        return self.says("replay", text, run_file)

    def certify(self, text, certificates) -> Said:
        """Of which procedures of a text of Boogie certificates show that no run fails."""
        return says(self.paths.prove, "certify-boogie", text, certificates)

    def asked(self, word, file, is_boogie, seconds=None) -> Said:
        """What `prove` says to a word of the units of a Viper file, or of the procedures of a text of Boogie."""
        return says(self.paths.prove, f"{word}-boogie" if is_boogie else word, file, seconds=seconds)

    def prove(self, file, seconds=None, is_boogie=False) -> Answers:
        """Of which units of a file no run fails, or TooLate where the call takes longer than it may."""
        return answers_of(self.asked("prove", file, is_boogie, seconds))

    def certificates(self, file, is_boogie=False) -> str:
        """The certificates of the units of a file, one behind the other."""
        said = self.asked("certificates", file, is_boogie)
        if said.status not in (DONE, OPEN):
            raise NotAsWritten(f"certificates says {said.first()}")
        return said.out

    def conditions(self, file, is_boogie=False) -> Dict[str, str]:
        """The texts of the conditions of all units of a file, by the names of their procedures: when their assertions fail."""
        said = self.asked("conditions", file, is_boogie)
        if said.status != DONE:
            raise NotAsWritten(f"conditions says {said.first()}")
        return parts_of(said.out, "conditions")

    def values(self, file, seconds=None, is_boogie=False) -> Dict[str, str]:
        """What is found of the labels of all units of a file, by the names of their procedures: nothing where the call went wrong or took
        longer than it may, since what is not found may be looked for elsewhere."""
        try:
            said = self.asked("values", file, is_boogie, seconds)
        except TooLate:
            return {}
        return parts_of(said.out, "unit") if said.status in (DONE, OPEN) else {}


def parts_of(text, word) -> Dict[str, str]:
    """The parts of a text, each of which begins with a line of a word and a name, by the names."""
    parts = f"\n{text}".split(f"\n{word} ")[1:]
    return {it.split(None, 1)[0]: f"{word} {it}".rstrip("\n") + "\n" for it in parts}


def answers_of(said) -> Answers:
    """What lines of `prove` tell."""
    if said.status == REFUSED:
        return Answers([], {}, (said.error.strip().splitlines() or ["error: nothing is told"])[-1])
    if said.status not in (DONE, OPEN):
        raise NotAsWritten(f"prove ended with status {said.status}")
    proved, open_ = [], {}
    for line in said.out.splitlines():
        word, name, *rest = line.split()
        if word == "proved":
            proved.append(name)
        elif word == "open":
            open_[name] = " ".join(rest) if len(rest) == 3 and rest[0] != "certificate" else ""
        else:
            raise NotAsWritten(f"prove says {line}")
    return Answers(proved, open_, "")
