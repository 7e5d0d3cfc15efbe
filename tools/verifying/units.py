"""One unit: values at which it may fail, and what the program says of the run that they make.

Values are those that the program finds, and those of z3 where it is asked. A label is confirmed where `run` failed at it on the very run
file that is told (of a program of Boogie, `replay`). What fails at some values and no run confirms is told apart: that is a finding about
these tools, unless the run needs what run files do not take."""
import functools
import os
import re
import time
from typing import NamedTuple, Optional

from .boogie_text import read_procedure
from .conditions import read_conditions
from .found_values import read_found, types_of
from .run_files import ViperRun, boogie_run, read_back, viper_run, with_states
from .search import WAYS, Search, new_objects
from .smaller import Smaller, Values
from .solver import NoSolver
from .symbolic import TooSlow, symbolic_of
from .walk import Walk

MOST, MOST_NODES = (1 << 127) - 1, 4096     # the limits of numbers and contents in docs/run-files.md
VERIFIED, FAILS, UNDECIDED = "verified", "fails", "undecided"
NOT_PROVED = "no proof was found"


class Failure(NamedTuple):
    """A label that can fail. `confirmed` tells whether the program failed there on `run` (of Boogie, on `boogie_run`), `end` is the
    walk that ends there, and `why` what the program said instead."""
    label: str
    confirmed: bool
    run: Optional[ViperRun]
    boogie_run: Optional[str]
    end: Optional[Walk]
    why: str


class Task(NamedTuple):
    """A unit that is to be looked at: its file, and the text of its procedure, behind the prelude and alone. `conditions` is the text
    of its conditions where that is known, `first_open` the label before which all is proved, where there is one, and `values` the text
    of what the program finds of its labels, where it is asked."""
    file: str
    prelude: str
    text: str
    bare: frozenset
    is_boogie: bool
    seconds: float
    conditions: Optional[str] = None
    first_open: str = ""
    values: Optional[str] = None


class Passing(Walk):
    """A walk that notes the labels of the assertions that it comes to, in order."""

    def __init__(self, procedure, given):
        self.come_to = {}
        super().__init__(procedure, given)

    @property
    def seen(self):
        return next(reversed(self.come_to), None)

    @seen.setter
    def seen(self, label):
        if label is not None:
            self.come_to.pop(label, None)
            self.come_to[label] = None


class Examiner:
    """Looks at one unit. `room` is a folder for its run files, and `solver` is None where no z3 is asked. `asked_z3` tells whether it was.
    What z3 is asked with is made for its first question."""

    def __init__(self, task, program, solver, room):
        self.task, self.program, self.solver, self.room, self.begun = task, program, solver, room, time.monotonic()
        self.end = self.begun + task.seconds
        self.procedure = read_procedure(task.text)
        self.text_file = self.file("unit.bpl", task.prelude + task.text)
        self.found = read_found(task.values, types_of(self.procedure)) if task.values else None
        self.ends, self.asked_z3 = {}, False

    @functools.cached_property
    def text(self):
        """The text of the procedure's conditions, as the program writes it."""
        return self.task.conditions or self.program.conditions(self.text_file, is_boogie=True)[self.procedure.name]

    @functools.cached_property
    def symbolic(self):
        """The terms of the conditions, as z3 is asked of them."""
        return symbolic_of(read_conditions(self.text), self.end)

    @functools.cached_property
    def search(self):
        """What asks z3, up to the end of the unit's time."""
        return Search(self.symbolic.vars, new_objects(self.procedure), self.solver, self.end)

    @functools.cached_property
    def terms(self):
        """The terms of each label that are not false at once."""
        found = {}
        for label, term in self.symbolic.fails:
            if term is not self.symbolic.logic.false:
                found.setdefault(label, []).append(term)
        return found

    def possible(self):
        """The labels that may fail, in the order of the text, from the one on before which all is proved."""
        labels = self.found.labels if self.found else list(dict.fromkeys([label for label, _ in self.symbolic.fails]))
        begin = labels.index(self.task.first_open) if self.task.first_open in labels else 0
        return [it for it in labels[begin:] if self.may_fail(it)]

    def may_fail(self, label):
        """Whether nothing says at once that a label cannot fail."""
        return label not in self.found.refuted if self.found else label in self.terms

    def any_of(self, labels, ways=WAYS, part=1.0):
        """Values at which one of some labels fails; or `unsat` where none can, or why nobody knows. The program's values come first, of
        which a walk fails at one of these labels; z3 is asked in some ways and for so much of the time that is left."""
        labels = dict.fromkeys([it for it in labels if self.may_fail(it)])
        found = next((self.found.values[it] for it in labels if self.end_of(it) in labels), None) if self.found else None
        if found is not None:
            return "sat", found
        if not labels:
            return "unsat", None
        if self.solver is None:
            return NOT_PROVED, None
        self.asked_z3 = True
        try:
            terms = [term for it in labels for term in self.terms.get(it, ())]
            return self.search.any_of(terms, ways, part) if terms else ("unsat", None)
        except (NoSolver, TooSlow) as why:
            if not self.found:
                raise
            return f"{why}", None

    def end_of(self, label):
        """The label at which a run fails on the values that the program found for a label, or None."""
        if label not in self.ends:
            values = self.found.values.get(label)
            self.ends[label] = self.fails_at(values) if values is not None else None
        return self.ends[label]

    def begin_anew(self):
        """Has the next question to z3 begin anew."""
        if "search" in self.__dict__:
            self.search.begin_anew()

    def confirmed_small(self, values: Values, label) -> Failure:
        """Has the program confirm a run that is made small, or where it does not the run as it was."""
        first = Values(values.types, dict(values.scalars), {n: dict(table) for n, table in values.tables.items()})
        found = self.confirmed(Smaller(self.procedure, values, label).found(), label)
        return found if found.confirmed else self.confirmed(first, label)

    def confirmed(self, values, label) -> Failure:
        """Has the program confirm a run, and returns what it says: of Boogie that of the walk, and of Viper that which it comes from,
        with the run of Boogie that `run` writes for it."""
        walk = Walk(self.procedure, values.given)
        walk.run()
        text = boogie_run(walk, self.task.is_boogie)
        if self.task.is_boogie:
            why = self.replayed(text, label)
            return Failure(label, not why, None, text, walk, why and self.explained(text, why))
        found = self.confirmed_run(viper_run(walk, self.task.bare), label)
        if found.confirmed:
            return found
        why = self.replayed(text, label)
        words = f"{found.why}; {why or 'replay fails there'}"
        return found._replace(boogie_run=text, end=walk, why=self.explained(found.run.text(), words))

    def confirmed_run(self, run, label) -> Failure:
        """Has the program confirm a run of Viper."""
        run, said = with_states(run, self.says, self.procedure)
        if not said.startswith(f"// failed {label}\n"):
            return Failure(label, False, run, None, None, f"run says {first_line(said)}")
        written = "".join(f"{line}\n" for line in said.splitlines()[2:])
        why = self.replayed(written, label)
        end = read_back(self.procedure, written)
        end.run()
        return Failure(label, True, run, written, end, why and f"of the run of Boogie that run writes, {why}")

    def confirmed_anew(self, choices, label) -> Optional[Failure]:
        """Has the program confirm a run that is known from before, all choices of which are taken; or None where it does not."""
        run = ViperRun(self.procedure.name[2:], choices)
        if self.task.is_boogie:
            text = run.text()
            if choices[0][0] != f"boogie run {self.procedure.name}" or self.replayed(text, label):
                return None
            end = read_back(self.procedure, text)
            return Failure(label, True, None, text, end, "") if end.run().how == "failed" else None
        if not self.says(run.text()).startswith(f"// failed {label}\n// unused 0\n"):
            return None
        return self.confirmed_run(run, label)

    def small_run(self, values, label) -> ViperRun:
        """A small run of Viper that fails at a label, as the walk goes."""
        walk = Walk(self.procedure, Smaller(self.procedure, values, label).found().given)
        walk.run()
        return viper_run(walk, self.task.bare)

    def fails_at(self, values):
        """The label at which a run on some values fails, or None."""
        end = Walk(self.procedure, values.given).run()
        return end.label if end.how == "failed" else None

    def explained(self, text, words):
        """What the program says of a run, behind what the run needs that the program does not take."""
        needs = beyond(text, words, any([base == "Snap" for _, base in self.procedure.locals.values()]))
        word = "replay" if self.task.is_boogie else "run"
        return f"the run needs {needs}, which run files and `{word}` do not take, so it cannot be confirmed: {words}" if needs else words

    def replayed(self, text, label):
        """Nothing where `replay` fails at a label, and else what it says."""
        said = self.program.replay(self.text_file, self.file("run.brun", text))
        return "" if said.out == f"// failed {label}\n" else f"replay says {said.first()}"

    def says(self, text):
        """What the program says of a run of Viper."""
        said = self.program.run(self.task.file, self.procedure.name[2:], self.file("run.run", text))
        return said.out + said.error

    def file(self, name, text):
        path = os.path.join(self.room, name)
        with open(path, "w", encoding="utf-8") as it:
            it.write(text)
        return path


def beyond(text, words, has_contents):
    """What a run needs beyond the limits of run files, by its text and by what the program says of it; or nothing."""
    number, tree = "a number beyond 2^127 - 1 in magnitude", f"a content of more than {MOST_NODES:,} nodes"
    if any([int(it) > MOST for it in re.findall("(?<=[ /-])[0-9]+", text)]):
        return number
    if any([len(re.findall("unit|leaf|pair", it)) > MOST_NODES for it in text.splitlines()]):
        return tree
    return "" if "// over" not in words else f"{number}, or {tree}" if has_contents else number


def first_line(text):
    return (text.splitlines() or ["nothing"])[0]
