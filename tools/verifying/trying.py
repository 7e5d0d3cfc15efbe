"""Tries changes of a file: what is verified of a unit with them, and which values make it fail."""
import functools
import os
import tempfile
import time
from typing import List, NamedTuple, Optional

from . import files, spots
from .boogie_text import NotAsWritten
from .failures import read
from .found_values import REFUTED, VALUES, words_of
from .search import PLAIN
from .source import Source, without_bodies
from .symbolic import TooSlow
from .units import Examiner, Task

MOST_OTHERS = 3     # so many other labels may fail as they did before
TIMES = 4           # trials have so many times the time that the unit took up to then, but
LEAST_SECONDS, MOST_SECONDS = 3.0, 6.0


class Insertion(NamedTuple):
    """A change of a file: the bytes from `start` up to `end` give way to a text."""
    start: int
    end: int
    text: str


class Changed:
    """A file with changes, which stand in order and apart."""

    def __init__(self, data, changes: List[Insertion]):
        self.changes, parts, at = sorted(changes), [], 0
        for it in self.changes:
            parts += [data[at:it.start], it.text.encode()]
            at = it.end
        self.old, self.data = data, b"".join([*parts, data[at:]])

    @functools.cached_property
    def source(self):
        """The changed file as its tokens."""
        return Source("", self.data)

    def label(self, source, label) -> Optional[str]:
        """A label of the file as it was, with its places in the changed file; or None where one of them is gone."""
        found = read(label)
        places = [self.place(source, *it) for it in (found.at, found.part)]
        return None if None in places else "{}:{} {}:{} {}".format(*places[0], *places[1], found.kinds)

    def place(self, source, line, column):
        n = source.at(line, column)
        if n is None:
            return None
        start = source.tokens[n].start
        if any([it.start <= start < it.end for it in self.changes]):
            return None
        at = start + sum([len(it.text.encode()) - (it.end - it.start) for it in self.changes if it.start <= start])
        return self.data.count(b"\n", 0, at) + 1, at - self.data.rfind(b"\n", 0, at)


class Trials:
    """Tries changes of the file of a unit, as long as there is time."""

    def __init__(self, examiner, source, unit):
        self.examiner, self.source, self.unit = examiner, source, unit
        now = time.monotonic()
        self.end = now + min(MOST_SECONDS, max(LEAST_SECONDS, TIMES * (now - examiner.begun)))

    def left(self):
        return self.end - time.monotonic()

    def examined(self, changed, unit=None) -> Optional[Examiner]:
        """A unit of a changed file, ready to be asked; or None where it is none, or there is no time."""
        unit = unit or self.unit
        return self.examiner_of(self.alone(changed, unit), unit) if self.left() > 0 else None

    def alone(self, changed, unit):
        """The bytes of a changed file in which no other method has a body."""
        return Changed(without_bodies(self.source, {it.name for it in self.source.units if it.name != unit}), changed.changes).data

    def written(self, data):
        """The path of a file with these bytes."""
        copy = os.path.join(tempfile.mkdtemp(dir=self.examiner.room), "given.vpr")
        with open(copy, "wb") as it:
            it.write(data)
        return copy

    def examiner_of(self, data, unit) -> Optional[Examiner]:
        """A unit of a file with the predicates of this one, ready to be asked; or None where it is none."""
        copy, program = self.written(data), self.examiner.program
        try:
            given = files.translated(files.Given(copy, copy, None, "", False, False, frozenset(), [], None, ""), self.source, data, program)
            found = next((it for it in given.units if it.name == unit), None)
            if found is None:
                return None
            values = program.values(copy, max(self.left(), 0.01)).get(found.procedure) if self.examiner.found else None
            task = Task(copy, given.prelude, found.text, given.bare, False, max(self.left(), 0.01), values=values)
            examiner = Examiner(task, program, self.examiner.solver, os.path.dirname(copy))
            examiner.possible()
            return examiner
        except (NotAsWritten, TooSlow):
            return None

    def mends(self, changed, label, others=()):
        """Whether with the changes a unit is `verified`, or else no label of it fails but those that failed before, and the one to be
        mended not: then that one is `gone`. All units `others` have to be verified with them."""
        if self.left() <= 0:
            return ""
        found = self.mends_by_values(changed, label, others) if self.examiner.found else None
        return self.mends_by_z3(changed, label, others) if found is None and self.examiner.solver is not None else found or ""

    def not_refuted(self, data, procedure):
        """The labels of a unit of a file that are not refuted, with what is found of each; or None where nothing is known of it."""
        text = self.examiner.program.values(self.written(data), max(self.left(), 0.01)).get(procedure)
        return text and {it: word for it, word in words_of(text).items() if word != REFUTED}

    def mends_by_values(self, changed, label, others):
        """The same by what the program finds; or None where something is open."""
        left = self.not_refuted(self.alone(changed, self.unit), self.examiner.procedure.name)
        if left is None:
            return ""
        known = {changed.label(self.source, it): it for it in self.examiner.possible()}
        failing = [it for it, word in left.items() if word == VALUES]
        if len(failing) > MOST_OTHERS or not all([known.get(it, label) != label and self.failed_before(known[it]) for it in failing]):
            return ""
        if len(left) > len(failing):
            return None
        text, name, end = spots.with_end(changed.source, changed.source.declared[self.unit])
        ends = (self.not_refuted(text.encode("latin-1"), f"M${name}") or {}).get(end) == VALUES
        mends = ends and all([self.not_refuted(self.alone(changed, it), f"M${it}") == {} for it in others])
        return "" if not mends else "gone" if left else "verified"

    def mends_by_z3(self, changed, label, others):
        """The same by z3."""
        examiner = self.examined(changed)
        if examiner is None:
            return ""
        left, known = examiner.possible(), {changed.label(self.source, it): it for it in self.examiner.possible()}
        known.pop(None, None)
        for found in ["verified"] + ["gone"] * MOST_OTHERS:
            said, values = examiner.any_of(left, (PLAIN,))
            if said == "unsat":
                return found if self.has_end(changed) and all([self.is_verified(changed, it) for it in others]) else ""
            failing = examiner.fails_at(values) if values is not None else None
            if failing not in left or failing not in known or known[failing] == label or not self.failed_before(known[failing]):
                return ""
            left.remove(failing)
            examiner.begin_anew()
        return ""

    def has_end(self, changed):
        """Whether some run comes to the end of the unit: where none does, a change has made it impossible."""
        text, name, label = spots.with_end(changed.source, changed.source.declared[self.unit])
        examiner = self.examiner_of(text.encode("latin-1"), name)
        return examiner is not None and examiner.any_of([label], (PLAIN,))[1] is not None

    def is_verified(self, changed, unit):
        examiner = self.examined(changed, unit)
        return examiner is not None and examiner.any_of(examiner.possible(), (PLAIN,))[0] == "unsat"

    def failed_before(self, label):
        """Whether a label fails in the file as it is."""
        self.examiner.begin_anew()
        return self.examiner.any_of([label], (PLAIN,), 0.2)[1] is not None
