"""The one layer between the server and the engine of `verify`: what is asked of it, and what of its answers the server knows.

All of it runs in a process of its own (`workers`), on whose stack what is nested deep has room."""
import os
from typing import FrozenSet, NamedTuple, Optional, Tuple

from .. import failures, files, following, refusals, work
from ..boogie_text import NotAsWritten
from ..deciding import Decider, Wants
from ..helping import help_of
from ..processes import deep
from ..program import NoProgram
from ..results import Teller, not_confirmed, shown_of
from ..retelling import Retold
from ..shown_run import run_of
from ..smoke import unreached
from ..solver import NoSolver
from ..source import without_bodies
from ..symbolic import TooSlow
from ..units import FAILS, UNDECIDED, VERIFIED, Examiner
from .findings import Finding, Verdict
from .suggestions import suggestions

TROUBLE = (NoSolver, NotAsWritten, NoProgram, TooSlow, RecursionError, MemoryError, OSError)


class Settings(NamedTuple):
    """What a user chooses: the seconds for each unit, whether runs that are done are looked for, and how many errors of a unit are
    told (0 for all of them)."""
    seconds: float = 10.0
    smoke: bool = False
    errors: int = 5


class Translated(NamedTuple):
    """What the programs say of a file: what is refused, or its units. `given` is the file without the bodies of the units `known`, of
    which nothing is asked; `whole` is the path of the file as it is."""
    given: Optional[files.Given]
    refused: Tuple[Finding, ...]
    units: Tuple[files.Unit, ...]
    known: FrozenSet[str] = frozenset()
    whole: str = ""


def translated(path, data, room, known) -> Translated:
    """Has the programs translate a file and prove its units, but for those that are known."""
    os.makedirs(room, exist_ok=True)
    try:
        return deep(looked_through, path, data, room, known)
    except (NoProgram, NotAsWritten, OSError) as why:
        return Translated(None, (Finding(1, 1, "error", "unreadable", f"the file cannot be looked at: {why}"),), ())


def looked_through(path, data, room, known):
    source, whole = files.source_of(path, data), os.path.join(room, "whole.vpr")
    with open(whole, "wb") as into:
        into.write(data)
    said = work.MINE.program.translate(whole)
    if said.status != 0:
        lines = said.error.strip().splitlines()
        return refused(source, lines[-1] if lines else f"the program ended with status {said.status}")
    given = work.prepared(None, path, without_bodies(source, known), room, True, False)
    if given.refused:
        return refused(source, given.reason)
    return Translated(given._replace(units=[]), (), tuple(given.units), known, whole)


def refused(source, reason):
    """What is told of a file that is refused."""
    told = refusals.told(source, reason)
    helps = tuple(suggestions(source, told))
    code = reason.replace("error: ", "").split(" ")[0]
    return Translated(None, (Finding(told.line, told.column, "error", code, told.message, tuple(told.notes), helps),), ())


class Unit:
    """A unit that is being looked at: what is known of it so far."""

    def __init__(self, given, unit, settings, tell):
        self.given, self.unit, self.settings, self.tell = given, unit, settings, tell
        self.source = work.MINE.source_of(given)
        self.teller = Teller(self.source, unit.name, False, True)
        self.findings, self.runs, self.more, self.helped = [], [], 0, []

    def look(self):
        """Looks at it, and tells what is known: each mistake when it is found, and then whether it is verified."""
        mine, settings, unit = work.MINE, self.settings, self.unit
        examiner = Examiner(work.task_of(self.given, unit, settings.seconds), mine.program, mine.solver, mine.room)
        outcome = Decider(examiner, self.source, Wants(False, True, False, settings.errors), self.mistake, {}).outcome()
        if outcome.verdict != VERIFIED:
            self.help(examiner)
            self.say(outcome.verdict, [self.open(label, why) for label, why in outcome.open.items()], is_whole=True)
            return
        self.say(VERIFIED, [], is_whole=False)
        found = unreached(mine.program, mine.solver, mine.room, self.source, [unit.name], settings.seconds) if settings.smoke else []
        self.say(VERIFIED, [Finding(it.line, it.column, "warning", "unreached", it.words) for it in found], is_whole=True)

    def help(self, examiner):
        """Looks for ways to mend the mistakes whose runs are small, which takes a while."""
        for number, failure in self.helped:
            again = Retold(self.source, failure.run, failure.label).again
            found = help_of(examiner, self.source, again, failure.label) if again is not None else None
            if found is not None:
                self.findings[number] = self.findings[number]._replace(helps=(found,))

    def mistake(self, it):
        """Takes a mistake that is found, and tells of it with those before."""
        if it.of:
            return
        if self.settings.errors and len(self.findings) >= self.settings.errors:
            self.more += 1
            return
        names = [failure.label for failure in it.failures]
        told, labels = failures.joined(self.source, names)[0][0], [self.teller.label(failure, "", True) for failure in it.failures]
        if labels[0].confirmed:
            shown = next(n for n, label in enumerate(labels) if label.label == shown_of(it).label)
            told.message = labels[shown].message
            self.helped += [(len(self.findings), shown_of(it))] * it.is_shown
            self.findings.append(self.finding(names[0], told, shown))
            self.runs += [run_of(self.unit.name, label) for label in labels]
        else:
            self.findings.append(Finding(labels[0].line, labels[0].column, "warning", "not-confirmed", not_confirmed(labels[0])))
        self.say(FAILS, [], is_whole=False)

    def finding(self, label, told, shown):
        """What is told of a label, of whose next runs the one with a number is shown."""
        found = Finding(told.line, told.column, "error", label.split()[-1], told.message, tuple(told.notes), (), len(self.runs) + shown)
        if following.own_label(self.source, label):
            found = found._replace(part=failures.read(label).part, home=following.home_of(self.source, label))
        return found

    def open(self, label, why):
        """What is told of a label that nobody decided."""
        found = self.teller.open(label, why)
        return Finding(found.line, found.column, "warning", "undecided", f"undecided: {found.words}: {found.why}")

    def say(self, verdict, more, is_whole):
        findings = sorted(self.findings, key=lambda it: (it.line, it.column)) + more
        if is_whole and self.more:
            words = f"{self.more} more error{'s' * (self.more > 1)} of `{self.unit.name}`"
            findings.append(Finding(self.unit.line, self.unit.column, "note", "errors", words))
        why = next((it.message for it in findings if it.code == "undecided"), "")
        self.tell(Verdict(self.unit.name, verdict, why, tuple(findings), tuple(self.runs), False, is_whole))


def examined(given, unit, settings, tell):
    """Looks at a unit, and tells what is known of it."""
    try:
        Unit(given, unit, settings, tell).look()
    except TROUBLE as why:
        tell(undecided(unit, f"{why}" or type(why).__name__))


def proved(unit) -> Verdict:
    """What is told of a unit that is proved."""
    return Verdict(unit.name, VERIFIED, "", (), (), True, True)


def undecided(unit, why) -> Verdict:
    """What is told of a unit of which nothing is known."""
    finding = Finding(unit.line, unit.column, "warning", "undecided", f"undecided: `{unit.name}`: {why}")
    return Verdict(unit.name, UNDECIDED, why, (finding,), (), False, True)
