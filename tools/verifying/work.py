"""The work on files and units, as it is done in processes: each has a solver of its own that stays open, and a folder of its own."""
import os
import tempfile
import time

from . import files
from .boogie_text import NotAsWritten
from .cache import Cache
from .deciding import Decider, Wants
from .program import NoProgram, Program
from .results import PROVE, Result, Teller, unknown
from .smoke import unreached
from .solver import NoSolver, Solver, is_there
from .symbolic import TooSlow
from .units import NOT_PROVED, UNDECIDED, VERIFIED, Examiner, Task

SPENT = "no proof was found in the steps of its budget"
MINE = None     # what this process keeps from one unit to the next


class Mine:
    """A solver where z3 is there, a folder, what earlier calls found, and the last file that was looked at."""

    def __init__(self, program, room, cache):
        self.program, self.solver, self.cache = Program(program), Solver() if is_there() else None, cache
        self.room = tempfile.mkdtemp(dir=room)
        self.path, self.source = None, None

    def source_of(self, given):
        if self.path != given.copy:
            with open(given.copy, "rb") as it:
                self.path, self.source = given.copy, files.source_of(given.path, it.read())
        return self.source


def begin(program, room, cache=None):
    """Makes this process ready for units, with a folder of its own in a room, and with a cache where one is given."""
    global MINE
    MINE = Mine(program, room, cache or Cache())


def prepared(_, path, data, room, wants_text, is_for_z3):
    """A file and its units."""
    return files.given(path, data, MINE.program, room, wants_text, is_for_z3)


def examined(tell, given, unit, options) -> Result:
    """Looks at a unit, and tells each error as soon as it is found."""
    try:
        return looked_at(tell, given, unit, options)
    except (NoSolver, NotAsWritten, NoProgram, TooSlow, RecursionError, MemoryError, OSError) as why:
        return unknown(unit.name, f"{why}" or type(why).__name__)
    except Exception as fault:      # what these scripts did wrong, so that nothing of the other units is hidden by it
        return unknown(unit.name, f"tools/verify went wrong: {type(fault).__name__}: {fault}")


def looked_at(tell, given, unit, options):
    start, source = time.monotonic(), MINE.source_of(given)
    teller = Teller(source, unit.name, given.is_boogie, options.wants_all_runs(), options.trace, options.runs)
    if not unit.values and MINE.solver is None:
        return not_shown(teller, unit, time.monotonic() - start)
    wants = Wants(options.all or options.json, options.runs, options.runs and options.all_runs, options.errors)
    examiner = Examiner(task_of(given, unit, options.seconds), MINE.program, MINE.solver, MINE.room)
    labels = []

    def told(mistake):
        error = teller.error(mistake, examiner)
        labels.extend(error.labels)
        tell(error)

    decider = Decider(examiner, source, wants, told, MINE.cache.known(unit.text))
    outcome = decider.outcome()
    MINE.cache.keep(unit.text, decider.runs)
    open_ = [teller.open(label, why) for label, why in outcome.open.items()]
    told_by = teller.told_by(outcome, examiner.asked_z3 or examiner.found is None)
    return Result(unit.name, outcome.verdict, "", labels, open_, told_by, time.monotonic() - start)


def task_of(given, unit, seconds) -> Task:
    """A unit of a file, as it is looked at."""
    return Task(given.copy, given.prelude, unit.text, given.bare, given.is_boogie, seconds, unit.conditions, unit.first_open, unit.values)


def not_shown(teller, unit, seconds) -> Result:
    """What is told of a unit that is not proved, where no solver is asked."""
    open_ = [teller.open(unit.first_open, NOT_PROVED)] if unit.first_open else []
    return Result(unit.name, UNDECIDED, "" if open_ else SPENT, [], open_, [PROVE], seconds)


def proved(unit) -> Result:
    """What is told of a unit that is proved."""
    return Result(unit.name, VERIFIED, "", [], [], [PROVE], 0.0)


def certificates(_, file, is_boogie):
    """The certificates of the units of a file, one behind the other."""
    return MINE.program.certificates(file, is_boogie)


def smoke(_, given, names, seconds):
    """The spots of some units that no run reaches."""
    return unreached(MINE.program, MINE.solver, MINE.room, MINE.source_of(given), names, seconds)


def cores():
    """How many processes may run at the same time."""
    return len(os.sched_getaffinity(0))
