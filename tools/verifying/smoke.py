"""Which spots of verified units no run reaches. Where the begin or the end is none, that the unit is verified says nothing."""
import os
from typing import List

from . import files, spots
from .program import TooLate
from .units import Examiner, Task


def unreached(program, solver, room, source, names, seconds) -> List[spots.Spot]:
    """The spots of some units that no run reaches, as `prove` shows, or where it is not asked, as z3 says."""
    units = [it for it in source.units if it.name in names and (it.kind == "method" or it.kind == "predicate" and it.brace is not None)]
    text, found = spots.with_copies(source, units)
    path = os.path.join(room, "smoke.vpr")
    with open(path, "w", encoding="latin-1") as it:
        it.write(text)
    if not found:
        return []
    try:
        never = set(program.prove(path, seconds).proved) if program.searches() else refuted(program, solver, room, path, seconds)
    except TooLate:
        return []
    return spots.told(found, never & set(found))


def refuted(program, solver, room, path, seconds):
    """The units of a file of which z3 says that no run fails."""
    with open(path, "rb") as it:
        data = it.read()
    given = files.given(path, data, program, room, True)
    found = set()
    for unit in given.units:
        task = Task(path, given.prelude, unit.text, given.bare, False, seconds)
        examiner = Examiner(task, program, solver, room)
        if examiner.any_of(examiner.possible())[0] == "unsat":
            found.add(unit.name)
    return found
