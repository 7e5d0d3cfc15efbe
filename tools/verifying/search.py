"""Asks z3 which assertions of a procedure may fail, in several ways, and reads values of the variables at which one does.

All are asked at once, and then what is left once those that were found are left out. Where z3 gives up it is asked again: with
references as numbers and each new object a number of its own, with small integers, with simple fractions, and of one assertion
alone; each within its part of the time. What it finds in any way is a run to try; that there is none is its word in the first ways."""
import time

from .question import Question
from .smaller import Values
from .solver import Reading, Unreadable

FRACTIONS = ("0.0", "1.0", "(/ 1.0 2.0)", "(/ 1.0 4.0)", "(/ 1.0 3.0)", "(/ 2.0 3.0)", "2.0", "(- 1.0)", "(/ 1.0 8.0)", "(/ 3.0 4.0)")
SMALL = 7
FIRST_OBJECT = 1001
LEAST = 0.02    # seconds for which it is worth to ask


class Way:
    """A way to ask: `part` is its part of the time that is left, where another way comes behind it, and `whole` whether that nothing
    is found says that there is nothing."""

    def __init__(self, name, part, whole, numbers=False, options=()):
        self.name, self.part, self.whole, self.numbers, self.options = name, part, whole, numbers, options


PLAIN = Way("plain", 0.4, True)
NUMBERS = Way("numbers", 0.4, False, True, ("smt.relevancy 0",))
SMALL_INTS = Way("small", 0.5, False)
GRID = Way("grid", 1, False)
WAYS = (PLAIN, NUMBERS, SMALL_INTS, GRID)


class Search:
    """Looks for values at which one of some terms is true, up to a time. `types` are those of the variables of a procedure by name, in
    order."""

    def __init__(self, types, fresh, solver, end):
        self.types, self.fresh, self.solver, self.end = types, fresh, solver, end
        self.names = list(types)
        self.open, self.asked, self.within = None, {}, frozenset()

    def begin_anew(self):
        """Has the next question begin anew."""
        self.open = None

    def left(self):
        return self.end - time.monotonic()

    def any_of(self, terms, ways=WAYS, part=1.0):
        """Values at which one of the terms is true; or `unsat` where there are none, or why nobody knows. It takes so much of the time
        that is left."""
        why, end = "z3 did not find out in time", time.monotonic() + self.left() * part
        for way in ways:
            seconds = end - time.monotonic()
            said, values = self.ask(way, terms, seconds * way.part if way is not ways[-1] else seconds)
            if values is not None:
                return "sat", values
            if said == "unsat" and way.whole:
                return "unsat", None
            if said not in ("unsat", "unknown"):
                why = said
        return why, None

    def ask(self, way, terms, seconds):
        """What z3 says in one way, and the values where it finds some."""
        if seconds < LEAST:
            return "unknown", None
        if self.open != way.name or not self.within.issuperset(terms):
            self.begin(way, terms)
        self.within = frozenset(terms)
        self.solver.more(f"(assert (or false {' '.join([self.asked[it] for it in terms])}))\n")
        said = self.solver.check(seconds)
        if said == "sat":
            try:
                return said, self.values(seconds)
            except Unreadable as why:
                self.open = None
                return str(why), None
        if said == "unknown":
            self.open = None
        return said, None

    def begin(self, way, terms):
        question = Question(terms, self.types, way.numbers)
        self.question, self.open, self.asked = question, way.name, dict(zip(terms, question.asked))
        more = ""
        known = {it.data for it in question.names}
        if way is NUMBERS:
            more = "".join(f"(assert (= {it} {FIRST_OBJECT + n}))\n" for n, it in enumerate(self.fresh) if it in known)
        elif way is SMALL_INTS:
            more = "".join(f"(assert (<= (- {SMALL}) {it.data} {SMALL}))\n" for it in question.names if it.sort == "int")
        elif way is GRID:
            more = "".join(f"(assert (or {' '.join(f'(= {it.data} {value})' for value in FRACTIONS)}))\n"
                           for it in question.names if it.sort == "real")
        self.solver.begin(question.text + more, way.options)

    def values(self, seconds):
        """The values of the variables in the model that z3 found."""
        question, number = self.question, {name: n for n, name in enumerate(self.names)}
        texts = ["null"] + [it.data for it in question.names]
        for it in question.reads:
            texts += [question.texts[it], *[question.texts[key] for key in it.args]]
        found = self.solver.values(texts, seconds)
        reading = Reading(found[0])
        values = [reading.value(it) for it in found]
        scalars, tables, at = {}, {}, 1
        for it in question.names:
            scalars[number[it.data]] = values[at]
            at += 1
        for it in question.reads:
            key = tuple(values[at + 1:at + 1 + len(it.args)])
            tables.setdefault(number[it.data], {})[key] = values[at]
            at += 1 + len(it.args)
        return Values([self.types[it] for it in self.names], scalars, tables)


def new_objects(procedure):
    """The names of the variables that are references of new objects."""
    found, number = [], len(procedure.locals)

    def count(block):
        nonlocal number
        for at, stmt in enumerate(block):
            if stmt[0] == "havoc":
                number += 1
                if block[at + 1:at + 2] == [("assume", ("bin", "!=", ("name", stmt[1]), ("null",)))] and stmt[1].startswith("t$"):
                    found.append(f"v{number}")
            elif stmt[0] == "if":
                number += stmt[1] is None
                count(stmt[2])
                count(stmt[3])

    count(procedure.body)
    return found
