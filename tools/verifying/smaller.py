"""Makes the values of a run smaller and simpler, as long as the walk fails at the same label. The program confirms what is left."""
import time
from fractions import Fraction

from .walk import DEFAULTS, Walk

MOST_WORK = 200_000     # walks times variables for one run, which take about 0.6 seconds; so a busy machine finds the same run
SECONDS = 1.2       # of the processor, where walks take longer
ROUNDS = 3
INTS = (0, 1, 2, -1, 3, -2, 5, 10)
MOST_PARTS = 64     # so many parts of a content are looked at
MOST_CHILDREN = 6   # and so many that may hold what a reference leads to
UNIT = ("unit",)
FRESH = 1 << 40     # objects from here on are none of those that z3 names
REALS = (Fraction(0), Fraction(1), Fraction(1, 2))


class Values:
    """Values of the variables of a procedure, by their numbers: `scalars`, and `tables` with the places of maps. What is not there
    has the default of its type."""

    def __init__(self, types, scalars, tables):
        self.types, self.scalars, self.tables = types, scalars, tables

    def given(self, n):
        """The n-th variable, as a walk takes it."""
        keys, base = self.types[n]
        if not keys:
            return self.scalars.get(n, DEFAULTS[base])
        table, default = self.tables.get(n, {}), DEFAULTS[base]
        return lambda key: table.get(key, default)


def simpler(value, base):
    """Simpler values, the simplest first."""
    if base == "int":
        found = [*INTS, value // 2, value - 1 if value > 0 else value + 1]
        return [it for it in dict.fromkeys(found) if size(it) < size(value)]
    if base == "real":
        return [it for it in REALS if rank(it) < rank(value)]
    return [False] if value is True else []


def size(value):
    """How large a number is: a negative one counts as a larger one."""
    return abs(value) + 2 * (value < 0), value < 0


def rank(value):
    """Amounts between none and write come before all others."""
    return not 0 <= value <= 1, abs(value.numerator) + value.denominator, value < 0


def moved(values, by):
    """Values with all integers greater by a number, also those in keys and contents."""
    ints = {n: by for n, (keys, base) in enumerate(values.types) if base == "int" and not keys}
    return mapped(Values(values.types, {**{n: 0 for n in ints}, **values.scalars}, values.tables), lambda it: it + by)


def mapped(values, changed):
    """Values with all integers that are there changed, also those in keys and contents."""
    def one(value, base):
        if base == "Snap":
            return ("pair", one(value[1], base), one(value[2], base)) if value[0] == "pair" else \
                ("leaf", value[1], one(value[2], value[1])) if value[0] == "leaf" else value
        return changed(value) if base == "int" else value

    types = values.types
    scalars = {n: one(it, types[n][1]) for n, it in values.scalars.items()}
    tables = {n: {tuple([one(part, it) for part, it in zip(key, types[n][0])]): one(value, types[n][1]) for key, value in table.items()}
              for n, table in values.tables.items()}
    return Values(types, scalars, tables)


class Smaller:
    """Tries simpler values. `fails` says whether a run still fails as before."""

    def __init__(self, procedure, values, label):
        self.procedure, self.values, self.label, self.entered = procedure, values, label, set()
        self.end, self.work = time.process_time() + SECONDS, 0

    def fails(self):
        self.work += len(self.procedure.locals)
        end = Walk(self.procedure, self.values.given).run()
        return end.how == "failed" and end.label == self.label

    def late(self):
        return self.work > MOST_WORK or time.process_time() > self.end

    def found(self):
        """The simplest values that were found."""
        self.iterations()
        for _ in range(ROUNDS):
            self.leave_out()
            changed = any([self.smaller_tables(), self.simpler_scalars(), self.simpler_places(), self.simpler_keys()])
            if not changed or self.late():
                break
        self.objects()
        self.from_none_on()
        return self.values

    def from_none_on(self):
        """Adds to all integers alike, where some are negative, so that none is."""
        least = min([it for n, it in self.values.scalars.items() if self.values.types[n][1] == "int"], default=0)
        if least < 0:
            self.all_or_none(moved(self.values, -least))

    def all_or_none(self, values):
        """Takes other values if the run fails as before, and says whether it does."""
        old, self.values = self.values, values
        if self.late() or not self.fails():
            self.values = old
        return self.values is values

    def simpler_keys(self):
        """Makes integers in keys simpler, and all that equal them alike."""
        types, tables = self.values.types, self.values.tables
        found = {part for n, table in tables.items() for key in table for part, base in zip(key, types[n][0]) if base == "int"}
        return any([any(self.all_or_none(mapped(self.values, lambda it, old=old, to=to: to if it == old else it)) for to in simpler(old, "int"))
                    for old in sorted(found)])

    def iterations(self):
        """Goes into a loop where the run fails in front of its body, and in what is behind it alike; and has amounts within write."""
        for n in self.picks(self.procedure.body, len(self.procedure.locals))[1]:
            if self.values.scalars.get(n, False) or self.attempt(self.values.scalars, n, True):
                self.entered.add(n)
        most = max([it for n, it in self.values.scalars.items() if self.values.types[n][1] == "real"], default=0)
        if most > 1:
            scalars = {n: it / most if self.values.types[n][1] == "real" else it for n, it in self.values.scalars.items()}
            self.all_or_none(Values(self.values.types, scalars, self.values.tables))

    def picks(self, block, number):
        """The number behind those of a block that begins with a number, and those of its `if (*)`."""
        found = []
        for stmt in block:
            if stmt[0] == "havoc":
                number += 1
            elif stmt[0] == "if":
                found += [number] * (stmt[1] is None)
                number += stmt[1] is None
                for side in stmt[2:4]:
                    number, more = self.picks(side, number)
                    found += more
        return number, found

    def objects(self):
        """Makes objects of what is null where the method begins, and has what a loop or a call gives be an object that is there."""
        scalars, given = self.values.scalars, self.given()
        for n in given:
            if not scalars.get(n, 0):
                self.attempt(scalars, n, FRESH + n)
        known = sorted({scalars.get(n, 0) for n in given} - {0})
        for n in [it for it in scalars if self.values.types[it] == ((), "Ref") and it not in given and scalars[it] not in known]:
            any(self.attempt(scalars, n, it) for it in (known if n >= len(self.procedure.locals) else [0]))

    def given(self):
        """The numbers of the parameters that are references: no statement gives them a value."""
        assigned, todo = set(), [self.procedure.body]
        while todo:
            for stmt in todo.pop():
                if stmt[0] in ("assign", "havoc"):
                    assigned.add(stmt[1])
                elif stmt[0] == "if":
                    todo += stmt[2:4]
        return [n for n, (name, type_) in enumerate(self.procedure.locals.items()) if type_[1] == "Ref" and not type_[0] and
                name.startswith("v$") and name not in assigned]

    def leave_out(self):
        """Leaves out what the walk does not look at, and what has the default anyway."""
        seen, values = {}, self.values

        def given(n):
            keys = seen.setdefault(n, set())
            value = values.given(n)
            return (lambda key: keys.add(key) or value(key)) if callable(value) else value

        Walk(self.procedure, given).run()
        values.scalars = {n: it for n, it in values.scalars.items() if n in seen and it != DEFAULTS[values.types[n][1]]}
        for n, table in values.tables.items():
            default = DEFAULTS[values.types[n][1]]
            values.tables[n] = {key: it for key, it in table.items() if key in seen.get(n, ()) and it != default}
        values.tables = {n: table for n, table in values.tables.items() if table}

    def attempt(self, table, key, value):
        """Sets, or with None removes, an entry of a table. Keeps that if the run fails as before."""
        old = table.get(key)
        if value is None:
            del table[key]
        else:
            table[key] = value
        if not self.late() and self.fails():
            return True
        if old is None:
            del table[key]
        else:
            table[key] = old
        return False

    def smaller_tables(self):
        changed = False
        for n, table in list(self.values.tables.items()):
            del self.values.tables[n]
            if not self.late() and self.fails():
                changed = True
                continue
            self.values.tables[n] = table
            for key in list(table):
                changed = self.attempt(table, key, None) or changed
        return changed

    def simpler_scalars(self):
        changed, scalars = False, self.values.scalars
        for n in [it for it in scalars if it not in self.entered]:
            base = self.values.types[n][1]
            changed = base == "Snap" and self.attempt(scalars, n, None) or self.simplified(scalars, n, base) or changed
        return changed

    def simpler_places(self):
        changed = False
        for n, table in self.values.tables.items():
            for key in list(table):
                keys, base = self.values.types[n]
                others = [it for it, type_ in list(zip(key, keys))[1:] if type_ == "Ref" and it]
                changed = self.simplified(table, key, base, others) or changed
        return changed

    def simplified(self, table, key, base, others=()):
        if key not in table:
            return False
        if base == "Snap":
            changed = self.simpler_content(table, key)
            return self.without_children(table, key, others) or changed
        return any(self.attempt(table, key, it) for it in simpler(table[key], base))

    def simpler_content(self, table, key):
        """Makes parts of a content the unit, and the numbers in it smaller. What is opened on the way stays as it is."""
        changed, todo = False, [()]
        for _ in range(MOST_PARTS):
            if not todo or self.late():
                break
            path = todo.pop()
            part = part_at(table[key], path)
            if part == UNIT:
                continue
            tried = [("leaf", part[1], it) for it in simpler(part[2], part[1])] if part[0] == "leaf" else []
            tried += [("leaf", "Ref", 0)] if part[:2] == ("leaf", "Ref") and part[2] else []
            if any(self.attempt(table, key, with_part(table[key], path, it)) for it in [UNIT, *tried]):
                changed = True
            elif part[0] == "pair":
                todo += [(*path, 2), (*path, 1)]
        return changed

    def without_children(self, table, key, others):
        """Makes references in a content null, or another reference of its instance, each together with the part of what it leads to. One
        stays where permission is missing."""
        changed, seen = False, set()
        while key in table and not self.late():
            paths = [path for path, it in parts_of(table[key]) if it[:2] == ("leaf", "Ref") and it[2] not in (0, *others)]
            path = next((it for it in paths if it not in seen), None)
            if path is None:
                break
            seen.add(path)
            wanted = others if len(paths) == 1 and self.label.endswith("perm") else (0, *others)
            parts = [it for it, part in parts_of(table[key]) if part[0] == "pair" and it != path[:len(it)]][:MOST_CHILDREN]
            tried = [with_part(with_part(table[key], path, ("leaf", "Ref", to)), it, UNIT) for to in wanted for it in parts]
            changed = any(self.attempt(table, key, it) for it in tried) or changed
        return changed


def parts_of(value):
    """The parts of a content with their paths, those first that lie outermost."""
    found = [((), value)]
    for path, it in found:
        if it[0] == "pair" and len(found) < MOST_PARTS:
            found += [((*path, side), it[side]) for side in (1, 2)]
    return found


def part_at(value, path):
    """The part of a content to which a path of sides leads."""
    for side in path:
        value = value[side]
    return value


def with_part(value, path, part):
    """A content with another part at the end of a path of sides."""
    around = []
    for side in path:
        around.append((value, side))
        value = value[side]
    for pair, side in reversed(around):
        part = ("pair", part, pair[2]) if side == 1 else ("pair", pair[1], part)
    return part
