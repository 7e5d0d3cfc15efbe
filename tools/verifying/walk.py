"""Runs a procedure at given values, and notes what a run file has to say: the choices that are met, and the places looked at.

A value is an int (a reference too, where 0 is null), a bool, a Fraction, or a content: ("unit",), ("leaf", base, value) or
("pair", a, b). Nothing that a walk says is trusted: the program confirms it."""
from fractions import Fraction

from .changes import Changes
from .evaluation import evaluation

DEFAULTS = {"int": 0, "bool": False, "Ref": 0, "real": Fraction(0), "Snap": ("unit",)}


class Outside:
    """A map that is taken from outside: `value` gives the value at a key, and `touched` has the values that were looked at."""

    __slots__ = ("value", "touched", "kept")

    def __init__(self, value):
        self.value, self.touched = value, {}
        self.kept = set()   # the keys at which an assumption decides the value

    def get(self, key):
        found = self.touched.get(key)
        if found is None:
            found = self.touched[key] = self.value(key)
        return found


class Map:
    """A map from outside, but for the places that were changed."""

    __slots__ = ("source", "changed")

    def __init__(self, source, changed=None):
        self.source, self.changed = source, changed or Changes()

    def get(self, key):
        found = self.changed.get(key)
        return self.source.get(key) if found is None else found

    def put(self, key, value):
        return Map(self.source, self.changed.put(key, value))


class End(Exception):
    """How a walk ends: done, failed at a label, or blocked."""

    def __init__(self, how, label=None):
        super().__init__(how, label)
        self.how, self.label = how, label


class Taken:
    """A choice that was taken. `what` is pick, value or entries; `local` is the variable that got it, with `base` its base type;
    `value` is the value, or the map from outside; `after` is the statement behind it, `kind` what it is a choice of (see
    `kind_of`), and `seen` the label of the last assertion before it."""

    __slots__ = ("what", "value", "local", "base", "after", "seen", "kind")

    def __init__(self, what, value, local, base, after, seen):
        self.what, self.value, self.local, self.base, self.after, self.seen = what, value, local, base, after, seen
        self.kind = kind_of(self)


def kind_of(it):
    """What a choice of Boogie is a choice of: pick; state, of one map of heap or contents; value, amount, fresh; or split and leaf,
    which take a content apart and are no choices of Viper."""
    if it.what == "pick":
        return "pick"
    if it.what == "entries":
        return "state"
    if it.base == "Snap":
        return "split"
    if it.local.startswith("t$") and it.after and it.after[0] == "assume" and it.after[1][0] == "bin":
        _, sign, left, right = it.after[1]
        if sign == "==" and right[0] == "con" and right[2] == (("name", it.local),):
            return "leaf"
        if sign == ">" and left == ("name", it.local) and it.base == "real":
            return "amount"
        if sign == "!=" and left == ("name", it.local) and right == ("null",):
            return "fresh"
    return "value"


class Code:
    """The statements of a procedure as functions of a walk, made once. `numbers` has those of its locals, by name."""

    def __init__(self, procedure):
        self.procedure = procedure
        self.numbers = {name: n for n, name in enumerate(procedure.locals)}
        self.forms = {"assign": self.assign, "put": self.put, "havoc": self.havoc, "assume": self.assume, "assert": self.assertion}
        self.steps, self.count = self.block(procedure.body)

    def block(self, block):
        """The steps of a block, and how many variables its `havoc`s and `if (*)`s have."""
        steps, count = [], 0
        for at, stmt in enumerate(block):
            if stmt[0] == "if":
                step, more = self.branch(stmt)
                count += more
            else:
                step = self.forms[stmt[0]](stmt, block[at + 1:at + 3])
                count += stmt[0] == "havoc"
            steps.append(step)
        return steps, count

    def branch(self, stmt):
        condition = None if stmt[1] is None else evaluation(stmt[1])
        (yes, first), (no, second) = self.block(stmt[2]), self.block(stmt[3])
        return lambda walk: walk.branch(condition, yes, first, no, second), (condition is None) + first + second

    def assign(self, stmt, _):
        name, value = stmt[1], evaluation(stmt[2])

        def step(walk):
            walk.env[name] = value(walk.env, None)
        return step

    def put(self, stmt, _):
        name, keys, value = stmt[1], [evaluation(it) for it in stmt[2]], evaluation(stmt[3])

        def step(walk):
            env = walk.env
            env[name] = env[name].put(tuple([it(env, None) for it in keys]), value(env, None))
        return step

    def havoc(self, stmt, behind):
        name = stmt[1]
        frame = framing(behind[0], name) if behind else None
        return lambda walk: walk.havoc(name, behind, frame)

    def assume(self, stmt, _):
        holds = evaluation(stmt[1])

        def step(walk):
            if not holds(walk.env, None):
                raise End("blocked")
        return step

    def assertion(self, stmt, _):
        label, holds = stmt[1], evaluation(stmt[2])

        def step(walk):
            walk.seen = label
            if not holds(walk.env, None):
                raise End("failed", label)
        return step


class Opening(dict):
    """The values that the locals of a procedure have at the begin, by name: each is made when it is first asked for."""

    def __init__(self, code, given):
        super().__init__()
        self.code, self.given = code, given

    def __missing__(self, name):
        found = self.given(self.code.numbers[name])
        found = self[name] = Map(Outside(found)) if self.code.procedure.locals[name][0] else found
        return found


class Now(dict):
    """The values that locals have now: those at the begin, where nothing else was set."""

    def __init__(self, opening):
        super().__init__()
        self.opening = opening

    def __missing__(self, name):
        found = self[name] = self.opening[name]
        return found


class Walk:
    """A run of a procedure. `given(n)` gives the n-th of its variables, of which the first are the locals, and then one comes for
    each `havoc` and each `if (*)` in the order of the text: a value, or for a map a function of keys. Where the statements behind
    a `havoc` leave it one value only, that is taken, whatever is given: so a content is taken apart as it is, and a map keeps what
    is held. Behind a run `env` has the values of the locals, `opening` those at the begin, and `taken` the choices in order."""

    def __init__(self, procedure, given):
        self.procedure, self.given, self.taken, self.seen = procedure, given, [], None
        if procedure.code is None:
            procedure.code = Code(procedure)
        self.opening = Opening(procedure.code, given)
        self.env = Now(self.opening)
        self.number = len(procedure.locals)

    def run(self):
        """Runs the procedure, and returns how that ends."""
        try:
            self.go(self.procedure.code.steps)
        except End as end:
            return end
        return End("done")

    def go(self, steps):
        for it in steps:
            it(self)

    def take(self):
        """The next variable from outside."""
        self.number += 1
        return self.given(self.number - 1)

    def havoc(self, name, behind, frame):
        keys, base = self.procedure.locals[name]
        value = self.chosen(name, keys, base, behind, frame)
        after = behind[0] if behind else None
        if keys:
            self.env[name] = Map(value)
            self.taken.append(Taken("entries", value, name, base, after, self.seen))
        else:
            self.env[name] = value
            self.taken.append(Taken("value", value, name, base, after, self.seen))

    def chosen(self, name, keys, base, behind, frame):
        """The value that a `havoc` gives: what is given from outside, but for what the assumptions behind it decide."""
        value = self.take()
        return self.framed(value, frame) if keys else self.part(name, base, value, behind)

    def framed(self, value, frame):
        """A map that agrees with another one where a third is not zero, as
        `assume (forall q :: held[q] != 0.0 ==> old[q] == new[q])` says."""
        if frame is None:
            return Outside(value)
        held, old = self.env[frame[0]], self.env[frame[1]]

        def at(key):
            if held.get(key) != 0:
                outside.kept.add(key)
                return old.get(key)
            return value(key)

        outside = Outside(at)
        return outside

    def part(self, name, base, value, behind):
        """A part of a content that is taken apart: `havoc l; havoc r; assume (s == sPair(l, r));` or `havoc v; assume (s == sInt(v));`."""
        for stmt in behind:
            if stmt[0] == "assume":
                _, sign, left, right = stmt[1] if stmt[1][0] == "bin" else ("", "", None, ("",))
                if sign != "==" or right[0] != "con" or left[0] != "name" or ("name", name) not in right[2]:
                    return value
                whole = self.env[left[1]]
                if right[1] == "sPair":
                    return whole[1 + right[2].index(("name", name))] if whole[0] == "pair" else value
                return whole[2] if whole[0] == "leaf" and whole[1] == base else value
            if stmt[0] != "havoc":
                return value
        return value

    def branch(self, condition, yes, first, no, second):
        """Goes through one of two blocks, which have so many variables."""
        if condition is None:
            goes = self.take()
            self.taken.append(Taken("pick", goes, None, "bool", None, self.seen))
        else:
            goes = condition(self.env, None)
        start = self.number
        if goes:
            self.go(yes)
        else:
            self.number += first
            self.go(no)
        self.number = start + first + second


def framing(stmt, name):
    """The maps `held` and `old` of `assume (forall q :: held[q] != 0.0 ==> old[q] == name[q])`, or None."""
    if stmt[0] != "assume" or stmt[1][0] != "forall":
        return None
    keys = tuple([("name", it) for it, _ in stmt[1][1]])
    body = stmt[1][2]
    if body[:2] != ("bin", "==>") or body[2][:2] != ("bin", "!=") or body[3][:2] != ("bin", "=="):
        return None
    held, zero, old, new = body[2][2], body[2][3], body[3][2], body[3][3]
    fits = held[0] == "at" and held[2] == keys and zero == ("real", 0) and old[0] == "at" and old[2] == keys and new == ("at", name, keys)
    return (held[1], old[1]) if fits and name not in (held[1], old[1]) else None
