"""Random procedures of the forms that `translate` writes, and the values of terms: what a walk does is compared with what terms say."""
from fractions import Fraction

from verifying.boogie_text import Procedure
from verifying.question import reached
from verifying.evaluation import OPERATORS
from verifying.walk import DEFAULTS

INT, REAL, REF, SNAP = ((), "int"), ((), "real"), ((), "Ref"), ((), "Snap")
MAP, MASK = (("Ref",), "Ref"), (("Ref",), "real")
LOCALS = {
    "r1": REF, "r2": REF, "r3": REF, "n1": INT, "n2": INT, "b1": ((), "bool"), "b2": ((), "bool"), "q1": REAL, "s1": SNAP,
    "h": MAP, "k": (("Ref",), "int"), "c": (("Ref",), "Snap"), "m": MASK, "a": (("Ref", "int"), "real"), "z": MASK,
    "y": (("Ref", "int"), "real"), "l1": SNAP, "l2": SNAP, "w": INT, "g": MAP, "d": (("Ref",), "Snap"), "t": MASK,
}
KEYS = {"m": ("Ref",), "t": ("Ref",), "a": ("Ref", "int")}


def zero(name, keys):
    bound = tuple((f"q{n}", it) for n, it in enumerate(keys))
    return ("assume", ("forall", bound, ("bin", "==", ("at", name, tuple(("name", it) for it, _ in bound)), ("real", 0))))


def forgotten(held, old, new):
    key = (("name", "q0"),)
    body = ("bin", "==>", ("bin", "!=", ("at", held, key), ("real", 0)), ("bin", "==", ("at", old, key), ("at", new, key)))
    return ("assume", ("forall", (("q0", "Ref"),), body))


class Chance:
    """Makes one random procedure."""

    def __init__(self, rng):
        self.rng, self.labels = rng, 0

    def procedure(self, length):
        start = [zero("z", ("Ref",)), zero("y", ("Ref", "int")), ("assign", "m", ("name", "z")), ("assign", "t", ("name", "z")),
                 ("assign", "a", ("name", "y"))]
        return Procedure("M$m", LOCALS, start + self.block(length, 3))

    def block(self, length, deep):
        found = []
        for _ in range(length):
            found += self.step(deep)
        return found

    def step(self, deep):
        make = self.rng.choice((self.hold, self.hold, self.give, self.store, self.assign, self.assign, self.asserted, self.asserted,
                                self.assumed, self.forget, self.split, self.fresh, self.branch, self.guarded, self.reset))
        return make(deep)

    def ref(self):
        return self.rng.choice((("name", "r1"), ("name", "r2"), ("name", "r3"), ("null",), ("at", "h", (("name", "r1"),)),
                                ("if", self.bool(0), ("name", "r1"), ("name", "r2"))))

    def int(self, deep=2):
        if deep == 0 or self.rng.random() < 0.4:
            return self.rng.choice((("name", "n1"), ("name", "n2"), ("int", self.rng.randrange(3)), ("at", "k", (self.ref(),))))
        sign = self.rng.choice(("+", "-", "*", "div", "mod"))
        return ("bin", sign, self.int(deep - 1), self.int(deep - 1))

    def key(self, name):
        return tuple(self.ref() if it == "Ref" else self.int(0) for it in KEYS[name])

    def real(self):
        mask = self.rng.choice(("m", "m", "t", "a"))
        return self.rng.choice((("real", 0), ("real", 1), ("name", "q1"), ("bin", "/", ("real", 1), ("toreal", ("int", 2))),
                                ("at", mask, self.key(mask)), ("if", self.bool(0), ("real", 1), ("name", "q1")), ("toreal", self.int(1))))

    def snap(self):
        return self.rng.choice((("name", "s1"), ("unit",), ("at", "c", (self.ref(),)), ("con", "sInt", (self.int(0),)),
                                ("con", "sPair", (("con", "sRef", (self.ref(),)), ("at", "c", (self.ref(),))))))

    def bool(self, deep=2):
        make = self.rng.randrange(9)
        if deep == 0 or make < 2:
            return self.rng.choice((("name", "b1"), ("name", "b2"), ("bin", "!=", ("name", "r1"), ("null",)),
                                    ("bin", "==", ("name", "r1"), ("name", "r2"))))
        if make == 2:
            return ("not", self.bool(deep - 1))
        if make < 5:
            return ("bin", self.rng.choice(("&&", "||", "==>", "<==>", "==", "!=")), self.bool(deep - 1), self.bool(deep - 1))
        kind = self.rng.choice((self.int, self.real, self.real))
        sign = self.rng.choice(("==", "!=", "<", "<=", ">", ">="))
        if make == 5:
            a = self.rng.choice((self.ref, self.snap))
            return ("bin", self.rng.choice(("==", "!=")), a(), a())
        return ("bin", sign, kind(), kind())

    def changed(self, name, key, sign, amount):
        return ("put", name, key, ("bin", sign, ("at", name, key), amount))

    def hold(self, deep):
        """What producing a place writes."""
        name = self.rng.choice(("m", "m", "a"))
        half = ("bin", "/", ("real", 1), ("toreal", ("int", 2)))
        key, amount = self.key(name), self.rng.choice((("real", 1), ("name", "q1"), half))
        steps = [("assume", ("bin", ">=", ("at", name, key), ("real", 0))), self.changed(name, key, "+", amount)]
        return steps + [("assume", ("bin", "<=", ("at", name, key), ("real", 1)))] * (self.rng.random() < 0.7)

    def give(self, deep):
        """What consuming a place writes."""
        name = self.rng.choice(("m", "m", "t", "a"))
        key, amount = self.key(name), self.rng.choice((("real", 1), ("name", "q1")))
        return [self.label(("bin", ">=", ("at", name, key), amount)), self.changed(name, key, "-", amount)]

    def label(self, e):
        self.labels += 1
        return ("assert", f"{self.labels}:1 1:1 false", e)

    def store(self, deep):
        return [self.rng.choice((("put", "h", (self.ref(),), self.ref()), ("put", "k", (self.ref(),), self.int()),
                                 ("put", "c", (self.ref(),), self.snap()), ("put", "m", (self.ref(),), self.real())))]

    def assign(self, deep):
        return [self.rng.choice((("assign", "r1", self.ref()), ("assign", "r2", self.ref()), ("assign", "n1", self.int()),
                                 ("assign", "b1", self.bool()), ("assign", "q1", self.real()), ("assign", "s1", self.snap()),
                                 ("havoc", "n2"), ("havoc", "r3"), ("havoc", "b2")))]

    def asserted(self, deep):
        return [self.label(self.bool())]

    def assumed(self, deep):
        return [("assume", self.bool())]

    def forget(self, deep):
        found = []
        for held, old, new in (("m", "h", "g"), ("m", "c", "d")):
            found += [("havoc", new), forgotten(held, old, new), ("assign", old, ("name", new))]
        return found

    def split(self, deep):
        if self.rng.random() < 0.5:
            leaf = ("con", "sInt", (("name", "w"),))
            return [("havoc", "w"), ("assume", ("bin", "==", ("name", "s1"), leaf)), ("assign", "n1", ("name", "w"))]
        pair, side = ("con", "sPair", (("name", "l1"), ("name", "l2"))), self.rng.choice(("l1", "l2"))
        return [("havoc", "l1"), ("havoc", "l2"), ("assume", ("bin", "==", ("name", "s1"), pair)), ("assign", "s1", ("name", side))]

    def fresh(self, deep):
        key = (("name", "q0"),)
        held = ("bin", "!=", ("at", "m", key), ("real", 0))
        known = ("forall", (("q0", "Ref"),), ("bin", "==>", held, ("bin", "!=", ("at", "h", key), ("name", "r3"))))
        new = ("name", "r3")
        return [("havoc", "r3"), ("assume", ("bin", "!=", new, ("null",))), ("assume", ("bin", "==", ("at", "m", (new,)), ("real", 0))),
                ("assume", known), ("put", "m", (new,), ("real", 1))]

    def branch(self, deep):
        if deep == 0:
            return []
        condition = None if self.rng.random() < 0.3 else self.bool()
        return [("if", condition, self.block(self.rng.randrange(4), deep - 1), self.block(self.rng.randrange(3), deep - 1))]

    def guarded(self, deep):
        """Steps under one guard, one after the other."""
        if deep == 0:
            return []
        guard = ("name", "b1")
        return [("assign", "b1", self.bool()), ("if", guard, self.block(2, 0), []), *self.block(1, 0), ("if", guard, self.block(2, 0), [])]

    def reset(self, deep):
        return [("assign", self.rng.choice(("m", "t")), ("name", self.rng.choice(("z", "m", "t"))))]


def values_of(terms, scalars, tables):
    """The values of terms, where names and maps have given ones."""
    order, _ = reached(terms)
    found = {}
    for it in order:
        parts = [found[part] for part in it.args]
        found[it] = value_of(it, parts, scalars, tables)
    return [found[it] for it in terms]


def value_of(it, parts, scalars, tables):
    op = it.op
    if op == "name":
        return {"true": True, "false": False, "null": 0}[it.data] if it.data in ("true", "false", "null") else scalars[it.data]
    if op == "number":
        return it.data
    if op == "apply":
        return tables[it.data].get(tuple(parts), DEFAULTS[it.sort])
    if op == "con":
        if it.data in ("sUnit", "sPair"):
            return ("unit",) if it.data == "sUnit" else ("pair", *parts)
        return ("leaf", {"sInt": "int", "sRef": "Ref", "sBool": "bool", "sPerm": "real"}[it.data], parts[0])
    if op == "sum":
        return it.data[0] + sum([by * part for by, part in zip(it.data[1:], parts)])
    simple = {"if": lambda c, a, b: a if c else b, "and": lambda *its: all(its), "or": lambda *its: any(its), "not": lambda a: not a,
              "path": lambda a, b: a and b, "=": lambda a, b: a == b, "ge0": lambda a: a >= 0, "gt0": lambda a: a > 0,
              "eq0": lambda a: a == 0, "real": Fraction}
    return simple[op](*parts) if op in simple else OPERATORS[op](*parts)
