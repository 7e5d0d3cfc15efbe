"""Values of Viper, and states over them, as docs/states.md says what a state is.

An Int is an int, a Bool a bool, a Perm a Fraction, and a reference a `Ref`, where null is 0. A content is ("unit",),
("leaf", base, value) or ("pair", a, b), as in run files."""
from fractions import Fraction

from .changes import Changes


class Ref(int):
    """A reference: a number, where null is 0."""

    __slots__ = ()


DEFAULTS = {"Int": 0, "Bool": False, "Ref": Ref(0), "Perm": Fraction(0)}
BASES = {"int": "Int", "bool": "Bool", "Ref": "Ref", "real": "Perm"}
LEAVES = {type_: base for base, type_ in BASES.items()}
UNIT = ("unit",)
NONE, WRITE = Fraction(0), Fraction(1)


def typed(base, value):
    """A value of a run file as one of Viper."""
    return Ref(value) if base == "Ref" else value


def type_of(value):
    """The type of a value."""
    if isinstance(value, bool):
        return "Bool"
    if isinstance(value, Ref):
        return "Ref"
    return "Perm" if isinstance(value, Fraction) else "Int"


def word(value):
    """The word of a value: `#1` and `null` are references, and an amount is a fraction in lowest terms."""
    if isinstance(value, bool):
        return "true" if value else "false"
    if isinstance(value, Ref):
        return "null" if value == 0 else f"#{int(value)}"
    return str(value)


def amount(value):
    """An amount as Viper writes it."""
    return {NONE: "none", WRITE: "write"}.get(value, str(value))


class State:
    """Values and permissions of places, which are a field and a reference, and contents and permissions of instances, which are a
    predicate and its arguments. A copy shares all that is not changed."""

    __slots__ = ("types", "heap", "mask", "content", "amount")

    def __init__(self, types, heap=None, mask=None, content=None, held=None):
        self.types = types
        self.heap, self.mask, self.content, self.amount = [Changes() if it is None else it for it in (heap, mask, content, held)]

    def copy(self):
        return State(self.types, self.heap, self.mask, self.content, self.amount)

    def become(self, other):
        self.heap, self.mask, self.content, self.amount = other.heap, other.mask, other.content, other.amount

    def value(self, place):
        found = self.heap.get(place)
        return DEFAULTS[self.types[place[0]]] if found is None else found

    def held(self, place):
        return self.mask.get(place) or NONE

    def inside(self, instance):
        return self.content.get(instance) or UNIT

    def held_of(self, instance):
        return self.amount.get(instance) or NONE

    def put(self, place, value):
        self.heap = self.heap.put(place, value)

    def hold(self, place, held):
        self.mask = self.mask.put(place, held)

    def fill(self, instance, content):
        self.content = self.content.put(instance, content)

    def hold_of(self, instance, held):
        self.amount = self.amount.put(instance, held)

    def forget(self, heap, content):
        """All that is not held gets new values and contents, given as dicts."""
        self.heap = filled(heap, self.heap, self.mask)
        self.content = filled(content, self.content, self.amount)

    def places(self):
        """The places that are held, with how much, in order."""
        return sorted((key, held) for key, held in self.mask.items() if held)

    def instances(self):
        """The instances that are held, with how much, in order."""
        return sorted((key, held) for key, held in self.amount.items() if held)


def filled(new, old, held):
    """New entries, but for the old ones where something is held."""
    found = Changes()
    for key, value in new.items():
        if not held.get(key):
            found = found.put(key, value)
    for key, much in held.items():
        value = old.get(key)
        if much and value is not None:
            found = found.put(key, value)
    return found
