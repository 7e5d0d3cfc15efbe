"""Goes through conditions with terms: what is left of them is what z3 is asked.

Paths are told by their form: the first definition, which is `true`, and from there `(path && e)` and `(path || path)`. What a path
assumes holds of all that is defined behind it, up to the next path: those values count only where the path is taken. Quantifiers:
- `forall q :: z[q] == 0.0`, assumed, makes z the zero map;
- `forall q :: held[q] != 0.0 ==> old[q] == new[q]`, assumed of a new map, makes it the old one but for any values elsewhere;
- any other that speaks only of where amounts are not zero is a conjunction over the keys of the amounts; the rest is left to z3."""
import math
import time

from .logic import Logic
from .maps import Frame, Left, Maps, Outside, Sums
from .paths import Paths
from .walk import framing

COMPARISONS = ("<", "<=", ">", ">=")


class Symbolic:
    """`fails` has the label of each assertion and the term that says that it fails, and `end` says that a run comes to the end. It
    has to be done before the time `until`."""

    def __init__(self, conditions, until=math.inf, untold=()):
        self.logic, self.untold = Logic(), untold
        self.maps, self.paths = Maps(self.logic), Paths(self.logic)
        self.vars, self.lets = conditions.vars, conditions.lets
        # The terms, maps and paths by name, the terms that speak of paths, the names that were read, what a `forall` binds.
        self.terms, self.known_maps, self.known_paths, self.of_paths, self.read_names, self.bound = {}, {}, {}, {}, set(), {}
        self.sides = {}     # the values of locals on both sides of the branch that was left last
        for name, (keys, base) in self.vars.items():
            if keys:
                self.known_maps[name] = Outside(name, base)
            else:
                self.terms[name] = self.logic.make("name", name, (), base)
        self.forms = {
            "bin": self.binary, "at": self.element, "con": self.constructed, "forall": self.quantified,
            "not": lambda e: self.logic.negated(self.term(e[1])), "neg": lambda e: self.logic.scaled(self.term(e[1]), -1),
            "toreal": lambda e: self.logic.real(self.term(e[1])),
            "if": lambda e: self.logic.choice(self.term(e[1]), self.term(e[2]), self.term(e[3])),
            "int": lambda e: self.logic.number(e[1], "int"), "real": lambda e: self.logic.number(e[1], "real"),
            "bool": lambda e: self.logic.true if e[1] else self.logic.false,
            "null": lambda e: self.logic.null, "unit": lambda e: self.logic.unit,
        }
        for at, (name, e) in enumerate(self.lets):
            if time.monotonic() > until:
                raise TooSlow("the time does not suffice to make the question")
            self.define(at, name, e)
        self.paths.move(self.paths.first)
        self.logic.plainly = True
        self.fails = [(label, self.truth(name)) for label, name in conditions.fails]

    def truth(self, name):
        """The term of a definition that may be a path."""
        return self.known_paths[name].term if name in self.known_paths else self.terms.get(name) or self.of_paths[name]

    def define(self, at, name, e):
        if not self.known_paths and e == ("bool", True):
            self.known_paths[name] = self.target = self.paths.first
            return
        try:
            path = self.path_of(e)
            if path:
                self.known_paths[name] = self.target = path
            else:
                self.paths.move(self.target if self.known_paths else self.paths.first)
                self.value(at, name, e)
        except OfPaths:
            self.paths.move(self.paths.first)
            self.logic.plainly = True
            self.of_paths[name] = self.term(e)
            self.logic.plainly = False

    def path_of(self, e):
        """The path that a definition is, or None."""
        if e[0] != "bin" or e[2][0] != "name" or e[2][1] not in self.known_paths:
            return None
        above = self.known_paths[e[2][1]]
        if e[1] == "&&":
            self.paths.move(above)
            return self.paths.narrowed(above, self.term(e[3]))
        if e[1] == "||" and e[3][0] == "name" and e[3][1] in self.known_paths:
            return self.paths.met(above, self.known_paths[e[3][1]])
        return None

    def value(self, at, name, e):
        """Notes the value of a definition that is no path: a map, or a term."""
        kind = e[0]
        if kind == "name" and e[1] in self.known_maps:
            self.known_maps[name] = self.map(e[1])
        elif kind == "with":
            self.known_maps[name] = self.changed(e)
        elif self.is_choice(e):
            self.behind_branch(at, name, e)
        elif kind == "forall" and self.is_assumed(at, name) and self.says_what_a_map_is(e):
            self.terms[name] = self.logic.true
        else:
            self.terms[name] = self.term(e)

    def is_choice(self, e):
        """Whether a definition is a choice between two that are known, as behind a branch."""
        known = (self.terms, self.known_maps)
        return e[0] == "if" and e[1][0] == "name" and all([it[0] == "name" and any([it[1] in its for its in known]) for it in e[2:]])

    def behind_branch(self, at, name, e):
        """Notes the choice between the two values of a local behind a branch. Each is looked at where its side of the branch is
        known to be taken, of all locals at once."""
        if name not in self.sides:
            self.sides = self.sides_of_group(at, e[1])
        condition, (a, b) = self.term(e[1]), self.sides[name]
        if e[2][1] in self.known_maps:
            self.known_maps[name] = self.maps.chosen(condition, a, b)
        else:
            self.terms[name] = self.logic.choice(condition, a, b)

    def sides_of_group(self, at, condition):
        """The two values of each local that is chosen by a condition, from a definition on."""
        group, sides, facts = [], [], self.logic.facts
        while at < len(self.lets) and self.is_choice(self.lets[at][1]) and self.lets[at][1][1] == condition:
            group.append(self.lets[at])
            at += 1
        for truth in (True, False):
            mark = len(facts.trail)
            self.logic.learn(self.term(condition), truth)
            sides.append([self.side(e[2] if truth else e[3]) for _, e in group])
            facts.undo(mark)
        return {name: (a, b) for (name, _), a, b in zip(group, *sides)}

    def side(self, e):
        if e[0] == "name" and e[1] in self.known_maps:
            return self.maps.now(self.map(e[1]))
        return self.term(e)

    def is_assumed(self, at, name):
        """Whether the next definition is the path on which this one holds, at once."""
        e = self.lets[at + 1][1] if at + 1 < len(self.lets) else ("",)
        return e[:2] == ("bin", "&&") and e[3] == ("name", name) and e[2][0] == "name" and self.known_paths.get(e[2][1]) is self.target

    def says_what_a_map_is(self, e):
        """Whether a quantifier that is assumed says what a map is of which nothing was known: that is then noted, for this path."""
        body = e[2]
        if body[:2] == ("bin", "==") and body[2][0] == "at" and body[3] == ("real", 0) and self.is_new(body[2][1]):
            if self.vars[body[2][1]][1] == "real" and body[2][2] == names_of(e):
                self.tell(body[2][1], Sums("real"))
                return True
        if body[:2] == ("bin", "==>") and body[3][0] == "bin" and body[3][3][0] == "at" and self.is_new(body[3][3][1]):
            new = body[3][3][1]
            found = framing(("assume", e), new)
            if found:
                self.tell(new, Frame(self.map(found[1]), self.logic.true, self.map(found[0]), new))
            return found is not None
        return False

    def tell(self, name, it):
        """Notes what a map is on the path at work, and on those that go on from it."""
        self.maps.told.add(name)
        self.logic.facts.set(self.known_maps, name, it)

    def is_new(self, name):
        return name in self.vars and name not in self.read_names and name not in self.untold

    def map(self, name):
        self.read_names.add(name)
        return self.known_maps[name]

    def changed(self, e):
        """The map that an update makes. To a sum an amount is added, or one is taken away."""
        _, name, keys, value = e
        it, key = self.map(name), tuple([self.term(part) for part in keys])
        if isinstance(it, Sums) and value[0] == "bin" and value[1] in "+-" and value[2] == ("at", name, keys):
            amount = self.term(value[3])
            return self.maps.add(it, key, amount if value[1] == "+" else self.logic.scaled(amount, -1))
        return self.maps.put(it, key, self.term(value))

    def term(self, e):
        """The term of an expression that is no map."""
        if e[0] != "name":
            return self.forms[e[0]](e)
        name = e[1]
        found = self.bound.get(name) or self.terms.get(name)
        if found is not None:
            return self.logic.now(found)
        if name not in self.known_paths and name not in self.of_paths:
            raise KeyError(name)
        if not self.logic.plainly:
            raise OfPaths
        return self.truth(name)

    def element(self, e):
        return self.maps.read(self.map(e[1]), tuple([self.term(it) for it in e[2]]))

    def constructed(self, e):
        return self.logic.make("con", e[1], tuple([self.term(it) for it in e[2]]), "Snap")

    def binary(self, e):
        sign, logic = e[1], self.logic
        a, b = self.term(e[2]), self.term(e[3])
        if sign == "&&":
            return logic.all([a, b])
        if sign == "==" or sign == "<==>":
            return logic.equal(a, b)
        if sign == "!=":
            return logic.negated(logic.equal(a, b))
        if sign in COMPARISONS:
            return logic.compared(sign, a, b)
        if sign == "==>" or sign == "||":
            return logic.any([logic.negated(a) if sign == "==>" else a, b])
        if sign == "+" or sign == "-":
            return logic.add(a, b, 1 if sign == "+" else -1)
        return logic.times(a, b) if sign == "*" else logic.quotient(sign, a, b)

    def quantified(self, e):
        names, body, outer = names_of(e), e[2], self.bound
        held = body[2][2] if body[:2] == ("bin", "==>") and body[2][:2] == ("bin", "!=") else ("",)
        if held[0] == "at" and held[2] == names and body[2][3] == ("real", 0) and isinstance(self.known_maps[held[1]], Sums):
            parts = []
            for key in self.map(held[1]).amounts:
                self.bound = {**outer, **{name: part for (_, name), part in zip(names, key)}}
                parts.append(self.term(body))
            self.bound = outer
            return self.logic.all(parts)
        self.bound = {**outer, **{name: self.logic.make("bound", name, (), base) for name, base in e[1]}}
        found = self.term(body)
        self.bound = outer
        return found if not found.open else self.logic.make("forall", e[1], (found,), "bool")


def symbolic_of(conditions, until=math.inf):
    """The terms of conditions. Where a map is read that a path which was left says something of, that is left to a quantifier."""
    untold = set()
    while True:
        try:
            return Symbolic(conditions, until, untold)
        except Left as it:
            untold.add(str(it))


class TooSlow(Exception):
    """The time does not suffice."""


class OfPaths(Exception):
    """A definition speaks of paths as of values."""


def names_of(e):
    """The names that a quantifier binds, as keys."""
    return tuple([("name", it) for it, _ in e[1]])
