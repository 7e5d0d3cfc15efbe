"""The nodes and definitions of a certificate, for its checker."""
import re
from fractions import Fraction

from .check_text import CONSTRUCTORS, need, tree

LEAVES = {"true": "bool", "null": "Ref", "unit": "Snap"}
NUMBERS = ("int", "real")
DIGITS = 100
LITERALS = 1000


class Nodes:
    """`nodes` has of each its operator and parts, `types` its type, `values` its value where it is a constant. `lets` has the literal of
    each definition by number, `clauses` the steps, and `units` the literals that a step has alone."""

    def __init__(self, conditions):
        self.conditions, self.nodes, self.types, self.values = conditions, [None], [None], [None]
        self.lets, self.clauses, self.units = {}, [None], set()

    def line(self, words):
        word, rest = words[0], words[1:]
        if word == "let":
            self.define(rest)
        elif hasattr(self, "step_" + word):
            clause = getattr(self, "step_" + word)([self.number(it) for it in rest])
            need(len(clause) <= LITERALS, "more literals than 1000")
            self.clauses.append(clause)
            if len(clause) == 1:
                self.units.add(clause[0])
        else:
            self.node(word, rest)

    def number(self, word):
        need(re.fullmatch(r"0|-?[1-9][0-9]*", word) and len(word) <= DIGITS, "no number")
        return int(word)

    # ---- nodes and definitions

    def node(self, word, rest):
        if word in ("int", "real"):
            number = self.number(rest[0]) if len(rest) == 1 else -1
            need(number >= 0, "no numeral")
            return self.add((word, rest[0]), word, Fraction(number))
        if word in ("var", "def"):
            need(len(rest) == 1, "a name too few or too many")
            known = self.conditions.variables if word == "var" else self.conditions.definitions
            need(rest[0] in known, "no such name")
            need(word == "var" or known[rest[0]].startswith("(forall "), "the definition is no forall")
            return self.add((word, rest[0]), known[rest[0]] if word == "var" else "bool")
        parts = [self.number(it) for it in rest]
        types = [self.type(it) for it in parts]
        return self.add((word, *parts), self.made(word, types), self.constant(word, parts))

    def add(self, node, ty, value=None):
        self.nodes.append(node)
        self.types.append(ty)
        self.values.append(value)

    def type(self, literal):
        """The type of a literal or node."""
        need(0 < abs(literal) < len(self.nodes), "no such node")
        ty = self.types[abs(literal)]
        need(literal > 0 or ty == "bool", "a negation of what is no truth value")
        return ty

    def made(self, op, types):
        """The type of what an operator makes of these types."""
        ty = types[0] if types else None
        same = len(types) == 2 and types[1] == ty
        if op in LEAVES:
            good, ty = not types, LEAVES[op]
        elif op in CONSTRUCTORS:
            good, ty = tuple(types) == CONSTRUCTORS[op], "Snap"
        elif op in ("+", "-", "*"):
            good = same and ty in NUMBERS
        elif op in ("/", "div", "mod"):
            good = same and ty == ("real" if op == "/" else "int")
        elif op in ("neg", "toreal"):
            good, ty = len(types) == 1 and ty in (NUMBERS if op == "neg" else ("int",)), "real" if op == "toreal" else ty
        elif op in ("==", "<=", "&&"):
            good = same and (isinstance(ty, str) if op == "==" else ty in NUMBERS if op == "<=" else ty == "bool")
            ty = "bool"
        elif op == "if":
            good = len(types) == 3 and ty == "bool" and types[1] == types[2]
            ty = types[-1] if types else None
        else:
            need(op in ("at", "put"), "no such word")
            good = isinstance(ty, tuple) and tuple(types[1:]) == ty[0] + ((ty[1],) if op == "put" else ())
            ty = ty[1] if good and op == "at" else ty
        need(good, "parts of other types")
        return ty

    def constant(self, op, parts):
        value = None
        if op in ("neg", "toreal", "/") and all(self.values[it] is not None for it in parts):
            value = self.values[parts[0]]
            if op == "neg":
                value = -value
            elif op == "/":
                value = value / self.values[parts[1]] if self.values[parts[1]] else Fraction(0)
        return value if value is None or max(abs(value.numerator), value.denominator) < 10 ** DIGITS else None

    def define(self, rest):
        need(len(rest) == 2 and rest[0] in self.conditions.definitions and rest[0] not in self.lets, "no such definition, or told already")
        literal = self.number(rest[1])
        self.type(literal)
        e = self.conditions.definitions[rest[0]]
        same = self.nodes[abs(literal)] == ("def", rest[0]) if e.startswith("(forall ") else self.is_text(tree(e), literal, {})
        need(same, "the definition is something else")
        self.lets[rest[0]] = literal

    def is_text(self, e, literal, bound):
        """Whether a literal or node is what a tree says, where bound names are these."""
        todo = [(e, literal)]
        while todo:
            e, literal = todo.pop()
            if e[0] == "!":
                todo.append((e[1], -literal))
            elif e[0] == "name" and e[1][0] in "dq":
                if literal != (self.lets.get(e[1][1:]) if e[1][0] == "d" else bound.get(e[1])):
                    return False
            else:
                wanted = ("var", e[1][1:]) if e[0] == "name" else e
                node = self.nodes[literal] if literal > 0 else None
                if node is None or node[0] != wanted[0] or len(node) != len(wanted):
                    return False
                if wanted[0] in ("int", "real", "var"):
                    if node != wanted:
                        return False
                else:
                    todo += zip(wanted[1:], node[1:])
        return True
