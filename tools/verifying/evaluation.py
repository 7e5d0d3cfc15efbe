"""Expressions of Boogie as functions: a run is walked many times, and the form of an expression is looked at once.

A function takes the values of the locals and those of the names that a `forall` binds, or None. For values see `walk`."""
import operator
from fractions import Fraction

from .boogie_text import LEAVES


def divided(a, by):
    """The whole quotient whose remainder is not negative; of a division by 0 it is 0."""
    return 0 if by == 0 else (a - a % abs(by)) // by


OPERATORS = {
    "==": operator.eq, "!=": operator.ne, "<==>": operator.eq, "<": operator.lt, "<=": operator.le, ">": operator.gt, ">=": operator.ge,
    "+": operator.add, "-": operator.sub, "*": operator.mul,
    "/": lambda a, b: Fraction(0) if b == 0 else Fraction(a) / b,
    "div": divided, "mod": lambda a, by: 0 if by == 0 else a % abs(by),
}


def evaluation(e, bound=frozenset()):
    """The function that gives the value of an expression in which these names are bound."""
    return FORMS[e[0]](e, bound)


def constant(value):
    return lambda env, keys: value


def name(e, bound):
    it = e[1]
    return (lambda env, keys: keys[it]) if it in bound else lambda env, keys: env[it]


def binary(e, bound):
    sign, left, right = e[1], evaluation(e[2], bound), evaluation(e[3], bound)
    if sign == "&&":
        return lambda env, keys: left(env, keys) and right(env, keys)
    if sign == "||":
        return lambda env, keys: left(env, keys) or right(env, keys)
    if sign == "==>":
        return lambda env, keys: not left(env, keys) or right(env, keys)
    of = OPERATORS[sign]
    return lambda env, keys: of(left(env, keys), right(env, keys))


def read(e, bound):
    it, parts = e[1], [evaluation(part, bound) for part in e[2]]
    if len(parts) > 1:
        return lambda env, keys: env[it].get(tuple([part(env, keys) for part in parts]))
    only = parts[0]
    return lambda env, keys: env[it].get((only(env, keys),))


def negated(e, bound):
    part = evaluation(e[1], bound)
    return (lambda env, keys: not part(env, keys)) if e[0] == "not" else lambda env, keys: -part(env, keys)


def choice(e, bound):
    condition, yes, no = [evaluation(it, bound) for it in e[1:]]
    return lambda env, keys: yes(env, keys) if condition(env, keys) else no(env, keys)


def real(e, bound):
    part = evaluation(e[1], bound)
    return lambda env, keys: Fraction(part(env, keys))


def content(e, bound):
    parts = [evaluation(it, bound) for it in e[2]]
    if e[1] == "sPair":
        return lambda env, keys: ("pair", *[it(env, keys) for it in parts])
    base, part = LEAVES[e[1]], parts[0]
    return lambda env, keys: ("leaf", base, part(env, keys))


def everywhere(e, bound):
    """Whether the body of a `forall` is true where one of its maps was changed or looked at, and where none was."""
    names = [it for it, _ in e[1]]
    body, maps = evaluation(e[2], bound.union(names)), maps_of(e[2], names)
    nowhere = tuple([-1 if base == "int" else 0 for _, base in e[1]])

    def value(env, outer):
        found = {nowhere: None}
        for it in maps:
            found.update(dict.fromkeys(env[it].changed))
            found.update(dict.fromkeys(env[it].source.touched))
        return all([body(env, {**(outer or {}), **dict(zip(names, key))}) for key in found])

    return value


FORMS = {
    "name": name, "bin": binary, "at": read, "not": negated, "neg": negated, "if": choice, "toreal": real, "con": content,
    "forall": everywhere,
    "int": lambda e, bound: constant(e[1]), "bool": lambda e, bound: constant(e[1]), "real": lambda e, bound: constant(Fraction(e[1])),
    "null": lambda e, bound: constant(0), "unit": lambda e, bound: constant(("unit",)),
}


def maps_of(e, names):
    """The maps that the body of a `forall` indexes by the names that it binds."""
    found, todo, keys = {}, [e], tuple(("name", it) for it in names)
    while todo:
        it = todo.pop()
        if it[0] == "at" and it[2] == keys:
            found[it[1]] = None
        todo += [part for part in it[1:] if isinstance(part, tuple) and part and isinstance(part[0], str)]
    return list(found)
