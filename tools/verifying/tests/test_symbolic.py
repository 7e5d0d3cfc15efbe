"""What terms say of a procedure is what a walk through it does, at values of its variables."""
import random
import unittest
from fractions import Fraction

from verifying.question import reached
from verifying.symbolic import symbolic_of
from verifying.walk import DEFAULTS, Walk

from .building import conditions_of
from .chance import Chance, values_of

PROCEDURES, WALKS = 150, 25


def random_value(rng, base):
    if base == "int":
        return rng.randrange(-1, 3)
    if base == "bool":
        return rng.random() < 0.5
    if base == "Ref":
        return rng.randrange(3)
    if base == "real":
        return rng.choice((Fraction(0), Fraction(1), Fraction(1, 2), Fraction(1, 4)))
    return random_content(rng, 2)


def random_content(rng, deep):
    kind = rng.randrange(4)
    if deep and kind < 2:
        return ("pair", random_content(rng, deep - 1), random_content(rng, deep - 1))
    if kind == 2:
        return ("unit",)
    return ("leaf", "int", rng.randrange(2)) if kind < 2 or rng.random() < 0.5 else ("leaf", "Ref", rng.randrange(3))


def random_values(rng, conditions):
    scalars, tables = {}, {}
    for name, (keys, base) in conditions.vars.items():
        if not keys:
            scalars[name] = random_value(rng, base)
        elif name in ("v15", "v16"):    # the zero maps
            tables[name] = {}
        else:
            tables[name] = {tuple(random_value(rng, it) for it in keys): random_value(rng, base) for _ in range(4)}
    return scalars, tables


class Taking(Walk):
    """A walk that keeps the number of the variable of each choice."""

    def __init__(self, procedure, given):
        self.numbers = []
        super().__init__(procedure, given)

    def take(self):
        self.numbers.append(self.number)
        return super().take()


class Terms(unittest.TestCase):
    def test_a_failure_is_told_exactly_where_a_walk_fails(self):
        failed = {}
        for seed in range(PROCEDURES):
            rng = random.Random(seed)
            procedure = Chance(rng).procedure(rng.randrange(3, 14))
            conditions = conditions_of(procedure)
            symbolic = symbolic_of(conditions)
            if any([it.op == "forall" for it in reached([term for _, term in symbolic.fails])[0]]):
                continue    # amounts that are no sums: that is for z3
            for _ in range(WALKS):
                end = self.compare(seed, rng, procedure, conditions, symbolic)
                failed[end] = failed.get(end, 0) + 1
        self.assertGreater(failed["failed"], 100)
        self.assertGreater(failed["done"], 20)

    def compare(self, seed, rng, procedure, conditions, symbolic):
        scalars, tables = random_values(rng, conditions)
        names = list(conditions.vars)

        def given(n):
            name = names[n]
            return scalars[name] if name in scalars else lambda key: tables[name].get(key, DEFAULTS[conditions.vars[name][1]])

        walk = Taking(procedure, given)
        end = walk.run()
        for number, it in zip(walk.numbers, walk.taken):
            if it.what == "value":
                scalars[names[number]] = it.value
        said = values_of([term for _, term in symbolic.fails], scalars, tables)
        fails = [label for (label, _), it in zip(symbolic.fails, said) if it]
        self.assertEqual(fails, [end.label] if end.how == "failed" else [], f"seed {seed}: a walk ends {end.how} {end.label}")
        return end.how
