"""Numbers as terms: sums in which each term stands once, the bounds that are known of them, and comparisons."""
from fractions import Fraction
from math import gcd

DEEP = 6    # bounds look so deep into choices


def plain(x):
    """A number that is whole, as an int."""
    return x.numerator if type(x) is Fraction and x.denominator == 1 else x


class Numbers:
    """The part of `Logic` that makes terms of numbers and their conditions."""

    def into(self, total, const, coefficient, term):
        """Adds a term so many times to a sum, and returns its constant."""
        if term.op == "number":
            return plain(const + coefficient * term.data)
        if term.op == "sum":
            for its, it in zip(term.data[1:], term.args):
                total[it] = plain(total.get(it, 0) + coefficient * its)
            return plain(const + coefficient * term.data[0])
        total[term] = plain(total.get(term, 0) + coefficient)
        return const

    def summed(self, const, total, sort):
        parts = sorted([(it, coefficient) for it, coefficient in total.items() if coefficient != 0], key=lambda it: it[0].number)
        if not parts:
            return self.number(const, sort)
        if len(parts) == 1 and const == 0 and parts[0][1] == 1:
            return parts[0][0]
        return self.make("sum", (plain(const), *[it for _, it in parts]), tuple([it for it, _ in parts]), sort)

    def add(self, a, b, times=1):
        total = {}
        return self.summed(self.into(total, self.into(total, 0, 1, a), times, b), total, a.sort)

    def scaled(self, a, by):
        total = {}
        return self.summed(self.into(total, 0, plain(by), a), total, a.sort)

    def times(self, a, b):
        if a.op == "number" or b.op == "number":
            return self.scaled(b, a.data) if a.op == "number" else self.scaled(a, b.data)
        first, second = (a, b) if a.number <= b.number else (b, a)
        return self.make("*", None, (first, second), a.sort)

    def quotient(self, sign, a, b):
        """`/`, `div` and `mod`; of a division by 0 it is 0."""
        if b.op == "number":
            if b.data == 0:
                return self.number(0, a.sort)
            if sign == "/":
                return self.scaled(a, Fraction(1) / b.data)
            if a.op == "number":
                rest = a.data % abs(b.data)
                return self.number(rest if sign == "mod" else (a.data - rest) // b.data, "int")
        return self.make(sign, None, (a, b), a.sort)

    def real(self, a):
        if a.op == "number":
            return self.number(a.data, "real")
        if a.op == "if":
            return self.choice(a.args[0], self.real(a.args[1]), self.real(a.args[2]))
        return self.make("real", None, (a,), "real")

    def bounds(self, term, deep=DEEP):
        """The least and the greatest value of a number, each with whether it is not reached; None where there is none."""
        if term.op == "number":
            return (term.data, False), (term.data, False)
        if term.op not in ("sum", "if", "*"):
            return (None, None) if self.plainly else (self.facts.low.get(term), self.facts.high.get(term))
        if self.bounds_of != (self.facts.version, self.plainly):
            self.bounds_of, self.known_bounds = (self.facts.version, self.plainly), {}
        found = self.known_bounds.get((term, deep))
        if found is None:
            found = self.known_bounds[term, deep] = self.bounds_of_parts(term, deep)
        return found

    def bounds_of_parts(self, term, deep):
        if term.op == "sum":
            return self.bounds_of_sum(term, deep)
        if term.op == "if" and deep:
            (low, high), (its_low, its_high) = self.bounds(term.args[1], deep - 1), self.bounds(term.args[2], deep - 1)
            low = None if low is None or its_low is None else low if low <= its_low else its_low
            if high is None or its_high is None:
                return low, None
            return low, high if (high[0], its_high[1]) >= (its_high[0], high[1]) else its_high
        if self.plainly:
            return None, None
        low, high = self.facts.low.get(term), self.facts.high.get(term)
        if term.op == "*" and deep and low is None:
            first, second = self.bounds(term.args[0], deep - 1)[0], self.bounds(term.args[1], deep - 1)[0]
            if first and second and first[0] >= 0 and second[0] >= 0:
                low = (0, first > (0, False) and second > (0, False))
        return low, high

    def bounds_of_sum(self, term, deep):
        low = high = (term.data[0], False)
        for coefficient, it in zip(term.data[1:], term.args):
            its_low, its_high = self.bounds(it, deep)
            if coefficient < 0:
                its_low, its_high = its_high, its_low
            low = low and its_low and (low[0] + coefficient * its_low[0], low[1] or its_low[1])
            high = high and its_high and (high[0] + coefficient * its_high[0], high[1] or its_high[1])
        return low, high

    def at_least_0(self, d, strict=False):
        """The condition that a number is not negative, or that it is positive."""
        d = self.now(d)
        if d.sort == "int" and strict:
            d, strict = self.add(d, self.number(-1, "int")), False
        low, high = self.bounds(d)
        if low and (low[0] > 0 or low[0] == 0 and (low[1] or not strict)):
            return self.true
        if high and (high[0] < 0 or high[0] == 0 and (high[1] or strict)):
            return self.false
        if high and (d.op == "if" or d.op == "sum" and any([it.op == "if" for it in d.args])):
            conditions, rest = self.without_choices(d, high, strict)
            if conditions:
                return self.all([*conditions, self.at_least_0(rest, strict)])
        term = self.make("gt0" if strict else "ge0", None, (self.reduced(d),), "bool")
        return self.now(term)

    def without_choices(self, d, high, strict):
        """A number is at least 0 only if choices in it go one way: their conditions, and what is left of the number. `high` is the
        greatest value that it may have."""
        conditions, total = [], {}
        const = d.data[0] if d.op == "sum" else 0
        for coefficient, it in zip(d.data[1:], d.args) if d.op == "sum" else ((1, d),):
            way, high = self.only_way(it, coefficient, high, strict) if it.op == "if" else (0, high)
            if way:
                conditions.append(it.args[0] if way == 1 else self.negated(it.args[0]))
                it = it.args[way]
            const = self.into(total, const, coefficient, it)
        return conditions, self.summed(const, total, d.sort) if conditions else d

    def only_way(self, it, coefficient, high, strict):
        """The one side of a choice that lets a sum be at least 0, or 0, and the greatest value of the sum."""
        side = 1 if coefficient > 0 else 0
        whole = self.bounds(it)[side]
        for way in (1, 2):
            other = self.bounds(it.args[3 - way])[side]
            top = high[0] + coefficient * (other[0] - whole[0])
            if top < 0 or top == 0 and (strict or other[1]):
                return way, (high[0] + coefficient * (self.bounds(it.args[way])[side][0] - whole[0]), high[1])
        return 0, high

    def reduced(self, d):
        """A number of the same sign with smaller coefficients."""
        if d.op != "sum":
            return d
        if d.sort == "real":
            by = abs(d.data[1])
            return d if by == 1 else self.scaled(d, Fraction(1) / by)
        by = 0
        for it in d.data[1:]:
            by = gcd(by, it)
        return d if by == 1 else self.make("sum", (d.data[0] // by, *[it // by for it in d.data[1:]]), d.args, "int")

    def compared(self, sign, a, b):
        """`<`, `<=`, `>` or `>=`."""
        first, second = (a, b) if sign[0] == ">" else (b, a)
        return self.at_least_0(self.add(first, second, -1), len(sign) == 1)

    def equal_numbers(self, a, b):
        d = self.now(self.add(a, b, -1))
        if d.op == "number":
            return self.true if d.data == 0 else self.false
        low, high = self.bounds(d)
        if low and (low[0] > 0 or low == (0, True)) or high and (high[0] < 0 or high == (0, True)):
            return self.false
        if low == (0, False):
            return self.at_least_0(self.scaled(d, -1))
        if high == (0, False):
            return self.at_least_0(d)
        if d.op == "sum" and d.data[1] < 0:
            d = self.scaled(d, -1)
        return self.now(self.make("eq0", None, (d,), "bool"))
