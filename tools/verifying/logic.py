"""Makes terms, simplified as they are made, under the facts of the path at work, and learns such facts.

Equal terms are one object, and a term is made behind its parts, so its number is above theirs. What is made under facts is equal to
what was asked for wherever the facts hold."""
from fractions import Fraction

from .facts import Facts, Term
from .arithmetic import Numbers, plain

NUMBERS = ("int", "real")


class Logic(Numbers):
    """Makes terms. What is made under facts is equal to what was asked for wherever the facts hold; `plainly` leaves them aside."""

    def __init__(self):
        self.made, self.facts, self.plainly = {}, Facts(), False
        self.bounds_of, self.known_bounds = None, {}    # the bounds of numbers, and the facts under which they are so
        self.means = {}     # of a condition that stands for the equality of two terms these, and whether it says that they are equal
        self.true, self.false = self.make("name", "true", (), "bool"), self.make("name", "false", (), "bool")
        self.null, self.unit = self.make("name", "null", (), "Ref"), self.make("con", "sUnit", (), "Snap")
        self.zero = {"int": self.number(0, "int"), "real": self.number(0, "real"), "bool": self.false, "Ref": self.null, "Snap": self.unit}

    def make(self, op, data, args, sort):
        key = (op, data, args, sort)
        found = self.made.get(key)
        if found is None:
            open_ = op == "bound" or op != "forall" and any([it.open for it in args])
            found = self.made[key] = Term(len(self.made), op, data, args, sort, open_)
        return found

    def number(self, value, sort):
        return self.make("number", plain(value), (), sort)

    def now(self, term):
        """A term that is equal under the facts, and simpler where they tell more than when it was made."""
        if self.plainly:
            return term
        facts = self.facts
        while True:
            if term.sort == "bool":
                known = facts.known.get(term)
                if known is not None:
                    return self.true if known else self.false
            term = facts.find(term)
            if term.op == "if":
                known = self.value_of(term.args[0])
                if known is None:
                    return term
                term = term.args[1] if known else term.args[2]
            elif term.op == "sum":
                return self.summed_now(term)
            else:
                return term

    def summed_now(self, term):
        parts = [self.now(it) for it in term.args]
        if all([a is b for a, b in zip(parts, term.args)]):
            return term
        const, total = term.data[0], {}
        for coefficient, it in zip(term.data[1:], parts):
            const = self.into(total, const, coefficient, it)
        return self.summed(const, total, term.sort)

    def value_of(self, condition):
        """Whether a condition is known to be true or false, or None."""
        if condition is self.true:
            return True
        if condition is self.false:
            return False
        if self.plainly:
            return None
        facts = self.facts
        known = facts.known.get(condition)
        if known is not None or condition.op not in ("=", "and", "or", "not") or facts.unknown.get(condition) == facts.version:
            return known
        if condition.op == "=":
            simpler = self.equal(*condition.args)
            known = True if simpler is self.true else False if simpler is self.false else None
        elif condition.op == "not":
            known = self.value_of(condition.args[0])
            known = None if known is None else not known
        else:
            known = self.value_of_all(condition.args, condition.op == "or")
        if known is None:
            facts.unknown[condition] = facts.version
        else:
            facts.keep(facts.known, condition, known)
        return known

    def value_of_all(self, parts, decided):
        """The value of a conjunction, which one false part decides, or of an alternative, which a true one does."""
        open_ = False
        for it in parts:
            known = self.value_of(it)
            if known is decided:
                return decided
            open_ = open_ or known is None
        return None if open_ else not decided

    def equal(self, a, b):
        if a.sort in NUMBERS:
            return self.equal_numbers(a, b)
        a, b = self.now(a), self.now(b)
        if a is b:
            return self.true
        if a.sort == "bool":
            return self.same_truth(a, b)
        if a.op == "con" and b.op == "con":
            if a.data != b.data:
                return self.false
            return self.all([self.equal(its, other) for its, other in zip(a.args, b.args)])
        if not self.plainly and b in self.facts.apart.get(a, ()):
            return self.false
        for one, other in ((a, b), (b, a)):
            if one.op == "if" and (one.args[1] is other or one.args[2] is other):
                way = 1 if one.args[1] is other else 2
                condition = one.args[0] if way == 1 else self.negated(one.args[0])
                found = self.any([condition, self.equal(one.args[3 - way], other)])
                if not self.plainly:
                    self.facts.keep(self.means, found, (one, other, True))
                    self.facts.keep(self.means, self.negated(found), (one, other, False))
                return found
        return self.make("=", None, (a, b) if a.number <= b.number else (b, a), "bool")

    def same_truth(self, a, b):
        for one, other in ((a, b), (b, a)):
            if one is self.true or one is self.false:
                return other if one is self.true else self.negated(other)
        return self.make("=", None, (a, b) if a.number <= b.number else (b, a), "bool")

    def negated(self, a):
        if a is self.true or a is self.false:
            return self.false if a is self.true else self.true
        if a.op == "not":
            return a.args[0]
        if a.op == "ge0" or a.op == "gt0":
            return self.at_least_0(self.scaled(a.args[0], -1), a.op == "ge0")
        if a.op == "and" or a.op == "or":
            return (self.any if a.op == "and" else self.all)([self.negated(it) for it in a.args])
        return self.make("not", None, (a,), "bool")

    def all(self, parts):
        return self.joined(parts, "and", self.true, self.false)

    def any(self, parts):
        return self.joined(parts, "or", self.false, self.true)

    def joined(self, parts, op, nothing, decided):
        found = {}
        for part in parts:
            part = self.now(part)
            for it in (part.args if part.op == op else (part,)):
                known = self.value_of(it)
                if known is not None:
                    it = self.true if known else self.false
                if it is decided or (it.args[0] if it.op == "not" else self.made.get(("not", None, (it,), "bool"))) in found:
                    return decided
                if it is not nothing:
                    found[it] = None
        return nothing if not found else next(iter(found)) if len(found) == 1 else self.make(op, None, tuple(found), "bool")

    def choice(self, condition, a, b):
        """`a` where a condition is true, and else `b`."""
        known = self.value_of(condition)
        if known is not None:
            return a if known else b
        if condition.op == "not":
            condition, a, b = condition.args[0], b, a
        while a.op == "if" and a.args[0] is condition:
            a = a.args[1]
        while b.op == "if" and b.args[0] is condition:
            b = b.args[2]
        if a is b:
            return a
        if a.op == "if" and a.args[2] is b:
            return self.choice(self.all([condition, a.args[0]]), a.args[1], b)
        if b.op == "if" and b.args[1] is a:
            return self.choice(self.any([condition, b.args[0]]), a, b.args[2])
        if a.sort == "bool":
            for one, other, part in ((a, b, self.negated(condition)), (b, a, condition)):
                if one is self.true:
                    return self.any([condition if one is a else self.negated(condition), other])
                if one is self.false:
                    return self.all([part, other])
        return self.make("if", None, (condition, a, b), a.sort)

    # facts

    def learn(self, condition, truth=True):
        """Notes that a condition is true, or false, and what follows. Returns whether it can be so."""
        todo = [(condition, truth)]
        while todo:
            it, truth = todo.pop()
            known = self.value_of(it)
            if known is not None:
                if known != truth:
                    return False
                continue
            if it.op == "not":
                todo.append((it.args[0], not truth))
                continue
            if it.op != "=" or it.args[0].sort == "bool":
                self.facts.set(self.facts.known, it, truth)
            if not self.consequences(it, truth, todo):
                return False
            todo += [(other, True) for other in self.facts.under.get((it, truth), ())]
        return True

    def consequences(self, it, truth, todo):
        """Puts into `todo` what follows from a condition at once. Returns whether it can be so."""
        means = self.means.get(it)
        if means and not (self.merge if truth == means[2] else self.part)(self.facts.find(means[0]), self.facts.find(means[1])):
            return False
        if it.op in ("and", "or"):
            parts = [part for part in it.args if self.value_of(part) is None]
            if truth == (it.op == "and") or len(parts) == 1:
                todo += [(part, truth) for part in parts]
            return bool(parts) or truth == (it.op == "and")
        if it.op in ("ge0", "gt0"):
            if truth:
                self.bound(it.args[0], it.op == "gt0")
            else:
                self.bound(self.scaled(it.args[0], -1), it.op == "ge0")
        elif it.op == "eq0" and truth:
            return self.merge_numbers(it.args[0])
        elif it.op == "=" and it.args[0].sort != "bool":
            simpler = self.equal(*it.args)
            if simpler is not it:
                todo.append((simpler, truth))
            elif truth:
                return self.merge(*it.args)
            else:
                return self.part(*it.args)
        return True

    def bound(self, d, strict):
        """Notes a bound of a number where d, which is at least 0, says one of it alone."""
        const, coefficient, it = (0, 1, d) if d.op != "sum" else (d.data[0], d.data[1], d.args[0]) if len(d.args) == 1 else (0, 0, None)
        if it is None or it.op == "number":
            return
        edge = plain(Fraction(-const) / coefficient)
        if it.sort == "int":
            edge, strict = (-(-edge // 1) + strict * (edge == -(-edge // 1)), False) if coefficient > 0 else (
                edge // 1 - strict * (edge == edge // 1), False)
        table, old = (self.facts.low, self.facts.low.get(it)) if coefficient > 0 else (self.facts.high, self.facts.high.get(it))
        tighter = old is None or (edge, strict) > old if coefficient > 0 else old is None or (edge, not strict) < (old[0], not old[1])
        if tighter:
            self.facts.set(table, it, (edge, strict))

    def merge_numbers(self, d):
        """Notes that a number is 0 where that makes a term equal to a number, or two terms to each other."""
        if d.op != "sum":
            return self.merge(d, self.zero[d.sort])
        if len(d.args) == 1 and (d.sort == "real" or d.data[0] % d.data[1] == 0):
            return self.merge(d.args[0], self.number(Fraction(-d.data[0]) / d.data[1], d.sort))
        if len(d.args) == 2 and d.data[0] == 0 and d.data[1] == -d.data[2]:
            return self.merge(*d.args)
        return True

    def merge(self, a, b):
        """Notes that terms are equal. The older one stands for both, or one that is a value."""
        facts = self.facts
        a, b = facts.find(a), facts.find(b)
        if a is b:
            return True
        rank_a, rank_b = (it.op not in ("con", "number") and it is not self.null for it in (a, b))
        if (rank_a, a.number) > (rank_b, b.number):
            a, b = b, a
        apart = facts.apart.get(b, {})
        if a in apart:
            return False
        facts.set(facts.next, b, a)
        for it in apart:
            self.set_apart(a, it)
        return True

    def set_apart(self, a, b):
        facts = self.facts
        for one, other in ((a, b), (b, a)):
            if one not in facts.apart:
                facts.set(facts.apart, one, {})
            facts.set(facts.apart[one], other, True)

    def part(self, a, b):
        """Notes that terms differ. Returns whether they can."""
        if a is b:
            return False
        self.set_apart(a, b)
        return True
