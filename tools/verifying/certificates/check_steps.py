"""The steps of a certificate, for its checker: each method gives the clause of one reason, or refuses it."""
from .check_nodes import NUMBERS, Nodes
from .check_text import CONSTRUCTORS, Refused, need, tree

ARITHMETIC = ("+", "-", "*", "/", "div", "mod", "neg", "toreal")


class Checker(Nodes):
    """`step_WORD` is given the numbers of a line, of which nothing is known."""

    def op(self, number, *operators):
        """The parts of a node, which has one of these operators."""
        self.type(number)
        need(number > 0 and self.nodes[number][0] in operators, "a node of another operator")
        return self.nodes[number][1:]

    def pick(self, clauses, j):
        need(0 <= j < len(clauses), "no such case")
        return clauses[j]

    def step_gate(self, given):
        n, j = self.exactly(given, 2)
        parts = self.op(n, "true", "&&", "==", "if")
        need(self.types[n] == "bool" and all(self.type(it) == "bool" for it in parts), "no truth values")
        if not parts:
            return self.pick([[n]], j)
        if len(parts) == 3:
            c, a, b = parts
            return self.pick([[-n, -c, a], [-n, c, b], [n, -c, -a], [n, c, -b]], j)
        a, b = parts
        if self.nodes[n][0] == "&&":
            return self.pick([[n, -a, -b], [-n, a], [-n, b]], j)
        return self.pick([[n, a, b], [n, -a, -b], [-n, -a, b], [-n, a, -b]], j)

    def exactly(self, given, count):
        need(len(given) == count, "numbers too few or too many")
        return given

    def equation(self, number, left, right):
        """Whether a node is an equation of these two, either way round."""
        parts = self.op(number, "==")
        return parts == (left, right) or parts == (right, left)

    def step_case(self, given):
        e, j = self.exactly(given, 2)
        left, right = self.op(e, "==")
        need(j in (0, 1), "no such case")
        if left > 0 and self.nodes[left][0] == "at":
            keys = self.nodes[left][2:]
            condition, *maps = self.op(self.nodes[left][1], "if")
            need(self.op(right, "at") == (maps[j], *keys), "another place")
        else:
            condition, *values = self.op(left, "if")
            need(right == values[j], "another value")
        return [condition if j else -condition, e]

    def read(self, e):
        """Of an equation about a place of a changed map: keys of the place, keys and value of the change, map before, right side."""
        left, right = self.op(e, "==")
        changed, *keys = self.op(left, "at")
        before, *put = self.op(changed, "put")
        return keys, put[:-1], put[-1], before, right

    def step_hit(self, given):
        need(given, "no number")
        keys, put, value, _, right = self.read(given[0])
        need(right == value, "another value")
        return self.linked(given, keys, put)

    def linked(self, given, left, right):
        """The clause of an equation from equations of the parts that differ."""
        differ = [pair for pair in zip(left, right) if pair[0] != pair[1]]
        need(len(differ) == len(given) - 1, "equations too few or too many")
        need(all(self.equation(q, *pair) for q, pair in zip(given[1:], differ)), "an equation of something else")
        return [given[0]] + [-q for q in given[1:]]

    def step_miss(self, given):
        e, q = self.exactly(given, 2)
        keys, put, _, before, right = self.read(e)
        need(self.op(right, "at") == (before, *keys), "another place")
        need(any(self.equation(q, *pair) for pair in zip(keys, put)), "an equation of something else")
        return [q, e]

    def step_inst(self, given):
        need(len(given) > 2, "numbers too few")
        name, literal, keys = str(given[0]), given[1], given[2:]
        text = self.conditions.definitions.get(name, "")
        need(text.startswith("(forall ") and name in self.lets, "no forall that is told")
        _, names, types, body = tree(text)
        need(tuple(self.type(it) for it in keys) == types and self.type(literal) == "bool", "keys of other types")
        need(self.is_text(body, literal, dict(zip(names, keys))), "the body is something else")
        return [-self.lets[name], literal]

    def step_path(self, given):
        need(given, "no number")
        at, end = self.op(given[0], "==")
        for q in given[1:]:
            left, right = self.op(q, "==")
            need(at in (left, right), "an equation that does not go on")
            at = right if at == left else left
        need(at == end, "it does not lead there")
        return [given[0]] + [-q for q in given[1:]]

    def step_same(self, given):
        need(given, "no number")
        left, right = self.op(given[0], "==")
        a, b = self.op(left, "at", *CONSTRUCTORS, *ARITHMETIC), self.op(right, "at", *CONSTRUCTORS, *ARITHMETIC)
        need(self.nodes[left][0] == self.nodes[right][0], "two operators")
        need(self.nodes[left][0] != "at" or a[0] == b[0], "two maps")
        return self.linked(given, a, b)

    def step_part(self, given):
        e, q = self.exactly(given, 2)
        left, right = self.op(e, "==")
        a, b = self.op(left, *CONSTRUCTORS), self.op(right, *CONSTRUCTORS)
        need(self.nodes[left][0] == self.nodes[right][0], "two constructors")
        need(any(self.equation(q, *pair) for pair in zip(a, b)), "an equation of something else")
        return [-e, q]

    def step_apart(self, given):
        (e,) = self.exactly(given, 1)
        left, right = self.op(e, "==")
        self.op(left, "unit", *CONSTRUCTORS), self.op(right, "unit", *CONSTRUCTORS)
        need(self.nodes[left][0] != self.nodes[right][0], "one constructor")
        return [-e]

    def step_inside(self, given):
        need(len(given) > 1, "numbers too few")
        inner, at = self.op(given[0], "==")
        for j in given[1:]:
            at = self.pick(self.op(at, *CONSTRUCTORS), j)
        need(at == inner and self.types[inner] == "Snap", "another part")
        return [-given[0]]

    def step_split(self, given):
        e, low, high = self.exactly(given, 3)
        a, b = self.op(e, "==")
        need(self.op(low, "<=") == (a, b) and self.op(high, "<=") == (b, a), "other comparisons")
        return [e, -low, -high]

    def row(self, literal):
        """What the negation of a literal says: a sum of nodes, a number, and how the two together stand to 0."""
        n = abs(literal)
        a, b = self.op(n, "<=", "==")
        need(self.type(a) in NUMBERS, "no numbers")
        if self.nodes[n][0] == "==":
            return [(a, 1), (b, -1)], 0, "=" if literal < 0 else "!="
        if literal < 0:
            return [(a, 1), (b, -1)], 0, "<="
        return ([(b, 1), (a, -1)], 1, "<=") if self.types[a] == "int" else ([(b, 1), (a, -1)], 0, "<")

    def meaning(self, n):
        """What a node is, as a sum of nodes and a number that are 0."""
        parts = self.op(n, "int", "real", *ARITHMETIC)
        op = self.nodes[n][0]
        if op in NUMBERS:
            return [(n, 1)], -int(parts[0])
        if op in ("+", "-"):
            return [(n, 1), (parts[0], -1), (parts[1], -1 if op == "+" else 1)], 0
        if op in ("neg", "toreal"):
            return [(n, 1), (parts[0], 1 if op == "neg" else -1)], 0
        need(op in ("*", "/"), "no linear node")
        by, other = (parts[0], parts[1]) if op == "*" and self.values[parts[0]] is not None else (parts[1], parts[0])
        value = self.values[by]
        need(value is not None, "no constant")
        if op == "*":
            return [(n, value.denominator), (other, -value.numerator)], 0
        return ([(n, value.numerator), (other, -value.denominator)] if value else [(n, 1)]), 0

    def step_sum(self, given):
        need(0 in given, "no 0")
        end = given.index(0)
        need(end % 2 == 0 and len(given) % 2 == 1, "a number too few or too many")
        total, number = {}, 0
        rows = [(w, *self.row(it)) for w, it in zip(given[0:end:2], given[1:end:2])]
        rows += [(w, *self.meaning(it), "=") for w, it in zip(given[end + 1::2], given[end + 2::2])]
        for weight, terms, plus, sign in rows:
            need(weight > 0 or sign == "=", "a weight that is not above 0")
            number += weight * plus
            for n, factor in terms:
                total[n] = total.get(n, 0) + weight * factor
        need(not any(total.values()), "a node is left in the sum")
        signs = sorted(row[3] for row in rows if row[3] != "=")
        good = number == 0 if signs == ["!="] else "!=" not in signs and (number > 0 or (number == 0 and "<" in signs))
        need(good or (number != 0 and not signs), "the sum is no contradiction")
        return given[1:end:2]

    def is_zero(self, n):
        return self.type(n) in NUMBERS and self.values[n] == 0

    def step_over(self, given):
        z, e = self.exactly(given, 2)
        b, zero = self.op(z, "==")
        left, a = self.op(e, "==")
        need(b > 0 and zero > 0 and self.is_zero(zero), "no comparison with 0")
        parts = self.op(left, "*", "+")
        if self.nodes[left][0] == "*":
            need(parts[1] == b and self.op(parts[0], "/") == (a, b), "no division of the two")
        else:
            times, quotient = self.op(parts[0], "*")
            need(times == b and self.op(quotient, "div") == (a, b) and self.op(parts[1], "mod") == (a, b), "no division of the two")
        return [z, e]

    def step_zero(self, given):
        z, e = self.exactly(given, 2)
        b, zero = self.op(z, "==")
        left, result = self.op(e, "==")
        need(self.op(left, "/", "div", "mod")[1] == b, "no division by it")
        need(self.is_zero(zero) and self.is_zero(result), "no comparison with 0")
        return [-z, e]

    def step_rest(self, given):
        (low,) = self.exactly(given, 1)
        zero, rest = self.op(low, "<=")
        self.op(rest, "mod")
        need(self.is_zero(zero), "no comparison with 0")
        return [low]

    def step_below(self, given):
        low, high = self.exactly(given, 2)
        one, two = self.op(low, "<=")
        limit, rest = self.op(high, "<=")
        b = self.op(rest, "mod")[1]
        if b == one:
            need(self.is_zero(two) and limit == b, "no comparison with 0 and the divisor")
        else:
            need(two == b and self.is_zero(one) and self.op(limit, "neg") == (b,), "no comparison with 0 and the divisor")
        return [low, -high]

    def step_times(self, given):
        p, q, r = self.exactly(given, 3)
        (a, b), (c, d), (less, more) = self.op(p, "<="), self.op(q, "<="), self.op(r, "<=")
        self.products(less, (a, d), (b, c))
        self.products(more, (a, c), (b, d))
        return [-p, -q, r]

    def step_above(self, given):
        p, q, r = self.exactly(given, 3)
        (b, a), (d, c), (more, less) = self.op(p, "<="), self.op(q, "<="), self.op(r, "<=")
        self.products(less, (a, d), (b, c))
        self.products(more, (a, c), (b, d))
        return [p, q, -r]

    def products(self, n, left, right):
        """Whether a node is the sum of these two products."""
        one, two = self.op(n, "+")
        need(self.op(one, "*") == left and self.op(two, "*") == right, "other products")

    def step_ring(self, given):
        (e,) = self.exactly(given, 1)
        left, right = self.op(e, "==")
        parts, others = self.op(left, "*", "toreal"), self.op(right, "*", "+", "-")
        if self.nodes[left][0] == "toreal":
            good = [("toreal", it) for it in self.op(parts[0], "*")] == [self.nodes[it] for it in self.op(right, "*")]
        elif self.nodes[right][0] == "*" and others == parts[::-1]:
            good = True
        else:
            (a, b), c = self.op(parts[0], "*", "+", "-"), parts[1]
            kind, inner = self.nodes[parts[0]][0], [self.nodes[it] for it in others]
            if kind == "*":
                good = self.nodes[right][0] == "*" and others[0] == a and inner[1] == ("*", b, c)
            else:
                good = self.nodes[right][0] == kind and inner == [("*", a, c), ("*", b, c)]
        need(good, "no law of products")
        return [e]

    def step_rup(self, given):
        need(0 in given, "no 0")
        end = given.index(0)
        clause, named = given[:end], given[end + 1:]
        need(all(self.type(it) == "bool" for it in clause), "no truth value")
        false = set(clause)
        for at in named:
            need(0 < at < len(self.clauses), "no such step")
            left = {it for it in self.clauses[at] if it not in false}
            if not left:
                return clause
            need(len(left) == 1, "a step that leaves two literals")
            false.add(-left.pop())
        raise Refused("the steps do not contradict")

    def finish(self):
        for name in self.conditions.fails:
            need(name in self.lets and -self.lets[name] in self.units, f"d{name} is not shown to be false")
