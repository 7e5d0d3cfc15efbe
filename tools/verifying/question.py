"""Writes terms as SMT-LIB, and says which values of z3 make a run.

References are an uninterpreted sort or numbers, the trees of `Snap` a data type, and a map a function, of which z3 is asked where
it is read. A term that is used twice is a constant with an equation: with `define-fun`, z3 needs longer to read a text than to
answer. There is no quantifier but one that no map decides."""
SORTS = {"int": "Int", "bool": "Bool", "Ref": "Ref", "real": "Real", "Snap": "Snap"}
HEAD = """(declare-sort Ref 0)
(declare-const null Ref)
"""
HEAD_OF_NUMBERS = """(define-sort Ref () Int)
(define-fun null () Int 0)
"""
CONTENTS = """(declare-datatypes ((Snap 0)) (((sUnit) (sInt (ofInt Int)) (sBool (ofBool Bool)) (sRef (ofRef Ref)) (sPerm (ofPerm Real))
  (sPair (left Snap) (right Snap)))))
"""
SIGNS = {"if": "ite", "and": "and", "or": "or", "not": "not", "path": "and", "=": "=", "*": "*", "real": "to_real"}
LONG = 160  # a term with a longer text gets a name


class Question:
    """What z3 is asked of some terms: `text` declares and defines all that they speak of, `asked` has the text of each, and
    `values` what to ask the values of: names, and reads of maps with their keys."""

    def __init__(self, terms, types, numbers=False):
        self.types, self.texts = types, {}
        self.lines = [(HEAD_OF_NUMBERS if numbers else HEAD) + CONTENTS]
        order, uses = reached(terms)
        self.names = [it for it in order if it.op == "name" and it.data in types]
        self.reads = [it for it in order if it.op == "apply" and not it.open]
        self.declare(order)
        for it in order:
            self.write(it, uses[it])
        self.asked = [self.texts[it] for it in terms]
        self.text = "\n".join(self.lines) + "\n"

    def declare(self, order):
        for it in self.names:
            self.lines.append(f"(declare-const {it.data} {SORTS[it.sort]})")
        for name in dict.fromkeys([it.data for it in order if it.op == "apply"]):
            keys, base = self.types[name]
            self.lines.append(f"(declare-fun {name} ({' '.join([SORTS[it] for it in keys])}) {SORTS[base]})")

    def write(self, it, used):
        text = self.spelled(it)
        if it.args and not it.open and (used > 1 and len(text) > 8 or len(text) > LONG):
            name = f"t{it.number}"
            self.lines.append(f"(declare-const {name} {SORTS[it.sort]})\n(assert (= {name} {text}))")
            text = name
        self.texts[it] = text

    def spelled(self, it):
        """The text of a term over the texts of its parts."""
        parts = [self.texts[part] for part in it.args]
        op = it.op
        if op in SIGNS:
            return f"({SIGNS[op]} {' '.join(parts)})"
        if op == "name" or op == "bound":
            return it.data
        if op == "apply" or op == "con":
            return f"({it.data} {' '.join(parts)})" if parts else it.data
        if op == "number":
            return number(it.data, it.sort)
        if op == "sum":
            const = [number(it.data[0], it.sort)] if it.data[0] != 0 or len(parts) == 1 else []
            return added(const + [times(by, part, it.sort) for by, part in zip(it.data[1:], parts)])
        if op in ("ge0", "gt0", "eq0"):
            return self.compared(it, parts)
        if op == "forall":
            return f"(forall ({' '.join([f'({name} {SORTS[base]})' for name, base in it.data])}) {parts[0]})"
        zero = "0.0" if op == "/" else "0"
        return f"(ite (= {parts[1]} {zero}) {zero} ({op} {parts[0]} {parts[1]}))"

    def compared(self, it, parts):
        """A comparison with 0, with what is taken away on the other side."""
        d, sign = it.args[0], {"ge0": ">=", "gt0": ">", "eq0": "="}[it.op]
        if d.op != "sum" or self.texts[d] == f"t{d.number}":
            return f"({sign} {parts[0]} {number(0, d.sort)})"
        terms = [(by, self.texts[part]) for by, part in zip(d.data[1:], d.args)]
        sides = [[times(by, text, d.sort) for by, text in terms if by > 0], [times(-by, text, d.sort) for by, text in terms if by < 0]]
        if d.data[0] > 0:
            sides[0].append(number(d.data[0], d.sort))
        elif d.data[0] < 0:
            sides[1].append(number(-d.data[0], d.sort))
        left, right = [added(it) if it else number(0, d.sort) for it in sides]
        return f"({sign} {left} {right})"


def times(by, text, sort):
    return text if by == 1 else f"(* {number(by, sort)} {text})"


def added(parts):
    return parts[0] if len(parts) == 1 else f"(+ {' '.join(parts)})"


def number(value, sort):
    if value < 0:
        return f"(- {number(-value, sort)})"
    if sort == "int":
        return str(value)
    return f"{value}.0" if isinstance(value, int) else f"(/ {value.numerator}.0 {value.denominator}.0)"


def reached(terms):
    """The terms that some are made of, each behind its parts, and how often each is used."""
    uses, todo = {}, list(terms)
    while todo:
        it = todo.pop()
        if it in uses:
            uses[it] += 1
        else:
            uses[it] = 1
            todo += it.args
    return sorted(uses, key=lambda it: it.number), uses
