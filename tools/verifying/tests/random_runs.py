"""Random methods of Viper and random runs of them: the choices are invented when a run asks for them, mostly such that it goes on."""
from fractions import Fraction

from verifying.running import Choices, Running, predicates_of
from verifying.run_files import ViperRun, content
from verifying.source import Source
from verifying.values import Ref, word

HEAD = """field f: Int
field g: Ref
predicate cell(x: Ref) { acc(x.f) && x.f >= 0 }
predicate list(x: Ref, n: Int) { acc(x.f, 1/2) && acc(x.g) && (x.g != null ==> list(x.g, n - 1)) }
predicate bare() { true }
predicate side(x: Ref, b: Bool) { b ? acc(x.f, 1/2) && acc(x.g, 1/4) : acc(cell(x), 1/2) && x != null }
method get(x: Ref, p: Perm) returns (r: Int, y: Ref)
  requires p > none && acc(x.f, p / 2)
  ensures acc(x.f, p / 2) && x.f == old(x.f) && (r > 0 ==> y == x)
method take(x: Ref)
  requires acc(x.f, wildcard)
method touch(x: Ref)
  requires acc(x.f, 1/2)
  requires x.f > -5
  ensures acc(x.f, 1/2) && bare()
"""
METHOD = """method m(x: Ref, y: Ref, n: Int, b: Bool, p: Perm) returns (r: Int, z: Ref)
  requires acc(x.f) && acc(x.g) && (b ==> acc(y.f, 1/2))
  requires p > none && acc(cell(y), p) && list(z1(), n) && side(x, b)
  ensures acc(x.f, 1/2) && x.f >= old(x.f)
{{
{}
}}
"""
AMOUNTS = (Fraction(1, 2), Fraction(1, 4), Fraction(1, 3), Fraction(1))
INTS = (0, 0, 1, 1, 2, 3, -1)


class Program:
    """Writes the text of a random method."""

    def __init__(self, rng):
        self.rng, self.names = rng, 0

    def text(self):
        method = METHOD.format(self.block(self.rng.randrange(3, 8), 2)).replace("list(z1(), n)", self.rng.choice(("list(y, n)", "true")))
        return HEAD + method

    def block(self, length, deep):
        return "\n".join([f"  {self.statement(deep)}" for _ in range(length)])

    def ref(self):
        return self.rng.choice(("x", "x", "x", "y", "z", "x.g"))

    def int(self):
        return self.rng.choice(("n", "r", "0", "1", "x.f", "y.f", "n + 1", "x.f + r", "-n", "n \\ 2", "n % 3", "n \\ r", "old(x.f)", "(b ? 1 : n)",
                                "(unfolding acc(cell(y), 1/8) in y.f)", "(unfolding acc(cell(y), p / 2) in y.f + n)"))

    def bool(self):
        found = self.rng.choice(("b", "!b", "x != null", "x == y", f"{self.int()} > {self.int()}", f"{self.int()} <= {self.int()}",
                                 f"b ==> {self.int()} == 0", "b || n > 0", "b && n > 0", "b <==> n > 1", "p > 1/4", "p * 2 <= write"))
        return f"({found})"

    def amount(self):
        return self.rng.choice(("write", "1/2", "1/4", "p", "p / 2", "wildcard", "none", "p - 1/4"))

    def thing(self):
        """An assertion of one place or instance."""
        much = self.amount()
        return self.rng.choice((f"acc({self.ref()}.f, {much})", f"acc({self.ref()}.g, {much})", f"acc(cell({self.ref()}), {much})",
                                f"acc(side({self.ref()}, b), {much})", f"acc(list({self.ref()}, n), {much})", "bare()"))

    def assertion(self):
        return self.rng.choice((self.thing(), self.thing(), f"{self.thing()} && {self.bool()}", f"{self.bool()} && {self.thing()}",
                                f"({self.bool()} ==> {self.thing()})", f"({self.bool()} ? {self.thing()} : {self.thing()})", self.bool()))

    def opened(self):
        much = self.rng.choice(("1/2", "1/4", "p", "p - 1/2", "write"))
        return self.rng.choice((f"cell({self.ref()})", f"acc(cell({self.ref()}), {much})", f"acc(list({self.ref()}, n), {much})",
                                f"side({self.ref()}, b)", f"acc(side(x, b), {much})", f"list({self.ref()}, n)"))

    def statement(self, deep):
        make = self.rng.choice(("var", "int", "int", "ref", "write", "write", "point", "new", "inhale", "inhale", "exhale", "exhale", "assert",
                                "assume", "fold", "unfold", "unfold", "if", "while", "get", "take", "touch"))
        if make in ("if", "while") and deep == 0:
            make = "write"
        return getattr(self, f"make_{make}", lambda deep: f"{make} {self.assertion()}")(deep)

    def make_var(self, deep):
        self.names += 1
        return f"var k{self.names}: Int" + self.rng.choice(("", f" := {self.int()}"))

    def make_int(self, deep):
        return f"r := {self.int()}"

    def make_ref(self, deep):
        return f"z := {self.rng.choice((self.ref(), 'null', 'old(x.g)'))}"

    def make_write(self, deep):
        return f"{self.ref()}.f := {self.int()}"

    def make_point(self, deep):
        return f"{self.ref()}.g := {self.ref()}"

    def make_new(self, deep):
        return f"z := new({self.rng.choice(('f', 'f, g', '*', ''))})"

    def make_assume(self, deep):
        return f"assume {self.bool()}"

    def make_fold(self, deep):
        return f"fold {self.opened()}"

    def make_unfold(self, deep):
        return f"unfold {self.opened()}"

    def make_get(self, deep):
        return f"r, z := get({self.ref()}, {self.rng.choice(('p', 'write', '1/2'))})"

    def make_take(self, deep):
        return f"take({self.ref()})"

    def make_touch(self, deep):
        return f"touch({self.ref()})"

    def make_if(self, deep):
        more = f" elseif ({self.bool()}) {{\n{self.block(1, deep - 1)} }}" if self.rng.random() < 0.3 else ""
        return f"if ({self.bool()}) {{\n{self.block(2, deep - 1)} }}{more} else {{\n{self.block(1, deep - 1)} }}"

    def make_while(self, deep):
        invariant = self.rng.choice(("true", "acc(x.f)", "acc(x.f) && x.f > n", "acc(cell(y), p)", "acc(x.f, 1/2) && acc(x.g)"))
        return f"while ({self.bool()}) invariant {invariant} {{\n{self.block(2, deep - 1)} }}"


class Invented(Choices):
    """Choices that are made up when they are asked for, and noted as the lines of a run file."""

    def __init__(self, source, rng):
        super().__init__(ViperRun("m", [[]]), predicates_of(source))
        self.rng, self.source = rng, source
        unit = source.declared["m"]
        self.known = {it.name: self.value(it.type) for it in unit.variables if it.role != "local"}
        self.lines = [["viper run", *[f"var {name} {spelled(value)}" for name, value in self.known.items()]]]
        self.lines[0] += self.memo()
        self.opening = self.lines[0]

    def value(self, type_):
        rng = self.rng
        return {"Int": lambda: rng.choice(INTS), "Bool": lambda: rng.random() < 0.5, "Ref": lambda: Ref(rng.choice((0, 1, 1, 2, 3))),
                "Perm": lambda: rng.choice(AMOUNTS)}[type_]()

    def memo(self):
        lines = [f"heap f #{ref} {self.rng.choice(INTS)}" for ref in range(1, 4)]
        lines += [f"heap g #{ref} {spelled(self.value('Ref'))}" for ref in range(1, 4)]
        for ref in ("null", "#1", "#2", "#3"):
            cell = ("pair", ("leaf", "int", self.rng.choice((0, 1, 2, 3))), ("unit",))
            lines += [f"content cell {ref} {content(cell)}", f"content list {ref} {self.known['n']} {content(self.list(2))}"]
            half = ("pair", ("leaf", "int", self.rng.choice(INTS)), ("leaf", "Ref", self.rng.randrange(3)))
            lines += [f"content side {ref} true {content(half)}", f"content side {ref} false {content(('pair', cell, ('unit',)))}"]
        return lines

    def list(self, deep):
        more = deep > 0 and self.rng.random() < 0.5
        node = ("pair", ("leaf", "int", self.rng.choice(INTS)), ("leaf", "Ref", self.rng.randrange(1, 4) if more else 0))
        return ("pair", node, self.list(deep - 1) if more else ("unit",))

    def note(self, lines, value):
        self.lines.append(lines)
        return value

    def pick(self, yes, no):
        found = len(self.lines) == 1 or self.rng.random() < 0.5
        return self.note([f"pick {spelled(found)}"], found)

    def amount(self, held, title):
        found = self.rng.choice(AMOUNTS[:3])
        return self.note([f"amount {spelled(found)}"], found)

    def fresh(self, state, known, title):
        found = Ref(self.rng.choice((4, 5, 6)))
        return self.note([f"fresh #{int(found)}"], found)

    def took(self, type_, title):
        found = self.value(type_)
        return self.note([f"value {spelled(found)}"], found)

    def state(self, state, title):
        lines = self.memo()
        return self.note(["state", *lines], self.maps(lines))


def spelled(value):
    found = word(value)
    return f"{found}/1" if isinstance(value, Fraction) and "/" not in found else found


def random_run(rng):
    """A file with a random method, and a random run of it as it was run."""
    while True:
        source = Source("a.vpr", Program(rng).text().encode())
        for _ in range(8):
            choices = Invented(source, rng)
            again = Running(source, source.declared["m"], choices)
            if again.run() == "done" or len(again.steps) > 6:
                return source, again, ViperRun("m", choices.lines)
