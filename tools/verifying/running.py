"""Runs a unit of a file on a run file, statement by statement, as docs/runs.md has it, and notes the state around each step.

Nothing of this is trusted: it is told only where the proved interpreter ends on the same run at the same label, and a test compares
the two on each statement of random runs."""
from .meaning import Blocks, Fails, Meaning, Scene, Short
from .run_files import parsed, word_value
from .terms import Statement, Term
from .values import DEFAULTS, WRITE, State, type_of, typed


class Moment:
    """A state and the values of the variables in it."""

    __slots__ = ("state", "vars")

    def __init__(self, state, variables):
        self.state, self.vars = state.copy(), variables


class Step:
    """A step that ran: `kind` is begin, requires, ensures, loop, end, or that of a statement; `first` and `last` are its tokens, `at` is the
    token at which a reader stands; `before` and `after` are moments, and `way` is what a branch or a loop did; `targets` are the variables that got a
    value, even if it is the same, and `terms` what was computed for them; `takes` and `gives` are what it took away and gave, and `between`
    the state in which it forgot what was not held, or None. `fault` is what failed, and `reached` the moment at which it did."""

    __slots__ = ("kind", "first", "last", "before", "after", "way", "fault", "callee", "targets", "terms", "takes", "gives", "between",
                 "reached")

    def __init__(self, kind, first, last, before, way="", callee=None):
        self.kind, self.first, self.last, self.before, self.after = kind, first, last, before, before
        self.way, self.fault, self.callee = way, None, callee
        self.targets, self.terms, self.takes, self.gives, self.between, self.reached = [], [], [], [], None, before

    def havocs(self, place):
        """Whether it gave up all of a place, and has it again: then it may have any value."""
        return self.between is not None and self.before.state.held(place) > 0 and self.between.held(place) == 0 and self.after.state.held(place) > 0

    def havocs_content(self, instance):
        """The same of an instance and its content."""
        return self.between is not None and self.before.state.held_of(instance) > 0 and self.between.held_of(instance) == 0 and \
            self.after.state.held_of(instance) > 0


class Choices:
    """The choices of a run file of Viper, one after the other; `titles` says what each is that was taken. A missing one is `Short`, and
    one of another kind blocks."""

    def __init__(self, run, predicates):
        self.opening, self.left = run.choices[0], iter(run.choices[1:])
        self.predicates, self.titles = predicates, []

    def next(self, word, title):
        lines = next(self.left, None)
        if lines is None:
            raise Short
        self.titles.append(title)
        if lines[0].split()[0] != word:
            raise Blocks
        return lines

    def word(self, word, title):
        return typed(*word_value(self.next(word, title)[0].split()[1]))

    def pick(self, yes, no):
        """Which of two ways is taken, with a title for each."""
        found = self.word("pick", yes)
        self.titles[-1] = yes if found else no
        return found

    def amount(self, held, title):
        return self.word("amount", title)

    def fresh(self, state, known, title):
        return self.word("fresh", title)

    def took(self, type_, title):
        value = self.word("value", title)
        if type_of(value) != type_:
            raise Blocks
        return value

    def state(self, state, title):
        """A heap and contents."""
        return self.maps(self.next("state", title)[1:])

    def maps(self, lines):
        """The values of places and the contents of instances that lines give."""
        heap, content = {}, {}
        for line in lines:
            word, name, *words = line.split()
            if word == "heap":
                heap[name, typed(*word_value(words[0]))] = typed(*word_value(words[1]))
            elif word == "content":
                count = self.predicates[name]
                key = tuple([typed(*word_value(it)) for it in words[:count]])
                content[name, key] = parsed(words[count:])
        return heap, content

    def variables(self):
        """The values of the variables that the opening names."""
        return {line.split()[1]: typed(*word_value(line.split()[2])) for line in self.opening if line.startswith("var ")}


class Running:
    """Runs a unit: `steps` are those that it made, and `fault` how it failed, or None."""

    def __init__(self, source, unit, choices):
        self.source, self.unit, self.choices = source, unit, choices
        self.meaning = Meaning(source, choices)
        self.state = State(self.meaning.types)
        self.vars, self.old, self.steps, self.fault = {}, None, [], None
        self.how = None

    def run(self):
        """Runs the unit. Returns how that ended: done, failed, blocked or short."""
        try:
            self.how = "done"
            self.begin()
            (self.method if self.unit.kind == "method" else self.predicate)()
        except Fails as fault:
            self.how, self.fault = "failed", fault
            if self.steps:
                self.steps[-1].fault, self.steps[-1].reached = fault, self.moment()
        except Short:
            self.how = "short"
        except Blocks:
            self.how = "blocked"
        self.meaning.gives = []     # what is looked at later belongs to no step
        return self.how

    def label(self):
        """The label at which it failed, as the program prints it."""
        at, part = self.source.place(self.fault.at), self.source.place(self.fault.part)
        return "{}:{} {}:{} {}".format(*at, *part, self.fault.kind)

    # ---- steps

    def step(self, kind, first, last, way="", callee=None):
        self.steps.append(Step(kind, first, last, self.moment(), way, callee))
        self.meaning.takes, self.meaning.gives = self.steps[-1].takes, self.steps[-1].gives
        return self.steps[-1]

    def visible(self, step):
        """The variables with their values that are visible at a step: behind it, or where it fails before it."""
        return self.seen_at(step, (step.before if step.fault else step.after).vars)

    def visible_before(self, step):
        """The variables with their values that are visible in front of a step."""
        n = step.first - (step.kind in ("end", "turn"))
        names = [self.unit.variables[k].name for k in self.source.visible(self.unit, n)]
        return {it: step.before.vars[it] for it in names if it in step.before.vars}

    def seen_at(self, step, found):
        at = step.last if step.kind not in ("end", "turn") else step.last - 1
        names = [self.unit.variables[k].name for k in self.source.visible(self.unit, at)]
        return {it: found[it] for it in names if it in found}

    def moment(self):
        return Moment(self.state, self.vars)

    def ends(self, step):
        step.after = self.moment()

    def scene(self, at):
        return Scene(self.vars, self.old, at)

    def set(self, name, value):
        self.vars = {**self.vars, name: value}

    # ---- units

    def begin(self):
        """The opening."""
        given = self.choices.variables()
        self.vars = {it.name: given.get(it.name, DEFAULTS[it.type]) for it in self.unit.variables if it.role != "local"}
        heap, content = self.choices.maps(self.choices.opening)
        self.state.forget(heap, content)

    def opened(self, last):
        """The step in which the parameters get their values."""
        step = self.step("begin", self.unit.word, last)
        step.before = Moment(State(self.meaning.types), {})

    def clauses(self, first, end, word):
        """The clauses with a word between two tokens: of each the word's token and its term."""
        return [(n, Term(self.source, n + 1)) for n in range(first, end) if self.source.said(n) == word]

    def contract(self, unit, word):
        """The clauses of a contract."""
        return self.clauses(unit.word, unit.brace if unit.brace is not None else unit.end, word)

    def predicate(self):
        unit = self.unit
        self.opened(self.source.closing.get(unit.word + 2, unit.name_at))
        body = Term(self.source, unit.brace + 1)
        step = self.step("body", body.node.first, body.node.last)
        self.meaning.produce(body.node, self.state, self.scene(unit.word))
        self.ends(step)

    def head_end(self):
        """The last token of the head of a method, without its clauses."""
        end = self.source.closing.get(self.unit.word + 2, self.unit.name_at)
        return self.source.closing.get(end + 2, end) if self.source.said(end + 1) == "returns" else end

    def method(self):
        unit = self.unit
        self.opened(self.head_end())
        self.old = self.state
        for n, term in self.contract(unit, "requires"):
            step = self.step("requires", n, term.end - 1)
            self.meaning.produce(term.node, self.state, self.scene(unit.word))
            self.ends(step)
        self.old = self.state.copy()
        ensures = self.contract(unit, "ensures")
        by_itself = f"the postcondition of {unit.name} is checked by itself"
        if unit.brace is not None and self.choices.pick("the body runs", by_itself):
            self.block(unit.brace)
            end = self.source.closing[unit.brace]
            self.gives_up("end", end, end, [it.node for _, it in ensures], unit.brace)
            return
        self.fresh_state(f"any state, in which {by_itself}")
        for n, term in ensures:
            step = self.step("ensures", n, term.end - 1)
            self.meaning.produce(term.node, self.state, self.scene(unit.name_at))
            self.ends(step)
        raise Blocks

    def gives_up(self, kind, first, last, terms, at):
        """Consumes clauses at the end of a body."""
        step = self.step(kind, first, last)
        self.consume(terms, self.scene(at))
        self.ends(step)

    def consume(self, terms, scene):
        start = self.state.copy()
        for it in terms:
            self.meaning.consume(it, start, self.state, scene)

    def fresh_state(self, title):
        """A state in which nothing is held."""
        state = State(self.meaning.types)
        state.forget(*self.choices.state(state, title))
        self.state.become(state)

    def forget(self, of):
        self.steps[-1].between = self.state.copy()
        self.state.forget(*self.choices.state(self.state, f"what is not held gets any value ({of})"))

    def where(self, n):
        return "{}:{}".format(*self.source.place(n))

    # ---- statements

    def block(self, brace):
        n, end = brace + 1, self.source.closing[brace]
        while n < end:
            n = n + 1 if self.source.said(n) == ";" else self.statement(Statement(self.source, n))

    def statement(self, it):
        """Runs a statement. Returns the token behind it."""
        if it.kind == "if":
            return self.branches(it)
        if it.kind == "while":
            return self.loop(it)
        step = self.step(it.kind, it.at, it.end - 1)
        step.terms = it.terms
        if it.kind != "assign" or len(it.terms) == 1:
            step.targets = [self.source.said(n) for n in it.targets]
        if it.callee is not None:
            step.callee = self.source.said(it.callee)
            self.call(it)
        elif self.new_of(it):
            step.kind = "new"
            self.creation(it, self.new_of(it))
        else:
            getattr(self, f"do_{it.kind}")(it, self.scene(it.at))
        self.ends(step)
        return it.end

    def do_var(self, it, scene):
        name, type_ = self.source.said(it.targets[0]), self.source.said(it.at + 3)
        if it.terms:
            self.set(name, self.meaning.value(it.terms[0], self.state, scene))
        else:
            self.set(name, self.choices.took(type_, f"any value for {name} (line {self.source.place(it.at)[0]})"))

    def do_assign(self, it, scene):
        if len(it.terms) == 1:
            self.set(self.source.said(it.targets[0]), self.meaning.value(it.terms[0], self.state, scene))
            return
        node = it.terms[0]
        ref, value = self.meaning.value(node.parts[0], self.state, scene), self.meaning.value(it.terms[1], self.state, scene)
        place = self.source.said(node.at), ref
        if ref == 0:
            raise Fails(scene, node.at, "null", node, self.state)
        if self.state.held(place) != 1:
            raise Fails(scene, node.at, "perm", node, self.state, None, place, 1)
        self.state.put(place, value)

    def do_inhale(self, it, scene):
        self.meaning.produce(it.terms[0], self.state, scene)

    def do_assume(self, it, scene):
        if not self.meaning.value(it.terms[0], self.state, scene):
            raise Blocks

    def do_exhale(self, it, scene):
        self.consume(it.terms, scene)
        self.forget(f"exhale at {self.where(it.at)}")

    def do_assert(self, it, scene):
        kept = self.state.copy()
        self.consume(it.terms, scene)
        self.state.become(kept)

    def do_fold(self, it, scene):
        self.meaning.fold(it.terms[0], self.state, scene)

    def do_unfold(self, it, scene):
        self.meaning.open(it.terms[0], self.state, scene)

    def new_of(self, it):
        """The token of the `new` of a statement, or 0."""
        begin = it.at
        while begin < it.end and self.source.said(begin) != ":=":
            begin += 1
        return begin + 1 if self.source.said(begin + 1) == "new" else 0

    def creation(self, it, new):
        """Makes an object that the method does not know, with the fields that are named."""
        known = {self.vars[name] for name in self.references(it.at)}
        made = f"the object made at {self.where(it.at)}"
        ref = self.choices.fresh(self.state, known, made)
        held = [place for place, _ in self.state.places()]
        pointed = {self.state.value(it) for it in held if self.meaning.types[it[0]] == "Ref"}
        if ref == 0 or ref in known or ref in pointed or ref in {it[1] for it in held}:
            raise Blocks
        names = [self.source.said(n) for n in range(new + 2, it.end) if self.source.tokens[n].kind == "name"]
        for name in self.meaning.types if self.source.said(new + 2) == "*" else names:
            self.state.put((name, ref), self.choices.took(self.meaning.types[name], f"the field {name} of {made}"))
            self.state.hold((name, ref), WRITE)
        self.set(self.source.said(it.targets[0]), ref)

    def references(self, n):
        """The names of the references that are in scope at a token."""
        seen = [self.unit.variables[k] for k in self.source.visible(self.unit, n)]
        return [it.name for it in seen if it.type == "Ref"]

    def call(self, it):
        called = self.source.declared[self.source.said(it.callee)]
        given = [self.meaning.value(term, self.state, self.scene(it.at)) for term in it.terms]
        names = [v.name for v in called.parameters()]
        before, terms = self.state.copy(), dict(zip(names, it.terms))
        inside = Scene(dict(zip(names, given)), before, it.at, terms, self.scene(it.at), before)
        self.consume([term.node for _, term in self.contract(called, "requires")], inside)
        place = f"call of {called.name} at {self.where(it.at)}"
        self.forget(place)
        returns = [v for v in called.variables if v.role == "return"]
        targets = [self.source.said(n) for n in it.targets]
        values = {v.name: self.choices.took(v.type, f"what the {place} gives {name}") for name, v in zip(targets, returns)}
        terms = {**terms, **{v.name: name for name, v in zip(targets, returns)}}
        inside = Scene({**inside.vars, **values}, before, it.at, terms, inside.around, before)
        for _, term in self.contract(called, "ensures"):
            self.meaning.produce(term.node, self.state, inside)
        for name, v in zip(targets, returns):
            self.set(name, values[v.name])

    def branches(self, it):
        """An `if` with all that belongs to it."""
        done = False
        while True:
            brace = it.end
            if not done:
                step = self.step("if", it.at, brace - 1)
                step.terms = it.terms
                done = self.meaning.value(it.terms[0], self.state, self.scene(it.at))
                step.way = "true" if done else "false"
                if done:
                    self.block(brace)
            n = self.source.closing[brace] + 1
            if self.source.said(n) == "elseif":
                it = Statement(self.source, n)
            elif self.source.said(n) == "else":
                if not done:
                    self.block(n + 1)
                return self.source.closing[n + 1] + 1
            else:
                return n

    def loop(self, it):
        """A loop: one iteration, or what is behind it."""
        brace = it.end
        while self.source.said(brace) != "{":
            brace = Term(self.source, brace + 1).end
        invariants, scene = [term.node for _, term in self.clauses(it.end, brace, "invariant")], self.scene(it.at)
        step, line = self.step("while", it.at, it.end - 1), self.line_of(it.at)
        self.consume(invariants, scene)
        self.forget(f"loop at {self.where(it.at)}")
        step.targets = [v.name for v in self.assigned(it.at, brace)]
        for v in self.assigned(it.at, brace):
            self.set(v.name, self.choices.took(v.type, f"any value for {v.name}, which the loop at {line} assigns"))
        turn = self.choices.pick(f"one iteration of the loop at {line}", f"after the loop at {line}")
        step.way = "turn" if turn else "behind"
        if turn:
            self.fresh_state(f"any state, in which an iteration of the loop at {line} begins")
        for term in invariants:
            self.meaning.produce(term, self.state, self.scene(it.at))
        if self.meaning.value(it.terms[0], self.state, self.scene(it.at)) != turn:
            raise Blocks
        self.ends(step)
        end = self.source.closing[brace]
        if turn:
            self.block(brace)
            self.gives_up("turn", end, end, invariants, brace)
            raise Blocks
        return end + 1

    def line_of(self, loop):
        """The line of a loop, or where it stands with another in its line the whole place."""
        line = self.source.tokens[loop].line
        loops = [it for it in self.source.tokens[self.unit.word:self.unit.end] if it.text == "while" and it.line == line]
        return str(line) if len(loops) == 1 else self.where(loop)

    def assigned(self, loop, brace):
        """The variables that the body of a loop assigns and that are declared before it, in the order of their numbers."""
        found = set()
        for n in range(brace + 1, self.source.closing[brace]):
            if self.source.said(n) == ":=":
                back = n - 1
                while self.source.tokens[back].kind == "name" and self.source.said(back - 1) == ",":
                    found.add(back)
                    back -= 2
                if self.source.tokens[back].kind == "name" and self.source.said(back - 1) not in (".", ":"):
                    found.add(back)
        names = {self.source.said(n) for n in found}
        return [v for v in self.unit.variables if v.name in names and self.is_visible(v, loop)]

    def is_visible(self, variable, n):
        return variable.role != "local" or variable.at < n < variable.until


def predicates_of(source):
    """How many parameters each predicate has."""
    return {it.name: len(it.parameters()) for it in source.units if it.kind == "predicate"}


def rerun(source, run):
    """A run of a unit, run again."""
    again = Running(source, source.declared[run.unit], Choices(run, predicates_of(source)))
    again.run()
    return again
