"""Looks for a run that can be believed: each instance that is held can be opened, what is named differently is different, a loop that
changes something is not skipped, and any value is another one than before.

Such runs are those of a changed file. Wherever a specification gives instances, an assumption stands behind it that opens each of them
once, as `assume unfolding list(x) in true`. It takes no choice of a run, so a run of the changed file is one of the file itself."""
from .contents import spelled
from .meaning import LEAVES, Blocks, Fails, Meaning, Scene
from .origins import Origins
from .references import Names
from .running import rerun
from .search import PLAIN
from .stand_ins import Spelling
from .terms import Statement, Term, nodes_of
from .trying import Changed, Insertion, Trials
from .units import Failure
from .values import NONE, UNIT, Ref
from .walk import DEFAULTS
from .wording import Atoms

PART = 0.6          # of the time that is left, for one way to ask
LONG = 2000         # the most characters of a term that is spelled
GONE = "?"          # stands for a term that may have another value behind a call
WITHIN = ("begin", "requires", "ensures", "body", "end", "turn", "while", "if")     # steps in front of which no statement can stand
MOST_PAIRS = 10     # so many pairs of parameters are taken to be different


class Loose(Meaning):
    """Opens instances of which a content says nothing: their numbers are 0 then, and their references null."""

    def fill(self, node, content, state, scene, scale):
        super().fill(node, ("pair", UNIT, UNIT) if content == UNIT and self.sign(node) == "&&" else content, state, scene, scale)

    def fill_place(self, place, content, state):
        base = LEAVES[self.types[place[0]]]
        super().fill_place(place, ("leaf", base, DEFAULTS[base]) if content == UNIT else content, state)


class Doubts:
    """What of a run cannot be believed: `instance` finds the first instance that its body rules out, or None where there is none."""

    def __init__(self, again):
        self.again, self.meaning = again, again.meaning
        self.loose = Loose(again.source, None)

    def instance(self):
        """The first instance that is held somewhere and that cannot be opened, the step behind which that is, and None; or one that
        stands inside of such an instance, with that one in the third place."""
        seen = set()
        for step in self.again.steps:
            state = (step.before if step.fault else step.after).state
            for instance, _ in state.instances():
                key = instance, state.inside(instance)
                found = self.ruled_out(instance, state) if key not in seen else None
                if found is not None:
                    return found, step, None if found == instance else instance
                seen.add(key)
        return None

    def ruled_out(self, instance, state):
        """An instance that its body rules out, or the first one that stands in it and is ruled out by its own; or None."""
        opened = self.opened(instance, state, self.meaning)
        if opened is None:
            return instance
        return next((it for it, _ in opened.instances() if self.opened(it, opened, self.loose) is None), None)

    def opened(self, instance, state, meaning):
        """What stands in an instance, or None where it cannot be opened, or where a place of it leads to itself."""
        unit = self.again.source.declared[instance[0]]
        opened = type(state)(state.types)
        if unit.brace is None:
            return opened
        body, names = self.meaning.body(instance[0])
        try:
            meaning.fill(body, state.inside(instance), opened, Scene(dict(zip(names, instance[1])), None, unit.word), NONE + 1)
        except (Fails, Blocks):
            return None
        leads = any([isinstance(opened.value(it), Ref) and opened.value(it) == it[1] for it, _ in opened.places()])
        return None if leads else opened

    def has_aliases(self):
        """Whether two parameters are one object."""
        values = [self.again.steps[0].after.vars[it.name] for it in self.again.unit.parameters() if it.type == "Ref"]
        found = [it for it in values if it != 0]
        return len(found) > len(set(found))

    def loops(self):
        """The loops of which the run makes an iteration, or comes behind."""
        return [it for it in self.again.steps if it.kind == "while" and it.fault is None]

    def skips(self):
        """Whether a loop iterates, or something has changed behind it, although its condition was false at first."""
        return any([self.guard(it) is False and (it.way == "turn" or self.changes(it)) for it in self.loops()])

    def guard(self, step):
        """The value of the condition of a loop where it is reached, or None."""
        guard = Statement(self.again.source, step.first).terms[0]
        try:
            return self.meaning.value(guard, step.before.state, Scene(step.before.vars, self.again.old, step.first))
        except (Fails, Blocks):
            return None

    def changes(self, step):
        old, new = step.before, step.after
        return any([old.vars[it] != new.vars[it] for it in step.targets]) or \
            any([step.havocs(it) and old.state.value(it) != new.state.value(it) for it, _ in new.state.places()])

    def open_values(self):
        """What a failing condition reads and a call or a loop gave any value: of each the step, the term, its type, and whether the value is
        the one before."""
        fault, found = self.again.fault, []
        if fault.kind != "false":
            return found
        for it in Atoms(self.meaning).of(fault.node, fault.state, fault.scene):
            if it.node.kind == "field" and not it.is_old:
                found += self.open_place(self.meaning.place(it.node, it.state, it.scene))
            elif it.node.kind == "leaf" and it.scene.around is None:
                found += self.open_variable(self.again.source.said(it.node.at))
        return found

    def open_place(self, place):
        steps = [(it, it.before.state.value(place), it.after.state.value(place)) for it in reversed(self.again.steps[:-1])]
        step, old, new = next(((it, old, new) for it, old, new in steps if old != new or it.havocs(place)), (None, None, None))
        if step is None or not step.havocs(place) or Origins(self.again).says(step, "place", place):
            return []
        names = [name for name, value in self.again.visible_before(step).items() if isinstance(value, Ref) and value == place[1] and
                 name not in step.targets]
        return [(step, f"{names[0]}.{place[0]}", self.meaning.types[place[0]], old == new)] if names else []

    def open_variable(self, name):
        step = next((it for it in reversed(self.again.steps[:-1]) if name in it.targets), None)
        if step is None or step.kind != "while" or not Origins(self.again).is_any(step, name):
            return []
        type_ = next(it.type for it in self.again.unit.variables if it.name == name)
        return [(step, name, type_, step.before.vars[name] == step.after.vars[name])]


class Assumptions:
    """The assumptions of a unit, as insertions into its file."""

    def __init__(self, again):
        self.again, self.source, self.unit, self.meaning = again, again.source, again.unit, again.meaning
        self.spelling, self.found = Spelling(again.source), []

    def all(self):
        """Those behind the precondition, calls, loops, `inhale`s, and at the begin of a turn."""
        if self.unit.kind != "method" or self.unit.brace is None:
            return []
        self.behind(self.unit.brace, [term.node for _, term in self.again.contract(self.unit, "requires")], None)
        n = self.unit.brace + 1
        while n < self.source.closing[self.unit.brace]:
            n = self.statement(n)
        return self.found

    def iterating(self, steps):
        """That the conditions of loops hold where these are reached."""
        return [self.in_front(it, f"assume {self.text(Statement(self.source, it.first).terms[0], None)}") for it in steps]

    def changing(self, values):
        """That terms have another value behind a step than before."""
        found, name = [], "kept$"
        while any([it.text.startswith(name) for it in self.source.tokens]):
            name += "$"
        for n, (step, text, type_, _) in enumerate(values):
            braces = [it for it, word in self.source.owner.items() if word == step.first]
            last = self.source.closing[braces[0]] if step.kind == "while" else step.last
            end = self.source.tokens[last].end
            found += [self.in_front(step, f"var {name}{n}: {type_} := {text}"), Insertion(end, end, f" assume {text} != {name}{n}")]
        return found

    def children(self):
        """That references are there which are null in the run, where an instance of them is missing and another one is held."""
        fault, step = self.again.fault, self.again.steps[-1]
        if fault.kind != "perm" or isinstance(fault.thing[1], int) or step.kind in WITHIN or \
                not any([it[0] == fault.thing[0] for it, _ in fault.left.instances()]):
            return []
        nulls = [it for it, value in zip(fault.node.parts, fault.thing[1]) if isinstance(value, Ref) and value == 0]
        texts = [self.spelling.of(it, fault.scene, LONG) for it in nulls]
        return [self.in_front(step, f"assume {it} != null") for it in texts if "." in it and "old(" not in it]

    def in_front(self, step, text):
        start = self.source.tokens[step.first].start
        return Insertion(start, start, f"{text} ")

    def behind(self, token, terms, scene):
        texts = [text for it in terms for text in self.opened(it, scene)]
        if texts:
            end = self.source.tokens[token].end
            self.found.append(Insertion(end, end, "".join([f" assume {it}" for it in texts])))

    def statement(self, n):
        """Looks at what stands at a token. Returns the next one."""
        if self.source.said(n) in ("{", "}", ";", "else"):
            return n + 1
        it = Statement(self.source, n)
        if it.kind == "while":
            return self.loop(it)
        if it.kind == "inhale":
            self.behind(it.end - 1, it.terms, None)
        elif it.kind == "unfold" and it.terms and it.terms[0].kind == "call":
            self.unfold(it, it.terms[0])
        elif it.callee is not None:
            self.call(it)
        return max(n + 1, it.end)

    def unfold(self, it, call):
        unit = self.source.declared[self.source.said(call.at)]
        given = dict(zip([v.name for v in unit.parameters()], call.parts))
        self.behind(it.end - 1, [Term(self.source, unit.brace + 1).node], Scene({}, None, it.at, given, Scene({}, None, it.at)))

    def loop(self, it):
        brace, terms = it.end, []
        while self.source.said(brace) != "{":
            term = Term(self.source, brace + 1)
            terms.append(term.node)
            brace = term.end
        self.behind(brace, terms, None)
        self.behind(self.source.closing[brace], terms, None)
        return brace + 1

    def call(self, it):
        unit = self.source.declared[self.source.said(it.callee)]
        targets = [self.source.said(n) for n in it.targets]
        given = {v.name: term if self.stays(term, targets) else GONE for v, term in zip(unit.parameters(), it.terms)}
        given.update(zip([v.name for v in unit.variables if v.role == "return"], targets))
        scene = Scene({}, None, it.at, given, Scene({}, None, it.at))
        self.behind(it.end - 1, [term.node for _, term in self.again.contract(unit, "ensures")], scene)

    def stays(self, term, targets):
        """Whether a term has the same value behind a call: it reads no field, and none of the targets."""
        return not any([node.kind == "field" or node.kind == "leaf" and self.source.said(node.at) in targets for node, _ in nodes_of(term)])

    # ---- terms

    def text(self, node, scene):
        return self.spelling.of(node, scene, LONG)

    def opened(self, term, scene):
        """The terms that open the instances of an assertion, each under its conditions."""
        found, todo = [], [(term, [])]
        while todo:
            node, under = todo.pop()
            sign = self.meaning.sign(node)
            if sign == "&&":
                todo += [(it, under) for it in reversed(node.parts)]
            elif sign == "==>":
                todo.append((node.parts[1], [*under, f"({self.text(node.parts[0], scene)})"]))
            elif sign == "?":
                condition = self.text(node.parts[0], scene)
                todo += [(node.parts[2], [*under, f"!({condition})"]), (node.parts[1], [*under, f"({condition})"])]
            elif node.kind in ("acc", "call"):
                text = self.instance(node, scene)
                found += [" ==> ".join([*under, text])] if text and not self.reads_old(node) else []
        return [it for it in found if "old(" not in it and GONE not in it]

    def reads_old(self, node):
        return any([it.kind == "old" for it, _ in nodes_of(node)])

    def instance(self, node, scene, depth=1, scale="write"):
        """The term that opens an instance of which so much is held as a part of a body, and those in it up to a depth; or nothing."""
        call = node.parts[0] if node.kind == "acc" else node
        unit = self.source.declared.get(self.source.said(call.at)) if call.kind == "call" else None
        if unit is None or unit.brace is None or self.meaning.is_wildcard(node):
            return ""
        amount = self.text(node.parts[1], scene) if node.kind == "acc" and len(node.parts) > 1 else "write"
        amount = amount if scale == "write" else scale if amount == "write" else f"({scale}) * ({amount})"
        inner = Scene({}, None, call.at, dict(zip([it.name for it in unit.parameters()], call.parts)), scene or Scene({}, None, call.at))
        return f"(({amount}) > none ==> unfolding acc({self.text(call, scene)}, {amount}) in {self.apart(unit, inner, depth, amount)})"

    def apart(self, unit, scene, depth, amount):
        """That no place of a body, of which an amount is held, leads to its own object, and that the instances in it can be opened."""
        found, todo = [], [(Term(self.source, unit.brace + 1).node, [])]
        while todo:
            node, under = todo.pop()
            sign = self.meaning.sign(node)
            if sign == "&&":
                todo += [(it, under) for it in reversed(node.parts)]
            elif sign == "==>":
                todo.append((node.parts[1], [*under, f"({self.text(node.parts[0], scene)})"]))
            elif node.kind == "acc" and node.parts[0].kind == "field" and len(node.parts) == 1 and self.is_reference(node.parts[0]):
                place, receiver = (self.text(it, scene) for it in (node.parts[0], node.parts[0].parts[0]))
                found.append(f"({' ==> '.join([*under, f'{place} != {receiver}'])})")
            elif node.kind in ("acc", "call") and depth > 0:
                text = self.instance(node, scene, depth - 1, amount)
                found += [f"({' ==> '.join([*under, text])})"] if text else []
        return " && ".join(found) if found else "true"

    def is_reference(self, node):
        return self.meaning.types.get(self.source.said(node.at)) == "Ref"

    def different(self):
        """That the parameters that are references are different objects, behind the brace of the body."""
        names = [it.name for it in self.unit.parameters() if it.type == "Ref"]
        pairs = [(a, b) for n, a in enumerate(names) for b in names[:n]][:MOST_PAIRS]
        end = self.source.tokens[self.unit.brace].end
        return [Insertion(end, end, "".join([f" assume {a} == null || {a} != {b}" for a, b in pairs]))] if pairs else []


def believable(examiner, source, failure: Failure) -> Failure:
    """A failure at the same label with a run that can be believed, where there is one; or the failure as it is."""
    if not failure.confirmed or examiner.task.is_boogie:
        return failure
    again = rerun(source, failure.run)
    if again.how != "failed" or again.label() != failure.label or again.unit.kind != "method" or again.unit.brace is None:
        return failure
    ways = ways_of(Doubts(again), Assumptions(again))
    if not ways:
        return failure
    trials = Trials(examiner, source, again.unit.name)
    try:
        for it in ways:
            found = other_run(trials, Changed(source.data, it), failure)
            if found is not None:
                return found
    finally:
        examiner.begin_anew()
    return failure


def ways_of(doubts, assumptions):
    """The insertions of the files of which a run is asked for, one after the other: with all that is doubted, and with less."""
    cannot_open, has_aliases, values = doubts.instance() is not None, doubts.has_aliases(), doubts.open_values()
    is_doubted = cannot_open or has_aliases or doubts.skips() or any([is_same for *_, is_same in values])
    children = assumptions.children()
    if not (is_doubted or children):
        return []
    opened = assumptions.all() if cannot_open or has_aliases or children else []
    apart = assumptions.different() if opened or has_aliases else []
    loops, changing = assumptions.iterating(doubts.loops()), assumptions.changing(values)
    found = [[*opened, *apart, *loops, *changing, *children]] if children else []
    if is_doubted:
        found += [[*opened, *apart, *loops, *changing], [*opened, *apart, *loops], [*opened, *apart], opened if cannot_open else [], loops]
    return [it for n, it in enumerate(found) if it and it not in found[:n]]


def other_run(trials, changed, failure):
    """A failure at the same label with a run of a changed file, or None."""
    examiner, label = trials.examined(changed), changed.label(trials.source, failure.label)
    if examiner is None or label is None:
        return None
    _, values = examiner.any_of([label], (PLAIN,), PART)
    if values is None or examiner.fails_at(values) != label:
        return None
    run = examiner.small_run(values, label)
    found = trials.examiner.confirmed_run(run, failure.label)
    return found if found.confirmed else None


def unopened(again):
    """The line that tells that nothing opens an instance of a run, or nothing."""
    found = Doubts(again).instance()
    if found is None:
        return ""
    instance, step, outer = found
    names = Names(again.visible(step))
    held = f"is in {spelled(outer, names)}" if outer else "is held"
    return f"{spelled(instance, names)} {held} in this run although its body rules it out: no step opens it"
