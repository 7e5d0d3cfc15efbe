"""How an error may be mended: a change of the file that was tried. It is told where with it the unit is verified, or the error is gone."""
from typing import NamedTuple, Tuple

from .meaning import Blocks, Fails, Scene
from .moving import Lines, Moves
from .needs import Needs
from .running import Running
from .stand_ins import StandIns
from .terms import Statement, Term, nodes_of
from .trying import Changed, Insertion, Trials
from .values import Ref, amount, word

MOST = 5            # so many changes are tried
LONG = 400          # the most characters of a term that is spelled in a change
OPPOSITE = {"<": "<=", ">": ">="}


class Edit(NamedTuple):
    """A change of a text from one place up to another one, of bytes."""
    line: int
    column: int
    end_line: int
    end_column: int
    text: str


class Help(NamedTuple):
    """A way to mend an error: in words, and as edits."""
    words: str
    edits: Tuple[Edit, ...]

    def data(self):
        return {"words": self.words, "edits": [it._asdict() for it in self.edits]}


class Change(NamedTuple):
    """A change that may mend an error: what it is in words, its insertions, and the other units that have to be verified with it."""
    words: str
    insertions: Tuple[Insertion, ...]
    others: Tuple[str, ...] = ()


class Changes(Lines):
    """Finds changes that may mend the error at which a run fails, those first that are most likely."""

    def __init__(self, again: Running):
        super().__init__(again.source)
        self.moves = Moves(again)
        self.again, self.source, self.unit, self.fault = again, again.source, again.unit, again.fault
        self.needs, self.step = Needs(again), again.steps[-1]
        self.spelling = self.needs.spelling

    def all(self):
        kind = self.fault.kind
        if kind == "perm":
            yield from self.of_permission()
        else:
            yield from self.of_value(kind)

    # ---- places of changes

    def clause(self, unit, word, text):
        """A clause of a contract, behind those that are there."""
        own = [term.end - 1 for _, term in self.again.contract(unit, word)]
        others = [term.end - 1 for _, term in self.again.contract(unit, "requires")] if word == "ensures" else []
        head = self.source.closing.get(unit.word + 2, unit.name_at)
        head = self.source.closing.get(head + 2, head) if self.source.said(head + 1) == "returns" else head
        column = self.source.tokens[unit.word].column + 2
        return self.behind((own or others or [head])[-1], f"{word} {text}", column)

    def clause_words(self, unit, word, text):
        """A clause of a contract in words, with the line behind which it has to stand, as it reads what clauses before it give."""
        at = self.clause(unit, word, text).start
        is_first = not self.again.contract(unit, word) and not self.again.contract(unit, "requires")
        where = "" if is_first or "." not in text or not self.ends_line(at) else f" after line {place_in(self.source.data, at)[0]}"
        return f"`{word} {text}` added to `{unit.name}`{where}"

    def ends_line(self, at):
        """Whether nothing but blanks stands behind a place in its line."""
        return not self.source.data[at:].split(b"\n", 1)[0].strip()

    def invariant(self, step, text):
        """An invariant of a loop, behind those that are there."""
        brace = step.last + 1
        while self.source.said(brace) != "{":
            brace = Term(self.source, brace + 1).end
        return self.behind(brace - 1, f"invariant {text}", self.source.tokens[step.first].column + 2)

    def is_statement(self):
        """Whether the failing step is a statement without blocks."""
        return self.step.kind not in ("begin", "requires", "ensures", "body", "end", "turn", "while", "if")

    def spelled(self, node):
        return self.spelling.of(node, self.fault.scene, LONG)

    def is_of_parameters(self, node, scene=None):
        """Whether a term names nothing but parameters of the unit."""
        names = {it.name for it in self.unit.parameters()}
        found = self.leaves(node, scene or self.fault.scene)
        return found is not None and found <= names

    def leaves(self, node, scene):
        """The variables that a term names in the unit's own terms, or None where that is not known."""
        found = set()
        for it, _ in nodes_of(node):
            if it.kind == "leaf" and self.source.tokens[it.at].kind == "name":
                name = self.source.said(it.at)
                if scene.around is None:
                    found.add(name)
                    continue
                stands = scene.given.get(name)
                inner = {stands} if isinstance(stands, str) else self.leaves(stands, scene.around) if stands is not None else None
                if inner is None:
                    return None
                found |= inner
        return found

    # ---- too little permission

    def of_permission(self):
        is_place = isinstance(self.fault.thing[1], int)
        if self.needs.taken(self.needs.held(self.fault.left, is_place), is_place):
            return
        yield from self.opened(is_place)
        if is_place:
            yield from self.moved(self.moves.field_made())
        else:
            yield from self.moved(self.moves.unfold_left_out())
            yield from self.folded()
        for it in self.needs.later()[:1]:
            yield from self.moved(self.moves.part_to_front((it.first, it.last)))
        yield from self.kept_by_loop(is_place)
        yield from self.required(is_place)

    def moved(self, moves):
        """Moves as changes."""
        return [Change(words, insertions) for words, insertions in moves]

    def opened(self, is_place):
        """To open an instance that has what is missing."""
        if not self.is_statement():
            return
        for instance, held in self.fault.left.instances():
            inner = self.needs.opened(instance, held) if instance != self.fault.thing else None
            if inner is None or self.needs.held(inner, is_place) <= self.needs.held(self.fault.left, is_place):
                continue
            text = self.term(instance, held)
            if text is None:
                continue
            place, column = self.source.tokens[self.step.first].line, self.source.tokens[self.step.first].column
            if self.step.kind == "assert" and self.fault.node.kind == "field":
                inner_text = self.source.tokens[self.step.first + 1].start
                yield Change(f"`unfolding {text} in` added right after `assert`", (Insertion(inner_text, inner_text, f"unfolding {text} in "),))
            both = self.before(self.step.first, f"unfold {text}"), self.behind(self.step.last, f"fold {text}", column)
            yield Change(f"`unfold {text}` added before line {place} and `fold {text}` after it", both)
            yield Change(f"`unfold {text}` added before line {place}", both[:1])

    def term(self, instance, held):
        """An instance as it is written in front of the failing step, or None where its arguments cannot be."""
        words = [self.term_of(it) for it in instance[1]]
        if None in words:
            return None
        text = f"{instance[0]}({', '.join(words)})"
        return text if held == 1 else f"acc({text}, {amount(held)})"

    def term_of(self, value):
        """A term that has a value in front of the failing step: a variable, a place of one, or the literal."""
        variables = self.again.visible_before(self.step)
        found = [name for name, its in variables.items() if its == value and type(its) is type(value)]
        if found:
            return found[0]
        if not isinstance(value, Ref) or value == 0:
            return word(value)
        state = self.step.before.state
        for (field, ref), _ in state.places():
            if state.value((field, ref)) == value and self.again.meaning.types[field] == "Ref":
                names = [name for name, its in variables.items() if isinstance(its, Ref) and its == ref]
                if names:
                    return f"{names[0]}.{field}"
        return None

    def folded(self):
        """To fold what is missing, where all that its body says is held; first to move a fold that comes too late."""
        if self.step.kind in ("begin", "requires", "ensures", "body", "if") or not self.needs.can_fold():
            return
        text = self.spelled(self.fault.node)
        if self.step.kind in ("end", "turn"):
            column = self.source.tokens[self.step.first].column + 2
            last = self.step.first - 1
            yield Change(f"`fold {text}` added at the end of the body", (self.behind(last, f"fold {text}", column),))
            return
        line = self.source.tokens[self.step.first].line
        yield from self.moved(self.moves.fold_before())
        yield Change(f"`fold {text}` added before line {line}", (self.before(self.step.first, f"fold {text}"),))
        yield from self.moved(self.moves.fold_in_block(text))

    def kept_by_loop(self, is_place):
        """To keep in an invariant what the last loop took."""
        for step in reversed(self.again.steps):
            before, after = (self.needs.held(it.state, is_place) for it in (step.before, step.after))
            if step.kind == "while" and before > after:
                text = self.spelled(self.fault.node)
                said = text if not is_place and before == 1 else f"acc({text})" if before == 1 else f"acc({text}, {amount(before)})"
                line = self.source.tokens[step.first].line
                yield Change(f"`invariant {said}` added to the loop in line {line}", (self.invariant(step, said),))
                return

    def required(self, is_place):
        """To ask the caller for what was never held."""
        if self.unit.kind != "method" or not self.is_of_parameters(self.fault.node) or self.needs.takers(is_place):
            return
        text = self.spelled(self.fault.node)
        said = f"acc({text})" if is_place else text
        if self.step.kind in ("requires", "ensures"):
            start = self.source.tokens[self.step.first + 1].start
            word_ = self.source.said(self.step.first)
            yield Change(f"`{said} &&` added right after this `{word_}`", (Insertion(start, start, f"{said} && "),))
        elif self.needs.held(self.fault.left, is_place) == 0 and self.fault.scene.around is None and not self.asks_for(text):
            yield Change(f"`requires {said}` added to `{self.unit.name}`", (self.clause(self.unit, "requires", said),))

    def asks_for(self, text):
        """Whether the precondition asks for something already, in whatever case."""
        terms = [term.node for _, term in self.again.contract(self.unit, "requires")]
        return any([self.source.spelled(it.first, it.last) == text for term in terms for it, _ in nodes_of(term)])

    # ---- values

    def of_value(self, kind):
        condition = self.condition(kind)
        if kind == "false":
            yield from self.told_by_callee()
        for step in reversed(self.again.steps):
            if step.kind == "while" and step.fault is None:
                yield from self.told_by_loop(step, condition, kind)
                return
        node = self.fault.node if kind == "false" else self.fault.node.parts[0 if kind == "null" else 1]
        if kind == "false" and self.step.kind == "assert":
            return
        if condition and self.unit.kind == "method" and self.step.kind not in ("end", "turn"):
            locals_ = self.assigned(node)
            said = self.condition(kind, locals_) if locals_ else condition
            if locals_ is not None and (locals_ or self.is_of_parameters(node)):
                yield Change(self.clause_words(self.unit, "requires", said), (self.clause(self.unit, "requires", said),))

    def assigned(self, node):
        """For the locals that a term names the terms of parameters that were assigned to them, or None where one has no such term."""
        found, names = {}, self.leaves(node, self.fault.scene)
        parameters = {it.name for it in self.unit.parameters()}
        for name in sorted((names or set()) - parameters):
            step = next((it for it in reversed(self.again.steps[:-1]) if name in it.targets), None)
            if step is None or step.kind not in ("var", "assign") or step.callee is not None or len(step.terms) != 1 or self.fault.scene.around:
                return None
            if not self.is_of_parameters(step.terms[0], Scene({}, None, step.first)):
                return None
            found[name] = step.terms[0]
        return found if names is not None else None

    def condition(self, kind, locals_=None):
        """What has to hold, as a term of the unit; with terms that stand for its locals."""
        node, scene = self.fault.node, StandIns(locals_) if locals_ else self.fault.scene
        if kind == "false":
            return self.spelling.of(node, scene, LONG)
        if kind == "null":
            return f"{self.spelling.of(node.parts[0], scene, LONG)} != null"
        divisor = locals_.get(self.source.said(node.parts[1].at), node.parts[1]) if locals_ and node.parts[1].kind == "leaf" else node.parts[1]
        if kind == "div" and divisor.kind == "binary" and self.source.said(divisor.at) == "-" and not divisor.parts[1].parts:
            return f"{self.spelling.of(divisor.parts[0], scene, LONG)} != {self.spelling.of(divisor.parts[1], scene, LONG)}"
        return f"{self.spelling.of(node.parts[1], scene, LONG)} {({'div': '!= 0', 'negative': '>= none', 'amount': '> none'})[kind]}"

    def told_by_callee(self):
        """To have the contract of a call say that a place keeps its value."""
        atoms = [it for it in self.needs.atoms(self.fault.node) if it.node.kind == "field" and not it.is_old]
        for step in reversed(self.again.steps):
            if step.callee is None or step.fault is not None:
                continue
            unit = self.source.declared[step.callee]
            yield from self.content_told(step, unit, atoms)
            for it in atoms:
                try:
                    place = self.again.meaning.place(it.node, it.state, self.fault.scene)
                except (Fails, Blocks):
                    continue
                if step.before.state.value(place) == step.after.state.value(place):
                    continue
                for variable, value in self.arguments(step, unit):
                    if value == place[1]:
                        said = f"{variable}.{place[0]} == old({variable}.{place[0]})"
                        yield Change(self.clause_words(unit, "ensures", said), (self.clause(unit, "ensures", said),),
                                     (unit.name,) if unit.brace is not None else ())

    def content_told(self, step, unit, atoms):
        """The same of a place inside of an instance."""
        given = self.arguments(step, unit)
        for it in atoms:
            try:
                place = self.again.meaning.place(it.node, it.state, self.fault.scene)
            except (Fails, Blocks):
                continue
            for instance, held in step.after.state.instances():
                inside = [self.needs.origins.value_inside(instance, moment.state, place) for moment in (step.before, step.after)]
                names = [next((name for name, its in given if its == value), None) for value in (*instance[1], place[1])]
                if not step.havocs_content(instance) or None in inside or inside[0] == inside[1] or None in names:
                    continue
                text = f"{instance[0]}({', '.join(names[:-1])})" if held == 1 else f"acc({instance[0]}({', '.join(names[:-1])}), {amount(held)})"
                read = f"unfolding {text} in {names[-1]}.{place[0]}"
                said = f"({read}) == old({read})"
                yield Change(self.clause_words(unit, "ensures", said), (self.clause(unit, "ensures", said),),
                             (unit.name,) if unit.brace is not None else ())

    def arguments(self, step, unit):
        """The parameters of a called method that are references, with their values."""
        scene = Scene(step.before.vars, self.again.old, step.first)
        values = [self.again.meaning.value(it, step.before.state, scene) for it in step.terms]
        return [(it.name, value) for it, value in zip(unit.parameters(), values) if it.type == "Ref"]

    def told_by_loop(self, step, condition, kind):
        """To have an invariant say what the guard says but for its end, or what has to hold."""
        guard = Statement(self.source, step.first).terms[0]
        line = self.source.tokens[step.first].line
        said = []
        sign = self.source.said(guard.at) if guard.kind == "binary" else ""
        if sign in OPPOSITE and step.way == "behind":
            left, right = (self.source.spelled(it.first, it.last) for it in guard.parts)
            said.append(f"{left} {OPPOSITE[sign]} {right}")
        if self.step.kind != "turn" and condition and "old(" not in condition:
            said.append(condition)
        for it in said:
            yield Change(f"`invariant {it}` added to the loop in line {line}", (self.invariant(step, it),))


def help_of(examiner, source, again, label):
    """A way to mend the error at a label, at which a run fails; or None."""
    trials = Trials(examiner, source, again.unit.name)
    try:
        for n, change in enumerate(Changes(again).all()):
            if n == MOST or trials.left() <= 0:
                return None
            changed = Changed(source.data, list(change.insertions))
            found = trials.mends(changed, label, change.others)
            if found:
                end = f"`{again.unit.name}` is verified" if found == "verified" else "this error is gone"
                words = change.words if change.words.startswith("without ") else f"with {change.words}"
                return Help(f"{words}, {end}", tuple([edit_of(source.data, it) for it in change.insertions]))
    finally:
        examiner.begin_anew()
    return None


def edit_of(data, it):
    """An insertion as an edit."""
    (line, column), (end_line, end_column) = (place_in(data, at) for at in (it.start, it.end))
    return Edit(line, column, end_line, end_column, it.text)


def place_in(data, at):
    return data.count(b"\n", 0, at) + 1, at - data.rfind(b"\n", 0, at)
