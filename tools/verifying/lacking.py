"""What of permission a step needed and what was held, where a run fails for lack of it."""
import re

from .contents import spelled
from .failures import instance_of
from .meaning import Blocks, Fails, Scene
from .origins import Origins
from .references import Names
from .stand_ins import Spelling
from .terms import Term, nodes_of
from .values import NONE, Ref, amount, word
from .withheld import Withheld
from .wording import Atoms, valued

MOST_HELD = 3       # so many instances that come close are told
MOST_TAKERS = 2     # and so many parts of a step that took some
MOST_STEPS = 4      # and steps


class Lacking:
    """Reads a run that failed: `permission` has the lines that are told where too little of a place or an instance was held."""

    def __init__(self, running):
        self.running, self.source, self.meaning, self.fault = running, running.source, running.meaning, running.fault
        self.steps, self.spelling, self.origins = running.steps, Spelling(running.source), Origins(running)
        step = self.steps[-1]
        self.names = Names(running.visible(step), [self.source.said(n) for n in range(step.first, step.last + 1)])

    def text(self, node):
        return self.spelling.of(node, self.fault.scene)

    def atoms(self, node):
        return Atoms(self.meaning).of(node, self.fault.state, self.fault.scene)

    def permission(self):
        """A place or an instance of which too little is held."""
        fault = self.fault
        is_place = isinstance(fault.thing[1], int)
        held = self.held(fault.left, is_place)
        if fault.needed is None:
            needs = f"needs some permission to {self.thing(is_place)}"
        else:
            needs = f"needs {self.thing(is_place)}, {self.amount_words()}"
        missing = f", so {amount(fault.needed - held)} is missing" if fault.needed is not None and held > 0 else ""
        lines = [f"{needs}; held: {amount(held)}{missing}", *self.behind()]
        lines += self.taken(held, is_place) or self.inside(is_place) or self.takers(is_place) or self.withheld()
        return lines + (self.not_made(len(lines)) if is_place else self.not_folded(len(lines)) + self.similar(len(lines)))

    def not_made(self, known):
        """That the `new` that made an object gave no permission to the field, where nothing else is known."""
        steps = [it for it in self.steps[:-1] if it.kind == "new" and it.after.vars[it.targets[0]] == self.fault.thing[1]] if known == 1 else []
        return [f"{self.origins.words(it)} at {self.place(it.first)} gives no permission to {self.text(self.fault.node)}" for it in steps[:1]]

    def not_folded(self, known):
        """That the body of an instance is held, or can never be, where nothing else is known."""
        unit = self.source.declared[self.fault.thing[0]]
        if known > 1 or unit.brace is None:
            return []
        body, names = self.meaning.body(self.fault.thing[0])
        values, todo = dict(zip(names, self.fault.thing[1])), [body]
        while todo:
            it = todo.pop()
            todo += reversed(it.parts) if self.meaning.sign(it) == "&&" else []
            place = it.parts[0] if it.kind == "acc" and it.parts[0].kind == "field" else None
            value = values.get(self.source.said(place.parts[0].at)) if place is not None else None
            if isinstance(value, Ref) and value == 0 and len(it.parts) == 1:
                return [f"{self.instance()} can never be folded: its body needs acc(null.{self.source.said(place.at)}), and null has no fields"]
        return [f"the body of {self.instance()} is held, and not folded"] if self.body_taken() else []

    def can_fold(self):
        """Whether the body of the missing instance can be given up where the step begins."""
        return self.body_taken() is not None

    def body_taken(self):
        """What of permission the body of the missing instance gives up where the step begins, or None where it cannot."""
        unit = self.source.declared[self.fault.thing[0]]
        if unit.brace is None:
            return None
        state, takes = self.steps[-1].before.state.copy(), self.meaning.takes
        body, names = self.meaning.body(self.fault.thing[0])
        self.meaning.takes = []
        try:
            self.meaning.consume(body, state.copy(), state, Scene(dict(zip(names, self.fault.thing[1])), None, unit.word))
            return self.meaning.takes
        except (Fails, Blocks):
            return None
        finally:
            self.meaning.takes = takes

    def behind(self):
        """Where the same clause gives only later what it reads, or that nothing gives it."""
        step, text = self.steps[-1], self.text(self.fault.node)
        lines = [f"acc({text}) comes only after it, at {self.place(it.start)}" for it in self.later()[:1]]
        if not lines and step.kind in ("requires", "body"):
            lines.append(f"nothing before it gives acc({text})")
        is_old = self.fault.state is self.fault.scene.old
        alone = ["a postcondition is checked by itself: what the precondition gives does not count"]
        return lines + alone * (step.kind == "ensures" and not is_old)

    def later(self):
        """The parts of the same clause behind what fails that would give it."""
        step = self.steps[-1]
        if step.kind not in ("requires", "ensures", "body", "inhale"):
            return []
        first, text = step.first + (step.kind != "body"), self.text(self.fault.node)
        return [node for node, _ in nodes_of(Term(self.source, first).node)
                if node.kind == "acc" and node.at > self.fault.part and self.text(node.parts[0]) == text]

    def place(self, token):
        return "{}:{}".format(*self.source.place(token))

    def withheld(self):
        """Where the precondition gives it only under a condition that is false in this run."""
        found, text = [], self.text(self.fault.node)
        for step in self.steps:
            if step.kind in ("requires", "inhale") and step.fault is None:
                scene = Scene(step.after.vars, self.running.old, step.first)
                for node, why in Withheld(self.meaning, step.after.state, scene).of(Term(self.source, step.first + 1).node):
                    if self.spelling.of(node.parts[0] if node.kind == "acc" else node, scene) == text:
                        found.append(f"{self.source.spelled(node.first, node.last)} at {self.place(node.first)} gives nothing: {why}")
        return found[:1]

    def held(self, state, is_place):
        return state.held(self.fault.thing) if is_place else state.held_of(self.fault.thing)

    def thing(self, is_place):
        """The place or the instance that is needed, in the caller's terms; where its arguments are computed, with their values."""
        text = self.text(self.fault.node)
        if is_place:
            return text
        value = self.instance()
        return text if text == value else f"{text}, which is {value}"

    def instance(self):
        return spelled(self.fault.thing, self.names)

    def amount_words(self):
        """How much is needed, with the term of the amount where that has not its value in it."""
        term, needed = self.fault.amount, amount(self.fault.needed)
        atoms = self.atoms(term) if term is not None else []
        if not atoms or self.text(term) == needed:
            return needed
        values = valued([it for it in atoms if it.text != self.text(term)])
        where = f", where {values}" if values else ""
        if self.meaning.value(term, self.fault.state, self.fault.scene) == self.fault.needed:
            return f"{self.text(term)} (= {self.fault.needed}{where})"
        return f"{needed} (of the amount {self.text(term)}{where})"

    def taken(self, held, is_place):
        """What the same step took of it before."""
        takes = [it for it in self.meaning.takes if it[0] == self.fault.thing]
        total, needed, found = held + sum([it[1] for it in takes]), self.text(self.fault.node), []
        for _, much, node, scene, whole in takes[:MOST_TAKERS]:
            said = self.source.spelled(whole.first, whole.last)
            what = needed if much == total else f"{amount(much)} of the {amount(total)} of {needed} that was held"
            found.append(f"{self.one_object(node, scene, is_place)}{said} at {self.place(whole.first)} already took {what}")
        return found

    def one_object(self, node, scene, is_place):
        """That what was taken and what is needed are named differently, and are one."""
        own, other = (self.source.said(self.first_leaf(it)) for it in (node, self.fault.node))
        given = scene.given if scene is not None else {}
        stands = [self.spelling.of(given[it], scene.around) if it in given and not isinstance(given[it], str) else it for it in (own, other)]
        if stands[0] == stands[1]:
            return f"`{own}` and `{other}` are both {stands[0]}: " if own != other else ""
        taken, needed = self.spelling.of(node, scene), self.text(self.fault.node)
        return "" if taken == needed else f"{taken} and {needed} are one {'place' if is_place else 'instance'}: "

    def first_leaf(self, node):
        while node.parts:
            node = node.parts[0]
        return node.at

    def takers(self, is_place):
        """Which steps took what was held before, and gave some of it back."""
        found, needed = [], self.fault.needed
        for step in reversed(self.steps):
            last = step.reached if step.fault is not None and step.kind == "while" else step.after
            before, after = self.held(step.before.state, is_place), self.held(last.state, is_place)
            if before != after and step.kind not in ("begin", "requires"):
                found.append((step, after - before, after))
            if found and before > 0 and (needed is None or before >= needed):
                break
        found.reverse()
        if not any([much < 0 for _, much, _ in found]):
            return self.givers(found) or self.of_guard()
        if len(found) == 1 or found and all([much < 0 for _, much, _ in found[:-1]]) and found[-1][0].kind == "while":
            return [self.taker(*found[-1], is_place)]
        return [self.history(found)]

    def givers(self, found):
        """That one step gave all that is held."""
        how = {"fold": "made", "unfold": "gave", "inhale": "gave"}
        steps = [(step, much) for step, much, left in found if step.kind in how and much == left] if len(found) == 1 else []
        return [f"{self.origins.words(step)} at {self.place(step.first)} {how[step.kind]} only {amount(much)}" for step, much in steps]

    def taker(self, step, much, left, is_place):
        """That one step took it."""
        name = self.text(self.fault.node) if is_place else self.instance()
        if step.kind == "while":
            if step.fault is not None:
                what = "its condition, too, is read with only what the invariants give"
            else:
                what = "an iteration has only what the invariants give" if step.way == "turn" else "its invariants do not give it back"
            return f"{name} was held {f'in full ' if left else ''}until the loop at {self.place(step.first)}: {what}"
        words, wildcard = self.origins.words(step), self.of_wildcard(step)
        if wildcard:
            back = "" if self.gives_back(step, is_place) else ", and gives none back"
            return f"{words} at {self.place(step.first)} took some of it (wildcard), here {amount(-much)}{back}"
        if left:
            return f"{words} at {self.place(step.first)} took {amount(-much)}"
        return f"{name} was held until {self.place(step.first)}, where {words} {'opened' if step.kind == 'unfold' else 'took'} it"

    def of_guard(self):
        """That the condition of a loop has only what its invariants say, where it reads what was never held."""
        step = self.steps[-1]
        if step.kind != "while" or not self.source.said(self.fault.part) or not step.first < self.fault.part <= step.last:
            return []
        return [f"the condition of the loop at {self.place(step.first)}, too, is read with only what the invariants give"]

    def of_wildcard(self, step):
        return any([it[0] == self.fault.thing and self.meaning.is_wildcard(it[4]) for it in step.takes])

    def gives_back(self, step, is_place):
        return step.between is not None and self.held(step.after.state, is_place) > self.held(step.between, is_place)

    def history(self, found):
        """What several steps took and gave, in their order."""
        lines, last = [], None
        for step, much, _ in found[-MOST_STEPS:]:
            words, how = self.origins.words(step), "took" if much < 0 else "gave"
            place = f"at {self.place(step.first)} {how} {amount(abs(much))}"
            if last == (words, how):
                lines[-1] += f", {place}"
            else:
                lines.append(f"{'the loop' if step.kind == 'while' else words} {place}")
            last = words, how
        return "; ".join(lines)

    def similar(self, known):
        """Instances of the same predicate that are held: those that come closest, by their first argument. Those of others are told
        where nothing else is known."""
        found = [(self.nearness(it), it, held) for it, held in self.fault.left.instances() if it[0] == self.fault.thing[0] and it != self.fault.thing]
        least = min([near for near, *_ in found], default=0)
        return [self.instead(it, held, near) for near, it, held in found if near == least and (near < 2 or known == 1)][:MOST_HELD]

    def nearness(self, instance):
        """How near an instance comes: 0 where its first argument is written alike, 1 where it has the same value, 2 else."""
        if instance[1][:1] != self.fault.thing[1][:1]:
            return 2
        return int(self.named(instance)[:1] != [self.text(it) for it in self.fault.node.parts[:1]])

    def instead(self, instance, held, near):
        """That an instance is held, and which of its arguments are others than those that are needed."""
        terms, much = self.named(instance), "" if held == 1 else f", {amount(held)}"
        given = terms or [self.names.value(it) for it in instance[1]]
        said = f"{instance[0]}({', '.join(given)})"
        if near == 2:
            value = spelled(instance, self.names)
            return f"held besides: {said}{'' if said == value else f', which is {value}'}{much}"
        names = [it.name for it in self.source.declared[instance[0]].parameters()]
        asked = [self.text(it) for it in self.fault.node.parts]
        pairs = zip(names, given, instance[1], asked, self.fault.thing[1])
        others = [f"its `{name}` is {told(text, value)}, and {told(other, needed)} is asked for"
                  for name, text, value, other, needed in pairs if value != needed]
        return f"held instead: {said}{much}: {'; '.join(others)}"

    def named(self, instance):
        """The arguments of the first term by which an `unfold` gave an instance, if its variables have the same values now."""
        for step in self.steps[:-1]:
            if step.kind == "unfold" and step.after.state.held_of(instance) > step.before.state.held_of(instance):
                call = instance_of(step.terms[0])
                opened = self.meaning.instance(call, step.before.state, Scene(step.before.vars, self.running.old, step.first))
                scene = self.meaning.inside(opened, call, Scene(step.before.vars, self.running.old, step.first))
                for node, _ in nodes_of(self.meaning.body(opened[0])[0]):
                    if node.kind == "call" and node.parts and self.is_named(node, instance, step.after.state, scene):
                        texts = [self.spelling.of(it, scene) for it in node.parts]
                        return [] if self.is_past(step, " ".join(texts)) else texts
        return []

    def is_past(self, step, text):
        """Whether a variable that a text names has another value now than in front of a step."""
        return any([self.running.vars.get(name) != value and re.search(rf"(?<![.\w$]){re.escape(name)}(?![\w$])", text)
                    for name, value in step.before.vars.items()])

    def is_named(self, node, instance, state, scene):
        try:
            return self.meaning.instance(node, state, scene) == instance
        except (Fails, Blocks):
            return False

    def inside(self, is_place):
        """That instances are held and have the missing thing in their body."""
        return [f"{it} is held, and {self.thing(is_place)} is in it" for it in self.around(is_place)[:MOST_HELD]]

    def around(self, is_place):
        """Instances that are held and have the missing thing in their body."""
        found = []
        for instance, held in self.fault.left.instances():
            opened = self.opened(instance, held) if instance != self.fault.thing else None
            if opened is not None and self.held(opened, is_place) > self.held(self.fault.left, is_place):
                found.append(spelled(instance, self.names))
        return found

    def opened(self, instance, held):
        """The state in which an instance is opened, or None where it cannot be."""
        unit = self.source.declared[instance[0]]
        if unit.brace is None:
            return None
        state = self.fault.left.copy()
        state.hold_of(instance, NONE)
        body, names = self.meaning.body(instance[0])
        scene = Scene(dict(zip(names, instance[1])), None, unit.word)
        try:
            self.meaning.fill(body, state.inside(instance), state, scene, held)
        except (Fails, Blocks):
            return None
        return state


def told(text, value):
    """A term with its value, where that is another word."""
    return text if text == word(value) else f"{text} (= {word(value)})"
