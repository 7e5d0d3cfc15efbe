"""Where a value comes from that a failing condition reads: a call, a loop or an `exhale` that may give it any value."""
from .failures import instance_of
from .meaning import Blocks, Fails, Scene
from .terms import Term, nodes_of
from .values import word
from .wording import Atoms

DEEP = 4        # so many assignments are followed back
MOST = 3        # so many lines are told


class Origins:
    """Follows values back through the steps of a run."""

    def __init__(self, running):
        self.running, self.source, self.meaning, self.steps = running, running.source, running.meaning, running.steps
        self.found, self.seen = [], set()

    def of(self, atoms):
        """A line for each value that some step may have given any value; of what decided a branch only where nothing is said of it."""
        for it in atoms:
            if not it.is_old:
                self.atom(it, len(self.steps) - 1, DEEP)
        known = len(self.found)
        for n, step in enumerate(self.steps):
            if step.kind == "if" and step.fault is None:
                self.terms(step, step.terms, n, DEEP)
        self.found[known:] = [it for it in self.found[known:] if " nothing of " in it and " can change " not in it]
        return sorted(self.found, key=lambda it: " nothing of " not in it)[:MOST]

    def say(self, line):
        if line not in self.found:
            self.found.append(line)

    def atom(self, atom, last, deep):
        """Follows what is read at a step."""
        if atom.node.kind == "field":
            self.place(self.meaning.place(atom.node, atom.state, atom.scene), atom.text, last, deep)
        elif atom.scene.around is None:
            self.name(self.source.said(atom.node.at), last, deep)

    # ---- variables

    def name(self, name, last, deep):
        """Follows a variable back to the step that gave it its value."""
        for n in range(last, -1, -1):
            step = self.steps[n]
            if step.fault is not None or name not in step.targets:
                continue
            if step.kind == "while":
                self.of_loop(step, name)
            elif step.callee is not None:
                self.of_result(step, name)
            elif not step.terms and step.kind == "var":
                self.say(f"{self.words(step)} at {self.where(step)} gives {name} any value, here {word(step.after.vars[name])}")
            elif deep:
                self.terms(step, step.terms, n, deep)
            return
        unit = self.running.unit
        if name in [it.name for it in unit.variables if it.role == "return"]:
            self.say(f"{name} has any value where `{unit.name}` begins, here {word(self.steps[0].after.vars[name])}, and is not assigned")

    def of_loop(self, step, name):
        """What is said of a variable that a loop assigns."""
        old, new = word(step.before.vars[name]), word(step.after.vars[name])
        said = any([self.names_variable(it, name) for it in self.invariants(step)])
        self.may_change(f"the loop at {self.where(step)}", name, old, new, "invariants", "allow" if said else "")

    def may_change(self, who, text, old, new, whose, allows):
        """That a call or a loop may change a value, and what is said of that."""
        nothing = f"say{'s' * (whose == 'contract')} nothing of its value"
        if old == new and not allows:
            self.say(f"{who} can change {text}: its {whose} {nothing}")
        elif old != new:
            self.say(f"{text} was {old} before {who}, whose {whose} {f'{allows} {new} after it' if allows else nothing}")

    def of_result(self, step, name):
        """What is said of the result of a call."""
        unit = self.source.declared[step.callee]
        returns = [it.name for it in unit.variables if it.role == "return"]
        result = dict(zip(step.targets, returns))[name]
        said = any([self.names_variable(it, result) for it in self.ensures(unit)])
        contract = "allows that" if said else f"says nothing of {result}"
        self.say(f"{self.words(step)} at {self.where(step)} gives {name} = {word(step.after.vars[name])}: its contract {contract}")

    # ---- places

    def place(self, place, text, last, deep):
        """Follows a place back to the step that gave it its value."""
        for n in range(last, -1, -1):
            step = self.steps[n]
            old, new = step.before.state, step.after.state
            is_same = old.value(place) == new.value(place) and bool(old.held(place)) == bool(new.held(place))
            if step.fault is not None or is_same and not step.havocs(place):
                continue
            if not old.held(place) and new.held(place) and step.kind == "unfold":
                self.content(step, place, text, n)
            elif not old.held(place) and new.held(place):
                self.lost_before(place, text, n, step)
            elif step.havocs(place):
                self.changed(step, text, old.value(place), new.value(place), place[0])
            elif deep and step.kind == "assign":
                self.terms(step, step.terms[-1:], n, deep)
            return
        self.in_instance(place, text)

    def in_instance(self, place, text):
        """A place that is read in an instance: which call or loop last changed its content."""
        state = self.steps[-1].before.state
        for instance, _ in state.instances():
            now = self.value_inside(instance, state, place)
            for it in reversed(self.steps[:-1] if now is not None else []):
                if self.of_content(it, instance, place, text, now):
                    return

    def terms(self, step, terms, n, deep):
        """Follows what the terms of a step read."""
        if (step.kind, n) not in self.seen:
            self.seen.add((step.kind, n))
            scene = Scene(step.before.vars, self.running.old, step.first)
            for it in [atom for term in terms for atom in Atoms(self.meaning).of(term, step.before.state, scene)]:
                if not it.is_old:
                    self.atom(it, n - 1, deep - 1)

    def lost_before(self, place, text, n, step):
        """A place that is held again: what it was when it was given away."""
        for it in reversed(self.steps[:n]):
            old, new = it.before.state, it.after.state
            if old.held(place) and not new.held(place) and old.value(place) != step.after.state.value(place):
                self.say(f"{text} was {word(old.value(place))} until {self.where(it)}, where {self.words(it)} gave it away; "
                         f"{self.words(step)} at {self.where(step)} brings any value, here {word(step.after.state.value(place))}")
                return
        self.given(step, text, place, word(step.after.state.value(place)))

    def given(self, step, text, place, now):
        """A place that a call or a `new` gives."""
        if step.kind == "new":
            self.say(f"{self.words(step)} at {self.where(step)} gives {text} any value, here {now}")
        elif step.callee is not None:
            says = "allows that" if self.says(step, "place", place) else "says nothing of its value"
            self.say(f"{self.words(step)} at {self.where(step)} gives {text} = {now}: its contract {says}")

    def content(self, step, place, text, n):
        """A place that came out of an instance: which call or loop changed its content before."""
        lost = [key for key, much in step.before.state.instances() if step.after.state.held_of(key) < much]
        for it in reversed(self.steps[:n]):
            if any([self.of_content(it, instance, place, text, step.after.state.value(place)) for instance in lost]):
                return

    def of_content(self, step, instance, place, text, now):
        """Tells of a step that changed the content of an instance, or gave it. Returns whether it did."""
        old, new = step.before.state, step.after.state
        if step.havocs_content(instance):
            was = self.value_inside(instance, old, place)
            if was is not None:
                self.changed(step, text, was, now, place[0])
            return True
        if step.callee is not None and not old.held_of(instance) and new.held_of(instance):
            self.given(step, text, place, word(now))
            return True
        return step.kind == "fold" and old.held_of(instance) < new.held_of(instance)

    def value_inside(self, instance, state, place):
        """The value of a place in an instance that is opened, or None."""
        opened = state.copy()
        body, names = self.meaning.body(instance[0])
        try:
            self.meaning.fill(body, state.inside(instance), opened, Scene(dict(zip(names, instance[1])), None, 0), state.held_of(instance))
        except (Fails, Blocks):
            return None
        return opened.value(place) if opened.held(place) else None

    def changed(self, step, text, old, new, field):
        """That a call or a loop may change a place, and what is said of its value."""
        old, new = word(old), word(new)
        if step.callee is not None:
            said = "allows" if self.says(step, "place", (field, 0)) else ""
            self.may_change(f"{self.words(step)} at {self.where(step)}", text, old, new, "contract", said)
        else:
            self.may_change(f"the loop at {self.where(step)}", text, old, new, "invariants", "allow" if self.says(step, "place", (field, 0)) else "")

    # ---- contracts

    def where(self, step):
        return "{}:{}".format(*self.source.place(step.first))

    def words(self, step):
        """A step as it is written; of a call the call alone."""
        first = step.first
        while step.callee is not None and first < step.last and self.source.said(first) != step.callee:
            first += 1
        return self.source.spelled(first, step.last)

    def ensures(self, unit):
        return [term.node for _, term in self.running.contract(unit, "ensures")]

    def says(self, step, kind, thing):
        """Whether the contract of a call, or the invariants of a loop, say something of the value of a place, or of a content."""
        if step.callee is not None:
            terms = self.ensures(self.source.declared[step.callee])
        else:
            terms = self.invariants(step) if step.kind == "while" else step.terms
        if kind == "place":
            return any([self.reads(it, thing[0]) for it in terms])
        opened = [node.parts[0] for it in terms for node, _ in nodes_of(it) if node.kind == "unfolding"]
        return any([self.source.said(instance_of(it).at) == thing[0] for it in opened])

    def is_any(self, step, name):
        """Whether a step gives a variable any value, of which a contract or the invariants say nothing."""
        if step.fault is not None or name not in step.targets:
            return False
        if step.kind == "while":
            return not any([self.names_variable(it, name) for it in self.invariants(step)])
        if step.callee is None:
            return step.kind == "var" and not step.terms
        unit = self.source.declared[step.callee]
        result = dict(zip(step.targets, [it.name for it in unit.variables if it.role == "return"])).get(name, name)
        return not any([self.names_variable(it, result) for it in self.ensures(unit)])

    def gives_any(self, step, kind, thing):
        """Whether a step gives a place or an instance with any value or content."""
        return step.kind == "new" or (step.kind in ("inhale", "while") or step.callee is not None) and not self.says(step, kind, thing)

    def invariants(self, step):
        brace = step.last + 1
        while self.source.said(brace) != "{":
            brace = Term(self.source, brace + 1).end
        return [term.node for _, term in self.running.clauses(step.last, brace, "invariant")]

    def names_variable(self, term, name):
        return any([node.kind == "leaf" and self.source.said(node.at) == name for node, _ in nodes_of(term)])

    def reads(self, term, field):
        """Whether a term reads a field elsewhere than as the place of an `acc`."""
        return any([node.kind == "field" and self.source.said(node.at) == field and
                    not (around is not None and around.kind == "acc" and around.parts[0] is node) for node, around in nodes_of(term)])
