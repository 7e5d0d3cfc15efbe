"""A run as a trace: a row for each step that ran, with its source and with what it changed.

The steps and their states are those of `running`. Where it ends otherwise than the proved interpreter says, there is no trace."""
from copy import copy
from typing import NamedTuple

from .contents import content_words
from .failures import instance_of
from .meaning import Blocks, Fails, Scene
from .origins import Origins
from .references import Names, aliases
from .stand_ins import Spelling
from .terms import Term, nodes_of
from .values import amount, word
from .withheld import Withheld
from .wording import Atoms

WIDTH = 52          # the most columns of a source in a trace for people, beside which its text stands
LONGEST = 16        # so many rows are shown, where not all are
FIRST, LAST = 6, 8  # those at the begin and at the end that are shown then
MOST_SOURCE = 200   # the most characters of a source as data
GIVES = ("call", "requires", "ensures", "inhale", "while", "assign", "var", "body")    # steps that give what is held behind them
PARTLY = ("requires", "ensures", "body", "inhale", "while")     # and those of which it is told what they gave before they failed
WAYS = {"turn": "some iteration", "behind": "after the loop"}
BY_INVARIANTS = "with only what the invariants give"     # how the condition of a loop is read, and the invariants themselves
OPEN = {"while": "left open by the invariants", "inhale": "left open by the inhale", "new": "not initialised", "var": "not initialised"}


class Row(NamedTuple):
    """A step: where it stands, its source, what it changed, in words and as data, and the state behind it."""
    line: int
    column: int
    end_line: int
    end_column: int
    source: str
    text: str
    changes: list
    state: dict

    def data(self):
        """The row for `--json`."""
        return dict(self._asdict())


class Change(NamedTuple):
    """What a step changed of a variable, a place or an instance. Of a variable nothing is held, and `old` is None where it is new;
    `havoc` tells that a place or an instance was given up and is there again, with any value or content."""
    kind: str
    thing: object
    old: object
    new: object
    held: object = None
    now: object = None
    havoc: bool = False

    def gained(self):
        return self.kind != "variable" and self.held == 0 and self.now > 0

    def lost(self):
        return self.kind != "variable" and self.now == 0

    def other(self):
        """Whether a place or an instance that is still held has another value or content, or may have."""
        return self.kind != "variable" and self.held > 0 and self.now > 0 and (self.havoc or self.old != self.new)


def changes_of(step, order):
    """What a step changed: variables, then places, then instances."""
    before, after = step.before, step.after
    found = [Change("variable", name, before.vars.get(name), value) for name, value in after.vars.items()
             if name not in before.vars or before.vars[name] != value]
    old, new = before.state, after.state
    for key in sorted(keys_of(old.mask, new.mask, old.heap, new.heap), key=lambda it: (it[1], order.get(it[0], 0))):
        found.append(Change("place", key, old.value(key), new.value(key), old.held(key), new.held(key), step.havocs(key)))
    for key in sorted(keys_of(old.amount, new.amount, old.content, new.content)):
        found.append(Change("instance", key, old.inside(key), new.inside(key), old.held_of(key), new.held_of(key), step.havocs_content(key)))
    return [it for it in found if it.kind == "variable" or it.held != it.now or it.other()]


def keys_of(held, now, old, new):
    """The keys at which one of two pairs of maps may differ."""
    return {key for one, other in ((held, now), (now, held), (old, new), (new, old)) for key, _ in one.items(other)}


class Trace:
    """Makes the rows of a run."""

    def __init__(self, running):
        self.running, self.source, self.meaning = running, running.source, running.meaning
        self.order = {name: n for n, name in enumerate(self.meaning.types)}
        last = running.steps[-1]
        self.is_alone = last.kind == "ensures" and last.fault is not None and last.fault.kind == "perm" and last.fault.state is not running.old
        self.read = what_is_read(self.meaning, running.fault) if running.fault is not None else set()

    def rows(self, is_data):
        """The rows of all steps but those that are a specification that says nothing of what is held. For people they have no data."""
        found = [self.row(it, is_data) for it in self.running.steps]
        return [row for row, it in zip(found, self.running.steps) if row.text or it.kind not in ("requires", "ensures")]

    def partly(self, step, names):
        """What a step that fails gave before."""
        if not is_partly(step):
            return ""
        done = copy(step)
        done.after, done.fault = step.reached, None
        return Telling(self.running, names, done, self.read).text(changes_of(done, self.order))

    def row(self, step, is_data):
        """The row of a step."""
        source = self.source
        first, last = source.tokens[step.first], source.tokens[step.last]
        changes = changes_of(step, self.order)
        names = Names(self.running.visible(step), [source.said(n) for n in range(step.first, step.last + 1)])
        text = self.failing(step, names) if step.fault else Telling(self.running, names, step, self.read).text(changes)
        text = "its permission does not count here" if text and step.kind == "requires" and self.is_alone else text
        data = ([self.change_data(it) for it in changes], self.state_data(step)) if is_data else ([], {})
        spelled = source.spelled(step.first, step.last, MOST_SOURCE)
        return Row(first.line, first.column, last.line, last.column + len(last.text), spelled, text, *data)

    def failing(self, step, names):
        """The text of the step that fails; of a specification, whose parts give something before, at which of them."""
        node, partly = step.fault.node, self.partly(step, names)
        at = f" at {Spelling(self.source).of(node, None)}" if is_partly(step) else ""
        return f"{partly}{'; ' if partly else ''}fails{at}"

    def change_data(self, it):
        """A change for `--json`."""
        if it.kind == "variable":
            return {"variable": it.thing, "value": word(it.new), **({} if it.old is None else {"before": word(it.old)})}
        where = {"place": spelled_place(it.thing)} if it.kind == "place" else instance_data(it.thing)
        held = {"held": str(it.now), "held_before": str(it.held)} if it.held != it.now else {}
        if it.now == 0:
            return {**where, **held}
        value = {self.value_word(it): self.spelled(it, it.new)}
        if it.held > 0 and it.old != it.new:
            value["before"] = self.spelled(it, it.old)
        return {**where, **held, **value, **({"havoc": True} if it.havoc else {})}

    def value_word(self, it):
        return "value" if it.kind == "place" else "content"

    def spelled(self, it, value):
        return word(value) if it.kind == "place" else content_words(self.meaning, it.thing, value)

    def state_data(self, step):
        """The state behind a step for `--json`; where it fails, the one before."""
        moment = step.before if step.fault else step.after
        state = moment.state
        places = sorted(state.places(), key=lambda it: (it[0][1], self.order.get(it[0][0], 0)))
        return {
            "variables": {name: word(value) for name, value in self.running.visible(step).items()},
            "places": [{"place": spelled_place(it), "value": word(state.value(it)), "held": str(held)} for it, held in places],
            "instances": [{**instance_data(it), "held": str(held), "content": content_words(self.meaning, it, state.inside(it))}
                          for it, held in state.instances()],
        }


def is_partly(step):
    """Whether a step that fails gave something before: a loop only where its iteration has begun."""
    return step.kind in PARTLY and (step.kind != "while" or step.between is not None)


def spelled_place(place):
    return f"{word(place[1])}.{place[0]}"


def instance_data(instance):
    return {"predicate": instance[0], "arguments": [word(it) for it in instance[1]]}


def what_is_read(meaning, fault):
    """The places that what fails reads, and the instances that it opens."""
    nodes = {"false": [fault.node], "null": fault.node.parts[:1], "perm": fault.node.parts}.get(fault.kind, fault.node.parts[1:2])
    found = {meaning.place(it.node, it.state, it.scene) for node in nodes for it in Atoms(meaning).of(node, fault.state, fault.scene)
             if it.node.kind == "field" and not it.is_old}
    for it in [it for node in nodes for it, _ in nodes_of(node) if it.kind == "unfolding"]:
        try:
            found.add(meaning.instance(instance_of(it.parts[0]), fault.state, fault.scene))
        except (Fails, Blocks):
            pass
    return found


class Telling:
    """Tells what a step changed, in words. `read` are the places and instances that are read where the run fails: of a loop that may
    have changed them it is told what they have behind it, even where that is the same as before."""

    def __init__(self, running, names, step, read):
        self.old, self.meaning, self.names, self.step, self.read = running.old, running.meaning, names, step, read
        self.origins, self.spelling, self.failing = Origins(running), Spelling(running.source), running.steps[-1]

    def text(self, changes):
        """All that changed, or that nothing had to."""
        others = [it for it in changes if it.kind != "variable"]
        quiet = self.step.kind in ("fold", "unfold")
        outside = [it for it in others if it.now < it.held and self.stays_outside(it)]
        taken = [it for it in others if it.lost() and it.held == 1 and not quiet and it not in outside]
        more = [it for it in others if it.held != it.now and not it.gained() and it not in outside + taken and not (it.lost() and quiet)]
        gained = [self.gained(it) for it in others if it.gained()]
        parts = [self.variables(changes)]
        parts += [self.written()] if self.step.kind == "assign" and not self.step.targets else [self.any(it) for it in others if it.other()]
        parts += [self.taken(taken), self.outside(outside), *[self.more(it) for it in more]]
        gives = self.step.kind in GIVES or any([it.startswith("takes ") for it in parts])
        parts += [("gives " if gives else "") + "; ".join(gained) if gained else ""]
        told = "; ".join([it for it in parts if it])
        return f"{self.way()}: {told}" if self.way() and told else self.way() or told or self.nothing()

    def way(self):
        """What a branch or a loop did. A loop whose condition or invariants fail as they are read has not come to an iteration."""
        is_cut = self.step.way == "turn" and self.step.first == self.failing.first and self.failing.fault is not None
        return BY_INVARIANTS if is_cut else WAYS.get(self.step.way, self.step.way)

    def taken(self, changes):
        """What was held in full and was taken."""
        names = [self.names.thing(it.kind, it.thing) for it in changes]
        return f"takes {', '.join(names)}" if names else ""

    def outside(self, changes):
        """What stays outside of an iteration."""
        names = [self.names.thing(it.kind, it.thing) for it in changes]
        much = [name if it.held - it.now == 1 else f"{amount(it.held - it.now)} of {name}" for name, it in zip(names, changes)]
        return f"{', '.join(much)} stay{'s' * (len(much) == 1)} outside the loop" if much else ""

    def stays_outside(self, change):
        """Whether an iteration has of a thing what the invariants took, so that the rest stays outside."""
        taken = sum([much for thing, much, *_ in self.step.takes if thing == change.thing])
        return self.step.kind == "while" and self.step.way == "turn" and taken == change.now

    def nothing(self):
        """What is told where nothing changed: what was taken and given back, why nothing is given, or that it holds."""
        step = self.step
        if step.kind in ("assert", "assume", "exhale"):
            return "holds"
        if step.callee is not None:
            back = [it for it in step.takes if self.held(step.before.state, it[0]) == self.held(step.after.state, it[0])]
            words = [f"{'' if much == 1 else f'{amount(much)} of '}{self.thing(it)}" for it, much, *_ in back]
            return f"takes {', '.join(words)} and gives {'it' if len(words) == 1 else 'them'} back" if words else "changes nothing"
        if step.kind not in ("requires", "ensures", "inhale") or step.fault is not None:
            return "gives nothing" if step.kind == "unfold" else ""
        scene = Scene(step.after.vars, self.old, step.first)
        found = Withheld(self.meaning, step.after.state, scene).of(Term(self.meaning.source, step.first + 1).node)
        nothing = "holds" if step.kind == "inhale" else ""
        return f"gives nothing: {' and '.join(dict.fromkeys([why for _, why in found]))}" if found else nothing

    def held(self, state, thing):
        return state.held(thing) if isinstance(thing[1], int) else state.held_of(thing)

    def thing(self, thing):
        return self.names.thing("place" if isinstance(thing[1], int) else "instance", thing)

    def variables(self, changes):
        """The variables that got a value."""
        hidden = self.returns() if self.step.kind == "begin" else ()
        now = self.step.after.vars
        named = {it.thing: it.new for it in changes if it.kind == "variable" and it.thing not in hidden}
        named.update({name: now[name] for name in self.step.targets if name in now})
        any_ = {name: self.any_value(name) for name in named if self.origins.is_any(self.step, name)}
        return ", ".join(aliases(named.items(), any_))

    def any_value(self, name):
        """That the step leaves the value of a variable open, and the one that it had before."""
        old, new = (it.vars.get(name) for it in (self.step.before, self.step.after))
        return f"{self.left_open()}, was {self.names.value(old)}" if self.step.kind == "while" and old != new else self.left_open()

    def left_open(self):
        """Who says nothing of a value or a content."""
        return "left open by the contract" if self.step.callee is not None else OPEN.get(self.step.kind, "left open")

    def written(self):
        """The place that an assignment wrote."""
        node = self.step.terms[0]
        scene = Scene(self.step.before.vars, self.old, self.step.first)
        place = self.meaning.place(node, self.step.before.state, scene)
        return f"{self.names.place(place)} = {self.names.value(self.step.after.state.value(place))}"

    def returns(self):
        """The names of the returns, which have any value where a method begins."""
        unit = self.meaning.source.unit_at(self.step.first)
        return {it.name for it in unit.variables if it.role == "return"}

    def gained(self, it):
        name = self.names.thing(it.kind, it.thing)
        is_any = self.origins.gives_any(self.step, it.kind, it.thing)
        if it.kind == "place":
            return f"{name} = {self.names.value(it.new)}{self.braced(is_any)}, {amount(it.now)}{self.shares(it)}"
        inside = content_words(self.meaning, it.thing, it.new, self.names)
        shares = self.shares(it)
        much = "" if it.now == 1 and not shares else f", {amount(it.now)}{shares}"
        return f"{name}{f' {inside}' if inside else ''}{self.braced(inside and is_any)}{much}"

    def braced(self, is_open):
        return f" ({self.left_open()})" if is_open else ""

    def shares(self, change):
        """Of what several parts of a step give together: how much each gives, and that they name the same."""
        found = [(much, self.spelling.of(node, scene)) for thing, much, node, scene, _ in self.step.gives if thing == change.thing and much]
        if len(found) < 2:
            return ""
        told = " and ".join([f"{amount(much)} of {text}" for much, text in found])
        same = f", which are one {change.kind}" if len({text for _, text in found}) > 1 else ""
        return f": {told}{same}"

    def any(self, it):
        """A place or an instance that has another value, or any that a contract or an invariant leaves open; or nothing."""
        name, is_open = self.names.thing(it.kind, it.thing), it.havoc and not self.origins.says(self.step, it.kind, it.thing)
        if it.old == it.new and not is_open and not (self.step.kind == "while" and it.thing in self.read):
            return ""
        now, was = (self.inside(it, value) for value in (it.new, it.old))
        said = [self.left_open()] * is_open + [f"was {was}"] * (it.old != it.new and it.havoc and bool(was))
        return f"{name}{' = ' if it.kind == 'place' else ' ' * bool(now)}{now}" + (f" ({', '.join(said)})" if said else "")

    def inside(self, it, value):
        """A value of a place, or a content of an instance, in words."""
        return self.names.value(value) if it.kind == "place" else content_words(self.meaning, it.thing, value, self.names)

    def more(self, it):
        """A place or an instance of which more is held, or less."""
        change, name = it.now - it.held, self.names.thing(it.kind, it.thing)
        if change < 0:
            return f"takes {amount(-change)} of {name}, {amount(it.now)} is left"
        return f"gives {amount(change)} of {name}, {amount(it.now)} is held"


def lines(rows, whole):
    """The rows for people: line number, source and text, which stands below a long source. Where not all are wanted, those in the middle
    are left out."""
    is_cut = not whole and len(rows) > LONGEST
    shown = [*rows[:FIRST], *rows[-LAST:]] if is_cut else rows
    width = max([len(it.source) for it in shown if len(it.source) <= WIDTH], default=0)
    found = [line_of(it, width) for it in shown]
    if is_cut:
        found.insert(FIRST, f"       ..  {len(rows) - len(shown)} more steps, which --trace shows")
    return [line for it in found for line in it.split("\n")]


def line_of(row, width):
    """A row for people."""
    gap = f"\n{' ' * (7 + width)}" if len(row.source) > width and row.text else ""
    return f"{row.line:5}  {row.source:{width}}{gap}  {row.text}".rstrip()
