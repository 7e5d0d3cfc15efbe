"""The meaning of expressions and assertions of Viper over the terms of a file, as docs/states.md has it.

What ends a step is raised: `Fails` with the label and with what was asked, or `Blocks`. Nothing that is computed here is trusted:
the proved interpreter runs the same run, and where it ends otherwise nothing of this is told."""
from fractions import Fraction

from .evaluation import OPERATORS
from .failures import instance_of
from .terms import LITERALS, Term
from .values import LEAVES, NONE, UNIT, WRITE, Ref, type_of

CONSTANTS = {"true": True, "false": False, "null": Ref(0), "none": NONE, "write": WRITE}


class Blocks(Exception):
    """An assumption does not hold, or a choice does not fit."""


class Short(Blocks):
    """There is no choice left where one is needed."""


class Fails(Exception):
    """A check that fails. `at` and `part` are tokens, `kind` is that of the label, `node` is the term that was looked at, in `scene`
    and `state`; `left` is the state from which permission was taken, `thing` the place or the instance, `needed` how much of it, and
    `amount` the term that says so."""

    def __init__(self, scene, part, kind, node, state, left=None, thing=None, needed=None, term=None):
        super().__init__(kind)
        self.scene, self.at, self.part, self.kind, self.node, self.state = scene, scene.at, part, kind, node, state
        self.left, self.thing, self.needed, self.amount = left or state, thing, needed, term


class Scene:
    """What a term is read in besides the state: the values of the variables by name, the old state, and the step that is running.
    `given` has for the parameters of a contract or a body the terms that stand for them, `around` the scene of those, and `before` the
    state in which they were read, where it is another one."""

    __slots__ = ("vars", "old", "at", "given", "around", "before")

    def __init__(self, variables, old, at, given=None, around=None, before=None):
        self.vars, self.old, self.at, self.given, self.around, self.before = variables, old, at, given or {}, around, before


class Meaning:
    """Reads the terms of a file. `choices` gives the choice that a step asks for, by its kind."""

    def __init__(self, source, choices):
        self.source, self.choices, self.bodies = source, choices, {}
        self.types = {it.name: it.variables[0].type for it in source.units if it.kind == "field" and it.variables}
        self.takes = []     # what the present step took away: of each thing how much, by which term in which scene, and in which `acc`
        self.gives = []     # what it gave, in the same form

    def sign(self, node):
        return self.source.said(node.at) if node.kind in ("binary", "choice", "unary") else ""

    def body(self, name):
        """The tree of the body of a predicate, and the names of its parameters."""
        if name not in self.bodies:
            unit = self.source.declared[name]
            self.bodies[name] = Term(self.source, unit.brace + 1).node, [it.name for it in unit.parameters()]
        return self.bodies[name]

    # ---- expressions

    def value(self, node, state, scene):
        """The value of an expression."""
        return getattr(self, f"value_of_{node.kind}")(node, state, scene)

    def value_of_leaf(self, node, state, scene):
        said = self.source.said(node.at)
        if said in LITERALS:
            return CONSTANTS[said]
        return int(said) if said.isdigit() else scene.vars[said]

    def value_of_field(self, node, state, scene):
        ref = self.value(node.parts[0], state, scene)
        if ref == 0:
            raise Fails(scene, node.at, "null", node, state)
        place = self.source.said(node.at), ref
        if state.held(place) == 0:
            raise Fails(scene, node.at, "perm", node, state, None, place)
        return state.value(place)

    def value_of_old(self, node, state, scene):
        return self.value(node.parts[0], scene.old, scene)

    def value_of_unary(self, node, state, scene):
        value = self.value(node.parts[0], state, scene)
        return not value if self.sign(node) == "!" else -value

    def value_of_choice(self, node, state, scene):
        return self.value(node.parts[1 if self.value(node.parts[0], state, scene) else 2], state, scene)

    def value_of_binary(self, node, state, scene):
        sign, left = self.sign(node), self.value(node.parts[0], state, scene)
        if sign in ("&&", "==>") and not left:
            return sign == "==>"
        if sign == "||" and left:
            return True
        right = self.value(node.parts[1], state, scene)
        if sign in ("&&", "||", "==>"):
            return right
        if sign in ("/", "\\", "%") and right == 0:
            raise Fails(scene, node.at, "div", node, state)
        if sign == "/":
            return Fraction(left) / right
        return OPERATORS[{"\\": "div", "%": "mod"}.get(sign, sign)](left, right)

    def value_of_unfolding(self, node, state, scene):
        opened = state.copy()
        self.look_into(node, opened, scene)
        return self.value(node.parts[1], opened, scene)

    def look_into(self, node, state, scene):
        """Opens what an `unfolding` names, which gives nothing to the step."""
        given, self.gives = self.gives, []
        try:
            self.open(node.parts[0], state, scene)
        finally:
            self.gives = given

    def opened(self, node, state, scene):
        """The state in which an `unfolding` reads its term, or None where it ends before."""
        opened = state.copy()
        try:
            self.look_into(node, opened, scene)
        except (Fails, Blocks):
            return None
        return opened

    # ---- instances

    def instance(self, node, state, scene):
        """The instance that a call of a predicate names."""
        return self.source.said(node.at), tuple([self.value(it, state, scene) for it in node.parts])

    def amount(self, node, state, scene):
        """The amount of an `acc`, or the whole."""
        return self.value(node.parts[1], state, scene) if node.kind == "acc" and len(node.parts) > 1 else WRITE

    def inside(self, instance, node, scene):
        """The scene in which the body of an instance is read."""
        name, arguments = instance
        _, names = self.body(name)
        return Scene(dict(zip(names, arguments)), scene.old, scene.at, dict(zip(names, node.parts)), scene)

    def positive(self, node, state, scene):
        """The instance of a `fold`, `unfold` or `unfolding`, its name's node, and its amount, which has to be positive."""
        call = instance_of(node)
        instance, much = self.instance(call, state, scene), self.amount(node, state, scene)
        if much <= 0:
            raise Fails(scene, call.at, "amount", node, state, None, instance, much)
        return instance, call, much

    def open(self, node, state, scene):
        """Takes some of an instance, and produces its body from its content. Returns the instance."""
        instance, call, much = self.positive(node, state, scene)
        held = state.held_of(instance)
        if held < much:
            raise Fails(scene, call.at, "perm", call, state, None, instance, much)
        state.hold_of(instance, held - much)
        self.fill(self.body(instance[0])[0], state.inside(instance), state, self.inside(instance, call, scene), much)
        return instance

    def fold(self, node, state, scene):
        """Gives up the body of an instance, and holds the instance. Returns it."""
        instance, call, much = self.positive(node, state, scene)
        body, inside, start = self.body(instance[0])[0], self.inside(instance, call, scene), state.copy()
        self.consume(body, start, state, inside, much)
        made = self.content_of(body, start, inside)
        if state.held_of(instance) and state.inside(instance) != made:
            raise Blocks
        state.fill(instance, made)
        state.hold_of(instance, state.held_of(instance) + much)
        return instance

    def content_of(self, node, state, scene):
        """What an assertion contains."""
        sign = self.sign(node)
        if sign == "&&":
            return ("pair", self.content_of(node.parts[0], state, scene), self.content_of(node.parts[1], state, scene))
        if sign == "==>":
            return self.content_of(node.parts[1], state, scene) if self.value(node.parts[0], state, scene) else UNIT
        if sign == "?":
            return self.content_of(node.parts[1 if self.value(node.parts[0], state, scene) else 2], state, scene)
        inner = node.parts[0] if node.kind == "acc" else node
        if node.kind not in ("acc", "call") or self.amount(node, state, scene) == 0:
            return UNIT
        if inner.kind == "call":
            return state.inside(self.instance(inner, state, scene))
        value = state.value(self.place(inner, state, scene))
        return ("leaf", LEAVES[type_of(value)], value)

    def place(self, node, state, scene):
        return self.source.said(node.at), self.value(node.parts[0], state, scene)

    # ---- assertions

    def consume(self, node, start, left, scene, scale=WRITE):
        """Checks an assertion, whose expressions are read in `start`, and takes its permission from `left`."""
        sign = self.sign(node)
        if sign == "&&":
            self.consume(node.parts[0], start, left, scene, scale)
            self.consume(node.parts[1], start, left, scene, scale)
        elif sign == "==>":
            if self.value(node.parts[0], start, scene):
                self.consume(node.parts[1], start, left, scene, scale)
        elif sign == "?":
            self.consume(node.parts[1 if self.value(node.parts[0], start, scene) else 2], start, left, scene, scale)
        elif node.kind in ("acc", "call"):
            self.give(node, start, left, scene, scale)
        elif not self.value(node, start, scene):
            raise Fails(scene, node.start, "false", node, start)

    def give(self, node, start, left, scene, scale):
        """Takes what an `acc` or an instance says."""
        inner = node.parts[0] if node.kind == "acc" else node
        is_place = inner.kind == "field"
        thing = self.place(inner, start, scene) if is_place else self.instance(inner, start, scene)
        held = left.held(thing) if is_place else left.held_of(thing)
        if self.is_wildcard(node):
            if held == 0:
                raise Fails(scene, inner.at, "perm", inner, start, left, thing, None)
            much = self.choices.amount(held, self.title(node))
            if not 0 < much < held:
                raise Blocks
        else:
            much = self.amount(node, start, scene)
            if much < 0:
                raise Fails(scene, inner.at, "negative", node, start, left, thing, much)
            much *= scale
            if held < much:
                raise Fails(scene, inner.at, "perm", inner, start, left, thing, much, self.term_of_amount(node))
        if much:
            self.takes.append((thing, much, inner, scene, node))
        (left.hold if is_place else left.hold_of)(thing, held - much)

    def term_of_amount(self, node):
        return node.parts[1] if node.kind == "acc" and len(node.parts) > 1 else None

    def title(self, node):
        """What the amount of a `wildcard` is called."""
        place = "{}:{}".format(*self.source.place(node.at))
        return f"the wildcard amount of {self.source.spelled(node.first, node.last)} at {place}"

    def is_wildcard(self, node):
        return node.kind == "acc" and len(node.parts) > 1 and self.source.said(node.parts[1].at) == "wildcard"

    def produce(self, node, state, scene):
        """Assumes an assertion, and takes up its permission."""
        sign = self.sign(node)
        if sign == "&&":
            self.produce(node.parts[0], state, scene)
            self.produce(node.parts[1], state, scene)
        elif sign == "==>":
            if self.value(node.parts[0], state, scene):
                self.produce(node.parts[1], state, scene)
        elif sign == "?":
            self.produce(node.parts[1 if self.value(node.parts[0], state, scene) else 2], state, scene)
        elif node.kind in ("acc", "call"):
            self.take_up(node, state, scene)
        elif not self.value(node, state, scene):
            raise Blocks

    def take_up(self, node, state, scene):
        inner = node.parts[0] if node.kind == "acc" else node
        is_place = inner.kind == "field"
        thing = self.place(inner, state, scene) if is_place else self.instance(inner, state, scene)
        if self.is_wildcard(node):
            much = self.choices.amount(None, self.title(node))
            if much <= 0:
                raise Blocks
        else:
            much = self.amount(node, state, scene)
            if much < 0:
                raise Fails(scene, inner.at, "negative", node, state, None, thing, much)
        self.gives.append((thing, much, inner, scene, node))
        self.add(thing, much, state, is_place)

    def add(self, thing, much, state, is_place):
        """Holds so much more of a place or an instance."""
        if much == 0:
            return
        if not is_place:
            state.hold_of(thing, state.held_of(thing) + much)
            return
        if thing[1] == 0 or state.held(thing) + much > WRITE:
            raise Blocks
        state.hold(thing, state.held(thing) + much)

    def fill(self, node, content, state, scene, scale):
        """Produces the body of a predicate from a content."""
        sign = self.sign(node)
        if sign == "&&":
            if content[0] != "pair":
                raise Blocks
            self.fill(node.parts[0], content[1], state, scene, scale)
            self.fill(node.parts[1], content[2], state, scene, scale)
        elif sign == "==>" and not self.value(node.parts[0], state, scene):
            self.needs_unit(content)
        elif sign == "==>":
            self.fill(node.parts[1], content, state, scene, scale)
        elif sign == "?":
            self.fill(node.parts[1 if self.value(node.parts[0], state, scene) else 2], content, state, scene, scale)
        elif node.kind in ("acc", "call"):
            self.fill_thing(node, content, state, scene, scale)
        else:
            if not self.value(node, state, scene):
                raise Blocks
            self.needs_unit(content)

    def needs_unit(self, content):
        if content != UNIT:
            raise Blocks

    def fill_thing(self, node, content, state, scene, scale):
        """Produces a place or an instance of a body from a content."""
        inner = node.parts[0] if node.kind == "acc" else node
        is_place = inner.kind == "field"
        thing = self.place(inner, state, scene) if is_place else self.instance(inner, state, scene)
        much = self.amount(node, state, scene)
        if much < 0:
            raise Fails(scene, inner.at, "negative", node, state, None, thing, much)
        if much == 0:
            self.needs_unit(content)
            return
        if is_place:
            self.fill_place(thing, content, state)
        elif state.held_of(thing) == 0:
            state.fill(thing, content)
        elif state.inside(thing) != content:
            raise Blocks
        self.gives.append((thing, much * scale, inner, scene, node))
        self.add(thing, much * scale, state, is_place)

    def fill_place(self, place, content, state):
        if place[1] == 0 or content[0] != "leaf" or content[1] != LEAVES[self.types[place[0]]]:
            raise Blocks
        value = Ref(content[2]) if content[1] == "Ref" else content[2]
        if state.held(place) == 0:
            state.put(place, value)
        elif state.value(place) != value:
            raise Blocks
