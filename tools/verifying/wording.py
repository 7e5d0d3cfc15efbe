"""Terms of a file with the values of their parts."""
from .meaning import Blocks, Fails
from .stand_ins import Spelling
from .terms import LITERALS
from .values import word

COMPARISONS = ("==", "!=", "<", "<=", ">", ">=")


class Atom:
    """A part of a term that has a value of its own: a variable, a place, or a place in the old state, which has a value `now` too. Its
    node is read in `scene` and `state`."""

    __slots__ = ("text", "value", "node", "state", "scene", "now", "is_old")

    def __init__(self, text, value, node, state, scene, now_, is_old):
        self.text, self.value, self.node, self.state, self.scene, self.now, self.is_old = text, value, node, state, scene, now_, is_old


class Atoms:
    """Finds the atoms of a term that were looked at, from left to right, each once. For a parameter of a contract or a body it finds
    those of the argument that stands for it."""

    def __init__(self, meaning):
        self.meaning, self.spelling, self.found, self.present = meaning, Spelling(meaning.source), {}, None

    def of(self, node, state, scene, is_old=False):
        self.present = state
        self.look(node, state, scene, is_old)
        return list(self.found.values())

    def look(self, node, state, scene, is_old):
        """Looks at a term as evaluating does."""
        kind, sign, parts = node.kind, self.meaning.sign(node), node.parts
        if kind in ("leaf", "field"):
            self.atom(node, state, scene, is_old)
        elif kind == "old":
            self.look(parts[0], scene.old, scene, True)
        elif kind == "unfolding":
            opened = self.meaning.opened(node, state, scene)
            if opened is not None:
                self.look(parts[1], opened, scene, is_old)
        elif kind == "choice":
            self.look(parts[0], state, scene, is_old)
            self.look(parts[1 if self.value(parts[0], state, scene) else 2], state, scene, is_old)
        elif kind == "binary":
            self.look(parts[0], state, scene, is_old)
            left = self.value(parts[0], state, scene) if sign in ("&&", "||", "==>") else None
            if left is None or left == (sign != "||"):
                self.look(parts[1], state, scene, is_old)
        else:
            for it in parts:
                self.look(it, state, scene, is_old)

    def value(self, node, state, scene):
        try:
            return self.meaning.value(node, state, scene)
        except (Fails, Blocks):
            return None

    def atom(self, node, state, scene, is_old):
        said = self.meaning.source.said(node.at)
        if node.kind == "leaf" and (said in LITERALS or said.isdigit()):
            return
        stands = scene.given.get(said) if node.kind == "leaf" else None
        if stands is not None and not isinstance(stands, str):
            self.look(stands, scene.before or state, scene.around, False)
            return
        value = self.value(node, state, scene)
        if value is not None:
            text, is_old = self.spelling.of(node, scene), is_old and node.kind == "field"
            now_ = self.value(node, self.present, scene) if is_old else None
            text = f"old({text})" if is_old else text
            self.found.setdefault(text, Atom(text, value, node, state, scene, now_, is_old))


def narrowed(meaning, node, state, scene):
    """The part of a false condition that decides it, with the state in which it is read, and whether that is the old one."""
    is_old = False
    while True:
        sign = meaning.sign(node)
        if node.kind == "unfolding":
            node, state = node.parts[1], meaning.opened(node, state, scene)
        elif node.kind == "old":
            node, state, is_old = node.parts[0], scene.old, True
        elif sign == "&&":
            node = node.parts[1 if meaning.value(node.parts[0], state, scene) else 0]
        elif sign == "==>":
            node = node.parts[1]
        elif sign == "?":
            node = node.parts[1 if meaning.value(node.parts[0], state, scene) else 2]
        else:
            return node, state, is_old


def compared(meaning, node, state, scene):
    """A false condition with the values of its sides, as `4 <= 3`; or what is known of it otherwise."""
    sign = meaning.sign(node)
    if sign in COMPARISONS:
        left, right = [meaning.value(it, state, scene) for it in node.parts]
        return f"{word(left)} {sign} {word(right)}"
    if sign == "||":
        sides = [narrowed(meaning, it, state, scene) for it in node.parts]
        return " || ".join([compared(meaning, *it[:2], scene) for it in sides])
    if sign == "<==>":
        return " <==> ".join([word(meaning.value(it, state, scene)) for it in node.parts])
    if sign == "!":
        return f"{Spelling(meaning.source).of(node.parts[0], scene)} is true"
    return f"{Spelling(meaning.source).of(node, scene)} is false"


def valued(atoms):
    """Atoms with their values, as `a.f = 1, old(b.f) = 0 (now 2)`: the present value stands beside one of the old state, if it is another."""
    present = {it.text for it in atoms}
    return ", ".join([f"{it.text} = {word(it.value)}{now(it, present)}" for it in atoms])


def now(atom, present):
    """The present value of an atom of the old state, where that is another and is not told beside it."""
    if atom.now is None or atom.now == atom.value or atom.text[len("old("):-1] in present:
        return ""
    return f" (now {word(atom.now)})"
