"""What an instance of a predicate contains, told as the places and instances of the predicate's body."""
from .meaning import Blocks, Fails, Scene
from .values import UNIT, WRITE, Ref, State, typed, word

MOST = 400      # the most characters that are told of a content


class Contents:
    """Goes through contents beside the bodies of predicates, from left to right. What a content is too short for is left out."""

    def __init__(self, meaning, name, most=MOST):
        self.meaning, self.name, self.most = meaning, name, most
        self.words, self.length = [], 0

    def say(self, text):
        self.words.append(text)
        self.length += len(text) + 2

    def told(self, instance, content):
        """The words of what an instance contains: `count 3, limit 3`."""
        if self.is_told(instance, content):
            self.open(instance, content, State(self.meaning.types))
        return joined(self.words)

    def is_told(self, instance, content):
        """Whether something can be told of a content: that of a predicate without a body has no form."""
        return content != UNIT and self.meaning.source.declared[instance[0]].brace is not None

    def open(self, instance, content, state):
        """Tells what an instance contains, until that is too long."""
        name, arguments = instance
        if self.length > self.most:
            self.say("..")
            return
        body, names = self.meaning.body(name)
        self.part(body, content, state, Scene(dict(zip(names, arguments)), None, 0))

    def part(self, node, content, state, scene):
        """Tells a part of a body. Where an expression has no value, nothing of it is told."""
        sign = self.meaning.sign(node)
        try:
            if sign == "&&":
                if content[0] == "pair":
                    self.part(node.parts[0], content[1], state, scene)
                    self.part(node.parts[1], content[2], state, scene)
            elif sign == "==>":
                if self.meaning.value(node.parts[0], state, scene):
                    self.part(node.parts[1], content, state, scene)
            elif sign == "?":
                self.part(node.parts[1 if self.meaning.value(node.parts[0], state, scene) else 2], content, state, scene)
            elif node.kind in ("acc", "call") and self.meaning.amount(node, state, scene) > 0:
                self.thing(node.parts[0] if node.kind == "acc" else node, content, state, scene)
        except (Fails, Blocks):
            pass

    def thing(self, node, content, state, scene):
        """Tells a place with its value, or an instance with what it contains."""
        if node.kind == "call":
            self.instance(self.meaning.instance(node, state, scene), content, state)
            return
        place = self.meaning.place(node, state, scene)
        if content[0] != "leaf":
            return
        value = typed(content[1], content[2])
        state.put(place, value)
        state.hold(place, WRITE)
        first = next(iter(scene.vars.values()), None)
        is_own = isinstance(first, Ref) and first == place[1]
        said = self.name(value) if isinstance(value, Ref) else word(value)
        self.say(f"{place[0] if is_own else f'{self.name(place[1])}.{place[0]}'} {said}")

    def instance(self, instance, content, state):
        self.say(spelled(instance, self.name))
        if self.is_told(instance, content):
            self.say("{")
            length = len(self.words)
            self.open(instance, content, state)
            if len(self.words) > length:
                self.say("}")
            else:
                self.words.pop()


def spelled(instance, name):
    """An instance as it is written, with names for references."""
    words = [name(it) if isinstance(it, Ref) else word(it) for it in instance[1]]
    return f"{instance[0]}({', '.join(words)})"


def joined(words):
    """Words with commas between them, but none behind a `{` or before a `}`, and a blank before a `{`."""
    out = ""
    for n, it in enumerate(words):
        before = words[n - 1] if n else "{"
        out += it if it == "}" or before == "{" else f" {it}" if it == "{" else f", {it}"
    return out


def content_words(meaning, instance, content, name=word, most=MOST):
    """What an instance contains, as one line in braces, or nothing. What is longer than the most is cut."""
    told = Contents(meaning, name, most).told(instance, content).strip()
    return f"{{{told}}}" if told else ""
