"""What an assertion does not give: the parts that stand under a condition that is false, and those of an amount that is 0."""
from .meaning import Blocks, Fails
from .stand_ins import Spelling
from .terms import nodes_of


class Withheld:
    """Looks for what an assertion does not give in a state that it holds in."""

    def __init__(self, meaning, state, scene):
        self.meaning, self.state, self.scene, self.spelling = meaning, state, scene, Spelling(meaning.source)

    def of(self, node):
        """The parts that give nothing, each with why: `owned is false`, `p is 0`."""
        found, todo = [], [node]
        while todo:
            it = todo.pop()
            sign = self.meaning.sign(it)
            if sign == "&&":
                todo += reversed(it.parts)
            elif sign in ("==>", "?"):
                holds = self.value(it.parts[0])
                chosen, other = (it.parts[1], it.parts[2:]) if holds else (it.parts[2] if sign == "?" else None, it.parts[1:2])
                if holds is None:
                    continue
                found += [(part, self.is_(it.parts[0], holds)) for side in other for part in self.parts(side)]
                todo += [chosen] if chosen is not None else []
            elif it.kind == "acc" and len(it.parts) > 1 and not self.meaning.is_wildcard(it) and self.value(it.parts[1]) == 0:
                found.append((it, f"{self.spelling.of(it.parts[1], self.scene)} is 0"))
        return found

    def is_(self, node, value):
        """That a condition has a value."""
        sides = [self.spelling.of(it, self.scene) for it in node.parts]
        if self.meaning.sign(node) in ("==", "!=") and "null" in sides[1:]:
            return f"{sides[0]} is {'' if value == (self.meaning.sign(node) == '==') else 'not '}null"
        return f"{self.spelling.of(node, self.scene)} is {'true' if value else 'false'}"

    def parts(self, node):
        """What an assertion may give."""
        nodes = list(nodes_of(node))
        return [it for it, around in nodes if it.kind == "acc" or it.kind == "call" and (around is None or around.kind not in ("acc", "unfolding"))]

    def value(self, node):
        try:
            return self.meaning.value(node, self.state, self.scene)
        except (Fails, Blocks):
            return None
