"""Terms of a contract or a body as they are read at a place that uses it: with what stands there for the parameters."""
from .terms import nodes_of

TIGHT = ("leaf", "field", "call", "old", "none")
MOST = 80   # the most characters of a term that is spelled


class StandIns:
    """What stands for the parameters of a contract or a body: terms, or the names of targets, which are read in the scene `around`."""

    __slots__ = ("given", "around")

    def __init__(self, given, around=None):
        self.given, self.around = given, around


class Spelling:
    """Spells terms as they are read in a scene: a parameter of a contract or of a body as the argument that stands for it."""

    def __init__(self, source):
        self.source = source

    def of(self, node, scene, most=MOST):
        """The text of a term, without the brackets around it."""
        first, last = node.first, node.last
        while first < last and self.source.said(first) == "(" and self.source.closing.get(first) == last:
            first, last = first + 1, last - 1
        others = self.replaced(node, scene)
        text, before = "", None
        for n in range(first, last + 1):
            it = self.source.tokens[n]
            gap = " " if before is not None and it.start > before else ""
            text += gap + others.get(n, it.text)
            before = it.end
            if len(text) > most:
                return text[:most].rstrip() + " .."
        return text

    def replaced(self, node, scene):
        """What stands for the variables of a term, by their tokens."""
        found = {}
        for it, around in nodes_of(node) if scene is not None and scene.given else ():
            stands = scene.given.get(self.source.said(it.at)) if it.kind == "leaf" else None
            if isinstance(stands, str):
                found[it.at] = stands
            elif stands is not None:
                text = self.of(stands, scene.around)
                is_alone = stands.kind in TIGHT or around is None or around.kind == "call"
                found[it.at] = text if is_alone else f"({text})"
        return found
