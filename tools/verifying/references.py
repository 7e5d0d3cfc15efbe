"""What references are called where a run is told: by the variables that have them."""
from .contents import spelled
from .values import Ref, word


class Names:
    """What references are called at a moment: by the variables that have them, those first that are named first."""

    def __init__(self, variables, first=()):
        self.of = {}
        for name in [*first, *variables]:
            value = variables.get(name)
            if isinstance(value, Ref) and value != 0:
                self.of.setdefault(value, name)

    def __call__(self, value):
        return self.of.get(value) or word(value)

    def place(self, place):
        return f"{self(place[1])}.{place[0]}"

    def thing(self, kind, thing):
        return self.place(thing) if kind == "place" else spelled(thing, self)

    def value(self, value):
        return self(value) if isinstance(value, Ref) else word(value)


def aliases(values, more=None):
    """Variables with their values: those that are one object are told as such. `more` has what is told of some behind the value."""
    groups, more = {}, more or {}
    for name, value in values:
        groups.setdefault(value if isinstance(value, Ref) and value != 0 else name, []).append((name, value))
    return [" = ".join([name for name, _ in group]) + f" = {word(group[0][1])}" + "".join([f" ({more[name]})" for name, _ in group if name in more][:1])
            for group in groups.values()]
