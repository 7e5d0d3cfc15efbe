"""Terms of the logic that z3 is asked in, and the facts that hold on the path at work.

Facts are what the path to a place assumes: conditions that are true, terms that are equal or differ, bounds of numbers. They hold
until `undo`."""


class Term:
    """`op` is number, name, apply, bound, if, and, or, not, path, =, ge0, gt0, eq0, sum, *, div, mod, /, real, con or forall; `data` is
    what is no term of it; `open` tells whether a name stands in it that a `forall` around it binds."""

    __slots__ = ("number", "op", "data", "args", "sort", "open")

    def __init__(self, number, op, data, args, sort, open_):
        self.number, self.op, self.data, self.args, self.sort, self.open = number, op, data, args, sort, open_


class Facts:
    """What the path at work assumes: `known` has conditions and their values, `next` a term that is equal and stands for a term,
    `apart` the terms that differ from a term, `low` and `high` the bounds of numbers, each with whether it is strict, `under` what
    else holds where a condition has a value. `trail` tells how to undo what was learned."""

    def __init__(self):
        self.known, self.next, self.apart, self.low, self.high, self.under = {}, {}, {}, {}, {}, {}
        self.trail = []
        self.version, self.unknown = 0, {}  # facts that are others have another version; what had no value under a version

    def set(self, table, key, value):
        self.version += 1
        self.trail.append((table, key, table.get(key)))
        table[key] = value

    def keep(self, table, key, value):
        """Keeps what follows from the facts, which are no others by that."""
        self.trail.append((table, key, table.get(key)))
        table[key] = value

    def undo(self, mark):
        """Forgets what was learned since the trail was so long."""
        trail = self.trail
        self.version += 1
        while len(trail) > mark:
            table, key, old = trail.pop()
            if old is None:
                del table[key]
            else:
                table[key] = old

    def find(self, term):
        """The term that stands for all that are equal to a term."""
        above = self.next.get(term)
        while above is not None:
            term, above = above, self.next.get(above)
        return term
