"""The paths of conditions, and the facts that hold on each: what the assumptions of a path say while its definitions are looked at."""


class Path:
    """A path goes on from `above` where its `condition` holds. `term` says that a run comes there, `dead` that none does; `under`
    has what else holds where a condition has a value: what the two ways to a place behind a branch assumed."""

    __slots__ = ("above", "condition", "term", "depth", "mark", "dead", "under")

    def __init__(self, above, condition, term, dead=False, under=()):
        self.above, self.condition, self.term, self.dead, self.under = above, condition, term, dead, under
        self.depth = above.depth + 1 if above else 0
        self.mark = 0   # how long the trail of facts was before this condition was learned


class Paths:
    """Makes paths, and keeps the facts of a logic to those of the path at work."""

    def __init__(self, logic):
        self.logic = logic
        self.first = self.path = Path(None, logic.true, logic.true)

    def narrowed(self, above, condition):
        """The path on which a condition holds besides."""
        logic = self.logic
        if condition is logic.true:
            return above
        dead = above.dead or condition is logic.false
        return Path(above, condition, logic.false if dead else self.both(above.term, condition), dead)

    def both(self, term, condition):
        return condition if term is self.logic.true else self.logic.make("path", None, (term, condition), "bool")

    def move(self, path):
        """Makes the facts those of a path. Where they cannot hold together, no run comes there."""
        down, here, there = [], self.path, path
        while here is not there:
            if here.depth >= there.depth:
                self.logic.facts.undo(here.mark)
                here = here.above
            else:
                down.append(there)
                there = there.above
        for it in reversed(down):
            self.enter(it)
        self.path = path

    def enter(self, path):
        facts = self.logic.facts
        path.mark = len(facts.trail)
        if path.above.dead or not path.dead and not self.logic.learn(path.condition):
            path.dead, path.term = True, self.logic.false
        for condition, truth, others in path.under:
            facts.set(facts.under, (condition, truth), (*facts.under.get((condition, truth), ()), *others))

    def met(self, a, b):
        """The path behind a branch, to which two ways lead."""
        if a.dead or b.dead:
            return b if a.dead else a
        ours, theirs, common = self.until_common(a, b)
        if not ours or not theirs:
            return common
        logic = self.logic
        self.move(common)
        either = logic.negated(ours[0]) is theirs[0]    # the two ways are those of one branch
        if either and len(ours) == len(theirs) == 1:
            return common
        ways = [it[0] if len(it) == 1 else logic.make("and", None, tuple(dict.fromkeys(it)), "bool") for it in (ours, theirs)]
        condition = logic.make("or", None, tuple(ways), "bool")
        under = [self.what_holds(ours), self.what_holds(theirs)] if either else []
        return Path(common, condition, self.both(common.term, condition), False, [it for it in under if it[2]])

    def what_holds(self, way):
        """A way behind a branch: its condition, with its truth, and what holds besides."""
        first = way[0]
        return (first.args[0], False, way[1:]) if first.op == "not" else (first, True, way[1:])

    def until_common(self, a, b):
        """The conditions of two paths in order, down from the path that both go on from, and that path."""
        ours, theirs = [], []
        while a is not b:
            way, it = (ours, a) if a.depth >= b.depth else (theirs, b)
            way.append(it.condition)
            a, b = (it.above, b) if way is ours else (a, it.above)
        return ours[::-1], theirs[::-1], a
