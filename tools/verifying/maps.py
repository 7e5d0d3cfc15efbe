"""Maps as what was done to them: a map of which nothing is known, or that is zero, and then changes, the last on top.

So what is read of a map at a key is a choice between what was put there, by which keys are equal, and no map is left in what z3 is
asked. Permissions are sums, for each key so much: what was taken away again leaves nothing, whatever else may be equal to the key."""


class Outside:
    """A map of which nothing is known: a variable of the conditions, as a function of its keys."""

    __slots__ = ("name", "base")
    below, depth = None, 0

    def __init__(self, name, base):
        self.name, self.base = name, base


class Sums:
    """A map that is zero, but for an amount at each of some keys; amounts at equal keys add up."""

    __slots__ = ("base", "amounts")
    below, depth = None, 0

    def __init__(self, base, amounts=None):
        self.base, self.amounts = base, amounts or {}


class Change:
    """A map that was changed, under a condition."""

    __slots__ = ("below", "depth", "base", "guard")

    def __init__(self, below, guard):
        self.below, self.depth, self.base, self.guard = below, below.depth + 1, below.base, guard


class Put(Change):
    """A map with another value at a key."""

    __slots__ = ("key", "value")

    def __init__(self, below, guard, key, value):
        super().__init__(below, guard)
        self.key, self.value = key, value

    def again(self, below, guard):
        return Put(below, guard, self.key, self.value)


class Frame(Change):
    """A map that has any values where a map of permissions is zero, and else its old ones."""

    __slots__ = ("held", "name")

    def __init__(self, below, guard, held, name):
        super().__init__(below, guard)
        self.held, self.name = held, name

    def again(self, below, guard):
        return Frame(below, guard, self.held, self.name)


class Instead(Change):
    """Another map."""

    __slots__ = ("other",)

    def __init__(self, below, guard, other):
        super().__init__(below, guard)
        self.other = other

    def again(self, below, guard):
        return Instead(below, guard, self.other)


class Left(Exception):
    """A map is read as one of which nothing is known, where a path that was left says what it is."""


class Maps:
    """Reads and changes maps with the terms of a logic. `told` are the maps of which some path says what they are."""

    def __init__(self, logic):
        self.logic, self.told = logic, set()

    def same_key(self, key, other):
        if len(key) == 1:
            return self.logic.equal(key[0], other[0])
        return self.logic.all([self.logic.equal(a, b) for a, b in zip(key, other)])

    def read(self, it, key):
        """The value of a map at a key."""
        logic, found = self.logic, []
        key = tuple([logic.now(part) for part in key])
        while it.below is not None:
            guard = logic.now(it.guard)
            if guard is not logic.false:
                condition, value = self.top(it, guard, key)
                if condition is logic.true:
                    break
                if condition is not logic.false:
                    found.append((condition, value))
            it = it.below
        else:
            value = self.bottom(it, key)
        for condition, its in reversed(found):
            value = logic.choice(condition, its, value)
        return logic.now(value)

    def top(self, it, guard, key):
        """When the last change of a map decides its value at a key, and that value."""
        logic = self.logic
        if isinstance(it, Put):
            return logic.all([guard, self.same_key(key, it.key)]), it.value
        if isinstance(it, Instead):
            return guard, self.read(it.other, key)
        free = logic.equal(self.read(it.held, key), logic.zero[it.held.base])
        return logic.all([guard, free]), logic.make("apply", it.name, key, it.base)

    def bottom(self, it, key):
        logic = self.logic
        if isinstance(it, Outside):
            if it.name in self.told:
                raise Left(it.name)
            return logic.make("apply", it.name, key, it.base)
        total = {}
        const = 0
        for its_key, amount in it.amounts.items():
            part = logic.choice(self.same_key(key, its_key), logic.now(amount), logic.zero[it.base])
            const = logic.into(total, const, 1, part)
        return logic.summed(const, total, it.base)

    def put(self, it, key, value):
        """A map with another value at a key."""
        logic = self.logic
        if isinstance(it, Sums):
            old = self.read(it, key)
            if old.op == "number" or value.op != "number":
                return self.add(it, key, logic.add(value, old, -1))
        return Put(it, logic.true, tuple([logic.now(part) for part in key]), value)

    def add(self, it, key, amount):
        """A sum with so much more at a key, or with less."""
        logic = self.logic
        key = tuple([logic.now(part) for part in key])
        amounts = dict(it.amounts)
        at = key if key in amounts else next((its for its in amounts if self.same_key(key, its) is logic.true), key)
        amount = logic.add(logic.now(amounts.get(at, logic.zero[it.base])), amount)
        if amount is logic.zero[it.base]:
            amounts.pop(at, None)
        else:
            amounts[at] = amount
        return Sums(it.base, amounts)

    def now(self, it):
        """A map with what is known now of its amounts."""
        if not isinstance(it, Sums):
            return it
        amounts = {key: self.logic.now(amount) for key, amount in it.amounts.items()}
        if all([a is b for a, b in zip(amounts.values(), it.amounts.values())]):
            return it
        return Sums(it.base, {key: amount for key, amount in amounts.items() if amount is not self.logic.zero[it.base]})

    def chosen(self, condition, a, b):
        """One map where a condition is true, and else another."""
        logic = self.logic
        condition = logic.now(condition)
        if a is b or condition is logic.true:
            return a
        if condition is logic.false:
            return b
        if isinstance(a, Sums) and isinstance(b, Sums):
            return self.chosen_sums(condition, a, b)
        ours, theirs, common = self.until_common(a, b)
        if common is None:
            return Instead(b, condition, a)
        for it in reversed(theirs):
            common = it.again(common, logic.all([logic.negated(condition), it.guard]))
        for it in reversed(ours):
            common = it.again(common, logic.all([condition, it.guard]))
        return common

    def until_common(self, a, b):
        """The changes of two maps down to the map below that both have; that is None where they have none."""
        ours, theirs = [], []
        while a is not b:
            if a.depth >= b.depth:
                if a.below is None:
                    return ours, theirs, None
                ours.append(a)
                a = a.below
            else:
                theirs.append(b)
                b = b.below
        return ours, theirs, a

    def chosen_sums(self, condition, a, b):
        """One sum or another. Where an amount stands at one key or at another, it stands at the one that is chosen."""
        logic, zero = self.logic, self.logic.zero[a.base]
        pairs = self.pairs(a.amounts, b.amounts)
        paired = set(pairs.values())
        amounts = {}
        for key in {**a.amounts, **b.amounts}:
            if key in pairs:
                at = tuple([logic.choice(condition, one, other) for one, other in zip(key, pairs[key])])
                amounts[at] = logic.add(a.amounts[key], amounts.get(at, zero))
            elif key not in paired:
                amount = logic.choice(condition, a.amounts.get(key, zero), b.amounts.get(key, zero))
                amounts[key] = logic.add(amount, amounts.get(key, zero))
        return Sums(a.base, {key: amount for key, amount in amounts.items() if amount is not zero})

    def pairs(self, ours, theirs):
        """For keys that only one side has those of the other side with the same amounts, in order."""
        free = {}
        for key, amount in theirs.items():
            if key not in ours:
                free.setdefault(amount, []).append(key)
        found = {}
        for key, amount in ours.items():
            if key not in theirs and free.get(amount):
                found[key] = free[amount].pop(0)
        return found
