"""The conditions of a procedure, as the command `conditions` of `prove` writes them: for tests, which need no program."""
from verifying.boogie_text import Procedure
from verifying.conditions import Conditions

TRUE = ("bool", True)
BOOL = ((), "bool")


def conditions_of(procedure: Procedure) -> Conditions:
    """The conditions of a procedure."""
    return Builder(procedure).found


class Builder:
    """Goes through a procedure once. `now` has the name of the value of each local, and `before` what it had at the begin of the
    block at work, for those that the block changed."""

    def __init__(self, procedure):
        self.found, self.locals = Conditions(), procedure.locals
        self.now = {name: self.var(ty) for name, ty in procedure.locals.items()}
        self.before = {}
        self.path = self.let(TRUE)
        self.block(procedure.body)

    def var(self, ty):
        name = f"v{len(self.found.vars) + 1}"
        self.found.vars[name] = ty
        return name

    def let(self, e):
        name = f"d{len(self.found.lets) + 1}"
        self.found.lets.append((name, e))
        return name

    def both(self, path, e):
        return self.let(("bin", "&&", ("name", path), e))

    def set(self, local, name):
        self.before.setdefault(local, self.now[local])
        self.now[local] = name

    def read(self, e):
        """An expression of the procedure, over the names of the values of its locals."""
        kind = e[0]
        if kind == "name":
            return ("name", self.now.get(e[1], e[1]))
        if kind == "bin":
            return ("bin", e[1], self.read(e[2]), self.read(e[3]))
        if kind == "at":
            return ("at", self.now[e[1]], tuple([self.read(it) for it in e[2]]))
        if kind == "con":
            return ("con", e[1], tuple([self.read(it) for it in e[2]]))
        if kind == "not" or kind == "neg" or kind == "toreal":
            return (kind, self.read(e[1]))
        if kind == "if":
            return ("if", self.read(e[1]), self.read(e[2]), self.read(e[3]))
        if kind == "forall":
            return self.quantified(e)
        return e

    def quantified(self, e):
        hidden = {name: self.now.pop(name) for name, _ in e[1] if name in self.now}
        body = self.read(e[2])
        self.now.update(hidden)
        return ("forall", e[1], body)

    def block(self, block):
        for stmt in block:
            kind = stmt[0]
            if kind == "assign":
                self.set(stmt[1], self.let(self.read(stmt[2])))
            elif kind == "put":
                keys = tuple([self.read(it) for it in stmt[2]])
                self.set(stmt[1], self.let(("with", self.now[stmt[1]], keys, self.read(stmt[3]))))
            elif kind == "havoc":
                self.set(stmt[1], self.var(self.locals[stmt[1]]))
            elif kind == "assume":
                self.path = self.both(self.path, ("name", self.let(self.read(stmt[1]))))
            elif kind == "assert":
                holds = ("name", self.let(self.read(stmt[2])))
                self.found.fails.append((stmt[1], self.both(self.path, ("not", holds))))
                self.path = self.both(self.path, holds)
            else:
                self.branch(stmt)

    def branch(self, stmt):
        condition = ("name", self.var(BOOL) if stmt[1] is None else self.let(self.read(stmt[1])))
        path, outer = self.path, self.before
        self.path = self.both(path, condition)
        ours = self.inner(stmt[2])
        then = self.path
        self.path = self.both(path, ("not", condition))
        theirs = self.inner(stmt[3])
        self.path = self.let(("bin", "||", ("name", then), ("name", self.path)))
        self.before = outer
        for local in {**ours, **theirs}:
            old = self.now[local]
            values = (("name", ours.get(local, old)), ("name", theirs.get(local, old)))
            if values[0] != values[1]:
                self.set(local, self.let(("if", condition, *values)))

    def inner(self, block):
        """The values of the locals that a block changes; behind it all locals are as before."""
        self.before = {}
        self.block(block)
        changed = {local: self.now[local] for local in self.before}
        self.now.update(self.before)
        return changed
