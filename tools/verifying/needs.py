"""What a step needed and what was held, where a run fails: lines below the message."""
from .lacking import Lacking
from .values import Ref, word
from .wording import Atoms, compared, narrowed, valued

NOT_HELD = (", and might not be held in full", ", and might not be held")


class Needs(Lacking):
    """Reads a run that failed: `told` has the lines."""

    def told(self):
        """The lines."""
        kind = self.fault.kind
        if kind == "perm":
            return self.permission()
        if kind == "false":
            return self.condition()
        if kind == "null":
            return self.null()
        return self.number(self.fault.node.parts[1])

    def null(self):
        """A reference that is null."""
        receiver = self.fault.node.parts[0]
        said = f"{self.text(receiver)} is null"
        return [said, *self.origins.of(self.atoms(receiver))]

    def number(self, node):
        """A divisor that is 0, or an amount."""
        said = f"{self.text(node)} is {word(self.meaning.value(node, self.fault.state, self.fault.scene))}"
        values = valued([it for it in self.atoms(node) if it.text != self.text(node)])
        return [f"{said}: {values}" if values else said, *self.origins.of(self.atoms(node))]

    def condition(self):
        """A condition that is false."""
        fault = self.fault
        node, state, is_old = narrowed(self.meaning, fault.node, fault.state, fault.scene)
        atoms = Atoms(self.meaning).of(node, state, fault.scene, is_old)
        short, text = compared(self.meaning, node, state, fault.scene), self.text(node)
        if self.meaning.sign(node) == "!=" and isinstance(self.meaning.value(node.parts[0], state, fault.scene), Ref):
            return [f"`{text}` is {short}: {self.one_name(node, state)}", *self.origins.of(atoms)]
        is_plain = short == f"{text} is false" or short == f"{text[1:]} is true"
        first = short if is_plain else f"`{f'old({text})' if is_old else text}` is {short}"
        sides = [self.text(it) for it in node.parts]
        if not is_plain and any([it.text not in sides or it.is_old for it in atoms]):
            first += f": {valued(atoms)}"
        return [first, *self.present(atoms), *self.origins.of(atoms)]

    def one_name(self, node, state):
        """That two references are one."""
        left, right = (self.text(it) for it in node.parts)
        if self.meaning.value(node.parts[0], state, self.fault.scene) == 0:
            return f"{left if right == 'null' else right} is null" if "null" in (left, right) else f"{left} and {right} are null"
        return f"{left} and {right} are one object"

    def present(self, atoms):
        """That a place of the old state is that of a variable that has another value now than it had then."""
        found, before = [], self.steps[0].after.vars
        for it in atoms:
            leaf = it.node
            while leaf.kind == "field":
                leaf = leaf.parts[0]
            name = self.source.said(leaf.at)
            value = self.running.vars.get(name)
            if it.is_old and self.fault.scene.around is None and leaf.kind == "leaf" and before.get(name) != value and value is not None:
                found.append(f"in {it.text}, {name} has its present value {word(value)}: only the fields are old")
        return found

    def message(self, said):
        """What is told of the label, where the run says more: that what is read or written is inside of an instance."""
        around = self.around(True) if self.fault.kind == "perm" and isinstance(self.fault.thing[1], int) else []
        for it in NOT_HELD:
            if around and said.endswith(it):
                return f"{said[:-len(it)]} while it is inside `{around[0]}`"
        return said
