"""What is told of a run that fails: its steps, what was needed, the run file with a comment for each choice, and where it fails.

All of it comes of running the unit once more here. Where that ends otherwise than the proved interpreter says, only the run is told."""
from fractions import Fraction

from .believing import unopened
from .contents import content_words
from .needs import Needs
from .references import Names, aliases
from .running import rerun
from .trace import LONGEST, Trace, instance_data, lines, spelled_place
from .values import amount, word

ALL = 1 << 40   # no content is so long


class Retold:
    """A run of a unit of Viper that fails at a label."""

    def __init__(self, source, run, label):
        self.source, self.run, again = source, run, rerun(source, run)
        self.titles = again.choices.titles
        self.again = again if again.how == "failed" and again.label() == label else None
        found = Needs(again) if self.again else None
        self.lines_of_needs = found.told() if found else []
        self.message = found.message if found else lambda said: said

    def needs(self):
        """What was needed and what was held, a line each."""
        return self.lines_of_needs + ([unopened(self.again)] if self.again and unopened(self.again) else [])

    def heading(self):
        """What stands above the steps."""
        step = self.again.steps[-1] if self.again else None
        checked = {"body": "the body", "requires": "the precondition", "ensures": "the postcondition"}.get(step.kind if step else "")
        return f"Checking {checked} of `{self.run.unit}` fails there:" if checked else f"This run of `{self.run.unit}` fails there:"

    def rows(self):
        """The steps of the run."""
        return Trace(self.again).rows(True) if self.again else []

    def lines(self, whole):
        """The steps of the run for people."""
        return lines(Trace(self.again).rows(False), whole) if self.again else []

    def run_file(self):
        """The run file, with a comment in front of each choice."""
        found = list(self.run.choices[0])
        for n, choice in enumerate(self.run.choices[1:]):
            words = self.titles[n] if n < len(self.titles) else "not taken"
            found += [f"// {words}", *choice] if self.again else choice
        return "".join([f"{it}\n" for it in found])

    # ---- where it fails

    def moment(self):
        """The state before the failing step, with the values of the variables that are visible there."""
        step = self.again.steps[-1]
        return step.before.state, self.again.visible(step)

    def state_data(self):
        """The state where it fails, as data."""
        if self.again is None:
            return []
        state, variables = self.moment()
        found = [{"variable": name, "value": fraction(value)} for name, value in variables.items()]
        found += [{"place": spelled_place(it), "held": fraction(held), "value": fraction(state.value(it))} for it, held in self.places(state)]
        for it, held in state.instances():
            content = content_words(self.again.meaning, it, state.inside(it), word, ALL)
            found.append({**instance_data(it), "held": fraction(held), "content": content[1:-1]})
        return found

    def places(self, state):
        """The places that are held, by references and then by the order of the fields."""
        order = {name: n for n, name in enumerate(self.again.meaning.types)}
        return sorted(state.places(), key=lambda it: (it[0][1], order[it[0][0]]))

    def state_lines(self, whole):
        """The state where it fails, for people, if it does not stand in the steps that are shown."""
        if self.again is None or whole or len(self.lines(True)) <= LONGEST:
            return []
        state, variables = self.moment()
        names = Names(variables)
        found = [", ".join(aliases(variables.items()))] if variables else []
        found += [f"{names.place(it)} = {names.value(state.value(it))}, {amount(held)}" for it, held in self.places(state)]
        for it, held in state.instances():
            inside = content_words(self.again.meaning, it, state.inside(it), names)
            found.append(f"{names.thing('instance', it)}{' ' + inside if inside else ''}{'' if held == 1 else f', {amount(held)}'}")
        return found


def fraction(value):
    """A value as a run file has it."""
    found = word(value)
    return f"{found}/1" if isinstance(value, Fraction) and "/" not in found else found
