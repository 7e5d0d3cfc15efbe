"""Run files: that of Boogie of a walk, that of Viper which it comes from, and a walk on what a run file of Boogie says."""
import re
from fractions import Fraction

from .walk import DEFAULTS, Outside, Walk

CONTENTS = ("pair", "leaf", "unit")
FAR = 1 << 62   # references are below 2^64
REFERENCE = re.compile(r"#[0-9]+")


class ViperRun:
    """A run of a unit. `choices` has the lines of the opening, and then those of each choice; `text` is the run file."""

    def __init__(self, unit, choices):
        self.unit, self.choices = unit, choices

    def text(self):
        return "\n".join(line for choice in self.choices for line in choice) + "\n"


def scalar(value, base):
    """The word of a value that is no content."""
    if base == "Ref":   # where references were numbers of z3, one may be negative
        return "null" if value == 0 else f"#{value if value > 0 else FAR - value}"
    if base == "bool":
        return "true" if value else "false"
    if base == "real":
        value = Fraction(value)
        return f"{value.numerator}/{value.denominator}"
    return str(value)


def content(value):
    """The words of a content."""
    words, todo = [], [value]
    while todo:
        it = todo.pop()
        if it[0] == "pair":
            words.append("pair")
            todo += (it[2], it[1])
        elif it[0] == "leaf":
            words += ["leaf", scalar(it[2], it[1])]
        else:
            words.append("unit")
    return " ".join(words)


def spelled(value, base):
    """The words of a value of any base type."""
    return content(value) if base == "Snap" else scalar(value, base)


def places(source, ty, kept=True):
    """The places of a map from outside that were looked at, and have another value than the default: the words of the key, and the
    value. Without `kept` those are left out whose value an assumption decides."""
    keys, base = ty
    found = sorted((key, value) for key, value in source.touched.items() if value != DEFAULTS[base] and (kept or key not in source.kept))
    return [([scalar(part, it) for part, it in zip(key, keys)], spelled(value, base)) for key, value in found]


def boogie_run(walk, all_variables):
    """The run file of Boogie on which the procedure goes as a walk did. Of a unit of Viper, only the variables of its opening are
    set before others are read."""
    procedure = walk.procedure
    lines = [f"boogie run {procedure.name}"]
    for name, (keys, base) in procedure.locals.items():
        value = walk.opening[name]
        if keys:
            at = places(value.source, (keys, base))
            lines += [f"entries {name}"] * bool(at) + [f"at {' '.join(key)} {it}" for key, it in at]
        elif value != DEFAULTS[base] and (all_variables or name.startswith("v$")):
            lines.append(f"var {name} {spelled(value, base)}")
    for it in walk.taken:
        if it.what == "pick":
            lines.append(f"pick {scalar(it.value, 'bool')}")
        elif it.what == "value":
            lines.append(f"value {spelled(it.value, it.base)}")
        else:
            lines.append("entries")
            lines += [f"at {' '.join(key)} {value}" for key, value in places(it.value, procedure.locals[it.local])]
    return "\n".join(lines) + "\n"


def maps_of_state(procedure):
    """The locals of the heap of each field, and of the contents of each predicate: a `state` of Viper fills all of them."""
    return [it for it in procedure.locals if it.startswith("h$")] + [it for it in procedure.locals if it.startswith("c$")]


def memo_lines(maps, procedure, bare, kept):
    """The `heap` and `content` lines of maps from outside, each with its local. `bare` are the predicates without parameters."""
    lines = []
    for name, source in maps:
        word = "heap" if name.startswith("h$") else "content"
        for key, value in places(source, procedure.locals[name], kept):
            if word == "content" and name[2:] in bare:
                if key != ["0"]:
                    continue
                key = []
            lines.append(" ".join([word, name[2:], *key, value]))
    return lines


def viper_run(walk, bare, kept=False):
    """The run of Viper whose moves are the choices of a walk."""
    procedure, names = walk.procedure, maps_of_state(walk.procedure)
    opening = ["viper run"]
    for name, (_, base) in procedure.locals.items():
        if name.startswith("v$") and walk.opening[name] != DEFAULTS[base]:
            opening.append(f"var {name[2:]} {scalar(walk.opening[name], base)}")
    opening += memo_lines([(name, walk.opening[name].source) for name in names], procedure, bare, True)
    choices, maps = [opening], []
    for it in walk.taken:
        if it.kind == "state":
            maps.append((names[len(maps)], it.value))
            if len(maps) == len(names):
                choices.append(["state"] + memo_lines(maps, procedure, bare, kept))
                maps = []
        elif it.kind == "pick":
            choices.append([f"pick {scalar(it.value, 'bool')}"])
        elif it.kind not in ("split", "leaf"):
            choices.append([f"{it.kind} {scalar(it.value, it.base)}"])
    return ViperRun(procedure.name[2:], numbered(choices))


def numbered(choices):
    """The lines of choices with the references numbered in the order in which they appear."""
    new = {}
    return [[REFERENCE.sub(lambda it: f"#{new.setdefault(it[0], len(new) + 1)}", line) for line in lines] for lines in choices]


def with_states(run, says, procedure):
    """Puts `state` in where the run of a program without fields and predicates wants one: there it is no choice of Boogie. `says`
    gives what the program says of a run; the run is returned with what it says last."""
    said = says(run.text())
    if maps_of_state(procedure):
        return run, said
    for _ in range(1000):
        lines = said.splitlines()
        if len(lines) < 2 or lines[0] not in ("// blocked", "// short"):
            break
        unused = int(lines[1].split()[-1])
        at = len(run.choices) - unused - (lines[0] == "// blocked")
        if at < 1 or lines[0] == "// blocked" and run.choices[at] == ["state"]:
            break
        run = ViperRun(run.unit, run.choices[:at] + [["state"]] + run.choices[at:])
        said = says(run.text())
    return run, said


def parsed(words):
    """The value that words spell."""
    stack, leaf = [], None
    for word in reversed(words):
        if word == "unit":
            stack.append(("unit",))
        elif word == "pair":
            stack.append(("pair", stack.pop(), stack.pop()))
        elif word == "leaf":
            stack.append(("leaf", leaf[0], leaf[1]))
        else:
            leaf = word_value(word)
    return stack[0] if stack else leaf[1]


def word_value(word):
    """The base type and the value of a word."""
    if word in ("true", "false"):
        return "bool", word == "true"
    if word == "null":
        return "Ref", 0
    if word.startswith("#"):
        return "Ref", int(word[1:])
    return ("real", Fraction(word)) if "/" in word else ("int", int(word))


def read_back(procedure, text):
    """A walk through a procedure on the settings and choices of a run file of Boogie."""
    settings, choices, filled = {}, [], None
    for line in text.splitlines()[1:]:
        words = line.split()
        if words[0] == "var":
            settings[words[1]] = parsed(words[2:])
        elif words[0] == "entries":
            filled = {}
            if len(words) > 1:
                settings[words[1]] = filled
            else:
                choices.append(filled)
        elif words[0] == "at":
            first = next((n for n, it in enumerate(words) if it in CONTENTS), len(words) - 1)
            filled[tuple([word_value(it)[1] for it in words[1:first]])] = parsed(words[first:])
        else:
            choices.append(parsed(words[1:]))
    return Replay(procedure, settings, choices)


class Short(Exception):
    """A run file has too few choices."""


class Replay(Walk):
    """A walk that takes its choices in the order of a run file."""

    def __init__(self, procedure, settings, choices):
        names = list(procedure.locals.items())

        def start(n):
            name, (keys, base) = names[n]
            found = settings.get(name, {} if keys else DEFAULTS[base])
            return (lambda key: found.get(key, DEFAULTS[base])) if keys else found
        super().__init__(procedure, start)
        self.choices = iter(choices)

    def take(self):
        found = next(self.choices, None)
        if found is None:
            raise Short("the run file has too few choices")
        return found

    def chosen(self, name, keys, base, behind, frame):
        value = self.take()
        return Outside(lambda key: value.get(key, DEFAULTS[base])) if keys else value
