"""What the program finds of the labels of a unit: which ones it refutes, and values at which others fail.

Nothing of it is trusted: a walk at the values has to fail at a label, and the program confirms its run."""
from typing import Dict, FrozenSet, List, NamedTuple

from .boogie_text import NotAsWritten
from .run_files import parsed
from .smaller import Values


WORDS = REFUTED, OPEN, VALUES = ("refuted", "open", "values")


class Found(NamedTuple):
    """`labels` are those of a unit in the order of the text, `refuted` those of them that cannot fail, and `values` has values at which
    others fail. The rest is open."""
    labels: List[str]
    refuted: FrozenSet[str]
    values: Dict[str, Values]


def words_of(text) -> Dict[str, str]:
    """What a text says of each label of a unit: that it is refuted or open, or that there are values."""
    lines = [it.partition(" ") for it in text.splitlines()[1:]]
    return {label: word for word, _, label in lines if word in WORDS}


def types_of(procedure):
    """The types of the variables of conditions: of the locals, and then of each `havoc` and each `if (*)` in the order of the text."""
    found = list(procedure.locals.values())

    def add(block):
        for stmt in block:
            if stmt[0] == "havoc":
                found.append(procedure.locals[stmt[1]])
            elif stmt[0] == "if":
                if stmt[1] is None:
                    found.append(((), "bool"))
                add(stmt[2])
                add(stmt[3])

    add(procedure.body)
    return found


def read_found(text, types) -> Found:
    """What a text says of a unit whose variables have these types."""
    labels, refuted, values, last = [], [], {}, None
    for line in text.splitlines()[1:]:
        word, _, rest = line.partition(" ")
        if word in WORDS:
            labels.append(rest)
            last = None
        if word == REFUTED:
            refuted.append(rest)
        elif word == VALUES:
            last = values[rest] = Values(types, {}, {})
        elif word != OPEN:
            take(line, last)
    return Found(labels, frozenset(refuted), {label: renumbered(it) for label, it in values.items()})


def take(line, values):
    """Takes a line `vN := VALUE` or `vN[KEY, ..] := VALUE`."""
    try:
        place, _, value = line.partition(" := ")
        name, _, keys = place.partition("[")
        number = int(name[1:]) - 1
        if keys:
            key = tuple([parsed(it.split()) for it in keys[:-1].split(", ")])
            values.tables.setdefault(number, {})[key] = parsed(value.split())
        else:
            values.scalars[number] = parsed(value.split())
    except (AttributeError, IndexError, TypeError, ValueError):
        raise NotAsWritten(f"values says {line[:60]}") from None


def renumbered(values) -> Values:
    """The same values with other numbers for references: 1, 2 and so on, in the order of the variables that have them."""
    numbers = {0: 0}

    def scalar(value, base):
        return numbers.setdefault(value, len(numbers)) if base == "Ref" else content(value) if base == "Snap" else value

    def content(value):
        if value[0] == "pair":
            return ("pair", content(value[1]), content(value[2]))
        return ("leaf", value[1], scalar(value[2], value[1])) if value[0] == "leaf" else value

    scalars = {n: scalar(it, values.types[n][1]) for n, it in sorted(values.scalars.items())}
    tables = {}
    for n, table in sorted(values.tables.items()):
        keys, base = values.types[n]
        tables[n] = {tuple(map(scalar, key, keys)): scalar(it, base) for key, it in table.items()}
    return Values(values.types, scalars, tables)
