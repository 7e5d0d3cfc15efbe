"""The conditions of a procedure: what has to be true of its variables for a run to fail, for all of its assertions at once.

Conditions are variables (the locals of the procedure, and then one for each `havoc` and each `if (*)` in the order of the text),
definitions over these and over each other, and for each assertion the definition that says that it fails. So values of the
variables make one of these true exactly where the run that they tell of fails there. That is proved of the text that the program
`conditions` writes, which is read here; the text of a formula that `vc` writes is one, with a goal in place of the assertions."""
from typing import Dict, List, Tuple

from .boogie_text import NotAsWritten, Reader, Type, tokens_of


class Conditions:
    """`vars` has the type of each variable, `lets` the name and the expression of each definition, and `fails` the label of each
    assertion and the name of the definition that says that it fails."""

    def __init__(self):
        self.vars: Dict[str, Type] = {}
        self.lets: List[Tuple[str, tuple]] = []
        self.fails: List[Tuple[str, str]] = []


def read_conditions(text: str) -> Conditions:
    """The conditions that a text spells. The goal of a formula of `vc` is an assertion without a label, which fails where it is false."""
    found = Conditions()
    for line in text.splitlines()[1:]:
        word, _, rest = line.partition(" ")
        if word == "fails":
            label, _, name = rest.rpartition(" ")
            found.fails.append((label, name))
            continue
        reader = Reader(tokens_of(rest))
        if word == "var":
            name = reader.next()
            reader.need(":")
            found.vars[name] = reader.type()
        elif word == "let":
            name = reader.next()
            reader.need(":=")
            found.lets.append((name, reader.expression()))
        elif word == "goal":
            found.lets.append(("goal", ("not", reader.expression())))
            found.fails.append(("", "goal"))
        else:
            raise NotAsWritten(f"no variable, definition, assertion or goal: {line[:60]}")
        if reader.tokens[reader.at]:
            raise NotAsWritten(f"more than a line should have: {reader.tokens[reader.at]}")
    if not found.fails and not text.startswith("conditions "):
        raise NotAsWritten("a formula has a goal")
    return found
