"""A failing run as it is shown to people, step by step: the same for a page, an editor and a report of SARIF.

It is read off what is told of a label: its trace, or, where there is none, the state in which it fails as the one step."""
import re
from typing import List, NamedTuple, Optional


class Place(NamedTuple):
    """A field of an object, how much of it is held, and its value. Of a place that is not held the value may be none."""
    object: str
    field: str
    held: str
    value: str


class Instance(NamedTuple):
    """An instance of a predicate, how much of it is held, and what it contains."""
    predicate: str
    arguments: List[str]
    held: str
    content: str

    def words(self):
        return f"{self.predicate}({', '.join(self.arguments)})"


class Step(NamedTuple):
    """A step of a run: its place, its source, what it does in words, what it changed in words, and the state behind it."""
    line: int
    column: int
    source: str
    text: str
    changes: List[str]
    variables: List[List[str]]
    places: List[Place]
    instances: List[Instance]


class ShownRun(NamedTuple):
    """A run of a unit that fails at a label; `needs` tells what was needed and what was held, and `run` is the text of its run file."""
    unit: str
    label: str
    kind: str
    message: str
    line: int
    column: int
    confirmed: bool
    needs: List[str]
    run: Optional[str]
    steps: List[Step]


PLACE = re.compile(r"(.*)\.([^.]*)", re.S)


def run_of(unit, label) -> ShownRun:
    """The run of what is told of a label (`results.Label`)."""
    steps = [step_of(it) for it in label.trace] if label.trace else [failing_step(label)]
    return ShownRun(unit, label.label, label.label.split()[-1], label.message, label.line, label.column, label.confirmed,
                    label.needs, label.run, steps)


def step_of(it) -> Step:
    """A step of a trace as `--json` has it."""
    state = it["state"]
    variables = [{"variable": name, "value": value} for name, value in state["variables"].items()]
    return Step(it["line"], it["column"], it["source"], it["text"], [change_words(one) for one in it["changes"]],
                *state_of([*variables, *state["places"], *state["instances"]]))


def change_words(change):
    """What a step changed of one thing, in words."""
    name = change.get("variable") or change.get("place") or f"{change['predicate']}({', '.join(change['arguments'])})"
    held = [spoken(change["held"])] if "held" in change else []
    if held == ["none"]:
        return f"{name} is given up"
    value = change.get("value") or change.get("content") or ""
    return ", ".join([f"{name}{' = ' if 'value' in change else ' '}{value}".rstrip(), *held])


def failing_step(label) -> Step:
    """The state in which a label fails, as the one step of its run."""
    return Step(label.line, label.column, "", f"fails: {label.message}", [], *state_of(label.state))


def state_of(entries):
    """The variables, places and instances of a state as `--json` has them."""
    variables, places, instances = [], [], []
    for it in entries:
        if "variable" in it:
            variables.append([it["variable"], it["value"]])
        elif "place" in it:
            found = PLACE.fullmatch(it["place"])
            places.append(Place(found[1] if found else it["place"], found[2] if found else "", amount(it["held"]), it["value"]))
        else:
            instances.append(Instance(it["predicate"], list(it["arguments"]), amount(it["held"]), braceless(it["content"])))
    return variables, places, instances


def amount(held):
    """An amount as run files have it, as a fraction."""
    return held if "/" in held else f"{held}/1"


def spoken(held):
    """An amount as people write it."""
    return {"1/1": "write", "0/1": "none"}.get(amount(held), held)


def braceless(content):
    return content[1:-1] if content.startswith("{") and content.endswith("}") else content


def parts_of_content(words):
    """What is told of a content, `value 3, list(#2) {value 4}`, as a tree: of a place `name` and `value`, of an instance `name` and
    `content`, where that is told, and of all else its words as `name`."""
    parts, around, begin, depth = [], [], 0, 0
    for n, it in enumerate(words + ","):
        depth += (it == "(") - (it == ")")
        if it == "{":
            part = {"name": words[begin:n].strip(), "content": []}
            parts.append(part)
            around.append(parts)
            parts, begin = part["content"], n + 1
        elif it in ",}" and depth <= 0:
            parts += [content_part(words[begin:n].strip())] * bool(words[begin:n].strip())
            begin = n + 1
            parts = around.pop() if it == "}" and around else parts
    return around[0] if around else parts


def content_part(words):
    name, _, value = words.rpartition(" ")
    return {"name": name, "value": value} if name and not words.endswith(")") else {"name": words}
