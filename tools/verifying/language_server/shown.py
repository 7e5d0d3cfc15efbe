"""What an editor shows of answers: lenses above units, and of the run that is shown of a unit its values, at the lines of the file."""
from ..shown_run import spoken
from ..terms import Term, nodes_of, spelled
from .names import FIELD

MOST_HINT = 60      # the characters of a hint
MOST_HEAD = 2000    # the characters of a unit's head in a hover


def lens(document, live, unit):
    """The lens above a unit: its words and its command."""
    verdict = live.verdict(unit.name)
    arguments = [document.uri, unit.name]
    sought = ", more sought" if verdict is not None and not verdict.is_whole and live.is_open(unit.name) else ""
    if verdict is None:
        return ("stopped: check again" if live.stopped else "checking" if live.is_open(unit.name) else "not checked",
                "remduska.checkAgain" if live.stopped else "", arguments)
    if verdict.verdict == "fails":
        count = sum([it.severity == "error" for it in verdict.findings])
        more = f", {count} errors" if count > 1 else ""
        return f"fails{more}{sought}: show run", "remduska.showRun", arguments
    if verdict.verdict == "undecided":
        return "undecided: check again", "remduska.checkAgain", arguments
    if verdict.is_proved:
        return "proved: keep certificate", "remduska.keepCertificate", arguments
    return f"verified, not proved{sought}", "", arguments


def code_lenses(document, live):
    """The lenses of the units that have a procedure of their own: methods, and predicates with a body."""
    if live.refused:
        return []
    found = []
    for unit in document.source.units:
        if unit.kind == FIELD or unit.kind != "method" and unit.brace is None or document.source.declared.get(unit.name) is not unit:
            continue
        title, command, arguments = lens(document, live, unit)
        found.append({"range": document.range_of(unit.word, unit.name_at),
                      "command": {"title": title, "command": command, "arguments": arguments if command else []}})
    return found


# ---- the run that is shown

def shown_run(live, name):
    """The run of a unit that is shown: of the label that was chosen, else of the first error; or None."""
    verdict = live.verdict(name)
    if verdict is None or not verdict.runs:
        return None
    first = next((it.label for it in verdict.findings if it.label is not None), 0)
    chosen = live.chosen.get(name, first)
    return verdict.runs[chosen] if chosen < len(verdict.runs) else verdict.runs[first]


def shown_runs(live):
    return [it for it in [shown_run(live, verdict.unit) for verdict in live.verdicts()] if it is not None]


def inlay_hints(document, live, first, last):
    """What the steps of the shown runs change, at the ends of the lines from one to another."""
    words = {}
    for run in shown_runs(live):
        for step in run.steps:
            line = document.range_of_place(step.line, step.column)["start"]["line"] if step.line else -1
            if first <= line <= last:
                words.setdefault(line, []).append((", ".join(step.changes) or step.text, step, run))
    found = []
    for line, said in sorted(words.items()):
        text = document.text.line(line)
        label = " · ".join(dict.fromkeys([it for it, _, _ in said if it]))
        label = label if len(label) <= MOST_HINT else label[:MOST_HINT - 2] + " .."
        end = document.text.position(document.text.starts[line] + len(text))
        if label:
            found.append({"position": end, "label": label, "paddingLeft": True,
                          "tooltip": {"kind": "plaintext", "value": "\n".join(state_lines(said[-1][1]))}})
    return found


def state_lines(step):
    """The state of a step, a line for each part."""
    lines = [", ".join([f"{name} = {value}" for name, value in step.variables])] if step.variables else []
    lines += [f"{it.object}.{it.field} = {it.value}, held: {spoken(it.held)}" for it in step.places]
    lines += [f"{it.words()}{' {' + it.content + '}' if it.content else ''}, held: {spoken(it.held)}" for it in step.instances]
    return lines


# ---- hover

def hover(document, live, position):
    """What is known of what stands at a position: its declaration, and its value in the shown run."""
    n = document.token_at(position)
    if n is None:
        return None
    found = document.names.meant.get(n)
    parts = [f"```viper\n{declaration(document, found)}\n```"] if found is not None else []
    value = value_at(document, live, n)
    if value:
        parts.append(value)
    if not parts:
        return None
    return {"contents": {"kind": "markdown", "value": "\n\n".join(parts)}, "range": document.range_of(n)}


def declaration(document, found):
    """What a name is declared as: of a method and a predicate the head as it stands."""
    source = document.source
    if found.kind in ("parameter", "return", "local"):
        return f"{found.name}: {found.type}  // {'local variable' if found.kind == 'local' else found.kind} of {found.unit.name}"
    if found.kind == FIELD:
        return f"field {found.name}: {found.type}"
    unit = found.unit
    last = unit.brace - 1 if unit.kind == "method" and unit.brace is not None else unit.end - 1
    begin, end = source.tokens[unit.word].start, source.tokens[min(last, len(source.tokens) - 1)].end
    return document.text.data[begin:end].decode("utf-8", "replace")[:MOST_HEAD]


def value_at(document, live, n):
    """What a failing run says of the term at a token, in words, or nothing."""
    unit = document.source.unit_at(n)
    run = shown_run(live, unit.name) if unit is not None else None
    if run is None:
        return ""
    number = step_at(document, run, n)
    if number is None:
        return ""
    name, at = term_at(document, n)
    told = of_variable(run, number, name) if at is None else of_place(document, run, number, at, n)
    parts = [f"In the run that fails at {run.line}:{run.column}: {told}"] if told else []
    is_part = (run.line, run.column) == document.source.place(n)
    return "\n\n".join(parts + [it for it in run.needs if is_part])


def step_at(document, run, n):
    """The number of the last step at the line of a token, or else before it; or None."""
    line = document.source.tokens[n].line
    here = [k for k, it in enumerate(run.steps) if it.line == line]
    before = [k for k, it in enumerate(run.steps) if 0 < it.line <= line]
    return here[-1] if here else before[-1] if before else None


def term_at(document, n):
    """The name at a token, and where it is a field the term whose field it is."""
    source = document.source
    if source.said(n - 1) != ".":
        return source.said(n), None
    first = n - 1
    while source.said(first) == "." and source.tokens[first - 1].kind == "name":
        first -= 2
    return source.said(n), Term(source, first + 1).node


def of_variable(run, number, name):
    step = run.steps[number]
    value = dict(map(tuple, step.variables)).get(name)
    if value is None:
        return ""
    return f"`{name}` = `{value}`{last_change(run, number, lambda it: dict(map(tuple, it.variables)).get(name))}"


def of_place(document, run, number, term, n):
    """What is told of the field at a token: its object, its value and how much of it is held."""
    source, step = document.source, run.steps[number]
    node = next((it for it, _ in nodes_of(term) if it.kind == "field" and it.at == n), None) if term is not None else None
    object_ = value_of(source, step, node.parts[0]) if node is not None else None
    if object_ is None:
        return ""
    field = source.said(n)
    words = f"`{spelled(source, node)}` is `{object_}.{field}`"
    if object_ == "null":
        return f"{words}: the reference is null"
    place = place_of(step, object_, field)
    if place is None:
        return f"{words}, of which nothing is held"
    return f"{words} = `{place.value}`, held: {spoken(place.held)}{last_change(run, number, lambda it: place_of(it, object_, field))}"


def place_of(step, object_, field):
    return next((it for it in step.places if it.object == object_ and it.field == field), None)


def value_of(source, step, node):
    """The value of a variable, or of a chain of fields, in a state; or None where it is not told."""
    if node.kind == "leaf":
        return dict(map(tuple, step.variables)).get(source.said(node.at))
    if node.kind != "field":
        return None
    object_ = value_of(source, step, node.parts[0])
    place = place_of(step, object_, source.said(node.at)) if object_ is not None else None
    return place.value if place is not None else None


def last_change(run, number, read):
    """Which step gave what is read its value in a state, in words: the first one behind which it is so without a break."""
    now = read(run.steps[number])
    first = number
    while first > 0 and read(run.steps[first - 1]) == now:
        first -= 1
    it = run.steps[first]
    return f", since line {it.line}" + (f": `{it.source}`" if it.source else "") if first > 0 and it.line else ""
