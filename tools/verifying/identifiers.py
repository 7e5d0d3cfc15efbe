"""Viper's identifier of what is told of a label: `ERROR:REASON`, by the step and the kind of the label.

docs/failures.md has the table, and a test compares the two."""
from .failures import Step, read
from .terms import Statement

REASONS = {
    "null": "receiver.null", "perm": "insufficient.permission", "false": "assertion.false", "div": "division.by.zero",
    "negative": "negative.permission", "amount": "permission.not.positive",
}
STEPS = {
    "assert": "assert.failed", "exhale": "exhale.failed", "inhale": "inhale.failed", "assume": "inhale.failed", "fold": "fold.failed",
    "unfold": "unfold.failed", "if": "if.failed", "elseif": "if.failed", "assign": "assignment.failed", "var": "assignment.failed",
}
CALL, CALLED = "call.failed", "call.precondition"
CONTRACT, PREDICATE = "not.wellformed", "predicate.not.wellformed"
POSTCONDITION = "postcondition.violated"
REACHED, PRESERVED, CONDITION = "invariant.not.established", "invariant.not.preserved", "while.failed"


def identifier(source, label):
    """The identifier of a label, or nothing where the step is not known."""
    found = read(label)
    at, part = (source.at(*found.at), source.at(*found.part)) if found else (None, None)
    error = error_of(source, Step(source, at, part, found.kinds)) if at is not None and part is not None else ""
    return f"{error}:{REASONS[found.kinds]}" if error else ""


def error_of(source, step):
    """The first half, by the step and the place of the part."""
    if step.unit is None or step.home is None:
        return ""
    if step.word == "{":
        return {"method": POSTCONDITION, "while": PRESERVED}.get(source.brace_of(step.at), "")
    if step.word == "method" or step.unit.name_at == step.at:
        return CONTRACT
    if step.word == "predicate":
        return PREDICATE
    if step.word == "while":
        return REACHED if source.said(step.clause or 0) == "invariant" else CONDITION
    it = Statement(source, step.at)
    if it.callee is not None:
        return CALLED if step.clause is not None and source.said(step.clause) == "requires" else CALL
    return STEPS.get(it.kind, "")
