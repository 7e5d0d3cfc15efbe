"""What is checked at a label, in words and without a verdict: `the postcondition r > 0`, for what nobody knows of."""
from .failures import Step, instance_of, read
from .terms import Statement, Term, nodes_of, parts_of, spelled

CLAUSES = {"requires": "the precondition", "ensures": "the postcondition", "invariant": "the invariant"}


def named(source, label):
    """What is checked at a label, or nothing where its part is not found."""
    found = read(label)
    at, part = (source.at(*found.at), source.at(*found.part)) if found else (None, None)
    if at is None or part is None:
        return ""
    step = Step(source, at, part, found.kinds)
    if step.unit is None or step.home is None:
        return ""
    what = checked(source, part, found.kinds, terms_of(source, step))
    return f"{whose(source, step)}{what}{where(source, step)}" if what else ""


def terms_of(source, step):
    """The terms in which a part may stand: of the clause or the body, and else of the statement."""
    around = step.term()
    return [around] if around is not None and step.clause is not None or step.home.kind == "predicate" else Statement(source, step.at).terms


def checked(source, part, kind, terms):
    """What is asked of a part: that it holds, is held, is not null or not 0."""
    for term in terms:
        if term is None:
            continue
        if kind == "false":
            found = [spelled(source, node) for node in parts_of(source, term) if node.start == part]
            return found[0] if found else ""
        for node, _ in nodes_of(term):
            node = instance_of(node.parts[0]) if node.kind == "unfolding" and kind == "perm" else node
            if node.at == part and node.kind in (("binary",) if kind == "div" else ("field", "call")):
                return asked(source, node, kind)
    return ""


def asked(source, node, kind):
    whole = spelled(source, node)
    if kind == "null":
        return f"{spelled(source, node.parts[0])} != null" if node.kind == "field" else ""
    if kind == "div":
        return f"{spelled(source, node.parts[1])} != 0"
    return {"perm": f"permission to {whole}", "negative": f"an amount of {whole} that is not negative",
            "amount": f"an amount of {whole} that is positive"}[kind]


def whose(source, step):
    """Whose part it is: a clause, the body of a predicate, or a statement."""
    if step.clause is not None:
        return f"{CLAUSES[source.said(step.clause)]} "
    if step.home.kind == "predicate":
        return f"the body of {step.home.name}, "
    return f"the {step.word} of " if step.word in ("fold", "unfold", "exhale") else "the assertion " if step.word == "assert" else ""


def where(source, step):
    """At which step, where the place does not tell it."""
    if step.home is not step.unit:
        return f" of {step.home.name}" if step.clause is not None else ""
    if step.word == "{" and source.brace_of(step.at) == "while":
        return " at the end of an iteration"
    return " where the loop begins" if step.word == "while" and step.clause is not None else ""
