"""Which label follows from which: a clause or a body that is not well-formed by itself is told where it is checked by itself. At those
who use it, at the end of a body and at the end of a turn the same part fails for the same reason, which is not told once more."""
from .failures import Step, read
from .terms import Term

WELL_FORMED = ("null", "div", "negative", "amount")     # kinds that never come of giving an assertion up
NEVER_FIRST = ("false",)


def own_label(source, label):
    """The label of the check by itself of the clause or the body in which the part of a label stands; or nothing, where the part is
    that of a statement, or an assertion that is given up there."""
    found = read(label)
    part = source.at(*found.part) if found else None
    home = source.unit_at(part) if part is not None else None
    if home is None or found.kinds in NEVER_FIRST:
        return ""
    clause = source.clause_at(part)
    at = own_step(source, home, clause)
    if at is None or source.said(clause or 0) == "invariant" and gives_up(source, found, part, clause):
        return ""
    return "{}:{} {}:{} {}".format(*source.place(at), *found.part, found.kinds)


def own_step(source, home, clause):
    """The token of the step at which a clause, or without one the body of a predicate, is checked by itself; or None."""
    if clause is None:
        return home.word if home.kind == "predicate" else None
    return {"requires": home.word, "ensures": home.name_at}.get(source.said(clause), source.loop_of(clause))


def gives_up(source, label, part, clause):
    """Whether an invariant is given up at a part, so that it may hold where the loop begins and not at the end of a turn."""
    if label.kinds in WELL_FORMED:
        return False
    found = Step(source, part, part, label.kinds).what([Term(source, clause + 1).node])
    return bool(found and found[1])


def is_of_loop(source, label):
    """Whether the step of a label is a loop."""
    return source.said(source.at(*read(label).at)) == "while"


def home_of(source, label):
    """The name of the unit whose specification has the part of a label, where that is another unit's; or nothing."""
    own = own_label(source, label)
    if not own or own == label:
        return ""
    found = read(label)
    home, unit = source.unit_at(source.at(*found.part)), source.unit_at(source.at(*found.at) or 0)
    return home.name if home is not unit else ""
