"""Spots of a unit that some run should reach: behind each `{` of a branch and of a loop, behind each call, and the begin and the end of a
body. Whether one is reached is asked of a copy of the unit that has `assert false` there: where no run of the copy fails, none comes
to it."""
from typing import Dict, List, NamedTuple, Optional, Tuple

from .terms import Statement, Term

NEVER = " assert false "
MEANT = ("assert", "assume", "inhale", "exhale")    # a branch that begins with one of these and `false` is not meant to be reached


class Spot(NamedTuple):
    """A spot: the byte of the file where it is, the place at which it is told, what is told where no run reaches it, and the number of
    the spot that each run to it passes, or None."""
    unit: str
    at: int
    line: int
    column: int
    words: str
    before: Optional[int]


class Spots:
    """Finds the spots of a unit, in the order of the text."""

    def __init__(self, source, unit):
        self.source, self.unit, self.found = source, unit, []
        if unit.kind == "predicate":
            self.add(0, unit.name_at, f"no run opens `{unit.name}`: its body cannot hold", None)
        elif unit.brace is not None:
            begin = self.add(source.tokens[unit.brace].end, unit.name_at, f"no run of `{unit.name}` begins: what it requires cannot hold", None)
            last = self.block(unit.brace, begin)
            end = source.closing.get(unit.brace, unit.brace)
            if last != begin or end > unit.brace + 1:
                self.add(source.tokens[end].start, unit.name_at, f"no run of `{unit.name}` comes to its end", last)

    def add(self, at, told, words, before):
        """Notes a spot. Returns its number."""
        self.found.append(Spot(self.unit.name, at, *self.source.place(told), words, before))
        return len(self.found) - 1

    def block(self, brace, before):
        """The spots of a block. Returns the one that each run to its end passes last."""
        n, end = brace + 1, self.source.closing.get(brace, brace)
        while n < end:
            it = Statement(self.source, n)
            if it.kind in ("if", "while"):
                n = self.inner(n, before)
                continue
            if it.callee is not None and not self.is_never_back(it.callee):
                words = f"no run goes on after this call of `{self.source.said(it.callee)}`: what it ensures cannot hold here"
                before = self.add(self.source.tokens[it.end - 1].end, n, words, before)
            n = max(n + 1, it.end)
        return before

    def inner(self, n, before):
        """The spots of an `if` with all that belongs to it, or of a loop. Returns the token behind it."""
        while True:
            brace = n
            while self.source.said(brace) != "{":
                brace += 1
            what = "the body of this loop" if self.source.said(n) == "while" else "this branch"
            if not self.is_meant(brace):
                self.block(brace, self.add(self.source.tokens[brace].end, n, f"no run comes into {what}", before))
            after = self.source.closing.get(brace, brace) + 1
            if self.source.said(n) == "while" or self.source.said(after) not in ("elseif", "else"):
                return after
            n = after

    def is_meant(self, brace):
        return self.source.said(brace + 1) in MEANT and self.source.said(brace + 2) == "false"

    def is_never_back(self, callee):
        """Whether a method says by `ensures false` that no call of it comes back."""
        unit = self.source.declared.get(self.source.said(callee))
        clauses = range(unit.word, unit.brace if unit.brace is not None else unit.end) if unit is not None else ()
        return any([self.source.said(n) == "ensures" and self.is_false(n + 1) for n in clauses])

    def is_false(self, n):
        return self.source.said(n) == "false" and Term(self.source, n).end == n + 1


def with_copies(source, units) -> Tuple[str, Dict[str, Spot]]:
    """The text of a file in which methods have no bodies, with a copy of its unit for each spot of some units, and the spot of each
    copy by its name."""
    stem, spots, copies = stem_of(source), {}, []
    for unit in units:
        for spot in Spots(source, unit).found:
            name = f"{stem}{len(spots)}"
            spots[name] = spot
            copies.append(copy(source, unit, spot, name))
    return without_methods(source) + "".join(copies), spots


def with_end(source, unit) -> Tuple[str, str, str]:
    """The text of a file in which methods have no bodies, with a copy of a unit that has `assert false` where its postconditions are given
    up; the name of the copy, and the label at which a run fails that comes there."""
    stem = stem_of(source)
    found = Spots(source, unit).found
    spot = found[-1] if found else Spot(unit.name, source.tokens[unit.end - 1].end, 0, 0, "", None)
    text = without_methods(source) + copy(source, unit, spot, stem, after_contract(source, unit))
    at = text.rindex(NEVER) + 1
    line, column = text.count("\n", 0, at) + 1, at - text.rfind("\n", 0, at)
    return text, stem, f"{line}:{column} {line}:{column + len('assert ')} false"


def after_contract(source, unit):
    """A statement that takes the postconditions of a method, or brings them where it has no body, and behind it `assert false`."""
    end, word = (unit.end, "inhale") if unit.brace is None else (unit.brace, "exhale")
    clauses = [(n + 1, Term(source, n + 1).end) for n in range(unit.word, end) if source.said(n) == "ensures"]
    texts = [source.text[source.tokens[first].start:source.tokens[behind - 1].end] for first, behind in clauses]
    return (f" {word} {' && '.join([f'({it})' for it in texts])}" if texts else "") + NEVER


def stem_of(source):
    """What no name of a file begins with."""
    stem = "smoke$"
    while any([it.text.startswith(stem) for it in source.tokens]):
        stem += "$"
    return stem


def without_methods(source):
    """The text of a file in which methods have no bodies."""
    text, at = "", 0
    for unit in source.units:
        if unit.kind == "method" and unit.brace is not None:
            text += source.text[at:source.tokens[unit.brace].start]
            at = source.tokens[source.closing[unit.brace]].end
    return text + source.text[at:] + "\n"


def copy(source, unit, spot, name, statement=NEVER):
    """A copy of a unit with `assert false` at a spot, or another statement; of a predicate, a method that opens it."""
    if unit.kind == "predicate":
        formals = ", ".join(f"{it.name}: {it.type}" for it in unit.parameters())
        instance = f"{unit.name}({', '.join(it.name for it in unit.parameters())})"
        return f"method {name}({formals}) requires {instance} {{ unfold {instance}{NEVER}}}\n"
    begin = source.tokens[unit.name_at].end
    if unit.brace is None:
        return f"method {name}{source.text[begin:spot.at]} {{{statement}}}\n"
    end = source.tokens[source.closing[unit.brace]].end
    return f"method {name}{source.text[begin:spot.at]}{statement}{source.text[spot.at:end]}\n"


def told(spots: Dict[str, Spot], unreached) -> List[Spot]:
    """The spots that are told: those that no run reaches, but not those behind another one of these. `unreached` has names of copies."""
    names = {}
    for name, spot in spots.items():
        names.setdefault(spot.unit, []).append(name)
    found = []
    for name, spot in spots.items():
        if name in unreached and (spot.before is None or names[spot.unit][spot.before] not in unreached):
            found.append(spot)
    return found
