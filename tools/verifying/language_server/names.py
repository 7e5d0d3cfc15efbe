"""What the names of a file stand for: their declarations and their uses, by the tokens alone. It works as well on a file that is
refused: what is not as it should be stands for nothing."""
from bisect import bisect_right
from typing import NamedTuple, Optional

from ..source import UNITS, WORDS
from ..subset import REFUSED

FIELD, PREDICATE, METHOD = UNITS


class Declared(NamedTuple):
    """What a name stands for: `kind` is field, predicate, method, parameter, return or local; `at` is the token of its declaration;
    `unit` is the unit itself, or the one in which a variable stands, and `type` that of a field or a variable."""
    name: str
    kind: str
    at: int
    unit: object
    type: Optional[str]


class Names:
    """`meant` has what each token that is a name stands for, by its number; `uses` the tokens of each declaration in order."""

    def __init__(self, source):
        self.source, self.meant, self.uses = source, {}, {}
        self.starts = [it.start for it in source.tokens]
        self.units = {it.name: Declared(it.name, it.kind, it.name_at, it, type_of(it)) for it in reversed(source.units)}
        self.variables = {}
        for unit in source.units:
            self.variables[unit.word] = self.variables_of(unit) if unit.kind != FIELD else []
            self.read(unit)

    def variables_of(self, unit):
        """The variables of a unit, each with the tokens from which and before which it is visible."""
        found, n = [], unit.name_at
        for it in unit.variables:
            n = it.at if it.role == "local" else self.formal(it.name, n + 1, unit.end)
            if n is None:
                break
            first, last = (it.at, it.until) if it.role == "local" else (unit.name_at, unit.end)
            found.append((Declared(it.name, it.role, n, unit, it.type), first, last))
        return found

    def formal(self, name, first, end):
        """The token at which a parameter or a return is declared, from a token on."""
        return next((n for n in range(first, end) if self.source.said(n) == name and self.source.said(n + 1) == ":"), None)

    def read(self, unit):
        by_name = {}
        for it in self.variables[unit.word]:
            by_name.setdefault(it[0].name, []).append(it)
        fields_of_new = self.fields_of_new(unit)
        for n in range(unit.word, unit.end):
            if self.source.tokens[n].kind == "name":
                found = self.at_token(unit, n, by_name, fields_of_new)
                if found is not None:
                    self.meant[n] = found
                    self.uses.setdefault(found, []).append(n)

    def at_token(self, unit, n, by_name, fields_of_new):
        """What the name at a token stands for, or None."""
        name, declared = self.source.said(n), self.units.get(self.source.said(n))
        if n == unit.name_at:
            return Declared(unit.name, unit.kind, n, unit, type_of(unit)) if declared.unit is not unit else declared
        if self.source.said(n - 1) == "." or n in fields_of_new:
            return declared if declared is not None and declared.kind == FIELD else None
        if self.source.said(n + 1) == "(":
            return declared if declared is not None and declared.kind != FIELD else None
        return next((it for it, first, last in by_name.get(name, ()) if first <= n < last), None)

    def fields_of_new(self, unit):
        """The tokens between the brackets of each `new`."""
        found = set()
        for n in range(unit.word, unit.end):
            if self.source.said(n) == "new" and self.source.said(n + 1) == "(":
                found.update(range(n + 2, min(self.source.closing.get(n + 1, n), unit.end)))
        return found

    def visible(self, n):
        """The variables that are visible at a token."""
        unit = self.source.unit_at(n)
        return [it for it, first, last in self.variables.get(unit.word, ()) if first <= n < last] if unit is not None else []

    def token_at_byte(self, byte):
        """The number of the token that has a byte, or ends in front of it, or None. A name goes before a sign."""
        n = bisect_right(self.starts, byte) - 1
        if n < 0 or self.source.tokens[n].end < byte:
            return None
        if self.source.tokens[n].kind == "sign" and n > 0 and self.source.tokens[n - 1].end == byte:
            return n - 1
        return n

    def conflict(self, declared, name):
        """Why a declaration cannot have another name, or nothing."""
        if not is_name(name):
            return f"`{name}` is no name"
        if declared.kind in UNITS:
            return f"`{name}` is declared already" if name in self.units else ""
        own = next(it for it in self.variables[declared.unit.word] if it[0] == declared)
        others = [it for it in self.variables[declared.unit.word] if it[0].name == name]
        return f"`{name}` is declared already" if any(it[1] < own[2] and own[1] < it[2] for it in others) else ""


def type_of(unit):
    return unit.variables[0].type if unit.kind == FIELD and unit.variables else None


def is_name(text):
    """Whether a text has the form of a name, and is no word of Viper."""
    return text.isascii() and (text[:1].isalpha() or text[:1] in ("_", "$")) and all(it.isalnum() or it in "_$'" for it in text[1:]) \
        and text not in WORDS and text not in REFUSED
