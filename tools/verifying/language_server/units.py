"""What the answer about a unit depends on, and where its places are in another version of the file.

The answer about a unit depends on its own tokens, on the contracts and bodies of predicates that these name, directly or through each
other, and on which fields and predicates there are. Blanks, comments and places do not count: where the same tokens stand elsewhere, the answer holds with its places
moved."""
import hashlib
from bisect import bisect_left, bisect_right


class Parts:
    """The units of a file as tokens: of each the text of all, and of its head, which others depend on."""

    def __init__(self, source):
        self.source, self.heads, self.named = source, {}, {}
        self.state = [self.text(it.word, it.end) for it in source.units if it.kind == "field"]
        self.state += [it.name for it in source.units if it.kind == "predicate"]
        for unit in source.units:
            if source.declared.get(unit.name) is unit:
                first, last = unit.word, self.end_of_head(unit)
                self.heads[unit.name] = self.text(first, last)
                self.named[unit.name] = self.names(first, last)

    def end_of_head(self, unit):
        """The token behind what others depend on: a method's contract, and all of a field or a predicate."""
        return unit.brace if unit.kind == "method" and unit.brace is not None else unit.end

    def text(self, first, last):
        return " ".join([it.text for it in self.source.tokens[first:last]])

    def names(self, first, last):
        declared, tokens = self.source.declared, self.source.tokens
        return list(dict.fromkeys([it.text for it in tokens[first:last] if it.kind == "name" and it.text in declared]))

    def digest(self, unit):
        """What the answer about a unit depends on, as a short text."""
        known, todo = {}, [unit.name, *reversed(self.names(unit.word, unit.end))]
        while todo:
            name = todo.pop()
            if name not in known:
                known[name] = self.heads[name]
                todo += reversed(self.named[name])
        text = "\n".join([self.text(unit.word, unit.end), *known.values(), *self.state])
        return hashlib.sha256(text.encode("latin-1")).hexdigest()


def digests(source):
    """What the answers about the units of a file depend on, by the unit's name."""
    parts = Parts(source)
    return {it.name: parts.digest(it) for it in source.units if source.declared.get(it.name) is it and it.kind != "field"}


class Moved:
    """Places of one version of a file in another one, in which the units that are asked of have the same tokens."""

    def __init__(self, old, new):
        self.old, self.new = old, new

    def place(self, line, column):
        """The place in the new version of a place in the old one, or None where nothing corresponds."""
        if self.old is self.new:
            return line, column
        n = self.old.at(line, column)
        unit = self.old.unit_at(n) if n is not None else None
        other = self.new.declared.get(unit.name) if unit is not None else None
        if other is None or other.word + n - unit.word >= other.end:
            return None
        found = other.word + n - unit.word
        return self.new.place(found) if self.new.said(found) == self.old.said(n) else None

    def gap(self, line, column):
        """The place in the new version of a place between two tokens of the old one, which goes with the token behind it or before it;
        or None."""
        if not 0 < line <= len(self.old.lines):
            return None
        byte = self.old.lines[line - 1] + column - 1
        behind = bisect_left([it.start for it in self.old.tokens], byte)
        for n, end in ((behind, False), (behind - 1, True)):
            found = self.token(n)
            if found is None:
                continue
            one, other = self.old.tokens[n], found
            shift = byte - (one.end if end else one.start)
            there = (other.end if end else other.start) + shift
            first, last = sorted((byte, byte - shift))
            if there >= 0 and self.old.data[first:last] == self.new.data[min(there, there - shift):max(there, there - shift)]:
                number = bisect_right(self.new.lines, there)
                return number, there - self.new.lines[number - 1] + 1
        return None

    def token(self, n):
        """The token of the new version that corresponds to one of the old, or None."""
        if not 0 <= n < len(self.old.tokens):
            return None
        place = self.place(*self.old.place(n))
        return self.new.tokens[self.new.at(*place)] if place is not None else None
