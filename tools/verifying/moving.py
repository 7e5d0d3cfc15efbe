"""Changes that move or leave out what stands in a file: a fold that comes too late, an unfold that comes twice, a part of a clause that is
needed before another one."""
from .meaning import Blocks, Fails, Scene
from .terms import Statement, Term
from .trying import Insertion


class Lines:
    """The places of a file at which statements begin and end, for changes."""

    def __init__(self, source):
        self.source = source

    def before(self, token, text):
        """A statement in front of another one."""
        it = self.source.tokens[token]
        return Insertion(it.start, it.start, f"{text}\n{' ' * (it.column - 1)}")

    def behind(self, token, text, column):
        """A statement, or a clause, in a line of its own behind a token."""
        end = self.source.tokens[token].end
        return Insertion(end, end, f"\n{' ' * (column - 1)}{text}")

    def text(self, first, last):
        start, end = self.source.tokens[first].start, self.source.tokens[last].end
        return self.source.data[start:end].decode(errors="replace")

    def is_alone(self, first, last):
        """Whether tokens are all that stands in their line."""
        line = self.source.tokens[first].line
        return self.source.tokens[last].line == line and \
            all([not 0 <= n < len(self.source.tokens) or self.source.tokens[n].line != line for n in (first - 1, last + 1)])

    def without(self, first, last):
        """The tokens of a statement left out, with their line if nothing else stands in it."""
        start, end, line = self.source.tokens[first].start, self.source.tokens[last].end, self.source.tokens[first].line
        if not self.is_alone(first, last) or line >= len(self.source.lines):
            return Insertion(start, end, "")
        begin, behind = self.source.lines[line - 1], self.source.lines[line]
        is_blank = not (self.source.data[begin:start] + self.source.data[end:behind]).strip()
        return Insertion(begin, behind, "") if is_blank else Insertion(start, end, "")

    def name(self, first, last):
        """What a statement is called: its line, if nothing else stands there."""
        return f"line {self.source.tokens[first].line}" if self.is_alone(first, last) else f"`{self.text(first, last)}`"


class Moves(Lines):
    """Finds moves for a run in which too little is held of something: each in words, with its insertions."""

    def __init__(self, again):
        super().__init__(again.source)
        self.again, self.fault, self.step, self.meaning = again, again.fault, again.steps[-1], again.meaning

    def fold_before(self):
        """To move a fold of the missing instance, which stands behind the failing step in the same block, in front of it."""
        later = self.later_fold()
        if later is None:
            return
        first, last = later.at, later.end - 1
        own = self.name(self.step.first, self.step.last)
        yield f"{self.name(first, last)} moved before {own}", (self.before(self.step.first, self.text(first, last)), self.without(first, last))

    def later_fold(self):
        block = self.source.block[self.step.first]
        n, end = self.step.last + 1, self.source.closing.get(block, self.step.last)
        while n < end:
            it = Statement(self.source, n)
            if it.kind == "fold" and it.terms:
                scene = Scene(self.step.before.vars, self.again.old, n)
                try:
                    call = it.terms[0].parts[0] if it.terms[0].kind == "acc" else it.terms[0]
                    if self.meaning.instance(call, self.step.before.state, scene) == self.fault.thing:
                        return it
                except (Fails, Blocks, KeyError):
                    return None
            n = max(n + 1, it.end)
        return None

    def unfold_left_out(self):
        """To leave out an unfold of what an unfold has opened already."""
        opened = [it for it in self.again.steps[:-1] if it.kind in ("fold", "unfold") and self.held(it.before) != self.held(it.after)]
        if self.step.kind == "unfold" and opened and opened[-1].kind == "unfold":
            yield f"without {self.name(self.step.first, self.step.last)}", (self.without(self.step.first, self.step.last),)

    def held(self, moment):
        return moment.state.held_of(self.fault.thing)

    def fold_in_block(self, text):
        """To fold what is missing at the end of the block in which it was opened, where that has ended."""
        opened = [it for it in self.again.steps[:-1] if it.kind == "unfold" and self.held(it.before) > self.held(it.after)]
        block = self.source.block[opened[-1].first] if opened else None
        if block is None or block == self.source.block[self.step.first] or self.source.closing.get(block, self.step.first) >= self.step.first:
            return
        last = self.source.closing[block] - 1
        place = f"`fold {text}` added after line {self.source.tokens[last].line}"
        yield place, (self.behind(last, f"fold {text}", self.source.tokens[opened[-1].first].column),)

    def part_to_front(self, node):
        """To have a part of a clause, or of a body, in front of all others."""
        first = self.step.first + (self.step.kind != "body")
        conjuncts, todo = [], [Term(self.source, first).node]
        while todo:
            it = todo.pop()
            todo += reversed(it.parts) if it.kind == "binary" and self.source.said(it.at) == "&&" else []
            conjuncts.append(it)
        if node not in [(it.first, it.last) for it in conjuncts] or self.source.said(node[0] - 1) != "&&":
            return
        text, start, before = self.text(*node), self.source.tokens[first].start, self.source.tokens[node[0] - 2].end
        where = f"this `{self.step.kind}`" if self.step.kind != "body" else "this body"
        yield f"`{text}` moved to the front of {where}", (Insertion(start, start, f"{text} && "),
                                                          Insertion(before, self.source.tokens[node[1]].end, ""))

    def field_made(self):
        """To have the `new` that made an object make the missing field, too."""
        field, reference = self.fault.thing
        for step in self.again.steps[:-1]:
            if step.kind == "new" and any([step.after.vars[it] == reference and step.before.vars.get(it) != reference for it in step.targets]):
                close, new = step.last, step.last
                while self.source.said(new) != "new":
                    new -= 1
                inside = self.text(new + 2, close - 1) + ", " if close > new + 2 else ""
                at = self.source.tokens[close].start
                yield f"`new({inside}{field})` in line {self.source.tokens[new].line}", (Insertion(at, at, f", {field}" if inside else field),)
