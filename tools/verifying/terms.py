"""Terms of Viper as trees over the tokens of a file, and statements as their terms. Nothing here recurs: a term may be 1,024 deep."""

LEVELS = {"*": 1, "/": 1, "\\": 1, "%": 1, "+": 2, "-": 2, "<": 3, "<=": 3, ">": 3, ">=": 3, "==": 4, "!=": 4,
          "&&": 5, "||": 6, "==>": 7, "<==>": 8}
LOWEST = 9
LITERALS = ("true", "false", "null", "write", "none", "wildcard")


class Node:
    """`kind` is leaf, field, call, acc, old, unary, binary, choice, unfolding or none; `at` is the token of the operator, of the
    field or of the name; `start` is the leftmost token, brackets not counted; `first` and `last` are all tokens of it."""

    __slots__ = ("kind", "at", "parts", "start", "first", "last")

    def __init__(self, kind, at, parts, start, first, last):
        self.kind, self.at, self.parts, self.start, self.first, self.last = kind, at, parts, start, first, last


class Mark:
    """What waits for its operands: a bracket, an operator, `?`, `?:` or `unfolding`."""

    __slots__ = ("kind", "at", "parts", "name")

    def __init__(self, kind, at, name=None):
        self.kind, self.at, self.parts, self.name = kind, at, [], name


class Term:
    """Reads the term that begins at a token: `node` is its tree, or None where there is none, and `end` the token behind it."""

    def __init__(self, source, begin):
        self.source, self.end = source, begin
        self.operands, self.marks = [], []
        wants = True
        while wants is not None:
            wants = self.operand() if wants else self.operator()
        while self.marks:
            self.reduce()
        self.node = self.operands[0] if self.operands else None

    def push(self, kind, at, parts, start, first, last):
        self.operands.append(Node(kind, at, parts, start, first, last))

    def operand(self):
        """Reads what begins an operand. Returns whether an operand is still to come, or None where there is none."""
        n, it = self.end, self.source.said(self.end)
        kind = self.source.tokens[n].kind if it else ""
        behind = self.source.said(n + 1)
        if it in ("!", "-"):
            self.marks.append(Mark("unary", n))
        elif it == "(":
            self.marks.append(Mark("group", n))
        elif it == "unfolding":
            self.marks.append(Mark("unfolding", n))
        elif behind == "(" and (kind == "name" or it in ("old", "acc")):
            self.marks.append(Mark(it if kind == "word" else "call", n + 1, n))
            self.end += 2
            return not self.closes()
        elif kind in ("name", "number") or it in LITERALS:
            self.push("leaf", n, [], n, n, n)
            self.end += 1
            return False
        else:
            return None
        self.end += 1
        return True

    def closes(self):
        """Takes the `)` of an empty list of arguments."""
        if self.source.said(self.end) != ")":
            return False
        mark = self.marks.pop()
        self.push(mark.kind, mark.name, [], mark.name, mark.name, self.end)
        self.end += 1
        return True

    def operator(self):
        """Reads what may follow an operand. Returns whether an operand is to come, or None where the term has ended."""
        n, it = self.end, self.source.said(self.end)
        if it == "." and n + 1 < len(self.source.tokens) and self.source.tokens[n + 1].kind == "name":
            inner = self.operands.pop()
            self.push("field", n + 1, [inner], inner.start, inner.first, n + 1)
            self.end += 2
            return False
        if it in LEVELS:
            level = LEVELS[it]
            self.reduce_while(lambda mark: self.level(mark) < level or self.level(mark) == level <= 3)
            self.marks.append(Mark("binary", n))
            self.marks[-1].parts.append(self.operands.pop())
        elif it == "?":
            self.reduce_while(lambda mark: self.level(mark) < LOWEST)
            self.marks.append(Mark("?", n))
            self.marks[-1].parts.append(self.operands.pop())
        else:
            wanted = {":": ("?",), "in": ("unfolding",), ",": ("call", "acc"), ")": ("call", "acc", "old", "group")}.get(it, ())
            return self.inside(it, wanted)
        self.end += 1
        return True

    def inside(self, it, wanted):
        """Goes on behind a `:`, `in`, `,` or `)` where something waits for it."""
        waits = next((mark.kind for mark in reversed(self.marks) if mark.kind in ("?", "unfolding", "call", "acc", "old", "group")), None)
        if waits not in wanted:
            return None
        self.reduce_while(lambda mark: mark.kind not in wanted)
        mark = self.marks[-1]
        mark.parts.append(self.operands.pop())
        self.end += 1
        if it == ")":
            self.marks.pop()
            self.bracket(mark)
            return False
        mark.kind = {"?": "?:", "unfolding": "unfolding in"}.get(mark.kind, mark.kind)
        return True

    def bracket(self, mark):
        last = self.end - 1
        if mark.kind == "group":
            inner = mark.parts[0]
            inner.first, inner.last = mark.at, last
            self.operands.append(inner)
        else:
            self.push(mark.kind, mark.name, mark.parts, mark.name, mark.name, last)

    def level(self, mark):
        if mark.kind == "unary":
            return 0
        if mark.kind == "binary":
            return LEVELS[self.source.said(mark.at)]
        return LOWEST + 1

    def reduce_while(self, holds):
        while self.marks and holds(self.marks[-1]):
            self.reduce()

    def reduce(self):
        """Makes a node of the innermost mark. What waits in vain, in a text that spells no program, is left out."""
        mark = self.marks.pop()
        complete = {"unary": 0, "binary": 1, "?:": 2, "unfolding in": 1}.get(mark.kind)
        if complete != len(mark.parts) or len(self.operands) == 0:
            self.operands += mark.parts[:1] if not self.operands else []
            return
        parts = mark.parts + [self.operands.pop()]
        kind = {"?:": "choice", "unfolding in": "unfolding"}.get(mark.kind, mark.kind)
        before = kind in ("unary", "unfolding")
        start, first = (mark.at, mark.at) if before else (parts[0].start, parts[0].first)
        self.push(kind, mark.at, parts, start, first, parts[-1].last)


class Statement:
    """`kind` is its word, or assign, call or new; `terms` are its terms in order, `targets` the tokens of the targets, `callee` the
    token of the method that is called, and `end` the token behind it, or behind its condition."""

    def __init__(self, source, at):
        self.at, self.targets, self.terms, self.callee, self.kind = at, [], [], None, source.said(at)
        self.end = at + 1
        if self.kind in ("inhale", "exhale", "assert", "assume", "fold", "unfold", "if", "elseif", "while"):
            self.take(source, at + 1)
        elif self.kind == "var":
            self.targets, self.end = [at + 1], at + 4
            if source.said(at + 4) == ":=":
                self.right(source, at + 5)
        elif source.tokens[at].kind != "name":
            self.kind = ""
        elif source.said(at + 1) == "(":
            self.right(source, at)
        else:
            self.assignment(source, at)

    def take(self, source, at):
        term = Term(source, at)
        self.end = term.end
        if term.node:
            self.terms.append(term.node)

    def assignment(self, source, at):
        self.kind, end = "assign", at
        while source.said(end) in (".", ",") or source.said(end) and source.tokens[end].kind == "name":
            end += 1
        self.end = end
        if source.said(end) != ":=":
            self.kind = ""
            return
        if "." in (source.said(n) for n in range(at, end)):
            self.take(source, at)
            self.targets = [end - 1]
        else:
            self.targets = list(range(at, end, 2))
        self.right(source, end + 1)

    def right(self, source, at):
        """Reads a right side: the fields of a `new`, a call that is all of it, or a term."""
        if source.said(at) == "new":
            self.kind = "new" if self.kind != "var" else "var"
            self.end = source.closing.get(at + 1, at) + 1
            return
        self.take(source, at)
        node = self.terms[-1] if self.terms else None
        if node and node.kind == "call" and node.first == node.at == at:
            self.callee = node.at
            self.terms[-1:] = node.parts
            self.kind = "call" if self.kind != "var" else "var"


def spelled(source, node):
    """The text of a node without the brackets around it."""
    first, last = node.first, node.last
    while first < last and source.said(first) == "(" and source.closing.get(first) == last:
        first, last = first + 1, last - 1
    return source.spelled(first, last)


def nodes_of(term):
    """All nodes of a tree, each with the node around it."""
    todo = [(term, None)]
    while todo:
        node, around = todo.pop()
        yield node, around
        todo += [(it, node) for it in node.parts]


def parts_of(source, term):
    """The parts of an assertion: what stands alone, beside `&&`, behind `==>` and in the sides of `?:`."""
    todo = [term]
    while todo:
        node = todo.pop()
        sign = source.said(node.at) if node.kind in ("binary", "choice") else ""
        if sign == "&&":
            todo += reversed(node.parts)
        elif sign == "==>":
            todo.append(node.parts[1])
        elif sign == "?":
            todo += (node.parts[2], node.parts[1])
        else:
            yield node


def statement_around(source, n):
    """The statement whose words, and not those of a block inside, a token is among; or None."""
    k = source.block[n] if n < len(source.block) else None
    k = n + 1 if k is None else k + 1
    while k <= n:
        if source.said(k) == "{":
            k = source.closing.get(k, k) + 1
        elif source.said(k) == "invariant":
            k = Term(source, k + 1).end
        else:
            it = Statement(source, k)
            if n < it.end:
                return it
            k = max(k + 1, it.end)
    return None
