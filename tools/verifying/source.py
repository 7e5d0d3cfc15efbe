"""A file of Viper as its tokens, with their places, and the structure that they show: units, variables, braces, clauses.

Nothing here refuses a file: `remduska` does that. What is not as it should be has no structure, and is left out. A place is a line
and a column, from 1 on; a line ends at the byte 10, and a column counts bytes."""
import re
from bisect import bisect_right

WORDS = frozenset(
    "field predicate method returns requires ensures invariant var new if elseif else while inhale exhale assert assume fold unfold "
    "unfolding in acc old null true false write none wildcard Int Bool Ref Perm".split())
BLOCKS = ("method", "predicate", "while", "if", "elseif", "else")
CLAUSES = ("requires", "ensures", "invariant")
HEADS = frozenset((*BLOCKS, *CLAUSES, "field", "var", "inhale", "exhale", "assert", "assume", "fold", "unfold"))
UNITS = ("field", "predicate", "method")
PIECE = re.compile(
    r"(?P<blank>[\t\n\r ]+|//[^\n]*|/\*.*?\*/)|(?P<open>/\*)|(?P<name>[A-Za-z_$][A-Za-z0-9_$']*)|(?P<number>[0-9]+)"
    r"|(?P<sign><==>|==>|:=|\|\||&&|==|!=|<=|>=|[(){}\[\],;.:?<>+\-*/\\%!])|(?P<odd>.)", re.S)
OPENS = {"(": ")", "{": "}", "[": "]"}


class Token:
    """`kind` is word, name, number, sign, or odd for a byte that begins no token; `start` and `end` count bytes."""

    __slots__ = ("kind", "text", "line", "column", "start", "end")

    def __init__(self, kind, text, line, column, start):
        self.kind, self.text, self.line, self.column, self.start, self.end = kind, text, line, column, start, start + len(text)


class Variable:
    """A parameter, return or local of a unit: visible from the token `at` on, and before the token `until`."""

    __slots__ = ("name", "type", "at", "until", "role")

    def __init__(self, name, type_, at, until, role):
        self.name, self.type, self.at, self.until, self.role = name, type_, at, until, role


class Unit:
    """A field, predicate or method. `word` and `name_at` are the tokens of its word and its name, `end` is the token behind it,
    `brace` that of its body or None; `variables` has parameters, returns and locals in the order of their numbers."""

    __slots__ = ("kind", "name", "word", "name_at", "end", "brace", "variables")

    def __init__(self, kind, name, word, end):
        self.kind, self.name, self.word, self.name_at, self.end = kind, name, word, word + 1, end
        self.brace, self.variables = None, []

    def parameters(self):
        return [it for it in self.variables if it.role == "parameter"]


class Source:
    """`tokens` in order; `closing` has for an opening bracket the token that closes it; `owner` has for a `{` the token of the word
    that it belongs to; `head` has for each token the last word at or before it that begins a clause or a statement, and None
    behind a brace; `block` has for each token the innermost `{` around it; `unclosed` is the place of a comment without an end."""

    def __init__(self, path, data):
        self.path, self.data = path, data
        self.text = data.decode("latin-1")
        self.tokens, self.unclosed = [], None
        self.lines = [0]
        self.cut()
        self.places = {(it.line, it.column): n for n, it in enumerate(self.tokens)}
        self.closing, self.owner, self.head, self.block = {}, {}, [], []
        self.nest()
        self.units = []
        self.read_units()
        self.starts = [it.word for it in self.units]
        self.declared = {}
        for unit in self.units:
            self.declared.setdefault(unit.name, unit)

    def cut(self):
        line, begin = 1, 0
        for piece in PIECE.finditer(self.text):
            kind, text, start = piece.lastgroup, piece[0], piece.start()
            if kind == "open":
                self.unclosed = (line, start - begin + 1)
                break
            if kind != "blank":
                kind = "word" if text in WORDS else kind
                self.tokens.append(Token(kind, text, line, start - begin + 1, start))
                continue
            at = text.find("\n")
            while at >= 0:
                line, begin = line + 1, start + at + 1
                self.lines.append(begin)
                at = text.find("\n", at + 1)
        if self.unclosed:
            self.lines += [it.end() for it in re.finditer("\n", self.text) if it.end() > self.lines[-1]]

    def nest(self):
        """Finds the bracket that closes each one, the word that each `{` belongs to, and the head and the block of each token."""
        open_, pending, head = [], None, None
        blocks = []
        for n, it in enumerate(self.tokens):
            if it.kind == "word" and it.text in HEADS:
                head = n
                pending = n if it.text in BLOCKS else pending
            self.block.append(blocks[-1] if blocks else None)
            if it.text in OPENS:
                open_.append(n)
                if it.text == "{":
                    if pending is not None:
                        self.owner[n] = pending
                    pending, head = None, None
                    blocks.append(n)
            elif it.text in (")", "]", "}"):
                self.close(open_, n, it.text)
                if it.text == "}":
                    head = None
                    if blocks:
                        blocks.pop()
            self.head.append(head)

    def close(self, open_, n, text):
        """Closes the innermost bracket of this kind; a `}` closes what is left open in its braces."""
        while open_ and OPENS[self.tokens[open_[-1]].text] != text:
            if self.tokens[open_[-1]].text == "{":
                return
            open_.pop()
        if open_:
            self.closing[open_.pop()] = n

    def read_units(self):
        words = [n for n, it in enumerate(self.tokens) if it.kind == "word" and it.text in UNITS]
        bodies = {owner: brace for brace, owner in self.owner.items()}
        for n, word in enumerate(words):
            end = words[n + 1] if n + 1 < len(words) else len(self.tokens)
            if word + 1 < end and self.tokens[word + 1].kind == "name":
                unit = Unit(self.tokens[word].text, self.tokens[word + 1].text, word, end)
                unit.brace = bodies.get(word)
                self.read_variables(unit)
                self.units.append(unit)

    def read_variables(self, unit):
        if unit.kind == "field":
            unit.variables = self.formals(unit.word, unit.word + 4, unit, "field")
            return
        start, end = unit.word + 2, self.closing.get(unit.word + 2)
        if end is None:
            return
        unit.variables = self.formals(start, end, unit, "parameter")
        if self.said(end + 1) == "returns" and end + 2 in self.closing:
            unit.variables += self.formals(end + 2, self.closing[end + 2], unit, "return")
        for n in range(end, unit.end):
            if self.tokens[n].text == "var" and n + 3 < unit.end:
                until = self.closing.get(self.block[n], unit.end)
                unit.variables.append(Variable(self.said(n + 1), self.said(n + 3), n + 1, until, "local"))

    def formals(self, start, end, unit, role):
        """The declarations `name : type` between two tokens."""
        return [Variable(self.said(n - 1), self.said(n + 1), unit.word, unit.end, role)
                for n in range(start + 1, min(end, len(self.tokens))) if self.said(n) == ":" and self.tokens[n - 1].kind == "name"]

    def said(self, n):
        """The text of a token, or nothing where there is none."""
        return self.tokens[n].text if 0 <= n < len(self.tokens) else ""

    def at(self, line, column):
        """The number of the token that begins at a place, or None."""
        return self.places.get((line, column))

    def place(self, n):
        return self.tokens[n].line, self.tokens[n].column

    def unit_at(self, n):
        """The unit in which a token stands, or None."""
        found = bisect_right(self.starts, n) - 1
        return self.units[found] if found >= 0 and n < self.units[found].end else None

    def is_name_of_unit(self, n):
        unit = self.unit_at(n)
        return unit is not None and unit.name_at == n

    def brace_of(self, n):
        """The word of what a `{` belongs to: method, predicate, while, if, elseif or else; or nothing."""
        return self.said(self.owner[n]) if n in self.owner else ""

    def clause_at(self, n):
        """The word of the clause in which a token stands, as its number, or None."""
        head = self.head[n]
        return head if head is not None and self.said(head) in CLAUSES else None

    def loop_of(self, n):
        """The loop to which the clause with the word n belongs, or None: the `while` behind which invariants alone stand."""
        while n is not None and n > 0 and self.said(n) == "invariant":
            n = self.head[n - 1]
        return n if n is not None and self.said(n) == "while" else None

    def visible(self, unit, n):
        """The variables of a unit by their numbers that are visible at a token."""
        return [k for k, it in enumerate(unit.variables) if it.at < n < it.until or it.role != "local"]

    def line_text(self, line):
        """A line of the file without its end, as bytes."""
        if not 0 < line <= len(self.lines):
            return b""
        end = self.lines[line] - 1 if line < len(self.lines) else len(self.data)
        return self.data[self.lines[line - 1]:end].rstrip(b"\r")

    def spelled(self, first, last, most=60):
        """The tokens from one to another as one line of at most so many characters. Blanks stand where the file has some."""
        words, length = [], 0
        for n in range(first, last + 1):
            it = self.tokens[n]
            gap = " " if words and it.start > self.tokens[n - 1].end else ""
            length += len(gap) + len(it.text)
            if length > most:
                return "".join(words) + " .."
            words.append(gap + it.text)
        return "".join(words)


def without_bodies(source, names):
    """The bytes of a file with blanks for the bodies of some methods: all others are as they are, and stand where they stand."""
    data = bytearray(source.data)
    for unit in source.units:
        closing = source.closing.get(unit.brace) if unit.kind == "method" and unit.name in names else None
        if closing is not None:
            begin, end = source.tokens[unit.brace].start, source.tokens[closing].end
            data[begin:end] = bytes([it if it in b"\r\n" else 32 for it in data[begin:end]])
    return bytes(data)
