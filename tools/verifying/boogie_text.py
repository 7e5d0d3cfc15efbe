"""Reads the programs of Boogie that `translate` and `cut` write, and the formulas that `vc` writes, as trees.

An expression is a tuple: ("name", n), ("int", k), ("real", k), ("bool", b), ("null",), ("unit",), ("neg", e), ("not", e),
("bin", sign, a, b), ("if", c, a, b), ("forall", ((name, base), ..), body), ("toreal", e), ("con", name, (e, ..)),
("at", map, keys) or ("with", map, keys, e), which is the map but for one value.
A statement is ("assign", x, e), ("put", m, keys, e), ("havoc", x), ("assume", e), ("assert", label, e) or
("if", condition or None, then, else), whose blocks are lists. A type is its key types and its base type: (("Ref",), "int")."""
import re
from typing import Dict, List, Tuple

Type = Tuple[Tuple[str, ...], str]
TOKEN = re.compile(r"""(?:\s|//[^\n]*)*("[^"]*"|<==>|==>|:=|::|\|\||&&|==|!=|<=|>=|[A-Za-z_$][\w$']*|\d+\.0|\d+|[-+*/<>!(){}\[\],:;])""")
LEAVES = {"sInt": "int", "sBool": "bool", "sRef": "Ref", "sPerm": "real"}


class NotAsWritten(Exception):
    """A text is not as the program writes it."""


class Procedure:
    """A procedure: `locals` has the type of each of its variables, in the order of the text. `code` is for those who run it."""

    def __init__(self, name: str, locals_: Dict[str, Type], body: list):
        self.name, self.locals, self.body, self.code = name, locals_, body, None

    def labels(self) -> List[str]:
        """The labels of its assertions, in the order of the text."""
        found, todo = {}, [self.body]
        while todo:
            block = todo.pop()
            for at, stmt in enumerate(block):
                if stmt[0] == "assert":
                    found[stmt[1]] = None
                elif stmt[0] == "if":
                    todo += (block[at + 1:], stmt[3], stmt[2])
                    break
        return list(found)


def tokens_of(text: str) -> List[str]:
    """The tokens of a text, and an empty one behind the last."""
    found = TOKEN.findall(text)
    found.append("")
    return found


def procedure_texts(text: str) -> List[Tuple[str, str]]:
    """The name and the text of each procedure, which begins a line; what stands before the first is the prelude."""
    starts = [it.start() for it in re.finditer(r"^procedure ", text, re.M)] + [len(text)]
    parts = [text[at:end] for at, end in zip(starts, starts[1:])]
    return [(part[len("procedure "):part.find("(")].strip(), part) for part in parts]


def read_procedure(text: str) -> Procedure:
    """The procedure that a text spells."""
    return Reader(tokens_of(text)).procedure()


class Reader:
    """Reads trees from tokens, from left to right; `at` is the number of the next token."""

    def __init__(self, tokens):
        self.tokens, self.at = tokens, 0

    def next(self):
        token = self.tokens[self.at]
        if token == "":
            raise NotAsWritten("a text ends too soon")
        self.at += 1
        return token

    def need(self, token):
        if self.tokens[self.at] != token:
            raise NotAsWritten(f"`{token}` is missing before `{' '.join(self.tokens[self.at:self.at + 6])}`")
        self.at += 1

    def takes(self, token):
        """Whether the next token is this one, which is then passed."""
        if self.tokens[self.at] != token:
            return False
        self.at += 1
        return True

    def listed(self, end):
        """Expressions with commas between them, up to a token that is passed."""
        found = [self.expression()]
        while self.takes(","):
            found.append(self.expression())
        self.need(end)
        return tuple(found)

    def expression(self):
        token = self.next()
        if token == "(":
            return self.inside()
        if token[0] in "0123456789":
            return ("real", int(token[:-2])) if token.endswith(".0") else ("int", int(token))
        known = WORDS.get(token)
        if known:
            return known
        if self.tokens[self.at] == "[":
            return self.indexed(token)
        if self.tokens[self.at] == "(" and (token == "real" or token == "sPair" or token in LEAVES):
            self.at += 1
            parts = self.listed(")")
            return ("toreal", parts[0]) if token == "real" else ("con", token, parts)
        return ("name", token)

    def indexed(self, name):
        """A value of a map, or the map but for one value."""
        self.need("[")
        keys = [self.expression()]
        while self.takes(","):
            keys.append(self.expression())
        if self.takes(":="):
            value = self.expression()
            self.need("]")
            return ("with", name, tuple(keys), value)
        self.need("]")
        return ("at", name, tuple(keys))

    def inside(self):
        """What stands behind a bracket, up to the one that closes it."""
        token = self.tokens[self.at]
        if token == "-" or token == "!":
            self.at += 1
            found = ("neg" if token == "-" else "not", self.expression())
        elif token == "if":
            self.at += 1
            condition = self.expression()
            self.need("then")
            then = self.expression()
            self.need("else")
            found = ("if", condition, then, self.expression())
        elif token == "forall":
            self.at += 1
            found = self.quantified()
        else:
            left = self.expression()
            sign = self.next()
            found = ("bin", sign, left, self.expression())
        self.need(")")
        return found

    def quantified(self):
        bound = []
        while True:
            name = self.next()
            self.need(":")
            bound.append((name, self.next()))
            if self.takes("::"):
                return ("forall", tuple(bound), self.expression())
            self.need(",")

    def type(self) -> Type:
        keys = []
        if self.takes("["):
            keys.append(self.next())
            while self.takes(","):
                keys.append(self.next())
            self.need("]")
        return tuple(keys), self.next()

    def procedure(self) -> Procedure:
        self.need("procedure")
        name = self.next()
        for sign in "(){":
            self.need(sign)
        variables = {}
        while self.takes("var"):
            local = self.next()
            self.need(":")
            variables[local] = self.type()
            self.need(";")
        return Procedure(name, variables, self.statements())

    def statements(self):
        """Statements up to the bracket that closes their block."""
        found = []
        while not self.takes("}"):
            found.append(self.statement())
        return found

    def statement(self):
        token = self.next()
        if token == "assume":
            found = ("assume", self.expression())
        elif token == "assert":
            found = self.assertion()
        elif token == "havoc":
            found = ("havoc", self.next())
        elif token == "if":
            return self.branch()
        elif self.takes("["):
            keys = self.listed("]")
            self.need(":=")
            found = ("put", token, keys, self.expression())
        else:
            self.need(":=")
            found = ("assign", token, self.expression())
        self.need(";")
        return found

    def assertion(self):
        for sign in ("{", ":", "msg"):
            self.need(sign)
        label = self.next()[1:-1]
        self.need("}")
        return ("assert", label, self.expression())

    def branch(self):
        self.need("(")
        condition = None if self.takes("*") else self.expression()
        self.need(")")
        self.need("{")
        then = self.statements()
        if not self.takes("else"):
            return ("if", condition, then, [])
        self.need("{")
        return ("if", condition, then, self.statements())


WORDS = {"true": ("bool", True), "false": ("bool", False), "null": ("null",), "sUnit": ("unit",)}
