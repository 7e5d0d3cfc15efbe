"""The text of conditions, for the checker of certificates: the types of its variables, its definitions as trees, and its failing names.

A tree is a tuple of an operator and trees; comparisons and connectives are put by `==`, `<=`, `&&` and `!`."""
import re

TOKEN = re.compile(r" ?(<==>|==>|:=|::|\|\||&&|==|!=|<=|>=|[A-Za-z][A-Za-z0-9]*|[0-9]+(?:\.0)?|[-+*/<>!()\[\],:])")
CONSTRUCTORS = {"sInt": ("int",), "sBool": ("bool",), "sRef": ("Ref",), "sPerm": ("real",), "sPair": ("Snap", "Snap")}
WORDS = {"true": ("true",), "false": ("!", ("true",)), "null": ("null",), "sUnit": ("unit",)}


class Refused(Exception):
    """Why a certificate is not accepted."""


def need(holds, reason):
    if not holds:
        raise Refused(reason)


def leaf(word):
    """The tree of an operand."""
    if not isinstance(word, str):
        return word
    if word[0].isdigit():
        return ("real", word[:-2]) if word.endswith(".0") else ("int", word)
    return WORDS.get(word) or ("name", word)


def closed(items):
    """The tree of what stands in one pair of brackets: its operator or name, and trees."""
    head, rest = items[0], items[1:]
    if head == "[":
        at = rest.index(":=") if ":=" in rest else len(rest)
        keys = tuple(leaf(it) for it in rest[1:at] if it != ",")
        name = ("name", rest[0])
        return ("at", name, *keys) if at == len(rest) else ("put", name, *keys, leaf(rest[at + 1]))
    if head != "(":
        return ("toreal" if head == "real" else head, *(leaf(it) for it in rest if it != ","))
    if rest[0] == "forall":
        bound = [it for it in rest[1:rest.index("::")] if it not in (",", ":")]
        return ("forall", tuple(bound[::2]), tuple(bound[1::2]), leaf(rest[-1]))
    if rest[0] == "if":
        return ("if", leaf(rest[1]), leaf(rest[3]), leaf(rest[5]))
    if len(rest) == 2:
        return ("neg" if rest[0] == "-" else "!", leaf(rest[1]))
    return plain(rest[1], leaf(rest[0]), leaf(rest[2]))


def plain(op, a, b):
    """A comparison or connective by `==`, `<=`, `&&` and `!`."""
    if op == "||":
        return ("!", ("&&", ("!", a), ("!", b)))
    if op == "==>":
        return ("!", ("&&", a, ("!", b)))
    if op in ("!=", "<==>"):
        return ("!", ("==", a, b)) if op == "!=" else ("==", a, b)
    if op in (">", "<"):
        return ("!", ("<=", a, b) if op == ">" else ("<=", b, a))
    return ("<=", b, a) if op == ">=" else (op, a, b)


def tree(text):
    """The tree of an expression: brackets are kept on a stack, so a deep text takes no deep call."""
    stack, items, at = [], [""], 0
    while at < len(text):
        token = TOKEN.match(text, at)
        need(token, "a text of the conditions is none")
        at, word = token.end(), token[1]
        if word == "[" or (word == "(" and len(items) > 1 and (items[-1] == "real" or items[-1] in CONSTRUCTORS)):
            name = items.pop()
            stack.append(items)
            items = ["[", name] if word == "[" else [name]
        elif word == "(":
            stack.append(items)
            items = ["("]
        elif word in ("]", ")"):
            done, items = closed(items), stack.pop()
            items.append(done)
        else:
            items.append(word)
    need(len(items) == 2 and not stack, "a text of the conditions is none")
    return leaf(items[1])


def type_of(text):
    """The type of a variable: its base, or a pair of key types and base."""
    keys, _, base = text.rpartition("]")
    return (tuple(keys[1:].split(", ")), base) if keys else base


class Conditions:
    """The types of the variables, the texts of the definitions, and the names that `fails` lists, by number."""

    def __init__(self, text):
        self.name, self.variables, self.definitions, self.fails = None, {}, {}, []
        for line in text.split("\n"):
            word, _, rest = line.partition(" ")
            if word == "conditions":
                self.name = rest
            elif word == "var":
                name, _, ty = rest.partition(": ")
                self.variables[name[1:]] = type_of(ty)
            elif word == "let":
                name, _, e = rest.partition(" := ")
                self.definitions[name[1:]] = e
            elif word == "fails":
                self.fails.append(rest.rpartition(" ")[2][1:])
