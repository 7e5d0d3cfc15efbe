"""The types of expressions, as far as the tokens of a file tell: what is refused for its type is told with both types."""
from .terms import Term, nodes_of, parts_of, spelled, statement_around

TAKES = {
    "==": "two of one type", "!=": "two of one type", "+": "two Ints, or two Perms", "-": "two Ints, or two Perms",
    "*": "an Int or a Perm on each side", "/": "an Int or a Perm, by an Int", "\\": "two Ints", "%": "two Ints",
    "&&": "Bools", "||": "Bools", "==>": "Bools", "<==>": "Bools",
    **{it: "two Ints, or two Perms" for it in ("<", "<=", ">", ">=")},
}
LITERALS = {"true": "Bool", "false": "Bool", "null": "Ref", "none": "Perm", "write": "Perm", "wildcard": "Perm"}
NAMES = {"Int": "an Int", "Bool": "a Bool", "Ref": "a Ref", "Perm": "a Perm"}
DIVIDES = "/ gives a Perm, and \\ divides Ints"


class Types:
    """The types of the nodes of one term, by the variables that are visible at a token."""

    def __init__(self, source, root, at):
        self.source, self.of = source, {}
        unit = source.unit_at(at)
        seen = source.visible(unit, at) if unit else []
        self.variables = {unit.variables[k].name: unit.variables[k].type for k in seen}
        for node, _ in reversed(list(nodes_of(root))):
            self.of[id(node)] = self.type(node)

    def type(self, node):
        """The type of a node whose parts have theirs, or None where it is not known."""
        said = self.source.said(node.at)
        parts = [self.of.get(id(it)) for it in node.parts]
        if node.kind == "leaf":
            return "Int" if said.isdigit() else LITERALS.get(said) or self.variables.get(said)
        if node.kind == "field":
            unit = self.source.declared.get(said)
            return unit.variables[0].type if unit is not None and unit.kind == "field" and unit.variables else None
        if node.kind in ("old", "unfolding", "choice"):
            return parts[-1] if parts else None
        if node.kind == "unary":
            return "Bool" if said == "!" else parts[0]
        return self.binary(said, parts) if node.kind == "binary" else None

    def binary(self, said, parts):
        if said in ("+", "-"):
            return parts[0]
        if said == "*":
            return "Int" if parts == ["Int", "Int"] else "Perm" if "Perm" in parts else None
        return {"/": "Perm", "\\": "Int", "%": "Int"}.get(said, "Bool")

    def wrong(self, node):
        """Whether the operands of a node have types that it does not take, as far as they are known."""
        said, parts = self.source.said(node.at), [self.of.get(id(it)) for it in node.parts]
        if None in parts:
            return False
        if node.kind == "unary":
            return parts[0] != "Bool" if said == "!" else parts[0] not in ("Int", "Perm")
        if node.kind == "choice":
            return parts[0] != "Bool" or parts[1] != parts[2]
        numbers = all(it in ("Int", "Perm") for it in parts)
        if said in ("==", "!="):
            return parts[0] != parts[1]
        if said in ("&&", "||", "==>", "<==>"):
            return parts != ["Bool", "Bool"]
        if said == "*":
            return not numbers
        if said == "/":
            return not numbers or parts[1] != "Int"
        return parts != ["Int", "Int"] if said in ("\\", "%") else not numbers or parts[0] != parts[1]

    def divides(self, node):
        """Whether a `/` stands among the arithmetic of a node."""
        todo = [node]
        while todo:
            it = todo.pop()
            said = self.source.said(it.at)
            if it.kind == "binary" and said == "/":
                return True
            if it.kind in ("unary", "choice") or it.kind == "binary" and said in ("+", "-", "*"):
                todo += it.parts[it.kind == "choice":]
        return False


def terms_at(source, n):
    """The terms among which a token stands, each with the type that it is to have, or None; of an assertion `assertion`."""
    unit = source.unit_at(n)
    clause = source.clause_at(n)
    if unit is None:
        return []
    if clause is not None:
        return [(Term(source, clause + 1).node, "assertion")]
    if unit.kind == "predicate" and unit.brace is not None and n > unit.brace:
        return [(Term(source, unit.brace + 1).node, "assertion")]
    it = statement_around(source, n)
    return statement_terms(source, it) if it is not None else []


def statement_terms(source, it):
    said = it.kind
    if said in ("inhale", "exhale", "assert"):
        return [(node, "assertion") for node in it.terms]
    if said in ("assume", "if", "elseif", "while"):
        return [(node, "Bool") for node in it.terms]
    if it.callee is not None:
        called = source.declared.get(source.said(it.callee))
        wanted = [it.type for it in called.parameters()] if called is not None else []
        return [(node, wanted[k] if k < len(wanted) else None) for k, node in enumerate(it.terms)]
    right = it.terms[-1] if said in ("assign", "var") and it.targets and it.terms else None
    if right is not None and len(it.terms) == 1 and not is_variable(source, it):
        right = None        # the target alone is there
    return [(node, target_type(source, it) if node is right else None) for node in it.terms]


def is_variable(source, it):
    return source.said(it.targets[0] - 1) != "."


def target_type(source, it):
    """The type of the first target of a statement."""
    name, unit = source.said(it.targets[0]), source.unit_at(it.at)
    if not is_variable(source, it):
        field = source.declared.get(name)
        return field.variables[0].type if field is not None and field.kind == "field" and field.variables else None
    found = {it.type for it in unit.variables if it.name == name} if unit is not None else set()
    return found.pop() if len(found) == 1 else None


def result_words(source, n):
    """A target of another type than what a call or a `new` gives it."""
    it = statement_around(source, n) if source.clause_at(n) is None else None
    unit = source.unit_at(n)
    if it is None or unit is None or n not in it.targets:
        return None
    had = {v.type for v in unit.variables if v.name == source.said(n)}
    called = source.declared.get(source.said(it.callee)) if it.callee is not None else None
    gives = [v.type for v in called.variables if v.role == "return"] if called is not None else ["Ref"]
    k = it.targets.index(n)
    is_new = it.kind == "new" or it.kind == "var" and not it.terms and it.callee is None
    if len(had) != 1 or k >= len(gives) or called is None and not is_new or not had | {gives[k]} <= set(NAMES):
        return None
    who = called.name if called is not None else "a new"
    return f"{who} gives {NAMES[gives[k]]}, and {source.said(n)} is {NAMES[had.pop()]}"


def type_words(source, n):
    """Why what stands at a token has the wrong type."""
    found = result_words(source, n)
    if found:
        return found
    for root, wanted in terms_at(source, n):
        if root is None:
            continue
        types = Types(source, root, n)
        for node, around in nodes_of(root):
            found = operator_words(source, types, node, n) or part_words(source, types, node, around, n)
            if found:
                return found
        found = root_words(source, types, root, wanted, n)
        if found:
            return found
    return "this has the wrong type"


def operator_words(source, types, node, n):
    said = source.said(node.at)
    if node.at != n or node.kind not in ("binary", "choice", "unary", "field"):
        return None
    if node.kind == "field":
        had = types.of.get(id(node.parts[0]))
        return f"a field is read of a Ref, and here of {NAMES[had]}" if had in NAMES and had != "Ref" else None
    if not types.wrong(node):
        return None
    parts = [types.of[id(it)] for it in node.parts]
    here = [NAMES.get(it, it) for it in parts[node.kind == "choice" and parts[0] == "Bool":]]
    here = " and ".join([", ".join(here[:-1])] * (len(here) > 1) + here[-1:])
    if node.kind == "choice":
        words = f"`?:` takes a Bool and two of one type, and here are {here}"
    elif node.kind == "unary":
        words = f"`{said}` takes {'a Bool' if said == '!' else 'an Int or a Perm'}, and here is {here}"
    else:
        words = f"`{said}` takes {TAKES[said]}, and here are {here}"
    return words + (f": {DIVIDES}" if any(map(types.divides, node.parts)) else "")


def part_words(source, types, node, around, n):
    """An amount or an argument of an instance of another type."""
    if around is None or node.start != n:
        return None
    if around.kind == "acc" and node is not around.parts[0]:
        return wanted_words(source, types, node, "Perm", "an amount is")
    if around.kind == "call":
        called = source.declared.get(source.said(around.at))
        formals = called.parameters() if called is not None else []
        k = next(k for k, it in enumerate(around.parts) if it is node)
        return wanted_words(source, types, node, formals[k].type, f"`{formals[k].name}` of {called.name} is") if k < len(formals) else None
    return None


def root_words(source, types, root, wanted, n):
    if wanted == "assertion":
        for node in conditions_of(source, root):
            if node.start == n:
                return wanted_words(source, types, node, "Bool", "what is asserted is")
        return None
    if wanted is None or root.start != n:
        return None
    return wanted_words(source, types, root, wanted, "what stands here is to be")


def conditions_of(source, root):
    """The parts of an assertion and the conditions of its `==>` and `?:`."""
    yield from parts_of(source, root)
    for node, _ in nodes_of(root):
        if source.said(node.at) in ("==>", "?") and node.kind in ("binary", "choice"):
            yield node.parts[0]


def wanted_words(source, types, node, wanted, whose):
    had = types.of.get(id(node))
    if had is None or had == wanted or wanted not in NAMES:
        return None
    more = f": {DIVIDES}" if had == "Perm" and types.divides(node) else ""
    return f"{whose} {NAMES[wanted]}, and `{spelled(source, node)}` is {NAMES[had]}{more}"
