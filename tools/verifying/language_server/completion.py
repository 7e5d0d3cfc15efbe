"""What may be typed at a place: words of Viper, names that are visible, and behind a dot the fields."""
import re
import string
from bisect import bisect_left

from .names import FIELD, METHOD

KEYWORD, FIELD_KIND, FUNCTION, METHOD_KIND, VARIABLE, TYPE = 14, 5, 3, 2, 6, 25
UNIT_WORDS = ("field", "predicate", "method")
CLAUSE_WORDS = ("requires", "ensures", "invariant", "returns")
STATEMENT_WORDS = ("var", "if", "elseif", "else", "while", "inhale", "exhale", "assert", "assume", "fold", "unfold")
TERM_WORDS = ("acc", "old", "unfolding", "in", "null", "true", "false", "write", "none", "wildcard", "new")
TYPES = ("Int", "Bool", "Ref", "Perm")
WORD = frozenset(string.ascii_letters + string.digits + "_$'")
CLOSED_COMMENT = re.compile(r"/\*.*?\*/|//[^\n]*\n", re.S)


def completions(document, position):
    """The items at a position."""
    source, byte = document.source, document.text.byte_of_position(position)
    before = token_before(document, byte)
    if is_in_comment(document, before, byte):
        return []
    said = source.said(before) if before is not None else ""
    if said == ".":
        return [field(it) for it in source.units if it.kind == FIELD]
    if said == ":":
        return [{"label": it, "kind": TYPE} for it in TYPES]
    inside = before is not None and source.block[before] is not None
    words = (*CLAUSE_WORDS, *STATEMENT_WORDS, *TERM_WORDS) if inside else (*UNIT_WORDS, *CLAUSE_WORDS, *TERM_WORDS)
    items = [{"label": it, "kind": KEYWORD, "sortText": f"9{it}"} for it in words]
    seen = document.names.visible(before + 1 if before is not None else 0) or (document.names.visible(before) if before is not None else [])
    items += [{"label": it.name, "kind": VARIABLE, "detail": f"{it.kind} {it.name}: {it.type}", "sortText": f"0{it.name}"} for it in seen]
    return items + [called(source, it) for it in source.units if it.kind != FIELD]


def token_before(document, byte):
    """The number of the last token before the word that is being typed, or None where there is none."""
    data = document.text.data
    while byte > 0 and chr(data[byte - 1]) in WORD:
        byte -= 1
    return bisect_left(document.names.starts, byte) - 1 if document.names.starts[:1] and document.names.starts[0] < byte else None


def is_in_comment(document, before, byte):
    """Whether a comment is open at a byte."""
    begin = document.source.tokens[before].end if before is not None else 0
    gap = document.text.data[begin:byte].decode("latin-1")
    rest = CLOSED_COMMENT.sub("", gap)
    return "//" in rest.rpartition("\n")[2] or "/*" in rest


def field(unit):
    type_ = unit.variables[0].type if unit.variables else ""
    return {"label": unit.name, "kind": FIELD_KIND, "detail": f"field {unit.name}: {type_}"}


def called(source, unit):
    """A predicate or a method, with its parameters."""
    formals = ", ".join([f"{it.name}: {it.type}" for it in unit.parameters()])
    kind = METHOD_KIND if unit.kind == METHOD else FUNCTION
    return {"label": unit.name, "kind": kind, "detail": f"{unit.kind} {unit.name}({formals})", "sortText": f"5{unit.name}"}
