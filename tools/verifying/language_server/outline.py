"""What a file consists of: its symbols, what can be folded, and the kinds of its tokens for colours."""
import re

from ..source import PIECE
from .names import FIELD, METHOD, PREDICATE

SYMBOLS = {FIELD: 8, PREDICATE: 11, METHOD: 6, "parameter": 13, "return": 13, "local": 13}     # the protocol's numbers of kinds
TYPES = ("keyword", "type", "number", "operator", "variable", "parameter", "property", "function", "method", "comment")
MODIFIERS = ("declaration", "readonly")
OF_KIND = {FIELD: "property", PREDICATE: "function", METHOD: "method", "parameter": "parameter", "return": "variable", "local": "variable"}
TYPE_WORDS = ("Int", "Bool", "Ref", "Perm")
CONSTANTS = ("true", "false", "null", "none", "write", "wildcard")
OPERATORS = frozenset(":= ? <==> ==> || && == != <= >= < > + - * / \\ % !".split())
LINES_OF_COMMENTS = re.compile(r"(?:^[ \t]*//[^\n]*\n){2,}", re.M)


def document_symbols(document):
    """The fields, predicates and methods, with the variables of each."""
    found = []
    for unit in document.source.units:
        inner = [symbol(document, it.name, it.kind, it.at, it.at, it.type) for it, _, _ in document.names.variables[unit.word]]
        last = min(unit.end, len(document.source.tokens)) - 1
        kind_of_type = unit.variables[0].type if unit.kind == FIELD and unit.variables else unit.kind
        found.append({**symbol(document, unit.name, unit.kind, unit.name_at, last, kind_of_type, unit.word), "children": inner})
    return found


def symbol(document, name, kind, at, last, detail, first=None):
    whole = document.range_of(at if first is None else first, last)
    return {"name": name, "kind": SYMBOLS[kind], "detail": detail or "", "range": whole, "selectionRange": document.range_of(at)}


def workspace_symbols(documents, query):
    """The units of files whose names have the letters that are asked for, in their order."""
    found = []
    for document in documents:
        for unit in document.source.units:
            if has_letters(unit.name.lower(), query.lower()):
                found.append({"name": unit.name, "kind": SYMBOLS[unit.kind], "containerName": document.path.rpartition("/")[2],
                              "location": {"uri": document.uri, "range": document.range_of(unit.name_at)}})
    return found


def has_letters(name, query):
    rest = iter(name)
    return all(it in rest for it in query)


def folding_ranges(document):
    """The blocks, and the comments of several lines."""
    source, found = document.source, []
    for opening, closing in sorted(source.closing.items()):
        if source.said(opening) == "{" and source.tokens[opening].line < source.tokens[closing].line:
            found.append(folded(document, source.tokens[opening].start, source.tokens[closing].start))
    for unit in source.units:
        last = min(unit.brace if unit.brace is not None else unit.end, len(source.tokens)) - 1
        if source.tokens[unit.word].line < source.tokens[last].line:
            found.append(folded(document, source.tokens[unit.word].start, source.tokens[last].start, ""))
    for begin, end in comments(source):
        found.append(folded(document, begin, end, "comment"))
    return [it for it in found if it["startLine"] < it["endLine"]]


def folded(document, begin, end, kind="region"):
    first, last = document.text.position_of_byte(begin), document.text.position_of_byte(end)
    more = {"kind": kind} if kind else {}
    return {"startLine": first["line"], "endLine": last["line"] - (kind == "region"), **more}


def comments(source):
    """The bytes at which comments of several lines begin and end."""
    found = [(it.start(), it.end() - 1) for it in LINES_OF_COMMENTS.finditer(source.text)]
    found += [(it.start(), it.end()) for it in PIECE.finditer(source.text) if it["blank"] and it[0].startswith("/*")]
    return sorted(found)


def semantic_tokens(document, begin=0, end=None):
    """The tokens of a part of a text with their kinds, each as five numbers that go on from the one before."""
    data, line, character = [], 0, 0
    for n, it in enumerate(document.source.tokens):
        if it.end <= begin or end is not None and it.start >= end:
            continue
        kind = kind_of(document, n, it)
        if kind is None:
            continue
        at = document.text.position_of_byte(it.start)
        character = character if at["line"] == line else 0
        data += [at["line"] - line, at["character"] - character, len(it.text), TYPES.index(kind[0]), kind[1]]
        line, character = at["line"], at["character"]
    return data


def kind_of(document, n, it):
    """The type and the modifiers of a token, or None where it has no colour of its own."""
    if it.kind == "word":
        constant = it.text in CONSTANTS
        return ("type" if it.text in TYPE_WORDS else "keyword", 2 if constant else 0)
    if it.kind == "number":
        return "number", 0
    if it.kind == "sign":
        return ("operator", 0) if it.text in OPERATORS else None
    found = document.names.meant.get(n)
    if found is None:
        return None
    return OF_KIND[found.kind], (1 if found.at == n else 0) | (2 if found.kind == "parameter" else 0)
