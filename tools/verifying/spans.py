"""How far what is told of a place reaches on its line: a statement, a part of an assertion, a place of the heap, or a name."""
from .terms import Statement, Term, nodes_of

STATEMENTS = ("inhale", "exhale", "assert", "assume", "fold", "unfold", "var")
HEADS = ("while", "if", "elseif")
CONNECTIVES = ("&&", "==>", "?")


def span(source, line, column):
    """The bytes of a line that are marked for a place of it, as the first, from 0 on, and the one behind the last."""
    n = source.at(line, column)
    if n is None:
        return column - 1, column
    first, last = tokens_of_span(source, n)
    begin = source.lines[line - 1]
    end = min(source.tokens[max(n, last)].end - begin, len(source.line_text(line)))
    start = source.tokens[first].column - 1 if source.tokens[first].line == line else column - 1
    return start, max(end, column)


def tokens_of_span(source, n):
    """The first and the last token of what stands at a token: a whole statement, a part of a term, or the token alone."""
    term = term_around(source, n)
    if term is not None:
        return part_at(source, term, n)
    text, kind = source.said(n), source.tokens[n].kind
    if text in HEADS or text in STATEMENTS or kind == "name" and source.said(n - 1) not in ("method", "predicate", "field", ".", ":"):
        return n, Statement(source, n).end - 1
    return n, n


def part_at(source, term, n):
    """The part of a term of which a token is the field, the operator or the name; else the largest that begins there and is no `&&`."""
    nodes = [it for it, _ in nodes_of(term)]
    own = next((it for it in nodes if it.at == n and it.kind in ("field", "binary", "call")), None)
    if own is not None:
        return own.start, own.last
    return n, max([it.last for it in nodes if it.start == n and source.said(it.at) not in CONNECTIVES], default=n)


def term_around(source, n):
    """The term of the clause, of the body of a predicate or of the statement in which a token stands; None for its first token."""
    unit, clause = source.unit_at(n), source.clause_at(n)
    if clause is not None:
        return Term(source, clause + 1).node if clause != n else None
    if unit is None:
        return None
    if unit.kind == "predicate":
        return Term(source, unit.brace + 1).node if unit.brace is not None and n > unit.brace else None
    return statement_term(source, n)


def statement_term(source, n):
    """The term in which a token stands of the statement that begins last before it."""
    at = n
    while at > 0 and source.said(at - 1) not in ("{", "}", ";") and at != source.head[n]:
        at -= 1
    while at < n:
        it = Statement(source, at)
        if n < it.end:
            return next((term for term in it.terms if term.first <= n <= term.last), None)
        at = max(at + 1, it.end)
    return None
