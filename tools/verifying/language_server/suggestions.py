"""The edits that belong to `did you mean ..?`, of a file that is refused for a name or a word."""
import re

from ..helping import Edit, Help

MEANT = re.compile(r"(?: behind `([^`]*)`)?; (did you mean `([^`]*)`\?)$")


def suggestions(source, told):
    """The ways to mend what is told: each in words and as an edit of the name that is told of."""
    found, n = MEANT.search(told.message), source.at(told.line, told.column)
    if found is None or n is None:
        return []
    if found[1] is not None:
        n = next((k for k in range(n - 1, -1, -1) if source.said(k) == found[1]), None)
    if n is None or source.tokens[n].kind not in ("name", "word"):
        return []
    line, column = source.place(n)
    return [Help(found[2], (Edit(line, column, line, column + len(source.said(n)), found[3]),))]
