"""What the program says of a file that it refuses, in words: a table of the reasons, and one of the rules of types."""
import re

from . import subset
from .failures import Told
from .source import WORDS
from .spelling import did_you_mean, meant
from .terms import statement_around
from .types import type_words

REASONS = {
    "size": "the file has more than 1,048,576 bytes",
    "bad-byte": "",
    "open-comment": "this comment has no end",
    "big-literal": "this number is above 2^127 - 1",
    "braces": "more than 128 braces are open here",
    "long-group": "more than 1,024 tokens stand in a row here, without a word of a clause or a statement, a brace, `;` or `:=`",
    "unsupported": "",
    "syntax": "",
    "type": "",
    "weight": "the program weighs more than 100,000, so it is too large to be translated",
    "read": "the file cannot be read",
}
RULES = {       # what docs/typing.md says that breaks each, and what is told of it
    1: ("a name that is unknown in its role", ""),
    2: ("a second declaration: in the shared space, among the formals of a method or predicate, or of a visible variable",
        "declared twice: {name}"),
    3: ("a wrong type", ""),
    4: ("`acc` or an instance inside an expression",
        "`{name}` is permission, which may stand alone, beside `&&`, behind `==>` and in the sides of `?:`, and not inside an expression"),
    5: ("`old` in a `requires` clause or in the body of a predicate", "`old` has no meaning in {place}"),
    6: ("`wildcard` elsewhere than as the whole amount of an `acc`; in the body of a predicate; in a `fold`, `unfold` or `unfolding`",
        "`wildcard` may stand only as the whole amount of an `acc`, and not in the body of a predicate, a fold, an unfold or an unfolding"),
    7: ("`fold`, `unfold` or `unfolding` of a predicate without a body",
        "predicate {name} has no body, so it cannot be folded or unfolded"),
    8: ("a parameter as target", "{name} is a parameter, and a parameter cannot be assigned"),
    9: ("a wrong number of arguments", "{name} takes {count}"),
    10: ("a wrong number of targets, or a field as target of a call or `new`", ""),
    11: ("a target twice", "{name} is a target twice"),
    12: ("an `acc` of what is neither a field of a term nor an instance",
         "`acc` takes a field, as in acc(x.f), or a predicate, as in acc(P(x))"),
    13: ("a parameter of a predicate of type Perm", "{name} is a parameter of a predicate, and cannot be a Perm"),
    14: ("a field twice in a `new`", "{name} is named twice in this new"),
    15: ("a block that is deeper than 128", "blocks are more than 128 deep here"),
    16: ("`unfolding` in the body of a predicate", "`unfolding` may not stand in the body of a predicate"),
}
FIRST = "this is the first error of types; what is wrong behind it is told once it is mended"
TYPE_WORDS = ("Int", "Bool", "Ref", "Perm")
LITERALS = ("true", "false", "null", "write", "none")
LINE = re.compile(r"error: ([a-z-]+)(?: ([0-9]{1,18}):([0-9]{1,18}))?(?: rule ([0-9]{1,6}))?(?: [0-9]+)?")
ROLES = {"field": "a field", "predicate": "a predicate", "method": "a method"}


def told(source, said):
    """What is told of a line with which the program refuses a file. Of the file as a whole it is told at its first place."""
    found = LINE.fullmatch(said.strip())
    if found is None or found[1] not in REASONS:
        return Told(1, 1, f"the file is refused: {said.strip()}", whole=True)
    reason = found[1]
    if found[2] is None:
        return Told(1, 1, REASONS[reason] or reason, whole=True)
    line, column = max(1, int(found[2])), max(1, int(found[3]))
    n = source.at(line, column)
    message, notes = REASONS[reason], []
    if reason == "type":
        message, notes = rule_words(source, n, int(found[4] or 0))
    elif reason == "syntax":
        message, notes = syntax_words(source, n)
    elif n is None:
        message = message or reason
    elif reason == "bad-byte":
        message = subset.byte_words(source, n)
    elif reason == "unsupported":
        message = subset.outside(subset.REFUSED.get(source.said(n), f"`{source.said(n)}` is"))
    return Told(line, column, message, notes)


def is_of_types(reason):
    """Whether a line refuses a file for its types: of several such errors it tells the first."""
    return reason.startswith("error: type ")


def syntax_words(source, n):
    """Why a token cannot stand where it does, or what is open where the file ends."""
    if n is None:
        left = [k for k, it in enumerate(source.tokens) if it.text in ("{", "(", "[") and k not in source.closing]
        if not left:
            return "the file ends too early", []
        return f"the file ends too early: a `{source.said(left[-1])}` is open", [(*source.place(left[-1]), "this one")]
    found = subset.construct(source, n)
    if found:
        return subset.outside(found), []
    more = subset.hint(source, n)
    return f"`{source.said(n)}` cannot stand here{misspelt_word(source, n) or (f'; {more}' if more else '')}", []


def misspelt_word(source, n):
    """Which word of the language was meant by a name that stands where a file is refused, or before that; or nothing."""
    if source.tokens[n].kind == "name":
        found = did_you_mean(source.said(n), TYPE_WORDS if source.said(n - 1) == ":" else WORDS)
        if found:
            return found
    before = n - 1
    if source.said(before) == ")":
        before = next((k for k, closes in source.closing.items() if closes == before), 0) - 1
    if before < 0 or source.tokens[before].kind != "name" or source.said(before - 1) in (".", ":", ",", "method", "predicate", "field", "var"):
        return ""
    found = meant(source.said(before), WORDS)
    return f" behind `{source.said(before)}`; did you mean `{found}`?" if found else ""


def rule_words(source, n, rule):
    """What is told of a broken rule, with its notes."""
    if n is None or rule not in RULES:
        return f"rule {rule} of docs/typing.md is broken", []
    name = source.said(n)
    if rule == 1:
        return unknown_words(source, n, name)
    if rule == 3:
        return type_words(source, n), []
    if rule == 10:
        return target_words(source, n, name), []
    if rule == 4 and name != "acc" and (name not in source.declared or source.declared[name].kind != "predicate"):
        return called_words(source, name), []
    unit = source.unit_at(n)
    first = first_declaration(source, n, name) if rule == 2 else None
    notes = [(*source.place(first), "the first declaration")] if first is not None else []
    where = "the body of a predicate" if unit is not None and unit.kind == "predicate" else "a precondition"
    words = RULES[rule][1].format(name=name, place=where, count=parameters_of(source, name))
    return words, notes


def parameters_of(source, name):
    unit = source.declared.get(name)
    if unit is None:
        return "another number of arguments"
    count = len(unit.parameters())
    return f"{count} argument{'s' * (count != 1)}"


def first_declaration(source, n, name):
    """The token of the declaration before that at a token, or None where it is not known."""
    unit = source.unit_at(n)
    if unit is None:
        return None
    if unit.name_at == n:
        first = source.declared.get(name)
        return first.name_at if first is not None and first is not unit else None
    if unit.kind == "field":
        return None
    for k in range(unit.name_at + 1, n):
        if source.said(k) == name and source.said(k + 1) == ":" and is_declared_at(source, k, n):
            return k
    return None


def is_declared_at(source, k, n):
    """Whether the declaration at a token is visible at another one."""
    block = source.block[k]
    return source.said(k - 1) in ("(", ",") and block is None or source.said(k - 1) == "var" and n < source.closing.get(block, n + 1)


def unknown_words(source, n, name):
    """A name that stands for nothing where it is."""
    role = role_of(source, n)
    known = source.declared.get(name)
    kind = ROLES[known.kind] if known is not None and known.name_at != n else ""
    if role == "variable":
        words = f"no variable {name} is declared here"
        unit = source.unit_at(n)
        if not kind and unit is not None and any(it.name == name for it in unit.variables):
            return f"variable {name} is not visible here", []
        words += did_you_mean(name, [*variables_at(source, n), *LITERALS]) if not kind else ""
    else:
        words = f"no {role} {name} is declared"
        words += did_you_mean(name, [it.name for it in source.units if it.kind == role]) if not kind else ""
    if kind:
        what = {"field": "a field is read of a Ref, as in x." + name, "method": "a call stands alone, or as a whole right side"}
        more = what.get(known.kind, "") if role != known.kind else ""
        return f"{words}; {name} is {kind}" + (f", and {more}" if more else ""), [(*source.place(known.name_at), "declared here")]
    if role == "predicate" and not words.endswith("?"):
        words += f"; functions are not in the language ({subset.PAGE})"
    return words, []


def variables_at(source, n):
    """The names of the variables that are visible at a token."""
    unit = source.unit_at(n)
    return [unit.variables[k].name for k in source.visible(unit, n)] if unit is not None else []


def called_words(source, name):
    """A call inside an expression of what is no predicate."""
    unit = source.declared.get(name)
    if unit is not None and unit.kind == "method":
        return f"{name} is a method; a call stands alone, or as a whole right side, and not inside an expression"
    found = did_you_mean(name, [it.name for it in source.units if it.kind == "predicate"])
    if found:
        return f"no predicate {name} is declared{found}"
    return f"no predicate {name} is declared; functions are not in the language ({subset.PAGE})"


def role_of(source, n):
    """What a name is to stand for where it is: a field, predicate, method or variable."""
    if source.said(n - 1) == ".":
        return "field"
    it = statement_around(source, n) if source.clause_at(n) is None else None
    if it is not None and is_in_new(source, it, n):
        return "field"
    if source.said(n + 1) == "(":
        return "method" if it is not None and it.callee == n else "predicate"
    return "variable"


def is_in_new(source, it, n):
    return any(source.said(k) == "new" and k < n < source.closing.get(k + 1, k) for k in range(it.at, it.end))


def target_words(source, n, name):
    """A wrong number of targets, or a field as target."""
    it = statement_around(source, n)
    field = it is not None and it.targets and source.said(it.targets[0] - 1) == "."
    if field:
        return f"a field is no target of {'a new' if name == 'new' else 'a call'}; take a variable, and assign it to the field"
    unit = source.declared.get(name)
    if unit is None or unit.kind != "method":
        return "a new has one target" if name == "new" else f"{name} gives another number of results"
    count = len([it for it in unit.variables if it.role == "return"])
    return f"{name} gives {count} result{'s' * (count != 1)}, and so many targets it needs"


# ---- the documents

def differences(typing, language, tokens):
    """What the texts of docs/typing.md, docs/language.md and docs/tokens.md say of rules, reasons and refused words that these tables
    do not, and the other way round: a line for each."""
    found = []
    rows = {int(number): words.strip() for number, words in re.findall(r"^\| ([0-9]+) \| (.*?) \| .* \|$", typing, re.M)}
    for number in sorted(set(rows) | set(RULES)):
        theirs, mine = rows.get(number), RULES.get(number, [None])[0]
        if theirs != mine:
            found.append(f"docs/typing.md says of rule {number} '{theirs}', and tools/verifying/refusals.py '{mine}'")
    table = language.partition("## What is translated")[2].partition("\n## ")[0]
    reasons = set()
    for row in re.findall(r"^\| (`error: .*?) \|", table, re.M):
        reasons |= {it.replace("error: ", "").split()[0] for it in re.findall(r"`(.*?)`", row)}
    for it in sorted(reasons ^ (set(REASONS) - {"read"})):
        found.append(f"docs/language.md and tools/verifying/refusals.py do not both have the reason {it}")
    words = set(re.findall(r"`(\w+)`", tokens.partition("## Refused words")[2].partition("\n## ")[0]))
    for it in sorted(words ^ set(subset.REFUSED)):
        found.append(f"docs/tokens.md and tools/verifying/subset.py do not both have the refused word {it}")
    return found
