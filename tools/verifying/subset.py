"""The constructs of Viper that are outside of the language, by the token at which a file is refused and what stands before it."""

PAGE = "docs/language.md"
LONGEST_ROW = 1024  # tokens without a divider
REFUSED = {     # the refused words of docs/tokens.md
    "function": "functions are", "domain": "domains are", "axiom": "domains and their axioms are",
    "unique": "domains and their unique functions are", "import": "imports are", "define": "macros (define) are",
    "label": "labels and old[label] are", "goto": "goto is",
    "forall": "quantifiers and quantified permissions (forall) are", "exists": "quantifiers (exists) are",
    "forperm": "quantifiers (forperm) are", "let": "let is", "perm": "perm is", "epsilon": "epsilon is", "Seq": "sequences are",
    "Set": "sets are", "Multiset": "multisets are", "Map": "maps are", "Rational": "the type Rational is",
    "package": "magic wands (package) are", "apply": "magic wands (apply) are", "applying": "magic wands (applying) are",
    "refute": "refute is", "decreases": "termination measures (decreases) are",
}
STATEMENTS = {  # words of Viper that are names here, and so stand before what cannot follow a name
    "havoc": "havoc is", "quasihavoc": "quasihavoc is", "quasihavocall": "quasihavoc is", "return": "return is",
    "fresh": "fresh is", "constraining": "constraining is", "asserting": "asserting is", "adt": "algebraic data types (adt) are",
    "union": "sets (union) are", "intersection": "sets (intersection) are", "setminus": "sets (setminus) are",
    "subset": "sets (subset) are", "interpretation": "domains and their interpretation are", "result": "functions and their result are",
}
BYTES = {
    "@": "annotations (@) are", '"': "strings are", "|": "lengths, as |s|, are", "#": "names with # are",
}
OPERATORS = ("+", "-", "*", "/", "\\", "%", "<", "<=", ">", ">=", "==", "!=", "&&", "||", "==>", "<==>", "!", "?", ":", ":=", "(", ",")
WRITTEN = {"and": "&&", "or": "||", "not": "!", "implies": "==>", "iff": "<==>", "div": "\\", "mod": "%"}
TYPES = ("Int", "Bool", "Ref", "Perm")


def outside(words):
    """`words are not in the language`, with the page."""
    return f"{words} not in the language, which is a subset of Viper ({PAGE})"


def construct(source, n):
    """The construct to which a token belongs at which a file is refused for its grammar, in words, or None."""
    said, before, further = source.said(n), source.said(n - 1), source.said(n - 2)
    if said == "[":
        return bracket(source, n, before)
    if said == "*" and before == "-" and further == "-":
        return "magic wands (--*) are"
    if said in ("+", "-") and before == "+" == said:
        return "sequences and their ++ are" if further not in OPERATORS else None
    if said == "in" and ends_operand(source, n - 1) and not opens_unfolding(source, n):
        return called_before(source, n, "asserting") and STATEMENTS["asserting"] or "sets and sequences, and `in` on them, are"
    if said == "!" and source.said(n + 1) == "in":
        return "sets and sequences, and `in` on them, are"
    if said == "." and before == ".":
        return "sequences and ranges are"
    if before in STATEMENTS and source.tokens[n - 1].kind == "name" and source.said(n - 2) not in (".", ":"):
        return STATEMENTS[before]
    if said in STATEMENTS and source.tokens[n].kind == "name":
        return STATEMENTS[said]
    if before == ":" and source.said(n + 1) == "[":
        return "types with parameters are"
    if said == "{" and called_before(source, n, "constraining"):
        return STATEMENTS["constraining"]
    return None


def bracket(source, n, before):
    if before == "old":
        return REFUSED["label"]
    if before in (":", "<"):
        return "types with parameters are"
    kind = source.tokens[n - 1].kind if n > 0 else ""
    if before == "]" or before == ")" or kind == "name":
        return "types with parameters are" if source.said(n - 2) == ":" else "sequences and maps, as s[i], are"
    return "inhale-exhale assertions, as [A, B], are"


def ends_operand(source, n):
    return n >= 0 and (source.tokens[n].kind in ("name", "number") or source.said(n) in (")", "]", "null", "true", "false"))


def opens_unfolding(source, n):
    """Whether some `unfolding` waits for an `in` before a token of a term."""
    depth, k = 0, n - 1
    while k >= 0 and source.said(k) not in ("{", "}", ";", ":=") and n - k < LONGEST_ROW:
        depth += (source.said(k) == ")") - (source.said(k) == "(")
        if source.said(k) == "unfolding" and depth == 0:
            return True
        k -= 1
    return False


def called_before(source, n, name):
    """Whether `name ( .. )` stands right before a token."""
    if source.said(n - 1) != ")":
        return False
    begin = next((k for k in range(n - 2, max(-1, n - LONGEST_ROW), -1) if source.closing.get(k) == n - 1), None)
    return begin is not None and source.said(begin - 1) == name


def hint(source, n):
    """What to write in place of what stands at a token, or nothing."""
    said, before = source.said(n), source.said(n - 1)
    head = source.said(source.head[n - 1]) if n > 0 and source.head[n - 1] is not None else ""
    if said == "," and head in ("var", "field") and source.said(n - 1) in TYPES:
        return f"a {head} declares one name; write `{head}` for each"
    if said in (":=", ",", ";") and before != ")" and head == "var" and source.said(n - 2) == "var":
        return "a variable is declared with its type, as in `var x: Int`"
    if said == "if" and before == "else":
        return "`else if` is written `elseif`"
    if said == "+" and (before in OPERATORS or before in ("assert", "assume", "inhale", "exhale")):
        return "there is no sign +"
    if said in ("+", "-") and source.said(n + 1) == said:
        return f"there is no {said}{said}; write `{before} := {before} {said} 1`"
    if before == ":" and source.tokens[n].kind == "name":
        return "the types are Int, Bool, Ref and Perm"
    if before == "." and said.isdigit() and source.said(n - 2).isdigit():
        return "there are no decimals; a Perm is written as `1/2`"
    if said == "," and source.said(n - 2) == "." and source.tokens[n - 1].kind == "name":
        return "a field is no target of a call"
    if said in ("<", "<=", ">", ">=") and before not in ("<=", "-"):
        return "comparisons do not stand in a row; join them by &&"
    if before in ("if", "while", "elseif") and said != "(":
        return f"a condition stands in brackets, as in `{before} (b)`"
    if said == "{" and source.block[n] is not None:
        return "a block stands behind `if`, `elseif`, `else` or `while`"
    return habit(source, n, said, before)


def habit(source, n, said, before):
    """What other languages write as stands at a token, or nothing."""
    if before in WRITTEN and source.tokens[n - 1].kind == "name":
        return f"`{before}` is written {WRITTEN[before]}"
    names = before in ("method", "predicate", "field", "var") or source.said(n + 1) == ":"
    if names and source.tokens[n].kind == "word":
        return f"`{said}` is a word of the language, and no name"
    if source.said(n - 2) == "not" and source.tokens[n - 2].kind == source.tokens[n - 1].kind == "name":
        return f"`not` is written {WRITTEN['not']}"
    if any(called_before(source, n, it) for it in ("if", "elseif", "while")):
        return "a block in braces stands behind a condition"
    if said == "(" and source.said(n - 2) == "." and source.tokens[n - 1].kind == "name":
        return f"a method has no receiver; a call is written {before}(..)"
    if said == ">" and before in ("<=", "-"):
        return f"there is no {before}>; equivalence is written <==>, and implication ==>"
    return ""


def byte_words(source, n):
    """Why a byte begins no token."""
    it, before = source.tokens[n], source.said(n - 1)
    if it.text == '"' and before == "import":
        return outside(REFUSED["import"])
    if it.text in BYTES:
        return outside(BYTES[it.text])
    if it.text == "=":
        if before in ("+", "-", "*"):
            return f"there is no `{before}=`; write `x := x {before} 1`"
        return "`=` alone is no sign: `:=` assigns, and `==` compares"
    if it.text == "&":
        return "`&` alone is no sign; write `&&`"
    if it.kind != "odd":
        return f"no token begins with `{it.text}`"
    if ord(it.text) > 127:
        return "a byte above 127 may stand in comments alone"
    if ord(it.text) < 33 or ord(it.text) == 127:
        return f"no token begins with the byte {ord(it.text)}"
    return f"no token begins with `{it.text}`"
