"""A label that may fail, in words, at the place where a reader wants to look.

A label has the place of the step that is running, the place of the part that fails, and why. Which step it is and which clause the
part stands in is read off the tokens. Where they do not fit together, a plain message has both places."""
import re

from .stand_ins import Spelling, StandIns
from .terms import Statement, Term, nodes_of, parts_of

LABEL = re.compile(r"([0-9]{1,18}):([0-9]{1,18}) ([0-9]{1,18}):([0-9]{1,18}) ([a-z]+)")
LONG = 400      # the most characters of a term that is told
PLAIN = {
    "null": "a reference might be null", "perm": "there might be too little permission", "false": "this might not hold",
    "div": "a divisor might be 0", "negative": "an amount might be negative", "amount": "an amount might not be positive",
    "null perm": "a reference might be null, or there might be too little permission",
}
STEPS = ("assert", "exhale", "inhale", "assume", "fold", "unfold")


class Told:
    """What is told of a place, and what is told of others beside it: `notes` has a line, a column and a text for each. `whole` tells
    that it is told of the file as a whole, so that no line of it is shown."""

    def __init__(self, line, column, message, notes=(), whole=False):
        self.line, self.column, self.message, self.notes, self.whole = line, column, message, list(notes), whole

    def __eq__(self, other):
        return vars(self) == vars(other)

    def __repr__(self):
        return f"Told({self.line}, {self.column}, {self.message!r}, {self.notes!r})"


class Label:
    """`at` and `part` are places, `kinds` what might fail: one kind, or `null perm` for the two of one access."""

    def __init__(self, at, part, kinds):
        self.at, self.part, self.kinds = at, part, kinds


def read(label):
    """A label from its words, or None where they are none."""
    found = LABEL.fullmatch(label.strip())
    if found is None:
        return None
    line, column, part_line, part_column = (max(1, int(it)) for it in found.groups()[:4])
    return Label((line, column), (part_line, part_column), found[5])


def told(source, label):
    """What is told of one label."""
    found = read(label)
    return Told(1, 1, label.strip()) if found is None else words_of(source, found)


def joined(source, labels):
    """What is told of several labels: a list of what is told and the labels that it tells of, which are two where null and
    permission are those of one access, and else one."""
    groups = {}
    for label in dict.fromkeys(labels):
        found = read(label)
        access = (found.at, found.part) if found and found.kinds in ("null", "perm") else label
        groups.setdefault(access, []).append(label)
    result = []
    for access, group in groups.items():
        if len(group) == 2:
            result.append((words_of(source, Label(*access, "null perm")), sorted(group)))
        else:
            result.append((told(source, group[0]), group))
    return result


def words_of(source, label):
    at, part = source.at(*label.at), source.at(*label.part)
    found = None
    if at is not None and part is not None:
        found = Step(source, at, part, label.kinds).words()
    if found is None:
        message = PLAIN.get(label.kinds, label.kinds)
        found = Told(*label.at, message, [] if label.at == label.part else [(*label.part, "this part")])
    return found


class Step:
    """The step `at` and the part `part`, as numbers of tokens. `scene` has what stands at the step for the parameters of a contract or a
    body in which the part is; `mark` is the token from which on what fails is marked."""

    def __init__(self, source, at, part, kinds):
        self.source, self.at, self.part, self.kinds = source, at, part, kinds
        self.unit, self.home = source.unit_at(at), source.unit_at(part)
        self.clause, self.node, self.scene, self.mark = source.clause_at(part), None, None, part
        self.word = source.said(at) if source.tokens[at].kind != "name" else "name"

    def words(self):
        """What is told, or None where step and part do not fit together."""
        if self.unit is None or self.home is None:
            return None
        own = self.home is self.unit
        clause = self.source.said(self.clause) if self.clause is not None else ""
        if self.word == "{":
            owner = self.source.brace_of(self.at)
            return self.at_brace(owner, own, clause)
        if self.word == "method":
            return self.by_itself(clause == "requires" and own, f"the precondition of `{self.unit.name}`", "requires")
        if self.word == "predicate":
            return self.by_itself(own, f"the body of predicate `{self.unit.name}`", "")
        if self.unit.name_at == self.at:
            return self.by_itself(clause == "ensures" and own, f"the postcondition of `{self.unit.name}`", "ensures")
        return self.at_statement(own, clause)

    # ---- the part

    def term(self):
        """The term of a clause, or of the body of a predicate, in which the part stands."""
        begin = self.clause if self.clause is not None else self.home.brace if self.home.kind == "predicate" else None
        return Term(self.source, begin + 1).node if begin is not None else None

    def what(self, terms, target=None):
        """What may fail at the part, in words, and whether an assertion is given up there; None where the part is not found."""
        for term in terms:
            if term and self.kinds == "false":
                for node in parts_of(self.source, term):
                    if node.start == self.part:
                        self.node = node
                        return f"{self.text(node)} might be false", True
            for node, around in nodes_of(term) if term and self.kinds != "false" else ():
                if node.kind == "unfolding" and self.kinds == "perm" and instance_of(node.parts[0]).at == self.part:
                    return f"{self.text(instance_of(node.parts[0]))} is unfolded, and too little of it might be held", False
                if node.at == self.part and node.kind in ("field", "call", "binary"):
                    self.node = node
                    return self.what_of(node, around, target)
        return None

    def what_of(self, node, around, target):
        term = around.parts[1] if around and around.kind == "acc" and len(around.parts) > 1 else None
        amount = self.text(term) if term is not None else ""
        whole = self.text(node)
        is_place = around is not None and around.kind == "acc" and around.parts[0] is node or node.kind == "call"
        found = None
        if self.kinds == "div" and node.kind == "binary":
            self.mark = node.parts[1].start
            divisor = self.text(node.parts[1])
            found = f"the divisor {divisor} {'is' if divisor == '`0`' else 'might be'} 0", False
        elif self.kinds == "negative" and is_place:
            self.mark = term.start if term is not None else node.at
            found = f"the amount {amount} of {whole} might be negative".replace("  ", " "), False
        elif self.kinds == "amount" and is_place:
            self.mark = term.start if term is not None else node.at
            found = f"the amount {amount} of {whole} might not be positive".replace("  ", " "), False
        elif self.kinds == "perm" and is_place:
            found = f"there might be {'no' if amount == '`wildcard`' else 'too little'} permission to {whole}", True
        elif node.kind == "field" and not is_place:
            found = self.access(node, whole, target), False
        return found

    def access(self, node, whole, target):
        """What may fail where a place is read or written."""
        receiver, written = self.text(node.parts[0]), node.at == target
        is_null = f"{receiver} is null" if receiver == "`null`" else f"{receiver} might be null"
        how = f"{whole} is {'written' if written else 'read'}"
        held = "might not be held in full" if written else "might not be held"
        return {
            "null": f"{how}, and {is_null}",
            "perm": f"{how}, and {held}",
            "null perm": f"{how}, and {held}",
        }.get(self.kinds)

    def text(self, node):
        return f"`{Spelling(self.source).of(node, self.scene, LONG)}`"

    def at_part(self, message, notes=()):
        return Told(*self.source.place(self.mark), message, notes)

    def at_step(self, message, note):
        return Told(*self.source.place(self.at), message, [(*self.source.place(self.mark), note)])

    # ---- a specification

    def by_itself(self, fits, whose, word):
        """The check of a specification by itself."""
        found = self.what([self.term()])
        if found and found[0] and fits:
            return self.at_part(f"{whose} might not be well-defined by itself: {found[0]}")
        return self.opened(whose, self.clauses(self.unit.word, word))

    def clauses(self, first, word):
        """The terms of the clauses with a word in front of the next `{` behind a token, or up to the end of the unit."""
        found = []
        for n in range(first, self.unit.end):
            if self.source.said(n) == "{":
                break
            if word and self.source.said(n) == word:
                found.append(Term(self.source, n + 1).node)
        return found

    def at_brace(self, owner, own, clause):
        """The end of a body: of a method or of an iteration."""
        if owner == "method":
            fits, whose, when = own and clause == "ensures", f"a postcondition of `{self.unit.name}`", "at the end of the body"
        elif owner == "while":
            fits = clause == "invariant" and self.source.loop_of(self.clause) == self.source.owner[self.at]
            whose, when = "an invariant", "at the end of an iteration"
        else:
            return None
        return self.clause_words(fits, f"{whose} might not hold {when}", f"{whose} might not be well-defined {when}") or self.opened(
            f"{whose}, {when},", self.clauses(self.source.owner[self.at], "ensures" if owner == "method" else "invariant"))

    def clause_words(self, fits, given_up, read_, notes=()):
        found = self.what([self.term()]) if fits else None
        if not found or not found[0]:
            return None
        return self.at_part(f"{given_up if found[1] else read_}: {found[0]}", notes)

    def opened(self, whose, terms):
        """A part of a predicate's body that an `unfolding` of one of some terms opens: it is told there, if that is the only one."""
        name = self.home.name
        if self.home.kind != "predicate" or self.home is self.unit:
            return None
        found = [node for term in terms if term for node, _ in nodes_of(term)
                 if node.kind == "unfolding" and self.source.said(instance_of(node.parts[0]).at) == name]
        self.scene = StandIns(dict(zip(self.formals(), instance_of(found[0].parts[0]).parts)) if len(found) == 1 else {})
        what = self.what([self.term()])
        if not what or not what[0] or what[1]:
            return None
        at = found[0].at if len(found) == 1 else self.at
        note = f"in the body of predicate `{name}`{self.given('unfolding')}"
        return Told(*self.source.place(at), f"{whose} opens `{name}`, whose body might not be well-defined: {what[0]}",
                    [(*self.source.place(self.mark), note)])

    # ---- statements

    def at_statement(self, own, clause):
        it = Statement(self.source, self.at)
        if own and self.at < self.part < it.end:
            return self.of_own(it)
        if self.word == "while" and own and clause == "invariant" and self.source.loop_of(self.clause) == self.at:
            return self.clause_words(True, "an invariant might not hold where the loop begins", "an invariant might not be well-defined",
                                     [(*self.source.place(self.at), "the loop begins here")])
        if it.callee is not None and self.home.kind == "method":
            return self.of_call(it, clause)
        if it.kind in ("fold", "unfold") and self.home.kind == "predicate" and self.is_opened_by(it):
            return self.of_fold(it)
        if it.callee is not None:
            return self.opened("this call", [])
        more = self.clauses(self.at, "invariant") if it.kind == "while" else []
        return self.opened(f"this {it.kind}" if it.kind in STEPS else "an unfolding here", it.terms + more) if it.kind else None

    def of_own(self, it):
        found = self.what(it.terms, it.targets[0] if it.kind == "assign" and it.targets else None)
        if not found or not found[0]:
            return None
        message, given_up = found
        if not given_up or it.kind not in STEPS:
            return self.at_part(message)
        step, part = self.source.place(self.at), self.source.place(self.part)
        notes = [(*step, f"the {it.kind} begins here")] if step[0] != part[0] else []
        return self.at_part(f"this {it.kind} might fail: {message}", notes)

    def of_call(self, it, clause):
        name = self.source.said(it.callee)
        if self.home.name != name or clause not in ("requires", "ensures"):
            return None
        returns = [v.name for v in self.home.variables if v.role == "return"]
        targets = [self.source.said(n) for n in it.targets]
        self.scene = StandIns({**dict(zip(self.formals(), it.terms)), **dict(zip(returns, targets))})
        found = self.what([self.term()])
        if not found or not found[0]:
            return None
        whose = "precondition" if clause == "requires" else "postcondition"
        if found[1] and clause == "ensures":
            return None
        how = "might not hold at this call" if found[1] else "might not be well-defined at this call"
        return self.at_step(f"a {whose} of `{name}` {how}: {found[0]}", f"this part of the {whose}{self.given('call')}")

    def is_opened_by(self, it):
        return bool(it.terms) and self.source.said(instance_of(it.terms[0]).at) == self.home.name

    def of_fold(self, it):
        self.scene = StandIns(dict(zip(self.formals(), instance_of(it.terms[0]).parts)))
        found = self.what([self.term()])
        if not found or not found[0] or found[1] and it.kind == "unfold":
            return None
        how = "this fold might fail" if found[1] else f"the body of `{self.home.name}` might not be well-defined in this {it.kind}"
        return self.at_step(f"{how}: {found[0]}", f"this part of the body of predicate `{self.home.name}`{self.given(it.kind)}")

    def formals(self):
        return [it.name for it in self.home.parameters()]

    def given(self, step):
        """What stands at the step for the parameters that the part names, where that is not the name itself."""
        names = {self.source.said(it.at) for it, _ in nodes_of(self.node) if it.kind == "leaf"} if self.node else set()
        given = {name: term if isinstance(term, str) else Spelling(self.source).of(term, None) for name, term in self.scene.given.items()}
        said = [f"`{name}` of `{self.home.name}` is `{text}` in this {step}" for name, text in given.items() if name in names and text != name]
        return f", where {' and '.join(said)}" if said else ""


def instance_of(term):
    """The instance of a `fold`, `unfold` or `unfolding`, which may stand in an `acc`."""
    return term.parts[0] if term.kind == "acc" and term.parts else term
