"""Asks z3 whether formulas that `remduska vc` wrote are valid.

The question is made as for units, with what the path of a definition assumes. Maps of z3 may have infinitely many places that are
not their default, and those of a formula have not: so `not valid` is z3's word about a wider claim."""
import sys

from .boogie_text import NotAsWritten
from .conditions import read_conditions
from .question import Question
from .solver import NoSolver, Solver
from .symbolic import symbolic_of
from .work import deep

ANSWERS = {"unsat": "valid", "sat": "not valid", "unknown": "unknown"}


def question_of(text):
    """The heading of a formula, and the question whether something refutes it."""
    heading, _, _ = text.partition("\n")
    if not heading.startswith("vc "):
        raise NotAsWritten("this does not begin as a formula")
    conditions = read_conditions(text)
    terms = [term for _, term in symbolic_of(conditions).fails]
    question = Question(terms, conditions.vars)
    return heading[3:], question.text + f"(assert (or {' '.join(question.asked)}))\n"


def tell(files, seconds, only_print):
    """Prints an answer for each formula. The status is 0 where all are valid, 1 where one is not, 3 where z3 tells of none that it is
    not and of one that it does not know, and 2 where a file is no formula or there is no z3."""
    answers, solver = [], Solver()
    try:
        for name in files:
            with sys.stdin if name == "-" else open(name, encoding="utf-8") as it:
                heading, smt = deep(question_of, it.read())
            if only_print:
                print(smt + "(check-sat)")
                continue
            solver.begin(smt)
            answers.append(ANSWERS[solver.check(seconds)])
            print(f"{answers[-1]}: {heading}")
    except (OSError, UnicodeDecodeError, NotAsWritten, KeyError, NoSolver) as why:
        print(f"verify: {name}: {why}", file=sys.stderr)
        return 2
    finally:
        solver.stop()
    return 1 if "not valid" in answers else 3 if "unknown" in answers else 0
