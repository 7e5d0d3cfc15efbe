"""Certificates by hand, each reason at least once, and the same with something changed, which is refused at its line: no z3 is needed."""
import unittest

from verifying.certificates.check import check
from verifying.certificates.check_text import Conditions

from .certificate_cases import CASES
from .certificate_product_cases import OF_PRODUCTS


VARIABLES = ("bool", "bool", "int", "int", "real", "real", "Ref", "Ref", "Snap", "Snap", "[Ref]int", "[Ref]int", "[Ref, int]real",
"[Ref]bool")


def conditions(lets):
    """Variables v1 to v14 of the types above, and definitions, the last of which fails."""
    lines = ["conditions p", *(f"var v{n}: {ty}" for n, ty in enumerate(VARIABLES, 1))]
    lines += [f"let d{n} := {e}" for n, e in enumerate(lets, 1)]
    return Conditions("\n".join([*lines, f"fails 1:1 1:1 false d{len(lets)}"]) + "\n")


def told(lets, certificate):
    return check(conditions(lets), "\n".join(["certificate p", *certificate]) + "\n")


HOSTILE = (
    (["var 99"], (2, "no such name")),
    (["var"], (2, "a name too few or too many")),
    (["nonsense 1"], (2, "no such node")),
    (["nonsense"], (2, "no such word")),
    ([""], (2, "no such word")),
    (["int " + "9" * 100], (3, "d1 is not shown to be false")),
    (["int " + "9" * 101], (2, "no number")),
    (["int -1"], (2, "no numeral")),
    (["int 01"], (2, "no number")),
    (["var 3", "neg -1"], (3, "a negation of what is no truth value")),
    (["var 3", "+ 1 2"], (3, "no such node")),
    (["var 3", "var 5", "+ 1 2"], (4, "parts of other types")),
    (["var 11", "at 1"], (3, "parts of other types")),
    (["var 11", "at 1 1"], (3, "parts of other types")),
    (["var 1", "at 1 1"], (3, "parts of other types")),
    (["var 11", "== 1 1"], (3, "parts of other types")),
    (["let 1 1"], (2, "no such node")),
    (["rup 0"], (2, "the steps do not contradict")),
    (["sum 0"], (2, "the sum is no contradiction")),
    (["path"], (2, "no number")),
    (["gate"], (2, "numbers too few or too many")),
    (["true", "gate 1 0", "rup " + "1 " * 1000 + "0 1"], (5, "d1 is not shown to be false")),
    (["true", "gate 1 0", "rup " + "1 " * 1001 + "0 1"], (4, "more literals than 1000")),
    (["hit"], (2, "no number")),
    (["same"], (2, "no number")),
    (["var 1", "var 3", "var 4", "if 1 2 3", "gate 4 0"], (6, "no truth values")),
    (["var 3", "== 1 1", "gate 2 0"], (4, "no truth values")),
    (["var 3", "rup 1 0"], (3, "no truth value")),
    (["var 11", "var 7", "var 3", "put 1 2 3", "at 4 2", "var 4", "== 5 6", "hit 7"], (9, "another value")),
    (["var 3", "var 4", "+ 1 2", "- 1 2", "== 3 4", "same 5"], (7, "two operators")),
    (["var 11", "var 12", "var 7", "at 1 3", "at 2 3", "== 4 5", "same 6"], (8, "two maps")),
    (["var 3", "sInt 1", "var 5", "sPerm 3", "== 2 4", "== 1 1", "part 5 6"], (8, "two constructors")),
    (["var 1", "== 1 1", "sum 1 -2 0"], (4, "no numbers")),
    (["var 3", "div 1 1", "sum 0 1 2"], (4, "no linear node")),
    (["var 3", "* 1 1", "sum 0 1 2"], (4, "no constant")),
    (["var 5", "var 6", "real 0", "== 2 3", "/ 1 2", "* 5 1", "== 6 1", "over 4 7"], (9, "no division of the two")),
    (["var 5", "var 6", "real 0", "== 2 3", "/ 2 1", "* 5 2", "== 6 1", "over 4 7"], (9, "no division of the two")),
    (["var 4", "int 0", "== 1 2", "var 3", "div 4 1", "* 4 5", "mod 4 1", "+ 6 7", "== 8 4", "over 3 9"], (11, "no division of the two")),
    (["var 4", "int 0", "== 1 2", "var 3", "div 4 1", "* 1 5", "mod 1 4", "+ 6 7", "== 8 4", "over 3 9"], (11, "no division of the two")),
    (["var 4", "int 1", "== 1 2", "var 3", "div 4 1", "int 0", "== 5 6", "zero 3 7"], (9, "no comparison with 0")),
    (["var 4", "int 0", "== 1 2", "var 3", "div 4 1", "int 1", "== 5 6", "zero 3 7"], (9, "no comparison with 0")),
    (["var 4", "int 0", "== 1 2", "var 3", "div 1 4", "== 5 2", "zero 3 6"], (8, "no division by it")),
    (["var 3", "var 4", "mod 1 2", "int 1", "<= 4 3", "rest 5"], (7, "no comparison with 0")),
    (["var 4", "int 1", "<= 1 2", "var 3", "mod 4 1", "<= 1 5", "below 3 6"], (8, "no comparison with 0 and the divisor")),
    (["var 4", "int 1", "<= 2 1", "var 3", "mod 4 1", "neg 1", "<= 6 5", "below 3 7"], (9, "no comparison with 0 and the divisor")),
)


class CheckTest(unittest.TestCase):
    def test_certificates_by_hand(self):
        for case in CASES + OF_PRODUCTS:
            with self.subTest(case.name):
                self.assertIsNone(told(case.lets, case.certificate))

    def test_changes(self):
        for case in CASES + OF_PRODUCTS:
            for line, changed, refusal in case.changes:
                with self.subTest(case.name, line=line, changed=changed):
                    lines = list(case.certificate)
                    lines[line - 2:line - 1] = [] if changed is None else [changed]
                    self.assertEqual(told(case.lets, lines), refusal)

    def test_the_last_step_is_needed(self):
        for case in CASES + OF_PRODUCTS:
            with self.subTest(case.name):
                self.assertIsNotNone(told(case.lets, case.certificate[:-1]))

    def test_hostile(self):
        for lines, refusal in HOSTILE:
            with self.subTest(lines[-1][:20]):
                self.assertEqual(told(["(v1 && false)"], lines), refusal)

    def test_name_and_end(self):
        given = conditions(["false"])
        self.assertEqual(check(given, "certificate q\n"), (1, "another name"))
        self.assertEqual(check(given, "certificate p\ntrue\nlet 1 -1\ngate 1 0"), (4, "the last line has no end"))
        self.assertIsNone(check(given, "certificate p\ntrue\nlet 1 -1\ngate 1 0\n"))

    def test_what_is_true_is_not_shown_false(self):
        self.assertEqual(told(["true"], ["true", "let 1 1", "gate 1 0"]), (5, "d1 is not shown to be false"))

    def test_long_and_deep(self):
        """A text of 20,000 brackets, one in the other, and a certificate of as many nodes."""
        deep = "v1"
        lines = ["var 1"]
        for n in range(20000):
            deep = f"({deep} && v1)"
            lines.append(f"&& {n + 1} 1")
        lets = ["(v1 && (! v1))"]
        given = Conditions("\n".join(["conditions p", "var v1: bool", f"let d1 := {deep}", f"let d2 := {lets[0]}", "fails x d2"]) + "\n")
        lines += ["let 1 20001", "&& 1 -1", "let 2 20002", "gate 20002 1", "gate 20002 2", "rup -20002 0 1 2"]
        self.assertIsNone(check(given, "\n".join(["certificate p", *lines]) + "\n"))


if __name__ == "__main__":
    unittest.main()
