"""What the program finds of procedures that are right by hand is checked by the other reading; of wrong ones it finds nothing."""
import os
import tempfile
import unittest

from verifying.certificates.check import check
from verifying.certificates.check_text import Conditions
from verifying.program import TOP, VARIABLES, Program, find, parts_of

READY = all(os.environ.get(it) for it in VARIABLES.values())
LOCALS = ("b: bool", "c: bool", "i: int", "j: int", "k: int", "p: real", "q: real", "x: Ref", "y: Ref", "s: Snap", "t: Snap", "m: [Ref]int",
          "n: [Ref]int", "h: [Ref, int]real", "g: [Ref, int]real", "f: [Ref]bool")
EVERYWHERE = "assume (forall q0: Ref :: ((m[q0] != 0) ==> (n[q0] == m[q0])));"
BEHIND_A_BRANCH = "assume (i > 1); if (b) { assume (j > 0); assert {:msg \"2:1 2:1 false\"} (j >= 0); } else { assert {:msg \"3:1 3:1 false\"} (i >= 0); }"

# Statements, and what cannot be behind them.
RIGHT = (
    ("nothing", "", "false"),
    ("a law of truth values", "", "(! ((b ==> c) || (c ==> b)))"),
    ("the greater one", "k := (if (i > j) then i else j);", "((k < i) || (k < j))"),
    ("a map changed twice", "m[x] := 1; m[y] := 2;", "(((x != y) && (m[x] != 1)) || (m[y] != 2))"),
    ("a map changed at one of two keys", "g := h; h[x, i] := 1.0;", "((h[y, j] != g[y, j]) && ((x != y) || (i != j)))"),
    ("a map by a choice", "n := m; if (b) { m[x] := 1; } else { }", "((x != y) && (m[y] != n[y]))"),
    ("truth values in a map", "f[x] := (i < 0);", "(f[x] <==> (i >= 0))"),
    ("everywhere", EVERYWHERE, "((m[x] > 2) && (n[x] <= 2))"),
    ("contents", "", "((sPair(s, sRef(x)) == sPair(sInt(i), sRef(y))) && ((x != y) || (s != sInt(i))))"),
    ("other contents", "", "(((sPerm(p) == s) && (s == sInt(i))) || (sBool(b) == sUnit))"),
    ("a content in a content in itself", "", "((s == sPair(t, sUnit)) && (t == sPair(sUnit, s)))"),
    ("equal contents", "", "(((i + j) == 5) && ((j == 2) && (sInt(i) != sInt(3))))"),
    ("ints between", "", "((i < j) && (j < (i + 1)))"),
    ("no int", "", "((2 * i) == ((2 * j) + 1))"),
    ("halves", "", "((p > 0.0) && ((p * (1.0 / 2.0)) >= p))"),
    ("an int as a rational number", "", "((real(i) > 1.0) && (i < 2))"),
    ("division", "", "((((i div 2) * 2) > i) || (((i mod 2) == 2) || (((i div 0) != 0) || ((i mod j) < 0))))"),
    ("numbers divided", "", "((((- 7) div 2) != (- 4)) || (((- 7) mod (- 2)) != 1))"),
    ("a square", "", "((p * p) < 0.0)"),
    ("the square of a sum", "", "(((i + 1) * (i + 1)) != (((i * i) + (2 * i)) + 1))"),
    ("a part of a part", "", "(((p > 0.0) && (q > 0.0)) && ((q < 1.0) && ((p * q) >= p)))"),
    ("a quotient", "", "((q > 0.0) && (((p / q) * q) != p))"),
    ("a difference", "", "(((i - j) > 0) && (i < j))"),
    ("null", "", "((x == null) && (sRef(x) != sRef(null)))"),
    ("a side of a branch", BEHIND_A_BRANCH, "((if b then j else i) <= 0)"),
    ("one side of a branch", BEHIND_A_BRANCH, "(b && (j <= 0))"),
    ("what was before a branch", BEHIND_A_BRANCH, "(i <= 0)"),
    ("a side to which no run comes", 'assume b; if (b) { } else { assert {:msg "2:1 2:1 false"} false; }', "(! b)"),
    ("forty branches", "k := i; " + "".join([f"if ((m[x] > {it})) {{ k := (k + 1); }} else {{ }} " for it in range(40)]), "((k < i) || (k > (i + 40)))"),
)
WRONG = (
    ("true", "", "true"),
    ("a truth value", "", "(b && (! c))"),
    ("ints with one between", "", "((i < j) && (j < (i + 2)))"),
    ("rational numbers between", "", "((p < q) && (q < (p + 1.0)))"),
    ("perhaps one key", "n := m; m[x] := 1;", "(m[y] != n[y])"),
    ("perhaps the other map", "if (b) { } else { m := n; }", "(m[x] != n[x])"),
    ("everywhere but here", EVERYWHERE, "((m[x] == 0) && (n[x] == 2))"),
    ("contents that may be equal", "", "(sPair(s, sUnit) == sPair(sInt(i), t))"),
    ("division by zero", "", "((i div j) == 0)"),
    ("a choice of numbers", "", "((if b then i else j) > i)"),
    ("the other side of a branch", BEHIND_A_BRANCH, "(j <= 0)"),
    ("a choice behind a branch", BEHIND_A_BRANCH, "((if b then i else j) <= 0)"),
)


@unittest.skipUnless(READY, f"{', '.join(VARIABLES.values())} name no programs")
class Found(unittest.TestCase):
    def asked(self, cases):
        """The program, and a file with a procedure for each case, whose number it has in its name."""
        with open(f"{TOP}/crates/prove/data/right.bpl", encoding="utf-8") as it:
            text = it.read()
        text = text[:text.index("\nprocedure ") + 1]
        for number, (_, statements, wrong) in enumerate(cases):
            locals_ = "".join([f"var {it}; " for it in LOCALS])
            text += f'procedure p{number}() {{ {locals_}{statements} assert {{:msg "1:1 1:1 false"}} (! {wrong}); }}\n'
        file = tempfile.NamedTemporaryFile("w", suffix=".bpl")
        self.addCleanup(file.close)
        file.write(text)
        file.flush()
        return Program(find()), file.name

    def test_right(self):
        program, file = self.asked(RIGHT)
        conditions, certificates = program.conditions(file, is_boogie=True), parts_of(program.certificates(file, is_boogie=True), "certificate")
        for number, (title, *_) in enumerate(RIGHT):
            with self.subTest(title):
                name = f"p{number}"
                self.assertIn(name, certificates)
                self.assertIsNone(check(Conditions(conditions[name]), certificates[name]))
                self.assertLess(len(certificates[name]), 5 * len(conditions[name]))

    def test_wrong(self):
        program, file = self.asked(WRONG)
        answers = program.prove(file, is_boogie=True)
        self.assertEqual((answers.proved, answers.open, answers.refusal), ([], {f"p{it}": "1:1 1:1 false" for it in range(len(WRONG))}, ""))
        self.assertEqual(program.certificates(file, is_boogie=True), "")


if __name__ == "__main__":
    unittest.main()
