"""Texts of Boogie, conditions, walks, run files, questions and values, without the program and without z3."""
import unittest
from fractions import Fraction

from verifying import run_files, solver
from verifying.boogie_text import NotAsWritten, procedure_texts, read_procedure
from verifying.conditions import read_conditions
from verifying.question import Question
from verifying.search import new_objects
from verifying.smaller import FRESH, MOST_WORK, Smaller, Values
from verifying.symbolic import symbolic_of
from verifying.walk import Walk

from .building import conditions_of

TEXT = """type Ref;
procedure P$a() {
}
procedure M$m() {
var v$x: Ref;
var v$n: int;
var h$f: [Ref]int;
var m$f: [Ref]real;
var z$: [Ref]real;
var t$5: [Ref]int;
var t$6: Ref;
assume (forall q0: Ref :: (z$[q0] == 0.0));
m$f := z$;
assume (m$f[v$x] >= 0.0);
m$f[v$x] := (m$f[v$x] + 1.0);
assume (m$f[v$x] <= 1.0);
if (*) {
assert {:msg "2:1 2:3 null"} (v$x != null);
havoc t$6;
assume (t$6 != null);
if ((v$n < 3)) {
h$f[v$x] := (-v$n);
} else {
}
havoc t$5;
assume (forall q0: Ref :: ((m$f[q0] != 0.0) ==> (h$f[q0] == t$5[q0])));
h$f := t$5;
assert {:msg "3:1 3:3 false"} ((h$f[v$x] + 2) != 1);
} else {
}
}
""".replace("(-v$n)", "(- v$n)")


def procedure():
    return read_procedure(dict(procedure_texts(TEXT))["M$m"])


class Texts(unittest.TestCase):
    def test_the_procedures_of_a_text_are_found(self):
        self.assertEqual([name for name, _ in procedure_texts(TEXT)], ["P$a", "M$m"])

    def test_a_procedure_is_read(self):
        read = procedure()
        self.assertEqual(read.labels(), ["2:1 2:3 null", "3:1 3:3 false"])
        self.assertEqual(read.locals["h$f"], (("Ref",), "int"))
        self.assertEqual(read.body[1], ("assign", "m$f", ("name", "z$")))
        self.assertEqual(read.body[5][:2], ("if", None))

    def test_forms_of_expressions_are_read(self):
        text = "procedure p() { x := (if (a && b) then m[i, (j + 1)] else real(2)); y := sPair(sUnit, sInt((- 3))); }"
        first, second = read_procedure(text).body
        sum_ = ("bin", "+", ("name", "j"), ("int", 1))
        self.assertEqual(first, ("assign", "x", ("if", ("bin", "&&", ("name", "a"), ("name", "b")), ("at", "m", (("name", "i"), sum_)),
                                                ("toreal", ("int", 2)))))
        self.assertEqual(second[2], ("con", "sPair", (("unit",), ("con", "sInt", (("neg", ("int", 3)),)))))

    def test_what_is_no_text_is_refused(self):
        for text in ("procedure p() { x := 1 }", "procedure p() { x := (1 + ; }", "procedure p() { ", "axiom true;"):
            self.assertRaises(NotAsWritten, read_procedure, text)


class ConditionsOfProcedures(unittest.TestCase):
    def test_an_assertion_has_a_condition_what_fails_and_a_path(self):
        found = conditions_of(read_procedure('procedure p() { var x: int; havoc x; assert {:msg "1:2 1:3 false"} (x < 3); }'))
        path, condition = ("name", "d1"), ("name", "d2")
        self.assertEqual(list(found.vars), ["v1", "v2"])
        self.assertEqual(found.lets, [("d1", ("bool", True)), ("d2", ("bin", "<", ("name", "v2"), ("int", 3))),
                                      ("d3", ("bin", "&&", path, ("not", condition))), ("d4", ("bin", "&&", path, condition))])
        self.assertEqual(found.fails, [("1:2 1:3 false", "d3")])

    def test_behind_a_branch_what_either_side_changed_is_chosen(self):
        found = conditions_of(read_procedure("procedure p() { var x: int; var y: int; if (*) { x := 1; } else { y := x; } x := y; }"))
        chosen = [e for _, e in found.lets if e[0] == "if"]
        self.assertEqual(chosen, [("if", ("name", "v3"), ("name", "d3"), ("name", "v1")),
                                  ("if", ("name", "v3"), ("name", "v2"), ("name", "d5"))])

    def test_a_text_of_conditions_is_read(self):
        text = 'conditions p\nvar v1: int\nlet d1 := true\nlet d2 := (v1 < 3)\nlet d3 := (d1 && (! d2))\nfails 1:2 1:3 false d3\n'
        found = read_conditions(text)
        self.assertEqual((found.fails, found.vars), ([("1:2 1:3 false", "d3")], {"v1": ((), "int")}))
        symbolic = symbolic_of(found)
        self.assertEqual(Question([symbolic.fails[0][1]], found.vars).asked, ["(>= v1 3)"])

    def test_a_formula_of_vc_is_read(self):
        text = ("vc go 1:20 1:27 false\nvar v1: int\nvar v2: int\nlet d1 := true\nlet d2 := false\nlet d3 := (d1 && (v2 < 3))\n"
                "let d4 := (d2 || (d1 && (! d3)))\ngoal (! d4)\n")
        found = read_conditions(text)
        self.assertEqual(Question([it for _, it in symbolic_of(found).fails], found.vars).asked, ["(>= v2 3)"])
        self.assertRaises(NotAsWritten, read_conditions, text.replace("goal (! d4)\n", ""))


class Runs(unittest.TestCase):
    def values(self, **more):
        types = list(conditions_of(procedure()).vars.values())
        return Values(types, {0: 1, 1: 1, 7: True, 8: 4, **more}, {2: {(1,): 8, (2,): 9}, 9: {(1,): 5, (3,): 6}})

    def test_a_walk_fails_and_its_run_file_says_what_it_met(self):
        walk = Walk(procedure(), self.values().given)
        end = walk.run()
        self.assertEqual((end.how, end.label), ("failed", "3:1 3:3 false"))
        self.assertEqual([it.kind for it in walk.taken], ["pick", "fresh", "state"])
        self.assertEqual(run_files.boogie_run(walk, False),
                         "boogie run M$m\nvar v$x #1\nvar v$n 1\npick true\nvalue #4\nentries\nat #1 -1\n")
        self.assertEqual(run_files.viper_run(walk, frozenset()).text(),
                         "viper run\nvar x #1\nvar n 1\npick true\nfresh #2\nstate\n")

    def test_a_run_file_is_read_back(self):
        walk = Walk(procedure(), self.values().given)
        walk.run()
        again = run_files.read_back(procedure(), run_files.boogie_run(walk, False))
        end = again.run()
        self.assertEqual((end.how, end.label), ("failed", "3:1 3:3 false"))
        self.assertEqual(again.env["v$x"], 1)

    def test_values_are_made_simpler_as_long_as_the_walk_fails_alike(self):
        found = Smaller(procedure(), self.values(), "3:1 3:3 false").found()
        self.assertEqual(found.scalars, {0: 1, 1: 1, 7: True, 8: 1})
        self.assertEqual(found.tables, {})

    def test_values_are_tried_up_to_an_amount_of_work(self):
        small = Smaller(procedure(), self.values(), "3:1 3:3 false")
        small.found()
        self.assertEqual(small.work % len(small.procedure.locals), 0)
        self.assertTrue(0 < small.work <= MOST_WORK and not small.late())
        small = Smaller(procedure(), self.values(), "3:1 3:3 false")
        small.work = MOST_WORK + 1
        self.assertEqual((small.found().scalars, small.work), (self.values().scalars, MOST_WORK + 1))

    def test_contents_are_made_simpler_where_the_run_does_not_open_them(self):
        opened = read_procedure("""procedure p() { var s: Snap; var l: Snap; var r: Snap; var w: int;
havoc s; havoc l; havoc r; assume (s == sPair(l, r)); havoc w; assume (l == sInt(w)); assert {:msg "1:1 1:2 false"} (w < 3); }""")
        types = list(conditions_of(opened).vars.values())
        inner = ("pair", ("leaf", "int", 8), ("pair", ("leaf", "Ref", 4), ("unit",)))
        found = Smaller(opened, Values(types, {4: ("pair", ("leaf", "int", 50), inner)}, {}), "1:1 1:2 false").found()
        self.assertEqual(found.scalars, {4: ("pair", ("leaf", "int", 3), ("unit",))})

    def test_a_reference_in_a_content_gives_way_with_what_it_leads_to(self):
        text = """procedure p() { var v$x: Ref; var v$y: Ref; var c: [Ref, Ref]Snap; assert {:msg "1:1 1:2 false"} (v$x == null); }"""
        read = read_procedure(text)
        for left, more in ((0, ("leaf", "Ref", 4)), (2, ("unit",))):
            content = ("pair", ("leaf", "Ref", 3), ("pair", ("pair", ("leaf", "int", 5), ("unit",)), more))
            values = Values(list(conditions_of(read).vars.values()), {0: 1, 1: 2}, {2: {(1, 2): content}})
            small = Smaller(read, values, "1:1 1:2 perm")
            wanted, table = ("pair", ("leaf", "Ref", left), ("pair", ("unit",), more)), small.values.tables[2]
            small.fails = lambda table=table, wanted=wanted: table[1, 2] == wanted
            self.assertTrue(small.without_children(table, (1, 2), [2]))
            self.assertEqual(table[1, 2], wanted)
            self.assertFalse(small.without_children(table, (1, 2), []))

    def test_a_loop_is_entered_and_what_is_given_are_objects(self):
        text = """procedure p() { var v$x: Ref; var v$y: Ref; var v$p: real; var v$q: real; var v$i: Ref; var h: [Ref]Ref;
assume (v$p > 0.0); assume (v$q > v$p); havoc v$i; if (*) { assert {:msg "1:1 1:2 false"} (h[v$x] == null); } else {
assert {:msg "1:1 1:2 false"} (h[v$x] == null); } v$i := null; }"""
        read = read_procedure(text)
        values = Values(list(conditions_of(read).vars.values()), {0: 7, 2: Fraction(1), 3: Fraction(3), 6: 9, 7: False}, {5: {(7,): 12}})
        found = Smaller(read, values, "1:1 1:2 false").found()
        self.assertEqual(found.scalars, {0: 7, 1: FRESH + 1, 2: Fraction(1, 2), 3: Fraction(1), 6: 7, 7: True})
        self.assertEqual(found.tables, {5: {(7,): 12}})

    def test_integers_in_keys_are_made_simpler_with_all_that_equal_them(self):
        text = """procedure p() { var v$a: int; var c: [int]int; assert {:msg "1:1 1:2 false"} ((c[v$a] < v$a) || (v$a < 2)); }"""
        read = read_procedure(text)
        values = Values(list(conditions_of(read).vars.values()), {0: 40}, {1: {(40,): 40}})
        found = Smaller(read, values, "1:1 1:2 false").found()
        self.assertEqual((found.scalars, found.tables), ({0: 2}, {1: {(2,): 2}}))

    def test_integers_are_moved_until_none_is_negative(self):
        text = """procedure p() { var v$a: int; var v$b: int; var c: [int]Snap; var s: Snap; var w: int;
assume (v$a > v$b); s := c[v$b]; havoc w; assume (s == sInt(w)); assert {:msg "1:1 1:2 false"} (w >= v$a); }"""
        read = read_procedure(text)
        types = list(conditions_of(read).vars.values())
        for a, moved in ((-1, {0: 2, 1: 0}), (5, {0: 5, 1: 3})):
            values = Values(types, {0: a, 1: a - 2}, {2: {(a - 2,): ("leaf", "int", a - 1)}})
            small = Smaller(read, values, "1:1 1:2 false")
            small.from_none_on()
            self.assertEqual({n: small.values.scalars[n] for n in (0, 1)}, moved)
            self.assertEqual(small.values.tables, {2: {(moved[1],): ("leaf", "int", moved[1] + 1)}})

    def test_references_are_numbered_as_they_appear(self):
        self.assertEqual(run_files.numbered([["viper run", "var x #7", "heap g #7 #3"], ["fresh #12", "value #3"]]),
                         [["viper run", "var x #1", "heap g #1 #2"], ["fresh #3", "value #2"]])

    def test_contents_are_spelled_and_read(self):
        value = ("pair", ("leaf", "real", Fraction(1, 2)), ("pair", ("unit",), ("leaf", "Ref", 0)))
        words = run_files.content(value)
        self.assertEqual(words, "pair leaf 1/2 pair unit leaf null")
        self.assertEqual(run_files.parsed(words.split()), value)

    def test_references_below_0_are_spelled_above_it(self):
        self.assertEqual(run_files.scalar(-3, "Ref"), f"#{(1 << 62) + 3}")

    def test_a_state_is_put_in_where_there_is_nothing_to_choose(self):
        said = iter(["// blocked\n// unused 1\n", "// failed 1:1 1:1 false\n// unused 0\n"])
        plain = read_procedure("procedure M$m() { var v$x: int; havoc v$x; }")
        first = run_files.ViperRun("m", [["viper run"], ["pick true"], ["value 1"]])
        run, last = run_files.with_states(first, lambda text: next(said), plain)
        self.assertEqual(run.choices, [["viper run"], ["state"], ["pick true"], ["value 1"]])
        self.assertTrue(last.startswith("// failed"))


class Questions(unittest.TestCase):
    def test_no_map_and_no_quantifier_is_left(self):
        found = conditions_of(procedure())
        symbolic = symbolic_of(found)
        question = Question([term for _, term in symbolic.fails], found.vars)
        self.assertNotIn("forall", question.text)
        self.assertNotIn("Array", question.text)
        self.assertEqual([it is symbolic.logic.false for _, it in symbolic.fails], [False, False])
        self.assertEqual(new_objects(procedure()), ["v9"])

    def test_values_of_z3_are_read(self):
        said = "((null Ref!val!0) (x (/ 1.0 2.0)) (y (- 3)) (z (let ((a!1 (sInt (- 2)))) (sPair a!1 sUnit))) (r Ref!val!4))"
        values = [it[1] for it in solver.trees(said)[0]]
        reading = solver.Reading(values[0])
        self.assertEqual([reading.value(it) for it in values], [0, Fraction(1, 2), -3, ("pair", ("leaf", "int", -2), ("unit",)), 1])
        self.assertRaises(solver.Unreadable, reading.value, solver.trees("(root-obj (+ (^ x 2) (- 2)) 1)")[0])
