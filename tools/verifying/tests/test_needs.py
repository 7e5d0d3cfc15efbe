"""What was needed and what was held, and where values come from: of runs that are written out here, each with the lines that are told."""
import unittest

from verifying.believing import unopened
from verifying.needs import Needs
from verifying.run_files import ViperRun
from verifying.running import rerun
from verifying.source import Source

HEAD = """field f: Int field g: Ref
predicate cell(x: Ref) { acc(x.f) && x.f >= 0 }
predicate tree(x: Ref, n: Int) { acc(x.f) && acc(x.g) && (x.g != null ==> tree(x.g, n - 1)) }
method touch(x: Ref) requires acc(x.f) ensures acc(x.f)
method keep(x: Ref) requires acc(x.f) ensures acc(x.f) && x.f >= 0
method drop(x: Ref) requires acc(x.f, 1/2)
method get(x: Ref) returns (r: Int) requires acc(x.f, 1/2) ensures acc(x.f, 1/2)
method pair(a: Ref, b: Ref) requires acc(a.f) && acc(b.f)
method some(n: Int) requires n > 0 || n == -7
"""
CELL = "pair leaf {} unit"


def needs(method, *choices):
    """A run of `m`, whose lines are given by choices, and the lines that are told of it."""
    source = Source("a.vpr", (HEAD + method).encode())
    again = rerun(source, ViperRun("m", [["viper run", *choices[0]], *[it.split("\n") for it in choices[1:]]]))
    assert again.how == "failed", again.how
    return again, Needs(again).told()


class Permission(unittest.TestCase):
    def lines(self, method, *choices):
        return needs(method, *choices)[1]

    def test_amounts(self):
        self.assertEqual(self.lines("method m(x: Ref, p: Perm) requires acc(x.f, 1/4) { exhale acc(x.f, p * 2) }",
                                    ["var x #1", "var p 1/4"], "pick true"),
                         ["needs x.f, p * 2 (= 1/2, where p = 1/4); held: 1/4, so 1/4 is missing"])
        self.assertEqual(self.lines("method m(x: Ref) { assert x.f == 0 }", ["var x #1"], "pick true"),
                         ["needs some permission to x.f; held: none"])

    def test_who_took_it(self):
        method = "method m(x: Ref) requires acc(x.f) {{\n {} }}"
        self.assertEqual(self.lines(method.format("drop(x) drop(x) x.f := 1"), ["var x #1"], "pick true", "state", "state"),
                         ["needs x.f, write; held: none", "drop(x) at 11:2 took 1/2, at 11:10 took 1/2"])
        self.assertEqual(self.lines(method.format("drop(x) x.f := 1"), ["var x #1"], "pick true", "state"),
                         ["needs x.f, write; held: 1/2, so 1/2 is missing", "drop(x) at 11:2 took 1/2"])
        loop = method.format("while (true) invariant true {{ x.f := 1 }}".replace("{{", "{").replace("}}", "}"))
        self.assertEqual(self.lines(loop, ["var x #1"], "pick true", "state", "pick true", "state"),
                         ["needs x.f, write; held: none", "x.f was held until the loop at 11:2: an iteration has only what the invariants give"])

    def test_an_earlier_part_of_the_same_step(self):
        self.assertEqual(self.lines("method m(x: Ref, y: Ref) requires acc(x.f) { pair(x, y) }", ["var x #1", "var y #1"], "pick true"),
                         ["needs y.f, write; held: none",
                          "x.f and y.f are one place: acc(a.f) at 8:38 already took y.f"])

    def test_an_instance_that_has_it_inside(self):
        self.assertEqual(self.lines("method m(x: Ref) requires cell(x) { x.f := 1 }",
                                    ["var x #1", f"content cell #1 {CELL.format(3)}"], "pick true"),
                         ["needs x.f, write; held: none", "cell(x) is held, and x.f is in it"])

    def test_instances_that_come_close_have_values_as_arguments(self):
        tree = "content tree #1 {} pair leaf 0 pair leaf null unit"
        again, lines = needs("method m(x: Ref, n: Int) requires tree(x, n - 1) { unfold tree(x, n + 1) }",
                                    ["var x #1", "var n 4", tree.format(3)], "pick true")
        self.assertEqual(lines, ["needs tree(x, n + 1), which is tree(x, 5), write; held: none",
                                 "held instead: tree(x, 3): its `n` is 3, and n + 1 (= 5) is asked for"])
        self.assertEqual(unopened(again), "")

    def test_instances_of_others_are_told_where_none_comes_closer(self):
        method = "method m(x: Ref, y: Ref, z: Ref) requires acc(tree(x, 1), 1/2) && tree(y, 2) {{ exhale tree({}, 3) }}"
        for name, lines in (("z", ["held besides: tree(x, 1), 1/2", "held besides: tree(y, 2)"]),
                            ("x", ["held instead: tree(x, 1), 1/2: its `n` is 1, and 3 is asked for"])):
            self.assertEqual(self.lines(method.format(name), ["var x #1", "var y #2", "var z #3"], "pick true")[1:], lines)

    def test_terms_whose_variables_have_other_values_now_are_not_told(self):
        method = "method m(x: Ref, n: Int) returns (y: Ref) requires tree(x, n) {\n y := x\n unfold tree(y, n)\n y := y.g\n exhale tree(y, n) }"
        content = "content tree #1 4 pair leaf 0 pair leaf #2 pair leaf 0 pair leaf null unit"
        self.assertEqual(self.lines(method, ["var x #1", "var n 4", content], "pick true")[1:],
                         ["held instead: tree(y, 3): its `n` is 3, and n (= 4) is asked for"])

    def test_a_fold_that_made_too_little(self):
        method = "method m(x: Ref) requires acc(x.f) && x.f == 0 {\n fold acc(cell(x), 1/2)\n exhale cell(x) }"
        self.assertEqual(self.lines(method, ["var x #1"], "pick true"),
                         ["needs cell(x), write; held: 1/2, so 1/2 is missing", "fold acc(cell(x), 1/2) at 11:2 made only 1/2"])

    def test_what_is_named_twice_is_told_as_one(self):
        self.assertEqual(self.lines("method m(x: Ref) requires acc(x.f) { pair(x, x) }", ["var x #1"], "pick true")[1:],
                         ["`a` and `b` are both x: acc(a.f) at 8:38 already took x.f"])
        self.assertEqual(self.lines("method m(x: Ref) requires acc(x.f, 1/2) { exhale acc(x.f, 1/4) && acc(x.f, 1/2) }", ["var x #1"], "pick true")[1:],
                         ["acc(x.f, 1/4) at 10:50 already took 1/4 of the 1/2 of x.f that was held"])

    def test_what_was_taken_and_given_back(self):
        self.assertEqual(self.lines("method m(x: Ref) requires acc(x.f) {\n drop(x) drop(x) inhale acc(x.f, 1/4) x.f := 1 }",
                                    ["var x #1"], "pick true", "state", "state")[1:],
                         ["drop(x) at 11:2 took 1/2, at 11:10 took 1/2; inhale acc(x.f, 1/4) at 11:18 gave 1/4"])
        self.assertEqual(self.lines("method some$(x: Ref) requires acc(x.f, wildcard)\nmethod m(x: Ref) requires acc(x.f) {\n some$(x) x.f := 1 }",
                                    ["var x #1"], "pick true", "amount 1/3", "state")[1:],
                         ["some$(x) at 12:2 took some of it (wildcard), here 1/3, and gives none back"])

    def test_what_a_condition_withholds(self):
        for requires, why in (("b ==> acc(x.f)", "b is false"), ("(b ? acc(x.f) : true)", "b is false"),
                              ("x == null ==> acc(x.f)", "x is not null"), ("acc(x.f, p) && true", "p is 0")):
            lines = self.lines(f"method m(x: Ref, b: Bool, p: Perm) requires {requires} {{ x.f := 1 }}", ["var x #1"], "pick true")
            self.assertRegex(lines[1], rf"^acc\(x.f(, p)?\) at 10:[0-9]+ gives nothing: {why}$", requires)

    def test_the_condition_of_a_loop(self):
        method = "method m(x: Ref) requires acc(x.f{}) {{\n while (x.f > 0) {{ }} }}"
        self.assertEqual(self.lines(method.format(""), ["var x #1"], "pick true", "state", "pick true", "state")[1:],
                         ["x.f was held until the loop at 11:2: its condition, too, is read with only what the invariants give"])
        self.assertEqual(self.lines(method.format(", none"), ["var x #1"], "pick true", "state", "pick true", "state")[1:],
                         ["the condition of the loop at 11:2, too, is read with only what the invariants give"])

    def test_a_specification_by_itself(self):
        self.assertEqual(self.lines("method m(x: Ref) requires x.f > 0 { }", ["var x #1"])[1:], ["nothing before it gives acc(x.f)"])
        self.assertEqual(self.lines("method m(x: Ref) requires acc(x.f) ensures x.f > 0 { }", ["var x #1"], "pick false", "state")[1:],
                         ["a postcondition is checked by itself: what the precondition gives does not count"])

    def test_a_field_that_was_not_made(self):
        self.assertEqual(self.lines("method m() { var x: Ref\n x := new(f) x.g := null }", [], "pick true", "value null", "fresh #1", "value 0")[1:],
                         ["x := new(f) at 11:2 gives no permission to x.g"])

    def test_an_instance_that_is_not_folded(self):
        self.assertEqual(self.lines("method m(x: Ref) requires acc(x.f) { exhale cell(x) }", ["var x #1"], "pick true")[1:],
                         ["the body of cell(x) is held, and not folded"])
        self.assertEqual(self.lines("method m(x: Ref) { exhale cell(x) }", ["var x null"], "pick true")[1:],
                         ["cell(null) can never be folded: its body needs acc(null.f), and null has no fields"])

    def test_instances_that_come_close_have_the_terms_that_an_unfold_gave(self):
        content = "content tree #1 4 pair leaf 0 pair leaf #2 pair leaf 0 pair leaf null unit"
        self.assertEqual(self.lines("method m(x: Ref, n: Int) requires tree(x, n) { unfold tree(x, n) exhale tree(x.g, n) }",
                                    ["var x #1", "var n 4", content], "pick true"),
                         ["needs tree(x.g, n), which is tree(#2, 4), write; held: none",
                          "held instead: tree(x.g, n - 1): its `n` is n - 1 (= 3), and n (= 4) is asked for"])

    def test_the_message_where_it_is_inside_of_an_instance(self):
        again, _ = needs("method m(x: Ref) requires cell(x) { x.f := 1 }", ["var x #1", f"content cell #1 {CELL.format(3)}"], "pick true")
        told = Needs(again).message
        self.assertEqual(told("`x.f` is written, and might not be held in full"), "`x.f` is written while it is inside `cell(x)`")
        self.assertEqual(told("this might not hold"), "this might not hold")

    def test_a_clause_that_gives_it_too_late(self):
        self.assertEqual(self.lines("method m(x: Ref) requires x.f > 0 && acc(x.f)", ["var x #1"])[1:],
                         ["acc(x.f) comes only after it, at 10:38"])

    def test_an_instance_that_nothing_opens(self):
        again, _ = needs("method m(x: Ref, n: Int) requires tree(x, n) { x.f := 1 }", ["var x null", "var n 1"], "pick true")
        self.assertEqual(unopened(again), "tree(null, 1) is held in this run although its body rules it out: no step opens it")

    def test_an_instance_in_another_one_that_nothing_opens(self):
        head = "predicate all(x: Ref, n: Int) { acc(x.g) && tree(x.g, n) }\n"
        for value, told in (("null", "tree(null, 1) is in all(x, 1) in this run although its body rules it out: no step opens it"), ("#2", "")):
            again, _ = needs(f"{head}method m(x: Ref, n: Int) requires all(x, n) {{ x.f := 1 }}",
                             ["var x #1", "var n 1", f"content all #1 1 pair leaf {value} unit"], "pick true")
            self.assertEqual(unopened(again), told)


class Values(unittest.TestCase):
    def lines(self, method, *choices):
        return needs(method, *choices)[1]

    def test_the_sides_and_the_parts(self):
        self.assertEqual(self.lines("method m(a: Int, b: Int) { assert a + b <= 2 * a }", ["var a 1", "var b 2"], "pick true"),
                         ["`a + b <= 2 * a` is 3 <= 2: a = 1, b = 2"])
        self.assertEqual(self.lines("method m(a: Bool) { assert a }", [], "pick true"), ["a is false"])
        self.assertEqual(self.lines("method m(a: Bool) { assert !a }", ["var a true"], "pick true"), ["a is true"])

    def test_references_that_are_one(self):
        method = "method m(x: Ref, y: Ref) {{ assert {} }}"
        for condition, values, told in (("x != y", ["#1", "#1"], "`x != y` is #1 != #1: x and y are one object"),
                                        ("x != null", ["null", "#1"], "`x != null` is null != null: x is null"),
                                        ("x != y", ["null", "null"], "`x != y` is null != null: x and y are null")):
            opening = [f"var {name} {value}" for name, value in zip("xy", values)]
            self.assertEqual(self.lines(method.format(condition), opening, "pick true"), [told])

    def test_the_terms_of_the_caller(self):
        again, lines = needs("method m(a: Int) { some(a - 1) }", ["var a 1"], "pick true")
        self.assertEqual(lines, ["`(a - 1) > 0 || (a - 1) == -7` is 0 > 0 || 0 == -7: a = 1"])

    def test_old_values(self):
        self.assertEqual(self.lines("method m(x: Ref) requires acc(x.f) ensures acc(x.f) && old(x.f) > 0 { x.f := 5 }",
                                    ["var x #1"], "pick true"),
                         ["`old(x.f) > 0` is 0 > 0: old(x.f) = 0 (now 5)"])

    def test_null_and_divisors_and_amounts(self):
        method = "method m(x: Ref, n: Int, p: Perm) requires acc(x.g) {{ {} }}"
        opening = ["var x #1", "var n 1", "var p -1/2"]
        self.assertEqual(self.lines(method.format("var y: Int := x.g.f"), opening, "pick true"), ["x.g is null"])
        self.assertEqual(self.lines(method.format("var y: Int := n \\ (n - 1)"), opening, "pick true"), ["n - 1 is 0: n = 1"])
        self.assertEqual(self.lines(method.format("inhale acc(x.f, p)"), opening, "pick true"), ["p is -1/2"])
        self.assertEqual(self.lines(method.format("unfold acc(cell(x), p)"), opening, "pick true"), ["p is -1/2"])


class Origins(unittest.TestCase):
    def lines(self, method, *choices):
        return needs(method, *choices)[1][1:]

    def test_a_call_that_says_nothing_of_a_place(self):
        method = "method m(x: Ref) requires acc(x.f) {{\n x.f := 3 {}(x) assert x.f == 3 }}"
        for name, says in (("touch", "says nothing of its value"), ("keep", "allows 4 after it")):
            self.assertEqual(self.lines(method.format(name), ["var x #1"], "pick true", "state\nheap f #1 4"),
                             [f"x.f was 3 before {name}(x) at 11:11, whose contract {says}"])

    def test_a_result_through_an_assignment(self):
        self.assertEqual(self.lines("method m(x: Ref) requires acc(x.f) {\n var r: Int r := get(x) r := r + 1 assert r == 1 }",
                                    ["var x #1"], "pick true", "value 0", "state", "value 5"),
                         ["get(x) at 11:13 gives r = 5: its contract says nothing of r"])

    def test_a_loop(self):
        method = "method m(n: Int) {{\n var i: Int := 0 while (i < n) invariant {} {{ i := i + 1 }} assert i == n }}"
        for invariant, says in (("true", "say nothing of its value"), ("0 <= i", "allow 2 after it")):
            self.assertEqual(self.lines(method.format(invariant), [], "pick true", "state", "value 2", "pick false"),
                             [f"i was 0 before the loop at 11:18, whose invariants {says}"])

    def test_a_value_that_was_given_away(self):
        self.assertEqual(self.lines("method m(x: Ref) requires acc(x.f) {\n exhale acc(x.f) inhale acc(x.f) assert x.f == 0 }",
                                    ["var x #1"], "pick true", "state\nheap f #1 1"),
                         ["x.f was 0 until 11:2, where exhale acc(x.f) gave it away; inhale acc(x.f) at 11:18 brings any value, here 1"])

    def test_what_begins_with_any_value(self):
        self.assertEqual(self.lines("method m() returns (r: Int) { assert r > 0 }", [], "pick true"),
                         ["r has any value where `m` begins, here 0, and is not assigned"])
        self.assertEqual(self.lines("method m() {\n var r: Int assert r > 0 }", [], "pick true", "value 0"),
                         ["var r: Int at 11:2 gives r any value, here 0"])
        self.assertEqual(self.lines("method m() {\n var x: Ref := new(f) assert x.f > 0 }", [], "pick true", "fresh #1", "value 0"),
                         ["var x: Ref := new(f) at 11:2 gives x.f any value, here 0"])

    def test_a_value_out_of_an_instance(self):
        method = """method boil(x: Ref) requires cell(x) ensures cell(x)
method m(x: Ref) requires cell(x) {\n boil(x) unfold cell(x) assert x.f == 3 }"""
        self.assertEqual(self.lines(method, ["var x #1", f"content cell #1 {CELL.format(3)}"], "pick true",
                                    f"state\ncontent cell #1 {CELL.format(4)}"),
                         ["x.f was 3 before boil(x) at 12:2, whose contract says nothing of its value"])


if __name__ == "__main__":
    unittest.main()
