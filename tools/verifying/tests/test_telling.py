"""What is shown of an error: lines with marks, the steps of a run, a run file with comments, and the state where it fails.

data/told.run is a run of `main` of data/told.vpr."""
import unittest
from fractions import Fraction
from pathlib import Path

from verifying import telling
from verifying.contents import content_words
from verifying.failures import Told
from verifying.meaning import Meaning
from verifying.results import told_of_boogie
from verifying.retelling import Retold
from verifying.run_files import ViperRun
from verifying.running import rerun
from verifying.source import Source
from verifying.trace import Row, Trace, lines
from verifying.values import Ref, word

LABEL = "22:3 22:10 false"
DATA = Path(__file__).resolve().parent / "data"
CHOICES = ("pick", "value", "amount", "fresh", "state")
TITLES = """\
the body runs
any value for a (line 13)
the object made at 14:3
the field value of the object made at 14:3
any value for l (line 15)
the wildcard amount of acc(list(tail), wildcard) at 7:12
what is not held gets any value (call of push at 16:3)
what the call of push at 16:3 gives l
what is not held gets any value (loop at 17:3)
any value for k, which the loop at 17 assigns
after the loop at 17""".split("\n")


def choices_of(text):
    """The lines of a run file, by choice."""
    choices = [[]]
    for line in text.splitlines():
        if line.split()[0] in CHOICES:
            choices.append([])
        choices[-1].append(line)
    return choices


class Shown(unittest.TestCase):
    def setUp(self):
        self.source = Source("told.vpr", (DATA / "told.vpr").read_bytes())
        self.run_ = ViperRun("main", choices_of((DATA / "told.run").read_text()))
        self.again = Retold(self.source, self.run_, LABEL)

    def test_each_choice_has_its_comment(self):
        lines = self.again.run_file().splitlines()
        self.assertEqual([it[3:] for it in lines if it.startswith("// ")], TITLES)
        self.assertEqual("\n".join(it for it in lines if not it.startswith("//")) + "\n", self.run_.text())
        for n, line in enumerate(lines):
            if line.split()[0] in CHOICES:
                self.assertTrue(lines[n - 1].startswith("// "), line)

    def test_choices_that_are_left_are_not_taken(self):
        self.run_.choices.append(["pick true"])
        self.assertEqual(Retold(self.source, self.run_, LABEL).run_file().splitlines()[-2:], ["// not taken", "pick true"])

    def test_of_a_run_that_ends_otherwise_here_only_the_run_file_is_told(self):
        again = Retold(self.source, self.run_, "22:3 22:10 perm")
        self.assertEqual(again.run_file(), self.run_.text())
        self.assertEqual((again.rows(), again.needs(), again.state_data(), again.lines(True)), ([], [], [], []))

    def test_the_steps_for_people(self):
        self.assertEqual([it.split(None, 1)[0] for it in self.again.lines(True)], "10 11 13 14 15 16 17 20 20 21 22".split())
        self.assertEqual([it.text for it in self.again.rows()], [
            "first = #1, n = 2",
            "gives list(first) {value 4, next null}",
            "a = 5 (not initialised)",
            "made = #2; made.value = 6 (not initialised), write",
            "l = null (not initialised)",
            "l = #3; takes 1/2 of list(first), 1/2 is left; gives list(l) {value 3, next #4, list(#4) {value -1, next null}} (left open by the contract)",
            "after the loop: k = 2 (left open by the invariants, was 0)",
            "true",
            "inner = 2",
            "takes 1/2 of list(l), 1/2 is left; gives l.value = 3, 1/2; l.next = #4, 1/2; list(#4) {value -1, next null}, 1/2",
            "fails"])

    def test_what_is_needed(self):
        self.assertEqual(self.again.needs(), [
            "`l.value == 7` is 3 == 7",
            "push(first, a) at 16:3 gives l.value = 3: its contract says nothing of its value"])

    def test_a_step_as_data(self):
        row = self.again.rows()[3].data()
        state = row.pop("state")
        self.assertEqual(row, {
            "line": 14, "column": 3, "end_line": 14, "end_column": 30, "source": "var made: Ref := new(value)",
            "text": "made = #2; made.value = 6 (not initialised), write",
            "changes": [{"variable": "made", "value": "#2"}, {"place": "#2.value", "held": "1", "held_before": "0", "value": "6"}]})
        self.assertEqual(state, {
            "variables": {"first": "#1", "n": "2", "k": "0", "a": "5", "made": "#2"},
            "places": [{"place": "#2.value", "value": "6", "held": "1"}],
            "instances": [{"predicate": "list", "arguments": ["#1"], "held": "1", "content": "{value 4, next null}"}]})

    def test_a_long_run_is_cut_in_the_middle(self):
        rows = self.again.rows() * 3
        cut = lines(rows, False)
        self.assertEqual((len(cut), len(lines(rows, True))), (15, 33))
        self.assertEqual(cut[6].split(), "..  19 more steps, which --trace shows".split())

    def test_the_state_as_data(self):
        data = self.again.state_data()
        self.assertEqual(data[0], {"variable": "first", "value": "#1"})
        self.assertEqual(data[6], {"place": "#2.value", "held": "1/1", "value": "6"})
        self.assertEqual(data[9], {"predicate": "list", "arguments": ["#1"], "held": "1/2", "content": "value 4, next null"})
        self.assertEqual(len(data), 12)


class Rows(unittest.TestCase):
    """The text of each step of small runs of a method `m`."""
    HEAD = """field f: Int field g: Ref
predicate cell(x: Ref) { acc(x.f) }
method half(x: Ref) requires acc(x.f, 1/2) ensures acc(x.f, 1/2)
method same(x: Ref) requires acc(x.f) ensures acc(x.f) && x.f == old(x.f)
method get() returns (x: Ref, n: Int) ensures acc(x.f) && acc(cell(x), 1/2)
"""

    def rows(self, method, *choices):
        source = Source("a.vpr", (self.HEAD + method).encode())
        again = rerun(source, ViperRun("m", [["viper run", *choices[0]], *[it.split("\n") for it in choices[1:]]]))
        return [it.text for it in Trace(again).rows(False)]

    def test_what_gives_nothing(self):
        self.assertEqual(self.rows("method m(x: Ref, b: Bool) requires true requires b ==> acc(x.f) { assert b }", [], "pick true")[1:],
                         ["gives nothing: b is false", "fails"])

    def test_what_is_given_back(self):
        self.assertEqual(self.rows("method m(x: Ref) requires acc(x.f) { half(x) same(x) assert false }", ["var x #1"], "pick true", "state", "state")[2:],
                         ["takes 1/2 of x.f and gives it back", "takes x.f and gives it back", "fails"])

    def test_what_changes_nothing(self):
        self.assertEqual(self.rows("method pure(n: Int) requires n >= 0\nmethod m(n: Int) { pure(n) inhale n == 0 exhale n < 1 assert false }", [],
                                   "pick true", "state", "state"), ["n = 0", "changes nothing", "holds", "holds", "fails"])
        self.assertEqual(self.rows("predicate any() { true }\nmethod m() requires any() { unfold any() assert false }", [], "pick true")[-2:],
                         ["gives nothing", "fails"])

    def test_what_is_left_of_an_amount(self):
        self.assertEqual(self.rows("method m(x: Ref) requires acc(x.f, 1/2) { exhale acc(x.f, 1/2) assert false }", ["var x #1"], "pick true", "state")[1:],
                         ["gives x.f = 0, 1/2", "takes 1/2 of x.f, none is left", "fails"])

    def test_any_value(self):
        method = "method m() {\n var x: Ref\n var n: Int\n x, n := get()\n exhale acc(x.f)\n inhale acc(x.f)\n x := new(g)\n assert false }"
        self.assertEqual(self.rows(method, [], "pick true", "value null", "value 1", "state\ncontent cell #1 leaf 3", "value #1", "value 2",
                                   "state\nheap f #1 5", "fresh #2", "value null")[1:],
                         ["x = null (not initialised)", "n = 1 (not initialised)",
                          "x = #1, n = 2 (left open by the contract); gives x.f = 0 (left open by the contract), write; "
                          "cell(x) {f 3} (left open by the contract), 1/2",
                          "takes x.f", "gives x.f = 5 (left open by the inhale), write", "x = #2; x.g = null (not initialised), write", "fails"])

    def test_a_specification_that_fails_tells_what_it_gave(self):
        self.assertEqual(self.rows("method m(x: Ref) requires acc(x.g) && x.f > 0", ["var x #1"]), ["x = #1", "gives x.g = null, write; fails at x.f"])

    def test_a_loop_whose_condition_fails(self):
        self.assertEqual(self.rows("method m(x: Ref) requires acc(x.f) { while (x.f > 0) { } }", ["var x #1"], "pick true", "state", "pick true", "state")[2:],
                         ["with only what the invariants give: x.f stays outside the loop; fails at x.f"])
        self.assertEqual(self.rows("method m(x: Ref) requires acc(x.f) { while (true) invariant acc(x.f) && x.f > 0 { } }", ["var x #1"], "pick true")[2:],
                         ["fails"])

    def test_what_stays_outside_of_an_iteration(self):
        method = "method m(x: Ref) returns (y: Ref) requires {} {{ while (true) invariant {} {{ y := null assert false }} }}"
        begin = "some iteration: y = #1 (left open by the invariants, was null)"
        for held, invariant, told in (("acc(x.f)", "acc(x.f, 1/2)", "1/2 of x.f stays outside the loop"),
                                      ("acc(x.f) && acc(x.g, 1/2)", "true", "x.f, 1/2 of x.g stay outside the loop")):
            self.assertEqual(self.rows(method.format(held, invariant), ["var x #1"], "pick true", "state", "value #1", "pick true", "state")[2],
                             f"{begin}; {told}")
        self.assertEqual(self.rows(method.format("cell(x) && cell(null)", "cell(y)"), ["var x #1"], "pick true", "state", "value #2", "pick true", "state")[2],
                         "some iteration: y = #2; takes cell(null); cell(x) stays outside the loop; gives cell(y)")

    def test_what_several_parts_give_together(self):
        self.assertEqual(self.rows("method m(x: Ref, y: Ref) requires acc(x.f, 1/2) && acc(y.f, 1/2) { assert false }",
                                   ["var x #1", "var y #1"], "pick true")[1],
                         "gives x.f = 0, write: 1/2 of x.f and 1/2 of y.f, which are one place")
        self.assertEqual(self.rows("method m(x: Ref) requires acc(x.f, 1/2) && acc(x.f, none) && acc(x.f, 1/4) { assert false }",
                                   ["var x #1"], "pick true")[1], "gives x.f = 0, 3/4: 1/2 of x.f and 1/4 of x.f")
        self.assertEqual(self.rows("predicate two(x: Ref, y: Ref) { acc(x.f, 1/2) && acc(y.f, 1/4) }\n"
                                   "method m(x: Ref, y: Ref) requires acc(cell(x), 1/2) && acc(cell(y), 1/2) && two(x, y) { unfold two(x, y) assert false }",
                                   ["var x #1", "var y #1", "content two #1 #1 pair leaf 2 leaf 2", "content cell #1 leaf 2"], "pick true")[1:3],
                         ["gives cell(x) {f 2}, write: 1/2 of cell(x) and 1/2 of cell(y), which are one instance; two(x, x) {f 2, f 2}",
                          "x.f = 2, 3/4: 1/2 of x.f and 1/4 of y.f, which are one place"])

    def test_what_an_unfolding_opens_gives_nothing(self):
        self.assertEqual(self.rows("method m(x: Ref) requires cell(x) && acc(x.g) && unfolding cell(x) in x.f == 2 { unfold cell(x) assert false }",
                                   ["var x #1", "content cell #1 leaf 2"], "pick true")[1:3],
                         ["gives x.g = null, write; cell(x) {f 2}", "x.f = 2, write"])

    def test_what_fails_reads_it_where_an_iteration_begins(self):
        method = """method m(x: Ref, y: Ref) requires acc(x.f) && acc(y.f) && acc(x.g) && x.f == y.f {
 while (true) invariant acc(x.f) && acc(y.f) && acc(x.g) && x.g == null && x.f == y.f { x.f := 1 } }"""
        self.assertEqual(self.rows(method, ["var x #1", "var y #2"], "pick true", "state", "pick true", "state")[2],
                         "some iteration: x.f = 0; y.f = 0")

    def test_a_postcondition_by_itself(self):
        for ensures, told in (("x.f > 0", "its permission does not count here"), ("old(x.g) == null", "gives x.f = 0, write")):
            self.assertEqual(self.rows(f"method m(x: Ref) requires acc(x.f) ensures {ensures} {{ }}", ["var x #1"], "pick false", "state")[1], told)

    def test_a_long_source_stands_above_its_text(self):
        row = Row(7, 1, 7, 2, "x" * 60, "a = 1", [], {})
        self.assertEqual(lines([row, row._replace(source="short")], True), [f"    7  {'x' * 60}", "              a = 1", "    7  short  a = 1"])


class Contents(unittest.TestCase):
    SOURCE = Source("file.vpr", b"""field f: Int field g: Ref field h: Perm
predicate sides(x: Ref, b: Bool) { b ? acc(x.f) && acc(x.g) : acc(x.h) }
predicate maybe(x: Ref) { acc(x.g) && (x.g != null ==> acc(x.g.f, 1/2)) && x.g != x }
predicate open(n: Int) predicate both() { open(1) && acc(open(1 + 1)) && true }
predicate twin(x: Ref, b: Bool) { (b) ? acc(x.f) : acc(x.k) } field k: Int field c: Bool
predicate kept(x: Ref) { acc(x.c) && (x.c ? acc(x.f) : acc(x.k)) }
predicate count(x: Ref, n: Int) { acc(x.g) && (n > 0 ==> count(x.g, n - 1)) }
predicate part(x: Ref) { acc(x.f, none) && acc(x.k) }""")
    X = Ref(1)

    def told(self, name, arguments, value):
        meaning = Meaning(self.SOURCE, None)
        return content_words(meaning, (name, tuple(arguments)), value)[1:-1]

    def test_forms_of_bodies(self):
        int_, ref, perm, unit = ("leaf", "int", 3), ("leaf", "Ref", 2), ("leaf", "real", Fraction(1)), ("unit",)
        self.assertEqual(self.told("sides", [self.X, True], ("pair", int_, ref)), "f 3, g #2")
        self.assertEqual(self.told("sides", [self.X, False], perm), "h 1")
        self.assertEqual(self.told("maybe", [self.X], ("pair", ref, ("pair", int_, unit))), "g #2, #2.f 3")
        self.assertEqual(self.told("maybe", [self.X], ("pair", ("leaf", "Ref", 0), ("pair", unit, unit))), "g null")
        self.assertEqual(self.told("both", [], ("pair", int_, ("pair", unit, unit))), "open(1), open(2)")
        self.assertEqual(self.told("part", [self.X], ("pair", unit, int_)), "k 3")

    def test_a_condition_says_which_side_is_meant(self):
        int_ = ("leaf", "int", 3)
        for truth, name in ((True, "f"), (False, "k")):
            self.assertEqual(self.told("twin", [self.X, truth], int_), f"{name} 3")
            self.assertEqual(self.told("kept", [self.X], ("pair", ("leaf", "bool", truth), int_)), f"c {word(truth)}, {name} 3")

    def test_arguments_are_values(self):
        ref, unit = ("leaf", "Ref", 2), ("unit",)
        inner = ("pair", ("leaf", "Ref", 5), unit)
        self.assertEqual(self.told("count", [self.X, 2], ("pair", ref, inner)), "g #2, count(#2, 1) {g #5, count(#5, 0)}")

    def test_what_does_not_fit_is_left_out(self):
        self.assertEqual(self.told("maybe", [self.X], ("leaf", "int", 3)), "")
        self.assertEqual(self.told("maybe", [self.X], ("unit",)), "")
        self.assertEqual(self.told("kept", [self.X], ("pair", ("unit",), ("leaf", "int", 3))), "")

    def test_a_long_list_is_cut(self):
        source = Source("list.vpr", b"field n: Ref predicate list(x: Ref) { acc(x.n) && (x.n != null ==> list(x.n)) }")
        value = ("pair", ("leaf", "Ref", 0), ("unit",))
        for n in range(2000):
            value = ("pair", ("leaf", "Ref", n + 1), value)
        words = content_words(Meaning(source, None), ("list", (Ref(9),)), value)
        self.assertTrue(words.startswith("{n #2000, list(#2000) {n #1999, list(#1999) {"))
        self.assertTrue(len(words) < 600 and ".." in words)


class OfBoogie(unittest.TestCase):
    DATA = b"""procedure one() { assert {:msg "1:1 1:1 false"} true; }
procedure two() {
  assert {:msg "1:1 1:1 false"} true;
  assert {:msg "1:1 1:1 false"} false; }
procedure two$() { assert {:msg "2:1 1:1 false"} true; }
"""

    def test_a_label_that_stands_at_several_places_is_told_at_each(self):
        told = told_of_boogie(Source("a.bpl", self.DATA), "1:1 1:1 false", "two")
        self.assertEqual(((told.line, told.column), [it[:2] for it in told.notes]), ((3, 16), [(4, 16), (1, 32)]))

    def test_a_label_that_stands_once_has_no_notes(self):
        for unit in ("two", "two$"):
            told = told_of_boogie(Source("a.bpl", self.DATA), "2:1 1:1 false", unit)
            self.assertEqual((told.line, told.column, told.notes), (5, 33, []))


class Marks(unittest.TestCase):
    def lines(self, data, line, column):
        return telling.error_lines(Source("a.vpr", data), Told(line, column, "what"))

    def test_tabs_and_wide_characters_keep_the_mark_below(self):
        self.assertEqual(self.lines("\t/* \u00e9\u6f22 */ x".encode(), 1, 14), [
            "a.vpr:1:14: error: what", "    1 | \t/* \u00e9\u6f22 */ x", "      | \t          ^"])

    def test_no_byte_moves_the_cursor(self):
        self.assertEqual(self.lines(b"// \x1b[2J\r\nx", 1, 1)[1], "    1 | // \ufffd[2J")

    def test_the_end_of_the_file(self):
        self.assertEqual(self.lines(b"method m(", 1, 10), ["a.vpr:1:10: error: what", "    1 | method m(", "      |          ^"])
        self.assertEqual(self.lines(b"", 1, 1), ["a.vpr:1:1: error: what", "    1 | ", "      | ^"])
        self.assertEqual(self.lines(b"x\n", 7, 1), ["a.vpr:7:1: error: what"])

    def test_a_long_line_is_shown_around_the_mark(self):
        _, line, mark = self.lines(b"x" * 5000 + b"!" + b"y" * 5000, 1, 5001)
        self.assertEqual(line[mark.index("^")], "!")
        self.assertLess(len(line), 200)


if __name__ == "__main__":
    unittest.main()
