"""Changes of a file, those that may mend an error, and runs that can be believed. What asks z3 is skipped where it or a program is missing."""
import json
import os
import shutil
import subprocess
import sys
import tempfile
import unittest

from verifying.believing import Assumptions, Doubts, ways_of
from verifying.helping import Changes, edit_of
from verifying.program import TOP
from verifying.run_files import ViperRun
from verifying.running import rerun
from verifying.source import Source, without_bodies
from verifying.spots import with_end
from verifying.trying import Changed, Insertion

READY = bool(os.environ.get("REMDUSKA")) and shutil.which("z3") is not None
HEAD = """field f: Int field g: Ref
predicate cell(x: Ref) { acc(x.f) }
predicate list(x: Ref) { acc(x.f) && acc(x.g) && (x.g != null ==> list(x.g)) }
predicate some(n: Int)
method take(x: Ref) requires cell(x)
method make(p: Perm) returns (x: Ref) requires p >= none ensures acc(cell(x), p) && (p > none ==> list(x)) && some(1)
"""


def run_of(method, *choices):
    source = Source("a.vpr", (HEAD + method).encode())
    return source, rerun(source, ViperRun("m", [["viper run", *choices[0]], *[it.split("\n") for it in choices[1:]]]))


class Files(unittest.TestCase):
    def test_labels_move_with_what_is_inserted(self):
        source = Source("a.vpr", b"method m() {\n  assert true\n  assert false\n}\n")
        changed = Changed(source.data, [Insertion(15, 15, "var x: Int\n  "), Insertion(26, 26, " ;")])
        self.assertEqual(changed.data, b"method m() {\n  var x: Int\n  assert true ;\n  assert false\n}\n")
        self.assertEqual(changed.label(source, "2:3 2:10 false"), "3:3 3:10 false")
        self.assertEqual(changed.label(source, "3:3 3:10 false"), "4:3 4:10 false")
        gone = Changed(source.data, [Insertion(15, 26, "skip")])
        self.assertIsNone(gone.label(source, "2:3 2:10 false"))

    def test_an_edit_has_its_range(self):
        self.assertEqual(tuple(edit_of(b"ab\ncd\n", Insertion(3, 5, "x"))), (2, 1, 2, 3, "x"))

    def test_other_bodies_are_left_out_and_all_places_stay(self):
        data = b"method a() {\n assert false }\nmethod b() { assert true }"
        self.assertEqual(without_bodies(Source("", data), {"a"}), b"method a()  \n               \nmethod b() { assert true }")

    def test_a_copy_has_an_assertion_at_its_end(self):
        head = "predicate p(x: Ref) { true }\nmethod a() requires true ensures (1) == 1 && true ensures false "
        for name, copy in (("a", "method smoke$() requires true ensures (1) == 1 && true ensures false {\n skip"
                                 " exhale ((1) == 1 && true) && (false) assert false }"),
                           ("b", "method smoke$(x: Ref) ensures p(x) { inhale (p(x)) assert false }"),
                           ("p", "method smoke$(x: Ref) requires p(x) { unfold p(x) assert false }")):
            source = Source("", f"{head}{{\n skip}}\nmethod b(x: Ref) ensures p(x)\n".encode())
            text, stem, label = with_end(source, source.declared[name])
            self.assertEqual((text, stem), (f"{head}\nmethod b(x: Ref) ensures p(x)\n\n{copy}\n", "smoke$"))
            line, column = map(int, label.split()[0].split(":"))
            self.assertTrue(text.split("\n")[line - 1][column - 1:].startswith("assert false"), label)
            self.assertEqual(label, f"{line}:{column} {line}:{column + 7} false")


class Offered(unittest.TestCase):
    """The changes that are thought of, before any is tried."""

    def words(self, method, *choices):
        return [it.words for it in Changes(run_of(method, *choices)[1]).all()]

    def texts(self, method, *choices):
        source, again = run_of(method, *choices)
        return [Changed(source.data, list(it.insertions)).data.decode()[len(HEAD):] for it in Changes(again).all()]

    def test_to_open_what_has_it(self):
        method, content = "method m(x: Ref) requires cell(x) {\n x.f := 1\n}", "content cell #1 leaf 3"
        self.assertEqual(self.texts(method, ["var x #1", content], "pick true")[:2], [
            "method m(x: Ref) requires cell(x) {\n unfold cell(x)\n x.f := 1\n fold cell(x)\n}",
            "method m(x: Ref) requires cell(x) {\n unfold cell(x)\n x.f := 1\n}"])
        read = "method m(x: Ref) requires cell(x) {\n assert x.f == 3\n}"
        self.assertEqual(self.texts(read, ["var x #1", content], "pick true")[0],
                         "method m(x: Ref) requires cell(x) {\n assert unfolding cell(x) in x.f == 3\n}")

    def test_to_fold_what_is_missing(self):
        self.assertEqual(self.texts("method m(x: Ref) requires acc(x.f) {\n take(x)\n}", ["var x #1"], "pick true"),
                         ["method m(x: Ref) requires acc(x.f) {\n fold cell(x)\n take(x)\n}"])

    def test_to_move_a_fold_that_comes_too_late(self):
        method = """method m(x: Ref, y: Ref) requires acc(x.f) && acc(x.g) && acc(y.f) && acc(y.g) && x.g == y && y.g == null {
 fold list(x)
 fold list(y)
}"""
        self.assertEqual(self.words(method, ["var x #1", "var y #2", "heap g #1 #2"], "pick true")[0], "line 9 moved before line 8")

    def test_to_leave_an_unfold_out(self):
        method = "method m(x: Ref) requires cell(x) {\n unfold cell(x)\n unfold cell(x)\n}"
        content = "content cell #1 leaf 3"
        self.assertEqual(self.words(method, ["var x #1", content], "pick true")[0], "without line 9")
        self.assertEqual(self.texts(method, ["var x #1", content], "pick true")[0], "method m(x: Ref) requires cell(x) {\n unfold cell(x)\n}")
        one = method.replace("\n", " ")
        self.assertEqual(self.words(one, ["var x #1", content], "pick true")[0], "without `unfold cell(x)`")
        self.assertEqual(self.texts(one, ["var x #1", content], "pick true")[0], "method m(x: Ref) requires cell(x) {  unfold cell(x)   }")

    def test_to_fold_at_the_end_of_a_block(self):
        method = "method m(x: Ref) requires cell(x) {\n if (true) {\n  unfold cell(x)\n  x.f := 1\n }\n take(x)\n}"
        self.assertIn("`fold cell(x)` added after line 10", self.words(method, ["var x #1", "content cell #1 leaf 3"], "pick true"))
        self.assertIn(method.replace("1\n }", "1\n  fold cell(x)\n }"), self.texts(method, ["var x #1", "content cell #1 leaf 3"], "pick true"))

    def test_to_move_a_part_of_a_clause(self):
        method = "method m(x: Ref)\n requires true && x.f > 0 && acc(x.f) && true\n{ }"
        self.assertEqual(self.words(method, ["var x #1"])[0], "`acc(x.f)` moved to the front of this `requires`")
        self.assertEqual(self.texts(method, ["var x #1"])[0], "method m(x: Ref)\n requires acc(x.f) && true && x.f > 0 && true\n{ }")
        self.assertEqual(self.words("method m(x: Ref) requires x.f > 0 && (true ==> acc(x.f)) { }", ["var x #1"]), ["`acc(x.f) &&` added right after this `requires`"])

    def test_to_make_another_field(self):
        for made, choices, new in (("f", ["value 0"], "new(f, g)"), ("", [], "new(g)")):
            method = f"method m() {{\n var x: Ref\n x := new({made})\n x.g := null\n}}"
            self.assertEqual(self.words(method, [], "pick true", "value null", "fresh #1", *choices)[0], f"`{new}` in line 9")
            self.assertIn(f" x := {new}\n", self.texts(method, [], "pick true", "value null", "fresh #1", *choices)[0])

    def test_to_keep_it_in_an_invariant(self):
        method = "method m(x: Ref) requires acc(x.f) {\n while (true)\n  invariant true\n { x.f := 1 }\n}"
        self.assertEqual(self.texts(method, ["var x #1"], "pick true", "state", "pick true", "state"),
                         ["method m(x: Ref) requires acc(x.f) {\n while (true)\n  invariant true\n   invariant acc(x.f)\n { x.f := 1 }\n}"])

    def test_to_ask_the_caller(self):
        self.assertEqual(self.words("method m(x: Ref) {\n x.f := 1\n}", ["var x #1"], "pick true"), ["`requires acc(x.f)` added to `m`"])
        self.assertEqual(self.words("method m(n: Int) {\n var i: Int := 1 \\ n\n}", [], "pick true"), ["`requires n != 0` added to `m`"])
        self.assertEqual(self.words("method m(a: Int, b: Int) {\n var w: Int := b - a\n var i: Int := 1 \\ w\n}", [], "pick true"),
                         ["`requires b != a` added to `m`"])
        self.assertEqual(self.words("method m(a: Int) {\n var w: Int\n w := a + 1\n w := 1 % (w * 2)\n}", ["var a -1"], "pick true", "value 0"),
                         ["`requires (a + 1) * 2 != 0` added to `m`"])
        self.assertEqual(self.words("method m(a: Int) {\n var w: Int\n w := w + a\n w := 1 % w\n}", [], "pick true", "value 0"), [])
        self.assertEqual(self.words("method m(a: Int) {\n assert a > 0\n}", [], "pick true"), [])
        self.assertEqual(self.words("method m(x: Ref, b: Bool) requires b ==> acc(x.f) {\n x.f := 1\n}", ["var x #1"], "pick true"), [])

    def test_what_the_guard_says_at_the_end(self):
        method = "method m(n: Int) {\n var i: Int := 0\n while (i < n)\n { i := i + 1 }\n assert i == n\n}"
        self.assertEqual(self.words(method, [], "pick true", "state", "value 1", "pick false"),
                         ["`invariant i <= n` added to the loop in line 9", "`invariant i == n` added to the loop in line 9"])

    def test_what_the_callee_should_say(self):
        method = "method id(x: Ref) requires acc(x.f) ensures acc(x.f)\nmethod m(y: Ref) requires acc(y.f) {\n y.f := 1\n id(y)\n assert y.f == 1\n}"
        self.assertEqual(self.words(method, ["var y #1"], "pick true", "state"), ["`ensures x.f == old(x.f)` added to `id` after line 7"])


    def test_what_the_callee_should_say_of_a_content(self):
        method = "method id(x: Ref) requires cell(x) ensures cell(x)\nmethod m(y: Ref) requires cell(y) {\n id(y)\n unfold cell(y)\n assert y.f == 3\n}"
        self.assertEqual(self.words(method, ["var y #1", "content cell #1 leaf 3"], "pick true", "state\ncontent cell #1 leaf 4"),
                         ["`ensures (unfolding cell(x) in x.f) == old(unfolding cell(x) in x.f)` added to `id` after line 7"])


class Believable(unittest.TestCase):
    def test_what_is_assumed(self):
        method = """method m(y: Ref, z: Ref) requires cell(y) && acc(list(z), 1/2) {
 var a: Ref
 a := make(write)
 while (true)
  invariant list(y)
 { a := null }
 unfold list(y)
}"""
        source, again = run_of(method, ["var y #1", "var z #2"], "pick true")
        found = Assumptions(again)
        texts = {source.data[:it.start].count(b"\n") - HEAD.count("\n") + 1: it.text for it in found.all()}
        self.assertEqual(texts[1], " assume ((write) > none ==> unfolding acc(cell(y), write) in true)"
                         " assume ((1/2) > none ==> unfolding acc(list(z), 1/2) in (z.g != z) && "
                         "((z.g != null) ==> ((1/2) > none ==> unfolding acc(list(z.g), 1/2) in (z.g.g != z.g))))")
        self.assertEqual(texts[3], " assume ((write) > none ==> unfolding acc(cell(a), write) in true)"
                         " assume (write > none) ==> ((write) > none ==> unfolding acc(list(a), write) in (a.g != a) && "
                         "((a.g != null) ==> ((write) > none ==> unfolding acc(list(a.g), write) in (a.g.g != a.g))))")
        self.assertEqual(texts[7], " assume (y.g != null) ==> ((write) > none ==> unfolding acc(list(y.g), write) in (y.g.g != y.g) && "
                         "((y.g.g != null) ==> ((write) > none ==> unfolding acc(list(y.g.g), write) in (y.g.g.g != y.g.g))))")
        self.assertEqual([it.text for it in found.different()], [" assume z == null || z != y"])

    def test_what_is_doubted(self):
        for content, is_doubted in (("pair leaf 1 pair leaf null unit", False), ("pair leaf 1 pair leaf #1 unit", True), ("unit", True)):
            _, again = run_of("method m(x: Ref) requires list(x) { assert false }", ["var x #1", f"content list #1 {content}"], "pick true")
            self.assertEqual(Doubts(again).instance() is not None, is_doubted, content)
        _, again = run_of("method m(x: Ref, y: Ref) { assert false }", ["var x #1", "var y #1"], "pick true")
        self.assertTrue(Doubts(again).has_aliases())

    def test_a_reference_that_is_null_is_assumed_to_be_there(self):
        content = "content list #1 pair leaf 1 pair leaf null unit"
        for held, texts in (("", []), (" && list(y)", ["assume x.g != null "])):
            _, again = run_of(f"method m(x: Ref, y: Ref) requires list(x){held} {{\n unfold list(x)\n exhale list(x.g)\n }}",
                                   ["var x #1", "var y #2", content, content.replace("#1", "#2")], "pick true")
            self.assertEqual([it.text for it in Assumptions(again).children()], texts)

    def test_loops_and_values_that_are_doubted(self):
        method = """method m(x: Ref, n: Int) requires acc(x.f) {
 var i: Int := 0
 while (i < n)
  invariant acc(x.f)
 { i := i + 1 }
 assert x.f + i > 5
}"""
        for n, value, i, skips, same in ((0, 0, 0, False, [True, True]), (1, 0, 1, False, [True, False]), (0, 1, 1, True, [False, False])):
            source, again = run_of(method, ["var x #1", f"var n {n}"], "pick true", f"state\nheap f #1 {value}", f"value {i}", "pick false")
            doubts = Doubts(again)
            self.assertEqual((doubts.skips(), [it[3] for it in doubts.open_values()]), (skips, same), (n, value, i))
        assumptions = Assumptions(again)
        changed = Changed(source.data, [*assumptions.iterating(doubts.loops()), *assumptions.changing(doubts.open_values())])
        self.assertEqual(changed.data.decode()[len(HEAD):].splitlines()[2:5:2], [
            " assume i < n var kept$0: Int := x.f var kept$1: Int := i while (i < n)",
            " { i := i + 1 } assume i != kept$1 assume x.f != kept$0"])
        self.assertEqual(ways_of(doubts, assumptions)[-1], assumptions.iterating(doubts.loops()))


@unittest.skipUnless(READY, "REMDUSKA names no program, or z3 is not installed")
class Tried(unittest.TestCase):
    """What is tried by z3."""
    options, environment = ("--no-certificates",), os.environ

    def told(self, text, *words):
        with tempfile.TemporaryDirectory() as room:
            path = os.path.join(room, "a.vpr")
            with open(path, "w", encoding="utf-8") as it:
                it.write(text)
            done = subprocess.run([sys.executable, f"{TOP}/tools/verify", path, "--json", "--no-smoke", "--no-cache", *self.options, *words],
                                  stdout=subprocess.PIPE, stderr=subprocess.PIPE, universal_newlines=True, env=self.environment)
        return [it for it in map(json.loads, done.stdout.splitlines()) if "label" in it]

    def test_the_change_that_is_told_verifies_the_unit(self):
        text = HEAD + "method m(x: Ref)\n  requires cell(x)\n  ensures cell(x)\n{\n  x.f := 1\n}\n"
        found = [it for it in self.told(text) if it["help"]]
        self.assertEqual(found[0]["help"][0]["words"], "with `unfold cell(x)` added before line 11 and `fold cell(x)` after it, `m` is verified")
        lines = text.split("\n")
        for it in reversed(found[0]["help"][0]["edits"]):
            line = lines[it["line"] - 1]
            self.assertEqual((it["line"], it["column"]), (it["end_line"], it["end_column"]))
            lines[it["line"] - 1] = line[:it["column"] - 1] + it["text"] + line[it["column"] - 1:]
        self.assertEqual(self.told("\n".join(lines)), [])

    def test_a_change_that_makes_the_unit_impossible_is_no_help(self):
        text = "method m(n: Int)\n  requires n == 0\n{\n  var i: Int := 1 \\ n\n}\n"
        self.assertEqual([it["help"] for it in self.told(text)], [[]])

    def test_a_run_in_which_each_instance_can_be_opened_is_preferred(self):
        text = HEAD + "method m(x: Ref, y: Ref)\n  requires list(x) && list(y)\n{\n  assert false\n}\n"
        state = self.told(text, "--unit", "m")[0]["state"]
        values = {it["variable"]: it["value"] for it in state if "variable" in it}
        self.assertNotIn("null", values.values())
        self.assertEqual(len(set(values.values())), 2)
        contents = [it["content"] for it in state if it.get("arguments") in ([values["x"]], [values["y"]])]
        self.assertEqual(["f " in it and "g " in it for it in contents], [True, True])


@unittest.skipUnless(os.environ.get("REMDUSKA") and os.environ.get("REMDUSKA_PROVE"), "REMDUSKA or REMDUSKA_PROVE names no program")
class TriedByValues(Tried):
    """What is tried by the values that the program finds: no z3 is on the path."""
    options, environment = (), {**os.environ, "PATH": "/nonexistent"}


if __name__ == "__main__":
    unittest.main()
