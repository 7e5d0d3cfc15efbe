"""What the program finds of labels: how its text is read, and which of it is taken. The last tests ask the programs, and no z3."""
import os
import random
import shutil
import subprocess
import sys
import tempfile
import unittest
from fractions import Fraction

from verifying import checking, files
from verifying.boogie_text import NotAsWritten, read_procedure
from verifying.found_values import read_found, renumbered, types_of
from verifying.program import TOP, VARIABLES, Program, Said, parts_of
from verifying.smaller import Values
from verifying.source import Source
from verifying.units import NOT_PROVED, Examiner, Task

from .building import conditions_of
from .chance import Chance

READY = all(os.environ.get(it) for it in VARIABLES.values())
TEXT = """procedure M$m() {
var v$x: Ref;
var v$n: int;
var h$f: [Ref]int;
var t$1: Snap;
var a$p: [Ref,int]real;
havoc t$1;
if (*) {
assert {:msg "1:1 1:2 false"} (v$n < 3);
assert {:msg "2:1 2:2 false"} (v$n != 4);
} else {
assert {:msg "3:1 3:2 false"} (h$f[v$x] != 7);
}
}
"""
FOUND = """unit M$m
values 1:1 1:2 false
v2 := 5
v7 := true
open 2:1 2:2 false
values 3:1 3:2 false
v1 := #9
v3[#9] := 7
v5[#9, -2] := 1/2
v6 := pair leaf #4 pair leaf 1/2 unit
refuted 4:1 4:2 perm
"""


class Texts(unittest.TestCase):
    def test_the_parts_of_a_text(self):
        self.assertEqual(parts_of("unit M$a\nopen 1:1 1:2 false\nunit P$b\nunit M$c\nv1 := unit\n", "unit"),
                         {"M$a": "unit M$a\nopen 1:1 1:2 false\n", "P$b": "unit P$b\n", "M$c": "unit M$c\nv1 := unit\n"})
        self.assertEqual(parts_of("", "unit"), {})

    def test_types_are_those_of_the_variables_of_conditions(self):
        for seed in range(40):
            rng = random.Random(seed)
            procedure = Chance(rng).procedure(rng.randrange(3, 14))
            self.assertEqual(types_of(procedure), list(conditions_of(procedure).vars.values()), f"seed {seed}")

    def test_what_is_found_is_read(self):
        found = read_found(FOUND, types_of(read_procedure(TEXT)))
        self.assertEqual(found.labels, ["1:1 1:2 false", "2:1 2:2 false", "3:1 3:2 false", "4:1 4:2 perm"])
        self.assertEqual((found.refuted, list(found.values)), ({"4:1 4:2 perm"}, ["1:1 1:2 false", "3:1 3:2 false"]))
        self.assertEqual(found.values["1:1 1:2 false"].scalars, {1: 5, 6: True})
        third = found.values["3:1 3:2 false"]
        content = ("pair", ("leaf", "Ref", 2), ("pair", ("leaf", "real", Fraction(1, 2)), ("unit",)))
        self.assertEqual(third.scalars, {0: 1, 5: content})
        self.assertEqual(third.tables, {2: {(1,): 7}, 4: {(1, -2): Fraction(1, 2)}})

    def test_what_is_no_text_of_values_is_refused(self):
        for line in ("v1 = 3", "v := 3", "v1 := pair unit", "v1 := #x", "v3[] := 3"):
            self.assertRaises(NotAsWritten, read_found, f"unit M$m\nvalues 1:1 1:2 false\n{line}\n", types_of(read_procedure(TEXT)))
        self.assertRaises(NotAsWritten, read_found, "unit M$m\nv1 := #3\n", [])

    def test_references_are_numbered_as_they_are_met(self):
        types = [((), "Ref"), ((), "int"), ((), "Ref"), (("Ref",), "Ref"), ((), "Ref")]
        found = renumbered(Values(types, {4: 5, 2: 9, 0: 0, 1: 9}, {3: {(9,): 3, (0,): 5}}))
        self.assertEqual((found.scalars, found.tables), ({0: 0, 1: 9, 2: 1, 4: 2}, {3: {(1,): 3, (0,): 2}}))


class Taken(unittest.TestCase):
    """What an examiner says of labels by what was found alone: it is given no program, and no z3."""

    def setUp(self):
        room = tempfile.mkdtemp()
        self.addCleanup(shutil.rmtree, room)
        self.room = room

    def examiner(self, found, first_open=""):
        task = Task("a.vpr", "", TEXT, frozenset(), False, 10, first_open=first_open, values=found)
        return Examiner(task, None, None, self.room)

    def test_values_are_taken_where_a_walk_fails_at_them(self):
        examiner = self.examiner(FOUND)
        self.assertEqual(examiner.possible(), ["1:1 1:2 false", "2:1 2:2 false", "3:1 3:2 false"])
        said, values = examiner.any_of(["2:1 2:2 false", "3:1 3:2 false"])
        self.assertEqual((said, examiner.fails_at(values)), ("sat", "3:1 3:2 false"))
        self.assertEqual(examiner.any_of(["4:1 4:2 perm"]), ("unsat", None))
        self.assertEqual(examiner.any_of(["2:1 2:2 false", "4:1 4:2 perm"]), (NOT_PROVED, None))

    def test_values_that_lead_to_another_label_are_taken_for_that_one(self):
        labels = ["1:1 1:2 false", "2:1 2:2 false"]
        examiner = self.examiner(f"unit M$m\nopen {labels[0]}\nvalues {labels[1]}\nv2 := 4\nv7 := true\n")
        self.assertEqual(examiner.end_of(labels[1]), labels[0])
        self.assertEqual(examiner.any_of(labels)[0], "sat")
        self.assertEqual(examiner.any_of(labels[1:]), (NOT_PROVED, None))

    def test_what_stands_before_the_first_label_that_is_open_cannot_fail(self):
        self.assertEqual(self.examiner(FOUND, "2:1 2:2 false").possible(), ["2:1 2:2 false", "3:1 3:2 false"])


class Answering(Program):
    """A program that finds nothing, and notes which text it is asked of."""

    def __init__(self, asked):
        self.asked_of = asked

    def values(self, file, seconds=None, is_boogie=False):
        with open(file, "rb") as it:
            self.asked_of.append((is_boogie, it.read()))
        return {"M$b": "unit M$b\n", "b": "unit b\n"}


class Asked(unittest.TestCase):
    def test_the_program_is_given_no_bodies_of_methods_that_are_proved(self):
        data = b"method a()\n{ assert true }\nmethod b() { assert false }\n"
        source, asked = Source("a.vpr", data), []
        with tempfile.TemporaryDirectory() as room:
            units = [files.Unit("M$a", "a", 1, 8, "x"), files.Unit("M$b", "b", 3, 8, "x")]
            given = files.Given("a.vpr", os.path.join(room, "given.vpr"), None, "", False, True, frozenset(), units, None, "")
            found = files.with_answers(given, source, Answering(asked), {"b": "3:14 3:21 false"}, False)
        self.assertEqual(asked, [(False, b"method a()\n               \nmethod b() { assert false }\n")])
        self.assertEqual([(it.is_proved, it.values, it.first_open) for it in found.units], [(True, None, ""), (False, "unit M$b\n", "3:14 3:21 false")])

    def test_of_boogie_it_is_given_no_procedures_that_are_proved(self):
        asked = []
        with tempfile.TemporaryDirectory() as room:
            units = [files.Unit(name, name, 1, 1, f"procedure {name}() {{\n}}\n") for name in "abc"]
            given = files.Given("a.bpl", os.path.join(room, "given.bpl"), None, "type Ref;\n", True, True, frozenset(), units, None, "")
            found = files.with_answers(given, Source("a.bpl", b""), Answering(asked), {"b": "1:1 1:1 false", "c": ""}, False)
        self.assertEqual(asked, [(True, b"type Ref;\nprocedure b() {\n}\nprocedure c() {\n}\n")])
        self.assertEqual([(it.is_proved, it.values, it.first_open) for it in found.units],
                         [(True, None, ""), (False, "unit b\n", "1:1 1:1 false"), (False, None, "")])

    def test_a_call_that_went_wrong_finds_nothing(self):
        for said in (Said(2, "", "usage"), Said(5, "unit M$a\n", ""), Said(-9, "unit M$a\n", "")):
            with tempfile.TemporaryDirectory() as room:
                path = os.path.join(room, "prove")
                with open(path, "w", encoding="utf-8") as it:
                    it.write(f"#!/bin/sh\nprintf '%s' '{said.out}'\n{'kill -9 $$' if said.status < 0 else f'exit {said.status}'}\n")
                os.chmod(path, 0o755)
                self.assertEqual(Program(type("Paths", (), {"prove": path})).values("a.vpr"), {})


@unittest.skipUnless(READY, f"{', '.join(VARIABLES.values())} name no programs")
class WithoutZ3(unittest.TestCase):
    def setUp(self):
        self.tools = tempfile.mkdtemp()
        self.addCleanup(shutil.rmtree, self.tools)

    def verify(self, *words):
        done = subprocess.run([sys.executable, f"{TOP}/tools/verify", "--no-cache", *words], cwd=TOP, stdout=subprocess.PIPE, stderr=subprocess.PIPE,
                              universal_newlines=True, env={**os.environ, "PATH": self.tools})
        self.assertEqual(done.stderr, "")
        return done.stdout

    def test_errors_are_told_as_they_are_with_z3(self):
        names = ("fold_in_wrong_order", "last_of_a_segment", "touch_says_nothing", "remainder_of_difference", "unfold_forgotten")
        for name in names:
            with open(os.path.join(checking.ERRORS, f"{name}.txt"), encoding="utf-8") as it:
                self.assertEqual(self.verify(f"examples/errors/{name}.vpr"), it.read())

    def test_programs_of_boogie_are_proved_and_their_runs_are_found(self):
        self.assertEqual(self.verify("examples/dice.bpl"), "examples/dice.bpl: proved, 1 unit\n")
        out = self.verify("examples/dice_wrong.bpl")
        self.assertIn("examples/dice_wrong.bpl:39:21: error: ", out)
        self.assertIn("\nboogie run sixes\n", out)

    def test_a_run_is_shown_in_which_each_instance_can_be_opened(self):
        out = self.verify("examples/list_wrong.vpr")
        self.assertIn("`i >= 0` is -1 >= 0", out)
        self.assertIn("with `invariant i >= 0` added to the loop in line 50, `fill` is verified", out)
        self.assertNotIn("although its body rules it out", out)


if __name__ == "__main__":
    unittest.main()
