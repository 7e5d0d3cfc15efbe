"""Each mistake is told once, spots that no run reaches, and what is kept. What asks programs needs REMDUSKA and z3."""
import json
import os
import re
import shutil
import subprocess
import sys
import tempfile
import unittest

from verifying import spots
from verifying.files import Given, Unit
from verifying.keeping import Keeper
from verifying.program import TOP
from verifying.results import Error, Label
from verifying.source import Source

READY = bool(os.environ.get("REMDUSKA")) and shutil.which("z3") is not None
DATA = os.path.join(TOP, "tools/verifying/tests/data")
TOLD = """4:38: error
7:12: error
15:3: error
7:12: note
34:15: error
33:3: note
42:10: error
43:10: error
44:10: error
45:10: error
46:10: error
40:8: note
"""
UNITS = "c*,folds,loops,many"


@unittest.skipUnless(READY, "REMDUSKA names no program, or z3 is not installed")
class Once(unittest.TestCase):
    def verify(self, *words):
        return subprocess.run([sys.executable, f"{TOP}/tools/verify", *words], cwd=DATA, stdout=subprocess.PIPE, universal_newlines=True)

    def places(self, *words):
        """The places and kinds of what is told."""
        done = self.verify("--no-runs", "--seconds", "600", "--no-certificates", *words)
        lines = [it[len("once.vpr:"):] for it in done.stdout.splitlines() if it.startswith("once.vpr:")]
        return done.returncode, [it.partition(": ")[0::2] for it in lines]

    def test_each_mistake_is_told_once_and_five_of_a_unit(self):
        status, told = self.places("--unit", UNITS, "once.vpr")
        found = "".join([f"{place}: {rest.partition(':')[0]}\n" for place, rest in told[:-1]])
        self.assertEqual((status, found), (1, TOLD))
        self.assertIn(("40:8", "note: 3 more errors of `many`; --errors 0 tells all"), told)

    def test_all_labels_are_in_json_with_the_one_that_they_follow_from(self):
        lines = [json.loads(it) for it in self.verify("--json", "--seconds", "600", "--no-certificates", "--unit", UNITS, "once.vpr").stdout.splitlines()]
        labels = {it["label"]: it["of"] for it in lines if "label" in it}
        self.assertEqual({it: of for it, of in labels.items() if of},
                         {"20:3 7:14 null": "6:1 7:14 null", "20:3 7:14 perm": "6:1 7:14 perm"})
        self.assertEqual(len([it for it in labels if re.match("4[0-9]:", it)]), 9)

    def test_units_are_chosen_by_patterns(self):
        _, told = self.places("--unit", "cell,folds", "--unit", "*2", "once.vpr")
        self.assertEqual([place for place, _ in told], ["4:38", "20:3", "7:12", " 1 of 3 units verified on z3's word"])

    def test_an_assertion_that_nobody_decides_is_told_at_its_place(self):
        done = self.verify("--seconds", "1", "--no-certificates", "--unit", "modulo", "once.vpr")
        self.assertEqual((done.returncode, done.stdout), (3, "once.vpr:54:11: warning: undecided: the postcondition r % u == 0\n"
                                                             "once.vpr: 0 of 1 unit proved\n"))

    def test_errors_may_be_told_without_a_limit(self):
        _, told = self.places("--errors", "0", "--unit", "many", "once.vpr")
        self.assertEqual(len(told), 9, told)     # eight, and the sum

    def test_spots_that_no_run_reaches(self):
        out = self.verify("--smoke", "--no-certificates", "spots.vpr").stdout.splitlines()
        self.assertEqual([it.split(": ")[0].partition(":")[2] for it in out if "warning" in it], ["2:11", "4:8", "10:3", "17:25", "17:51", "19:3"])


class Spots(unittest.TestCase):
    def found(self, text):
        source = Source("a.vpr", text.encode())
        return [(it.line, it.column, it.words, it.before) for it in spots.Spots(source, source.units[-1]).found]

    def test_spots_in_the_order_of_the_text(self):
        called = "method c() ensures true "
        self.assertEqual([it[1:] for it in self.found(called + "method m(b: Bool) { c() if (b) { c() } else { } while (b) { } }")], [
            (32, "no run of `m` begins: what it requires cannot hold", None),
            (45, "no run goes on after this call of `c`: what it ensures cannot hold here", 0),
            (49, "no run comes into this branch", 1),
            (58, "no run goes on after this call of `c`: what it ensures cannot hold here", 2),
            (64, "no run comes into this branch", 1),
            (73, "no run comes into the body of this loop", 1),
            (32, "no run of `m` comes to its end", 1)])

    def test_what_is_meant_not_to_be_reached_is_no_spot(self):
        for text in ("method m(b: Bool) { if (b) { assert false } }", "method m(b: Bool) { if (b) { inhale false } }"):
            self.assertEqual(len(self.found(text)), 2, text)
        self.assertEqual(len(self.found("method h() ensures false method m() { h() }")), 2)

    def test_a_copy_has_the_spot_and_no_other_method_has_a_body(self):
        source = Source("a.vpr", b"method a() { assert true }\nmethod m(b: Bool) returns (r: Int)\n ensures r > 0 { if (b) { r := 1 } }\n")
        text, found = spots.with_copies(source, source.units[1:])
        self.assertEqual([text.count("assert false"), text.count("assert true"), len(found)], [3, 0, 3])
        self.assertIn("method smoke$1(b: Bool) returns (r: Int)\n ensures r > 0 { if (b) { assert false  r := 1 } }\n", text)

    def test_a_spot_behind_one_that_is_not_reached_is_not_told(self):
        source = Source("a.vpr", b"method m(b: Bool) { if (b) { } }")
        _, found = spots.with_copies(source, source.units)
        self.assertEqual([it.words[:15] for it in spots.told(found, set(found))], ["no run of `m` b"])
        self.assertEqual([it.words[:15] for it in spots.told(found, {"smoke$1"})], ["no run comes in"])


class Kept(unittest.TestCase):
    def setUp(self):
        self.room = tempfile.mkdtemp()
        self.addCleanup(shutil.rmtree, self.room)
        self.text = os.path.join(self.room, "text")
        with open(self.text, "w") as it:
            it.write("text")
        self.unit = Unit("M$m", "m", 1, 1)

    def given(self, path):
        return Given(path, "", self.text, "", False, False, frozenset(), [], None, "")

    def test_no_name_begins_with_a_dot(self):
        keeper = Keeper(self.room)
        self.assertEqual([keeper.stem(it) for it in ("./a.vpr", "../a.vpr", ".a.vpr", "b/../a.vpr", "...", "<stdin>")],
                         ["a.vpr", "_a.vpr", "a.vpr-2", "a.vpr-3", "file", "_stdin_"])

    def test_runs_are_kept_beside_the_text(self):
        label = Label("1:2 3:4 perm", True, "", "", "", "", 1, 1, 1, "viper run\n", None, [], [], [])
        Keeper(self.room).error(self.given("a.vpr"), self.unit, Error([label], (1, 1), []))
        self.assertEqual(sorted(os.listdir(self.room)), ["a.vpr.m.1-2-3-4-perm.run", "a.vpr.text.bpl", "text"])


if __name__ == "__main__":
    unittest.main()
