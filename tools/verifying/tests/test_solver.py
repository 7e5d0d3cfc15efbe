"""A process of z3: what it is asked and says. Skipped where z3 is not installed."""
import os
import shutil
import tempfile
import time
import unittest

from verifying.boogie_text import read_procedure
from verifying.search import Search
from verifying.solver import NoSolver, Solver
from verifying.symbolic import symbolic_of
from verifying.walk import Walk

from .building import conditions_of

HAS_Z3 = shutil.which("z3") is not None
HARD = "(declare-const x Int)(declare-const y Int)(declare-const z Int)(assert (= (+ (* x x x) (* y y y) (* z z z)) 114))\n"


@unittest.skipUnless(HAS_Z3, "z3 is not installed")
class Processes(unittest.TestCase):
    def setUp(self):
        self.solver = Solver()
        self.addCleanup(self.solver.stop)

    def test_one_process_answers_one_question_after_the_other(self):
        self.solver.begin("(declare-const x Int)(assert (> x 3))\n")
        self.assertEqual(self.solver.check(10), "sat")
        self.assertGreater(int(self.solver.values(["x"], 10)[0]), 3)
        self.solver.more("(assert (< x 3))\n")
        self.assertEqual(self.solver.check(10), "unsat")
        first = self.solver.process
        self.solver.begin("(declare-const x Bool)(assert x)\n")
        self.assertEqual((self.solver.check(10), self.solver.values(["x"], 10)), ("sat", ["true"]))
        self.assertIs(self.solver.process, first)

    def test_the_time_is_kept(self):
        start = time.monotonic()
        self.solver.begin(HARD)
        self.assertEqual(self.solver.check(0.5), "unknown")
        self.assertLess(time.monotonic() - start, 10)
        self.solver.begin("(assert false)\n")
        self.assertEqual(self.solver.check(10), "unsat")

    def test_what_z3_does_not_understand_is_no_answer(self):
        self.solver.begin("(assert (= 1 true nothing))\n")
        self.assertRaises(NoSolver, self.solver.check, 10)

    def test_values_that_are_not_those_that_were_asked_for_are_no_answer(self):
        with tempfile.TemporaryDirectory() as room:
            odd = os.path.join(room, "odd")
            for answer in ("", "()", ")))(((", "((x 1))", "((x (f y)) (z))"):
                with open(odd, "w", encoding="utf-8") as it:
                    it.write(f"#!/bin/sh\necho '{answer}'\necho done\nsleep 5\n")
                os.chmod(odd, 0o755)
                solver = Solver(odd)
                solver.begin("")
                self.assertRaises(NoSolver, solver.values, ["x", "y"], 10)
                solver.stop()

    def test_values_lead_to_the_failure(self):
        procedure = read_procedure('procedure p() { var m: [int, Ref]real; var i: int; var r: Ref; assume (i > 5); m[i, r] := 1.0; '
                                   'havoc i; assert {:msg "1:1 1:1 false"} ((m[i, r] != 1.0) || (i == 0)); }')
        conditions = conditions_of(procedure)
        terms = [term for _, term in symbolic_of(conditions).fails]
        said, values = Search(conditions.vars, [], self.solver, time.monotonic() + 10).any_of(terms)
        self.assertEqual(said, "sat")
        end = Walk(procedure, values.given).run()
        self.assertEqual((end.how, end.label), ("failed", "1:1 1:1 false"))


class Missing(unittest.TestCase):
    def test_a_solver_that_is_not_there_is_told(self):
        solver = Solver("there-is-no-such-solver")
        self.assertRaises(NoSolver, solver.begin, "")
