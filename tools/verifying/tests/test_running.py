"""Runs that are run again, statement by statement, beside the proved interpreter: how each run ends, and the state before each statement.

The state before a statement is that where an `assert false` fails that is put in front of it. `run` writes the run of Boogie for that
failure, and the procedure of Boogie is gone through on it: that has the values of all variables, places and instances."""
import os
import random
import subprocess
import tempfile
import unittest

from verifying.boogie_text import procedure_texts, read_procedure
from verifying.program import TOP
from verifying.run_files import read_back
from verifying.running import Choices, Running, predicates_of
from verifying.values import NONE

from .random_runs import random_run

REMDUSKA = os.environ.get("REMDUSKA") or os.path.join(TOP, "crates/remduska/out/remduska")
RUNS = int(os.environ.get("RANDOM_RUNS", "40"))
CUT = b"assert false "
STATUS = {"done": 0, "failed": 10, "blocked": 11, "short": 12}


@unittest.skipUnless(os.access(REMDUSKA, os.X_OK), "remduska was not built")
class RandomRuns(unittest.TestCase):
    def setUp(self):
        self.room = tempfile.TemporaryDirectory()
        self.addCleanup(self.room.cleanup)

    def says(self, command, data, *more):
        path = os.path.join(self.room.name, "a.vpr")
        with open(path, "wb") as it:
            it.write(data)
        return subprocess.run([REMDUSKA, command, path, *more], stdout=subprocess.PIPE, stderr=subprocess.PIPE, universal_newlines=True)

    def run_file(self, run):
        path = os.path.join(self.room.name, "a.run")
        with open(path, "w", encoding="utf-8") as it:
            it.write(run.text())
        return path

    def test_each_run_ends_as_the_program_says_and_each_state_is_its_own(self):
        rng, ends, statements = random.Random(7), {}, 0
        for _ in range(RUNS):
            source, again, run = random_run(rng)
            path = self.run_file(run)
            said = self.says("run", source.data, "m", path)
            self.assertEqual(said.returncode, STATUS[again.how], source.text + run.text() + said.stdout + said.stderr)
            if again.how == "failed":
                self.assertEqual(said.stdout.splitlines()[0], f"// failed {again.label()}", source.text + run.text())
            ends[again.how] = ends.get(again.how, 0) + 1
            for step in again.steps:
                statements += self.compare(source, again, step, path)
        self.assertEqual(set(ends) & {"done", "failed", "blocked"}, {"done", "failed", "blocked"} if RUNS >= 40 else set(ends))
        self.assertGreater(statements, RUNS * 2)

    def compare(self, source, again, step, path):
        """Compares the state before a step with that where the run of a file fails that is cut there. Returns how many were."""
        if step.kind in ("begin", "requires", "ensures") or source.said(step.first) == "elseif":
            return 0
        token = source.tokens[step.first]
        data = source.data[:token.start] + CUT + source.data[token.start:]
        said = self.says("run", data, "m", path)
        label = f"{token.line}:{token.column} {token.line}:{token.column + 7} false"
        told = source.text + said.stdout + said.stderr
        self.assertEqual(said.stdout.splitlines()[:1], [f"// failed {label}"], told)
        texts = dict(procedure_texts(self.says("translate", data).stdout))
        walk = read_back(read_procedure(texts["M$m"]), "".join(f"{it}\n" for it in said.stdout.splitlines()[2:]))
        self.assertEqual(walk.run().label, label)
        self.same(again, step, walk.env, told)
        return 1

    def same(self, again, step, env, told):
        state, variables = step.before.state, again.visible_before(step)
        for k, it in enumerate(again.unit.variables):
            if it.name in variables:
                self.assertEqual(variables[it.name], env[f"l${k}" if it.role == "local" else f"v${it.name}"], told)
        for name in again.meaning.types:
            for (ref,) in {*env[f"m${name}"].changed, *[(it[1],) for it in state.mask if it[0] == name]}:
                place = name, ref
                self.assertEqual(state.held(place), env[f"m${name}"].get((ref,)), told)
                if state.held(place) != NONE:
                    self.assertEqual(state.value(place), env[f"h${name}"].get((ref,)), told)
        for name, count in predicates_of(again.source).items():
            for key in {*env[f"a${name}"].changed, *[it[1] or (0,) for it in state.amount if it[0] == name]}:
                instance = name, tuple(key) if count else ()
                self.assertEqual(state.held_of(instance), env[f"a${name}"].get(tuple(key)), told)
                if state.held_of(instance) != NONE:
                    self.assertEqual(state.inside(instance), env[f"c${name}"].get(tuple(key)), told)


class Ends(unittest.TestCase):
    def test_a_run_without_its_choices_is_short(self):
        source, _, run = random_run(random.Random(3))
        again = Running(source, source.declared["m"], Choices(run.__class__("m", run.choices[:1]), predicates_of(source)))
        self.assertIn(again.run(), ("short", "failed", "blocked"))


if __name__ == "__main__":
    unittest.main()
