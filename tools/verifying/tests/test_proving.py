"""What is told where there is a program `prove`: here one that says what a test wants. With REMDUSKA, and z3 where a test needs it."""
import json
import os
import shutil
import subprocess
import sys
import tempfile
import unittest

from verifying.boogie_text import NotAsWritten
from verifying.program import TOP, Answers, Said, answers_of, find

READY = bool(os.environ.get("REMDUSKA")) and shutil.which("z3") is not None
LABEL = "2:24 2:31 false"
STAND_IN = """#!/bin/sh
# Says of a file what the test wants. Conditions are those that the program writes.
room=$(dirname "$0")
case $1 in
prove) echo "$1" >>"$room/calls"
    if [ "$(basename "$2")" = smoke.vpr ]; then cat "$room/smoke"; exit 10; fi
    cat "$room/answers"; cat "$room/errors" >&2; exit "$(cat "$room/status")" ;;
certificates) echo 'certificate M$right'; exit 10 ;;
values) echo "$1" >>"$room/calls"; cat "$room/values" ;;
*) exec "$PROVE" "$@" ;;
esac
"""
TEXT = """method right(n: Int) requires n > 2 { if (n > 5) { assert n > 4 } }
method wrong(n: Int) { assert n > 2 }
"""
ERROR = """a.vpr:2:31: error: this assert might fail: `n > 2` might be false
    2 | method wrong(n: Int) { assert n > 2 }
      |                               ^^^^^
a.vpr: 1 of 2 units proved
"""


class Lines(unittest.TestCase):
    def test_lines_of_prove(self):
        for status, out, error, answers in (
                (0, "proved a\nproved b\n", "", Answers(["a", "b"], {}, "")),
                (10, "proved a\nopen b 1:2 3:4 perm\nopen c steps\nopen d\nopen e certificate 3 hint\n", "",
                 Answers(["a"], {"b": "1:2 3:4 perm", "c": "", "d": "", "e": ""}, "")),
                (1, "", "error: syntax 1:11\n", Answers([], {}, "error: syntax 1:11"))):
            self.assertEqual(answers_of(Said(status, out, error)), answers)
        for status, out in ((5, ""), (-11, ""), (0, "hello world\n")):
            self.assertRaises(NotAsWritten, answers_of, Said(status, out, ""))


@unittest.skipUnless(READY, "REMDUSKA names no program, or z3 is not installed")
class Proving(unittest.TestCase):
    def setUp(self):
        self.room = tempfile.mkdtemp()
        self.addCleanup(shutil.rmtree, self.room)
        self.write("prove", STAND_IN.replace("\\\\", "\\"))
        os.chmod(self.path("prove"), 0o755)
        self.answer(f"proved right\nopen wrong {LABEL}\n", 10)
        self.write("smoke", "")
        self.write("values", f"unit M$right\nunit M$wrong\nvalues {LABEL}\nv1 := 1\nv3 := true\n")
        self.write("a.vpr", TEXT)
        self.environment = {**os.environ, "REMDUSKA_PROVE": self.path("prove"), "PROVE": find().prove}

    def path(self, name):
        return os.path.join(self.room, name)

    def write(self, name, text):
        with open(self.path(name), "w") as it:
            it.write(text)

    def answer(self, answers, status, errors=""):
        for name, text in (("answers", answers), ("status", str(status)), ("errors", errors)):
            self.write(name, text)

    def verify(self, *words):
        done = subprocess.run([sys.executable, f"{TOP}/tools/verify", "--no-cache", *words, "a.vpr"], cwd=self.room, stdout=subprocess.PIPE,
                              stderr=subprocess.PIPE, universal_newlines=True, env=self.environment)
        self.assertEqual(done.stderr, "")
        return done.returncode, done.stdout

    def without_z3(self):
        tools = self.path("tools")
        os.mkdir(tools)
        for it in ("sh", "dirname", "cat", "basename", "sed"):
            os.symlink(shutil.which(it), os.path.join(tools, it))
        self.environment["PATH"] = tools

    def test_a_proved_file_takes_one_start_of_a_program(self):
        self.without_z3()
        self.environment["REMDUSKA"] = "/bin/false"
        self.answer("proved right\nproved wrong\n", 0)
        self.assertEqual(self.verify("--no-smoke"), (0, "a.vpr: proved, 2 units\n"))
        with open(self.path("calls")) as it:
            self.assertEqual(it.read(), "prove\n")

    def test_what_is_open_is_looked_at_and_the_rest_is_not(self):
        self.without_z3()
        status, out = self.verify("--no-runs")
        self.assertEqual((status, out), (1, ERROR))
        with open(self.path("calls")) as it:
            self.assertEqual(it.read(), "prove\nvalues\nprove\n")     # the last is for spots that no run reaches
        units = {it["unit"]: it for it in map(json.loads, self.verify("--json", "--no-smoke")[1].splitlines()) if "verdict" in it}
        self.assertEqual([(units[it]["checked"], [by["program"] for by in units[it]["told_by"]]) for it in ("right", "wrong")],
                         [(True, ["prove"]), (False, ["run", "replay"])])

    def test_without_z3_what_is_open_is_undecided(self):
        self.without_z3()
        undecided = (3, "a.vpr:2:31: warning: undecided: the assertion n > 2\na.vpr: 1 of 2 units proved\n")
        for found in (f"open {LABEL}\n", f"values {LABEL}\nv1 := 3\nv3 := true\n"):      # no values, and some at which nothing fails
            self.write("values", f"unit M$wrong\n{found}")
            self.assertEqual(self.verify("--no-smoke"), undecided)
        self.write("values", "")
        self.assertEqual(self.verify("--no-smoke"), undecided)
        self.answer("proved right\nopen wrong steps\n", 10)
        self.assertEqual(self.verify("--no-smoke"), (3, "a.vpr:2:8: warning: undecided: `wrong`: no proof was found in the steps of its budget\n"
                                                        "a.vpr: 1 of 2 units proved\n"))

    def test_z3_is_asked_of_what_is_still_open(self):
        for found in (f"open {LABEL}\n", f"values {LABEL}\nv1 := 3\nv3 := true\n"):
            self.write("values", f"unit M$wrong\n{found}")
            self.assertEqual(self.verify("--no-runs"), (1, ERROR))

    def test_where_z3_ends_by_itself_what_was_found_is_told_all_the_same(self):
        self.without_z3()
        with open(os.path.join(self.path("tools"), "z3"), "w") as it:
            it.write("#!/bin/sh\nexit 1\n")
        os.chmod(os.path.join(self.path("tools"), "z3"), 0o755)
        self.write("a.vpr", TEXT.replace("assert n > 2", "assert n > 2 assert n > 9"))
        self.write("values", f"unit M$wrong\nvalues {LABEL}\nv1 := 1\nv3 := true\nopen 2:37 2:44 false\n")
        status, out = self.verify("--no-runs", "--no-smoke")
        self.assertEqual((status, [it.split(": ", 1)[1] for it in out.splitlines() if it.startswith("a.vpr")]),
                         (1, ["error: this assert might fail: `n > 2` might be false", "warning: undecided: the assertion n > 9", "1 of 2 units proved"]))

    def test_with_the_word_z3_nothing_else_is_asked_for_values(self):
        self.assertEqual(self.verify("--no-runs", "--z3"), (1, ERROR))
        with open(self.path("calls")) as it:
            self.assertNotIn("values", it.read())

    def test_what_is_refuted_and_not_proved_is_told_apart(self):
        self.without_z3()
        self.answer(f"open right {LABEL}\nopen wrong steps\n", 10)
        self.write("a.vpr", TEXT.replace("assert n > 2", "assert n == n"))
        self.write("values", f"unit M$right\nrefuted {LABEL}\nunit M$wrong\nrefuted {LABEL}\n")
        for words, status, kind in (((), 0, "note"), (("--strict",), 3, "warning")):
            self.assertEqual(self.verify("--no-smoke", *words),
                             (status, f"a.vpr:1:8: {kind}: `right` is verified on the word of `values`\n"
                                      f"a.vpr:2:8: {kind}: `wrong` is verified on the word of `values`\n"
                                      "a.vpr: verified on the word of `values`, 2 units\n"))
        units = [it for it in map(json.loads, self.verify("--json", "--no-smoke")[1].splitlines())]
        self.assertEqual([it["told_by"] for it in units], [[{"program": "values", "proved": False}]] * 2)

    def test_what_z3_alone_says_is_told_apart(self):
        self.answer("open right steps\n", 10)
        self.write("values", "unit M$right\nopen 1:51 1:58 false\n")
        self.write("a.vpr", TEXT.splitlines(True)[0])
        for words, status, kind in (((), 0, "note"), (("--strict",), 3, "warning")):
            self.assertEqual(self.verify(*words), (status, f"a.vpr:1:8: {kind}: `right` is verified on z3's word\n"
                                                           "a.vpr: verified on z3's word, 1 unit\n"))

    def test_a_file_that_is_refused(self):
        self.answer("", 1, "error: syntax 1:3\n")
        status, out = self.verify()
        self.assertEqual((status, out.startswith("a.vpr:1:3: error: ")), (4, True), out)

    def test_certificates_are_written(self):
        self.verify("--no-runs", "--certificates", "a.cert")
        with open(self.path("a.cert")) as it:
            self.assertEqual(it.read(), "certificate M$right\n")

    def test_spots_that_no_run_reaches_are_those_that_are_proved(self):
        self.answer("proved right\nproved wrong\n", 0)
        self.write("smoke", "open smoke$0 1:1 1:1 false\nproved smoke$1\nopen smoke$2 1:1 1:1 false\n")
        self.assertEqual(self.verify(), (0, "a.vpr:1:39: warning: no run comes into this branch\na.vpr: proved, 2 units\n"))


if __name__ == "__main__":
    unittest.main()
