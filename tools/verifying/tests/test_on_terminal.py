"""What a command tells in words on a terminal, by stand-ins for the programs: their own bytes and statuses stay."""
import os
import pty
import subprocess
import tempfile
import unittest

TOP = os.path.dirname(os.path.dirname(os.path.dirname(os.path.dirname(os.path.realpath(__file__)))))
SCRIPT = f"{TOP}/tools/verifying/on_terminal.py"
FILE = b"method m(x: Int) {\n  assert x > 0\n}\n"
FAILED = "// failed 2:3 2:10 false\n// unused 0\nboogie run M$m\n"
TOLD = "{}:2:10: error: this assert might fail: `x > 0` might be false\n    2 |   assert x > 0\n      |          ^^^^^\n"


class OnTerminal(unittest.TestCase):
    def setUp(self):
        self.room = tempfile.TemporaryDirectory()
        self.addCleanup(self.room.cleanup)
        self.file, self.run_file = f"{self.room.name}/a.vpr", f"{self.room.name}/a.run"
        for path in (self.file, self.run_file):
            with open(path, "wb") as it:
                it.write(FILE)

    def program(self, out, error, status):
        """A stand-in for a program that says this."""
        path = f"{self.room.name}/program"
        with open(path, "w", encoding="utf-8") as it:
            it.write(f"#!/bin/sh\nprintf '%s' '{out}'\nprintf '%s' '{error}' >&2\nexit {status}\n")
        os.chmod(path, 0o755)
        return path

    def on_terminal(self, *words, **names):
        """What a call prints whose output and errors are one terminal, and its status."""
        mine, its = pty.openpty()
        with subprocess.Popen(words, stdin=subprocess.DEVNULL, stdout=its, stderr=its, env={**os.environ, "NO_COLOR": "1", **names}) as done:
            os.close(its)
            found = b""
            try:
                while True:
                    found += os.read(mine, 65536)
            except OSError:     # nobody writes any more
                os.close(mine)
        return found.decode().replace("\r\n", "\n"), done.returncode

    def run_words(self):
        return "run", self.file, "m", self.run_file

    def test_a_run_that_fails(self):
        program = self.program(FAILED, "", 10)
        self.assertEqual(self.on_terminal(SCRIPT, program, *self.run_words()), (FAILED + TOLD.format(self.file), 10))
        for it in ("// done\n", "// blocked\n"):
            self.assertEqual(self.on_terminal(SCRIPT, self.program(it, "", 0), *self.run_words()), (it, 0))

    def test_what_is_refused(self):
        for error, place, words in (
                ("error: type 2:10 rule 8", f"{self.file}:2:10", "x is a parameter, and a parameter cannot be assigned"),
                ("error: weight 100001", f"{self.file}:1:1", "the program weighs more than 100,000, so it is too large to be translated"),
                ("error: no-unit", f"{self.file}:1:1", "there is no unit `m` that this command runs"),
                ("error: unframed 2:3", f"{self.file}:2:3", "`exec` takes no file with `wildcard`, `inhale` or `assume`"),
                ("error: run-syntax 3:1", f"{self.run_file}:3:1", "this line is none of a run file (docs/run-files.md)")):
            told, status = self.on_terminal(SCRIPT, self.program("", f"{error}\n", 1), *self.run_words())
            self.assertEqual((told.splitlines()[:2], status), ([error, f"{place}: error: {words}"], 1))

    def test_where_nothing_is_told(self):
        for error, status in (("error: range\n", 1), ("error: read\n", 3), ("", 5)):
            self.assertEqual(self.on_terminal(SCRIPT, self.program("", error, status), *self.run_words()), (error, status))
        program = self.program(FAILED, "error: type 2:10 rule 1\n", 1)
        self.assertEqual(self.on_terminal(SCRIPT, program, "translate", "/dev/null"), (f"{FAILED}error: type 2:10 rule 1\n", 1))

    def test_the_command_tells_it_on_a_terminal_alone(self):
        program = self.program(FAILED, "", 10)
        words = (f"{TOP}/remduska", *self.run_words())
        self.assertEqual(self.on_terminal(*words, REMDUSKA=program), (FAILED + TOLD.format(self.file), 10))
        done = subprocess.run(words, stdin=subprocess.DEVNULL, stdout=subprocess.PIPE, stderr=subprocess.PIPE, env={**os.environ, "REMDUSKA": program})
        self.assertEqual((done.stdout.decode(), done.stderr, done.returncode), (FAILED, b"", 10))


if __name__ == "__main__":
    unittest.main()
