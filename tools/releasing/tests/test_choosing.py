"""Which program a checkout starts: the noted one at once, and never one that other sources were compiled to.

A checkout of a few crates is made up, with stand-ins for the programs and for the compiler."""
import os
import shutil
import time
import unittest

from releasing.tree import TOP

from . import made

CRATES = {"remduska": "low high", "prove": "low", "low": "", "high": "low"}
COMPILER = '#!/usr/bin/env bash\nmkdir -p "${2%/*}"\nprintf "#!/bin/sh\\necho compiled\\n" >"$2"\nchmod +x "$2"\necho compiling >&2\n'
PROVED, UNPROVED = "crates/remduska/out/remduska", "crates/remduska/out/unproved/remduska-unproved"
SOURCE = "crates/low/src/lib.rt"
LONG_AGO = 1_600_000_000


class Choosing(unittest.TestCase):
    def setUp(self):
        self.top = os.path.join(made.room(), "a checkout")
        os.makedirs(self.top)
        shutil.copytree(f"{TOP}/tools", os.path.join(self.top, "tools"), ignore=shutil.ignore_patterns("out", "edits", "verifying", "releasing", "__pycache__"))
        for name in ("remduska", "VERSION"):
            shutil.copy(f"{TOP}/{name}", self.top)
        self.write("crates.txt", "".join(f"{name}: {below}\n" for name, below in CRATES.items()))
        for name in CRATES:
            for part in ("src/lib.rt", "src/main.rt", "specs/Lib.antt"):
                self.write(f"crates/{name}/{part}", f"{name} {part}\n")
        self.write("tools/build-unproved", COMPILER, 0o755)
        self.age()

    def path(self, name):
        return os.path.join(self.top, name)

    def write(self, name, text, mode=0o644):
        os.makedirs(os.path.dirname(self.path(name)), exist_ok=True)
        with open(self.path(name), "w", encoding="utf-8") as it:
            it.write(text)
        os.chmod(self.path(name), mode)

    def program(self, name=PROVED, word="proved"):
        """Puts a program into its place, a moment later than all that stands there."""
        time.sleep(0.02)
        self.write(name, f"#!/bin/sh\necho {word}\n", 0o755)

    def age(self):
        """Sets all files to a time before."""
        for at, _, names in os.walk(self.top):
            for it in names:
                os.utime(os.path.join(at, it), (LONG_AGO, LONG_AGO))

    def chosen(self, *names):
        done = made.call([self.path("tools/program"), *names], env=made.without_variables())
        self.assertEqual(done.returncode, 0, done.stderr)
        return [os.path.relpath(it, self.top) for it in done.stdout.splitlines()], done.stderr

    def settle(self):
        """Asks as often as it takes until nothing is looked at anew: a note from the same seconds as a file does not count."""
        self.chosen()
        with open(self.path("tools/out/remduska"), "rb") as it:
            lines = it.read().split(b"\n", 1)
        with open(self.path("tools/out/remduska"), "wb") as it:
            it.write(b"%d\n%s" % (int(time.time()) + 1, lines[1]))      # as if it had been noted a while later
        time.sleep(1.1)

    def test_the_proved_one_is_started_and_noted(self):
        self.program()
        self.assertEqual(self.chosen(), ([PROVED], ""))
        self.settle()
        self.write("tools/crates.py", "#!/bin/sh\nexit 1\n", 0o755)     # what is noted needs no look at the crates
        self.assertEqual(self.chosen(), ([PROVED], ""))

    def test_an_edited_source_is_noticed(self):
        def appended(path):
            with open(path, "a", encoding="utf-8") as it:
                it.write("more\n")

        def edited_as_old(path):
            state = os.stat(path)
            with open(path, "r+", encoding="utf-8") as it:
                it.write("LOW")     # of the same length, and put back to the time that it had
            os.utime(path, ns=(state.st_atime_ns, state.st_mtime_ns))

        def replaced_by_an_older_one(path):
            other = path + ".other"
            with open(other, "w", encoding="utf-8") as it:
                it.write("another\n")
            os.utime(other, (LONG_AGO - 1000, LONG_AGO - 1000))
            os.rename(other, path)

        for change in (appended, edited_as_old, replaced_by_an_older_one, os.remove):
            for is_noted in (True, False):
                with self.subTest(change=change.__name__, noted=is_noted):
                    shutil.rmtree(self.path("tools/out"), ignore_errors=True)
                    shutil.rmtree(self.path("crates/remduska/out"), ignore_errors=True)
                    self.write(SOURCE, "low src/lib.rt\n")
                    self.program()
                    self.chosen()
                    if is_noted:
                        self.settle()
                    change(self.path(SOURCE))
                    found, said = self.chosen()
                    self.assertEqual((found, "compiling" in said), ([UNPROVED], True))

    def test_a_source_that_is_as_it_was_makes_the_program_todays_again(self):
        self.program()
        self.settle()
        with open(self.path(SOURCE), encoding="utf-8") as it:
            text = it.read()
        self.write(SOURCE, "other\n")
        self.assertEqual(self.chosen()[0], [UNPROVED])
        self.write(SOURCE, text)
        self.assertEqual(self.chosen()[0], [PROVED])
        os.utime(self.path(SOURCE))
        self.assertEqual(self.chosen()[0], [PROVED])

    def test_sources_of_other_programs_do_not_count(self):
        self.program("crates/prove/out/prove")
        self.program()
        self.write("crates/high/src/lib.rt", "other\n")
        found, said = self.chosen("prove", "remduska")
        self.assertEqual(found, ["crates/prove/out/prove", UNPROVED])
        self.assertEqual(said.count("compiling"), 1)

    def test_a_proved_one_that_comes_later_is_started(self):
        self.assertEqual(self.chosen()[0], [UNPROVED])
        self.settle()
        self.assertEqual(self.chosen()[0], [UNPROVED])
        self.program()
        self.assertEqual(self.chosen(), ([PROVED], ""))

    def test_a_program_that_was_replaced_is_looked_at(self):
        self.program()
        self.settle()
        os.utime(self.path(PROVED), (LONG_AGO - 1000, LONG_AGO - 1000))
        with open(self.path(PROVED), "a", encoding="utf-8") as it:
            it.write("# another\n")
        os.utime(self.path(PROVED), (LONG_AGO - 1000, LONG_AGO - 1000))
        self.assertEqual(self.chosen()[0], [UNPROVED])

    def test_a_copy_of_a_checkout_is_looked_at_by_itself(self):
        self.program()
        self.settle()
        copy = os.path.join(made.room(), "copy")
        shutil.copytree(self.top, copy)
        self.top = copy
        self.assertEqual(self.chosen()[0], [PROVED])
        self.write(SOURCE, "other\n")
        self.assertEqual(self.chosen()[0], [UNPROVED])

    def test_a_crate_that_a_program_stands_on_by_now_counts(self):
        self.program("crates/prove/out/prove")
        self.assertEqual(self.chosen("prove")[0], ["crates/prove/out/prove"])
        self.write("crates.txt", "".join(f"{name}: {'high' if name == 'prove' else below}\n" for name, below in CRATES.items()))
        self.assertEqual(self.chosen("prove")[0], ["crates/prove/out/unproved/prove-unproved"])

    def test_where_nothing_can_be_noted_all_is_looked_at(self):
        with open(self.path("tools/out"), "w", encoding="utf-8"):
            pass
        self.program()
        self.assertEqual(self.chosen(), ([PROVED], ""))
        self.write(SOURCE, "other\n")
        self.assertEqual(self.chosen()[0], [UNPROVED])

    def test_a_variable_names_the_program(self):
        done = made.call([self.path("remduska"), "make", "3"], env={**made.without_variables(), "REMDUSKA": "/bin/echo"})
        self.assertEqual((done.returncode, done.stdout, done.stderr), (0, "make 3\n", ""))
        done = made.call([self.path("remduska"), "--version"], env={**made.without_variables(), "REMDUSKA_PROVE": "/none"})
        self.assertIn("\nremduska: not built from today's sources\n", done.stdout)
        self.assertIn("\nprove: /none, which REMDUSKA_PROVE names, and which is no program\n", done.stdout)
