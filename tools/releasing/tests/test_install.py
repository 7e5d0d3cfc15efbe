"""What is installed below a prefix, what replaces it, and what is left."""
import os
import shutil
import subprocess
import time
import unittest

from releasing.manifest import MANIFEST

from . import made


def files(prefix):
    """The files below a prefix, without those that Python compiles."""
    return {os.path.relpath(os.path.join(at, it), prefix) for at, _, names in os.walk(prefix) for it in names if not it.endswith(".pyc")}


class Installed(unittest.TestCase):
    @classmethod
    def setUpClass(cls):
        cls.copy = made.unpacked(made.room())

    def setUp(self):
        self.prefix = os.path.join(made.room(), "a prefix")

    def install(self, *words, command=None):
        return made.call([command or os.path.join(self.copy, "bin/remduska"), *words])

    def test_a_copy_installs_itself_and_is_taken_away(self):
        done = self.install("--install", self.prefix)
        self.assertEqual((done.returncode, done.stdout), (0, ""), done.stderr)
        self.assertIn("is not on the path", done.stderr)
        self.assertEqual(files(self.prefix), files(self.copy))
        own = os.path.join(self.prefix, "bin/remduska")
        said = made.call([own, "--version"]).stdout
        self.assertEqual(said, made.call([os.path.join(self.copy, "bin/remduska"), "--version"]).stdout)
        done = self.install("--uninstall", self.prefix, command=own)
        self.assertEqual((done.returncode, os.listdir(self.prefix)), (0, []), done.stderr)

    def test_a_second_copy_replaces_the_first_and_leaves_what_is_others(self):
        self.install("--install", self.prefix)
        for it in ("lib/remduska/tools/old", "share/remduska/docs/old.md", "bin/other", "lib/other"):
            open(os.path.join(self.prefix, it), "w").close()
        done = self.install("--install", self.prefix, command=os.path.join(self.prefix, "bin/remduska"))
        self.assertEqual(done.returncode, 0, done.stderr)
        self.assertEqual(files(self.prefix), files(self.copy) | {"bin/other", "lib/other"})
        self.install("--uninstall", self.prefix)
        self.assertEqual(files(self.prefix), {"bin/other", "lib/other"})

    def test_what_is_of_others_is_not_replaced(self):
        for it in ("bin/remduska", "lib/remduska/x", "share/remduska/x"):
            shutil.rmtree(self.prefix, ignore_errors=True)
            os.makedirs(os.path.dirname(os.path.join(self.prefix, it)))
            open(os.path.join(self.prefix, it), "w").close()
            for word in ("--install", "--uninstall"):
                done = self.install(word, self.prefix)
                self.assertEqual((done.returncode, "no copy of remduska" in done.stderr), (70, True), done.stderr)
            self.assertEqual(files(self.prefix), {it})

    def test_a_damaged_copy_is_not_installed(self):
        damaged = os.path.join(made.room(), "copy")
        shutil.copytree(self.copy, damaged)
        with open(os.path.join(damaged, "share/remduska/README.md"), "a", encoding="utf-8") as it:
            it.write("more\n")
        done = self.install("--install", self.prefix, command=os.path.join(damaged, "bin/remduska"))
        self.assertEqual((done.returncode, "README.md is not the file" in done.stderr, os.path.exists(self.prefix)), (70, True, False))

    def test_nothing_is_left_where_it_cannot_be_written(self):
        os.makedirs(self.prefix)
        open(os.path.join(self.prefix, "share"), "w").close()
        done = self.install("--install", self.prefix)
        self.assertEqual((done.returncode, done.stderr.count("\n")), (70, 1), done.stderr)
        self.assertEqual(files(self.prefix), {"share"})

    def test_an_interrupted_call_leaves_what_was_there(self):
        self.install("--install", self.prefix)
        before = files(self.prefix)
        command = [os.path.join(self.copy, "bin/remduska"), "--install", self.prefix]
        for seconds in (0.02, 0.05, 0.1, 0.2, 0.4):
            child = subprocess.Popen(command, stdin=subprocess.DEVNULL, stderr=subprocess.DEVNULL)
            time.sleep(seconds)
            child.terminate()
            child.wait(60)
            self.assertEqual(files(self.prefix), before)

    def test_a_copy_that_is_not_there_is_not_taken_away(self):
        self.assertEqual(self.install("--uninstall", self.prefix).returncode, 70)

    def test_manifest_tells_whether_the_programs_were_proved(self):
        with open(os.path.join(self.copy, MANIFEST), encoding="utf-8") as it:
            said = "proved" if "\n# programs proved\n" in it.read() else "not proved"
        self.assertIn(f"\nprograms: {said}\n", self.install("--version").stdout)
        done = made.call([os.path.join(self.copy, "bin/remduska"), "make", "1"], env=made.without_variables())
        self.assertEqual((done.returncode, done.stderr), (0, "" if said == "proved" else "remduska: remduska was compiled and not proved\n"))


class Scripts(unittest.TestCase):
    """The script of an installed copy answers as that of a checkout does."""
    @classmethod
    def setUpClass(cls):
        cls.command = os.path.join(made.unpacked(made.room()), "bin/remduska")

    def call(self, *words, **more):
        return made.call([self.command, *words], env={**made.without_variables(), **more})

    def test_words_files_and_help(self):
        for words, status, said in ((("nothing",), 2, "see remduska --help\n"), (("translate", "none"), 3, "none: no such file\n"), (("--build",), 2, "remduska: only a checkout builds the programs\n")):
            done = self.call(*words)
            self.assertEqual((done.returncode, done.stderr.endswith(said)), (status, True), done.stderr)
        for words in ((), ("--help",), ("certify", "--help"), ("verify", "--help"), ("--install", "--help")):
            done = self.call(*words)
            self.assertEqual((done.returncode, "./remduska" in done.stdout, "@" in done.stdout), (0, False, False), words)

    def test_the_help_names_folders_that_are_there(self):
        folder = os.path.join(os.path.dirname(os.path.dirname(self.command)), "share/remduska")
        self.assertIn(f"    cd {folder}\n".replace(" ", "\\ ").replace("\\ \\ \\ \\ cd\\ ", "    cd "), self.call().stdout)

    def test_variables_name_programs(self):
        self.assertEqual(self.call("make", "3", REMDUSKA="/bin/echo").stdout, "make 3\n")
        self.assertEqual(self.call("certify-boogie", "/dev/null", "/dev/null", REMDUSKA_PROVE="/bin/echo").stdout, "certify-boogie /dev/null /dev/null\n")
        done = self.call("make", "3", REMDUSKA="/none")
        self.assertEqual((done.returncode, done.stderr), (70, "remduska: REMDUSKA names /none, which is no program\n"))
        self.assertIn("remduska: /bin/echo, which REMDUSKA names\n", self.call("--version", REMDUSKA="/bin/echo").stdout)
