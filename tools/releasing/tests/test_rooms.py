"""An archive and a package in a root that has nothing but Python of Debian, and once more with z3: as a user has it that begins."""
import os
import re
import shutil
import subprocess
import unittest

from releasing.tree import TOP, built, read

from . import debian_root, made

WHY_NOT = debian_root.missing() or ("" if debian_root.is_installed("python3") else "the system has no Python of Debian")
PLACE = "/opt/a place"


def shown():
    """The words of the call that README shows, and what it shows behind it."""
    return re.search(r"^```\n\$ \./remduska (verify [^\n]*)\n(.*?)^```", read("README.md").decode(), re.M | re.S).groups()


@unittest.skipIf(WHY_NOT, WHY_NOT)
class Rooms(unittest.TestCase):
    packages = ("python3",)

    @classmethod
    def setUpClass(cls):
        cls.root = made.room()
        debian_root.furnish(cls.root, cls.packages)
        copy = made.unpacked(cls.root + PLACE)
        os.makedirs(f"{cls.root}/usr/local/bin")
        os.symlink(os.path.join(copy, "bin/remduska")[len(cls.root):], f"{cls.root}/usr/local/bin/remduska")
        cls.pages = os.path.join(copy, "share/remduska")[len(cls.root):]
        cls.mark = "" if "-unproved-" not in made.archive() else "not proved\n"

    def call(self, *words, **more):
        return debian_root.call(self.root, "remduska", *words, folder=self.pages, **more)

    def test_nothing_of_the_kit_is_there(self):
        for it in ("rt", "git", "find", "boogie"):
            self.assertEqual(debian_root.call(self.root, "bash", "-c", f"command -v {it}").returncode, 1, it)

    def test_the_version_and_the_help(self):
        done = self.call("--version")
        self.assertEqual((done.returncode, done.stderr), (0, ""))
        self.assertEqual(done.stdout.splitlines()[0], f"remduska {read('VERSION').decode().strip()}")
        done = self.call()
        self.assertIn("    cd /opt/a\\ place/remduska-", done.stdout)

    def test_the_programs(self):
        for words, status, said in ((["translate", "examples/list.vpr"], 0, "type Ref;\n"), (["translate", "examples/a b.vpr"], 3, ""),
                                    (["run", "examples/list_wrong.vpr", "fill", "examples/list.run"], 10, "// failed 53:5 24:26 false\n"),
                                    (["conditions-boogie", "examples/first.bpl"], 0, "conditions M$m\n"), (["cut", "examples/dice.bpl"], 0, "")):
            done = self.call(*words)
            self.assertEqual((done.returncode, done.stdout.startswith(said)), (status, True), (words, done.stderr))

    def test_names_with_blanks(self):
        shutil.copy(f"{TOP}/examples/first.vpr", f"{self.root}/root/a b.vpr")
        self.assertEqual(self.call("translate", "/root/a b.vpr").returncode, 0)

    def test_a_copy_that_cannot_be_written(self):
        before = debian_root.read_only(PLACE)
        self.assertEqual(debian_root.call(self.root, "bash", "-c", f"! >'{PLACE}/x'", before=before).returncode, 0)
        done = self.call("translate", "examples/list.vpr", before=before)
        self.assertEqual((done.returncode, done.stdout[:10]), (0, "type Ref;\n"), done.stderr)
        for home in ("/root", "/nonexistent"):
            done = self.call("verify", "--help", before=before, HOME=home)
            self.assertEqual((done.returncode, done.stderr), (0, ""))

    def test_it_installs_itself(self):
        for prefix in ("/usr/local/own", "/root/.local"):
            done = self.call("--install", prefix)
            self.assertEqual(done.returncode, 0, done.stderr)
            done = debian_root.call(self.root, f"{prefix}/bin/remduska", "make", "1")
            self.assertEqual((done.returncode, done.stderr.endswith(self.mark)), (0, True))
            self.assertEqual(self.call("--uninstall", prefix).returncode, 0)

    def test_a_command_begins_at_once(self):
        """The processor time of a call, beside that of the program alone."""
        words = ["translate", f"{self.pages}/examples/first.vpr"]
        program = os.path.join(os.path.dirname(os.path.dirname(self.pages)), "lib/remduska/programs/remduska")
        spent = {}
        for it in ("remduska", program):
            loop = 'for n in {1..20}; do "$@" >/dev/null 2>&1; done; times | { read; read user system; echo $user $system; }'
            done = debian_root.call(self.root, "bash", "-c", loop, "-", it, *words)
            spent[it] = sum(60_000 * float(minutes) + 1000 * float(seconds) for minutes, seconds in re.findall(r"(\d+)m([\d.]+)s", done.stdout)) / 20
        self.assertLess(spent["remduska"] - spent[program], 40, "ms")

    def test_the_quick_start(self):
        """With `prove` it needs no z3; without both nothing is looked at."""
        words, text = shown()
        done = self.call(*words.split())
        if "prove" not in built():
            self.assertEqual(done.returncode, 1 if "z3" in self.packages else 2, done.stderr)
            return
        self.assertEqual((done.returncode, done.stdout, done.stderr.endswith(self.mark)), (1, text, True), done.stderr)
        done = self.call("verify", "examples/list.vpr")
        self.assertEqual((done.returncode, done.stdout), (0, "examples/list.vpr: proved, 6 units\n"), done.stderr)


@unittest.skipIf(WHY_NOT, WHY_NOT)
@unittest.skipUnless(debian_root.is_installed("z3") if not WHY_NOT else False, "z3 is not installed")
class RoomsWithZ3(Rooms):
    packages = ("python3", "z3")

    def test_the_quick_start_where_nothing_can_be_written(self):
        done = self.call("verify", "examples/list.vpr", before=debian_root.read_only(PLACE))
        self.assertEqual((done.returncode, done.stdout.count("\n"), done.stdout[:19]), (0, 1, "examples/list.vpr: "), done.stderr)


def files_below(folder):
    """The files below a folder, without those that Python compiles of its own library."""
    found = [os.path.join(at, it) for at, _, files in os.walk(folder) for it in files]
    return {it for it in found if "/usr/lib/python" not in it}


@unittest.skipIf(WHY_NOT, WHY_NOT)
class DebianPackages(unittest.TestCase):
    def test_a_package_is_installed_and_removed(self):
        if not shutil.which("dpkg-deb"):
            self.skipTest("dpkg-deb is not installed")
        root = made.room()
        names = debian_root.furnish(root, ("python3",))
        package = made.released(made.room(), "--deb")[1]
        for it in ("info", "updates", "triggers"):
            os.makedirs(f"{root}/var/lib/dpkg/{it}")
        known = [subprocess.run(["dpkg-query", "-s", it], stdout=subprocess.PIPE, check=True).stdout for it in names]
        with open(f"{root}/var/lib/dpkg/status", "wb") as it:
            it.write(b"\n".join(known))
        before = files_below(f"{root}/usr")
        alone = ["unshare", "-rm", "dpkg", f"--root={root}", "--log=/dev/null"]
        done = made.call([*alone, "-i", package])
        self.assertEqual(done.returncode, 0, done.stdout + done.stderr)
        done = debian_root.call(root, "remduska", "translate", "/usr/share/remduska/examples/list.vpr")
        self.assertEqual((done.returncode, done.stdout[:10]), (0, "type Ref;\n"), done.stderr)
        done = debian_root.call(root, "remduska", "--uninstall", "/usr")
        self.assertEqual((done.returncode, "package of Debian" in done.stderr), (70, True), done.stderr)
        done = made.call([*alone, "-r", "remduska"])
        self.assertEqual(done.returncode, 0, done.stdout + done.stderr)
        self.assertEqual(files_below(f"{root}/usr"), before)
