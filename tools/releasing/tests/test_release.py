"""What an archive has, and that it is the same each time."""
import hashlib
import os
import re
import shutil
import tarfile
import unittest

from releasing import pages
from releasing.archive import folders
from releasing.manifest import MANIFEST, Entry, Origin, Refused, copy_of, read_copy
from releasing.placing import put
from releasing.tree import TOP, built, read, variables

from . import made


class Archives(unittest.TestCase):
    def setUp(self):
        self.room = made.room()

    def test_two_archives_of_a_commit_are_the_same_bytes(self):
        os.utime(f"{TOP}/docs/verifying.md")
        (again,) = made.released(os.path.join(self.room, "again"))
        with open(made.archive(), "rb") as one, open(again, "rb") as other:
            self.assertEqual(hashlib.sha256(one.read()).hexdigest(), hashlib.sha256(other.read()).hexdigest())

    def test_its_members_have_an_order_one_time_and_no_owner(self):
        with tarfile.open(made.archive()) as it:
            members = it.getmembers()
        seconds = int(made.call(["git", "log", "-1", "--format=%ct"], cwd=TOP).stdout)
        self.assertEqual({(it.uid, it.gid, it.uname, it.gname, it.mtime) for it in members}, {(0, 0, "root", "root", seconds)})
        self.assertEqual({it.mode for it in members}, {0o755, 0o644})
        for kind in (True, False):
            names = [it.name for it in members if it.isdir() == kind]
            self.assertEqual(names, sorted(names))

    def test_its_manifest_has_the_sum_of_each_file(self):
        copy = made.unpacked(self.room)
        self.assertEqual(made.call(["sha256sum", "-c", "--strict", "--quiet", MANIFEST], cwd=copy).returncode, 0)
        told = {it.name for it in read_copy(copy).entries}
        there = {os.path.relpath(os.path.join(at, it), copy) for at, _, names in os.walk(copy) for it in names}
        self.assertEqual(told, there)
        self.assertTrue({f"lib/remduska/programs/{it}" for it in built()} < there)

    def test_the_first_lines_of_the_manifest_tell_where_it_comes_from(self):
        origin = read_copy(made.unpacked(self.room)).origin
        self.assertEqual(f"{origin.version}\n", read("VERSION").decode())
        self.assertEqual(origin.commit.partition("+")[0], made.call(["git", "rev-parse", "HEAD"], cwd=TOP).stdout.strip())
        self.assertEqual(origin.is_proved, "-unproved-" not in made.archive())

    def test_a_file_that_was_changed_is_refused(self):
        copy = made.unpacked(self.room)
        with open(os.path.join(copy, "lib/remduska/programs/prove"), "ab") as it:
            it.write(b"\n")
        self.assertRaisesRegex(Refused, "programs/prove is not the file", read_copy, copy)

    def test_links_of_its_pages_lead_to_what_is_there(self):
        share = os.path.join(made.unpacked(self.room), "share/remduska")
        count = 0
        for at, _, names in os.walk(share):
            for name in [it for it in names if it.endswith(".md")]:
                with open(os.path.join(at, name), encoding="utf-8") as it:
                    text = re.sub(r"^```.*?^```", "", it.read(), flags=re.M | re.S)
                for to in re.findall(r"\]\(([^)#\s]+)[^)]*\)", text):
                    count += 1
                    self.assertTrue(to.startswith("http") or os.path.exists(os.path.join(at, to)), f"{name}: {to}")
        self.assertGreater(count, 50)

    def test_each_script_that_remduska_starts_is_in_it(self):
        copy = made.unpacked(self.room)
        with open(os.path.join(copy, "bin/remduska"), encoding="utf-8") as it:
            scripts = set(re.findall(r'exec "\$top/tools/(\w+)"', it.read())) - {"build"}
        self.assertIn("verify", scripts)
        for it in scripts:
            self.assertTrue(os.access(os.path.join(copy, "lib/remduska/tools", it), os.X_OK), it)


class Refusals(unittest.TestCase):
    def test_programs_that_a_variable_names_are_refused(self):
        for name, variable in variables().items():
            done = made.call([f"{TOP}/tools/install", "--install", made.room()], env={**made.without_variables(), variable: "/bin/true"})
            self.assertEqual((done.returncode, variable in done.stderr), (70, True), done.stderr)

    def test_words_that_are_no_call_end_with_status_2(self):
        for tool, words in (("release", ["--nothing"]), ("release", ["x"]), ("install", []), ("install", ["--install"]),
                            ("install", ["--uninstall", "a", "--unproved"]), ("install", ["--install", "a", "b"])):
            done = made.call([f"{TOP}/tools/{tool}", *words])
            self.assertEqual((done.returncode, done.stdout), (2, ""), (tool, words))


class Packages(unittest.TestCase):
    def test_a_package_has_the_files_of_the_archive_below_usr(self):
        if not shutil.which("dpkg-deb"):
            self.skipTest("dpkg-deb is not installed")
        room = made.room()
        names = made.released(room, "--deb")
        self.assertEqual(len(names), 2)
        listed = made.call(["dpkg-deb", "--fsys-tarfile", names[1]], errors="surrogateescape").stdout
        whole = os.path.join(room, "files.tar")
        with open(whole, "wb") as it:
            it.write(listed.encode(errors="surrogateescape"))
        os.makedirs(os.path.join(room, "x"))
        self.assertEqual(made.call(["dpkg-deb", "-x", names[1], os.path.join(room, "x")]).returncode, 0)
        told = {it.name: it.data for it in read_copy(os.path.join(room, "x/usr")).entries}
        with tarfile.open(names[0]) as it:
            archived = {member.name.partition("/")[2]: it.extractfile(member).read() for member in it.getmembers() if member.isfile()}
        self.assertEqual(told, archived)
        fields = made.call(["dpkg-deb", "-f", names[1]]).stdout
        self.assertRegex(fields, r"(?m)^Depends: .*\bpython3\b")
        self.assertRegex(fields, r"(?m)^Recommends: z3$")


class Pages(unittest.TestCase):
    def test_links_to_what_is_not_there_are_words(self):
        text = "see [a](b.md), [c](../x/d.rt#at), [e](#f), ![g](h.svg), [i](https://j) and [k](../README.md#l)"
        self.assertEqual(pages.page("docs/p.md", text, {"docs/b.md", "README.md"}),
                         "see [a](b.md), c, [e](#f), ![g](h.svg), [i](https://j) and [k](../README.md#l)")

    def test_calls_are_those_of_the_command_on_the_path(self):
        self.assertEqual(pages.with_command("$ tools/verify a.vpr\n`./remduska run`, tools/verifying, ../remduska"),
                         "$ remduska verify a.vpr\n`remduska run`, tools/verifying, ../remduska")

    def test_the_help_says_nothing_of_what_a_checkout_alone_can_do(self):
        with open(f"{TOP}/tools/help.txt", encoding="utf-8") as it:
            text = pages.help_text(it.read())
        for it in ("--build", "./remduska", "compiles the sources", "\n\n\n"):
            self.assertNotIn(it, text)
        for it in ("remduska verify FILE..", "remduska --install PREFIX", "\n# certify\n"):
            self.assertIn(it, text)


class Manifests(unittest.TestCase):
    def test_folders_stand_before_what_they_have(self):
        self.assertEqual(folders([Entry("a/b/c", False, b""), Entry("d", False, b"")]), ["a", "a/b"])

    def test_what_is_written_is_read_back(self):
        origin = Origin("1.2.3", "0123abcd", 7, "a kit", False)
        copy, room = copy_of(origin, [Entry("bin/remduska", True, b"x"), Entry("share/remduska/a b", False, b"\0")]), made.room()
        for it in copy.entries:
            put(os.path.join(room, it.name), it)
        self.assertEqual(read_copy(room), copy)
