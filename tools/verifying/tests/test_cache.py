"""What is kept from call to call, and that nothing of it is trusted. What needs the programs and z3 says so where they are missing."""
import json
import os
import shutil
import stat
import subprocess
import tempfile
import unittest
import zlib

from verifying import cache
from verifying.boogie_text import procedure_texts
from verifying.cache import Cache, KnownRun, Places
from verifying.program import TOP, Program, find

TEXT = 'procedure M$m() {\nassert {:msg "3:1 2:5 perm"} (a);\nassert {:msg "7:3 2:5 false"} (b);\n}\n'
LOWER = TEXT.replace("3:1", "13:1").replace("2:5", "12:5").replace("7:3", "17:3")
RUN = KnownRun([["viper run", "var x #1"], ["pick true"], ["state", "heap f #1 2"]], True, False, False)
SMALL_ROOM = 20_000
WITHOUT_VALUES = """#!/bin/sh
# Finds no values where the test wants none.
case $1 in values) [ ! -e "$0.silent" ] || { "$TRUE_PROVE" "$@" | sed -e 's/^values /open /' -e '/^v[0-9]/d'; exit 10; } ;; esac
exec "$TRUE_PROVE" "$@"
"""
READY = bool(os.environ.get("REMDUSKA")) and shutil.which("z3") is not None


def runs(mark):
    """A run with a mark of its own."""
    return {"7:3 2:5 false": RUN._replace(choices=[["viper run", f"var x {mark}"]])}


class Rooms(unittest.TestCase):
    def setUp(self):
        self.room = tempfile.mkdtemp(prefix="cache-")
        self.addCleanup(shutil.rmtree, self.room, True)
        self.cache = Cache(self.room, "programs")

    def entry(self, text=TEXT):
        return self.cache.path(Places(text))

    def forge(self, data, text=TEXT):
        """Puts bytes, or what JSON says of a value, where the entry of a unit stands."""
        path = self.entry(text)
        os.makedirs(os.path.dirname(path), exist_ok=True)
        with open(path, "wb") as it:
            it.write(data if isinstance(data, bytes) else zlib.compress(json.dumps(data).encode()))


class Entries(Rooms):
    def test_what_is_kept_is_known_to_the_same_programs(self):
        self.assertEqual(self.cache.known(TEXT), {})
        for it in ({"7:3 2:5 false": RUN}, {"3:1 2:5 perm": RUN, "7:3 2:5 false": RUN}):
            self.cache.keep(TEXT, it)
            self.assertEqual(self.cache.known(TEXT), it)
        self.assertEqual(list(self.cache.known(TEXT)), ["3:1 2:5 perm", "7:3 2:5 false"])
        self.assertEqual(Cache(self.room, "others").known(TEXT), {})
        self.assertEqual(self.cache.known(TEXT.replace("(a)", "(c)")), {})

    def test_a_unit_is_known_at_other_places(self):
        self.cache.keep(TEXT, {"7:3 2:5 false": RUN})
        self.assertEqual(self.cache.known(LOWER), {"17:3 12:5 false": RUN})
        self.assertEqual(self.cache.known(TEXT.replace("7:3", "3:1")), {})     # two labels that were apart have one place

    def test_nothing_is_kept_without_a_folder_or_where_it_cannot_be_written(self):
        Cache().keep(TEXT, runs("x"))
        self.assertEqual(Cache().known(TEXT), {})
        with open(os.path.join(self.room, "file"), "w"):
            pass
        blocked = Cache(os.path.join(self.room, "file"), "programs")
        blocked.keep(TEXT, runs("x"))
        self.assertEqual(blocked.known(TEXT), {})

    def test_others_may_not_look_into_the_folders(self):
        self.cache.keep(TEXT, runs("x"))
        self.assertEqual(stat.S_IMODE(os.stat(os.path.dirname(self.entry())).st_mode) & 0o077, 0)

    def test_the_place_is_that_of_other_caches(self):
        before = os.environ.get("XDG_CACHE_HOME")
        try:
            for named, wanted in (("/a", "/a/remduska/units"), ("not/absolute", os.path.expanduser("~/.cache/remduska/units")), ("", os.path.expanduser("~/.cache/remduska/units"))):
                os.environ["XDG_CACHE_HOME"] = named
                self.assertEqual(cache.place(), wanted)
        finally:
            if before is None:
                del os.environ["XDG_CACHE_HOME"]
            else:
                os.environ["XDG_CACHE_HOME"] = before


class Forged(Rooms):
    def test_bytes_that_are_no_entry_are_not_known(self):
        whole = zlib.compress(json.dumps([["0 1 perm", RUN.choices, True, False, False]]).encode())
        self.forge(whole)
        self.assertEqual(self.cache.known(TEXT), {"3:1 2:5 perm": RUN})
        for data in (b"", b"x", whole[:-1], whole[:5], zlib.compress(b"{"), zlib.compress(b"[" * 100_000), zlib.compress(b"\xff"),
                     zlib.compress(b" " * (cache.LARGEST + 1))):
            self.forge(data)
            self.assertEqual(self.cache.known(TEXT), {}, data[:20])

    def test_values_of_another_form_are_not_known(self):
        lines = [["viper run"], ["pick true"]]
        for it in (None, 3, [], {}, {"runs": []}, "x", [3], ["x"], [["1 2 perm", lines]], [["0 1 perm", lines, True]], [["0 9 perm", lines, True, True, True]],
                   [["0 perm", lines, True, True, True]], [[3, lines, True, True, True]]):
            self.forge(it)
            self.assertEqual(self.cache.known(TEXT), {}, it)

    def test_lines_that_no_run_file_has_are_not_known(self):
        for lines in ([], [["pick true"]], [["viper run", "\x1b[2J"]], [["viper run", "pick\ttrue"]], [["viper run"], ["pick true\nvalue 3"]], [["viper run"], ["run"]],
                      [["viper run"], ["pick true", "heap f #1 2"]], [["viper run"], ["pick true"], ["var x 3"]], [["viper run", ""]], [["viper run", 3]],
                      [["boogie run M$m", "state"]], [["boogie run M$m", ""]], [["boogie"]]):
            self.forge([["0 1 perm", lines, True, False, False]])
            self.assertEqual(self.cache.known(TEXT), {}, lines)

    def test_lines_are_put_together_by_what_they_say(self):
        self.forge([["0 1 perm", [["viper run"], ["var x #1", "pick true", "state"], ["heap f #1 2"]], True, 1, "yes"]])
        self.assertEqual(self.cache.known(TEXT), {"3:1 2:5 perm": RUN})


class Bounds(Rooms):
    def fill(self, count):
        """Keeps so many entries that cannot be made smaller, all in one folder."""
        folders, cache.FOLDERS = cache.FOLDERS, 1
        self.addCleanup(setattr, cache, "FOLDERS", folders)
        room, cache.ROOM = cache.ROOM, SMALL_ROOM
        self.addCleanup(setattr, cache, "ROOM", room)
        texts = [TEXT.replace("(a)", f"(a{n})") for n in range(count)]
        for n, text in enumerate(texts):
            self.cache.keep(text, runs(os.urandom(500).hex()))
            os.utime(self.entry(text), (1_000_000 + n, 1_000_000 + n))
            if n % 10 == 9:
                self.cache.known(texts[0])
        return texts

    def test_what_was_not_used_for_long_goes_first(self):
        texts = self.fill(100)
        folder = os.path.dirname(self.entry(texts[0]))
        sizes = [os.path.getsize(os.path.join(folder, it)) for it in os.listdir(folder)]
        self.assertLessEqual(sum(sizes), SMALL_ROOM)
        self.assertGreater(len(sizes), 15)
        self.assertEqual([n for n, it in enumerate(texts) if self.cache.known(it)], [0, *range(101 - len(sizes), 100)])

    def test_an_entry_that_is_too_large_is_not_kept(self):
        self.fill(1)
        self.cache.keep(TEXT, runs(os.urandom(SMALL_ROOM).hex()))
        self.assertEqual(self.cache.known(TEXT), {})

    def test_what_a_call_left_that_was_ended_goes_after_a_while(self):
        self.cache.keep(TEXT, runs("x"))
        folder = os.path.dirname(self.entry())
        for name, age in ((".old", 2 * cache.STALE), (".new", 1)):
            path = os.path.join(folder, name)
            with open(path, "w"):
                pass
            at = os.stat(path).st_mtime - age
            os.utime(path, (at, at))
        self.cache.keep(TEXT, runs("y"))
        self.assertEqual(sorted(os.listdir(folder)), [".new", os.path.basename(self.entry())])

    def test_processes_that_write_at_once_leave_whole_entries(self):
        def work(mark):
            for n in range(150):
                self.cache.keep(TEXT, runs(f"{mark}{n} " * 5000))
                found = self.cache.known(TEXT)
                if not found or len(set(found["7:3 2:5 false"].choices[0][1].split())) != 3:    # `var`, `x` and one mark
                    os._exit(1)
            os._exit(0)

        children = []
        for mark in "abcd":
            child = os.fork()
            if child == 0:
                work(mark)
            children.append(child)
        self.assertEqual([os.waitpid(it, 0)[1] for it in children], [0] * 4)
        self.assertEqual(os.listdir(os.path.dirname(self.entry())), [os.path.basename(self.entry())])

    def test_an_entry_is_whole_or_old_where_a_process_is_killed(self):
        self.cache.keep(TEXT, runs("old"))
        child = os.fork()
        if child == 0:
            os.rename = lambda *_: os.kill(os.getpid(), 9)
            self.cache.keep(TEXT, runs("new"))
            os._exit(0)
        self.assertEqual(os.waitpid(child, 0)[1], 9)
        self.assertEqual(self.cache.known(TEXT), runs("old"))


@unittest.skipUnless(READY, "REMDUSKA names no program, or z3 is not installed")
class Calls(Rooms):
    """Calls of tools/verify with a cache of their own, compared with calls without one."""

    def setUp(self):
        super().setUp()
        self.kept = os.path.join(self.room, "remduska/units")
        self.program = Program(find())

    def verify(self, *words, **more):
        variables = {**os.environ, "XDG_CACHE_HOME": self.room, **more}
        done = subprocess.run([f"{TOP}/tools/verify", "--seconds", "60", *words], cwd=self.room, env=variables, stdin=subprocess.DEVNULL,
                              stdout=subprocess.PIPE, stderr=subprocess.PIPE, universal_newlines=True)
        return done.returncode, done.stdout

    def write(self, name, text):
        with open(os.path.join(self.room, name), "w", encoding="utf-8") as it:
            it.write(text)
        return name

    def example(self, name):
        with open(f"{TOP}/examples/{name}", encoding="utf-8") as it:
            return it.read()

    def entries(self):
        return sorted(os.path.join(at, it) for at, _, names in os.walk(self.kept) for it in names)

    def forge_all(self, change):
        """Has a function change what each entry says."""
        for path in self.entries():
            with open(path, "rb") as it:
                said = json.loads(zlib.decompress(it.read()))
            with open(path, "wb") as it:
                it.write(zlib.compress(json.dumps(change(said)).encode()))

    def test_a_second_call_tells_the_same(self):
        for name in ("list_wrong.vpr", "account_wrong.vpr", "loop_wrong.vpr", "dice_wrong.bpl"):
            self.write(name, self.example(name))
            first = self.verify(name)
            self.assertTrue(self.entries())
            self.assertEqual(self.verify(name), first)

    def test_nothing_is_kept_where_it_is_not_wanted(self):
        self.assertEqual(self.verify("--no-runs", "--no-cache", self.write("a.vpr", self.example("list_wrong.vpr")))[0], 1)
        self.assertEqual(self.entries(), [])

    def test_runs_are_taken_where_lines_moved_and_nothing_finds_values(self):
        prove, tools = os.path.join(self.room, "prove"), os.path.join(self.room, "tools")
        self.write("prove", WITHOUT_VALUES)
        os.chmod(prove, 0o755)
        os.mkdir(tools)
        for it in ("sh", "sed", "python3"):
            os.symlink(shutil.which(it), os.path.join(tools, it))
        words, how = ("--no-runs", "a.vpr"), {"REMDUSKA_PROVE": prove, "TRUE_PROVE": find().prove, "PATH": tools}
        for name in ("list_wrong.vpr", "account_wrong.vpr"):
            lower = "".join([f"// {n}\n" for n in range(100)]) + self.example(name)
            self.write("a.vpr", lower)
            right = self.verify("--no-cache", *words, **how)
            self.write("a.vpr", self.example(name))
            self.assertEqual((right[0], self.verify(*words, **how)[0]), (1, 1))
            self.write("a.vpr", lower)
            self.write("prove.silent", "")
            self.assertEqual(self.verify("--no-cache", *words, **how)[0], 3)
            self.assertEqual(self.verify(*words, **how), right)
            os.remove(f"{prove}.silent")

    def test_no_forged_run_makes_a_right_unit_wrong(self):
        words = ("--no-certificates", self.write("list.vpr", self.example("list.vpr")))
        right = self.verify(*words)
        self.assertEqual((right[0], self.entries()), (0, []))
        self.cache = Cache(self.kept, cache.opened(find()).programs)
        for at in range(6):
            forged = [[f"{at} {part} {kind}", [["viper run"], ["pick true"], ["state"]], True, False, False] for part in range(6) for kind in ("null", "perm", "false")]
            for _, text in procedure_texts(self.program.translate(f"{TOP}/examples/list.vpr").out):
                places = len(Places(text).places)
                self.forge([it for it in forged if max(at, int(it[0].split()[1])) < places], text)
            self.assertEqual(self.verify(*words), right)

    def test_errors_whose_runs_were_taken_out_or_changed_are_told_all_the_same(self):
        self.write("list_wrong.vpr", self.example("list_wrong.vpr"))
        right = self.verify("--no-runs", "list_wrong.vpr")
        for change in (lambda it: [], lambda it: [[run[0], [["viper run"], ["pick false"]], *run[2:]] for run in it],
                       lambda it: [[run[0], run[1] + [["pick true"]], *run[2:]] for run in it]):
            self.forge_all(change)
            self.assertEqual(self.verify("--no-runs", "list_wrong.vpr"), right)

    def test_a_unit_is_known_by_the_text_of_its_procedure_alone(self):
        text = self.program.translate(f"{TOP}/examples/list.vpr").out
        path = os.path.join(self.room, "more.vpr")
        with open(path, "w", encoding="utf-8") as it:
            it.write("\n\nmethod before() { assert true }\n" + self.example("list.vpr"))
        more = dict(procedure_texts(self.program.translate(path).out))
        for name, unit in procedure_texts(text):
            self.assertEqual(Places(unit).text, Places(more[name]).text, name)
