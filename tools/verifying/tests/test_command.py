"""The words of a call, what it prints and its status. What needs the program and z3 is skipped where REMDUSKA or z3 is missing."""
import io
import json
import os
import shutil
import subprocess
import sys
import tempfile
import time
import unittest
from contextlib import redirect_stderr, redirect_stdout
from unittest import mock

from verifying import boogie_word, checking, command, files, processes
from verifying.program import TOP, find

READY = bool(os.environ.get("REMDUSKA")) and shutil.which("z3") is not None
PATIENCE = 60.0     # seconds for which something is waited for
LASTING = """#!/bin/sh
case $1 in prove | values) exec sleep 600 ;; esac
exec "$TRUE_PROVE" "$@"
"""


def called(*words):
    out, err = io.StringIO(), io.StringIO()
    with redirect_stdout(out), redirect_stderr(err):
        try:
            status = command.main(list(words), "usage: a page")
        except SystemExit as end:
            status = end.code
    return status, out.getvalue(), err.getvalue()


class Words(unittest.TestCase):
    def test_help_is_the_page(self):
        self.assertEqual(called("--help"), (0, "usage: a page\n", ""))

    def test_words_that_are_no_call_end_with_status_2_and_a_line(self):
        for words in ((), ("--nothing", "a.vpr"), ("a.vpr", "--seconds", "0"), ("a.vpr", "--jobs", "many"), ("a.vpr", "--jobs", "100000")):
            status, out, err = called(*words)
            self.assertEqual((status, out, err.count("\n")), (2, "", 1), words)


def ends_once(tell, marker):
    """Ends the process that it is called in behind the first thing that it tells, but for the second time."""
    tell("one")
    if not os.path.exists(marker):
        open(marker, "w").close()
        os._exit(1)
    tell("two")
    return "done"


def begins(_, path):
    """Starts a process that takes long, and waits for it."""
    process = subprocess.Popen(["sleep", "60"])
    with open(path, "w") as it:
        it.write(str(process.pid))
    process.wait()


def ends(_, status):
    os._exit(status)


def size(_, value):
    return abs(value)


def wrong(_):
    raise ValueError("this went wrong")


class Interrupted(unittest.TestCase):
    def test_an_interruption_while_modules_are_read_ends_quietly(self):
        for module in ("argparse", "no_module_of_it"):
            with tempfile.TemporaryDirectory() as room:
                with open(os.path.join(room, f"{module}.py"), "w") as it:
                    it.write("import os, signal, time\nos.kill(os.getpid(), signal.SIGINT)\ntime.sleep(10)\n")
                done = subprocess.run([sys.executable, f"{TOP}/tools/verify", "--help"], stdout=subprocess.PIPE, stderr=subprocess.PIPE,
                                      env={**os.environ, "PYTHONPATH": room})
            found = (done.returncode, done.stderr, done.stdout.startswith(b"usage: "))
            self.assertEqual(found, (0, b"", True) if module == "no_module_of_it" else (130, b"", False), module)


class Processes(unittest.TestCase):
    def setUp(self):
        self.pool, self.told, self.said = processes.Pool(lambda: None, 2), [], []

    def tearDown(self):
        self.pool.end()

    def ask(self, function, *values):
        self.pool.submit(processes.Job(function, values, self.said.append, lambda why: self.said.append(f"failed: {why}"), self.told.append))

    def wait_until(self, holds):
        end = time.monotonic() + PATIENCE
        while not holds():
            self.assertLess(time.monotonic(), end, "the work does not come to it")
            self.pool.step(0.01)

    def wait(self):
        self.wait_until(lambda: not self.pool.is_busy())

    def test_what_a_process_started_ends_with_it(self):
        with tempfile.TemporaryDirectory() as room:
            path = os.path.join(room, "pid")
            self.ask(begins, path)
            self.wait_until(lambda: os.path.exists(path) and os.path.getsize(path))
            self.pool.end()
            with open(path) as it:
                number = int(it.read())
            for _ in range(200):
                with open(f"/proc/{number}/stat") if os.path.exists(f"/proc/{number}/stat") else open(os.devnull) as it:
                    if it.read().partition(") ")[2][:1] in ("", "Z"):
                        break
                time.sleep(0.05)
            else:
                self.fail(f"{number} goes on")

    def test_work_is_done_once_more_where_a_process_ends_and_nothing_is_told_twice(self):
        with tempfile.TemporaryDirectory() as room:
            self.ask(ends_once, os.path.join(room, "marker"))
            self.wait()
        self.assertEqual((self.told, self.said), (["one", "two"], ["done"]))

    def test_a_process_that_ends_twice_is_told_and_the_others_go_on(self):
        self.ask(ends, 3)
        self.ask(size, -4)
        self.wait()
        self.assertEqual(sorted(map(str, self.said)), ["4", "failed: the process that looked at it ended by itself, twice"])

    def test_what_goes_wrong_is_told(self):
        self.ask(wrong)
        self.wait()
        self.assertEqual(self.said, ["failed: this went wrong"])

    def test_little_work_takes_one_process_and_work_that_waits_another(self):
        for patience, begun in ((60, 1), (0, 2)):
            with mock.patch.object(processes, "PATIENCE", patience):
                for n in range(5):
                    self.ask(size, -n)
                self.wait()
            self.assertEqual((sorted(self.said), len(self.pool.processes)), ([0, 1, 2, 3, 4], begun))
            self.said.clear()


class Boogie(unittest.TestCase):
    def test_labels_are_read_where_a_procedure_was_too_slow(self):
        text = "type Ref;\nprocedure M$a() {\n}\nprocedure M$b() {\n}\n"
        said = ("1:2 3:4 perm\nx.bpl(4,1): Verification of 'M$b' timed out after 60 seconds\n\n"
                "Boogie program verifier finished with 1 verified, 1 error, 1 time out\n")
        found = boogie_word.read(said, text)
        self.assertEqual((found.labels, found.slow, found.fault), (["1:2 3:4 perm"], ["M$b"], ""))

    def test_a_procedure_that_boogie_does_not_tell_of_is_told_as_lost(self):
        text = "".join([f'procedure M${it}() {{\nassert {{:msg "{n}:2 3:4 perm"}} false;\n}}\n' for n, it in enumerate("abcd")])
        for said, lost in (("Boogie program verifier finished with 4 verified, 0 errors\n", 0),
                           ("1:2 3:4 perm\nBoogie program verifier finished with 3 verified, 1 error\n", 0),
                           ("1:2 3:4 perm\nBoogie program verifier finished with 2 verified, 1 error\n", 1),
                           ("x.bpl(1,1): Verification of 'M$a' timed out after 60 seconds\n"
                            "Boogie program verifier finished with 1 verified, 0 errors, 1 time out\n", 2)):
            found = boogie_word.read(said, text)
            self.assertEqual((found.lost, found.fault), (lost, ""), said)
            self.assertEqual([it for it in boogie_word.differences(found, []) if "nothing" in it],
                             [f"Boogie tells nothing of {lost} of the procedures"] * (lost > 0))
        self.assertIn("no verdict", boogie_word.read("Fatal Error: no prover\n", text).fault)

    def test_contents_have_ranks(self):
        text = "type Snap;\nfunction sPair(a: Snap, b: Snap): Snap;\nprocedure p() {\n}\n"
        self.assertEqual(boogie_word.ranked(text), text.replace("procedure", boogie_word.RANK + "procedure"))


class Verdicts(unittest.TestCase):
    def test_labels_are_in_the_order_of_their_places(self):
        labels = ["10:1 2:3 perm", "9:1 10:1 null", "9:1 2:1 perm", "9:1 2:1 null"]
        self.assertEqual(sorted(labels, key=checking.in_order), [labels[3], labels[2], labels[1], labels[0]])

    def test_each_example_has_a_verdict(self):
        self.assertEqual(sorted(checking.expected()), checking.examples())


@unittest.skipUnless(READY, "REMDUSKA names no program, or z3 is not installed")
class Calls(unittest.TestCase):
    def verify(self, *words, text=None):
        done = subprocess.run([sys.executable, f"{TOP}/tools/verify", *words], cwd=TOP, input=text, stdout=subprocess.PIPE,
                              stderr=subprocess.PIPE, universal_newlines=True)
        return done.returncode, done.stdout, done.stderr

    def test_an_error_has_a_run_that_the_program_confirms(self):
        status, out, _ = self.verify("--json", "examples/list_wrong.vpr")
        lines = [json.loads(it) for it in out.splitlines()]
        label = next(it for it in lines if "label" in it)
        self.assertEqual((status, label["label"], label["confirmed"]), (1, "53:5 24:26 false", True))
        with tempfile.NamedTemporaryFile("w", suffix=".run") as it:
            it.write(label["run"])
            it.flush()
            words = [os.environ["REMDUSKA"], "run", f"{TOP}/examples/list_wrong.vpr", label["unit"], it.name]
            said = subprocess.run(words, stdout=subprocess.PIPE)
        self.assertTrue(said.stdout.startswith(b"// failed 53:5 24:26 false\n"))

    def test_a_call_that_is_stopped_leaves_nothing_behind(self):
        with tempfile.TemporaryDirectory() as folder:
            room, lasting = os.path.join(folder, "room"), os.path.join(folder, "lasting")
            os.mkdir(room)
            with open(lasting, "w") as it:
                it.write(LASTING)
            os.chmod(lasting, 0o755)
            call = subprocess.Popen([sys.executable, f"{TOP}/tools/verify", "-"], cwd=TOP, stdin=subprocess.PIPE, stdout=subprocess.PIPE,
                                    env={**os.environ, "TMPDIR": room, "REMDUSKA_PROVE": lasting, "TRUE_PROVE": find().prove})
            self.addCleanup(call.terminate)
            call.stdin.write(b"method m() { assert true }\n")
            call.stdin.close()
            end = time.monotonic() + PATIENCE
            while not any([os.listdir(it.path) for it in os.scandir(room)]):
                self.assertIsNone(call.poll(), "it ended before it was stopped")
                self.assertLess(time.monotonic(), end, "it begins nothing")
                time.sleep(0.05)
            call.terminate()
            self.assertEqual((call.wait(PATIENCE), os.listdir(room)), (143, []))
            call.stdout.close()

    def test_several_files_go_on_and_the_worst_status_counts(self):
        status, out, _ = self.verify("--no-runs", "there is none.vpr", "-", "examples/list.vpr", text="method m() { var x: Seq }\n")
        self.assertEqual(status, 4)
        lines = [it for it in out.splitlines() if not it.startswith(" ")]
        self.assertTrue(lines[0].startswith("there is none.vpr:1:1: error: "), out)
        self.assertTrue(lines[1].startswith("<stdin>:1:21: error: "), out)
        self.assertEqual(lines[2], "examples/list.vpr: proved, 6 units")

    def test_certificates_are_kept_and_accepted(self):
        with tempfile.TemporaryDirectory() as room:
            status, out, _ = self.verify("--json", "--keep", room, "examples/list.vpr")
            units = [json.loads(it) for it in out.splitlines()]
            self.assertEqual((status, [it["checked"] for it in units]), (0, [True] * 6))
            words = [find().prove, "certify", f"{TOP}/examples/list.vpr", os.path.join(room, "examples_list.vpr.cert")]
            said = subprocess.run(words, stdout=subprocess.PIPE, universal_newlines=True).stdout
            self.assertEqual(said, "".join([f"proved {it['unit']}\n" for it in units]))

    def test_what_has_no_certificate_is_told_as_the_word_of_z3(self):
        status, out, _ = self.verify("--no-certificates", "examples/list.vpr")
        self.assertEqual((status, out), (0, "examples/list.vpr: verified on z3's word, 6 units\n"))

    def test_one_unit_alone_is_looked_at(self):
        status, out, _ = self.verify("--unit", "head", "examples/list_wrong.vpr")
        self.assertEqual((status, out), (0, "examples/list_wrong.vpr: proved, 1 unit\n"))

    def test_what_is_assumed_in_vain_is_told(self):
        status, out, _ = self.verify("--smoke", "-", text="method m(x: Int) requires x > 0 && x < 0 { assert false }\n")
        self.assertEqual(status, 0)
        self.assertIn("<stdin>:1:8: warning: no run of `m` begins: what it requires cannot hold\n", out)

    def test_what_cannot_be_written_is_told_in_a_line(self):
        for words, out in ((("--keep", "/dev/null/there"), os.devnull), (("--no-runs",), "/dev/full"), (("--help",), "/dev/full")):
            with open(out, "w") as into:
                done = subprocess.run([sys.executable, f"{TOP}/tools/verify", *words, "examples/list.vpr"], cwd=TOP, stdout=into,
                                      stderr=subprocess.PIPE, universal_newlines=True)
            self.assertEqual((done.returncode, done.stderr.count("\n"), done.stderr[:8]), (2, 1, "verify: "), words)

    def test_what_the_encoding_of_the_output_has_not_is_told_by_its_number(self):
        done = subprocess.run([sys.executable, f"{TOP}/tools/verify", "--no-runs", "-"], cwd=TOP, stdout=subprocess.PIPE,
                              stderr=subprocess.PIPE, input="method m(x: Int) { assert /* \u00e9 */ x > 0 }\n".encode(),
                              env={**os.environ, "PYTHONIOENCODING": "ascii"})
        self.assertEqual((done.returncode, done.stderr), (1, b""))
        self.assertIn(b"assert /* \\xe9 */ x > 0", done.stdout)

    def test_a_program_that_writes_something_else_is_told(self):
        with tempfile.TemporaryDirectory() as room:
            odd = os.path.join(room, "odd")
            with open(odd, "w") as into:
                into.write("#!/bin/sh\necho hello\n")
            os.chmod(odd, 0o755)
            done = subprocess.run([sys.executable, f"{TOP}/tools/verify", "--no-certificates", "examples/list.vpr"], cwd=TOP,
                                  stdout=subprocess.PIPE, env={**os.environ, "REMDUSKA": odd}, universal_newlines=True)
        self.assertEqual((done.returncode, "no program of Boogie" in done.stdout), (4, True))

    def test_the_name_of_a_file_is_one_line_and_in_json_as_it_is(self):
        with tempfile.TemporaryDirectory() as room:
            path = os.path.join(room, "a b\n\x1b'\".vpr")
            with open(path, "w") as it:
                it.write("method m() { assert true }\n")
            self.assertEqual(self.verify(path)[1], f"{room}/a b\\x0a\\x1b'\".vpr: proved, 1 unit\n")
            self.assertEqual(json.loads(self.verify("--json", path)[1])["file"], path)

    def test_files_whose_kept_names_would_be_one_are_kept_apart(self):
        with tempfile.TemporaryDirectory() as room:
            os.mkdir(os.path.join(room, "a"))
            paths = [os.path.join(room, it) for it in ("a b.vpr", "a_b.vpr", "a/b.vpr")]
            for n, path in enumerate(paths):
                with open(path, "w") as it:
                    it.write(f"method m(x: Int) {{ assert x != {n + 5} }}\n")
            kept = os.path.join(room, "kept")
            self.verify("--no-runs", "--keep", kept, *paths, paths[1])
            found = {}
            for name in os.listdir(kept):
                if name.endswith(".run"):
                    with open(os.path.join(kept, name)) as it:
                        found[name[name.rindex("a_b.vpr"):].partition(".m.1-")[0]] = it.read().splitlines()[1]
        self.assertEqual(found, {"a_b.vpr": "var x 5", "a_b.vpr-2": "var x 6", "a_b.vpr-3": "var x 7"})

    def test_a_file_that_is_too_large_is_refused_without_reading_its_tokens(self):
        whole = "method m() {}\n//".ljust(files.LARGEST, "-")
        self.assertEqual(self.verify("-", text=whole)[:2], (0, "<stdin>: proved, 1 unit\n"))
        self.assertEqual(self.verify("-", text=f"{whole}-")[:2], (4, "<stdin>:1:1: error: the file has more than 1,048,576 bytes\n"))
        self.assertEqual(files.source_of("a.vpr", f"{whole}-".encode()).tokens, [])

    def test_a_run_that_needs_a_number_beyond_the_bound_is_told_in_words(self):
        top = (1 << 127) - 1
        for text, own in ((f"method b(n: Int) returns (r: Int) ensures r <= {top} {{ r := n }}", "run says error: run-syntax 2:1"),
                          (f"method b(n: Int) requires n <= {top} {{ assert n + {top} < {top} + 5 }}", "run says // over 1:")):
            status, out, _ = self.verify("-", text=text)
            words = "but the run needs a number beyond 2^127 - 1 in magnitude, which run files and `run` do not take, "
            self.assertEqual(status, 3)
            self.assertIn(f"{words}so it cannot be confirmed: {own}", out)

    def test_a_program_of_boogie_fails_in_replay(self):
        status, out, _ = self.verify("examples/dice_wrong.bpl")
        self.assertEqual(status, 1)
        self.assertIn("  This run of `sixes` fails there:\n", out)
