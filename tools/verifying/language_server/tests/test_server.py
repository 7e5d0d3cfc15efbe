"""A server as an editor meets it: what it answers and tells of files that are opened and changed."""
import os
import signal
import subprocess
import tempfile
import time
import unittest

from verifying.program import TOP

from .talking import READY, WHY_NOT, Editor, at, between, place_of

WRONG = "file:///folder/list_wrong.vpr"
RIGHT = """field f: Int
method one(x: Ref)
  requires acc(x.f)
  ensures acc(x.f) && x.f == 1
{
  x.f := 1
}
method two(x: Ref)
  requires acc(x.f)
  ensures acc(x.f)
{
  one(x)
  assert x.f > 0
}
"""


def example(name):
    with open(os.path.join(TOP, "examples", name), encoding="utf-8") as it:
        return it.read()


class Served(unittest.TestCase):
    """A test with a server of its own."""
    capabilities, options = None, {"seconds": 60}

    def setUp(self):
        self.editor = Editor(self.capabilities, self.options)

    def tearDown(self):
        if self.editor.process.poll() is None:
            self.assertEqual(self.editor.end(), 0)

    def ask(self, method, uri, **more):
        return self.editor.ask(f"textDocument/{method}", {"textDocument": {"uri": uri}, **more})


class Protocol(Served):
    def test_what_is_no_request_is_refused(self):
        self.assertEqual(self.editor.answer("textDocument/nothing", {})["error"]["code"], -32601)
        self.assertEqual(self.editor.answer("textDocument/hover", {})["error"]["code"], -32602)
        self.assertEqual(self.editor.answer("textDocument/hover", {"textDocument": {"uri": "file:///x"}, "position": at(0, 0)})["error"]["code"], -32602)
        self.assertEqual(self.editor.answer("initialize", {})["error"]["code"], -32600)
        os.write(self.editor.process.stdin.fileno(), b"Content-Length: 3\r\n\r\n{a}")
        self.editor.until(lambda: None in self.editor.answers, "the answer of what is no JSON")
        self.assertEqual(self.editor.answers.pop(None)["error"]["code"], -32700)

    def test_positions_are_utf_16_and_changes_incremental(self):
        found = self.editor.initialized["capabilities"]
        self.assertEqual((found["positionEncoding"], found["textDocumentSync"]["change"]), ("utf-16", 2))

    def test_behind_shutdown_nothing_is_answered_and_exit_has_status_0(self):
        self.editor.ask("shutdown", None)
        self.assertEqual(self.editor.answer("workspace/symbol", {"query": ""})["error"]["code"], -32600)
        self.editor.outgoing.tell("exit", None)
        self.assertEqual(self.editor.process.wait(20), 0)
        self.editor.gone()

    def test_an_editor_that_goes_away_ends_it(self):
        self.editor.process.stdin.close()
        self.assertEqual(self.editor.process.wait(20), 1)
        self.editor.process.stdout.close()
        self.editor.process.stderr.close()

    def test_odd_notifications_do_no_harm(self):
        self.editor.outgoing.tell("textDocument/didChange", {"textDocument": {"uri": "file:///none"}, "contentChanges": []})
        self.editor.outgoing.tell("textDocument/didOpen", {})
        self.editor.outgoing.tell("$/setTrace", {"value": "off"})
        self.assertEqual(self.editor.ask("workspace/symbol", {"query": ""}), [])


@unittest.skipUnless(READY, WHY_NOT)
class Answers(Served):
    def test_an_error_with_its_note_lens_and_hover(self):
        text = example("list_wrong.vpr")
        self.editor.open(WRONG, text)
        (found,) = self.editor.settled(WRONG)
        self.assertEqual((found["range"]["start"], found["severity"], found["code"]), (at(52, 4), 1, "false"))
        self.assertIn("a precondition of `push` might not hold at this call", found["message"])
        (note,) = found["relatedInformation"]
        self.assertEqual((note["location"]["range"]["start"], note["message"]), (at(23, 25), "this part of the precondition, where `v` of `push` is `i` in this call"))
        self.assertEqual(self.editor.lenses(WRONG), ["proved: keep certificate"] * 5 + ["fails: show run"])
        value = self.ask("hover", WRONG, position=place_of(text, "i)\n    i := "))["contents"]["value"]
        self.assertIn("i: Int", value)
        self.assertIn("`i` = `-1`", value)
        (hint,) = [it for it in self.ask("inlayHint", WRONG, range={"start": at(0, 0), "end": at(99, 0)}) if it["position"]["line"] == 52]
        self.assertIn("i = -1", hint["tooltip"]["value"])

    def test_a_name_that_is_misspelled_has_a_quick_fix(self):
        text = RIGHT.replace("x.f := 1", "y.f := 1").replace("x: Ref", "xs: Ref", 1)
        self.editor.open(WRONG, text)
        found = self.editor.settled(WRONG)
        self.assertEqual([it["code"] for it in found], ["type"])
        text = RIGHT.replace("  one(x)", "  oen(x)")
        self.editor.change(WRONG, {"text": text})
        (found,) = self.editor.settled(WRONG)
        (action,) = self.ask("codeAction", WRONG, range=found["range"], context={"diagnostics": [found]})
        (edit,) = action["edit"]["documentChanges"][0]["edits"]
        self.assertEqual((action["kind"], edit["newText"]), ("quickfix", "one"))
        self.editor.change(WRONG, {"range": edit["range"], "text": edit["newText"]})
        self.assertEqual(self.editor.settled(WRONG), [])

    def test_what_is_stale_is_taken_away_at_once(self):
        text = RIGHT.replace("x.f > 0", "x.f > 1")
        self.editor.open(WRONG, text)
        self.assertEqual(len(self.editor.settled(WRONG)), 1)
        place = place_of(text, "x.f > 1")
        start = time.monotonic()
        self.editor.change(WRONG, {"range": {"start": place, "end": place}, "text": "true && "})
        self.editor.until(lambda: self.editor.published(WRONG))
        first = self.editor.published(WRONG)
        self.assertEqual(first["params"]["diagnostics"], [])
        self.assertLess(first["at"] - start, 0.25)
        self.assertEqual(len(self.editor.settled(WRONG)), 1)

    def test_of_a_unit_that_only_moved_the_error_moves_at_once(self):
        text = RIGHT.replace("x.f > 0", "x.f > 1")
        self.editor.open(WRONG, text)
        (before,) = self.editor.settled(WRONG)
        self.editor.change(WRONG, between(0, 0, 0, "// 😀\n\n"))
        self.editor.until(lambda: self.editor.published(WRONG))
        (behind,) = self.editor.published(WRONG)["params"]["diagnostics"]
        self.assertEqual(behind["range"]["start"]["line"], before["range"]["start"]["line"] + 2)

    def test_wide_characters_before_an_error_in_its_line(self):
        self.editor.open(WRONG, "method m() { /* 😀é */ assert false }")
        (found,) = self.editor.settled(WRONG)
        self.assertEqual((found["range"]["start"], found["range"]["end"]), (at(0, 30), at(0, 35)))

    def test_two_files_and_one_that_is_closed(self):
        other = "file:///folder/other.vpr"
        self.editor.open(WRONG, example("list_wrong.vpr"))
        self.editor.open(other, example("lock_wrong.vpr"))
        self.assertEqual((len(self.editor.settled(WRONG)), len(self.editor.settled(other))), (1, 1))
        names = {it["name"] for it in self.editor.ask("workspace/symbol", {"query": "l"})}
        self.assertLessEqual({"fill", "list", "limit", "release"}, names)
        self.editor.close(WRONG)
        self.assertEqual(self.editor.lenses(other).count("fails: show run"), 1)
        self.assertEqual(self.editor.of("textDocument/publishDiagnostics")[-1]["params"], {"uri": WRONG, "diagnostics": []})

    def test_progress_begins_and_ends_and_can_be_cancelled(self):
        self.editor.open(WRONG, example("list_wrong.vpr"))
        self.editor.until(lambda: self.editor.of("$/progress"))
        token = self.editor.of("$/progress")[0]["params"]["token"]
        self.editor.outgoing.tell("window/workDoneProgress/cancel", {"token": token})
        self.editor.until(lambda: self.editor.of("$/progress")[-1]["params"]["value"]["kind"] == "end")
        self.assertIn("stopped: check again", self.editor.lenses(WRONG))
        self.editor.ask("workspace/executeCommand", {"command": "remduska.checkAgain", "arguments": [WRONG, "fill"]})
        self.assertEqual(len(self.editor.settled(WRONG)), 1)

    def test_certificates_are_kept_and_are_accepted(self):
        with tempfile.TemporaryDirectory() as folder:
            path = os.path.join(folder, "right.vpr")
            with open(path, "w", encoding="utf-8") as it:
                it.write(RIGHT)
            self.editor.open(f"file://{path}", RIGHT)
            self.assertEqual(self.editor.settled(f"file://{path}"), [])
            found = self.editor.ask("workspace/executeCommand", {"command": "remduska.keepCertificate", "arguments": [f"file://{path}", "one"]})
            self.assertEqual(found, {"certificates": f"{path}.certs"})
            done = subprocess.run([os.environ["REMDUSKA_PROVE"], "certify", path, found["certificates"]], stdout=subprocess.PIPE)
            self.assertEqual((done.returncode, done.stdout), (0, b"proved one\nproved two\n"))

    def test_a_contract_that_is_wrong_by_itself_is_told_once(self):
        text = "field f: Int\nmethod callee(x: Ref)\n  requires x.f > 0\nmethod caller(x: Ref)\n  requires acc(x.f, 1/2)\n{ callee(null) }\n"
        self.editor.open(WRONG, text)
        found = self.editor.settled(WRONG)
        self.assertEqual([it["range"]["start"]["line"] for it in found], [2])
        self.assertEqual(self.editor.lenses(WRONG), ["fails: show run"] * 2)

    def test_other_settings_have_all_asked_again(self):
        self.editor.open(WRONG, "method m(x: Int, y: Int) { assert x > y assert x > 2 assert y > 3 }")
        self.assertEqual(len(self.editor.settled(WRONG)), 3)
        self.editor.outgoing.tell("workspace/didChangeConfiguration", {"settings": {"remduska": {"errors": 1, "seconds": -1, "smoke": 3}}})
        self.editor.until(lambda: len(self.editor.published(WRONG)["params"]["diagnostics"]) == 2)
        self.assertIn("2 more errors", self.editor.settled(WRONG)[1]["message"])


@unittest.skipUnless(READY, WHY_NOT)
class OldEditor(Served):
    capabilities = {}

    def test_an_editor_that_can_do_little_is_told_what_it_can_take(self):
        self.editor.open(WRONG, example("list_wrong.vpr"))
        (found,) = self.editor.settled(WRONG)
        self.assertNotIn("relatedInformation", found)
        self.assertIn("24:26: this part of the precondition", found["message"])
        self.assertEqual({it["method"] for it in self.editor.told}, {"textDocument/publishDiagnostics"})


@unittest.skipUnless(READY, WHY_NOT)
class Economy(unittest.TestCase):
    def test_a_unit_is_looked_at_anew_only_where_its_code_or_a_contract_changed(self):
        with tempfile.TemporaryDirectory() as folder:
            log, program = os.path.join(folder, "log"), os.path.join(folder, "prove")
            with open(program, "w", encoding="utf-8") as it:
                it.write(f'#!/bin/sh\n[ "$1" != prove ] || cat "$2" >>"{log}"\nexec "{os.environ["REMDUSKA_PROVE"]}" "$@"\n')
            os.chmod(program, 0o755)
            open(log, "w", encoding="utf-8").close()
            editor = Editor(environment={"REMDUSKA_PROVE": program})

            def looked_at():
                """The methods whose bodies the program was asked to prove."""
                editor.settled(WRONG)
                with open(log, encoding="utf-8") as it:
                    found = it.read()
                open(log, "w", encoding="utf-8").close()
                return [name for name, body in (("M$one", "x.f := 1"), ("M$two", "one(x)\n")) if f"  {body}" in found]

            editor.open(WRONG, RIGHT)
            self.assertEqual(looked_at(), ["M$one", "M$two"])
            editor.change(WRONG, between(0, 0, 0, "// a comment\n"))
            self.assertEqual(looked_at(), [])
            editor.change(WRONG, {"text": RIGHT.replace("assert x.f > 0", "assert x.f > 0 && true")})
            self.assertEqual(looked_at(), ["M$two"])
            editor.change(WRONG, {"text": RIGHT.replace("x.f == 1", "1 == x.f")})
            self.assertEqual(looked_at(), ["M$one", "M$two"])
            editor.change(WRONG, {"text": RIGHT + "method"})
            self.assertEqual(looked_at(), [])
            editor.change(WRONG, {"text": RIGHT})
            self.assertEqual(looked_at(), [])
            self.assertEqual(editor.end(), 0)


def processes(room):
    """The processes that are alive and have a folder in their words or as their own, by /proc."""
    found = []
    for it in os.listdir("/proc"):
        if it.isdigit():
            try:
                with open(f"/proc/{it}/cmdline", "rb") as words, open(f"/proc/{it}/stat", encoding="utf-8") as stat:
                    state = stat.read().rpartition(")")[2].split()
                    found += [(int(it), int(state[1]), words.read())] if state[0] != "Z" else []
            except OSError:
                pass
    return found


def descendants(process):
    """The processes below one."""
    children = {}
    for number, parent, _ in processes(None):
        children.setdefault(parent, []).append(number)
    found, todo = [], [process]
    while todo:
        below = children.get(todo.pop(), [])
        found += below
        todo += below
    return found


def is_alive(process):
    return any(it[0] == process for it in processes(None))


@unittest.skipUnless(READY, WHY_NOT)
class Ends(unittest.TestCase):
    def ended_by(self, end):
        with tempfile.TemporaryDirectory() as folder:
            editor = Editor(environment={"TMPDIR": folder})
            editor.open(WRONG, example("list_wrong.vpr"))
            editor.until(lambda: editor.of("$/progress"))
            below = descendants(editor.process.pid)
            self.assertGreater(len(below), 1)
            self.assertEqual(len(os.listdir(folder)), 1)
            end(editor)
            until = time.monotonic() + 20
            while (any(map(is_alive, below)) or os.listdir(folder)) and time.monotonic() < until:
                time.sleep(0.02)
            self.assertEqual(([it for it in below if is_alive(it)], os.listdir(folder)), ([], []))

    def test_a_server_that_is_killed_leaves_no_process_and_no_folder(self):
        def end(editor):
            editor.process.send_signal(signal.SIGKILL)
            editor.process.wait(20)
            editor.gone()
        self.ended_by(end)

    def test_nor_does_one_that_is_asked_to_end(self):
        def end(editor):
            editor.process.send_signal(signal.SIGTERM)
            self.assertEqual(editor.process.wait(20), 128 + signal.SIGTERM)
            editor.gone()
        self.ended_by(end)

    def test_nor_does_one_that_is_shut_down(self):
        self.ended_by(lambda editor: self.assertEqual(editor.end(), 0))


class NoPrograms(unittest.TestCase):
    def test_without_a_program_a_file_has_symbols_and_a_word_of_it(self):
        editor = Editor(environment={"REMDUSKA": "/nowhere/remduska"})
        editor.open(WRONG, RIGHT)
        (found,) = editor.settled(WRONG)
        self.assertEqual((found["code"], "is no program" in found["message"]), ("unreadable", True))
        names = [it["name"] for it in editor.ask("textDocument/documentSymbol", {"textDocument": {"uri": WRONG}})]
        self.assertEqual(names, ["f", "one", "two"])
        self.assertEqual(editor.end(), 0)


if __name__ == "__main__":
    unittest.main()
