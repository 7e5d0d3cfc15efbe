"""An editor for tests: it starts a server, sends what it is told to send, and waits for what comes."""
import os
import select
import shutil
import subprocess
import sys
import time

from verifying.language_server.messages import Incoming, Outgoing
from verifying.program import TOP, VARIABLES

READY = all(os.environ.get(it) for it in VARIABLES.values()) and shutil.which("z3") is not None
WHY_NOT = f"needs z3 and the programs that {', '.join(VARIABLES.values())} name"
PATIENCE = float(os.environ.get("PATIENCE", "60"))     # seconds for which something is waited for
PAUSE = 0.7         # seconds behind a change in which a server has begun to look at it
ALL = {
    "textDocument": {"publishDiagnostics": {"relatedInformation": True, "tagSupport": {"valueSet": [1, 2]}}},
    "window": {"workDoneProgress": True, "showDocument": {"support": True}},
    "workspace": {"codeLens": {"refreshSupport": True}, "inlayHint": {"refreshSupport": True}, "workspaceEdit": {"documentChanges": True}},
}


class Editor:
    """A server and what it sent: `told` has the notifications and requests of the server, in order."""

    def __init__(self, capabilities=None, options=None, folders=(), environment=None):
        self.process = subprocess.Popen([sys.executable, os.path.join(TOP, "tools", "lsp")], stdin=subprocess.PIPE, stdout=subprocess.PIPE,
                                        stderr=subprocess.PIPE, env={**os.environ, **(environment or {})})
        self.incoming, self.outgoing = Incoming(), Outgoing(self.process.stdin.fileno())
        self.told, self.answers, self.versions, self.changed_at = [], {}, {}, 0.0
        self.initialized = self.ask("initialize", {
            "processId": os.getpid(), "rootUri": None, "capabilities": ALL if capabilities is None else capabilities,
            "initializationOptions": options, "workspaceFolders": [{"uri": f"file://{it}", "name": "it"} for it in folders]})
        self.outgoing.tell("initialized", {})

    # ---- what comes

    def hear(self, seconds):
        """Takes what comes within some time; False where nothing does."""
        if not select.select([self.process.stdout], [], [], seconds)[0]:
            return False
        more = os.read(self.process.stdout.fileno(), 1 << 16)
        if not more:
            raise EOFError(self.process.stderr.read().decode())
        for it in self.incoming.take(more):
            it["at"] = time.monotonic()
            if "method" in it:
                self.told.append(it)
                if "id" in it:
                    self.outgoing.answer(it["id"], [None] if it["method"] == "workspace/configuration" else None)
            else:
                self.answers[it["id"]] = it
        return True

    def until(self, holds, what="something", seconds=PATIENCE):
        end = time.monotonic() + seconds
        while not holds():
            if not self.hear(max(0.0, end - time.monotonic())) and time.monotonic() >= end:
                raise AssertionError(f"{what} did not come; what came last: {[it['method'] for it in self.told[-5:]]}")

    def answer(self, method, params):
        """The whole answer of a request."""
        number = self.outgoing.ask(method, params)
        self.until(lambda: number in self.answers, f"the answer of {method}")
        return self.answers.pop(number)

    def ask(self, method, params):
        """The result of a request."""
        found = self.answer(method, params)
        if "error" in found:
            raise AssertionError(f"{method}: {found['error']}")
        return found["result"]

    def of(self, method):
        return [it for it in self.told if it["method"] == method]

    # ---- files

    def open(self, uri, text):
        self.versions[uri], self.changed_at = 1, time.monotonic()
        self.outgoing.tell("textDocument/didOpen", {"textDocument": {"uri": uri, "languageId": "viper", "version": 1, "text": text}})

    def change(self, uri, *changes):
        self.versions[uri], self.changed_at = self.versions[uri] + 1, time.monotonic()
        self.outgoing.tell("textDocument/didChange", {"textDocument": {"uri": uri, "version": self.versions[uri]}, "contentChanges": list(changes)})

    def close(self, uri):
        self.outgoing.tell("textDocument/didClose", {"textDocument": {"uri": uri}})

    def published(self, uri):
        """What was told of a file last, of its version as it is; or None."""
        found = [it for it in self.of("textDocument/publishDiagnostics") if it["params"]["uri"] == uri]
        return found[-1] if found and found[-1]["params"].get("version") == self.versions.get(uri) else None

    def lenses(self, uri):
        return [it["command"]["title"] for it in self.ask("textDocument/codeLens", {"textDocument": {"uri": uri}})]

    def settled(self, uri, seconds=PATIENCE):
        """What is told of a file once all of its units have been looked at."""
        end = time.monotonic() + seconds
        while time.monotonic() < self.changed_at + PAUSE:
            self.hear(0.02)
        while time.monotonic() < end:
            diagnostics = self.published(uri)
            titles = self.lenses(uri) if diagnostics is not None else ["checking"]
            refused = diagnostics is not None and any(is_refusal(it) for it in diagnostics["params"]["diagnostics"])
            if refused or titles and not any("check" in it and "again" not in it or "sought" in it for it in titles):
                self.lenses(uri)    # behind another answer what was known with this one is told
                return self.published(uri)["params"]["diagnostics"]
            self.hear(0.02)
        raise AssertionError("the file was not looked at in time")

    def end(self):
        """Ends the server as an editor does, and returns its status."""
        self.ask("shutdown", None)
        self.outgoing.tell("exit", None)
        status = self.process.wait(PATIENCE)
        self.gone()
        return status

    def gone(self):
        for it in (self.process.stdin, self.process.stdout, self.process.stderr):
            it.close()


def is_refusal(diagnostic):
    return diagnostic["code"] in ("size", "bad-byte", "open-comment", "big-literal", "braces", "long-group", "unsupported", "syntax", "type",
                                  "weight", "unreadable")


def at(line, character):
    return {"line": line, "character": character}


def between(line, first, last, text, end_line=None):
    """A change of a line, or up to another one."""
    return {"range": {"start": at(line, first), "end": at(line if end_line is None else end_line, last)}, "text": text}


def place_of(text, word, number=0):
    """The position of the so-manieth place where a word stands in a text without wide characters."""
    found = -1
    for _ in range(number + 1):
        found = text.index(word, found + 1)
    return at(text.count("\n", 0, found), found - (text.rfind("\n", 0, found) + 1))
