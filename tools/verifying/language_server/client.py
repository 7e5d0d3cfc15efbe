"""The editor on the other side: what it can do, and what it is told without having asked."""
import os
import shutil
import subprocess

from .findings import Finding

SEVERITIES = {"error": 1, "warning": 2, "note": 3}
UNNECESSARY = 1     # the tag of what has no use
ERROR, INFO = 1, 3  # kinds of messages


class Client:
    """What is told to the editor. `can` has what it said at the begin that it can do."""

    def __init__(self, outgoing):
        self.outgoing, self.capabilities, self.waiting, self.progress, self.count = outgoing, {}, {}, {}, 0

    def can(self, *names):
        """Whether the editor said that it can do something."""
        found = self.capabilities
        for it in names:
            found = found.get(it) if isinstance(found, dict) else None
        return bool(found)

    def ask(self, method, params, then=None):
        """Sends a request; `then` is called with its result."""
        self.waiting[self.outgoing.ask(method, params)] = then

    def answered(self, message):
        then = self.waiting.pop(message.get("id"), None)
        if then is not None and "error" not in message:
            then(message.get("result"))

    def message(self, kind, words):
        self.outgoing.tell("window/showMessage", {"type": kind, "message": words})

    # ---- diagnostics

    def diagnostics(self, document, findings):
        told = [self.diagnostic(document, it) for it in findings]
        self.outgoing.tell("textDocument/publishDiagnostics", {"uri": document.uri, "version": document.version, "diagnostics": told})

    def diagnostic(self, document, it: Finding):
        """What is told of a place, as the protocol has it."""
        found = {"range": document.range_of_place(it.line, it.column), "severity": SEVERITIES[it.severity], "code": it.code,
                 "source": "remduska", "message": it.message}
        if it.code == "unreached" and self.can("textDocument", "publishDiagnostics", "tagSupport"):
            found["tags"] = [UNNECESSARY]
        if it.notes and self.can("textDocument", "publishDiagnostics", "relatedInformation"):
            found["relatedInformation"] = [{"location": {"uri": document.uri, "range": document.range_of_place(line, column)},
                                            "message": words} for line, column, words in it.notes]
        elif it.notes:
            found["message"] += "".join([f"\n{line}:{column}: {words}" for line, column, words in it.notes])
        if it.helps:
            found["message"] += "".join([f"\nhelp: {help_.words}" for help_ in it.helps if help_.words not in it.message])
        return found

    def no_diagnostics(self, uri):
        self.outgoing.tell("textDocument/publishDiagnostics", {"uri": uri, "diagnostics": []})

    def refresh(self):
        """Has lenses and hints asked for again."""
        if self.can("workspace", "codeLens", "refreshSupport"):
            self.ask("workspace/codeLens/refresh", None)
        if self.can("workspace", "inlayHint", "refreshSupport"):
            self.ask("workspace/inlayHint/refresh", None)

    # ---- progress

    def began(self, uri, title):
        """Tells of work at a file that it begins."""
        if uri in self.progress or not self.can("window", "workDoneProgress"):
            return
        self.count += 1
        token = self.progress[uri] = f"remduska-{self.count}"
        self.ask("window/workDoneProgress/create", {"token": token})
        self.outgoing.tell("$/progress", {"token": token, "value": {"kind": "begin", "title": title, "cancellable": True, "percentage": 0}})

    def reported(self, uri, done, all_):
        if uri in self.progress:
            value = {"kind": "report", "message": f"{done} of {all_} units", "percentage": 100 * done // max(1, all_), "cancellable": True}
            self.outgoing.tell("$/progress", {"token": self.progress[uri], "value": value})

    def ended(self, uri):
        token = self.progress.pop(uri, None)
        if token is not None:
            self.outgoing.tell("$/progress", {"token": token, "value": {"kind": "end"}})

    def file_of_progress(self, token):
        return next((uri for uri, its in self.progress.items() if its == token), None)

    # ---- pages

    def show_page(self, uri):
        """Opens a page in the user's browser: by the editor, or where it cannot, by the desktop."""
        if self.can("window", "showDocument", "support"):
            self.ask("window/showDocument", {"uri": uri, "external": True, "takeFocus": True})
            return
        if shutil.which("xdg-open") and (os.environ.get("DISPLAY") or os.environ.get("WAYLAND_DISPLAY")):
            with open(os.devnull, "r+b") as nowhere:
                subprocess.Popen(["xdg-open", uri], stdin=nowhere, stdout=nowhere, stderr=nowhere, start_new_session=True)
            return
        self.message(INFO, f"the run is shown by {uri}")
