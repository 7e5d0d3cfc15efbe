"""The server: takes what the editor sends, and answers. It has one thread; what takes long is done by processes beside it."""
import os
import select
import signal
import sys

from . import commands, completion, edits, outline, shown
from .client import Client
from .documents import Document, path_of, uri_of
from .engine import Settings
from .live import Lives
from .messages import (INTERNAL_ERROR, INVALID_PARAMS, INVALID_REQUEST, METHOD_NOT_FOUND, NOT_INITIALIZED, PIECE, Broken, Fault, Incoming,
                       Outgoing)
from .workers import Workers

INCREMENTAL = 2
MOST_FILES = 500            # so many files of a workspace are looked at for their symbols
LARGEST = 1_048_576         # and none with more bytes
MOST_SECONDS = 1_000_000


def capabilities():
    """What the server can do, as the protocol has it."""
    return {
        "positionEncoding": "utf-16",
        "textDocumentSync": {"openClose": True, "change": INCREMENTAL, "save": {"includeText": False}},
        "hoverProvider": True, "definitionProvider": True, "declarationProvider": True, "referencesProvider": True,
        "documentHighlightProvider": True, "documentSymbolProvider": True, "workspaceSymbolProvider": True,
        "renameProvider": {"prepareProvider": True}, "foldingRangeProvider": True, "inlayHintProvider": True,
        "completionProvider": {"triggerCharacters": [".", ":"]}, "codeLensProvider": {"resolveProvider": False},
        "codeActionProvider": {"codeActionKinds": ["quickfix"]}, "executeCommandProvider": {"commands": list(commands.NAMES)},
        "semanticTokensProvider": {"legend": {"tokenTypes": list(outline.TYPES), "tokenModifiers": list(outline.MODIFIERS)},
                                   "full": True, "range": True},
    }


class Server:
    """A server for one editor. `requests` has what answers a request by its method, and `notes` what takes a notification."""

    def __init__(self, incoming, outgoing):
        self.descriptor, self.incoming, self.outgoing = incoming, Incoming(), Outgoing(outgoing)
        self.client, self.workers = Client(self.outgoing), Workers()
        self.lives = Lives(self.workers, self)
        self.state, self.status, self.folders, self.on_disk = "new", None, [], {}
        self.requests = {
            "initialize": self.initialize, "shutdown": self.shutdown,
            "textDocument/hover": self.hover, "textDocument/definition": self.definition, "textDocument/declaration": self.definition,
            "textDocument/references": self.references, "textDocument/documentHighlight": self.highlights,
            "textDocument/documentSymbol": lambda it: outline.document_symbols(self.document(it)),
            "workspace/symbol": self.workspace_symbols, "textDocument/rename": self.rename,
            "textDocument/prepareRename": lambda it: edits.prepared_rename(self.document(it), it["position"]),
            "textDocument/completion": lambda it: completion.completions(self.document(it), it["position"]),
            "textDocument/foldingRange": lambda it: outline.folding_ranges(self.document(it)),
            "textDocument/semanticTokens/full": lambda it: {"data": outline.semantic_tokens(self.document(it))},
            "textDocument/semanticTokens/range": self.semantic_tokens, "textDocument/inlayHint": self.inlay_hints,
            "textDocument/codeLens": lambda it: shown.code_lenses(self.document(it), self.live(it)),
            "textDocument/codeAction": self.code_actions, "workspace/executeCommand": self.execute,
        }
        self.notes = {
            "initialized": self.initialized, "exit": self.exit, "textDocument/didOpen": self.opened, "textDocument/didChange": self.changed,
            "textDocument/didClose": self.closed, "workspace/didChangeConfiguration": self.configured,
            "window/workDoneProgress/cancel": self.cancelled,
        }

    # ---- the loop

    def run(self):
        """Serves until the editor ends it or goes away. Returns the status."""
        try:
            while self.status is None:
                until = self.lives.go()
                self.wait(until)
        except (Broken, BrokenPipeError) as why:
            print(f"remduska lsp: {why}", file=sys.stderr)
            self.status = 1
        finally:
            self.workers.end()
        return self.status

    def wait(self, until):
        """Waits for the editor, for a process, or for a time, and takes what comes."""
        from time import monotonic
        left = None if until is None else max(0.0, until - monotonic())
        ready = select.select([self.descriptor, *self.workers.connections()], [], [], left)[0]
        for it in ready:
            if it != self.descriptor and it in self.workers.connections():
                self.workers.hear(it)
        if self.descriptor in ready:
            more = os.read(self.descriptor, PIECE)
            if not more:
                self.status = 0 if self.state == "shut" else 1
            for message in self.incoming.take(more):
                self.take(message)

    def take(self, message):
        """Takes a message: a request, a notification or an answer."""
        if isinstance(message, Fault):
            self.outgoing.refuse(None, message)
        elif "method" not in message:
            self.client.answered(message)
        elif "id" in message:
            self.answer(message)
        else:
            self.note(message)

    def answer(self, message):
        """Answers a request."""
        number, method = message["id"], message["method"]
        try:
            if self.state == "new" and method != "initialize":
                raise Fault(NOT_INITIALIZED, "the server is not initialized")
            if self.state == "shut":
                raise Fault(INVALID_REQUEST, "the server is shut down")
            if method not in self.requests:
                raise Fault(METHOD_NOT_FOUND, f"there is no method {method}")
            self.outgoing.answer(number, self.requests[method](message.get("params") or {}))
        except Fault as fault:
            self.outgoing.refuse(number, fault)
        except BrokenPipeError:
            raise
        except (KeyError, TypeError, IndexError, AttributeError) as fault:
            self.outgoing.refuse(number, Fault(INVALID_PARAMS, f"{method}: {type(fault).__name__}: {fault}"))
        except Exception as fault:      # what these scripts did wrong ends no session
            self.outgoing.refuse(number, Fault(INTERNAL_ERROR, f"{method}: {type(fault).__name__}: {fault}"))

    def note(self, message):
        """Takes a notification. Of one that is not as it should be a line goes to the error stream."""
        method = message["method"]
        if method not in self.notes or self.state != "ready" and method != "exit":
            return
        try:
            self.notes[method](message.get("params") or {})
        except (Fault, KeyError, TypeError, IndexError, AttributeError, ValueError) as fault:
            print(f"remduska lsp: {method}: {type(fault).__name__}: {fault}", file=sys.stderr)

    # ---- the begin and the end

    def initialize(self, params):
        if self.state != "new":
            raise Fault(INVALID_REQUEST, "the server is initialized already")
        self.client.capabilities = params.get("capabilities") or {}
        folders = [it["uri"] for it in params.get("workspaceFolders") or []] or [it for it in [params.get("rootUri")] if it]
        self.folders = [path_of(it) for it in folders]
        self.configure(params.get("initializationOptions"))
        self.state = "ready"
        return {"capabilities": capabilities(), "serverInfo": {"name": "remduska"}}

    def initialized(self, params):
        if self.client.can("workspace", "configuration"):
            self.client.ask("workspace/configuration", {"items": [{"section": "remduska"}]}, lambda it: self.configure(it[0] if it else None))

    def shutdown(self, params):
        self.state = "shut"
        for live in self.lives.of.values():
            self.lives.stop(live)

    def exit(self, params):
        self.status = 0 if self.state == "shut" else 1

    def configured(self, params):
        settings = params.get("settings")
        if isinstance(settings, dict) and settings:
            self.configure(settings.get("remduska", settings))
        else:
            self.initialized(params)

    def configure(self, given):
        """Takes the settings of a user: those that are as they should be."""
        if not isinstance(given, dict):
            return
        found = self.lives.settings._asdict()
        seconds, smoke, errors = (given.get(it) for it in Settings._fields)
        if isinstance(seconds, (int, float)) and not isinstance(seconds, bool) and 0 < seconds <= MOST_SECONDS:
            found["seconds"] = float(seconds)
        if isinstance(smoke, bool):
            found["smoke"] = smoke
        if isinstance(errors, int) and not isinstance(errors, bool) and errors >= 0:
            found["errors"] = errors
        self.lives.configure(Settings(**found))

    # ---- files

    def live(self, params):
        found = self.lives.of.get(params["textDocument"]["uri"])
        if found is None:
            raise Fault(INVALID_PARAMS, f"{params['textDocument']['uri']} is not open")
        return found

    def document(self, params) -> Document:
        return self.live(params).document

    def opened(self, params):
        it = params["textDocument"]
        if it["uri"] in self.lives.of:
            self.lives.close(it["uri"])
        self.lives.open(Document(it["uri"], it.get("version", 0), it["text"]))

    def changed(self, params):
        document = self.document(params)
        document.change(params["textDocument"].get("version"), params["contentChanges"])
        last = params["contentChanges"][-1] if params["contentChanges"] else {}
        cursor = document.token_at(last["range"]["start"]) if last.get("range") else None
        self.lives.change(document, cursor)

    def closed(self, params):
        uri = params["textDocument"]["uri"]
        self.live(params)
        self.lives.close(uri)
        self.client.ended(uri)
        self.client.no_diagnostics(uri)

    def cancelled(self, params):
        """The user cancels the work at a file."""
        uri = self.client.file_of_progress(params["token"])
        if uri is not None:
            self.lives.stop(self.lives.of[uri])
            self.client.ended(uri)

    # ---- what is known of files, as it becomes known

    def show(self, live):
        self.client.diagnostics(live.document, live.findings())
        if live.looking:
            self.client.reported(live.document.uri, len(live.verdicts()), len(live.units))
        self.client.refresh()

    def began(self, live):
        self.client.began(live.document.uri, f"checking {os.path.basename(live.document.path)}")

    def ended(self, live):
        self.client.ended(live.document.uri)

    # ---- requests

    def location(self, document, n):
        return {"uri": document.uri, "range": document.range_of(n)}

    def meant(self, params):
        document = self.document(params)
        n = document.token_at(params["position"])
        return document, document.names.meant.get(n) if n is not None else None

    def hover(self, params):
        return shown.hover(self.document(params), self.live(params), params["position"])

    def definition(self, params):
        document, found = self.meant(params)
        return self.location(document, found.at) if found is not None else None

    def references(self, params):
        document, found = self.meant(params)
        whole = (params.get("context") or {}).get("includeDeclaration", True)
        uses = document.names.uses[found] if found is not None else []
        return [self.location(document, it) for it in uses if whole or it != found.at]

    def highlights(self, params):
        document, found = self.meant(params)
        return [{"range": document.range_of(it)} for it in document.names.uses[found]] if found is not None else []

    def rename(self, params):
        return edits.rename(self.client, self.document(params), params["position"], params["newName"])

    def semantic_tokens(self, params):
        document, range_ = self.document(params), params["range"]
        begin, end = document.text.byte_of_position(range_["start"]), document.text.byte_of_position(range_["end"])
        return {"data": outline.semantic_tokens(document, begin, end)}

    def inlay_hints(self, params):
        range_ = params["range"]
        return shown.inlay_hints(self.document(params), self.live(params), range_["start"]["line"], range_["end"]["line"])

    def code_actions(self, params):
        only = (params.get("context") or {}).get("only")
        return edits.code_actions(self.client, self.document(params), self.live(params), params["range"], only)

    def execute(self, params):
        return commands.execute(self, params["command"], params.get("arguments"))

    def workspace_symbols(self, params):
        documents = [it.document for it in self.lives.of.values()]
        open_ = {it.path for it in documents}
        documents += [it for it in self.files_of_folders() if it.path not in open_]
        return outline.workspace_symbols(documents, params.get("query", ""))

    def files_of_folders(self):
        """The files of Viper in the folders of the workspace that are not too large, so many at most."""
        count = 0
        for folder in self.folders:
            for path, folders, names in os.walk(folder):
                folders[:] = sorted([it for it in folders if not it.startswith(".")])
                for name in sorted(names):
                    found = self.file_on_disk(os.path.join(path, name)) if name.endswith((".vpr", ".sil")) else None
                    if found is not None:
                        yield found
                        count += 1
                    if count >= MOST_FILES:
                        return

    def file_on_disk(self, path):
        """A file that is not open, which is read again where it has changed."""
        try:
            about = os.stat(path)
            known = self.on_disk.get(path)
            if known is None or known[0] != (about.st_mtime_ns, about.st_size):
                if about.st_size > LARGEST:
                    return None
                with open(path, "rb") as it:
                    known = (about.st_mtime_ns, about.st_size), Document(uri_of(path), None, it.read().decode("utf-8", "replace"))
                self.on_disk[path] = known
        except OSError:
            return None
        return known[1]


def main():
    """Serves on the standard streams, and returns the status."""
    def stop(number, frame):
        raise SystemExit(128 + number)

    os.set_blocking(0, True)
    os.set_blocking(1, True)
    incoming, outgoing = os.dup(0), os.dup(1)
    os.dup2(2, 1)       # what is printed by mistake is no message
    server = Server(incoming, outgoing)
    for number in (signal.SIGTERM, signal.SIGINT, signal.SIGHUP):
        signal.signal(number, stop)
    return server.run()
