"""A language server for Metamath databases: mmkeep-lsp [--program PROGRAM] [--top FILE]. clients/editor/README.md says more.

It speaks the Language Server Protocol on standard input and output, and holds a session of mmkeep for each database of
which a file is open. No file is ever written but in a folder of its own under the temporary one.
"""
from __future__ import annotations

import json
import os
import pathlib
import queue
import sys
import threading
import time
from typing import Any, NoReturn, Optional

from . import __version__
from .answers import Answers, checked
from .buffers import Document, fed_behind, path_of
from .client import program as program_named
from .database import INTERNAL, Base, Failed
from .features import TOKENS
from .programs import guarded
from .sources import on_disk
from .streams import ERROR

# Seconds for which changes are gathered, and those that are spent at once on what can wait.
DELAY, SLICE = 0.1, 0.03
METHOD_NOT_FOUND, NOT_INITIALIZED, INVALID, CANCELLED = -32601, -32002, -32600, -32800


class Server(Answers):
    """The server: the open files, and their databases."""

    def __init__(self, program: str, top: Optional[str]) -> None:
        super().__init__()
        self.program, self.top, self.delay = program, top, DELAY
        self.began = self.ended = self.watches = False
        self.root = os.getcwd()

    # What comes.

    def run(self) -> None:
        """Handles messages, and looks at what changed, to the end."""
        threading.Thread(target=self.read, daemon=True).start()
        while True:
            due = min((base.due for base in self.bases.values() if base.due is not None), default=None)
            try:
                wait = None if due is None else max(0.0, due - time.monotonic())
                waits = due is None and self.idles()
                message = self.incoming.get(timeout=wait) if wait != 0.0 and not waits else self.incoming.get_nowait()
            except queue.Empty:
                self.look()
                continue
            if message is None:
                self.leave(0 if self.ended else 1)
            self.handle(message)

    def idles(self) -> bool:
        """Does some of what can wait, if no message waits. Answers whether more is to be done."""
        if not self.incoming.empty():
            return True
        for base in [*self.bases.values()]:
            try:
                if base.idle(SLICE):
                    return True
            except Exception as error:  # What nobody foresaw is reported, and not tried again.
                base.owes = False
                base.say(f"internal error: {type(error).__name__}: {error}")
        return False

    def look(self) -> None:
        """Looks at each database that is due."""
        now = time.monotonic()
        for base in [*self.bases.values()]:
            if base.due is not None and base.due <= now:
                self.settle(base)

    def settle(self, base: Base) -> None:
        """Looks at a database, whatever is wrong with it."""
        try:
            base.settle()
            self.part(base)
        except Exception as error:  # What nobody foresaw is reported, and the session is begun anew.
            base.close()
            base.renew, base.due, base.first = True, None, None
            base.say(f"internal error: {type(error).__name__}: {error}")

    def handle(self, message: dict) -> None:
        """Handles a request or a notice."""
        number, method, asked = message.get("id"), message["method"], "id" in message
        try:
            result = self.handled(number, method, message.get("params"), asked)
            if asked:
                self.send({"id": number, "result": result})
        except Failed as failed:
            if asked:
                self.send({"id": number, "error": {"code": failed.code, "message": str(failed)}})
        except Exception as error:  # A message that is none of the protocol.
            if asked:
                self.send({"id": number, "error": {"code": INTERNAL, "message": f"{type(error).__name__}: {error}"}})
            else:
                self.message(ERROR, f"{method}: {type(error).__name__}: {error}")

    def handled(self, number: Any, method: Any, params: Any, asked: bool) -> Any:
        """What a request or a notice answers."""
        if asked and str(number) in self.cancelled:
            self.cancelled.discard(str(number))
            raise Failed(CANCELLED, "cancelled")
        if not self.began and method not in ("initialize", "exit"):
            raise Failed(NOT_INITIALIZED, "not initialized")
        if self.ended and method != "exit":
            raise Failed(INVALID, "shut down")
        handler = HANDLERS.get(method) if isinstance(method, str) else None
        if handler is None:
            raise Failed(METHOD_NOT_FOUND, f"there is no method {method}")
        return handler(self, checked(method, params))

    def leave(self, status: int) -> NoReturn:
        """Ends the sessions, and the server."""
        for base in self.bases.values():
            if base.session:
                base.session.kill()
        os._exit(status)

    # The life of the server.

    def initialize(self, params: dict) -> dict:
        """What it can."""
        self.began = True
        self.shows_progress = bool(((params.get("capabilities") or {}).get("window") or {}).get("workDoneProgress"))
        workspace = (params.get("capabilities") or {}).get("workspace") or {}
        shown = ((params.get("capabilities") or {}).get("textDocument") or {}).get("publishDiagnostics") or {}
        self.shows_related = bool(shown.get("relatedInformation"))
        self.watches = bool((workspace.get("didChangeWatchedFiles") or {}).get("dynamicRegistration"))
        folders = params.get("workspaceFolders") or []
        uri = params.get("rootUri") or (folders[0]["uri"] if folders else None)
        self.root = (path_of(uri) if uri else params.get("rootPath")) or self.root
        self.configure(params.get("initializationOptions"))
        capabilities = {
            "textDocumentSync": {"openClose": True, "change": 2, "save": {"includeText": False}},
            "hoverProvider": True,
            "definitionProvider": True,
            "referencesProvider": True,
            "workspaceSymbolProvider": True,
            "documentSymbolProvider": True,
            "foldingRangeProvider": True,
            "completionProvider": {"triggerCharacters": []},
            "renameProvider": {"prepareProvider": True},
            "codeActionProvider": {"codeActionKinds": ["quickfix"]},
            "codeLensProvider": {"resolveProvider": False},
            "inlayHintProvider": True,
            "semanticTokensProvider": {"legend": {"tokenTypes": TOKENS, "tokenModifiers": []}, "full": True, "range": True},
        }
        return {"capabilities": capabilities, "serverInfo": {"name": "mmkeep-lsp", "version": __version__}}

    def initialized(self, _: Any) -> None:
        """Asks for notices of files that change."""
        if self.watches:
            options = {"watchers": [{"globPattern": "**/*.mm"}, {"globPattern": "**/mmkeep.json"}]}
            registration = {"id": "mmkeep-files", "method": "workspace/didChangeWatchedFiles", "registerOptions": options}
            self.ask("client/registerCapability", {"registrations": [registration]})

    def configure(self, settings: Any) -> None:
        """Takes settings: the program, the top file, and how long changes are gathered."""
        settings = settings if isinstance(settings, dict) else {}
        given = {name: value for name, value in settings.items() if isinstance(value, str) and value}
        self.program, self.top = given.get("program", self.program), given.get("top", self.top)
        if isinstance(settings.get("delay"), (int, float)):
            self.delay = max(0.0, float(settings["delay"]))

    def reconfigured(self, params: dict) -> None:
        """Takes other settings."""
        settings = params.get("settings")
        self.configure(settings.get("mmkeep") if isinstance(settings, dict) else None)
        self.regroup()

    def regroup(self) -> None:
        """Begins all anew."""
        for base in self.bases.values():
            base.close()
            base.clear()
        self.bases, self.owners = {}, {}
        for document in self.documents.values():
            self.assign(document)

    def shutdown(self, _: Any) -> None:
        """Ends the sessions."""
        for base in self.bases.values():
            base.close()
        self.ended = True

    def exit(self, _: Any) -> None:
        """Ends."""
        self.leave(0 if self.ended else 1)

    # Files and their databases.

    def configured(self, path: str) -> tuple:
        """The folder, top file and program of the database of a file: by a `mmkeep.json`, by settings, or the file itself."""
        for folder in pathlib.Path(path).parents:
            text = on_disk(folder / "mmkeep.json")
            if text is not None:
                try:
                    found = json.loads(text)
                    program = found.get("program")
                    return str(folder), str(found["top"]), os.path.join(folder, program) if program and "/" in program else program
                except (ValueError, KeyError, TypeError, AttributeError):
                    self.message(ERROR, f"{folder / 'mmkeep.json'} is not of the form {{\"top\": \"FILE\"}}, so it is passed over")
        if self.top:
            return self.root, self.top, None
        return os.path.dirname(path), os.path.basename(path), None

    def assign(self, document: Document, own: bool = False) -> None:
        """Gives a file to a database that has it, or to one that is begun for it."""
        path = document.path
        base = next((base for base in self.bases.values() if not own and any(held.path == path for held in base.files.values())), None)
        if not base:
            folder, top, program = self.configured(path)
            if own:
                folder, top = os.path.dirname(path), os.path.basename(path)
            base = self.bases.get((folder, top))
            if not base:
                base = self.bases[folder, top] = Base(self, folder, top, program)
        self.owners[path] = base
        base.join(document)

    def part(self, base: Base) -> None:
        """Gives each file that turns out to be in no file of its database to one of its own, and takes in those that are."""
        if not base.session:
            return
        has, top = {held.path for held in base.files.values()}, base.path(base.alias)
        for path, owner in [*self.owners.items()]:
            if owner is base and path not in has and path != top:
                self.assign(self.documents[path], own=True)
            elif owner is not base and path in has and owner.path(owner.alias) == path and not any(held.path == top for held in owner.files.values()):
                self.owners[path] = base
                self.documents[path].marks = base.kept.get(path, [])
                self.drop(owner)
                base.soon(0.0)

    def drop(self, base: Base) -> None:
        """Ends a database of which no file is open."""
        if base not in self.owners.values():
            base.close()
            base.clear()
            self.bases = {key: other for key, other in self.bases.items() if other is not base}

    def open(self, params: dict) -> None:
        """A file is opened."""
        path = path_of(params["textDocument"]["uri"])
        if path:
            document = self.documents[path] = Document(params["textDocument"], path)
            self.assign(document)

    def change(self, params: dict) -> None:
        """A buffer is changed."""
        document = self.document(params)
        if not document:
            return
        for change in params["contentChanges"]:
            fed = fed_behind(document.text)
            begin, end, length = document.change(change)
            for base in self.bases.values():
                base.note(document, begin, end, length, fed)
        document.version = params["textDocument"].get("version", document.version)
        for base in self.bases.values():
            if base is self.owner(document) or not base.session:
                base.soon()

    def saved(self, params: dict) -> None:
        """A file is saved: one that could not be taken may be taken now."""
        document = self.document(params)
        if document:
            self.owner(document).soon()

    def watched(self, params: dict) -> None:
        """Files are changed on disk."""
        if any(str(change.get("uri", "")).endswith("mmkeep.json") for change in params.get("changes", [])):
            self.regroup()
        for base in self.bases.values():
            base.soon()

    def close(self, params: dict) -> None:
        """A file is closed: what is on disk counts from now on."""
        document = self.document(params)
        if not document:
            return
        base = self.owners.pop(document.path)
        del self.documents[document.path]
        base.leave(document)
        self.drop(base)
        if base not in self.bases.values():
            # A file that was in none of its database's may be in one that is on disk.
            for other in [*self.documents.values()]:
                if (base.folder, base.top) == self.configured(other.path)[:2]:
                    self.drop(self.owners.pop(other.path))
                    self.assign(other)
            self.notify("textDocument/publishDiagnostics", {"uri": document.uri, "diagnostics": []})


HANDLERS = {
    "initialize": Server.initialize,
    "initialized": Server.initialized,
    "shutdown": Server.shutdown,
    "exit": Server.exit,
    "workspace/didChangeConfiguration": Server.reconfigured,
    "workspace/didChangeWatchedFiles": Server.watched,
    "workspace/symbol": Server.symbols,
    "textDocument/didOpen": Server.open,
    "textDocument/didChange": Server.change,
    "textDocument/didSave": Server.saved,
    "textDocument/didClose": Server.close,
    "textDocument/hover": Server.hover,
    "textDocument/completion": Server.completion,
    "textDocument/documentSymbol": Server.document_symbols,
    "textDocument/foldingRange": Server.folds,
    "textDocument/codeLens": Server.lenses,
    "textDocument/inlayHint": Server.inlays,
    "textDocument/semanticTokens/full": Server.tokens,
    "textDocument/semanticTokens/range": Server.tokens,
    "textDocument/codeAction": Server.actions,
    "textDocument/prepareRename": Server.prepare_rename,
    "textDocument/rename": Server.rename,
    "textDocument/definition": Server.definition,
    "textDocument/references": Server.references,
}


@guarded
def main() -> int:
    """Serves the client on standard input and output to its end."""
    words, options = sys.argv[1:], {}
    while len(words) >= 2 and words[0] in ("--program", "--top"):
        options[words[0]], words = words[1], words[2:]
    if words and words != ["--stdio"]:
        sys.exit("usage: mmkeep-lsp [--program PROGRAM] [--top FILE]")
    Server(options.get("--program") or program_named(), options.get("--top")).run()
    return 0
