"""What the language server answers: each request of the protocol that asks for something, in terms of the open files."""
from __future__ import annotations

import os
import pathlib
import re
from typing import Any, Optional

from . import features
from .buffers import Document, one_point, path_of
from .client import Refused
from .database import Base, Failed
from .features import KINDS
from .streams import Streams

REFUSED, INVALID_PARAMETERS = -32803, -32602
# What asks for something at a position, and in a range.
AT_POSITION = {f"textDocument/{name}" for name in ("hover", "completion", "prepareRename", "rename", "definition", "references")}
IN_RANGE = {f"textDocument/{name}" for name in ("inlayHint", "semanticTokens/range", "codeAction")}


def checked(method: str, params: Any) -> dict:
    """The parameters of a message, if they are some of the protocol: the document, the positions and the ranges that it names."""
    if params is None:
        params = {}
    if not isinstance(params, dict):
        raise Failed(INVALID_PARAMETERS, "the parameters have no names")
    if method.startswith("textDocument/"):
        document = params.get("textDocument")
        if not isinstance(document, dict) or not isinstance(document.get("uri"), str):
            raise Failed(INVALID_PARAMETERS, "no textDocument is named")
    needed = ["position"] if method in AT_POSITION else ["range"] if method in IN_RANGE else []
    for name in needed:
        found = params.get(name)
        places = [found.get(side) for side in ("start", "end")] if name == "range" and isinstance(found, dict) else [found]
        if not all(map(is_position, places)):
            raise Failed(INVALID_PARAMETERS, f"no {name} is named")
    return params


def is_position(value: Any) -> bool:
    """Whether a value is a position of the protocol: a line and a character, from 0."""
    if not isinstance(value, dict):
        return False
    return all(isinstance(value.get(name), int) and value[name] >= 0 for name in ("line", "character"))


class Answers(Streams):
    """The requests, over the open files by their paths, the database of each by its path, and the databases."""

    def __init__(self) -> None:
        super().__init__()
        self.documents: dict = {}
        self.owners: dict = {}
        self.bases: dict = {}
        self.shows_related = False

    def uri(self, path: str) -> str:
        """The URI of a file: the one that the client gave it, if it did."""
        return self.documents[path].uri if path in self.documents else pathlib.Path(path).as_uri()

    def publish(self, path: str, marks: list) -> None:
        """Shows the diagnostics of a file."""
        document = self.documents.get(path)
        version = {"version": document.version} if document and document.version is not None else {}
        self.notify("textDocument/publishDiagnostics", {"uri": self.uri(path), **version, "diagnostics": marks})

    def owner(self, document: Document) -> Optional[Base]:
        """The database of a file."""
        return self.owners.get(document.path)

    def document(self, params: dict) -> Optional[Document]:
        """The open file that is meant, or None."""
        return self.documents.get(path_of(params["textDocument"]["uri"]))

    def settle(self, base: Base) -> None:
        """Looks at a database, whatever is wrong with it."""
        raise NotImplementedError

    def flush(self) -> None:
        """Looks at all that is due, and at what that makes due."""
        for _ in range(8):
            for base in [*self.bases.values()]:
                if base.due is not None:
                    self.settle(base)

    def settled(self, params: dict) -> tuple:
        """The database of a file with what was typed, and the word at a position with its beginning; or None."""
        document = self.document(params)
        self.flush()
        base = document and self.owner(document)
        if not base or not base.session:
            return None, None, None
        text, at = document.text, document.text.byte(params["position"])
        row, column = text.row(at)
        line = text.line(row)[1]
        begin = len(re.split(rb"[ \t\n\f\r]", line[:column])[-1])
        word = re.compile(rb"[^ \t\n\f\r]*").match(line, column - begin)
        place = {"start": text.position(row, word.start()), "end": text.position(row, word.end())}
        return base, os.fsdecode(word[0]), place

    def placed(self, params: dict) -> tuple:
        """The database and the open file of a request, with what was typed; or nothing for both."""
        document = self.document(params)
        self.flush()
        base = document and self.owner(document)
        return (base, document) if base and base.session else (None, None)

    def hover(self, params: dict) -> Optional[dict]:
        """What is known of the label, or the step of a proof, that is pointed at."""
        base, word, place = self.settled(params)
        found = features.hover(base, self.document(params), params["position"]) if base and word else None
        return {"contents": {"kind": "markdown", "value": found}, "range": place} if found else None

    def completion(self, params: dict) -> Optional[dict]:
        """The labels that may be named in a proof."""
        base, document = self.placed(params)
        return features.completion(base, document, params["position"]) if base else None

    def document_symbols(self, params: dict) -> list:
        """The assertions of a file."""
        base, document = self.placed(params)
        return features.document_symbols(base, document) if base else []

    def folds(self, params: dict) -> list:
        """What can be folded."""
        document = self.document(params)
        return features.folds(document) if document else []

    def lenses(self, params: dict) -> list:
        """How many proofs name each assertion of a file."""
        base, document = self.placed(params)
        return features.lenses(base, document) if base else []

    def inlays(self, params: dict) -> list:
        """The same, in a part of a file."""
        base, document = self.placed(params)
        return features.inlays(base, document, params["range"]) if base else []

    def tokens(self, params: dict) -> dict:
        """The kinds of the words of a file, or of a part of it."""
        base, document = self.placed(params)
        return {"data": features.tokens(base, document, params.get("range")) if base else []}

    def actions(self, params: dict) -> list:
        """What mends what is shown."""
        base, document = self.placed(params)
        return features.actions(base, document, params["range"]) if base else []

    def prepare_rename(self, params: dict) -> Optional[dict]:
        """The label that can be renamed at a place."""
        base, word, place = self.settled(params)
        return {"range": place, "placeholder": word} if base and word in base.live().declared else None

    def rename(self, params: dict) -> dict:
        """The edits that rename a label."""
        document = self.document(params)
        owner = document and self.owner(document)
        # A file that is not open may be another one on disk by now.
        if owner and owner.session and owner.moved():
            owner.soon(0.0)
        base, word, _ = self.settled(params)
        if not base:
            raise Failed(REFUSED, "there is no session of this file")
        try:
            return features.renamed(base, word, params["newName"] if isinstance(params.get("newName"), str) else "")
        except ValueError as error:
            raise Failed(REFUSED, str(error)) from None

    def definition(self, params: dict) -> Optional[dict]:
        """Where the statement with a label is, or the file of an inclusion begins."""
        base, word, _ = self.settled(params)
        if not base or not word:
            return None
        if word in base.files:
            return {"uri": self.uri(base.files[word].path), "range": one_point({"line": 0, "character": 0})}
        return base.asked(base.location, word)

    def references(self, params: dict) -> Optional[list]:
        """Where the users of an assertion are."""
        base, word, _ = self.settled(params)
        if not base or not word:
            return None
        try:
            users = base.asked(base.session.users, word)
        except Refused:
            return []
        if (params.get("context") or {}).get("includeDeclaration"):
            users = [word, *users]
        return [found for found in map(base.location, users) if found]

    def symbols(self, params: dict) -> list:
        """The labels that hold a text: first the one that is it, then those that begin with it."""
        query, found = str(params.get("query", "")), []
        self.flush()
        for base in self.bases.values() if not query or query.split() == [query] else ():
            for label, (_, _, kind, _) in base.labels().items():
                if query.lower() in label.lower():
                    found.append((label != query, not label.startswith(query), label, KINDS[kind], base))
        first = sorted(found, key=lambda each: each[:3])[:500]
        return [{"name": label, "kind": kind, "containerName": name, "location": base.location(label)} for _, _, label, (name, kind), base in first]
