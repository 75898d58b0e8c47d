"""The diagnostics of a database that the language server holds: what the report says of it, each finding at its place."""
from __future__ import annotations

import itertools
import re
from typing import TYPE_CHECKING, Iterable, Optional

from .buffers import SPACES
from .causes import Cause, causes
from .cutting import blank, labels
from .live import Live, Words
from .machine import together
from .reports import Finding

if TYPE_CHECKING:
    from .answers import Answers

# How bad a diagnostic is.
ERROR, WARNING = 1, 2
# Of so many proofs each says what its step expected; of more, the first one and their cause.
EACH = 10
# So many causes are told.
MOST = 30


class Diagnostics:
    """What is found of the files of a database, as an editor shows it.

    `kept` has the diagnostics of the last report by the paths of files, `faults` the first faults of texts by the names of files, and
    `published` what is shown."""

    def __init__(self, server: Answers) -> None:
        self.server, self.stale = server, False
        # The name of the top file, in commands of the session.
        self.alias = ""
        self.files: dict = {}
        self.findings: list = []
        self.faults: dict = {}
        self.kept: dict = {}
        self.published: dict = {}
        # What is known of pieces: their labels and outer statements, and the labels that their proofs name.
        self.known: dict = {}
        self.lists: dict = {}
        # Where each label is, and the labels of each piece.
        self.index: Optional[dict] = None
        self.cache: dict = {}

    def path(self, name: str) -> str:
        """The path of a file by its name."""
        raise NotImplementedError

    def live(self) -> Live:
        """What is known of the pieces of the session; all of it."""
        raise NotImplementedError

    def mark(self, more: dict, common: Iterable[tuple] = ()) -> None:
        """Makes the diagnostics of what was found, with what more is known of some, and of what many have in common."""
        self.kept = {}
        for path, mark in common:
            self.kept.setdefault(path, []).append(mark)
        for finding in self.findings:
            self.kept.setdefault(self.path(finding.place.file), []).append({**self.diagnostic(finding), **more.get(id(finding), {})})
        for document in self.server.documents.values():
            if self.server.owner(document) is self:
                document.marks = self.kept.get(document.path, [])

    def explain(self) -> None:
        """Adds to diagnostics what steps expected and got, what else is concerned, and the causes of many."""
        live, more, common = self.live(), {}, []
        for finding in self.findings:
            if finding.number == "F06" and finding.word in live.declared:
                more[id(finding)] = self.related({}, finding.word, "the label is declared here")
        for cause in itertools.islice(causes(self.findings, Words(self), live), MOST):
            for finding in cause.findings[: EACH if len(cause.findings) <= EACH else 1]:
                more[id(finding)] = self.more(live, finding)
            if len(cause.findings) > EACH and cause.place:
                common.append((self.path(cause.place.file), self.common(cause)))
        if more or common:
            self.mark(more, common)

    def more(self, live: Live, finding: Finding) -> dict:
        """What more is known of a wrong proof."""
        if finding.number < "P07":
            return {}
        lines, cited, lacks = live.wrong_step(finding)
        data = {"kind": "wrong", "label": finding.label, "word": None, "stale": False}
        if lacks:
            data["lacks"] = " ".join(f"$d {' '.join(each)} $." for each in together(lacks))
        found = {"message": "\n".join([f"{finding.label}: {finding.sentence()}", *lines]), "data": data}
        return self.related(found, cited, "it is declared here") if cited in live.declared else found

    def related(self, found: dict, label: str, text: str) -> dict:
        """A diagnostic that points to where a label is declared."""
        location = self.location(label)
        return {**found, "relatedInformation": [{"location": location, "message": f"{label}: {text}"}]} if location and self.server.shows_related else found

    def common(self, cause: Cause) -> dict:
        """The diagnostic of what many findings have in common."""
        start = {"line": cause.place.line - 1, "character": cause.place.column - 1}
        end = {"line": start["line"], "character": start["character"] + 1}
        document = self.server.documents.get(self.path(cause.place.file))
        if document:
            line = document.text.line(start["line"])[1]
            end = document.text.position(start["line"], re.compile(rb"[^ \t\n\f\r]*").match(line, start["character"]).end())
        data = {"kind": "cause", "label": None, "word": None, "stale": False}
        return {"range": {"start": start, "end": end}, "severity": ERROR, "source": "mmkeep", "message": cause.said, "data": data}

    def diagnostic(self, finding: Finding) -> dict:
        """The diagnostic of a finding."""
        document = self.server.documents.get(self.path(finding.place.file))
        row, column = finding.place.line - 1, finding.place.column - 1
        start = {"line": row, "character": column}
        end = {"line": row, "character": column + len(finding.word or "x")}
        if document:
            line = document.text.line(row)[1]
            word = re.compile(rb"[^ \t\n\f\r]*").match(line, column).end()
            inside = column and line[column - 1 : column].strip(SPACES) or word == column
            start = document.text.position(row, column)
            end = document.text.position(row, column + 1 if inside and finding.number != "T01" else max(word, column + 1))
        name = finding.label or finding.word
        said = f"{name}: {finding.sentence()}" if name else finding.sentence()
        severity = WARNING if finding.kind == "incomplete" else ERROR
        found = {"range": {"start": start, "end": end}, "severity": severity, "source": "mmkeep", "message": said}
        if finding.number:
            found["code"] = finding.number
        return {**found, "data": {"kind": finding.kind, "label": finding.label, "word": finding.word, "stale": False}}

    def publish(self) -> None:
        """Shows the diagnostics of all files: with each open one, those without any that had some."""
        shown = {**self.kept}
        for document in self.server.documents.values():
            if self.server.owner(document) is self:
                shown[document.path] = document.marks
        if self.stale:
            shown = {path: [stale(each) for each in marks] for path, marks in shown.items()}
        for name, findings in self.faults.items():
            faults = [self.diagnostic(finding) for finding in findings]
            shown[self.path(name)] = [*faults, *shown.get(self.path(name), [])]
        for path in {*shown, *self.published}:
            document = self.server.documents.get(path)
            if document and self.server.owner(document) is not self:
                continue
            marks = shown.get(path, [])
            if document or marks != self.published.get(path, []):
                self.server.publish(path, marks)
        self.published = {path: marks for path, marks in shown.items() if marks}

    def clear(self) -> None:
        """Takes back all that is shown."""
        for path in self.published:
            if path not in self.server.documents:
                self.server.publish(path, [])
        self.published = {}

    def labels(self) -> dict:
        """Where each label is: the file's name, the piece, the kind, and the first byte in it."""
        if self.index is None:
            self.index, cache = {}, {}
            for name, held in self.files.items():
                for number, piece in enumerate(held.load()):
                    found = cache[piece] = self.cache.get(piece) or labels(piece)
                    for label, kind, at in found:
                        self.index.setdefault(label, (name, number, kind, at))
            self.cache = cache
        return self.index

    def location(self, label: str) -> Optional[dict]:
        """The location of the statement with a label, or None."""
        found = self.labels().get(label)
        if not found:
            return None
        held = self.files[found[0]]
        start = held.position(found[1], found[3])
        end = {"line": start["line"], "character": start["character"] + len(label)}
        return {"uri": self.server.uri(held.path), "range": {"start": start, "end": end}}

    def statement(self, label: str) -> Optional[str]:
        """The text of a statement up to its proof, with spaces for comments."""
        found = self.labels().get(label)
        if not found:
            return None
        text = blank(self.files[found[0]].pieces[found[1]])
        end = min(at for at in (text.find(b"$.", found[3]) + 2, text.find(b"$=", found[3])) if at > 1)
        return text[found[3] : end].decode("latin-1").strip()


def stale(mark: dict) -> dict:
    """A diagnostic of before the last edits."""
    return {**mark, "message": f"{mark['message']} (stale: found before the text had its fault)", "data": {**mark["data"], "stale": True}}
