"""A database that the language server holds: its files, its session, and what is found of them.

The session has the pieces of the buffers: what is typed is gathered, cut, and sent as one batch of few edits; the report that follows
becomes the diagnostics. While a text has a fault, that is shown, and the last report is kept and marked stale. What the steps of wrong
proofs expected, and what many of them have in common, is worked out when nothing else is to be done, and shown then.
"""
from __future__ import annotations

import os
import re
import shutil
import time
from typing import TYPE_CHECKING, Any, Callable, Optional

from .buffers import SPACES, Document, Held, copies, stamp
from .client import Ended, Refused, Session
from .cutting import cut as cut_text
from .cutting import inclusions
from .diagnostics import Diagnostics
from .edits import edits
from .faults import SENTENCES
from .live import Live
from .reports import Counts, Finding, Place
from .sources import on_disk
from .streams import ERROR

if TYPE_CHECKING:
    from .server import Server

# Seconds for which changes are gathered at most; so many edits that a new session is begun sooner.
MOST, MANY = 1.0, 4000
INTERNAL = -32603


class Base(Diagnostics):
    """A database: its top file as it is named, the folder that names are opened from, and its session."""

    def __init__(self, server: Server, folder: str, top: str, program: Optional[str] = None) -> None:
        super().__init__(server)
        self.runs, self.folder, self.top, self.own_program = server, folder, top, program
        # A command's words have no space in them, and no byte that is no character.
        self.alias = top if re.fullmatch(r"[!-~]+", top) else "mmkeep-lsp-top.mm"
        self.session: Optional[Session] = None
        self.missing: dict = {}
        # When it is to be looked at, and when the first change came that was not looked at.
        self.due: Optional[float] = None
        self.first: Optional[float] = None
        self.renew, self.retried, self.owes = True, False, False
        self.said: Optional[str] = None
        self.counts: Optional[Counts] = None
        self.living: Optional[Live] = None

    def program(self) -> str:
        """The program that it runs."""
        return self.own_program or self.runs.program

    def join(self, document: Document) -> None:
        """Takes a file that is opened."""
        held = next((held for held in self.files.values() if held.path == document.path), None)
        if held and not held.document and held.stamp == stamp(held.path) and on_disk(held.path) == document.text.all():
            held.document = document
            held.take(*cut_text(document.text.all()))
            document.marks = self.kept.get(document.path, [])
        else:
            self.renew = True
        self.soon(0.0)

    def leave(self, document: Document) -> None:
        """Lets a file go that is closed."""
        held = next((held for held in self.files.values() if held.document is document), None)
        if held and not held.dirty and not self.stale and on_disk(held.path) == document.text.all():
            held.document, held.stamp = None, stamp(held.path)
            self.kept[document.path] = document.marks
        else:
            self.renew = True
        self.soon()

    def asked(self, question: Callable, label: str) -> Any:
        """An answer of the session; where it ends, that is reported."""
        try:
            return question(label)
        except Ended as ended:
            self.end(ended)
            raise Failed(INTERNAL, "the session ended") from None

    def path(self, name: str) -> str:
        """The path of a file by its name."""
        return os.path.normpath(os.path.join(self.folder, self.top if name == self.alias else name))

    def text(self, name: str) -> Optional[bytes]:
        """The text of a file: that of the buffer, or that on disk; None where there is none."""
        document = self.server.documents.get(self.path(name))
        return document.text.all() if document else on_disk(self.path(name))

    def reached(self) -> tuple:
        """The texts of the files that are included from the top file on, by name; and the names that are missing."""
        found, missing, left = {}, set(), [self.alias]
        while left:
            name = left.pop()
            if name in found or name in missing:
                continue
            text = self.text(name)
            if text is None:
                missing.add(name)
                continue
            found[name] = text
            left += inclusions(text)
        return found, missing

    def soon(self, delay: Optional[float] = None) -> None:
        """Asks for a look at what changed, when no more is typed."""
        now = time.monotonic()
        self.first = self.first or now
        self.due = min(now + (self.runs.delay if delay is None else delay), self.first + MOST)

    def note(self, document: Document, begin: int, end: int, length: int, fed: int) -> None:
        """Notes a change of a file."""
        for held in self.files.values():
            if held.document is document:
                held.note(begin, end, length, fed)
                self.soon()

    def close(self) -> None:
        """Ends the session."""
        if self.session:
            self.session.close()
        self.session = None

    def settle(self) -> None:
        """Brings the session to what the buffers are, and shows what is found."""
        self.due = self.first = None
        try:
            if not self.session or self.renew or self.moved():
                self.begin()
            elif any(held.dirty for held in self.files.values()):
                self.edit()
            self.retried = False
        except Ended as ended:
            self.end(ended)
        except OSError as error:
            self.close()
            self.renew = True
            why = f"the program {self.program()} cannot be run ({error.strerror}): put it onto the path, or set \"program\""
            self.say(why if os.path.isdir(self.folder) else f"there is no folder {self.folder}")
        self.publish()

    def say(self, text: str) -> None:
        """Shows a message, once."""
        if text != self.said:
            self.server.message(ERROR, f"{self.top}: {text}")
        self.said = text

    def end(self, ended: Ended) -> None:
        """Says that the session ended, and begins another one where that may help."""
        self.close()
        self.renew, self.stale = True, True
        finding = ended.finding
        if ended.status == 2 and finding:
            self.faults = {finding.place.file: [finding]}
            if self.path(finding.place.file) not in self.server.documents:
                self.say(f"the text of {finding.place.file} has a fault: {ended.told()}")
            return
        self.say(f"the session ended: {ended.told()}" if self.counts else ended.told())
        if self.counts and not self.retried:
            self.retried = True
            self.soon()

    def moved(self) -> bool:
        """Whether a file that is not open is another one on disk, or one is there that was missing."""
        if any(held.stamp != stamp(held.path) for held in self.files.values() if not held.document):
            return True
        return any(was != stamp(self.path(name)) or self.path(name) in self.server.documents for name, was in self.missing.items())

    def begin(self) -> None:
        """Begins a session over the buffers: over the files themselves where they say the same, or over copies."""
        self.close()
        texts, missing = self.reached()
        held = {name: Held(name, self.path(name), self.server.documents.get(self.path(name))) for name in texts}
        for each in held.values():
            each.stamp = stamp(each.path)
        gone = {name: stamp(self.path(name)) for name in missing}
        other = self.alias != self.top or any(each.document and on_disk(each.path) != texts[name] for name, each in held.items())
        with self.server.progress(f"mmkeep: {self.top}", "loading") as progress:
            files = [(os.path.join(self.folder, name) if name == self.alias else self.path(name), self.path(name)) for name in texts]
            written = {self.path(name): text for name, text in texts.items() if held[name].document}
            place = copies(self.folder, files, written) if other else None
            try:
                folder = place + os.path.abspath(self.folder) if place else self.folder
                self.session = Session(self.alias, folder, self.program())
                for name, each in held.items():
                    if each.document:
                        each.take(*cut_text(texts[name]))
                self.report()
            finally:
                if place:
                    shutil.rmtree(place, ignore_errors=True)
            progress.note(f"{self.counts.theorems} theorems, {self.counts.proved} proved")
        self.files, self.missing, self.renew, self.index = held, gone, False, None
        for name, each in held.items():
            if each.document and self.session.count(name) != len(each.pieces):
                self.say(f"{name} is cut otherwise than by the session")

    def edit(self) -> None:
        """Sends what changed as one batch, or shows the fault of a text."""
        cuts = [(held, held.recut(False)) for held in self.files.values() if held.document and held.dirty]
        # Where the cut does not end near, or ends with a tail, a fault is likely: the program finds it sooner.
        self.find([held for held, cut in cuts if not cut or cut[3] and cut[3].strip(SPACES)])
        if self.faults:
            self.find([held for held, _ in cuts])
            return
        if any(self.includes(held, cut) for held, cut in cuts):
            self.begin()
            return
        whole: list = [(held, *(cut or held.recut(True))) for held, cut in cuts]
        changes: list = []
        for held, first, to, new, _ in whole:
            found = edits(held.name, held.pieces[first:to], new)
            changes += [each._replace(at=each.at + first) for each in found]
        if len(changes) > MANY:
            self.begin()
            return
        try:
            self.send(changes)
        except Refused as refused:
            self.refused(refused, whole)
            return
        for held, first, to, new, tail in whole:
            held.take([*held.pieces[:first], *new, *held.pieces[to:]], held.tail if tail is None else tail)
        self.index = None
        self.report()

    def includes(self, held: Held, cut: Optional[tuple]) -> bool:
        """Whether a buffer includes other files than the session has of it."""
        if not cut:
            return inclusions(held.document.text.all()) != inclusions(b"".join(held.pieces))
        old, new = (inclusions(b"".join(pieces)) for pieces in (held.pieces[cut[0] : cut[1]], cut[2]))
        return old != new

    def send(self, changes: list) -> None:
        """Sends edits, and shows the labels that are run."""
        if not changes:
            return
        with self.server.progress(f"mmkeep: {self.top}", f"{len(changes)} edits" if len(changes) > 1 else "1 edit") as progress:
            self.session.told = progress.ran
            ran = self.session.batch(changes)
            progress.note(f"ran {len(ran)}{': ' if ran else ''}{', '.join(ran[:8])}{', ..' if len(ran) > 8 else ''}")

    def refused(self, refused: Refused, cuts: list) -> None:
        """Finds the faults of texts for which a batch was refused."""
        self.find([cut[0] for cut in cuts])
        if refused.number == "S05":
            self.say(f"refused S05: {SENTENCES['S05']}")
            self.stale = True
        elif not self.faults:
            self.begin()

    def find(self, files: list) -> None:
        """Finds the faults of buffers, each from the first piece on that changed: all before it is whole.

        What is missing is found at the end of a text; other faults are found where they are, and so near what changed. A block
        that is open near there stays open, for the pieces behind are whole; none may be an inclusion in it."""
        self.faults = {}
        for held in files:
            begin, near, whole = held.starts[held.first()], held.near(), held.document.text
            found = self.session.fault(held.name, held.window(begin, near))
            if not found or found[0] in ("T02", "T07") or found[0] == "T08" and held.includes_behind(near):
                found = self.session.fault(held.name, held.window(begin, whole.length))
            if found:
                number, line, column = found
                row, before = whole.row(begin)
                place = Place(held.name, row + line, column + (before if line == 1 else 0))
                self.faults[held.name] = [Finding("fault", None, place, number, None)]
        self.stale = self.stale or bool(self.faults)

    def report(self) -> None:
        """Asks for the report, and makes the diagnostics of it."""
        report = self.session.report()
        self.counts, self.stale, self.faults, self.said = report.counts, False, {}, None
        self.findings, self.living, self.owes = report.findings, None, True
        self.mark({})

    def live(self) -> Live:
        """What is known of the pieces of the session; all of it."""
        if self.living is None:
            self.living = Live(self, [each.place for each in self.findings if each.kind == "fault"])
        self.living.go_on()
        return self.living

    def idle(self, seconds: float) -> bool:
        """Does some of what can wait, for some time. Answers whether more is to be done."""
        if not self.session or self.stale or self.renew:
            return False
        if self.living is None:
            self.living = Live(self, [each.place for each in self.findings if each.kind == "fault"])
        if not self.living.go_on(seconds):
            return True
        if self.owes:
            self.owes = False
            if any(each.number for each in self.findings):
                self.explain()
                self.publish()
        return False

class Failed(Exception):
    """A request that is refused."""

    def __init__(self, code: int, text: str) -> None:
        super().__init__(text)
        self.code = code
