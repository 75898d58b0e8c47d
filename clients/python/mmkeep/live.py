"""What the language server knows of a database beside the findings: frames, steps of proofs, comments, and what is where."""
from __future__ import annotations

import collections
import os
import re
import time
from typing import TYPE_CHECKING, Iterable, Iterator, Optional

from .cutting import COMMENT, blank, is_block, labels
from .machine import Done, Machine
from .reports import Finding, Place
from .sources import Declared, Reading, Statement, frame, lists_in, statements

if TYPE_CHECKING:
    from .diagnostics import Diagnostics

WORD = re.compile(rb"[^ \t\n\f\r]+")


class Live(Reading):
    """The pieces that a session has, in the order of reading. Of a piece that stayed, nothing is read again."""

    def __init__(self, base: Diagnostics, faults: Iterable[Place]) -> None:
        self.base, self.known = base, base.known
        # Statements at fault, by the number of their piece: the first byte of what is reported.
        self.faults: dict = {}
        self.numbers: dict = {}
        # How many pieces are read before each piece of a file, and before its tail, by the name of the file.
        self.read_before: dict = {}
        for place in faults:
            held = base.files.get(place.file)
            if held:
                piece, offset = held.byte(place.line - 1, place.column - 1)
                self.faults.setdefault((place.file, piece), []).append(offset)
        base.known = {}
        self.types: Optional[dict] = None
        super().__init__(None, base.alias)

    def read(self, top: str) -> None:
        """Begins to read; `go_on` does it."""
        self.left: Optional[Iterator] = self.reading(top)

    def go_on(self, seconds: float = float("inf")) -> bool:
        """Reads on for some time. Answers whether all is read."""
        end = time.monotonic() + seconds
        while self.left is not None and time.monotonic() < end:
            for _ in range(200):
                if next(self.left, self) is self:
                    self.left = None
                    break
        return self.left is None

    def cut(self, file: str) -> Iterator:
        """The pieces of a file, each as if it began at 0."""
        held = self.base.files.get(file)
        before: list = []
        self.read_before[file] = before
        for number, text in enumerate(held.load() if held else ()):
            self.numbers[len(self.pieces)] = number
            before.append(len(self.pieces))
            yield 0, text
        before.append(len(self.pieces))

    def parts(self, begin: int, text: bytes) -> tuple:
        """The labels and the outer statements of a piece."""
        found = self.base.known[text] = self.known.get(text) or super().parts(begin, text)
        return found

    def is_at_fault(self, piece: int, statement: Statement) -> bool:
        """Whether a statement of a piece is at fault."""
        if not self.faults:
            return False
        offsets = self.faults.get((self.pieces[piece][0], self.numbers[piece]), ())
        return any(statement.begin <= offset < statement.end for offset in offsets)

    def texts(self) -> Iterator:
        """The texts of the pieces."""
        return (text for _, _, text in self.pieces)

    def lists(self) -> dict:
        """The labels that the proof of each theorem names; those of a piece that stayed are read once."""
        if self.named is None:
            before, self.base.lists = self.base.lists, {}
            self.named, self.used = {}, collections.Counter()
            for text in self.texts():
                if b"$p" in text:
                    found = self.base.lists[text] = before.get(text) or [*lists_in(text)]
                    self.count(found)
        return self.named

    def place(self, label: str) -> Optional[Place]:
        """Where a label is declared."""
        found = self.declared.get(label)
        if not found:
            return None
        file, piece, at = self.location(found)
        start = self.base.files[file].position(piece, at)
        return Place(file, start["line"] + 1, start["character"] + 1)

    def location(self, declared: Declared) -> tuple:
        """The file of a declaration, the number of its piece there, and its first byte in it."""
        return declared.file, self.numbers[declared.piece], declared.at

    def comment(self, label: str) -> Optional[str]:
        """The comment right before the statement with a label, with single spaces."""
        found = self.declared.get(label)
        if not found:
            return None
        text = self.pieces[found.piece][2]
        last = None
        for each in COMMENT.finditer(text, 0, found.at):
            last = each
        if not last or blank(text[last.end() : found.at]).strip():
            return None
        return " ".join(os.fsdecode(last[0][2:-2]).split())

    def wrong_step(self, finding: Finding) -> tuple:
        """What the wrong step of a proof expected and got, in lines; the assertion that it cites; and the pairs that it lacks."""
        try:
            machine = Machine(self, finding.label)
            for done in machine.run():
                if done.wrong:
                    return done.wrong, done.step.what if isinstance(done.step.what, str) else None, machine.lacks
            return machine.end(), None, []
        except (AttributeError, IndexError, KeyError, ValueError):
            return [], None, []

    def step_at(self, label: str, at: int) -> Optional[Done]:
        """The step of a proof that has a byte of its piece, or ends right before it: its number, its step, and the expression that it leaves."""
        try:
            machine = Machine(self, label)
            is_normal = machine.statement.proof[0][0] != "("
            for done in machine.run():
                if done.step.at + (len(done.step.what) if is_normal else 0) >= at:
                    return done
        except (AttributeError, IndexError, KeyError, ValueError):
            pass
        return None

    def frame_text(self, label: str) -> Optional[str]:
        """The frame of an assertion as Metamath writes it: its `$d`, its hypotheses, and its statement."""
        active, found = self.labelled(label)
        if found is None:
            return None
        lines = []
        if found.kind in ("$a", "$p"):
            shown = frame(active, found)
            variables = sorted({name for pair in shown.pairs for name in pair})
            lines += [f"$d {' '.join(pair)} $." for pair in sorted(sorted(each) for each in shown.pairs)] if len(variables) < 12 else [f"$d .. ({len(shown.pairs)} pairs) $."]
            lines += [f"{each.label} {each.kind} {' '.join(each.symbols)} $." for each in shown.hypotheses]
        return "\n".join([*lines, f"{found.label} {found.kind} {' '.join(found.symbols)} $."])

    def parts_of(self, text: bytes) -> list:
        """The labels of a piece, each with its kind and its first byte."""
        return self.base.known[text][0] if text in self.base.known else labels(text)

    def declarations(self) -> Iterator:
        """The statements that declare symbols or type variables, in blocks too."""
        yield from self.outer
        for _, _, text in self.pieces:
            if (b"$f" in text or b"$v" in text) and is_block(text):
                yield from statements(text)

    def typecodes(self) -> dict:
        """The typecode of each variable that a `$f` types."""
        if self.types is None:
            self.types = {each.symbols[1]: each.symbols[0] for each in self.declarations() if each.kind == "$f" and len(each.symbols) == 2}
        return self.types

    def symbols(self) -> set:
        """The constants and variables that are declared anywhere."""
        return {symbol for each in self.declarations() if each.kind in ("$c", "$v") for symbol in each.symbols}


class Words:
    """What stands at the places of findings, in the text that the session has."""

    def __init__(self, base: Diagnostics) -> None:
        self.base = base

    def at(self, place: Place) -> tuple:
        """The piece with a place, and the byte in it."""
        held = self.base.files[place.file]
        piece, offset = held.byte(place.line - 1, place.column - 1)
        return held.pieces[piece], offset

    def word(self, place: Place) -> str:
        """The word at a place."""
        text, at = self.at(place)
        found = WORD.match(text, at)
        return os.fsdecode(found[0]) if found else ""

    def label_around(self, place: Place) -> Optional[str]:
        """The label of the statement with a place, if it has one."""
        text, at = self.at(place)
        return next((each.label for each in statements(text) if each.begin <= at < each.end), None)
