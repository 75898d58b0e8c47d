"""The files of a database as they are on disk or in an editor, and what their statements declare.

    Sources     the texts of files: their lines, and the bytes of places
    Statement   a statement as its words; statements(text) reads those of a piece
    Reading     the pieces of a database in the order of reading: what is active at a statement, where a label is declared
    Frame       what an assertion asks of whoever cites it
"""
from __future__ import annotations

import bisect
import collections
import itertools
import os
import pathlib
import re
from typing import Callable, Iterable, Iterator, NamedTuple, Optional, Union

from .cutting import blank, ended, ends, inclusions, is_block, labels
from .reports import Place

WORD = re.compile(rb"[^ \t\n\f\r]+")
# A theorem from its keyword on: the words of a normal proof, or the list of a compressed one. Comments are blank.
PROOF = re.compile(rb"\$p[ \t\n\f\r][^$]*\$=[ \t\n\f\r]+(\([ \t\n\f\r][^)$]*|[^$]*)")


def on_disk(path: Union[str, pathlib.Path]) -> Optional[bytes]:
    """The bytes of a file, or nothing. What is no plain file, such as a folder or a pipe, is not read."""
    try:
        return pathlib.Path(path).read_bytes() if os.path.isfile(path) else None
    except (OSError, ValueError):
        return None


class Statement:
    """A statement, or a mark of a block: its words, and the bytes of its first word and after its last one."""

    def __init__(self, words: list) -> None:
        self.begin, self.end = words[0][1], words[-1][1] + len(words[-1][0])
        self.label = None if words[0][0].startswith("$") else words[0][0]
        self.kind, *rest = [word for word, _ in words] if self.label is None else [word for word, _ in words[1:]]
        self.symbols = rest[: rest.index("$=") if "$=" in rest else max(len(rest) - 1, 0)]
        # The words of a proof with their first bytes, the closing one too.
        self.proof = words[[word for word, _ in words].index("$=") + 1 :] if self.kind == "$p" and "$=" in rest else []


def statements(text: bytes, begin: int = 0) -> list:
    """The statements of a piece without a fault, whose first byte is `begin`; of another text, those that are finished.

    >>> [(each.label, each.kind, each.symbols) for each in statements(b"x $a ${ h $e a b $. $}")]
    [(None, '${', []), ('h', '$e', ['a', 'b']), (None, '$}', [])]
    """
    words, found = [], []
    for each in WORD.finditer(blank(text)):
        if each[0] in (b"${", b"$}"):
            words = []
        words.append((os.fsdecode(each[0]), begin + each.start()))
        if words[-1][0] in ("$.", "$]", "${", "$}"):
            found.append(Statement(words))
            words = []
    return found


class Sources:
    """The texts of files, as they are opened from a folder, or as `read` gives them, which answers None for one that is not there.

    `faults` are the places of statements at fault: what they declare does not count."""

    def __init__(self, folder: Optional[str] = None, faults: Iterable[Place] = (), read: Optional[Callable] = None) -> None:
        self.folder, self.read = folder or ".", read or self.on_disk
        self.texts: dict = {}
        self.starts: dict = {}
        self.faults: dict = {}
        self.reading: Optional[Reading] = None
        for place in faults:
            self.faults.setdefault(place.file, []).append(place)
        # The bytes of the faults of a file, in order, and those at which its pieces begin, once they are asked for; and the piece that
        # was looked at last.
        self.marks: dict = {}
        self.begins: dict = {}
        self.looked: tuple = (None, 0, b"")

    def on_disk(self, file: str) -> Optional[bytes]:
        """The text of a file on disk."""
        return on_disk(pathlib.Path(self.folder, file))

    def text(self, file: str) -> bytes:
        """The text of a file, empty where it cannot be read."""
        if file not in self.texts:
            self.texts[file] = ended(self.read(file) or b"")
            self.starts[file] = [0, *(each.end() for each in re.finditer(rb"\n", self.texts[file]))]
        return self.texts[file]

    def byte(self, place: Place) -> int:
        """The byte of a place, or the end of the text."""
        text, starts = self.text(place.file), self.starts[place.file]
        return min(starts[min(max(place.line, 1), len(starts)) - 1] + max(place.column, 1) - 1, len(text))

    def place(self, file: str, at: int) -> Place:
        """The place of a byte."""
        self.text(file)
        line = bisect.bisect_right(self.starts[file], at)
        return Place(file, line, at - self.starts[file][line - 1] + 1)

    def line(self, place: Place, before: int, length: int) -> tuple:
        """So many bytes of a line, from at most so many before a place on, as text with one character a byte; and where the place is in it.

        What a terminal might take for a command is `?`."""
        text, starts = self.text(place.file), self.starts[place.file]
        at = self.byte(place)
        begin = starts[min(max(place.line, 1), len(starts)) - 1]
        end = text.find(b"\n", begin)
        if end - begin > length:
            begin = max(begin, at - before)
        line = text[begin : min(end if end >= 0 else len(text), begin + length)].decode("ascii", "replace").rstrip("\r")
        return "".join(each if each.isprintable() or each == "\t" else "?" for each in line), at - begin

    def word(self, place: Place) -> str:
        """The word at a place."""
        found = WORD.match(self.text(place.file), self.byte(place))
        return os.fsdecode(found[0]) if found else ""

    def is_at_fault(self, file: str, statement: Statement) -> bool:
        """Whether a fault is reported at a word of a statement."""
        return bool(self.between(file, statement.begin, statement.end))

    def between(self, file: str, begin: int, end: int) -> list:
        """The bytes of the faults in a part of a file."""
        if file not in self.marks:
            self.marks[file] = sorted(map(self.byte, self.faults.get(file, ())))
        marks = self.marks[file]
        return marks[bisect.bisect_left(marks, begin) : bisect.bisect_left(marks, end)]

    def label_around(self, place: Place) -> Optional[str]:
        """The label of the statement with a place, if it has one."""
        text, at = self.piece(place)
        last = max(text.rfind(b"$.", 0, at), 0)
        begin = max(text.rfind(mark, last, at) for mark in (b"$.", b"${", b"$}"))
        found = labels(text[max(begin, 0) : text.find(b"$.", at) + 2])
        return found[0][0] if found else None

    def piece(self, place: Place) -> tuple:
        """The piece with a place, or the tail, with spaces for comments; and the byte of it."""
        text, at = self.text(place.file), self.byte(place)
        begins = self.begins[place.file] = self.begins.get(place.file) or [0, *ends(text)]
        number = bisect.bisect_right(begins, at)
        if self.looked[:2] != (place.file, number):
            self.looked = place.file, number, blank(text[begins[number - 1] : begins[number] if number < len(begins) else len(text)])
        return self.looked[2], at - begins[number - 1]


class Frame(NamedTuple):
    """What an assertion asks of whoever cites it: its hypotheses in order and its pairs; and its expression."""

    hypotheses: list
    pairs: set
    expression: list


class Declared(NamedTuple):
    """Where a label is declared: the number of its piece, the kind of its statement, its file and its first byte there."""

    piece: int
    kind: str
    file: str
    at: int


class Reading:
    """The pieces of a database in the order of reading, from a top file on."""

    def __init__(self, sources: Sources, top: str) -> None:
        self.sources = sources
        # Each piece with its file and its first byte; where each label is declared; the outermost declarations and hypotheses, with
        # the numbers of their pieces.
        self.pieces: list = []
        self.declared: dict = {}
        self.outer: list = []
        self.outer_pieces: list = []
        self.files = [top]
        self.frames: dict = {}
        self.named: Optional[dict] = None
        self.read(top)

    def read(self, top: str) -> None:
        """Reads all pieces."""
        for _ in self.reading(top):
            pass

    def reading(self, top: str) -> Iterator:
        """Reads the pieces, one after another, and those of each file at its first inclusion."""
        files = [(top, self.cut(top))]
        while files:
            file, left = files[-1]
            begin, text = next(left, (None, b""))
            if begin is None:
                files.pop()
                continue
            name = included(text)
            if name is None:
                self.take(file, begin, text)
            elif name not in self.files:
                self.files.append(name)
                files.append((name, self.cut(name)))
            yield

    def cut(self, file: str) -> Iterator:
        """The pieces of a file, each with its first byte."""
        begin, text = 0, self.sources.text(file)
        for end in ends(text):
            yield begin, text[begin:end]
            begin = end

    def take(self, file: str, begin: int, text: bytes) -> None:
        """Takes a piece."""
        number = len(self.pieces)
        self.pieces.append((file, begin, text))
        found, outer = self.parts(begin, text)
        for label, kind, at in found:
            self.declared.setdefault(label, Declared(number, kind, file, begin + at))
        for each in outer:
            if not self.is_at_fault(number, each):
                self.outer.append(each)
                self.outer_pieces.append(number)

    def parts(self, begin: int, text: bytes) -> tuple:
        """The labels of a piece, and its statements if it is no block and no assertion."""
        found = labels(text)
        is_outer = all(kind in "ef" for _, kind, _ in found) and not is_block(text)
        return found, statements(text, begin) if is_outer else []

    def is_at_fault(self, piece: int, statement: Statement) -> bool:
        """Whether a statement of a piece is at fault."""
        return self.sources.is_at_fault(self.pieces[piece][0], statement)

    def place(self, label: str) -> Optional[Place]:
        """Where a label is declared, or nothing."""
        found = self.declared.get(label)
        return found and self.sources.place(found.file, found.at)

    def rank(self, label: str) -> tuple:
        """Whether a label is that of an assertion, and how late it is declared: of labels that explain as much, the last one tells most."""
        found = self.declared.get(label)
        return (found.kind in "ap", found.piece, label) if found else (False, -1, label)

    def labelled(self, label: str) -> tuple:
        """The active statements at the one with a label, and that one; nothing in its place if there is none."""
        found = self.declared.get(label)
        if found is None:
            return [], None
        _, begin, text = self.pieces[found.piece]
        several = statements(text, begin)
        at = next((number for number, each in enumerate(several) if each.label == label), None)
        sound = [each for each in several[:at] if not self.is_at_fault(found.piece, each)]
        return active_after(self.outer_before(found.piece), sound), None if at is None else several[at]

    def outer_before(self, piece: int) -> list:
        """The sound statements before a piece that are in no block and no assertions."""
        return self.outer[: bisect.bisect_left(self.outer_pieces, piece)]

    def frame(self, label: str) -> Optional[Frame]:
        """The frame of the assertion with a label, or nothing."""
        if label not in self.frames:
            active, found = self.labelled(label)
            self.frames[label] = found and frame(active, found)
        return self.frames[label]

    def lists(self) -> dict:
        """The labels that the proof of each theorem names, by the label of the theorem. They are read once."""
        if self.named is None:
            self.named, self.used = {}, collections.Counter()
            for text in self.texts():
                self.count(lists_in(text))
        return self.named

    def count(self, proofs: Iterable[tuple]) -> None:
        """Takes the labels of theorems, each with those that its proof names."""
        for label, named in proofs:
            self.named.setdefault(label, named)
            self.used.update(named)

    def texts(self) -> Iterator:
        """The texts of the files."""
        return map(self.sources.text, self.files)

    def uses(self) -> collections.Counter:
        """How many proofs name each label."""
        self.lists()
        return self.used


def lists_in(text: bytes) -> Iterator:
    """The label of each theorem of a text, with the labels that its proof names.

    >>> [(label, sorted(named)) for label, named in lists_in(b"a $p x $= ( c b ) AB $. d $p x $= ( b $. e $p x $= b ? $.")]
    [('a', ['b', 'c']), ('d', ['b']), ('e', ['b'])]
    """
    text, last = blank(text), 0
    for found in PROOF.finditer(text):
        before = text[max(last, found.start() - 300) : found.start()].split() or text[last : found.start()].split()
        last = found.end()
        yield os.fsdecode(before[-1]) if before else "", {os.fsdecode(word) for word in found[1].split() if word not in (b"(", b"?")}


def included(text: bytes) -> Optional[str]:
    """The name of the file that a piece includes, if it is an inclusion.

    >>> included(b"$( once $[ a.mm $] $) $[ b.mm $] ")
    'b.mm'
    """
    return next(iter(inclusions(text)), None)


def active_after(active: list, several: Iterable[Statement]) -> list:
    """The statements that are active after some more: of these, those whose block has not ended."""
    marks, least = [], len(active)
    for each in several:
        if each.kind == "${":
            marks.append(len(active))
        elif each.kind == "$}":
            del active[marks.pop() if marks else least :]
        else:
            active.append(each)
    return active


def pairs_of(active: list) -> set:
    """The active pairs."""
    sets = [each.symbols for each in active if each.kind == "$d"]
    return {frozenset(pair) for symbols in sets for pair in itertools.combinations(symbols, 2)}


def frame(active: list, statement: Statement) -> Frame:
    """The frame of an assertion at which these statements are active."""
    essential = [each for each in active if each.kind == "$e"]
    used = {*statement.symbols}.union(*(each.symbols for each in essential))
    hypotheses = [each for each in active if each.kind == "$e" or each.kind == "$f" and each.symbols[1] in used]
    variables = {each.symbols[1] for each in hypotheses if each.kind == "$f"}
    return Frame(hypotheses, {pair for pair in pairs_of(active) if pair <= variables}, statement.symbols)
