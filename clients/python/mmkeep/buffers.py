"""Buffers of an editor, and the pieces that a session has of them.

    Text        a text in chunks of whole lines: edits and look-ups of lines touch little of it
    Document    a file that is open in an editor: its text, and the marks in it
    Held        a file of a session: which pieces have to be edited, so that the session has what the buffer says
"""
from __future__ import annotations

import bisect
import itertools
import os
import pathlib
import re
import tempfile
import urllib.parse
from typing import Iterable, Optional

from . import cutting
from .sources import on_disk

CHUNK = 1 << 16
SPACES = b" \t\n\f\r"


class Text:
    """A text in chunks of whole lines, so that an edit and a look for a line touch little of it."""

    def __init__(self, data: bytes) -> None:
        self.chunks: list = []
        self.lines: list = []
        self.length = 0
        self.put(0, 0, data)

    def put(self, begin: int, end: int, data: bytes) -> None:
        """Puts data in the place of some chunks."""
        new, at = [], 0
        while at < len(data):
            to = data.find(b"\n", at + CHUNK) + 1 or len(data)
            new.append(data[at:to])
            at = to
        self.length += len(data) - sum(map(len, self.chunks[begin:end]))
        self.chunks[begin:end] = new
        self.lines[begin:end] = [chunk.count(b"\n") for chunk in new]
        # The first byte and the first line of each chunk, and the lines of the chunk that was looked at last.
        self.bytes_before = [0, *itertools.accumulate(map(len, self.chunks))]
        self.lines_before = [0, *itertools.accumulate(self.lines)]
        self.looked: tuple = (None, ())

    def chunk_at(self, at: int) -> tuple:
        """The chunk with a byte, or the last one, and that chunk's first byte."""
        number = max(min(bisect.bisect_right(self.bytes_before, at), len(self.chunks)) - 1, 0)
        return number, self.bytes_before[number]

    def replace(self, begin: int, end: int, data: bytes) -> None:
        """Puts data in the place of some bytes."""
        first, at = self.chunk_at(begin)
        last, _ = self.chunk_at(end)
        old = b"".join(self.chunks[first : last + 1])
        # A chunk that does not end a line is joined with the next.
        new = old[: begin - at] + data + old[end - at :]
        if not new.endswith(b"\n") and last + 1 < len(self.chunks):
            last += 1
            new += self.chunks[last]
        self.put(first, last + 1, new)

    def slice(self, begin: int, end: int) -> bytes:
        """Some of the bytes."""
        found, (number, at) = [], self.chunk_at(begin)
        while at < end and number < len(self.chunks):
            chunk = self.chunks[number]
            found.append(chunk[max(begin - at, 0) : end - at])
            at, number = at + len(chunk), number + 1
        return b"".join(found)

    def all(self) -> bytes:
        """All bytes."""
        return b"".join(self.chunks)

    def line(self, number: int) -> tuple:
        """The first byte of a line, and its bytes without what ends it; after the last line the end."""
        chunk = max(min(bisect.bisect_right(self.lines_before, number), len(self.chunks)) - 1, 0)
        if not self.chunks:
            return 0, b""
        if self.looked[0] != chunk:
            ends = [found.end() for found in re.finditer(rb"\n", self.chunks[chunk])]
            self.looked = chunk, [0, *ends]
        within, starts = number - self.lines_before[chunk], self.looked[1]
        if within >= len(starts):
            return self.length, b""
        begin = starts[within]
        if within + 1 == len(starts):
            return self.bytes_before[chunk] + begin, self.chunks[chunk][begin:]
        line = self.chunks[chunk][begin : starts[within + 1] - 1]
        return self.bytes_before[chunk] + begin, line[:-1] if line.endswith(b"\r") else line

    def byte(self, position: dict) -> int:
        """The byte of a position of the protocol."""
        at, line = self.line(position["line"])
        units, shown = position["character"], len(line)
        # Some editors count a carriage return before the line feed as one more character.
        line += b"\r" if self.slice(at + shown, at + shown + 1) == b"\r" else b""
        if line.isascii():
            return at + (units if units <= len(line) else shown)
        for letter in line.decode("utf-8", "surrogatepass"):
            if units <= 0:
                break
            units -= 2 if ord(letter) > 0xFFFF else 1
            at += len(letter.encode("utf-8", "surrogatepass"))
        return at

    def row(self, at: int) -> tuple:
        """The number of the line with a byte, from 0, and how many bytes of it come before that."""
        number, begin = self.chunk_at(at)
        if not self.chunks:
            return 0, 0
        before = self.chunks[number][: at - begin]
        return self.lines_before[number] + before.count(b"\n"), len(before) - before.rfind(b"\n") - 1

    def position(self, row: int, column: int) -> dict:
        """The position of a byte of a line."""
        line = self.line(row)[1]
        return {"line": row, "character": column if line.isascii() else units(line[:column].decode("utf-8", "replace"))}


def units(text: str) -> int:
    """How many units of UTF-16 a text has."""
    return sum(2 if ord(letter) > 0xFFFF else 1 for letter in text)


class Document:
    """A file that is open in the editor."""

    def __init__(self, item: dict, path: str) -> None:
        self.uri, self.path, self.version = item["uri"], path, item.get("version")
        self.text = Text(encoded(item["text"]))
        self.marks: list = []

    def change(self, change: dict) -> tuple:
        """Makes a change of the protocol. Answers its bytes in the text before, and that text's length."""
        length, data = self.text.length, encoded(change["text"])
        if "range" not in change:
            self.text, begin, end = Text(data), 0, length
            self.marks = [{**mark, "range": one_point({"line": 0, "character": 0})} for mark in self.marks]
            return begin, end, length
        places = change["range"]
        begin, end = self.text.byte(places["start"]), self.text.byte(places["end"])
        begin, end = min(begin, end), max(begin, end)
        self.text.replace(begin, end, data)
        self.shift(places["start"], places["end"], change["text"])
        return begin, end, length

    def shift(self, start: dict, end: dict, text: str) -> None:
        """Moves the marks after a change, and puts those in it at its beginning."""
        lines = text.count("\n")
        last = units(text.rsplit("\n", 1)[-1]) + (0 if lines else start["character"])
        for at, mark in enumerate(self.marks):
            moved = {side: behind(place, start, end, lines, last) for side, place in mark["range"].items()}
            if moved != mark["range"]:
                self.marks[at] = {**mark, "range": moved}


def behind(place: dict, start: dict, end: dict, lines: int, last: int) -> dict:
    """Where a place is after a change of what is from start to end into some lines, of which the last one is so long."""
    here = (place["line"], place["character"])
    if here < (end["line"], end["character"]):
        return min(place, start, key=lambda each: (each["line"], each["character"]))
    line = place["line"] - end["line"] + start["line"] + lines
    return {"line": line, "character": here[1] - end["character"] + last if here[0] == end["line"] else here[1]}


def one_point(position: dict) -> dict:
    """The range from a position to itself."""
    return {"start": position, "end": position}


def encoded(text: str) -> bytes:
    """The bytes of a text of the protocol."""
    return text.encode("utf-8", "surrogatepass")


def path_of(uri: str) -> Optional[str]:
    """The path that a URI names, or None where it names no file."""
    try:
        parts = urllib.parse.urlsplit(uri)
    except ValueError:
        return None
    path = os.fsdecode(urllib.parse.unquote_to_bytes(parts.path))
    return os.path.normpath(path) if parts.scheme == "file" and path and "\0" not in path else None


def stamp(path: str) -> Optional[tuple]:
    """What changes where a file does."""
    try:
        found = os.stat(path)
        return found.st_mtime_ns, found.st_size, found.st_ino
    except (OSError, ValueError):
        return None


def copies(folder: str, files: Iterable[tuple], written: dict) -> str:
    """A new folder with files under their own paths: some as they are written here, and links to the others.

    `files` has the path at which each stands there, as it is seen from the root, and its own; `written` the bytes of some."""
    place = os.path.realpath(tempfile.mkdtemp(prefix="mmkeep-lsp-"))
    os.makedirs(place + os.path.abspath(folder), exist_ok=True)
    for shown, path in files:
        target = place + shown
        os.makedirs(os.path.dirname(target), exist_ok=True)
        if path in written:
            pathlib.Path(target).write_bytes(written[path])
        else:
            os.symlink(path, target)
    return place


def fed_behind(text: Text) -> int:
    """How many bytes are read after a text: a line feed where it does not end in white space."""
    return 1 if text.length and text.slice(text.length - 1, text.length) not in SPACES else 0


class Held:
    """A file of a session: the pieces that the session has, and how much of them the buffer has at both ends."""

    def __init__(self, name: str, path: str, document: Optional[Document]) -> None:
        self.name, self.path, self.document = name, path, document
        self.pieces: list = []
        self.is_read = self.dirty = False
        self.stamp: Optional[tuple] = None

    def take(self, pieces: list, tail: bytes) -> None:
        """Takes what the session has now; the buffer is the same."""
        self.pieces, self.tail = pieces, tail
        self.starts = [0, *itertools.accumulate(map(len, pieces))]
        self.length = self.before = self.behind = self.starts[-1] + len(tail)
        self.first_lines: list = []
        self.is_read, self.dirty = True, False

    def load(self) -> list:
        """The pieces; those of a file that is not open are read when they are asked for."""
        if not self.is_read:
            self.take(*cutting.cut(self.document.text.all() if self.document else on_disk(self.path) or b""))
        return self.pieces

    def fed(self) -> int:
        """How many bytes are read after the buffer: a line feed where it does not end in white space."""
        return fed_behind(self.document.text)

    def note(self, begin: int, end: int, length: int, fed: int) -> None:
        """Notes a change of the buffer, which had so many bytes, and so many were read after it."""
        behind = length - end + (fed if length > end or self.fed() else 0)
        self.before, self.behind, self.dirty = min(self.before, begin), min(self.behind, behind), True

    def window(self, begin: int, end: int) -> bytes:
        """Bytes of the buffer, with what is read after it."""
        text = self.document.text.slice(begin, end)
        return cutting.ended(text) if end >= self.document.text.length else text

    def first(self) -> int:
        """The first piece that may be another one now."""
        return min(max(bisect.bisect_right(self.starts, self.before - 1) - 1, 0), len(self.pieces))

    def recut(self, far: bool) -> Optional[tuple]:
        """What changed: the first piece, the one after the last, what is there now, the tail or None if it stayed.

        Not `far`, only to some way after what changed: None, where the cut meets no piece there that stayed."""
        first = self.first()
        begin = self.starts[first]
        length = self.document.text.length + self.fed()
        changed = max(length - self.behind - begin, 0)
        for size in (changed + CHUNK, length - begin) if far else (changed + CHUNK,):
            to, at, text = self.resynchronised(begin, min(begin + size, length), length)
            new = [text[one:other] for one, other in zip(at, at[1:])]
            if to is not None:
                return first, to, new, None
            if begin + size >= length:
                return first, len(self.pieces), new, text[at[-1] :]
        return None

    def near(self) -> int:
        """A byte of the buffer at which a piece begins, some way after what changed; or its end."""
        length = self.document.text.length + self.fed()
        number = bisect.bisect_left(self.starts, self.length - self.behind + CHUNK)
        return self.starts[number] + length - self.length if number < len(self.starts) else length

    def includes_behind(self, near: int) -> bool:
        """Whether a piece from this byte of the buffer on is an inclusion; one begins there, or it is the buffer's end."""
        number = bisect.bisect_left(self.starts, near - self.document.text.length - self.fed() + self.length)
        return any(True for piece in self.pieces[number:] for _ in cutting.inclusion_places(piece))

    def resynchronised(self, begin: int, end: int, length: int) -> tuple:
        """The cut from a byte on, to where it meets a piece of the session that stayed; and that piece, or None."""
        text, at = self.window(begin, end), [0]
        for each in cutting.ends(text):
            if each == len(text) and end < length:
                break
            at.append(each)
            old = begin + each - length + self.length
            if begin + each >= length - self.behind and old >= 0:
                number = bisect.bisect_left(self.starts, old)
                if number < len(self.starts) and self.starts[number] == old:
                    return number, at, text
        return None, at, text

    def now(self, at: int) -> int:
        """Where a byte of the session's text is in the buffer."""
        length = self.document.text.length
        if at < self.before:
            return min(at, length)
        if at >= self.length - self.behind:
            return min(max(at - self.length + length + self.fed(), 0), length)
        return min(self.before, length)

    def piece_at(self, at: int) -> int:
        """The piece of the session that has a byte of the buffer, or its tail; for a byte of what changed, the first piece that did."""
        if at > self.before:
            old = at - self.document.text.length - self.fed() + self.length
            at = old if old >= self.length - self.behind else self.before
        return bisect.bisect_right(self.starts, at) - 1

    def lines(self) -> list:
        """How many lines end before each piece."""
        pieces = self.load()
        if not self.first_lines:
            self.first_lines = [0, *itertools.accumulate(each.count(b"\n") for each in pieces)]
        return self.first_lines

    def byte(self, row: int, column: int) -> tuple:
        """The piece and the byte in it at a line and a byte of that, both from 0, of the text that the session has."""
        lines, offset = self.lines(), 0
        piece = max(bisect.bisect_left(lines, row) - 1, 0)
        for _ in range(row - lines[piece]):
            offset = self.pieces[piece].find(b"\n", offset) + 1
        at = self.starts[piece] + offset + column
        piece = min(bisect.bisect_right(self.starts, at) - 1, len(self.pieces) - 1)
        return piece, at - self.starts[piece]

    def position(self, piece: int, offset: int) -> dict:
        """The position of a byte of a piece."""
        if self.document:
            return self.document.text.position(*self.document.text.row(self.now(self.starts[piece] + offset)))
        self.lines()
        before = b"".join(self.pieces[max(piece - 1, 0) : piece]) + self.pieces[piece][:offset]
        row = self.first_lines[piece] + self.pieces[piece].count(b"\n", 0, offset)
        return {"line": row, "character": len(before) - before.rfind(b"\n") - 1}
