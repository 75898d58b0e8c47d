"""Edits of a session, and few of them from one list of pieces to another."""
from __future__ import annotations

import bisect
import os
from typing import Iterable, NamedTuple, Sequence, Union

from .cutting import ended


LARGEST = 2**32 - 1


def word(name: str) -> bytes:
    """A name or a label as a word of a command. One that would be none, or another command, is a ValueError.

    >>> word("ax-mp")
    b'ax-mp'
    >>> word("x\\ndelete a.mm 3")
    Traceback (most recent call last):
    ValueError: not a word of a command, for it is empty or has a space or a line feed: 'x\\ndelete a.mm 3'
    """
    found = os.fsencode(name)
    if not found or b" " in found or b"\n" in found:
        raise ValueError(f"not a word of a command, for it is empty or has a space or a line feed: {name!r}")
    return found


def number(value: int) -> bytes:
    """A number as a word of a command: 0 to 4,294,967,295. Another one is a ValueError."""
    if isinstance(value, bool) or not isinstance(value, int) or not 0 <= value <= LARGEST:
        raise ValueError(f"not a number from 0 to {LARGEST:,}: {value!r}")
    return b"%d" % value


def with_text(text: bytes) -> bytes:
    """The count of a text's bytes, and the text, as they end a command."""
    if not isinstance(text, (bytes, bytearray)):
        raise ValueError(f"a text is bytes, and this is {type(text).__name__}")
    return b"%b\n%b\n" % (number(len(text)), text)


class Insert(NamedTuple):
    """A new piece before piece `at`, or after the last."""

    file: str
    at: int
    text: bytes

    def command(self) -> bytes:
        """The bytes of the command."""
        return b"insert %b %b %b" % (word(self.file), number(self.at), with_text(self.text))


class Replace(NamedTuple):
    """A new piece in the place of piece `at`."""

    file: str
    at: int
    text: bytes

    def command(self) -> bytes:
        """The bytes of the command."""
        text = with_text(self.text)
        if not self.text.strip(b" \t\n\f\r"):
            raise ValueError("a piece is not replaced by nothing: Delete takes it out")
        return b"replace %b %b %b" % (word(self.file), number(self.at), text)


class Delete(NamedTuple):
    """Piece `at` taken out."""

    file: str
    at: int

    def command(self) -> bytes:
        """The bytes of the command."""
        return b"delete %b %b\n" % (word(self.file), number(self.at))


class Move(NamedTuple):
    """Piece `at` taken out, and put where it is piece `to`."""

    file: str
    at: int
    to: int

    def command(self) -> bytes:
        """The bytes of the command."""
        return b"move %b %b %b\n" % (word(self.file), number(self.at), number(self.to))


Edit = Union[Insert, Replace, Delete, Move]


def rising(pairs: Sequence[tuple]) -> list:
    """The most pairs whose second numbers rise, of pairs whose first ones do.

    >>> rising([(0, 4), (1, 0), (2, 1), (3, 5), (4, 2)])
    [(1, 0), (2, 1), (4, 2)]
    """
    tops: list = []
    last: list = []
    before: list = []
    for at, (_, second) in enumerate(pairs):
        length = bisect.bisect_left(tops, second)
        tops[length:] = [second, *tops[length + 1 :]] if length < len(tops) else [second]
        last[length : length + 1] = [at]
        before.append(last[length - 1] if length else None)
    found: list = []
    at = last[-1] if last else None
    while at is not None:
        found.append(pairs[at])
        at = before[at]
    return found[::-1]


def kept(old: Sequence[bytes], new: Sequence[bytes]) -> list:
    """Pieces that stay: pairs of their places in two lists whose ends differ, rising in both, and a last one after the lists."""
    count: dict = {}
    seen: dict = {}
    for text in new:
        count[text] = count.get(text, 0) + 1
    for text in old:
        count[text] = count.get(text, 0) + 1
    for at, text in enumerate(new):
        seen[text] = at
    places = {at: seen[text] for at, text in enumerate(old) if text in seen and count[text] == 2}
    # Of texts that occur twice somewhere, those at the same place from one that stays.
    for at, place in list(places.items()):
        while at + 1 not in places and at + 1 < len(old) and place + 1 < len(new) and old[at + 1] == new[place + 1]:
            at, place = at + 1, place + 1
            places[at] = place
    return [*rising(sorted(places.items())), (len(old), len(new))]


def edits(file: str, old: Sequence[bytes], new: Sequence[bytes]) -> list:
    """Few edits that make one list of pieces of a file from another: what begins and ends both lists stays.

    >>> edits("a.mm", [b"a", b"b", b"c", b"d"], [b"a", b"x", b"d"])
    [Replace(file='a.mm', at=1, text=b'x'), Delete(file='a.mm', at=2)]
    """
    begin, most = 0, min(len(old), len(new))
    while begin < most and old[begin] == new[begin]:
        begin += 1
    end = 0
    while end < most - begin and old[-1 - end] == new[-1 - end]:
        end += 1
    old, new = old[begin : len(old) - end], new[begin : len(new) - end]
    at_ends = [(len(old), len(new))]
    return min(between(file, begin, new, at_ends), between(file, begin, new, kept(old, new)), key=len)


def between(file: str, begin: int, new: Sequence[bytes], stay: Iterable[tuple]) -> list:
    """The edits that make one list of pieces from another, of which some stay: what is between two of them is replaced."""
    found: list = []
    at, from_old, from_new = begin, 0, 0
    for to_old, to_new in stay:
        gone, come = to_old - from_old, new[from_new:to_new]
        found += [Replace(file, at + number, text) for number, text in enumerate(come[:gone])]
        found += [Insert(file, at + number, text) for number, text in enumerate(come) if number >= gone]
        at += len(come)
        found += [Delete(file, at)] * (gone - len(come))
        at, from_old, from_new = at + 1, to_old + 1, to_new + 1
    return found


def after(given: Sequence[bytes], changes: Iterable[Edit]) -> list:
    """A list of pieces as edits leave it, each with the line feed that a session puts after it.

    >>> after([b"a ", b"b "], [Delete("a.mm", 0), Insert("a.mm", 1, b"c"), Move("a.mm", 1, 0)])
    [b'c\\n', b'b ']
    """
    left = [*given]
    for change in changes:
        do(left, change)
    return left


def do(left: list, change: Edit) -> Edit:
    """Does an edit of a list of pieces. Answers the one that takes it back."""
    if isinstance(change, Move):
        left.insert(change.to, left.pop(change.at))
        return Move(change.file, change.to, change.at)
    if isinstance(change, Delete):
        return Insert(change.file, change.at, left.pop(change.at))
    if isinstance(change, Insert):
        left.insert(change.at, ended(change.text))
        return Delete(change.file, change.at)
    old, left[change.at] = left[change.at], ended(change.text)
    return Replace(change.file, change.at, old)
