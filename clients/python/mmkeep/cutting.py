"""Cuts a text as `docs/LANGUAGE.md` says: pieces, each with its one unit, and what they hold."""
from __future__ import annotations

import os
import re
from typing import Iterator

SPACE = rb"[ \t\n\f\r]"
COMMENT = re.compile(rb"\$\((?=%b).*?%b\$\)(?=%b|\Z)" % (SPACE, SPACE, SPACE), re.DOTALL)
# A whole comment, one that does not end, or a word that may end a unit or open a block.
MARK = re.compile(rb"%b|\$[.({}\]](?=%b|\Z)" % (COMMENT.pattern, SPACE), re.DOTALL)
SPACES = re.compile(rb"%b*" % SPACE)
INCLUSION = re.compile(rb"\$\[%b+([^ \t\n\f\r]+)%b+\$\]" % (SPACE, SPACE))
OPENED = re.compile(rb"\$[()[]")
LABELLED = re.compile(rb"\$([aefp])(?=%b)" % SPACE)


def ends(text: bytes, at: int = 0) -> Iterator[int]:
    """The bytes at which pieces end, from the beginning of one on, up to where no more is one.

    >>> list(ends(b"$( a $) $c a $.  ${ $} x $a"))
    [17, 23]
    """
    depth = 0
    for found in MARK.finditer(text, at):
        begin, end = found.span()
        mark = text[begin + 1]
        if mark == 0x28:
            if end - begin == 2:
                return
            continue
        if mark == 0x7B:
            depth += 1
            continue
        if mark == 0x7D:
            depth -= 1
        if depth < 0:
            return
        if depth == 0:
            yield SPACES.match(text, end).end()


def ended(text: bytes) -> bytes:
    """A text with the line feed that is read after it where it does not end in white space."""
    return text if not text or text[-1] in b" \t\n\f\r" else text + b"\n"


def cut(text: bytes) -> tuple:
    """The pieces of a text, and its tail. Of a text with a fault they are what the fault leaves: nobody may rely on more.

    >>> cut(b"$c a $. $( typed $) v $f a b $. $( the end $)")
    ([b'$c a $. ', b'$( typed $) v $f a b $. '], b'$( the end $)\\n')
    """
    text = ended(text)
    at = [0, *ends(text)]
    return [text[begin:end] for begin, end in zip(at, at[1:])], text[at[-1] :]


def pieces(text: bytes) -> list:
    """The pieces of a text without a fault, each with its one unit, the comments before it and the white space after.

    >>> pieces(b"$( empty $) ${ $( $. $) $}")
    [b'$( empty $) ${ $( $. $) $}\\n']
    """
    return cut(text)[0]


def blank(text: bytes) -> bytes:
    """A text with spaces in the place of each byte of its comments.

    >>> blank(b"a $( b $) $a")
    b'a         $a'
    """
    return COMMENT.sub(lambda found: b" " * len(found[0]), text) if b"$(" in text else text


def is_block(piece: bytes) -> bool:
    """Whether a piece is a block: it has a `${` that is in no comment.

    >>> is_block(b"$( ${ $) $v x $. "), is_block(b"$( a $) ${ $} ")
    (False, True)
    """
    return b"${" in piece and b"${" in blank(piece)


def labels(piece: bytes) -> list:
    """The labels of a piece, each with its kind (`a`, `e`, `f` or `p`) and its first byte.

    >>> labels(b"${ h $( c $) $e p $. x $a p $. $} ")
    [('h', 'e', 3), ('x', 'a', 21)]
    """
    text, before, found = blank(piece), 0, []
    for each in LABELLED.finditer(text):
        end = before + len(text[before : each.start()].rstrip())
        begin = 1 + max(text.rfind(space, before, end) for space in (b" ", b"\n", b"\t", b"\r", b"\f"))
        begin = max(begin, before)
        if begin < end:
            found.append((os.fsdecode(text[begin:end]), each[1].decode(), begin))
        before = each.end()
    return found


def inclusions(text: bytes) -> list:
    """The names of the inclusions in a text.

    >>> inclusions(b"$( $[ a.mm $] $) $[ b.mm $] $[ $( c $) d.mm $]")
    ['b.mm', 'd.mm']
    """
    found = []
    for at in inclusion_places(text):
        name = INCLUSION.match(text, at) or INCLUSION.match(blank(text[at : at + 65_536]))
        found += [os.fsdecode(name[1])] if name else []
    return found


def inclusion_places(text: bytes) -> Iterator[int]:
    """The bytes at which inclusions begin.

    >>> list(inclusion_places(b"$( $[ a.mm $] $) $[ b.mm $] "))
    [17]
    """
    comment = False
    for each in OPENED.finditer(text) if b"$[" in text else ():
        comment = each[0] == b"$(" or comment and each[0] != b"$)"
        if each[0] == b"$[" and not comment:
            yield each.start()
