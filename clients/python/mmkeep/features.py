"""What the language server offers beside diagnostics: each call answers in the terms of the protocol, for a database and a place.

A `base` is a database of the server; a `Live` (base.live()) is what it knows of the pieces that its session has.
"""
from __future__ import annotations

import bisect
import os
import re
from typing import TYPE_CHECKING, Iterator, Optional

from .buffers import units
from .client import Refused
from .cutting import COMMENT, blank
from .machine import named
from .sources import Statement, active_after, statements

if TYPE_CHECKING:
    from .buffers import Document, Held
    from .database import Base
    from .live import Live

WORD = re.compile(rb"[^ \t\n\f\r]+")
LABEL = re.compile(r"[A-Za-z0-9._-]+")
# So many labels are offered at once; a file with more assertions gets no lenses; so many bytes of a piece are read for completion.
OFFERED, LENSES, NEAR = 200, 3000, 1 << 18
KINDS = {"a": ("axiom", 14), "p": ("theorem", 12), "e": ("hypothesis", 13), "f": ("hypothesis", 13)}
# The kinds of tokens: words of Metamath, and the variables of the first typecodes.
TOKENS = ["keyword", "comment", "function", "operator", "variable", "parameter", "property", "type", "enumMember"]
VARIABLES = TOKENS.index("variable")


def counted(count: int, name: str) -> str:
    """A number of things."""
    return f"{count:,} {name}{'' if count == 1 else 's'}"


class Spot:
    """A byte of an open file: its piece, as the session has it, and what statement of that it is in."""

    def __init__(self, base: Base, document: Document, position: dict) -> None:
        self.base, self.document = base, document
        self.held = next((held for held in base.files.values() if held.document is document), None)
        self.at = document.text.byte(position)
        self.statement: Optional[Statement] = None
        if self.held and self.held.pieces and not self.held.dirty and not base.stale:
            self.piece = min(bisect.bisect_right(self.held.starts, self.at) - 1, len(self.held.pieces) - 1)
            self.offset = self.at - self.held.starts[self.piece]
            inside = (each for each in statements(self.held.pieces[self.piece]) if each.begin <= self.offset < each.end)
            self.statement = next(inside, None)

    def is_in_proof(self) -> bool:
        """Whether the byte is in a word of a proof, or right after one."""
        return self.statement is not None and any(at <= self.offset <= at + len(word) for word, at in self.statement.proof)

    def is_in_list(self) -> bool:
        """Whether the byte is in the list of a compressed proof, or in its brackets."""
        words = self.statement.proof
        end = next((at for word, at in words if word == ")"), None)
        return words[0][0] == "(" and end is not None and self.offset <= end


def hover(base: Base, document: Document, position: dict) -> Optional[str]:
    """What is known at a place: of a step of a proof, what it leaves; of a label, its frame, its comment and what is found of it."""
    spot = Spot(base, document, position)
    word = word_at(document, position)
    parts = []
    if spot.is_in_proof() and not spot.is_in_list() and word and word != "$.":
        parts.append(step_told(base, spot))
    live = base.live()
    if word in live.declared and (not spot.is_in_proof() or spot.is_in_list() or spot.statement.proof[0][0] != "("):
        parts.append(label_told(base, word))
    return "\n\n".join(filter(None, parts)) or None


def word_at(document: Document, position: dict) -> str:
    """The word at a position."""
    row, column = document.text.row(document.text.byte(position))
    line = document.text.line(row)[1]
    begin = len(re.split(rb"[ \t\n\f\r]", line[:column])[-1])
    found = WORD.match(line, column - begin)
    return os.fsdecode(found[0]) if found else ""


def step_told(base: Base, spot: Spot) -> Optional[str]:
    """What a step of a proof leaves."""
    done = base.live().step_at(spot.statement.label, spot.offset)
    if done is None:
        return None
    if done.wrong:
        return f"step {done.number}, {named(done.step.what)}, is wrong\n\n```\n" + "\n".join(done.wrong) + "\n```"
    if done.step.what == "save":
        return "the last entry is saved: `" + " ".join(done.left) + "`"
    return f"step {done.number}, {named(done.step.what)}, leaves\n\n```metamath\n{' '.join(done.left)}\n```"


def label_told(base: Base, label: str) -> str:
    """What is found of an assertion or a hypothesis, its frame, and its comment."""
    live = base.live()
    kind = live.declared[label].kind
    try:
        found = base.asked(base.session.verdict, label)
        told = f"**{found.kind}**{f' {found.number}: {found.sentence()}' if found.number else ''}"
        axioms, users = len(base.asked(base.session.axioms, label)), len(base.asked(base.session.users, label))
        told = f"`{label}` {told}, rests on {counted(axioms, 'axiom')}, used by {counted(users, 'theorem')}"
    except Refused:
        told = f"`{label}` hypothesis" if kind in "ef" else f"`{label}` is not sound"
    text, comment = live.frame_text(label), live.comment(label)
    late = "\n\nThis was so before the text had its fault." if base.stale else ""
    return told + (f"\n\n```metamath\n{text}\n```" if text else "") + (f"\n\n{comment}" if comment else "") + late


def completion(base: Base, document: Document, position: dict) -> dict:
    """The labels that may be named at a place in a proof: those of assertions before it, and its hypotheses."""
    at = document.text.byte(position)
    before = document.text.slice(max(0, at - 65_536), at)
    prefix = os.fsdecode(re.split(rb"[ \t\n\f\r]", before)[-1])
    text = blank(before)
    if not prefix or text.rfind(b"$=") < max(text.rfind(b"$."), text.rfind(b"${"), text.rfind(b"$}")):
        return {"isIncomplete": False, "items": []}
    held = next((held for held in base.files.values() if held.document is document), None)
    found = sorted((len(label), label, kind) for label, kind in named_before(base, held, at, prefix).items()) if held else []
    start = document.text.position(*document.text.row(at - len(os.fsencode(prefix))))
    span = {"start": start, "end": position}
    items = [{"label": label, "kind": 3 if kind in "ap" else 6, "detail": KINDS[kind][0], "documentation": shown(base, label), "sortText": f"{length:04d}{label}", "textEdit": {"range": span, "newText": label}} for length, label, kind in found[:OFFERED]]
    return {"isIncomplete": len(found) > OFFERED, "items": items}


def named_before(base: Base, held: Held, at: int, prefix: str) -> dict:
    """The labels with a prefix, and their kinds, that the proof at a byte may name: of assertions before it, and of active hypotheses.

    What is before it in its piece is read from the buffer, for it may be half written; of very much, the end."""
    live, piece = base.live(), held.piece_at(at)
    start, number = held.now(held.starts[piece]), live.read_before[held.name][piece]
    begin = max(start, at - NEAR)
    faults = sorted(live.faults.get((held.name, piece), ())) if not held.dirty else []
    inside = statements(held.document.text.slice(begin, at), begin - start)
    inside = [each for each in inside if bisect.bisect_left(faults, each.begin) == bisect.bisect_left(faults, each.end)]
    named = [each for each in inside if each.kind in ("$a", "$p")]
    named += [each for each in active_after(live.outer_before(number), inside) if each.kind in ("$e", "$f")]
    found = {label: each.kind for label, each in live.declared.items() if each.kind in "ap" and each.piece < number and label.startswith(prefix)}
    return {**found, **{each.label: each.kind[1] for each in named if each.label and each.label.startswith(prefix)}}


def shown(base: Base, label: str) -> str:
    """The statement of a label up to its proof."""
    return " ".join((base.statement(label) or "").split())


def assertions(base: Base, document: Document) -> Iterator[tuple]:
    """The labels of the assertions of an open file, with their kinds and ranges."""
    held = next((held for held in base.files.values() if held.document is document), None)
    if held is None:
        return
    for number, piece in enumerate(held.load()):
        for label, kind, at in base.live().parts_of(piece):
            if kind in "ap":
                start = held.position(number, at)
                yield label, kind, {"start": start, "end": {"line": start["line"], "character": start["character"] + len(label)}}


def document_symbols(base: Base, document: Document) -> list:
    """The assertions of a file."""
    return [{"name": label, "detail": KINDS[kind][0], "kind": KINDS[kind][1], "range": span, "selectionRange": span} for label, kind, span in assertions(base, document)]


def lenses(base: Base, document: Document) -> list:
    """How many proofs name each assertion of a file, if these are not too many to be shown."""
    found, uses = [*assertions(base, document)], base.live().uses()
    if len(found) > LENSES:
        return []
    return [{"range": span, "command": {"title": f"named by {counted(uses[label], 'proof')}", "command": ""}} for label, _, span in found]


def inlays(base: Base, document: Document, span: dict) -> list:
    """The same behind each label in a part of a file."""
    uses, first, last = base.live().uses(), span["start"]["line"], span["end"]["line"]
    return [{"position": where["end"], "label": f" named by {counted(uses[label], 'proof')}", "kind": 1} for label, _, where in assertions(base, document) if first <= where["start"]["line"] <= last]


FOLDS = re.compile(rb"\$\((?=[ \t\n\f\r]).*?[ \t\n\f\r]\$\)(?=[ \t\n\f\r]|\Z)|\$[{}=.](?=[ \t\n\f\r]|\Z)", re.DOTALL)


def folds(document: Document) -> list:
    """What can be folded: comments, blocks and proofs of more than one line."""
    text, found, blocks, proof = document.text.all(), [], [], None
    rows = [0, *(each.end() for each in re.finditer(rb"\n", text))]
    row = lambda at: bisect.bisect_right(rows, at) - 1
    for each in FOLDS.finditer(text):
        begin, end = each.start(), each.end()
        if text[begin + 1] == 0x28:
            found.append((row(begin), row(end - 1), "comment"))
        elif text[begin + 1] == 0x7B:
            blocks.append(begin)
        elif text[begin + 1] == 0x7D and blocks:
            found.append((row(blocks.pop()), row(begin), "region"))
        elif text[begin + 1] == 0x3D:
            proof = begin
        elif text[begin + 1] == 0x2E and proof is not None:
            found.append((row(proof), row(begin), "region"))
            proof = None
    return [{"startLine": first, "endLine": last, "kind": kind} for first, last, kind in found if first < last]


def renamed(base: Base, old: str, new: str) -> dict:
    """The edits that rename a label in all files of a database. A ValueError says why it cannot be."""
    live = base.live()
    if base.stale or any(held.dirty for held in base.files.values() if held.document):
        raise ValueError("a text has a fault: mend it first")
    if old not in live.declared:
        raise ValueError(f"{old} is no label")
    if not LABEL.fullmatch(new):
        raise ValueError(f"{new!r} can be no label: it has letters, digits, `.`, `-` and `_` alone")
    if new in live.declared or new in live.symbols():
        raise ValueError(f"{new} is taken: it is {'a label' if new in live.declared else 'a symbol'} already")
    changes: dict = {}
    for number, (file, _, text) in enumerate(live.pieces):
        if os.fsencode(old) not in text:
            continue
        held, piece = base.files[file], live.numbers[number]
        for at in places_of(text, old):
            start = held.position(piece, at)
            span = {"start": start, "end": {"line": start["line"], "character": start["character"] + len(old)}}
            changes.setdefault(base.server.uri(held.path), []).append({"range": span, "newText": new})
    return {"changes": changes}


def places_of(text: bytes, label: str) -> Iterator[int]:
    """Where a piece declares a label, or names it in a proof.

    >>> [*places_of(b"a $p x a $= ( a ) a $. b $p x $= a a ? $. ", "a")]
    [0, 14, 33, 35]
    """
    for each in statements(text):
        if each.label == label:
            yield each.begin
        words = each.proof[:-1]
        if words and words[0][0] == "(":
            words = words[1 : next((at for at, (word, _) in enumerate(words) if word == ")"), len(words))]
        yield from (at for word, at in words if word == label)


def tokens(base: Base, document: Document, span: Optional[dict] = None) -> list:
    """The words of a file, or of a part of it, as the protocol has tokens: each by its line, its column, its length and its kind."""
    live = base.live()
    begin, end = (document.text.byte(span[side]) for side in ("start", "end")) if span else (0, document.text.length)
    row, _ = document.text.row(begin)
    begin = document.text.line(row)[0]
    # A statement or a comment that begins before is read from its beginning, if that is near.
    first = begin
    held = next((held for held in base.files.values() if held.document is document), None)
    if held and held.pieces and not held.dirty:
        first = held.starts[max(bisect.bisect_right(held.starts, begin) - 1, 0)]
    found, last_row, last_column = [], 0, 0
    for word, at, kind in kinds_of(document.text.slice(first, end), live):
        if first + at < begin or kind is None:
            continue
        place = document.text.position(*document.text.row(first + at))
        line, column = place["line"], place["character"]
        found += [line - last_row, column - (last_column if line == last_row else 0), units(word), kind, 0]
        last_row, last_column = line, column
    return found


def kinds_of(text: bytes, live: Live) -> Iterator[tuple]:
    """The words of a text, each with its first byte and the number of its kind."""
    types, comments = live.typecodes(), COMMENT.finditer(text)
    comment = next(comments, None)
    order = sorted({*types.values()}, key=[*types.values()].index)
    number = {typecode: VARIABLES + min(at, len(TOKENS) - VARIABLES - 1) for at, typecode in enumerate(order)}
    state = ""
    for each in WORD.finditer(text):
        word, at = os.fsdecode(each[0]), each.start()
        while comment and comment.end() <= at:
            comment = next(comments, None)
        if comment and comment.start() <= at:
            yield word, at, 1
        elif word.startswith("$"):
            state = "" if word in ("$.", "${", "$}", "$]") else word
            yield word, at, 0
        elif state in ("", "$="):
            yield word, at, 2 if state == "" or word in live.declared else None
        else:
            yield word, at, number[types[word]] if word in types else 3


def actions(base: Base, document: Document, span: dict) -> list:
    """What mends the diagnostics in a part of a file: the `$d` that a proof lacks."""
    found = []
    for mark in document.marks:
        lacks = mark["data"].get("lacks")
        if not lacks or mark["range"]["end"]["line"] < span["start"]["line"] or mark["range"]["start"]["line"] > span["end"]["line"]:
            continue
        edits = with_pairs(base, mark["data"]["label"], lacks)
        if edits:
            found.append({"title": f"Add {lacks}", "kind": "quickfix", "diagnostics": [mark], "isPreferred": True, "edit": {"changes": {document.uri: edits}}})
    return found


def with_pairs(base: Base, label: str, lacks: str) -> list:
    """The edits that put `$d` before a theorem, in its block, or in one of its own."""
    live = base.live()
    declared = live.declared.get(label)
    if declared is None or base.stale:
        return []
    file, piece, _ = live.location(declared)
    held, text = base.files[file], live.pieces[declared.piece][2]
    each = next(each for each in statements(text) if each.label == label)
    is_inside = b"${" in blank(text[: each.begin])
    line = text[text.rfind(b"\n", 0, each.begin) + 1 : each.begin]
    indent = os.fsdecode(line) if not line.strip() else ""
    begin, end = held.position(piece, each.begin), held.position(piece, each.end)
    before = f"{lacks}\n{indent}" if is_inside else f"${{ {lacks}\n{indent}"
    edits = [{"range": {"start": begin, "end": begin}, "newText": before}]
    return edits if is_inside else [*edits, {"range": {"start": end, "end": end}, "newText": " $}"}]
