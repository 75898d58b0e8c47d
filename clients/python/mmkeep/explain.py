"""Turns a report into text for people: mmkeep verify TOP 2>&1 | mmkeep-explain [--all] [TOP].

The causes come first: a file that is missing, and the first statements at fault, since one of them can make thousands of proofs
wrong that name it. Then come wrong proofs, in groups by what they have in common. The first of each group is shown in full: its
line with a mark below it, its sentence, and, if TOP is named, what its step expected and what it got. With --all each finding is
shown so; else at most 50 lines are printed. Ends with status 1 if there are findings, or no report was read.
"""
from __future__ import annotations

import collections
import itertools
import os
import re
import sys
import unicodedata
from typing import Iterable, Iterator, Optional, Union

from .causes import causes
from .machine import Machine
from .programs import given, guarded, plain
from .reports import COUNTS, Finding, Report, read_finding
from .sources import Reading, Sources

# The most lines of a report, and of what is below the first line of a finding; how many faults are shown with their line.
LINES, WIDTH, FAULTS, NAMES = 50, 120, 5, 6
BYTE_ORDER_MARK = b"\xef\xbb\xbf"
COMMENT_MARK = re.compile(rb"(?<![^ \t\n\f\r])\$([()])(?=[ \t\n\f\r])")
WORD = re.compile(rb"[^ \t\n\f\r]+")
BEGINNINGS = (b"$c", b"$v", b"$d", b"$f", b"$e", b"$a", b"$p", b"${", b"$}", b"$=", b"$[")


def caret(sources: Sources, finding: Finding) -> list:
    """The line of a finding with a mark below what it is of, cut to what is near."""
    shown, at = sources.line(finding.place, 80, WIDTH)
    below = "".join("\t" if each == "\t" else " " for each in shown[:at])
    number = str(finding.place.line)
    length = min(marked(sources, finding), max(1, len(shown) - len(below)))
    return [f"  {number} | {shown}", f"  {' ' * len(number)} | {below}^{'~' * (length - 1)}"]


def marked(sources: Sources, finding: Finding) -> int:
    """How many bytes are marked: a word, or one letter among those of a proof."""
    text, at = sources.text(finding.place.file), sources.byte(finding.place)
    word = sources.word(finding.place)
    is_letter = finding.kind in ("wrong", "incomplete") and finding.number not in ("P01", "P02") and in_letters(*sources.piece(finding.place))
    return 1 if finding.number == "T01" or is_letter else max(1, len(word))


def in_letters(text: bytes, at: int) -> bool:
    """Whether a byte of a proof is among its letters: behind the `)` of a list. Comments are blank.

    >>> in_letters(b"a $p b $= ( c ) ABC $. ", 17), in_letters(b"a $p b $= ( c ) ABC $. ", 12)
    (True, False)
    """
    begin = text.rfind(b"$=", 0, at)
    return re.match(rb"\$=\s+\(\s", text[begin:at]) is not None and b")" in text[begin:at] and text[at : at + 1] != b"$"


def notes(sources: Sources, reading: Optional[Reading], finding: Finding) -> list:
    """What else is known of a finding, beside its sentence."""
    text, at = sources.text(finding.place.file), sources.byte(finding.place)
    word = sources.word(finding.place)
    if finding.number == "T01":
        return byte_note(text, at)
    if finding.number == "T03":
        begin = comment_before(text, at)
        opened = [f"the comment that is open here begins at {sources.place(finding.place.file, begin)}"] if begin is not None else []
        return [*opened, *spaced(word)]
    if finding.number == "T05":
        return spaced(word)
    if finding.number == "T06":
        return unfinished(text, at)
    if finding.number == "T08":
        return unclosed(sources, finding)
    if finding.number == "T11" and re.match("<{7}|={7}|>{7}", word):
        return ["it looks like a mark of a merge that was not resolved"]
    if finding.number == "F06" and reading:
        place = reading.place(word)
        return [f"it is that of the statement at {place}"] if place and place != finding.place else []
    if finding.label and reading:
        return faults_of_block(sources, reading, finding)
    if finding.number == "F14":
        return [f"names of inclusions are opened from the folder where mmkeep runs: here that is {os.path.realpath(sources.folder)}"]
    return []


def byte_note(text: bytes, at: int) -> list:
    """What a byte that no text may contain is."""
    if at == 0 and text.startswith(BYTE_ORDER_MARK):
        return ["it begins a byte order mark, which an editor can leave out (UTF-8 without BOM)"]
    if text[at : at + 1] < b"\x80":
        return [f"it is the control character 0x{text[at]:02X}"] if at < len(text) else []
    for length in (2, 3, 4):
        try:
            letter = text[at : at + length].decode("utf-8")
            shown = f"`{letter}`, " if letter.isprintable() else ""
            name = unicodedata.name(letter, "")
            return [f"it begins {shown}U+{ord(letter):04X}{f' {name}' if name else ''} ({length} bytes of UTF-8): a text has ASCII alone, in comments too"]
        except UnicodeDecodeError:
            continue
    return [f"it is the byte 0x{text[at]:02X}: a text has ASCII alone, in comments too"]


def comment_before(text: bytes, at: int) -> Optional[int]:
    """Where the comment begins that is open at a byte.

    >>> comment_before(b"$( a $) $( b $( c ", 13)
    8
    """
    begin = None
    for found in COMMENT_MARK.finditer(text, 0, at):
        if found[1] == b")":
            begin = None
        elif begin is None:
            begin = found.start()
    return begin


def unclosed(sources: Sources, finding: Finding) -> list:
    """Where the `$}` may be missing of a block that is not closed: before the next `${` in its column, or the end of its file."""
    text, at = sources.text(finding.place.file), sources.byte(finding.place)
    indent = text[text.rfind(b"\n", 0, at) + 1 : at]
    found = re.compile(rb"^%b\$\{(?=[ \t\n\f\r])" % re.escape(indent), re.M).search(text, at + 2) if not indent.strip() else None
    if found:
        return [f"the next `${{` in its column is at {sources.place(finding.place.file, found.end() - 2)}: is a `$}}` missing before that?"]
    return ["its `$}` has to come before the end of this file, since a block does not go on in another one"]


def faults_of_block(sources: Sources, reading: Reading, finding: Finding) -> list:
    """That statements at fault are before a theorem in its block: they are not active."""
    declared = reading.declared.get(finding.label)
    if declared is None:
        return []
    file, begin, _ = reading.pieces[declared.piece]
    marks = sources.between(file, begin, declared.at)
    if not marks:
        return []
    several = "a statement before it in its block is" if len(marks) == 1 else f"{len(marks):,} statements before it in its block are"
    return [f"{several} at fault, from {sources.place(file, marks[0])} on"]


def spaced(word: str) -> list:
    """That a keyword wants white space before it, if a word ends with one."""
    found = re.fullmatch(r"(.+)(\$[()\[\]{}.=acdefpv])", word)
    return [f"a keyword wants white space before it: `{found[1]} {found[2]}`"] if found else []


def unfinished(text: bytes, at: int) -> list:
    """What a statement before a word lacks, if that may be."""
    found = WORD.match(text, at)
    word = found[0] if found else b""
    if word == b"$." and re.search(rb"\$p\s[^$]*\Z", text[max(0, at - 10_000) : at]):
        return ["expected `$=` and a proof before it: the statement is a `$p`"]
    return ["expected `$.` here: the statement before is not ended"] if word in BEGINNINGS else []


def step_lines(sources: Sources, reading: Optional[Reading], finding: Finding) -> list:
    """What the step of a wrong proof expected and got, if that can be worked out."""
    if not reading or finding.number not in ("P07", "P08", "P09", "P10", "P11", "P14", "P15"):
        return []
    try:
        return Machine(reading, finding.label).explained(sources.byte(finding.place))
    except (AttributeError, IndexError, KeyError, ValueError):
        # The files are not those of the report.
        return []


def shown(sources: Sources, reading: Optional[Reading], finding: Finding) -> list:
    """The lines on one finding."""
    name = f"{finding.label}: " if finding.label else ""
    first = f"{finding.place}: {name}{finding.sentence()}{f' ({finding.number})' if finding.number else ''}"
    below = [*notes(sources, reading, finding), *step_lines(sources, reading, finding)]
    return [first, *caret(sources, finding), *(f"    {cut(line)}" for line in below)]


def cut(line: str) -> str:
    """A line that is not too long to be read."""
    return line if len(line) <= 4 * WIDTH else f"{line[: 4 * WIDTH]} .. ({len(line):,} characters)"


def names(findings: list) -> str:
    """Where else a group of proofs is, in a few words."""
    others = [each.label for each in findings[1 : NAMES + 1]]
    more = len(findings) - 1 - len(others)
    return f"{', '.join(others)}{f' and {more:,} more' if more else ''}"


def tally(findings: list) -> str:
    """How many faults there are with each number."""
    count = collections.Counter(each.number for each in findings)
    return ", ".join(f"{number} {count[number]:,} times" for number in sorted(count, key=lambda each: (-count[each], each)))


def blocks(findings: list, folder: Optional[str], top: Optional[str], before: Iterable[str], whole: bool) -> Iterator[tuple]:
    """The lines that are to be shown, block by block, each with the number of findings that it tells of."""
    sources = Sources(folder, [each.place for each in findings if each.kind == "fault"])
    faults = sorted((each for each in findings if each.kind == "fault"), key=lambda each: each.number != "F14")
    first = len(faults) if whole else FAULTS
    for each in faults[:first]:
        yield 1, shown(sources, None, each) if each.number != "F06" else shown(sources, database(sources, top), each)
    if faults[first:]:
        yield len(faults) - first, [f"{len(faults) - first:,} more faults of statements: {tally(faults[first:])}"]
    incomplete = [each for each in findings if each.kind == "incomplete"]
    if incomplete:
        more = [] if whole else incomplete[1:]
        for each in incomplete[: len(incomplete) - len(more)]:
            yield 1, shown(sources, None, each)
        if more:
            yield len(more), [f"{len(more):,} more proofs are incomplete: {names(incomplete)}"]
    if not any(each.kind == "wrong" for each in findings):
        return
    reading = database(sources, top)
    for cause in causes(findings, sources, reading, before):
        if whole:
            yield from ((1, shown(sources, reading, each)) for each in cause.findings)
            continue
        lines = shown(sources, reading, cause.findings[0])
        if len(cause.findings) > 1:
            yield len(cause.findings), [cause.said, f"  the first is shown; also {names(cause.findings)}", *(f"  {line}" for line in lines)]
        else:
            yield 1, [*lines, *([f"    {cause.said}"] if cause.findings[0].number == "P01" else [])]


def database(sources: Sources, top: Optional[str]) -> Optional[Reading]:
    """The database of a top file, read once; nothing if its name is not known."""
    if top is not None and sources.reading is None:
        sources.reading = Reading(sources, top)
    return sources.reading


def lines(findings: list, folder: Optional[str] = None, top: Optional[str] = None, before: Iterable[str] = (), limit: Optional[int] = LINES) -> Iterator[str]:
    """Findings as lines for people, at most so many. With no limit each finding is shown."""
    left, told = limit, 0
    for count, block in blocks(findings, folder, top, before, limit is None):
        if left is not None and left < 2:
            break
        # The last line is left for what is not shown.
        if left is not None and len(block) > left - 1:
            block = block[:1] if left > 1 and told == 0 else []
        if block:
            told += count
            left = left and left - len(block)
            yield from block
    if told < len(findings):
        yield f"{len(findings) - told:,} more findings are not shown (--all shows them)"


def explain(report: Union[Report, list], folder: Optional[str] = None, top: Optional[str] = None, whole: bool = False) -> list:
    """A report, or a list of findings, as lines for people: see the top of this module. `whole` shows each finding."""
    findings = report.findings if isinstance(report, Report) else report
    return [*lines(findings, folder, top, (), None if whole else LINES)]


@guarded
def main() -> int:
    """Reads a report from standard input, and prints what it says."""
    words = sys.argv[1:]
    whole = "--all" in words
    words = [each for each in words if each != "--all"]
    if len(words) > 1 or words[:1] == ["--help"]:
        sys.exit("usage: mmkeep verify TOP 2>&1 | mmkeep-explain [--all] [TOP]")
    read = given().split("\n")
    findings = [each for each in map(read_finding, read) if each and each.place]
    rest = [line for line in read if COUNTS.fullmatch(line) or line.startswith("mmkeep:") and not read_finding(line)]
    top = words[0] if words else None
    lost = top is not None and not os.path.isfile(top) and not any(line.startswith("mmkeep:") for line in rest)
    if lost:
        print(f"mmkeep-explain: {top}: cannot be read, so no step is explained", file=sys.stderr, flush=True)
    if not findings and not rest:
        sys.exit("mmkeep-explain: standard input is no report")
    if not whole:
        rest = rest[:FAULTS]
    limit = None if whole else LINES - len(rest)
    # The counts come first: they are there at once.
    for line in itertools.chain(rest, lines(findings, None, top, (), limit)):
        print(plain(line), flush=True)
    return 1 if lost or findings or not any(map(COUNTS.fullmatch, read)) else 0
