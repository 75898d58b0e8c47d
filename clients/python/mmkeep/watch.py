"""Verifies a database at each save: mmkeep-watch FILE.

It holds a session over the database, follows its files on disk, and prints after each save what broke, what was mended, and how
long that took. A file that is saved while it is read is read again. Inclusions are opened from the folder of FILE. Ends with Ctrl-C.
"""
from __future__ import annotations

import collections
import os
import sys
import time
from typing import Iterable, Iterator, Optional

from .buffers import stamp
from .causes import causes
from .client import Ended, Refused, Session, executable
from .cutting import cut, ended, inclusions
from .edits import edits
from .faults import SENTENCES
from .programs import guarded
from .reports import Finding, Report
from .sources import Sources, on_disk

# Seconds between two looks, and how many lines are printed of what broke and of what was mended.
PAUSE, MOST = 0.2, 12
RED, GREEN, YELLOW, GREY, PLAIN = "\033[31m", "\033[32m", "\033[33m", "\033[90m", "\033[0m"


def settled(path: str) -> tuple:
    """The stamp of a file, and its text as it is when no save is under way; nothing for both if it is not there."""
    while True:
        before = stamp(path)
        text = on_disk(path)
        if before == stamp(path):
            return before, text
        time.sleep(0.02)


def key(finding: Finding) -> tuple:
    """What a finding is, wherever it is."""
    return finding.kind, finding.label or finding.word, finding.number


def more(findings: list, others: list) -> list:
    """The findings that are not among others: of those that are alike, as many as there are more, and first those at a new place.

    >>> from mmkeep.reports import Place
    >>> old, new = (Finding("fault", None, Place("a.mm", line, 1), "F08", "b") for line in (7, 3))
    >>> more([new, old], [old]) == [new] == more([old, new], [old]), more([old], [old, new])
    (True, [])
    """
    left = collections.Counter(map(key, findings)) - collections.Counter(map(key, others))
    places = {(key(each), each.place) for each in others}
    found: list = []
    for at in sorted(range(len(findings)), key=lambda at: (key(findings[at]), findings[at].place) in places) if left else ():
        if left[key(findings[at])] > 0:
            left[key(findings[at])] -= 1
            found.append(at)
    return [findings[at] for at in sorted(found)]


class Watch:
    """A database that is followed: its files, with the stamps, the pieces and the tails of what the session has of them."""

    def __init__(self, top: str, program: Optional[str] = None) -> None:
        self.folder, self.top, self.program = os.path.dirname(top), os.path.basename(top), program
        self.session: Optional[Session] = None
        self.files: dict = {}
        self.tails: dict = {}
        self.stamps: dict = {}
        self.faults: dict = {}
        self.report: Optional[Report] = None

    def path(self, name: str) -> str:
        """The path of a file."""
        return os.path.join(self.folder, name)

    def reached(self) -> dict:
        """The texts of the files from the top file on; None for those that are not there."""
        found, left = {}, [self.top]
        while left:
            name = left.pop(0)
            if name not in found:
                self.stamps[name], found[name] = settled(self.path(name))
                left += inclusions(found[name] or b"")
        return found

    def begin(self) -> Iterator[str]:
        """Begins a session over the files as they are."""
        while True:
            self.close()
            self.stamps, self.faults = {}, {}
            texts = self.reached()
            at = time.monotonic()
            try:
                self.session = Session(self.top, self.folder or None, self.program)
                report = self.session.report()
            except Ended as error:
                self.session = None
                yield from self.told(f"{RED}{error}", at)
                return
            # It may have been loaded in the middle of a save.
            if all(stamp(self.path(name)) == self.stamps[name] for name in texts):
                break
        whole = {name: cut(text) for name, text in texts.items() if text is not None}
        self.files = {name: pieces for name, (pieces, _) in whole.items()}
        self.tails = {name: tail for name, (_, tail) in whole.items()}
        yield from self.told(f"{self.top}: {report.counts.theorems:,} theorems, {report.counts.proved:,} proved", at)
        yield from self.compared(report)

    def look(self) -> Iterator[str]:
        """Looks at the files, and tells what changed."""
        changed = [name for name, was in self.stamps.items() if stamp(self.path(name)) != was]
        if not changed:
            return
        if self.session is None:
            yield from self.begin()
            return
        at, new = time.monotonic(), {}
        for name in changed:
            self.stamps[name], text = settled(self.path(name))
            if text is None and name in self.files:
                # An editor may put another file in its place.
                time.sleep(PAUSE)
                self.stamps[name], text = settled(self.path(name))
            if text is None or name not in self.files:
                yield from self.begin()
                return
            new[name] = text
        if any(inclusions(text) != inclusions(b"".join(self.files[name])) for name, text in new.items()):
            yield from self.begin()
            return
        try:
            yield from self.edited(new, at)
        except Ended as error:
            yield from self.told(f"{RED}{error}", at)
            yield from self.begin()
        except ValueError:
            # The name of a file is no word of a command.
            yield from self.begin()

    def edited(self, new: dict, at: float) -> Iterator[str]:
        """Brings the session to new texts of files."""
        changes, said = [], None
        for name, text in new.items():
            if self.faults.pop(name, None):
                said = "the text has no fault any more"
            fault = self.session.fault(name, ended(text))
            if fault:
                self.faults[name] = fault
                number, line, column = fault
                yield from self.told(f"{RED}{self.path(name)}:{line}:{column} {number}: {SENTENCES[number]}", at)
                # It is looked at again with the next save.
                continue
            pieces, tail = cut(text)
            if tail != self.tails[name]:
                said = said or "nothing but comments behind the last statement changed"
            changes += edits(name, self.files[name], pieces)
            self.files[name], self.tails[name] = pieces, tail
        if not changes:
            if said and not self.faults:
                yield from self.told(said, at)
            return
        try:
            ran = self.session.batch(changes)
        except Refused:
            yield from self.begin()
            return
        report = self.session.report()
        yield from self.told(f"ran {len(ran):,}: {', '.join(ran[:6])}{', ..' if len(ran) > 6 else ''}" if ran else "ran 0", at)
        yield from self.compared(report)

    def compared(self, report: Report) -> Iterator[str]:
        """What is in one report, and not in the one before."""
        old = self.report.findings if self.report else []
        broke, mended = more(report.findings, old), more(old, report.findings)
        yield from self.listed(broke)
        yield from cut_short((f"  {GREEN}mended {each.label or each.word}{f' {each.number}' if each.number else ''}" for each in mended), len(mended))
        if old and not report.findings:
            yield f"  {GREEN}nothing is wrong any more"
        self.report = report

    def listed(self, broke: list) -> Iterator[str]:
        """What broke: of many, what they have in common."""
        lines = [f"  {YELLOW if each.kind == 'incomplete' else RED}broke {each.label or each.word}: {self.path(str(each.place))}{f' {each.number}' if each.number else ''} {each.sentence()}" for each in broke]
        if len(broke) > MOST:
            faults = [line for line, each in zip(lines, broke) if each.kind == "fault"]
            yield from cut_short(faults, len(faults))
            sources = Sources(self.folder or None, [each.place for each in broke if each.kind == "fault"])
            yield from cut_short((f"  {RED}{each.said}" for each in causes(broke, sources)), len(broke))
        else:
            yield from lines

    def told(self, text: str, at: float) -> Iterator[str]:
        """A line with the time of day, and how long something took."""
        yield f"{time.strftime('%H:%M:%S')} {text}{PLAIN} {GREY}({time.monotonic() - at:.2f} s)"

    def close(self) -> None:
        """Ends the session."""
        if self.session:
            self.session.close()
        self.session = None


def cut_short(lines: Iterable[str], count: int) -> Iterator[str]:
    """The first lines of some."""
    for number, line in enumerate(lines):
        if number == MOST:
            yield f"  {GREY}and {count - MOST:,} more"
            return
        yield line


@guarded
def main() -> int:
    """Follows a database until it is interrupted."""
    if len(sys.argv) != 2 or sys.argv[1].startswith("-"):
        sys.exit("usage: mmkeep-watch FILE")
    if not os.path.isfile(sys.argv[1]):
        sys.exit(f"mmkeep-watch: {sys.argv[1]}: cannot be read")
    watch = Watch(sys.argv[1])
    try:
        show(watch.begin())
        while True:
            time.sleep(PAUSE)
            show(watch.look())
    except KeyboardInterrupt:
        return 0
    except OSError as error:
        if error.filename != executable(None):
            raise
        sys.exit(f"mmkeep-watch: the program {error.filename} cannot be run: {error.strerror}")
    finally:
        if watch.session:
            watch.session.kill()


def show(lines: Iterable[str]) -> None:
    """Prints lines, with their colours on a terminal."""
    is_terminal = sys.stdout.isatty()
    for line in lines:
        for colour in () if is_terminal else (RED, GREEN, YELLOW, GREY, PLAIN):
            line = line.replace(colour, "")
        print(f"{line}{PLAIN}" if is_terminal else line, flush=True)
