"""The lines of a report as values."""
from __future__ import annotations

import re
from typing import NamedTuple, Optional

from .faults import INCOMPLETE, SENTENCES


class Place(NamedTuple):
    """A byte of a file: lines and columns count from 1."""

    file: str
    line: int
    column: int

    def __str__(self) -> str:
        return f"{self.file}:{self.line}:{self.column}"


class Finding(NamedTuple):
    """What is found of a statement: `fault`, `wrong`, `incomplete`, `proved` or `axiom`."""

    kind: str
    label: Optional[str] = None
    place: Optional[Place] = None
    number: Optional[str] = None
    word: Optional[str] = None

    def sentence(self) -> str:
        """What is the matter, in a sentence of docs/FAULTS.md."""
        return INCOMPLETE if self.kind == "incomplete" else SENTENCES.get(self.number, self.kind)


class Counts(NamedTuple):
    """The last line of a report."""

    axioms: int
    theorems: int
    proved: int
    incomplete: int
    wrong: int
    faults: int


class Report(NamedTuple):
    """The findings of a report, in its order, and its counts."""

    findings: list
    counts: Counts

    def clean(self) -> bool:
        """Whether nothing is at fault, wrong or incomplete."""
        return not self.findings


FINDINGS = [
    re.compile(r"(?P<kind>fault) (?P<file>.*):(?P<line>\d+):(?P<column>\d+) (?P<number>F\d\d) (?P<word>\S+)"),
    re.compile(r"(?P<kind>wrong) (?P<label>\S+) (?P<file>.*):(?P<line>\d+):(?P<column>\d+) (?P<number>P\d\d)"),
    re.compile(r"(?P<kind>incomplete) (?P<label>\S+) (?P<file>.*):(?P<line>\d+):(?P<column>\d+)"),
    re.compile(r"(?P<kind>mmkeep): (?P<file>.*):(?P<line>\d+):(?P<column>\d+) (?P<number>T\d\d)"),
    re.compile(r"(?P<kind>proved|axiom) (?P<label>\S+)"),
]
COUNTS = re.compile(r"axioms (\d+) theorems (\d+) proved (\d+) incomplete (\d+) wrong (\d+) faults (\d+)")


def read_finding(line: str) -> Optional[Finding]:
    """The finding of a line, or nothing.

    >>> read_finding("wrong th a.mm:7:67 P09")
    Finding(kind='wrong', label='th', place=Place(file='a.mm', line=7, column=67), number='P09', word=None)
    """
    for shape in FINDINGS:
        found = shape.fullmatch(line)
        if found:
            parts = found.groupdict()
            place = Place(parts["file"], int(parts["line"]), int(parts["column"])) if "file" in parts else None
            kind = "fault" if parts["kind"] == "mmkeep" else parts["kind"]
            return Finding(kind, parts.get("label"), place, parts.get("number"), parts.get("word"))
    return None


def read_report(text: str) -> Report:
    """The report that a text is. A line of none raises ValueError.

    >>> read_report("axioms 2 theorems 1 proved 1 incomplete 0 wrong 0 faults 0\\n").clean()
    True
    """
    *lines, last = text.rstrip("\n").split("\n")
    counts = COUNTS.fullmatch(last)
    findings = [read_finding(line) for line in lines]
    if not counts or None in findings:
        raise ValueError(f"no report: {last if not counts else lines[findings.index(None)]!r}")
    return Report(findings, Counts(*map(int, counts.groups())))
