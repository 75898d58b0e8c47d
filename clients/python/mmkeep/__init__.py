"""A client of the program mmkeep, in the standard library alone. README.md of its folder shows it in use.

    Session(top)         holds `mmkeep session`, with a method for each command of docs/SCRIPTS.md
    verify(top)          runs `mmkeep verify`, and answers the report as values
    pieces(text)         cuts a text as docs/LANGUAGE.md says; cut(text) answers the tail too
    edits(file, a, b)    few edits from one list of pieces to another
    read_report(text)    the values of a report that was written to a file
    explain(report)      a report as text for people; also `mmkeep verify TOP 2>&1 | mmkeep-explain TOP`

Texts are bytes. Labels, words and names of files are strings, by the rules of os.fsdecode where a byte is no text.
A command that the program refuses raises Refused, with its number; a program that ended raises Ended, with its status.
"""
from .client import Ended, Refused, Session, program, verify
from .cutting import blank, cut, ended, ends, inclusions, labels, pieces
from .edits import Delete, Edit, Insert, Move, Replace, after, edits
from .explain import explain
from .faults import INCOMPLETE, SENTENCES, STATUSES
from .reports import COUNTS, Counts, Finding, Place, Report, read_finding, read_report
from .sources import Statement, statements

__version__ = "0.9.0"
__all__ = [
    *("Session", "verify", "program", "Refused", "Ended"),
    *("Insert", "Replace", "Delete", "Move", "Edit", "edits", "after"),
    *("cut", "pieces", "ended", "ends", "blank", "labels", "inclusions", "Statement", "statements"),
    *("read_report", "read_finding", "Report", "Finding", "Counts", "Place", "COUNTS"),
    *("explain", "SENTENCES", "INCOMPLETE", "STATUSES"),
]
