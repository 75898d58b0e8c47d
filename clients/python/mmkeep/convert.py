"""Turns a report on standard input into JUnit XML, SARIF, or annotations for GitHub: mmkeep-convert --junit|--sarif|--github < REPORT.

The report is what `mmkeep verify FILE 2>&1` or `clients/ci/verify` prints, of one database or several. Ends with status 0
if it could read the report, and else with 1.
"""
from __future__ import annotations

import json
import os
import pathlib
import sys
import urllib.parse
import xml.sax.saxutils
from typing import Iterator

from .faults import INCOMPLETE, SENTENCES
from .programs import given, guarded
from .reports import COUNTS, Finding, read_finding

# Where each number is explained: at what MMKEEP_HELP names, or on the page of faults: in a clone, where `make install` puts it, or
# where Debian has it.
HERE = pathlib.Path(__file__).resolve().parent
FOLDERS = [HERE / "../../../docs", HERE / "../../doc/mmkeep", pathlib.Path("/usr/share/doc/mmkeep")]
PAGES = [folder.resolve() / name for folder in FOLDERS for name in ("FAULTS.md", "FAULTS.md.gz")]
HELP = os.environ.get("MMKEEP_HELP") or next((page.as_uri() for page in PAGES if page.exists()), None)


def printable(text: str) -> str:
    """A text without what no XML may hold, which is a question mark.

    >>> printable("a\\x01.mm")
    'a?.mm'
    """
    return "".join(letter if letter.isprintable() else "?" for letter in text)


def quoted(text: str) -> str:
    """A text as an attribute of XML."""
    return xml.sax.saxutils.quoteattr(printable(text))


def name_of(finding: Finding) -> str:
    """What a finding is of: the label of a theorem, or the word of a fault."""
    return finding.label or finding.word or finding.number


def number_of(finding: Finding) -> str:
    """The number of a finding; of an incomplete proof it has none."""
    return finding.number or "incomplete"


def junit(findings: list, counts: list, broken: list) -> Iterator[str]:
    """The lines of JUnit XML: a case for each finding, and one for each report that was read.

    Where no report is read, nothing was verified: that is an error."""
    lost = broken if broken or counts else ["nothing was verified"]
    tests = len(findings) + len(lost) + len(counts)
    yield '<?xml version="1.0" encoding="UTF-8"?>'
    yield f'<testsuite name="mmkeep" tests="{tests}" failures="{len(findings)}" errors="{len(lost)}">'
    for each in findings:
        yield f'  <testcase classname={quoted(each.place.file)} name={quoted(name_of(each))} file={quoted(each.place.file)} line="{each.place.line}">'
        said = xml.sax.saxutils.escape(printable(str(each.place)))
        yield f"    <failure type={quoted(number_of(each))} message={quoted(each.sentence())}>{said}</failure>"
        yield "  </testcase>"
    for line in lost:
        yield f'  <testcase classname="mmkeep" name={quoted(line)}><error type="mmkeep" message={quoted(line)}/></testcase>'
    yield from (f'  <testcase classname="mmkeep" name={quoted(line)}/>' for line in counts)
    yield "</testsuite>"


def result(finding: Finding) -> dict:
    """A result of SARIF."""
    uri = urllib.parse.quote(os.fsencode(pathlib.PurePath(finding.place.file).as_posix()))
    place = {"startLine": finding.place.line, "startColumn": finding.place.column}
    return {
        "ruleId": number_of(finding),
        "level": "warning" if finding.kind == "incomplete" else "error",
        "message": {"text": f"{name_of(finding)}: {finding.sentence()}"},
        "locations": [{"physicalLocation": {"artifactLocation": {"uri": uri}, "region": place}}],
    }


def rule(number: str) -> dict:
    """A rule of SARIF: what a number means, and where that is explained."""
    said = {"text": SENTENCES.get(number, INCOMPLETE)}
    return {"id": number, "shortDescription": said, "help": said, **({"helpUri": HELP} if HELP else {})}


def sarif(findings: list, counts: list, broken: list) -> Iterator[str]:
    """The lines of SARIF 2.1.0."""
    lost = broken if broken or counts else ["nothing was verified"]
    run = {
        "tool": {"driver": {"name": "mmkeep", "rules": [rule(each) for each in sorted({*map(number_of, findings)})]}},
        "columnKind": "utf16CodeUnits",
        "invocations": [{"executionSuccessful": not lost, "toolExecutionNotifications": [{"level": "error", "message": {"text": line}} for line in lost]}],
        "results": [result(each) for each in findings],
    }
    yield from json.dumps({"$schema": "https://json.schemastore.org/sarif-2.1.0.json", "version": "2.1.0", "runs": [run]}, indent=2).split("\n")


def escaped(text: str, more: str = "") -> str:
    """A text in a command of a GitHub workflow.

    >>> escaped("100%: a,b", ":,")
    '100%25%3A a%2Cb'
    """
    return "".join(f"%{ord(letter):02X}" if letter in "%\r\n" + more else letter for letter in text)


def github(findings: list, counts: list, broken: list) -> Iterator[str]:
    """The lines that make annotations in a GitHub workflow, each with its sentence."""
    for each in findings:
        kind = "warning" if each.kind == "incomplete" else "error"
        title = f"{name_of(each)} {each.number}" if each.number and each.number != name_of(each) else name_of(each)
        place = f"file={escaped(each.place.file, ':,')},line={each.place.line},col={each.place.column},title={escaped(title, ':,')}"
        yield f"::{kind} {place}::{escaped(each.sentence())}"
    for line in broken if broken or counts else ["nothing was verified"]:
        yield f"::error title=mmkeep::{escaped(line)}"
    yield from (f"::notice title=mmkeep::{escaped(line)}" for line in counts)


FORMS = {"--junit": junit, "--sarif": sarif, "--github": github}


@guarded
def main() -> int:
    """Reads a report, and writes it in another form."""
    form = FORMS.get(sys.argv[1]) if len(sys.argv) == 2 else None
    if form is None:
        sys.exit("usage: mmkeep-convert --junit|--sarif|--github < REPORT")
    lines = [line for line in given().split("\n") if line]
    findings = [found for found in map(read_finding, lines) if found and found.place]
    counts = [line for line in lines if COUNTS.fullmatch(line)]
    broken = [line for line in lines if line.startswith("mmkeep: ") and not read_finding(line)]
    for line in form(findings, counts, broken):
        print(line)
    if len(findings) + len(counts) + len(broken) < len(lines) or not lines:
        sys.exit("mmkeep-convert: standard input is no report")
    return 0
