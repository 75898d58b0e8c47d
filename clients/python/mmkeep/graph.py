"""Draws what a theorem rests on: mmkeep-graph [--dot] [--all] TOP LABEL > FILE.svg.

Each assertion to which chains of citations lead is a box, the theorem at the top and the axioms at the bottom. A line leads from each
to those that its proof cites. The colour says what was found of it: an axiom, a proof that is proved, incomplete or wrong. What makes a
picture hard to read is left out: axioms with another typecode than the theorem, lines that a longer chain makes needless, and theorems
that are far from it, if there are many: one box counts them. --all draws everything.
"""
from __future__ import annotations

import html
import sys
from typing import Iterator, Optional

from .client import Ended, Refused, Session, executable
from .programs import guarded
from .reports import Finding
from .sources import Reading, Sources

# How many theorems are drawn at most. The width of a page, the height of a box, and the room between two, in pixels.
MOST, ACROSS, HEIGHT, GAP, DROP, LETTER = 60, 1100, 22, 14, 46, 7.3
COLOURS = {"axiom": "#d8e6f8", "proved": "#dff0d8", "incomplete": "#fdf3cf", "wrong": "#f6cfcf"}
LINES = {"axiom": "#3a6ea5", "proved": "#4c8c3f", "incomplete": "#b8860b", "wrong": "#b03030"}


class Graph:
    """What an assertion rests on: what each cites, and what is found of it."""

    def __init__(self, session: Session, label: str) -> None:
        self.label = label
        # The name of the one that stands for many, if there is one.
        self.many: Optional[str] = None
        self.cites: dict = {}
        self.found: dict = {}
        left = [label]
        while left:
            name = left.pop()
            if name not in self.cites:
                self.found[name] = session.verdict(name)
                self.cites[name] = session.cites(name)
                left += self.cites[name]

    def syntax(self, reading: Reading) -> set:
        """The axioms with another typecode than the assertion: they say what an expression is, and not what holds."""
        own = typecode(reading, self.label)
        return {name for name, finding in self.found.items() if finding.kind == "axiom" and typecode(reading, name) not in (own, None)}

    def without(self, left_out: set) -> None:
        """Leaves some out."""
        self.found = {name: finding for name, finding in self.found.items() if name not in left_out}
        self.cites = {name: [each for each in cited if each not in left_out] for name, cited in self.cites.items() if name not in left_out}

    def gather(self, most: int) -> None:
        """Makes one of all theorems but so many, which are those that are nearest to the assertion."""
        near, level = {self.label}, [self.label]
        while level:
            level = sorted({each for name in level for each in self.cites[name] if self.found[each].kind != "axiom"} - near)
            if len(near) + len(level) > most:
                break
            near.update(level)
        axioms = {name for name, finding in self.found.items() if finding.kind == "axiom"}
        more = [name for name in self.found if name not in near and name not in axioms]
        if not more:
            return
        kinds = [self.found[name].kind for name in more]
        worst = next(kind for kind in ("wrong", "incomplete", "proved") if kind in kinds)
        self.many = said = f"{len(more):,} more theorem{'' if len(more) == 1 else 's'}"
        below = {each for name in more for each in self.cites[name] if each in axioms}
        cites = {name: [each for each in self.cites[name] if each in near or each in axioms] for name in near}
        for name in near:
            if any(each not in near and each not in axioms for each in self.cites[name]):
                cites[name].append(said)
        self.cites = {**cites, said: sorted(below), **{name: [] for name in axioms}}
        self.found = {**{name: self.found[name] for name in (*near, *axioms)}, said: Finding(worst)}


def typecode(reading: Reading, label: str) -> Optional[str]:
    """The typecode of an assertion, if it is found."""
    statement = reading.labelled(label)[1]
    return statement.symbols[0] if statement and statement.symbols else None


def heights(cites: dict) -> dict:
    """How many citations the longest chain down from each has."""
    found: dict = {}
    for top in cites:
        left = [top]
        while left:
            lower = [each for each in cites[left[-1]] if each not in found]
            if lower:
                left += lower
                continue
            name = left.pop()
            found[name] = 1 + max((found[each] for each in cites[name]), default=-1)
    return found


def needed(cites: dict) -> dict:
    """What each cites, without what another one that it cites leads to."""
    height = heights(cites)
    below: dict = {}
    for name in sorted(cites, key=lambda each: height[each]):
        below[name] = set().union(*(below[each] | {each} for each in cites[name]))
    return {name: [each for each in cited if not any(each in below[other] for other in cited)] for name, cited in cites.items()}


def dot(graph: Graph, cites: dict, notes: list) -> Iterator[str]:
    """The lines of the graph in the language of graphviz."""
    yield "digraph {"
    yield from (f"  // {note}" for note in notes)
    yield '  node [shape=box, style="filled,rounded", fontname="DejaVu Sans Mono", fontsize=10]'
    for name, finding in graph.found.items():
        yield f'  "{name}" [fillcolor="{COLOURS[finding.kind]}", color="{LINES[finding.kind]}"]'
    yield from (f'  "{name}" -> "{other}"' for name, cited in cites.items() for other in cited)
    yield "}"


def rows(graph: Graph, cites: dict) -> list:
    """The assertions in rows, the axioms last; each row in the order of the middle of what cites its members, and none too wide."""
    height = heights(cites)
    axioms = [name for name, finding in graph.found.items() if finding.kind == "axiom" and name != graph.label]
    levels: dict = {}
    for name in cites:
        if name not in axioms:
            levels.setdefault(height[name], []).append(name)
    ordered = [levels[level] for level in sorted(levels, reverse=True)] + ([axioms] if axioms else [])
    place: dict = {graph.label: 0.0}
    users: dict = {}
    for name, cited in cites.items():
        for other in cited:
            users.setdefault(other, []).append(name)
    for row in ordered:
        row.sort(key=lambda name: (middle([place[user] for user in users.get(name, ()) if user in place]), name))
        place.update({name: (at + 1) / (len(row) + 1) for at, name in enumerate(row)})
    return [part for row in ordered for part in parted(row)]


def parted(row: list) -> Iterator[list]:
    """A row in parts of about the same width, none wider than a page."""
    whole = sum(map(long, row))
    most = whole / max(1, -(-whole // ACROSS)) + 1
    part: list = []
    for name in row:
        if part and sum(map(long, part)) + long(name) > most + long(name) / 2:
            yield part
            part = []
        part.append(name)
    yield part


def long(name: str) -> float:
    """How long the box of a name is, with the room behind it."""
    return len(name) * LETTER + 16 + GAP


def middle(places: list) -> float:
    """The mean of places, or the middle of the picture."""
    return sum(places) / len(places) if places else 0.5


def svg(graph: Graph, cites: dict, notes: list) -> Iterator[str]:
    """The lines of a picture."""
    lines = rows(graph, cites)
    boxes: dict = {}
    width = max([420.0, *(sum(map(long, row)) - GAP for row in lines), *(len(note) * LETTER for note in notes)])
    down, frame = 20.0, 0.0
    for row in lines:
        if graph.many and not frame and graph.found[row[0]].kind == "axiom":
            down, frame = down + GAP, down
        at = 20 + (width - sum(map(long, row)) + GAP) / 2
        for name in row:
            boxes[name] = (at, down, long(name) - GAP)
            at += long(name)
        down += HEIGHT + (GAP if frame else DROP)
    legend = down + GAP
    size = f'width="{width + 40:.0f}" height="{legend + 40 + 18 * len(notes):.0f}"'
    yield f'<svg xmlns="http://www.w3.org/2000/svg" {size} font-family="DejaVu Sans Mono, monospace" font-size="12">'
    yield f"<title>What {html.escape(graph.label)} rests on</title>"
    yield '<rect width="100%" height="100%" fill="white"/>'
    if graph.many:
        # One line leads from what stands for many to a frame that has all axioms.
        x, y, wide = boxes[graph.many]
        yield f'<rect x="{20 - GAP / 2}" y="{frame}" width="{width + GAP}" height="{down - frame}" rx="9" fill="none" stroke="{LINES["axiom"]}" stroke-opacity="0.55"/>'
        yield curve(x + wide / 2, y + HEIGHT, x + wide / 2, frame, LINES["axiom"])
    for name, cited in cites.items():
        x, y, wide = boxes[name]
        for other in cited if name != graph.many else ():
            to, below, across = boxes[other]
            yield curve(x + wide / 2, y + HEIGHT, to + across / 2, below, LINES[graph.found[other].kind])
    for name, (x, y, wide) in boxes.items():
        yield from box(name, graph.found[name], x, y, wide)
    at = 20.0
    for kind in COLOURS:
        count = sum(finding.kind == kind for name, finding in graph.found.items() if name != graph.many)
        if count:
            said = f"{count:,} {kind}{'s' if kind == 'axiom' and count != 1 else ''}"
            yield from box(said, Finding(kind), at, legend, long(said) - GAP)
            at += long(said)
    yield from (f'<text x="20" y="{legend + 44 + 18 * number}">{html.escape(note)}</text>' for number, note in enumerate(notes))
    yield "</svg>"


def curve(x: float, y: float, to: float, below: float, colour: str) -> str:
    """A line from one box down to another."""
    half = (y + below) / 2
    return f'<path d="M{x:.1f},{y:.1f} C{x:.1f},{half:.1f} {to:.1f},{half:.1f} {to:.1f},{below:.1f}" fill="none" stroke="{colour}" stroke-opacity="0.55"/>'


def box(name: str, finding: Finding, x: float, y: float, long: float) -> Iterator[str]:
    """A box with a name."""
    said = f"{name}: {finding.kind}{f' {finding.number}' if finding.number else ''}"
    yield f'<g><title>{html.escape(said)}</title><rect x="{x:.1f}" y="{y:.1f}" width="{long:.1f}" height="{HEIGHT}" rx="5" '
    yield f'fill="{COLOURS[finding.kind]}" stroke="{LINES[finding.kind]}"/>'
    yield f'<text x="{x + long / 2:.1f}" y="{y + 15:.1f}" text-anchor="middle">{html.escape(name)}</text></g>'


@guarded
def main() -> int:
    """Writes the picture of an assertion of a database."""
    words = sys.argv[1:]
    flags = {each for each in words if each in ("--dot", "--all")}
    words = [each for each in words if each not in flags]
    if len(words) != 2:
        sys.exit("usage: mmkeep-graph [--dot] [--all] TOP LABEL")
    try:
        with Session(words[0]) as session:
            graph = Graph(session, words[1])
    except Refused:
        sys.exit(f"mmkeep-graph: no sound $a or $p has the label {words[1]} (K01)")
    except (Ended, ValueError) as error:
        sys.exit(f"mmkeep-graph: {error}")
    except OSError as error:
        sys.exit(f"mmkeep-graph: the program {executable(None)} cannot be run: {error.strerror}")
    notes = [] if "--all" in flags else simplified(graph, words[0])
    cites = graph.cites if "--all" in flags else needed(graph.cites)
    for line in (dot if "--dot" in flags else svg)(graph, cites, notes):
        print(line)
    return 0


def simplified(graph: Graph, top: str) -> list:
    """Leaves out of a graph what makes it hard to read. Answers what that is."""
    left_out = graph.syntax(Reading(Sources(), top))
    graph.without(left_out)
    graph.cites = needed(graph.cites)
    graph.gather(MOST)
    several = "1 axiom" if len(left_out) == 1 else f"{len(left_out):,} axioms"
    return [f"not shown: {several} with another typecode, for what an expression is"] if left_out else []
