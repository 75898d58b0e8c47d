"""Runs one proof again, to say what a step expected and what it got, and what each step leaves."""
from __future__ import annotations

from typing import Iterator, NamedTuple, Optional, Union

from .sources import Frame, Reading, Statement, frame, pairs_of


# So many symbols the results of a proof may have together; what its steps expect is not worked out of more.
LARGEST = 20_000_000


class Step(NamedTuple):
    """A step of a proof: its last byte or the first of its word, and a label, the number of a saved step, `save` or `?`."""

    at: int
    what: Union[str, int]


def steps(statement: Statement, mandatory: list) -> list:
    """The steps of a proof that can be decoded."""
    words = statement.proof[:-1]
    if not words or words[0][0] != "(":
        return [Step(at, word) for word, at in words]
    end = [word for word, _ in words].index(")")
    meanings = [*mandatory, *(word for word, _ in words[1:end])]
    found, number = [], 0
    for letter, at in ((letter, at + byte) for word, at in words[end + 1 :] for byte, letter in enumerate(word)):
        if letter in "UVWXY":
            number = number * 5 + ord(letter) - ord("T")
        elif letter in "Z?":
            found.append(Step(at, "save" if letter == "Z" else "?"))
        else:
            number = number * 20 + ord(letter) - ord("A")
            found.append(Step(at, meanings[number] if number < len(meanings) else number - len(meanings)))
            number = 0
    return found


def replaced(expression: list, given: dict) -> list:
    """An expression with what its variables are given in their place."""
    return [symbol for each in expression for symbol in given.get(each, [each])]


class Done(NamedTuple):
    """A step that was done: its number, from 1, where a save is none; the step; what is wrong with it; what it leaves."""

    number: int
    step: Step
    wrong: list
    left: Optional[list]


class Machine:
    """The run of the proof of a theorem."""

    def __init__(self, reading: Reading, label: str) -> None:
        self.reading = reading
        self.stack: list = []
        self.saved: list = []
        # How many symbols its results have together.
        self.spent = 0
        # The pairs that no active `$d` keeps apart, of a step that wants them.
        self.lacks: list = []
        self.active, self.statement = reading.labelled(label)
        self.hypotheses = {each.label: each for each in self.active if each.kind in ("$e", "$f")}
        self.mandatory = [each.label for each in frame(self.active, self.statement).hypotheses]
        self.variables = {each.symbols[1] for each in self.active if each.kind == "$f"}
        self.pairs = pairs_of(self.active)

    def run(self) -> Iterator:
        """The steps, one after another, up to one that is wrong or unknown."""
        number = 0
        for step in steps(self.statement, self.mandatory):
            number += step.what != "save"
            if step.what == "?":
                return
            wrong = self.do(step.what)
            yield Done(number, step, wrong, self.stack[-1] if self.stack and not wrong else None)
            if wrong:
                return

    def explained(self, fault: int) -> list:
        """Lines on the step at a byte, or on the end; none where this run finds another fault, or none."""
        for done in self.run():
            if done.wrong:
                return [f"step {done.number}, {named(done.step.what)}", *done.wrong] if done.step.at == fault else []
        return self.end() if fault == self.statement.proof[-1][1] else []

    def end(self) -> list:
        """What is wrong after the last step."""
        if len(self.stack) != 1:
            return [f"{len(self.stack)} entries are left", *(f"entry    {' '.join(each)}" for each in self.stack[-4:])]
        return [f"expected {' '.join(self.statement.symbols)}", f"got      {' '.join(self.stack[0])}"]

    def do(self, what: Union[str, int]) -> list:
        """Does a step. Answers what is wrong with it."""
        if what == "save":
            self.saved.append(self.stack[-1])
        elif isinstance(what, int):
            self.stack.append(self.saved[what])
        elif what in self.hypotheses:
            self.stack.append(self.hypotheses[what].symbols)
        else:
            return self.cite(self.reading.frame(what))
        return []

    def cite(self, cited: Optional[Frame]) -> list:
        """Does a step that cites an assertion with this frame."""
        if cited is None:
            return ["it is no assertion"]
        count = len(cited.hypotheses)
        if len(self.stack) < count:
            return [f"expected {count} entries", f"got      {len(self.stack)}"]
        taken = self.stack[len(self.stack) - count :]
        wanted = sorted(zip(cited.hypotheses, taken), key=lambda each: each[0].kind == "$e")
        given = {each.symbols[1]: entry[1:] for each, entry in wanted if each.kind == "$f"}
        for each, entry in wanted:
            expected = [each.symbols[0], "..."] if each.kind == "$f" else replaced(each.symbols, given)
            if entry[0] != expected[0] if each.kind == "$f" else entry != expected:
                return differs(each, expected, entry)
        result = replaced(cited.expression, given)
        self.spent += len(result)
        if self.spent > LARGEST:
            raise ValueError("its expressions are too long to be worked out here")
        self.stack[len(self.stack) - count :] = [result]
        return self.joined(sorted(map(sorted, cited.pairs)), given)

    def joined(self, pairs: list, given: dict) -> list:
        """Lines on what is not kept apart of the pairs of an assertion: a variable that both are given, or pairs without a `$d`."""
        lacking: dict = {}
        for one, other in pairs:
            given_so = f"{one} is given {' '.join(given[one])}, and {other} {' '.join(given[other])}"
            for x, y in ((x, y) for x in given[one] if x in self.variables for y in given[other] if y in self.variables):
                if x == y:
                    return [given_so, f"both have {x}"]
                if frozenset((x, y)) not in self.pairs:
                    lacking.setdefault((min(x, y), max(x, y)), given_so)
        if not lacking:
            return []
        self.lacks = sorted(lacking)
        (x, y), given_so = next(iter(lacking.items()))
        return [given_so, f"no $d keeps {x} and {y} apart", f"to add: {' '.join(f'$d {names} $.' for names in map(' '.join, together(self.lacks)))}"]


def together(pairs: list) -> list:
    """Lists of variables of which each two are a pair: together they have all the pairs.

    >>> together([("x", "y"), ("x", "z"), ("y", "z"), ("z", "w")])
    [['x', 'y', 'z'], ['z', 'w']]
    """
    found: list = []
    has, done = {frozenset(pair) for pair in pairs}, set()
    for x, y in pairs:
        if frozenset((x, y)) in done:
            continue
        several = [x, y]
        for name in sorted({name for pair in pairs for name in pair} - {x, y}):
            if all(frozenset((name, other)) in has for other in several):
                several.append(name)
        done |= {frozenset((one, other)) for one in several for other in several if one != other}
        found.append(several)
    return found


def named(what: Union[str, int]) -> str:
    """A step in words."""
    return f"the step saved as number {what + 1}" if isinstance(what, int) else f"`{what}`"


def differs(hypothesis: Statement, expected: list, entry: list) -> list:
    """Lines on a hypothesis that does not take an entry."""
    shown = f"for its hypothesis {hypothesis.label} {hypothesis.kind} {' '.join(hypothesis.symbols)} $."
    return [shown, f"expected {' '.join(expected)}", f"got      {' '.join(entry)}"]
