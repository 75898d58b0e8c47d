"""Finds what many findings have in common: a word that is unknown, a statement at fault, or a label that wrong proofs name."""
from __future__ import annotations

import collections
from typing import TYPE_CHECKING, Iterable, Iterator, NamedTuple, Optional, Union

from .reports import Finding, Place
from .sources import Reading, Sources

if TYPE_CHECKING:
    from .live import Words

# A label explains wrong proofs if at least half of the proofs that name it are wrong.
LEAST = 0.5
# A word that no more proofs name may be one that was typed wrongly.
TYPED = 3
# So many labels are looked for that explain wrong proofs.
MOST = 20


class Cause(NamedTuple):
    """A cause: in words; where it is, if that is known; and the findings that it explains, in the order of the report."""

    said: str
    place: Optional[Place]
    findings: list


def causes(findings: Iterable[Finding], sources: Union[Sources, Words], reading: Optional[Reading] = None, before: Iterable[str] = ()) -> Iterator[Cause]:
    """The causes of wrong proofs, each with its proofs; every wrong proof is of one cause. Those that explain most come first.

    `reading` is the database, if it can be read, and `before` has the labels that there were before the last edits."""
    wrong = [each for each in findings if each.kind == "wrong"]
    at_fault = statements_at_fault(findings, sources)
    unknown: dict = {}
    plain: dict = {}
    for each in wrong:
        if each.number == "P01":
            unknown.setdefault(sources.word(each.place), []).append(each)
        elif each.number < "P07":
            plain.setdefault(each.number, []).append(each)
    groups = [*((True, *each) for each in unknown.items()), *((False, *each) for each in plain.items())]
    for is_word, name, several in sorted(groups, key=lambda each: -len(each[2])):
        yield unknown_word(name, several, at_fault, reading, before) if is_word else Cause(f"{counted(several)} with {name}", None, several)
    yield from named_labels([each for each in wrong if each.number >= "P07"], reading)


def statements_at_fault(findings: Iterable[Finding], sources: Union[Sources, Words]) -> dict:
    """The labels of statements at fault, each with the place of its fault."""
    found: dict = {}
    for each in findings:
        if each.kind == "fault" and each.number.startswith("F") and each.number != "F14":
            label = sources.label_around(each.place)
            if label:
                found.setdefault(label, each.place)
    return found


def unknown_word(word: str, several: list, at_fault: dict, reading: Optional[Reading], before: Iterable[str]) -> Cause:
    """The cause of proofs that name a word that is no label of an earlier sound statement."""
    name = f"{counted(several)} name{'s' if len(several) == 1 else ''} `{word}`, which "
    if word in at_fault:
        return Cause(f"{name}is at fault at {at_fault[word]}", at_fault[word], several)
    said = f"{name}no earlier statement declares"
    place = reading and reading.place(word)
    if place:
        return Cause(f"{said}; it is declared later, at {place}", place, several)
    if word in before:
        said += "; it was declared before"
    near = nearest(word, reading.declared) if reading else []
    unnamed = [each for each in near if not reading.uses()[each] and reading.declared[each].kind in "ap"]
    if unnamed:
        return Cause(f"{said}; no proof names `{unnamed[0]}` ({reading.place(unnamed[0])}): was it renamed?", reading.place(unnamed[0]), several)
    return Cause(f"{said}; did you mean `{near[0]}`?" if near and len(several) <= TYPED else said, None, several)


def nearest(word: str, labels: Iterable[str]) -> list:
    """The labels that are the word but for one letter more, less, other, or exchanged with the next.

    >>> nearest("ali", ["a1i", "syl", "all"])
    ['a1i', 'all']
    """
    return [each for each in labels if abs(len(each) - len(word)) < 2 and is_near(word, each)]


def is_near(one: str, other: str) -> bool:
    """Whether two words differ in one letter, or in two that are exchanged."""
    begin = next((at for at, (x, y) in enumerate(zip(one, other)) if x != y), min(len(one), len(other)))
    one, other = one[begin:], other[begin:]
    return one != other and (one[1:] in (other, other[1:]) or one == other[1:] or len(one) > 1 and one[1] + one[0] + one[2:] == other)


def named_labels(wrong: list, reading: Optional[Reading]) -> Iterator[Cause]:
    """The causes of proofs of which a step is wrong: the labels that explain most of them, and then the proofs that none does."""
    lists: dict = {}
    uses: dict = {}
    left = wrong
    if reading and len(wrong) > 1:
        lists, uses = reading.lists(), reading.uses()
    for _ in range(MOST):
        if len(left) < 2:
            break
        named = collections.Counter(label for each in left for label in lists.get(each.label, ()))
        label = max(named, key=lambda each: (weight(named[each], len(left), uses[each]), *reading.rank(each)), default=None)
        if label is None or named[label] < 2 or named[label] < LEAST * uses[label]:
            break
        place = reading.place(label)
        group = [each for each in left if label in lists.get(each.label, ())]
        others = uses[label] - sum(label in lists.get(each.label, ()) for each in wrong)
        where = f" ({place})" if place else ""
        said = f"{len(group):,} of {len(wrong):,} wrong proofs name `{label}`{where}, and {others:,} of the others"
        yield Cause(said, place, group)
        left = [each for each in left if label not in lists.get(each.label, ())]
    numbers: dict = {}
    for each in left:
        numbers.setdefault(each.number, []).append(each)
    for number, several in numbers.items():
        yield Cause(f"{counted(several)} with {number}", None, several)


def weight(named: int, wrong: int, uses: int) -> float:
    """How well a label explains wrong proofs: the mean of the part of them that name it, and of the part of its users that are wrong."""
    return 2 * named / (wrong + max(uses, named))


def counted(findings: list) -> str:
    """So many proofs."""
    return f"{len(findings):,} proof{'' if len(findings) == 1 else 's'}"
