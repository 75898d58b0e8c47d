"""The worked examples of the page of the theorem: what they reach of its definitions, and which of these are left out, each for a reason.

An example is a definition in a module `Examples` of the language. A law proves it, and so each definition that it reaches is shown.
"""
import pathlib
import re
import sys

sys.dont_write_bytecode = True
from specs import CRATES, Reached, public_functions

LEFT_OUT = pathlib.Path(__file__).with_name("unshown.txt")
NOT_YET, OF_A_LAW, IN_WORDS = "not yet", "part of the statement of a law", "only a law in words reaches it"


def is_example(path):
    """Whether a module is one of examples."""
    return re.fullmatch(r"Rattle\.\w+\.specs\.Language\.\w*Examples", path) is not None


def examples_of(page, crate):
    """The modules of examples of a crate."""
    return [module for name, module in page.modules.items() if is_example(name) and name.split(".")[1] == crate]


def laws_of(module):
    """The laws whose contracts are examples of a module."""
    crate = module.name.split(".")[1]
    for path in sorted((CRATES / crate / "src").glob("*.rt")):
        for each in public_functions(path):
            if any(each.imports.names.get(word, ("",))[0] == module.name for word in each.words()):
                yield each


def spelled(path, name):
    """A definition by its crate, its file and its name."""
    return f"{path.split('.')[1]}.{path.split('.')[-1]}.{name}"


def shown_by_examples(page):
    """The definitions that laws of examples reach. Each example has to be among them."""
    reached = Reached(page.modules)
    examples = [module for path, module in page.modules.items() if is_example(path)]
    for module in examples:
        for each in laws_of(module):
            reached.take_contract(each)
    loose = [spelled(module.name, name) for module in examples for name in module.definitions if (module.name, name) not in reached.definitions]
    if loose:
        sys.exit("theorem: no law proves these examples: " + ", ".join(loose))
    return reached.definitions


def left_out():
    """The definitions that are left out, each with its reason."""
    lines = LEFT_OUT.read_text().splitlines() if LEFT_OUT.exists() else []
    found = [re.fullmatch(r"(\w+\.\w+\.\S+): (.+)", line) for line in lines]
    if None in found:
        sys.exit(f"theorem: {LEFT_OUT.name} has a line that is not `CRATE.FILE.NAME: reason`: {lines[found.index(None)]}")
    return {each[1]: each[2] for each in found}


def unshown(page):
    """The definitions of the page that no example reaches, by their names as they are spelled."""
    shown = shown_by_examples(page)
    return {spelled(*each): each for each in page.definitions if each not in shown}


def wrong_lines(page):
    """What the list of those left out has too much, or too little."""
    reasons, found = left_out(), unshown(page)
    yield from (f"no example reaches {name}, and {LEFT_OUT.name} does not say why" for name in found if name not in reasons)
    on_page = {spelled(*each) for each in page.definitions}
    for name in reasons:
        if name not in on_page:
            yield f"{LEFT_OUT.name} names {name}, which is not on the page"
        elif name not in found:
            yield f"{LEFT_OUT.name} names {name}, which an example reaches"
        elif reasons[name] == NOT_YET:
            yield f"{LEFT_OUT.name} does not say why no example reaches {name}"


def write_left_out(page):
    """Writes the list again: those that no example reaches, each with its reason if it has one."""
    reasons = left_out()
    found = sorted(unshown(page).items())
    LEFT_OUT.write_text("".join(f"{name}: {reasons.get(name, first_reason(page, each))}\n" for name, each in found))


def first_reason(page, each):
    """The reason that a definition has before someone gives it one. Files of laws have what laws say."""
    if each in page.in_words:
        return IN_WORDS
    return OF_A_LAW if each[0].endswith("Laws") else NOT_YET


def print_unshown(page, crates):
    """Prints for each crate what no example reaches, with the reasons."""
    reasons, found = left_out(), unshown(page)
    for crate in crates:
        here = [name for name in found if name.startswith(f"{crate}.")]
        print(f"{crate}: {len(here)} of {sum(1 for path, _ in page.definitions if path.split('.')[1] == crate)}")
        for name in here:
            print(f"    {name.partition('.')[2]}: {reasons.get(name, '')}")
