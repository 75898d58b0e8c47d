"""The names on the page of the theorem: no two things share one."""
import sys

sys.dont_write_bytecode = True
from examples import is_example, spelled


def places(page):
    """The names of the page: of definitions, examples, and types of the code. Each has the places where it is a name."""
    examples = [(path, name) for path, module in page.modules.items() if is_example(path) for name in module.definitions]
    types = [(f"Rattle.{path.split('.')[1]}.src", path.rsplit(".", 1)[-1]) for path in page.types]
    found = {}
    for path, name in [*page.definitions, *examples, *types]:
        found.setdefault(name, []).append(spelled(path, name))
    return found


def wrong_names(page):
    """The names that two things share."""
    yield from (f"one name for several things: {', '.join(where)}" for _, where in sorted(places(page).items()) if len(where) > 1)


def case_note(page):
    """The names that differ by case and underscores alone."""
    found = {}
    for name in places(page):
        found.setdefault(name.replace("_", "").lower(), []).append(name)
    return "; ".join(" and ".join(sorted(names)) for _, names in sorted(found.items()) if len(names) > 1)
