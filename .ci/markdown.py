"""How the page of the theorem writes texts and code, and links to what is on it."""
import re
import sys

sys.dont_write_bytecode = True
from specs import TOP


def anchor(path, name):
    """The place of a definition, or of a type, on the page."""
    parts = path.split(".")
    return ".".join((parts[1], "code" if parts[3] == "declared" else parts[-1], name))


def link(path, name):
    """A link to a definition, or to a type, on the page."""
    return f"[`{name}`](#{anchor(path, name)})"


def file_link(path):
    """A link to a file of the repository."""
    return f"[`{path.stem}`](../{path.relative_to(TOP)})"


def shown(text):
    """What is said in a comment, as the page has it: a mark of the page outside of code is none."""
    parts = text.split("`")
    return "`".join(part if number % 2 else re.sub(r"([<*_$])", r"\\\1", part) for number, part in enumerate(parts))


def fenced(lines, language=""):
    """Lines as they are."""
    return [f"```{language}", *lines, "```", ""]


def paragraphs(comment):
    """What a comment of the code says, without its attributes."""
    return [shown(line.removeprefix("///").removeprefix(" ")) for line in comment if line.startswith("///")]


def title(each):
    """The name of a contract, with its type."""
    return "::".join(filter(None, (each.owner, each.name)))


def contract_link(each):
    """A link to a contract on the page."""
    return f"[`{title(each)}`](#{each.crate}.{title(each)})"
