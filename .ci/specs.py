"""What the rules of this folder read of definitions, and of the contracts that cite them: which definitions a contract reaches.

A contract is true or false by what the definitions that it cites say, and those that these cite, all the way down.
"""
import copy
import pathlib
import re
import sys

TOP = pathlib.Path(__file__).resolve().parent.parent
CRATES = TOP / "crates"
CRATE_NAMES = {path.name for path in CRATES.iterdir()}
WORD = re.compile(r"[A-Za-z_][A-Za-z0-9_'-]*(?:\.[A-Za-z_][A-Za-z0-9_'-]*)*")
HEAD = re.compile(r"(?:abbrev |unfoldable )?(?:pub )?(?:record |data )?([^\s:({]+)")
INNER_HEAD = re.compile(r"  (?:abbrev |unfoldable )?pub (?:record |data )?([^\s:({]+)")
USE = re.compile(r"(?:pub )?use (\S+?)(?:\.\{(.*)\}|(?: as (\S+)))?$")
INSIDE = re.compile(r"((?:[^\s.{}]+\.)+)\{(.*)\}")
COMMENT = re.compile(r"( *)-- ?(.*)")
IN_WORDS = re.compile(r"In words: `([\w:]+)`: (.+)")

# A contract ends before the body, or before a semicolon, if it is that of a trait's function.
END = re.compile(r"^ *\{|;$|\Z", re.M)

# A crate names the definitions of lower crates through one that it depends on, which passes them on under their crate's name.
PASSED_ON = re.compile(r"\bRattle\.mm_[a-z]+\.specs\.(mm_[a-z]+)\.")


def text_of(path):
    """The text of a file, with each definition named by its own crate."""
    return PASSED_ON.sub(r"Rattle.\1.specs.", path.read_text())


def parted(text):
    """What the commas of a group part, but for those in a group inside."""
    parts, depth, start = [], 0, 0
    for at, letter in enumerate(text + ","):
        depth += (letter == "{") - (letter == "}")
        if letter == "," and not depth:
            parts.append(text[start:at].strip())
            start = at + 1
    return [part for part in parts if part]


def flat(path, parts):
    """Each list of names of a group of imports, with the path to its module."""
    names = [part for part in parts if not INSIDE.fullmatch(part)]
    yield from [(path, names)] if names else []
    for inside in filter(None, map(INSIDE.fullmatch, parts)):
        yield from flat(path + inside[1].rstrip(".").split("."), parted(inside[2]))


class Imports:
    """What a file imports: names, each with its module and its name there, and modules by other names."""

    def __init__(self):
        self.names = {}
        self.aliases = {}

    def take(self, line):
        """Takes a line of imports, as `USE` finds it."""
        path, names, alias = line.groups()
        if names is None:
            self.aliases[alias or path.rsplit(".", 1)[-1]] = path
            return
        for steps, listed in flat(path.split("."), parted(names)):
            for name in listed:
                first, _, other = name.partition(" as ")
                self.names[other or first] = (PASSED_ON.sub(r"Rattle.\1.specs.", ".".join(steps)), first)


class Module:
    """A file of definitions: what it imports, the text of each of its definitions, and what its comments say.

    The comment above a definition says what it is. Lines at the end of this comment, or alone below the definition, may name laws that
    say it in words.
    """

    def __init__(self, name, path):
        self.name = name
        self.path = path
        self.imports = Imports()
        self.definitions = {}
        self.comments = {}
        self.words = {}
        self.read()

    def read(self):
        """Reads the file, line by line."""
        current, mutual, said = None, False, []
        for line in [*text_of(self.path).splitlines(), ""]:
            comment, use = COMMENT.match(line), USE.match(line)
            inner = INNER_HEAD.match(line) if mutual else None
            if comment and (current is None or not comment.group(1)):
                said.append(comment.group(2))
            elif not line.strip() or use or re.match(r"(pub )?mod ", line):
                self.say_in_words(current or (None if first_in_words(said) else next(reversed(self.definitions), None)), said)
                current, said = None, []
                if use:
                    self.imports.take(use)
            elif line.startswith("mutual"):
                mutual, current = True, None
            elif inner or not (line[0].isspace() or line[0] == "}"):
                mutual = bool(inner)
                current = self.begun((inner or HEAD.match(line)).group(1), line, said)
                said = []
            if current is not None and not (comment and not comment.group(1)):
                self.definitions[current].append(line[2:] if mutual else line)

    def begun(self, name, line, said):
        """The definition that a line belongs to: one that it begins, or one that has begun."""
        if re.match(r" *(abbrev |unfoldable |pub |record |data )", line) or name not in self.definitions:
            self.definitions[name] = []
            self.comments[name] = said[: first_in_words(said)]
        self.say_in_words(name, said)
        return name

    def say_in_words(self, name, said):
        """Takes what a comment above or below a definition says in words, and by which laws."""
        for number in range(first_in_words(said), len(said)):
            found = IN_WORDS.fullmatch(said[number])
            if name is None or found is None and said[number].startswith("In words"):
                sys.exit(f"{self.path.relative_to(TOP)}: this is not 'In words: `law`: sentence' at a definition: {said[number]}")
            if found:
                self.words.setdefault(name, []).append([found[1], found[2]])
            else:
                self.words[name][-1][1] += f" {said[number]}"


def first_in_words(said):
    """The number of the first line of a comment that names a law, or how many lines the comment has."""
    return next((number for number, line in enumerate(said) if line.startswith("In words")), len(said))


def modules():
    """The modules of all crates, by their names."""
    found = {}
    for path in sorted(CRATES.glob("*/specs/**/*.antt")):
        crate = path.relative_to(CRATES).parts[0]
        parts = path.relative_to(CRATES / crate / "specs").with_suffix("").parts
        name = ".".join(("Rattle", crate, "specs", *parts))
        found[name] = Module(name, path)
    return found


def imports_of(text):
    """What a file of sources imports for its clauses."""
    imports = Imports()
    for line in re.findall(r"^ *ghost (use .*);$", text, re.M):
        imports.take(USE.match(line))
    return imports


class Contract:
    """A public function: where it is, what is said of it, its contract, and what its file imports."""

    def __init__(self, path, owner, name, found, text):
        self.path, self.crate, self.owner, self.name = path, path.relative_to(CRATES).parts[0], owner, name
        self.line = text.count("\n", 0, found.start()) + 1
        self.clauses = text[found.start() : END.search(text, found.end()).start()]
        before = text[: found.start()].splitlines()
        self.comment = []
        while before and before[-1].strip().startswith(("///", "#[")):
            self.comment.insert(0, before.pop().strip())
        self.imports = imports_of(text)

    def words(self):
        """The names in the contract, in order."""
        return WORD.findall(self.clauses)

    def clause(self, name):
        """One clause of the contract, as a contract of its own."""
        found = re.search(rf"^ *ensures {name} \{{.*?(?=^ *(?:ensures|requires) |\Z)", self.clauses, re.M | re.S)
        if found is None:
            sys.exit(f"{self.crate}::{self.owner or self.path.stem}::{self.name} has no clause {name}")
        alone = copy.copy(self)
        alone.clauses = found[0]
        return alone


def public_functions(path):
    """The public functions in a file of sources, and those of its public traits."""
    text = text_of(path)
    owner, is_trait = "", False
    for found in re.finditer(r"^(?:impl(?:<[^{]*?>)? (?:\w+(?:<[^{]*?>)? for )?(\w+)|pub trait (\w+)|\})|^ *pub fn (\w+)|^    fn (\w+)", text, re.M):
        kind, trait, function, inner = found.groups()
        if function or inner and is_trait:
            yield Contract(path, owner, function or inner, found, text)
        elif inner is None:
            owner, is_trait = kind or trait or "", trait is not None


def contract(function):
    """The contract of a public function, named as crate::function, or crate::Type::function."""
    crate, *owner, name = function.split("::")
    for path in sorted((CRATES / crate / "src").glob("*.rt")):
        for each in public_functions(path):
            if each.name == name and (not owner or each.owner == owner[0]):
                return each
    return sys.exit(f"no public function {function}")


def laws():
    """The laws of all crates by their names, which have their crate or not: public functions of no type that answer nothing."""
    found = {}
    for crate in sorted(CRATE_NAMES):
        names = exported(crate)
        for path in sorted((CRATES / crate / "src").glob("*.rt")):
            for each in public_functions(path):
                if f"{path.stem}.{each.name}" in names and not each.owner and "->" not in each.clauses.split("\n", 1)[0]:
                    found.setdefault(each.name, []).append(each)
                    found.setdefault(f"{crate}::{each.name}", []).append(each)
    return found


class Reached:
    """What is reached so far: definitions by module, each with what it cites, and types of the code.

    Both are in the order in which they are met: what a definition cites comes after it, and before what is cited next to it.
    """

    def __init__(self, all_modules):
        self.modules = all_modules
        self.definitions = {}
        self.types = {}
        self.open = []

    def take_contract(self, contract):
        """Takes what a contract reaches: what it cites, what that cites, and so on."""
        self.go_on_with(self.cited(contract))
        self.go_on()

    def go_on(self):
        """Takes what is left open, and what that cites, and so on."""
        while self.open:
            self.take(*self.open.pop())

    def cited(self, contract):
        """What a contract cites, each once, in order."""
        return self.all_meant(contract.imports, None, contract.words())

    def all_meant(self, imports, own, words):
        """What words mean, each once, in order."""
        found = (self.meant(imports, own, word) for word in words)
        return list(dict.fromkeys(each for each in found if each is not None))

    def go_on_with(self, cited):
        """Leaves open what is cited; the first of it comes next."""
        self.open.extend(reversed(cited))

    def meant(self, imports, own, word):
        """The module and the name that a word means, if it is that of a definition or of a type."""
        first, _, rest = word.partition(".")
        if first in imports.aliases and rest:
            return imports.aliases[first], rest.split(".")[0]
        if first in imports.names:
            return imports.names[first]
        return (own.name, first) if own is not None and first in own.definitions else None

    def take(self, path, name):
        """Takes a definition, or a type, and goes on with what the definition cites."""
        if ".specs.declared." in path:
            if path.split(".")[1] in CRATE_NAMES:
                self.types[re.sub(r"\.The[A-Z]\w*$", "", path)] = True
            return
        module = self.modules.get(path)
        if module is None or name not in module.definitions or (path, name) in self.definitions:
            return
        self.definitions[path, name] = self.cited_by(module, name)
        self.go_on_with(self.definitions[path, name])

    def cited_by(self, module, name):
        """What a definition cites, each once, in order."""
        words = WORD.findall(without_comments(module.definitions[name]))
        return [each for each in self.all_meant(module.imports, module, words) if each != (module.name, name)]


def without_comments(lines):
    """The text of lines, without texts in quotes and comments."""
    return "\n".join(re.sub(r'"(?:\\.|[^"\\])*"', '""', line).split("--")[0] for line in lines)


def reached_from(functions):
    """What contracts reach, or those of public functions."""
    reached = Reached(modules())
    for each in functions:
        reached.take_contract(contract(each) if isinstance(each, str) else each)
    return reached


def exported(crate):
    """What a crate exports, each with the path of its module."""
    source = CRATES / crate / "src"
    text = next(path for path in (source / "lib.rt", source / "main.rt") if path.exists()).read_text()
    found = set(re.findall(r"^pub (?:struct|enum|type) (\w+)", text, re.M))
    for path, several, one in re.findall(r"^pub use ([\w:]+)::(?:\{([^}]*)\}|(\w+));", text, re.M):
        names = re.findall(r"\w+", several or one)
        found.update(".".join([*path.split("::"), name]) for name in names)
    return found
