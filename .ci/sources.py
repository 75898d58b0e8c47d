"""What the rules of this folder read of sources: their code without comments, texts and contracts, as tokens.

A comment, the inside of a text or of a character, and all that only the prover reads (`ensures`, `requires`, `ghost`) is
no code. So what is written there cannot mislead a rule that looks at tokens.
"""
import pathlib
import re
import sys

CRATES = pathlib.Path(__file__).resolve().parent.parent / "crates"
TEXT = re.compile(r'b?r(#*)".*?"\1|b?"(?:\\.|[^"\\])*"', re.S)
CHARACTER = re.compile(r"b?'(?:\\(?:x[0-9a-fA-F]{2}|u\{[0-9a-fA-F]+\}|.)|[^\\'\n])'")
# What ends a part that only the prover reads, and what hides such a sign there: a text, or a comment.
LOGIC = re.compile(r'"(?:\\.|[^"\\])*"|--[^\n]*|[{};]')
WORD = re.compile(r"[A-Za-z_]\w*")
TOKEN = re.compile(r"'[A-Za-z_]\w*|[A-Za-z_]\w*|\d[\w.]*?(?=\.\.|[^\w.]|$)|::|=>|->|<<|>>|==|!=|<=|>=|[-+*/%]=(?!=|>)|&&|\|\||\.\.=?|\S")


class Token(str):
    """A token, the number of its line, and its place in the text."""

    line, place = 0, 0


def after_braces(text, at):
    """The place after the braces that begin at or after a place."""
    depth = 0
    for found in LOGIC.finditer(text, at):
        depth += {"{": 1, "}": -1}.get(found[0], 0)
        if depth == 0 and found[0] == "}":
            return found.end()
    return len(text)


def after_ghost(text, at):
    """The place after the `;` that ends what is for the prover, or after the braces of a ghost field."""
    depth = 0
    if re.match(r"ghost\s+\w+\s*:", text[at:]):
        end = after_braces(text, at)
        return end + text.startswith(",", end)
    for found in LOGIC.finditer(text, at):
        depth += {"{": 1, "}": -1}.get(found[0], 0)
        if depth == 0 and found[0] == ";":
            return found.end()
    return len(text)


def end_of_hidden(text, at):
    """The place after what is no code and begins at a place, or nothing if code begins there."""
    if text.startswith("//", at):
        return text.find("\n", at) if "\n" in text[at:] else len(text)
    if text.startswith("/*", at):
        return text.index("*/", at) + 2 if "*/" in text[at:] else len(text)
    if text[at] in "\"'br" and (found := TEXT.match(text, at) or CHARACTER.match(text, at)):
        return found.end()
    return None


def blank(text):
    """A text with a space in place of all but the ends of its lines."""
    return re.sub(r"[^\n]", " ", text)


def code_of(text):
    """A source with spaces in place of what is no code. Of a text the quotes are left."""
    parts, at = [], 0
    while at < len(text):
        end = end_of_hidden(text, at)
        if end is not None:
            is_text = text[end - 1] in "\"'#" and text[at] not in "/"
            parts.append(f'"{blank(text[at + 1 : end - 1])}"' if is_text else blank(text[at:end]))
            at = end
            continue
        word = WORD.match(text, at)
        if word and word[0] in ("ensures", "requires"):
            end = after_braces(text, at)
        elif word and word[0] == "ghost":
            end = after_ghost(text, at)
        else:
            end = word.end() if word else at + 1
            parts.append(text[at:end])
            at = end
            continue
        parts.append(blank(text[at:end]))
        at = end
    return "".join(parts)


def tokens_of(text):
    """The tokens of a source."""
    found, start = [], 0
    for number, line in enumerate(code_of(text).split("\n"), 1):
        for match in TOKEN.finditer(line):
            token = Token(match[0])
            token.line, token.place = number, start + match.start()
            found.append(token)
        start += len(line) + 1
    return found


def closing(tokens, at):
    """The place of the bracket that closes the one at a place."""
    depth = 0
    for place in range(at, len(tokens)):
        if tokens[place] in ("(", "[", "{"):
            depth += 1
        elif tokens[place] in (")", "]", "}"):
            depth -= 1
            if depth == 0:
                return place
    return len(tokens) - 1


class Function:
    """A function: its name, what it belongs to, the trait that asks for it, whether it is public, its signature, its body, and the first and last token of the latter.

    `applied` has what the type is applied to, if that is no parameter: `+BufWriter+W` of a `Writing<BufWriter<W>>`, as the prover writes it;
    of a function of a trait, what that is applied to: `ReadFailed` of a `From<ReadFailed>`."""

    def __init__(self, name, owner, trait, public, signature, body, braces, applied=""):
        self.name, self.owner, self.trait, self.public, self.applied = name, owner, trait, public, applied
        self.signature, self.body, self.braces = signature, body, braces


def header_end(tokens, at):
    """The place of the `{` or `;` that ends a header which begins at a place."""
    while at < len(tokens) and tokens[at] not in ("{", ";"):
        at = closing(tokens, at) + 1 if tokens[at] in ("(", "[") else at + 1
    return at


def owner_of(header):
    """The type that an `impl` is of, or the name of a trait; and the trait that it is of the type, or nothing."""
    if header[0] == "trait":
        return str(header[1]), ""
    depth, plain = 0, []
    for token in header[1:]:
        depth += {"<": 1, ">": -1, ">>": -2}.get(token, 0)
        if depth == 0 and token not in (">", ">>"):
            plain.append(token)
    place = plain.index("for") if "for" in plain else 0
    return last_word(plain[place:]), last_word(plain[:place])


def applied_in(header):
    """What the type of an `impl` is applied to, or if it is of a trait, what that is, as the prover writes it; nothing if these are its parameters alone."""
    if header[0] == "trait":
        return ""
    depth, given, at = 0, set(), 1
    if header[1] == "<":
        for at in range(1, len(header)):
            depth += {"<": 1, ">": -1, ">>": -2}.get(header[at], 0)
            if depth == 0:
                break
            given |= {header[at + 1]} if depth == 1 and header[at] in ("<", ",") else set()
        at += 1
    if "for" in header[at:]:
        of_trait = header[at + 1 : header.index("for", at)]
        return "".join(str(word) for word in of_trait if WORD.fullmatch(word) and word not in given)
    handed = [word for word in header[at + 1 :] if WORD.fullmatch(word)]
    return "".join(f"+{word}" for word in handed) if {*handed} - given else ""


def last_word(tokens):
    """The last word among tokens, or nothing."""
    return next((str(token) for token in reversed(tokens) if WORD.fullmatch(token)), "")


def functions_of(tokens):
    """The functions among tokens, in order."""
    found, owners, at = [], [], 0
    while at < len(tokens):
        owners = [owner for owner in owners if owner[-1] > at]
        token = tokens[at]
        if token in ("impl", "trait") and (at == 0 or tokens[at - 1] in ("}", ";", "]", "pub", ")", "unsafe")):
            start = header_end(tokens, at)
            if start < len(tokens) and tokens[start] == "{":
                owners.append((*owner_of(tokens[at:start]), applied_in(tokens[at:start]), closing(tokens, start)))
            at = start + 1
        elif token == "fn" and at + 1 < len(tokens) and WORD.fullmatch(tokens[at + 1]):
            start = header_end(tokens, at)
            end = closing(tokens, start) if start < len(tokens) and tokens[start] == "{" else start
            public = at > 0 and tokens[at - 1] == "pub" or tokens[max(0, at - 2) : at] == ["pub", "const"]
            owner, trait, applied = owners[-1][:3] if owners else ("", "", "")
            found.append(Function(str(tokens[at + 1]), owner, trait, public, tokens[at:start], tokens[start + 1 : end], (tokens[start], tokens[end]), applied))
            at = start + 1
        else:
            at += 1
    return found


def number_of(word):
    """The number that a token writes, or nothing."""
    found = re.fullmatch(r"(0x[0-9a-fA-F_]+|0b[01_]+|0o[0-7_]+|[0-9][0-9_]*)(?:[ui](?:8|16|32|64|128|size))?", word)
    return int(found[1].replace("_", ""), 0) if found and (found[1][0] != "0" or len(found[1]) == 1 or found[1][1] in "xbo") else None


def calls_in(tokens):
    """The names that are called among tokens, each with its place: not those of macros or of variants."""
    for place, token in enumerate(tokens[:-1]):
        if WORD.fullmatch(token) and tokens[place + 1] == "(" and token[0].islower() and (place == 0 or tokens[place - 1] != "fn"):
            yield place, str(token)


def test_files(crate):
    """The files of a crate that are modules of tests alone."""
    named = set()
    for root in ("lib.rt", "main.rt"):
        path = crate / "src" / root
        if path.exists():
            named |= set(re.findall(r"^#\[cfg\(test\)\]\s*(?:pub )?mod (\w+);", path.read_text(), re.M))
    return {crate / "src" / f"{name}.rt" for name in named}


def sources(crates=CRATES):
    """The sources of the crates, those of tests left out."""
    tests = {path for crate in crates.iterdir() for path in test_files(crate)}
    return [path for path in sorted(crates.glob("*/src/**/*.rt")) if path not in tests]


def places(tokens, *words):
    """Where words follow one another."""
    return [at for at in range(len(tokens) - len(words) + 1) if tokens[at : at + len(words)] == [*words]]


def parts_of(tokens):
    """Parameters, fields or arguments, each as it is written."""
    depth, start, at = 0, 0, 0
    while at <= len(tokens):
        word = tokens[at] if at < len(tokens) else ","
        if word in ("(", "[", "{"):
            at = closing(tokens, at)
        else:
            depth += {"<": 1, ">": -1, ">>": -2}.get(word, 0)
            if word == "," and depth <= 0:
                if tokens[start:at]:
                    yield tokens[start:at]
                start, depth = at + 1, 0
        at += 1


def inner_of(signature):
    """The parameters of a signature."""
    start = signature.index("(") if "(" in signature else len(signature)
    return signature[start + 1 : closing(signature, start)] if start < len(signature) else []


def pattern_before(tokens, arrow):
    """The pattern before an arrow."""
    depth, place = 0, arrow - 1
    while place >= 0:
        word = tokens[place]
        if depth == 0 and (word in ("{", ",", ";") or word == "}" and tokens[place + 1] not in (")", "|", "if", "=>")):
            break
        depth += {")": 1, "]": 1, "}": 1, "(": -1, "[": -1, "{": -1}.get(word, 0)
        place -= 1
    return tokens[place + 1 : arrow]


def patterns_of(body):
    """The patterns of a body: those of `let`, of `for`, of the arms of a match, and the parameters of closures."""
    for at, word in enumerate(body):
        if word in ("let", "for"):
            end = at + 1
            while end < len(body) and body[end] not in ("=", ":", "in", ";"):
                end = closing(body, end) + 1 if body[end] in ("(", "[", "{") else end + 1
            yield body[at + 1 : end]
        elif word == "=>":
            pattern = pattern_before(body, at)
            yield pattern[: pattern.index("if")] if "if" in pattern else pattern
        elif word == "|" and at and body[at - 1] in ("(", ",", "=", "{", "move", "return", "=>", "&"):
            end = next((place for place in range(at + 1, len(body)) if body[place] == "|"), at)
            yield from (part[: part.index(":")] if ":" in part else part for part in parts_of(body[at + 1 : end]))


def bound_in(function):
    """The names that a function binds: its parameters, and those in its patterns."""
    given = [part[: part.index(":")] for part in parts_of(inner_of(function.signature)) if ":" in part]
    found = set()
    for pattern in [*given, *patterns_of(function.body)]:
        for at, word in enumerate(pattern):
            behind = pattern[at + 1] if at + 1 < len(pattern) else ""
            if WORD.fullmatch(word) and word[0].islower() and word not in ("mut", "ref") and behind not in ("(", "::", "{", ":"):
                found.add(str(word))
    return found


def exports(tokens):
    """The names that a root of a crate exports: its own, and those of its modules."""
    modules = {str(tokens[at + 1]) for at, token in enumerate(tokens) if token == "mod"}
    for at, token in enumerate(tokens[:-2]):
        if token == "pub" and tokens[at + 1] == "use" and tokens[at + 2] in modules:
            end = tokens.index(";", at)
            yield from (str(word) for word in tokens[at + 3 : end] if WORD.fullmatch(word))
        elif token == "pub" and tokens[at + 1] in ("fn", "struct", "enum", "trait"):
            yield str(tokens[at + 2])
        elif token == "pub" and (tokens[at + 1] == "mod" or tokens[at + 1] == "use" and tokens[at + 2] in ("self", "crate", "super")):
            sys.exit(f"exports: a root names what it exports, and has no `pub {tokens[at + 1]} {tokens[at + 2]}`")


def is_law(function):
    """Whether a function answers nothing and is given nothing to change: it only borrows, and only to look."""
    given = list(parts_of(inner_of(function.signature)))
    looks = all("&" in (part[0], part[part.index(":") + 1] if ":" in part else "") and "mut" not in part for part in given)
    return "->" not in function.signature and looks


def statement_end(tokens, at):
    """Where the item that begins at a place ends with a `;`."""
    while at < len(tokens) and tokens[at] != ";":
        at = closing(tokens, at) + 1 if tokens[at] in ("{", "(", "[") else at + 1
    return at
