"""Tests of the language server, by the protocol: what it shows is what `mmkeep verify` reports of the buffers written out."""
import pathlib
import random
import re
import shutil
import tempfile
import time

from protocol import DATABASES, Client, compare

LOGIC = """$( A logic. $)
$c wff |- -> ( ) $.
$v p q $.
wp $f wff p $.
wq $f wff q $.
wi $a wff ( p -> q ) $.
${ mi $e |- p $. ma $e |- ( p -> q ) $. mp $a |- q $. $}
${ h1 $e |- p $. h2 $e |- ( p -> q ) $. th $p |- q $= wp wq h1 h2 mp $. $}
id $p wff ( ( p -> p ) -> ( p -> p ) ) $= ( wi ) AABZCB $.
$( The end. $)
"""
NEW = "t2 $p wff ( q -> p ) $= wq wp wi $.\n"
# What is where in a buffer by chance.
BITS = ["$", "$.", "$(", "$)", "$}", "${", " ", "\n", "\r\n", "\t", "x", "?", "\u00e9", "\U0001d538", "$c k $.\n", "${ $}\n", "$( note $)\n", "$d p q $.", "$[ none.mm $]\n", ""]


class Folder:
    """A folder with files, and a server in it."""

    def __init__(self, program, files=None, **more):
        self.program, self.files, self.more = program, {"a.mm": LOGIC} if files is None else files, more

    def __enter__(self):
        self.folder = tempfile.TemporaryDirectory()
        for name, text in self.files.items():
            path = pathlib.Path(self.folder.name, name)
            path.parent.mkdir(parents=True, exist_ok=True)
            path.write_bytes(text if isinstance(text, bytes) else text.encode())
        self.client = Client(self.more.pop("given", self.program), self.folder.name, **self.more)
        return self.client

    def __exit__(self, kind, *_):
        try:
            if kind is None:
                assert self.client.leave() == 0
                assert self.client.told() == b"", self.client.told()
                assert not [each for each in self.client.messages if "Traceback" in each or "internal" in each], self.client.messages
        finally:
            self.client.__exit__()
            self.folder.cleanup()


def first_steps(program):
    """A proof is broken, made incomplete and mended; the file on disk stays as it is."""
    with Folder(program) as client:
        client.open("a.mm")
        assert client.diagnostics("a.mm") == []
        client.replace("a.mm", "h1 h2 mp", "h2 h1 mp")
        shown = client.diagnostics("a.mm")
        assert [each["code"] for each in shown] == ["P09"] and "th: " in shown[0]["message"], shown
        compare(client, program, "a.mm")
        client.replace("a.mm", "h2 h1 mp", "h1 ? mp")
        assert [each["severity"] for each in client.diagnostics("a.mm")] == [2]
        compare(client, program, "a.mm")
        client.replace("a.mm", "h1 ? mp", "h1 h2 mp")
        assert client.diagnostics("a.mm") == []
        assert (client.folder / "a.mm").read_text() == LOGIC
        assert any("ran 1" in each.get("message", "") and "th" in each["message"] for each in client.progress), client.progress
        kinds = [each["kind"] for each in client.progress]
        assert kinds.count("begin") == kinds.count("end") >= 4


def typed(program):
    """A theorem is typed character by character, and rubbed out again; what was found stays, marked stale."""
    with Folder(program, {"a.mm": LOGIC.replace("h1 h2 mp", "h2 h1 mp")}) as client:
        client.open("a.mm")
        compare(client, program, "a.mm")
        begin, stale = client.texts["a.mm"].index("id $p"), 0
        for at, letter in enumerate(NEW):
            client.change("a.mm", (begin + at, begin + at, letter))
            if compare(client, program, "a.mm"):
                old = [each for each in client.diagnostics("a.mm") if each["data"]["stale"]]
                assert [each["code"] for each in old] == ["P09"] and "stale" in old[0]["message"], old
                row = old[0]["range"]["start"]
                assert client.texts["a.mm"].split("\n")[row["line"]][row["character"] :].startswith("mp $."), row
                stale += 1
        assert stale > 20, stale
        for at in reversed(range(len(NEW))):
            client.change("a.mm", (begin + at, begin + at + 1, ""))
            compare(client, program, "a.mm")


def gathered(program):
    """What is typed fast is gathered: fewer looks than keys."""
    with Folder(program, options={"delay": 0.2}) as client:
        client.open("a.mm")
        client.diagnostics("a.mm")
        begin, counted = client.texts["a.mm"].index("id $p"), len(client.progress)
        for at, letter in enumerate(NEW):
            client.change("a.mm", (begin + at, begin + at, letter))
        assert compare(client, program, "a.mm") is False
        asked = sum(each["kind"] == "begin" for each in client.progress[counted:])
        assert 1 <= asked <= 3, asked


def texts(program):
    """Texts of all kinds: lines that end otherwise, tabs, no last line feed, no text at all, a comment alone, other letters."""
    crlf = LOGIC.replace("\n", "\r\n")
    kinds = [LOGIC, crlf, LOGIC.rstrip("\n"), LOGIC[: LOGIC.index("$( The end")].rstrip("\n"), "", "\n", "$( alone $)", LOGIC.replace(" ", "\t"), LOGIC.replace("\n", "\r")]
    kinds += [LOGIC.replace("The end", "Caf\u00e9"), LOGIC.replace("A logic", "\U0001d538 \u00e9") + "$( a", "$c", "$( $)", "$c a $.", "\f$c a $.\f"]
    for kind in kinds:
        with Folder(program, {"a.mm": kind}) as client:
            client.open("a.mm")
            compare(client, program, "a.mm")
            for other in (LOGIC, kind):
                client.fill("a.mm", other)
                compare(client, program, "a.mm")
            client.change("a.mm", (0, len(client.texts["a.mm"]), ""))
            compare(client, program, "a.mm")
            client.change("a.mm", (0, 0, kind))
            compare(client, program, "a.mm")


def not_ascii(program):
    """A byte that no text may hold is shown at its place in units of UTF-16, after letters of two units too."""
    with Folder(program) as client:
        client.open("a.mm")
        client.diagnostics("a.mm")
        client.replace("a.mm", "$( The end. $)", "$( \U0001d538\U0001d538 $)")
        compare(client, program, "a.mm")
        shown = client.diagnostics("a.mm")
        assert [(each["code"], each["range"]["start"]["character"]) for each in shown if not each["data"]["stale"]] == [("T01", 3)], shown
        # Positions after such letters are read in the same units.
        client.replace("a.mm", "\U0001d538 $)", "x $)")
        client.replace("a.mm", "\U0001d538x", "yx")
        assert compare(client, program, "a.mm") is False and client.diagnostics("a.mm") == []


def open_blocks(program):
    """A block that is begun far from the end of a large text and is not ended is shown; an inclusion behind it is shown before."""
    many = "".join(f"x{number} $a wff ( p -> q ) $.\n" for number in range(4000))
    for behind, code in (("", "T08"), ("$( $[ b.mm $] $)\n", "T08"), ("$[ b.mm $]\n", "T10")):
        others = {"b.mm": "y $a wff p $.\n"}
        with Folder(program, {"a.mm": LOGIC + many + behind + "z $a wff q $.\n", **others}) as client:
            client.open("a.mm")
            compare(client, program, "a.mm", others)
            client.replace("a.mm", "wi $a", "${ wi $a")
            assert compare(client, program, "a.mm", others)
            assert [each["code"] for each in client.diagnostics("a.mm") if not each["data"]["stale"]] == [code]
            client.replace("a.mm", "x7 $a", "$} x7 $a")
            assert not compare(client, program, "a.mm", others)


def tails(program):
    """Edits in the tail, of its comments, and of what is after the last piece."""
    with Folder(program) as client:
        client.open("a.mm")
        compare(client, program, "a.mm")
        steps = [("The end.", "Really the end."), ("$( Really", "$( $( Really"), ("$( $( Really", "$( Really"), ("end. $)", "end."), ("the end.\n", "the end. $)")]
        steps += [("end. $)", "end. $) t3 $p wff p $= ? $."), ("t3 $p", "t3 $p "), (" t3 $p  wff p $= ? $.", "")]
        steps += [("AABZCB $.\n", "AABZCB $. "), ("AABZCB $. $( Really the end. $)", "AABZCB $.")]
        for old, new in steps:
            client.replace("a.mm", old, new)
            compare(client, program, "a.mm")
        for piece in ("\n", "$( x $)", "$c", " k $.", "\n$( y", " $)"):
            client.change("a.mm", (len(client.texts["a.mm"]),) * 2 + (piece,))
            compare(client, program, "a.mm")


def many_at_once(program):
    """Many edits in one notice, moves of pieces, and a change of all places where a word is."""
    with Folder(program) as client:
        client.open("a.mm")
        compare(client, program, "a.mm")
        text = client.texts["a.mm"]
        places = [found.start() for found in re.finditer(r"(?<=\s)p(?=\s)", text)]
        client.change("a.mm", *((at, at + 1, "r") for at in places))
        assert compare(client, program, "a.mm") is False
        lines = client.texts["a.mm"].split("\n")
        lines[5], lines[6], lines[7], lines[8] = lines[8], lines[7], lines[6], lines[5]
        client.change("a.mm", (0, len(client.texts["a.mm"]), "\n".join(lines)))
        assert compare(client, program, "a.mm") is False
        client.change("a.mm", (0, 0, "$( first $)\n"), (0, 0, "${ $}\n"), (3, 3, "$( inner $) "), (0, 0, "\n\n"))
        assert compare(client, program, "a.mm") is False


def files(program):
    """A database of several files: edits of each, inclusions put in and taken out, files that come, go and change on disk."""
    top = "$[ logic.mm $]\n$[ sub/more.mm $]\n"
    parts = {"top.mm": top, "logic.mm": LOGIC, "sub/more.mm": NEW, "mmkeep.json": '{"top": "top.mm"}', "alone.mm": "$c a $.\n"}
    rest = {name: text for name, text in parts.items() if name.endswith(".mm")}
    with Folder(program, parts) as client:
        client.open("sub/more.mm")
        compare(client, program, "sub/more.mm", rest, "top.mm")
        client.replace("sub/more.mm", "wq wp wi", "wp wq wi")
        compare(client, program, "sub/more.mm", rest, "top.mm")
        client.open("logic.mm")
        compare(client, program, "logic.mm", rest, "top.mm")
        client.replace("logic.mm", "wi $a wff ( p -> q )", "wi $a wff ( q -> p )")
        compare(client, program, "sub/more.mm", rest, "top.mm")
        client.open("top.mm")
        # A file that is not loaded, in a buffer that is not saved.
        (client.folder / "third.mm").write_text("t4 $p wff p $= wq $.\n")
        rest["third.mm"] = "t4 $p wff p $= wq $.\n"
        client.replace("top.mm", "$[ sub/more.mm $]", "$[ third.mm $]\n$[ sub/more.mm $]\n$[ none.mm $]")
        compare(client, program, "top.mm", rest, "top.mm")
        client.until(lambda: client.shown.get(client.uri("third.mm"), {}).get("diagnostics"), "diagnostics of third.mm")
        # It changes on disk, and the missing one comes.
        (client.folder / "third.mm").write_text("t4 $p wff p $= wp $.\n")
        rest["third.mm"], rest["none.mm"] = "t4 $p wff p $= wp $.\n", "t5 $p wff p $= ? $.\n"
        (client.folder / "none.mm").write_text(rest["none.mm"])
        client.notify("workspace/didChangeWatchedFiles", {"changes": [{"uri": client.uri("third.mm"), "type": 2}]})
        client.until(lambda: not client.shown[client.uri("third.mm")]["diagnostics"], "diagnostics of third.mm")
        client.replace("top.mm", "\n$[ none", "\n\n$[ none")
        compare(client, program, "top.mm", rest, "top.mm")
        assert client.shown[client.uri("none.mm")]["diagnostics"], client.shown
        # A file is closed that was not saved: what is on disk counts.
        client.close("sub/more.mm")
        client.replace("top.mm", "\n\n$[ none", "\n$[ none")
        compare(client, program, "logic.mm", rest, "top.mm")
        # A file of no other's is a database of its own.
        client.open("alone.mm")
        compare(client, program, "alone.mm")
        client.replace("alone.mm", "$c a $.", "$c a a $.")
        compare(client, program, "alone.mm")


def said(client, text):
    """Waits for a message with a text in it."""
    client.until(lambda: any(text in each for each in client.messages), f"message {text!r}: {client.messages}")


def bad_input(program):
    """No program, no top file, and a session that ends: one message each, and on it goes."""
    with Folder(program, given="/nowhere/mmkeep") as client:
        client.open("a.mm")
        said(client, "/nowhere/mmkeep cannot be run")
        client.replace("a.mm", "h1 h2 mp", "h2 h1 mp")
        client.diagnostics("a.mm")
        assert len(client.messages) == 1, client.messages
        client.notify("workspace/didChangeConfiguration", {"settings": {"mmkeep": {"program": program}}})
        client.until(lambda: client.shown[client.uri("a.mm")]["diagnostics"], "diagnostics")
        compare(client, program, "a.mm")
    with Folder(program, {"a.mm": LOGIC, "mmkeep.json": '{"top": "gone.mm"}'}) as client:
        client.open("a.mm")
        said(client, "gone.mm: cannot be read (status 2")
        (client.folder / "gone.mm").write_text("$[ a.mm $]\n")
        client.replace("a.mm", "h1 h2 mp", "h2 h1 mp")
        compare(client, program, "a.mm", {"gone.mm": "$[ a.mm $]\n"}, "gone.mm")
        assert len(client.messages) == 1, client.messages
    with Folder(program, {"a.mm": LOGIC, "mmkeep.json": "{"}) as client:
        client.open("a.mm")
        said(client, "mmkeep.json is not of the form")
        compare(client, program, "a.mm")
    with Folder(program, {"a.mm": LOGIC, "b.mm": "$[ a.mm $]\n$[ c.mm $]\n", "c.mm": "$c"}, words=["--top", "b.mm"]) as client:
        client.open("a.mm")
        said(client, "c.mm:1:1 T07 (status 2")
        client.until(lambda: client.shown.get(client.uri("c.mm"), {}).get("diagnostics"), "diagnostics of c.mm")


def ends_early(program):
    """A session that is killed, or ends with a status of 2 to 5 in the middle, is begun anew, and what was typed is not lost."""
    with tempfile.TemporaryDirectory() as place:
        wrapper = pathlib.Path(place, "mmkeep")
        for status, text in ((2, ""), (3, "mmkeep: arguments"), (4, "mmkeep: out of memory"), (5, "mmkeep: C03"), (-9, "")):
            how = "kill -9 $$" if status < 0 else f"echo '{text}' >&2; exit {status}"
            # The first session answers its begin alone, and ends; later ones are whole.
            first = f"#!/bin/sh\nif [ -e '{place}/once' ]; then exec '{program}' \"$@\"; fi\n: > '{place}/once'\n"
            answers = f"{{ head -c 7; printf 'delete a.mm 4294967295\\n'; }} | '{program}' \"$@\"\n"
            wrapper.write_text(f"{first}{answers}read line; read line\n{how}\n")
            wrapper.chmod(0o755)
            (pathlib.Path(place) / "once").unlink(missing_ok=True)
            with Folder(program, given=str(wrapper)) as client:
                client.open("a.mm")
                compare(client, program, "a.mm")
                client.replace("a.mm", "h1 h2 mp", "h2 h1 mp")
                said(client, f"signal {-status}" if status < 0 else f"status {status}")
                client.replace("a.mm", "wq h2 h1 mp", "wp h2 h1 mp")
                compare(client, program, "a.mm")
                assert len(client.messages) == 1, client.messages
            # One that always ends so.
            wrapper.write_text(f"#!/bin/sh\n{how}\n")
            with Folder(program, given=str(wrapper)) as client:
                client.open("a.mm")
                said(client, f"signal {-status}" if status < 0 else f"status {status}")
                client.replace("a.mm", "h1 h2 mp", "h2 h1 mp")
                client.diagnostics("a.mm")
                assert len(client.messages) == 1, client.messages


def names(program):
    """Names of files with a space or another letter, and a file that is nowhere on disk."""
    with Folder(program, {"my logic \u00e9.mm": LOGIC}) as client:
        client.open("my logic \u00e9.mm")
        shown = client.diagnostics("my logic \u00e9.mm")
        client.replace("my logic \u00e9.mm", "h1 h2 mp", "h2 h1 mp")
        assert shown == [] and [each["code"] for each in client.diagnostics("my logic \u00e9.mm")] == ["P09"]
    with Folder(program, {}) as client:
        client.open("new.mm", "$c a $.\n")
        compare(client, program, "new.mm")
        client.change("new.mm", (0, 0, "$v x $. x"))
        compare(client, program, "new.mm")
        assert not (client.folder / "new.mm").exists()
    with Folder(program, {"mmkeep.json": '{"top": "db/top.mm"}', "db/top.mm": "$[ db/a.mm $] $[ ./db/a.mm $]\n", "db/a.mm": "$c a $.\n"}) as client:
        client.open("db/a.mm")
        assert [each["code"] for each in client.diagnostics("db/a.mm")] == ["F04"], client.shown


def saved_faults(program):
    """A file that is faulty on disk is shown as its buffer is, saved or not."""
    with Folder(program, {"a.mm": LOGIC + "x $a wff"}) as client:
        client.open("a.mm")
        assert compare(client, program, "a.mm")
        client.replace("a.mm", "x $a wff", "x $a wff $.")
        assert not compare(client, program, "a.mm")
        client.replace("a.mm", "x $a wff $.", "x $a")
        assert compare(client, program, "a.mm")
        client.save("a.mm")
        client.change("a.mm", (0, 0, " "))
        assert compare(client, program, "a.mm")
        client.fill("a.mm", LOGIC)
        client.save("a.mm")
        assert not compare(client, program, "a.mm")


def by_chance(program):
    """Edits by chance of a small database, each compared."""
    chance = random.Random(11)
    with Folder(program) as client:
        client.open("a.mm")
        compare(client, program, "a.mm")
        faults = edit_by_chance(client, program, "a.mm", chance, 250)
        assert 60 < faults < 220, faults


def files_by_chance(program):
    """Edits by chance of three files of a database, in bursts; files are saved, closed and opened, and change on disk."""
    chance = random.Random(23)
    rest = {"top.mm": "$[ logic.mm $]\n$[ more.mm $]\n", "logic.mm": LOGIC, "more.mm": NEW, "third.mm": "t9 $p wff p $= wp $.\n"}
    with Folder(program, {**rest, "mmkeep.json": '{"top": "top.mm"}'}) as client:
        client.open("top.mm")
        for number in range(120):
            name = chance.choice(["top.mm", "logic.mm", "more.mm"])
            what = chance.randrange(10)
            if name not in client.texts:
                client.open(name)
            elif what == 0 and len(client.texts) > 1:
                client.close(name)
            elif what == 1:
                client.save(name)
                rest[name] = client.texts[name]
            elif what == 2:
                client.fill(name, {"top.mm": "$[ logic.mm $]\n$[ third.mm $]\n$[ more.mm $]\n", "logic.mm": LOGIC, "more.mm": NEW}[name])
            elif what == 3:
                rest["third.mm"] = chance.choice(["t9 $p wff p $= wp $.\n", "t9 $p wff p $= wq $.\n", "$( empty $)"])
                (client.folder / "third.mm").write_text(rest["third.mm"])
                client.notify("workspace/didChangeWatchedFiles", {"changes": [{"uri": client.uri("third.mm"), "type": 2}]})
                time.sleep(0.01)
            else:
                for _ in range(chance.randrange(1, 5)):
                    client.change(name, one_by_chance(client.texts[name], chance))
            shown = next(iter(client.texts))
            client.replace(shown, "", "")
            try:
                for each in [*client.texts]:
                    compare(client, program, each, rest, "top.mm")
            except AssertionError as error:
                raise AssertionError(f"step {number}, {what} of {name}: {error}") from None


def large(program):
    """Edits by chance of nf.mm, each compared."""
    if not (DATABASES / "nf.mm").exists():
        return
    chance = random.Random(5)
    with tempfile.TemporaryDirectory() as folder:
        shutil.copy(DATABASES / "nf.mm", folder)
        with Client(program, folder) as client:
            client.open("nf.mm")
            compare(client, program, "nf.mm")
            faults = edit_by_chance(client, program, "nf.mm", chance, 60)
            assert 10 < faults < 50, faults
            assert client.leave() == 0 and client.told() == b"" and client.messages == [], client.messages


def edit_by_chance(client, program, name, chance, count):
    """Edits a buffer so many times, compares each, and answers how often its text had a fault."""
    faults, undo = 0, []
    for number in range(count):
        text = client.texts[name]
        if undo and (chance.random() < 0.45 or len(undo) > 3):
            edits = undo.pop()
        else:
            edits, after = [], text
            for _ in range(chance.choice([1, 1, 1, 2, 5])):
                edits.append(one_by_chance(after, chance))
                after = after[: edits[-1][0]] + edits[-1][2] + after[edits[-1][1] :]
            undo.append([(0, len(after), text)] if len(text) < 5000 and chance.random() < 0.3 else reversed_edits(text, edits))
        client.change(name, *edits)
        try:
            faults += compare(client, program, name)
        except AssertionError as error:
            raise AssertionError(f"edit {number}, {[(begin, end, new[:40]) for begin, end, new in edits]}: {error}") from None
    return faults


def reversed_edits(text, edits):
    """The edits that take edits back."""
    found = []
    for begin, end, new in edits:
        found.append((begin, begin + len(new), text[begin:end]))
        text = text[:begin] + new + text[end:]
    return found[::-1]


def one_by_chance(text, chance):
    """An edit of a text by chance."""
    at = chance.randrange(len(text) + 1)
    kind = chance.randrange(6)
    if kind == 0:
        return at, min(len(text), at + chance.randrange(1, 4)), ""
    if kind == 1:
        end = text.find("\n", at) + 1 or len(text)
        return text.rfind("\n", 0, at) + 1, end, ""
    if kind == 2:
        begin = text.rfind("\n", 0, at) + 1
        end = text.find("\n", at) + 1 or len(text)
        return end, end, text[begin:end]
    if kind == 3:
        # A whole statement goes.
        end = text.find("$.", at) + 2
        return (text.rfind("$.", 0, at) + 2 if text.rfind("$.", 0, at) >= 0 else 0), end if end > 1 else len(text), "\n"
    if kind == 4:
        # A label of a proof becomes another.
        begin = text.find("$=", at)
        end = text.find("$.", begin)
        words = [found for found in re.finditer(r"\S+", text[begin + 2 : end])] if 0 <= begin < end else []
        if words:
            word = chance.choice(words)
            return begin + 2 + word.start(), begin + 2 + word.end(), chance.choice(["?", chance.choice(words)[0], "none"])
    return at, at, chance.choice(BITS)


TESTS = [first_steps, typed, gathered, texts, not_ascii, open_blocks, tails, many_at_once, files, bad_input, ends_early, names, saved_faults, by_chance, files_by_chance, large]
