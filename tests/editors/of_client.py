"""Tests of the client in clients/python."""
import ast
import doctest
import importlib
import pathlib
import random
import re
import shutil
import subprocess
import sys
import tempfile

from protocol import DATABASES, ROOT, mmkeep, position

from mmkeep import buffers

LOGIC = b"""$c wff |- -> ( ) $. $v p q $. wp $f wff p $. wq $f wff q $.
wi $a wff ( p -> q ) $.
${ mi $e |- p $. ma $e |- ( p -> q ) $. mp $a |- q $. $}
${ h1 $e |- p $. h2 $e |- ( p -> q ) $. th $p |- q $= wp wq h1 h2 mp $. $}
"""
TEXTS = [b"$c a $. $c b $.", b"$( $)", b"", b" \n", b"$( a $) ${ $( $} $) $} $( b", b"${ ${ $} $} x", b"$[ none.mm $] $[ b.mm $]\t\f\n", b"$v a $."]


def doctests():
    """The examples in the pages of the client hold."""
    for path in sorted((ROOT / "clients/python/mmkeep").glob("*.py")):
        module = importlib.import_module(f"mmkeep.{path.stem}")
        failed, _ = doctest.testmod(module)
        assert not failed, module.__name__


def hints():
    """Each function of the package says what it takes and answers, and has its sentence; a checker of types, where one is there, finds nothing."""
    package = ROOT / "clients/python"
    for path in sorted((package / "mmkeep").glob("*.py")):
        tree = ast.parse(path.read_text())
        assert ast.get_docstring(tree) and len(path.read_text().splitlines()) <= 400, path.name
        for each in (each for each in ast.walk(tree) if isinstance(each, (ast.FunctionDef, ast.ClassDef))):
            assert ast.get_docstring(each) or each.name.startswith("__"), f"{path.name}: {each.name}"
            if isinstance(each, ast.FunctionDef):
                taken = [*each.args.args, *each.args.kwonlyargs]
                assert each.returns and all(one.annotation for one in taken if one.arg != "self"), f"{path.name}: {each.name}"
    if shutil.which("mypy"):
        with tempfile.TemporaryDirectory() as folder:
            done = subprocess.run(["mypy", "--cache-dir", folder, "mmkeep"], cwd=package, capture_output=True, timeout=150, check=False)
            assert done.returncode == 0, done.stdout.decode()


def sentences():
    """The sentences are those of docs/FAULTS.md."""
    rows = re.findall(r"^\| ([TFP]\d\d) \| (.*?) \| ", (ROOT / "docs/FAULTS.md").read_text().replace("\\|", "!"), re.M)
    told = {number: sentence for number, sentence in mmkeep.SENTENCES.items() if number[0] in "TFP"}
    assert {number: sentence.replace("!", "|") for number, sentence in rows} == told


def counts(program):
    """A text is cut into as many pieces as the program cuts it into; one with a fault is refused."""
    chance = random.Random(7)
    words = [b"$c a $.", b"$v x y $.", b"${", b"$}", b"l $f a x $.", b"$( $. ${ $)", b"$( $)", b"$[ none.mm $]", b"p $p a x $= ? $.", b"\n", b"\t \f", b"$( a$.b $)"]
    with tempfile.TemporaryDirectory() as folder:
        file = pathlib.Path(folder, "a.mm")
        file.write_bytes(b"$c top $.\n")
        with mmkeep.Session("a.mm", folder, program) as session:
            good = 0
            for number in range(600):
                text = b" ".join(chance.choice(words) for _ in range(chance.randrange(9))) if number >= len(TEXTS) else TEXTS[number]
                found, tail = mmkeep.cut(text)
                assert b"".join(found) + tail == mmkeep.ended(text)
                fault = session.fault("a.mm", text)
                if fault:
                    continue
                good += 1
                try:
                    session.insert("a.mm", 1, text)
                    session.delete("a.mm", 1)
                    count = 1
                except mmkeep.Refused as refused:
                    assert refused.number == "S04", refused
                    count = refused.count
                assert count == len(found), text
            assert good > 150, good


def real(program):
    """A real database has the pieces that the program cuts it into."""
    for name in ("nf", "ql", "demo0", "peano"):
        if (DATABASES / f"{name}.mm").exists():
            with mmkeep.Session(f"{name}.mm", DATABASES, program) as session:
                text = (DATABASES / f"{name}.mm").read_bytes()
                found, tail = mmkeep.cut(text)
                assert session.count(f"{name}.mm") == len(found), name
                assert b"".join(found) + tail == mmkeep.ended(text), name


def few_edits():
    """Edits make one list from another, and are few."""
    chance = random.Random(3)
    for number in range(3000):
        old = [b"%d " % chance.randrange(4 if number % 2 else 1000) for _ in range(chance.randrange(12))]
        new = [*old]
        for _ in range(chance.randrange(5)):
            at = chance.randrange(len(new) + 1)
            new[at : at + chance.randrange(3)] = [b"%d " % chance.randrange(2000) for _ in range(chance.randrange(3))]
        changes = mmkeep.edits("a.mm", old, new)
        assert mmkeep.after(old, changes) == new, (old, new)
        assert len(changes) <= max(len(old), len(new)), (old, new)
    old = [b"%d " % each for each in range(1000)]
    new = [b"%d " % each if each % 100 else b"x%d " % each for each in range(1000) if each != 555]
    assert len(mmkeep.edits("a.mm", old, new)) == 11
    assert mmkeep.edits("a.mm", old, old) == []


def texts():
    """A text in chunks is the same text: its lines, its positions and its bytes, whatever is edited."""
    chance, chunk, buffers.CHUNK = random.Random(1), buffers.CHUNK, 7
    for _ in range(200):
        text, model = buffers.Text(b""), ""
        for _ in range(30):
            begin = chance.randrange(len(model) + 1)
            end = min(len(model), begin + chance.randrange(6))
            if "\r\n" in (model[begin - 1 : begin + 1], model[end - 1 : end + 1]):
                continue
            new = "".join(chance.choice(["a", "\n", "\u00e9", "\U0001d538", "\r\n", " "]) for _ in range(chance.randrange(8)))
            at = [text.byte(position(model, each)) for each in (begin, end)]
            assert at == [len(model[:each].encode()) for each in (begin, end)], (model, begin, end, at)
            text.replace(*at, new.encode())
            model = model[:begin] + new + model[end:]
            assert text.all() == model.encode() and text.length == len(model.encode()) and text.slice(3, 9) == model.encode()[3:9]
            at = chance.randrange(len(model) + 1)
            row = model.count("\n", 0, at), len(model[model.rfind("\n", 0, at) + 1 : at].encode())
            assert text.row(len(model[:at].encode())) == row, (model, at)
            assert model[at - 1 : at + 1] == "\r\n" or text.position(*row) == position(model, at), (model, at)
    buffers.CHUNK = chunk


def commands(program):
    """Each command is a method, with its answer as a value; what is refused has its number."""
    with tempfile.TemporaryDirectory() as folder:
        pathlib.Path(folder, "a.mm").write_bytes(LOGIC)
        ran = []
        with mmkeep.Session("a.mm", folder, program, lambda label, count: ran.append((label, count))) as session:
            assert session.report().clean() and session.report().counts == (2, 1, 1, 0, 0, 0)
            assert session.verdict("th") == mmkeep.Finding("proved", "th")
            assert session.verdict("mp") == mmkeep.Finding("axiom", "mp")
            assert (session.axioms("th"), session.cites("th"), session.users("mp")) == (["mp"], ["mp"], ["th"])
            exchanged = b"${ ma $e |- ( p -> q ) $. mi $e |- p $. mp $a |- q $. $}"
            assert session.replace("a.mm", 5, exchanged) == ["th"] and ran == [("th", 1)]
            assert session.verdict("th") == mmkeep.Finding("wrong", "th", mmkeep.Place("a.mm", 4, 67), "P09")
            assert session.report().findings == [session.verdict("th")]
            rule = b"${ mi $e |- p $. ma $e |- ( p -> q ) $. mp $a |- q $. $}"
            back = [mmkeep.Delete("a.mm", 5), mmkeep.Insert("a.mm", 5, rule), mmkeep.Move("a.mm", 6, 0), mmkeep.Move("a.mm", 0, 6)]
            assert session.batch(back) == ["th"] and session.report().clean()
            assert session.insert("a.mm", 7, b"id $p wff p $= wp $.") == ["id"] and session.count("a.mm") == 8
            assert session.move("a.mm", 7, 6) == [] and session.delete("a.mm", 6) == []
            refused(lambda: session.delete("b.mm", 0), number="S01", edit=None)
            refused(lambda: session.delete("a.mm", 9), number="S02", count=7)
            refused(lambda: session.insert("a.mm", 0, b"$c a"), number="S03", fault="T07", line=1, column=1)
            refused(lambda: session.insert("a.mm", 0, b""), number="S04", count=0)
            refused(lambda: session.batch([back[2], mmkeep.Delete("a.mm", 7)]), number="S02", count=7, edit=1)
            refused(lambda: session.users("none"), number="K01", count=None)
            assert session.count("b.mm") is None and session.fault("a.mm", b"$c a $.\n $}") == ("T09", 2, 2)
            assert session.report().clean()
        assert session.close() == 0
        with mmkeep.Session("a.mm", folder, program) as session:
            ended(lambda: session._ask(b"verdict x x\n"), status=5, number="C01", line="mmkeep: C01")
            ended(session.report, status=5, number="C01")
        with mmkeep.Session("a.mm", folder, program) as session:
            session.child.kill()
            ended(session.report, status=-9, number=None)
        pathlib.Path(folder, "b.mm").write_bytes(b"$c a $.\n$v x $")
        with mmkeep.Session("b.mm", folder, program) as session:
            ended(session.report, status=2, number="T05", finding=mmkeep.Finding("fault", None, mmkeep.Place("b.mm", 2, 6), "T05"))
        with mmkeep.Session("c.mm", folder, program) as session:
            ended(session.report, status=2, number=None, line="mmkeep: c.mm: cannot be read")
        ended(lambda: mmkeep.verify("c.mm", folder, program), status=2, line="mmkeep: c.mm: cannot be read")
        assert mmkeep.verify("a.mm", folder, program).clean()
        try:
            mmkeep.Session("a.mm", folder, folder + "/none")
            raise AssertionError("a program that is not there")
        except FileNotFoundError:
            pass


def refused(call, **parts):
    """Asserts that a call is refused so."""
    try:
        call()
    except mmkeep.Refused as error:
        assert {name: getattr(error, name) for name in parts} == parts, error
        return
    raise AssertionError(f"not refused: {parts}")


def ended(call, **parts):
    """Asserts that a call finds the program ended so."""
    try:
        call()
    except mmkeep.Ended as error:
        assert {name: getattr(error, name) for name in parts} == parts, error
        return
    raise AssertionError(f"not ended: {parts}")


def strict(program):
    """Nothing that a caller hands over becomes another command: it is a ValueError, and the session goes on."""
    with tempfile.TemporaryDirectory() as folder:
        pathlib.Path(folder, "a.mm").write_bytes(LOGIC)
        with mmkeep.Session("a.mm", folder, program) as session:
            words = ["", " ", "th ", " th", "t h", "th\n", "x\ndelete a.mm 3", "\n", "a.mm 1\nreport"]
            numbers = [-1, 2**32, 2**70, True, None, "1", 1.0]
            for word in words:
                for call in (session.verdict, session.axioms, session.cites, session.users, session.count):
                    raises(ValueError, lambda: call(word))
                for change in (mmkeep.Insert(word, 0, b"$c k $."), mmkeep.Replace(word, 0, b"$c k $."), mmkeep.Delete(word, 0), mmkeep.Move(word, 0, 0)):
                    raises(ValueError, lambda: session.edit(change))
                    raises(ValueError, lambda: session.batch([change]))
                raises(ValueError, lambda: session.fault(word, b"$c k $."))
            for number in numbers:
                for change in (mmkeep.Insert("a.mm", number, b"$c k $."), mmkeep.Replace("a.mm", number, b"$c k $."), mmkeep.Delete("a.mm", number), mmkeep.Move("a.mm", 0, number)):
                    raises(ValueError, lambda: session.edit(change))
            for text in (b"", b" \n\t"):
                raises(ValueError, lambda: session.replace("a.mm", 0, text))
            for text in ("$c k $.", None, 7):
                for call in (session.insert, session.replace):
                    raises(ValueError, lambda: call("a.mm", 0, text))
                raises(ValueError, lambda: session.fault("a.mm", text))
            # Of a file that was not loaded no text is judged.
            for text in (b"$c k $.", b"$c k", b""):
                raises(LookupError, lambda: session.fault("b.mm", text))
            assert session.report().clean() and session.count("a.mm") == 7 and session.verdict("th").kind == "proved"


def raises(kind, call):
    """Asserts that a call raises this."""
    try:
        call()
    except kind as error:
        assert str(error), error
        return
    raise AssertionError(f"no {kind.__name__}")


def parts(program):
    """The pieces of a session, their statements and places; edits that are done, looked at, and taken back."""
    with tempfile.TemporaryDirectory() as folder:
        pathlib.Path(folder, "a.mm").write_bytes(LOGIC)
        with mmkeep.Session("a.mm", folder, program) as session:
            session.insert("a.mm", 7, b"$c k $.")
            assert session.pieces("a.mm") == [*mmkeep.pieces(LOGIC), b"$c k $.\n"]
            assert session.place("a.mm", 6, 3) == mmkeep.Place("a.mm", 4, 4) and session.place("a.mm", 7) == mmkeep.Place("a.mm", 5, 1)
            *_, proof, _ = session.statements("a.mm", 6)
            assert (proof.label, proof.kind, proof.symbols, [word for word, _ in proof.proof]) == ("th", "$p", ["|-", "q"], ["wp", "wq", "h1", "h2", "mp", "$."])
            rule = session.pieces("a.mm")[5]
            with session.try_edits([mmkeep.Delete("a.mm", 5), mmkeep.Move("a.mm", 6, 0)]) as ran:
                assert ran == ["th"] and session.report().counts.wrong == 1 and rule not in session.pieces("a.mm")
            assert session.report().clean() and session.pieces("a.mm") == [*mmkeep.pieces(LOGIC), b"$c k $.\n"]
            raises(LookupError, lambda: session.pieces("b.mm"))
            try:
                with session.try_edits([mmkeep.Delete("a.mm", 7)]):
                    raise KeyError("in the middle")
            except KeyError:
                pass
            assert session.count("a.mm") == 8
            refused(lambda: session.try_edits([mmkeep.Insert("a.mm", 0, b"$c")]).__enter__(), number="S03")
            pathlib.Path(folder, "a.mm").write_bytes(LOGIC + b"$c l $.\n")
        with mmkeep.Session("a.mm", folder, program) as session:
            session.report()
            pathlib.Path(folder, "a.mm").write_bytes(LOGIC)
            raises(LookupError, lambda: session.pieces("a.mm"))


def splitters(program):
    """The scripts of bench/ cut as the client does."""
    with tempfile.TemporaryDirectory() as folder:
        file = pathlib.Path(folder, "a.mm")
        file.write_bytes(LOGIC + b"$( $) $[ b.mm $] $( the end $)")
        pathlib.Path(folder, "b.mm").write_bytes(b"$v z $.")
        words = [sys.executable, str(ROOT / "bench/split"), "a.mm", "parts", "4"]
        subprocess.run(words, cwd=folder, check=True, capture_output=True, timeout=60)
        parts = [pathlib.Path(folder, "parts", name).read_bytes() for name in re.findall(r"\S+\.mm", pathlib.Path(folder, "parts/top.mm").read_text())]
        assert b"".join(parts) == file.read_bytes() and 2 <= len(parts) <= 5, parts
        words = [sys.executable, str(ROOT / "bench/sessions"), program, str(DATABASES / "nf.mm")]
        done = subprocess.run(words, capture_output=True, timeout=100, check=False)
        assert done.returncode == 0 and b"the report" in done.stdout, done


TESTS = [doctests, hints, sentences, counts, real, few_edits, texts, commands, strict, parts, splitters]
