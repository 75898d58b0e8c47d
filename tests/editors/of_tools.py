"""Tests of the programs of clients/python: a report for people, a watch, a picture."""
import itertools
import os
import pathlib
import queue
import re
import shutil
import subprocess
import sys
import tempfile
import threading
import time
import xml.etree.ElementTree

from of_client import LOGIC
from protocol import DATABASES, ROOT, mmkeep

PYTHON = ROOT / "clients/python"
# Proofs that are wrong, and what their steps expected and got.
STEPS = [
    ("${ k1 $e |- p $. k2 $e |- ( p -> q ) $. t $p |- q $= wp wq k2 k1 mp $. $}", "P09", ["expected |- p", "got      |- ( p -> q )"]),
    ("${ k1 $e |- p $. k2 $e |- ( p -> q ) $. t $p |- q $= ( mp ) ABDCE $. $}", "P09", ["expected |- p", "got      |- ( p -> q )"]),
    ("${ k1 $e |- p $. k2 $e |- ( p -> q ) $. t $p |- q $= ( mp ) CABDE $. $}", "P08", ["expected wff ...", "got      |- p"]),
    ("${ k1 $e |- p $. k2 $e |- ( p -> q ) $. t $p |- q $= wp wq k1 wp mp $. $}", "P09", ["expected |- ( p -> q )", "got      wff p"]),
    ("${ k1 $e |- p $. k2 $e |- ( p -> q ) $. t $p |- q $= ( mp ) AB $( $= ) $) DCEA $. $}", "P09", ["expected |- p", " ^"]),
    ("t $p wff ( p -> q ) $= wp wi $.", "P07", ["expected 2 entries", "got      1"]),
    ("t $p wff ( p -> q ) $= wp wp wi $.", "P15", ["expected wff ( p -> q )", "got      wff ( p -> p )"]),
    ("t $p wff p $= wp wp $.", "P14", ["2 entries are left"]),
    ("t $p wff ( ( p -> p ) -> p ) $= ( wi ) AABZAAB $.", "P14", ["2 entries are left"]),
    ("${ $d p q $. d $a wff ( p q ) $. $} t $p wff p $= wp wp d $.", "P10", ["both have p"]),
    ("${ $d p q $. d $a wff ( p q ) $. $} t $p wff p $= wp wq d $.", "P11", ["no $d keeps p and q apart"]),
    ("$( Not ${ or $= $) $d p q $. ${ $d p q r $. d $a wff ( p q r ) $. $} t $p wff p $= wp wq wr d $.", "P11", ["to add: $d p r $. $d q r $."]),
]
# The same database with words in its comments that mean nothing there.
WORDS = LOGIC.replace(b"wp $f", b"$( Once $a or $= was here. $) wp $f").replace(b"wq $f", b"$( And ${ $) wq $f")


def in_words(program):
    """A report is explained: faults first, what they make wrong counted, and what a step expected and got."""
    with tempfile.TemporaryDirectory() as folder:
        file = pathlib.Path(folder, "a.mm")
        for logic, (proof, number, lines) in itertools.product((LOGIC, WORDS), STEPS):
            file.write_bytes(logic + b"$v r $. wr $f wff r $.\n" + proof.encode() + b"\n")
            report = mmkeep.verify("a.mm", folder, program)
            told = mmkeep.explain(report, folder, "a.mm")
            assert number in told[0] and mmkeep.SENTENCES[number] in told[0], told
            shown = [line.strip() for line in told]
            assert all(any(each.endswith(line) for each in shown) for line in lines), told
            assert told[2].index("^") - told[1].index("|") - 2 == report.findings[0].place.column - 1, told
        for note in (b"", b"$( $a $. $) "):
            file.write_bytes(LOGIC.replace(b"mp $a |- q $.", b"mp $a " + note + b"|- z $.") + b"${ k $p |- p $= ( mp ) A $. $}\n")
            told = mmkeep.explain(mmkeep.verify("a.mm", folder, program), folder, "a.mm")
            assert told[0].startswith("a.mm:3:") and "(F10)" in told[0] and len(told) == 8, told
            assert told[3] == f"2 proofs name `mp`, which is at fault at a.mm:3:{50 + len(note)}" and told[4].endswith("also k") and " th: " in told[5], told
        file.write_bytes(LOGIC + b"x $a |- \x80 $.\n")
        words = f"'{program}' verify a.mm 2>&1 | '{sys.executable}' '{PYTHON / 'bin/mmkeep-explain'}' a.mm"
        done = subprocess.run(words, shell=True, cwd=folder, capture_output=True, timeout=60, check=False)
        assert (done.returncode, done.stderr) == (1, b"") and b"a.mm:5:9: " in done.stdout and b"(T01)" in done.stdout, done


def explained(program):
    """The step of a proof of a real database is explained."""
    if not (DATABASES / "nf.mm").exists():
        return
    with tempfile.TemporaryDirectory() as folder:
        text = (DATABASES / "nf.mm").read_bytes()
        # The hypotheses of the rule of detachment are exchanged: thousands of steps get another entry than they expect.
        found = re.search(rb"(min \$e \|- ph \$\.)(.*?)(maj \$e \|- \( ph -> ps \) \$\.)", text, re.DOTALL)
        pathlib.Path(folder, "nf.mm").write_bytes(text[: found.start()] + found[3] + found[2] + found[1] + text[found.end() :])
        report = mmkeep.verify("nf.mm", folder, program)
        wrong = [each for each in report.findings if each.number == "P09"][:40]
        told = mmkeep.explain(report, folder, "nf.mm")
        assert len(told) < 50 and re.search(r"of [\d,]+ wrong proofs name `ax-mp` ", told[0]), told[:3]
        told = mmkeep.explain(wrong, folder, "nf.mm", whole=True)
        assert len(wrong) == 40 and sum(line.startswith("    expected ") for line in told) == 40, told[:12]


# Accidents, as edits of MANY: what stands there, what takes its place, and what is told of it.
MANY = b"""$c wff |- -> ( ) $. $v p q r $. wp $f wff p $. wq $f wff q $. wr $f wff r $.
wi $a wff ( p -> q ) $.
${ mi $e |- p $. ma $e |- ( p -> q ) $. mp $a |- q $. $}
ax $a |- ( p -> ( q -> p ) ) $.
${ h $e |- p $. a1i $p |- ( q -> p ) $= wp wq wp wi h wp wq ax mp $. $}
${ $d p q $. ae $a |- ( p -> q ) $. $}
${ $d p q $. x1 $p |- ( p -> q ) $= wp wq ae $. $}
"""
MANY += b"".join(b"${ k%d $e |- p $. u%d $p |- ( q -> ( q -> p ) ) $= wq wp wi wq wp wq k%d a1i a1i $. $}\n" % (each, each, each) for each in range(300))
MANY += b"".join(b"v%d $p wff ( p -> q ) $= wp wq wi $.\n" % each for each in range(40))
ACCIDENTS = [
    (b" a1i $p", b" a1ii $p", ["300 proofs name `a1i`, which no earlier statement declares; no proof names `a1ii` (a.mm:5:17): was it renamed?"]),
    (b"${ h $e |- p $. a1i $p |- ( q -> p ) $= wp wq wp wi h wp wq ax mp $. $}\n", b"", ["300 proofs name `a1i`, which no earlier statement declares"]),
    (b"k7 a1i a1i", b"k7 ali a1i", ["u7: ", "did you mean `a1i`?"]),
    (b"${ h $e |- p $. a1i", b"${ h $e |- r $. a1i", ["300 of 301 wrong proofs name `a1i` (a.mm:5:17), and 0 of the others", "a1i: "]),
    (b"mi $e |- p $. ma $e |- ( p -> q ) $.", b"ma $e |- ( p -> q ) $. mi $e |- p $.", ["expected |- ( p -> ( q -> p ) )", "got      |- p", "step 9, `mp`"]),
    (b"${ $d p q $. x1", b"${ x1", ["no $d keeps p and q apart", "to add: $d p q $."]),
    (b"ax $a", b"wi $a", ["the label is taken (F06)", "it is that of the statement at a.mm:2:1"]),
    (b"( q -> p ) $= wp wq wp", b"( q -> z ) $= wp wq wp", ["(F10)", "300 proofs name `a1i`, which is at fault at a.mm:5:34"]),
    (b"$c wff", b"\xef\xbb\xbf$c wff", ["(T01)", "byte order mark"]),
    (b"$c wff", b"$( G\xc3\xb6del $) $c wff", ["(T01)", "it begins `\u00f6`"]),
    (b"wr $f wff r $.\n", b"wr $f wff r\n", ["(T06)", "expected `$.` here: the statement before is not ended"]),
    (b"ax $a |- ( p -> ( q -> p ) ) $.", b"ax $p |- ( p -> ( q -> p ) ) $.", ["(T06)", "expected `$=` and a proof before it"]),
    (b"$c wff", b"$( open $c wff", ["(T02)"]),
    (b"wi $a", b"$( one $( two $) wi $a", ["(T03)", "the comment that is open here begins at a.mm:2:1"]),
    (b"wi $a", b"$( one$) wi $a", ["(T03)", "a keyword wants white space before it: `one $)`"]),
    (b"mp $. $}\n${ $d", b"mp$. $}\n${ $d", ["(T05)", "a keyword wants white space before it: `mp $.`"]),
    (b"wi $a", b"<<<<<<< HEAD\nwi $a", ["(T11)", "a mark of a merge"]),
    (b"$c wff", b"$[ none.mm $] $c wff", ["(F14)", "names of inclusions are opened from the folder"]),
    (b"wi h wp wq ax mp", b"? h wp wq ax mp", ["a1i: a step of the proof is not known"]),
    (b"wi $a wff ( p -> q ) $.\n", b"", ["proofs name `wi`"]),
]


def accidents(program):
    """Each accident has its cause told, in at most 50 lines; and all findings if they are asked for."""
    with tempfile.TemporaryDirectory() as folder:
        file = pathlib.Path(folder, "a.mm")
        for old, new, told in [(b"", b"", []), *ACCIDENTS]:
            assert MANY.count(old) == 1 or not old, old
            file.write_bytes(MANY.replace(old, new) if old else MANY)
            try:
                findings = mmkeep.verify("a.mm", folder, program).findings
            except mmkeep.Ended as error:
                findings = [error.finding]
            lines = mmkeep.explain(findings, folder, "a.mm")
            assert len(lines) < 50 and bool(lines) == bool(told), (old, len(lines))
            assert all(any(each in line for line in lines) for each in told), (old, told, lines)
            whole = mmkeep.explain(findings, folder, "a.mm", whole=True)
            assert all(any(line.startswith(f"{each.place}: ") for line in whole) for each in findings), (old, whole[:4])
        # Many accidents at once: each has a word of its own that is unknown, or a step of its own that is wrong.
        words = b"".join(b"w%d $p |- p $= wp z%d $.\n" % (each, each) for each in range(900))
        words += b"".join(b"${ $d p q $. s%d $a |- ( p -> q ) $. $}\nt%d $p |- ( p -> q ) $= wp wq s%d $.\nr%d $p |- ( q -> p ) $= wq wp s%d $.\n" % (each, each, each, each, each) for each in range(300))
        file.write_bytes(MANY + words)
        report = subprocess.run([program, "verify", "a.mm"], cwd=folder, capture_output=True, timeout=60, check=False)
        lines, _ = explained_so(folder, report.stdout, "a.mm")
        assert report.stdout.count(b"\n") == 1501 and 40 < len(lines) <= 50 and lines[-1].endswith("more findings are not shown (--all shows them)"), lines
        # Without the name of the top file the groups are told all the same.
        file.write_bytes(MANY.replace(b" a1i $p", b" a1ii $p"))
        report = subprocess.run([program, "verify", "a.mm"], cwd=folder, capture_output=True, timeout=60, check=False)
        whole, status = explained_so(folder, report.stdout, "--all", "a.mm")
        assert status == 1 and len(whole) > 900 and whole[0].startswith("axioms "), whole[:3]
        lines, _ = explained_so(folder, report.stdout)
        assert "300 proofs name `a1i`, which no earlier statement declares" in lines, lines
        # A part that is missing comes first, whatever else is told.
        parts = [mmkeep.pieces(MANY)[:3], mmkeep.pieces(MANY)[3:]]
        pathlib.Path(folder, "p2.mm").write_bytes(b"".join(parts[1]))
        file.write_bytes(b"$[ p1.mm $] $[ p2.mm $]\n")
        report = subprocess.run([program, "verify", "a.mm"], cwd=folder, capture_output=True, timeout=60, check=False)
        lines, _ = explained_so(folder, report.stdout, "a.mm")
        assert len(lines) <= 50 and "(F14)" in lines[1] and lines[0].startswith("axioms "), lines[:5]
        assert any("more faults of statements: " in line for line in lines), lines


def explained_so(folder, report, *words):
    """The lines that are told of a report, and the status."""
    done = subprocess.run([str(PYTHON / "bin/mmkeep-explain"), *words], input=report, cwd=folder, capture_output=True, timeout=60, check=False)
    assert done.stderr == b"", done.stderr
    return done.stdout.decode().splitlines(), done.returncode


def large_accident(program):
    """A much used label of a real database is renamed: the cause is told in a few lines, and soon."""
    with tempfile.TemporaryDirectory() as folder:
        text = (DATABASES / "nf.mm").read_bytes()
        pathlib.Path(folder, "nf.mm").write_bytes(text.replace(b"\n    mpbid $p ", b"\n    mpbidd $p "))
        report = subprocess.run([program, "verify", "nf.mm"], cwd=folder, capture_output=True, timeout=60, check=False)
        assert report.stdout.count(b"P01") > 50, report.stdout[-200:]
        lines, _ = explained_so(folder, report.stdout, "nf.mm")
        assert len(lines) < 12 and "which no earlier statement declares; no proof names `mpbidd` (nf.mm:" in lines[1], lines


def first_watch(program):
    """The three commands of clients/editor/README.md follow a database in a terminal."""
    page = (ROOT / "clients/editor/README.md").read_text()
    lines = re.search(r"In a terminal.*?\n\n((?:    .*\n)+)", page)[1]
    assert len(lines.splitlines()) == 3, lines
    with tempfile.TemporaryDirectory() as folder:
        place = pathlib.Path(folder)
        (place / "crates/mmkeep/out").mkdir(parents=True)
        os.symlink(program, place / "crates/mmkeep/out/mmkeep")
        for name in ("clients", "examples"):
            os.symlink(ROOT / name, place / name)
        settings = {each: value for each, value in os.environ.items() if each != "MMKEEP"}
        with Watch(["bash", "-ec", lines.replace("    mmkeep-watch", "    exec mmkeep-watch")], folder, settings) as watch:
            watch.until("broke ax: faults.mm:7:1 F06")
            (place / "faults.mm").write_text((ROOT / "examples/faults.mm").read_text().replace("ax $a |- q $.\n", ""))
            watch.until("mended ax F06")


class Watch:
    """A watch over a file of a folder, and what it prints."""

    def __init__(self, words, folder, settings):
        self.child = subprocess.Popen(words, cwd=folder, stdout=subprocess.PIPE, stderr=subprocess.PIPE, env=settings)
        self.lines = queue.Queue()
        threading.Thread(target=lambda: [self.lines.put(line.decode()) for line in self.child.stdout], daemon=True).start()

    def __enter__(self):
        return self

    def __exit__(self, kind, *_):
        self.child.terminate()
        self.child.wait()
        assert kind or self.child.stderr.read() == b""

    def until(self, text):
        """Waits for a line with a text. Answers the lines up to it."""
        end, told = time.monotonic() + 30, []
        while not any(text in line for line in told):
            try:
                told.append(self.lines.get(timeout=max(0.1, end - time.monotonic())))
            except queue.Empty:
                raise AssertionError(f"no {text!r}, but {told}") from None
        return told


def watch_of(program, folder, name):
    """A watch with a program over a file of a folder."""
    return Watch([str(PYTHON / "bin/mmkeep-watch"), name], folder, {**os.environ, "MMKEEP": program})


def watched(program):
    """A database is followed: what breaks and what is mended is told, and no save is lost."""
    with tempfile.TemporaryDirectory() as folder:
        file, other = pathlib.Path(folder, "a.mm"), pathlib.Path(folder, "b.mm")
        file.write_bytes(b"$[ b.mm $]\n" + LOGIC)
        other.write_bytes(b"$c k $.\n")

        def saved(text):
            """Puts a file in the place of the other one, so that no half of it is read."""
            pathlib.Path(folder, "new").write_bytes(text)
            pathlib.Path(folder, "new").rename(other)

        with watch_of(program, folder, "a.mm") as watch:
            watch.until("a.mm: 1 theorems, 1 proved (")
            file.write_bytes(b"$[ b.mm $]\n" + LOGIC.replace(b"h1 h2 mp", b"h2 h1 mp"))
            watch.until("broke th: a.mm:5:67 P09 an entry is not the mandatory")
            file.write_bytes(b"$[ b.mm $]\n" + LOGIC)
            watch.until("nothing is wrong any more")
            other.write_bytes(b"$c k $. $c k $.\n")
            watch.until("broke k: b.mm:1:12 F04")
            # Of findings that are alike, those at a new place are new.
            saved(b"$c k $. $c k $.\n$c k $.\n")
            told = watch.until("broke k: b.mm:2:4 F04")
            saved(b"$c k $. $c k $.\n$c l\n")
            told += watch.until("b.mm:2:1 T07")
            assert not any("broke k: b.mm:1:12" in line for line in told), told
            saved(b"$c k $. $c k $.\n$c k $.\n")
            watch.until("the text has no fault any more")
            # Where nothing changed, nothing is told.
            other.touch()
            time.sleep(1)
            saved(b"$c k $. $c k $.\n$c k $.\n$( A note. $)\n")
            assert len(watch.until("nothing but comments behind the last statement changed")) == 1
            saved(b"$c k $.\n$c l $.\n")
            told = watch.until("mended k F04")
            assert len(told) == 2, told
            watch.until("mended k F04")
            file.write_bytes(LOGIC)
            watch.until("a.mm: 1 theorems, 1 proved (")
            # Many saves, one after another: the last one counts.
            for each in range(60):
                file.write_bytes(LOGIC + b"t%d $p wff p $= %s $.\n" % (each, b"wp" if each % 2 else b"wq"))
                time.sleep(0.01)
            file.write_bytes(LOGIC + b"last $p wff p $= wq $.\n")
            watch.until("broke last: a.mm:5:")
            file.unlink()
            watch.until("a.mm: cannot be read")
            file.write_bytes(LOGIC)
            watch.until("a.mm: 1 theorems, 1 proved (")


def watched_oddly(program):
    """A name with a space, a file in another folder that others take the place of, lines that end otherwise, and bytes of no text."""
    with tempfile.TemporaryDirectory() as folder:
        file, new = pathlib.Path(folder, "my db.mm"), pathlib.Path(folder, "new")
        file.write_bytes(LOGIC)
        with watch_of(os.path.relpath(program, folder), folder, "my db.mm") as watch:
            watch.until("my db.mm: 1 theorems, 1 proved (")
            file.write_bytes(LOGIC.replace(b"h1 h2 mp", b"h2 h1 mp"))
            watch.until("broke th: my db.mm:4:67 P09")
        pathlib.Path(folder, "db").mkdir()
        file = file.rename(pathlib.Path(folder, "db/a.mm"))
        file.write_bytes(LOGIC.replace(b"\n", b"\r\n"))
        with watch_of(program, folder, "db/a.mm") as watch:
            watch.until("a.mm: 1 theorems, 1 proved (")
            for proof, told in ((b"h2 h1 mp", "broke th: db/a.mm:4:67 P09"), (b"h1 h2 mp", "nothing is wrong any more")):
                new.write_bytes(LOGIC.replace(b"h1 h2 mp", proof).replace(b"\n", b"\r\n"))
                file.unlink()
                new.rename(file)
                watch.until(told)
            file.write_bytes(LOGIC + b"$( \xc3\xa9 \xff $)")
            watch.until("db/a.mm:5:4 T01: a byte that is neither")
            file.write_bytes(b"")
            watch.until("ran 0")


def ends_well(words, folder, status, told, **more):
    """Asserts that a program ends with a status and one sentence, or none, on standard error. Answers what it printed."""
    settings = {**os.environ, **more.pop("settings", {})}
    done = subprocess.run([str(PYTHON / "bin" / words[0]), *words[1:]], cwd=folder, env=settings, stderr=subprocess.PIPE, timeout=60, check=False, **{"stdout": subprocess.PIPE, **more})
    assert done.returncode == status and told in done.stderr.decode() and done.stderr.count(b"\n") == bool(told), (words, done)
    return done.stdout


def bad_reports(program):
    """What is no report, names what is not there, or cannot be printed, is told in a sentence, with a status that is not 0."""
    with tempfile.TemporaryDirectory() as folder:
        pathlib.Path(folder, "a.mm").write_bytes(LOGIC)
        pathlib.Path(folder, "dir").mkdir()
        os.mkfifo(pathlib.Path(folder, "pipe"))
        clean = b"axioms 1 theorems 1 proved 1 incomplete 0 wrong 0 faults 0\n"
        for form in ("mmkeep-explain", "mmkeep-convert --junit", "mmkeep-convert --sarif", "mmkeep-convert --github"):
            words = form.split()
            for given in (b"", b"no report\n\xff\x00\n", b"wrong th a.mm P09\n"):
                ends_well(words, folder, 1, "standard input is no report", input=given)
            ends_well(words, folder, 0, "", input=clean)
            full = open("/dev/full", "wb")
            ends_well(words, folder, 1, "No space left on device", input=clean * 9, stdout=full)
            full.close()
            ends_well(words, folder, 1, f"{words[0]}: standard output is closed", input=clean, preexec_fn=lambda: os.close(1))
        # What no XML may hold in the name of a file.
        shown = ends_well(["mmkeep-convert", "--junit"], folder, 0, "", input=b"wrong th a\x01\xff.mm:4:67 P09\n" + clean)
        [failure] = xml.etree.ElementTree.fromstring(shown).iter("failure")
        assert failure.text == "a??.mm:4:67", shown
        for place in (b"a.mm:0:0", b"a.mm:4:67", b"a.mm:99999:99999", b"gone.mm:1:1", b"dir:1:1", b"pipe:1:1", b"\xff.mm:1:1", b"a\x1b[31m.mm:1:1", b":1:1"):
            lines = [line % place for line in (b"fault %b F06 \xff", b"fault %b F10 x", b"wrong th %b P09", b"wrong \xe9 %b P11", b"wrong th %b P01", b"incomplete th %b", b"mmkeep: %b T03", b"mmkeep: %b T08")]
            shown = ends_well(["mmkeep-explain", "--all", "a.mm"], folder, 1, "", input=b"\n".join([*lines, clean]))
            assert shown.count(place.replace(b"\xff", b"?").replace(b"\x1b", b"?")) >= 8 and b"\x1b" not in shown, (place, shown)
        ends_well(["mmkeep-explain", "none.mm"], folder, 1, "none.mm: cannot be read", input=clean)
        ends_well(["mmkeep-explain", "dir"], folder, 1, "dir: cannot be read", input=clean)
        ends_well(["mmkeep-explain", "none.mm"], folder, 1, "", input=b"mmkeep: none.mm: cannot be read\n")
        ends_well(["mmkeep-explain", "a.mm", "b.mm"], folder, 1, "usage: ", input=clean)
        # Reports of several databases, one after another.
        assert len(ends_well(["mmkeep-explain"], folder, 0, "", input=clean * 3).splitlines()) == 3


def bad_words(program):
    """A missing file, a folder, a program that is not there, and words that are none, are told in a sentence."""
    with tempfile.TemporaryDirectory() as folder:
        pathlib.Path(folder, "a.mm").write_bytes(LOGIC)
        here, nowhere = {"MMKEEP": program}, {"MMKEEP": "/nowhere/mmkeep"}
        for name in ("none.mm", ".", ""):
            ends_well(["mmkeep-watch", name], folder, 1, "cannot be read", settings=here)
            ends_well(["mmkeep-graph", name, "th"], folder, 1, "mmkeep-graph: ", settings=here)
        ends_well(["mmkeep-watch", "a.mm"], folder, 1, "the program /nowhere/mmkeep cannot be run", settings=nowhere)
        ends_well(["mmkeep-graph", "a.mm", "th"], folder, 1, "the program /nowhere/mmkeep cannot be run", settings=nowhere)
        for label in ("t h", "th\nreport", "", b"\xff"):
            ends_well(["mmkeep-graph", "a.mm", label], folder, 1, "mmkeep-graph: ", settings=here)
        full = open("/dev/full", "wb")
        ends_well(["mmkeep-graph", "a.mm", "th"], folder, 1, "No space left on device", settings=here, stdout=full)
        full.close()
        for words in (["mmkeep-graph", "a.mm", "th"], ["mmkeep-watch", "a.mm"], ["mmkeep-lsp"]):
            ends_well(words, folder, 1, f"{words[0]}: standard output is closed", settings=here, preexec_fn=lambda: os.close(1))
        ends_well(["mmkeep-lsp"], folder, 1, "", preexec_fn=lambda: os.close(0))
        for words in (["mmkeep-watch"], ["mmkeep-watch", "--help"], ["mmkeep-graph", "a.mm"], ["mmkeep-convert"], ["mmkeep-convert", "--xml"], ["mmkeep-lsp", "--none"]):
            ends_well(words, folder, 1, "usage: ", settings=here)


def graphs(program):
    """A picture has what a theorem rests on, as a picture and as a graph of graphviz."""
    with tempfile.TemporaryDirectory() as folder:
        pathlib.Path(folder, "a.mm").write_bytes(MANY)
        words, settings = [str(PYTHON / "bin/mmkeep-graph")], {**os.environ, "MMKEEP": program}
        done = subprocess.run([*words, "a.mm", "u7"], cwd=folder, env=settings, capture_output=True, timeout=60, check=False)
        assert (done.returncode, done.stderr) == (0, b""), done
        texts = ["".join(each.itertext()) for each in xml.etree.ElementTree.fromstring(done.stdout).iter("{http://www.w3.org/2000/svg}text")]
        assert sorted(texts) == sorted(["u7", "a1i", "mp", "ax", "2 axioms", "2 proved", "not shown: 1 axiom with another typecode, for what an expression is"]), texts
        done = subprocess.run([*words, "--dot", "--all", "a.mm", "u7"], cwd=folder, env=settings, capture_output=True, timeout=60, check=False)
        assert b'"u7" -> "wi"' in done.stdout and b'"a1i" -> "mp"' in done.stdout, done
        # Of very many theorems those that are nearest are drawn, and one box stands for the others.
        pathlib.Path(folder, "b.mm").write_bytes(b"$[ a.mm $]\n${ h0 $e |- p $. c0 $p |- p $= h0 $. $}\n" + b"".join(b"${ h%d $e |- p $. c%d $p |- p $= wp h%d c%d $. $}\n" % (each, each, each, each - 1) for each in range(1, 100)))
        done = subprocess.run([*words, "b.mm", "c99"], cwd=folder, env=settings, capture_output=True, timeout=60, check=False)
        texts = ["".join(each.itertext()) for each in xml.etree.ElementTree.fromstring(done.stdout).iter("{http://www.w3.org/2000/svg}text")]
        assert len(texts) == 62 and {"c99", "c40", "40 more theorems", "60 proved"} <= {*texts}, texts
        done = subprocess.run([*words, "a.mm", "none"], cwd=folder, env=settings, capture_output=True, timeout=60, check=False)
        assert done.returncode == 1 and done.stderr == b"mmkeep-graph: no sound $a or $p has the label none (K01)\n", done
        done = subprocess.run([*words, "c.mm", "u7"], cwd=folder, env=settings, capture_output=True, timeout=60, check=False)
        assert done.returncode == 1 and done.stderr == b"mmkeep-graph: mmkeep: c.mm: cannot be read (status 2: a file was not taken)\n", done


TESTS = [in_words, explained, accidents, large_accident, bad_reports, first_watch, watched, watched_oddly, graphs, bad_words]
