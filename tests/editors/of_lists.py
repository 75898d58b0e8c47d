"""Tests of what reads a report: vim, tasks of VS Code, build machines, and a hook of git; and of the pages."""
import json
import os
import pathlib
import re
import shutil
import subprocess
import tempfile
import xml.etree.ElementTree

from protocol import ROOT

EXAMPLES = ROOT / "examples"
CLIENTS = ROOT / "clients"
CI = CLIENTS / "ci"
CONVERT = str(CLIENTS / "python/bin/mmkeep-convert")
# A file whose report has all kinds of lines: examples/faults.mm, an incomplete proof and a wrong one.
MORE = "u $p |- p $= ? $.\nw $p |- p $= wp wp ax $.\n"


class Place:
    """A folder with files, where commands are run."""

    def __init__(self, program):
        self.program = program

    def __enter__(self):
        self.held = tempfile.TemporaryDirectory()
        self.path = pathlib.Path(self.held.name)
        (self.path / "db").mkdir()
        (self.path / "db/faults.mm").write_text((EXAMPLES / "faults.mm").read_text() + MORE)
        (self.path / "db/half.mm").write_text("$c a $.\n  $v x\n")
        (self.path / "db/clean.mm").write_text((EXAMPLES / "first.mm").read_text())
        return self

    def __exit__(self, *_):
        self.held.cleanup()

    def run(self, *words, text="", **more):
        """The output and the status of a command."""
        settings = {**os.environ, "MMKEEP": self.program, "HOME": str(self.path), "GIT_CONFIG_NOSYSTEM": "1", **more}
        done = subprocess.run(words, input=text.encode(), cwd=self.path, env=settings, capture_output=True, timeout=60, check=False)
        self.told = done.stderr.decode()
        return done.stdout.decode(), done.returncode

    def report(self):
        """The reports of the files, as a build machine prints them, and their places."""
        lines, status = self.run(str(CI / "verify"), "db/faults.mm", "db/half.mm", "db/clean.mm")
        assert status == 2 and self.told == "", (lines, status, self.told)
        places = [(found[1], int(found[2]), int(found[3])) for found in re.finditer(r"(\S+\.mm):(\d+):(\d+)", lines)]
        assert len(places) == 5 and {name for name, _, _ in places} == {"db/faults.mm", "db/half.mm"}, lines
        return lines, places


def vim(program):
    """`:cfile` and `:make` of vim give the places."""
    with Place(program) as place:
        lines, places = place.report()
        (place.path / "report").write_text(lines)
        items = "map(getqflist(), 'bufname(v:val.bufnr) .. \"|\" .. v:val.lnum .. \"|\" .. v:val.col .. \"|\" .. v:val.type .. \"|\" .. v:val.text')"
        script = f"set nomore\ncompiler! mmkeep\ncfile report\ncall writefile({items}, 'out')\n"
        script += f"edit db/clean.mm\ncd db\nedit faults.mm\nlet $PATH = '{os.path.dirname(program)}:' .. $PATH\nsilent make!\ncd ..\ncall writefile({items}, 'made')\nqa!\n"
        (place.path / "script.vim").write_text(script)
        place.run("vim", "-N", "-u", "NONE", "-i", "NONE", "-n", "-es", "--cmd", f"set rtp^={CLIENTS / 'editor/vim'}", "-S", "script.vim")
        found = [line.split("|") for line in (place.path / "out").read_text().splitlines()]
        assert [(each[0], int(each[1]), int(each[2])) for each in found] == places, found
        assert [each[3] for each in found] == ["W" if "incomplete" in each[4] else "E" for each in found], found
        assert "F02 $c" in found[0][4] and {each[3] for each in found} == {"W", "E"}, found
        if os.path.basename(program) == "mmkeep":
            made = [line.split("|") for line in (place.path / "made").read_text().splitlines()]
            assert [(int(each[1]), int(each[2])) for each in made] == [(line, column) for name, line, column in places if name == "db/faults.mm"], made


def matched(patterns, line):
    """What the patterns of a problem matcher take of a line: file, line, column and severity. The message is never empty."""
    for severity, pattern in patterns:
        found = re.fullmatch(pattern["regexp"].removeprefix("^").removesuffix("$"), line)
        if found:
            assert found[pattern["message"]].strip() and ("code" not in pattern or re.fullmatch("[FTP][0-9][0-9]", found[pattern["code"]])), line
            yield found[pattern["file"]], int(found[pattern["line"]]), int(found[pattern["column"]]), severity


def matchers(program):
    """The problem matchers of VS Code and of a build machine take each line once, at its place."""
    task = json.loads((CLIENTS / "editor/vscode/tasks.json").read_text())["tasks"][0]
    assert task["command"] == "mmkeep" and task["args"][0] == "verify"
    hosted = json.loads((CI / "problem-matcher.json").read_text())["problemMatcher"]
    assert len({each["owner"] for each in hosted}) == len(hosted)
    kinds = [[(each["severity"], each["pattern"]) for each in task["problemMatcher"]], [(each["severity"], each["pattern"][0]) for each in hosted]]
    with Place(program) as place:
        lines, places = place.report()
        for patterns in kinds:
            found = [one for line in lines.splitlines() for one in matched(patterns, line)]
            assert [each[:3] for each in found] == places, found
            assert [each[3] for each in found].count("warning") == 1, found
            assert not [*matched(patterns, "axioms 1 theorems 1 proved 1 incomplete 0 wrong 0 faults 0")]


def verify(program):
    """The plain script prints reports with their folders, and ends with the highest status."""
    with Place(program) as place:
        here, _ = place.run("sh", "-c", f"cd db && {CI / 'verify'} faults.mm")
        straight, status = place.run("sh", "-c", f"cd db && '{program}' verify faults.mm")
        assert here == straight and status == 1
        assert place.run(str(CI / "verify"), "db/clean.mm") == ("axioms 1 theorems 1 proved 1 incomplete 0 wrong 0 faults 0\n", 0)
        whole, status = place.run(str(CI / "verify"), str(place.path / "db/faults.mm"))
        assert status == 1 and whole == straight.replace("faults.mm", str(place.path / "db/faults.mm"))
        assert place.run(str(CI / "verify"), "db/none.mm") == ("mmkeep: db/none.mm: cannot be read\n", 2)
        assert place.run(str(CI / "verify"), "none/none.mm") == ("mmkeep: none/none.mm: cannot be read\n", 2)
        # What `cd` would look for elsewhere is looked for here.
        (place.path / "else/db").mkdir(parents=True)
        (place.path / "else/db/faults.mm").write_text("$c a $.\n")
        assert place.run(str(CI / "verify"), "db/faults.mm", CDPATH=str(place.path / "else"))[0].startswith("fault db/faults.mm:3:4 F02 $c\n")
        assert place.run(str(CI / "verify"))[1] == 3 and place.run(str(CI / "verify"), "a.mm", MMKEEP="/nowhere/mmkeep")[1] == 3
        (place.path / "a & b").mkdir()
        (place.path / "a & b" / "x y.mm").write_text("$c a a $.\n")
        assert place.run(str(CI / "verify"), "a & b/x y.mm") == ("fault a & b/x y.mm:1:6 F03 a\naxioms 0 theorems 0 proved 0 incomplete 0 wrong 0 faults 1\n", 1)


def converted(program):
    """A report becomes JUnit XML and SARIF."""
    with Place(program) as place:
        lines, places = place.report()
        told, status = place.run(CONVERT, "--junit", text=lines)
        suite = xml.etree.ElementTree.fromstring(told)
        cases = suite.findall("testcase")
        assert status == 0 and suite.get("failures") == "5" and len(cases) == int(suite.get("tests")) == 7, told
        assert [(each.get("file"), int(each.get("line"))) for each in cases if each.find("failure") is not None] == [each[:2] for each in places]
        told, status = place.run(CONVERT, "--sarif", text=lines)
        run = json.loads(told)["runs"][0]
        found = [each["locations"][0]["physicalLocation"] for each in run["results"]]
        assert status == 0 and [(each["artifactLocation"]["uri"], each["region"]["startLine"], each["region"]["startColumn"]) for each in found] == places, told
        assert {each["ruleId"] for each in run["results"]} == {each["id"] for each in run["tool"]["driver"]["rules"]}
        told, status = place.run(CONVERT, "--junit", text="mmkeep: out of memory\n")
        assert status == 0 and "out of memory" in told and xml.etree.ElementTree.fromstring(told).get("errors") == "1"
        told, status = place.run(CONVERT, "--junit")
        assert status == 1 and "nothing was verified" in told and xml.etree.ElementTree.fromstring(told).get("errors") == "1"
        told, status = place.run(CONVERT, "--github", text=lines)
        found = [(each[1], int(each[2]), int(each[3])) for each in re.finditer(r"^::(?:error|warning) file=(.*?),line=(\d+),col=(\d+),title=.*?::.{10}", told, re.M)]
        assert status == 0 and found == places and told.count("::notice ") == 2, told
        told, _ = place.run(CONVERT, "--github", text="fault a b,%:c.mm:1:2 F02 $c\n")
        assert told.startswith("::error file=a b%2C%25%3Ac.mm,line=1,col=2,title=$c F02::a `$c` in a block\n"), told
        told, _ = place.run(CONVERT, "--sarif", text="fault a b%c.mm:1:2 F02 $c\n")
        run = json.loads(told)["runs"][0]
        assert run["results"][0]["locations"][0]["physicalLocation"]["artifactLocation"]["uri"] == "a%20b%25c.mm", told
        assert run["tool"]["driver"]["rules"][0]["helpUri"].startswith("file:///"), told
        # A reader that has enough ends the program, with no traceback.
        done = subprocess.run(["bash", "-c", f"yes 'wrong th a.mm:7:67 P09' | head -100000 | {CONVERT} --github | head -1"], capture_output=True, timeout=60, check=False)
        assert done.stderr == b"" and done.stdout.count(b"\n") == 1, done
        assert place.run(CONVERT, "--sarif", text="no report\n")[1] == 1 and place.run(CONVERT)[1] == 1


def workflow(program):
    """What the workflow runs is there, fails on findings, and keeps the report."""
    page = (CI / "mmkeep.yml").read_text()
    assert "\t" not in page
    runs = [re.sub(r"^ {10}", "", found[1], flags=re.M) for found in re.finditer(r"run: \|\n((?: {10}.*\n)+)", page)]
    assert len(runs) == 3, runs
    with Place(program) as place:
        shutil.copytree(CI, place.path / "ci")
        shutil.copytree(CLIENTS / "python", place.path / "ci/python")
        (place.path / "temp").mkdir()
        (place.path / "path").touch()
        given = {"RUNNER_TEMP": str(place.path / "temp"), "TOOLS": "ci", "GITHUB_PATH": str(place.path / "path")}
        check = subprocess.run(["sha256sum", program], capture_output=True, check=True).stdout.decode().split()[0]
        url = pathlib.Path(program).as_uri()
        assert place.run("bash", "-eo", "pipefail", "-c", runs[0], MMKEEP_URL=url, MMKEEP_SHA256=check, **given)[1] == 0, place.told
        assert (place.path / "path").read_text().strip() == str(place.path / "temp/mmkeep")
        assert place.run("bash", "-eo", "pipefail", "-c", runs[0], MMKEEP_URL=url, MMKEEP_SHA256="0" * 64, **given)[1] != 0
        for name, status in (("db/faults.mm", 1), ("db/clean.mm", 0)):
            told, ended = place.run("bash", "-eo", "pipefail", "-c", runs[1], DATABASE=name, **given)
            assert ended == status and told.startswith("::add-matcher::ci/problem-matcher.json\n"), (told, place.told)
            matcher = told.split("\n")[0].removeprefix("::add-matcher::")
            assert (place.path / matcher).exists()
            assert place.run("bash", "-eo", "pipefail", "-c", runs[2], **given)[1] == 0, place.told
            assert (place.path / "temp/report.xml").stat().st_size and (place.path / "temp/report.sarif").stat().st_size


def hook(program):
    """The hook lets no commit pass in which something is found; what is staged counts."""
    with Place(program) as place:
        def git(*words, **more):
            return place.run("git", "-c", "user.name=t", "-c", "user.email=t@localhost", "-c", "init.defaultBranch=main", *words, **more)

        assert git("init", "-q")[1] == 0, place.told
        os.symlink(CI / "pre-commit", place.path / ".git/hooks/pre-commit")
        git("add", "db/clean.mm")
        assert git("commit", "-qm", "clean")[1] == 0, place.told
        git("add", "db/faults.mm")
        told, status = git("commit", "-qm", "faults")
        assert status == 1 and "db/faults.mm:3:4 F02 $c" in told + place.told and "nothing is committed" in place.told, (told, place.told)
        git("reset", "-q")
        # What is staged counts, and not what is in the folder.
        clean = (place.path / "db/clean.mm").read_text()
        (place.path / "db/clean.mm").write_text(clean + "$( staged $)\n")
        git("add", "db/clean.mm")
        (place.path / "db/clean.mm").write_text("$c $c")
        assert git("commit", "-qm", "staged")[1] == 0, place.told
        # Top files by the setting: a part that is no database by itself.
        (place.path / "top.mm").write_text("$[ db/clean.mm $]\n$[ part.mm $]\n")
        (place.path / "part.mm").write_text("t9 $p wff p $= wp $.\n")
        (place.path / "db/clean.mm").write_text(clean)
        git("add", "top.mm", "part.mm", "db/clean.mm")
        assert git("commit", "-qm", "part")[1] == 1
        git("config", "mmkeep.top", "top.mm")
        assert git("commit", "-qm", "part")[1] == 0, place.told
        # A part of any name, and a program by a path from here.
        (place.path / "top.mm").write_text("$[ db/clean.mm $]\n$[ part.inc $]\n")
        git("mv", "part.mm", "part.inc")
        git("add", "top.mm")
        os.symlink(program, place.path / "keep")
        assert git("commit", "-qm", "renamed", MMKEEP="./keep")[1] == 0, place.told
        git("mv", "part.inc", "part.mm")
        (place.path / "top.mm").write_text("$[ db/clean.mm $]\n$[ part.mm $]\n")
        git("add", "top.mm")
        assert git("commit", "-qm", "renamed", MMKEEP="./keep")[1] == 0, place.told
        told, status = git("commit", "-qm", "lost", "--allow-empty", MMKEEP="/nowhere/mmkeep")
        (place.path / "part.mm").write_text("t8 $p wff p $= wp $.\n")
        git("add", "part.mm")
        assert git("commit", "-qm", "lost", MMKEEP="/nowhere/mmkeep")[1] == 1 and "could not be verified" in place.told and "found" not in place.told, place.told
        git("reset", "-q", "--hard")
        (place.path / "note").write_text("x")
        git("add", "note")
        assert git("commit", "-qm", "no database", MMKEEP="/nowhere/mmkeep")[1] == 0, place.told


def manual(program):
    """The man page is rendered without a warning, and names all commands and statuses."""
    page = ROOT / "docs/mmkeep.1"
    done = subprocess.run(["groff", "-man", "-ww", "-Tutf8", "-z", str(page)], capture_output=True, timeout=60, check=False)
    assert (done.returncode, done.stderr) == (0, b""), done.stderr
    if shutil.which("man"):
        settings = {**os.environ, "LC_ALL": "C.UTF-8", "MANPAGER": "cat", "MANWIDTH": "80"}
        done = subprocess.run(["man", "--warnings", "-l", str(page)], capture_output=True, timeout=60, env=settings, check=False)
        assert (done.returncode, done.stderr) == (0, b"") and b"mmkeep" in done.stdout, done.stderr
    text = page.read_text()
    for word in ("verify", "axioms", "session", "insert", "replace", "delete", "move", "batch", "report", "verdict", "cites", "users", "C01", "C02", "C03", "C04", "EXIT STATUS", *(f"\n.B {status}\n" for status in range(6))):
        assert word in text, word


def picture(program):
    """The picture of a session is well-formed, and has its text as text, with a command, an answer and a report."""
    tree = xml.etree.ElementTree.parse(CLIENTS / "editor/session.svg")
    lines = ["".join(each.itertext()) for each in tree.iter("{http://www.w3.org/2000/svg}text")]
    assert any("mmkeep session set.mm" in line for line in lines) and any(line.startswith("ran 1") for line in lines), lines
    assert any(re.match(r"axioms \d+ theorems \d+ proved", line) for line in lines), lines


def pages(program):
    """What docs/INSTALL.md and the pages of examples name is there."""
    for page in (ROOT / "docs/INSTALL.md", EXAMPLES / "README.md", ROOT / "SECURITY.md", CLIENTS / "editor/README.md", CI / "README.md", CLIENTS / "python/README.md"):
        for name in re.findall(r"`((?:\.\./|examples/|clients/|docs/|tests/|bench/|crates/)[\w./-]+)`", page.read_text()):
            path = page.parent / name if name.startswith("../") else ROOT / name
            assert path.exists() or name.startswith("crates/mmkeep/out"), f"{page.name}: {name}"


TESTS = [vim, matchers, verify, converted, workflow, hook, manual, picture, pages]
