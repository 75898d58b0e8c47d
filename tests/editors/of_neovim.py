"""Tests of the language server with neovim's own client: a real database, edited by keys."""
import json
import os
import pathlib
import shutil
import subprocess
import tempfile
import time

from protocol import DATABASES, ROOT, mmkeep

CONFIGURATION = ROOT / "clients" / "editor" / "nvim" / "init.lua"
SECONDS = 40
# What the buffer's changes are counted by, and the version of the last diagnostics, with these.
WATCH = """lua <<END
_G.shown_version = -1
local before = vim.lsp.handlers['textDocument/publishDiagnostics']
vim.lsp.handlers['textDocument/publishDiagnostics'] = function(err, result, ctx, config)
  before(err, result, ctx, config)
  if result.version then _G.shown_version = result.version end
end
_G.messages = {}
vim.lsp.handlers['window/showMessage'] = function(err, result) table.insert(_G.messages, result.message) end
END
"""
VERSIONS = """luaeval("((vim.lsp.util.buf_versions or {})[1] or vim.api.nvim_buf_get_changedtick(1)) .. ' ' .. _G.shown_version")"""
STATE = """[json_encode(luaeval("{messages = _G.messages,
found = vim.tbl_map(function(d) return {d.lnum, d.col, d.code or '', d.message, d.severity, d.user_data.lsp.data.kind} end, vim.diagnostic.get(0))}"))]"""


class Neovim:
    """A neovim without a screen, with a file open."""

    def __init__(self, program, folder, file, **more):
        self.folder, self.socket = pathlib.Path(folder), str(pathlib.Path(folder, "socket"))
        watch = self.folder / "watch.vim"
        watch.write_text(WATCH)
        settings = {**os.environ, "MMKEEP": program, "HOME": folder, "XDG_CONFIG_HOME": folder, "XDG_STATE_HOME": folder, "XDG_DATA_HOME": folder, "NVIM_LOG_FILE": f"{folder}/log"} | more.get("settings", {})
        command = ["nvim", "--headless", "-n", "-i", "NONE", "-u", more.get("configuration", str(CONFIGURATION)), "--cmd", f"source {watch}", "--listen", self.socket, file]
        self.child = subprocess.Popen(command, cwd=more.get("begin", folder), env=settings, stdin=subprocess.DEVNULL, stdout=subprocess.DEVNULL, stderr=subprocess.DEVNULL)
        end = time.monotonic() + SECONDS
        while not os.path.exists(self.socket):
            assert time.monotonic() < end and self.child.poll() is None, "neovim does not begin"
            time.sleep(0.05)

    def __enter__(self):
        return self

    def __exit__(self, *_):
        self.child.kill()
        self.child.wait()

    def remote(self, how, text):
        """Sends keys, or asks for the value of an expression."""
        done = subprocess.run(["nvim", "--server", self.socket, how, text], capture_output=True, text=True, timeout=SECONDS, check=False)
        return done.stdout.strip() or done.stderr.strip()

    def keys(self, text):
        """Types keys."""
        self.remote("--remote-send", text)

    def state(self):
        """The version of the buffer, that of the diagnostics, and these."""
        path = self.folder / "state"
        told = self.remote("--remote-expr", f"writefile({STATE}, '{path}')".replace("\n", " "))
        try:
            return json.loads(path.read_text())
        except ValueError:
            raise AssertionError(f"neovim answers {told!r}") from None

    def settled(self):
        """The diagnostics of the buffer as it is now."""
        end = time.monotonic() + SECONDS
        versions = []
        while len({*versions}) != 1:
            assert time.monotonic() < end, f"no diagnostics: {versions}, {self.state()['messages']}"
            time.sleep(0.03)
            versions = self.remote("--remote-expr", VERSIONS).split(" ")
        return self.state()

    def until(self, done, what):
        """Waits until something holds."""
        end = time.monotonic() + SECONDS
        while not done():
            assert time.monotonic() < end, f"no {what}: {self.text()!r}, {self.state()}"
            time.sleep(0.05)

    def text(self):
        """The buffer."""
        path = self.folder / "written"
        self.remote("--remote-expr", f"writefile(getline(1, '$'), '{path}')")
        return path.read_bytes()

    def compare(self, program, name):
        """Asserts that what is shown is what `mmkeep verify` reports of the buffer written out. Answers whether its text has a fault."""
        state = self.settled()
        with tempfile.TemporaryDirectory() as folder:
            pathlib.Path(folder, name).write_bytes(self.text())
            try:
                findings, fault = mmkeep.verify(name, folder, program).findings, False
            except mmkeep.Ended as ended:
                findings, fault = [ended.finding], True
        # What many findings have in common is shown a little later than they are, of the same version of the text.
        shown = [each for each in state["found"] if each[5] != "cause"]
        fresh = [each for each in shown if "(stale" not in each[3]]
        right = sorted((each.place.line - 1, each.place.column - 1, each.number or "") for each in findings)
        found = sorted((each[0], each[1], each[2]) for each in fresh)
        assert found == right, f"shown {[*({*found} - {*right})][:3]} of {len(found)}, and not {[*({*right} - {*found})][:3]} of {len(right)}"
        assert all(each.sentence() in " ".join(found[3] for found in fresh) for each in findings)
        assert fault or len(fresh) == len(shown), state
        assert not state["messages"], state["messages"]
        return fault


def iset(program):
    """A proof of iset.mm is broken by an edit, mended, and typed again character by character."""
    if not (DATABASES / "iset.mm").exists():
        return
    with tempfile.TemporaryDirectory() as folder:
        shutil.copy(DATABASES / "iset.mm", folder)
        kept = (DATABASES / "iset.mm").read_bytes()
        with Neovim(program, folder, "iset.mm") as editor:
            assert editor.compare(program, "iset.mm") is False and editor.state()["found"] == []
            # The first hypothesis of a rule is written in the place of the second one.
            editor.keys("/a1i $p<CR>/[$]=<CR>")
            editor.keys("/A *B<CR>r?")
            assert editor.compare(program, "iset.mm") is False and len(editor.state()["found"]) == 1
            editor.keys("u")
            assert editor.compare(program, "iset.mm") is False and editor.state()["found"] == []
            editor.keys("?a1i $p<CR>O<Esc>")
            faults = 0
            for letter in "v1 $p wff ph $= wn $. $( x $)":
                editor.keys(f"a{'<lt>' if letter == '<' else letter}<Esc>")
                faults += editor.compare(program, "iset.mm")
            assert faults > 8, faults
            editor.keys("dd")
            assert editor.compare(program, "iset.mm") is False and editor.state()["found"] == []
            editor.keys("/ax-mp $a<CR>wwx")
            editor.compare(program, "iset.mm")
            editor.keys("u")
            assert editor.compare(program, "iset.mm") is False and editor.state()["found"] == []
            editor.keys(":%s/ mpbid / mpbidx /g<CR>")
            editor.compare(program, "iset.mm")
            editor.keys("u")
            assert editor.compare(program, "iset.mm") is False and editor.state()["found"] == []
        assert pathlib.Path(folder, "iset.mm").read_bytes() == kept


def first_reader(program):
    """The three commands of clients/editor/README.md bring diagnostics of examples/faults.mm."""
    page = (ROOT / "clients/editor/README.md").read_text()
    commands = page.split("## In three commands", 1)[1].split("\n\n")[1:]
    block = next(part for part in commands if part.startswith("    "))
    lines = [line.strip() for line in block.split("\n")]
    assert len(lines) == 3 and lines[0].startswith("apt-get install") and "nvim -u clients/editor/nvim/init.lua examples/faults.mm" in lines[2], lines
    assert "PATH" in lines[1], lines
    with tempfile.TemporaryDirectory() as folder:
        # As the page says: at the top of the clone, with the program on the path.
        os.symlink(program, pathlib.Path(folder, "mmkeep"))
        settings = {"PATH": f"{folder}:{os.environ['PATH']}", "MMKEEP": ""}
        with Neovim(program, folder, "examples/faults.mm", begin=ROOT, configuration="clients/editor/nvim/init.lua", settings=settings) as editor:
            editor.compare(program, "faults.mm")
            assert len(editor.state()["found"]) == 2, editor.state()


def crlf(program):
    """A buffer whose lines end with carriage returns."""
    with tempfile.TemporaryDirectory() as folder:
        pathlib.Path(folder, "a.mm").write_bytes(b"$c a $.\r\n$v x $.\r\nwx $f a x $.\r\n")
        with Neovim(program, folder, "a.mm") as editor:
            assert editor.settled()["found"] == []
            editor.keys("Goy $a b x $.<Esc>")
            assert [each[:3] for each in editor.settled()["found"]] == [[3, 5, "F08"]], editor.state()


BOOK = b"""$( A ~ mp logic. $)
$c wff |- -> ( ) $.
$v p q $.
wp $f wff p $.
wq $f wff q $.
wi $a wff ( p -> q ) $.
${ mi $e |- p $. ma $e |- ( p -> q ) $. mp $a |- q $. $}
${ $d p q $. ae $a |- ( p -> q ) $. $}
${ h1 $e |- p $. h2 $e |- ( p -> q ) $. th $p |- q $= ( mp ) ABCDE $. $}
x1 $p |- ( p -> q ) $= wp wq ae $.
"""


def keyed(program):
    """The keys of the settings complete, rename and mend; marks change while one types."""
    with tempfile.TemporaryDirectory() as folder:
        pathlib.Path(folder, "a.mm").write_bytes(BOOK)
        with Neovim(program, folder, "a.mm") as editor:
            assert [each[2] for each in editor.settled()["found"]] == ["P11"]
            # Completion, in a proof that is being written.
            editor.keys("Goy1 $p |- ( p -> q ) $= wp wq a<C-x><C-o>")
            editor.until(lambda: b"wq ae" in editor.text(), "completion")
            editor.keys("<Esc>0")
            editor.settled()
            # Marks change while one types: still in insert mode, the text has no fault any more.
            editor.keys("A $.")
            editor.until(lambda: [each[2] for each in editor.state()["found"]] == ["P11", "P11"], "marks in insert mode")
            assert editor.remote("--remote-expr", "mode()") == "i"
            editor.keys("<Esc>dd")
            assert [each[2] for each in editor.settled()["found"]] == ["P11"]
            # A new name in all places.
            editor.keys("/mp $a<CR>gR")
            editor.until(lambda: editor.remote("--remote-expr", "mode()") == "c", "prompt")
            editor.keys("<C-u>detach<CR>")
            editor.until(lambda: editor.text().count(b"detach") == 2, "rename")
            assert b"( detach ) ABCDE" in editor.text() and b"~ mp" in editor.text()
            assert [each[2] for each in editor.settled()["found"]] == ["P11"]
            # The `$d` that a proof lacks.
            editor.keys("/^x1<CR>f=wwwga")
            editor.keys("1<CR>")
            editor.until(lambda: b"${ $d p q $.\nx1 $p" in editor.text(), "quick fix")
            assert editor.settled()["found"] == []


PLACES = [("$(", "metamathComment"), ("logic", "metamathComment"), ("mp logic", "metamathReference"), ("$c", "metamathKeyword"), ("wp $f", "metamathLabel"), ("$d p", "metamathKeyword"), ("th $p", "metamathLabel"), ("|-", ""), ("$= ( mp", "metamathKeyword"), ("mp ) AB", "metamathList"), ("ABCDE", "metamathProof"), ("wq ae", "metamathProof")]


def colours(program):
    """What vim and neovim colour, at some places."""
    with tempfile.TemporaryDirectory() as folder:
        pathlib.Path(folder, "a.mm").write_bytes(BOOK)
        text = BOOK.decode()
        lines = []
        for word, _ in PLACES:
            at = text.index(word)
            row, column = text.count("\n", 0, at) + 1, at - text.rfind("\n", 0, at)
            lines.append(f"call add(found, synIDattr(synID({row}, {column}, 1), 'name'))")
        script = pathlib.Path(folder, "script.vim")
        script.write_text("\n".join(["syntax on", "edit a.mm", "let found = [&filetype]", *lines, "call writefile(found, 'out')", "qa!"]) + "\n")
        for command in (["vim", "-N", "-es"], ["nvim", "--headless"]):
            if shutil.which(command[0]):
                pathlib.Path(folder, "out").unlink(missing_ok=True)
                words = [*command, "-u", "NONE", "-i", "NONE", "-n", "--cmd", f"set rtp^={ROOT / 'clients/editor/vim'}", "--cmd", "filetype plugin on", "-S", str(script)]
                subprocess.run(words, cwd=folder, stdin=subprocess.DEVNULL, capture_output=True, timeout=SECONDS, check=False)
                found = pathlib.Path(folder, "out").read_text().splitlines()
                assert found == ["metamath", *(kind for _, kind in PLACES)], (command, found)


TESTS = [first_reader, keyed, colours, iset, crlf]
