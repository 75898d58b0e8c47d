"""The program mmkeep as a child process: a report, or a session that is asked and edited."""
from __future__ import annotations

import contextlib
import os
import pathlib
import re
import shutil
import subprocess
import tempfile
from typing import Callable, Iterator, Optional, Sequence

from .cutting import cut
from .edits import LARGEST, Delete, Edit, Insert, Move, Replace, after, do, number, word
from .faults import SENTENCES, STATUSES
from .reports import COUNTS, Finding, Place, Report, read_finding, read_report
from .sources import statements


class Refused(Exception):
    """A command that was refused: its number; for a batch, which edit; and what else the answer says.

    `count` is that of S02 and S04; of S03 `fault` is the number of the text's fault, and `line` and `column` its place.

    >>> vars(Refused(["1", "S03", "1:5", "T07"]))
    {'edit': 1, 'number': 'S03', 'line': 1, 'column': 5, 'fault': 'T07', 'count': None}
    """

    def __init__(self, words: list) -> None:
        super().__init__(" ".join(words))
        self.edit = int(words.pop(0)) if words[0].isdigit() else None
        self.number = words.pop(0)
        self.line = self.column = self.fault = self.count = None
        if self.number == "S03":
            self.line, self.column = map(int, words[0].split(":"))
            self.fault = words[1]
        elif words:
            self.count = int(words[0])


class Ended(Exception):
    """A program that ended: its status, or minus a signal; its line on standard error; a fault of a text with its place."""

    def __init__(self, status: Optional[int], line: str) -> None:
        self.status, self.line = status, line
        self.finding = read_finding(line)
        self.number = self.finding.number if self.finding else next(iter(re.findall(r"\b[CST]\d\d$", line)), None)
        super().__init__(self.told())

    def told(self) -> str:
        """One line for people."""
        if self.status is not None and self.status < 0:
            return f"mmkeep was ended by signal {-self.status}"
        line = self.line or f"mmkeep ended with status {self.status}"
        why = SENTENCES.get(self.number) or STATUSES.get(self.status)
        return f"{line} (status {self.status}{': ' + why if why else ''})"


def program() -> str:
    """The program: what the environment names MMKEEP, or `mmkeep` on the path."""
    return os.environ.get("MMKEEP") or "mmkeep"


def executable(path: Optional[str]) -> str:
    """A program, or the one that `program` names, by a path that holds from another folder, if it is there."""
    found = shutil.which(path or program())
    return os.path.abspath(found) if found else path or program()


def verify(top: str, folder: Optional[str] = None, path: Optional[str] = None) -> Report:
    """The report of the database with this top file, as it is opened from a folder. Raises Ended where it has none."""
    words = [executable(path), "verify", top]
    done = subprocess.run(words, cwd=folder, stdin=subprocess.DEVNULL, capture_output=True, check=False)
    if done.returncode not in (0, 1):
        raise Ended(done.returncode, os.fsdecode(done.stderr).strip())
    return read_report(os.fsdecode(done.stdout))


class Session:
    """A session over the database with this top file, opened from a folder. It reads no further than an answer goes.

    It may be used in a `with`, which closes it. `told` is called with each label that an edit ran, and how many there are.
    A label or the name of a file that is empty, or has a space or a line feed, and a number that is none of a command, are a
    ValueError before anything is sent.
    """

    def __init__(self, top: str, folder: Optional[str] = None, path: Optional[str] = None, told: Optional[Callable] = None) -> None:
        self.folder, self.told = folder or ".", told
        # The edits that were done, by file, and the pieces of the files that were asked for.
        self.done: dict = {}
        self.held: dict = {}
        self.line = ""
        self.errors = tempfile.TemporaryFile()
        words = [executable(path), "session", top]
        try:
            self.child = subprocess.Popen(words, cwd=folder, stdin=subprocess.PIPE, stdout=subprocess.PIPE, stderr=self.errors)
        except (OSError, ValueError):
            self.errors.close()
            raise

    def __enter__(self) -> Session:
        return self

    def __exit__(self, *_) -> None:
        self.close()

    def close(self) -> int:
        """Ends the script, and answers the status: 0 where nothing is wrong in the files, or 1; another where it had ended."""
        if self.child.stdin and not self.child.stdin.closed:
            try:
                self.child.stdin.close()
            except OSError:
                pass
            self.child.stdout.close()
            self.child.wait()
            self.errors.seek(0)
            self.line = os.fsdecode(self.errors.read()).strip()
            self.errors.close()
        return self.child.returncode

    def kill(self) -> int:
        """Ends the program at once."""
        self.child.kill()
        return self.close()

    def _line(self) -> str:
        """The next line of an answer."""
        line = self.child.stdout.readline()
        if not line.endswith(b"\n"):
            raise Ended(self.close(), self.line)
        return os.fsdecode(line[:-1])

    def _ask(self, command: bytes) -> list:
        """Sends a command, and answers the words of the first line of its answer."""
        if self.child.stdin.closed:
            raise Ended(self.child.returncode, self.line)
        try:
            self.child.stdin.write(command)
            self.child.stdin.flush()
        except OSError:
            raise Ended(self.close(), self.line) from None
        words = self._line().split(" ")
        if words[0] == "refused":
            raise Refused(words[1:])
        return words

    def _labels(self, words: list, told: Optional[Callable] = None) -> list:
        """As many labels as the first line of an answer says."""
        found = []
        for _ in range(int(words[1])):
            found.append(self._line())
            if told:
                told(found[-1], int(words[1]))
        return found

    def _listed(self, verb: bytes, label: str) -> list:
        """The labels that a command with a label answers."""
        return self._labels(self._ask(b"%b %b\n" % (verb, word(label))))

    def _edit(self, command: bytes, changes: Sequence[Edit]) -> list:
        """Sends edits, and answers the labels of the theorems that were run."""
        words = self._ask(command)
        for change in changes:
            if change.file in self.held:
                do(self.held[change.file], change)
            else:
                self.done.setdefault(change.file, []).append(change)
        return self._labels(words, self.told)

    def edit(self, change: Edit) -> list:
        """Does an edit. Answers the labels of the theorems that were run."""
        return self._edit(change.command(), [change])

    def insert(self, file: str, at: int, text: bytes) -> list:
        """Puts a new piece before piece `at`. Answers the labels of the theorems that were run."""
        return self.edit(Insert(file, at, text))

    def replace(self, file: str, at: int, text: bytes) -> list:
        """Puts a new piece in the place of piece `at`. Answers the labels of the theorems that were run."""
        return self.edit(Replace(file, at, text))

    def delete(self, file: str, at: int) -> list:
        """Takes piece `at` out. Answers the labels of the theorems that were run."""
        return self.edit(Delete(file, at))

    def move(self, file: str, at: int, to: int) -> list:
        """Takes piece `at` out, and puts it where it is piece `to`. Answers the labels of the theorems that were run."""
        return self.edit(Move(file, at, to))

    def batch(self, changes: Sequence[Edit]) -> list:
        """Does edits all or none. Answers the labels of the theorems that were run."""
        return self._edit(b"batch %b\n%b" % (number(len(changes)), b"".join(change.command() for change in changes)), changes)

    @contextlib.contextmanager
    def try_edits(self, changes: Sequence[Edit]) -> Iterator[list]:
        """Does edits all or none, for a `with`, which takes them back at its end. Gives the labels of the theorems that were run.

            with session.try_edits([mmkeep.Delete("set.mm", 42)]) as ran:
                print(len(ran), session.report().counts.wrong)
        """
        files = {change.file: [*self.pieces(change.file)] for change in changes}
        ran = self.batch(changes)
        back = [do(files[change.file], change) for change in changes]
        try:
            yield ran
        finally:
            if not self.child.stdin.closed:
                self.batch(back[::-1])

    def count(self, file: str) -> Optional[int]:
        """How many pieces a file has; nothing where none of this name was loaded."""
        try:
            self.delete(file, LARGEST)
        except Refused as refused:
            return refused.count
        return None

    def pieces(self, file: str) -> list:
        """The pieces of a file, as the session has them. The first time the file is read from the folder; the caller changes none.

        A LookupError says that none of this name was loaded, or that the file is another one than when the session began."""
        if file not in self.held:
            count = self.count(file)
            if count is None:
                raise LookupError(f"no file of this name was loaded: {file}")
            try:
                found = after(cut(pathlib.Path(self.folder, file).read_bytes())[0], self.done.get(file, []))
            except (IndexError, OSError):
                found = []
            if len(found) != count:
                raise LookupError(f"{file} is another one than when the session began")
            self.held[file] = found
            self.done.pop(file, None)
        return self.held[file]

    def piece(self, file: str, number: int) -> bytes:
        """A piece of a file. A LookupError says that there is none."""
        pieces = self.pieces(file)
        if not 0 <= number < len(pieces):
            raise LookupError(f"{file} has {len(pieces):,} pieces, and no piece {number}")
        return pieces[number]

    def place(self, file: str, piece: int, byte: int = 0) -> Place:
        """The place in a file of a byte of one of its pieces, or of its end. A LookupError says that there is none."""
        if not 0 <= byte <= len(self.piece(file, piece)):
            raise LookupError(f"piece {piece} of {file} has {len(self.piece(file, piece)):,} bytes, and no byte {byte}")
        text = b"".join(self.pieces(file)[:piece]) + self.pieces(file)[piece][:byte]
        return Place(file, text.count(b"\n") + 1, len(text) - text.rfind(b"\n"))

    def statements(self, file: str, piece: int) -> list:
        """The statements of a piece: each with its label, kind, symbols, proof, and the bytes of the piece where it begins and ends."""
        return statements(self.piece(file, piece))

    def fault(self, file: str, text: bytes) -> Optional[tuple]:
        """The first fault of a text, that is read after whole pieces: its number, line and column there; or nothing.

        A LookupError says that no file of this name was loaded. Nothing is edited: what is asked for is a batch whose second edit
        is refused."""
        try:
            self.batch([Insert(file, 0, text), Delete("$", 0)])
        except Refused as refused:
            if (refused.edit, refused.number) == (0, "S01"):
                raise LookupError(f"no file of this name was loaded: {file}") from None
            return (refused.fault, refused.line, refused.column) if refused.number == "S03" else None
        return None

    def report(self) -> Report:
        """The report of the files as they are."""
        lines = [" ".join(self._ask(b"report\n"))]
        while not COUNTS.fullmatch(lines[-1]):
            lines.append(self._line())
        return read_report("\n".join(lines))

    def verdict(self, label: str) -> Finding:
        """What is found of an assertion."""
        return read_finding(" ".join(self._ask(b"verdict %b\n" % word(label))))

    def axioms(self, label: str) -> list:
        """The axioms that an assertion rests on."""
        return self._listed(b"axioms", label)

    def cites(self, label: str) -> list:
        """The assertions that its proof cites."""
        return self._listed(b"cites", label)

    def users(self, label: str) -> list:
        """The theorems whose proofs cite it."""
        return self._listed(b"users", label)
