"""Tests of clients/editor/mmkeep.el in emacs: places of a report, colours, and diagnostics by eglot."""
import fcntl
import os
import pathlib
import pty
import re
import shlex
import signal
import struct
import subprocess
import tempfile
import termios
import threading
import time

from of_lists import CLIENTS, Place
from protocol import ROOT


def emacs(program):
    """Compilation mode of emacs gives the places, and what is a warning."""
    with Place(program) as place:
        lines, places = place.report()
        (place.path / "report").write_text(lines)
        (place.path / "script.el").write_text(f"""(load "{CLIENTS / 'editor/mmkeep.el'}" nil t)
(with-temp-buffer
  (insert-file-contents "report")
  (compilation-mode)
  (compilation--ensure-parse (point-max))
  (goto-char (point-min))
  (while (not (eobp))
    (let ((found (get-text-property (point) 'compilation-message)))
      (when found
        (let ((at (compilation--message->loc found)))
          (princ (format "%s|%s|%s|%s\\n" (caar (compilation--loc->file-struct at)) (compilation--loc->line at)
                         (compilation--loc->col at) (compilation--message->type found))))))
    (forward-line 1)))
(with-current-buffer (find-file-noselect "report")
  (compilation-mode)
  (goto-char (point-min))
  (compile-goto-error)
  (set-buffer (window-buffer))
  (princ (format "%s %s %s\\n" (file-name-nondirectory (buffer-file-name)) (line-number-at-pos) (current-column))))
""")
        told, status = place.run("emacs", "-Q", "--batch", "-l", "script.el")
        *found, first = [line.split("|") for line in told.splitlines()]
        assert status == 0 and [(each[0], int(each[1]), int(each[2])) for each in found] == places, (told, place.told)
        assert [each[3] == "1" for each in found] == ["incomplete" in line for line in lines.splitlines() if ".mm:" in line], told
        assert re.fullmatch(r"faults.mm \d+ \d+", first[0]), first


FACES = [("$( A", "comment-delimiter"), ("in a comment", "comment"), ("$c in", "comment"), ("$c wff", "keyword"), ("wff", None), ("wp $f", "function-name"), ("$e", "keyword"), ("$}", "keyword"), ("th $p", "function-name"), ("$= ( mp", "keyword"), ("mp ) AB", "variable-name"), ("ABCDE", None)]
BOOK = """$( A logic,
  $c in a comment $)
$c wff |- -> ( ) $.
$v p q $. wp $f wff p $. wq $f wff q $.
wi $a wff ( p -> q ) $.
${ mi $e |- p $. ma $e |- ( p -> q ) $. mp $a |- q $. $} $( $)
${ h1 $e |- p $. h2 $e |- ( p -> q ) $. th $p |- q $= ( mp ) ABCDE $. $}
"""


def faces(program):
    """What metamath-mode colours, at some places."""
    with tempfile.TemporaryDirectory() as folder:
        pathlib.Path(folder, "a.mm").write_text(BOOK)
        places = " ".join(str(BOOK.index(word) + 1) for word, _ in FACES)
        pathlib.Path(folder, "script.el").write_text(f"""(load "{CLIENTS / 'editor/mmkeep.el'}" nil t)
(find-file "a.mm")
(font-lock-ensure)
(princ (format "%s" major-mode))
(dolist (place '({places})) (princ (format "|%s" (get-text-property place 'face))))
""")
        done = subprocess.run(["emacs", "-Q", "--batch", "-l", "script.el"], cwd=folder, capture_output=True, timeout=60, check=False)
        wanted = ["metamath-mode", *(f"font-lock-{kind}-face" if kind else "nil" for _, kind in FACES)]
        assert done.returncode == 0 and done.stdout.decode().split("|") == wanted, done


LOOK = """(run-with-timer 0.3 0.3 (lambda ()
  (let ((buffer (get-buffer "faults.mm")))
    (when buffer
      (with-current-buffer buffer
        (when (and (fboundp 'flymake-diagnostics) (flymake-diagnostics))
          (write-region (mapconcat (lambda (each) (format "%d %s" (line-number-at-pos (flymake-diagnostic-beg each)) (flymake-diagnostic-text each))) (flymake-diagnostics) "\\n")
                        nil "OUT")
          (kill-emacs)))))))
"""


def eglot(program):
    """The three commands of clients/editor/README.md bring diagnostics of examples/faults.mm, in a terminal."""
    page = (CLIENTS / "editor/README.md").read_text()
    lines = [line.strip() for line in re.search(r"In emacs.*?\n\n((?:    .*\n)+)", page)[1].splitlines()]
    assert len(lines) == 3 and lines[0].startswith("apt-get install") and lines[1].startswith("export PATH="), lines
    with tempfile.TemporaryDirectory() as folder:
        os.symlink(program, pathlib.Path(folder, "mmkeep"))
        out, script = pathlib.Path(folder, "out"), pathlib.Path(folder, "look.el")
        script.write_text(LOOK.replace("OUT", str(out)))
        settings = {**os.environ, "PATH": f"{folder}:{os.environ['PATH']}", "MMKEEP": "", "HOME": folder, "TERM": "vt100"}
        ours, theirs = pty.openpty()
        fcntl.ioctl(theirs, termios.TIOCSWINSZ, struct.pack("HHHH", 30, 100, 0, 0))
        words = [*shlex.split(lines[2]), "-l", str(script)]
        child = subprocess.Popen(words, cwd=ROOT, env=settings, stdin=theirs, stdout=theirs, stderr=theirs, start_new_session=True, preexec_fn=lambda: fcntl.ioctl(0, termios.TIOCSCTTY, 0))
        os.close(theirs)
        threading.Thread(target=drained, args=(ours,), daemon=True).start()
        end = time.monotonic() + 60
        try:
            while child.poll() is None:
                assert time.monotonic() < end, "no diagnostics in emacs"
                time.sleep(0.1)
        finally:
            if child.poll() is None:
                os.killpg(child.pid, signal.SIGKILL)
                child.wait()
        found = out.read_text().splitlines()
        assert sorted(each.split(" ")[0] for each in found) == ["3", "7"] and any("a `$c` in a block" in each for each in found), found


def drained(stream):
    """Reads all that is shown on a terminal."""
    try:
        while os.read(stream, 65536):
            pass
    except OSError:
        pass


TESTS = [emacs, faces, eglot]
