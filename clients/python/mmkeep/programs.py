"""What the programs have in common: where they read and print, and how they end."""
from __future__ import annotations

import functools
import io
import os
import sys
from typing import Callable, NoReturn


def guarded(main: Callable[[], int]) -> Callable[[], int]:
    """A program that ends without a traceback: at Ctrl-C, when its reader has enough, and when it can neither read nor print.

    What it prints is UTF-8; a byte of a name that is no text is a question mark."""

    @functools.wraps(main)
    def run() -> int:
        """Runs it, and answers its status."""
        try:
            if sys.stdout is None:
                ends(main, "standard output is closed")
            if isinstance(sys.stdout, io.TextIOWrapper):
                sys.stdout.reconfigure(encoding="utf-8", errors="replace")
            status = main()
            sys.stdout.flush()
            return status
        except KeyboardInterrupt:
            os._exit(130)
        except BrokenPipeError:
            os._exit(1)
        except MemoryError:
            ends(main, "out of memory")
        except OSError as error:
            ends(main, f"{f'{error.filename}: ' if error.filename else ''}{error.strerror or error}")

    return run


def ends(main: Callable[[], int], why: str) -> NoReturn:
    """Ends a program with a sentence."""
    if sys.stderr:
        print(f"{main.__module__.replace('server', 'lsp').replace('.', '-')}: {why}", file=sys.stderr, flush=True)
    os._exit(1)


def plain(text: str) -> str:
    """A text without what a terminal might take for a command, which is a question mark.

    >>> plain("a\\x1b[31m\\tb")
    'a?[31m\\tb'
    """
    return "".join(each if each.isprintable() or each == "\t" else "?" for each in text)


def given() -> str:
    """All of standard input, by the rules of os.fsdecode where a byte is no text."""
    return os.fsdecode(sys.stdin.buffer.read()) if sys.stdin else ""
