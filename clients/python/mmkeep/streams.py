"""The two streams of a server that speaks JSON-RPC, as the Language Server Protocol frames it."""
from __future__ import annotations

import io
import itertools
import json
import queue
import re
import sys
import threading
import time
from typing import Any, NoReturn, Optional

# The kind of a message that says what is wrong.
ERROR = 1
# How a message begins; one that is longer is not read.
LENGTH, LONGEST = re.compile(rb"(?i)content-length:[ \t]*(\d{1,12})[ \t\r\n]*\Z"), 1 << 31


class Answered(threading.Event):
    """That a request of the server was answered, and whether it was granted."""

    granted = False


class Streams:
    """Reads messages from standard input in a thread of its own, and writes messages to standard output.

    A request or a notification waits in `incoming`, and None at the end of the input. An answer, and a cancellation, which
    is kept in `cancelled`, are taken at once."""

    def __init__(self) -> None:
        self.incoming: queue.Queue = queue.Queue()
        self.cancelled: set = set()
        self.answered: dict = {}
        self.lock, self.numbers, self.shows_progress = threading.Lock(), itertools.count(1), False

    def leave(self, status: int) -> NoReturn:
        """Ends the program."""
        raise SystemExit(status)

    def send(self, message: dict) -> None:
        """Writes a message."""
        data = json.dumps({"jsonrpc": "2.0", **message}).encode()
        try:
            with self.lock:
                sys.stdout.buffer.write(b"Content-Length: %d\r\n\r\n%b" % (len(data), data))
                sys.stdout.buffer.flush()
        except OSError:
            self.leave(1)

    def notify(self, method: str, params: Any) -> None:
        """Sends a notice."""
        self.send({"method": method, "params": params})

    def ask(self, method: str, params: Any, seconds: float = 0.0) -> bool:
        """Sends a request; answers whether it was granted within some seconds."""
        number = f"mmkeep-{next(self.numbers)}"
        event = self.answered[number] = Answered()
        self.send({"id": number, "method": method, "params": params})
        return bool(seconds) and event.wait(seconds) and event.granted

    def read(self) -> None:
        """Reads messages to the end of the input."""
        stream = sys.stdin.buffer if sys.stdin else io.BytesIO()
        while True:
            length, line = None, stream.readline()
            while line not in (b"\r\n", b"\n", b""):
                found = LENGTH.match(line)
                length = int(found[1]) if found else length
                line = stream.readline()
            data = stream.read(length) if line and length is not None and length <= LONGEST else b""
            if not line or length is not None and len(data) < length:
                self.incoming.put(None)
                return
            if length is not None:
                self.receive(data)

    def receive(self, data: bytes) -> None:
        """Takes a message: a cancellation or an answer at once, the rest in its turn."""
        try:
            message = json.loads(data)
        except (ValueError, RecursionError):
            message = None
        if not isinstance(message, dict):
            self.send({"id": None, "error": {"code": -32700, "message": "no message of JSON"}})
            return
        method, params, number = message.get("method"), message.get("params"), message.get("id")
        if method == "$/cancelRequest":
            if isinstance(params, dict):
                self.cancelled.add(str(params.get("id")))
        elif method is None:
            event = self.answered.pop(number, None) if isinstance(number, str) else None
            if event:
                event.granted = "error" not in message
                event.set()
        else:
            self.incoming.put(message)

    def token(self) -> Optional[str]:
        """A token of progress that the client took, or None."""
        token = f"mmkeep-progress-{next(self.numbers)}"
        self.shows_progress = self.ask("window/workDoneProgress/create", {"token": token}, 1.0)
        return token if self.shows_progress else None

    def progress(self, title: str, text: str) -> Progress:
        """What is shown while something is done."""
        return Progress(self, title, text)

    def message(self, kind: int, text: str) -> None:
        """Shows a message."""
        self.notify("window/showMessage", {"type": kind, "message": f"mmkeep-lsp: {text}"})


class Progress:
    """What a client shows while something is done; nothing where it shows none."""

    def __init__(self, server: Streams, title: str, text: str) -> None:
        self.server, self.title, self.last, self.count, self.at = server, title, text, 0, 0.0
        self.token = server.token() if server.shows_progress else None

    def __enter__(self) -> Progress:
        self.send({"kind": "begin", "title": self.title, "message": self.last, "cancellable": False})
        return self

    def __exit__(self, *_) -> None:
        self.send({"kind": "end", "message": self.last})

    def send(self, value: dict) -> None:
        """Sends a notice."""
        if self.token is not None:
            self.server.notify("$/progress", {"token": self.token, "value": value})

    def note(self, text: str) -> None:
        """Shows how far it is."""
        self.last = text
        self.send({"kind": "report", "message": text})

    def ran(self, label: str, count: int) -> None:
        """Shows a label that was run, of so many; not more than ten a second, but the first and the last."""
        self.count += 1
        now = time.monotonic()
        if self.count in (1, count) or now - self.at > 0.1:
            self.at = now
            self.note(f"ran {self.count} of {count}: {label}")
