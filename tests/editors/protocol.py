"""A client of the language server for tests, and what its diagnostics have to be: those of `mmkeep verify` on the buffers."""
import functools
import json
import pathlib
import queue
import subprocess
import sys
import tempfile
import threading
import time

HERE = pathlib.Path(__file__).resolve().parent
ROOT = HERE.parent.parent
sys.path.insert(0, str(ROOT / "clients" / "python"))
import mmkeep

SERVER = ROOT / "clients" / "python" / "bin" / "mmkeep-lsp"
DATABASES = pathlib.Path("/usr/share/metamath/databases")
SECONDS = 20


class Client:
    """A server in a folder, with the files that are open there."""

    def __init__(self, program, folder, options=None, words=(), progress=True, name="test", related=True):
        self.folder, self.versions, self.texts = pathlib.Path(folder), {}, {}
        self.shown, self.messages, self.progress, self.answers = {}, [], [], {}
        self.number, self.incoming = 0, queue.Queue()
        self.errors = tempfile.TemporaryFile()
        command = [sys.executable, str(SERVER), *words]
        self.child = subprocess.Popen(command, stdin=subprocess.PIPE, stdout=subprocess.PIPE, stderr=self.errors, cwd=folder)
        threading.Thread(target=self.read, daemon=True).start()
        options = {"program": program, "delay": 0.0, **(options or {})}
        capabilities = {"window": {"workDoneProgress": progress}, "textDocument": {"publishDiagnostics": {"relatedInformation": related}}}
        uri = self.folder.as_uri()
        self.started = self.ask("initialize", {"processId": None, "rootUri": uri, "clientInfo": {"name": name}, "capabilities": capabilities, "initializationOptions": options})
        self.notify("initialized", {})

    def __enter__(self):
        return self

    def __exit__(self, *_):
        self.child.kill()
        self.child.wait()
        self.child.stdin.close()
        self.child.stdout.close()
        self.errors.close()

    def read(self):
        """Reads messages, up to the end."""
        while True:
            length, line = None, self.child.stdout.readline()
            while line.strip():
                length = int(line.split(b":")[1]) if line.lower().startswith(b"content-length") else length
                line = self.child.stdout.readline()
            if length is None:
                self.incoming.put(None)
                return
            self.incoming.put(json.loads(self.child.stdout.read(length)))

    def raw(self, data):
        """Sends bytes."""
        self.child.stdin.write(data)
        self.child.stdin.flush()

    def send(self, message):
        """Sends a message."""
        data = json.dumps({"jsonrpc": "2.0", **message}).encode()
        self.raw(b"Content-Length: %d\r\n\r\n%b" % (len(data), data))

    def notify(self, method, params):
        """Sends a notice."""
        self.send({"method": method, "params": params})

    def take(self, seconds):
        """Takes the next message that comes in some seconds. Answers whether there was one."""
        try:
            message = self.incoming.get(timeout=max(0.0, seconds))
        except queue.Empty:
            return False
        if message is None:
            raise AssertionError(f"the server ended: {self.told()!r}")
        method, params = message.get("method"), message.get("params")
        if method is None:
            self.answers[message["id"]] = message
        elif method == "textDocument/publishDiagnostics":
            self.shown[params["uri"]] = params
        elif method == "window/showMessage":
            self.messages.append(params["message"])
        elif method == "$/progress":
            self.progress.append(params["value"])
        elif "id" in message:
            self.send({"id": message["id"], "result": None})
        return True

    def until(self, done, what):
        """Takes messages up to one with which something holds."""
        end = time.monotonic() + SECONDS
        while not done():
            if not self.take(end - time.monotonic()):
                raise AssertionError(f"no {what} in {SECONDS} seconds")

    def post(self, method, params):
        """Sends a request, and answers its number."""
        self.number += 1
        self.send({"id": self.number, "method": method, "params": params})
        return self.number

    def answer(self, number):
        """The answer to a request, whole."""
        self.until(lambda: number in self.answers, f"answer to {number}")
        return self.answers.pop(number)

    def ask(self, method, params):
        """What is answered to a request."""
        answer = self.answer(self.post(method, params))
        assert "error" not in answer, answer
        return answer["result"]

    def uri(self, name):
        """The URI of a file in the folder."""
        return (self.folder / name).as_uri()

    def open(self, name, text=None):
        """Opens a file, with a text of its own or the one on disk."""
        self.texts[name] = (self.folder / name).read_bytes().decode() if text is None else text
        self.versions[name] = 1
        self.notify("textDocument/didOpen", {"textDocument": {"uri": self.uri(name), "languageId": "metamath", "version": 1, "text": self.texts[name]}})

    def close(self, name):
        """Closes a file."""
        del self.texts[name], self.versions[name]
        self.notify("textDocument/didClose", {"textDocument": {"uri": self.uri(name)}})

    def save(self, name):
        """Writes a buffer, and says that it is saved."""
        (self.folder / name).write_bytes(self.texts[name].encode())
        self.notify("textDocument/didSave", {"textDocument": {"uri": self.uri(name)}})

    def change(self, name, *edits):
        """Changes a buffer: each edit is the first character, the one after the last, and what is there then."""
        changes = []
        for begin, end, text in edits:
            before = self.texts[name]
            changes.append({"range": {"start": position(before, begin), "end": position(before, end)}, "text": text})
            self.texts[name] = before[:begin] + text + before[end:]
        self.versions[name] += 1
        self.notify("textDocument/didChange", {"textDocument": {"uri": self.uri(name), "version": self.versions[name]}, "contentChanges": changes})

    def replace(self, name, old, new, count=1):
        """Changes the one place of a buffer where a text is."""
        assert self.texts[name].count(old) >= count, old
        at = self.texts[name].index(old)
        self.change(name, (at, at + len(old), new))

    def fill(self, name, text):
        """Changes all of a buffer, without a range."""
        self.texts[name] = text
        self.versions[name] += 1
        self.notify("textDocument/didChange", {"textDocument": {"uri": self.uri(name), "version": self.versions[name]}, "contentChanges": [{"text": text}]})

    def diagnostics(self, name):
        """What is shown of a buffer as it is now."""
        uri, version = self.uri(name), self.versions[name]
        self.until(lambda: self.shown.get(uri, {}).get("version") == version, f"diagnostics of {name}, {version}")
        return self.shown[uri]["diagnostics"]

    def told_later(self, name, done):
        """What is shown of a buffer as it is now, once something holds of it: it may be worked out when nothing else is to be done."""
        uri, version = self.uri(name), self.versions[name]
        self.until(lambda: self.shown.get(uri, {}).get("version") == version and done(self.shown[uri]["diagnostics"]), f"later diagnostics of {name}")
        return self.shown[uri]["diagnostics"]

    def complete(self, name, at):
        """What is offered at a character of a buffer."""
        place = position(self.texts[name], at)
        return self.ask("textDocument/completion", {"textDocument": {"uri": self.uri(name)}, "position": place})

    def apply(self, name, edits):
        """Makes edits of the protocol in a buffer, from the last to the first."""
        lines = self.texts[name].split("\n")
        starts = [sum(len(line) + 1 for line in lines[:row]) for row in range(len(lines) + 1)]
        spans = [(*(starts[each["range"][side]["line"]] + each["range"][side]["character"] for side in ("start", "end")), each["newText"]) for each in edits]
        self.change(name, *sorted(spans, reverse=True))

    def at(self, method, name, text, offset=0, **more):
        """Asks at the first place of a buffer where a text is."""
        place = position(self.texts[name], self.texts[name].index(text) + offset)
        return self.ask(f"textDocument/{method}", {"textDocument": {"uri": self.uri(name)}, "position": place, **more})

    def told(self):
        """What is on standard error."""
        self.errors.seek(0)
        return self.errors.read()

    def leave(self):
        """Ends the server as the protocol says, and answers its status."""
        self.ask("shutdown", None)
        self.notify("exit", None)
        return self.child.wait(timeout=20)


def position(text, at):
    """The position of a character of a text."""
    line = text[text.rfind("\n", 0, at) + 1 : at]
    return {"line": text.count("\n", 0, at), "character": len(line.encode("utf-16-le")) // 2}


def wanted(program, texts, top):
    """What `mmkeep verify` reports of buffers written out: findings, and whether they are a text's first fault."""
    with tempfile.TemporaryDirectory() as folder:
        for name, text in texts.items():
            path = pathlib.Path(folder, name)
            path.parent.mkdir(parents=True, exist_ok=True)
            path.write_bytes(text.encode())
        try:
            return mmkeep.verify(top, folder, program).findings, False
        except mmkeep.Ended as ended:
            assert ended.finding, ended
            return [ended.finding], True


@functools.lru_cache(4)
def lines_of(text):
    """The lines of a text."""
    return text.split("\n")


def shape(finding, texts):
    """Where a finding is in a buffer, with its number or kind, and its label or word."""
    line = lines_of(texts[finding.place.file])[finding.place.line - 1]
    before = line.encode()[: finding.place.column - 1].decode()
    column = len(before.encode("utf-16-le")) // 2
    return finding.place.file, finding.place.line - 1, column, finding.number or finding.kind, finding.label, finding.word


def shapes(name, diagnostics):
    """The same of diagnostics that are not stale, and how many are."""
    # What many findings have in common is none of the report's.
    diagnostics = [each for each in diagnostics if each["data"]["kind"] != "cause"]
    fresh = [each for each in diagnostics if not each["data"]["stale"]]
    found = []
    for each in fresh:
        start, data = each["range"]["start"], each["data"]
        found.append((name, start["line"], start["character"], each.get("code") or data["kind"], data["label"], data["word"]))
        assert each["range"]["end"] != start and each["message"].count(mmkeep.SENTENCES.get(each.get("code"), mmkeep.INCOMPLETE)) == 1, each
    return found, len(diagnostics) - len(fresh)


def reached(texts, top):
    """The files that are read from the top file on."""
    found, left = set(), [top]
    while left:
        name = left.pop()
        if name not in found and name in texts:
            found.add(name)
            left += mmkeep.inclusions(texts[name].encode())
    return found


def compare(client, program, name, others=None, top=None):
    """Asserts that what is shown of a buffer is what `mmkeep verify` reports of it. Answers whether its text has a fault."""
    for each in client.texts:
        client.diagnostics(each)
    # Behind the answer to this nothing is left to look at.
    assert client.ask("workspace/symbol", {"query": "no label"}) == []
    shown = client.diagnostics(name)
    texts = {**(others or {}), **client.texts}
    findings, fault = wanted(program, texts, top or name)
    if top and not fault and name not in reached(texts, top):
        findings, fault = wanted(program, texts, name)
    right = sorted(map(str, (shape(each, texts) for each in findings if each.place.file == name)))
    found, old = shapes(name, shown)
    if fault and found and not right and top:
        # Another text has a fault: `mmkeep verify` reports that alone, and the server that of each buffer, or what it finds of
        # a file that was no part of the database when the text was whole.
        alone, _ = wanted(program, {**texts, top: ""}, name)
        right = sorted(map(str, (shape(each, texts) for each in alone if each.place.file == name)))
    assert sorted(map(str, found)) == right, f"shown {found[:3]}, and not {right[:3]}"
    assert fault or not old, f"{old} are stale"
    return fault
