"""Tests of what the language server answers: what is known of a label and a step, what is offered, renamed and mended."""
import pathlib

from of_server import Folder
from protocol import compare, position


def asked(program):
    """Hover, definition, references and symbols."""
    with Folder(program) as client:
        client.open("a.mm")
        hover = client.at("hover", "a.mm", "mp $.")["contents"]["value"]
        assert "`mp` **axiom**, rests on 1 axiom, used by 1 theorem" in hover and "mp $a |- q $." in hover, hover
        hover = client.at("hover", "a.mm", "th $p")["contents"]["value"]
        assert "`th` **proved**, rests on 1 axiom, used by 0 theorems" in hover and "$=" not in hover, hover
        assert "hypothesis" in client.at("hover", "a.mm", "h1 h2")["contents"]["value"]
        assert client.at("hover", "a.mm", "-> q ) $. mp") is None and client.at("hover", "a.mm", "\n$v") is None
        text = client.texts["a.mm"]
        place = client.at("definition", "a.mm", "mp $.\x20$}")["range"]["start"]
        assert place == position(text, text.index("mp $a")), place
        assert client.at("definition", "a.mm", "-> q ) $. mp") is None
        found = client.at("references", "a.mm", "wi ) AAB")
        assert [each["range"]["start"] for each in found] == [position(text, text.index("id $p"))], found
        found = client.at("references", "a.mm", "mp $a", context={"includeDeclaration": True})
        assert len(found) == 2 and client.at("references", "a.mm", "h1 $e") == []
        symbols = client.ask("workspace/symbol", {"query": "m"})
        assert [each["name"] for each in symbols] == ["ma", "mi", "mp"], symbols
        assert len(client.ask("workspace/symbol", {"query": ""})) == 10
        # What is asked is answered of what was typed before; and of a half-written text, by what was there before.
        client.change("a.mm", (0, 0, "\n\n"))
        place = client.at("definition", "a.mm", "mp $.\x20$}")["range"]["start"]
        assert place == position(client.texts["a.mm"], client.texts["a.mm"].index("mp $a")), place
        client.replace("a.mm", "wp wq h1 h2 mp", "wp wq h2 h1 mp")
        assert "**wrong** P09" in client.at("hover", "a.mm", "th $p")["contents"]["value"]
        client.replace("a.mm", "$( A logic. $)", "$( A logic. $) $c")
        assert "before the text had its fault" in client.at("hover", "a.mm", "th $p")["contents"]["value"]
        place = client.at("definition", "a.mm", "mp $.\x20$}")["range"]["start"]
        assert place == position(client.texts["a.mm"], client.texts["a.mm"].index("mp $a")), place
        compare(client, program, "a.mm")


BOOK = """$( A small logic. $)
$c wff |- -> ( ) $.
$v p q $.
wp $f wff p $.
wq $f wff q $.
wi $a wff ( p -> q ) $.
${ mi $e |- p $. ma $e |- ( p -> q ) $.
  $( The rule of
     detachment. $)
  mp $a |- q $. $}
${ $d p q $. ae $a |- ( p -> q ) $. $}
${ h1 $e |- p $. h2 $e |- ( p -> q ) $.
  $( Detachment again. $)
  th $p |- q $=
    ( mp ) ABCDE $. $}
x1 $p |- ( p -> q ) $= wp wq ae $.
y1 $p wff ( p -> ( p -> p ) ) $= ( wi ) AAAB
  B $.
"""


def told_more(program):
    """What a step expected and got, where what it cites is declared, and a first label, are told with the diagnostic."""
    with Folder(program, {"a.mm": BOOK}) as client:
        client.open("a.mm")
        marks = client.told_later("a.mm", lambda marks: any("to add" in each["message"] for each in marks))
        assert [each["code"] for each in marks] == ["P11"] and "no $d keeps p and q apart" in marks[0]["message"], marks
        related = marks[0]["relatedInformation"][0]
        assert related["location"]["range"]["start"] == {"line": 10, "character": 13} and related["message"].startswith("ae: "), related
        client.replace("a.mm", "ABCDE", "ABDCE")
        marks = client.told_later("a.mm", lambda marks: any("expected |- p" in each["message"] for each in marks))
        assert "step 5, `mp`" not in marks[0]["message"] and "got      |- ( p -> q )" in marks[0]["message"], marks
        client.replace("a.mm", "ABDCE", "ABCDE")
        client.replace("a.mm", "y1 $p", "wi $p")
        marks = client.told_later("a.mm", lambda marks: any("relatedInformation" in each and each.get("code") == "F06" for each in marks))
        [mark] = [each for each in marks if each.get("code") == "F06"]
        assert mark["relatedInformation"][0]["location"]["range"]["start"] == {"line": 5, "character": 0}, mark
    with Folder(program, {"a.mm": BOOK}, related=False) as client:
        client.open("a.mm")
        marks = client.told_later("a.mm", lambda marks: any("to add" in each["message"] for each in marks))
        assert "relatedInformation" not in marks[0], marks


def causes(program):
    """Where many proofs fail for one cause, the cause is shown at its place, and each of the others has one line."""
    users = "".join(f"t{each} $p |- ( p -> q ) $= wp wq ax $.\n" for each in range(30))
    text = BOOK.replace("x1 $p |- ( p -> q ) $= wp wq ae $.\n", "ax $a |- ( p -> q ) $.\n" + users)
    with Folder(program, {"a.mm": text}) as client:
        client.open("a.mm")
        assert client.diagnostics("a.mm") == []
        client.replace("a.mm", "ax $a |- ( p -> q ) $.", "ax $a |- ( q -> p ) $.")
        marks = client.told_later("a.mm", lambda marks: any(each["data"]["kind"] == "cause" for each in marks))
        [cause] = [each for each in marks if each["data"]["kind"] == "cause"]
        assert cause["message"].startswith("30 of 30 wrong proofs name `ax`") and cause["range"]["start"] == {"line": 15, "character": 0}, cause
        wrong = [each for each in marks if each.get("code") == "P15"]
        assert len(wrong) == 30 and "expected" in wrong[0]["message"] and all("\n" not in each["message"] for each in wrong[1:]), wrong[:2]
        compare(client, program, "a.mm")


def known(program):
    """Hover tells the frame, the comment and what is found of a label, and what a step of a proof leaves, at a letter too."""
    with Folder(program, {"a.mm": BOOK}) as client:
        client.open("a.mm")
        told = client.at("hover", "a.mm", "mp $a")["contents"]["value"]
        for text in ("`mp` **axiom**, rests on 1 axiom, used by 1 theorem", "wp $f wff p $.\nwq $f wff q $.\nmi $e |- p $.\nma $e |- ( p -> q ) $.\nmp $a |- q $.", "The rule of detachment."):
            assert text in told, told
        assert "$d p q $.\nwp $f wff p $." in client.at("hover", "a.mm", "ae $a")["contents"]["value"]
        assert client.at("hover", "a.mm", "mi $e")["contents"]["value"].startswith("`mi` hypothesis")
        told = [client.at("hover", "a.mm", "ABCDE", at)["contents"]["value"] for at in range(5)]
        left = ["wff p", "wff q", "|- p", "|- ( p -> q )", "|- q"]
        assert all(f"step {at + 1}, `" in each and f"\n{left[at]}\n" in each for at, each in enumerate(told)), told
        told = client.at("hover", "a.mm", "wp wq ae", 6)["contents"]["value"]
        assert "step 3, `ae`, is wrong" in told and "no $d keeps p and q apart" in told and "`ae` **axiom**" in told, told
        assert "\nwff ( p -> ( p -> p ) )\n" in client.at("hover", "a.mm", "  B $.", 2)["contents"]["value"]
        assert "`mp` **axiom**" in client.at("hover", "a.mm", "( mp )", 2)["contents"]["value"]
        # On each byte of a word of a normal proof, and right after it, its own step; on a word of a comment there, none.
        client.replace("a.mm", "wp wq ae", "wp $( A wq. wq $)\n  wq  ae")
        for word, step in (("wp $(", "step 1, `wp`, leaves"), ("wq  ae", "step 2, `wq`, leaves"), ("ae $.", "step 3, `ae`, is wrong")):
            told = [client.at("hover", "a.mm", word, at)["contents"]["value"] for at in range(3)]
            assert all(each.startswith(step) for each in told), told
        client.replace("a.mm", "ABCDE $.", "ABC $( By mp. By mp $) DE $.")
        assert client.at("hover", "a.mm", "mp $) DE")["contents"]["value"].startswith("`mp` **axiom**") and client.at("hover", "a.mm", "By mp.") is None
        assert client.at("hover", "a.mm", "wq $)")["contents"]["value"].startswith("`wq` hypothesis") and client.at("hover", "a.mm", "A wq.") is None
        assert client.at("hover", "a.mm", "-> ( )") is None


def offered(program):
    """Completion, outline, folds, lenses, hints and kinds of words; what is announced is there, and nothing else."""
    with Folder(program, {"a.mm": BOOK}) as client:
        client.open("a.mm")
        client.diagnostics("a.mm")
        able = client.started["capabilities"]
        assert {"completionProvider", "documentSymbolProvider", "foldingRangeProvider", "renameProvider", "codeActionProvider", "codeLensProvider", "inlayHintProvider", "semanticTokensProvider"} <= {*able}
        assert not {"documentFormattingProvider", "signatureHelpProvider", "typeDefinitionProvider"} & {*able}
        # In a proof that is being written, labels that are declared before, and its own hypotheses.
        at = client.texts["a.mm"].index("x1 $p")
        client.change("a.mm", (at, at, "t $p |- q $= m"))
        found = client.complete("a.mm", at + 14)
        assert [each["label"] for each in found["items"]] == ["mp"] and found["items"][0]["documentation"] == "mp $a |- q $.", found
        client.change("a.mm", (at + 13, at + 14, "w"))
        assert [each["label"] for each in client.complete("a.mm", at + 14)["items"]] == ["wi", "wp", "wq"]
        client.change("a.mm", (at + 13, at + 14, "y"))
        assert client.complete("a.mm", at + 14)["items"] == []
        client.change("a.mm", (at, at + 14, ""))
        at = client.texts["a.mm"].index("( mp )")
        client.change("a.mm", (at + 2, at + 4, "h"))
        assert [each["label"] for each in client.complete("a.mm", at + 3)["items"]] == ["h1", "h2"]
        client.change("a.mm", (at + 2, at + 3, "mp"))
        assert client.complete("a.mm", client.texts["a.mm"].index("$c wff") + 5)["items"] == []
        where = {"textDocument": {"uri": client.uri("a.mm")}}
        symbols = client.ask("textDocument/documentSymbol", where)
        assert [each["name"] for each in symbols] == ["wi", "mp", "ae", "th", "x1", "y1"] and symbols[1]["range"]["start"] == {"line": 9, "character": 2}, symbols
        folds = sorted((each["startLine"], each["endLine"], each["kind"]) for each in client.ask("textDocument/foldingRange", where))
        assert folds == [(6, 9, "region"), (7, 8, "comment"), (11, 14, "region"), (13, 14, "region"), (16, 17, "region")], folds
        lenses = [(each["range"]["start"]["line"], each["command"]["title"]) for each in client.ask("textDocument/codeLens", where)]
        assert lenses == [(row, f"named by {told}") for row, told in ((5, "1 proof"), (9, "1 proof"), (10, "1 proof"), (13, "0 proofs"), (15, "0 proofs"), (16, "0 proofs"))], lenses
        span = {"start": {"line": 9, "character": 0}, "end": {"line": 11, "character": 0}}
        hints = [(each["position"], each["label"]) for each in client.ask("textDocument/inlayHint", {**where, "range": span})]
        assert hints == [({"line": 9, "character": 4}, " named by 1 proof"), ({"line": 10, "character": 15}, " named by 1 proof")], hints
        # A proof that lists a label twice, or at fault, and does not use it, names it once.
        client.replace("a.mm", "x1 $p", "z1 $p |- z $= ( mp ae mp ) A $. z1 $p wff p $= ( mp mp ) A $. x1 $p")
        lenses = {each["range"]["start"]["line"]: each["command"]["title"] for each in client.ask("textDocument/codeLens", where)}
        assert (lenses[9], lenses[10]) == ("named by 3 proofs", "named by 2 proofs"), lenses
        legend = able["semanticTokensProvider"]["legend"]["tokenTypes"]
        words = spelled(client.texts["a.mm"], client.ask("textDocument/semanticTokens/full", where)["data"], legend)
        for word, kind in [("$(", "comment"), ("logic.", "comment"), ("$c", "keyword"), ("wi", "function"), ("->", "operator"), ("p", "variable"), ("$=", "keyword"), ("mp", "function"), ("ABCDE", None)]:
            assert (word, kind) in words or kind is None and word not in dict(words), (word, kind)
        part = client.ask("textDocument/semanticTokens/range", {**where, "range": span})["data"]
        assert part and part[0] == 9 and len(part) < len(words) * 5, part


SCOPES = """$c wff |- $. $v p q $.
$( ${ $) wp $f wff p $. $( ${ $a $= $) wq $f wff q $.
$( ${ $) we $e |- p $.
$[ b.mm $]
w0 $a wff p $.
${ wh $e |- p $.
  ${ wi $e |- q $. wj $p |- q $= wi $. $}
  wk $e |- q $. wl $p |- q $= wk $. wm $p |- q $= wk $. $( ${ $)
$}
wn $p $( $= or $. $) |- p $= we $.
$[ c.mm $]
wo $p |- p $= we $.
"""


def scopes(program):
    """A proof is offered what it may name: assertions before it in the order of reading, and hypotheses that are active at it."""
    files = {"a.mm": SCOPES, "b.mm": "wb $a wff p $.\n${ wx $e |- p $. wy $a |- p $. $}\n", "c.mm": "wc $a wff p $.\nwd $p |- p $= wc $.\n"}
    first, outer = ["wb", "wy", "w0"], ["wp", "wq", "we"]
    wanted = {
        "wj $p": [*first, *outer, "wh", "wi"],
        "wl $p": [*first, *outer, "wh", "wj", "wk"],
        "wm $p": [*first, *outer, "wh", "wj", "wk", "wl"],
        "wn $p": [*first, *outer, "wj", "wl", "wm"],
        "$[ c.mm": [*first, *outer, "wj", "wl", "wm", "wn"],
        "wd $p": [*first, *outer, "wj", "wl", "wm", "wn", "wc"],
        "wo $p": [*first, *outer, "wj", "wl", "wm", "wn", "wc", "wd"],
    }
    with Folder(program, {**files, "mmkeep.json": '{"top": "a.mm"}'}) as client:
        client.open("a.mm")
        client.open("c.mm")

        def offers(name, text, labels):
            """Asserts what is offered in the first proof from a text on."""
            at = client.texts[name].index("$= w", client.texts[name].index(text)) + 4
            found = client.complete(name, at)["items"]
            assert sorted(each["label"] for each in found) == sorted(labels), (text, found)
            assert all(each["documentation"] == "wn $p |- p" for each in found if each["label"] == "wn"), found

        for text, labels in wanted.items():
            name = "c.mm" if text == "wd $p" else "a.mm"
            # In the theorem as it stands, in another one before it, and in one that is half written.
            for other in ("", "new $p |- p $= w $. ", "new $p |- p $= w "):
                if other or text != "$[ c.mm":
                    client.replace(name, text, other + text)
                    offers(name, other + text, labels)
                    client.replace(name, other + text, text)
        client.diagnostics("a.mm")
        # While a text has its fault somewhere before, it is the same behind that; a hypothesis at fault is not active.
        client.replace("a.mm", "w0 $a wff p $.", "w0 $a wff p")
        for text in ("wm $p", "wo $p"):
            offers("a.mm", text, wanted[text])
        client.replace("a.mm", "w0 $a wff p", "w0 $a wff p $.")
        client.replace("a.mm", "wk $e |- q $.", "wk $e |- none $.")
        offers("a.mm", "wm $p", {*wanted["wm $p"]} - {"wk"})
        told = client.at("hover", "a.mm", "wn $p")["contents"]["value"]
        assert "wp $f wff p $.\nwe $e |- p $.\nwn $p |- p $." in told, told


def spelled(text, data, legend):
    """Tokens as words with their kinds."""
    lines, found, row, column = text.split("\n"), [], 0, 0
    for at in range(0, len(data), 5):
        row, column = row + data[at], data[at + 1] + (0 if data[at] else column)
        found.append((lines[row][column : column + data[at + 2]], legend[data[at + 3]]))
    return found


def rewritten(program):
    """A label is renamed in all files at once, or not at all; the `$d` that a proof lacks is added."""
    files = {"a.mm": "$[ b.mm $]\n" + BOOK.replace("x1 $p |- ( p -> q ) $= wp wq ae $.\n", ""), "b.mm": "$( first $)\n"}
    files["c.mm"] = "$( It was $[ old.mm $] once. $) $[ a.mm $]\nz1 $p wff ( p -> q ) $= wp wq wi $.\nz2 $p wff ( p -> p ) $= ( wi ) AAB $.\n"
    with Folder(program, files) as client:
        client.open("c.mm")
        assert client.diagnostics("c.mm") == []
        assert client.at("prepareRename", "c.mm", "z1 $p")["placeholder"] == "z1" and client.at("prepareRename", "c.mm", "$p wff") is None
        # A file that is not open was changed on disk meanwhile.
        (client.folder / "a.mm").write_text("$( A line\n more $)\n" + files["a.mm"])
        edit = client.at("rename", "c.mm", "wq wi", 3, newName="impl")["changes"]
        assert {pathlib.Path(uri).name: len(edits) for uri, edits in edit.items()} == {"a.mm": 2, "c.mm": 2}, edit
        client.open("a.mm")
        for uri, edits in edit.items():
            name = pathlib.Path(uri).name
            client.apply(name, edits)
        assert client.diagnostics("a.mm") == [] == client.diagnostics("c.mm")
        assert "impl $a wff" in client.texts["a.mm"] and "( impl ) AAB" in client.texts["c.mm"] and "wq wi" not in client.texts["c.mm"]
        for name, why in (("mp", "is taken: it is a label"), ("wff", "is taken: it is a symbol"), ("a b", "can be no label"), ("", "can be no label")):
            answer = client.answer(client.post("textDocument/rename", {"textDocument": {"uri": client.uri("c.mm")}, "position": {"line": 1, "character": 0}, "newName": name}))
            assert answer["error"]["code"] == -32803 and why in answer["error"]["message"], answer
    for text, line in ((BOOK, "${ $d p q $.\nx1 $p |- ( p -> q ) $= wp wq ae $. $}\n"), (BOOK.replace("x1 $p |- ( p -> q ) $= wp wq ae $.", "${ k $e |- p $.\n  x1 $p |- ( p -> q ) $= wp wq ae $. $}"), "  $d p q $.\n  x1 $p")):
        with Folder(program, {"a.mm": text}) as client:
            client.open("a.mm")
            marks = client.told_later("a.mm", lambda marks: any("to add" in each["message"] for each in marks))
            asked = {"textDocument": {"uri": client.uri("a.mm")}, "range": marks[0]["range"], "context": {"diagnostics": marks}}
            [action] = client.ask("textDocument/codeAction", asked)
            assert action["title"] == "Add $d p q $." and action["kind"] == "quickfix", action
            client.apply("a.mm", action["edit"]["changes"][client.uri("a.mm")])
            assert line in client.texts["a.mm"] and client.diagnostics("a.mm") == [], client.texts["a.mm"]
            assert client.ask("textDocument/codeAction", asked) == []


def protocol(program):
    """Requests that are cancelled or unknown, messages that are none, and what is asked too early or too late."""
    with Folder(program) as client:
        client.raw(b"Content-Length: 3\r\n\r\n{x}")
        client.raw(b"Content-Length: 4\r\nContent-Type: any\r\n\r\n[1]\n")
        client.notify("textDocument/didChange", {"textDocument": {"uri": client.uri("none.mm"), "version": 3}, "contentChanges": [{"text": "x"}]})
        client.notify("textDocument/didOpen", {"textDocument": {"uri": "untitled:1", "languageId": "metamath", "version": 1, "text": "$c"}})
        client.notify("no/notice", {})
        assert client.answer(client.post("no/request", {}))["error"]["code"] == -32601
        client.open("a.mm")
        compare(client, program, "a.mm")
        # The cancellation comes while another change is looked at.
        client.replace("a.mm", "h1 h2 mp", "h2 h1 mp")
        place = {"textDocument": {"uri": client.uri("a.mm")}, "position": {"line": 7, "character": 40}}
        number = client.number + 1
        client.notify("$/cancelRequest", {"id": number})
        assert client.answer(client.post("textDocument/hover", place)).get("error", {}).get("code") == -32800
        beyond = {"textDocument": {"uri": client.uri("a.mm")}, "position": {"line": 99, "character": 40}}
        assert client.ask("textDocument/hover", beyond) is None
        assert client.ask("textDocument/definition", {**place, "textDocument": {"uri": client.uri("other.mm")}}) is None
        assert "error" in client.answer(client.post("textDocument/hover", {}))
        client.change("a.mm", (0, 0, ""))
        compare(client, program, "a.mm")
        client.ask("shutdown", None)
        assert client.answer(client.post("textDocument/hover", place))["error"]["code"] == -32600
        client.notify("exit", None)
        assert client.child.wait(timeout=20) == 0
        client.leave = lambda: 0
    with Folder(program) as client:
        client.notify("exit", None)
        assert client.child.wait(timeout=20) == 1
        client.leave = lambda: 0
    with Folder(program, progress=False) as client:
        client.open("a.mm")
        compare(client, program, "a.mm")
        assert not client.progress
        client.child.stdin.close()
        assert client.child.wait(timeout=20) == 1
        client.leave = lambda: 0


def bad_parameters(program):
    """Requests without the parameters that they need, and positions that are nowhere, are answered; and on it goes."""
    with Folder(program) as client:
        client.open("a.mm")
        assert client.diagnostics("a.mm") == []
        document, far = {"uri": client.uri("a.mm")}, {"line": 10**6, "character": 10**9}
        at, within = ["hover", "completion", "definition", "references", "prepareRename", "rename"], ["inlayHint", "semanticTokens/range", "codeAction"]
        others = ["documentSymbol", "foldingRange", "codeLens", "semanticTokens/full"]
        for name in (*at, *within, *others):
            wrong = [None, [], 7, {}, {"textDocument": 7}, {"textDocument": {}}, {"textDocument": {"uri": 7}}]
            if name not in others:
                wrong += [{"textDocument": document, "position": bad, "range": bad} for bad in (None, 7, {}, {"line": -1, "character": 0}, {"line": "x", "character": 0}, {"start": far, "end": None})]
            for params in wrong:
                answer = client.answer(client.post(f"textDocument/{name}", params))
                assert answer.get("error", {}).get("code") == -32602, (name, params, answer)
            for span in ({"start": far, "end": far}, {"start": {"line": 0, "character": 0}, "end": far}, {"start": far, "end": {"line": 0, "character": 0}}):
                answer = client.answer(client.post(f"textDocument/{name}", {"textDocument": document, "position": far, "range": span, "newName": "x"}))
                assert "error" not in answer or name == "rename", (name, answer)
            for uri in ("file://[", "untitled:x", "file:///a%00b", "file:///none.mm", ""):
                params = {"textDocument": {"uri": uri}, "position": far, "range": span, "newName": 7}
                assert "result" in client.answer(client.post(f"textDocument/{name}", params)) or name == "rename", (name, uri)
        for message in ({"method": "$/cancelRequest", "params": [1]}, {"id": [1], "result": None}, {"id": {"a": 1}, "result": 7}, {"id": "odd", "method": {"a": 1}}):
            client.send(message)
        for name in ("didOpen", "didChange", "didClose", "didSave"):
            client.notify(f"textDocument/{name}", {})
        client.notify("workspace/didChangeConfiguration", {"settings": [1]})
        client.notify("workspace/didChangeConfiguration", {"settings": {"mmkeep": {"program": 7, "top": [], "delay": "x"}}})
        client.replace("a.mm", "h1 h2 mp", "h2 h1 mp")
        compare(client, program, "a.mm")
        client.raw(b"Content-Length: 99999999999999999999999\r\n\r\n")
        client.raw(b"Content-Length: x\r\n\r\n")
        assert client.at("hover", "a.mm", "mp $a")


TESTS = [asked, told_more, causes, known, offered, scopes, rewritten, protocol, bad_parameters]
