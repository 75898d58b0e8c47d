"""What an edit makes of sources: those in crates/*/must-fail, and those in edits/. Twins are in the folders `twins` beside them.

An edit names a file of its crate (`file:`), and then pairs of a line that is there once (`old:`) and what takes its place (`new:`).
"""


def twin_of(edit):
    """Where the twin of an edit is, if it has one: under the same name in the folder `twins`."""
    folder = edit.parent.parent if edit.parent.name == "must-fail" else edit.parent
    return folder / "twins" / edit.name


def made(edit, text_of):
    """The texts of the files that an edit changes, after it; `text_of` gives the text of a file, or None. A ValueError says why it cannot be made."""
    path, old, before, texts = None, None, {}, {}
    for line in edit.splitlines():
        word, _, rest = line.partition(":")
        if word == "file":
            path = rest.strip()
            if path not in texts:
                before[path] = texts[path] = text_of(path)
            if texts[path] is None:
                raise ValueError(f"there is no {path}")
        elif word == "old":
            if old is not None:
                raise ValueError("an old text without a new one")
            old = rest.removeprefix(" ")
        elif word == "new":
            if path is None or not old:
                raise ValueError("a new text without a file or an old one")
            if texts[path].count(old) != 1:
                raise ValueError(f"its old text is in {path} {texts[path].count(old)} times")
            texts[path], old = texts[path].replace(old, rest.removeprefix(" ")), None
        elif word:
            raise ValueError(f"a line that is none of an edit: {line}")
    if not texts or old is not None:
        raise ValueError("it has no old text and new one")
    if any(texts[path] == before[path] for path in texts):
        raise ValueError("it changes nothing")
    return texts
