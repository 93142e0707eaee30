"""Reads wrong bodies. plants/CRATE.edits has those of a crate: each is a line 'name: NAME', and behind it lines 'file: src/x.rt', 'old: TEXT' and
'new: TEXT'. The kit's crates/CRATE/must-fail/NAME.edit has these lines of one."""

import os
import pathlib

ROOT = pathlib.Path(__file__).resolve().parents[2]


class Unusable(Exception):
    """The edit cannot be applied."""


class WrongText:
    """The text of a wrong body: its name, the file that it stands in, and its lines."""

    def __init__(self, name, path):
        self.name, self.path, self.lines = name, path, []


def read(path):
    with open(path, encoding="utf-8") as file:
        return file.read()


def file_of(crate):
    """Returns the file of the wrong bodies of this crate, which need not be there."""
    return ROOT / "plants" / f"{crate}.edits"


def wrong_texts(crate):
    """Returns the wrong bodies of plants/ of this crate, in the order of their names."""
    path = file_of(crate)
    found = {}
    for line in read(path).split("\n"):
        if line.startswith("name: "):
            name = line.removeprefix("name: ")
            if name in found:
                raise Unusable(f"two wrong bodies of {crate} are named {name}")
            found[name] = WrongText(name, path)
        elif found:
            found[name].lines.append(line)
        elif line.strip():
            raise Unusable(f"{path} begins with no name")
    return [found[name] for name in sorted(found)]


def must_fail_texts(crate):
    """Returns the wrong bodies of must-fail/ of this crate."""
    found = []
    for path in sorted((ROOT / "crates" / crate / "must-fail").glob("*.edit")):
        found.append(WrongText(path.stem, path))
        found[-1].lines = read(path).split("\n")
    return found


def replaced(wrong, folder):
    """Returns the new text of each file of the crate in this folder that the wrong body changes."""
    texts, name, old, pairs = {}, None, None, 0
    for line in wrong.lines:
        key, _, value = line.partition(":")
        value = value[1:] if value.startswith(" ") else value
        if key == "file":
            name = value.strip()
            if os.path.normpath(name) != name or not name.startswith("src/"):
                raise Unusable(f"{name} is no file of src/")
        elif key == "old":
            old = value
        elif key == "new":
            if not name or not old:
                raise Unusable("a 'new:' line comes before a 'file:' or an 'old:' line")
            source = os.path.join(folder, name)
            if name not in texts and not os.path.isfile(source):
                raise Unusable(f"there is no file {name}")
            text = texts.get(name) or read(source)
            if text.count(old) != 1:
                raise Unusable(f"an 'old:' text stands in {name} {text.count(old)} times")
            texts[name] = text.replace(old, value)
            old, pairs = None, pairs + 1
        elif line.strip():
            raise Unusable(f"a line is none of 'name:', 'file:', 'old:' and 'new:': {line}")
    if old is not None or not pairs:
        raise Unusable("an 'old:' line has no 'new:' line, or there is none at all")
    return texts
