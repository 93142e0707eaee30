"""Finds the function that each wrong body of a crate, in plants/ or its must-fail/, changes, and what that function has to meet."""

import difflib

from edits import file_of, must_fail_texts, replaced, wrong_texts
from items import PROOFS, items_of


def changed_lines(old, new):
    """Returns the numbers of the lines of the old text that differ from the new one, from 0."""
    old, new = old.split("\n"), new.split("\n")
    first = next((k for k, (a, b) in enumerate(zip(old, new)) if a != b), min(len(old), len(new)))
    last = next((k for k, (a, b) in enumerate(zip(reversed(old[first:]), reversed(new[first:]))) if a != b), 0)
    changes = difflib.SequenceMatcher(None, old[first : len(old) - last], new[first : len(new) - last], autojunk=False).get_opcodes()
    return {first + k for kind, start, end, _, _ in changes if kind != "equal" for k in range(start, max(end, start + 1))}


class WrongBody:
    """An edit that the check refuses: its file, and the items that it changes."""

    def __init__(self, wrong, crate):
        self.path = wrong.path
        self.words = wrong.name.replace("_", " ")
        self.changed = []
        for name, new in replaced(wrong, crate.folder).items():
            source = crate.folder / name
            lines = changed_lines(source.read_text(encoding="utf-8"), new)
            for item in items_of(source):
                if item.kind not in ("impl", "trait", "ghost") and lines & set(range(item.start, item.end)):
                    self.changed.append(item)


class WrongBodies:
    """The wrong bodies of a crate."""

    def __init__(self, crate):
        name = crate.folder.name
        texts = [*(wrong_texts(name) if file_of(name).is_file() else []), *must_fail_texts(name)]
        self.found = [WrongBody(wrong, crate) for wrong in sorted(texts, key=lambda wrong: wrong.name)]

    def by_function(self):
        """Returns the wrong bodies under what they change, in the order of the sources. Most change one function."""
        rows = {}
        for body in self.found:
            key = tuple((str(item.path), item.start) for item in body.changed)
            rows.setdefault(key, (body.changed, []))[1].append(body)
        return [rows[key] for key in sorted(rows)]


class Promises:
    """What functions have to meet, by the sources: their own clauses, those of a trait of this repository, or the ghost members of an impl."""

    def __init__(self, paths):
        self.traits, self.members = {}, {}
        for path in paths:
            for item in items_of(path):
                if item.kind == "fn" and item.trait == item.owner:
                    self.traits[item.trait, item.name] = item
                if item.kind == "ghost" and item.trait and item.name not in PROOFS:
                    self.members.setdefault((item.path, item.owner, item.trait), []).append(item.name)

    def of(self, function):
        """Returns the names of the clauses that a function has to meet, and whose they are, if not its own."""
        if function.named_clauses("ensures") or not function.trait:
            return function.named_clauses("ensures"), ""
        name = function.trait.partition("<")[0].split("::")[-1]
        declared = self.traits.get((name, function.name))
        if declared:
            return declared.named_clauses("ensures"), f"{name}::{function.name}"
        return self.members.get((function.path, function.owner, function.trait), []), name
