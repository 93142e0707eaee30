"""Counts the functions of a crate, and its lines."""

import re
from typing import NamedTuple

from items import items_of


class Numbers(NamedTuple):
    """The functions of a crate: all; those with an `ensures`, of which `ok` alone isn't one; those that have none but keep a trait's; and
    the others. The lines of its folders, and its unsafe blocks."""

    functions: int
    with_clause: int
    by_trait: int
    without: int
    source: int
    specs: int
    proofs: int
    unsafe: int

    @staticmethod
    def of(crate, promises):
        """Returns the numbers of a crate."""
        functions = functions_of(crate)
        rest = [item for item in functions if not has_clause(item)]
        without = without_clause(crate, promises)
        lines = [lines_in(crate.folder / name) for name in ("src", "specs", "proofs")]
        return Numbers(len(functions), len(functions) - len(rest), len(rest) - len(without), len(without), *lines, unsafe_blocks(crate))

    def columns(self):
        """Returns the numbers under the heads of their columns."""
        names = ("functions", "with a clause", "with a trait's", "with none", "lines of src", "of specs", "of proofs", "unsafe blocks")
        return dict(zip(names, self))


def functions_of(crate):
    return [item for path in sorted(crate.folder.glob("src/**/*.rt")) for item in items_of(path) if item.kind == "fn"]


def has_clause(function):
    """Returns true if a function has an `ensures`, of which `ok` alone isn't one."""
    return bool(set(function.named_clauses("ensures")) - {"ok"})


def without_clause(crate, promises):
    """Returns the functions of a crate that have no clause, and that keep none of a trait's."""
    return [item for item in functions_of(crate) if not has_clause(item) and not all(promises.of(item))]


def lines_in(folder):
    return sum(path.read_bytes().count(b"\n") for suffix in ("rt", "antt") for path in folder.glob(f"**/*.{suffix}"))


def unsafe_blocks(crate):
    text = "\n".join(path.read_text(encoding="utf-8") for path in crate.folder.glob("src/**/*.rt"))
    return len(re.findall(r"\bunsafe \{", re.sub(r"//.*", "", text)))
