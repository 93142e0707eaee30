"""Reads the contracts of crates/*/src, for scripts/tools/reference and scripts/checks/promises."""

import re

from items import PROOFS, ROOT, WORD, items_of

__all__ = ["CRATES", "PROGRAMS", "ROOT", "WORD", "cited", "contracts", "contracts_of", "imported", "is_read", "states"]

CRATES = {folder.parent.name for folder in ROOT.glob("crates/*/src")}
PROGRAMS = {path.parent.parent.name for path in ROOT.glob("crates/*/src/main.rt")}


def states(item):
    """Returns true if an item is a contract: a function, or a ghost member that states something."""
    if item.kind == "ghost":
        return item.name not in PROOFS and (bool(item.trait) or item.is_public)
    return item.kind == "fn"


def is_read(item):
    """Returns true for an item whose contract others read: what is public, and of a program, which gives nothing to others, what has a clause."""
    return item.is_public or item.crate in PROGRAMS and item.kind == "fn" and bool(item.named_clauses("ensures"))


def contracts_of(path):
    """Yields each function of a file, each ghost member of a block of a trait, and each public ghost field of a public type."""
    yield from (item for item in items_of(path) if states(item))


def contracts():
    """Yields the contracts of the crates."""
    for path in sorted(ROOT.glob("crates/*/src/**/*.rt")):
        yield from contracts_of(path)


def imported(text, is_wanted=CRATES.__contains__):
    """Returns the crate and the module of each word that a file imports, and of each name that it gives a module, of the wanted crates."""
    words, modules = {}, {}
    for crate, module, listed in re.findall(r"ghost use Rattle\.(\w+)\.specs([\w.]*?)\.?\{([^}]*)\}", text):
        for word in listed.split(","):
            words[word.split(" as ")[-1].strip()] = (crate, module, word.split(" as ")[0].strip())
    for crate, module, name in re.findall(r"ghost use Rattle\.(\w+)\.specs([\w.]*) as (\w+);", text):
        modules[name] = (crate, module)
    # What the code declares, a type or a variant, is no definition of specs/.
    known = lambda found: is_wanted(found[0]) and not found[1].startswith(".declared")
    return (
        {word: found for word, found in words.items() if known(found)},
        {name: found for name, found in modules.items() if known(found)},
    )


def cited(contract, words, modules):
    """Yields the crate, the module and the name of each definition that a contract cites."""
    # What stands behind `by` is a proof.
    text = re.sub(r" by \{[^}]*\}", "", contract.text)
    yield from (words[word] for word in re.findall(r"(?<![\w.])\w+", text) if word in words)
    for name, word in re.findall(r"(?<![\w.])(\w+)\.(\w+)", text):
        if name in modules:
            yield (*modules[name], word)
