"""Reads crates.txt: the crates in their groups, and what each stands on."""

import functools
from typing import NamedTuple

from items import ROOT


class Crate(NamedTuple):
    """A crate: its name, the heading that it stands under, and the crates and the packages that it stands on."""

    name: str
    group: str
    uses: tuple
    packages: tuple

    @property
    def folder(self):
        return ROOT / "crates" / self.name

    @property
    def is_program(self):
        return (self.folder / "src/main.rt").exists()

    @property
    def root(self):
        """Returns the file that the crate begins with."""
        return self.folder / "src" / ("main.rt" if self.is_program else "lib.rt")


def lines():
    """Yields the heading, the name and the uses of each line that names a crate."""
    group = ""
    for line in (ROOT / "crates.txt").read_text(encoding="utf-8").splitlines():
        if line.startswith("#"):
            group = line.lstrip("# ").strip()
        elif ":" in line:
            named, _, uses = line.partition(":")
            yield group, named.split()[0], uses.split()


@functools.cache
def crates():
    """Returns the crates by their names, in the order of the file."""
    found = list(lines())
    names = {name for _, name, _ in found}
    return {
        name: Crate(name, group, tuple(use for use in uses if use in names), tuple(use for use in uses if use not in names))
        for group, name, uses in found
    }


def used_by(name):
    """Returns the crates that stand on this one."""
    return [crate.name for crate in crates().values() if name in crate.uses]


@functools.cache
def below(name):
    """Returns all that a crate stands on, at whatever depth."""
    return frozenset(crates()[name].uses).union(*(below(use) for use in crates()[name].uses))


def nearest(name):
    """Returns what a crate stands on, without what one of these stands on itself."""
    return [use for use in crates()[name].uses if not any(use in below(other) for other in crates()[name].uses)]


@functools.cache
def height(name):
    """Returns the length of the longest chain of crates below one."""
    return max((height(use) + 1 for use in crates()[name].uses), default=0)
