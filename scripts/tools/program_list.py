"""Tells the version, and the programs of scripts/programs.txt with where each is built."""

import re

LIST = "scripts/programs.txt"


def version(root):
    """Returns the version: the first heading of CHANGELOG.md."""
    return re.search(r"^## (\S+)$", (root / "CHANGELOG.md").read_text(encoding="utf-8"), re.M)[1]


def programs(root):
    """Returns each program's name, with what it does."""
    lines = (line for line in (root / LIST).read_text(encoding="utf-8").splitlines() if line.strip() and not line.startswith("#"))
    return dict(line.split(": ", 1) for line in lines)


def built(root, name):
    """Returns where a program of the list is built."""
    return root / "crates" / name / "out" / name
