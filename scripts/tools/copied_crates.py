"""Copies crates, and what they stand on, into a repository of their own."""

import os
import shutil

ROOT = os.path.dirname(os.path.dirname(os.path.dirname(os.path.realpath(__file__))))
# The files that say what crates and tests stand on.
LISTS = {"crates": "crates.txt", "tests": "tests/tests.txt"}


def crates_below(names):
    """Returns the lines of crates.txt of these crates and of all that they stand on."""
    with open(os.path.join(ROOT, "crates.txt"), encoding="utf-8") as file:
        lines = {line.split(":")[0].split()[0]: line.strip() for line in file if ":" in line}
    found, waiting = {}, list(names)
    while waiting:
        name = waiting.pop()
        if name in lines and name not in found:
            found[name] = lines[name]
            waiting += lines[name].split(":")[1].split()
    return found


def link(source, target):
    """Links a file that a check reads or left: it never writes into one that is there, but puts another in its place."""
    try:
        os.link(source, target)
    except OSError:
        shutil.copy2(source, target)


def copy_crates(source, target, names, copy_function):
    """Copies these crates from one repository into a new one, with what checks left, and of those that they stand on the sources
    and the built libraries."""
    lines = crates_below(names)
    for name in lines:
        ignored = shutil.ignore_patterns("must-fail", *[] if name in names else ["incremental"])
        folders = [os.path.join(whole, "crates", name) for whole in (source, target)]
        shutil.copytree(*folders, ignore=ignored, copy_function=copy_function)
    with open(os.path.join(target, "crates.txt"), "w", encoding="utf-8") as file:
        file.write("\n".join([*lines.values(), ""]))


def link_root(target, *kinds):
    """Links into a new folder what a check reads of these folders of the repository: crates, or also tests, which become crates there.
    Its crates.txt comes first, so that a source which was edited since is newer."""
    lists = []
    for kind in kinds:
        with open(os.path.join(ROOT, LISTS[kind]), encoding="utf-8") as file:
            lists.append(file.read())
    with open(os.path.join(target, "crates.txt"), "w", encoding="utf-8") as file:
        file.write("\n".join(lists))
    link(os.path.join(ROOT, "HANDLES"), os.path.join(target, "HANDLES"))
    ignored = shutil.ignore_patterns("out", "tests.txt")
    for kind in kinds:
        # A symbolic link stays one, so that the check refuses it.
        folders = os.path.join(ROOT, kind), os.path.join(target, "crates")
        shutil.copytree(*folders, symlinks=True, ignore=ignored, copy_function=link, dirs_exist_ok=True)
