"""Puts a crate beside a copy of those that it stands on."""

import os
import shutil

from copied_crates import ROOT, crates_below, link


def add_crate(room, kind, stands_on, source, with_proofs):
    """Puts the source file as a crate of its name into the folder, and what it stands on; with the proofs that checks left,
    or without them. Returns the crate's own folder."""
    crates = crates_below(stands_on)
    for name in crates:
        source_folder, target = (os.path.join(whole, "crates", name) for whole in (ROOT, room))
        shutil.copytree(source_folder, target, ignore=shutil.ignore_patterns("out"))
        if with_proofs and os.path.isdir(os.path.join(source_folder, "out")):
            shutil.copytree(os.path.join(source_folder, "out"), os.path.join(target, "out"), copy_function=link)
    # The gate refuses a .rt file that is in no crate, so the source's name ends in .rt.in.
    own = os.path.basename(source).split(".")[0]
    with open(os.path.join(room, "crates.txt"), "w", encoding="utf-8") as file:
        file.write("\n".join([*crates.values(), f"{' '.join([own, *kind])}: {' '.join(stands_on)}", ""]))
    folder = os.path.join(room, "crates", own)
    os.makedirs(os.path.join(folder, "src"))
    shutil.copy(source, os.path.join(folder, "src", "lib.rt"))
    return folder
