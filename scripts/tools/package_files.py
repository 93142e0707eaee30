"""Lays out what packages hold, out of dist/ and share/: each file and each link by its path below a prefix."""

import pathlib
from typing import NamedTuple

from library_files import library_files, names_of_shared
from program_list import programs, version
from program_pages import BASH, FISH, MAN, ZSH

# The folder of dist/ with what was built for this system.
BUILT = "dist/x86_64-linux"


class Entry(NamedTuple):
    """A file of these bytes, or a link to a target."""

    data: bytes = b""
    mode: int = 0o644
    target: str = ""


class Dist(NamedTuple):
    """What dist/ holds: the bytes of each program, of the shared object, of the header and of the page."""

    programs: dict
    shared: bytes
    header: bytes
    page: bytes


def dist_files(root):
    """Returns what dist/ holds. The shared object is the one file of its name, whatever version the name has."""
    folder = root / BUILT
    shared = sorted(folder.glob("liblughemra.so*"))
    if len(shared) != 1:
        raise FileNotFoundError(f"{folder} has {len(shared)} shared objects, and not one")
    return Dist(
        programs={name: (folder / name).read_bytes() for name in programs(root)},
        shared=shared[0].read_bytes(),
        header=(folder / "lughemra.h").read_bytes(),
        page=(folder / "index.html").read_bytes(),
    )


def program_entries(root, dist, zsh=ZSH):
    """Returns the programs, their man pages and completions, and the page. Completions for zsh stand in share/ at the path `zsh`."""
    entries = {"share/lughemra/index.html": Entry(dist.page)}
    for name, data in dist.programs.items():
        entries[f"bin/{name}"] = Entry(data, 0o755)
        for there, path in ((MAN, MAN), (BASH, BASH), (ZSH, zsh), (FISH, FISH)):
            entries[f"share/{path.format(name)}"] = Entry((root / "share" / there.format(name)).read_bytes())
    return entries


def library_entries(root, dist, libraries):
    """Returns the shared object, in a folder of this name, and the link by which programs find it."""
    shared, soname, _ = names_of_shared(version(root))
    return {f"{libraries}/{shared}": Entry(dist.shared), f"{libraries}/{soname}": Entry(target=shared)}


def header_entries(root, dist, prefix, libraries):
    """Returns what programs in C are compiled with: the header, the link by which they are linked, and files for pkg-config and CMake."""
    _, soname, linked = names_of_shared(version(root))
    entries = {"include/lughemra.h": Entry(dist.header), f"{libraries}/{linked}": Entry(target=soname)}
    for path, text in library_files(version(root), prefix, libraries).items():
        entries[path] = Entry(text.encode())
    return entries


def write_entries(folder, entries):
    """Writes the entries into a folder, with their modes."""
    for path, entry in sorted(entries.items()):
        place = pathlib.Path(folder) / path
        place.parent.mkdir(parents=True, exist_ok=True)
        if entry.target:
            place.symlink_to(entry.target)
        else:
            place.write_bytes(entry.data)
            place.chmod(entry.mode)
