"""Writes the Debian packages, by dpkg-deb: the programs, the shared object, and what programs in C are compiled with."""

import email.utils
import gzip
import hashlib
import os
import re
import shutil
import subprocess
import sys
import tempfile
import textwrap
from typing import NamedTuple

from package_files import Entry, header_entries, library_entries, program_entries, write_entries
from program_list import programs, version

SOURCE = "lughemra"
MAINTAINER = "Lughemra maintainers <maintainers@users.noreply.lughemra.example>"
LIBRARIES = "lib/x86_64-linux-gnu"
# Debian's zsh looks here for what packages bring.
ZSH = "zsh/vendor-completions/_{}"
LIBC = "libc6 (>= 2.34)"
COPYRIGHT = """\
Lughemra: a library and programs for BSON 1.1 and messages of the MongoDB wire protocol.

No licence has been chosen yet: its owner hasn't said what others may do with it.
"""


class Package(NamedTuple):
    """A package: its name, its fields, the text of its description, its files below /usr, and those that only dpkg reads."""

    name: str
    fields: dict
    about: str
    entries: dict
    control: dict


def programs_package(root, dist):
    """Returns the package of the programs."""
    items = [f"{name} {short}" for name, short in programs(root).items()]
    told = "\n".join(textwrap.fill(item, 76, initial_indent="  * ", subsequent_indent="    ") for item in items)
    about = f"programs for BSON and the MongoDB wire protocol\n The programs are\n{told}"
    about += "\n The page in /usr/share/lughemra shows bytes in a browser."
    fields = {"Section": "utils", "Depends": LIBC}
    return Package("bsonwire", fields, about, program_entries(root, dist, ZSH), {})


def library_package(root, dist):
    """Returns the package of the shared object."""
    told = version(root)
    name = f"liblughemra{told.split('.')[0]}"
    about = "BSON documents and MongoDB wire messages (shared object)\n It reads, checks, writes and shows documents and messages, for"
    about += "\n programs in C."
    # Before 1.0 each version may lay out structs anew, so a program wants the version that it was compiled with.
    control = {"shlibs": f"liblughemra {told.split('.')[0]} {name} (= {told})\n", "triggers": "activate-noawait ldconfig\n"}
    fields = {"Section": "libs", "Depends": LIBC, "Multi-Arch": "same"}
    return Package(name, fields, about, library_entries(root, dist, LIBRARIES), control)


def header_package(root, dist):
    """Returns the package of what programs in C are compiled with."""
    told = version(root)
    about = "BSON documents and MongoDB wire messages (header)\n The header of liblughemra, and files by which pkg-config and CMake find"
    about += "\n both."
    fields = {"Section": "libdevel", "Depends": f"liblughemra{told.split('.')[0]} (= {told})", "Multi-Arch": "same"}
    return Package("liblughemra-dev", fields, about, header_entries(root, dist, "/usr", LIBRARIES), {})


def changelog(root, date):
    """Returns the changelog, in Debian's form: the items of CHANGELOG.md for each version."""
    parts = re.split(r"^## (\S+)$", (root / "CHANGELOG.md").read_text(encoding="utf-8"), flags=re.M)[1:]
    written, when = [], email.utils.formatdate(date)
    for told, text in zip(parts[::2], parts[1::2]):
        items = [" ".join(item.split()) for item in re.split(r"^- ", text, flags=re.M)[1:]]
        lines = [line for item in items for line in textwrap.wrap(item, 76, initial_indent="  * ", subsequent_indent="    ")]
        written += [f"{SOURCE} ({told}) unstable; urgency=medium", "", *lines, "", f" -- {MAINTAINER}  {when}", ""]
    return "\n".join(written)


def compressed(data):
    """Returns the bytes as gzip -9n compresses them."""
    return gzip.compress(data, 9, mtime=0)


def is_unstripped(data):
    """Returns whether this is a program, or a shared object, with a table of symbols, by the name of that section."""
    return data.startswith(b"\x7fELF") and b"\0.symtab\0" in data


def overrides(package):
    """Returns what lintian is told: that programs have all that was built, since they are those that were tried, byte for byte."""
    if any(is_unstripped(entry.data) for entry in package.entries.values()):
        text = f"# What is released is what was built and tried, byte for byte.\n{package.name}: unstripped-binary-or-object\n"
        return {f"share/lintian/overrides/{package.name}": Entry(text.encode())}
    return {}


def all_entries(root, package, date):
    """Returns all files of a package below /usr. Its man pages are compressed."""
    entries = {**package.entries, **overrides(package)}
    for path in [path for path in entries if path.startswith("share/man/")]:
        entries[path + ".gz"] = Entry(compressed(entries.pop(path).data))
    docs = f"share/doc/{package.name}"
    entries[f"{docs}/copyright"] = Entry(COPYRIGHT.encode())
    entries[f"{docs}/changelog.gz"] = Entry(compressed(changelog(root, date).encode()))
    return {f"usr/{path}": entry for path, entry in entries.items()}


def control_files(root, package, entries):
    """Returns the text of each file that only dpkg reads."""
    kibibytes = sum(-(-len(entry.data) // 1024) for entry in entries.values())
    fields = {"Package": package.name, "Source": SOURCE, "Version": version(root), "Architecture": "amd64", "Maintainer": MAINTAINER}
    fields |= {"Installed-Size": kibibytes, **package.fields, "Priority": "optional", "Description": package.about}
    sums = [f"{hashlib.md5(entry.data).hexdigest()}  {path}\n" for path, entry in sorted(entries.items()) if not entry.target]
    control = "".join(f"{name}: {said}\n" for name, said in fields.items())
    return {"control": control, "md5sums": "".join(sums), **package.control}


def write_package(root, package, out, date):
    """Writes a package into the folder. Returns the name of its file."""
    entries = all_entries(root, package, date)
    name = f"{package.name}_{version(root)}_amd64.deb"
    with tempfile.TemporaryDirectory() as work:
        control = control_files(root, package, entries)
        write_entries(work, {**entries, **{f"DEBIAN/{path}": Entry(text.encode()) for path, text in control.items()}})
        for folder, folders, files in os.walk(work, topdown=False):
            for path in (os.path.join(folder, it) for it in [*folders, *files, "."]):
                os.utime(path, (date, date), follow_symlinks=False)
            os.chmod(folder, 0o755)
        words = ["dpkg-deb", "--root-owner-group", "-Zxz", "-z9", "--build", work, str(out / name)]
        subprocess.run(words, env={**os.environ, "SOURCE_DATE_EPOCH": str(date)}, stdout=subprocess.DEVNULL, check=True)
    return name


def write_debian_packages(root, dist, out, date):
    """Writes the packages into the folder. Returns the names of their files. Ends the script where dpkg-deb isn't here."""
    if shutil.which("dpkg-deb") is None:
        print("scripts/tools/release: dpkg-deb is not here: apt-get install dpkg", file=sys.stderr)
        sys.exit(70)
    packages = [programs_package(root, dist), library_package(root, dist), header_package(root, dist)]
    return [write_package(root, package, out, date) for package in packages]
