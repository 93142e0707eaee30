"""Writes what is released: a tarball, Debian packages, a wheel, a Containerfile and their sums, out of dist/ and share/.

scripts/tools/release calls write_packages. What it writes is the same, byte for byte, whenever and wherever it is written by the same
versions of Python, xz and dpkg: no file tells who wrote it, and each has one date, which SOURCE_DATE_EPOCH names, or else DATE.
"""

import hashlib
import io
import os
import sys
import tarfile

from debian_packages import write_debian_packages
from package_files import dist_files, header_entries, library_entries, program_entries
from program_list import programs, version

# The date of each file: the first second of 2026. dist/MANIFEST tells none.
DATE = 1767225600
PLATFORM = "manylinux_2_34_x86_64"
PORT = 27017

CONTAINERFILE = """\
FROM debian:bookworm-slim
ADD {tarball} /usr/local/
EXPOSE {port}
ENTRYPOINT ["/usr/local/bin/{server}", "0.0.0.0:{port}"]
"""


def source_date():
    """Returns the date of each file, in seconds since 1970."""
    return int(os.environ.get("SOURCE_DATE_EPOCH", DATE))


def tar_member(path, entry, date):
    """Returns what a tarball tells of an entry."""
    member = tarfile.TarInfo(path)
    member.mtime, member.mode, member.size = date, 0o777 if entry.target else entry.mode, len(entry.data)
    member.uname = member.gname = "root"
    if entry.target:
        member.type, member.linkname = tarfile.SYMTYPE, entry.target
    return member


def write_tarball(root, dist, out, date):
    """Writes the tarball, which one unpacks into /usr/local. It has no folders, so that those that are there stay as they are."""
    name = f"lughemra-{version(root)}-x86_64-linux.tar.xz"
    entries = {**program_entries(root, dist), **library_entries(root, dist, "lib")}
    entries |= header_entries(root, dist, "${pcfiledir}/../..", "lib")
    with tarfile.open(out / name, "w:xz", format=tarfile.USTAR_FORMAT, preset=9) as archive:
        for path, entry in sorted(entries.items()):
            archive.addfile(tar_member(path, entry, date), io.BytesIO(entry.data))
    return name


def write_containerfile(root, tarball, out):
    """Writes the Containerfile, whose container serves drivers by the program whose name ends with `server`."""
    server = next(name for name in programs(root) if name.endswith("server"))
    (out / "Containerfile").write_text(CONTAINERFILE.format(tarball=tarball, server=server, port=PORT), encoding="utf-8")
    return "Containerfile"


def write_wheel(root, dist, out):
    """Writes the wheel, which holds beside the module the shared object and the program whose name ends with `server`."""
    sys.path.insert(0, str(root / "python"))
    from build_backend import write_shared_wheel

    server = next(name for name in programs(root) if name.endswith("server"))
    return write_shared_wheel(out, dist.shared, PLATFORM, [(server, dist.programs[server])])


def write_sums(out, names):
    """Writes the sums of these files, in the form of sha256sum."""
    lines = [f"{hashlib.sha256((out / name).read_bytes()).hexdigest()}  {name}\n" for name in sorted(names)]
    (out / "SHA256SUMS").write_text("".join(lines), encoding="utf-8")
    return "SHA256SUMS"


def write_packages(root, out):
    """Writes all packages of dist/ into the folder. Returns their names."""
    dist, date = dist_files(root), source_date()
    out.mkdir(parents=True, exist_ok=True)
    tarball = write_tarball(root, dist, out, date)
    names = [tarball, *write_debian_packages(root, dist, out, date), write_containerfile(root, tarball, out), write_wheel(root, dist, out)]
    return [*names, write_sums(out, names)]
