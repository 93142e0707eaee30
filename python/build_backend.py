"""Builds the wheel and the source archive for pip, by what is in Python alone.

So `pip install --no-build-isolation ./python` needs no network and no other package: of setuptools it would need one version, and
`wheel` beside it, and a fresh virtual environment has at most the former. It reads the table `project` of pyproject.toml, and the
version in lughemra/__init__.py. Where there are a C compiler and Python's headers it builds the extension, for this Python alone: another
one that installs the wheel doesn't take it, and does without.
"""

import base64
import hashlib
import io
import pathlib
import os
import re
import shlex
import stat
import subprocess
import sys
import sysconfig
import tarfile
import tempfile
import tomllib
import zipfile

HERE = pathlib.Path(__file__).resolve().parent
PACKAGE = HERE / "lughemra"
# The shared object, where someone has put it beside the module.
SHARED = PACKAGE / "liblughemra.so.0"
# The module of pytest's fixtures, which stands beside the package.
FIXTURES = HERE / "lughemra_pytest.py"
# The sources of the extension, and where lughemra.h may be: beside this file in the archive of the sources, else in the repository.
EXTENSION = PACKAGE / "_speed.c"
HEADERS = [HERE / "lughemra.h", HERE.parent / "crates/lughemra/include/lughemra.h"]
FLAGS = ["-std=gnu11", "-O2", "-fPIC", "-shared", "-fvisibility=hidden"]
# Where the wheel has programs.
PROGRAMS = "lughemra/bin/"
# The first date that a zip file can tell.
DATE = (1980, 1, 1, 0, 0, 0)


def project():
    """Returns what pyproject.toml tells of the project, and the module of its version."""
    told = tomllib.loads((HERE / "pyproject.toml").read_text(encoding="utf-8"))["project"]
    module = (PACKAGE / "__init__.py").read_text(encoding="utf-8")
    return {**told, "version": re.search(r'^__version__ = "([^"]*)"$', module, re.M)[1]}


def metadata(told):
    """Returns the text of METADATA."""
    lines = [
        "Metadata-Version: 2.1",
        f"Name: {told['name']}",
        f"Version: {told['version']}",
        f"Summary: {told['description']}",
        f"Requires-Python: {told['requires-python']}",
        *(f"Classifier: {classifier}" for classifier in told["classifiers"]),
    ]
    return "\n".join(lines) + "\n"


def entry_points(told):
    """Returns the text of entry_points.txt: a table of pyproject.toml for each group."""
    groups = told.get("entry-points", {})
    return "\n".join(f"[{group}]\n" + "".join(f"{name} = {it}\n" for name, it in pairs.items()) for group, pairs in groups.items())


def package_files():
    """Returns the sources of the package."""
    return [*sorted(PACKAGE.rglob("*.py")), PACKAGE / "py.typed", FIXTURES]


def name_of(path):
    """Returns the name of a file of the package in a wheel."""
    return str(path.relative_to(HERE))


def extension_sources():
    """Returns the files that the extension is built of, but for lughemra.h."""
    return [EXTENSION, *sorted(PACKAGE.glob("_speed*.h"))]


def extension_name():
    """Returns the name under which this Python looks for the extension, and no other one."""
    return "_speed" + sysconfig.get_config_var("EXT_SUFFIX")


def built_extension():
    """Returns the bytes of the extension for this Python, or None where it can't be built, as a line on standard error then says."""
    header = next((path for path in HEADERS if path.exists()), None)
    include = sysconfig.get_paths()["include"]
    if header is None or not (pathlib.Path(include) / "Python.h").exists():
        print(f"the extension isn't built: {'lughemra.h' if header is None else include + '/Python.h'} is not here", file=sys.stderr)
        return None
    with tempfile.TemporaryDirectory() as room:
        built = pathlib.Path(room) / "_speed.so"
        compiler = shlex.split(os.environ.get("CC", "cc"))
        words = [*compiler, *FLAGS, f"-I{include}", f"-I{header.parent}", "-o", str(built), str(EXTENSION)]
        try:
            subprocess.run(words, check=True)
        except (OSError, subprocess.CalledProcessError) as failure:
            print(f"the extension isn't built: {failure}", file=sys.stderr)
            return None
        return built.read_bytes()


def extension_files():
    """Returns the extension, if it can be built, as a pair of its name in a wheel and its bytes."""
    built = built_extension()
    return [] if built is None else [(f"lughemra/{extension_name()}", built)]


def shared_files():
    """Returns the shared object, if it is there. Raises FileNotFoundError for a link to nothing, which is meant to be one."""
    if SHARED.is_symlink() and not SHARED.exists():
        raise FileNotFoundError(f"{SHARED} is a link to {SHARED.readlink()}, which isn't there")
    return [SHARED] if SHARED.exists() else []


def record_line(name, data):
    """Returns the line of RECORD for a file."""
    digest = base64.urlsafe_b64encode(hashlib.sha256(data).digest()).rstrip(b"=").decode()
    return f"{name},sha256={digest},{len(data)}\n"


def write_wheel(folder, files, platform):
    """Writes a wheel for the platform of the files, which are pairs of a name and bytes, into the folder. Returns its name."""
    told = project()
    tag = f"py3-none-{platform}"
    inside = f"{told['name']}-{told['version']}.dist-info"
    wheel = "Wheel-Version: 1.0\nGenerator: build_backend\n"
    wheel += f"Root-Is-Purelib: {str(platform == 'any').lower()}\nTag: {tag}\n"
    texts = {"METADATA": metadata(told), "WHEEL": wheel, "entry_points.txt": entry_points(told)}
    files = [*files, *((f"{inside}/{name}", text.encode()) for name, text in texts.items())]
    record = "".join(record_line(*file) for file in files) + f"{inside}/RECORD,,\n"
    name = f"{told['name']}-{told['version']}-{tag}.whl"
    with zipfile.ZipFile(pathlib.Path(folder) / name, "w", zipfile.ZIP_DEFLATED) as archive:
        for path, data in [*files, (f"{inside}/RECORD", record.encode())]:
            entry = zipfile.ZipInfo(path, DATE)
            # pip has a file be run only where this tells that it is a regular one, too.
            mode = stat.S_IFREG | 0o755 if path.startswith(PROGRAMS) else 0o644
            entry.compress_type, entry.external_attr = zipfile.ZIP_DEFLATED, mode << 16
            archive.writestr(entry, data)
    return name


def write_shared_wheel(folder, shared, platform, programs=()):
    """Writes a wheel for the platform that holds the module, these bytes as its shared object, the extension for this Python, and programs,
    each its name and its bytes. Returns its name."""
    files = [(name_of(path), path.read_bytes()) for path in package_files()]
    programs = [(PROGRAMS + name, data) for name, data in programs]
    return write_wheel(folder, [*files, (f"lughemra/{SHARED.name}", shared), *extension_files(), *programs], platform)


def build_wheel(wheel_directory, config_settings=None, metadata_directory=None):
    """Writes the wheel that pip installs."""
    built = [(name_of(path), path.read_bytes()) for path in shared_files()] + extension_files()
    files = [(name_of(path), path.read_bytes()) for path in package_files()] + built
    return write_wheel(wheel_directory, files, "linux_x86_64" if built else "any")


def build_editable(wheel_directory, config_settings=None, metadata_directory=None):
    """Writes a wheel that has Python read the module where it stands here, and puts the extension beside it."""
    for _, built in extension_files():
        (PACKAGE / extension_name()).write_bytes(built)
    return write_wheel(wheel_directory, [("lughemra.pth", f"{HERE}\n".encode())], "linux_x86_64" if shared_files() else "any")


def build_sdist(sdist_directory, config_settings=None):
    """Writes the archive of the sources."""
    told = project()
    base = f"{told['name']}-{told['version']}"
    header = next(path for path in HEADERS if path.exists())
    files = [HERE / "pyproject.toml", HERE / "build_backend.py", *package_files(), *extension_sources()]
    with tarfile.open(pathlib.Path(sdist_directory) / f"{base}.tar.gz", "w:gz", format=tarfile.PAX_FORMAT) as archive:
        for path in files:
            archive.add(path, f"{base}/{path.relative_to(HERE)}")
        archive.add(header, f"{base}/{header.name}")
        data = metadata(told).encode()
        entry = tarfile.TarInfo(f"{base}/PKG-INFO")
        entry.size = len(data)
        archive.addfile(entry, io.BytesIO(data))
    return f"{base}.tar.gz"
