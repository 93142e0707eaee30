"""The archives that pip builds and installs, of a copy of python/."""

import importlib.util
import pathlib
import shutil
import sysconfig
import tarfile
import zipfile

import pytest
from rows import ROOT

import lughemra

BASE = f"lughemra-{lughemra.__version__}"
SHARED = "liblughemra.so.0"
PACKAGE = ROOT / "python/lughemra"
NAMES = {str(path.relative_to(PACKAGE)) for path in PACKAGE.rglob("*.py")} | {"py.typed"}
WHEEL = {f"lughemra/{name}" for name in NAMES} | {"lughemra_pytest.py"}
WHEEL |= {f"{BASE}.dist-info/{name}" for name in ("METADATA", "WHEEL", "RECORD", "entry_points.txt")}
SOURCES = {f"{BASE}/{name}" for name in ("pyproject.toml", "build_backend.py", "lughemra_pytest.py", "PKG-INFO")}
SOURCES |= {f"{BASE}/lughemra/{name}" for name in NAMES}
SOURCES |= {f"{BASE}/lughemra/{path.name}" for path in PACKAGE.glob("_speed*.[ch]")} | {f"{BASE}/lughemra.h"}


@pytest.fixture
def backend(tmp_path):
    """Returns the backend of a copy that has no shared object, and lughemra.h as the archive of the sources has it."""
    copied = tmp_path / "python"
    shutil.copytree(ROOT / "python", copied, ignore=shutil.ignore_patterns("tests", SHARED, "_speed.*.so"))
    shutil.copy(ROOT / "crates/lughemra/include/lughemra.h", copied)
    spec = importlib.util.spec_from_file_location("build_backend", copied / "build_backend.py")
    backend = importlib.util.module_from_spec(spec)
    spec.loader.exec_module(backend)
    return backend


def in_wheel(backend, folder):
    """Builds a wheel, and returns its name, the names in it, and the bytes of the shared object in it, if it is there."""
    name = backend.build_wheel(folder)
    with zipfile.ZipFile(pathlib.Path(folder) / name) as archive:
        names = archive.namelist()
        assert len(names) == len(set(names))
        shared = f"lughemra/{SHARED}"
        return name, set(names), archive.read(shared) if shared in names else None


def in_sdist(backend, folder):
    """Builds an archive of the sources, and returns its name and the names in it."""
    name = backend.build_sdist(folder)
    with tarfile.open(pathlib.Path(folder) / name) as archive:
        return name, set(archive.getnames())


@pytest.fixture
def without_compiler(monkeypatch):
    """Has no extension be built."""
    monkeypatch.setenv("CC", "there-is-no-compiler-of-this-name")


def test_the_extension_of_this_python_goes_into_the_wheel(backend, tmp_path):
    name, names, _ = in_wheel(backend, tmp_path)
    if not (pathlib.Path(sysconfig.get_paths()["include"]) / "Python.h").exists():
        pytest.skip("Python.h is not here")
    assert (name, names - WHEEL) == (f"{BASE}-py3-none-linux_x86_64.whl", {f"lughemra/_speed{sysconfig.get_config_var('EXT_SUFFIX')}"})


@pytest.mark.usefixtures("without_compiler")
def test_a_wheel_without_a_shared_object_is_for_each_machine(backend, tmp_path, capfd):
    assert in_wheel(backend, tmp_path) == (f"{BASE}-py3-none-any.whl", WHEEL, None)
    assert in_sdist(backend, tmp_path) == (f"{BASE}.tar.gz", SOURCES)
    assert "the extension isn't built" in capfd.readouterr().err


@pytest.mark.usefixtures("without_compiler")
@pytest.mark.parametrize("link", [False, True])
def test_a_shared_object_goes_into_the_wheel_and_not_into_the_sources(backend, tmp_path, link):
    place = backend.PACKAGE / SHARED
    if link:
        (tmp_path / "built.so").write_bytes(b"an object")
        place.symlink_to(tmp_path / "built.so")
    else:
        place.write_bytes(b"an object")
    name = f"{BASE}-py3-none-linux_x86_64.whl"
    assert in_wheel(backend, tmp_path) == (name, WHEEL | {f"lughemra/{SHARED}"}, b"an object")
    assert in_sdist(backend, tmp_path) == (f"{BASE}.tar.gz", SOURCES)


def test_a_link_to_no_shared_object_is_told(backend, tmp_path):
    (backend.PACKAGE / SHARED).symlink_to(tmp_path / "none.so")
    for build in (backend.build_wheel, backend.build_editable):
        with pytest.raises(FileNotFoundError, match="none.so, which isn't there"):
            build(tmp_path)
    assert not list(tmp_path.glob("*.whl"))
