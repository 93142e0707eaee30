"""The fixtures for pytest, by a run of pytest of its own."""

import importlib.metadata
import os
import pathlib
import re
import subprocess
import sys

import pytest
from rows import ROOT

from lughemra import programs

TEN_LINES = """
from lughemra.mock import going

def test_mock(lughemra_mock):
    assert lughemra_mock.uri.startswith("mongodb://127.0.0.1:")
    assert not lughemra_mock.got("ping", timeout=0)
"""
SERVED = """
import socket

def test_one(lughemra_uri):
    assert lughemra_uri.endswith("/1_test_one")
    socket.create_connection(("127.0.0.1", int(lughemra_uri.split(":")[2].split("/")[0]))).close()

def test_two(lughemra_uri, lughemra_server):
    assert lughemra_uri == lughemra_server.uri + "2_test_two"
"""
# Stands for the server program: it writes its port, and ends with its standard input.
STANDING_IN = """#!{python}
import socket, sys
listening = socket.create_server(("127.0.0.1", 0))
open(sys.argv[sys.argv.index("--port-file") + 1], "w").write(str(listening.getsockname()[1]) + chr(10))
sys.stdin.read()
"""


def plugin():
    """Returns the words that load the fixtures where no entry point of an installed module does."""
    there = "lughemra" in importlib.metadata.entry_points(group="pytest11").names
    return [] if there else ["-p", "lughemra_pytest"]


def run(folder, text, **variables):
    """Runs pytest over a file with this text, and returns what it says."""
    (folder / "test_it.py").write_text(text, encoding="utf-8")
    environment = {**os.environ, "PYTHONPATH": os.pathsep.join(sys.path), **variables}
    words = [sys.executable, "-m", "pytest", "-q", "-p", "no:cacheprovider", *plugin(), "test_it.py"]
    ran = subprocess.run(words, cwd=folder, env=environment, stdout=subprocess.PIPE, stderr=subprocess.STDOUT, encoding="utf-8")
    return ran.stdout


def test_the_fixture_of_a_mock(tmp_path):
    assert "1 passed" in run(tmp_path, TEN_LINES)


def test_the_example_of_the_page(tmp_path):
    pytest.importorskip("pymongo")
    page = (ROOT / "docs" / "PYTHON.md").read_text(encoding="utf-8")
    (example,) = re.findall(r"^```\n(from lughemra.mock import .*?)^```$", page, re.M | re.S)
    assert "1 passed" in run(tmp_path, example)


@pytest.fixture
def standing_in(tmp_path):
    """Returns the path of a program that stands for the server program."""
    path = tmp_path / "standing-in"
    path.write_text(STANDING_IN.format(python=sys.executable), encoding="utf-8")
    path.chmod(0o755)
    return path


def test_the_fixture_of_the_server_has_one_process_and_a_database_for_each_test(tmp_path, standing_in):
    assert "2 passed" in run(tmp_path, SERVED, LUGHEMRA_SERVER=str(standing_in))


def test_pytest_starts_where_no_shared_object_is_found(tmp_path):
    variables = {"LUGHEMRA_LIBRARY": str(tmp_path / "none.so")}
    assert "1 passed" in run(tmp_path, "def test_it():\n    pass\n", **variables)
    assert "LibraryNotFound" in run(tmp_path, TEN_LINES, **variables)


def test_what_a_program_says_that_does_not_listen_is_told(tmp_path, monkeypatch):
    path = tmp_path / "failing"
    path.write_text("#!/bin/sh\necho no port is free >&2\nexit 3\n", encoding="utf-8")
    path.chmod(0o755)
    monkeypatch.setenv(programs.VARIABLE, str(path))
    with pytest.raises(RuntimeError, match="no port is free"):
        programs.ServerProgram()


def test_the_program_is_found(tmp_path, monkeypatch):
    monkeypatch.setenv(programs.VARIABLE, "/told")
    assert programs.server_program() == "/told"
    monkeypatch.delenv(programs.VARIABLE)
    monkeypatch.setattr(programs, "HERE", tmp_path / "a/b")
    monkeypatch.setenv("PATH", str(tmp_path))
    with pytest.raises(programs.ProgramNotFound, match="no program bsonserver or test_server"):
        programs.server_program()
    for folder in (tmp_path, tmp_path / "a/b/bin"):
        folder.mkdir(parents=True, exist_ok=True)
        found = folder / programs.NAMES[0]
        found.write_bytes(b"")
        found.chmod(0o755)
        assert programs.server_program() == str(found)


def test_the_repository_has_the_program():
    assert any((pathlib.Path(ROOT) / name).is_file() for name in programs.NAMES)
