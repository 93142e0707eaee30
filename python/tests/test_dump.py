"""The module as a program."""

import subprocess
import sys

import pytest

import lughemra
from lughemra import __main__

DATA = lughemra.encode({"a": 1, "b": ["x"]})
TEXT = lughemra.Document(DATA).text()


@pytest.mark.parametrize(
    "data, status, text, told",
    [(DATA * 2, 0, TEXT * 2, ""), (DATA + b"\5", 1, TEXT, f"fault 1 Truncated at {len(DATA)}\n"), (b"", 0, "", "")],
)
def test_documents_are_written_as_text(tmp_path, capsys, data, status, text, told):
    (tmp_path / "file").write_bytes(data)
    assert __main__.main(["dump", str(tmp_path / "file")]) == status
    assert capsys.readouterr() == (text, told)


@pytest.mark.parametrize("words", [[], ["dump"], ["load", "x"], ["dump", "x", "y"]])
def test_another_command_line_is_refused(words, capsys):
    assert __main__.main(words) == 2
    assert "python3 -m lughemra dump FILE" in capsys.readouterr().err


def test_a_file_that_is_not_there_is_told(tmp_path, capsys):
    assert __main__.main(["dump", str(tmp_path / "none")]) == 3
    assert capsys.readouterr().err == f"{tmp_path / 'none'}: No such file or directory\n"


def test_standard_input():
    ran = subprocess.run([sys.executable, "-m", "lughemra", "dump", "-"], input=DATA, stdout=subprocess.PIPE, check=True)
    assert ran.stdout.decode() == TEXT
