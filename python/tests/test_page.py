"""Runs the programs of docs/PYTHON.md, as they are written there."""

import re
import subprocess
import sys

import pytest
from rows import ROOT

PAGE = (ROOT / "docs" / "PYTHON.md").read_text(encoding="utf-8")
PROGRAMS = re.findall(r"^```python\n(.*?)^```\n\n```\n(.*?)^```$", PAGE, re.M | re.S)


def test_the_page_has_eight_programs():
    assert len(PROGRAMS) == PAGE.count("```python") == 8


@pytest.mark.parametrize("program, printed", PROGRAMS)
def test_a_program_of_the_page_writes_what_follows_it(program, printed):
    ran = subprocess.run([sys.executable, "-c", program], stdout=subprocess.PIPE, encoding="utf-8", check=True)
    assert ran.stdout == printed
