"""Fixtures for pytest, which takes them by the entry point `pytest11`: of a server that keeps documents, and of one that a test answers for.

The module stands beside the package, so that pytest starts where the shared object isn't found; a test that uses none of these needs none.
"""

from __future__ import annotations

import itertools
import re
from collections.abc import Iterator
from typing import TYPE_CHECKING

import pytest

if TYPE_CHECKING:
    from lughemra.mock import MockServer
    from lughemra.programs import ServerProgram

COUNT = itertools.count(1)
# The longest name of a database.
LONGEST = 63


def pytest_addoption(parser: pytest.Parser) -> None:
    """Adds the option that names a script of the server program."""
    group = parser.getgroup("lughemra")
    group.addoption("--lughemra-script", metavar="FILE", help="has the server of lughemra_uri follow the rules of this file")


@pytest.fixture(scope="session")
def lughemra_server(request: pytest.FixtureRequest) -> Iterator[ServerProgram]:
    """Runs the server program, one process for all tests of the run."""
    from lughemra.programs import ServerProgram

    path = request.config.getoption("--lughemra-script")
    script = None
    if path is not None:
        with open(path, encoding="utf-8") as file:
            script = file.read()
    with ServerProgram(script) as server:
        yield server


@pytest.fixture
def lughemra_uri(lughemra_server: ServerProgram, request: pytest.FixtureRequest) -> str:
    """Returns the address of the server with a database that no other test of the run has."""
    name = f"{next(COUNT)}_{re.sub('[^A-Za-z0-9]', '_', request.node.name)}"
    return lughemra_server.uri + name[:LONGEST]


@pytest.fixture
def lughemra_mock() -> Iterator[MockServer]:
    """Listens in this process, and answers what the test says."""
    from lughemra.mock import MockServer

    with MockServer() as server:
        yield server
