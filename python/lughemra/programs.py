"""Finds the server program, which keeps documents in memory, and runs it for tests."""

from __future__ import annotations

import os
import pathlib
import shutil
import subprocess
import tempfile
import time
from typing import Optional, Self

# The names that the program has had, the present one first.
NAMES = ("bsonserver", "test_server")
VARIABLE = "LUGHEMRA_SERVER"
HERE = pathlib.Path(__file__).resolve().parent
# How long it may take to listen, in seconds.
PATIENCE = 30.0


class ProgramNotFound(FileNotFoundError):
    """Tells where the server program was looked for."""


def server_program() -> str:
    """Returns the path of the server program: that which LUGHEMRA_SERVER names, if it is set; else one beside this module, as in a wheel
    that has one; else one in the repository that this module stands in; else one on the path. Raises ProgramNotFound."""
    told = os.environ.get(VARIABLE)
    if told:
        return told
    for path in [*sorted((HERE / "bin").glob("*server")), *(HERE.parents[1] / name for name in NAMES)]:
        if path.is_file() and os.access(path, os.X_OK):
            return str(path)
    for name in NAMES:
        found = shutil.which(name)
        if found:
            return found
    raise ProgramNotFound(f"no program {' or '.join(NAMES)} is in {HERE / 'bin'}, in {HERE.parents[1]} or on the path; {VARIABLE} may name it")


class ServerProgram:
    """Runs the server program at a free port of this machine, until `close`, or the end of a `with`.

    `script` is the text of its rules, as docs/SERVER.md has them. It ends when its standard input does, so one whose starter dies
    doesn't stay.
    """

    def __init__(self, script: Optional[str] = None, program: Optional[str] = None) -> None:
        self._folder = tempfile.TemporaryDirectory(prefix="lughemra-")
        room = pathlib.Path(self._folder.name)
        words = [program or server_program(), "--quiet", "--until-stdin-closes", "--port-file", str(room / "port")]
        if script is not None:
            (room / "script").write_text(script, encoding="utf-8")
            words += ["--script", str(room / "script")]
        try:
            with open(room / "said", "wb") as said:
                self._process = subprocess.Popen([*words, "127.0.0.1:0"], stdin=subprocess.PIPE, stdout=subprocess.DEVNULL, stderr=said)
            self.port = self._listening(room)
        except BaseException:
            self._folder.cleanup()
            raise

    def _listening(self, room: pathlib.Path) -> int:
        """Waits until the program has written its port."""
        until = time.monotonic() + PATIENCE
        while True:
            text = (room / "port").read_text() if (room / "port").exists() else ""
            if text.endswith("\n"):
                return int(text)
            if self._process.poll() is not None or time.monotonic() > until:
                said = (room / "said").read_text(errors="replace").strip()
                self._end()
                raise RuntimeError(f"the server program doesn't listen: {said or 'it says nothing'}")
            time.sleep(0.01)

    def _end(self) -> int:
        """Ends the program. Returns its status."""
        assert self._process.stdin is not None
        self._process.stdin.close()
        try:
            return self._process.wait(timeout=PATIENCE)
        except subprocess.TimeoutExpired:
            self._process.kill()
            return self._process.wait()

    @property
    def uri(self) -> str:
        """Returns the address for a driver."""
        return f"mongodb://127.0.0.1:{self.port}/"

    def close(self) -> None:
        """Ends the program."""
        self._end()
        self._folder.cleanup()

    def __enter__(self) -> Self:
        return self

    def __exit__(self, *_: object) -> None:
        self.close()
