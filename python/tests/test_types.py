"""What mypy refuses of programs that use the module, by its types, and what it takes."""

import re

import pytest
from rows import ROOT

api = pytest.importorskip("mypy.api", reason="mypy is not installed")

TAKEN = [
    "Document(b'')",
    "Document(bytearray(b''))['a'].elements()",
    "Document(memoryview(b'')).get('a').elements()",
    "check(array.array('b'))",
    "check(mmap.mmap(-1, 1))",
    "[it.value.elements() for it in Document(b'').elements()]",
    "Reader().feed(b'')",
    "Client().call(Document(b''), [('docs', [{'n': 1}, b'', Document(b'')])])",
    "Client().call({'a': [1]}, Message(b'').sequences)",
    "Server().answer(0, [{'ok': 1}, encode({})])",
    "encode_message(b'', [('docs', documents(b''))])",
    "given: AnyDocument = memoryview(b'')",
    "held: Buffer = array.array('b')",
    "sent: Sequences = [('docs', [given, held, {}])]",
    "bson.encode({'a': [bson.ObjectId(), bson.Binary(b'', 4), bson.Int64(5)]})",
    "bson.decode(bytearray(b''), bson.CodecOptions(tz_aware=True))",
    "mock.MockServer(timeout=5).receives('ping').replies({'ok': 1}, delay=0.5)",
]
REFUSED = [
    "Document('text')",
    "check(5)",
    "check_documents('text')",
    "walk_documents(None)",
    "is_canonical([1])",
    "documents('text')",
    "Message('text')",
    "check_message('text')",
    "check_messages(5)",
    "Reader().feed('x')",
    "Client().feed('x')",
    "Server().feed(5)",
    "Client().call('text')",
    "Client().send_unacknowledged({}, [('docs', ['text'])])",
    "Server().answer(0, ['text'])",
    "encode_message('text')",
    "encode(b'')",
    "bson.decode('text')",
    "bson.encode([])",
    "bson.ObjectId(5)",
    "bson.Binary(b'', 'x')",
    "mock.MockServer().receives('ping').replies('text')",
]


def test_what_lends_no_bytes_is_refused(tmp_path, monkeypatch):
    program = tmp_path / "program.py"
    lines = ["import array", "import mmap", "from lughemra import *", "from lughemra import bson, mock", *TAKEN, *REFUSED]
    program.write_text("\n".join(lines), encoding="utf-8")
    monkeypatch.setenv("MYPYPATH", str(ROOT / "python"))
    monkeypatch.chdir(tmp_path)
    told, _, status = api.run(["--strict", "--no-error-summary", "program.py"])
    refused = [lines[int(number) - 1] for number in re.findall(r":(\d+): error: ", told)]
    assert (status, refused) == (1, REFUSED), told
