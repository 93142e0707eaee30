"""Compares the structures and functions with lughemra.h, and looks for the shared object in each place."""

import concurrent.futures
import ctypes
import os
import pathlib
import re
import shutil
import subprocess
import sys

import pytest
from rows import ROOT, document, element

import lughemra
from lughemra import _library, errors, whole

INCLUDE = ROOT / "crates" / "lughemra" / "include"
HEADER = (INCLUDE / "lughemra.h").read_text(encoding="utf-8")
STRUCTS = {
    "fault": _library.FaultStruct,
    "view": _library.View,
    "documents_check": _library.DocumentsCheck,
    "documents_walk": _library.DocumentsWalk,
    "message_check": _library.MessageCheck,
    "messages_check": _library.MessagesCheck,
    "message_front": _library.MessageFront,
    "message_parts": _library.MessageParts,
    "section": _library.Section,
    "iter": _library.Iter,
    "first": _library.First,
    "element": _library.Element,
    "text": _library.Text,
    "builder": _library.Builder,
    "value": _library.Numbers,
    "built": _library.Built,
    "message_numbers": _library.MessageNumbers,
    "written": _library.Written,
    "core": _library.Core,
    "call_made": _library.CallMade,
    "output": _library.Output,
    "reply": _library.Reply,
    "client": _library.ClientState,
    "fed": _library.Fed,
    "count": _library.Count,
    "server": _library.ServerState,
    "server_fed": _library.ServerFed,
    "request": _library.RequestCopied,
    "answer_given": _library.AnswerGiven,
    "checked_out": _library.CheckedOut,
    "checked_in": _library.CheckedIn,
}
# Fields that have another name here.
RENAMED = {
    "name_at": "name.offset",
    "name_length": "name.length",
    "text_at": "text.offset",
    "text_length": "text.length",
    "bytes_at": "bytes.offset",
    "bytes_length": "bytes.length",
}
PACKAGE = pathlib.Path(lughemra.__file__).parent
LOADED = {_library.VARIABLE: lughemra.LIBRARY_PATH}


def test_the_functions_are_those_that_are_exported():
    exported = re.findall(r"lughemra_(\w+)_nonnull;", (INCLUDE / "lughemra.map").read_text(encoding="utf-8"))
    assert sorted(_library.FUNCTIONS) == sorted(exported)
    for name, returned in _library.FUNCTIONS.items():
        (told,) = re.findall(rf"^(.*) lughemra_{name}_nonnull\((?:const|uint8_t|struct)", HEADER, re.M)
        wanted = {None: "void", ctypes.c_bool: "bool", ctypes.c_size_t: "size_t", ctypes.c_uint32: "uint32_t"}.get(returned)
        assert told == (wanted or f"struct lughemra_{next(key for key, it in STRUCTS.items() if it is returned)}")


@pytest.mark.skipif(shutil.which("cc") is None, reason="there is no C compiler")
def test_the_structures_are_laid_out_as_in_the_header(tmp_path):
    lines, wanted = [], []
    for name, made in STRUCTS.items():
        lines.append(f'printf("%zu\\n", sizeof(struct lughemra_{name}));')
        wanted.append(ctypes.sizeof(made))
        for field, *_ in made._fields_:
            path = RENAMED.get(field, field)
            struct = f"struct lughemra_{name}"
            lines.append(f'printf("%zu %zu\\n", offsetof({struct}, {path}), sizeof(({struct} *)0)->{path});')
            wanted += [getattr(made, field).offset, getattr(made, field).size]
    lines.append('printf("%zu\\n", offsetof(struct lughemra_element, value.timestamp.seconds));')
    wanted.append(_library.Element.seconds.offset)
    source = tmp_path / "layout.c"
    source.write_text('#include <stdio.h>\n#include "lughemra.h"\nint main(void) {\n' + "\n".join(lines) + "\nreturn 0;\n}\n")
    subprocess.run(["cc", "-I", INCLUDE, "-o", tmp_path / "layout", source], check=True)
    told = subprocess.run([tmp_path / "layout"], stdout=subprocess.PIPE, encoding="ascii", check=True).stdout
    assert [int(word) for word in told.split()] == wanted


def test_the_constants_are_those_of_the_header():
    kinds = re.findall(r"LUGHEMRA_(\w+) = 0x(\w\w)", HEADER)
    assert [("NO_ELEMENT", "00"), *((it.name, f"{it.value:02x}") for it in lughemra.Kind)] == kinds
    assert f"#define LUGHEMRA_MAX_LIMIT UINT32_C({lughemra.MAX_LIMIT})" in HEADER
    assert f"#define LUGHEMRA_NO_MEMORY {_library.NO_MEMORY}\n" in HEADER
    assert f"#define LUGHEMRA_TOO_LARGE {_library.TOO_LARGE}\n" in HEADER
    names = [re.findall(r'"(\w*)"', table) for table in re.findall(r"names\[\] = \{(.*?)\};", HEADER, re.S)]
    for table, listed in zip((errors.DOCUMENT_FAULTS, errors.MESSAGE_FAULTS), names):
        assert [table[number] for number in range(1, len(listed))] == listed[1:] and set(table) == {*range(1, len(listed)), 255}


@pytest.mark.parametrize(
    "function, raised", [("core_refusal", errors.CallRefused), ("client_cause", errors.ClientClosed), ("server_cause", errors.ServerClosed)]
)
def test_the_names_are_those_of_the_header(function, raised):
    (table,) = re.findall(rf"lughemra_{function}_name\(uint32_t number\)\n{{\n.*?= {{(.*?)}};", HEADER, re.S)
    words = dict(enumerate(re.findall(r'"(\w*)"', table)))
    assert raised.NAMES == {number: words.get(number, "NoCore") for number in raised.NAMES}
    # Those that are left out are told by other exceptions, or can't come.
    left = {"BadContent", "NoRoom", "NotReady", "InUse"} if raised is errors.CallRefused else set()
    assert {word for number, word in words.items() if word and number not in raised.NAMES} == left


def run(code, **environment):
    """Runs Python in an environment, and returns what it did."""
    words = [sys.executable, "-c", code]
    left = {name: value for name, value in os.environ.items() if name != _library.VARIABLE}
    return subprocess.run(words, env={**left, **environment}, capture_output=True, encoding="utf-8", check=False)


def test_the_variable_names_the_shared_object(tmp_path):
    found = pathlib.Path(lughemra.LIBRARY_PATH).resolve()
    ran = run("import lughemra; print(lughemra.LIBRARY_PATH)", LUGHEMRA_LIBRARY=str(found))
    assert (ran.returncode, ran.stdout) == (0, f"{found}\n")
    ran = run("import lughemra", LUGHEMRA_LIBRARY=str(tmp_path / "none.so"))
    assert ran.returncode == 1 and "LibraryNotFound: the shared object of lughemra can't be loaded" in ran.stderr
    assert str(tmp_path / "none.so") in ran.stderr and "build-c-library --prefix" in ran.stderr


def test_the_shared_object_may_stand_beside_the_module_or_where_the_loader_looks(tmp_path):
    found = pathlib.Path(lughemra.LIBRARY_PATH).resolve()
    ran = run("import lughemra; print(lughemra.LIBRARY_PATH)", LD_LIBRARY_PATH=str(found.parent))
    assert ran.returncode == 0 and (ran.stdout == "liblughemra.so.0\n" or (PACKAGE / _library.SONAME).exists())
    shutil.copytree(PACKAGE, tmp_path / "lughemra")
    shutil.copy(found, tmp_path / "lughemra" / _library.SONAME)
    ran = run("import lughemra; print(lughemra.LIBRARY_PATH)", PYTHONPATH=str(tmp_path))
    assert (ran.returncode, ran.stdout) == (0, f"{tmp_path}/lughemra/{_library.SONAME}\n")


def test_another_shared_object_is_refused():
    ran = run("import lughemra", LUGHEMRA_LIBRARY="libc.so.6")
    assert ran.returncode == 1 and "LibraryNotFound" in ran.stderr and "lughemra_check_document_nonnull" in ran.stderr


def test_other_modules_have_the_functions_of_python_as_they_were():
    told = "[(it.argtypes, it.restype is ctypes.c_int) for it in (api.PyObject_GetBuffer, api.PyBuffer_Release)]"
    ran = run(f"import ctypes, lughemra; api = ctypes.pythonapi; print({told})", **LOADED)
    assert (ran.returncode, ran.stdout) == (0, "[(None, True), (None, True)]\n")


def test_only_bytes_that_no_one_writes_to_are_read_without_the_lock():
    assert _library.functions_for(_library.lent(b"bytes")[0]) is _library.long
    for data in (bytearray(b"bytes"), memoryview(b"bytes"), memoryview(bytearray(b"bytes"))):
        assert _library.functions_for(_library.lent(data)[0]) is _library.short


def test_a_text_without_memory_is_a_memory_error(monkeypatch):
    refused = _library.Text(_library.FaultStruct(_library.NO_MEMORY, 0), 0, False)
    monkeypatch.setattr(_library.long, "json", lambda *arguments: refused)
    monkeypatch.setattr(_library.long, "pickle", lambda *arguments: refused)
    monkeypatch.setattr(whole, "READER", None)
    read = lughemra.Document(document())
    for call in (read.json, read.to_dict):
        with pytest.raises(MemoryError):
            call()


def test_threads_read_one_document():
    names = [f"field{k}" for k in range(40)]
    data = document(*(element(0x10, name, k.to_bytes(4, "little")) for k, name in enumerate(names)))
    read, wrong = lughemra.Document(data), []

    def look():
        for _ in range(50):
            wrong.extend(k for k, name in enumerate(names) if read[name] != k)
            wrong.extend(name for name, value in read.items() if read[name] != value)

    interval = sys.getswitchinterval()
    sys.setswitchinterval(1e-6)
    try:
        with concurrent.futures.ThreadPoolExecutor(4) as pool:
            for ended in [pool.submit(look) for _ in range(4)]:
                ended.result()
    finally:
        sys.setswitchinterval(interval)
    assert not wrong
