"""Has `typing.get_type_hints` read the annotations of what the module exports, as frameworks do."""

import array
import inspect
import mmap
import typing

import pytest

import lughemra


def methods_of(name, made):
    """Gives the functions of a class that the module has, those of its properties among them, each by its name."""
    for inner, it in inspect.getmembers_static(made):
        wrapped = getattr(it, "fget", None) or getattr(it, "func", None)
        function = wrapped or getattr(it, "__func__", it)
        if inspect.isfunction(function) and (function.__module__ or "").startswith("lughemra"):
            yield f"{name}.{inner}", function


EXPORTED = {name: getattr(lughemra, name) for name in lughemra.__all__}
CLASSES = {name: it for name, it in EXPORTED.items() if inspect.isclass(it)}
FUNCTIONS = {name: it for name, it in EXPORTED.items() if inspect.isfunction(it)}
METHODS = {inner: it for name, made in CLASSES.items() for inner, it in methods_of(name, made)}
ANNOTATED = {**CLASSES, **FUNCTIONS, **METHODS}


@pytest.mark.parametrize("name", ANNOTATED)
def test_the_types_are_found(name):
    typing.get_type_hints(ANNOTATED[name])


def test_some_types_are_those_that_are_written():
    scope = typing.Union[lughemra.Document, dict[str, typing.Any], None]
    assert typing.get_type_hints(lughemra.Code) == {"text": str, "scope": scope}
    assert typing.get_type_hints(lughemra.check) == {"data": lughemra.Buffer, "return": type(None)}
    held = {bytes, bytearray, memoryview, array.array, mmap.mmap}
    assert set(typing.get_args(lughemra.Buffer)) == held
    assert {"Code", "check", "Server.feed", "Client.closed", "Message.body"} <= set(ANNOTATED)
