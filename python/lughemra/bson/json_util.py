"""MongoDB Extended JSON v2 with the names of PyMongo's `json_util`: the library writes it, and Python's `json` lays it out.

`loads` is there by its name alone: the C library of this version reads no Extended JSON.
"""

from __future__ import annotations

import json
from typing import Any, NoReturn, Optional

from ..document import Document
from . import encode
from ._types import Int64
from .binary import UuidRepresentation
from .codec_options import CodecOptions


class JSONMode:
    """Names the forms of Extended JSON."""

    LEGACY = 0
    RELAXED = 1
    CANONICAL = 2


class JSONOptions(CodecOptions):
    """Holds how values are written: `json_mode`, and of CodecOptions `uuid_representation`. The legacy form is refused."""

    json_mode: int

    def __new__(cls, *args: Any, json_mode: Optional[int] = None, **kwargs: Any) -> JSONOptions:
        mode = JSONMode.RELAXED if json_mode is None else json_mode
        for name in ("strict_number_long", "datetime_representation", "strict_uuid"):
            if kwargs.pop(name, None) is not None:
                raise NotImplementedError(f"{name} isn't supported: a form has its own")
        if mode not in (JSONMode.RELAXED, JSONMode.CANONICAL):
            raise NotImplementedError("Extended JSON is written in its relaxed or its canonical form, and in no older one")
        kwargs.setdefault("uuid_representation", UuidRepresentation.UNSPECIFIED)
        made = super().__new__(cls, *args, **kwargs)
        assert isinstance(made, JSONOptions)
        made.json_mode = mode
        return made

    def with_options(self, **kwargs: Any) -> JSONOptions:
        """Returns a copy with other values of these options."""
        return JSONOptions(**{"json_mode": self.json_mode, **self._asdict(), **kwargs})

    def __repr__(self) -> str:
        return f"JSONOptions(json_mode={self.json_mode}, {self._arguments_repr()})"


RELAXED_JSON_OPTIONS = JSONOptions(json_mode=JSONMode.RELAXED)
CANONICAL_JSON_OPTIONS = JSONOptions(json_mode=JSONMode.CANONICAL)
DEFAULT_JSON_OPTIONS = RELAXED_JSON_OPTIONS


def _tree(obj: Any, options: JSONOptions) -> Any:
    """Returns what `json.dumps` writes of a value: a document is written by the library, and read by `json`."""
    plain = CodecOptions(uuid_representation=options.uuid_representation)
    text = Document(encode({"": obj}, codec_options=plain)).json(relaxed=options.json_mode == JSONMode.RELAXED)
    return json.loads(text)[""]


def dumps(obj: Any, *args: Any, **kwargs: Any) -> str:
    """Returns the Extended JSON of a value. What else is given is that of `json.dumps`."""
    options = kwargs.pop("json_options", DEFAULT_JSON_OPTIONS)
    return json.dumps(_tree(obj, options), *args, **kwargs)


def default(obj: Any, json_options: JSONOptions = DEFAULT_JSON_OPTIONS) -> Any:
    """Returns what stands for a value of BSON, as `default` of `json.dumps`."""
    if isinstance(obj, Int64) and json_options.json_mode == JSONMode.RELAXED:
        return int(obj)
    return _tree(obj, json_options)


def loads(s: Any, *args: Any, **kwargs: Any) -> NoReturn:
    """Is refused: there is no function of the library for it."""
    raise NotImplementedError("the C library has no lughemra_from_json: `bsonwire bson FILE` reads Extended JSON")
