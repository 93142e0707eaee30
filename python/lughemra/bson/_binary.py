"""Binary data with PyMongo's interface, for where PyMongo isn't installed; and the representations of a UUID."""

from __future__ import annotations

import uuid
from typing import Any

BINARY_SUBTYPE = 0
FUNCTION_SUBTYPE = 1
OLD_BINARY_SUBTYPE = 2
OLD_UUID_SUBTYPE = 3
UUID_SUBTYPE = 4
MD5_SUBTYPE = 5
COLUMN_SUBTYPE = 7
SENSITIVE_SUBTYPE = 8
USER_DEFINED_SUBTYPE = 128


class UuidRepresentation:
    """Names the orders of a UUID's bytes in binary data."""

    UNSPECIFIED = 0
    PYTHON_LEGACY = OLD_UUID_SUBTYPE
    STANDARD = UUID_SUBTYPE
    JAVA_LEGACY = 5
    CSHARP_LEGACY = 6


STANDARD = UuidRepresentation.STANDARD
PYTHON_LEGACY = UuidRepresentation.PYTHON_LEGACY
JAVA_LEGACY = UuidRepresentation.JAVA_LEGACY
CSHARP_LEGACY = UuidRepresentation.CSHARP_LEGACY
ALL_UUID_SUBTYPES = (OLD_UUID_SUBTYPE, UUID_SUBTYPE)
ALL_UUID_REPRESENTATIONS = (UuidRepresentation.UNSPECIFIED, STANDARD, PYTHON_LEGACY, JAVA_LEGACY, CSHARP_LEGACY)
UUID_REPRESENTATION_NAMES = {
    UuidRepresentation.UNSPECIFIED: "UuidRepresentation.UNSPECIFIED",
    UuidRepresentation.STANDARD: "UuidRepresentation.STANDARD",
    UuidRepresentation.PYTHON_LEGACY: "UuidRepresentation.PYTHON_LEGACY",
    UuidRepresentation.JAVA_LEGACY: "UuidRepresentation.JAVA_LEGACY",
    UuidRepresentation.CSHARP_LEGACY: "UuidRepresentation.CSHARP_LEGACY",
}


def _java(data: bytes) -> bytes:
    """Turns the bytes of a UUID into those of the Java driver's old form, or back: each half from its end."""
    return data[7::-1] + data[:7:-1]


class Binary(bytes):
    """Holds bytes and their subtype. It equals no `bytes`, and no Binary of another subtype."""

    _type_marker = 5
    _subtype: int

    def __new__(cls, data: Any, subtype: int = BINARY_SUBTYPE) -> Binary:
        """Takes bytes, or what lends them. Raises TypeError or ValueError for no subtype."""
        if not isinstance(subtype, int):
            raise TypeError(f"subtype must be an instance of int, not {type(subtype)}")
        if not 0 <= subtype < 256:
            raise ValueError("subtype must be contained in [0, 256)")
        made = bytes.__new__(cls, memoryview(data).tobytes())
        made._subtype = subtype
        return made

    @classmethod
    def from_uuid(cls, uuid: uuid.UUID, uuid_representation: int = STANDARD) -> Binary:  # noqa: A002
        """Returns the binary data of a UUID."""
        if not isinstance(uuid, globals()["uuid"].UUID):
            raise TypeError("uuid must be an instance of uuid.UUID")
        if uuid_representation not in ALL_UUID_REPRESENTATIONS:
            raise ValueError("uuid_representation must be a value from bson.binary.UuidRepresentation")
        if uuid_representation == UuidRepresentation.UNSPECIFIED:
            raise ValueError(
                "cannot encode native uuid.UUID with UuidRepresentation.UNSPECIFIED. UUIDs can be manually converted to"
                " bson.Binary instances using bson.Binary.from_uuid() or a different UuidRepresentation can be configured."
                " See the documentation for UuidRepresentation for more information."
            )
        if uuid_representation == STANDARD:
            return cls(uuid.bytes, UUID_SUBTYPE)
        forms = {PYTHON_LEGACY: uuid.bytes, JAVA_LEGACY: _java(uuid.bytes), CSHARP_LEGACY: uuid.bytes_le}
        return cls(forms[uuid_representation], OLD_UUID_SUBTYPE)

    def as_uuid(self, uuid_representation: int = STANDARD) -> uuid.UUID:
        """Returns the UUID that this is. Raises ValueError where the subtype or the representation is another one."""
        if self.subtype not in ALL_UUID_SUBTYPES:
            raise ValueError(f"cannot decode subtype {self.subtype} as a uuid")
        if uuid_representation not in ALL_UUID_REPRESENTATIONS:
            raise ValueError("uuid_representation must be a value from bson.binary.UuidRepresentation")
        if uuid_representation == UuidRepresentation.UNSPECIFIED:
            raise ValueError("uuid_representation cannot be UNSPECIFIED")
        if self.subtype == OLD_UUID_SUBTYPE and uuid_representation == PYTHON_LEGACY:
            return uuid.UUID(bytes=bytes(self))
        if self.subtype == OLD_UUID_SUBTYPE and uuid_representation == JAVA_LEGACY:
            return uuid.UUID(bytes=_java(self))
        if self.subtype == OLD_UUID_SUBTYPE and uuid_representation == CSHARP_LEGACY:
            return uuid.UUID(bytes_le=bytes(self))
        if self.subtype == UUID_SUBTYPE and uuid_representation == STANDARD:
            return uuid.UUID(bytes=bytes(self))
        raise ValueError(f"cannot decode subtype {self.subtype} to {UUID_REPRESENTATION_NAMES[uuid_representation]}")

    @property
    def subtype(self) -> int:
        """Returns the subtype."""
        return self._subtype

    def __getnewargs__(self) -> Any:
        return bytes(self), self._subtype

    def __eq__(self, other: object) -> bool:
        return isinstance(other, Binary) and (self._subtype, bytes(self)) == (other._subtype, bytes(other))

    def __ne__(self, other: object) -> bool:
        return not self == other

    def __hash__(self) -> int:
        return super().__hash__() ^ hash(self._subtype)

    def __repr__(self) -> str:
        return f"Binary({bytes(self)!r}, {self._subtype})"
