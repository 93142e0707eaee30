"""DBRef, where PyMongo has it."""

from ._types import DBRef as DBRef
