"""ObjectId, where PyMongo has it."""

from ._types import ObjectId as ObjectId
