"""MinKey, where PyMongo has it."""

from ._types import MinKey as MinKey
