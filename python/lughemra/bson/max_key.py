"""MaxKey, where PyMongo has it."""

from ._types import MaxKey as MaxKey
