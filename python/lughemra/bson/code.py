"""Code, where PyMongo has it."""

from ._types import Code as Code
