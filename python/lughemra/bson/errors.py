"""The exceptions, where PyMongo has them."""

from ._types import BSONError as BSONError
from ._types import InvalidBSON as InvalidBSON
from ._types import InvalidDocument as InvalidDocument
from ._types import InvalidId as InvalidId
from ._types import InvalidStringData as InvalidStringData
