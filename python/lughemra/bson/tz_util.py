"""Time zones, where PyMongo has them."""

from ._types import FixedOffset as FixedOffset
from ._types import utc as utc
