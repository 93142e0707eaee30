"""The exceptions of PyMongo's `bson.errors`, for where PyMongo isn't installed."""


class BSONError(Exception):
    """Is what all of these are."""


class InvalidBSON(BSONError):
    """Tells that bytes aren't a document."""


class InvalidStringData(BSONError):
    """Tells that a text can't be written."""


class InvalidDocument(BSONError):
    """Tells that a mapping can't be written."""


class InvalidId(BSONError):
    """Tells that no ObjectId can be made of a value."""
