"""Binary and what belongs to it, where PyMongo has it."""

from ._binary import ALL_UUID_REPRESENTATIONS as ALL_UUID_REPRESENTATIONS
from ._binary import ALL_UUID_SUBTYPES as ALL_UUID_SUBTYPES
from ._binary import BINARY_SUBTYPE as BINARY_SUBTYPE
from ._binary import COLUMN_SUBTYPE as COLUMN_SUBTYPE
from ._binary import CSHARP_LEGACY as CSHARP_LEGACY
from ._binary import FUNCTION_SUBTYPE as FUNCTION_SUBTYPE
from ._binary import JAVA_LEGACY as JAVA_LEGACY
from ._binary import MD5_SUBTYPE as MD5_SUBTYPE
from ._binary import OLD_BINARY_SUBTYPE as OLD_BINARY_SUBTYPE
from ._binary import OLD_UUID_SUBTYPE as OLD_UUID_SUBTYPE
from ._binary import PYTHON_LEGACY as PYTHON_LEGACY
from ._binary import SENSITIVE_SUBTYPE as SENSITIVE_SUBTYPE
from ._binary import STANDARD as STANDARD
from ._binary import USER_DEFINED_SUBTYPE as USER_DEFINED_SUBTYPE
from ._binary import UUID_REPRESENTATION_NAMES as UUID_REPRESENTATION_NAMES
from ._binary import UUID_SUBTYPE as UUID_SUBTYPE
from ._binary import UuidRepresentation as UuidRepresentation
from ._types import Binary as Binary
