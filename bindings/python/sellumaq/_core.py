"""Which types the arrays stand on: those of the extension, or, where it wasn't built or SELLUMAQ_BINDING is `ctypes`,
those of the fallback."""

import os
from typing import TYPE_CHECKING

BINDING = os.environ.get("SELLUMAQ_BINDING", "")
if BINDING not in ("", "extension", "ctypes"):
    raise ImportError(f"SELLUMAQ_BINDING is neither `extension` nor `ctypes`: {BINDING}")

if TYPE_CHECKING:
    from ._native import BytesHash, BytesMap, TextHash, TextMap, WordMap, WordSet
elif BINDING == "ctypes":
    from ._fallback import BytesHash, BytesMap, TextHash, TextMap, WordMap, WordSet
else:
    try:
        from ._native import BytesHash, BytesMap, TextHash, TextMap, WordMap, WordSet

        BINDING = "extension"
    except ImportError:
        if BINDING == "extension":
            raise
        from ._fallback import BytesHash, BytesMap, TextHash, TextMap, WordMap, WordSet

        BINDING = "ctypes"

__all__ = ["BINDING", "BytesHash", "BytesMap", "TextHash", "TextMap", "WordMap", "WordSet"]

MAX = 2**64 - 1
# The most bytes of a key that a dump can say.
MAX_SAVED_KEY = 1024

# Whose keys an operation on two sets keeps: the first set's alone, those of both, the second's alone.
FIRST, BOTH, SECOND = 1, 2, 4

# What a cursor gives of a key.
KEYS, VALUES, ITEMS = range(3)
