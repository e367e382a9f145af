"""Judy arrays: sets and dicts of 64-bit words, and dicts from strings and byte strings to words, kept by libsellumaq,
whose every call is proved to answer as a plain finite set or map does.

    >>> squares = JudyL({n * n: n for n in range(1, 6)})
    >>> squares[16]
    4
    >>> list(squares.range(10))
    [16, 25]
    >>> ages = JudySL(Grace=85, Alan=41, Ada=36)
    >>> list(ages.range("B"))
    ['Grace']

`Judy1` is used as a set is, `JudyL` as a dict is, whose keys and values are ints from 0 to 2**64 - 1; both hold their
keys in order. `JudySL` is an ordered dict from strings to such ints: a key is any str without "\\0". `JudyHS` has no
order, and its keys are any str. `JudySLBytes` and `JudyHSBytes` are the same with bytes as keys.

`BINDING` says by what: `extension`, which has the library in it, or `ctypes`, where that wasn't built. Then the library
is found as libsellumaq.so.1, or where the environment's SELLUMAQ_LIBRARY names its file; SELLUMAQ_BINDING names the one
that is wanted. Threads may share an array: each call is whole before another begins.
"""

from ._core import BINDING, MAX, MAX_SAVED_KEY
from ._strings import JudyHS, JudyHSBytes, JudySL, JudySLBytes
from ._words import Judy1, JudyL

__all__ = ["BINDING", "MAX", "MAX_SAVED_KEY", "Judy1", "JudyHS", "JudyHSBytes", "JudyL", "JudySL", "JudySLBytes"]
__version__ = "1.0.0.dev0"
