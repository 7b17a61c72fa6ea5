"""Converts the objects that callers pass as bytes."""

from __future__ import annotations

import operator
from collections.abc import Iterable
from typing import TYPE_CHECKING, SupportsBytes

if TYPE_CHECKING:
    from _typeshed import ReadableBuffer

    HasBytes = ReadableBuffer | SupportsBytes | Iterable[int]


def shown_number(number: int) -> str:
    """Formats a number for a message. Python itself refuses to print more than 4,300 digits.

    >>> shown_number(4096), shown_number(-1 << 16_000)
    ('4096', 'of 16,001 bits')
    """
    return str(number) if number.bit_length() <= 128 else f"of {number.bit_length():,} bits"


def text_bytes(text: str) -> bytes:
    """Encodes a string as UTF-8. Raises TypeError for anything else.

    >>> text_bytes("size 128")
    b'size 128'
    """
    return str.encode(text)


def bytes_of(data: HasBytes) -> bytes:
    """Returns the bytes of a bytes-like object, an array of any item size, an object with `__bytes__`, or an iterable
    of numbers up to 255. Raises TypeError for a single number, which `bytes` would turn into that many zeros.

    >>> import array
    >>> len(bytes_of(array.array("Q", [1, 2])))
    16
    """
    if type(data) is bytes:
        return data
    try:
        return memoryview(data).tobytes()  # type: ignore[arg-type]
    except TypeError:
        if hasattr(data, "__index__"):
            shown = shown_number(operator.index(data))  # type: ignore[arg-type]
            raise TypeError(f"{type(data).__name__} {shown} is a number; expected bytes") from None
    return memoryview(bytes(data)).tobytes()  # `__bytes__` may return a subclass of bytes with a different length
