"""What is lent to the library: arrays of its own types, from lists or from whatever holds such numbers already."""
import ctypes
import operator
from typing import Any, Sequence, Union

Numbers = Union[Sequence[int], Any]
"""Whole numbers: a list, or anything with a one-dimensional buffer of the right type, such as a numpy array."""

_CODES = {ctypes.c_uint8: "B", ctypes.c_int32: "i", ctypes.c_uint32: "I", ctypes.c_uint64: "QL"}


def _held(given: Any, kind: Any) -> Any:
    """The buffer of what is given, where it holds numbers of this type one behind the other and may be written; else nothing."""
    try:
        view = memoryview(given)
    except TypeError:
        return None
    fits = view.ndim == 1 and view.c_contiguous and not view.readonly and view.itemsize == ctypes.sizeof(kind) and view.format in _CODES[kind]
    return (kind * len(view)).from_buffer(view) if fits else None


def array(given: Numbers, kind: Any) -> Any:
    """An array of these numbers: their own memory where it fits, else a copy. What is no whole number is a TypeError, and one that the type
    cannot hold an OverflowError."""
    held = _held(given, kind)
    if held is not None:
        return held
    numbers = [operator.index(number) for number in given]
    bits = 8 * ctypes.sizeof(kind)
    low, high = (-(1 << bits - 1), (1 << bits - 1) - 1) if kind is ctypes.c_int32 else (0, (1 << bits) - 1)
    for place, number in enumerate(numbers):
        if not low <= number <= high:
            raise OverflowError(f"number {place} is {number}; write one from {low} to {high}")
    return (kind * len(numbers))(*numbers)


def word(given: int) -> int:
    """A number that a u32 holds; ctypes by itself would drop its high bits."""
    given = operator.index(given)
    if not 0 <= given < 1 << 32:
        raise OverflowError(f"{given} is no number from 0 to {(1 << 32) - 1}")
    return given


def octet(given: int) -> int:
    """A number as a byte; one that no byte holds becomes the largest, which is refused as any other wrong one."""
    given = operator.index(given)
    return given if 0 <= given < 256 else 255


def text_of(given: Union[str, bytes, bytearray]) -> Any:
    """An array of letters; one outside ASCII is told, since it would count as several."""
    text = given.encode("ascii") if isinstance(given, str) else bytes(given)
    return (ctypes.c_uint8 * len(text)).from_buffer_copy(text)
