"""Whole columns in one call each, over the buffers of the caller."""

import re
import sys
from array import array
from ctypes import addressof, byref, c_char
from itertools import combinations
from typing import Any, Optional

from . import _library
from ._library import OK, TzError, check
from ._structures import LocalTime, Zone

_ORDER = "[@=<]?" if sys.byteorder == "little" else "[@=>!]?"
# The fields of a LocalTime as numpy and ctypes describe them. Some ctypes leave out the padding
# before the last one; after `=` numpy has none there.
_BYTES_OF_A_TIME = "month", "month_day", "hour", "minute", "second"
_BYTE_FIELDS = "".join(rf"{_ORDER}B:{name}:" for name in _BYTES_OF_A_TIME)
_FIELDS = rf"T{{{_ORDER}[il]:year:{_BYTE_FIELDS}((3x|xxx){_ORDER}|(?!=){_ORDER})[IL]:nanoseconds:}}"
_INT64, _INT32 = "64-bit signed integers", "32-bit signed integers"
_UINT32 = "32-bit unsigned integers"
# What columns hold: its formats, its size and its alignment.
_KINDS = {
    _INT64: (re.compile(_ORDER + "[qln]"), 8, 8),
    _INT32: (re.compile(_ORDER + "[il]"), 4, 4),
    _UINT32: (re.compile(_ORDER + "[IL]"), 4, 4),
    LocalTime.__name__: (re.compile(_FIELDS), 16, 4),
}
_ALL_OK = bytes(1 << 14)  # codes


class _Column:
    """The memory of a buffer, which is held, so that it stays where it is."""

    def __init__(self, name: str, data: Any, *kinds: str, length: Optional[int] = None) -> None:
        """A column to read, or with a length one to write, which must have it."""
        view = memoryview(data)
        self.kind = next((kind for kind in kinds if _is_of(view, kind)), None)
        if self.kind is None:
            raise TypeError(f"{name} has the format {view.format!r}, not {' or '.join(kinds)}")
        if view.ndim != 1 or not view.c_contiguous:
            raise ValueError(f"{name} is no contiguous column of one dimension")
        self.name, self.length, self.bytes = name, len(view), view.nbytes
        if length is not None and self.length != length:
            raise ValueError(f"{name} has the length {self.length}, not {length}")
        if length is not None and view.readonly:
            raise ValueError(f"{name} is read-only")
        if view.readonly:
            view = memoryview(bytearray(view.tobytes()))
        self._held = c_char.from_buffer(view) if self.length else None
        self.address = addressof(self._held) if self.length else None
        if self.length and self.address % _KINDS[self.kind][2]:
            raise ValueError(f"{name} is not aligned")


def _is_of(view: memoryview, kind: str) -> bool:
    pattern, size, _ = _KINDS[kind]
    # In Python 3.9 the items of an empty array of ctypes have the size 0.
    has_size = view.itemsize == size or view.nbytes == 0
    return has_size and pattern.fullmatch(view.format) is not None


def codes_of(codes: Any, length: int) -> Any:
    """Codes to write as an array of numpy."""
    _Column("codes", codes, _UINT32, length=length)
    return sys.modules["numpy"].frombuffer(codes if length else b"", "uint32")


def _new(typecode: str, length: int) -> "array[int]":
    return array(typecode, [0]) * length


def _refuse_overlap(*columns: _Column) -> None:
    for one, other in combinations((column for column in columns if column.length), 2):
        if one.address < other.address + other.bytes and other.address < one.address + one.bytes:
            raise ValueError(f"{one.name} and {other.name} overlap")


def _raise_first(codes: "array[int]") -> None:
    """Raises the error of the first code that is not TZ_OK.

    It compares a part at a time: a copy of a whole column costs more than its answers do, by the
    memory that the system clears for it.
    """
    view, step = memoryview(codes), len(_ALL_OK) // codes.itemsize
    for start in range(0, len(codes), step):
        part = view[start : start + step]
        if not _ALL_OK.startswith(part.tobytes()):
            index, code = next(pair for pair in enumerate(part, start) if pair[1] != OK)
            raise TzError(code, index=index)


def offsets(zone: Zone, instants: Any, out: Any, codes: Any) -> Any:
    """What `ZoneInfo.offsets` does."""
    read = _Column("instants", instants, _INT64)
    length = read.length
    out = _new("i", length) if out is None else out
    own = _new("I", length) if codes is None else codes
    written = _Column("out", out, _INT32, length=length)
    answers = _Column("codes", own, _UINT32, length=length)
    _refuse_overlap(read, written, answers)
    columns = written.address, length, answers.address, length
    check(_library.column_offsets(read.address, length, byref(zone), *columns))
    if codes is None:
        _raise_first(own)
    return out


def instants(zone: Zone, local_times: Any, choice: int, out: Any, codes: Any) -> Any:
    """What `ZoneInfo.instants` does."""
    read = _Column("local_times", local_times, _INT64, LocalTime.__name__)
    length = read.length
    out = _new("q", length) if out is None else out
    own = _new("I", length) if codes is None else codes
    written = _Column("out", out, _INT64, length=length)
    answers = _Column("codes", own, _UINT32, length=length)
    _refuse_overlap(read, written, answers)
    is_of_seconds = read.kind == _INT64
    call = _library.column_instants_of_readings if is_of_seconds else _library.column_instants
    columns = written.address, length, answers.address, length
    check(call(read.address, length, choice, byref(zone), *columns))
    if codes is None:
        _raise_first(own)
    return out
