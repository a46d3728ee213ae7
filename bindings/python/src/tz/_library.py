"""The C library: its calls and its codes, as bindings/c/tz.h has them."""

import sys
from ctypes import CDLL, PyDLL, byref, c_size_t, create_string_buffer, sizeof
from itertools import count, repeat, takewhile
from pathlib import Path
from typing import Any, Optional, Set

from ._structures import ABI, CALLS, LAYOUT, LocalTimeType

NONE, FIXED, ALTERNATE = range(3)  # kinds of rules
OK, NO_TYPE, NO_CHANGE, NO_DATE_TIME, MEMORY = 0, 2, 4, 5, 255
STRING_CODES = range(80, 94)  # a TZ string is refused
CHOICES = {"compatible": 0, "earlier": 1, "later": 2, "reject": 3}


def same(one: LocalTimeType, other: LocalTimeType) -> bool:
    return all(getattr(one, name) == getattr(other, name) for name, _ in LocalTimeType._fields_)


FILE = {"win32": "tz.dll", "darwin": "libtz.dylib"}.get(sys.platform, "libtz.so")
_path = Path(__file__).with_name(FILE)
try:
    _library, _quick_library = CDLL(str(_path)), PyDLL(str(_path))
except OSError as error:
    raise ImportError(f"{error}; it is built and put there by pip install") from error


def _call(name, quick=False):
    # A quick call keeps the interpreter's lock: giving it up costs as much as the call does.
    try:
        function = getattr(_quick_library if quick else _library, name)
    except AttributeError as error:
        raise ImportError(f"{error}; {_path} is of another version") from error
    function.restype, *function.argtypes = CALLS[name]
    return function


layout, error_text_of = _call("tz_layout"), _call("tz_error_text", quick=True)
file_sizes, file_read = _call("tz_file_sizes"), _call("tz_file_read")
string_read, zone_check = _call("tz_string_read"), _call("tz_zone_check")
type_at = _call("tz_zone_type_at", quick=True)
segment_at = _call("tz_zone_segment_at", quick=True)
following = _call("tz_zone_following", quick=True)
preceding = _call("tz_zone_preceding", quick=True)
start_of_day = _call("tz_zone_start_of_day", quick=True)
find_n = _call("tz_find_n", quick=True)
column_offsets, column_instants = _call("tz_column_offsets"), _call("tz_column_instants")
column_instants_of_readings = _call("tz_column_instants_of_readings")
# Of tz_zones.h, which the library may be built without.
if hasattr(_library, "tz_built_in"):
    built_in, _built_in_name = _call("tz_built_in"), _call("tz_built_in_name")
    _built_in_version = _call("tz_built_in_version")
else:
    built_in = None


def check_layout() -> None:
    numbers = (c_size_t * (1 + len(LAYOUT)))()
    if layout(numbers, len(numbers)) != OK or list(numbers) != [ABI, *map(sizeof, LAYOUT)]:
        raise ImportError(f"{_path} is of another version: its layout is {list(numbers)}")


check_layout()


def _text(call: Any, *arguments: int) -> Optional[str]:
    """What a call writes into a buffer, if it succeeds."""
    text, length = create_string_buffer(128), c_size_t()
    if call(*arguments, text, len(text), byref(length)) != OK:
        return None
    return text.raw[: length.value].decode()


def built_in_version() -> Optional[str]:
    """The version of the tz database in the library, such as 2025b; ``None`` if it has none."""
    return None if built_in is None else _text(_built_in_version)


def built_in_names() -> Set[str]:
    """The names of the zones in the library."""
    texts = () if built_in is None else map(_text, repeat(_built_in_name), count())
    return set(takewhile(bool, texts))


def error_text(code: int) -> str:
    """What a code of the C library says.

    >>> error_text(17)
    'invalid date time: invalid month day'
    """
    text = _text(error_text_of, code)
    if text is None:
        raise ValueError(f"no code of an error: {code}")
    return text


class TzError(ValueError):
    """The C library refuses a value.

    ``code`` is the code of tz.h, and ``index`` the place in a column, if the value stands in one.
    """

    def __init__(self, code: int, what: Optional[str] = None, index: Optional[int] = None) -> None:
        self.code, self.what, self.index = code, what, index

    def __str__(self) -> str:
        where = "" if self.index is None else f"place {self.index}: "
        return ("" if self.what is None else f"{self.what}: ") + where + error_text(self.code)

    def __reduce__(self):
        return type(self), (self.code, self.what, self.index)


def check(code: int, what: Optional[str] = None) -> None:
    """Raises the error of a code."""
    if code == MEMORY:
        raise MemoryError
    if code != OK:
        raise TzError(code, what)
