"""Columns as programs have them: lists, integers of any width, `datetime64`, Series, Index.

numpy and pandas are found by what the caller passes, and never imported.
"""

import sys
from array import array
from ctypes import byref
from typing import Any, Callable, NamedTuple, Optional

from . import _columns, _library
from ._library import OK, TzError, check
from ._structures import LocalTime, Zone

_TICKS = {
    "s": 1,
    "ms": 10**3,
    "us": 10**6,
    "ns": 10**9,
}  # of the units of datetime64, in a second
_NAT, _GREATEST = -(1 << 63), (1 << 63) - 1
_INTEGER_CODES = "bBhHiIlLqQ"
_OUT_OF_RANGE = 1
# How many values are converted at a time: what is computed of them stays in a processor's cache.
# An array of twice as many has 128 KiB, for which glibc asks the system for memory each time.
_AT_A_TIME = 1 << 13

# Writes answers of some seconds, which are those of the values, and the codes of what is refused.
_Fill = Callable[[Any, Any, Any, Any], None]


class _Times(NamedTuple):
    """A column of datetime64."""

    dtype: Any
    ticks: int  # in a second
    values: Any  # as int64, contiguous
    as_given: Callable[[Any], Any]


def _array(name: str, values: Any, dtype: Optional[str]) -> Any:
    """The array of numpy that a column is or has, there with a type if one is given."""
    if isinstance(values, sys.modules["numpy"].ndarray):
        return values
    if not hasattr(values, "to_numpy"):
        raise TypeError(f"{name} is no column, but of the class {type(values).__name__}")
    return values.to_numpy(dtype)


def _is_series(values: Any) -> bool:
    return hasattr(values, "to_numpy") and hasattr(values, "name")


def _like(values: Any) -> Callable[[Any], Any]:
    """Makes an answer what the values are: a Series with their index, an Index, or an array."""
    if not _is_series(values):
        return lambda answer: answer
    pandas, asarray = sys.modules["pandas"], sys.modules["numpy"].asarray
    if hasattr(values, "index"):
        return lambda answer: pandas.Series(asarray(answer), index=values.index, name=values.name)
    return lambda answer: pandas.Index(asarray(answer), name=values.name)


def _times(name: str, values: Any, *, may_have_zone: bool) -> Optional[_Times]:
    """A column as datetime64, or `None` if it is none."""
    dtype = getattr(values, "dtype", None)
    if getattr(dtype, "kind", None) != "M":
        return None
    numpy, has_zone = sys.modules["numpy"], getattr(dtype, "tz", None) is not None
    if has_zone and not may_have_zone:
        raise TypeError(f"{name} has the type {dtype}: a local time has no time zone")
    # Of times with a zone numpy gets the instants, in UTC.
    data = _array(name, values, f"datetime64[{dtype.unit}]" if has_zone else None)
    unit, step = numpy.datetime_data(data.dtype) if data.dtype.kind == "M" else (None, 1)
    if unit not in _TICKS or step != 1:
        raise TypeError(f"{name} has the type {dtype}, not datetime64 in s, ms, us or ns")
    if data.ndim != 1:
        raise ValueError(f"{name} is no column of one dimension")
    dtype = numpy.dtype(f"datetime64[{unit}]")
    whole = numpy.require(data, dtype, ["C", "A"]).view("int64")
    return _Times(dtype, _TICKS[unit], whole, _like(values))


def _integers(name: str, values: Any) -> Any:
    """A column of integers as a buffer, of 64 bits if they have another width."""
    if isinstance(values, array) and values.typecode == "q":
        return values
    if isinstance(values, (list, tuple, range, array)):
        if isinstance(values, array) and values.typecode not in _INTEGER_CODES:
            raise TypeError(f"{name} has the type code {values.typecode!r}, not that of integers")
        try:
            return array("q", values)
        except TypeError as error:
            raise TypeError(f"{name} has an item that is no integer: {error}") from None
        except OverflowError:
            raise OverflowError(f"{name} has an item that is no 64-bit integer") from None
    dtype = getattr(values, "dtype", None)
    kind = getattr(dtype, "kind", None)
    if kind is None:
        return values
    numpy = sys.modules["numpy"]
    if dtype == numpy.dtype(LocalTime):
        return values
    if kind not in "iu":
        raise TypeError(f"{name} has the type {dtype}, neither integers nor datetime64")
    data = _array(name, values, f"{kind}{dtype.itemsize}")
    if kind == "u" and dtype.itemsize == 8 and data.size and int(data.max()) > _GREATEST:
        raise OverflowError(f"{name} has the type {dtype}, and an item that is no 64-bit integer")
    return numpy.require(data, "int64", ["C", "A"])


def offsets(zone: Zone, instants: Any, out: Any, codes: Any) -> Any:
    """What `ZoneInfo.offsets` does."""
    given = _times("instants", instants, may_have_zone=True)
    if given is None:
        answer = _columns.offsets(zone, _integers("instants", instants), out, codes)
        return _like(instants)(answer) if out is None else answer

    def fill(seconds: Any, _values: Any, codes: Any, answer: Any) -> None:
        answer[:] = _offsets(zone, seconds, codes)

    return _answers(given, "timedelta64[s]", out, codes, fill)


def local_times(zone: Zone, instants: Any, out: Any, codes: Any) -> Any:
    """What `ZoneInfo.local_times` does."""
    given = _times("instants", instants, may_have_zone=True)
    if given is None:
        found = getattr(instants, "dtype", type(instants).__name__)
        raise TypeError(f"instants has the type {found}, not datetime64; to integers add `offsets`")

    def fill(seconds: Any, values: Any, codes: Any, answer: Any) -> None:
        _shift(values, _offsets(zone, seconds, codes), given.ticks, codes, answer)

    return _answers(given, given.dtype, out, codes, fill)


def instants(zone: Zone, local_times: Any, choice: int, out: Any, codes: Any) -> Any:
    """What `ZoneInfo.instants` does."""
    given = _times("local_times", local_times, may_have_zone=False)
    if given is None:
        column = _integers("local_times", local_times)
        answer = _columns.instants(zone, column, choice, out, codes)
        return _like(local_times)(answer) if out is None else answer

    def fill(seconds: Any, values: Any, codes: Any, answer: Any) -> None:
        found = seconds.copy()  # Places that are refused stay as they are.
        read, answers = _pairs(seconds), _pairs(found, codes)
        check(_library.column_instants_of_readings(*read, choice, byref(zone), *answers))
        _shift(values, found - seconds, given.ticks, codes, answer)

    return _answers(given, given.dtype, out, codes, fill)


def _pairs(*arrays: Any) -> Any:
    """The addresses and lengths of contiguous arrays."""
    for array_ in arrays:
        yield from (array_.__array_interface__["data"][0], len(array_))


def _offsets(zone: Zone, seconds: Any, codes: Any) -> Any:
    found = sys.modules["numpy"].zeros(len(seconds), "int32")
    read, answers = _pairs(seconds), _pairs(found, codes)
    check(_library.column_offsets(*read, byref(zone), *answers))
    return found


def _answers(given: _Times, dtype: Any, out: Any, codes: Any, fill: _Fill) -> Any:
    """The answers to a column of datetime64, as a new column or in `out`."""
    numpy, values, length = sys.modules["numpy"], given.values, len(given.values)
    answers = numpy.empty(length, dtype) if out is None else _writable(out, dtype, values)
    if codes is not None:
        codes = _columns.codes_of(codes, length)
        if any(numpy.may_share_memory(codes, column) for column in (values, answers)):
            raise ValueError("codes overlap another column")
    answered = answers.view("int64")
    for start in range(0, length, _AT_A_TIME):
        here = slice(start, start + _AT_A_TIME)
        part, to = values[here], answered[here]
        is_nat = part == _NAT
        seconds = part if given.ticks == 1 else part // given.ticks
        refused = numpy.empty(len(part), "uint32") if codes is None else codes[here]
        fill(seconds, part, refused, to)
        if is_nat.any():
            to[is_nat], refused[is_nat] = _NAT, OK
        if refused.any():
            places = refused.nonzero()[0]
            if codes is None:
                raise TzError(int(refused[places[0]]), str(given.dtype), start + int(places[0]))
            to[places] = _NAT
    return given.as_given(answers) if out is None else out


def _writable(out: Any, dtype: Any, values: Any) -> Any:
    numpy = sys.modules["numpy"]
    if not isinstance(out, numpy.ndarray):
        raise TypeError(f"out is no array of numpy, but of the class {type(out).__name__}")
    if out.dtype != dtype:
        raise TypeError(f"out has the type {out.dtype}, not {numpy.dtype(dtype)}")
    if out.shape != values.shape:
        raise ValueError(f"out has the shape {out.shape}, not {values.shape}")
    if not out.flags.writeable:
        raise ValueError("out is read-only")
    if numpy.may_share_memory(out, values):
        raise ValueError("out overlaps what is read")
    return out


def _shift(values: Any, seconds: Any, ticks: int, codes: Any, answers: Any) -> None:
    """Adds seconds to values, and refuses what no datetime64 holds."""
    numpy = sys.modules["numpy"]
    delta = numpy.multiply(seconds, ticks, dtype="int64")
    numpy.add(values, delta, out=answers)
    wrapped = ((answers ^ values) & (answers ^ delta)) < 0
    wrapped |= answers == _NAT
    if wrapped.any():
        codes[wrapped] = _OUT_OF_RANGE
