"""Time zones as `datetime` takes them."""

import io
import os
import pickle
import re
import struct
import threading
import weakref
import zoneinfo
from collections import OrderedDict
from ctypes import addressof, byref, c_int64, c_size_t, c_void_p, cast
from datetime import date, datetime, timedelta
from importlib import resources
from typing import TYPE_CHECKING, Any, BinaryIO, ClassVar, Dict, Iterable, List, Literal, Optional
from typing import Tuple
from zoneinfo import ZoneInfoNotFoundError

from . import _arrays, _library, _structures
from ._library import check

try:
    from . import _single
except ImportError:  # It is compiled where a compiler for C is.
    _single = None

if TYPE_CHECKING:
    from typing_extensions import Self

Choice = Literal["compatible", "earlier", "later", "reject"]

_EPOCH_DAY = datetime(1970, 1, 1).toordinal()
_LEAST_INSTANT = -(1 << 63)
_LAST_INSTANT = (datetime.max - datetime(1970, 1, 1)) // timedelta(seconds=1)
_PART = re.compile(r"[0-9A-Za-z._+-]+", re.ASCII)
# How many zones are kept although nobody holds them, as `zoneinfo` keeps them.
_MOST_RECENT = 8
# A zone keeps spans by the 2^22 seconds, some 48 days, in which they were asked for.
_SPAN_BITS, _MOST_SPANS = 22, 1024
# For `dst`, in seconds: double summer time, the most in the tz database, and the usual amount.
_MOST_SAVING, _USUAL_SAVING = 7200, 3600
# How many changes away a standard time is looked for: wartime London had eleven without one.
_MOST_CHANGES = 16
# The least TZif file, of which `zoneinfo.ZoneInfo` makes an object. Nothing here reads it again.
_LEAST_FILE = b"TZif" + bytes(16) + struct.pack(">6l", 0, 0, 0, 0, 1, 1) + bytes(7)


class _Span:
    """A span of instants in which a clock has one type."""

    __slots__ = ("first", "last", "kind", "offset", "name", "saving")

    def __init__(self, segment: _structures.Segment) -> None:
        self.first, self.last = segment.first, segment.last
        self.kind = kind = _structures.LocalTimeType.from_buffer_copy(segment.local_time_type)
        self.offset = timedelta(seconds=kind.ut_offset)
        self.name = kind.designation.decode() if kind.designation_length else None
        self.saving: Optional[timedelta] = None


class ZoneInfo(zoneinfo.ZoneInfo):
    """A time zone of the tz database, by its name, as `zoneinfo.ZoneInfo` is one.

    >>> from datetime import datetime
    >>> paris = ZoneInfo("Europe/Paris")
    >>> datetime(2000, 7, 1, 12, tzinfo=paris).isoformat()
    '2000-07-01T12:00:00+02:00'

    The file is looked for in the directories of `zoneinfo.TZPATH`, then in the package ``tzdata``
    if it is installed. If there is none the zone is that of the library's own database. One name
    gives one object as long as that is alive: zones are equal only to themselves, and `datetime`
    takes two objects for two zones.

    A local time in a fold, where clocks go back, means the first of its instants with ``fold=0``,
    and the last with ``fold=1``. One in a gap, where they go forward, has the offset from before
    the gap with ``fold=0``, and that from after it with ``fold=1`` (PEP 495).

    Raises `ZoneInfoNotFoundError` if no zone has the name, `ValueError` if the name is a path or
    the file is refused, and `OSError` if it cannot be read.
    """

    __slots__ = (
        "_key", "_from_cache", "_is_built_in", "_text", "_source", "_zone", "_held", "_spans",
        "_always", "_least", "_greatest", "_kept",
    )  # fmt: skip

    _lock: ClassVar[Any] = threading.RLock()
    _alive: ClassVar[Any] = weakref.WeakValueDictionary()
    _recent: ClassVar[Any] = OrderedDict()

    def __init_subclass__(cls, **options: Any) -> None:
        super().__init_subclass__(**options)
        cls._alive, cls._recent = weakref.WeakValueDictionary(), OrderedDict()

    def __new__(cls, key: str) -> "Self":
        with cls._lock:
            zone = cls._alive.get(key)
        if zone is None:
            zone = cls._named(key, from_cache=True)
        with cls._lock:
            zone = cls._alive.setdefault(key, zone)
            cls._recent[key] = cls._recent.pop(key, zone)
            if len(cls._recent) > _MOST_RECENT:
                cls._recent.popitem(last=False)
        return zone

    @classmethod
    def no_cache(cls, key: str) -> "Self":
        """A new object of the zone with a name."""
        return cls._named(key, from_cache=False)

    @classmethod
    def clear_cache(cls, *, only_keys: Optional[Iterable[str]] = None) -> None:
        """Forgets the objects of all names, or of these: the next one is read from its file."""
        with cls._lock:
            for key in list(cls._alive.keys()) if only_keys is None else only_keys:
                cls._alive.pop(key, None)
                cls._recent.pop(key, None)

    @classmethod
    def from_file(cls, fobj: BinaryIO, /, key: Optional[str] = None) -> "Self":
        """The zone of a TZif file (RFC 8536, versions 1 to 4), which is read to its end.

        Raises `ValueError` if it is refused.
        """
        return cls._of_file(fobj.read(), key, False, repr(fobj))

    @classmethod
    def built_in(cls, key: str, /) -> "Self":
        """A new object of the zone that the library's own database has by a name.

        No file is looked for, so it is the same on all machines: as `built_in_version` has it.

        >>> ZoneInfo.built_in("Europe/Paris")
        ZoneInfo.built_in('Europe/Paris')

        Raises `ZoneInfoNotFoundError` if no zone has the name.
        """
        if not isinstance(key, str):
            raise TypeError(f"a name of a zone is a str, not {type(key).__name__}")
        zone = cls._of_library(key, from_cache=False)
        zone._is_built_in = True
        return zone

    @classmethod
    def from_tz_string(cls, text: str, /) -> "Self":
        """The zone of a TZ string (RFC 8536, 3.3.1: its times of day are from -167 to 167 hours).

        >>> zone = ZoneInfo.from_tz_string("CET-1CEST,M3.5.0,M10.5.0/3")

        Raises `ValueError` if it is refused.
        """
        if not isinstance(text, str):
            raise TypeError(f"a TZ string is a str, not {type(text).__name__}")
        string, rule, zone = (
            text.encode(errors="surrogatepass"),
            _structures.Rule(),
            _structures.Zone(),
        )
        check(_library.string_read(string, len(string), True, rule), repr(text))
        standard = rule.fixed if rule.kind == _library.FIXED else rule.alternate.types[0]
        held = [(_structures.LocalTimeType * 1)(standard), rule]
        zone.parts.types, zone.parts.types_length = addressof(held[0]), 1
        _set_rule(zone.parts, rule)
        return cls._of_zone(zone, held, None, False, text, repr(text))

    @classmethod
    def _named(cls, key: str, from_cache: bool) -> "Self":
        data = _bytes_of_zone(key)
        if data is None:
            return cls._of_library(key, from_cache)
        return cls._of_file(data, key, from_cache, None)

    @classmethod
    def _of_library(cls, key: str, from_cache: bool) -> "Self":
        zone, name = _structures.Zone(), key.encode(errors="surrogatepass")
        if _library.built_in is None or not _library.built_in(name, len(name), zone):
            raise ZoneInfoNotFoundError(f"No time zone found with key {key}")
        return cls._of_zone(zone, [], key, from_cache, None, None)

    @classmethod
    def _of_file(
        cls, data: bytes, key: Optional[str], from_cache: bool, source: Optional[str]
    ) -> "Self":
        if not isinstance(data, bytes):
            raise TypeError(f"a TZif file is read as bytes, not {type(data).__name__}")
        name = source if key is None else key
        sizes, rule, zone = _structures.Sizes(), _structures.Rule(), _structures.Zone()
        check(_library.file_sizes(data, len(data), sizes), name)
        transitions = (_structures.Transition * sizes.transitions)()
        types = (_structures.LocalTimeType * sizes.types)()
        leap_seconds = (_structures.LeapSecond * sizes.leap_seconds)()
        tables = [transitions, types, leap_seconds]
        slices = [part for table in tables for part in (table, len(table))]
        code = _library.file_read(data, len(data), *slices, rule, zone.offsets)
        if code in _library.STRING_CODES:
            footer = data[len(data) - sizes.footer :].strip().decode(errors="replace")
            name = f"{name}: {footer}"
        check(code, name)
        if transitions and rule.kind == _library.NONE:
            # The file does not determine what holds after its last transition. The type of that
            # stays, as in `zoneinfo`, since a `datetime` needs an offset.
            rule.kind = _library.FIXED
            rule.fixed = types[transitions[-1].local_time_type_index]
        parts = zone.parts
        parts.transitions, parts.types, parts.leap_seconds = map(addressof, tables)
        parts.transitions_length, parts.types_length, parts.leap_seconds_length = map(len, tables)
        _set_rule(parts, rule)
        return cls._of_zone(zone, [*tables, rule], key, from_cache, None, source)

    @classmethod
    def _of_zone(
        cls,
        zone: _structures.Zone,
        held: List[Any],
        key: Optional[str],
        from_cache: bool,
        text: Optional[str],
        source: Optional[str],
    ) -> "Self":
        """Makes an object of a zone, whose parts lie in what is held or in the library."""
        made = super().from_file(io.BytesIO(_LEAST_FILE), key)
        made._key, made._from_cache, made._text, made._source = key, from_cache, text, source
        made._zone, made._held, made._is_built_in = zone, held, False
        made._forget()
        check(_library.zone_check(zone.parts, zone.offsets), source if key is None else key)
        made._least, made._greatest = zone.offsets.least, zone.offsets.greatest
        made._always = made._only_span()
        return made

    @property
    def key(self) -> Optional[str]:
        """The name, or ``None`` for a zone of a TZ string, or of a file without a name."""
        return self._key

    def utcoffset(self, dt: Optional[datetime]) -> Optional[timedelta]:
        """What is added to UTC. Of a time without a date ``None``, unless clocks never change."""
        span = self._shown(dt)
        return None if span is None else span.offset

    def tzname(self, dt: Optional[datetime]) -> Optional[str]:
        """The abbreviation, such as ``CEST``. ``None`` as for `utcoffset`, and if it has none."""
        span = self._shown(dt)
        return None if span is None else span.name

    def dst(self, dt: Optional[datetime]) -> Optional[timedelta]:
        """How far clocks are ahead of standard time: zero exactly in standard time.

        Zones only have a flag for daylight saving time, so its amount is inferred: how far clocks
        are ahead of the last standard time before it or of the first one after it, whichever is
        nearer to an hour, and an hour if neither is within two. It is negative in Dublin in winter.
        ``None`` as for `utcoffset`.
        """
        span = self._shown(dt)
        if span is None:
            return None
        if span.saving is None:
            span.saving = timedelta(seconds=self._saving(span))
        return span.saving

    def fromutc(self, dt: datetime) -> datetime:
        """The local time of a date and time of UTC whose ``tzinfo`` is this zone.

        Its ``fold`` is 1 if clocks showed the same before.
        """
        if not isinstance(dt, datetime):
            raise TypeError("fromutc() requires a datetime argument")
        if dt.tzinfo is not self:
            raise ValueError("fromutc() requires a datetime whose tzinfo is the zone")
        instant = _seconds(dt)
        span = self._span_at(instant)
        local = dt + span.offset
        # Clocks may show the same twice only as far apart as their offsets differ.
        if instant - span.first < self._greatest - self._least:
            shown = [entry for entry in self._found(local, last=False) if not entry.is_skipped]
            if shown[0].before.unix_time < instant:
                return local.replace(fold=1)
        return local

    def start_of_day(self, day: date) -> Optional[datetime]:
        """The first date and time that clocks show of a date, or ``None`` if they skip the date.

        That is mostly midnight, but clocks may skip midnight or show it twice. They skip a date as
        when an island crosses the date line.

        >>> from datetime import date
        >>> print(ZoneInfo("America/Sao_Paulo").start_of_day(date(2018, 11, 4)))
        2018-11-04 01:00:00-02:00
        >>> print(ZoneInfo("Pacific/Apia").start_of_day(date(2011, 12, 30)))
        None

        Of a `datetime` the date counts alone, as in `datetime.combine`. Raises `TzError` if the
        zone has no offset at any instant of the date.
        """
        if not isinstance(day, date):
            raise TypeError(f"a date is required, not {type(day).__name__}")
        instant = c_int64()
        given = _structures.Date(day.year, day.month, day.day)
        code = _library.start_of_day(self._zone, given, byref(instant))
        if code == _library.NO_DATE_TIME:
            return None
        check(code, f"{self}: {day}")
        midnight = datetime(day.year, day.month, day.day, tzinfo=self)
        shown = instant.value + self._span_at(instant.value).kind.ut_offset
        # Clocks have not shown the date before, so the fold is 0.
        return midnight + timedelta(seconds=shown - _seconds(midnight))

    def offsets(self, instants: Any, *, out: Any = None, codes: Any = None) -> Any:
        """The offsets from UTC of a column of instants.

        =====================================  =================================================
        instants                               answers
        =====================================  =================================================
        ``datetime64`` of numpy in s, ms, us,  ``timedelta64[s]``: added to the instants they are
        ns                                     the local times
        integers, which are Unix seconds       an ``array("i")`` of seconds
        a Series or an Index of these          a Series with the same index and name, or an Index
        =====================================  =================================================

        Integers are those of a list, a tuple, a range, an `array`, numpy or pandas, of any width,
        or 64-bit signed ones in any other contiguous buffer of one dimension. Times of pandas are
        in UTC, unless they have a time zone. Where there is no time (``NaT``), the answer is none.

        The answers are written to ``out`` if it is passed, which is returned: 32-bit signed
        integers, or for ``datetime64`` an array of the type that is answered.

        ``codes``, 32-bit unsigned integers, gets 0 at each place, or the code of its error; there
        ``out`` stays as it is, or has ``NaT``. Without ``codes`` the first error is raised, a
        `TzError` with the place as ``index``.

        No other thread may write to these columns during the call.
        """
        return _arrays.offsets(self._zone, instants, out, codes)

    def local_times(self, instants: Any, *, out: Any = None, codes: Any = None) -> Any:
        """What the clock shows at a column of instants.

        ``instants`` has the type ``datetime64``, as for `offsets`, and so have the local times, in
        the same unit. A time without an answer in this unit has the code 1. For ``out``, ``codes``,
        errors and threads see `offsets`.
        """
        return _arrays.local_times(self._zone, instants, out, codes)

    def instants(
        self, local_times: Any, choice: Choice = "compatible", *, out: Any = None, codes: Any = None
    ) -> Any:
        """The instants that a column of local times means by a choice.

        ``local_times`` has the type ``datetime64``, and the instants have it in the same unit, in
        UTC. Or it has integers: seconds since 1970-01-01 00:00:00 of the zone's clock; or
        `LocalTime`. Then the instants are an ``array("q")`` of Unix seconds. For Series, ``out``,
        ``codes``, errors and threads see `offsets`.

        ==============  =========  ====================================
        choice          in a fold  in a gap
        ==============  =========  ====================================
        ``compatible``  the first  as much later as clocks jump forward
        ``earlier``     the first  as much earlier
        ``later``       the last   as much later
        ``reject``      none       none
        ==============  =========  ====================================

        ``compatible`` is what `datetime.timestamp` does with ``fold=0``. The code of none is 5.
        """
        if choice not in _library.CHOICES:
            raise ValueError(f"a choice is one of {', '.join(_library.CHOICES)}, not {choice!r}")
        return _arrays.instants(self._zone, local_times, _library.CHOICES[choice], out, codes)

    def __str__(self) -> str:
        return repr(self) if self._key is None else self._key

    def __repr__(self) -> str:
        if self._is_built_in:
            return f"{type(self).__name__}.built_in({self._key!r})"
        if self._key is not None:
            return f"{type(self).__name__}(key={self._key!r})"
        maker = "from_file" if self._text is None else "from_tz_string"
        return f"{type(self).__name__}.{maker}({self._source})"

    def __reduce_ex__(self, protocol: Any) -> Tuple[Any, ...]:
        # The class that `zoneinfo` has without its module in C puts a `__reduce__` on the object.
        return type(self).__reduce__(self)

    def __reduce__(self) -> Tuple[Any, ...]:
        if self._is_built_in:
            return type(self).built_in, (self._key,)
        if self._text is not None:
            return type(self).from_tz_string, (self._text,)
        if self._source is not None:
            raise pickle.PicklingError("a ZoneInfo of a file cannot be pickled")
        return type(self)._unpickle, (self._key, self._from_cache)

    @classmethod
    def _unpickle(cls, key: str, from_cache: bool, /) -> "Self":
        return cls(key) if from_cache else cls.no_cache(key)

    def _forget(self) -> None:
        """Begins without a span that is kept."""
        self._spans: Dict[int, _Span] = {}
        if _single is not None:
            owner = self._zone, self._held
            self._kept = _single.Kept(addressof(self._zone), owner, _in_python)

    def _only_span(self) -> Optional[_Span]:
        """The span of a clock that never changes, which a time without a date has."""
        if (
            _library.following(self._zone, _LEAST_INSTANT, _structures.Change())
            != _library.NO_CHANGE
        ):
            return None
        # A clock may begin late: after 1970, or after all that a datetime can be.
        segment = _structures.Segment()
        check(_library.segment_at(self._zone, _LAST_INSTANT, segment))
        return _Span(segment) if segment.has_type else None

    def _span_at(self, instant: int) -> _Span:
        """The span around an instant."""
        span = self._spans.get(instant >> _SPAN_BITS)
        if span is None or not span.first <= instant <= span.last:
            segment = _structures.Segment()
            check(_library.segment_at(self._zone, instant, segment))
            if not segment.has_type:
                check(_library.type_at(self._zone, instant, segment.local_time_type), str(self))
            span = _Span(segment)
            self._keep(instant, span)
        return span

    def _keep(self, seconds: int, span: _Span) -> None:
        if len(self._spans) >= _MOST_SPANS:
            self._spans.clear()
        self._spans[seconds >> _SPAN_BITS] = span

    def _shown(self, dt: Optional[datetime]) -> Optional[_Span]:
        """The span in which a local time lies, or of the side of a gap that its fold says."""
        if dt is None:
            return self._always
        if not isinstance(dt, datetime):
            raise TypeError(f"a datetime or None is required, not {type(dt).__name__}")
        seconds = _seconds(dt)
        span = self._spans.get(seconds >> _SPAN_BITS)
        # Wherever clocks show or skip this local time, they are between these two instants.
        first, last = seconds - self._greatest, seconds - self._least
        if span is None or not (span.first < first and last <= span.last):
            span = self._span_at(self._instant_of(dt))
            self._keep(seconds, span)
        return span

    def _instant_of(self, dt: datetime) -> int:
        """An instant at which clocks have the offset of a local time, by its fold."""
        found = self._found(dt, last=bool(dt.fold))
        shown = [entry.before for entry in found if not entry.is_skipped]
        if shown:
            return shown[-1 if dt.fold else 0].unix_time
        if not found:
            raise _library.TzError(_library.NO_TYPE, f"{self}: {dt.replace(tzinfo=None)}")
        return found[-1].after.unix_time if dt.fold else found[0].before.unix_time - 1

    def _found(self, dt: datetime, *, last: bool) -> List[_structures.Found]:
        """The first two of all that a local time means, or the last two.

        That is the instants at which clocks show it, and the jumps over it: all of them, if clocks
        jump over it at these two and there are more.
        """
        fields = _structures.LocalTime(dt.year, dt.month, dt.day, dt.hour, dt.minute, dt.second, 0)
        slots, count = (_structures.Found * 2)(), c_size_t()
        check(_library.find_n(fields, self._zone, 0, slots, len(slots), byref(count)))
        if count.value > 2 and last:
            check(_library.find_n(fields, self._zone, count.value - 2, slots, 2, byref(count)))
        if count.value > 2 and all(entry.is_skipped for entry in slots):
            slots = (_structures.Found * count.value)()
            check(_library.find_n(fields, self._zone, 0, slots, len(slots), byref(count)))
        return slots[: count.value]

    def _saving(self, span: _Span) -> int:
        """How far the type of a span is ahead of standard time."""
        kind, parts = span.kind, self._zone.parts
        if not kind.is_dst:
            return 0
        offsets = [self._standard_before(span.first), self._standard_after(span.last)]
        if parts.alternate_length:
            standard, saving = _structures.Alternate.from_address(parts.alternate).types
            if _library.same(kind, saving):
                offsets.append(standard.ut_offset)
        amounts = [kind.ut_offset - offset for offset in offsets if offset is not None]
        likely = [amount for amount in amounts if amount and abs(amount) <= _MOST_SAVING]
        return min(likely, key=lambda amount: abs(amount - _USUAL_SAVING), default=_USUAL_SAVING)

    def _standard_before(self, first: int) -> Optional[int]:
        """The offset of the last standard time before a span that begins at an instant, if near."""
        change, at = _structures.Change(), first + 1
        for _ in range(_MOST_CHANGES):
            if _library.preceding(self._zone, at, change) != _library.OK:
                break
            if not change.before.is_dst:
                return change.before.ut_offset
            at = change.unix_time
        return None

    def _standard_after(self, last: int) -> Optional[int]:
        """The offset of the first standard time after a span that ends at an instant, if near."""
        change, at = _structures.Change(), last
        for _ in range(_MOST_CHANGES):
            if _library.following(self._zone, at, change) != _library.OK:
                break
            if not change.after.is_dst:
                return change.after.ut_offset
            at = change.unix_time
        return None


def _seconds(dt: datetime) -> int:
    """The seconds from 1970-01-01 00:00:00 to a date and time, both without a zone."""
    days = dt.toordinal() - _EPOCH_DAY
    return days * 86400 + dt.hour * 3600 + dt.minute * 60 + dt.second


def _set_rule(parts: _structures.Parts, rule: _structures.Rule) -> None:
    parts.fixed, parts.alternate = addressof(rule.fixed), addressof(rule.alternate)
    parts.fixed_length = rule.kind == _library.FIXED
    parts.alternate_length = rule.kind == _library.ALTERNATE


def _bytes_of_zone(key: str) -> Optional[bytes]:
    """The file of a name of the tz database, if there is one."""
    if not isinstance(key, str):
        raise TypeError(f"a name of a zone is a str, not {type(key).__name__}")
    parts = key.split("/")
    if any(part in ("", ".", "..") for part in parts):
        raise ValueError(f"a path is not the name of a zone: {key!r}")
    # No name has other characters, and some of these make a path, such as a backslash.
    if not all(map(_PART.fullmatch, parts)):
        return None
    for directory in zoneinfo.TZPATH:
        path = os.path.join(directory, *parts)
        if os.path.isfile(path):
            with open(path, "rb") as file:
                return file.read()
    package = ".".join(["tzdata.zoneinfo", *parts[:-1]])
    try:
        return resources.files(package).joinpath(parts[-1]).read_bytes()
    except (ImportError, OSError):
        return None


# How single calls are made: by the module in C, or by the methods above over ctypes.
implementation = "ctypes"
if _single is not None:
    if _single.ABI != _structures.ABI:
        raise ImportError(f"{_single.__file__} is of another version: {_single.ABI}")
    _calls = [cast(call, c_void_p).value for call in (_library.segment_at, _library.find_n)]
    # These answer what the module in C does not.
    _in_python = _single.replace_methods(ZoneInfo, *_calls)
    implementation = "C"
