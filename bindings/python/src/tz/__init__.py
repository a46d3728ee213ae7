"""Unix time to the local date and time of a time zone, and back, by a proved library.

`ZoneInfo` is a `zoneinfo.ZoneInfo`. It also converts whole columns: instants to offsets and local
times, and local times to instants.

>>> from array import array
>>> from tz import ZoneInfo
>>> ZoneInfo("Europe/Paris").offsets(array("q", [946684800, 951782400, 962409600]))
array('i', [3600, 3600, 7200])

`implementation` says how single calls are made: by a module in ``C``, or by ``ctypes``.

`TZPATH`, `reset_tzpath`, `ZoneInfoNotFoundError` and `InvalidTZPathWarning` are those of
`zoneinfo`: both look in the same directories. A zone without a file is that of the library's own
database.
"""

import zoneinfo as _zoneinfo
from typing import Any, List, Set
from zoneinfo import InvalidTZPathWarning, ZoneInfoNotFoundError, reset_tzpath

from ._library import TzError, built_in_names, built_in_version, error_text
from ._structures import LocalTime
from ._zone import ZoneInfo, implementation

# The release, as TZ_VERSION of tz.h.
__version__ = "3.0.0"

__all__ = [
    "ZoneInfo",
    "LocalTime",
    "TzError",
    "error_text",
    "implementation",
    "TZPATH",
    "available_timezones",
    "built_in_names",
    "built_in_version",
    "reset_tzpath",
    "ZoneInfoNotFoundError",
    "InvalidTZPathWarning",
]

# Their names, in pickles and in messages, are those by which programs import them.
for _class in (ZoneInfo, LocalTime, TzError):
    _class.__module__ = __name__


def available_timezones() -> Set[str]:
    """The names of all zone files, as `zoneinfo` lists them, or if there is none the library's."""
    return _zoneinfo.available_timezones() or built_in_names()


def __getattr__(name: str) -> Any:
    if name == "TZPATH":
        return _zoneinfo.TZPATH
    raise AttributeError(f"module {__name__!r} has no attribute {name!r}")


def __dir__() -> List[str]:
    return sorted([*globals(), "TZPATH"])
