"""Made of bindings/c/tz.h and tz_zones.h by bindings/python/structures. Change those instead."""

from ctypes import (
    POINTER,
    Structure,
    c_bool,
    c_char,
    c_char_p,
    c_int32,
    c_int64,
    c_size_t,
    c_uint16,
    c_uint32,
    c_uint64,
    c_uint8,
    c_void_p,
)

ABI = 2


class LocalTimeType(Structure):
    _fields_ = [
        ("ut_offset", c_int32),
        ("is_dst", c_bool),
        ("designation", c_char * 7),
        ("designation_length", c_uint8),
    ]


class Day(Structure):
    _fields_ = [
        ("number", c_uint16),
        ("kind", c_uint8),
        ("month", c_uint8),
        ("week", c_uint8),
        ("week_day", c_uint8),
    ]


class Alternate(Structure):
    _fields_ = [
        ("types", LocalTimeType * 2),
        ("dst_start", Day),
        ("dst_start_time", c_int32),
        ("dst_end", Day),
        ("dst_end_time", c_int32),
        ("ends_next_year", c_bool),
        ("has_inner_switches", c_bool),
        ("starts", c_int32 * 14),
        ("ends", c_int32 * 14),
    ]


class Rule(Structure):
    _fields_ = [
        ("kind", c_uint32),
        ("fixed", LocalTimeType),
        ("alternate", Alternate),
    ]


class Conflict(Structure):
    _fields_ = [
        ("first_year", c_int32),
        ("second_year", c_int32),
        ("distance", c_int32),
    ]


class Transition(Structure):
    _fields_ = [
        ("unix_leap_time", c_int64),
        ("local_time_type_index", c_size_t),
    ]


class LeapSecond(Structure):
    _fields_ = [
        ("unix_leap_time", c_int64),
        ("correction", c_int32),
    ]


class Parts(Structure):
    _fields_ = [
        ("transitions", c_void_p),
        ("transitions_length", c_size_t),
        ("types", c_void_p),
        ("types_length", c_size_t),
        ("leap_seconds", c_void_p),
        ("leap_seconds_length", c_size_t),
        ("fixed", c_void_p),
        ("fixed_length", c_size_t),
        ("alternate", c_void_p),
        ("alternate_length", c_size_t),
    ]


class Offsets(Structure):
    _fields_ = [
        ("least", c_int32),
        ("greatest", c_int32),
    ]


class Zone(Structure):
    _fields_ = [
        ("parts", Parts),
        ("offsets", Offsets),
    ]


class LocalTime(Structure):
    """What a clock shows: a date and a time of day, without a zone.

    Columns of local times may be arrays of it, as ``(tz.LocalTime * 1000)()`` or
    ``numpy.zeros(1000, tz.LocalTime)``.
    """

    _fields_ = [
        ("year", c_int32),
        ("month", c_uint8),
        ("month_day", c_uint8),
        ("hour", c_uint8),
        ("minute", c_uint8),
        ("second", c_uint8),
        ("nanoseconds", c_uint32),
    ]


class Utc(Structure):
    _fields_ = [
        ("fields", LocalTime),
        ("unix_time", c_int64),
    ]


class DateTime(Structure):
    _fields_ = [
        ("fields", LocalTime),
        ("local_time_type", LocalTimeType),
        ("unix_time", c_int64),
    ]


class Found(Structure):
    _fields_ = [
        ("is_skipped", c_bool),
        ("before", DateTime),
        ("after", DateTime),
    ]


class Segment(Structure):
    _fields_ = [
        ("first", c_int64),
        ("last", c_int64),
        ("has_type", c_bool),
        ("local_time_type", LocalTimeType),
    ]


class Change(Structure):
    _fields_ = [
        ("unix_time", c_int64),
        ("before", LocalTimeType),
        ("after", LocalTimeType),
    ]


class Sizes(Structure):
    _fields_ = [
        ("transitions", c_size_t),
        ("types", c_size_t),
        ("leap_seconds", c_size_t),
        ("footer", c_size_t),
    ]


class Setting(Structure):
    _fields_ = [
        ("kind", c_uint32),
        ("first", c_size_t),
        ("until", c_size_t),
    ]


class Parsed(Structure):
    _fields_ = [
        ("local", Utc),
        ("ut_offset", c_int32),
        ("has_offset", c_bool),
    ]


class Date(Structure):
    _fields_ = [
        ("year", c_int32),
        ("month", c_uint8),
        ("month_day", c_uint8),
    ]


class WeekDate(Structure):
    _fields_ = [
        ("year", c_int32),
        ("week", c_uint8),
        ("week_day", c_uint8),
    ]


# In the order in which tz_layout writes their sizes, after the number of the layout.
LAYOUT = (
    LocalTimeType,
    Day,
    Alternate,
    Rule,
    Conflict,
    Transition,
    LeapSecond,
    Parts,
    Offsets,
    Zone,
    LocalTime,
    Utc,
    DateTime,
    Found,
    Segment,
    Change,
    Sizes,
    Setting,
    Parsed,
)

# What each function returns, and what it takes.
CALLS = {
    "tz_abi_2": (c_uint32,),
    "tz_local_time_type_new": (c_uint32, c_int32, c_bool, c_bool, c_char_p, c_size_t, POINTER(LocalTimeType)),
    "tz_julian_1_new": (c_uint32, c_uint16, POINTER(Day)),
    "tz_julian_0_new": (c_uint32, c_uint16, POINTER(Day)),
    "tz_month_week_day_new": (c_uint32, c_uint8, c_uint8, c_uint8, POINTER(Day)),
    "tz_alternate_new": (c_uint32, POINTER(LocalTimeType), POINTER(LocalTimeType), POINTER(Day), c_int32, POINTER(Day), c_int32, POINTER(Alternate)),
    "tz_alternate_conflict": (c_uint32, POINTER(LocalTimeType), POINTER(LocalTimeType), POINTER(Day), c_int32, POINTER(Day), c_int32, POINTER(Conflict)),
    "tz_rule_type_at": (c_uint32, c_void_p, c_size_t, c_void_p, c_size_t, c_int64, POINTER(LocalTimeType)),
    "tz_rule_text": (c_uint32, c_void_p, c_size_t, c_void_p, c_size_t, c_void_p, c_size_t, POINTER(c_size_t)),
    "tz_file_sizes": (c_uint32, c_char_p, c_size_t, POINTER(Sizes)),
    "tz_file_read": (c_uint32, c_char_p, c_size_t, c_void_p, c_size_t, c_void_p, c_size_t, c_void_p, c_size_t, POINTER(Rule), POINTER(Offsets)),
    "tz_string_read": (c_uint32, c_char_p, c_size_t, c_bool, POINTER(Rule)),
    "tz_setting_read": (c_uint32, c_char_p, c_size_t, POINTER(Setting)),
    "tz_name_check": (c_uint32, c_char_p, c_size_t),
    "tz_zone_check": (c_uint32, POINTER(Parts), POINTER(Offsets)),
    "tz_zone_type_at": (c_uint32, POINTER(Zone), c_int64, POINTER(LocalTimeType)),
    "tz_zone_place_at": (c_uint32, POINTER(Zone), c_int64, POINTER(c_size_t)),
    "tz_zone_segment_at": (c_uint32, POINTER(Zone), c_int64, POINTER(Segment)),
    "tz_zone_following": (c_uint32, POINTER(Zone), c_int64, POINTER(Change)),
    "tz_zone_preceding": (c_uint32, POINTER(Zone), c_int64, POINTER(Change)),
    "tz_zone_leap_time": (c_uint32, POINTER(Zone), c_int64, POINTER(c_int64)),
    "tz_zone_effect": (c_uint32, POINTER(Zone), c_int64, POINTER(c_int64)),
    "tz_utc_new": (c_uint32, POINTER(LocalTime), POINTER(Utc)),
    "tz_utc_from_timespec": (c_uint32, c_int64, c_uint32, POINTER(Utc)),
    "tz_utc_add": (c_uint32, POINTER(Utc), c_uint64, c_uint32, POINTER(Utc)),
    "tz_utc_sub": (c_uint32, POINTER(Utc), c_uint64, c_uint32, POINTER(Utc)),
    "tz_utc_week_day": (c_uint8, POINTER(Utc)),
    "tz_date_time_week_day": (c_uint8, POINTER(DateTime)),
    "tz_utc_year_day": (c_uint16, POINTER(Utc)),
    "tz_date_time_year_day": (c_uint16, POINTER(DateTime)),
    "tz_date_time_new": (c_uint32, POINTER(LocalTime), POINTER(LocalTimeType), POINTER(DateTime)),
    "tz_date_time_from_timespec_and_local": (c_uint32, c_int64, c_uint32, POINTER(LocalTimeType), POINTER(DateTime)),
    "tz_date_time_from_timespec": (c_uint32, c_int64, c_uint32, POINTER(Zone), POINTER(DateTime)),
    "tz_date_time_to_utc": (c_uint32, POINTER(DateTime), POINTER(Utc)),
    "tz_zone_start_of_day": (c_uint32, POINTER(Zone), POINTER(Date), POINTER(c_int64)),
    "tz_date_add_months": (c_uint32, POINTER(Date), c_int32, POINTER(Date)),
    "tz_date_week_date": (c_uint32, POINTER(Date), POINTER(WeekDate)),
    "tz_date_from_week_date": (c_uint32, POINTER(WeekDate), POINTER(Date)),
    "tz_find_n": (c_uint32, POINTER(LocalTime), POINTER(Zone), c_size_t, c_void_p, c_size_t, POINTER(c_size_t)),
    "tz_find_one": (c_uint32, POINTER(LocalTime), c_uint8, POINTER(Zone), POINTER(DateTime)),
    "tz_column_offsets": (c_uint32, c_void_p, c_size_t, POINTER(Zone), c_void_p, c_size_t, c_void_p, c_size_t),
    "tz_column_date_times": (c_uint32, c_void_p, c_size_t, c_void_p, c_size_t, POINTER(Zone), c_void_p, c_size_t, c_void_p, c_size_t),
    "tz_column_instants": (c_uint32, c_void_p, c_size_t, c_uint8, POINTER(Zone), c_void_p, c_size_t, c_void_p, c_size_t),
    "tz_column_instants_of_readings": (c_uint32, c_void_p, c_size_t, c_uint8, POINTER(Zone), c_void_p, c_size_t, c_void_p, c_size_t),
    "tz_utc_text": (c_uint32, POINTER(Utc), c_void_p, c_size_t, POINTER(c_size_t)),
    "tz_date_time_text": (c_uint32, POINTER(DateTime), c_void_p, c_size_t, POINTER(c_size_t)),
    "tz_date_time_read": (c_uint32, c_char_p, c_size_t, POINTER(Parsed)),
    "tz_date_time_format": (c_uint32, POINTER(DateTime), c_char_p, c_size_t, c_void_p, c_size_t, POINTER(c_size_t)),
    "tz_utc_format": (c_uint32, POINTER(Utc), c_char_p, c_size_t, c_void_p, c_size_t, POINTER(c_size_t)),
    "tz_pattern_read": (c_uint32, c_char_p, c_size_t, c_char_p, c_size_t, POINTER(Parsed)),
    "tz_error_text": (c_uint32, c_uint32, c_void_p, c_size_t, POINTER(c_size_t)),
    "tz_layout": (c_uint32, c_void_p, c_size_t),
    "tz_built_in": (c_bool, c_char_p, c_size_t, POINTER(Zone)),
    "tz_built_in_name": (c_uint32, c_size_t, c_void_p, c_size_t, POINTER(c_size_t)),
    "tz_built_in_version": (c_uint32, c_void_p, c_size_t, POINTER(c_size_t)),
}
