/*
 * tz: Unix time to the local date and time of a time zone, and back.
 *
 * ABI number 2 (TZ_ABI).
 * Every call is proved against its contract (crates/tz_c); cargo's library converts pointers by code that is only tested. What a proof cannot see is that a caller keeps what is asked here:
 *
 * - Pointers. A pointer, as a parameter or in a `tz_parts`, is not null, is aligned, and points to one value, or, if a length follows it, to that
 *   many. With length 0 it may be null, in a `tz_parts` too.
 * - Overlap. A list that a call writes overlaps nothing else that the call is given: no other parameter, and no table of a zone. One value that it
 *   writes may be one that it reads, as in `tz_utc_add(&utc, 1, 0, &utc)`, but no other that it writes. What it only reads may overlap.
 * - Values. A `bool` is 0 or 1. A `tz_local_time_type`, `tz_day`, `tz_alternate`, `tz_rule`, `tz_utc` or `tz_date_time` that a call reads is
 *   as a call wrote it, or a copy. All zeros are valid too, but for `tz_utc` and `tz_date_time`: there TZ_UTC_EPOCH and TZ_DATE_TIME_EPOCH are.
 * - Before the call one value that it writes may hold anything, and need not be initialized. A list that it writes is initialized: it holds all
 *   zeros or values as above, so that `= {0}` serves for each, and texts, transitions, leap seconds and columns of numbers hold any values.
 * - Zones. The offsets of a `tz_zone` are those that `tz_zone_check` or `tz_file_read` wrote for its very parts, which stay as they are while
 *   the zone is used. If a table changes, or the offsets are others, a call that is given the zone has undefined behaviour: no call checks the parts
 *   again. Parts may lie in read-only memory, and any number of threads may read one zone.
 *
 * A call returns TZ_OK or the code of an error. After an error everything that it was to write to is as it was. Bytes of padding that a call writes
 * have no meaning, and may be bytes of its stack: compare values by their fields, and write out none as bytes. No call allocates but `tz_file_read`,
 * no call prints, blocks, calls back, or keeps a pointer.
 */
#ifndef TZ_H
#define TZ_H

#include <stdbool.h>
#include <stddef.h>
#include <stdint.h>

#ifdef __cplusplus
extern "C" {
#endif

/* The version, and as a number that can be compared: 1000000 * major + 1000 * minor + patch. */
#define TZ_VERSION "3.0.0"
#define TZ_VERSION_NUMBER 3000000

/* The number of this header's layout: the first number of `tz_layout`. */
#define TZ_ABI 2

/* Returns TZ_ABI. Each file that includes this header refers to it, and a library of another layout
   has no function of this name: so the two are refused when they are linked or loaded. A program that
   does not link the library, but loads it by `dlopen`, defines TZ_NO_ABI_CHECK before. */
uint32_t tz_abi_2(void);
#if defined(__GNUC__) && !defined(TZ_NO_ABI_CHECK)
__attribute__((used)) static uint32_t (*const tz_abi_of_header)(void) = tz_abi_2;
#endif

/* ---- Codes ---------------------------------------------------------------------------------------------------------------------------- */

typedef uint32_t tz_code;

enum {
  TZ_OK = 0,
  /* A value is outside the range of its type: a year outside 32 bits, a year so near the ends of these that the zone's rule is undefined,
     an instant without a leap time. */
  TZ_OUT_OF_RANGE = 1,
  /* The zone has no type at the instant: it has no rule, and its transitions have ended. */
  TZ_NO_AVAILABLE_LOCAL_TIME_TYPE = 2,
  /* Neither `fixed` nor `alternate` has an entry, so no rule is given. */
  TZ_NO_RULE = 3,
  /* The clock does not change any more, or has not changed before. */
  TZ_NO_CHANGE = 4,
  /* The local time means no date time, by the choice that is given, or clocks skip the date. */
  TZ_NO_DATE_TIME = 5,
  /* No TZ string denotes the rule. */
  TZ_NO_TZ_STRING = 6,
  /* The parts make an alternate rule, or are out of range: there are no years that show a conflict. */
  TZ_NO_CONFLICT = 7,
  /* A buffer is too short, or does not have the required length. */
  TZ_BUFFER_LENGTH = 8,
  /* The number is not one of the four choices. */
  TZ_UNKNOWN_CHOICE = 9,
  /* The number is not a code. */
  TZ_UNKNOWN_CODE = 10,
  /* The text is not a name of a time zone. */
  TZ_INVALID_NAME = 11,

  /* DateTimeError */
  TZ_INVALID_MONTH = 16,
  TZ_INVALID_MONTH_DAY = 17,
  TZ_INVALID_HOUR = 18,
  TZ_INVALID_MINUTE = 19,
  TZ_INVALID_SECOND = 20,
  TZ_INVALID_NANOSECONDS = 21,

  /* LocalTimeTypeError */
  TZ_INVALID_TIME_ZONE_DESIGNATION_LENGTH = 32,
  TZ_INVALID_TIME_ZONE_DESIGNATION_CHAR = 33,
  TZ_INVALID_UTC_OFFSET = 34,

  /* TransitionRuleError */
  TZ_INVALID_RULE_DAY_JULIAN_DAY = 48,
  TZ_INVALID_RULE_DAY_MONTH = 49,
  TZ_INVALID_RULE_DAY_WEEK = 50,
  TZ_INVALID_RULE_DAY_WEEK_DAY = 51,
  TZ_INVALID_STD_UTC_OFFSET = 52,
  TZ_INVALID_DST_UTC_OFFSET = 53,
  TZ_INVALID_DST_START_END_TIME = 54,
  TZ_INCONSISTENT_RULE = 55,

  /* TimeZoneError */
  TZ_NO_LOCAL_TIME_TYPE = 64,
  TZ_INVALID_LOCAL_TIME_TYPE_INDEX = 65,
  TZ_INVALID_TRANSITION = 66,
  TZ_INVALID_LEAP_SECOND = 67,
  TZ_INCONSISTENT_EXTRA_RULE = 68,

  /* TzStringError */
  TZ_STRING_UTF8 = 80, /* no call returns it */
  TZ_STRING_PARSE_INT_EMPTY = 81,       /* ParseInt: digits are missing */
  TZ_STRING_UNEXPECTED_EOF = 82,        /* ParseData(UnexpectedEof) */
  TZ_STRING_INVALID_DATA = 83,          /* ParseData(InvalidData) */
  TZ_STRING_INVALID_OFFSET_HOUR = 84,
  TZ_STRING_INVALID_OFFSET_MINUTE = 85,
  TZ_STRING_INVALID_OFFSET_SECOND = 86,
  TZ_STRING_INVALID_DAY_TIME_HOUR = 87,
  TZ_STRING_INVALID_DAY_TIME_MINUTE = 88,
  TZ_STRING_INVALID_DAY_TIME_SECOND = 89,
  TZ_STRING_MISSING_DST_START_END_RULES = 90,
  TZ_STRING_REMAINING_DATA = 91,
  TZ_STRING_EMPTY = 92,
  TZ_STRING_PARSE_INT_OVERFLOW = 93,    /* ParseInt: the number does not fit its type */

  /* TzFileError */
  TZ_FILE_UTF8 = 112,
  TZ_FILE_UNEXPECTED_EOF = 113,         /* ParseData(UnexpectedEof) */
  TZ_FILE_INVALID_DATA = 114,           /* ParseData(InvalidData); no call returns it */
  TZ_FILE_INVALID_MAGIC_NUMBER = 115,
  TZ_FILE_UNSUPPORTED_VERSION = 116,
  TZ_FILE_INVALID_HEADER = 117,
  TZ_FILE_INVALID_FOOTER = 118,
  TZ_FILE_INVALID_DST_INDICATOR = 119,
  TZ_FILE_INVALID_DESIGNATION_CHAR_INDEX = 120,
  TZ_FILE_INVALID_STD_WALL_UT_LOCAL = 121,
  TZ_FILE_REMAINING_DATA_V1 = 122,

  /* ParseDateTimeError, by the first part that the text does not have */
  TZ_EXPECTED_YEAR = 128,               /* that fits an int32_t */
  TZ_EXPECTED_HYPHEN = 129,
  TZ_EXPECTED_MONTH = 130,
  TZ_EXPECTED_MONTH_DAY = 131,
  TZ_EXPECTED_SEPARATOR = 132,          /* `T`, `t` or a space */
  TZ_EXPECTED_HOUR = 133,
  TZ_EXPECTED_COLON = 134,
  TZ_EXPECTED_MINUTE = 135,
  TZ_EXPECTED_SECOND = 136,
  TZ_EXPECTED_FRACTION = 137,           /* one to nine digits after a point */
  TZ_EXPECTED_OFFSET = 138,             /* `Z`, `z`, a sign, or the end */
  TZ_EXPECTED_OFFSET_HOUR = 139,
  TZ_EXPECTED_OFFSET_MINUTE = 140,
  TZ_EXPECTED_OFFSET_SECOND = 141,
  TZ_EXPECTED_END = 142,

  /* Patterns: why a text is none, or is not for this date time */
  TZ_PATTERN_UTF8 = 144,
  TZ_PATTERN_UNKNOWN_CONVERSION = 145,
  TZ_PATTERN_TOO_LONG = 146,            /* it prints more than 128 bytes for some date time */
  TZ_PATTERN_OF_UTC = 147,              /* TZ_HTTP_DATE for a `tz_date_time` */
  /* and why a text is not read by one */
  TZ_PATTERN_NOT_READABLE = 148,
  TZ_PATTERN_MISMATCH = 149,

  /* Out of memory */
  TZ_MEMORY = 255
};

/* ---- Types ---------------------------------------------------------------------------------------------------------------------------- */

/* Sizes of structs are those on 64 bits. On 32 bits some are smaller. */

/* A local time type: an offset that is added to UTC, a daylight flag, a name. 16 bytes. */
typedef struct tz_local_time_type {
  int32_t ut_offset;          /* seconds; never INT32_MIN */
  bool is_dst;
  char designation[7];        /* padded with zeros; no zero follows a name of seven bytes */
  uint8_t designation_length; /* 0 if there is no name */
} tz_local_time_type;

/* A day of each year. 6 bytes. */
typedef struct tz_day {
  uint16_t number;  /* TZ_JULIAN_0: 0 to 365. TZ_JULIAN_1: 1 to 365. Else 0 */
  uint8_t kind;     /* TZ_JULIAN_0, TZ_JULIAN_1, TZ_MONTH_WEEK_DAY */
  uint8_t month;    /* TZ_MONTH_WEEK_DAY: 1 to 12. Else 0 */
  uint8_t week;     /* TZ_MONTH_WEEK_DAY: 1 to 5, where 5 is the last. Else 0 */
  uint8_t week_day; /* TZ_MONTH_WEEK_DAY: 0 (Sunday) to 6. Else 0 */
} tz_day;

enum { TZ_JULIAN_0 = 0, TZ_JULIAN_1 = 1, TZ_MONTH_WEEK_DAY = 2 };

/* An alternate rule with its tables. 172 bytes. */
typedef struct tz_alternate {
  tz_local_time_type types[2]; /* standard time, daylight saving time */
  tz_day dst_start;
  int32_t dst_start_time; /* seconds from 00:00 of standard time */
  tz_day dst_end;
  int32_t dst_end_time; /* seconds from 00:00 of daylight saving time */
  bool ends_next_year;
  bool has_inner_switches;
  int32_t starts[14];
  int32_t ends[14];
} tz_alternate;

/* At most one rule. 192 bytes. In a zone's parts `fixed` points to the rule's and has the length 1 if the kind is
   TZ_FIXED, and else 0; so does `alternate` for TZ_ALTERNATE. */
typedef struct tz_rule {
  uint32_t kind; /* TZ_NONE, TZ_FIXED, TZ_ALTERNATE */
  tz_local_time_type fixed;
  tz_alternate alternate;
} tz_rule;

enum { TZ_NONE = 0, TZ_FIXED = 1, TZ_ALTERNATE = 2 };

/* Two years and a distance: the start of `first_year` comes after the end of `first_year + distance`, and the start of `second_year` before the
   end of `second_year + distance`. 12 bytes. */
typedef struct tz_conflict {
  int32_t first_year;
  int32_t second_year;
  int32_t distance;
} tz_conflict;

/* A leap time from which on a type holds. 16 bytes. */
typedef struct tz_transition {
  int64_t unix_leap_time;
  size_t local_time_type_index;
} tz_transition;

/* A leap time from which on leap time is ahead of Unix time by a correction. 16 bytes. */
typedef struct tz_leap_second {
  int64_t unix_leap_time;
  int32_t correction;
} tz_leap_second;

/* The parts of a zone. `fixed` and `alternate` have one entry together, or none: the rule from the last transition on. 80 bytes. */
typedef struct tz_parts {
  const tz_transition *transitions;
  size_t transitions_length;
  const tz_local_time_type *types;
  size_t types_length;
  const tz_leap_second *leap_seconds;
  size_t leap_seconds_length;
  const tz_local_time_type *fixed;
  size_t fixed_length;
  const tz_alternate *alternate;
  size_t alternate_length;
} tz_parts;

/* The least and the greatest offset of a zone's types and of its rule. 8 bytes. */
typedef struct tz_offsets {
  int32_t least;
  int32_t greatest;
} tz_offsets;

/* A zone. 88 bytes. It points into the memory of its parts, a `tz_rule` among them, which has to live as long as the zone is used. */
typedef struct tz_zone {
  tz_parts parts;
  tz_offsets offsets;
} tz_zone;

/* What a clock shows. 16 bytes. Any values may be passed: calls check them. */
typedef struct tz_fields {
  int32_t year;
  uint8_t month;     /* 1 to 12 */
  uint8_t month_day; /* from 1 */
  uint8_t hour;      /* 0 to 23 */
  uint8_t minute;    /* 0 to 59 */
  uint8_t second;    /* 0 to 60 */
  uint32_t nanoseconds; /* below 10^9 */
} tz_fields;

/* A date time of UTC. 24 bytes. */
typedef struct tz_utc {
  tz_fields fields;
  int64_t unix_time;
} tz_utc;

/* A date time with the type that shows it. 40 bytes. */
typedef struct tz_date_time {
  tz_fields fields;
  tz_local_time_type local_time_type;
  int64_t unix_time;
} tz_date_time;

#define TZ_UTC_EPOCH { { 1970, 1, 1, 0, 0, 0, 0 }, 0 }
#define TZ_DATE_TIME_EPOCH { { 1970, 1, 1, 0, 0, 0, 0 }, { 0, false, { 0, 0, 0, 0, 0, 0, 0 }, 0 }, 0 }

/* What a search finds. 88 bytes. */
typedef struct tz_found {
  bool is_skipped;     /* whether clocks are set forward over the fields */
  tz_date_time before; /* the date time, or what clocks would show at the jump without it */
  tz_date_time after;  /* the date time again, or what clocks show at the jump */
} tz_found;

/* A span of instants through which a clock has one type, or none. 40 bytes. */
typedef struct tz_segment {
  int64_t from;
  int64_t last;
  bool has_type;
  tz_local_time_type local_time_type; /* zeros if it has none */
} tz_segment;

/* An instant at which a clock has another type than a second before. 40 bytes. */
typedef struct tz_change {
  int64_t unix_time;
  tz_local_time_type before;
  tz_local_time_type after;
} tz_change;

/* How many of each a file has. 32 bytes. */
typedef struct tz_sizes {
  size_t transitions;
  size_t types;
  size_t leap_seconds;
  size_t footer; /* the last bytes of the file, after its tables; 0 in version 1 */
} tz_sizes;

/* What a setting asks for: bytes `from` to `until` of it. 24 bytes. */
typedef struct tz_setting {
  uint32_t kind; /* TZ_LOCAL_TIME, TZ_FILE, TZ_FILE_OR_STRING */
  size_t from;   /* TZ_LOCAL_TIME: both are 0 */
  size_t until;
} tz_setting;

enum {
  TZ_LOCAL_TIME = 0,    /* the file /etc/localtime */
  TZ_FILE = 1,          /* the file of the name: in a directory of time zones, or by its path if it begins with '/' */
  TZ_FILE_OR_STRING = 2 /* that file, and if there is none the TZ string, which `tz_string_read` reads without white space at its ends */
};

/* What a text of a date time says. 32 bytes. With an offset it says an instant: `local.unix_time - ut_offset` in Unix seconds. */
typedef struct tz_parsed {
  tz_utc local;      /* the local time, as the date time of UTC with its fields */
  int32_t ut_offset; /* in seconds, 0 for `Z` */
  bool has_offset;   /* if not, `ut_offset` is 0 */
} tz_parsed;

/* A date of the Gregorian calendar, also before its adoption. 8 bytes. Any values may be passed: calls check them. */
typedef struct tz_date {
  int32_t year;
  uint8_t month;     /* 1 to 12 */
  uint8_t month_day; /* from 1 */
} tz_date;

/* A week date of ISO 8601, as 2025-W01-3: a week begins on Monday, and is of the year in which its Thursday lies. 8 bytes. Any values may be passed. */
typedef struct tz_week_date {
  int32_t year;     /* to which the week belongs */
  uint8_t week;     /* 1 to 52 or 53 */
  uint8_t week_day; /* 1 (Monday) to 7 */
} tz_week_date;

/* Which date time a local time means. In a fold, where clocks go back: the first by TZ_COMPATIBLE and TZ_EARLIER, the last by TZ_LATER. In a gap, over
   which they jump: as much later as they jump by TZ_COMPATIBLE and TZ_LATER, as much earlier by TZ_EARLIER. By TZ_REJECT none, TZ_NO_DATE_TIME, in both.
   If clocks show it and also jump over it: the first that they show by TZ_COMPATIBLE, the first and the last entry of `tz_find_n` by TZ_EARLIER and
   TZ_LATER, where a jump means what it means in a gap, and none by TZ_REJECT. If they jump over it twice and never show it: what it means in the gap of
   the last jump by TZ_COMPATIBLE and TZ_LATER, and of the first jump by TZ_EARLIER; none by TZ_REJECT. */
enum { TZ_COMPATIBLE = 0, TZ_EARLIER = 1, TZ_LATER = 2, TZ_REJECT = 3 };

/* ---- Local time types and rules ------------------------------------------------------------------------------------------------------- */

/* A type. The name has 1 to 7 bytes of 0-9A-Za-z+-; without `has_name` the bytes are not read.
   TZ_INVALID_UTC_OFFSET (INT32_MIN), TZ_INVALID_TIME_ZONE_DESIGNATION_LENGTH, TZ_INVALID_TIME_ZONE_DESIGNATION_CHAR, in this order. */
tz_code tz_local_time_type_new(int32_t ut_offset, bool is_dst, bool has_name, const char *name, size_t name_length, tz_local_time_type *out);

/* The n-th of the days that are not February 29th, 1 to 365. TZ_INVALID_RULE_DAY_JULIAN_DAY. */
tz_code tz_julian_1_new(uint16_t julian_day_1, tz_day *out);

/* The day n days after January 1st, 0 to 365. TZ_INVALID_RULE_DAY_JULIAN_DAY. */
tz_code tz_julian_0_new(uint16_t julian_day_0, tz_day *out);

/* A week day of a month. TZ_INVALID_RULE_DAY_MONTH, TZ_INVALID_RULE_DAY_WEEK, TZ_INVALID_RULE_DAY_WEEK_DAY, in this order. */
tz_code tz_month_week_day_new(uint8_t month, uint8_t week, uint8_t week_day, tz_day *out);

/* The rule of these parts. Times are less than a week either way, offsets above -25 and below 26 hours.
   TZ_INVALID_STD_UTC_OFFSET, TZ_INVALID_DST_UTC_OFFSET, TZ_INVALID_DST_START_END_TIME, TZ_INCONSISTENT_RULE, in this order. */
tz_code tz_alternate_new(const tz_local_time_type *std, const tz_local_time_type *dst, const tz_day *dst_start, int32_t dst_start_time,
                         const tz_day *dst_end, int32_t dst_end_time, tz_alternate *out);

/* Why parts in range make no rule. TZ_NO_CONFLICT if they make one, or if a part is out of range. */
tz_code tz_alternate_conflict(const tz_local_time_type *std, const tz_local_time_type *dst, const tz_day *dst_start, int32_t dst_start_time,
                              const tz_day *dst_end, int32_t dst_end_time, tz_conflict *out);

/* The type of a rule at an instant in Unix seconds; `fixed` goes first if both lists have an entry. TZ_NO_RULE, TZ_OUT_OF_RANGE. */
tz_code tz_rule_type_at(const tz_local_time_type *fixed, size_t fixed_length, const tz_alternate *alternate, size_t alternate_length,
                        int64_t unix_time, tz_local_time_type *out);

/* The TZ string of a rule, and its length; it has at most 114 bytes, and no zero follows it. TZ_NO_RULE, TZ_NO_TZ_STRING, TZ_BUFFER_LENGTH. */
tz_code tz_rule_text(const tz_local_time_type *fixed, size_t fixed_length, const tz_alternate *alternate, size_t alternate_length, char *text,
                     size_t text_length, size_t *length);

/* ---- Files, TZ strings, settings ------------------------------------------------------------------------------------------------------ */

/* The sizes of a TZif file, by its headers alone. (RFC 8536) TZ_FILE_... */
tz_code tz_file_sizes(const uint8_t *bytes, size_t bytes_length, tz_sizes *out);

/* The parts of a TZif file, and the least and the greatest offset of its zone. The three lengths are those of `tz_file_sizes`.
   TZ_BUFFER_LENGTH, TZ_FILE_..., TZ_STRING_... (of the footer), the codes of local time types, rules and `tz_zone_check`, TZ_MEMORY.
   The call takes memory by malloc and gives it back. */
tz_code tz_file_read(const uint8_t *bytes, size_t bytes_length, tz_transition *transitions, size_t transitions_length,
                     tz_local_time_type *types, size_t types_length, tz_leap_second *leap_seconds, size_t leap_seconds_length, tz_rule *rule,
                     tz_offsets *offsets);

/* The rule of a TZ string, ordinary or extended (hours from -167 to 167), without white space at its ends. (POSIX.1-2017, 8.3; RFC 8536,
   3.3.1) TZ_STRING_..., the codes of local time types, days and rules. */
tz_code tz_string_read(const char *text, size_t text_length, bool is_extended, tz_rule *out);

/* What a setting asks for. TZ_STRING_EMPTY. */
tz_code tz_setting_read(const char *text, size_t text_length, tz_setting *out);

/* Whether a text, as one from a user, is a name of a time zone: parts of ASCII letters, digits, `.`, `_`, `+` and `-`, with `/` between them, and none of
   them `.` or `..`. So it is the path of a file below a directory of zones; whether there is one it does not say. TZ_INVALID_NAME. */
tz_code tz_name_check(const char *name, size_t name_length);

/* Checks that parts make a zone, and writes its least and greatest offset. A zone of a rule needs a type in `types`, too.
   TZ_NO_LOCAL_TIME_TYPE, for each transition in turn TZ_INVALID_LOCAL_TIME_TYPE_INDEX and TZ_INVALID_TRANSITION, TZ_INVALID_LEAP_SECOND,
   TZ_OUT_OF_RANGE or TZ_INCONSISTENT_EXTRA_RULE, in this order. */
tz_code tz_zone_check(const tz_parts *parts, tz_offsets *offsets);

/* ---- Zones ---------------------------------------------------------------------------------------------------------------------------- */

/* The type of the zone's clock at an instant. TZ_NO_AVAILABLE_LOCAL_TIME_TYPE, TZ_OUT_OF_RANGE. */
tz_code tz_zone_type_at(const tz_zone *zone, int64_t unix_time, tz_local_time_type *out);

/* The place of that type: below `types_length` that of a type of the list, `types_length` for the fixed type or standard time of the rule, and
   one more for its daylight saving time. If equal types stand at several places it is the first of these. TZ_NO_AVAILABLE_LOCAL_TIME_TYPE, TZ_OUT_OF_RANGE. */
tz_code tz_zone_place_at(const tz_zone *zone, int64_t unix_time, size_t *place);

/* The segment around an instant. Returns TZ_OK. */
tz_code tz_zone_segment_at(const tz_zone *zone, int64_t unix_time, tz_segment *out);

/* The first change after an instant. TZ_NO_CHANGE. */
tz_code tz_zone_following(const tz_zone *zone, int64_t unix_time, tz_change *out);

/* The last change before an instant. TZ_NO_CHANGE. */
tz_code tz_zone_preceding(const tz_zone *zone, int64_t unix_time, tz_change *out);

/* The leap time of an instant, and the least instant at which a leap time is reached. TZ_OUT_OF_RANGE; of INT64_MIN `tz_zone_effect` always returns
   that. */
tz_code tz_zone_leap_time(const tz_zone *zone, int64_t unix_time, int64_t *leap_time);
tz_code tz_zone_effect(const tz_zone *zone, int64_t leap_time, int64_t *unix_time);

/* ---- Date times ----------------------------------------------------------------------------------------------------------------------- */

/* The date time of UTC with these fields. TZ_OUT_OF_RANGE (second 60 of the last minute), the first field out of range by its code,
   TZ_INVALID_MONTH_DAY. */
tz_code tz_utc_new(const tz_fields *fields, tz_utc *out);

/* The date time of UTC at an instant. TZ_INVALID_NANOSECONDS, or else TZ_OUT_OF_RANGE. */
tz_code tz_utc_from_timespec(int64_t unix_time, uint32_t nanoseconds, tz_utc *out);

/* The date time a duration later, or earlier. TZ_INVALID_NANOSECONDS, or else TZ_OUT_OF_RANGE. */
tz_code tz_utc_add(const tz_utc *utc, uint64_t seconds, uint32_t nanoseconds, tz_utc *out);
tz_code tz_utc_sub(const tz_utc *utc, uint64_t seconds, uint32_t nanoseconds, tz_utc *out);

/* The week day, 0 (Sunday) to 6. */
uint8_t tz_utc_week_day(const tz_utc *utc);
uint8_t tz_date_time_week_day(const tz_date_time *date_time);

/* The days since January 1st, 0 to 365. */
uint16_t tz_utc_year_day(const tz_utc *utc);
uint16_t tz_date_time_year_day(const tz_date_time *date_time);

/* The date time with these fields, which the type shows. The first field out of range by its code, TZ_INVALID_MONTH_DAY, TZ_OUT_OF_RANGE. */
tz_code tz_date_time_new(const tz_fields *fields, const tz_local_time_type *local_time_type, tz_date_time *out);

/* What the type shows at an instant. TZ_INVALID_NANOSECONDS, or else TZ_OUT_OF_RANGE. */
tz_code tz_date_time_from_timespec_and_local(int64_t unix_time, uint32_t nanoseconds, const tz_local_time_type *local_time_type,
                                             tz_date_time *out);

/* What the zone's clock shows at an instant. TZ_INVALID_NANOSECONDS, or else the codes of `tz_zone_type_at`, or else TZ_OUT_OF_RANGE. */
tz_code tz_date_time_from_timespec(int64_t unix_time, uint32_t nanoseconds, const tz_zone *zone, tz_date_time *out);

/* The date time of UTC at the same instant. TZ_OUT_OF_RANGE. */
tz_code tz_date_time_to_utc(const tz_date_time *date_time, tz_utc *out);

/* ---- Dates ---------------------------------------------------------------------------------------------------------------------------- */

/* The instant at which a date begins in the zone: the least one at which clocks show the date. That is mostly midnight; but clocks may skip midnight,
   show it twice, or be set back from the next day. TZ_INVALID_MONTH or TZ_INVALID_MONTH_DAY; TZ_NO_DATE_TIME if clocks skip the date whole, as when an
   island crosses the date line; if the zone has no type at any instant at which clocks could show the date, the code of `tz_zone_type_at` at the first
   of these. */
tz_code tz_zone_start_of_day(const tz_zone *zone, const tz_date *date, int64_t *unix_time);

/* The same day of the month this many months later, or earlier if they are negative; the last day of a month that has fewer days. So that a series of
   dates does not stay there, add the months of each to the first date. TZ_INVALID_MONTH or TZ_INVALID_MONTH_DAY, or else TZ_OUT_OF_RANGE: the year is
   outside 32 bits. */
tz_code tz_date_add_months(const tz_date *date, int32_t months, tz_date *out);

/* The week date of a date. TZ_INVALID_MONTH or TZ_INVALID_MONTH_DAY, or else TZ_OUT_OF_RANGE: the year of the week is outside 32 bits. */
tz_code tz_date_week_date(const tz_date *date, tz_week_date *out);

/* The date with a week date. TZ_OUT_OF_RANGE: the year has no such week, the week day is not 1 to 7, or the year of the date is outside 32 bits. */
tz_code tz_date_from_week_date(const tz_week_date *week_date, tz_date *out);

/* ---- Search --------------------------------------------------------------------------------------------------------------------------- */

/* Everything that the fields mean in the zone, in order of Unix time: each instant at which clocks show them, and each jump over them. `count`
   is how many there are; those from number `skip` on go to the slots, as far as these go, and the other slots stay as they are.
   The first field out of range by its code, TZ_INVALID_MONTH_DAY, TZ_OUT_OF_RANGE. */
tz_code tz_find_n(const tz_fields *fields, const tz_zone *zone, size_t skip, tz_found *slots, size_t slots_length, size_t *count);

/* The one date time that the fields mean by a choice. TZ_UNKNOWN_CHOICE, the codes of `tz_find_n`, TZ_NO_DATE_TIME, and for a gap those of
   `tz_date_time_from_timespec`. */
tz_code tz_find_one(const tz_fields *fields, uint8_t choice, const tz_zone *zone, tz_date_time *out);

/* ---- Columns -------------------------------------------------------------------------------------------------------------------------- */

/* Each of these calls answers a whole column. Place i of `codes` gets the code that the call for one value would return: if it is TZ_OK, place i of
   the column that is written to gets the value, and else stays as it is. All columns have one length: if they differ the call returns
   TZ_BUFFER_LENGTH, or TZ_UNKNOWN_CHOICE if the choice is unknown too, and nothing is written. Instants and readings may come in any order. Those in
   order are fastest, since a span of instants in which the clock does not change is searched once, and the date of a day is found once. */

/* The offsets of the zone's clock at instants, in seconds. Returns TZ_OK or TZ_BUFFER_LENGTH, and writes the codes of `tz_zone_type_at`. */
tz_code tz_column_offsets(const int64_t *unix_times, size_t unix_times_length, const tz_zone *zone, int32_t *offsets, size_t offsets_length,
                          tz_code *codes, size_t codes_length);

/* What the zone's clock shows at instants. The slots hold TZ_DATE_TIME_EPOCH, zeros or earlier date times. Returns TZ_OK or TZ_BUFFER_LENGTH, and
   writes the codes of `tz_date_time_from_timespec`. */
tz_code tz_column_date_times(const int64_t *unix_times, size_t unix_times_length, const uint32_t *nanoseconds, size_t nanoseconds_length,
                             const tz_zone *zone, tz_date_time *date_times, size_t date_times_length, tz_code *codes, size_t codes_length);

/* The instants that fields mean by a choice, as `tz_find_one` finds them. Returns TZ_OK, TZ_UNKNOWN_CHOICE or TZ_BUFFER_LENGTH, and writes the codes
   of `tz_find_one`. */
tz_code tz_column_instants(const tz_fields *fields, size_t fields_length, uint8_t choice, const tz_zone *zone, int64_t *unix_times,
                           size_t unix_times_length, tz_code *codes, size_t codes_length);

/* The instants that readings mean by a choice. A reading is a local time as a number: the seconds that the zone's clock shows, counted from
   1970-01-01T00:00:00 as if its offset were zero. Its answer is that of `tz_column_instants` for its fields with nanoseconds 0, or TZ_OUT_OF_RANGE
   if its year is outside 32 bits. Returns TZ_OK, TZ_UNKNOWN_CHOICE or TZ_BUFFER_LENGTH, and writes the codes of `tz_find_one`. */
tz_code tz_column_instants_of_readings(const int64_t *readings, size_t readings_length, uint8_t choice, const tz_zone *zone, int64_t *unix_times,
                                       size_t unix_times_length, tz_code *codes, size_t codes_length);

/* ---- Text ----------------------------------------------------------------------------------------------------------------------------- */

/* `year-MM-DDThh:mm:ss.nnnnnnnnn` and `Z` or the offset, and its length: at most 53 bytes, and no zero follows them. TZ_BUFFER_LENGTH. */
tz_code tz_utc_text(const tz_utc *utc, char *text, size_t text_length, size_t *length);
tz_code tz_date_time_text(const tz_date_time *date_time, char *text, size_t text_length, size_t *length);

/* What a text of a date time says, in the form of RFC 3339 (section 5.6) with a fraction of nine digits at most, years and offsets as these calls write
   them, and with or without an offset: `2000-02-29T23:59:60.5+01:00`. The text is the whole, without white space at its ends. TZ_EXPECTED_... */
tz_code tz_date_time_read(const char *text, size_t text_length, tz_parsed *out);

/* A pattern is a text in UTF-8 whose conversions print a part of a date time, and whose other bytes stand for themselves. Names are English, as those of
   strftime in the locale "C".

   %Y %y        the year, of four digits at least and with `-` before one below 0, and its last two digits, which grow in years below 0 too:
                98 in the year -2, 99 in -1, 00 in 0
   %m %B %b %h  the month, 01 to 12, its name, and the first three letters of that
   %d %e %j     the day of the month, 01 to 31, and with a space in the place of a first zero; the day of the year, 001 to 366
   %H %k        the hour, 00 to 23, and with a space in the place of a first zero
   %I %p        the hour of a clock of twelve hours, 01 to 12, and AM or PM
   %M %S        the minute, and the second, 00 to 60
   %3f %6f %9f  the fraction of the second, cut to so many digits; after a point %.3f %.6f %.9f
   %A %a        the name of the week day, and its first three letters
   %u %w        its number, 1 to 7 from Monday, and 0 to 6 from Sunday
   %V %G %g     the week of ISO 8601, 01 to 53, its year, and the last two digits of that
   %U %W        the week of the year, 00 to 53, of weeks from Sunday, and from Monday
   %s           the Unix time
   %z %:z       the offset from UTC as +hhmm and +hh:mm, its seconds dropped
   %Z           the name of the local time type, or the offset as %:z if there is none; of a `tz_utc` UTC
   %F %D %T %R  %Y-%m-%d, %m/%d/%y, %H:%M:%S and %H:%M
   %n %t %%     a line feed, a tab and %

   Unlike strftime, a call refuses everything else after a %, writes no zero at the end, and tells a text of no bytes from a buffer that is too short. */
#define TZ_RFC_2822 "%a, %d %b %Y %H:%M:%S %z"
#define TZ_RFC_3339_MILLIS "%Y-%m-%dT%H:%M:%S%.3f%:z"
#define TZ_COMMON_LOG "%d/%b/%Y:%H:%M:%S %z"
#define TZ_HTTP_DATE "%a, %d %b %Y %H:%M:%S GMT"

/* The date time as a pattern prints it, and its length: at most 128 bytes, and no zero follows them. TZ_HTTP_DATE names UTC, so for a `tz_date_time` it is
   refused: `tz_date_time_to_utc` comes before. TZ_PATTERN_UTF8, TZ_PATTERN_UNKNOWN_CONVERSION, TZ_PATTERN_TOO_LONG or TZ_PATTERN_OF_UTC, or else
   TZ_BUFFER_LENGTH. */
tz_code tz_date_time_format(const tz_date_time *date_time, const char *pattern, size_t pattern_length, char *text, size_t text_length, size_t *length);
tz_code tz_utc_format(const tz_utc *utc, const char *pattern, size_t pattern_length, char *text, size_t text_length, size_t *length);

/* The local time and the offset of a text that the pattern prints: of years from 0 to 9999, and offsets of whole minutes below 100 hours. What the pattern
   does not show is zero, so it shows the month and the day of the month, or no text is read. What does not determine the date time, as the week day, has to
   agree with it. TZ_PATTERN_UTF8, TZ_PATTERN_UNKNOWN_CONVERSION, TZ_PATTERN_TOO_LONG; TZ_PATTERN_NOT_READABLE if the pattern has %G, %s or %Z, or %I or %p
   without the other or the hour, %y or %D without the year, or %g or %j without the date; or else TZ_PATTERN_MISMATCH. */
tz_code tz_pattern_read(const char *pattern, size_t pattern_length, const char *text, size_t text_length, tz_parsed *out);

/* Writes what a code says, and its length: at most 128 bytes, and no zero follows them. TZ_UNKNOWN_CODE, TZ_BUFFER_LENGTH. */
tz_code tz_error_text(tz_code code, char *text, size_t text_length, size_t *length);

/* ---- Layout --------------------------------------------------------------------------------------------------------------------------- */

/* TZ_ABI, and the sizes in bytes of the types above in their order: tz_local_time_type, tz_day, tz_alternate, tz_rule, tz_conflict,
   tz_transition, tz_leap_second, tz_parts, tz_offsets, tz_zone, tz_fields, tz_utc, tz_date_time, tz_found, tz_segment, tz_change, tz_sizes,
   tz_setting, tz_parsed. They are 20 numbers, TZ_LAYOUT_LENGTH, without tz_date and tz_week_date, which are newer. TZ_BUFFER_LENGTH if the buffer
   has another length. */
#define TZ_LAYOUT_LENGTH 20
tz_code tz_layout(size_t *out, size_t out_length);

#ifdef __cplusplus
}
#endif

#endif
