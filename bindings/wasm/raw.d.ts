// Generated from bindings/c/tz.h and tz_zones.h by bindings/wasm/generate. Change these instead.

export declare const VERSION: string;
export declare const ABI: number;

export type CodeName =
  | 'OK'
  | 'OUT_OF_RANGE'
  | 'NO_AVAILABLE_LOCAL_TIME_TYPE'
  | 'NO_RULE'
  | 'NO_CHANGE'
  | 'NO_DATE_TIME'
  | 'NO_TZ_STRING'
  | 'NO_CONFLICT'
  | 'BUFFER_LENGTH'
  | 'UNKNOWN_CHOICE'
  | 'UNKNOWN_CODE'
  | 'INVALID_NAME'
  | 'INVALID_MONTH'
  | 'INVALID_MONTH_DAY'
  | 'INVALID_HOUR'
  | 'INVALID_MINUTE'
  | 'INVALID_SECOND'
  | 'INVALID_NANOSECONDS'
  | 'INVALID_TIME_ZONE_DESIGNATION_LENGTH'
  | 'INVALID_TIME_ZONE_DESIGNATION_CHAR'
  | 'INVALID_UTC_OFFSET'
  | 'INVALID_RULE_DAY_JULIAN_DAY'
  | 'INVALID_RULE_DAY_MONTH'
  | 'INVALID_RULE_DAY_WEEK'
  | 'INVALID_RULE_DAY_WEEK_DAY'
  | 'INVALID_STD_UTC_OFFSET'
  | 'INVALID_DST_UTC_OFFSET'
  | 'INVALID_DST_START_END_TIME'
  | 'INCONSISTENT_RULE'
  | 'NO_LOCAL_TIME_TYPE'
  | 'INVALID_LOCAL_TIME_TYPE_INDEX'
  | 'INVALID_TRANSITION'
  | 'INVALID_LEAP_SECOND'
  | 'INCONSISTENT_EXTRA_RULE'
  | 'STRING_UTF8'
  | 'STRING_PARSE_INT_EMPTY'
  | 'STRING_UNEXPECTED_EOF'
  | 'STRING_INVALID_DATA'
  | 'STRING_INVALID_OFFSET_HOUR'
  | 'STRING_INVALID_OFFSET_MINUTE'
  | 'STRING_INVALID_OFFSET_SECOND'
  | 'STRING_INVALID_DAY_TIME_HOUR'
  | 'STRING_INVALID_DAY_TIME_MINUTE'
  | 'STRING_INVALID_DAY_TIME_SECOND'
  | 'STRING_MISSING_DST_START_END_RULES'
  | 'STRING_REMAINING_DATA'
  | 'STRING_EMPTY'
  | 'STRING_PARSE_INT_OVERFLOW'
  | 'FILE_UTF8'
  | 'FILE_UNEXPECTED_EOF'
  | 'FILE_INVALID_DATA'
  | 'FILE_INVALID_MAGIC_NUMBER'
  | 'FILE_UNSUPPORTED_VERSION'
  | 'FILE_INVALID_HEADER'
  | 'FILE_INVALID_FOOTER'
  | 'FILE_INVALID_DST_INDICATOR'
  | 'FILE_INVALID_DESIGNATION_CHAR_INDEX'
  | 'FILE_INVALID_STD_WALL_UT_LOCAL'
  | 'FILE_REMAINING_DATA_V1'
  | 'EXPECTED_YEAR'
  | 'EXPECTED_HYPHEN'
  | 'EXPECTED_MONTH'
  | 'EXPECTED_MONTH_DAY'
  | 'EXPECTED_SEPARATOR'
  | 'EXPECTED_HOUR'
  | 'EXPECTED_COLON'
  | 'EXPECTED_MINUTE'
  | 'EXPECTED_SECOND'
  | 'EXPECTED_FRACTION'
  | 'EXPECTED_OFFSET'
  | 'EXPECTED_OFFSET_HOUR'
  | 'EXPECTED_OFFSET_MINUTE'
  | 'EXPECTED_OFFSET_SECOND'
  | 'EXPECTED_END'
  | 'PATTERN_UTF8'
  | 'PATTERN_UNKNOWN_CONVERSION'
  | 'PATTERN_TOO_LONG'
  | 'PATTERN_OF_UTC'
  | 'PATTERN_NOT_READABLE'
  | 'PATTERN_MISMATCH'
  | 'MEMORY';
/** What a function returns: one of `codes`. */
export type Code = number;
export declare const codes: Readonly<Record<CodeName, Code>>;
export declare const constants: Readonly<Record<
  | 'JULIAN_0'
  | 'JULIAN_1'
  | 'MONTH_WEEK_DAY'
  | 'NONE'
  | 'FIXED'
  | 'ALTERNATE'
  | 'LOCAL_TIME'
  | 'FILE'
  | 'FILE_OR_STRING'
  | 'COMPATIBLE'
  | 'EARLIER'
  | 'LATER'
  | 'REJECT',
  number
>>;

/** The size of each struct, and where its fields are, in bytes. */
export declare const layout: {
  readonly tz_local_time_type: Readonly<Record<'size' | 'ut_offset' | 'is_dst' | 'designation' | 'designation_length', number>>;
  readonly tz_day: Readonly<Record<'size' | 'number' | 'kind' | 'month' | 'week' | 'week_day', number>>;
  readonly tz_alternate: Readonly<Record<'size' | 'types' | 'dst_start' | 'dst_start_time' | 'dst_end' | 'dst_end_time' | 'ends_next_year' | 'has_inner_switches' | 'starts' | 'ends', number>>;
  readonly tz_rule: Readonly<Record<'size' | 'kind' | 'fixed' | 'alternate', number>>;
  readonly tz_conflict: Readonly<Record<'size' | 'first_year' | 'second_year' | 'distance', number>>;
  readonly tz_transition: Readonly<Record<'size' | 'unix_leap_time' | 'local_time_type_index', number>>;
  readonly tz_leap_second: Readonly<Record<'size' | 'unix_leap_time' | 'correction', number>>;
  readonly tz_parts: Readonly<Record<'size' | 'transitions' | 'transitions_length' | 'types' | 'types_length' | 'leap_seconds' | 'leap_seconds_length' | 'fixed' | 'fixed_length' | 'alternate' | 'alternate_length', number>>;
  readonly tz_offsets: Readonly<Record<'size' | 'least' | 'greatest', number>>;
  readonly tz_zone: Readonly<Record<'size' | 'parts' | 'offsets', number>>;
  readonly tz_fields: Readonly<Record<'size' | 'year' | 'month' | 'month_day' | 'hour' | 'minute' | 'second' | 'nanoseconds', number>>;
  readonly tz_utc: Readonly<Record<'size' | 'fields' | 'unix_time', number>>;
  readonly tz_date_time: Readonly<Record<'size' | 'fields' | 'local_time_type' | 'unix_time', number>>;
  readonly tz_found: Readonly<Record<'size' | 'is_skipped' | 'before' | 'after', number>>;
  readonly tz_segment: Readonly<Record<'size' | 'from' | 'last' | 'has_type' | 'local_time_type', number>>;
  readonly tz_change: Readonly<Record<'size' | 'unix_time' | 'before' | 'after', number>>;
  readonly tz_sizes: Readonly<Record<'size' | 'transitions' | 'types' | 'leap_seconds' | 'footer', number>>;
  readonly tz_setting: Readonly<Record<'size' | 'kind' | 'from' | 'until', number>>;
  readonly tz_parsed: Readonly<Record<'size' | 'local' | 'ut_offset' | 'has_offset', number>>;
  readonly tz_date: Readonly<Record<'size' | 'year' | 'month' | 'month_day', number>>;
  readonly tz_week_date: Readonly<Record<'size' | 'year' | 'week' | 'week_day', number>>;
};

/** A place in the module's memory, of a value of C's type T or of several. */
export type Pointer<T extends string> = number;

/**
 * The functions of a module, as the headers of C declare them. What they ask of a caller, the first
 * lines of tz.h say. Each of them may be called with places that `tz_wasm_alloc` returned.
 */
export interface Functions {
  readonly memory: WebAssembly.Memory;
  /**
   * Takes memory for so many bytes, aligned to 16; 0 if there is none. The memory may grow, which
   * detaches all views of its buffer.
   */
  tz_wasm_alloc(size: number): Pointer<'void'>;
  /** Gives memory back that was taken for this size. */
  tz_wasm_free(place: Pointer<'void'>, size: number): void;
  /**
   * A type. The name has 1 to 7 bytes of 0-9A-Za-z+-; without `has_name` the bytes are not read.
   * TZ_INVALID_UTC_OFFSET (INT32_MIN), TZ_INVALID_TIME_ZONE_DESIGNATION_LENGTH,
   * TZ_INVALID_TIME_ZONE_DESIGNATION_CHAR, in this order.
   */
  tz_local_time_type_new(ut_offset: number, is_dst: boolean | number, has_name: boolean | number, name: Pointer<'char'>, name_length: number, out: Pointer<'tz_local_time_type'>): Code;
  /** The n-th of the days that are not February 29th, 1 to 365. TZ_INVALID_RULE_DAY_JULIAN_DAY. */
  tz_julian_1_new(julian_day_1: number, out: Pointer<'tz_day'>): Code;
  /** The day n days after January 1st, 0 to 365. TZ_INVALID_RULE_DAY_JULIAN_DAY. */
  tz_julian_0_new(julian_day_0: number, out: Pointer<'tz_day'>): Code;
  /**
   * A week day of a month. TZ_INVALID_RULE_DAY_MONTH, TZ_INVALID_RULE_DAY_WEEK,
   * TZ_INVALID_RULE_DAY_WEEK_DAY, in this order.
   */
  tz_month_week_day_new(month: number, week: number, week_day: number, out: Pointer<'tz_day'>): Code;
  /**
   * The rule of these parts. Times are less than a week either way, offsets above -25 and below 26
   * hours. TZ_INVALID_STD_UTC_OFFSET, TZ_INVALID_DST_UTC_OFFSET, TZ_INVALID_DST_START_END_TIME,
   * TZ_INCONSISTENT_RULE, in this order.
   */
  tz_alternate_new(std: Pointer<'tz_local_time_type'>, dst: Pointer<'tz_local_time_type'>, dst_start: Pointer<'tz_day'>, dst_start_time: number, dst_end: Pointer<'tz_day'>, dst_end_time: number, out: Pointer<'tz_alternate'>): Code;
  /** Why parts in range make no rule. TZ_NO_CONFLICT if they make one, or if a part is out of range. */
  tz_alternate_conflict(std: Pointer<'tz_local_time_type'>, dst: Pointer<'tz_local_time_type'>, dst_start: Pointer<'tz_day'>, dst_start_time: number, dst_end: Pointer<'tz_day'>, dst_end_time: number, out: Pointer<'tz_conflict'>): Code;
  /**
   * The type of a rule at an instant in Unix seconds; `fixed` goes first if both lists have an
   * entry. TZ_NO_RULE, TZ_OUT_OF_RANGE.
   */
  tz_rule_type_at(fixed: Pointer<'tz_local_time_type'>, fixed_length: number, alternate: Pointer<'tz_alternate'>, alternate_length: number, unix_time: bigint, out: Pointer<'tz_local_time_type'>): Code;
  /**
   * The TZ string of a rule, and its length; it has at most 114 bytes, and no zero follows it.
   * TZ_NO_RULE, TZ_NO_TZ_STRING, TZ_BUFFER_LENGTH.
   */
  tz_rule_text(fixed: Pointer<'tz_local_time_type'>, fixed_length: number, alternate: Pointer<'tz_alternate'>, alternate_length: number, text: Pointer<'char'>, text_length: number, length: Pointer<'size_t'>): Code;
  /** The sizes of a TZif file, by its headers alone. (RFC 8536) TZ_FILE_... */
  tz_file_sizes(bytes: Pointer<'uint8_t'>, bytes_length: number, out: Pointer<'tz_sizes'>): Code;
  /**
   * The parts of a TZif file, and the least and the greatest offset of its zone. The three lengths
   * are those of `tz_file_sizes`. TZ_BUFFER_LENGTH, TZ_FILE_..., TZ_STRING_... (of the footer), the
   * codes of local time types, rules and `tz_zone_check`, TZ_MEMORY. The call takes memory by
   * malloc and gives it back.
   */
  tz_file_read(bytes: Pointer<'uint8_t'>, bytes_length: number, transitions: Pointer<'tz_transition'>, transitions_length: number, types: Pointer<'tz_local_time_type'>, types_length: number, leap_seconds: Pointer<'tz_leap_second'>, leap_seconds_length: number, rule: Pointer<'tz_rule'>, offsets: Pointer<'tz_offsets'>): Code;
  /**
   * The rule of a TZ string, ordinary or extended (hours from -167 to 167), without white space at
   * its ends. (POSIX.1-2017, 8.3; RFC 8536, 3.3.1) TZ_STRING_..., the codes of local time types,
   * days and rules.
   */
  tz_string_read(text: Pointer<'char'>, text_length: number, is_extended: boolean | number, out: Pointer<'tz_rule'>): Code;
  /** What a setting asks for. TZ_STRING_EMPTY. */
  tz_setting_read(text: Pointer<'char'>, text_length: number, out: Pointer<'tz_setting'>): Code;
  /**
   * Whether a text, as one from a user, is a name of a time zone: parts of ASCII letters, digits,
   * `.`, `_`, `+` and `-`, with `/` between them, and none of them `.` or `..`. So it is the path
   * of a file below a directory of zones; whether there is one it does not say. TZ_INVALID_NAME.
   */
  tz_name_check(name: Pointer<'char'>, name_length: number): Code;
  /**
   * Checks that parts make a zone, and writes its least and greatest offset. A zone of a rule needs
   * a type in `types`, too. TZ_NO_LOCAL_TIME_TYPE, for each transition in turn
   * TZ_INVALID_LOCAL_TIME_TYPE_INDEX and TZ_INVALID_TRANSITION, TZ_INVALID_LEAP_SECOND,
   * TZ_OUT_OF_RANGE or TZ_INCONSISTENT_EXTRA_RULE, in this order.
   */
  tz_zone_check(parts: Pointer<'tz_parts'>, offsets: Pointer<'tz_offsets'>): Code;
  /** The type of the zone's clock at an instant. TZ_NO_AVAILABLE_LOCAL_TIME_TYPE, TZ_OUT_OF_RANGE. */
  tz_zone_type_at(zone: Pointer<'tz_zone'>, unix_time: bigint, out: Pointer<'tz_local_time_type'>): Code;
  /**
   * The place of that type: below `types_length` that of a type of the list, `types_length` for the
   * fixed type or standard time of the rule, and one more for its daylight saving time. If equal
   * types stand at several places it is the first of these. TZ_NO_AVAILABLE_LOCAL_TIME_TYPE,
   * TZ_OUT_OF_RANGE.
   */
  tz_zone_place_at(zone: Pointer<'tz_zone'>, unix_time: bigint, place: Pointer<'size_t'>): Code;
  /** The segment around an instant. Returns TZ_OK. */
  tz_zone_segment_at(zone: Pointer<'tz_zone'>, unix_time: bigint, out: Pointer<'tz_segment'>): Code;
  /** The first change after an instant. TZ_NO_CHANGE. */
  tz_zone_following(zone: Pointer<'tz_zone'>, unix_time: bigint, out: Pointer<'tz_change'>): Code;
  /** The last change before an instant. TZ_NO_CHANGE. */
  tz_zone_preceding(zone: Pointer<'tz_zone'>, unix_time: bigint, out: Pointer<'tz_change'>): Code;
  /**
   * The leap time of an instant, and the least instant at which a leap time is reached.
   * TZ_OUT_OF_RANGE; of INT64_MIN `tz_zone_effect` always returns that.
   */
  tz_zone_leap_time(zone: Pointer<'tz_zone'>, unix_time: bigint, leap_time: Pointer<'int64_t'>): Code;
  /**
   * The leap time of an instant, and the least instant at which a leap time is reached.
   * TZ_OUT_OF_RANGE; of INT64_MIN `tz_zone_effect` always returns that.
   */
  tz_zone_effect(zone: Pointer<'tz_zone'>, leap_time: bigint, unix_time: Pointer<'int64_t'>): Code;
  /**
   * The date time of UTC with these fields. TZ_OUT_OF_RANGE (second 60 of the last minute), the
   * first field out of range by its code, TZ_INVALID_MONTH_DAY.
   */
  tz_utc_new(fields: Pointer<'tz_fields'>, out: Pointer<'tz_utc'>): Code;
  /** The date time of UTC at an instant. TZ_INVALID_NANOSECONDS, or else TZ_OUT_OF_RANGE. */
  tz_utc_from_timespec(unix_time: bigint, nanoseconds: number, out: Pointer<'tz_utc'>): Code;
  /** The date time a duration later, or earlier. TZ_INVALID_NANOSECONDS, or else TZ_OUT_OF_RANGE. */
  tz_utc_add(utc: Pointer<'tz_utc'>, seconds: bigint, nanoseconds: number, out: Pointer<'tz_utc'>): Code;
  /** The date time a duration later, or earlier. TZ_INVALID_NANOSECONDS, or else TZ_OUT_OF_RANGE. */
  tz_utc_sub(utc: Pointer<'tz_utc'>, seconds: bigint, nanoseconds: number, out: Pointer<'tz_utc'>): Code;
  /** The week day, 0 (Sunday) to 6. */
  tz_utc_week_day(utc: Pointer<'tz_utc'>): number;
  /** The week day, 0 (Sunday) to 6. */
  tz_date_time_week_day(date_time: Pointer<'tz_date_time'>): number;
  /** The days since January 1st, 0 to 365. */
  tz_utc_year_day(utc: Pointer<'tz_utc'>): number;
  /** The days since January 1st, 0 to 365. */
  tz_date_time_year_day(date_time: Pointer<'tz_date_time'>): number;
  /**
   * The date time with these fields, which the type shows. The first field out of range by its
   * code, TZ_INVALID_MONTH_DAY, TZ_OUT_OF_RANGE.
   */
  tz_date_time_new(fields: Pointer<'tz_fields'>, local_time_type: Pointer<'tz_local_time_type'>, out: Pointer<'tz_date_time'>): Code;
  /** What the type shows at an instant. TZ_INVALID_NANOSECONDS, or else TZ_OUT_OF_RANGE. */
  tz_date_time_from_timespec_and_local(unix_time: bigint, nanoseconds: number, local_time_type: Pointer<'tz_local_time_type'>, out: Pointer<'tz_date_time'>): Code;
  /**
   * What the zone's clock shows at an instant. TZ_INVALID_NANOSECONDS, or else the codes of
   * `tz_zone_type_at`, or else TZ_OUT_OF_RANGE.
   */
  tz_date_time_from_timespec(unix_time: bigint, nanoseconds: number, zone: Pointer<'tz_zone'>, out: Pointer<'tz_date_time'>): Code;
  /** The date time of UTC at the same instant. TZ_OUT_OF_RANGE. */
  tz_date_time_to_utc(date_time: Pointer<'tz_date_time'>, out: Pointer<'tz_utc'>): Code;
  /**
   * The instant at which a date begins in the zone: the least one at which clocks show the date.
   * That is mostly midnight; but clocks may skip midnight, show it twice, or be set back from the
   * next day. TZ_INVALID_MONTH or TZ_INVALID_MONTH_DAY; TZ_NO_DATE_TIME if clocks skip the date
   * whole, as when an island crosses the date line; if the zone has no type at any instant at which
   * clocks could show the date, the code of `tz_zone_type_at` at the first of these.
   */
  tz_zone_start_of_day(zone: Pointer<'tz_zone'>, date: Pointer<'tz_date'>, unix_time: Pointer<'int64_t'>): Code;
  /**
   * The same day of the month this many months later, or earlier if they are negative; the last day
   * of a month that has fewer days. So that a series of dates does not stay there, add the months
   * of each to the first date. TZ_INVALID_MONTH or TZ_INVALID_MONTH_DAY, or else TZ_OUT_OF_RANGE:
   * the year is outside 32 bits.
   */
  tz_date_add_months(date: Pointer<'tz_date'>, months: number, out: Pointer<'tz_date'>): Code;
  /**
   * The week date of a date. TZ_INVALID_MONTH or TZ_INVALID_MONTH_DAY, or else TZ_OUT_OF_RANGE: the
   * year of the week is outside 32 bits.
   */
  tz_date_week_date(date: Pointer<'tz_date'>, out: Pointer<'tz_week_date'>): Code;
  /**
   * The date with a week date. TZ_OUT_OF_RANGE: the year has no such week, the week day is not 1 to
   * 7, or the year of the date is outside 32 bits.
   */
  tz_date_from_week_date(week_date: Pointer<'tz_week_date'>, out: Pointer<'tz_date'>): Code;
  /**
   * Everything that the fields mean in the zone, in order of Unix time: each instant at which
   * clocks show them, and each jump over them. `count` is how many there are; those from number
   * `skip` on go to the slots, as far as these go, and the other slots stay as they are. The first
   * field out of range by its code, TZ_INVALID_MONTH_DAY, TZ_OUT_OF_RANGE.
   */
  tz_find_n(fields: Pointer<'tz_fields'>, zone: Pointer<'tz_zone'>, skip: number, slots: Pointer<'tz_found'>, slots_length: number, count: Pointer<'size_t'>): Code;
  /**
   * The one date time that the fields mean by a choice. TZ_UNKNOWN_CHOICE, the codes of
   * `tz_find_n`, TZ_NO_DATE_TIME, and for a gap those of `tz_date_time_from_timespec`.
   */
  tz_find_one(fields: Pointer<'tz_fields'>, choice: number, zone: Pointer<'tz_zone'>, out: Pointer<'tz_date_time'>): Code;
  /**
   * The offsets of the zone's clock at instants, in seconds. Returns TZ_OK or TZ_BUFFER_LENGTH, and
   * writes the codes of `tz_zone_type_at`.
   */
  tz_column_offsets(unix_times: Pointer<'int64_t'>, unix_times_length: number, zone: Pointer<'tz_zone'>, offsets: Pointer<'int32_t'>, offsets_length: number, codes: Pointer<'tz_code'>, codes_length: number): Code;
  /**
   * What the zone's clock shows at instants. The slots hold TZ_DATE_TIME_EPOCH, zeros or earlier
   * date times. Returns TZ_OK or TZ_BUFFER_LENGTH, and writes the codes of
   * `tz_date_time_from_timespec`.
   */
  tz_column_date_times(unix_times: Pointer<'int64_t'>, unix_times_length: number, nanoseconds: Pointer<'uint32_t'>, nanoseconds_length: number, zone: Pointer<'tz_zone'>, date_times: Pointer<'tz_date_time'>, date_times_length: number, codes: Pointer<'tz_code'>, codes_length: number): Code;
  /**
   * The instants that fields mean by a choice, as `tz_find_one` finds them. Returns TZ_OK,
   * TZ_UNKNOWN_CHOICE or TZ_BUFFER_LENGTH, and writes the codes of `tz_find_one`.
   */
  tz_column_instants(fields: Pointer<'tz_fields'>, fields_length: number, choice: number, zone: Pointer<'tz_zone'>, unix_times: Pointer<'int64_t'>, unix_times_length: number, codes: Pointer<'tz_code'>, codes_length: number): Code;
  /**
   * The instants that readings mean by a choice. A reading is a local time as a number: the seconds
   * that the zone's clock shows, counted from 1970-01-01T00:00:00 as if its offset were zero. Its
   * answer is that of `tz_column_instants` for its fields with nanoseconds 0, or TZ_OUT_OF_RANGE if
   * its year is outside 32 bits. Returns TZ_OK, TZ_UNKNOWN_CHOICE or TZ_BUFFER_LENGTH, and writes
   * the codes of `tz_find_one`.
   */
  tz_column_instants_of_readings(readings: Pointer<'int64_t'>, readings_length: number, choice: number, zone: Pointer<'tz_zone'>, unix_times: Pointer<'int64_t'>, unix_times_length: number, codes: Pointer<'tz_code'>, codes_length: number): Code;
  /**
   * `year-MM-DDThh:mm:ss.nnnnnnnnn` and `Z` or the offset, and its length: at most 53 bytes, and no
   * zero follows them. TZ_BUFFER_LENGTH.
   */
  tz_utc_text(utc: Pointer<'tz_utc'>, text: Pointer<'char'>, text_length: number, length: Pointer<'size_t'>): Code;
  /**
   * `year-MM-DDThh:mm:ss.nnnnnnnnn` and `Z` or the offset, and its length: at most 53 bytes, and no
   * zero follows them. TZ_BUFFER_LENGTH.
   */
  tz_date_time_text(date_time: Pointer<'tz_date_time'>, text: Pointer<'char'>, text_length: number, length: Pointer<'size_t'>): Code;
  /**
   * What a text of a date time says, in the form of RFC 3339 (section 5.6) with a fraction of nine
   * digits at most, years and offsets as these calls write them, and with or without an offset:
   * `2000-02-29T23:59:60.5+01:00`. The text is the whole, without white space at its ends.
   * TZ_EXPECTED_...
   */
  tz_date_time_read(text: Pointer<'char'>, text_length: number, out: Pointer<'tz_parsed'>): Code;
  /**
   * The date time as a pattern prints it, and its length: at most 128 bytes, and no zero follows
   * them. TZ_HTTP_DATE names UTC, so for a `tz_date_time` it is refused: `tz_date_time_to_utc`
   * comes before. TZ_PATTERN_UTF8, TZ_PATTERN_UNKNOWN_CONVERSION, TZ_PATTERN_TOO_LONG or
   * TZ_PATTERN_OF_UTC, or else TZ_BUFFER_LENGTH.
   */
  tz_date_time_format(date_time: Pointer<'tz_date_time'>, pattern: Pointer<'char'>, pattern_length: number, text: Pointer<'char'>, text_length: number, length: Pointer<'size_t'>): Code;
  /**
   * The date time as a pattern prints it, and its length: at most 128 bytes, and no zero follows
   * them. TZ_HTTP_DATE names UTC, so for a `tz_date_time` it is refused: `tz_date_time_to_utc`
   * comes before. TZ_PATTERN_UTF8, TZ_PATTERN_UNKNOWN_CONVERSION, TZ_PATTERN_TOO_LONG or
   * TZ_PATTERN_OF_UTC, or else TZ_BUFFER_LENGTH.
   */
  tz_utc_format(utc: Pointer<'tz_utc'>, pattern: Pointer<'char'>, pattern_length: number, text: Pointer<'char'>, text_length: number, length: Pointer<'size_t'>): Code;
  /**
   * The local time and the offset of a text that the pattern prints: of years from 0 to 9999, and
   * offsets of whole minutes below 100 hours. What the pattern does not show is zero, so it shows
   * the month and the day of the month, or no text is read. What does not determine the date time,
   * as the week day, has to agree with it. TZ_PATTERN_UTF8, TZ_PATTERN_UNKNOWN_CONVERSION,
   * TZ_PATTERN_TOO_LONG; TZ_PATTERN_NOT_READABLE if the pattern has %G, %s or %Z, or %I or %p
   * without the other or the hour, %y or %D without the year, or %g or %j without the date; or else
   * TZ_PATTERN_MISMATCH.
   */
  tz_pattern_read(pattern: Pointer<'char'>, pattern_length: number, text: Pointer<'char'>, text_length: number, out: Pointer<'tz_parsed'>): Code;
  /**
   * Writes what a code says, and its length: at most 128 bytes, and no zero follows them.
   * TZ_UNKNOWN_CODE, TZ_BUFFER_LENGTH.
   */
  tz_error_text(code: Code, text: Pointer<'char'>, text_length: number, length: Pointer<'size_t'>): Code;
  /**
   * TZ_ABI, and the sizes in bytes of the types above in their order: tz_local_time_type, tz_day,
   * tz_alternate, tz_rule, tz_conflict, tz_transition, tz_leap_second, tz_parts, tz_offsets,
   * tz_zone, tz_fields, tz_utc, tz_date_time, tz_found, tz_segment, tz_change, tz_sizes,
   * tz_setting, tz_parsed. They are 20 numbers, TZ_LAYOUT_LENGTH, without tz_date and tz_week_date,
   * which are newer. TZ_BUFFER_LENGTH if the buffer has another length.
   */
  tz_layout(out: Pointer<'size_t'>, out_length: number): Code;
  /**
   * Whether the database has the name, such as Europe/Paris; upper and lower case differ. If so,
   * writes the zone, whose parts lie in memory of the library; if not, writes nothing.
   */
  tz_built_in?(name: Pointer<'char'>, name_length: number, out: Pointer<'tz_zone'>): 0 | 1;
  /**
   * The name at a place, from 0 on in the order of bytes, and its length: at most 32 bytes, and no
   * zero follows them. TZ_OUT_OF_RANGE after the last name, TZ_BUFFER_LENGTH.
   */
  tz_built_in_name?(place: number, text: Pointer<'char'>, text_length: number, length: Pointer<'size_t'>): Code;
  /**
   * The version of the database, such as 2025b, and its length: at most 8 bytes, and no zero
   * follows them. TZ_BUFFER_LENGTH.
   */
  tz_built_in_version?(text: Pointer<'char'>, text_length: number, length: Pointer<'size_t'>): Code;
}

/** The functions of a module, once it has proved to be of this layout; or else a TypeError. */
export declare function functionsOf(instance: WebAssembly.Instance): Functions;
