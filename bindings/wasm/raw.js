// Generated from bindings/c/tz.h and tz_zones.h by bindings/wasm/generate. Change these instead.

/** The release, and the number of the layout. */
export const VERSION = '3.0.0';
export const ABI = 2;

/** The codes that a function returns, by their names without `TZ_`. */
export const codes = Object.freeze({
  OK: 0,
  OUT_OF_RANGE: 1,
  NO_AVAILABLE_LOCAL_TIME_TYPE: 2,
  NO_RULE: 3,
  NO_CHANGE: 4,
  NO_DATE_TIME: 5,
  NO_TZ_STRING: 6,
  NO_CONFLICT: 7,
  BUFFER_LENGTH: 8,
  UNKNOWN_CHOICE: 9,
  UNKNOWN_CODE: 10,
  INVALID_NAME: 11,
  INVALID_MONTH: 16,
  INVALID_MONTH_DAY: 17,
  INVALID_HOUR: 18,
  INVALID_MINUTE: 19,
  INVALID_SECOND: 20,
  INVALID_NANOSECONDS: 21,
  INVALID_TIME_ZONE_DESIGNATION_LENGTH: 32,
  INVALID_TIME_ZONE_DESIGNATION_CHAR: 33,
  INVALID_UTC_OFFSET: 34,
  INVALID_RULE_DAY_JULIAN_DAY: 48,
  INVALID_RULE_DAY_MONTH: 49,
  INVALID_RULE_DAY_WEEK: 50,
  INVALID_RULE_DAY_WEEK_DAY: 51,
  INVALID_STD_UTC_OFFSET: 52,
  INVALID_DST_UTC_OFFSET: 53,
  INVALID_DST_START_END_TIME: 54,
  INCONSISTENT_RULE: 55,
  NO_LOCAL_TIME_TYPE: 64,
  INVALID_LOCAL_TIME_TYPE_INDEX: 65,
  INVALID_TRANSITION: 66,
  INVALID_LEAP_SECOND: 67,
  INCONSISTENT_EXTRA_RULE: 68,
  STRING_UTF8: 80,
  STRING_PARSE_INT_EMPTY: 81,
  STRING_UNEXPECTED_EOF: 82,
  STRING_INVALID_DATA: 83,
  STRING_INVALID_OFFSET_HOUR: 84,
  STRING_INVALID_OFFSET_MINUTE: 85,
  STRING_INVALID_OFFSET_SECOND: 86,
  STRING_INVALID_DAY_TIME_HOUR: 87,
  STRING_INVALID_DAY_TIME_MINUTE: 88,
  STRING_INVALID_DAY_TIME_SECOND: 89,
  STRING_MISSING_DST_START_END_RULES: 90,
  STRING_REMAINING_DATA: 91,
  STRING_EMPTY: 92,
  STRING_PARSE_INT_OVERFLOW: 93,
  FILE_UTF8: 112,
  FILE_UNEXPECTED_EOF: 113,
  FILE_INVALID_DATA: 114,
  FILE_INVALID_MAGIC_NUMBER: 115,
  FILE_UNSUPPORTED_VERSION: 116,
  FILE_INVALID_HEADER: 117,
  FILE_INVALID_FOOTER: 118,
  FILE_INVALID_DST_INDICATOR: 119,
  FILE_INVALID_DESIGNATION_CHAR_INDEX: 120,
  FILE_INVALID_STD_WALL_UT_LOCAL: 121,
  FILE_REMAINING_DATA_V1: 122,
  EXPECTED_YEAR: 128,
  EXPECTED_HYPHEN: 129,
  EXPECTED_MONTH: 130,
  EXPECTED_MONTH_DAY: 131,
  EXPECTED_SEPARATOR: 132,
  EXPECTED_HOUR: 133,
  EXPECTED_COLON: 134,
  EXPECTED_MINUTE: 135,
  EXPECTED_SECOND: 136,
  EXPECTED_FRACTION: 137,
  EXPECTED_OFFSET: 138,
  EXPECTED_OFFSET_HOUR: 139,
  EXPECTED_OFFSET_MINUTE: 140,
  EXPECTED_OFFSET_SECOND: 141,
  EXPECTED_END: 142,
  PATTERN_UTF8: 144,
  PATTERN_UNKNOWN_CONVERSION: 145,
  PATTERN_TOO_LONG: 146,
  PATTERN_OF_UTC: 147,
  PATTERN_NOT_READABLE: 148,
  PATTERN_MISMATCH: 149,
  MEMORY: 255,
});

/** The other constants of the headers. */
export const constants = Object.freeze({
  JULIAN_0: 0,
  JULIAN_1: 1,
  MONTH_WEEK_DAY: 2,
  NONE: 0,
  FIXED: 1,
  ALTERNATE: 2,
  LOCAL_TIME: 0,
  FILE: 1,
  FILE_OR_STRING: 2,
  COMPATIBLE: 0,
  EARLIER: 1,
  LATER: 2,
  REJECT: 3,
});

/** The size of each struct, and where its fields are, in bytes. */
export const layout = Object.freeze({
  tz_local_time_type: Object.freeze({ size: 16, ut_offset: 0, is_dst: 4, designation: 5, designation_length: 12 }),
  tz_day: Object.freeze({ size: 6, number: 0, kind: 2, month: 3, week: 4, week_day: 5 }),
  tz_alternate: Object.freeze({ size: 172, types: 0, dst_start: 32, dst_start_time: 40, dst_end: 44, dst_end_time: 52, ends_next_year: 56, has_inner_switches: 57, starts: 60, ends: 116 }),
  tz_rule: Object.freeze({ size: 192, kind: 0, fixed: 4, alternate: 20 }),
  tz_conflict: Object.freeze({ size: 12, first_year: 0, second_year: 4, distance: 8 }),
  tz_transition: Object.freeze({ size: 16, unix_leap_time: 0, local_time_type_index: 8 }),
  tz_leap_second: Object.freeze({ size: 16, unix_leap_time: 0, correction: 8 }),
  tz_parts: Object.freeze({ size: 40, transitions: 0, transitions_length: 4, types: 8, types_length: 12, leap_seconds: 16, leap_seconds_length: 20, fixed: 24, fixed_length: 28, alternate: 32, alternate_length: 36 }),
  tz_offsets: Object.freeze({ size: 8, least: 0, greatest: 4 }),
  tz_zone: Object.freeze({ size: 48, parts: 0, offsets: 40 }),
  tz_fields: Object.freeze({ size: 16, year: 0, month: 4, month_day: 5, hour: 6, minute: 7, second: 8, nanoseconds: 12 }),
  tz_utc: Object.freeze({ size: 24, fields: 0, unix_time: 16 }),
  tz_date_time: Object.freeze({ size: 40, fields: 0, local_time_type: 16, unix_time: 32 }),
  tz_found: Object.freeze({ size: 88, is_skipped: 0, before: 8, after: 48 }),
  tz_segment: Object.freeze({ size: 40, from: 0, last: 8, has_type: 16, local_time_type: 20 }),
  tz_change: Object.freeze({ size: 40, unix_time: 0, before: 8, after: 24 }),
  tz_sizes: Object.freeze({ size: 16, transitions: 0, types: 4, leap_seconds: 8, footer: 12 }),
  tz_setting: Object.freeze({ size: 12, kind: 0, from: 4, until: 8 }),
  tz_parsed: Object.freeze({ size: 32, local: 0, ut_offset: 24, has_offset: 28 }),
  tz_date: Object.freeze({ size: 8, year: 0, month: 4, month_day: 5 }),
  tz_week_date: Object.freeze({ size: 8, year: 0, week: 4, week_day: 5 }),
});

/** What `tz_layout` writes. */
const SIZES = [2, 16, 6, 172, 192, 12, 16, 16, 40, 8, 48, 16, 24, 40, 88, 40, 40, 16, 12, 32];

/** How many parameters each function has: of each module, and of those with zones. */
const FUNCTIONS = {
  tz_wasm_alloc: 1,
  tz_wasm_free: 2,
  tz_local_time_type_new: 6,
  tz_julian_1_new: 2,
  tz_julian_0_new: 2,
  tz_month_week_day_new: 4,
  tz_alternate_new: 7,
  tz_alternate_conflict: 7,
  tz_rule_type_at: 6,
  tz_rule_text: 7,
  tz_file_sizes: 3,
  tz_file_read: 10,
  tz_string_read: 4,
  tz_setting_read: 3,
  tz_name_check: 2,
  tz_zone_check: 2,
  tz_zone_type_at: 3,
  tz_zone_place_at: 3,
  tz_zone_segment_at: 3,
  tz_zone_following: 3,
  tz_zone_preceding: 3,
  tz_zone_leap_time: 3,
  tz_zone_effect: 3,
  tz_utc_new: 2,
  tz_utc_from_timespec: 3,
  tz_utc_add: 4,
  tz_utc_sub: 4,
  tz_utc_week_day: 1,
  tz_date_time_week_day: 1,
  tz_utc_year_day: 1,
  tz_date_time_year_day: 1,
  tz_date_time_new: 3,
  tz_date_time_from_timespec_and_local: 4,
  tz_date_time_from_timespec: 4,
  tz_date_time_to_utc: 2,
  tz_zone_start_of_day: 3,
  tz_date_add_months: 3,
  tz_date_week_date: 2,
  tz_date_from_week_date: 2,
  tz_find_n: 6,
  tz_find_one: 4,
  tz_column_offsets: 7,
  tz_column_date_times: 9,
  tz_column_instants: 8,
  tz_column_instants_of_readings: 8,
  tz_utc_text: 4,
  tz_date_time_text: 4,
  tz_date_time_read: 3,
  tz_date_time_format: 6,
  tz_utc_format: 6,
  tz_pattern_read: 5,
  tz_error_text: 4,
  tz_layout: 2,
};
const ZONE_FUNCTIONS = {
  tz_built_in: 3,
  tz_built_in_name: 4,
  tz_built_in_version: 3,
};

/** The functions of a module, once it has proved to be of this layout. */
export function functionsOf(instance) {
  const functions = instance.exports;
  const isThere = ([name, length]) => functions[name]?.length === length;
  if (!(`tz_abi_${ABI}` in functions) || !Object.entries(FUNCTIONS).every(isThere)) {
    throw new TypeError(`the module is not one of tz with the layout ${ABI}`);
  }
  if ('tz_built_in' in functions && !Object.entries(ZONE_FUNCTIONS).every(isThere)) {
    throw new TypeError(`the module has other functions of zones than ${VERSION}`);
  }
  const place = functions.tz_wasm_alloc(4 * SIZES.length) >>> 0;
  if (place === 0) throw new RangeError('out of memory');
  const code = functions.tz_layout(place, SIZES.length);
  const sizes = new Uint32Array(functions.memory.buffer, place, SIZES.length);
  if (code !== codes.OK || !SIZES.every((size, index) => sizes[index] === size)) {
    throw new TypeError('the module has structs of other sizes');
  }
  functions.tz_wasm_free(place, 4 * SIZES.length);
  return functions;
}
