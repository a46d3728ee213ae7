/* A pointer may be null with length 0, also those in the parts of a zone: a call answers as it does
   for an empty list that lies somewhere. */
#include "test.h"

enum { SLOTS = 2, MOST = 64 };

/* The codes of all calls of a zone, and what they write, as numbers. */
typedef struct { size_t length; long long numbers[MOST]; } answers;

static void add(answers *all, long long number) {
  EXPECT(all->length < MOST, true);
  if (all->length < MOST) all->numbers[all->length++] = number;
}

static void add_type(answers *all, const tz_local_time_type *type) {
  add(all, type->ut_offset);
  add(all, type->is_dst);
  add(all, type->designation_length);
}

static void add_date_time(answers *all, const tz_date_time *date_time) {
  add(all, date_time->unix_time);
  add(all, date_time->fields.hour);
  add_type(all, &date_time->local_time_type);
}

static answers answers_of(const tz_zone *zone, int64_t unix_time) {
  answers all = {0, {0}};
  tz_local_time_type type = {0};
  tz_segment segment = {0};
  tz_change following = {0}, preceding = {0};
  tz_date_time shown = TZ_DATE_TIME_EPOCH, one = TZ_DATE_TIME_EPOCH, column = TZ_DATE_TIME_EPOCH;
  tz_found slots[SLOTS];
  tz_offsets offsets = {0, 0};
  size_t place = 77, count = 77;
  int64_t leap_time = 77, effect = 77, instants[2] = {77, 77};
  int32_t offset = 77;
  const uint32_t nanoseconds = 5;
  const int64_t reading = 972786600;
  tz_code codes[4] = {777, 777, 777, 777};
  const tz_fields fields = fields_of(2000, 10, 29, 2, 30, 0, 5);
  memset(slots, 0, sizeof slots);
  add(&all, code_of(tz_zone_check(&zone->parts, &offsets)));
  add(&all, code_of(tz_zone_type_at(zone, unix_time, &type)));
  add(&all, code_of(tz_zone_place_at(zone, unix_time, &place)));
  add(&all, code_of(tz_zone_segment_at(zone, unix_time, &segment)));
  add(&all, code_of(tz_zone_following(zone, unix_time, &following)));
  add(&all, code_of(tz_zone_preceding(zone, unix_time, &preceding)));
  add(&all, code_of(tz_zone_leap_time(zone, unix_time, &leap_time)));
  add(&all, code_of(tz_zone_effect(zone, unix_time, &effect)));
  add(&all, code_of(tz_date_time_from_timespec(unix_time, 5, zone, &shown)));
  add(&all, code_of(tz_find_n(&fields, zone, 0, slots, SLOTS, &count)));
  add(&all, code_of(tz_find_one(&fields, TZ_LATER, zone, &one)));
  CODE(tz_column_offsets(&unix_time, 1, zone, &offset, 1, &codes[0], 1), TZ_OK);
  CODE(tz_column_date_times(&unix_time, 1, &nanoseconds, 1, zone, &column, 1, &codes[1], 1), TZ_OK);
  CODE(tz_column_instants(&fields, 1, TZ_LATER, zone, &instants[0], 1, &codes[2], 1), TZ_OK);
  CODE(tz_column_instants_of_readings(&reading, 1, TZ_LATER, zone, &instants[1], 1, &codes[3], 1), TZ_OK);
  add(&all, offsets.least);
  add(&all, offsets.greatest);
  add_type(&all, &type);
  add(&all, (long long)place);
  add(&all, segment.from);
  add(&all, segment.last);
  add(&all, segment.has_type);
  if (segment.has_type) add_type(&all, &segment.local_time_type);
  add(&all, following.unix_time);
  add_type(&all, &following.after);
  add(&all, preceding.unix_time);
  add_type(&all, &preceding.before);
  add(&all, leap_time);
  add(&all, effect);
  add_date_time(&all, &shown);
  add(&all, (long long)count);
  for (size_t i = 0; i < count && i < SLOTS; i++) add(&all, slots[i].before.unix_time);
  add_date_time(&all, &one);
  add(&all, offset);
  add(&all, column.unix_time);
  for (size_t i = 0; i < 2; i++) add(&all, instants[i]);
  for (size_t i = 0; i < 4; i++) add(&all, codes[i]);
  return all;
}

/* The parts without a list, which is null or lies somewhere. */
static tz_parts without(tz_parts parts, int list, bool is_null) {
  switch (list) {
    case 0:
      parts.transitions_length = 0;
      if (is_null) parts.transitions = NULL;
      break;
    case 1:
      parts.leap_seconds_length = 0;
      if (is_null) parts.leap_seconds = NULL;
      break;
    case 2:
      parts.fixed_length = 0;
      if (is_null) parts.fixed = NULL;
      break;
    default:
      parts.alternate_length = 0;
      if (is_null) parts.alternate = NULL;
  }
  return parts;
}

static void test_null_parts(void) {
  made_zone made;
  make_zone(&made);
  const tz_leap_second leap = {78796800, 1};
  const int64_t instants[] = {INT64_MIN, -1, 0, 946684800, 954032400, INT64_MAX};
  /* Each set of the four lists, by its bits. */
  for (int set = 0; set < 16; set++) {
    tz_zone zones[2] = {made.zone, made.zone};
    for (int is_null = 0; is_null < 2; is_null++) {
      tz_parts parts = made.zone.parts;
      parts.leap_seconds = &leap;
      parts.leap_seconds_length = 1;
      parts.fixed = &made.types[1];
      for (int list = 0; list < 4; list++) {
        if (set >> list & 1) parts = without(parts, list, is_null);
      }
      zones[is_null].parts = parts;
      const tz_code code = code_of(tz_zone_check(&zones[is_null].parts, &zones[is_null].offsets));
      EXPECT(code == TZ_OK || code == TZ_INCONSISTENT_EXTRA_RULE, true);
      if (code != TZ_OK) zones[is_null].parts.alternate_length = 0;
    }
    for (size_t i = 0; i < sizeof instants / sizeof *instants; i++) {
      const answers somewhere = answers_of(&zones[0], instants[i]);
      const answers nowhere = answers_of(&zones[1], instants[i]);
      EXPECT(nowhere.length, somewhere.length);
      for (size_t k = 0; k < somewhere.length; k++) {
        EXPECT(nowhere.numbers[k], somewhere.numbers[k]);
      }
    }
  }
  const tz_parts none = {NULL, 0, NULL, 0, NULL, 0, NULL, 0, NULL, 0};
  tz_offsets offsets = {7, 7};
  REFUSED(tz_zone_check(&none, &offsets), TZ_NO_LOCAL_TIME_TYPE, offsets);
}

static void test_null_parameters(void) {
  made_zone made;
  make_zone(&made);
  tz_local_time_type type = {0};
  tz_sizes sizes = {0};
  tz_rule rule = {0};
  tz_setting setting = {0};
  tz_parsed parsed = {0};
  tz_offsets offsets = {7, 7};
  size_t length = 77, count = 77;
  const tz_utc utc = TZ_UTC_EPOCH;
  const tz_date_time date_time = TZ_DATE_TIME_EPOCH;
  const tz_fields fields = fields_of(1990, 1, 1, 0, 0, 0, 0);
  const tz_code no_name = tz_local_time_type_new(0, false, true, NULL, 0, &type);
  CODE(no_name, TZ_INVALID_TIME_ZONE_DESIGNATION_LENGTH);
  CODE(tz_local_time_type_new(0, false, false, NULL, 0, &type), TZ_OK);
  REFUSED(tz_rule_type_at(NULL, 0, NULL, 0, 0, &type), TZ_NO_RULE, type);
  CODE(tz_rule_type_at(&made.types[0], 1, NULL, 0, 0, &type), TZ_OK);
  CODE(tz_rule_type_at(NULL, 0, &made.rule, 1, 0, &type), TZ_OK);
  REFUSED(tz_rule_text(NULL, 0, NULL, 0, NULL, 0, &length), TZ_NO_RULE, length);
  REFUSED(tz_rule_text(NULL, 0, &made.rule, 1, NULL, 0, &length), TZ_BUFFER_LENGTH, length);
  REFUSED(tz_file_sizes(NULL, 0, &sizes), TZ_FILE_UNEXPECTED_EOF, sizes);
  CODE(tz_file_read(NULL, 0, NULL, 0, NULL, 0, NULL, 0, &rule, &offsets), TZ_FILE_UNEXPECTED_EOF);
  CODE(tz_string_read("HST10", 5, false, &rule), TZ_OK);
  const tz_code code = code_of(tz_string_read("", 0, false, &rule));
  EXPECT(code != TZ_OK, true);
  REFUSED(tz_string_read(NULL, 0, false, &rule), code, rule);
  REFUSED(tz_string_read(NULL, 0, true, &rule), code, rule);
  REFUSED(tz_setting_read(NULL, 0, &setting), TZ_STRING_EMPTY, setting);
  CODE(tz_name_check(NULL, 0), TZ_INVALID_NAME);
  REFUSED(tz_date_time_read(NULL, 0, &parsed), TZ_EXPECTED_YEAR, parsed);
  REFUSED(tz_pattern_read(NULL, 0, NULL, 0, &parsed), TZ_PATTERN_MISMATCH, parsed);
  CODE(tz_find_n(&fields, &made.zone, 0, NULL, 0, &count), TZ_OK);
  EXPECT(count, 1);
  CODE(tz_column_offsets(NULL, 0, &made.zone, NULL, 0, NULL, 0), TZ_OK);
  CODE(tz_column_date_times(NULL, 0, NULL, 0, &made.zone, NULL, 0, NULL, 0), TZ_OK);
  CODE(tz_column_instants(NULL, 0, TZ_REJECT, &made.zone, NULL, 0, NULL, 0), TZ_OK);
  CODE(tz_column_instants_of_readings(NULL, 0, TZ_REJECT, &made.zone, NULL, 0, NULL, 0), TZ_OK);
  REFUSED(tz_utc_text(&utc, NULL, 0, &length), TZ_BUFFER_LENGTH, length);
  REFUSED(tz_date_time_text(&date_time, NULL, 0, &length), TZ_BUFFER_LENGTH, length);
  REFUSED(tz_date_time_format(&date_time, "%Y", 2, NULL, 0, &length), TZ_BUFFER_LENGTH, length);
  CODE(tz_utc_format(&utc, NULL, 0, NULL, 0, &length), TZ_OK);
  EXPECT(length, 0);
  REFUSED(tz_error_text(TZ_OK, NULL, 0, &length), TZ_BUFFER_LENGTH, length);
  CODE(tz_layout(NULL, 0), TZ_BUFFER_LENGTH);
}

void test_null(void) {
  test_null_parts();
  test_null_parameters();
  EXPECT(tz_abi_2(), TZ_ABI);
}
