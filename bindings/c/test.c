/* Calls each function of tz.h, and reaches each code that a call can return. Ends with status 1 at the first answer that is wrong. */
#include "test.h"

#include <stdio.h>
#include <stdlib.h>

static int failures = 0;
static bool reached[256];

void fail(const char *file, int line, const char *what, long long got, long long wanted) {
  printf("%s:%d: %s is %lld, and not %lld\n", file, line, what, got, wanted);
  failures++;
}

tz_code code_of(tz_code code) {
  if (code < 256) reached[code] = true;
  return code;
}

tz_fields fields_of(int32_t year, int month, int day, int hour, int minute, int second, uint32_t nanoseconds) {
  tz_fields fields = {year, (uint8_t)month, (uint8_t)day, (uint8_t)hour, (uint8_t)minute, (uint8_t)second, nanoseconds};
  return fields;
}

static tz_local_time_type type_of(int32_t offset, bool is_dst, const char *name) {
  tz_local_time_type type = {0};
  CODE(tz_local_time_type_new(offset, is_dst, name != NULL, name, name == NULL ? 0 : strlen(name), &type), TZ_OK);
  return type;
}

static tz_day week_day_of(int month, int week, int week_day) {
  tz_day day = {0};
  CODE(tz_month_week_day_new((uint8_t)month, (uint8_t)week, (uint8_t)week_day, &day), TZ_OK);
  return day;
}

/* The rule of central Europe. */
static tz_alternate europe(void) {
  tz_local_time_type std = type_of(3600, false, "CET"), dst = type_of(7200, true, "CEST");
  tz_day start = week_day_of(3, 5, 0), end = week_day_of(10, 5, 0);
  tz_alternate rule = {0};
  CODE(tz_alternate_new(&std, &dst, &start, 7200, &end, 10800, &rule), TZ_OK);
  return rule;
}

static void test_layout(void) {
  EXPECT(sizeof(tz_date), 8);
  EXPECT(sizeof(tz_week_date), 8);
  size_t layout[TZ_LAYOUT_LENGTH] = {0};
  static const size_t sizes[TZ_LAYOUT_LENGTH] = {
      TZ_ABI,           sizeof(tz_local_time_type), sizeof(tz_day),        sizeof(tz_alternate), sizeof(tz_rule),
      sizeof(tz_conflict), sizeof(tz_transition),   sizeof(tz_leap_second), sizeof(tz_parts),    sizeof(tz_offsets),
      sizeof(tz_zone),  sizeof(tz_fields),          sizeof(tz_utc),        sizeof(tz_date_time), sizeof(tz_found),
      sizeof(tz_segment), sizeof(tz_change),        sizeof(tz_sizes),      sizeof(tz_setting),   sizeof(tz_parsed)};
  CODE(tz_layout(layout, TZ_LAYOUT_LENGTH), TZ_OK);
  for (size_t i = 0; i < TZ_LAYOUT_LENGTH; i++) EXPECT(layout[i], sizes[i]);
  REFUSED(tz_layout(layout, TZ_LAYOUT_LENGTH - 1), TZ_BUFFER_LENGTH, layout);
  CODE(tz_layout(NULL, 0), TZ_BUFFER_LENGTH);
}

static void test_types(void) {
  tz_local_time_type type = type_of(3600, true, "CEST");
  EXPECT(type.ut_offset, 3600);
  EXPECT(type.is_dst, true);
  EXPECT(type.designation_length, 4);
  EXPECT(memcmp(type.designation, "CEST\0\0", 7), 0);
  REFUSED(tz_local_time_type_new(INT32_MIN, false, true, "", 0, &type), TZ_INVALID_UTC_OFFSET, type);
  REFUSED(tz_local_time_type_new(0, false, true, NULL, 0, &type), TZ_INVALID_TIME_ZONE_DESIGNATION_LENGTH, type);
  REFUSED(tz_local_time_type_new(0, false, true, "ABCDEFGH", 8, &type), TZ_INVALID_TIME_ZONE_DESIGNATION_LENGTH, type);
  REFUSED(tz_local_time_type_new(0, false, true, "A C", 3, &type), TZ_INVALID_TIME_ZONE_DESIGNATION_CHAR, type);
  CODE(tz_local_time_type_new(-1, false, false, NULL, 0, &type), TZ_OK);
  EXPECT(type.ut_offset, -1);
  EXPECT(type.designation_length, 0);
  CODE(tz_local_time_type_new(0, false, true, "ABCDEFG", 7, &type), TZ_OK);
  EXPECT(memcmp(type.designation, "ABCDEFG", 7), 0);
}

static void test_days(void) {
  tz_day day = {0};
  REFUSED(tz_julian_1_new(0, &day), TZ_INVALID_RULE_DAY_JULIAN_DAY, day);
  REFUSED(tz_julian_1_new(366, &day), TZ_INVALID_RULE_DAY_JULIAN_DAY, day);
  REFUSED(tz_julian_0_new(366, &day), TZ_INVALID_RULE_DAY_JULIAN_DAY, day);
  CODE(tz_julian_0_new(365, &day), TZ_OK);
  EXPECT(day.kind, TZ_JULIAN_0);
  EXPECT(day.number, 365);
  CODE(tz_julian_1_new(1, &day), TZ_OK);
  EXPECT(day.kind, TZ_JULIAN_1);
  EXPECT(day.number, 1);
  REFUSED(tz_month_week_day_new(13, 0, 7, &day), TZ_INVALID_RULE_DAY_MONTH, day);
  REFUSED(tz_month_week_day_new(12, 6, 7, &day), TZ_INVALID_RULE_DAY_WEEK, day);
  REFUSED(tz_month_week_day_new(12, 5, 7, &day), TZ_INVALID_RULE_DAY_WEEK_DAY, day);
  day = week_day_of(12, 5, 6);
  EXPECT(day.kind, TZ_MONTH_WEEK_DAY);
  EXPECT(day.month * 100 + day.week * 10 + day.week_day, 1256);
}

static void test_rules(void) {
  tz_alternate rule = europe();
  tz_local_time_type std = rule.types[0], dst = rule.types[1], far = type_of(93600, false, NULL), type = {0};
  tz_day start = rule.dst_start, end = rule.dst_end, first = {0};
  tz_conflict conflict = {0};
  REFUSED(tz_alternate_new(&far, &far, &start, 604800, &end, 0, &rule), TZ_INVALID_STD_UTC_OFFSET, rule);
  REFUSED(tz_alternate_new(&std, &far, &start, 604800, &end, 0, &rule), TZ_INVALID_DST_UTC_OFFSET, rule);
  REFUSED(tz_alternate_new(&std, &dst, &start, 604800, &end, 0, &rule), TZ_INVALID_DST_START_END_TIME, rule);
  /* The last Sunday of March and March 28th: each comes before the other in some year. */
  CODE(tz_julian_1_new(87, &first), TZ_OK);
  REFUSED(tz_alternate_new(&std, &dst, &start, 0, &first, 3600, &rule), TZ_INCONSISTENT_RULE, rule);
  CODE(tz_alternate_conflict(&std, &dst, &start, 0, &first, 3600, &conflict), TZ_OK);
  EXPECT(conflict.first_year != conflict.second_year, true);
  REFUSED(tz_alternate_conflict(&std, &dst, &start, 7200, &end, 10800, &conflict), TZ_NO_CONFLICT, conflict);
  /* 2000-03-26T01:00:00Z */
  CODE(tz_rule_type_at(NULL, 0, &rule, 1, 954032400, &type), TZ_OK);
  EXPECT(type.ut_offset, 7200);
  CODE(tz_rule_type_at(NULL, 0, &rule, 1, 954032399, &type), TZ_OK);
  EXPECT(type.ut_offset, 3600);
  CODE(tz_rule_type_at(&far, 1, &rule, 1, 0, &type), TZ_OK);
  EXPECT(type.ut_offset, 93600);
  REFUSED(tz_rule_type_at(NULL, 0, NULL, 0, 0, &type), TZ_NO_RULE, type);
  REFUSED(tz_rule_type_at(NULL, 0, &rule, 1, INT64_MAX, &type), TZ_OUT_OF_RANGE, type);
  tz_alternate zeros = {0};
  CODE(tz_rule_type_at(NULL, 0, &zeros, 1, 0, &type), TZ_OK);
  EXPECT(type.ut_offset, 0);
}

/* Parts that conflict as they stand, and would make a rule if types, days or times were exchanged. */
static void test_conflicts(void) {
  const tz_local_time_type std = type_of(3600, false, "STD"), dst = type_of(0, true, "DST");
  tz_day start = {0}, end = {0};
  tz_conflict conflict = {0};
  tz_alternate rule = {0};
  /* March 1st, and the day that is it in common years and February 29th in leap years. */
  CODE(tz_julian_1_new(60, &start), TZ_OK);
  CODE(tz_julian_0_new(59, &end), TZ_OK);
  CODE(tz_alternate_conflict(&std, &dst, &start, 0, &end, 4000, &conflict), TZ_OK);
  EXPECT(conflict.distance, 0);
  /* The start comes after the end in the first year, and before it in the second. */
  const int32_t years[] = {conflict.first_year, conflict.second_year};
  for (size_t i = 0; i < 2; i++) {
    const tz_fields leap_day = fields_of(years[i], 2, 29, 0, 0, 0, 0);
    tz_utc utc = TZ_UTC_EPOCH;
    CODE(tz_utc_new(&leap_day, &utc), i == 0 ? TZ_OK : TZ_INVALID_MONTH_DAY);
  }
  REFUSED(tz_alternate_new(&std, &dst, &start, 0, &end, 4000, &rule), TZ_INCONSISTENT_RULE, rule);
  REFUSED(tz_alternate_conflict(&std, &dst, &end, 0, &start, 4000, &conflict), TZ_NO_CONFLICT, conflict);
  REFUSED(tz_alternate_conflict(&std, &dst, &start, 4000, &end, 0, &conflict), TZ_NO_CONFLICT, conflict);
  CODE(tz_alternate_new(&std, &dst, &end, 0, &start, 4000, &rule), TZ_OK);
  CODE(tz_alternate_new(&std, &dst, &start, 4000, &end, 0, &rule), TZ_OK);
  CODE(tz_alternate_conflict(&std, &dst, &start, 0, &end, 1000, &conflict), TZ_OK);
  REFUSED(tz_alternate_new(&std, &dst, &start, 0, &end, 1000, &rule), TZ_INCONSISTENT_RULE, rule);
  REFUSED(tz_alternate_conflict(&dst, &std, &start, 0, &end, 1000, &conflict), TZ_NO_CONFLICT, conflict);
  CODE(tz_alternate_new(&dst, &std, &start, 0, &end, 1000, &rule), TZ_OK);
}

/* A call may write to what it reads, and what an out parameter holds before the call plays no part. */
static void test_outs(void) {
  made_zone made;
  make_zone(&made);
  const tz_zone *zone = &made.zone;
  tz_utc utc;
  memset(&utc, 255, sizeof utc);
  CODE(tz_utc_from_timespec(-1, 7, &utc), TZ_OK);
  CODE(tz_utc_add(&utc, 1, 999999993, &utc), TZ_OK);
  EXPECT(utc.unix_time, 1);
  EXPECT(utc.fields.second, 1);
  EXPECT(utc.fields.nanoseconds, 0);
  CODE(tz_utc_sub(&utc, 2, 1, &utc), TZ_OK);
  EXPECT(utc.unix_time, -2);
  EXPECT(utc.fields.nanoseconds, 999999999);
  REFUSED(tz_utc_add(&utc, UINT64_MAX, 0, &utc), TZ_OUT_OF_RANGE, utc);
  REFUSED(tz_utc_sub(&utc, 0, 1000000000, &utc), TZ_INVALID_NANOSECONDS, utc);
  utc.fields = fields_of(2000, 1, 1, 0, 0, 0, 3);
  CODE(tz_utc_new(&utc.fields, &utc), TZ_OK);
  EXPECT(utc.unix_time, 946684800);
  EXPECT(utc.fields.nanoseconds, 3);

  tz_date_time shown;
  memset(&shown, 255, sizeof shown);
  CODE(tz_date_time_from_timespec(954032399, 5, zone, &shown), TZ_OK);
  EXPECT(shown.fields.hour, 1);
  CODE(tz_date_time_from_timespec_and_local(954032400, 6, &shown.local_time_type, &shown), TZ_OK);
  EXPECT(shown.fields.hour, 2);
  EXPECT(shown.fields.nanoseconds, 6);
  CODE(tz_date_time_new(&shown.fields, &shown.local_time_type, &shown), TZ_OK);
  EXPECT(shown.unix_time, 954032400);
  EXPECT(shown.local_time_type.ut_offset, 3600);
  CODE(tz_find_one(&shown.fields, TZ_COMPATIBLE, zone, &shown), TZ_OK);
  EXPECT(shown.unix_time, 954032400);
  EXPECT(shown.fields.hour, 3);
  EXPECT(shown.local_time_type.ut_offset, 7200);

  tz_alternate rule = made.rule;
  rule.dst_start = week_day_of(4, 1, 0);
  rule.types[1] = type_of(5400, true, "DST");
  CODE(tz_alternate_new(&rule.types[0], &rule.types[1], &rule.dst_start, 0, &rule.dst_end, 3600, &rule), TZ_OK);
  EXPECT(rule.types[1].ut_offset, 5400);
  EXPECT(rule.dst_end_time, 3600);
  EXPECT(rule.dst_start.month, 4);
  EXPECT(rule.dst_end.month, 10);
  /* 2000-04-01T23:00:00Z, at which that rule starts. */
  CODE(tz_rule_type_at(NULL, 0, &rule, 1, 954630000, &rule.types[0]), TZ_OK);
  EXPECT(rule.types[0].ut_offset, 5400);
  tz_local_time_type type = type_of(-7, false, NULL);
  CODE(tz_rule_type_at(&type, 1, NULL, 0, 0, &type), TZ_OK);
  EXPECT(type.ut_offset, -7);

  made_zone other;
  make_zone(&other);
  memset(&other.zone.offsets, 255, sizeof other.zone.offsets);
  CODE(tz_zone_check(&other.zone.parts, &other.zone.offsets), TZ_OK);
  EXPECT(other.zone.offsets.least, zone->offsets.least);
  EXPECT(other.zone.offsets.greatest, zone->offsets.greatest);
  tz_segment segment;
  memset(&segment, 255, sizeof segment);
  CODE(tz_zone_segment_at(zone, INT64_MAX, &segment), TZ_OK);
  EXPECT(segment.has_type, false);
  EXPECT(segment.local_time_type.ut_offset, 0);
  int64_t instant;
  CODE(tz_zone_effect(zone, 954032400, &instant), TZ_OK);
  EXPECT(instant, 954032400);
}

static void test_utc(void) {
  tz_utc utc = {0}, other = {0};
  tz_fields fields = fields_of(2000, 2, 29, 23, 59, 60, 999999999);
  CODE(tz_utc_new(&fields, &utc), TZ_OK);
  EXPECT(utc.unix_time, 951868800);
  EXPECT(memcmp(&utc.fields, &fields, 9), 0);
  EXPECT(tz_utc_week_day(&utc), 2);
  EXPECT(tz_utc_year_day(&utc), 59);
  fields = fields_of(2000, 13, 32, 24, 60, 61, 1000000000);
  REFUSED(tz_utc_new(&fields, &utc), TZ_INVALID_MONTH, utc);
  fields.month = 2;
  REFUSED(tz_utc_new(&fields, &utc), TZ_INVALID_MONTH_DAY, utc);
  fields.month_day = 30;
  REFUSED(tz_utc_new(&fields, &utc), TZ_INVALID_HOUR, utc);
  fields.hour = 0;
  REFUSED(tz_utc_new(&fields, &utc), TZ_INVALID_MINUTE, utc);
  fields.minute = 0;
  REFUSED(tz_utc_new(&fields, &utc), TZ_INVALID_SECOND, utc);
  fields.second = 0;
  REFUSED(tz_utc_new(&fields, &utc), TZ_INVALID_NANOSECONDS, utc);
  fields.nanoseconds = 0;
  REFUSED(tz_utc_new(&fields, &utc), TZ_INVALID_MONTH_DAY, utc);
  fields = fields_of(INT32_MAX, 12, 31, 23, 59, 60, 0);
  REFUSED(tz_utc_new(&fields, &utc), TZ_OUT_OF_RANGE, utc);
  REFUSED(tz_utc_from_timespec(0, 1000000000, &utc), TZ_INVALID_NANOSECONDS, utc);
  REFUSED(tz_utc_from_timespec(INT64_MAX, 0, &utc), TZ_OUT_OF_RANGE, utc);
  REFUSED(tz_utc_from_timespec(INT64_MAX, 1000000000, &utc), TZ_INVALID_NANOSECONDS, utc);
  CODE(tz_utc_from_timespec(-1, 7, &utc), TZ_OK);
  EXPECT(utc.fields.year, 1969);
  EXPECT(utc.fields.second, 59);
  EXPECT(utc.fields.nanoseconds, 7);
  CODE(tz_utc_add(&utc, 1, 999999993, &other), TZ_OK);
  EXPECT(other.unix_time, 1);
  EXPECT(other.fields.nanoseconds, 0);
  CODE(tz_utc_sub(&other, 2, 0, &utc), TZ_OK);
  EXPECT(utc.unix_time, -1);
  REFUSED(tz_utc_add(&utc, 0, 1000000000, &other), TZ_INVALID_NANOSECONDS, other);
  REFUSED(tz_utc_sub(&utc, UINT64_MAX, 1000000000, &other), TZ_INVALID_NANOSECONDS, other);
  REFUSED(tz_utc_sub(&utc, UINT64_MAX, 0, &other), TZ_OUT_OF_RANGE, other);
  tz_utc epoch = TZ_UTC_EPOCH;
  EXPECT(tz_utc_week_day(&epoch), 4);
}

static tz_date date_of(int32_t year, int month, int day) {
  const tz_date date = {year, (uint8_t)month, (uint8_t)day};
  return date;
}

static tz_week_date week_date_of(int32_t year, int week, int week_day) {
  const tz_week_date week_date = {year, (uint8_t)week, (uint8_t)week_day};
  return week_date;
}

/* A date as one number, such as 20000229. */
static long long digits_of(tz_date date) { return date.year * 10000LL + date.month * 100 + date.month_day; }

static void test_months(void) {
  static const struct { tz_date date; int32_t months; tz_date wanted; } rows[] = {
      {{2023, 1, 31}, 1, {2023, 2, 28}},
      {{2024, 1, 31}, 1, {2024, 2, 29}},
      {{2024, 1, 31}, -11, {2023, 2, 28}},
      {{2024, 2, 29}, 12, {2025, 2, 28}},
      {{2023, 12, 5}, 0, {2023, 12, 5}},
      {{2000, 1, 1}, INT32_MAX, {178958970, 8, 1}},
      {{2000, 1, 1}, INT32_MIN, {-178954971, 5, 1}},
  };
  tz_date date = {0};
  for (size_t i = 0; i < sizeof rows / sizeof *rows; i++) {
    CODE(tz_date_add_months(&rows[i].date, rows[i].months, &date), TZ_OK);
    EXPECT(digits_of(date), digits_of(rows[i].wanted));
  }
  date = date_of(2023, 12, 31);
  CODE(tz_date_add_months(&date, 2, &date), TZ_OK);
  EXPECT(digits_of(date), 20240229);
  const tz_date first = date_of(INT32_MIN, 1, 31), last = date_of(INT32_MAX, 12, 1);
  REFUSED(tz_date_add_months(&first, -1, &date), TZ_OUT_OF_RANGE, date);
  REFUSED(tz_date_add_months(&last, 1, &date), TZ_OUT_OF_RANGE, date);
  CODE(tz_date_add_months(&last, 0, &date), TZ_OK);
  EXPECT(digits_of(date), digits_of(last));
  const tz_date month = date_of(2001, 13, 32), day = date_of(2001, 2, 29);
  REFUSED(tz_date_add_months(&month, 0, &date), TZ_INVALID_MONTH, date);
  REFUSED(tz_date_add_months(&day, INT32_MAX, &date), TZ_INVALID_MONTH_DAY, date);
}

static void test_week_dates(void) {
  static const struct { tz_date date; tz_week_date week_date; } rows[] = {
      {{2024, 12, 30}, {2025, 1, 1}},
      {{2021, 1, 3}, {2020, 53, 7}},
      {{2000, 2, 29}, {2000, 9, 2}},
      {{INT32_MIN, 1, 1}, {INT32_MIN, 1, 2}},
  };
  tz_date date = {0};
  tz_week_date week_date = {0};
  for (size_t i = 0; i < sizeof rows / sizeof *rows; i++) {
    CODE(tz_date_week_date(&rows[i].date, &week_date), TZ_OK);
    EXPECT(memcmp(&week_date, &rows[i].week_date, 6), 0);
    CODE(tz_date_from_week_date(&rows[i].week_date, &date), TZ_OK);
    EXPECT(digits_of(date), digits_of(rows[i].date));
  }
  const tz_date last = date_of(INT32_MAX, 12, 31), none = date_of(2000, 4, 31), month = date_of(2000, 0, 1);
  REFUSED(tz_date_week_date(&last, &week_date), TZ_OUT_OF_RANGE, week_date);
  REFUSED(tz_date_week_date(&none, &week_date), TZ_INVALID_MONTH_DAY, week_date);
  REFUSED(tz_date_week_date(&month, &week_date), TZ_INVALID_MONTH, week_date);
  const tz_week_date no_dates[] = {week_date_of(2021, 53, 1), week_date_of(2020, 54, 1), week_date_of(2020, 0, 1),
                                   week_date_of(2020, 1, 0),  week_date_of(2020, 1, 8),  week_date_of(INT32_MIN, 1, 1)};
  for (size_t i = 0; i < sizeof no_dates / sizeof *no_dates; i++) REFUSED(tz_date_from_week_date(&no_dates[i], &date), TZ_OUT_OF_RANGE, date);
}

static void test_starts_of_days(void) {
  /* Sao Paulo's clocks of 2018, which skip midnight: 2018-11-04 begins at 01:00. */
  tz_local_time_type types[2] = {type_of(-10800, false, "-03"), type_of(-7200, true, "-02")};
  const tz_day start = week_day_of(11, 1, 0), end = week_day_of(2, 3, 0);
  tz_alternate rule = {0};
  CODE(tz_alternate_new(&types[0], &types[1], &start, 0, &end, 0, &rule), TZ_OK);
  tz_zone zone = {0};
  zone.parts.types = types;
  zone.parts.types_length = 2;
  zone.parts.alternate = &rule;
  zone.parts.alternate_length = 1;
  CODE(tz_zone_check(&zone.parts, &zone.offsets), TZ_OK);
  int64_t instant = 7;
  tz_date date = date_of(2018, 11, 4);
  CODE(tz_zone_start_of_day(&zone, &date, &instant), TZ_OK);
  EXPECT(instant, 1541300400);
  date.month_day = 5;
  CODE(tz_zone_start_of_day(&zone, &date, &instant), TZ_OK);
  EXPECT(instant, 1541383200);
  date = date_of(INT32_MAX, 12, 31);
  REFUSED(tz_zone_start_of_day(&zone, &date, &instant), TZ_OUT_OF_RANGE, instant);
  date = date_of(2018, 13, 32);
  REFUSED(tz_zone_start_of_day(&zone, &date, &instant), TZ_INVALID_MONTH, instant);
  date = date_of(2018, 11, 31);
  REFUSED(tz_zone_start_of_day(&zone, &date, &instant), TZ_INVALID_MONTH_DAY, instant);

  /* Apia's clocks skip 2011-12-30, and after 2012 this zone has none. */
  types[0] = type_of(-36000, true, "-10");
  types[1] = type_of(50400, true, "+14");
  const tz_transition transitions[2] = {{1325239200, 1}, {1356998400, 0}};
  tz_zone island = {0};
  island.parts.types = types;
  island.parts.types_length = 2;
  island.parts.transitions = transitions;
  island.parts.transitions_length = 2;
  CODE(tz_zone_check(&island.parts, &island.offsets), TZ_OK);
  date = date_of(2011, 12, 30);
  REFUSED(tz_zone_start_of_day(&island, &date, &instant), TZ_NO_DATE_TIME, instant);
  date.month_day = 31;
  CODE(tz_zone_start_of_day(&island, &date, &instant), TZ_OK);
  EXPECT(instant, 1325239200);
  date.month_day = 29;
  CODE(tz_zone_start_of_day(&island, &date, &instant), TZ_OK);
  EXPECT(instant, 1325152800);
  date = date_of(2014, 1, 1);
  REFUSED(tz_zone_start_of_day(&island, &date, &instant), TZ_NO_AVAILABLE_LOCAL_TIME_TYPE, instant);
}

static void test_date_times(void) {
  tz_local_time_type type = type_of(3600, false, "CET");
  tz_date_time shown = {0}, epoch = TZ_DATE_TIME_EPOCH;
  tz_utc utc = {0};
  tz_fields fields = fields_of(2000, 1, 1, 0, 30, 0, 5);
  CODE(tz_date_time_new(&fields, &type, &shown), TZ_OK);
  EXPECT(shown.unix_time, 946683000);
  EXPECT(shown.local_time_type.ut_offset, 3600);
  EXPECT(tz_date_time_week_day(&shown), 6);
  EXPECT(tz_date_time_year_day(&shown), 0);
  CODE(tz_date_time_to_utc(&shown, &utc), TZ_OK);
  EXPECT(utc.fields.year, 1999);
  EXPECT(utc.fields.nanoseconds, 5);
  fields.hour = 24;
  REFUSED(tz_date_time_new(&fields, &type, &shown), TZ_INVALID_HOUR, shown);
  fields = fields_of(INT32_MIN, 1, 1, 0, 0, 0, 0);
  REFUSED(tz_date_time_new(&fields, &type, &shown), TZ_OUT_OF_RANGE, shown);
  fields = fields_of(INT32_MAX, 12, 31, 23, 30, 0, 0);
  const tz_local_time_type behind = type_of(-3600, false, NULL);
  REFUSED(tz_date_time_new(&fields, &behind, &shown), TZ_OUT_OF_RANGE, shown);
  CODE(tz_date_time_from_timespec_and_local(0, 0, &type, &shown), TZ_OK);
  EXPECT(shown.fields.hour, 1);
  REFUSED(tz_date_time_from_timespec_and_local(INT64_MIN, 0, &type, &shown), TZ_OUT_OF_RANGE, shown);
  REFUSED(tz_date_time_from_timespec_and_local(0, UINT32_MAX, &type, &shown), TZ_INVALID_NANOSECONDS, shown);
  REFUSED(tz_date_time_from_timespec_and_local(INT64_MIN, UINT32_MAX, &type, &shown), TZ_INVALID_NANOSECONDS, shown);
  /* The clock shows a year of 32 bits, and UTC is a year before. */
  CODE(tz_date_time_from_timespec_and_local(INT64_C(-67768100567971201), 0, &type, &shown), TZ_OK);
  REFUSED(tz_date_time_to_utc(&shown, &utc), TZ_OUT_OF_RANGE, utc);
  CODE(tz_date_time_to_utc(&epoch, &utc), TZ_OK);
  EXPECT(utc.unix_time, 0);
}

/* A text without a zero at its end is given, and a buffer that is one byte short is refused. */
#define TEXT(call, wanted)                                                            \
  do {                                                                                \
    char text[129];                                                                   \
    const size_t n = sizeof wanted - 1;                                               \
    size_t given = 77;                                                                \
    memset(text, '?', sizeof text);                                                   \
    CODE(call(text, n, &given), TZ_OK);                                               \
    EXPECT(given, n);                                                                 \
    EXPECT(memcmp(text, wanted "?", n + 1), 0);                                       \
    memset(text, '?', sizeof text);                                                   \
    given = 77;                                                                       \
    CODE(call(text, n - 1, &given), TZ_BUFFER_LENGTH);                                \
    EXPECT(given, 77);                                                                \
    EXPECT(text[0], '?');                                                             \
    CODE(call(NULL, 0, &given), TZ_BUFFER_LENGTH);                                    \
    CODE(call(text, sizeof text, &given), TZ_OK);                                     \
    EXPECT(given, n);                                                                 \
    EXPECT(text[n], '?');                                                             \
  } while (0)

static tz_utc the_utc;
static tz_date_time the_date_time;
static tz_alternate the_rule;
static tz_local_time_type the_type;

static tz_code utc_text(char *text, size_t n, size_t *length) { return tz_utc_text(&the_utc, text, n, length); }
static tz_code date_time_text(char *text, size_t n, size_t *length) { return tz_date_time_text(&the_date_time, text, n, length); }
static tz_code rule_text(char *text, size_t n, size_t *length) { return tz_rule_text(NULL, 0, &the_rule, 1, text, n, length); }
static tz_code fixed_text(char *text, size_t n, size_t *length) { return tz_rule_text(&the_type, 1, NULL, 0, text, n, length); }

static void test_texts(void) {
  CODE(tz_utc_from_timespec(946684800, 5, &the_utc), TZ_OK);
  TEXT(utc_text, "2000-01-01T00:00:00.000000005Z");
  the_type = type_of(-12600, false, "-0330");
  CODE(tz_date_time_from_timespec_and_local(946684800, 0, &the_type, &the_date_time), TZ_OK);
  TEXT(date_time_text, "1999-12-31T20:30:00.000000000-03:30");
  the_rule = europe();
  TEXT(rule_text, "CET-1CEST,M3.5.0,M10.5.0/3");
  TEXT(fixed_text, "<-0330>3:30");
  char text[114];
  size_t length = 7;
  REFUSED(tz_rule_text(NULL, 0, NULL, 0, text, sizeof text, &length), TZ_NO_RULE, length);
  the_type = type_of(0, false, NULL);
  REFUSED(tz_rule_text(&the_type, 1, NULL, 0, text, sizeof text, &length), TZ_NO_TZ_STRING, length);
}

static tz_parsed parsed_of(const char *text) {
  tz_parsed parsed;
  memset(&parsed, 0, sizeof parsed);
  CODE(tz_date_time_read(text, strlen(text), &parsed), TZ_OK);
  return parsed;
}

static void test_parsed_texts(void) {
  tz_parsed parsed = parsed_of("2000-02-29T23:59:60.5+01:00");
  EXPECT(parsed.local.fields.year, 2000);
  EXPECT(parsed.local.fields.month_day, 29);
  EXPECT(parsed.local.fields.second, 60);
  EXPECT(parsed.local.fields.nanoseconds, 500000000);
  EXPECT(parsed.local.unix_time, 951868800);
  EXPECT(parsed.has_offset, true);
  EXPECT(parsed.ut_offset, 3600);
  parsed = parsed_of("1999-12-31 20:30:00z");
  EXPECT(parsed.local.unix_time, 946672200);
  EXPECT(parsed.has_offset, true);
  EXPECT(parsed.ut_offset, 0);
  parsed = parsed_of("1970-01-01T00:00:00");
  EXPECT(parsed.local.unix_time, 0);
  EXPECT(parsed.has_offset, false);
  EXPECT(parsed.ut_offset, 0);
  static const struct { const char *text; tz_code code; } rows[] = {
      {"", TZ_EXPECTED_YEAR},
      {"2000", TZ_EXPECTED_HYPHEN},
      {"2000-13", TZ_EXPECTED_MONTH},
      {"2001-02-29", TZ_EXPECTED_MONTH_DAY},
      {"2000-02-29_", TZ_EXPECTED_SEPARATOR},
      {"2000-02-29T24", TZ_EXPECTED_HOUR},
      {"2000-02-29T23", TZ_EXPECTED_COLON},
      {"2000-02-29T23:60", TZ_EXPECTED_MINUTE},
      {"2000-02-29T23:59:61", TZ_EXPECTED_SECOND},
      {"2000-02-29T23:59:60.", TZ_EXPECTED_FRACTION},
      {"2000-02-29T23:59:60 ", TZ_EXPECTED_OFFSET},
      {"2000-02-29T23:59:60+1", TZ_EXPECTED_OFFSET_HOUR},
      {"2000-02-29T23:59:60+01:60", TZ_EXPECTED_OFFSET_MINUTE},
      {"2000-02-29T23:59:60+01:00:60", TZ_EXPECTED_OFFSET_SECOND},
      {"2000-02-29T23:59:60+01:00 ", TZ_EXPECTED_END},
  };
  for (size_t i = 0; i < sizeof rows / sizeof *rows; i++) REFUSED(tz_date_time_read(rows[i].text, strlen(rows[i].text), &parsed), rows[i].code, parsed);
  REFUSED(tz_date_time_read(NULL, 0, &parsed), TZ_EXPECTED_YEAR, parsed);
  /* What is written is read. */
  char text[53];
  size_t length = 0;
  CODE(tz_date_time_text(&the_date_time, text, sizeof text, &length), TZ_OK);
  CODE(tz_date_time_read(text, length, &parsed), TZ_OK);
  EXPECT(parsed.local.unix_time - parsed.ut_offset, the_date_time.unix_time);
  EXPECT(parsed.ut_offset, the_date_time.local_time_type.ut_offset);
}

/* What a pattern prints of a date time, with a zero after it. */
static const char *formatted(const tz_date_time *date_time, const char *pattern) {
  static char text[129];
  size_t length = 0;
  CODE(tz_date_time_format(date_time, pattern, strlen(pattern), text, 128, &length), TZ_OK);
  text[length] = 0;
  return text;
}

static void test_formats(void) {
  const tz_local_time_type pdt = type_of(-25200, true, "PDT"), cet = type_of(3600, false, "CET");
  tz_date_time shown = TZ_DATE_TIME_EPOCH;
  /* Apache's own example, and a date that glibc's strftime prints so. */
  CODE(tz_date_time_from_timespec_and_local(971211336, 0, &pdt, &shown), TZ_OK);
  EXPECT(strcmp(formatted(&shown, TZ_COMMON_LOG), "10/Oct/2000:13:55:36 -0700"), 0);
  CODE(tz_date_time_from_timespec_and_local(973224367, 89000000, &cet, &shown), TZ_OK);
  EXPECT(strcmp(formatted(&shown, TZ_RFC_2822), "Fri, 03 Nov 2000 05:06:07 +0100"), 0);
  EXPECT(strcmp(formatted(&shown, TZ_RFC_3339_MILLIS), "2000-11-03T05:06:07.089+01:00"), 0);
  EXPECT(strcmp(formatted(&shown, "%A, %e %B %Y, %I:%M %p %Z, day %j, week %V, %s%%"),
                "Friday,  3 November 2000, 05:06 AM CET, day 308, week 44, 973224367%"), 0);
  EXPECT(strcmp(formatted(&shown, "%Y\xE5\xB9\xB4%m\xE6\x9C\x88%d\xE6\x97\xA5"), "2000\xE5\xB9\xB4" "11\xE6\x9C\x88" "03\xE6\x97\xA5"), 0);
  EXPECT(strcmp(formatted(&shown, ""), ""), 0);
  /* RFC 9110's own example. */
  tz_utc utc = TZ_UTC_EPOCH;
  CODE(tz_utc_from_timespec(784111777, 0, &utc), TZ_OK);
  char text[128] = {0};
  size_t length = 0;
  CODE(tz_utc_format(&utc, TZ_HTTP_DATE, strlen(TZ_HTTP_DATE), text, sizeof text, &length), TZ_OK);
  EXPECT(length, 29);
  EXPECT(memcmp(text, "Sun, 06 Nov 1994 08:49:37 GMT", 29), 0);
  CODE(tz_utc_format(&utc, "%Z", 2, text, 3, &length), TZ_OK);
  EXPECT(memcmp(text, "UTC", 3), 0);

  /* A buffer of the very length, and one that is a byte shorter. */
  CODE(tz_date_time_format(&shown, TZ_COMMON_LOG, strlen(TZ_COMMON_LOG), text, 26, &length), TZ_OK);
  EXPECT(length, 26);
  EXPECT(memcmp(text, "03/Nov/2000:05:06:07 +0100GMT", 29), 0);
  size_t kept = 77;
  REFUSED(tz_date_time_format(&shown, TZ_COMMON_LOG, strlen(TZ_COMMON_LOG), text, 25, &kept), TZ_BUFFER_LENGTH, text);
  REFUSED(tz_utc_format(&utc, TZ_HTTP_DATE, strlen(TZ_HTTP_DATE), text, 28, &kept), TZ_BUFFER_LENGTH, text);
  /* Seven conversions of 18 bytes and two letters print 128 bytes at most. */
  static const char longest[] = "%s%s%s%s%s%s%s--", longer[] = "%s%s%s%s%s%s%s---";
  CODE(tz_date_time_format(&shown, longest, strlen(longest), text, sizeof text, &length), TZ_OK);
  EXPECT(length, 65);
  memset(text, 0, sizeof text);
  static const struct { const char *pattern; tz_code code; } rows[] = {
      {"%d/%Q/%Y", TZ_PATTERN_UNKNOWN_CONVERSION},
      {"%", TZ_PATTERN_UNKNOWN_CONVERSION},
      {"%3", TZ_PATTERN_UNKNOWN_CONVERSION},
      {"%.3", TZ_PATTERN_UNKNOWN_CONVERSION},
      {"%3d", TZ_PATTERN_UNKNOWN_CONVERSION},
      {longer, TZ_PATTERN_TOO_LONG},
      {"%Y\xFF", TZ_PATTERN_UTF8},
      {"%Q\xE5\xB9", TZ_PATTERN_UTF8},
  };
  tz_parsed parsed = {TZ_UTC_EPOCH, 0, false};
  for (size_t i = 0; i < sizeof rows / sizeof *rows; i++) {
    const size_t size = strlen(rows[i].pattern);
    REFUSED(tz_date_time_format(&shown, rows[i].pattern, size, text, sizeof text, &kept), rows[i].code, text);
    REFUSED(tz_utc_format(&utc, rows[i].pattern, size, text, sizeof text, &kept), rows[i].code, text);
    REFUSED(tz_pattern_read(rows[i].pattern, size, "", 0, &parsed), rows[i].code, parsed);
  }
  /* The pattern ends where its length says, and a NUL is none. */
  REFUSED(tz_utc_format(&utc, "%Y", 1, text, sizeof text, &kept), TZ_PATTERN_UNKNOWN_CONVERSION, text);
  REFUSED(tz_utc_format(&utc, "%\0Y", 3, text, sizeof text, &kept), TZ_PATTERN_UNKNOWN_CONVERSION, text);
  /* This pattern names UTC. */
  REFUSED(tz_date_time_format(&shown, TZ_HTTP_DATE, strlen(TZ_HTTP_DATE), text, sizeof text, &kept), TZ_PATTERN_OF_UTC, text);
  EXPECT(kept, 77);
}

static void test_read_formats(void) {
  static const struct { const char *pattern, *text; int64_t local; int32_t ut_offset; bool has_offset; } rows[] = {
      {TZ_COMMON_LOG, "10/Oct/2000:13:55:36 -0700", 971186136, -25200, true},
      {TZ_RFC_2822, "Fri, 21 Nov 1997 09:55:06 -0600", 880106106, -21600, true},
      {TZ_RFC_3339_MILLIS, "2000-11-03T05:06:07.089+00:00", 973227967, 0, true},
      {TZ_HTTP_DATE, "Sun, 06 Nov 1994 08:49:37 GMT", 784111777, 0, false},
      {"%e %B %Y %I%p", " 3 November 2000 12AM", 973209600, 0, false},
  };
  tz_parsed parsed = {TZ_UTC_EPOCH, 0, false};
  for (size_t i = 0; i < sizeof rows / sizeof *rows; i++) {
    CODE(tz_pattern_read(rows[i].pattern, strlen(rows[i].pattern), rows[i].text, strlen(rows[i].text), &parsed), TZ_OK);
    EXPECT(parsed.local.unix_time, rows[i].local);
    EXPECT(parsed.ut_offset, rows[i].ut_offset);
    EXPECT(parsed.has_offset, rows[i].has_offset);
  }
  static const struct { const char *pattern, *text; tz_code code; } refused[] = {
      {TZ_COMMON_LOG, "10/oct/2000:13:55:36 -0700", TZ_PATTERN_MISMATCH},
      {TZ_COMMON_LOG, "10/Oct/2000:13:55:36 -070", TZ_PATTERN_MISMATCH},
      {TZ_COMMON_LOG, "10/Oct/2000:13:55:36 -07000", TZ_PATTERN_MISMATCH},
      {TZ_COMMON_LOG, "10/Oct/2000:13:55:36 -0000", TZ_PATTERN_MISMATCH},
      {TZ_COMMON_LOG, "", TZ_PATTERN_MISMATCH},
      {TZ_RFC_2822, "Thu, 21 Nov 1997 09:55:06 -0600", TZ_PATTERN_MISMATCH},
      {"%e %b %Y", "3 Nov 2000", TZ_PATTERN_MISMATCH},
      {"%H:%M", "05:06", TZ_PATTERN_MISMATCH},
      {"%F %I", "2000-11-03 05", TZ_PATTERN_NOT_READABLE},
      {"%s", "0", TZ_PATTERN_NOT_READABLE},
      {"%F %Z", "2000-11-03 UTC", TZ_PATTERN_NOT_READABLE},
      {"%G-W%V-%u", "2000-W44-5", TZ_PATTERN_NOT_READABLE},
  };
  for (size_t i = 0; i < sizeof refused / sizeof *refused; i++) {
    REFUSED(tz_pattern_read(refused[i].pattern, strlen(refused[i].pattern), refused[i].text, strlen(refused[i].text), &parsed), refused[i].code, parsed);
  }
}

/* Each code that there is, and its text. */
static const struct { tz_code code; const char *text; } code_texts[] = {
    {TZ_OK, "no error"},
    {TZ_OUT_OF_RANGE, "out of range operation"},
    {TZ_NO_AVAILABLE_LOCAL_TIME_TYPE, "no local time type is available for the specified timestamp"},
    {TZ_NO_RULE, "no rule is given"},
    {TZ_NO_CHANGE, "the clock does not change"},
    {TZ_NO_DATE_TIME, "the local time means no date time"},
    {TZ_NO_TZ_STRING, "no TZ string denotes the rule"},
    {TZ_NO_CONFLICT, "the parts show no conflict"},
    {TZ_BUFFER_LENGTH, "a buffer has the wrong length"},
    {TZ_UNKNOWN_CHOICE, "unknown choice"},
    {TZ_UNKNOWN_CODE, "unknown code"},
    {TZ_INVALID_NAME, "not a time zone name"},
    {TZ_INVALID_MONTH, "invalid date time: invalid month"},
    {TZ_INVALID_MONTH_DAY, "invalid date time: invalid month day"},
    {TZ_INVALID_HOUR, "invalid date time: invalid hour"},
    {TZ_INVALID_MINUTE, "invalid date time: invalid minute"},
    {TZ_INVALID_SECOND, "invalid date time: invalid second"},
    {TZ_INVALID_NANOSECONDS, "invalid date time: invalid nanoseconds"},
    {TZ_INVALID_TIME_ZONE_DESIGNATION_LENGTH, "invalid local time type: time zone designation must have between 3 and 7 characters"},
    {TZ_INVALID_TIME_ZONE_DESIGNATION_CHAR, "invalid local time type: invalid characters in time zone designation"},
    {TZ_INVALID_UTC_OFFSET, "invalid local time type: invalid UTC offset"},
    {TZ_INVALID_RULE_DAY_JULIAN_DAY, "invalid transition rule: invalid rule day julian day"},
    {TZ_INVALID_RULE_DAY_MONTH, "invalid transition rule: invalid rule day month"},
    {TZ_INVALID_RULE_DAY_WEEK, "invalid transition rule: invalid rule day week"},
    {TZ_INVALID_RULE_DAY_WEEK_DAY, "invalid transition rule: invalid rule day week day"},
    {TZ_INVALID_STD_UTC_OFFSET, "invalid transition rule: invalid standard time UTC offset"},
    {TZ_INVALID_DST_UTC_OFFSET, "invalid transition rule: invalid Daylight Saving Time UTC offset"},
    {TZ_INVALID_DST_START_END_TIME, "invalid transition rule: invalid DST start or end time"},
    {TZ_INCONSISTENT_RULE, "invalid transition rule: DST transition rules are not consistent from one year to another"},
    {TZ_NO_LOCAL_TIME_TYPE, "invalid time zone: list of local time types must not be empty"},
    {TZ_INVALID_LOCAL_TIME_TYPE_INDEX, "invalid time zone: invalid local time type index"},
    {TZ_INVALID_TRANSITION, "invalid time zone: invalid transition"},
    {TZ_INVALID_LEAP_SECOND, "invalid time zone: invalid leap second"},
    {TZ_INCONSISTENT_EXTRA_RULE, "invalid time zone: extra transition rule is inconsistent with the last transition"},
    {TZ_STRING_UTF8, "invalid TZ string: invalid UTF-8"},
    {TZ_STRING_PARSE_INT_EMPTY, "invalid TZ string: cannot parse integer from empty string"},
    {TZ_STRING_UNEXPECTED_EOF, "invalid TZ string: unexpected end of data"},
    {TZ_STRING_INVALID_DATA, "invalid TZ string: invalid data"},
    {TZ_STRING_INVALID_OFFSET_HOUR, "invalid TZ string: invalid offset hour"},
    {TZ_STRING_INVALID_OFFSET_MINUTE, "invalid TZ string: invalid offset minute"},
    {TZ_STRING_INVALID_OFFSET_SECOND, "invalid TZ string: invalid offset second"},
    {TZ_STRING_INVALID_DAY_TIME_HOUR, "invalid TZ string: invalid day time hour"},
    {TZ_STRING_INVALID_DAY_TIME_MINUTE, "invalid TZ string: invalid day time minute"},
    {TZ_STRING_INVALID_DAY_TIME_SECOND, "invalid TZ string: invalid day time second"},
    {TZ_STRING_MISSING_DST_START_END_RULES, "invalid TZ string: missing DST start and end rules"},
    {TZ_STRING_REMAINING_DATA, "invalid TZ string: remaining data after parsing TZ string"},
    {TZ_STRING_EMPTY, "invalid TZ string: empty TZ string"},
    {TZ_STRING_PARSE_INT_OVERFLOW, "invalid TZ string: number too large to fit in target type"},
    {TZ_FILE_UTF8, "invalid TZ file: invalid UTF-8"},
    {TZ_FILE_UNEXPECTED_EOF, "invalid TZ file: unexpected end of data"},
    {TZ_FILE_INVALID_DATA, "invalid TZ file: invalid data"},
    {TZ_FILE_INVALID_MAGIC_NUMBER, "invalid TZ file: invalid magic number"},
    {TZ_FILE_UNSUPPORTED_VERSION, "invalid TZ file: unsupported TZ file version"},
    {TZ_FILE_INVALID_HEADER, "invalid TZ file: invalid header"},
    {TZ_FILE_INVALID_FOOTER, "invalid TZ file: invalid footer"},
    {TZ_FILE_INVALID_DST_INDICATOR, "invalid TZ file: invalid DST indicator"},
    {TZ_FILE_INVALID_DESIGNATION_CHAR_INDEX, "invalid TZ file: invalid time zone designation char index"},
    {TZ_FILE_INVALID_STD_WALL_UT_LOCAL, "invalid TZ file: invalid couple of standard/wall and UT/local indicators"},
    {TZ_FILE_REMAINING_DATA_V1, "invalid TZ file: remaining data after the end of a TZif v1 data block"},
    {TZ_EXPECTED_YEAR, "expected a year of four digits or more"},
    {TZ_EXPECTED_HYPHEN, "expected `-`"},
    {TZ_EXPECTED_MONTH, "expected a month from 01 to 12"},
    {TZ_EXPECTED_MONTH_DAY, "expected a day of the month"},
    {TZ_EXPECTED_SEPARATOR, "expected `T` or a space"},
    {TZ_EXPECTED_HOUR, "expected an hour from 00 to 23"},
    {TZ_EXPECTED_COLON, "expected `:`"},
    {TZ_EXPECTED_MINUTE, "expected a minute from 00 to 59"},
    {TZ_EXPECTED_SECOND, "expected a second from 00 to 60"},
    {TZ_EXPECTED_FRACTION, "expected a fraction of one to nine digits"},
    {TZ_EXPECTED_OFFSET, "expected `Z`, the sign of an offset or the end"},
    {TZ_EXPECTED_OFFSET_HOUR, "expected the hours of an offset in two digits"},
    {TZ_EXPECTED_OFFSET_MINUTE, "expected the minutes of an offset from 00 to 59"},
    {TZ_EXPECTED_OFFSET_SECOND, "expected the seconds of an offset from 00 to 59"},
    {TZ_EXPECTED_END, "expected the end"},
    {TZ_PATTERN_UTF8, "invalid pattern: invalid UTF-8"},
    {TZ_PATTERN_UNKNOWN_CONVERSION, "invalid pattern: no conversion begins at a `%`"},
    {TZ_PATTERN_TOO_LONG, "invalid pattern: it prints more than 128 bytes"},
    {TZ_PATTERN_OF_UTC, "the pattern prints date times of UTC alone"},
    {TZ_PATTERN_NOT_READABLE, "the pattern has a conversion that is not read"},
    {TZ_PATTERN_MISMATCH, "the pattern does not print the text"},
    {TZ_MEMORY, "no memory"},
};

/* The code has the text, and a buffer that is one byte short is refused. */
static void expect_error_text(tz_code code, const char *wanted) {
  char text[129];
  const size_t n = strlen(wanted);
  size_t length = 77;
  memset(text, '?', sizeof text);
  CODE(tz_error_text(code, text, n - 1, &length), TZ_BUFFER_LENGTH);
  EXPECT(length, 77);
  EXPECT(text[0], '?');
  CODE(tz_error_text(code, NULL, 0, &length), TZ_BUFFER_LENGTH);
  CODE(tz_error_text(code, text, n, &length), TZ_OK);
  EXPECT(length, n);
  EXPECT(text[n], '?');
  memset(text, '?', sizeof text);
  CODE(tz_error_text(code, text, 128, &length), TZ_OK);
  EXPECT(length, n);
  EXPECT(text[n], '?');
  if (memcmp(text, wanted, n) != 0) fail(__FILE__, __LINE__, "the text of a code", code, code);
}

static void test_error_texts(void) {
  char text[128];
  size_t length = 7, row = 0;
  for (tz_code code = 0; code < 300; code++) {
    if (row < sizeof code_texts / sizeof *code_texts && code_texts[row].code == code) expect_error_text(code, code_texts[row++].text);
    else REFUSED(tz_error_text(code, text, sizeof text, &length), TZ_UNKNOWN_CODE, length);
  }
  EXPECT(row, sizeof code_texts / sizeof *code_texts);
  EXPECT(row, 81);
  REFUSED(tz_error_text(UINT32_MAX, text, sizeof text, &length), TZ_UNKNOWN_CODE, length);
}

static void test_strings(void) {
  tz_rule rule = {0};
  static const struct { const char *text; tz_code code; } rows[] = {
      {"CET-1CEST,M3.5.0,M10.5.0/3", TZ_OK},
      {"", TZ_INVALID_TIME_ZONE_DESIGNATION_LENGTH + 1000}, /* any code but 0 */
      {"HST", TZ_STRING_PARSE_INT_EMPTY},
      {"HST99999999999", TZ_STRING_PARSE_INT_OVERFLOW},
      {"<HST", TZ_STRING_UNEXPECTED_EOF},
      {"AAA0BBB1;", TZ_STRING_INVALID_DATA},
      {"HST25", TZ_STRING_INVALID_OFFSET_HOUR},
      {"HST1:60", TZ_STRING_INVALID_OFFSET_MINUTE},
      {"HST1:00:60", TZ_STRING_INVALID_OFFSET_SECOND},
      {"AAA0BBB,0/25,1", TZ_STRING_INVALID_DAY_TIME_HOUR},
      {"AAA0BBB,0/1:60,1", TZ_STRING_INVALID_DAY_TIME_MINUTE},
      {"AAA0BBB,0/1:00:60,1", TZ_STRING_INVALID_DAY_TIME_SECOND},
      {"AAA0BBB", TZ_STRING_MISSING_DST_START_END_RULES},
      {"AAA0BBB,0,1,", TZ_STRING_REMAINING_DATA},
      {"AAAAAAAA0", TZ_INVALID_TIME_ZONE_DESIGNATION_LENGTH},
      {"<A C>0", TZ_INVALID_TIME_ZONE_DESIGNATION_CHAR},
      {"AAA0BBB,M0.1.0,1", TZ_INVALID_RULE_DAY_MONTH},
  };
  for (size_t i = 0; i < sizeof rows / sizeof *rows; i++) {
    tz_code code = code_of(tz_string_read(rows[i].text, strlen(rows[i].text), false, &rule));
    if (rows[i].code < 1000) EXPECT(code, rows[i].code);
    else EXPECT(code != TZ_OK, true);
  }
  CODE(tz_string_read("HST10", 5, false, &rule), TZ_OK);
  EXPECT(rule.kind, TZ_FIXED);
  EXPECT(rule.fixed.ut_offset, -36000);
  const char *extended = "<-02>2<-01>,M3.5.0/-1,M10.5.0/0";
  EXPECT(tz_string_read(extended, strlen(extended), false, &rule) != TZ_OK, true);
  EXPECT(rule.kind, TZ_FIXED);
  CODE(tz_string_read(extended, strlen(extended), true, &rule), TZ_OK);
  EXPECT(rule.kind, TZ_ALTERNATE);
  EXPECT(rule.alternate.dst_start_time, -3600);
}

static void test_names(void) {
  static const char *const names[] = {"Europe/Paris", "UTC", "Etc/GMT+5", "America/Argentina/Buenos_Aires"};
  static const char *const others[] = {"", "/etc/localtime", "../Paris", "Europe/..", ":Europe/Paris", "Europe/../../etc/passwd"};
  for (size_t i = 0; i < sizeof names / sizeof *names; i++) CODE(tz_name_check(names[i], strlen(names[i])), TZ_OK);
  for (size_t i = 0; i < sizeof others / sizeof *others; i++) CODE(tz_name_check(others[i], strlen(others[i])), TZ_INVALID_NAME);
  CODE(tz_name_check(NULL, 0), TZ_INVALID_NAME);
  /* A name of any length, whose last byte decides. */
  char name[200];
  for (size_t n = 1; n <= sizeof name; n++) {
    memset(name, 'A', sizeof name);
    CODE(tz_name_check(name, n), TZ_OK);
    name[n - 1] = ' ';
    CODE(tz_name_check(name, n), TZ_INVALID_NAME);
  }
}

static void test_settings(void) {
  tz_setting setting = {0};
  REFUSED(tz_setting_read(NULL, 0, &setting), TZ_STRING_EMPTY, setting);
  CODE(tz_setting_read("Europe/Paris", 12, &setting), TZ_OK);
  EXPECT(setting.kind, TZ_FILE_OR_STRING);
  EXPECT(setting.from, 0);
  EXPECT(setting.until, 12);
  CODE(tz_setting_read(":/etc/x", 7, &setting), TZ_OK);
  EXPECT(setting.kind, TZ_FILE);
  EXPECT(setting.from, 1);
  EXPECT(setting.until, 7);
  CODE(tz_setting_read("localtime", 9, &setting), TZ_OK);
  EXPECT(setting.kind, TZ_LOCAL_TIME);
  EXPECT(setting.from + setting.until, 0);
}

void make_zone(made_zone *made) {
  memset(made, 0, sizeof *made);
  made->types[0] = type_of(0, false, "LMT");
  made->types[1] = type_of(3600, false, "CET");
  made->types[2] = type_of(7200, true, "CEST");
  made->transitions[0].unix_leap_time = 0;
  made->transitions[0].local_time_type_index = 2;
  made->transitions[1].unix_leap_time = 946684800;
  made->transitions[1].local_time_type_index = 1;
  made->rule = europe();
  tz_parts parts = {made->transitions, 2, made->types, 3, NULL, 0, NULL, 0, &made->rule, 1};
  made->zone.parts = parts;
  CODE(tz_zone_check(&made->zone.parts, &made->zone.offsets), TZ_OK);
  EXPECT(made->zone.offsets.least, 0);
  EXPECT(made->zone.offsets.greatest, 7200);
}

static void test_zone_checks(void) {
  made_zone made;
  make_zone(&made);
  tz_parts parts = made.zone.parts;
  tz_offsets offsets = {0, 0};
  parts.types_length = 0;
  parts.types = NULL;
  REFUSED(tz_zone_check(&parts, &offsets), TZ_NO_LOCAL_TIME_TYPE, offsets);
  parts = made.zone.parts;
  parts.types_length = 2;
  REFUSED(tz_zone_check(&parts, &offsets), TZ_INVALID_LOCAL_TIME_TYPE_INDEX, offsets);
  parts = made.zone.parts;
  tz_transition equal[2] = {made.transitions[0], made.transitions[0]};
  parts.transitions = equal;
  REFUSED(tz_zone_check(&parts, &offsets), TZ_INVALID_TRANSITION, offsets);
  parts = made.zone.parts;
  tz_leap_second leap = {-1, 1};
  parts.leap_seconds = &leap;
  parts.leap_seconds_length = 1;
  REFUSED(tz_zone_check(&parts, &offsets), TZ_INVALID_LEAP_SECOND, offsets);
  parts = made.zone.parts;
  tz_transition summer[1] = {{946684800, 2}};
  parts.transitions = summer;
  parts.transitions_length = 1;
  REFUSED(tz_zone_check(&parts, &offsets), TZ_INCONSISTENT_EXTRA_RULE, offsets);
  summer[0].unix_leap_time = INT64_MAX;
  REFUSED(tz_zone_check(&parts, &offsets), TZ_OUT_OF_RANGE, offsets);
}

static void test_zones(void) {
  made_zone made;
  make_zone(&made);
  const tz_zone *zone = &made.zone;
  tz_local_time_type type = {0};
  tz_segment segment = {0};
  tz_change change = {0};
  tz_date_time shown = {0};
  size_t place = 77;
  int64_t moment = 77;
  CODE(tz_zone_type_at(zone, -1, &type), TZ_OK);
  EXPECT(type.ut_offset, 0);
  CODE(tz_zone_type_at(zone, 954032400, &type), TZ_OK);
  EXPECT(type.ut_offset, 7200);
  REFUSED(tz_zone_type_at(zone, INT64_MAX, &type), TZ_OUT_OF_RANGE, type);
  CODE(tz_zone_place_at(zone, 0, &place), TZ_OK);
  EXPECT(place, 2);
  REFUSED(tz_zone_place_at(zone, INT64_MAX, &place), TZ_OUT_OF_RANGE, place);
  CODE(tz_zone_segment_at(zone, 5, &segment), TZ_OK);
  EXPECT(segment.from, 0);
  EXPECT(segment.last, 946684799);
  EXPECT(segment.has_type, true);
  EXPECT(segment.local_time_type.ut_offset, 7200);
  CODE(tz_zone_segment_at(zone, INT64_MAX, &segment), TZ_OK);
  EXPECT(segment.has_type, false);
  static const tz_local_time_type no_type = {0};
  const size_t without_padding = offsetof(tz_local_time_type, designation_length) + 1;
  EXPECT(memcmp(&segment.local_time_type, &no_type, without_padding), 0);
  CODE(tz_zone_following(zone, 0, &change), TZ_OK);
  EXPECT(change.unix_time, 946684800);
  EXPECT(change.before.ut_offset, 7200);
  EXPECT(change.after.ut_offset, 3600);
  CODE(tz_zone_preceding(zone, 1, &change), TZ_OK);
  EXPECT(change.unix_time, 0);
  REFUSED(tz_zone_preceding(zone, 0, &change), TZ_NO_CHANGE, change);
  CODE(tz_zone_leap_time(zone, 5, &moment), TZ_OK);
  EXPECT(moment, 5);
  CODE(tz_zone_effect(zone, 6, &moment), TZ_OK);
  EXPECT(moment, 6);
  REFUSED(tz_zone_effect(zone, INT64_MIN, &moment), TZ_OUT_OF_RANGE, moment);
  CODE(tz_date_time_from_timespec(954032400, 3, zone, &shown), TZ_OK);
  EXPECT(shown.fields.hour, 3);
  EXPECT(shown.fields.nanoseconds, 3);
  REFUSED(tz_date_time_from_timespec(0, 1000000000, zone, &shown), TZ_INVALID_NANOSECONDS, shown);
  REFUSED(tz_date_time_from_timespec(INT64_MIN, 0, zone, &shown), TZ_OUT_OF_RANGE, shown);

  /* The rule's own types, which the list does not have. */
  tz_local_time_type plain = type_of(60, false, NULL);
  tz_parts alone = {NULL, 0, &plain, 1, NULL, 0, NULL, 0, &made.rule, 1};
  tz_zone by_rule = {alone, {0, 0}};
  CODE(tz_zone_check(&by_rule.parts, &by_rule.offsets), TZ_OK);
  CODE(tz_zone_place_at(&by_rule, 0, &place), TZ_OK);
  EXPECT(place, 1);
  CODE(tz_zone_place_at(&by_rule, 954032400, &place), TZ_OK);
  EXPECT(place, 2);

  /* Of two equal types of the list and the rule the first is named: transitions name the second and the third. */
  tz_local_time_type equal_types[3] = {made.types[1], made.types[2], made.types[1]};
  tz_transition to_equal[2] = {{0, 1}, {946684800, 2}};
  tz_parts equal_parts = {to_equal, 2, equal_types, 3, NULL, 0, NULL, 0, &made.rule, 1};
  tz_zone of_equal = {equal_parts, {0, 0}};
  CODE(tz_zone_check(&of_equal.parts, &of_equal.offsets), TZ_OK);
  CODE(tz_zone_place_at(&of_equal, -1, &place), TZ_OK);
  EXPECT(place, 0);
  CODE(tz_zone_place_at(&of_equal, 0, &place), TZ_OK);
  EXPECT(place, 1);
  CODE(tz_zone_place_at(&of_equal, 946684800, &place), TZ_OK);
  EXPECT(place, 0);
  CODE(tz_zone_place_at(&of_equal, 954032400, &place), TZ_OK);
  EXPECT(place, 1);

  /* A zone that is over. */
  tz_parts over = made.zone.parts;
  over.alternate_length = 0;
  tz_zone ended = {over, {0, 0}};
  CODE(tz_zone_check(&ended.parts, &ended.offsets), TZ_OK);
  REFUSED(tz_zone_type_at(&ended, 946684800, &type), TZ_NO_AVAILABLE_LOCAL_TIME_TYPE, type);
  REFUSED(tz_zone_following(&ended, 0, &change), TZ_NO_CHANGE, change);

  /* A zone of static tables of zeros. */
  static const tz_local_time_type zeros[1] = {{0, false, {0}, 0}};
  tz_zone still = {{NULL, 0, zeros, 1, NULL, 0, NULL, 0, NULL, 0}, {0, 0}};
  CODE(tz_zone_check(&still.parts, &still.offsets), TZ_OK);
  CODE(tz_zone_type_at(&still, INT64_MIN, &type), TZ_OK);
  REFUSED(tz_zone_following(&still, INT64_MIN, &change), TZ_NO_CHANGE, change);
}

/* A rule holds where there are no transitions, each list having its own length. */
static void test_rules_alone(void) {
  const tz_local_time_type type = type_of(0, false, NULL), fixed = type_of(5400, false, "FIX");
  const tz_alternate rule = europe();
  const tz_leap_second leaps[] = {{78796800, 1}, {94694401, 2}};
  for (int i = 0; i < 2; i++) {
    tz_zone zone;
    memset(&zone, 0, sizeof zone);
    zone.parts.types = &type;
    zone.parts.types_length = 1;
    zone.parts.leap_seconds = leaps;
    zone.parts.leap_seconds_length = 2;
    if (i == 0) zone.parts.fixed = &fixed, zone.parts.fixed_length = 1;
    if (i == 1) zone.parts.alternate = &rule, zone.parts.alternate_length = 1;
    CODE(tz_zone_check(&zone.parts, &zone.offsets), TZ_OK);
    EXPECT(zone.offsets.least, 0);
    EXPECT(zone.offsets.greatest, i == 0 ? 5400 : 7200);
    tz_local_time_type found = {0};
    CODE(tz_zone_type_at(&zone, 0, &found), TZ_OK);
    EXPECT(found.ut_offset, i == 0 ? 5400 : 3600);
    size_t place = 0;
    CODE(tz_zone_place_at(&zone, 0, &place), TZ_OK);
    EXPECT(place, 1);
    int64_t leap_time = 0;
    CODE(tz_zone_leap_time(&zone, 94694400, &leap_time), TZ_OK);
    EXPECT(leap_time, 94694402);
  }
}

/* A clock that shows 00:00 five times: it is set back an hour each hour. */
static void test_many_entries(void) {
  static tz_transition transitions[5];
  static tz_local_time_type types[6];
  for (int i = 0; i < 6; i++) types[i] = type_of(3600 * (5 - i), false, NULL);
  for (int i = 0; i < 5; i++) {
    transitions[i].unix_leap_time = 3600 * i + 1800;
    transitions[i].local_time_type_index = (size_t)(i + 1);
  }
  tz_zone zone = {{transitions, 5, types, 6, NULL, 0, &types[5], 1, NULL, 0}, {0, 0}};
  CODE(tz_zone_check(&zone.parts, &zone.offsets), TZ_OK);
  tz_fields fields = fields_of(1970, 1, 1, 5, 10, 0, 0);
  static const size_t lengths[] = {0, 1, 2, 4, 5, 40};
  for (size_t k = 0; k < sizeof lengths / sizeof *lengths; k++) {
    for (size_t skip = 0; skip < 8; skip++) {
      tz_found slots[41];
      size_t count = 77, n = lengths[k];
      memset(slots, 0, sizeof slots);
      for (size_t i = 0; i < 41; i++) slots[i].before.unix_time = 1000 + (int64_t)i;
      CODE(tz_find_n(&fields, &zone, skip, n == 0 ? NULL : slots, n, &count), TZ_OK);
      EXPECT(count, 6);
      for (size_t i = 0; i < 41; i++) {
        bool written = i < n && skip + i < 6;
        EXPECT(slots[i].before.unix_time, written ? 600 + 3600 * (int64_t)(skip + i) : 1000 + (int64_t)i);
      }
    }
  }
}

/* Half an hour before the end of all years a clock shows a time that is skipped later, in the next
   year: the search is refused, and its first entry is not written. */
static void test_search_past_the_end(void) {
  const int64_t end = 67767976233532800;
  const tz_local_time_type types[] = {type_of(0, false, NULL), type_of(-3600, false, NULL), type_of(7200, false, NULL)};
  const tz_transition transitions[] = {{end - 900, 1}, {end + 900, 2}};
  tz_zone zone = {{transitions, 2, types, 3, NULL, 0, &types[2], 1, NULL, 0}, {0, 0}};
  CODE(tz_zone_check(&zone.parts, &zone.offsets), TZ_OK);
  tz_fields fields = fields_of(INT32_MAX, 12, 31, 23, 30, 0, 0);
  tz_found slots[2];
  size_t count = 77;
  memset(slots, 0, sizeof slots);
  REFUSED(tz_find_n(&fields, &zone, 0, slots, 2, &count), TZ_OUT_OF_RANGE, slots);
  EXPECT(count, 77);
  fields.minute = 29;
  fields.hour = 22;
  CODE(tz_find_n(&fields, &zone, 0, slots, 2, &count), TZ_OK);
  EXPECT(count, 1);
}

static void test_searches(void) {
  made_zone made;
  make_zone(&made);
  tz_found slots[2];
  tz_date_time meant = {0};
  size_t count = 77;
  memset(slots, 0, sizeof slots);
  tz_fields skipped = fields_of(2001, 3, 25, 2, 30, 0, 1), twice = fields_of(2001, 10, 28, 2, 30, 0, 0), none = fields_of(2001, 2, 29, 0, 0, 0, 0);
  CODE(tz_find_n(&skipped, &made.zone, 0, slots, 2, &count), TZ_OK);
  EXPECT(count, 1);
  EXPECT(slots[0].is_skipped, true);
  EXPECT(slots[0].before.fields.hour, 2);
  EXPECT(slots[0].after.fields.hour, 3);
  EXPECT(slots[1].before.fields.month, 0);
  CODE(tz_find_n(&twice, &made.zone, 1, slots, 1, &count), TZ_OK);
  EXPECT(count, 2);
  EXPECT(slots[0].is_skipped, false);
  EXPECT(slots[0].before.local_time_type.ut_offset, 3600);
  EXPECT(slots[0].after.local_time_type.ut_offset, 3600);
  count = 77;
  REFUSED(tz_find_n(&none, &made.zone, 0, slots, 2, &count), TZ_INVALID_MONTH_DAY, slots);
  EXPECT(count, 77);
  CODE(tz_find_one(&twice, TZ_COMPATIBLE, &made.zone, &meant), TZ_OK);
  EXPECT(meant.local_time_type.ut_offset, 7200);
  CODE(tz_find_one(&twice, TZ_LATER, &made.zone, &meant), TZ_OK);
  EXPECT(meant.local_time_type.ut_offset, 3600);
  CODE(tz_find_one(&skipped, TZ_COMPATIBLE, &made.zone, &meant), TZ_OK);
  EXPECT(meant.fields.hour, 3);
  CODE(tz_find_one(&skipped, TZ_EARLIER, &made.zone, &meant), TZ_OK);
  EXPECT(meant.fields.hour, 1);
  REFUSED(tz_find_one(&twice, TZ_REJECT, &made.zone, &meant), TZ_NO_DATE_TIME, meant);
  REFUSED(tz_find_one(&twice, 4, &made.zone, &meant), TZ_UNKNOWN_CHOICE, meant);
  REFUSED(tz_find_one(&none, TZ_REJECT, &made.zone, &meant), TZ_INVALID_MONTH_DAY, meant);
  const tz_fields no_hour = fields_of(2001, 10, 28, 24, 0, 0, 0);
  REFUSED(tz_find_n(&no_hour, &made.zone, 0, slots, 2, &count), TZ_INVALID_HOUR, slots);
  REFUSED(tz_find_one(&no_hour, TZ_REJECT, &made.zone, &meant), TZ_INVALID_HOUR, meant);
}

/* A file of version 1 with one type. */
static const uint8_t small_file[] = {'T', 'Z', 'i', 'f', 0, 0, 0, 0, 0, 0, 0, 0, 0, 0, 0, 0, 0, 0, 0, 0, 0, 0, 0, 0, 0, 0, 0, 0, 0, 0, 0, 0,
                                     0,   0,   0,   0,   0, 0, 0, 1, 0, 0, 0, 4, 0, 0, 14, 16, 0, 0, 'C', 'E', 'T', 0};

/* A change of one byte is refused with the code, by the sizes or by the reader. */
static void expect_altered(size_t at, uint8_t byte, tz_code wanted) {
  uint8_t bytes[sizeof small_file];
  tz_sizes sizes = {0};
  tz_local_time_type types[2] = {{0}};
  tz_rule rule = {0};
  tz_offsets offsets = {7, 7};
  memcpy(bytes, small_file, sizeof bytes);
  bytes[at] = byte;
  tz_code code = tz_file_sizes(bytes, sizeof bytes, &sizes);
  if (code == TZ_OK) code = tz_file_read(bytes, sizeof bytes, NULL, 0, types, 1, NULL, 0, &rule, &offsets);
  CODE(code, wanted);
  EXPECT(offsets.least, 7);
}

/* Whether `malloc` gives no memory. The linker has the archive call this one (--wrap=malloc). */
static bool is_out_of_memory = false;
void *__real_malloc(size_t size);
void *__wrap_malloc(size_t size);
void *__wrap_malloc(size_t size) { return is_out_of_memory ? NULL : __real_malloc(size); }

/* Reads a file of one type, by its sizes and its tables. */
static tz_code read_small(const uint8_t *bytes, size_t length, tz_rule *rule) {
  tz_sizes sizes = {0};
  tz_local_time_type types[1] = {{0}};
  tz_offsets offsets = {7, 7};
  const tz_code code = tz_file_sizes(bytes, length, &sizes);
  return code != TZ_OK ? code : tz_file_read(bytes, length, NULL, 0, types, 1, NULL, 0, rule, &offsets);
}

/* The small file as one of version 2 with this footer is read, or refused with the code. */
static void expect_footer(const char *footer, tz_code wanted) {
  uint8_t bytes[2 * sizeof small_file + 16];
  const size_t length = strlen(footer);
  tz_rule rule = {0};
  memcpy(bytes, small_file, sizeof small_file);
  memcpy(bytes + sizeof small_file, small_file, sizeof small_file);
  memcpy(bytes + 2 * sizeof small_file, footer, length);
  bytes[4] = bytes[sizeof small_file + 4] = '2';
  CODE(read_small(bytes, 2 * sizeof small_file + length, &rule), wanted);
  EXPECT(rule.kind, wanted == TZ_OK && length > 2 ? TZ_FIXED : TZ_NONE);
}

/* The small file with these indicators of standard time and of UT is read, or refused with the code. */
static void expect_indicators(uint8_t is_standard, uint8_t is_ut, tz_code wanted) {
  uint8_t bytes[sizeof small_file + 2];
  tz_rule rule = {0};
  memcpy(bytes, small_file, sizeof small_file);
  bytes[23] = bytes[27] = 1;
  bytes[sizeof small_file] = is_standard;
  bytes[sizeof small_file + 1] = is_ut;
  CODE(read_small(bytes, sizeof bytes, &rule), wanted);
}

static void test_damaged_files(void) {
  expect_altered(0, 'X', TZ_FILE_INVALID_MAGIC_NUMBER);
  expect_altered(4, '9', TZ_FILE_UNSUPPORTED_VERSION);
  expect_altered(39, 0, TZ_FILE_INVALID_HEADER);
  expect_altered(48, 2, TZ_FILE_INVALID_DST_INDICATOR);
  expect_altered(49, 9, TZ_FILE_INVALID_DESIGNATION_CHAR_INDEX);
  expect_altered(43, 3, TZ_FILE_REMAINING_DATA_V1);
  expect_footer("\n\n", TZ_OK);
  expect_footer("\nCET-1\n", TZ_OK);
  expect_footer("", TZ_FILE_INVALID_FOOTER);
  expect_footer("\nCET-1", TZ_FILE_INVALID_FOOTER);
  expect_footer("\n:CET-1\n", TZ_FILE_INVALID_FOOTER);
  expect_footer("\n\xff\n", TZ_FILE_UTF8);
  expect_footer("\nCET-25\n", TZ_STRING_INVALID_OFFSET_HOUR);
  expect_indicators(0, 0, TZ_OK);
  expect_indicators(1, 1, TZ_OK);
  expect_indicators(0, 1, TZ_FILE_INVALID_STD_WALL_UT_LOCAL);
  expect_indicators(2, 0, TZ_FILE_INVALID_STD_WALL_UT_LOCAL);

  tz_rule rule = {0};
  is_out_of_memory = true;
  const tz_code code = read_small(small_file, sizeof small_file, &rule);
  is_out_of_memory = false;
  CODE(code, TZ_MEMORY);
}

/* Each code that the library names is reached, but for two that no call returns. */
static void test_reached(void) {
  for (tz_code code = 0; code < 256; code++) {
    char text[128];
    size_t length = 0;
    const bool is_named = tz_error_text(code, text, sizeof text, &length) == TZ_OK;
    const bool is_returned = is_named && code != TZ_STRING_UTF8 && code != TZ_FILE_INVALID_DATA;
    if (reached[code] != is_returned) fail(__FILE__, __LINE__, "a code that is reached", code, is_returned);
  }
}

/* The bytes of a file, and how many there are. */
static size_t read_file(const char *path, uint8_t *bytes, size_t most) {
  FILE *file = fopen(path, "rb");
  if (file == NULL) {
    fail(__FILE__, __LINE__, path, 0, 1);
    return 0;
  }
  const size_t n = fread(bytes, 1, most, file);
  fclose(file);
  return n;
}

/* The zone of a file, and its tables. */
typedef struct { tz_transition *transitions; tz_local_time_type *types; tz_leap_second *leaps; tz_rule rule; tz_zone zone; } read_zone;

static void make_read_zone(const uint8_t *bytes, size_t n, read_zone *made) {
  tz_sizes sizes = {0};
  tz_offsets offsets = {0, 0};
  CODE(tz_file_sizes(bytes, n, &sizes), TZ_OK);
  made->transitions = calloc(sizes.transitions + 1, sizeof *made->transitions);
  made->types = calloc(sizes.types + 1, sizeof *made->types);
  made->leaps = calloc(sizes.leap_seconds + 1, sizeof *made->leaps);
  memset(&made->rule, 0, sizeof made->rule);
  CODE(tz_file_read(bytes, n, made->transitions, sizes.transitions, made->types, sizes.types, made->leaps, sizes.leap_seconds, &made->rule, &offsets),
       TZ_OK);
  const tz_rule *rule = &made->rule;
  const tz_zone zone = {{made->transitions, sizes.transitions, made->types, sizes.types, made->leaps, sizes.leap_seconds, &rule->fixed,
                         rule->kind == TZ_FIXED, &rule->alternate, rule->kind == TZ_ALTERNATE},
                        offsets};
  made->zone = zone;
}

static void free_read_zone(read_zone *made) {
  free(made->transitions);
  free(made->types);
  free(made->leaps);
}

static void test_files(const char *path) {
  tz_sizes sizes = {0};
  tz_local_time_type types[1] = {{0}};
  tz_rule rule = {0};
  tz_offsets offsets = {7, 7};
  CODE(tz_file_sizes(small_file, sizeof small_file, &sizes), TZ_OK);
  EXPECT(sizes.transitions, 0);
  EXPECT(sizes.types, 1);
  EXPECT(sizes.leap_seconds, 0);
  EXPECT(sizes.footer, 0);
  CODE(tz_file_read(small_file, sizeof small_file, NULL, 0, types, 1, NULL, 0, &rule, &offsets), TZ_OK);
  EXPECT(types[0].ut_offset, 3600);
  EXPECT(types[0].designation_length, 3);
  EXPECT(rule.kind, TZ_NONE);
  EXPECT(offsets.least, 3600);
  EXPECT(offsets.greatest, 3600);
  REFUSED(tz_file_read(small_file, sizeof small_file, NULL, 0, NULL, 0, NULL, 0, &rule, &offsets), TZ_BUFFER_LENGTH, offsets);
  REFUSED(tz_file_sizes(NULL, 0, &sizes), TZ_FILE_UNEXPECTED_EOF, sizes);
  for (size_t n = 0; n < sizeof small_file; n++) REFUSED(tz_file_sizes(small_file, n, &sizes), TZ_FILE_UNEXPECTED_EOF, sizes);

  static uint8_t bytes[65536];
  const size_t n = read_file(path, bytes, sizeof bytes);
  if (n == 0) return;
  read_zone made;
  make_read_zone(bytes, n, &made);
  CODE(tz_file_sizes(bytes, n, &sizes), TZ_OK);
  const tz_zone zone = made.zone;
  tz_offsets again = {0, 0};
  CODE(tz_zone_check(&zone.parts, &again), TZ_OK);
  EXPECT(again.least, zone.offsets.least);
  EXPECT(again.greatest, zone.offsets.greatest);
  /* The footer of Europe/Paris is that of the rule of central Europe. */
  tz_date_time shown = {0};
  char text[53];
  size_t length = 0;
  CODE(tz_date_time_from_timespec(954032400, 0, &zone, &shown), TZ_OK);
  CODE(tz_date_time_text(&shown, text, sizeof text, &length), TZ_OK);
  EXPECT(memcmp(text, "2000-03-26T03:00:00.000000000+02:00", 35), 0);
  /* A file that is cut has sizes exactly if its tables are whole. */
  const size_t tables = n - sizes.footer;
  for (size_t cut = 0; cut < n; cut++) EXPECT(tz_file_sizes(bytes, cut, &sizes) == TZ_OK, tables <= cut);
  /* Each altered byte: some code, and no read or write outside. */
  static uint8_t altered[65536];
  for (size_t at = 0; at < n; at++) {
    memcpy(altered, bytes, n);
    altered[at] ^= 0xff;
    if (tz_file_sizes(altered, n, &sizes) != TZ_OK) continue;
    if (sizes.transitions > n || sizes.types > n || sizes.leap_seconds > n) continue;
    tz_transition *t = calloc(sizes.transitions + 1, sizeof *t);
    tz_local_time_type *l = calloc(sizes.types + 1, sizeof *l);
    tz_leap_second *s = calloc(sizes.leap_seconds + 1, sizeof *s);
    code_of(tz_file_read(altered, n, t, sizes.transitions, l, sizes.types, s, sizes.leap_seconds, &rule, &offsets));
    free(t);
    free(l);
    free(s);
  }
  free_read_zone(&made);
}

/* A column of readings in the zone of a file. */
static void test_readings_of_file(const char *path) {
  static uint8_t bytes[65536];
  const size_t n = read_file(path, bytes, sizeof bytes);
  if (n == 0) return;
  read_zone made;
  make_read_zone(bytes, n, &made);
  test_readings_of(&made.zone);
  free_read_zone(&made);
}

int main(int argc, char **argv) {
  test_layout();
  test_types();
  test_days();
  test_rules();
  test_conflicts();
  test_outs();
  test_utc();
  test_months();
  test_week_dates();
  test_starts_of_days();
  test_date_times();
  test_texts();
  test_parsed_texts();
  test_formats();
  test_read_formats();
  test_error_texts();
  test_strings();
  test_names();
  test_settings();
  test_zone_checks();
  test_zones();
  test_rules_alone();
  test_many_entries();
  test_search_past_the_end();
  test_searches();
  test_columns();
  test_readings();
  test_null();
  test_damaged_files();
  if (argc > 1) test_files(argv[1]);
  for (int i = 1; i < argc; i++) test_readings_of_file(argv[i]);
  test_reached();
  if (failures == 0) printf("passed\n");
  return failures != 0;
}
