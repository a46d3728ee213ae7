/* Compares a column of readings with the calls for the fields of each reading, which are those that UTC shows. */
#include "test.h"

#include <stdio.h>
#include <stdlib.h>

enum { MOST = 40, BESIDE = 11, LONGEST = 8192 };

/* The first and the last second of the years of 32 bits. */
#define LEAST INT64_C(-67768100567971200)
#define GREATEST INT64_C(67767976233532799)

/* In Paris clocks show the first twice, and skip the second. */
static const int64_t fold = 972786600, gap = 954037800;

/* Each element has the answer of its fields, and nothing else is written. */
static void compare(const tz_zone *zone, uint8_t choice, const int64_t *readings, size_t n) {
  static int64_t instants[LONGEST + 1], wanted[LONGEST + 1];
  static tz_code codes[LONGEST + 1], wanted_codes[LONGEST + 1];
  for (size_t i = 0; i <= n; i++) instants[i] = wanted[i] = 77, codes[i] = wanted_codes[i] = 777;
  for (size_t i = 0; i < n; i++) {
    tz_utc shown = TZ_UTC_EPOCH;
    wanted_codes[i] = code_of(tz_utc_from_timespec(readings[i], 0, &shown));
    if (wanted_codes[i] == TZ_OK) CODE(tz_column_instants(&shown.fields, 1, choice, zone, &wanted[i], 1, &wanted_codes[i], 1), TZ_OK);
  }
  if (n == 0) {
    CODE(tz_column_instants_of_readings(NULL, 0, choice, zone, NULL, 0, NULL, 0), TZ_OK);
  } else {
    CODE(tz_column_instants_of_readings(readings, n, choice, zone, instants, n, codes, n), TZ_OK);
  }
  for (size_t i = 0; i <= n; i++) {
    EXPECT(codes[i], wanted_codes[i]);
    EXPECT(instants[i], wanted[i]);
  }
}

static void compare_by_each_choice(const tz_zone *zone, const int64_t *readings, size_t n) {
  for (uint8_t choice = TZ_COMPATIBLE; choice <= TZ_REJECT; choice++) compare(zone, choice, readings, n);
}

/* The readings at both sides of each change from 1843 to 2100, a second beside these, halfway, and those that the zone's least and greatest offset
   would show at the change and a second before. */
static size_t put_readings_beside_changes(const tz_zone *zone, int64_t *readings) {
  tz_change change = {0};
  int64_t at = -4000000000;
  size_t n = 0;
  while (n + BESIDE <= LONGEST && tz_zone_following(zone, at, &change) == TZ_OK && change.unix_time < 4102444800) {
    at = change.unix_time;
    const int64_t before = at + change.before.ut_offset, after = at + change.after.ut_offset;
    const int64_t first = at + zone->offsets.least, last = at + zone->offsets.greatest;
    const int64_t halfway = before / 2 + after / 2;
    const int64_t beside[BESIDE] = {first - 1, first, before - 1, before, before + 1, halfway, after - 1, after, after + 1, last - 1, last};
    memcpy(readings + n, beside, sizeof beside);
    n += BESIDE;
  }
  return n;
}

static int order(const void *one, const void *other) {
  const int64_t a = *(const int64_t *)one, b = *(const int64_t *)other;
  return (a > b) - (a < b);
}

/* Columns in the order of changes, in none, in that of readings, backwards, and in order but for some. */
static void test_changes(const tz_zone *zone) {
  static int64_t readings[LONGEST], others[LONGEST];
  const size_t n = put_readings_beside_changes(zone, readings);
  EXPECT(n > 0, true);
  compare_by_each_choice(zone, readings, n);
  for (size_t i = 0; i < n; i++) others[i] = readings[(i * 16381) % n]; /* a prime above n: each once */
  compare_by_each_choice(zone, others, n);
  qsort(others, n, sizeof *others, order);
  compare_by_each_choice(zone, others, n);
  for (size_t i = 0; i < n; i++) readings[i] = others[n - 1 - i];
  compare_by_each_choice(zone, readings, n);
  for (size_t i = 0; i + 5 < n; i += 43) {
    const int64_t first = others[i];
    others[i] = others[i + 5];
    others[i + 5] = first;
  }
  compare_by_each_choice(zone, others, n);
}

/* Columns of each length up to 40 with all kinds of answers: in a fold and a gap, beside both, and at the ends of years. */
static void test_kinds(const tz_zone *zone) {
  const int64_t kinds[] = {gap, fold, 0, -1, gap - 1801, gap + 1800, fold - 1801, INT64_MIN, INT64_MIN + 1, INT64_MAX, INT64_MAX - 1, LEAST - 1,
                           LEAST, LEAST + 1, LEAST + 90000, GREATEST - 90000, GREATEST - 1, GREATEST, GREATEST + 1, fold + 1800, 4102444800};
  enum { KINDS = sizeof kinds / sizeof *kinds };
  int64_t readings[MOST];
  for (size_t n = 0; n <= MOST; n++) {
    for (size_t i = 0; i < n; i++) readings[i] = kinds[(i * 8) % KINDS];
    compare_by_each_choice(zone, readings, n);
  }
  /* Each after one of each, and after many. */
  for (size_t i = 0; i < KINDS * KINDS; i++) {
    enum { MANY = MOST / 2 };
    for (size_t at = 0; at < MANY; at++) readings[at] = kinds[i / KINDS];
    readings[MANY] = kinds[i % KINDS];
    compare_by_each_choice(zone, readings + MANY - 1, 2);
    compare_by_each_choice(zone, readings, MANY + 1);
  }
}

/* One that is out of range, in a gap or in a fold, at each place of a column whose others are in order. */
static void test_each_place(const tz_zone *zone) {
  const int64_t kinds[] = {INT64_MIN, gap, fold};
  for (size_t place = 0; place < MOST; place++) {
    for (size_t kind = 0; kind < 3; kind++) {
      int64_t readings[MOST];
      for (size_t i = 0; i < MOST; i++) readings[i] = 946684800 + (int64_t)(i < MOST / 2 ? i : i * 1000000);
      readings[place] = kinds[kind];
      compare_by_each_choice(zone, readings, MOST);
    }
  }
}

/* Readings of which the answers are known, in a zone with the rule of central Europe. */
static void test_known_answers(const tz_zone *zone) {
  const int64_t readings[] = {fold, gap, INT64_MAX, 962409600};
  const struct { tz_code codes[2]; int64_t instants[2]; } wanted[] = {
      {{TZ_OK, TZ_OK}, {972779400, 954034200}},                   /* TZ_COMPATIBLE */
      {{TZ_OK, TZ_OK}, {972779400, 954030600}},                   /* TZ_EARLIER */
      {{TZ_OK, TZ_OK}, {972783000, 954034200}},                   /* TZ_LATER */
      {{TZ_NO_DATE_TIME, TZ_NO_DATE_TIME}, {77, 77}}};            /* TZ_REJECT */
  for (uint8_t choice = TZ_COMPATIBLE; choice <= TZ_REJECT; choice++) {
    int64_t instants[4] = {77, 77, 77, 77};
    tz_code codes[4] = {777, 777, 777, 777};
    CODE(tz_column_instants_of_readings(readings, 4, choice, zone, instants, 4, codes, 4), TZ_OK);
    for (size_t i = 0; i < 2; i++) {
      EXPECT(codes[i], wanted[choice].codes[i]);
      EXPECT(instants[i], wanted[choice].instants[i]);
    }
    EXPECT(codes[2], TZ_OUT_OF_RANGE);
    EXPECT(instants[2], 77);
    EXPECT(codes[3], TZ_OK);
    EXPECT(instants[3], 962402400);
  }
}

/* In UTC each reading of the years of 32 bits is its own instant, and no other reading has one. */
static void test_ends_of_years(void) {
  const tz_local_time_type types[1] = {{0}};
  const tz_zone utc = {{NULL, 0, types, 1, NULL, 0, NULL, 0, NULL, 0}, {0, 0}};
  const int64_t readings[] = {INT64_MIN, LEAST - 1, LEAST, 0, GREATEST, GREATEST + 1, INT64_MAX};
  int64_t instants[] = {77, 77, 77, 77, 77, 77, 77};
  tz_code codes[7] = {777, 777, 777, 777, 777, 777, 777};
  CODE(tz_column_instants_of_readings(readings, 7, TZ_REJECT, &utc, instants, 7, codes, 7), TZ_OK);
  for (size_t i = 0; i < 7; i++) {
    const bool is_in_range = 2 <= i && i <= 4;
    EXPECT(codes[i], is_in_range ? TZ_OK : TZ_OUT_OF_RANGE);
    EXPECT(instants[i], is_in_range ? readings[i] : 77);
  }
}

/* Columns of different lengths, and a number that is no choice, are refused as a whole. */
static void test_refused(const tz_zone *zone) {
  const int64_t readings[2] = {0, 0};
  struct { int64_t instants[2]; tz_code codes[2]; } out = {{77, 77}, {777, 777}};
  for (size_t a = 0; a <= 2; a++) {
    for (size_t b = 0; b <= 2; b++) {
      for (size_t c = 0; c <= 2; c++) {
        REFUSED(tz_column_instants_of_readings(readings, a, TZ_REJECT + 1, zone, out.instants, b, out.codes, c), TZ_UNKNOWN_CHOICE, out);
        REFUSED(tz_column_instants_of_readings(readings, a, 255, zone, out.instants, b, out.codes, c), TZ_UNKNOWN_CHOICE, out);
        if (a == b && a == c) continue;
        REFUSED(tz_column_instants_of_readings(readings, a, TZ_LATER, zone, out.instants, b, out.codes, c), TZ_BUFFER_LENGTH, out);
      }
    }
  }
  REFUSED(tz_column_instants_of_readings(NULL, 0, TZ_LATER, zone, out.instants, 2, out.codes, 2), TZ_BUFFER_LENGTH, out);
  REFUSED(tz_column_instants_of_readings(readings, 2, TZ_LATER, zone, NULL, 0, NULL, 0), TZ_BUFFER_LENGTH, out);
}

void test_readings_of(const tz_zone *zone) {
  test_changes(zone);
  test_kinds(zone);
  test_each_place(zone);
}

static void test_string(const char *text) {
  tz_rule rule = {0};
  CODE(tz_string_read(text, strlen(text), true, &rule), TZ_OK);
  EXPECT(rule.kind, TZ_ALTERNATE);
  tz_zone zone = {{NULL, 0, rule.alternate.types, 1, NULL, 0, NULL, 0, &rule.alternate, 1}, {0, 0}};
  CODE(tz_zone_check(&zone.parts, &zone.offsets), TZ_OK);
  test_readings_of(&zone);
}

void test_readings(void) {
  made_zone made;
  make_zone(&made);
  test_known_answers(&made.zone);
  test_ends_of_years();
  test_refused(&made.zone);
  test_readings_of(&made.zone);
  /* A clock that ends, and one with leap seconds. */
  tz_zone ended = made.zone, leaping = made.zone;
  ended.parts.alternate_length = 0;
  CODE(tz_zone_check(&ended.parts, &ended.offsets), TZ_OK);
  test_readings_of(&ended);
  const tz_leap_second leaps[] = {{78796800, 1}, {94694401, 2}};
  leaping.parts.leap_seconds = leaps;
  leaping.parts.leap_seconds_length = 2;
  CODE(tz_zone_check(&leaping.parts, &leaping.offsets), TZ_OK);
  test_readings_of(&leaping);
  test_string("CET-1CEST,M3.5.0,M10.5.0/3");
  /* Half an hour of summer time in a year, and a zone whose clocks change at midnight of another day. */
  test_string("AAA0BBB-1,J1/2,J1/3:30");
  test_string("<-03>3<-02>,M3.5.0/-2,M10.5.0/-1");
}
