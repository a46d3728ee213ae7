/* Calls each function of tz.h that answers a column, and compares each place with the call for one value. */
#include "test.h"

/* Instants at which clocks change, and at which they have no type or show no date time. */
static const int64_t some_instants[] = {INT64_MIN, -1, 0, 5, 946684799, 946684800, 954032399, 954032400, 972781199, 972781200,
                                        4102444800, INT64_C(67767976233532799), INT64_MAX, 954032400, -1};
enum { SOME = sizeof some_instants / sizeof *some_instants, MOST = 40 };

/* At each place of a column stands what the call for one instant answers, and nothing else is written. */
static void test_instant_columns(const tz_zone *zone) {
  for (size_t n = 0; n <= MOST; n++) {
    int64_t instants[MOST];
    uint32_t nanoseconds[MOST];
    int32_t offsets[MOST + 1];
    tz_code codes[MOST + 1];
    tz_date_time shown[MOST + 1];
    static const tz_date_time epoch = TZ_DATE_TIME_EPOCH;
    for (size_t i = 0; i < MOST; i++) {
      instants[i] = some_instants[i % SOME];
      nanoseconds[i] = i % 7 == 6 ? 1000000000 : (uint32_t)i;
    }
    for (size_t i = 0; i <= MOST; i++) offsets[i] = 77, codes[i] = 777, shown[i] = epoch;
    CODE(tz_column_offsets(n == 0 ? NULL : instants, n, zone, n == 0 ? NULL : offsets, n, n == 0 ? NULL : codes, n), TZ_OK);
    for (size_t i = 0; i <= MOST; i++) {
      tz_local_time_type type = {0};
      type.ut_offset = 77;
      EXPECT(codes[i], i < n ? code_of(tz_zone_type_at(zone, instants[i], &type)) : 777);
      EXPECT(offsets[i], i < n ? type.ut_offset : 77);
    }
    for (size_t i = 0; i <= MOST; i++) codes[i] = 777;
    CODE(tz_column_date_times(n == 0 ? NULL : instants, n, n == 0 ? NULL : nanoseconds, n, zone, n == 0 ? NULL : shown, n, n == 0 ? NULL : codes, n), TZ_OK);
    for (size_t i = 0; i <= MOST; i++) {
      tz_date_time one = TZ_DATE_TIME_EPOCH;
      EXPECT(codes[i], i < n ? code_of(tz_date_time_from_timespec(instants[i], nanoseconds[i], zone, &one)) : 777);
      EXPECT(shown[i].unix_time, one.unix_time);
      EXPECT(shown[i].local_time_type.ut_offset, one.local_time_type.ut_offset);
      EXPECT(memcmp(&shown[i].fields, &one.fields, 9), 0);
      EXPECT(shown[i].fields.nanoseconds, one.fields.nanoseconds);
    }
  }
}

/* An instant without a type at each place of a column whose others are in order: the first ones in one span, the last ones over changes. */
static void test_offset_fault_at_each_place(const tz_zone *zone) {
  for (size_t place = 0; place < MOST; place++) {
    int64_t instants[MOST];
    int32_t offsets[MOST];
    tz_code codes[MOST];
    for (size_t i = 0; i < MOST; i++) instants[i] = 946684800 + (int64_t)(i < MOST / 2 ? i : i * 1000000), offsets[i] = 77, codes[i] = 777;
    instants[place] = INT64_MIN;
    CODE(tz_column_offsets(instants, MOST, zone, offsets, MOST, codes, MOST), TZ_OK);
    for (size_t i = 0; i < MOST; i++) {
      tz_local_time_type type = {0};
      type.ut_offset = 77;
      EXPECT(codes[i], code_of(tz_zone_type_at(zone, instants[i], &type)));
      EXPECT(offsets[i], type.ut_offset);
    }
  }
}

/* The same for local times and each choice. */
static void test_instants_of_fields(const tz_zone *zone) {
  const tz_fields some[] = {fields_of(2001, 3, 25, 2, 30, 0, 1), fields_of(2001, 10, 28, 2, 30, 0, 0), fields_of(2001, 2, 29, 0, 0, 0, 0),
                            fields_of(1999, 7, 1, 12, 0, 0, 0), fields_of(2001, 13, 1, 0, 0, 0, 0)};
  tz_fields fields[MOST];
  for (size_t i = 0; i < MOST; i++) fields[i] = some[i % (sizeof some / sizeof *some)];
  for (uint8_t choice = TZ_COMPATIBLE; choice <= TZ_REJECT; choice++) {
    for (size_t n = 0; n <= MOST; n++) {
      int64_t instants[MOST + 1];
      tz_code codes[MOST + 1];
      for (size_t i = 0; i <= MOST; i++) instants[i] = 77, codes[i] = 777;
      CODE(tz_column_instants(n == 0 ? NULL : fields, n, choice, zone, n == 0 ? NULL : instants, n, n == 0 ? NULL : codes, n), TZ_OK);
      for (size_t i = 0; i <= MOST; i++) {
        tz_date_time one = TZ_DATE_TIME_EPOCH;
        one.unix_time = 77;
        EXPECT(codes[i], i < n ? code_of(tz_find_one(&fields[i], choice, zone, &one)) : 777);
        EXPECT(instants[i], one.unix_time);
      }
    }
  }
}

/* Columns of different lengths, and a number that is no choice, are refused as a whole. */
static void test_refused_columns(const tz_zone *zone) {
  static const tz_date_time epoch = TZ_DATE_TIME_EPOCH;
  const int64_t instants[2] = {0, 0};
  const uint32_t nanoseconds[2] = {0, 0};
  const tz_fields fields[2] = {fields_of(2001, 1, 1, 0, 0, 0, 0), fields_of(2001, 1, 1, 0, 0, 0, 0)};
  struct { int32_t offsets[2]; tz_date_time shown[2]; int64_t instants[2]; tz_code codes[2]; } out;
  memset(&out, 0, sizeof out);
  for (size_t i = 0; i < 2; i++) out.offsets[i] = 77, out.shown[i] = epoch, out.instants[i] = 77, out.codes[i] = 777;
  REFUSED(tz_column_offsets(instants, 2, zone, out.offsets, 1, out.codes, 2), TZ_BUFFER_LENGTH, out);
  REFUSED(tz_column_offsets(instants, 2, zone, out.offsets, 2, out.codes, 1), TZ_BUFFER_LENGTH, out);
  REFUSED(tz_column_offsets(NULL, 0, zone, out.offsets, 2, out.codes, 2), TZ_BUFFER_LENGTH, out);
  REFUSED(tz_column_date_times(instants, 2, nanoseconds, 1, zone, out.shown, 2, out.codes, 2), TZ_BUFFER_LENGTH, out);
  REFUSED(tz_column_date_times(instants, 2, nanoseconds, 2, zone, out.shown, 1, out.codes, 2), TZ_BUFFER_LENGTH, out);
  REFUSED(tz_column_date_times(instants, 2, nanoseconds, 2, zone, out.shown, 2, NULL, 0), TZ_BUFFER_LENGTH, out);
  REFUSED(tz_column_instants(fields, 2, TZ_LATER, zone, out.instants, 1, out.codes, 2), TZ_BUFFER_LENGTH, out);
  REFUSED(tz_column_instants(fields, 1, TZ_LATER, zone, out.instants, 1, out.codes, 2), TZ_BUFFER_LENGTH, out);
  REFUSED(tz_column_instants(fields, 2, 4, zone, out.instants, 2, out.codes, 2), TZ_UNKNOWN_CHOICE, out);
  /* Each column in turn is longer, and shorter, than all others. */
  for (size_t k = 0; k < 4; k++) {
    for (size_t n = 0; n <= 2; n++) {
      if (n == 1) continue;
      size_t lengths[] = {1, 1, 1, 1};
      lengths[k] = n;
      const size_t *a = lengths;
      REFUSED(tz_column_date_times(instants, a[0], nanoseconds, a[1], zone, out.shown, a[2], out.codes, a[3]), TZ_BUFFER_LENGTH, out);
      if (k == 3) continue;
      REFUSED(tz_column_offsets(instants, a[0], zone, out.offsets, a[1], out.codes, a[2]), TZ_BUFFER_LENGTH, out);
      REFUSED(tz_column_instants(fields, a[0], TZ_LATER, zone, out.instants, a[1], out.codes, a[2]), TZ_BUFFER_LENGTH, out);
    }
  }
}

void test_columns(void) {
  made_zone made;
  make_zone(&made);
  test_instant_columns(&made.zone);
  test_offset_fault_at_each_place(&made.zone);
  test_instants_of_fields(&made.zone);
  test_refused_columns(&made.zone);
  tz_parts over = made.zone.parts;
  over.alternate_length = 0;
  tz_zone ended = {over, {0, 0}};
  CODE(tz_zone_check(&ended.parts, &ended.offsets), TZ_OK);
  test_instant_columns(&ended);
  test_offset_fault_at_each_place(&ended);
  test_instants_of_fields(&ended);
}
