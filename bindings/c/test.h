/* What the tests share: calls whose answers are compared, and whose codes are marked as reached. */
#ifndef TZ_TEST_H
#define TZ_TEST_H

#include "tz.h"

#include <string.h>

/* Says that an answer is wrong. */
void fail(const char *file, int line, const char *what, long long got, long long wanted);

#define EXPECT(got, wanted)                                                                       \
  do {                                                                                            \
    long long g = (long long)(got), w = (long long)(wanted);                                      \
    if (g != w) fail(__FILE__, __LINE__, #got, g, w);                                             \
  } while (0)

/* The code of a call, which is marked as reached. */
tz_code code_of(tz_code code);
#define CODE(call, wanted) EXPECT(code_of(call), wanted)

/* A call is refused with the code, and leaves what it was to write to as it was. */
#define REFUSED(call, wanted, out)                                 \
  do {                                                             \
    unsigned char before[sizeof(out)];                             \
    memcpy(before, &(out), sizeof(out));                           \
    CODE(call, wanted);                                            \
    EXPECT(memcmp(before, &(out), sizeof(out)), 0);                \
  } while (0)

tz_fields fields_of(int32_t year, int month, int day, int hour, int minute, int second, uint32_t nanoseconds);

/* A zone with two transitions and the rule of central Europe. */
typedef struct { tz_transition transitions[2]; tz_local_time_type types[3]; tz_alternate rule; tz_zone zone; } made_zone;

void make_zone(made_zone *made);

void test_columns(void);
void test_readings(void);
void test_readings_of(const tz_zone *zone);
void test_null(void);

#endif
