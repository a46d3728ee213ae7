/* What patterns print beside glibc's strftime, for each conversion that it has too, of random dates
   of the years 1 to 9999. It prints years below 1000 with fewer digits: no other text may differ. */
#define _DEFAULT_SOURCE
#include "tz.h"

#include <stdio.h>
#include <stdlib.h>
#include <string.h>
#include <time.h>

enum { DATES = 100000 };

static const char conversions[] = "YymBbhdejHkIpMSAauwVGgUWszZFDTRnt%";

static uint64_t state = 88172645463325252u;

/* The next number of xorshift. */
static uint64_t next(void) {
  state ^= state << 13;
  state ^= state >> 7;
  state ^= state << 17;
  return state;
}

/* The text of strftime with a year of four digits at least. */
static size_t expected(char *text, size_t size, char conversion, const struct tm *tm) {
  const char pattern[] = {'%', conversion, 0};
  char printed[64];
  const size_t length = strftime(printed, sizeof printed, pattern, tm);
  size_t zeros = 0;
  if (strchr("YGF", conversion)) {
    const size_t digits = strspn(printed, "0123456789");
    zeros = digits < 4 ? 4 - digits : 0;
  }
  return (size_t)snprintf(text, size, "%.*s%.*s", (int)zeros, "000", (int)length, printed);
}

static void compare(const tz_date_time *date_time, const struct tm *tm) {
  for (const char *conversion = conversions; *conversion; conversion++) {
    const char pattern[] = {'%', *conversion};
    char wanted[80], text[128];
    size_t length = 0;
    const size_t size = expected(wanted, sizeof wanted, *conversion, tm);
    const tz_code code = tz_date_time_format(date_time, pattern, 2, text, sizeof text, &length);
    if (code != TZ_OK || length != size || memcmp(text, wanted, size) != 0) {
      fprintf(stderr, "%%%c of %lld: code %u, `%.*s`, and not `%s`\n", *conversion, (long long)date_time->unix_time, code,
              (int)length, text, wanted);
      exit(1);
    }
  }
}

int main(void) {
  /* mktime, by which strftime prints `%s`, knows no other offset than that of the process. */
  setenv("TZ", "ABC-1:30", 1);
  tzset();
  tz_local_time_type type;
  if (tz_local_time_type_new(5400, false, true, "ABC", 3, &type) != TZ_OK) return 1;
  const uint64_t span = 253402300799u + 62135596800u + 1;
  for (int i = 0; i < DATES; i++) {
    const time_t local = (time_t)(next() % span) - 62135596800;
    struct tm tm;
    gmtime_r(&local, &tm);
    if (tm.tm_sec == 59) tm.tm_sec = 60;
    tm.tm_gmtoff = type.ut_offset;
    tm.tm_zone = "ABC";
    const tz_fields fields = {tm.tm_year + 1900,    (uint8_t)(tm.tm_mon + 1), (uint8_t)tm.tm_mday, (uint8_t)tm.tm_hour,
                              (uint8_t)tm.tm_min, (uint8_t)tm.tm_sec,       (uint32_t)(next() % 1000000000)};
    tz_date_time date_time;
    if (tz_date_time_new(&fields, &type, &date_time) != TZ_OK) return 1;
    compare(&date_time, &tm);
  }
  printf("%zu conversions of %d dates\n", sizeof conversions - 1, DATES);
  return 0;
}
