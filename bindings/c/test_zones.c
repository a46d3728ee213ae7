/* Tests the functions of tz_zones.h. Ends with status 1 at the first answer that is wrong. */
#include "tz_zones.h"

#include <stdio.h>
#include <string.h>

#define EXPECT(wanted) \
  if (!(wanted)) return printf("%s:%d: not so: %s\n", __FILE__, __LINE__, #wanted), 1

static bool is_built_in(const char *name, tz_zone *zone) {
  return tz_built_in(name, strlen(name), zone);
}

int main(void) {
  tz_zone zone;
  tz_date_time shown = {0};
  memset(&zone, 0x55, sizeof zone);
  const tz_zone before = zone;
  const char *const unknown[] = {"", "Europe", "europe/paris", "Europe/Paris ", "\xff", "../UTC"};
  for (size_t i = 0; i < sizeof unknown / sizeof *unknown; i++) {
    EXPECT(!is_built_in(unknown[i], &zone));
  }
  EXPECT(!tz_built_in(NULL, 0, &zone));
  EXPECT(memcmp(&zone, &before, sizeof zone) == 0);

  EXPECT(is_built_in("Europe/Paris", &zone));
  EXPECT(tz_date_time_from_timespec(954032400, 0, &zone, &shown) == TZ_OK);
  EXPECT(shown.fields.hour == 3 && shown.local_time_type.ut_offset == 7200);
  EXPECT(memcmp(shown.local_time_type.designation, "CEST", 5) == 0);
  EXPECT(is_built_in("UTC", &zone));
  EXPECT(zone.parts.transitions == NULL && zone.parts.transitions_length == 0);
  EXPECT(tz_date_time_from_timespec(954032400, 0, &zone, &shown) == TZ_OK);
  EXPECT(shown.fields.hour == 1);

  /* Each name is found, and its zone is one with the end offsets that it has. */
  char name[32], last[32] = {0};
  size_t length = 0, last_length = 0, place = 0;
  tz_code code = TZ_OK;
  for (; (code = tz_built_in_name(place, name, sizeof name, &length)) == TZ_OK; place++) {
    const size_t shared = length < last_length ? length : last_length;
    const int order = memcmp(last, name, shared);
    EXPECT(place == 0 || order < 0 || (order == 0 && last_length < length));
    EXPECT(tz_built_in(name, length, &zone));
    tz_offsets offsets = {0, 0};
    EXPECT(tz_zone_check(&zone.parts, &offsets) == TZ_OK);
    EXPECT(offsets.least == zone.offsets.least && offsets.greatest == zone.offsets.greatest);
    EXPECT(tz_built_in_name(place, name, length - 1, &last_length) == TZ_BUFFER_LENGTH);
    memcpy(last, name, length);
    last_length = length;
  }
  EXPECT(code == TZ_OUT_OF_RANGE && place > 500);
  EXPECT(tz_built_in_name(SIZE_MAX, NULL, 0, &length) == TZ_OUT_OF_RANGE);
  EXPECT(tz_built_in_name(0, NULL, 0, &length) == TZ_BUFFER_LENGTH);

  char version[8];
  EXPECT(tz_built_in_version(version, sizeof version, &length) == TZ_OK);
  EXPECT(length == 5 && version[0] == '2' && version[1] == '0');
  EXPECT(tz_built_in_version(version, length - 1, &length) == TZ_BUFFER_LENGTH);
  printf("passed\n");
  return 0;
}
