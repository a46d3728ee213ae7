/* Opens zones by name and from files by tz_open.h: test_open FILE, a TZif file of a zone that is an
   hour ahead of UTC on 2000-01-01. Names have no file if NO_FILES is defined. Ends with status 1 at
   the first answer that differs. */
#ifdef NO_FILES
#define TZ_ZONE_FOLDERS "/nowhere/"
#endif
#include "tz_open.h"

static void expect(const char *name, tz_code code, tz_code wanted) {
  if (code == wanted) return;
  printf("%s: code %u, not %u\n", name, (unsigned)code, (unsigned)wanted);
  exit(1);
}

/* The zone is that of Central Europe; its memory is freed. */
static void expect_zone(const char *name, tz_code code, const tz_zone *zone, void *memory) {
  tz_local_time_type type;
  expect(name, code, TZ_OK);
  expect(name, tz_zone_type_at(zone, INT64_C(946684800), &type), TZ_OK);
  if (type.ut_offset != 3600) expect(name, 1, 0);
  expect(name, tz_zone_type_at(zone, INT64_C(4118000000), &type), TZ_OK);
  if (type.ut_offset != 7200) expect(name, 1, 0);
  free(memory);
}

/* An error, after which nothing is written. */
static void expect_refused(const char *name, bool is_path, tz_code wanted) {
  tz_zone zone, before;
  void *memory = &zone;
  memset(&zone, 7, sizeof zone);
  before = zone;
  expect(name, (is_path ? tz_zone_open_file : tz_zone_open)(name, &zone, &memory), wanted);
  if (memory != &zone || memcmp(&zone, &before, sizeof zone) != 0) expect(name, 2, 0);
}

int main(int argc, char **argv) {
  char name[600];
  tz_zone zone;
  void *memory = NULL;
  tz_code code;
  if (argc != 2) return 2;
  code = tz_zone_open_file(argv[1], &zone, &memory);
  expect_zone(argv[1], code, &zone, memory);
#if !defined(NO_FILES) || !defined(TZ_NO_ZONES)
  code = tz_zone_open("Europe/Paris", &zone, &memory);
  expect_zone("Europe/Paris", code, &zone, memory);
#endif
#ifdef NO_FILES
#ifdef TZ_NO_ZONES
  expect_refused("Europe/Paris", false, TZ_NO_ZONE);
#else
  if (memory != NULL) expect("a built-in zone has memory", 1, 0);
#endif
#endif
  expect_refused("Europe/Lutetia", false, TZ_NO_ZONE);
  expect_refused("../zoneinfo/Europe/Paris", false, TZ_INVALID_NAME);
  expect_refused("", false, TZ_INVALID_NAME);
  memset(name, 'x', sizeof name - 1);
  name[sizeof name - 1] = 0;
  expect_refused(name, false, TZ_NO_ZONE);
  expect_refused("/nowhere/file", true, TZ_NO_ZONE);
  expect_refused("/", true, TZ_NO_ZONE);
  expect_refused("/dev/null", true, TZ_FILE_UNEXPECTED_EOF);
  expect_refused("/dev/zero", true, TZ_BUFFER_LENGTH);
  return 0;
}
