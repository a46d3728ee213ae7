/* Compares the zone of each name of tz_zones.h with that of its file:
   test_zone_files /usr/share/zoneinfo. Nothing is compared if the folder has another version of the
   database. Ends with status 1 at the first answer that differs. */
#include "tz_zones.h"

#include <stdio.h>
#include <stdlib.h>
#include <string.h>

enum { MOST_BYTES = 1 << 16, MOST_FOUND = 4 };

static const int64_t least_instant = INT64_C(-2208988800); /* 1900-01-01 */
static const int64_t last_instant = INT64_C(4133980800);   /* 2101-01-01 */

static void stop(const char *name, int64_t at, const char *what) {
  printf("%s, at %lld: %s\n", name, (long long)at, what);
  exit(1);
}

/* Reads a file of the folder, and returns its length. */
static size_t read_file(const char *folder, const char *name, uint8_t *bytes) {
  char path[512];
  snprintf(path, sizeof path, "%s/%s", folder, name);
  FILE *file = fopen(path, "rb");
  if (file == NULL) stop(path, 0, "cannot be opened");
  const size_t length = fread(bytes, 1, MOST_BYTES, file);
  fclose(file);
  if (length == MOST_BYTES) stop(path, 0, "is too long");
  return length;
}

/* A zone, and the memory of its parts. */
typedef struct {
  tz_transition *transitions;
  tz_local_time_type *types;
  tz_leap_second *leap_seconds;
  tz_rule rule;
  tz_zone zone;
} owned_zone;

static void read_zone(const char *folder, const char *name, owned_zone *made) {
  static uint8_t bytes[MOST_BYTES];
  const size_t length = read_file(folder, name, bytes);
  tz_sizes n = {0};
  if (tz_file_sizes(bytes, length, &n) != TZ_OK) stop(name, 0, "is no TZif file");
  memset(made, 0, sizeof *made);
  made->transitions = calloc(n.transitions + 1, sizeof *made->transitions);
  made->types = calloc(n.types + 1, sizeof *made->types);
  made->leap_seconds = calloc(n.leap_seconds + 1, sizeof *made->leap_seconds);
  if (made->transitions == NULL || made->types == NULL || made->leap_seconds == NULL) {
    stop(name, 0, "no memory");
  }
  const tz_code code = tz_file_read(bytes, length, made->transitions, n.transitions, made->types,
                                    n.types, made->leap_seconds, n.leap_seconds, &made->rule,
                                    &made->zone.offsets);
  if (code != TZ_OK) stop(name, code, "is refused");
  const bool is_fixed = made->rule.kind == TZ_FIXED;
  const bool is_alternate = made->rule.kind == TZ_ALTERNATE;
  const tz_parts parts = {
      made->transitions, n.transitions, made->types, n.types, made->leap_seconds, n.leap_seconds,
      &made->rule.fixed, is_fixed, &made->rule.alternate, is_alternate};
  made->zone.parts = parts;
}

static void free_zone(owned_zone *made) {
  free(made->transitions);
  free(made->types);
  free(made->leap_seconds);
}

static bool is_type(const tz_local_time_type *a, const tz_local_time_type *b) {
  return a->ut_offset == b->ut_offset && a->is_dst == b->is_dst &&
         a->designation_length == b->designation_length &&
         memcmp(a->designation, b->designation, a->designation_length) == 0;
}

static bool is_shown(const tz_date_time *a, const tz_date_time *b) {
  return a->unix_time == b->unix_time && is_type(&a->local_time_type, &b->local_time_type);
}

static void compare_types(const char *name, const tz_zone zones[2], int64_t at) {
  tz_local_time_type types[2] = {{0}, {0}};
  const tz_code code = tz_zone_type_at(&zones[0], at, &types[0]);
  if (tz_zone_type_at(&zones[1], at, &types[1]) != code) stop(name, at, "codes differ");
  if (!is_type(&types[0], &types[1])) stop(name, at, "types differ");
}

/* Compares what a local time means, which is given in seconds from 1970 on. */
static void compare_searches(const char *name, const tz_zone zones[2], int64_t local_time) {
  tz_utc local = TZ_UTC_EPOCH;
  tz_found found[2][MOST_FOUND] = {{{0}}};
  size_t counts[2] = {0, 0};
  if (tz_utc_from_timespec(local_time, 0, &local) != TZ_OK) stop(name, local_time, "no fields");
  for (size_t i = 0; i < 2; i++) {
    if (tz_find_n(&local.fields, &zones[i], 0, found[i], MOST_FOUND, &counts[i]) != TZ_OK) {
      stop(name, local_time, "a search fails");
    }
  }
  if (counts[0] != counts[1] || counts[0] > MOST_FOUND) stop(name, local_time, "counts differ");
  for (size_t i = 0; i < counts[0]; i++) {
    const tz_found *a = &found[0][i], *b = &found[1][i];
    if (a->is_skipped != b->is_skipped || !is_shown(&a->before, &b->before) ||
        !is_shown(&a->after, &b->after)) {
      stop(name, local_time, "what is found differs");
    }
  }
}

/* Compares two zones around each change of their clocks in two centuries, and returns how many
   changes there are. */
static size_t compare(const char *name, const tz_zone zones[2]) {
  static const int64_t around[] = {-7200, -3600, -1800, -1, 0, 1, 1800, 3600, 7200, 7776000};
  size_t count = 0;
  compare_types(name, zones, INT64_MIN / 2);
  for (int64_t at = least_instant; at < last_instant; count++) {
    tz_change changes[2] = {{0}, {0}};
    const tz_code code = tz_zone_following(&zones[0], at, &changes[0]);
    if (tz_zone_following(&zones[1], at, &changes[1]) != code) stop(name, at, "codes differ");
    if (code != TZ_OK) break;
    if (changes[0].unix_time != changes[1].unix_time) stop(name, at, "next changes differ");
    at = changes[0].unix_time;
    for (size_t i = 0; i < sizeof around / sizeof *around; i++) {
      compare_types(name, zones, at + around[i]);
      compare_searches(name, zones, at + changes[0].before.ut_offset + around[i]);
    }
  }
  compare_types(name, zones, last_instant);
  return count;
}

int main(int argc, char **argv) {
  if (argc != 2) return fprintf(stderr, "usage: test_zone_files FOLDER\n"), 2;
  char path[512], name[33], wanted[32], first[32] = {0};
  size_t length = 0, names = 0, changes = 0;
  if (tz_built_in_version(name, sizeof name, &length) != TZ_OK) stop("version", 0, "none");
  snprintf(wanted, sizeof wanted, "# version %.*s\n", (int)length, name);
  snprintf(path, sizeof path, "%s/tzdata.zi", argv[1]);
  FILE *file = fopen(path, "rb");
  const bool is_alike =
      file != NULL && fgets(first, sizeof first, file) != NULL && strcmp(first, wanted) == 0;
  if (file != NULL) fclose(file);
  if (!is_alike) return printf("%s is not that of the library: nothing is compared\n", path), 0;

  for (; tz_built_in_name(names, name, sizeof name - 1, &length) == TZ_OK; names++) {
    tz_zone zones[2];
    owned_zone made;
    name[length] = 0;
    if (!tz_built_in(name, length, &zones[0])) stop(name, 0, "is not found");
    read_zone(argv[1], name, &made);
    zones[1] = made.zone;
    changes += compare(name, zones);
    free_zone(&made);
  }
  printf("%zu zones, with %zu changes, are those of their files\n", names, changes);
  return names == 0 || changes == 0;
}
