/*
 * Opens a time zone in one call: by its name, from the system's files or else of the zones that the
 * library has in itself, or from a file.
 *
 * These functions are in this header alone, over C's library and the functions of tz.h and
 * tz_zones.h, and are only tested. Before it is included may be defined
 *
 * - TZ_NO_ZONES, for a library without the functions of tz_zones.h;
 * - TZ_ZONE_FOLDERS, the folders of files, in order, each with a slash at its end.
 */
#ifndef TZ_OPEN_H
#define TZ_OPEN_H

#include "tz.h"

#include <stdio.h>
#include <stdlib.h>
#include <string.h>

/* A library that was installed without zones has no header of them. */
#if !defined(TZ_NO_ZONES) && defined(__has_include)
#if !__has_include("tz_zones.h")
#define TZ_NO_ZONES
#endif
#endif
#ifndef TZ_NO_ZONES
#include "tz_zones.h"
#endif

#ifndef TZ_ZONE_FOLDERS
#define TZ_ZONE_FOLDERS "/usr/share/zoneinfo/", "/share/zoneinfo/", "/etc/zoneinfo/"
#endif

enum {
  /* A code of these functions alone, of which `tz_error_text` knows nothing: no file can be read, and
     no zone of the database has the name. */
  TZ_NO_ZONE = 4096,
  /* The most bytes that are read of a file. Those of zones have at most 100,000. */
  TZ_LONGEST_FILE = 1 << 20
};

/* Writes the zone of a file's bytes, and the memory in which its tables lie, which the caller frees.
   The codes are those of `tz_file_read`. */
static inline tz_code tz_zone_open_bytes(const uint8_t *bytes, size_t length, tz_zone *out,
                                         void **memory) {
  tz_sizes n;
  tz_zone zone;
  tz_code code = tz_file_sizes(bytes, length, &n);
  if (code != TZ_OK) return code;
  /* What is aligned most comes first. */
  const size_t leaps_at = n.transitions * sizeof(tz_transition);
  const size_t types_at = leaps_at + n.leap_seconds * sizeof(tz_leap_second);
  const size_t rule_at = types_at + n.types * sizeof(tz_local_time_type);
  char *block = (char *)calloc(1, rule_at + sizeof(tz_rule));
  if (block == NULL) return TZ_MEMORY;
  tz_transition *transitions = (tz_transition *)(void *)block;
  tz_leap_second *leaps = (tz_leap_second *)(void *)(block + leaps_at);
  tz_local_time_type *types = (tz_local_time_type *)(void *)(block + types_at);
  tz_rule *rule = (tz_rule *)(void *)(block + rule_at);
  code = tz_file_read(bytes, length, transitions, n.transitions, types, n.types, leaps,
                      n.leap_seconds, rule, &zone.offsets);
  if (code != TZ_OK) {
    free(block);
    return code;
  }
  const tz_parts parts = {transitions, n.transitions, types, n.types, leaps, n.leap_seconds,
                          &rule->fixed, rule->kind == TZ_FIXED,
                          &rule->alternate, rule->kind == TZ_ALTERNATE};
  zone.parts = parts;
  *out = zone;
  *memory = block;
  return TZ_OK;
}

/* The same of the file at a path, whatever it is. TZ_NO_ZONE if it cannot be read, TZ_BUFFER_LENGTH
   if it has more than TZ_LONGEST_FILE bytes, TZ_MEMORY, and the codes of `tz_file_read`. */
static inline tz_code tz_zone_open_file(const char *path, tz_zone *out, void **memory) {
  FILE *file = fopen(path, "rb");
  if (file == NULL) return TZ_NO_ZONE;
  uint8_t *bytes = (uint8_t *)malloc(TZ_LONGEST_FILE + 1);
  tz_code code = TZ_MEMORY;
  if (bytes != NULL) {
    const size_t length = fread(bytes, 1, TZ_LONGEST_FILE + 1, file);
    if (ferror(file)) {
      code = TZ_NO_ZONE;
    } else if (length > TZ_LONGEST_FILE) {
      code = TZ_BUFFER_LENGTH;
    } else {
      code = tz_zone_open_bytes(bytes, length, out, memory);
    }
    free(bytes);
  }
  fclose(file);
  return code;
}

/* Writes the zone with the name, such as Europe/Paris, and its memory, which the caller frees when it
   is done with the zone: NULL for a zone that the library has in itself. The name ends with a zero, and
   may come from anyone: no file outside of the folders is opened (but a link in them is followed).

   The first file that can be read is taken, even one that is refused, and else the built-in zone.
   TZ_INVALID_NAME, TZ_NO_ZONE, and the codes of `tz_zone_open_file`. After an error nothing is
   written. */
static inline tz_code tz_zone_open(const char *name, tz_zone *out, void **memory) {
  static const char *const folders[] = {TZ_ZONE_FOLDERS};
  const size_t length = strlen(name);
  char path[512];
  const tz_code checked = tz_name_check(name, length);
  if (checked != TZ_OK) return checked;
  for (size_t at = 0; at < sizeof folders / sizeof *folders; at++) {
    const size_t folder_length = strlen(folders[at]);
    if (folder_length + length >= sizeof path) continue;
    memcpy(path, folders[at], folder_length);
    memcpy(path + folder_length, name, length + 1);
    const tz_code code = tz_zone_open_file(path, out, memory);
    if (code != TZ_NO_ZONE) return code;
  }
#ifndef TZ_NO_ZONES
  if (tz_built_in(name, length, out)) {
    *memory = NULL;
    return TZ_OK;
  }
#endif
  return TZ_NO_ZONE;
}

#endif
