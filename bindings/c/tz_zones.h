/*
 * The zones of the tz database that the library has in itself, so that it needs no file for them.
 *
 * The library by cargo has these functions, unless it is built without its feature `zones`. That of
 * the proving toolchain does not. The rules of tz.h hold for them.
 */
#ifndef TZ_ZONES_H
#define TZ_ZONES_H

#include "tz.h"

#ifdef __cplusplus
extern "C" {
#endif

/* Whether the database has the name, such as Europe/Paris; upper and lower case differ. If so,
   writes the zone, whose parts lie in memory of the library; if not, writes nothing. */
bool tz_built_in(const char *name, size_t name_length, tz_zone *out);

/* The name at a place, from 0 on in the order of bytes, and its length: at most 32 bytes, and no
   zero follows them. TZ_OUT_OF_RANGE after the last name, TZ_BUFFER_LENGTH. */
tz_code tz_built_in_name(size_t place, char *text, size_t text_length, size_t *length);

/* The version of the database, such as 2025b, and its length: at most 8 bytes, and no zero follows
   them. TZ_BUFFER_LENGTH. */
tz_code tz_built_in_version(char *text, size_t text_length, size_t *length);

#ifdef __cplusplus
}
#endif

#endif
