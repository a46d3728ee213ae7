/* Prints the time that clocks show in a zone, or in that of a TZif file: time_in Europe/Paris, or time_in /etc/localtime */
#include "tz_open.h"

#include <time.h>

int main(int argc, char **argv) {
  tz_zone zone;
  void *memory = NULL;
  tz_date_time now;
  char text[128] = {0};
  size_t length = 0;
  if (argc != 2) return fprintf(stderr, "usage: time_in NAME\n"), 2;
  tz_code code = (argv[1][0] == '/' ? tz_zone_open_file : tz_zone_open)(argv[1], &zone, &memory);
  if (code == TZ_NO_ZONE) return fprintf(stderr, "%s: no such time zone\n", argv[1]), 1;
  if (code == TZ_OK) code = tz_date_time_from_timespec((int64_t)time(NULL), 0, &zone, &now);
  if (code == TZ_OK) code = tz_date_time_text(&now, text, sizeof text, &length);
  free(memory);
  if (code != TZ_OK) {
    tz_error_text(code, text, sizeof text, &length);
    return fprintf(stderr, "%s: %.*s\n", argv[1], (int)length, text), 1;
  }
  const tz_local_time_type *type = &now.local_time_type;
  printf("%.*s %.*s\n", (int)length, text, (int)type->designation_length, type->designation);
  return 0;
}
