/* Patterns of the C library: PROGRAM CALL TIMES makes a call so many times, and prints the sum of what it returns. */
#define _GNU_SOURCE
#include <stdio.h>
#include <stdlib.h>
#include <string.h>
#include <time.h>

static const char common_log[] = "%d/%b/%Y:%H:%M:%S %z";

/* The text, of which the compiler is not to know that it stays the same. */
static const char *unknown(const char *text) {
    __asm__ volatile("" : "+r"(text) : : "memory");
    return text;
}

static int read_all(const char *text, const char *pattern, long times) {
    struct tm parts = {0};
    for (long time = 0; time < times; ++time)
        if (!strptime(unknown(text), pattern, &parts)) return 1;
    long offset = parts.tm_gmtoff;
    printf("%ld\n", times * (timegm(&parts) - offset));
    return 0;
}

static int format_all(long times) {
    const struct tm parts = {.tm_year = 100, .tm_mon = 10, .tm_mday = 3, .tm_hour = 5, .tm_min = 6, .tm_sec = 7, .tm_wday = 5, .tm_yday = 307, .tm_gmtoff = 3600, .tm_zone = ""};
    char line[128];
    size_t sum = 0;
    for (long time = 0; time < times; ++time) sum += strftime(line, sizeof line, unknown(common_log), &parts);
    printf("%zu\n", sum);
    return 0;
}

int main(int count, char **words) {
    if (count != 3) return 2;
    const char *call = words[1];
    long times = atol(words[2]);
    if (!strcmp(call, "format_kept")) return format_all(times);
    if (!strcmp(call, "read_log")) return read_all("03/Nov/2000:05:06:07 +0100", common_log, times);
    if (!strcmp(call, "read_mail")) return read_all("Fri, 03 Nov 2000 05:06:07 +0100", "%a, %d %b %Y %H:%M:%S %z", times);
    if (strcmp(call, "loop")) return 3;
    for (long time = 0; time < times; ++time) unknown(call);
    puts("0");
    return 0;
}
