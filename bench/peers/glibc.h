// The C library: localtime_r, mktime and timegm over TZ.
#include <ctime>

#include "loops.h"

struct Zone {
    std::string setting;

    Zone(const std::string &option, const std::string &argument) {
        if (option == "-o") {
            long offset = atol(argument.c_str());
            if (offset % 3600 || offset < 0) refuse("offsets of whole hours east alone");
            setting = "<FIX>-" + std::to_string(offset / 3600);
        } else {
            setting = option == "-f" ? ":" + argument : argument;
        }
        set(setting);
    }

    static void set(const std::string &setting) {
        setenv("TZ", setting.c_str(), 1);
        tzset();
    }

    static Shown of(const tm &parts) {
        Shown shown{parts.tm_year + 1900, parts.tm_mon + 1, parts.tm_mday, parts.tm_hour, parts.tm_min, parts.tm_sec, (int)parts.tm_gmtoff, ""};
        return shown;
    }

    static tm of(const Local &local) {
        tm parts{};
        parts.tm_year = local.year - 1900, parts.tm_mon = local.month - 1, parts.tm_mday = local.day;
        parts.tm_hour = local.hour, parts.tm_min = local.minute, parts.tm_sec = local.second, parts.tm_isdst = -1;
        return parts;
    }

    // No call gives the offset alone.
    int offset(time_t instant) {
        tm parts;
        localtime_r(&instant, &parts);
        return (int)parts.tm_gmtoff;
    }

    Shown shown(time_t instant, bool named) {
        tm parts;
        localtime_r(&instant, &parts);
        Shown shown = of(parts);
        if (named) shown.call_it(parts.tm_zone, strlen(parts.tm_zone));
        return shown;
    }

    Found found(const Local &local) {
        tm parts = of(local);
        mktime(&parts);
        Found found;
        found.count = 1;
        found.entries[0].kind = 'N';
        found.entries[0].shown = of(parts);
        found.entries[0].shown.call_it(parts.tm_zone, strlen(parts.tm_zone));
        return found;
    }

    long first(const Local &local) {
        tm parts = of(local);
        return mktime(&parts);
    }

    static constexpr bool knows_changes = false;
    long following(long) { return 0; }

    Shown utc(time_t instant) {
        tm parts;
        gmtime_r(&instant, &parts);
        return of(parts);
    }

    long utc_of(const Local &local) {
        tm parts = of(local);
        return timegm(&parts);
    }

    using Held = tm;
    tm held(time_t instant) {
        tm parts;
        localtime_r(&instant, &parts);
        return parts;
    }

    std::string print(const tm &parts) {
        char text[64];
        size_t length = strftime(text, sizeof text, "%Y-%m-%dT%H:%M:%S", &parts);
        long minutes = labs(parts.tm_gmtoff) / 60;
        length += snprintf(text + length, sizeof text - length, ".%09d%c%02ld:%02ld", 7, parts.tm_gmtoff < 0 ? '-' : '+', minutes / 60, minutes % 60);
        return std::string(text, length);
    }

    using Moment = long;
    static constexpr bool adds = false;
    long moment(long instant) { return instant; }
    long add(long instant, long more) { return instant + more; }

    static constexpr bool reads_files = true, reads_settings = true, reads_strings = false;
    // tzset keeps what it has where the setting is the same: another stands between, which costs little.
    bool from_file() {
        set("UTC0");
        set(setting);
        return true;
    }
    bool from_setting() { return from_file(); }
    bool from_string() { return false; }
};
