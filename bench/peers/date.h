// Howard Hinnant's date, over the machine's zones (date/tz.h) and TZ strings (date/ptz.h).
#include <date/date.h>
#include <date/ptz.h>
#include <date/tz.h>

#include <memory>

#include "loops.h"

struct Zone {
    // One of these, or none: then the offset alone.
    const date::time_zone *zone = nullptr;
    std::unique_ptr<Posix::time_zone> rule;
    std::chrono::seconds fixed{0};
    std::string argument;

    Zone(const std::string &option, const std::string &argument) : argument(argument) {
        const std::string folder = "/usr/share/zoneinfo/";
        if (option == "-o") {
            fixed = std::chrono::seconds(atol(argument.c_str()));
        } else if (option == "-z") {
            rule = std::make_unique<Posix::time_zone>(argument);
        } else if (argument.compare(0, folder.size(), folder) || argument.find("/right/") != std::string::npos) {
            refuse("no files but the machine's");
        } else {
            zone = date::locate_zone(argument.substr(folder.size()));
        }
    }

    date::sys_info info(date::sys_seconds instant) { return zone ? zone->get_info(instant) : rule->get_info(instant); }
    date::local_info info(date::local_seconds local) { return zone ? zone->get_info(local) : rule->get_info(local); }

    static Shown of(date::local_seconds local, int offset) {
        const auto day = date::floor<date::days>(local);
        const date::year_month_day shown(day);
        const date::hh_mm_ss<std::chrono::seconds> time(local - day);
        return Shown{(int)shown.year(), (int)(unsigned)shown.month(), (int)(unsigned)shown.day(), (int)time.hours().count(), (int)time.minutes().count(), (int)time.seconds().count(), offset, ""};
    }

    static date::local_seconds of(const Local &local) {
        return date::local_days(date::year(local.year) / local.month / local.day) + std::chrono::hours(local.hour) + std::chrono::minutes(local.minute) + std::chrono::seconds(local.second);
    }

    static date::sys_seconds at(long instant) { return date::sys_seconds(std::chrono::seconds(instant)); }

    static Shown of(date::sys_seconds instant, const date::sys_info &there) {
        Shown shown = of(date::local_seconds(instant.time_since_epoch() + there.offset), (int)there.offset.count());
        shown.call_it(there.abbrev.data(), there.abbrev.size());
        return shown;
    }

    bool is_fixed() { return !zone && !rule; }

    int offset(long instant) {
        return (int)(is_fixed() ? fixed : info(at(instant)).offset).count();
    }

    Shown shown(long instant, bool named) {
        if (is_fixed()) {
            const auto reading = at(instant).time_since_epoch() + fixed;
            return of(date::local_seconds(reading), (int)fixed.count());
        }
        const auto there = info(at(instant));
        Shown shown = of(date::local_seconds(at(instant).time_since_epoch() + there.offset), (int)there.offset.count());
        if (named) shown.call_it(there.abbrev.data(), there.abbrev.size());
        return shown;
    }

    Found found(const Local &local) {
        if (is_fixed()) {
            Found found;
            found.count = 1;
            found.entries[0].kind = 'N';
            found.entries[0].shown = of(of(local), (int)fixed.count());
            return found;
        }
        const auto there = info(of(local));
        Found found;
        found.count = there.result == date::local_info::ambiguous ? 2 : 1;
        if (there.result == date::local_info::nonexistent) {
            found.entries[0].kind = 'S';
            found.entries[0].shown = of(there.first.end, there.first);
            found.entries[0].after = of(there.first.end, there.second);
            return found;
        }
        const auto reading = of(local).time_since_epoch();
        found.entries[0].kind = 'N';
        found.entries[0].shown = of(date::sys_seconds(reading - there.first.offset), there.first);
        if (found.count == 2) {
            found.entries[1].kind = 'N';
            found.entries[1].shown = of(date::sys_seconds(reading - there.second.offset), there.second);
        }
        return found;
    }

    long first(const Local &local) {
        if (is_fixed()) return (of(local).time_since_epoch() - fixed).count();
        const auto there = info(of(local));
        if (there.result == date::local_info::nonexistent) return there.first.end.time_since_epoch().count();
        return (of(local).time_since_epoch() - there.first.offset).count();
    }

    // The end of what holds at an instant is the next change.
    static constexpr bool knows_changes = true;
    long following(long instant) { return is_fixed() ? 0 : info(at(instant)).end.time_since_epoch().count(); }

    Shown utc(long instant) { return of(date::local_seconds(std::chrono::seconds(instant)), 0); }
    long utc_of(const Local &local) { return of(local).time_since_epoch().count(); }

    using Held = date::zoned_time<std::chrono::nanoseconds>;
    Held held(long instant) {
        if (!zone) refuse("no text of a TZ string's time");
        return Held(zone, date::sys_time<std::chrono::nanoseconds>(std::chrono::nanoseconds(instant * 1000000000 + 7)));
    }
    std::string print(const Held &held) { return date::format("%FT%T%Ez", held); }

    using Moment = long;
    static constexpr bool adds = false;
    long moment(long instant) { return instant; }
    long add(long instant, long more) { return instant + more; }

    // The files' zones are made once; TZ strings can be made anew.
    static constexpr bool reads_files = false, reads_settings = false, reads_strings = true;
    bool from_file() { return false; }
    bool from_setting() { return false; }
    bool from_string() {
        const Posix::time_zone made(argument);
        return !made.name().empty();
    }
};
