// Google's cctz.
#include <cctz/civil_time.h>
#include <cctz/time_zone.h>
#include <cctz/zone_info_source.h>

#include <chrono>
#include <functional>
#include <memory>

#include "loops.h"

using Seconds = cctz::time_point<cctz::seconds>;
using Nanoseconds = std::chrono::time_point<std::chrono::system_clock, std::chrono::nanoseconds>;

inline Seconds at(long instant) { return Seconds(cctz::seconds(instant)); }

struct Zone {
    cctz::time_zone zone;
    std::string path;

    Zone(const std::string &option, const std::string &argument) : path(argument) {
        if (option == "-o") {
            zone = cctz::fixed_time_zone(cctz::seconds(atol(argument.c_str())));
        } else if (option == "-z") {
            refuse("no TZ strings");
        } else if (!cctz::load_time_zone(argument, &zone)) {
            refuse("not this file");
        }
    }

    static Shown of(const cctz::civil_second &shown, int offset) {
        return Shown{(int)shown.year(), shown.month(), shown.day(), shown.hour(), shown.minute(), shown.second(), offset, ""};
    }

    static cctz::civil_second of(const Local &local) {
        return cctz::civil_second(local.year, local.month, local.day, local.hour, local.minute, local.second);
    }

    int offset(long instant) { return zone.lookup(at(instant)).offset; }

    Shown shown(long instant, bool named) { return shown_at(at(instant), named); }

    Shown shown_at(Seconds instant, bool named) {
        const auto there = zone.lookup(instant);
        Shown shown = of(there.cs, there.offset);
        if (named) shown.call_it(there.abbr, strlen(there.abbr));
        return shown;
    }

    Found found(const Local &local) {
        const auto there = zone.lookup(of(local));
        Found found;
        if (there.kind == cctz::time_zone::civil_lookup::SKIPPED) {
            found.count = 1;
            const auto before = zone.lookup(there.trans - cctz::seconds(1));
            found.entries[0].kind = 'S';
            found.entries[0].shown = of(before.cs + 1, before.offset);
            found.entries[0].shown.call_it(before.abbr, strlen(before.abbr));
            found.entries[0].after = shown_at(there.trans, true);
            return found;
        }
        found.count = there.kind == cctz::time_zone::civil_lookup::REPEATED ? 2 : 1;
        found.entries[0].kind = 'N';
        found.entries[0].shown = shown_at(there.pre, true);
        if (found.count == 2) {
            found.entries[1].kind = 'N';
            found.entries[1].shown = shown_at(there.post, true);
        }
        return found;
    }

    long first(const Local &local) {
        const auto there = zone.lookup(of(local));
        const auto instant = there.kind == cctz::time_zone::civil_lookup::SKIPPED ? there.trans : there.pre;
        return instant.time_since_epoch().count();
    }

    // The next change is known by the civil times around it, of which one lies in the gap or the fold.
    static constexpr bool knows_changes = true;
    long following(long instant) {
        cctz::time_zone::civil_transition change;
        if (!zone.next_transition(at(instant), &change)) return 0;
        return zone.lookup(change.from < change.to ? change.from : change.to).trans.time_since_epoch().count();
    }

    Shown utc(long instant) { return of(cctz::convert(at(instant), cctz::utc_time_zone()), 0); }
    long utc_of(const Local &local) { return cctz::convert(of(local), cctz::utc_time_zone()).time_since_epoch().count(); }

    using Held = Nanoseconds;
    Nanoseconds held(long instant) { return Nanoseconds(std::chrono::nanoseconds(instant * 1000000000 + 7)); }
    std::string print(const Nanoseconds &instant) { return cctz::format("%Y-%m-%dT%H:%M:%E9S%Ez", instant, zone); }

    using Moment = long;
    static constexpr bool adds = false;
    long moment(long instant) { return instant; }
    long add(long instant, long more) { return instant + more; }

    // A zone that was read is kept for good, so that none is read twice.
    static constexpr bool reads_files = false, reads_settings = false, reads_strings = false;
    bool from_file() { return false; }
    bool from_setting() { return false; }
    bool from_string() { return false; }
};
