// The library of C programs: bindings/c/tz.h over the proved archive, as any C program calls it.
#include "../../bindings/c/tz.h"

#include "loops.h"

#define HAS_COLUMNS

// The parts of a zone, which a TZif file or a rule gives.
struct Tables {
    std::vector<tz_transition> transitions;
    std::vector<tz_local_time_type> types;
    std::vector<tz_leap_second> leap_seconds;
    tz_rule rule{};
    tz_zone zone{};

    bool read(const std::string &bytes) {
        const auto *first = reinterpret_cast<const uint8_t *>(bytes.data());
        tz_sizes sizes{};
        if (tz_file_sizes(first, bytes.size(), &sizes)) return false;
        transitions.resize(sizes.transitions), types.resize(sizes.types), leap_seconds.resize(sizes.leap_seconds);
        if (tz_file_read(first, bytes.size(), transitions.data(), transitions.size(), types.data(), types.size(), leap_seconds.data(), leap_seconds.size(), &rule,
                         &zone.offsets))
            return false;
        view();
        return true;
    }

    bool read_string(const std::string &string) {
        if (tz_string_read(string.data(), string.size(), false, &rule)) return false;
        if (rule.kind == TZ_FIXED) {
            types.assign(1, rule.fixed);
        } else {
            types.assign(rule.alternate.types, rule.alternate.types + 2);
        }
        return check();
    }

    bool fix(int32_t offset) {
        types.resize(1);
        return !tz_local_time_type_new(offset, false, false, nullptr, 0, types.data()) && check();
    }

    bool check() {
        view();
        return !tz_zone_check(&zone.parts, &zone.offsets);
    }

    void view() {
        zone.parts = tz_parts{transitions.data(), transitions.size(), types.data(), types.size(), leap_seconds.data(), leap_seconds.size(), &rule.fixed,
                              rule.kind == TZ_FIXED, &rule.alternate, rule.kind == TZ_ALTERNATE};
    }
};

struct Zone {
    std::string argument;
    Tables tables;

    Zone(const std::string &option, const std::string &given) {
        if (option == "-f") {
            if (FILE *file = fopen(given.c_str(), "rb")) argument = bytes_of(file), fclose(file);
        } else {
            argument = given;
        }
        const bool is_made = option == "-o" ? tables.fix(atoi(given.c_str())) : option == "-f" ? tables.read(argument) : tables.read_string(argument);
        if (!is_made) refuse("not this zone");
    }

    static Shown of(const tz_fields &fields, int offset) {
        return Shown{fields.year, fields.month, fields.month_day, fields.hour, fields.minute, fields.second, offset, ""};
    }

    static tz_fields of(const Local &local) {
        return tz_fields{local.year, (uint8_t)local.month, (uint8_t)local.day, (uint8_t)local.hour, (uint8_t)local.minute, (uint8_t)local.second, 7};
    }

    static Shown of(const tz_date_time &date_time, bool named) {
        Shown shown = of(date_time.fields, date_time.local_time_type.ut_offset);
        if (named) {
            const tz_local_time_type &type = date_time.local_time_type;
            type.designation_length ? shown.call_it(type.designation, type.designation_length) : shown.call_it("-", 1);
        }
        return shown;
    }

    int offset(long instant) {
        tz_local_time_type type{};
        if (tz_zone_type_at(&tables.zone, instant, &type)) refuse("no type");
        return type.ut_offset;
    }

    Shown shown(long instant, bool named) {
        tz_date_time date_time{};
        if (tz_date_time_from_timespec(instant, 7, &tables.zone, &date_time)) refuse("no date time");
        return of(date_time, named);
    }

    Found found(const Local &local) {
        const tz_fields fields = of(local);
        tz_found slots[2]{};
        size_t count = 0;
        if (tz_find_n(&fields, &tables.zone, 0, slots, 2, &count)) refuse("no search");
        Found found;
        found.count = (int)count;
        for (size_t n = 0; n < count && n < 2; ++n) {
            found.entries[n].kind = slots[n].is_skipped ? 'S' : 'N';
            found.entries[n].shown = of(slots[n].before, true);
            found.entries[n].after = of(slots[n].after, true);
        }
        return found;
    }

    long first(const Local &local) {
        const tz_fields fields = of(local);
        tz_found slots[2]{};
        size_t count = 0;
        if (tz_find_n(&fields, &tables.zone, 0, slots, 2, &count)) refuse("no search");
        return count ? slots[0].before.unix_time : 1;
    }

    static constexpr bool knows_changes = true;
    long following(long instant) {
        tz_change change{};
        return tz_zone_following(&tables.zone, instant, &change) ? 0 : change.unix_time;
    }

    Shown utc(long instant) {
        tz_utc utc{};
        tz_utc_from_timespec(instant, 7, &utc);
        return of(utc.fields, 0);
    }

    long utc_of(const Local &local) {
        const tz_fields fields = of(local);
        tz_utc utc{};
        tz_utc_new(&fields, &utc);
        return utc.unix_time;
    }

    using Held = tz_date_time;
    tz_date_time held(long instant) {
        tz_date_time date_time{};
        if (tz_date_time_from_timespec(instant, 7, &tables.zone, &date_time)) refuse("no date time");
        return date_time;
    }

    std::string print(const tz_date_time &date_time) {
        char text[53];
        size_t length = 0;
        tz_date_time_text(&date_time, text, sizeof text, &length);
        return std::string(text, length);
    }

    using Moment = tz_utc;
    static constexpr bool adds = true;
    tz_utc moment(long instant) {
        tz_utc utc{};
        tz_utc_from_timespec(instant, 7, &utc);
        return utc;
    }

    long add(const tz_utc &moment, long more) {
        tz_utc utc{};
        tz_utc_add(&moment, (uint64_t)more, 7, &utc);
        return utc.unix_time;
    }

    static constexpr bool reads_files = true, reads_settings = false, reads_strings = true;
    bool from_file() { return Tables().read(argument); }
    bool from_setting() { return false; }
    bool from_string() { return Tables().read_string(argument); }

    // Columns: codes and values lie in static memory, which is zero.
    void offsets(const std::vector<long> &instants, uint64_t *answers) {
        static int32_t offsets[COLUMN];
        if (tz_column_offsets((const int64_t *)instants.data(), instants.size(), &tables.zone, offsets, instants.size(), codes, instants.size())) refuse("no column");
        for (size_t n = 0; n < instants.size(); ++n) answers[n] = (uint64_t)(int64_t)offsets[n];
    }

    void date_times(const std::vector<long> &instants, uint64_t *answers) {
        static tz_date_time date_times[COLUMN];
        static uint32_t nanoseconds[COLUMN];
        if (tz_column_date_times((const int64_t *)instants.data(), instants.size(), nanoseconds, instants.size(), &tables.zone, date_times, instants.size(), codes,
                                 instants.size()))
            refuse("no column");
        for (size_t n = 0; n < instants.size(); ++n) {
            const tz_fields &fields = date_times[n].fields;
            answers[n] = (uint64_t)(fields.year + fields.month + fields.month_day + fields.hour + fields.minute + fields.second + date_times[n].local_time_type.ut_offset);
        }
    }

    void instants(const std::vector<Local> &locals, uint64_t *answers) {
        static tz_fields fields[COLUMN];
        for (size_t n = 0; n < locals.size(); ++n) fields[n] = of(locals[n]);
        if (tz_column_instants(fields, locals.size(), TZ_COMPATIBLE, &tables.zone, (int64_t *)answers, locals.size(), codes, locals.size())) refuse("no column");
    }

    static tz_code codes[COLUMN];
};

tz_code Zone::codes[COLUMN];
