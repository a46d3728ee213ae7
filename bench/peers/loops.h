// What the C++ drivers share: query lines read and printed by hand, and loops of calls. bench/peers/README.md has the command line.
//
// A driver includes its peer's header after defining PEER, and the peer gives a struct Zone:
//   Zone(option, argument)            the zone of -o OFFSET, -f FILE or -z STRING; refuse(..) where the peer has none
//   int offset(long)                  the offset of the clock at an instant
//   Shown shown(long, int)            what clocks show at an instant
//   Found found(Local)                the instants of a local time, each as it is shown
//   long first(Local)                 the Unix time of the first: in a fold the earlier, in a gap that of the jump, where the peer says so
//   Shown utc(long), long utc_of(Local)
//   Held held(long), string print(Held), Moment moment(long), long add(Moment, long)
//   bool from_file(), bool from_setting(), bool from_string()      makes the zone anew: of a file's bytes, of TZ, of a TZ string alone
#pragma once
#include <cstdint>
#include <cstdio>
#include <cstdlib>
#include <cstring>
#include <string>
#include <vector>

struct Local {
    int year, month, day, hour, minute, second;
};

struct Shown {
    int year, month, day, hour, minute, second, offset;
    char name[16];
    void call_it(const char *text, size_t length) {
        size_t kept = length < sizeof name - 1 ? length : sizeof name - 1;
        memcpy(name, text, kept);
        name[kept] = 0;
    }
};

struct Entry {
    char kind;
    Shown shown, after;
};

struct Found {
    int count = 0;
    Entry entries[2];
};

// The most places of a column.
constexpr size_t COLUMN = 10000;

[[noreturn]] inline void refuse(const char *why) {
    puts(why);
    exit(3);
}

inline std::string bytes_of(FILE *file) {
    std::string bytes;
    char part[65536];
    while (size_t length = fread(part, 1, sizeof part, file)) bytes.append(part, length);
    return bytes;
}
