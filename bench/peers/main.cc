// A driver over the library of the header PEER. bench/peers/README.md has its command line.
#include PEER

namespace {

// -- query lines, read and printed by hand

const char *number(const char *at, long &value) {
    bool is_below = *at == '-';
    at += is_below;
    long digits = 0;
    while (*at >= '0' && *at <= '9') digits = 10 * digits + (*at++ - '0');
    value = is_below ? -digits : digits;
    return at;
}

// The two digits of each number below 100.
struct Pairs {
    char text[200];
    constexpr Pairs() : text() {
        for (int n = 0; n < 100; ++n) text[2 * n] = '0' + n / 10, text[2 * n + 1] = '0' + n % 10;
    }
};
constexpr Pairs PAIRS;

char *two(char *out, unsigned value) {
    memcpy(out, PAIRS.text + 2 * value, 2);
    return out + 2;
}

char *print(char *out, const Shown &shown, unsigned nanoseconds) {
    out = two(out, (unsigned)shown.year / 100);
    out = two(out, (unsigned)shown.year % 100);
    *out++ = '-';
    out = two(out, shown.month);
    *out++ = '-';
    out = two(out, shown.day);
    *out++ = 'T';
    out = two(out, shown.hour);
    *out++ = ':';
    out = two(out, shown.minute);
    *out++ = ':';
    out = two(out, shown.second);
    *out++ = '.';
    *out++ = '0' + nanoseconds / 100000000;
    out = two(out, nanoseconds / 1000000 % 100);
    out = two(out, nanoseconds / 10000 % 100);
    out = two(out, nanoseconds / 100 % 100);
    out = two(out, nanoseconds % 100);
    if (shown.offset == 0) {
        *out++ = 'Z';
    } else {
        *out++ = shown.offset < 0 ? '-' : '+';
        const unsigned seconds = shown.offset < 0 ? -shown.offset : shown.offset;
        out = two(out, seconds / 3600);
        *out++ = ':';
        out = two(out, seconds / 60 % 60);
        if (seconds % 60) {
            *out++ = ':';
            out = two(out, seconds % 60);
        }
    }
    *out++ = ' ';
    for (const char *name = shown.name; *name; ++name) *out++ = *name;
    return out;
}

void answer_lines(Zone &zone) {
    std::string input = bytes_of(stdin);
    // A T line of four characters has an answer of less than 60, an F line of 16 one of less than 170.
    char *const answers = static_cast<char *>(malloc(20 * input.size() + 1));
    char *out = answers;
    const char *const end = input.data() + input.size();
    for (const char *at = input.data(); at < end; ++at) {
        long nanoseconds;
        if (*at == 'T') {
            long instant;
            at = number(number(at + 2, instant) + 1, nanoseconds);
            out = print(out, zone.shown(instant, true), nanoseconds);
            *out++ = '\n';
            continue;
        }
        long parts[6];
        ++at;
        for (long &part : parts) at = number(at + 1, part);
        at = number(at + 1, nanoseconds);
        const Found found = zone.found(Local{(int)parts[0], (int)parts[1], (int)parts[2], (int)parts[3], (int)parts[4], (int)parts[5]});
        *out++ = 'F', *out++ = ' ', *out++ = '0' + found.count, *out++ = '\n';
        for (int n = 0; n < found.count; ++n) {
            const Entry &entry = found.entries[n];
            *out++ = entry.kind, *out++ = ' ';
            out = print(out, entry.shown, nanoseconds);
            if (entry.kind == 'S') {
                *out++ = ' ';
                out = print(out, entry.after, nanoseconds);
            }
            *out++ = '\n';
        }
    }
    fwrite(answers, 1, out - answers, stdout);
    free(answers);
}

// -- calls

uint64_t sum_of(const Shown &shown) {
    return (uint64_t)(shown.year + shown.month + shown.day + shown.hour + shown.minute + shown.second) + (uint64_t)(int64_t)shown.offset;
}

uint64_t sum_of(const Local &local) { return local.year + local.month + local.day + local.hour + local.minute + local.second; }

Local local_of(long word) {
    return Local{(int)(word / 10000000000), (int)(word / 100000000 % 100), (int)(word / 1000000 % 100), (int)(word / 10000 % 100), (int)(word / 100 % 100), (int)(word % 100)};
}

// Makes the call for each of these words, this many times in all, and prints the sum of what they returned; or, for no number, each answer.
template <class Word, class Call>
void run(const std::string &name, const std::string &times, const std::vector<Word> &words, Call call) {
    auto sum = [&](size_t first, size_t last) {
        uint64_t total = 0;
        for (const Word *word = words.data() + first; word != words.data() + last; ++word) total += (uint64_t)call(*word);
        return total;
    };
    if (times == "each") {
        for (size_t n = 0; n < words.size(); ++n) printf("%llu\n", (unsigned long long)sum(n, n + 1));
        return;
    }
    uint64_t total = 0;
    size_t left = strtoul(times.c_str(), nullptr, 10);
    for (; left > words.size(); left -= words.size()) total += sum(0, words.size());
    total += sum(0, left);
    printf("%s %llu\n", name.c_str(), (unsigned long long)total);
}

#ifdef HAS_COLUMNS
// Answers a column of the first words, this many, in one call, and prints the sum; or, for no number, each answer.
template <class Word, class Call>
void run_column(const std::string &name, const std::string &times, const std::vector<Word> &words, Call call) {
    static uint64_t answers[COLUMN];
    const bool is_each = times == "each";
    const size_t count = is_each ? words.size() : strtoul(times.c_str(), nullptr, 10);
    if (count > words.size() || count > COLUMN) refuse("no column of that length");
    call(std::vector<Word>(words.begin(), words.begin() + (long)count), answers);
    uint64_t total = 0;
    for (size_t n = 0; n < count; ++n) {
        if (is_each) printf("%llu\n", (unsigned long long)answers[n]);
        total += answers[n];
    }
    if (!is_each) printf("%s %llu\n", name.c_str(), (unsigned long long)total);
}
#endif

template <class Made, class Word, class Make>
std::vector<Made> each(const std::vector<Word> &words, Make make) {
    std::vector<Made> made;
    made.reserve(words.size());
    for (const Word &word : words) made.push_back(make(word));
    return made;
}

void make_calls(Zone &zone, const std::string &call, const std::string &times) {
    std::string input = bytes_of(stdin);
    std::vector<long> words;
    for (const char *at = input.c_str(); *at; ++at) {
        long word;
        at = number(at, word);
        words.push_back(word);
    }
    const auto locals = each<Local>(words, local_of);
    if (call == "instant") {
        run(call, times, words, [](long word) { return word; });
    } else if (call == "local") {
        run(call, times, locals, [](const Local &local) { return sum_of(local); });
    } else if (call == "find_local_time_type") {
        run(call, times, words, [&](long word) { return (uint64_t)(int64_t)zone.offset(word); });
    } else if (call == "from_timespec") {
        run(call, times, words, [&](long word) { return sum_of(zone.shown(word, false)); });
    } else if (call == "find" || call == "find_n") {
        run(call, times, locals, [&](const Local &local) { return zone.first(local); });
    } else if (call == "following") {
        if (!Zone::knows_changes) refuse("no call for the next change");
        run(call, times, words, [&](long word) { return zone.following(word); });
    } else if (call == "display") {
        const auto held = each<typename Zone::Held>(words, [&](long word) { return zone.held(word); });
        run(call, times, held, [&](const typename Zone::Held &held) { return zone.print(held).size(); });
    } else if (call == "utc_from_timespec") {
        run(call, times, words, [&](long word) { return sum_of(zone.utc(word)); });
    } else if (call == "utc_new") {
        run(call, times, locals, [&](const Local &local) { return zone.utc_of(local); });
    } else if (call == "utc_add") {
        if (!Zone::adds) refuse("instants are numbers");
        struct Sum {
            typename Zone::Moment moment;
            long more;
        };
        const auto sums = each<Sum>(words, [&](long word) { return Sum{zone.moment(word), word & 0xfffff}; });
        run(call, times, sums, [&](const Sum &sum) { return zone.add(sum.moment, sum.more); });
    } else if (call == "from_tz_data") {
        if (!Zone::reads_files) refuse("a zone is read once");
        run(call, times, words, [&](long) { return zone.from_file(); });
    } else if (call == "from_posix_tz") {
        if (!Zone::reads_settings) refuse("a zone is read once");
        run(call, times, words, [&](long) { return zone.from_setting(); });
    } else if (call == "parse_string") {
        if (!Zone::reads_strings) refuse("no TZ string apart from a setting");
        run(call, times, words, [&](long) { return zone.from_string(); });
#ifdef HAS_COLUMNS
    } else if (call == "column_offsets") {
        run_column(call, times, words, [&](const std::vector<long> &instants, uint64_t *answers) { zone.offsets(instants, answers); });
    } else if (call == "column_date_times") {
        run_column(call, times, words, [&](const std::vector<long> &instants, uint64_t *answers) { zone.date_times(instants, answers); });
    } else if (call == "column_instants") {
        run_column(call, times, locals, [&](const std::vector<Local> &locals, uint64_t *answers) { zone.instants(locals, answers); });
#endif
    } else {
        refuse("no such call");
    }
}

}  // namespace

int main(int count, char **arguments) {
    if (count != 3 && count != 5) {
        fputs("usage: PROGRAM OPTION ARGUMENT [CALL TIMES]\n", stderr);
        return 1;
    }
    Zone zone(arguments[1], arguments[2]);
    if (count == 3) {
        answer_lines(zone);
    } else {
        make_calls(zone, arguments[3], arguments[4]);
    }
}
