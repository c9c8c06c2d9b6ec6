// What plain C++ takes for the same work on the same input: it makes its input by the same draws as
// the program, prints what it computed in the same lines on standard output, and how long it took
// on standard error. Build it with -O2.
#include <algorithm>
#include <chrono>
#include <cstdint>
#include <cstdio>
#include <cstdlib>
#include <cstring>
#include <fcntl.h>
#include <fnmatch.h>
#include <string>
#include <unistd.h>
#include <vector>

using std::string;
using std::vector;
typedef uint64_t u64;
typedef int64_t i64;
typedef __int128 i128;

static u64 rounds_asked;

struct Draws {
    u64 state;
    u64 next() {
        state = state * 6364136223846793005u + 1442695040888963407u;
        return state >> 33;
    }
};

static u64 now() {
    return std::chrono::duration_cast<std::chrono::nanoseconds>(
               std::chrono::steady_clock::now().time_since_epoch())
        .count();
}

static u64 middle(vector<u64> taken) {
    std::sort(taken.begin(), taken.end());
    return taken[taken.size() / 2];
}

// Does the work so many times, and gives the median of how long it took.
template <class F> static u64 timed(F work) {
    vector<u64> taken;
    for (u64 i = 0; i < rounds_asked; i++) {
        u64 start = now();
        work();
        taken.push_back(now() - start);
    }
    return middle(taken);
}

__attribute__((noinline)) static void copy(const string &from, string &to) {
    memcpy(&to[0], &from[0], from.size());
}

static u64 copying(u64 bytes) {
    string from(bytes, 7), to(bytes, 0);
    u64 nanos = timed([&] { copy(from, to); });
    if (from != to)
        exit(1);
    return nanos;
}

static void tell(const char *name, u64 count, u64 sum, u64 units, u64 bytes, u64 nanos) {
    printf("%s count %llu sum %llu\n", name, (unsigned long long)count, (unsigned long long)sum);
    fprintf(stderr, "%s units %llu bytes %llu nanos %llu copy_nanos %llu\n", name,
            (unsigned long long)units, (unsigned long long)bytes, (unsigned long long)nanos,
            (unsigned long long)copying(bytes));
}

static void tell_text(const char *name, const string &text, u64 units, u64 nanos) {
    u64 sum = 0;
    for (unsigned char byte : text)
        sum += byte;
    tell(name, text.size(), sum, units, text.size(), nanos);
}

// A decimal number, rounded to the nearest unit of 10^-6 with ties away from zero.
static bool read_units(const char *&at, const char *end, i64 &units) {
    bool negative = at < end && *at == '-';
    if (negative)
        at++;
    const char *first = at;
    u64 whole = 0;
    while (at < end && (unsigned)(*at - '0') < 10) {
        if (whole > 1000000000000u)
            return false;
        whole = whole * 10 + (*at++ - '0');
    }
    if (at == first || (*first == '0' && at - first > 1))
        return false;
    u64 fraction = 0, places = 0;
    if (at < end && *at == '.') {
        first = ++at;
        bool up = false;
        while (at < end && (unsigned)(*at - '0') < 10) {
            if (places < 6)
                fraction = fraction * 10 + (*at - '0'), places++;
            else if (at - first == 6)
                up = *at >= '5';
            at++;
        }
        if (at == first)
            return false;
        while (places < 6)
            fraction *= 10, places++;
        fraction += up;
    }
    u64 magnitude = whole * 1000000 + fraction;
    if (magnitude > 1000000000000000000u)
        return false;
    units = negative ? -(i64)magnitude : (i64)magnitude;
    return true;
}

static void print_number(u64 number, string &out) {
    char digits[20];
    int i = 20;
    do
        digits[--i] = '0' + number % 10;
    while (number /= 10);
    out.append(digits + i, 20 - i);
}

// The digits of a rest from this one on, without the zeros at the end, but at least one.
static void print_fraction(u64 rest, u64 unit, string &out) {
    do {
        out += '0' + rest / unit;
        rest %= unit;
        unit /= 10;
    } while (rest);
}

static void print_magnitude(bool negative, u64 units, string &out) {
    if (negative)
        out += '-';
    print_number(units / 1000000, out);
    out += '.';
    print_fraction(units % 1000000, 100000, out);
}

static void print_units(i64 units, string &out) {
    print_magnitude(units < 0, units < 0 ? -(u64)units : (u64)units, out);
}

static i64 value_of(u64 drawn, bool negative) {
    i64 units = (i64)(drawn % 1000000000) * 1000;
    return negative ? -units : units;
}

static void values(u64 size) {
    Draws draws{1};
    vector<i64> made;
    vector<string> tokens;
    for (u64 i = 0; i < size; i++) {
        made.push_back(value_of(draws.next(), i % 2 == 1));
        string token;
        print_units(made.back(), token);
        tokens.push_back(token);
    }
    u64 count = 0, sum = 0;
    u64 read = timed([&] {
        count = sum = 0;
        for (const string &token : tokens) {
            const char *at = token.data(), *end = at + token.size();
            i64 units;
            if (read_units(at, end, units) && at == end)
                count++, sum += units < 0 ? -(u64)units : (u64)units;
        }
    });
    string text;
    u64 printed = timed([&] {
        text = string();
        for (i64 units : made)
            print_units(units, text);
    });
    tell("read_value", count, sum, size, text.size(), read);
    tell_text("value_text", text, size, printed);
}

static void two(unsigned number, string &out) {
    out += '0' + number / 10;
    out += '0' + number % 10;
}

static i64 days_of(i64 y, unsigned m, unsigned d) {
    y -= m <= 2;
    i64 era = y / 400;
    unsigned yoe = y - era * 400, doy = (153 * (m > 2 ? m - 3 : m + 9) + 2) / 5 + d - 1;
    return era * 146097 + (i64)(yoe * 365 + yoe / 4 - yoe / 100 + doy) - 719468;
}

static void print_stamp(u64 nanos, string &out) {
    u64 seconds = nanos / 1000000000, rest = nanos % 1000000000;
    u64 z = seconds / 86400 + 719468;
    unsigned clock = seconds % 86400;
    u64 era = z / 146097;
    unsigned doe = z - era * 146097;
    unsigned yoe = (doe - doe / 1460 + doe / 36524 - doe / 146096) / 365;
    unsigned doy = doe - (365 * yoe + yoe / 4 - yoe / 100), mp = (5 * doy + 2) / 153;
    unsigned d = doy - (153 * mp + 2) / 5 + 1, m = mp < 10 ? mp + 3 : mp - 9;
    unsigned y = yoe + era * 400 + (m <= 2);
    two(y / 100, out), two(y % 100, out);
    out += '-', two(m, out), out += '-', two(d, out);
    out += 'T', two(clock / 3600, out), out += ':', two(clock / 60 % 60, out);
    out += ':', two(clock % 60, out);
    if (rest) {
        char digits[11];
        snprintf(digits, sizeof digits, ".%09u", (unsigned)rest);
        out += digits;
    }
    out += "+00:00";
}

static bool digits_at(const char *at, int places, unsigned most, unsigned &number) {
    number = 0;
    for (int i = 0; i < places; i++) {
        if ((unsigned)(at[i] - '0') >= 10)
            return false;
        number = number * 10 + (at[i] - '0');
    }
    return number <= most;
}

// A date of the form 2020-09-13T12:26:40+00:00.
static bool read_date(const string &text, u64 &nanos) {
    static const unsigned days[] = {31, 28, 31, 30, 31, 30, 31, 31, 30, 31, 30, 31};
    const char *at = text.data();
    unsigned y, m, d, hour, minute, second, east, behind;
    if (text.size() != 25 || at[4] != '-' || at[7] != '-' || at[10] != 'T' || at[13] != ':' ||
        at[16] != ':' || at[19] != '+' || at[22] != ':')
        return false;
    if (!digits_at(at, 4, 9999, y) || !digits_at(at + 5, 2, 12, m) || !digits_at(at + 8, 2, 31, d) ||
        !digits_at(at + 11, 2, 23, hour) || !digits_at(at + 14, 2, 59, minute) ||
        !digits_at(at + 17, 2, 59, second) || !digits_at(at + 20, 2, 23, east) ||
        !digits_at(at + 23, 2, 59, behind))
        return false;
    bool leaps = y % 4 == 0 && (y % 100 != 0 || y % 400 == 0);
    if (m == 0 || d == 0 || d > days[m - 1] + (m == 2 && leaps))
        return false;
    i64 seconds = days_of(y, m, d) * 86400 + hour * 3600 + minute * 60 + second;
    seconds -= east * 3600 + behind * 60;
    if (seconds < 0 || seconds >= 9000000000)
        return false;
    nanos = (u64)seconds * 1000000000;
    return true;
}

static bool read_seconds(const char *&at, const char *end, u64 &nanos) {
    const char *first = at;
    u64 seconds = 0;
    while (at < end && (unsigned)(*at - '0') < 10) {
        if (seconds > 9000000000)
            return false;
        seconds = seconds * 10 + (*at++ - '0');
    }
    if (at == first || (*first == '0' && at - first > 1) || seconds >= 9000000000)
        return false;
    nanos = seconds * 1000000000;
    return true;
}

static u64 stamp_of(u64 drawn) { return (1600000000 + drawn % 100000000) * 1000000000; }

static void stamps(u64 size) {
    Draws draws{2};
    vector<u64> made;
    vector<string> numbers, dates;
    for (u64 i = 0; i < size; i++) {
        made.push_back(stamp_of(draws.next()));
        string number, date;
        print_number(made.back() / 1000000000, number);
        print_stamp(made.back(), date);
        numbers.push_back(number);
        dates.push_back(date);
    }
    u64 count = 0, sum = 0, dates_read = 0, dates_sum = 0;
    u64 read = timed([&] {
        count = sum = 0;
        for (const string &token : numbers) {
            const char *at = token.data(), *end = at + token.size();
            u64 nanos;
            if (read_seconds(at, end, nanos) && at == end)
                count++, sum += nanos;
        }
    });
    string text;
    u64 printed = timed([&] {
        text = string();
        for (u64 nanos : made)
            print_stamp(nanos, text);
    });
    u64 again = timed([&] {
        dates_read = dates_sum = 0;
        for (const string &token : dates) {
            u64 nanos;
            if (read_date(token, nanos))
                dates_read++, dates_sum += nanos;
        }
    });
    tell("read_seconds", count, sum, size, size * 10, read);
    tell_text("stamp_text", text, size, printed);
    tell("read_date", dates_read, dates_sum, size, text.size(), again);
}

struct Row {
    u64 at, granularity;
    i128 num;
    u64 den;
};

static void print_span(u64 nanos, string &out) {
    print_number(nanos / 1000000000, out);
    out += '.';
    print_fraction(nanos % 1000000000, 100000000, out);
}

static void print_rows(const vector<Row> &rows, string &out) {
    out += '[';
    bool first = true;
    for (const Row &row : rows) {
        if (!first)
            out += ',';
        first = false;
        out += "[\"";
        print_stamp(row.at, out);
        out += "\",";
        print_span(row.granularity, out);
        out += ',';
        unsigned __int128 magnitude = row.num < 0 ? -row.num : row.num;
        unsigned __int128 units = (2 * magnitude + row.den) / (2 * (unsigned __int128)row.den);
        print_magnitude(row.num < 0 && units > 0, (u64)units, out);
        out += ']';
    }
    out += ']';
}

static void print(u64 size) {
    Draws draws{3};
    vector<Row> rows;
    for (u64 i = 0; i < size; i++) {
        u64 sum = draws.next(), many = draws.next();
        rows.push_back({1600000020000000000u + i * 60000000000u, 60000000000u, (i128)sum * 1000,
                        1 + many % 12});
    }
    string text;
    u64 nanos = timed([&] {
        text = string();
        print_rows(rows, text);
    });
    tell_text("write_answer", text, size, nanos);
}

struct Measure {
    u64 at;
    i64 units;
};

static bool word(const char *&at, const char *end, const char *text, size_t length) {
    if ((size_t)(end - at) < length || memcmp(at, text, length) != 0)
        return false;
    at += length;
    return true;
}

// A list of measures without white space.
static bool read_measures(const string &body, vector<Measure> &measures) {
    const char *at = body.data(), *end = at + body.size();
    if (!word(at, end, "[", 1))
        return false;
    do {
        Measure m;
        if (!word(at, end, "{\"timestamp\":", 13) || !read_seconds(at, end, m.at) ||
            !word(at, end, ",\"value\":", 9) || !read_units(at, end, m.units) ||
            !word(at, end, "}", 1))
            return false;
        measures.push_back(m);
    } while (word(at, end, ",", 1));
    return word(at, end, "]", 1) && at == end;
}

static void json(u64 size) {
    Draws draws{4};
    string body = "[";
    for (u64 i = 0; i < size; i++) {
        if (i)
            body += ',';
        u64 at = stamp_of(draws.next());
        body += "{\"timestamp\":";
        print_number(at / 1000000000, body);
        body += ",\"value\":";
        print_units(value_of(draws.next(), false), body);
        body += '}';
    }
    body += ']';
    vector<Measure> measures;
    u64 nanos = timed([&] {
        measures = vector<Measure>();
        if (!read_measures(body, measures))
            exit(1);
    });
    u64 sum = 0;
    for (const Measure &m : measures)
        sum += m.at + (m.units < 0 ? -(u64)m.units : (u64)m.units);
    tell("read_measures", measures.size(), sum, size, body.size(), nanos);
}

struct Definition {
    u64 granularity;
    uint32_t points;
};

struct Policy {
    string name;
    uint16_t back_window;
    vector<Definition> definitions;
    vector<uint8_t> kinds;
};

static bool make_policy(u64 back_window, const vector<Definition> &wanted,
                        const vector<uint8_t> &kinds, Policy &policy) {
    if (back_window > 1000 || wanted.empty() || kinds.empty())
        return false;
    policy.name = "basic";
    for (char c : policy.name)
        if (c < 0x20 || c > 0x7e || c == '/')
            return false;
    policy.back_window = back_window;
    for (const Definition &d : wanted) {
        if (d.points == 0 || d.points > 1000000 || d.granularity < 1000000)
            return false;
        auto place = policy.definitions.begin();
        while (place != policy.definitions.end() && place->granularity <= d.granularity)
            ++place;
        policy.definitions.insert(place, d);
    }
    for (size_t i = 1; i < policy.definitions.size(); i++)
        if (policy.definitions[i].granularity % policy.definitions[i - 1].granularity)
            return false;
    for (uint8_t kind = 0; kind < 16; kind++)
        if (std::find(kinds.begin(), kinds.end(), kind) != kinds.end())
            policy.kinds.push_back(kind);
    return true;
}

struct Rule {
    string name, pattern;
};

static long choose(const vector<Rule> &rules, const string &name) {
    long chosen = -1;
    for (size_t i = 0; i < rules.size(); i++) {
        if (fnmatch(rules[i].pattern.c_str(), name.c_str(), 0) != 0)
            continue;
        const Rule &rule = rules[i];
        if (chosen < 0 || rule.pattern.size() > rules[chosen].pattern.size() ||
            (rule.pattern.size() == rules[chosen].pattern.size() && rule.name < rules[chosen].name))
            chosen = i;
    }
    return chosen;
}

static void policies(u64 size) {
    const u64 minute = 60000000000u;
    vector<Definition> wanted = {{minute * 1440, 365}, {minute, 1440}, {minute * 60, 744}};
    vector<uint8_t> kinds = {7, 0, 2, 1, 3, 4, 5, 8};
    u64 count = 0, sum = 0;
    u64 made = timed([&] {
        count = sum = 0;
        for (u64 i = 0; i < size; i++) {
            Policy policy;
            if (make_policy(i % 1000, wanted, kinds, policy))
                count++, sum += policy.back_window;
        }
    });
    Draws draws{5};
    vector<Rule> rules;
    for (u64 i = 0; i < size; i++) {
        string drawn = std::to_string(draws.next() % 100);
        rules.push_back({"rule-" + std::to_string(i),
                         i % 2 == 0 ? "host-" + drawn + ".*" : "*.disk-" + drawn + ".*"});
    }
    draws = Draws{5};
    vector<string> names;
    u64 bytes = 0;
    for (int i = 0; i < 16; i++) {
        string host = std::to_string(draws.next() % 100);
        names.push_back("host-" + host + ".disk-" + std::to_string(draws.next() % 100) +
                        ".read_bytes");
        bytes += names.back().size();
    }
    u64 matched = 0, places = 0;
    u64 chosen = timed([&] {
        matched = places = 0;
        for (const string &name : names) {
            long place = choose(rules, name);
            if (place >= 0)
                matched++, places += place;
        }
    });
    tell("policy_make", count, sum, size, size * 5, made);
    tell("choose", matched, places, size * 16, bytes * size, chosen);
}

// Values summed up by one sort and one pass, batches taken in, and a series grouped by minutes.
static void aggregate(u64 size) {
    Draws draws{6};
    vector<i64> units;
    for (u64 i = 0; i < size; i++)
        units.push_back(draws.next() % 1000000);
    u64 sum = 0;
    u64 summed = timed([&] {
        vector<i64> sorted = units;
        std::sort(sorted.begin(), sorted.end());
        u64 distinct = std::unique(sorted.begin(), sorted.end()) - sorted.begin();
        i128 total = 0;
        i64 least = units[0], greatest = units[0];
        for (i64 value : units) {
            total += value;
            least = std::min(least, value);
            greatest = std::max(greatest, value);
        }
        sum = (u64)total * 2 + least + greatest + size * 1000000 + units[0] + units.back() +
              distinct * 1000000;
    });
    tell("tally", 8, sum, size, size * 8, summed);
    const u64 first = 1600000020000000000u, second = 1000000000, minute = 60 * second;
    auto batch = [&](u64 stride, u64 behind) {
        Draws draws{6};
        vector<Measure> made;
        for (u64 i = 0; i < size; i++)
            made.push_back({first + i * stride % size * second + behind,
                            value_of(draws.next(), false)});
        return made;
    };
    vector<Measure> rising = batch(1, 0), mixed = batch(7919, second / 2), kept, after;
    auto before = [](const Measure &a, const Measure &b) { return a.at < b.at; };
    u64 count = 0;
    auto take = [&](const vector<Measure> &old, const vector<Measure> &batch) {
        vector<Measure> points = old, accepted;
        accepted.reserve(batch.size());
        u64 from = 0;
        if (!points.empty()) {
            u64 last = points.back().at / minute * minute;
            from = last > 1000 * minute ? last - 1000 * minute : 0;
        }
        for (const Measure &m : batch)
            if (m.at >= from)
                accepted.push_back(m);
        count = accepted.size();
        if (!std::is_sorted(accepted.begin(), accepted.end(), before))
            std::stable_sort(accepted.begin(), accepted.end(), before);
        vector<Measure> merged;
        merged.reserve(points.size() + accepted.size());
        size_t p = 0;
        for (size_t i = 0; i < accepted.size(); i++) {
            if (i + 1 < accepted.size() && accepted[i + 1].at == accepted[i].at)
                continue;
            while (p < points.size() && points[p].at < accepted[i].at)
                merged.push_back(points[p++]);
            if (p < points.size() && points[p].at == accepted[i].at)
                p++;
            merged.push_back(accepted[i]);
        }
        merged.insert(merged.end(), points.begin() + p, points.end());
        return merged;
    };
    u64 rose = timed([&] { kept = take(vector<Measure>(), rising); });
    tell("accept_rising", count, kept.size(), size, size * 16, rose);
    u64 among = timed([&] { after = take(kept, mixed); });
    tell("accept_mixed", count, after.size(), size, size * 16, among);
    struct Point {
        u64 at;
        i128 num;
        u64 den;
    };
    vector<Point> points;
    u64 grouped = timed([&] {
        points = vector<Point>();
        for (size_t i = 0; i < kept.size();) {
            u64 start = kept[i].at / minute * minute;
            i128 total = 0;
            u64 many = 0;
            for (; i < kept.size() && kept[i].at < start + minute; i++)
                total += kept[i].units, many++;
            points.push_back({start, total, many});
        }
    });
    u64 numerators = 0;
    for (const Point &point : points)
        numerators += (u64)(point.num < 0 ? -point.num : point.num);
    tell("changed", points.size(), numerators, size, size * 16, grouped);
}

static void must(bool done) {
    if (!done)
        perror("yardstick"), exit(1);
}

static void big_endian(u64 number, string &out) {
    for (int i = 7; i >= 0; i--)
        out += (char)(number >> 8 * i);
}

static void write_all(int file, const string &bytes, off_t at) {
    must(pwrite(file, bytes.data(), bytes.size(), at) == (ssize_t)bytes.size());
}

// Reads pieces of 64 KiB, and finds where each record stands, up to the first closed gate.
static u64 mount(int file, vector<std::pair<u64, u64>> &places) {
    must(fdatasync(file) == 0);
    u64 size = lseek(file, 0, SEEK_END), at = 0, gate = 0;
    vector<unsigned char> piece(std::min<u64>(size, 65536));
    must(pread(file, piece.data(), piece.size(), 0) == (ssize_t)piece.size());
    while (true) {
        if (gate + 9 > at + piece.size() && at + piece.size() < size) {
            at = gate;
            piece.resize(std::min<u64>(size - gate, piece.size()));
            must(pread(file, piece.data(), piece.size(), at) == (ssize_t)piece.size());
        }
        const unsigned char *head = piece.data() + (gate - at);
        if (head[0] != 1)
            return gate;
        u64 length = 0;
        for (int i = 1; i < 9; i++)
            length = length << 8 | head[i];
        must(length < size - gate - 9);
        places.push_back({gate + 9, length});
        gate += 9 + length;
    }
}

static void log(u64 size, const char *folder) {
    Draws draws{7};
    vector<string> bodies;
    for (u64 i = 0; i < size; i++) {
        u64 drawn = draws.next();
        bodies.push_back(string(64 + drawn / 256 % 128, (char)(drawn % 251)));
    }
    string path = string(folder) + "/plain";
    vector<u64> made, mounted, appended;
    u64 count = 0, bytes = 0, grown = 0;
    for (u64 i = 0; i < rounds_asked; i++) {
        int file = open(path.c_str(), O_RDWR | O_CREAT, 0644);
        must(file >= 0);
        u64 start = now();
        string frame;
        for (size_t k = 0; k < bodies.size(); k++) {
            if (k)
                frame += '\1';
            big_endian(bodies[k].size(), frame);
            frame += bodies[k];
        }
        frame += '\0';
        must(fdatasync(file) == 0);
        if (lseek(file, 0, SEEK_END) > 0) {
            write_all(file, string(1, '\0'), 0);
            must(fdatasync(file) == 0 && ftruncate(file, 1) == 0 && fdatasync(file) == 0);
        } else {
            write_all(file, string(1, '\0'), 0);
            must(fdatasync(file) == 0);
        }
        write_all(file, frame, 1);
        must(fdatasync(file) == 0);
        write_all(file, string(1, '\1'), 0);
        must(fdatasync(file) == 0);
        made.push_back(now() - start);
        start = now();
        vector<std::pair<u64, u64>> places;
        u64 gate = mount(file, places);
        mounted.push_back(now() - start);
        count = places.size();
        bytes = gate + 1;
        start = now();
        for (int k = 0; k < 64; k++) {
            string record;
            big_endian(bodies[0].size(), record);
            record += bodies[0];
            record += '\0';
            write_all(file, record, gate + 1);
            must(fdatasync(file) == 0);
            write_all(file, string(1, '\1'), gate);
            must(fdatasync(file) == 0);
            gate += 9 + bodies[0].size();
            places.push_back({gate, bodies[0].size()});
        }
        appended.push_back(now() - start);
        grown = gate + 1 - bytes;
        close(file);
    }
    tell("log_make", count, bytes, count, bytes, middle(made));
    tell("log_mount", count, bytes, count, bytes, middle(mounted));
    tell("log_append", count + 64, bytes + grown, 64, grown, middle(appended));
}

// The same over bytes in memory.
static void log_in_memory(u64 size) {
    Draws draws{7};
    vector<string> bodies;
    for (u64 i = 0; i < size; i++) {
        u64 drawn = draws.next();
        bodies.push_back(string(64 + drawn / 256 % 128, (char)(drawn % 251)));
    }
    vector<u64> made, mounted, appended;
    u64 count = 0, bytes = 0, grown = 0;
    for (u64 i = 0; i < rounds_asked; i++) {
        u64 start = now();
        string frame, disk;
        disk.reserve(size * 200 + 64 * 200);
        for (size_t k = 0; k < bodies.size(); k++) {
            if (k)
                frame += '\1';
            big_endian(bodies[k].size(), frame);
            frame += bodies[k];
        }
        frame += '\0';
        disk += '\0';
        disk += frame;
        disk[0] = 1;
        made.push_back(now() - start);
        start = now();
        vector<std::pair<u64, u64>> places;
        vector<unsigned char> piece(std::min<u64>(disk.size(), 65536));
        u64 at = 0, gate = 0;
        memcpy(piece.data(), disk.data(), piece.size());
        while (true) {
            if (gate + 9 > at + piece.size() && at + piece.size() < disk.size()) {
                at = gate;
                piece.resize(std::min<u64>(disk.size() - gate, piece.size()));
                memcpy(piece.data(), disk.data() + at, piece.size());
            }
            const unsigned char *head = piece.data() + (gate - at);
            if (head[0] != 1)
                break;
            u64 length = 0;
            for (int b = 1; b < 9; b++)
                length = length << 8 | head[b];
            must(length < disk.size() - gate - 9);
            places.push_back({gate + 9, length});
            gate += 9 + length;
        }
        mounted.push_back(now() - start);
        count = places.size();
        bytes = disk.size();
        start = now();
        for (int k = 0; k < 64; k++) {
            string record;
            big_endian(bodies[0].size(), record);
            record += bodies[0];
            record += '\0';
            disk += record;
            disk[gate] = 1;
            gate += 9 + bodies[0].size();
            places.push_back({gate, bodies[0].size()});
        }
        appended.push_back(now() - start);
        grown = disk.size() - bytes;
    }
    tell("log_make", count, bytes, count, bytes, middle(made));
    tell("log_mount", count, bytes, count, bytes, middle(mounted));
    tell("log_append", count + 64, bytes + grown, 64, grown, middle(appended));
}

struct BlockPoint {
    u64 at;
    i128 num;
    u64 den;
};

static u64 big_at(const char *at, int bytes) {
    u64 number = 0;
    for (int i = 0; i < bytes; i++)
        number = number << 8 | (unsigned char)at[i];
    return number;
}

static void big_onto(u64 number, int bytes, char *out) {
    for (int i = bytes - 1; i >= 0; i--, number >>= 8)
        out[i] = (char)number;
}

// The points of a block: 1 to 3,600, positions rising, numbers in their ranges.
static bool read_split(const string &block, u64 key, vector<BlockPoint> &points) {
    if (block.size() < 2)
        return false;
    u64 count = big_at(&block[0], 2);
    if (count < 1 || count > 3600 || block.size() != 2 + 26 * count)
        return false;
    i128 most = 1;
    for (int i = 0; i < 38; i++)
        most *= 10;
    points.reserve(count);
    i64 last = -1;
    for (u64 i = 0; i < count; i++) {
        const char *at = &block[2 + 26 * i];
        i64 position = (i64)big_at(at, 2);
        i128 num = (i128)((unsigned __int128)big_at(at + 2, 8) << 64 | big_at(at + 10, 8));
        u64 den = big_at(at + 18, 8);
        u64 time = key + (u64)position * 60000000000u;
        if (position <= last || position >= 3600 || num > most || num < -most || den < 1 ||
            time >= 9000000000000000000u)
            return false;
        points.push_back({time, num, den});
        last = position;
    }
    return true;
}

static void write_split(const vector<BlockPoint> &points, u64 key, string &block) {
    block.resize(2 + 26 * points.size());
    big_onto(points.size(), 2, &block[0]);
    for (size_t i = 0; i < points.size(); i++) {
        char *at = &block[2 + 26 * i];
        big_onto((points[i].at - key) / 60000000000u, 2, at);
        big_onto((u64)(points[i].num >> 64), 8, at + 2);
        big_onto((u64)points[i].num, 8, at + 10);
        big_onto(points[i].den, 8, at + 18);
    }
}

static void codec(u64 size) {
    const u64 stretch = 3600 * 60000000000u;
    Draws draws{6};
    vector<string> blocks;
    for (u64 left = size; left > 0;) {
        u64 count = std::min<u64>(left, 3600);
        vector<BlockPoint> points;
        for (u64 i = 0; i < count; i++) {
            u64 sum = draws.next();
            points.push_back({i * 60000000000u, (i128)sum * 1000, 1 + draws.next() % 12});
        }
        string block;
        write_split(points, 0, block);
        blocks.push_back(block);
        left -= count;
    }
    vector<vector<BlockPoint>> splits;
    u64 read = timed([&] {
        splits.assign(blocks.size(), {});
        for (size_t i = 0; i < blocks.size(); i++)
            if (!read_split(blocks[i], i * stretch, splits[i]))
                exit(1);
    });
    vector<string> written;
    u64 wrote = timed([&] {
        written.assign(splits.size(), {});
        for (size_t i = 0; i < splits.size(); i++)
            write_split(splits[i], i * stretch, written[i]);
    });
    if (written != blocks)
        exit(1);
    u64 count = 0, sum = 0, bytes = 0, told = 0;
    for (const auto &split : splits)
        for (const BlockPoint &point : split)
            count++, sum += point.at + (u64)point.num;
    for (const string &block : written) {
        bytes += block.size();
        for (unsigned char byte : block)
            told += byte;
    }
    tell("read_split", count, sum, size, bytes, read);
    tell("write_split", bytes, told, size, bytes, wrote);
}

int main(int argc, char **argv) {
    if (argc < 4)
        return 2;
    string part = argv[1];
    u64 size = strtoull(argv[2], 0, 10);
    rounds_asked = strtoull(argv[3], 0, 10);
    if (size == 0 || rounds_asked == 0)
        return 2;
    if (part == "values")
        values(size);
    else if (part == "stamps")
        stamps(size);
    else if (part == "print")
        print(size);
    else if (part == "policies")
        policies(size);
    else if (part == "log" && argc == 5)
        log(size, argv[4]);
    else if (part == "log")
        log_in_memory(size);
    else if (part == "aggregate")
        aggregate(size);
    else if (part == "json")
        json(size);
    else if (part == "codec")
        codec(size);
    else
        return 2;
}
