/*
 * Reports of replies and a journal, written and read as C++ that is written with care but without instructions written
 * by hand: what the program beside it measures. The reader takes exactly the texts that the writer writes.
 */
#pragma once
#include <algorithm>
#include <array>
#include <charconv>
#include <cstdint>
#include <cstring>
#include <memory>
#include <optional>
#include <string>
#include <string_view>
#include <variant>
#include <vector>

struct Tuple {
    uint32_t price;
    uint16_t day;
    uint8_t qty, disc, tax;
    char flag, status;
};

struct DropLine {
    char letter;
    uint32_t number;
};

struct Placed { uint32_t place, row; };
struct Duplicate { uint32_t front, row; };
struct Missing { uint32_t front; };
struct TableFull { uint32_t front; };
struct LogFull { uint32_t front; };
struct DropLines { DropLine lines[7]; };
struct Found { uint32_t front, row; Tuple tuple; };
struct Absent { uint32_t front; };
struct Rows { uint32_t front; std::vector<uint32_t> list; uint32_t patched; };
struct Count { uint32_t front, count, patched; };
struct Sum { uint32_t front, count; uint64_t sum; uint32_t patched; };
struct Q6 { uint32_t front, count; uint64_t sum; uint32_t patched; };
struct Merge { uint32_t merged, fresh, busy; };

using Reply = std::variant<Placed, Duplicate, Missing, TableFull, LogFull, DropLines, Found, Absent, Rows, Count, Sum, Q6, Merge>;

struct Delta {
    uint8_t author;
    uint32_t row, order;
    uint8_t line;
    std::optional<Tuple> before, after;
};

struct Report {
    std::vector<std::vector<Reply>> replies;
    std::vector<Delta> journal;
};

/* ---- days */

static const uint8_t DAYS[12] = { 31, 28, 31, 30, 31, 30, 31, 31, 30, 31, 30, 31 };

static inline unsigned days_in(unsigned year, unsigned month)
{
    return DAYS[month - 1] + (month == 2 && year % 4 == 0);
}

/* YYYY-MM-DD of each day from 1992-01-01 on */
static const std::vector<std::array<char, 10>> DATES = [] {
    std::vector<std::array<char, 10>> dates;
    for (unsigned year = 1992; year <= 1998; year++)
        for (unsigned month = 1; month <= 12; month++)
            for (unsigned day = 1; day <= days_in(year, month); day++) {
                unsigned n = (year * 100 + month) * 100 + day;
                std::array<char, 10> text;
                for (int at = 9; at >= 0; at--)
                    if (at == 4 || at == 7)
                        text[at] = '-';
                    else
                        text[at] = '0' + n % 10, n /= 10;
                dates.push_back(text);
            }
    return dates;
}();

/* ---- the writer */

class Writer {
    // A line without a list takes less than this, and a number of a list less than that.
    static constexpr size_t LINE = 512, NUMBER = 16;

    std::unique_ptr<char[]> text;
    char *at = nullptr, *end = nullptr;

    // Room for so many bytes more.
    void reserve(size_t more)
    {
        if (size_t(end - at) >= more)
            return;
        size_t size = size_t(at - text.get()), room = std::max(2 * size, size + more);
        std::unique_ptr<char[]> larger(new char[room]);
        if (size > 0)
            memcpy(larger.get(), text.get(), size);
        text = std::move(larger);
        at = text.get() + size;
        end = text.get() + room;
    }

    void byte(char c) { *at++ = c; }

    template <size_t N> void label(const char (&label)[N])
    {
        memcpy(at, label, N - 1);
        at += N - 1;
    }

    template <typename Number> void number(Number n) { at = std::to_chars(at, at + 20, n).ptr; }

    template <size_t N> void field(const char (&name)[N], uint32_t n)
    {
        label(name);
        number(n);
    }

    void pair(unsigned n)
    {
        byte(char('0' + n / 10));
        byte(char('0' + n % 10));
    }

    void hundredths(uint32_t n)
    {
        byte('|');
        number(n / 100);
        byte('.');
        pair(n % 100);
    }

    void tuple(const Tuple &t)
    {
        number(t.qty);
        hundredths(t.price);
        hundredths(t.disc);
        hundredths(t.tax);
        char letters[5] = { '|', t.flag, '|', t.status, '|' };
        memcpy(at, letters, 5);
        memcpy(at + 5, DATES[t.day].data(), 10);
        at += 15;
    }

    void held(const std::optional<Tuple> &t)
    {
        if (t)
            tuple(*t);
        else
            byte('-');
    }

    void sum(uint64_t units)
    {
        number(units / 10000);
        byte('.');
        pair(units % 10000 / 100);
        pair(units % 100);
    }

    void put(const Placed &r) { field("placed at=", r.place), field(" row=", r.row); }
    void put(const Duplicate &r) { field("duplicate front=", r.front), field(" row=", r.row); }
    void put(const Missing &r) { field("missing front=", r.front); }
    void put(const TableFull &r) { field("table-full front=", r.front); }
    void put(const LogFull &r) { field("log-full front=", r.front); }
    void put(const Absent &r) { field("absent front=", r.front); }

    void put(const DropLines &r)
    {
        uint32_t deleted = 0;
        for (const DropLine &line : r.lines)
            deleted += line.letter == 'p';
        field("drop deleted=", deleted);
        for (int i = 0; i < 7; i++) {
            char label[4] = { ' ', char('1' + i), '=', r.lines[i].letter };
            memcpy(at, label, 4);
            at += 4;
            number(r.lines[i].number);
        }
    }

    void put(const Found &r)
    {
        field("found front=", r.front), field(" row=", r.row);
        label(" tuple=");
        tuple(r.tuple);
    }

    void put(const Rows &r)
    {
        reserve(LINE + NUMBER * r.list.size());
        field("rows front=", r.front), field(" count=", r.list.size());
        label(" list=");
        if (r.list.empty())
            byte('-');
        for (size_t i = 0; i < r.list.size(); i++) {
            if (i > 0)
                byte(',');
            number(r.list[i]);
        }
        field(" patched=", r.patched);
    }

    void put(const Count &r)
    {
        field("count front=", r.front), field(" count=", r.count), field(" patched=", r.patched);
    }

    void put(const Sum &r)
    {
        field("sum front=", r.front), field(" count=", r.count);
        label(" sum=");
        sum(r.sum);
        field(" patched=", r.patched);
    }

    void put(const Q6 &r)
    {
        field("q6 front=", r.front), field(" count=", r.count);
        label(" sum=");
        sum(r.sum);
        field(" patched=", r.patched);
    }

    void put(const Merge &r)
    {
        field("merge merged=", r.merged), field(" fresh=", r.fresh), field(" busy=", r.busy);
    }

    void delta(uint32_t place, const Delta &d)
    {
        reserve(LINE);
        number(place);
        field(" w", d.author), field(" ", d.order), field(".", d.line), field(" row=", d.row);
        label(" old=");
        held(d.before);
        label(" new=");
        held(d.after);
        byte('\n');
    }

public:
    // The text, which stands as long as its writer.
    std::string_view written(const Report &report)
    {
        size_t replies = 0;
        for (const auto &list : report.replies)
            replies += list.size();
        reserve(64 * replies + 128 * report.journal.size());
        for (size_t worker = 0; worker < report.replies.size(); worker++) {
            uint32_t number = 0;
            for (const Reply &reply : report.replies[worker]) {
                reserve(LINE);
                field("w", worker), field(" ", ++number);
                byte(' ');
                std::visit([this](const auto &r) { put(r); }, reply);
                byte('\n');
            }
        }
        reserve(LINE);
        field("journal ", report.journal.size());
        byte('\n');
        for (size_t place = 0; place < report.journal.size(); place++)
            delta(place, report.journal[place]);
        return { text.get(), size_t(at - text.get()) };
    }
};

/* ---- the reader */

class Reader {
    const char *at, *end;
    bool fine = true;

    template <size_t N> void label(const char (&label)[N])
    {
        if (size_t(end - at) < N - 1 || memcmp(at, label, N - 1) != 0) {
            fine = false;
            return;
        }
        at += N - 1;
    }

    bool is_at(char c) const { return at < end && *at == c; }

    uint64_t number()
    {
        const char *begin = at;
        uint64_t n = 0;
        while (at < end && unsigned(*at - '0') < 10 && at - begin < 17)
            n = n * 10 + unsigned(*at++ - '0');
        if (at == begin || at - begin > 16 || (at - begin > 1 && *begin == '0'))
            fine = false;
        return n;
    }

    template <size_t N> uint32_t field(const char (&name)[N], uint32_t least = 0, uint32_t most = UINT32_MAX)
    {
        label(name);
        uint64_t n = number();
        if (n < least || n > most)
            fine = false;
        return n;
    }

    unsigned pair()
    {
        if (end - at < 2 || unsigned(at[0] - '0') > 9 || unsigned(at[1] - '0') > 9) {
            fine = false;
            return 0;
        }
        at += 2;
        return (at[-2] - '0') * 10 + (at[-1] - '0');
    }

    char letter()
    {
        if (at == end) {
            fine = false;
            return 0;
        }
        return *at++;
    }

    char letter_of(std::string_view letters)
    {
        char c = letter();
        if (letters.find(c) == letters.npos)
            fine = false;
        return c;
    }

    uint32_t hundredths(uint32_t most)
    {
        uint64_t whole = field("|");
        label(".");
        uint64_t n = whole * 100 + pair();
        if (n > most)
            fine = false;
        return n;
    }

    uint16_t day()
    {
        unsigned year = pair() * 100;
        year += pair();
        label("-");
        unsigned month = pair();
        label("-");
        unsigned day = pair();
        if (year < 1992 || year > 1998 || month < 1 || month > 12 || day < 1 || day > days_in(year, month)) {
            fine = false;
            return 0;
        }
        static const uint16_t BEFORE[13] = { 0, 0, 31, 59, 90, 120, 151, 181, 212, 243, 273, 304, 334 };
        unsigned years = year - 1992;
        return years * 365 + (years + 3) / 4 + BEFORE[month] + (month > 2 && year % 4 == 0) + day - 1;
    }

    Tuple tuple()
    {
        Tuple t;
        t.qty = field("", 1, 50);
        t.price = hundredths(99999999);
        t.disc = hundredths(10);
        t.tax = hundredths(8);
        label("|");
        t.flag = letter_of("ANR");
        label("|");
        t.status = letter_of("FO");
        label("|");
        t.day = day();
        return t;
    }

    std::optional<Tuple> held()
    {
        if (is_at('-')) {
            at++;
            return std::nullopt;
        }
        return tuple();
    }

    uint64_t sum()
    {
        unsigned __int128 n = (unsigned __int128)number() * 10000;
        label(".");
        n += pair() * 100;
        n += pair();
        if (n > UINT64_MAX)
            fine = false;
        return n;
    }

    DropLines drop()
    {
        DropLines r;
        uint32_t deleted = field("drop deleted=");
        for (int i = 0; i < 7; i++) {
            if (letter() != ' ' || letter() != '1' + i || letter() != '=')
                fine = false;
            r.lines[i].letter = letter_of("pmf");
            r.lines[i].number = field("");
            deleted -= r.lines[i].letter == 'p';
        }
        if (deleted != 0)
            fine = false;
        return r;
    }

    Rows rows()
    {
        Rows r;
        r.front = field("rows front=");
        uint32_t count = field(" count=");
        label(" list=");
        if (count == 0)
            label("-");
        else
            r.list.push_back(field(""));
        for (uint32_t i = 1; i < count && fine; i++)
            r.list.push_back(field(","));
        r.patched = field(" patched=");
        return r;
    }

    Reply reply()
    {
        char first = at < end ? *at : 0, second = end - at > 1 ? at[1] : 0;
        switch (first) {
        case 'p': { uint32_t place = field("placed at="); return Placed { place, field(" row=") }; }
        case 't': return TableFull { field("table-full front=") };
        case 'l': return LogFull { field("log-full front=") };
        case 'a': return Absent { field("absent front=") };
        case 'r': return rows();
        case 'f': {
            uint32_t front = field("found front="), row = field(" row=");
            label(" tuple=");
            return Found { front, row, tuple() };
        }
        case 'c': {
            uint32_t front = field("count front="), count = field(" count=");
            return Count { front, count, field(" patched=") };
        }
        case 's': {
            uint32_t front = field("sum front="), count = field(" count=");
            label(" sum=");
            uint64_t units = sum();
            return Sum { front, count, units, field(" patched=") };
        }
        case 'q': {
            uint32_t front = field("q6 front="), count = field(" count=");
            label(" sum=");
            uint64_t units = sum();
            return Q6 { front, count, units, field(" patched=") };
        }
        case 'd':
            if (second != 'u')
                return drop();
            { uint32_t front = field("duplicate front="); return Duplicate { front, field(" row=") }; }
        default:
            if (second == 'i')
                return Missing { field("missing front=") };
            uint32_t merged = field("merge merged="), fresh = field(" fresh=");
            return Merge { merged, fresh, field(" busy=") };
        }
    }

    Delta delta(uint32_t place)
    {
        Delta d;
        if (field("") != place)
            fine = false;
        d.author = field(" w", 0, 255);
        d.order = field(" ", 1);
        d.line = field(".", 1, 7);
        d.row = field(" row=");
        label(" old=");
        d.before = held();
        label(" new=");
        d.after = held();
        label("\n");
        return d;
    }

public:
    Reader(std::string_view text) : at(text.data()), end(text.data() + text.size()) { }

    std::optional<Report> report()
    {
        Report report;
        while (fine && is_at('w')) {
            uint32_t worker = field("w", 0, 255);
            if (worker + 1 < report.replies.size())
                return std::nullopt;
            if (worker >= report.replies.size())
                report.replies.resize(worker + 1);
            if (field(" ") != report.replies[worker].size() + 1)
                return std::nullopt;
            label(" ");
            report.replies[worker].push_back(reply());
            label("\n");
        }
        uint32_t count = field("journal ");
        label("\n");
        for (uint32_t place = 0; place < count && fine; place++)
            report.journal.push_back(delta(place));
        if (!fine || at != end)
            return std::nullopt;
        return report;
    }
};
