/*
 * Reads a script of commands with every check of its grammar, and the refresh files that it names: most lines in one
 * pass over their bytes, the others field by field. It prints how many commands there are and the checksum
 * that script_bench prints, and on demand the time of the fastest of its rounds.
 *
 * script SCRIPT ROUNDS [--times]
 */
#include <chrono>
#include <cstdint>
#include <cstdio>
#include <cstdlib>
#include <cstring>
#include <fcntl.h>
#include <memory>
#include <optional>
#include <string>
#include <string_view>
#include <sys/stat.h>
#include <unistd.h>
#include <vector>

using std::optional;
using std::string_view;

struct Tuple {
    uint32_t price;
    uint16_t day;
    uint8_t qty, disc, tax, flag, status;
};

struct Key {
    uint32_t order;
    uint8_t line;
};

struct Range {
    uint16_t lo, hi;
};

struct Predicate {
    optional<Range> ship, disc, qty, flag, status;
};

enum class Kind : uint8_t { Insert, Update, Delete, Drop, Lookup, Rows, Count, Sum, Q6, Merge };

struct Command {
    Kind kind;
    Key key;
    union {
        Tuple tuple;
        Predicate predicate;
    };
    Command(Kind kind, Key key) : kind(kind), key(key), predicate() {}
    Command(Kind kind, Key key, const Tuple &tuple) : kind(kind), key(key), tuple(tuple) {}
    Command(Kind kind, const Predicate &predicate) : kind(kind), key(), predicate(predicate) {}
};

struct Bad {
    uint32_t line;
    int fault;
};

/* ---- fields */

static optional<uint64_t> integer_of(string_view field)
{
    if (field.empty() || field.size() > 10)
        return {};
    uint64_t number = 0;
    for (char c : field) {
        if (c < '0' || c > '9')
            return {};
        number = number * 10 + uint64_t(c - '0');
    }
    return number;
}

static bool is_digit(char c) { return c >= '0' && c <= '9'; }

static optional<uint64_t> money_of(string_view field)
{
    size_t point = field.find('.');
    auto whole = integer_of(field.substr(0, point));
    if (!whole)
        return {};
    if (point == string_view::npos)
        return *whole * 100;
    string_view back = field.substr(point + 1);
    if (back.empty() || back.size() > 2 || !is_digit(back[0]) || (back.size() == 2 && !is_digit(back[1])))
        return {};
    return *whole * 100 + uint64_t(back[0] - '0') * 10 + (back.size() == 2 ? uint64_t(back[1] - '0') : 0);
}

static optional<uint64_t> quantity_of(string_view field)
{
    size_t point = field.find('.');
    if (point != string_view::npos && field.substr(point) != ".0" && field.substr(point) != ".00")
        return {};
    return integer_of(field.substr(0, point));
}

static optional<uint64_t> date_of(string_view field)
{
    static const uint16_t before[13] = {0, 0, 31, 59, 90, 120, 151, 181, 212, 243, 273, 304, 334};
    static const uint8_t days[13] = {0, 31, 28, 31, 30, 31, 30, 31, 31, 30, 31, 30, 31};
    if (field.size() != 10 || field[4] != '-' || field[7] != '-')
        return {};
    for (int at : {0, 1, 2, 3, 5, 6, 8, 9})
        if (!is_digit(field[size_t(at)]))
            return {};
    int year = (field[0] - '0') * 1000 + (field[1] - '0') * 100 + (field[2] - '0') * 10 + field[3] - '0';
    int month = (field[5] - '0') * 10 + field[6] - '0', day = (field[8] - '0') * 10 + field[9] - '0';
    if (year < 1992 || year > 1998 || month < 1 || month > 12 || day < 1)
        return {};
    bool leap = year % 4 == 0;
    if (day > days[month] + (leap && month == 2))
        return {};
    return uint64_t((year - 1992) * 365 + (year - 1989) / 4 + before[month] + (leap && month > 2) + day - 1);
}

static optional<uint64_t> letter_of(string_view field, string_view letters)
{
    size_t at = field.size() == 1 ? letters.find(field[0]) : string_view::npos;
    if (at == string_view::npos)
        return {};
    return at;
}

static bool within(optional<uint64_t> number, uint64_t low, uint64_t high)
{
    return number && low <= *number && *number <= high;
}

/* ---- lines */

struct Words {
    string_view words[11];
    size_t count = 0;
    explicit Words(string_view line)
    {
        for (; count < 11; count++) {
            size_t space = line.find(' ');
            words[count] = line.substr(0, space);
            if (space == string_view::npos) {
                count++;
                return;
            }
            line.remove_prefix(space + 1);
        }
        count++; /* too many */
    }
};

static int key_of(const Words &words, Key &key)
{
    auto order = integer_of(words.words[1]), line = integer_of(words.words[2]);
    if (!within(order, 1, 4294967295))
        return 2;
    if (!within(line, 1, 7))
        return 3;
    key = {uint32_t(*order), uint8_t(*line)};
    return 0;
}

static int tuple_of(const string_view *values, Tuple &tuple)
{
    auto qty = quantity_of(values[0]), price = money_of(values[1]), disc = money_of(values[2]),
         tax = money_of(values[3]), flag = letter_of(values[4], "ANR"), status = letter_of(values[5], "FO"),
         day = date_of(values[6]);
    if (!within(qty, 1, 50))
        return 4;
    if (!within(price, 0, 99999999))
        return 5;
    if (!within(disc, 0, 10))
        return 6;
    if (!within(tax, 0, 8))
        return 7;
    if (!flag)
        return 8;
    if (!status)
        return 9;
    if (!day)
        return 10;
    tuple = {uint32_t(*price), uint16_t(*day), uint8_t(*qty), uint8_t(*disc), uint8_t(*tax), uint8_t(*flag),
        uint8_t(*status)};
    return 0;
}

static int range_of(string_view column, string_view text, Predicate &predicate)
{
    bool ranges = column == "ship" || column == "disc" || column == "qty";
    size_t points = ranges ? text.find("..") : string_view::npos;
    string_view ends[2] = {text.substr(0, points), points == string_view::npos ? text : text.substr(points + 2)};
    uint16_t numbers[2];
    optional<Range> *range;
    for (int at = 0; at < 2; at++) {
        optional<uint64_t> number;
        bool good = true;
        if (column == "ship")
            range = &predicate.ship, number = date_of(ends[at]);
        else if (column == "disc")
            range = &predicate.disc, number = money_of(ends[at]), good = within(number, 0, 10);
        else if (column == "qty")
            range = &predicate.qty, number = quantity_of(ends[at]), good = within(number, 1, 50);
        else if (column == "flag")
            range = &predicate.flag, number = letter_of(ends[at], "ANR");
        else if (column == "status")
            range = &predicate.status, number = letter_of(ends[at], "FO");
        else
            return 18;
        if (!number || !good)
            return 18;
        numbers[at] = uint16_t(*number);
    }
    if (*range)
        return 18;
    *range = Range{numbers[0], numbers[1]};
    return 0;
}

static int predicate_of(const Words &words, Predicate &predicate)
{
    if (words.count > 6)
        return 14;
    for (size_t at = 1; at < words.count; at++) {
        size_t equals = words.words[at].find('=');
        if (equals == string_view::npos)
            return 18;
        if (int fault = range_of(words.words[at].substr(0, equals), words.words[at].substr(equals + 1), predicate))
            return fault;
    }
    return 0;
}

static int q6_of(const Words &words, Predicate &predicate)
{
    if (words.count != 4)
        return 14;
    auto year = integer_of(words.words[1]), disc = money_of(words.words[2]), qty = quantity_of(words.words[3]);
    if (!within(year, 1992, 1998) || !within(disc, 0, 10) || !within(qty, 1, 51))
        return 14;
    uint16_t first = uint16_t((*year - 1992) * 365 + (*year - 1989) / 4);
    predicate.ship = Range{first, uint16_t(first + 364 + (*year % 4 == 0))};
    predicate.disc = Range{uint16_t(*disc ? *disc - 1 : 0), uint16_t(*disc < 10 ? *disc + 1 : 10)};
    predicate.qty = Range{1, uint16_t(*qty - 1)};
    return 0;
}

/* The first piece up to the separator, and what follows it. */
static string_view cut(string_view &rest, char separator)
{
    const void *at = memchr(rest.data(), separator, rest.size());
    size_t len = at ? size_t(static_cast<const char *>(at) - rest.data()) : rest.size();
    string_view piece = rest.substr(0, len);
    rest.remove_prefix(at ? len + 1 : len);
    return piece;
}

static string_view line_of(string_view &rest)
{
    string_view line = cut(rest, '\n');
    if (!line.empty() && line.back() == '\r')
        line.remove_suffix(1);
    return line;
}

/* All bytes of a file, with a zero behind them, which ends each loop over them. */
struct Bytes {
    std::unique_ptr<char[]> bytes;
    size_t size = 0;
    explicit Bytes(const std::string &name)
    {
        int file = open(name.c_str(), O_RDONLY);
        struct stat about;
        if (file < 0 || fstat(file, &about) != 0)
            exit(3);
        bytes.reset(new char[size_t(about.st_size) + 1]);
        for (ssize_t count; (count = read(file, bytes.get() + size, size_t(about.st_size) - size)) > 0;)
            size += size_t(count);
        bytes[size] = 0;
        close(file);
    }
};

/* ---- what most lines are, read in one pass; any other line is left to the careful functions */

static inline bool number_at(const char *&at, uint64_t &number)
{
    const char *first = at;
    uint64_t sum = 0;
    for (unsigned digit; (digit = unsigned(*at) - '0') < 10; at++)
        sum = sum * 10 + digit;
    number = sum;
    return at != first && at - first <= 10;
}

static inline bool money_at(const char *&at, uint64_t most, uint64_t &number)
{
    if (!number_at(at, number))
        return false;
    number *= 100;
    if (*at == '.') {
        unsigned tens = unsigned(at[1]) - '0';
        if (tens > 9)
            return false;
        number += tens * 10;
        at += 2;
        if (unsigned ones = unsigned(*at) - '0'; ones < 10)
            number += ones, at++;
    }
    return number <= most;
}

static inline bool date_at(const char *&at, uint64_t &day)
{
    auto date = date_of(string_view(at, 10));
    at += 10;
    day = date.value_or(0);
    return date.has_value();
}

/* The seven values of a tuple between these separators. */
static inline bool values_at(const char *&at, char separator, const char *end, Tuple &tuple)
{
    uint64_t qty, price, disc, tax, day;
    if (!number_at(at, qty) || qty < 1 || qty > 50 || *at++ != separator || !money_at(at, 99999999, price)
        || *at++ != separator || !money_at(at, 10, disc) || *at++ != separator || !money_at(at, 8, tax)
        || *at++ != separator || end - at < 14)
        return false;
    int flag = at[0] == 'A' ? 0 : at[0] == 'N' ? 1 : at[0] == 'R' ? 2 : -1;
    int status = at[2] == 'F' ? 0 : at[2] == 'O' ? 1 : -1;
    if (flag < 0 || status < 0 || at[1] != separator || at[3] != separator)
        return false;
    at += 4;
    if (!date_at(at, day))
        return false;
    tuple = {uint32_t(price), uint16_t(day), uint8_t(qty), uint8_t(disc), uint8_t(tax), uint8_t(flag), uint8_t(status)};
    return true;
}

static inline bool ends_at(const char *at, const char *end)
{
    return at == end || *at == '\n' || (*at == '\r' && (at + 1 == end || at[1] == '\n'));
}

/* An insert or an update, from behind its verb to its line's end. */
static inline bool change_at(const char *at, const char *end, Key &key, Tuple &tuple)
{
    uint64_t order, line;
    if (!number_at(at, order) || order < 1 || order > 4294967295 || *at++ != ' ' || !number_at(at, line) || line < 1
        || line > 7 || *at++ != ' ' || !values_at(at, ' ', end, tuple) || !ends_at(at, end))
        return false;
    key = {uint32_t(order), uint8_t(line)};
    return true;
}

static inline bool text_at(const char *&at)
{
    while (*at != '|') {
        if (*at < 32 || *at > 126)
            return false;
        at++;
    }
    return true;
}

/* A row of a table, up to its line's end. */
static inline bool row_at(const char *at, const char *end, Key &key, Tuple &tuple)
{
    uint64_t order, line;
    if (!number_at(at, order) || order < 1 || order > 4294967295 || *at++ != '|' || !text_at(at) || !text_at(++at)
        || !number_at(++at, line) || line < 1 || line > 7 || *at++ != '|' || !values_at(at, '|', end, tuple)
        || *at++ != '|' || !text_at(at) || !text_at(++at) || !text_at(++at) || !text_at(++at) || !text_at(++at)
        || !ends_at(++at, end))
        return false;
    key = {uint32_t(order), uint8_t(line)};
    return true;
}

static bool is_text(string_view field)
{
    for (char c : field)
        if (c < 32 || c > 126)
            return false;
    return true;
}

static int row_of(string_view line, Key &key, Tuple &tuple)
{
    if (!line.empty() && line.back() == '|')
        line.remove_suffix(1);
    string_view fields[17];
    size_t count = 0;
    for (string_view rest = line; count < 17; count++) {
        size_t bar = rest.find('|');
        fields[count] = rest.substr(0, bar);
        if (bar == string_view::npos) {
            count++;
            break;
        }
        rest.remove_prefix(bar + 1);
    }
    if (count != 16)
        return 1;
    auto order = integer_of(fields[0]), number = integer_of(fields[3]);
    if (!within(order, 1, 4294967295))
        return 2;
    if (!is_text(fields[1]) || !is_text(fields[2]))
        return 11;
    if (!within(number, 1, 7))
        return 3;
    if (int fault = tuple_of(fields + 4, tuple))
        return fault;
    for (size_t at = 11; at < 16; at++)
        if (!is_text(fields[at]))
            return 11;
    key = {uint32_t(*order), uint8_t(*number)};
    return 0;
}

static int refresh(const std::string &name, bool inserts, std::vector<Command> &commands)
{
    Bytes file(name);
    const char *end = file.bytes.get() + file.size;
    commands.reserve(commands.size() + file.size / (inserts ? 110 : 5));
    for (string_view rest(file.bytes.get(), file.size); !rest.empty();) {
        const char *at = rest.data();
        string_view line = line_of(rest);
        if (inserts) {
            Key key;
            Tuple tuple;
            if (!row_at(at, end, key, tuple))
                if (int fault = row_of(line, key, tuple))
                    return fault;
            commands.emplace_back(Kind::Insert, key, tuple);
        } else {
            if (!line.empty() && line.back() == '|')
                line.remove_suffix(1);
            auto order = integer_of(line);
            if (!within(order, 1, 4294967295))
                return 15;
            commands.emplace_back(Kind::Drop, Key{uint32_t(*order), 0});
        }
    }
    return 0;
}

static int command_of(string_view line, std::vector<Command> &commands)
{
    if (line.rfind("insert-file ", 0) == 0 || line.rfind("delete-file ", 0) == 0)
        return line.size() > 12 ? refresh(std::string(line.substr(12)), line[0] == 'i', commands) : 14;
    Words words(line);
    string_view verb = words.words[0];
    Key key{};
    if (verb == "insert" || verb == "update") {
        Tuple tuple;
        if (words.count != 10)
            return 14;
        if (int fault = key_of(words, key))
            return fault;
        if (int fault = tuple_of(words.words + 3, tuple))
            return fault;
        commands.emplace_back(verb == "insert" ? Kind::Insert : Kind::Update, key, tuple);
        return 0;
    }
    if (verb == "delete" || verb == "lookup") {
        if (words.count != 3)
            return 14;
        if (int fault = key_of(words, key))
            return fault;
        commands.emplace_back(verb == "delete" ? Kind::Delete : Kind::Lookup, key);
        return 0;
    }
    if (verb == "drop") {
        auto order = words.count == 2 ? integer_of(words.words[1]) : optional<uint64_t>();
        if (!within(order, 1, 4294967295))
            return words.count == 2 ? 2 : 14;
        commands.emplace_back(Kind::Drop, Key{uint32_t(*order), 0});
        return 0;
    }
    if (verb == "merge" && words.count == 1) {
        commands.emplace_back(Kind::Merge, key);
        return 0;
    }
    Predicate predicate;
    int fault = verb == "q6" ? q6_of(words, predicate)
        : verb == "rows" || verb == "count" || verb == "sum" ? predicate_of(words, predicate) : 14;
    if (!fault)
        commands.emplace_back(verb == "q6" ? Kind::Q6 : verb == "rows" ? Kind::Rows
            : verb == "count" ? Kind::Count : Kind::Sum, predicate);
    return fault;
}

static uint32_t weight_of(Kind kind)
{
    return kind == Kind::Drop ? 7 : kind <= Kind::Delete ? 1 : 0;
}

static std::vector<Command> script_of(const std::string &name)
{
    Bytes file(name);
    const char *end = file.bytes.get() + file.size;
    std::vector<Command> commands;
    commands.reserve(file.size / 40);
    uint64_t weight = 0;
    size_t weighed = 0;
    uint32_t number = 0;
    for (string_view rest(file.bytes.get(), file.size); !rest.empty();) {
        const char *at = rest.data();
        string_view line = line_of(rest);
        number++;
        if (line.empty() || line[0] == '#')
            continue;
        int fault = 0;
        bool update = line.size() > 7 && memcmp(at, "update ", 7) == 0;
        Key key;
        Tuple tuple;
        if ((update || (line.size() > 7 && memcmp(at, "insert ", 7) == 0)) && change_at(at + 7, end, key, tuple))
            commands.emplace_back(update ? Kind::Update : Kind::Insert, key, tuple);
        else
            fault = command_of(line, commands);
        for (; weighed < commands.size(); weighed++)
            weight += weight_of(commands[weighed].kind);
        if (fault || weight > 4194304) {
            fprintf(stderr, "line %u: fault %d\n", number, fault ? fault : 17);
            exit(5);
        }
    }
    return commands;
}

/* ---- the checksum */

static uint64_t word_of(const Tuple &t)
{
    return 1 | uint64_t(t.price) << 1 | uint64_t(t.day) << 28 | uint64_t(t.qty) << 40 | uint64_t(t.disc) << 46
        | uint64_t(t.tax) << 50 | uint64_t(t.flag) << 54 | uint64_t(t.status) << 56;
}

static uint64_t number_of(const Command &command)
{
    uint64_t key = uint64_t(command.key.order) * 8 + command.key.line;
    switch (command.kind) {
    case Kind::Insert: return key + word_of(command.tuple);
    case Kind::Update: return key + word_of(command.tuple) + 1;
    case Kind::Delete: return key + 2;
    case Kind::Drop: return command.key.order;
    case Kind::Lookup: return key + 3;
    default: return 4;
    }
}

int main(int argc, char **argv)
{
    if (argc < 3)
        return 2;
    double least = 1e9;
    uint64_t sum = 0;
    size_t count = 0;
    for (int round = 0; round < atoi(argv[2]); round++) {
        auto began = std::chrono::steady_clock::now();
        std::vector<Command> commands = script_of(argv[1]);
        std::chrono::duration<double> time = std::chrono::steady_clock::now() - began;
        least = time.count() < least ? time.count() : least;
        sum = 0;
        for (const Command &command : commands)
            sum = sum * 31 + number_of(command);
        count = commands.size();
    }
    printf("commands=%zu sum=%llu\n", count, static_cast<unsigned long long>(sum));
    if (argc > 3)
        fprintf(stderr, "read=%.9f\n", least);
}
