/*
 * What the program does with one script of changes, look-ups and queries, done in three other ways, each with the whole
 * report:
 *
 * index    the same index, merges of all units, and since the last merge a hash table of changed keys and one of changed
 *          rows, by which each query's answer over the merged versions is put right
 * columns  no index: columns, a hash table of all keys, and a scan for each query
 * sqlite   a table in memory by key, where it is built with SQLITE
 *
 * The last two know nothing of merges: their reports say 0 for what the program tells of them, and for `patched`. A
 * script's lines are taken as right, and are inserts, updates, deletes, look-ups, `q6` and `merge` alone.
 *
 * session index|columns|sqlite FILE SCRIPT [--times]
 */
#include "changing.hpp"
#include "columns.hpp"
#include <array>
#include <charconv>
#include <cmath>
#include <fstream>
#include <memory>
#include <optional>
#include <string>
#include <string_view>
#include <unordered_map>
#include <variant>
#ifdef SQLITE
#include <sqlite3.h>
#endif
namespace text {
#include "report.hpp"
}

static_assert(sizeof(Row) == 16, "as a row of the yardstick");
extern "C" Row *rows_of_file(const char *name, size_t *count);

/* ---- words of tuples */

/* From here a tuple is its word; 0 is none. */
static uint32_t price_in(uint64_t word) { return uint32_t(word >> 1 & 0x7ffffff); }
static uint16_t day_in(uint64_t word) { return uint16_t(word >> 28 & 0xfff); }
static uint8_t qty_in(uint64_t word) { return uint8_t(word >> 40 & 0x3f); }
static uint8_t disc_in(uint64_t word) { return uint8_t(word >> 46 & 0xf); }

static bool matches(uint64_t word, const Case &asked)
{
    auto within = [](uint16_t value, const Range &range) { return range.low <= value && value <= range.high; };
    return word != 0 && within(day_in(word), asked.ship) && within(disc_in(word), asked.disc)
        && within(qty_in(word), asked.qty);
}

static uint64_t amount_in(uint64_t word) { return uint64_t(price_in(word)) * disc_in(word); }

static text::Tuple told(uint64_t word)
{
    return { price_in(word), day_in(word), qty_in(word), disc_in(word), uint8_t(word >> 50 & 0xf),
        "ANR"[word >> 54 & 3], "FO"[word >> 56 & 1] };
}

static std::optional<text::Tuple> told_or_none(uint64_t word)
{
    return word == 0 ? std::nullopt : std::optional(told(word));
}

/* ---- scripts */

enum class Kind { Insert, Update, Delete, Lookup, Query, Merge };

struct Command {
    Kind kind;
    uint32_t order;
    uint8_t line;
    uint64_t word;
    Case asked;

    uint64_t key() const { return uint64_t(order) << 3 | line; }
};

/* The words of a line, cut at blanks. */
class Words {
public:
    explicit Words(std::string_view line) : rest(line) {}

    std::string_view next()
    {
        size_t end = std::min(rest.find(' '), rest.size());
        std::string_view word = rest.substr(0, end);
        rest.remove_prefix(std::min(end + 1, rest.size()));
        return word;
    }

    /* A number without its points and hyphens. */
    uint32_t number()
    {
        uint32_t number = 0;
        for (char c : next())
            if (c >= '0' && c <= '9')
                number = number * 10 + uint32_t(c - '0');
        return number;
    }

private:
    std::string_view rest;
};

static uint64_t word_in(Words &words)
{
    Row row = {};
    row.qty = uint8_t(words.number());
    row.price = words.number();
    row.disc = uint8_t(words.number());
    row.tax = uint8_t(words.number());
    char flag = words.next()[0];
    row.flag = flag == 'A' ? 0 : flag == 'N' ? 1 : 2;
    row.status = words.next()[0] == 'F' ? 0 : 1;
    uint32_t day = words.number();
    row.day = day_of(day / 10000, day / 100 % 100, day % 100);
    return word_of(row);
}

static Command command_of(std::string_view line)
{
    Words words(line);
    std::string_view name = words.next();
    Command command = {};
    if (name == "merge") {
        command.kind = Kind::Merge;
    } else if (name == "q6") {
        command.kind = Kind::Query;
        uint32_t year = words.number(), disc = words.number(), qty = words.number();
        command.asked = q6("q6", year, disc, qty);
    } else {
        command.kind = name == "insert" ? Kind::Insert : name == "update" ? Kind::Update
            : name == "delete" ? Kind::Delete : Kind::Lookup;
        command.order = words.number();
        command.line = uint8_t(words.number());
        if (command.kind == Kind::Insert || command.kind == Kind::Update)
            command.word = word_in(words);
    }
    return command;
}

static std::vector<Command> script_of(const char *name)
{
    std::ifstream file(name);
    std::vector<Command> script;
    for (std::string line; std::getline(file, line);)
        script.push_back(command_of(line));
    return script;
}

/* ---- the index */

struct Live {
    uint32_t row;
    uint64_t word;
};

class Indexed {
public:
    Indexed(Rows rows, uint32_t row_room) : rows(uint32_t(rows.size())), units(BINS + 1 + KEY_PAGES + pages_for(row_room))
    {
        build_lists(rows, base);
        build_pages(rows, base);
        build_keys(rows, base);
    }

    std::optional<Live> find(uint32_t order, uint8_t line) const
    {
        auto changed = keys.find(uint64_t(order) << 3 | line);
        if (changed != keys.end())
            return changed->second.word == 0 ? std::nullopt : std::optional(changed->second);
        const Entry *entry = base.keys[order % KEY_PAGES].find(order / KEY_PAGES * 8 + line);
        return entry ? std::optional(Live { entry->row, entry->word }) : std::nullopt;
    }

    void change(uint32_t order, uint8_t line, uint32_t row, uint64_t before, uint64_t after)
    {
        rows += row == rows;
        len++;
        keys[uint64_t(order) << 3 | line] = { row, after };
        auto [at, is_new] = places.try_emplace(row, changed.size());
        if (is_new)
            changed.push_back({ row, before, after });
        else
            changed[at->second].after = after;
    }

    Answer sum(const Case &asked) const
    {
        Answer answer = index_sum(base, asked);
        for (const RowChange &change : changed) {
            if (matches(change.before, asked))
                answer.count--, answer.sum -= amount_in(change.before);
            if (matches(change.after, asked))
                answer.count++, answer.sum += amount_in(change.after);
        }
        return answer;
    }

    uint32_t patched() const { return len - merged; }

    /* Units that no change touches stay as they are. */
    text::Merge merge()
    {
        if (len == merged)
            return { 0, units, 0 };
        Changes changes = taken_changes();
        base.plain.clear();
        for (size_t bin = 0; bin <= BINS; bin++)
            base.bins[bin] = grown(base.bins[bin], changes.turned[bin]);
        merge_pages(changes.rows);
        for (size_t rest = 0; rest < KEY_PAGES; rest++)
            if (!changes.keys[rest].empty())
                base.keys[rest] = ::patched(base.keys[rest], changes.keys[rest]);
        merged = len;
        return { units, 0, 0 };
    }

private:
    Base base;
    uint32_t rows, units, len = 0, merged = 0;
    /* since the last merge */
    std::unordered_map<uint64_t, Live> keys;
    std::unordered_map<uint32_t, size_t> places;
    std::vector<RowChange> changed;
    const std::vector<uint8_t> month = months();

    Changes taken_changes()
    {
        Changes changes;
        changes.rows = std::move(changed);
        changed.clear();
        places.clear();
        std::sort(changes.rows.begin(), changes.rows.end(),
            [](const RowChange &a, const RowChange &b) { return a.row < b.row; });
        for (const RowChange &change : changes.rows)
            turn_bins(changes, month, change);
        for (const auto &[key, live] : keys) {
            uint32_t order = uint32_t(key >> 3), code = order / KEY_PAGES * 8 + uint32_t(key & 7);
            changes.keys[order % KEY_PAGES].push_back({ code, live.row, live.word });
        }
        keys.clear();
        for (std::vector<KeyChange> &page : changes.keys)
            std::sort(page.begin(), page.end(), [](const KeyChange &a, const KeyChange &b) { return a.key < b.key; });
        return changes;
    }

    Fenced grown(Fenced &list, const std::vector<uint32_t> &turned) const
    {
        if (list.bitvector.rows != rows)
            return Fenced(toggled(extended(list.bitvector, rows), turned));
        return turned.empty() ? std::move(list) : toggled(list, turned);
    }

    void merge_pages(const std::vector<RowChange> &rows_changed)
    {
        base.pages.resize(pages_for(rows), std::vector<uint64_t>(PAGE_ROWS));
        for (const RowChange &change : rows_changed)
            base.pages[change.row / PAGE_ROWS][change.row % PAGE_ROWS] = change.after;
    }
};

/* ---- columns */

/* Keys by linear probing; no key is taken out. */
class KeyTable {
public:
    explicit KeyTable(size_t most)
    {
        size_t room = 64;
        while (room < 2 * most)
            room *= 2;
        slots.resize(room);
    }

    /* The row of the key, to be read and written; 0 where it is new, else the row plus 1. */
    uint32_t &row(uint64_t key)
    {
        size_t at = size_t(key * 0x9e3779b97f4a7c15 >> 20) & (slots.size() - 1);
        while (slots[at].key != 0 && slots[at].key != key)
            at = (at + 1) & (slots.size() - 1);
        slots[at].key = key;
        return slots[at].row;
    }

private:
    struct Slot {
        uint64_t key = 0;
        uint32_t row = 0;
    };
    std::vector<Slot> slots;
};

class Scanned {
public:
    Scanned(Rows rows, uint32_t row_room) : columns(columns_of(rows)), keys(row_room)
    {
        others.reserve(row_room);
        for (uint32_t row = 0; row < rows.size(); row++) {
            keys.row(uint64_t(rows[row].order) << 3 | rows[row].line) = row + 1;
            others.push_back(word_of(rows[row]) >> 50);
        }
    }

    /* A row without a tuple has no quantity. */
    std::optional<Live> find(uint32_t order, uint8_t line)
    {
        uint32_t row = keys.row(uint64_t(order) << 3 | line);
        return row == 0 || columns.qty[row - 1] == 0 ? std::nullopt : std::optional(Live { row - 1, word(row - 1) });
    }

    void change(uint32_t order, uint8_t line, uint32_t row, uint64_t, uint64_t after)
    {
        if (row == others.size()) {
            columns.price.push_back(0), columns.day.push_back(0), columns.disc.push_back(0), columns.qty.push_back(0);
            others.push_back(0);
            keys.row(uint64_t(order) << 3 | line) = row + 1;
        }
        columns.price[row] = price_in(after);
        columns.day[row] = day_in(after);
        columns.disc[row] = disc_in(after);
        columns.qty[row] = qty_in(after);
        others[row] = uint16_t(after >> 50);
    }

    Answer sum(const Case &asked) const { return scan(columns, asked); }
    uint32_t patched() const { return 0; }
    text::Merge merge() { return { 0, 0, 0 }; }

private:
    Columns columns;
    /* the tax, the flag and the status, as in a tuple's word */
    std::vector<uint16_t> others;
    KeyTable keys;

    uint64_t word(uint32_t row) const
    {
        return 1 | uint64_t(columns.price[row]) << 1 | uint64_t(columns.day[row]) << 28 | uint64_t(columns.qty[row]) << 40
            | uint64_t(columns.disc[row]) << 46 | uint64_t(others[row]) << 50;
    }
};

/* ---- SQLite */

#ifdef SQLITE
class Stored {
public:
    Stored(Rows rows, uint32_t)
    {
        sqlite3_open(":memory:", &data);
        run("create table lines (key integer primary key, row integer, qty integer, price integer, disc integer, "
            "day integer, others integer)");
        run("begin");
        put = prepared("insert into lines values (?, ?, ?, ?, ?, ?, ?)");
        get = prepared("select row, qty, price, disc, day, others from lines where key = ?");
        set = prepared("update lines set qty = ?3, price = ?4, disc = ?5, day = ?6, others = ?7 where key = ?1 and row = ?2");
        drop = prepared("delete from lines where key = ?");
        add = prepared("select count(*), sum(price * disc) from lines "
                       "where day between ? and ? and disc between ? and ? and qty between ? and ?");
        for (uint32_t row = 0; row < rows.size(); row++)
            write(put, uint64_t(rows[row].order) << 3 | rows[row].line, row, word_of(rows[row]));
    }

    std::optional<Live> find(uint32_t order, uint8_t line)
    {
        bind(get, { int64_t(uint64_t(order) << 3 | line) });
        if (sqlite3_step(get) != SQLITE_ROW)
            return std::nullopt;
        auto column = [&](int n) { return uint64_t(sqlite3_column_int64(get, n)); };
        return Live { uint32_t(column(0)),
            1 | column(2) << 1 | column(4) << 28 | column(1) << 40 | column(3) << 46 | column(5) << 50 };
    }

    void change(uint32_t order, uint8_t line, uint32_t row, uint64_t before, uint64_t after)
    {
        uint64_t key = uint64_t(order) << 3 | line;
        if (after == 0) {
            bind(drop, { int64_t(key) });
            sqlite3_step(drop);
        } else {
            write(before == 0 ? put : set, key, row, after);
        }
    }

    Answer sum(const Case &asked)
    {
        bind(add, { asked.ship.low, asked.ship.high, asked.disc.low, asked.disc.high, asked.qty.low, asked.qty.high });
        sqlite3_step(add);
        return { uint32_t(sqlite3_column_int64(add, 0)), uint64_t(sqlite3_column_int64(add, 1)) };
    }

    uint32_t patched() const { return 0; }
    text::Merge merge() { return { 0, 0, 0 }; }

private:
    sqlite3 *data = nullptr;
    sqlite3_stmt *put, *get, *set, *drop, *add;

    void run(const char *text)
    {
        if (sqlite3_exec(data, text, nullptr, nullptr, nullptr) != SQLITE_OK)
            fail();
    }

    sqlite3_stmt *prepared(const char *text)
    {
        sqlite3_stmt *statement = nullptr;
        if (sqlite3_prepare_v2(data, text, -1, &statement, nullptr) != SQLITE_OK)
            fail();
        return statement;
    }

    [[noreturn]] void fail()
    {
        fprintf(stderr, "sqlite: %s\n", sqlite3_errmsg(data));
        exit(4);
    }

    void bind(sqlite3_stmt *statement, std::initializer_list<int64_t> values)
    {
        sqlite3_reset(statement);
        int at = 0;
        for (int64_t value : values)
            sqlite3_bind_int64(statement, ++at, value);
    }

    void write(sqlite3_stmt *statement, uint64_t key, uint32_t row, uint64_t word)
    {
        bind(statement, { int64_t(key), row, qty_in(word), price_in(word), disc_in(word), day_in(word),
                            int64_t(word >> 50) });
        if (sqlite3_step(statement) != SQLITE_DONE)
            fail();
    }
};
#endif

/* ---- the session */

template <class Table>
class Session {
public:
    text::Report report;

    Session(Table &table, uint32_t rows) : table(table), rows(rows) { report.replies.emplace_back(); }

    void run(const std::vector<Command> &script)
    {
        for (const Command &command : script)
            report.replies[0].push_back(reply(command));
    }

private:
    Table &table;
    uint32_t rows;

    uint32_t front() const { return uint32_t(report.journal.size()); }

    text::Reply reply(const Command &command)
    {
        if (command.kind == Kind::Merge)
            return table.merge();
        if (command.kind == Kind::Query) {
            Answer found = table.sum(command.asked);
            return text::Q6 { front(), found.count, found.sum, table.patched() };
        }
        std::optional<Live> live = table.find(command.order, command.line);
        switch (command.kind) {
        case Kind::Lookup:
            if (live)
                return text::Found { front(), live->row, told(live->word) };
            return text::Absent { front() };
        case Kind::Insert:
            if (live)
                return text::Duplicate { front(), live->row };
            return placed(command, { rows++, 0 });
        default:
            if (!live)
                return text::Missing { front() };
            return placed(command, *live);
        }
    }

    text::Reply placed(const Command &command, const Live &live)
    {
        uint32_t place = front();
        table.change(command.order, command.line, live.row, live.word, command.word);
        report.journal.push_back({ 0, live.row, command.order, command.line, told_or_none(live.word),
            told_or_none(command.word) });
        return text::Placed { place, live.row };
    }
};

template <class Table>
static int ran(const char *file, const char *name, bool tells_times)
{
    Clock::time_point began = Clock::now();
    std::vector<Command> script = script_of(name);
    double scripted = seconds_since(began);
    began = Clock::now();
    size_t count;
    const Row *rows = rows_of_file(file, &count);
    double read = seconds_since(began);
    began = Clock::now();
    uint32_t inserts = 0;
    for (const Command &command : script)
        inserts += command.kind == Kind::Insert;
    Table table(Rows(rows, count), uint32_t(count) + inserts);
    double made = seconds_since(began);
    began = Clock::now();
    Session<Table> session(table, uint32_t(count));
    session.run(script);
    double commands = seconds_since(began);
    began = Clock::now();
    text::Writer writer;
    std::string_view written = writer.written(session.report);
    fwrite(written.data(), 1, written.size(), stdout);
    int status = fflush(stdout) != 0;
    if (tells_times)
        fprintf(stderr, "script=%.4f read=%.4f made=%.4f commands=%.4f report=%.4f\n", scripted, read, made, commands,
            seconds_since(began));
    /* What was made stands until the process ends. */
    _Exit(status);
}

int main(int count, char **words)
{
    bool tells_times = count == 5 && std::string_view(words[4]) == "--times";
    std::string_view way = count == 4 || tells_times ? words[1] : "";
    if (way == "index")
        return ran<Indexed>(words[2], words[3], tells_times);
    if (way == "columns")
        return ran<Scanned>(words[2], words[3], tells_times);
#ifdef SQLITE
    if (way == "sqlite")
        return ran<Stored>(words[2], words[3], tells_times);
#endif
    fputs("usage: session index|columns|sqlite FILE SCRIPT [--times]\n", stderr);
    return 2;
}
