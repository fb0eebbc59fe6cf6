/*
 * The C++ twin of the program that measures look-ups, changes and merges: the same log, the same versions of the same
 * units, the same digest of deltas that all units share, with the same checksum. It says how fast C++ does it on one
 * thread that is written with care, but without instructions written by hand. With --peers it measures the same
 * look-ups and updates on a hash table of the library by key, and, where it is built with SQLITE, on a table in memory
 * by key.
 *
 * change FILE DELTAS BESIDE ROUNDS [--quantities]
 * change FILE --peers
 */
#include "changing.hpp"
#include "log.hpp"
#include <chrono>
#ifdef SQLITE
#include <sqlite3.h>
#endif
#include <unordered_map>

static long long nanos_since(Clock::time_point began)
{
    return std::chrono::duration_cast<std::chrono::nanoseconds>(Clock::now() - began).count();
}

/* ---- what is asked */

struct Asked {
    Key key;
    Tuple tuple;
};

static Tuple tuple_of(const Row &row)
{
    return { row.price, row.day, row.qty, row.disc, row.tax, row.flag, row.status };
}

static Tuple tuple_in(uint64_t word)
{
    return { uint32_t(word >> 1 & 0x7ffffff), uint16_t(word >> 28 & 0xfff), uint8_t(word >> 40 & 0x3f),
        uint8_t(word >> 46 & 0xf), uint8_t(word >> 50 & 0xf), uint8_t(word >> 54 & 3), uint8_t(word >> 56 & 1) };
}

/* Rows that are drawn from the table, and new tuples for them. */
struct Drawn {
    std::vector<Asked> rows;
    size_t at = 0;
    uint64_t state = 1;

    explicit Drawn(const std::vector<Row> &table)
    {
        constexpr size_t ROWS = 400000;
        rows.reserve(ROWS);
        for (size_t i = 0; i < ROWS && !table.empty(); i++) {
            const Row &row = table[next() % table.size()];
            rows.push_back({ { row.order, row.line }, tuple_of(row) });
        }
    }

    uint32_t next()
    {
        state = state * 6364136223846793005u + 1442695040888963407u;
        return uint32_t(state >> 33);
    }

    std::vector<Asked> batch(uint32_t count, bool whole)
    {
        std::vector<Asked> batch;
        batch.reserve(count);
        for (uint32_t i = 0; i < count; i++) {
            if (at == rows.size()) {
                at = 0;
                continue;
            }
            Asked asked = rows[at++];
            uint32_t draw = next();
            uint8_t qty = uint8_t(draw % 50 + 1);
            if (whole)
                asked.tuple = { draw % 10000000, uint16_t(draw / 3 % 2557), qty, uint8_t(draw / 50 % 11),
                    uint8_t(draw / 7 % 9), uint8_t(draw & 256 ? 1 : 2), uint8_t(draw & 512 ? 0 : 1) };
            else
                asked.tuple.qty = qty;
            batch.push_back(asked);
        }
        return batch;
    }
};

/* ---- what deltas change */

/* Calls for each number of the tags, rising, with the first and the last place that has it. */
template <class Call>
static void for_spans(std::vector<uint64_t> &tags, Call call)
{
    std::sort(tags.begin(), tags.end());
    for (size_t i = 0; i < tags.size();) {
        uint32_t number = uint32_t(tags[i] >> 32);
        size_t first = i;
        while (i < tags.size() && uint32_t(tags[i] >> 32) == number)
            i++;
        call(number, uint32_t(tags[first]), uint32_t(tags[i - 1]));
    }
}

static Changes changes_between(Log &log, const std::vector<uint8_t> &month, const Front &from, const Front &to)
{
    Changes changes;
    std::vector<uint64_t> row_tags;
    std::array<std::vector<uint64_t>, KEY_PAGES> key_tags;
    row_tags.reserve(to.len - from.len);
    LogCursor cursor = { from.len, from.node };
    while (const Stored *stored = log.following(cursor, to)) {
        row_tags.push_back(uint64_t(stored->row) << 32 | (cursor.len - 1));
        key_tags[stored->key.order % KEY_PAGES].push_back(
            uint64_t(stored->key.order / KEY_PAGES * 8 + stored->key.line) << 32 | (cursor.len - 1));
    }
    changes.rows.reserve(row_tags.size());
    for_spans(row_tags, [&](uint32_t row, uint32_t first, uint32_t last) {
        changes.rows.push_back({ row, word_of(log.entries[first].before), word_of(log.entries[last].after) });
    });
    for (const RowChange &change : changes.rows)
        turn_bins(changes, month, change);
    for (size_t page = 0; page < KEY_PAGES; page++)
        for_spans(key_tags[page], [&](uint32_t key, uint32_t, uint32_t last) {
            changes.keys[page].push_back({ key, log.entries[last].row, word_of(log.entries[last].after) });
        });
    return changes;
}

/* ---- versions */

/* Where there is none of its own, a unit has the base's content at the empty front. */
template <class Content>
struct Version {
    uint32_t len = 0;
    std::unique_ptr<Content> own;
};

struct Store {
    const Base &base;
    std::vector<Version<Fenced>> bits;
    std::vector<Version<std::vector<uint64_t>>> pages;
    std::vector<Version<Keys>> keys;

    explicit Store(const Base &base)
        : base(base), bits(base.bins.size()), pages(base.pages.size()), keys(base.keys.size())
    {
    }

    template <class Content>
    static const Content &shown(const Version<Content> &version, const Content &base)
    {
        return version.own ? *version.own : base;
    }
};

/* ---- calls */

struct Live {
    uint32_t row;
    uint64_t word;
};

struct Table {
    Log &log;
    Store &store;
    const std::vector<uint8_t> month = months();

    std::optional<Live> lookup(const Key &key) const
    {
        size_t rest = key.order % KEY_PAGES;
        const Version<Keys> &version = store.keys[rest];
        Front front = log.whole();
        if (auto place = log.latest(key, { version.len, 0, 0 }, front)) {
            const Stored &last = log.entries[*place];
            if (!last.after)
                return std::nullopt;
            return Live { last.row, word_of(last.after) };
        }
        const Keys &page = Store::shown(version, store.base.keys[rest]);
        if (const Entry *entry = page.find(key.order / KEY_PAGES * 8 + key.line))
            return Live { entry->row, entry->word };
        return std::nullopt;
    }

    /* The row and the place that it was changed at, together. */
    std::optional<uint64_t> update(const Key &key, const Tuple &tuple)
    {
        std::optional<Live> live = lookup(key);
        if (!live || log.spare == 0)
            return std::nullopt;
        Front at = log.whole(), front;
        if (log.try_append(at, { 0, live->row, key, tuple_in(live->word), tuple }, front) != Outcome::Done)
            return std::nullopt;
        return uint64_t(at.len) + live->row;
    }

    /* Carries all units on to one front; how many were carried and how many stood there. */
    std::pair<uint32_t, uint32_t> merge_all()
    {
        Front front = log.whole();
        uint32_t merged = 0, fresh = 0, digested = UINT32_MAX;
        Changes changes;
        auto carry = [&](auto &version, const auto &base, auto make) {
            if (version.len >= front.len) {
                fresh++;
                return;
            }
            if (digested != version.len)
                changes = changes_between(log, month, { version.len, 0, version.len }, front);
            digested = version.len;
            auto content = make(Store::shown(version, base));
            version.own = std::make_unique<decltype(content)>(std::move(content));
            version.len = front.len;
            merged++;
        };
        for (size_t i = 0; i < store.bits.size(); i++)
            carry(store.bits[i], store.base.bins[i], [&](const Fenced &b) { return patched(b, changes.turned[i]); });
        for (size_t i = 0; i < store.pages.size(); i++)
            carry(store.pages[i], store.base.pages[i],
                [&](const std::vector<uint64_t> &p) { return patched(p, i * PAGE_ROWS, changes.rows); });
        for (size_t i = 0; i < store.keys.size(); i++)
            carry(store.keys[i], store.base.keys[i], [&](const Keys &k) { return patched(k, changes.keys[i]); });
        return { merged, fresh };
    }
};

static __attribute__((noinline)) uint64_t looked_up(const Table &table, const std::vector<Asked> &asked)
{
    uint64_t sum = 0;
    for (const Asked &one : asked)
        if (std::optional<Live> live = table.lookup(one.key))
            sum += live->word + live->row;
    return sum;
}

static __attribute__((noinline)) uint64_t updated(Table &table, const std::vector<Asked> &asked)
{
    uint64_t sum = 0;
    for (const Asked &one : asked)
        sum += table.update(one.key, one.tuple).value_or(0);
    return sum;
}

/* ---- rounds */

static void round_of(Table &table, Drawn &drawn, Checksum &sum, uint32_t deltas, uint32_t beside, bool whole)
{
    std::vector<Asked> first = drawn.batch(deltas, whole), looks = drawn.batch(beside, whole),
                       second = drawn.batch(beside, whole);
    Clock::time_point began = Clock::now();
    sum.add(updated(table, first));
    long long updates = nanos_since(began);
    began = Clock::now();
    sum.add(looked_up(table, looks));
    long long beside_lookups = nanos_since(began);
    began = Clock::now();
    sum.add(updated(table, second));
    long long beside_updates = nanos_since(began);
    began = Clock::now();
    auto [merged, fresh] = table.merge_all();
    long long merge = nanos_since(began);
    sum.add(merged);
    sum.add(fresh);
    sum.add(0);
    fprintf(stderr, "updates=%lld beside_lookups=%lld beside_updates=%lld merge=%lld\n", updates, beside_lookups,
        beside_updates, merge);
}

static void add_versions(Checksum &sum, const Store &store)
{
    for (size_t i = 0; i < store.bits.size(); i++)
        for (uint32_t word : Store::shown(store.bits[i], store.base.bins[i]).bitvector)
            sum.add(word);
    for (size_t i = 0; i < store.pages.size(); i++)
        for (uint64_t word : Store::shown(store.pages[i], store.base.pages[i]))
            sum.add(word);
}

static uint64_t measured(const char *name, uint32_t deltas, uint32_t beside, int rounds, bool whole)
{
    std::vector<Row> rows = rows_of(name);
    Drawn drawn(rows);
    Base base;
    build_lists(rows, base);
    build_pages(rows, base);
    build_keys(rows, base);
    Log log(MOST_DELTAS);
    log.rows = uint32_t(rows.size());
    rows = std::vector<Row>();
    Store store(base);
    Table table = { log, store };
    fputs("begin\n", stderr);
    Checksum sum;
    for (int i = 0; i < rounds; i++)
        round_of(table, drawn, sum, deltas, beside, whole);
    sum.add(looked_up(table, drawn.rows));
    add_versions(sum, store);
    return sum.mix;
}

/* ---- peers */

constexpr uint32_t PEER_CALLS = 100000;

static uint64_t number_of(const Key &key)
{
    return uint64_t(key.order) * 8 + key.line;
}

static void measure_map(
    const std::vector<Row> &rows, const std::vector<Asked> &looks, const std::vector<Asked> &updates)
{
    std::unordered_map<uint64_t, Live> map;
    map.reserve(rows.size());
    for (size_t i = 0; i < rows.size(); i++)
        map[number_of({ rows[i].order, rows[i].line })] = { uint32_t(i), word_of(tuple_of(rows[i])) };
    uint64_t sum = 0;
    Clock::time_point began = Clock::now();
    for (const Asked &one : looks) {
        auto at = map.find(number_of(one.key));
        if (at != map.end())
            sum += at->second.word + at->second.row;
    }
    double lookup = seconds_since(began) / PEER_CALLS;
    began = Clock::now();
    for (const Asked &one : updates) {
        auto at = map.find(number_of(one.key));
        if (at != map.end())
            at->second.word = word_of(one.tuple);
    }
    double update = seconds_since(began) / PEER_CALLS;
    fprintf(stderr, "map_lookup=%.9f map_update=%.9f\n", lookup, update);
    printf("map=%016llx\n", (unsigned long long)sum);
}

#ifdef SQLITE
static sqlite3_stmt *prepared(sqlite3 *data, const char *text)
{
    sqlite3_stmt *statement = nullptr;
    if (sqlite3_prepare_v2(data, text, -1, &statement, nullptr) != SQLITE_OK) {
        fprintf(stderr, "sqlite: %s\n", sqlite3_errmsg(data));
        exit(4);
    }
    return statement;
}

static bool step(sqlite3_stmt *statement, uint64_t first, uint64_t second)
{
    sqlite3_reset(statement);
    sqlite3_bind_int64(statement, 1, int64_t(first));
    if (sqlite3_bind_parameter_count(statement) > 1)
        sqlite3_bind_int64(statement, 2, int64_t(second));
    return sqlite3_step(statement) == SQLITE_ROW;
}

/* The key and the tuple are a number each, which is less than any table of columns asks of it. */
static void measure_sqlite(
    const std::vector<Row> &rows, const std::vector<Asked> &looks, const std::vector<Asked> &updates)
{
    sqlite3 *data = nullptr;
    sqlite3_open(":memory:", &data);
    sqlite3_exec(data, "create table lines (key integer primary key, tuple integer); begin", nullptr, nullptr, nullptr);
    sqlite3_stmt *put = prepared(data, "insert into lines values (?, ?)");
    for (const Row &row : rows)
        step(put, number_of({ row.order, row.line }), word_of(tuple_of(row)));
    sqlite3_exec(data, "commit; begin", nullptr, nullptr, nullptr);
    sqlite3_stmt *get = prepared(data, "select tuple from lines where key = ?");
    sqlite3_stmt *set = prepared(data, "update lines set tuple = ?2 where key = ?1");
    uint64_t sum = 0;
    Clock::time_point began = Clock::now();
    for (const Asked &one : looks)
        if (step(get, number_of(one.key), 0))
            sum += uint64_t(sqlite3_column_int64(get, 0));
    double lookup = seconds_since(began) / PEER_CALLS;
    began = Clock::now();
    for (const Asked &one : updates)
        step(set, number_of(one.key), word_of(one.tuple));
    double update = seconds_since(began) / PEER_CALLS;
    fprintf(stderr, "sqlite_lookup=%.9f sqlite_update=%.9f\n", lookup, update);
    printf("sqlite=%016llx\n", (unsigned long long)sum);
}
#else
static void measure_sqlite(const std::vector<Row> &, const std::vector<Asked> &, const std::vector<Asked> &) {}
#endif

static void measure_peers(const char *name)
{
    std::vector<Row> rows = rows_of(name);
    Drawn drawn(rows);
    std::vector<Asked> looks = drawn.batch(PEER_CALLS, false), updates = drawn.batch(PEER_CALLS, false);
    measure_map(rows, looks, updates);
    measure_sqlite(rows, looks, updates);
}

int main(int count, char **words)
{
    bool quantities = count == 6 && std::string_view(words[5]) == "--quantities";
    if (count == 3 && std::string_view(words[2]) == "--peers") {
        measure_peers(words[1]);
        return 0;
    }
    if (count != 5 && !quantities) {
        fputs("usage: change FILE DELTAS BESIDE ROUNDS [--quantities]\n       change FILE --peers\n", stderr);
        return 2;
    }
    uint64_t sum = measured(words[1], uint32_t(atoi(words[2])), uint32_t(atoi(words[3])), atoi(words[4]), !quantities);
    printf("sum=%016llx\n", (unsigned long long)sum);
    return fflush(stdout) != 0;
}
