/*
 * What the queries of the program that measures them answer, and how fast others are: a scan of four columns, the C++
 * twin of the same index and the same way to ask it, and, where it is built with ROARING, bitmaps of CRoaring. All on
 * one thread; the scan is written for the vectors of x86-64-v2. Beside and after updates it asks an index that was made
 * of the rows after them, without its unions.
 *
 * query FILE ROUNDS [YEAR DISCOUNT QUANTITY] [--times]
 */
#include "columns.hpp"
#include <cmath>
#ifdef ROARING
#include <roaring/roaring.h>
#endif
#include <string_view>

static std::vector<Case> all_cases()
{
    return { q6("q6", 1994, 6, 24), q6("selective", 1998, 9, 2), q6("wide", 1993, 2, 51), { "all", ANY, ANY, ANY },
        { "month", { day_of(1994, 3, 1), day_of(1994, 3, 31) }, ANY, ANY },
        { "half-month", { day_of(1994, 3, 1), day_of(1994, 3, 15) }, ANY, ANY } };
}

/* ---- CRoaring */

#ifdef ROARING
struct Bitmaps {
    std::vector<roaring_bitmap_t *> bins;

    Bitmaps(Rows rows)
    {
        const std::vector<uint8_t> month = months();
        std::vector<std::vector<uint32_t>> lists(BINS);
        for (uint32_t i = 0; i < rows.size(); i++) {
            lists[SHIP + month[rows[i].day]].push_back(i);
            lists[DISC + rows[i].disc].push_back(i);
            lists[QTY + rows[i].qty - 1].push_back(i);
        }
        for (const std::vector<uint32_t> &list : lists) {
            bins.push_back(roaring_bitmap_of_ptr(list.size(), list.data()));
            roaring_bitmap_run_optimize(bins.back());
        }
    }

    roaring_bitmap_t *any(size_t first, size_t after) const
    {
        return roaring_bitmap_or_many(after - first, const_cast<const roaring_bitmap_t **>(bins.data() + first));
    }

    /* Only where months are met whole, and the discount and the quantity are restricted. */
    Answer sum(const Columns &columns, const Case &asked) const
    {
        static const std::vector<uint8_t> month = months();
        roaring_bitmap_t *found = any(DISC + asked.disc.low, DISC + asked.disc.high + 1);
        roaring_bitmap_t *ship = any(SHIP + month[asked.ship.low], SHIP + month[asked.ship.high] + 1);
        roaring_bitmap_and_inplace(found, ship);
        roaring_bitmap_t *qty = any(QTY + asked.qty.low - 1, QTY + asked.qty.high);
        roaring_bitmap_and_inplace(found, qty);
        std::vector<uint32_t> rows(roaring_bitmap_get_cardinality(found));
        roaring_bitmap_to_uint32_array(found, rows.data());
        Answer answer;
        answer.count = uint32_t(rows.size());
        for (uint32_t row : rows)
            answer.sum += uint64_t(columns.price[row]) * columns.disc[row];
        roaring_bitmap_free(found);
        roaring_bitmap_free(ship);
        roaring_bitmap_free(qty);
        return answer;
    }
};
#else
struct Bitmaps {
    Bitmaps(Rows) {}
    Answer sum(const Columns &, const Case &) const { return {}; }
};
#endif

/* ---- rounds */

struct Least {
    std::vector<double> times;

    void take(Clock::time_point began) { times.push_back(seconds_since(began)); }

    unsigned long long least() const
    {
        return times.empty() ? 0 : (unsigned long long)std::llround(1e9 * *std::min_element(times.begin(), times.end()));
    }

    unsigned long long median()
    {
        std::sort(times.begin(), times.end());
        return times.empty() ? 0 : (unsigned long long)std::llround(1e9 * times[times.size() / 2]);
    }
};

static void expect(bool same, const char *what, const char *name)
{
    if (!same) {
        fprintf(stderr, "%s of %s has another answer\n", what, name);
        exit(4);
    }
}

/* As many updates of quantities as the program makes, of the same rows. */
static void update(std::vector<Row> &rows)
{
    uint64_t state = 1;
    for (int i = 0; i < 10000 && !rows.empty(); i++) {
        state = state * 6364136223846793005u + 1442695040888963407u;
        rows[(state >> 33) % rows.size()].qty = uint8_t(1 + (state >> 20) % 50);
    }
}

static void measure(const char *state, const Columns &columns, const Base &base, const Bitmaps &bitmaps, const Case &asked,
    int rounds, bool tells_times)
{
    Least scans, sums, counts, roaring;
    Answer answer;
    for (int round = 0; round < rounds; round++) {
        Clock::time_point began = Clock::now();
        answer = scan(columns, asked);
        scans.take(began);
        began = Clock::now();
        Answer sum = index_sum(base, asked);
        sums.take(began);
        expect(sum.count == answer.count && sum.sum == answer.sum, "the twin", asked.name);
        began = Clock::now();
        uint32_t count = index_count(base, asked);
        counts.take(began);
        expect(count == answer.count, "the twin's count", asked.name);
#ifdef ROARING
        if (asked.disc.high == ANY.high)
            continue;
        began = Clock::now();
        Answer other = bitmaps.sum(columns, asked);
        roaring.take(began);
        expect(other.count == answer.count && other.sum == answer.sum, "CRoaring", asked.name);
#endif
    }
    (void)bitmaps;
    printf("%s %s count=%u sum=%llu\n", state, asked.name, answer.count, (unsigned long long)answer.sum);
    if (tells_times)
        fprintf(stderr, "%s %s scan_ns=%llu scan_median_ns=%llu twin_ns=%llu twin_count_ns=%llu roaring_ns=%llu\n", state,
            asked.name, scans.least(), scans.median(), sums.least(), counts.least(), roaring.least());
}

/* After updates the index has no unions. */
static void measure_all(std::initializer_list<const char *> states, const std::vector<Row> &rows, bool has_unions,
    const std::vector<Case> &cases, int rounds, bool tells_times)
{
    Columns columns = columns_of(rows);
    Base base;
    build_lists(rows, base);
    build_pages(rows, base);
    build_keys(rows, base);
    if (tells_times && has_unions) {
        Bytes bytes = bytes_of(base);
        fprintf(stderr, "bytes=%zu\n", bytes.lists + bytes.unions + bytes.pages + bytes.keys);
    }
    if (!has_unions)
        base.plain.clear();
    Bitmaps bitmaps(rows);
    for (const char *state : states)
        for (const Case &asked : cases)
            measure(state, columns, base, bitmaps, asked, rounds, tells_times);
}

int main(int count, char **words)
{
    bool tells_times = count > 1 && std::string_view(words[count - 1]) == "--times";
    count -= tells_times;
    int rounds = count < 3 ? 0 : atoi(words[2]);
    if ((count != 3 && count != 6) || rounds < 1) {
        fputs("usage: query FILE ROUNDS [YEAR DISCOUNT QUANTITY] [--times]\n", stderr);
        return 2;
    }
    std::vector<Case> cases = all_cases();
    if (count == 6)
        cases = { q6("q6", uint32_t(atoi(words[3])), uint32_t(std::lround(100 * atof(words[4]))), uint32_t(atoi(words[5]))) };
    std::vector<Row> rows = rows_of(words[1]);
    measure_all({ "base" }, rows, true, cases, rounds, tells_times);
    update(rows);
    measure_all({ "unmerged", "merged" }, rows, false, cases, rounds, tells_times);
    return fflush(stdout) != 0;
}
