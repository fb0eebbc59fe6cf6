/*
 * Queries over the index: what their rows count and add up to.
 */
#pragma once
#include "index.hpp"

struct Answer {
    uint32_t count = 0;
    uint64_t sum = 0;
};

/* From low to high, both included. */
struct Range {
    uint16_t low, high;
};

constexpr Range ANY = { 0, UINT16_MAX };

struct Case {
    const char *name;
    Range ship, disc, qty;
};

static inline Case q6(const char *name, uint32_t year, uint32_t disc, uint32_t qty)
{
    return { name, { day_of(year, 1, 1), day_of(year, 12, 31) },
        { uint16_t(disc == 0 ? 0 : disc - 1), uint16_t(std::min(disc + 1, 10u)) }, { 1, uint16_t(qty - 1) } };
}

/* ---- 32 pages of all bins at a time */

constexpr uint32_t BLOCK_PAGES = 32, BLOCK_GROUPS = BLOCK_PAGES * PAGE_GROUPS;

/* Bins that stand for a column's range: unions where they fit, else lists. */
struct Cover {
    std::vector<const std::vector<uint32_t> *> plain;
    std::vector<const Fenced *> lists;
};

static inline Cover cover_of(const Base &base, size_t first, size_t after)
{
    const std::vector<Union> kept = base.plain.empty() ? std::vector<Union>() : unions();
    Cover cover;
    while (first < after) {
        size_t widest = 1, found = kept.size();
        for (size_t i = 0; i < kept.size(); i++)
            if (kept[i].first == first && kept[i].count > widest && first + kept[i].count <= after)
                widest = kept[i].count, found = i;
        if (found < kept.size())
            cover.plain.push_back(&base.plain[found]);
        else
            cover.lists.push_back(&base.bins[first]);
        first += widest;
    }
    return cover;
}

static inline void or_cover(const Cover &cover, uint32_t page, uint32_t *out)
{
    for (const std::vector<uint32_t> *plain : cover.plain) {
        size_t first = size_t(page) * PAGE_GROUPS;
        size_t count = std::min<size_t>(BLOCK_GROUPS, plain->size() - first);
        for (size_t i = 0; i < count; i++)
            out[i] |= (*plain)[first + i];
    }
    for (const Fenced *list : cover.lists)
        list->or_into(page, out, BLOCK_GROUPS);
}

struct Asked {
    std::vector<Cover> columns;
    Cover cut;
    bool cuts;
    Case numbers;
};

static inline Asked asked_of(const Base &base, const Case &numbers)
{
    static const std::vector<uint8_t> month = months();
    Asked asked = { {}, {}, false, numbers };
    if (numbers.disc.high != ANY.high)
        asked.columns.push_back(cover_of(base, DISC + numbers.disc.low, DISC + numbers.disc.high + 1));
    if (numbers.ship.high != ANY.high) {
        size_t low = month[numbers.ship.low], high = month[numbers.ship.high];
        asked.columns.push_back(cover_of(base, SHIP + low, SHIP + high + 1));
        bool low_cut = numbers.ship.low != 0 && month[numbers.ship.low - 1] == low;
        bool high_cut = numbers.ship.high + 1u < month.size() && month[numbers.ship.high + 1] == high;
        if (low_cut)
            asked.cut.lists.push_back(&base.bins[SHIP + low]);
        if (high_cut && !(low_cut && low == high))
            asked.cut.lists.push_back(&base.bins[SHIP + high]);
        asked.cuts = low_cut || high_cut;
    }
    if (numbers.qty.high != ANY.high)
        asked.columns.push_back(cover_of(base, QTY + numbers.qty.low - 1, QTY + numbers.qty.high));
    if (asked.columns.empty())
        asked.columns.push_back({ {}, { &base.bins[BINS] } });
    return asked;
}

static inline bool candidates(const Asked &asked, uint32_t page, uint32_t *groups, uint32_t *others)
{
    std::fill(groups, groups + BLOCK_GROUPS, 0);
    or_cover(asked.columns[0], page, groups);
    for (size_t k = 1; k < asked.columns.size(); k++) {
        uint32_t any = 0;
        for (size_t i = 0; i < BLOCK_GROUPS; i++)
            any |= groups[i];
        if (any == 0)
            return false;
        std::fill(others, others + BLOCK_GROUPS, 0);
        or_cover(asked.columns[k], page, others);
        for (size_t i = 0; i < BLOCK_GROUPS; i++)
            groups[i] &= others[i];
    }
    return true;
}

/* The places of a page's true rows, rising; three of each two groups are written whether they are there or not. */
static inline size_t places_of(const uint32_t *groups, uint16_t *places)
{
    size_t count = 0;
    for (uint32_t group = 0; group < PAGE_GROUPS; group += 2) {
        uint64_t left = groups[group] | uint64_t(groups[group + 1]) << GROUP_ROWS;
        uint16_t first = uint16_t(group * GROUP_ROWS);
        size_t found = size_t(__builtin_popcountll(left));
        uint16_t *out = places + count;
        for (int k = 0; k < 3; k++, left &= left - 1)
            *out++ = uint16_t(first + __builtin_ctzll(left | 1ull << 63));
        for (; __builtin_expect(left != 0, 0); left &= left - 1)
            *out++ = uint16_t(first + __builtin_ctzll(left));
        count += found;
    }
    return count;
}

static inline bool has_day(uint64_t word, const Range &ship)
{
    uint16_t day = uint16_t(word >> 28 & 0xfff);
    return ship.low <= day && day <= ship.high;
}

static inline void add_page(const Asked &asked, const std::vector<uint64_t> &page, const uint16_t *places, size_t count, Answer &answer)
{
    if (asked.cuts) {
        for (size_t i = 0; i < count; i++) {
            uint64_t word = page[places[i]];
            bool matches = has_day(word, asked.numbers.ship);
            answer.count += matches;
            answer.sum += matches ? (word >> 1 & 0x7ffffff) * (word >> 46 & 0xf) : 0;
        }
        return;
    }
    for (size_t i = 0; i < count; i++) {
        uint64_t word = page[places[i]];
        answer.sum += (word >> 1 & 0x7ffffff) * (word >> 46 & 0xf);
    }
    answer.count += uint32_t(count);
}

static inline Answer index_sum(const Base &base, const Case &numbers)
{
    Asked asked = asked_of(base, numbers);
    std::array<uint32_t, BLOCK_GROUPS> groups, others;
    std::array<uint16_t, PAGE_ROWS + 3> places;
    Answer answer;
    for (uint32_t first = 0; first < base.pages.size(); first += BLOCK_PAGES) {
        if (!candidates(asked, first, groups.data(), others.data()))
            continue;
        uint32_t count = std::min<uint32_t>(BLOCK_PAGES, uint32_t(base.pages.size()) - first);
        for (uint32_t page = 0; page < count; page++) {
            size_t found = places_of(groups.data() + page * PAGE_GROUPS, places.data());
            add_page(asked, base.pages[first + page], places.data(), found, answer);
        }
    }
    return answer;
}

static inline uint32_t index_count(const Base &base, const Case &numbers)
{
    Asked asked = asked_of(base, numbers);
    std::array<uint32_t, BLOCK_GROUPS> groups, others;
    std::array<uint16_t, PAGE_ROWS + 3> places;
    uint32_t count = 0;
    for (uint32_t first = 0; first < base.pages.size(); first += BLOCK_PAGES) {
        if (!candidates(asked, first, groups.data(), others.data()))
            continue;
        for (uint32_t group : groups)
            count += uint32_t(__builtin_popcount(group));
        if (!asked.cuts)
            continue;
        std::fill(others.begin(), others.end(), 0);
        or_cover(asked.cut, first, others.data());
        uint32_t pages = std::min<uint32_t>(BLOCK_PAGES, uint32_t(base.pages.size()) - first);
        for (size_t i = 0; i < BLOCK_GROUPS; i++)
            others[i] &= groups[i];
        for (uint32_t page = 0; page < pages; page++) {
            size_t found = places_of(others.data() + page * PAGE_GROUPS, places.data());
            for (size_t i = 0; i < found; i++)
                count -= !has_day(base.pages[first + page][places[i]], numbers.ship);
        }
    }
    return count;
}
