/*
 * What deltas change in the units of the index, and units with such changes.
 */
#pragma once
#include "index.hpp"
#include <array>

struct RowChange {
    uint32_t row;
    uint64_t before, after;
};

struct KeyChange {
    uint32_t key, row;
    uint64_t after;
};

struct Changes {
    std::vector<RowChange> rows;
    std::array<std::vector<uint32_t>, BINS + 1> turned;
    std::array<std::vector<KeyChange>, KEY_PAGES> keys;
};

/* The bins of a tuple, one a column, and the live rows. */
static inline std::array<size_t, 6> bins_of(const std::vector<uint8_t> &month, uint64_t word)
{
    return { SHIP + month[word >> 28 & 0xfff], DISC + (word >> 46 & 0xf), QTY + (word >> 40 & 0x3f) - 1,
        FLAG + (word >> 54 & 3), STATUS + (word >> 56 & 1), BINS };
}

/* A word is 0 where there is no tuple. */
static inline void turn_bins(Changes &changes, const std::vector<uint8_t> &month, const RowChange &change)
{
    if (change.before == 0 || change.after == 0) {
        if (change.before != change.after)
            for (size_t bin : bins_of(month, change.before | change.after))
                changes.turned[bin].push_back(change.row);
        return;
    }
    std::array<size_t, 6> before = bins_of(month, change.before), after = bins_of(month, change.after);
    for (size_t column = 0; column < before.size(); column++)
        if (before[column] != after[column]) {
            changes.turned[before[column]].push_back(change.row);
            changes.turned[after[column]].push_back(change.row);
        }
}

static inline Fenced patched(const Fenced &list, const std::vector<uint32_t> &turned)
{
    return turned.empty() ? list.copied() : Fenced(toggled(list.bitvector, turned));
}

static inline std::vector<uint64_t> patched(
    const std::vector<uint64_t> &page, size_t first, const std::vector<RowChange> &rows)
{
    std::vector<uint64_t> out = page;
    auto is_before = [](const RowChange &change, size_t row) { return change.row < row; };
    auto at = std::lower_bound(rows.begin(), rows.end(), first, is_before);
    for (; at != rows.end() && at->row < first + PAGE_ROWS; ++at)
        out[at->row - first] = at->after;
    return out;
}

/* Entries between those of changed keys are copied as they are. */
static inline Keys patched(const Keys &page, const std::vector<KeyChange> &changes)
{
    Keys out;
    out.entries.reserve(page.entries.size() + changes.size());
    size_t from = 0;
    for (const KeyChange &change : changes) {
        size_t piece = page.near(change.key), behind = piece == 0 ? 0 : (piece - 1) * STEP;
        size_t end = std::min(page.entries.size(), behind + (piece == 0 ? 0 : STEP));
        while (behind < end && page.entries[behind].key <= change.key)
            behind++;
        size_t to = behind != 0 && page.entries[behind - 1].key == change.key ? behind - 1 : behind;
        out.entries.insert(out.entries.end(), page.entries.begin() + from, page.entries.begin() + to);
        if (change.after != 0)
            out.entries.push_back({ change.key, change.row, change.after });
        from = behind;
    }
    out.entries.insert(out.entries.end(), page.entries.begin() + from, page.entries.end());
    out.tops.reserve(out.entries.size() / STEP + 1);
    for (size_t i = 0; i < out.entries.size(); i += STEP)
        out.tops.push_back(out.entries[i].key);
    return out;
}
