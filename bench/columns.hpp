/*
 * Four columns of a table and a scan of them, written for the vectors of x86-64-v2.
 */
#pragma once
#include "asking.hpp"
#include <emmintrin.h>

struct Columns {
    std::vector<uint32_t> price;
    std::vector<uint16_t> day;
    std::vector<uint8_t> disc, qty;
};

static inline Columns columns_of(Rows rows)
{
    Columns columns;
    for (const Row &row : rows) {
        columns.price.push_back(row.price);
        columns.day.push_back(row.day);
        columns.disc.push_back(row.disc);
        columns.qty.push_back(row.qty);
    }
    return columns;
}

/* A byte a row, 1 where it matches. The loop has no branch, so that a compiler makes vectors of it. */
static inline void mark(const Columns &columns, const Case &asked, size_t first, size_t count, uint8_t *marks)
{
    const uint16_t *day = columns.day.data() + first;
    const uint8_t *disc = columns.disc.data() + first, *qty = columns.qty.data() + first;
    uint16_t days = uint16_t(asked.ship.high - asked.ship.low);
    uint8_t disc_low = uint8_t(asked.disc.low), discs = uint8_t(std::min<int>(asked.disc.high, 255) - asked.disc.low);
    uint8_t qty_low = uint8_t(asked.qty.low), qtys = uint8_t(std::min<int>(asked.qty.high, 255) - asked.qty.low);
    for (size_t i = 0; i < count; i++)
        marks[i] = uint8_t(uint16_t(day[i] - asked.ship.low) <= days) & uint8_t(uint8_t(disc[i] - disc_low) <= discs)
            & uint8_t(uint8_t(qty[i] - qty_low) <= qtys);
}

__attribute__((noinline)) static Answer scan(const Columns &columns, const Case &asked)
{
    constexpr size_t BLOCK = 4096;
    alignas(16) uint8_t marks[BLOCK];
    Answer answer;
    if (asked.qty.low > asked.qty.high)
        return answer;
    for (size_t first = 0; first < columns.day.size(); first += BLOCK) {
        size_t count = std::min(BLOCK, columns.day.size() - first);
        mark(columns, asked, first, count, marks);
        memset(marks + count, 0, BLOCK - count);
        for (size_t at = 0; at < BLOCK; at += 16) {
            __m128i sixteen = _mm_load_si128(reinterpret_cast<const __m128i *>(marks + at));
            uint32_t bits = uint32_t(_mm_movemask_epi8(_mm_slli_epi16(sixteen, 7)));
            answer.count += uint32_t(__builtin_popcount(bits));
            for (; bits != 0; bits &= bits - 1) {
                size_t row = first + at + size_t(__builtin_ctz(bits));
                answer.sum += uint64_t(columns.price[row]) * columns.disc[row];
            }
        }
    }
    return answer;
}
