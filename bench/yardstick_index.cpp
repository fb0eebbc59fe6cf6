/*
 * The index of the yardstick: made of its rows, asked once.
 */
#include "asking.hpp"

/* As in yardstick.c. */
extern "C" {
struct query {
    uint16_t first_day, days;
    uint8_t least_discount, most_discount, quantity;
};

struct answer {
    uint64_t count, sum;
};

answer index_answer(const Row *rows, size_t count, const query *query);
}

static_assert(sizeof(Row) == 16, "as a row of the yardstick");

answer index_answer(const Row *rows, size_t count, const query *query)
{
    Rows all(rows, count);
    Base base;
    build_lists(all, base);
    build_pages(all, base);
    build_keys(all, base);
    Case asked = { "q6", { query->first_day, uint16_t(query->first_day + query->days - 1) },
        { query->least_discount, query->most_discount }, { 1, uint16_t(query->quantity - 1) } };
    Answer found = index_sum(base, asked);
    return { found.count, found.sum };
}
