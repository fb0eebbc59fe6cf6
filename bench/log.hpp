/*
 * The log of changes of one caller: deltas of 48 bytes with a column of orders beside them, as C++ that is written with
 * care but without instructions written by hand: what the programs beside it measure.
 */
#pragma once
#include <algorithm>
#include <cstdint>
#include <memory>
#include <new>
#include <optional>

struct Tuple {
    uint32_t price;
    uint16_t day;
    uint8_t qty, disc, tax, flag, status;
};

/* A tuple as a word, the way that pages of the index have it. */
static inline uint64_t word_of(const std::optional<Tuple> &tuple)
{
    if (!tuple)
        return 0;
    return 1 | uint64_t(tuple->price) << 1 | uint64_t(tuple->day) << 28 | uint64_t(tuple->qty) << 40
        | uint64_t(tuple->disc) << 46 | uint64_t(tuple->tax) << 50 | uint64_t(tuple->flag) << 54
        | uint64_t(tuple->status) << 56;
}

struct Key {
    uint32_t order;
    uint8_t line;
};

struct Delta {
    uint8_t author;
    uint32_t row;
    Key key;
    std::optional<Tuple> before, after;
};

struct Front {
    uint32_t len, rows, node;
};

struct LogCursor {
    uint32_t len, node;
};

/* ---- the log */

struct Stored {
    std::optional<Tuple> before, after;
    Key key;
    uint32_t row, rows;
};

static_assert(sizeof(Stored) == 48);

constexpr uint32_t MOST_DELTAS = 4194304, BLOCK = 64;

enum class Outcome { Done, Full, Late };

struct Log {
    /* room for all deltas of the share, so that no append asks for more */
    std::unique_ptr<Stored[]> entries;
    std::unique_ptr<uint32_t[]> orders;
    uint32_t len = 0, rows = 1, spare;
    uint64_t walked = 0;

    explicit Log(uint32_t share)
        : entries(static_cast<Stored *>(operator new[](share * sizeof(Stored)))), orders(new uint32_t[share]), spare(share)
    {
    }

    Front whole() const
    {
        return { len, rows, len };
    }

    Outcome try_append(const Front &at, const Delta &delta, Front &front)
    {
        if (at.len == MOST_DELTAS)
            return Outcome::Full;
        if (at.len < len)
            return Outcome::Late;
        rows += !delta.before.has_value();
        spare--;
        orders[len] = delta.key.order;
        new (&entries[len]) Stored { delta.before, delta.after, delta.key, delta.row, rows };
        len++;
        front = whole();
        return Outcome::Done;
    }

    /* The delta at the cursor in its place in memory, so that nothing is copied; its number is then the cursor's length. */
    const Stored *following(LogCursor &cursor, const Front &to)
    {
        if (cursor.len == to.len)
            return nullptr;
        const Stored *stored = &entries[cursor.len];
        cursor.len++;
        cursor.node = cursor.len;
        walked += walked != UINT64_MAX;
        return stored;
    }

    /* Whether one of the orders of a block is this one. */
    static bool has_order(const uint32_t *block, uint32_t order)
    {
        uint32_t has = 0;
        for (uint32_t i = 0; i < BLOCK; i++)
            has |= block[i] == order;
        return has != 0;
    }

    std::optional<uint32_t> latest(const Key &key, const Front &from, const Front &to) const
    {
        uint32_t end = to.len;
        while (from.len < end) {
            while (end - from.len >= BLOCK && !has_order(orders.get() + end - BLOCK, key.order))
                end -= BLOCK;
            while (from.len < end && orders[end - 1] != key.order)
                end--;
            if (end == from.len)
                break;
            end--;
            if (entries[end].key.line == key.line)
                return end;
        }
        return std::nullopt;
    }
};
