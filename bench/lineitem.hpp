/*
 * Rows of a lineitem file, whose lines are taken as right.
 */
#pragma once
#include <cstdint>
#include <cstdio>
#include <cstdlib>
#include <cstring>
#include <span>
#include <string>
#include <vector>

struct Row {
    uint32_t price, order;
    uint16_t day;
    uint8_t qty, disc, tax, line, flag, status;
};

using Rows = std::span<const Row>;

static inline uint32_t next_number(const char *&at, const char *end)
{
    uint32_t number = 0;
    for (; at != end && *at != '|'; at++)
        if (*at >= '0' && *at <= '9')
            number = number * 10 + uint32_t(*at - '0');
    at++;
    return number;
}

static inline bool is_leap(uint32_t year)
{
    return year % 4 == 0;
}

constexpr uint32_t MONTH_DAYS[12] = { 31, 28, 31, 30, 31, 30, 31, 31, 30, 31, 30, 31 };

static inline uint32_t month_days(uint32_t year, uint32_t month)
{
    return MONTH_DAYS[month] + (month == 1 && is_leap(year));
}

/* The days from 1992-01-01 on. */
static inline uint16_t day_of(uint32_t year, uint32_t month, uint32_t day)
{
    uint32_t days = day - 1;
    for (uint32_t before = 1992; before < year; before++)
        days += is_leap(before) ? 366 : 365;
    for (uint32_t before = 0; before + 1 < month; before++)
        days += month_days(year, before);
    return uint16_t(days);
}

static inline std::vector<Row> rows_of(const char *name)
{
    FILE *file = fopen(name, "rb");
    if (file == nullptr) {
        fprintf(stderr, "no file %s\n", name);
        exit(3);
    }
    std::string bytes;
    std::vector<char> piece(1 << 20);
    while (size_t taken = fread(piece.data(), 1, piece.size(), file))
        bytes.append(piece.data(), taken);
    fclose(file);
    std::vector<Row> rows;
    const char *at = bytes.data(), *end = at + bytes.size();
    while (at < end) {
        const char *stop = static_cast<const char *>(memchr(at, '\n', size_t(end - at)));
        stop = stop == nullptr ? end : stop;
        Row row = {};
        row.order = next_number(at, stop);
        next_number(at, stop);
        next_number(at, stop);
        row.line = uint8_t(next_number(at, stop));
        row.qty = uint8_t(next_number(at, stop));
        row.price = next_number(at, stop);
        row.disc = uint8_t(next_number(at, stop));
        row.tax = uint8_t(next_number(at, stop));
        row.flag = at[0] == 'A' ? 0 : at[0] == 'N' ? 1 : 2;
        row.status = at[2] == 'F' ? 0 : 1;
        at += 4;
        uint32_t ship = next_number(at, stop);
        row.day = day_of(ship / 10000, ship / 100 % 100, ship % 100);
        rows.push_back(row);
        at = stop + 1;
    }
    return rows;
}
