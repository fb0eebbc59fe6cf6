/*
 * The C++ twin of the program that measures reports: the same replies and deltas, drawn from the same generator, written
 * as one text and read again. It says how fast C++ does it that is written with care, but without instructions written
 * by hand.
 *
 * report REPLIES DELTAS ROUNDS [--times]
 */
#include "report.hpp"
#include <algorithm>
#include <chrono>
#include <cstdio>
#include <cstdlib>

static const uint32_t WORKERS = 4, ROWS = 6000000, FRONTS = 4194304;

/* ---- what is drawn */

class Draws {
    uint64_t state = 1;

public:
    uint32_t below(uint32_t n)
    {
        state = state * 6364136223846793005u + 1442695040888963407u;
        return (state >> 33) % n;
    }

    uint32_t row() { return below(ROWS); }
    uint32_t front() { return below(FRONTS); }

    uint64_t sum()
    {
        uint64_t high = below(1000000);
        return high * 1000000 + below(1000000);
    }

    Tuple tuple()
    {
        Tuple t;
        t.qty = 1 + below(50);
        t.price = below(100000000);
        t.disc = below(11);
        t.tax = below(9);
        t.flag = "ANR"[below(3)];
        t.status = "FO"[below(2)];
        t.day = below(2557);
        return t;
    }

    std::vector<uint32_t> list()
    {
        std::vector<uint32_t> list;
        for (uint32_t left = below(16); left > 0; left--)
            list.push_back(row());
        return list;
    }

    DropLines drop()
    {
        DropLines r;
        for (DropLine &line : r.lines)
            line = { "pmf"[below(3)], front() };
        return r;
    }

    Reply reply()
    {
        switch (below(13)) {
        case 0: return Placed { front(), row() };
        case 1: return Duplicate { front(), row() };
        case 2: return Missing { front() };
        case 3: return TableFull { front() };
        case 4: return LogFull { front() };
        case 5: return drop();
        case 6: return Found { front(), row(), tuple() };
        case 7: return Absent { front() };
        case 8: return Rows { front(), list(), front() };
        case 9: return Count { front(), row(), front() };
        case 10: return Sum { front(), row(), sum(), front() };
        case 11: return Q6 { front(), row(), sum(), front() };
        default: return Merge { row(), row(), row() };
        }
    }

    Delta delta()
    {
        Delta d;
        d.author = below(WORKERS);
        d.row = row();
        d.order = 1 + row();
        d.line = 1 + below(7);
        uint32_t kind = below(3);
        if (kind > 0)
            d.before = tuple();
        if (kind < 2)
            d.after = tuple();
        return d;
    }
};

static Report drawn(uint32_t replies, uint32_t deltas)
{
    Draws draws;
    Report report;
    report.replies.resize(std::min(replies, WORKERS));
    for (uint32_t i = 0; i < replies; i++)
        report.replies[i % WORKERS].push_back(draws.reply());
    for (uint32_t i = 0; i < deltas; i++)
        report.journal.push_back(draws.delta());
    return report;
}

/* ---- what is printed */

using Clock = std::chrono::steady_clock;

static double seconds_since(Clock::time_point began)
{
    return std::chrono::duration<double>(Clock::now() - began).count();
}

static uint64_t checksum(std::string_view text)
{
    uint64_t sum = 0;
    for (unsigned char b : text)
        sum = sum * 31 + b;
    return sum;
}

int main(int count, char **words)
{
    bool tells_times = count == 5 && std::string_view(words[4]) == "--times";
    int rounds = count < 4 ? 0 : atoi(words[3]);
    if ((count != 4 && !tells_times) || rounds < 1) {
        fputs("usage: report REPLIES DELTAS ROUNDS [--times]\n", stderr);
        return 2;
    }
    Report report = drawn(strtoul(words[1], nullptr, 10), strtoul(words[2], nullptr, 10));
    double write = 1e9, read = 1e9;
    std::optional<Writer> writer;
    std::string_view text;
    for (int round = 0; round < rounds; round++) {
        auto began = Clock::now();
        text = writer.emplace().written(report);
        write = std::min(write, seconds_since(began));
        began = Clock::now();
        std::optional<Report> again = Reader(text).report();
        read = std::min(read, seconds_since(began));
        if (!again || Writer().written(*again) != text)
            return 1;
    }
    printf("bytes=%zu sum=%llu\n", text.size(), (unsigned long long)checksum(text));
    if (tells_times)
        fprintf(stderr, "write=%.9f\nread=%.9f\n", write, read);
    return 0;
}
