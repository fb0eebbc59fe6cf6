/*
 * The C++ twin of the program that measures the log of one caller: the same deltas of 48 bytes with the same column of
 * orders beside them, appended one by one, walked over entry by entry, and searched for a key from the last to the
 * first, a block of orders at a time. It says how fast C++ does it that is written with care, but without instructions
 * written by hand.
 *
 * log DELTAS ROUNDS [--times]
 */
#include "log.hpp"
#include <chrono>
#include <cstdio>
#include <cstdlib>
#include <string_view>

/* ---- its callers */

static __attribute__((noinline)) std::optional<Front> filled(Log &log, uint32_t count)
{
    Front at = log.whole();
    Tuple now = { 2116823, 1533, 17, 4, 2, 1, 1 }, next = { 2116823, 1533, 7, 4, 2, 1, 1 };
    for (uint32_t i = 0; i < count; i++) {
        if (log.try_append(at, { 0, 0, { 1, 1 }, now, next }, at) != Outcome::Done)
            return std::nullopt;
        std::swap(now, next);
    }
    return at;
}

static __attribute__((noinline)) uint64_t sum_of(Log &log, const Front &from, const Front &to)
{
    LogCursor cursor = { from.len, from.node };
    uint64_t sum = 0;
    while (const Stored *delta = log.following(cursor, to))
        sum += uint64_t(cursor.len) + delta->row + delta->key.order + word_of(delta->before) + word_of(delta->after);
    return sum;
}

static __attribute__((noinline)) bool has_key(const Log &log, const Front &from, const Front &to, const Key &key)
{
    return log.latest(key, from, to).has_value();
}

/* ---- what is printed */

using Clock = std::chrono::steady_clock;

static double seconds_since(Clock::time_point began)
{
    return std::chrono::duration<double>(Clock::now() - began).count();
}

int main(int count, char **words)
{
    bool tells_times = count == 4 && std::string_view(words[3]) == "--times";
    int rounds = count < 3 ? 0 : atoi(words[2]);
    if ((count != 3 && !tells_times) || rounds < 1) {
        fputs("usage: log DELTAS ROUNDS [--times]\n", stderr);
        return 2;
    }
    uint32_t deltas = std::min(uint32_t(strtoul(words[1], nullptr, 10)), MOST_DELTAS);
    double append = 1e9, following = 1e9, latest = 1e9;
    uint64_t sum = 0;
    for (int round = 0; round < rounds; round++) {
        Log log(deltas);
        Front start = log.whole();
        Clock::time_point began = Clock::now();
        std::optional<Front> to = filled(log, deltas);
        append = std::min(append, seconds_since(began));
        if (!to)
            return 1;
        began = Clock::now();
        sum = sum_of(log, start, *to);
        following = std::min(following, seconds_since(began));
        began = Clock::now();
        sum += has_key(log, start, *to, { 2, 1 });
        latest = std::min(latest, seconds_since(began));
    }
    printf("sum=%llu\n", (unsigned long long)sum);
    if (tells_times)
        fprintf(stderr, "append=%.9f\nfollowing=%.9f\nlatest=%.9f\n", append, following, latest);
    return fflush(stdout) != 0;
}
