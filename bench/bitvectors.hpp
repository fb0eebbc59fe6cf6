/*
 * Bitvectors as word-aligned run-length words, their fences and their builder, as C++ that is written with care but
 * without instructions written by hand: what the programs beside it measure.
 */
#pragma once
#include <algorithm>
#include <array>
#include <cstdint>
#include <cstring>
#include <memory>
#include <utility>
#include <vector>

/*
 * A word below the lowest fill is a literal: 31 rows, the first in its lowest
 * bit. In a fill bit 30 is the value of all rows, and the low 30 bits count its
 * groups of 31 rows. No literal is all false or all true, and no two fills of
 * one value stand side by side.
 */
constexpr uint32_t GROUP_ROWS = 31;
constexpr uint32_t ALL_TRUE = 0x7fffffff;
constexpr uint32_t FALSE_FILL = 0x80000000;
constexpr uint32_t TRUE_FILL = 0xc0000000;
constexpr uint32_t VALUE_BIT = 0x40000000;
constexpr uint32_t COUNT_BITS = 0x3fffffff;

static inline uint32_t groups_for(uint32_t rows)
{
    return rows / GROUP_ROWS + (rows % GROUP_ROWS != 0);
}

struct Run {
    uint32_t group, count;
};

static inline Run run_of(uint32_t word)
{
    if (word < FALSE_FILL)
        return { word, 1 };
    return { word & VALUE_BIT ? ALL_TRUE : 0, word & COUNT_BITS };
}

/* Neither all false nor all true. */
static inline bool is_mixed(uint32_t group)
{
    return group - 1 < ALL_TRUE - 1;
}

/*
 * The words in room that is taken once and not cleared, since each word is
 * written before it is read.
 */
class Bitvector {
public:
    uint32_t rows;

    Bitvector(uint32_t rows, size_t capacity) : rows(rows), room(new uint32_t[capacity]), last(room.get()) {}

    const uint32_t *begin() const { return room.get(); }
    const uint32_t *end() const { return last; }
    size_t size() const { return size_t(end() - begin()); }

    /* Puts so many groups of one value at the end; more than one are all false or all true. */
    void push_run(Run run)
    {
        if (is_mixed(run.group))
            *last++ = run.group;
        else
            push_fill(run.group == 0 ? FALSE_FILL : TRUE_FILL, run.count);
    }

    /* Puts words at the end that join no word before them. */
    void push_words(const uint32_t *words, size_t count)
    {
        memcpy(last, words, count * sizeof *words);
        last += count;
    }

    /* Takes the last word away. */
    void pop_word() { last--; }

    /* Room for so many words more, to be written by the caller. */
    uint32_t *push_room(size_t count)
    {
        last += count;
        return last - count;
    }

private:
    std::unique_ptr<uint32_t[]> room;
    uint32_t *last;

    void push_fill(uint32_t lowest, uint32_t count)
    {
        if (last != begin() && last[-1] >> 30 == lowest >> 30)
            last[-1] += count;
        else
            *last++ = lowest + count;
    }
};

/* Words read as runs. */
class Cursor {
public:
    Run run = { 0, 0 };
    const uint32_t *at;

    explicit Cursor(const Bitvector &words) : at(words.begin()), end(words.end()) {}

    /* Goes on to the next word where the run has ended; false where there is none. */
    bool refill()
    {
        if (run.count != 0)
            return true;
        if (at == end)
            return false;
        run = run_of(*at++);
        return true;
    }

    /* Whether a whole block of words comes next. */
    bool has_block() const { return run.count == 0 && end - at >= BLOCK; }

    static constexpr int BLOCK = 8;

private:
    const uint32_t *end;
};

/*
 * Literals beside literals by blocks, with no branch within one, up to a block
 * that has a fill on either side or makes a group that is all false or all true.
 */
template <class Operation>
static inline void push_blocks(Bitvector &out, Cursor &left, Cursor &right, Operation operation)
{
    while (left.has_block() && right.has_block()) {
        uint32_t block[Cursor::BLOCK], heads = 0, odd = 0;
        for (int i = 0; i < Cursor::BLOCK; i++) {
            heads |= left.at[i] | right.at[i];
            block[i] = operation(left.at[i], right.at[i]);
            odd |= is_mixed(block[i]) ? 0 : 1;
        }
        if (heads >= FALSE_FILL || odd)
            return;
        out.push_words(block, Cursor::BLOCK);
        left.at += Cursor::BLOCK;
        right.at += Cursor::BLOCK;
    }
}

template <class Operation>
static inline Bitvector combined(const Bitvector &a, const Bitvector &b, Operation operation)
{
    Bitvector out(a.rows, std::min<size_t>(a.size() + b.size(), groups_for(a.rows)));
    Cursor left(a), right(b);
    for (;;) {
        push_blocks(out, left, right, operation);
        /* Where no block came, the next words hardly begin one. */
        for (int step = 0; step < Cursor::BLOCK; step++) {
            if (!left.refill() || !right.refill())
                return out;
            uint32_t count = std::min(left.run.count, right.run.count);
            out.push_run({ operation(left.run.group, right.run.group), count });
            left.run.count -= count;
            right.run.count -= count;
        }
    }
}

/* Words that are turned one by one stay canonical, but for rows of the last group that are past the last row. */
static inline Bitvector complement(const Bitvector &a)
{
    Bitvector out(a.rows, a.size() + 1);
    if (a.size() == 0)
        return out;
    size_t front = a.size() - 1;
    uint32_t *words = out.push_room(front);
    for (size_t i = 0; i < front; i++)
        words[i] = a.begin()[i] ^ (a.begin()[i] < FALSE_FILL ? ALL_TRUE : VALUE_BIT);
    Run last = run_of(a.end()[-1]);
    last.group ^= ALL_TRUE;
    if (last.count > 1)
        out.push_run({ last.group, last.count - 1 });
    uint32_t last_rows = (a.rows - 1) % GROUP_ROWS + 1;
    out.push_run({ last.group & ((uint32_t(1) << last_rows) - 1), 1 });
    return out;
}

/* The list, and false rows after it. */
static inline Bitvector extended(const Bitvector &a, uint32_t rows)
{
    Bitvector out(rows, a.size() + 1);
    out.push_words(a.begin(), a.size());
    uint32_t more = groups_for(rows) - groups_for(a.rows);
    if (more != 0)
        out.push_run({ 0, more });
    return out;
}

/* So many rows, of which those at rising places are true. */
static inline Bitvector from_places(const std::vector<uint32_t> &places, uint32_t rows)
{
    uint32_t groups = groups_for(rows);
    Bitvector out(rows, std::min<size_t>(places.size() * 2 + 1, groups));
    uint32_t index = 0, group = 0;
    for (uint32_t place : places) {
        uint32_t next = place / GROUP_ROWS;
        if (next != index) {
            out.push_run({ group, 1 });
            if (next - index > 1)
                out.push_run({ 0, next - index - 1 });
            index = next;
            group = 0;
        }
        group |= uint32_t(1) << place % GROUP_ROWS;
    }
    if (index < groups) {
        out.push_run({ group, 1 });
        if (groups - index > 1)
            out.push_run({ 0, groups - index - 1 });
    }
    return out;
}

/*
 * The list with its rows at rising places turned. Words between them are copied as they are, and literals are passed by
 * blocks.
 */
static inline Bitvector toggled(const Bitvector &a, const std::vector<uint32_t> &places)
{
    Bitvector out(a.rows, a.size() + 2 * places.size());
    const uint32_t *word = a.begin();
    /* the groups before the word, and how many of its run are written */
    uint32_t before = 0, skipped = 0;
    auto push_rest = [&] {
        Run run = run_of(*word++);
        if (run.count > skipped)
            out.push_run({ run.group, run.count - skipped });
        before += run.count;
        skipped = 0;
    };
    for (size_t i = 0; i < places.size();) {
        uint32_t target = places[i] / GROUP_ROWS, mask = 0;
        for (; i < places.size() && places[i] / GROUP_ROWS == target; i++)
            mask |= uint32_t(1) << places[i] % GROUP_ROWS;
        if (before + run_of(*word).count <= target) {
            push_rest();
            const uint32_t *from = word;
            constexpr uint32_t BLOCK = 8;
            for (;;) {
                uint32_t heads = FALSE_FILL;
                if (target - before >= BLOCK && size_t(a.end() - word) >= BLOCK) {
                    heads = 0;
                    for (uint32_t k = 0; k < BLOCK; k++)
                        heads |= word[k];
                }
                if (heads < FALSE_FILL) {
                    word += BLOCK, before += BLOCK;
                    continue;
                }
                uint32_t count = run_of(*word).count;
                if (before + count > target)
                    break;
                word++, before += count;
            }
            /* the first word may join the run before it */
            if (from != word) {
                out.push_run(run_of(*from));
                out.push_words(from + 1, size_t(word - from) - 1);
            }
        }
        Run run = run_of(*word);
        if (target > before + skipped)
            out.push_run({ run.group, target - before - skipped });
        out.push_run({ run.group ^ mask, 1 });
        skipped = target - before + 1;
    }
    if (word != a.end()) {
        push_rest();
        if (word != a.end()) {
            out.push_run(run_of(*word));
            out.push_words(word + 1, size_t(a.end() - word) - 1);
        }
    }
    return out;
}

static inline uint64_t literal_group(uint32_t word)
{
    return word < FALSE_FILL ? word : 0;
}

/* Literals are counted two at a time without a branch; fills of true rows are rare. */
static inline uint32_t true_count(const Bitvector &a)
{
    uint32_t total = 0;
    const uint32_t *at = a.begin();
    auto fill_rows = [](uint32_t word) { return word < TRUE_FILL ? 0 : (word & COUNT_BITS) * GROUP_ROWS; };
    for (; a.end() - at >= 2; at += 2) {
        total += uint32_t(__builtin_popcountll(literal_group(at[0]) | literal_group(at[1]) << 32));
        total += fill_rows(at[0]) + fill_rows(at[1]);
    }
    if (at != a.end())
        total += uint32_t(__builtin_popcountll(literal_group(*at))) + fill_rows(*at);
    return total;
}

/*
 * A bitvector with a fence for each page of 128 groups: where in the words the
 * page begins, and how many groups of that word's run lie before it.
 */
constexpr uint32_t PAGE_GROUPS = 128, PAGE_ROWS = PAGE_GROUPS * GROUP_ROWS;
using Page = std::array<uint32_t, PAGE_GROUPS>;

static inline uint32_t pages_for(uint32_t rows)
{
    return rows / PAGE_ROWS + (rows % PAGE_ROWS != 0);
}

class Fenced {
public:
    Bitvector bitvector;

    explicit Fenced(Bitvector made) : bitvector(std::move(made))
    {
        uint32_t pages = pages_for(bitvector.rows);
        fences.reserve(pages);
        Place place = { 0, 0 };
        for (uint32_t page = 0; page < pages; page++) {
            fences.push_back(place);
            place = next_page(place);
        }
    }

    /* The list once more. */
    Fenced copied() const { return Fenced(extended(bitvector, bitvector.rows), fences); }

    size_t bytes() const { return bitvector.size() * sizeof(uint32_t) + fences.size() * sizeof(Place); }

    /* Writes the groups of a page, and 0 where there are none. */
    void window(uint32_t page, Page &out) const
    {
        out.fill(0);
        or_into(page, out.data(), PAGE_GROUPS);
    }

    /*
     * Puts so many groups from a page on into the caller's, by or. A literal and
     * a fill of false rows go without a branch.
     */
    void or_into(uint32_t page, uint32_t *out, uint32_t count) const
    {
        if (page >= fences.size())
            return;
        const uint32_t *word = bitvector.begin() + fences[page].word, *end = bitvector.end();
        uint32_t at = 0;
        if (fences[page].skipped != 0) {
            Run run = run_of(*word++);
            at = std::min(run.count - fences[page].skipped, count);
            if (run.group != 0)
                std::fill(out, out + at, ALL_TRUE);
        }
        constexpr int BLOCK = 8;
        while (at < count && word != end) {
            if (count - at >= BLOCK && end - word >= BLOCK) {
                uint32_t heads = 0;
                for (int i = 0; i < BLOCK; i++)
                    heads |= word[i];
                if (heads < FALSE_FILL) {
                    for (int i = 0; i < BLOCK; i++)
                        out[at + i] |= word[i];
                    at += BLOCK, word += BLOCK;
                    continue;
                }
            }
            for (int step = 0; step < BLOCK && at < count && word != end; step++, word++) {
                if (__builtin_expect(*word >= TRUE_FILL, 0)) {
                    uint32_t after = std::min(at + (*word & COUNT_BITS), count);
                    std::fill(out + at, out + after, ALL_TRUE);
                    at = after;
                    continue;
                }
                uint32_t fill = 0 - (*word >> 31);
                out[at] |= *word & ~fill;
                at += (*word & COUNT_BITS & fill) | (1 & ~fill);
            }
        }
    }

private:
    friend class PageBuilder;

    struct Place {
        size_t word;
        uint32_t skipped;
    };
    std::vector<Place> fences;

    Fenced(Bitvector made, std::vector<Place> made_fences) : bitvector(std::move(made)), fences(std::move(made_fences)) {}

    /* Literals are passed by blocks. */
    Place next_page(Place place) const
    {
        constexpr uint32_t BLOCK = 8;
        uint32_t left = place.skipped + PAGE_GROUPS;
        const uint32_t *words = bitvector.begin();
        while (place.word < bitvector.size()) {
            uint32_t heads = FALSE_FILL;
            if (left >= BLOCK && bitvector.size() - place.word >= BLOCK) {
                heads = 0;
                for (uint32_t k = 0; k < BLOCK; k++)
                    heads |= words[place.word + k];
            }
            if (heads < FALSE_FILL) {
                place.word += BLOCK, left -= BLOCK;
                continue;
            }
            for (uint32_t k = 0; k < BLOCK && place.word < bitvector.size(); k++) {
                uint32_t count = run_of(words[place.word]).count;
                if (left < count)
                    return { place.word, left };
                place.word++, left -= count;
            }
        }
        return { place.word, 0 };
    }
};

/*
 * A bitvector made page by page, with its fences on the way. No branch depends on a group but for those whose rows are
 * all true.
 */
class PageBuilder {
public:
    explicit PageBuilder(uint32_t rows) : words(rows, size_t(pages_for(rows)) * PAGE_GROUPS)
    {
        fences.reserve(pages_for(rows));
    }

    void push_page(const Page &page)
    {
        if (page[0] != 0)
            flush();
        fences.push_back({ words.size(), pending });
        uint32_t out[2 * PAGE_GROUPS], after = pending;
        size_t count = 0;
        bool has_true = false;
        for (uint32_t group : page) {
            uint32_t some = group != 0;
            out[count] = FALSE_FILL | after;
            count += some & uint32_t(after != 0);
            out[count] = group;
            count += some;
            after = (after + 1) & (some - 1);
            has_true |= group == ALL_TRUE;
        }
        if (__builtin_expect(has_true, 0))
            return push_page_with_true(page);
        words.push_words(out, count);
        pending = after;
    }

    /* Copies pages of another list, from the first on and before another: whole words, and the fences moved with them. */
    void push_pages(const Fenced &other, uint32_t first, uint32_t after)
    {
        if (first >= after)
            return;
        const uint32_t *from = other.bitvector.begin();
        bool is_last = after == other.fences.size();
        Fenced::Place begin = other.fences[first];
        Fenced::Place end = is_last ? Fenced::Place{ other.bitvector.size(), 0 } : other.fences[after];
        if (from[begin.word] >= TRUE_FILL)
            return push_windows(other, first, after);
        uint32_t page = first;
        size_t word = begin.word;
        if (from[word] >= FALSE_FILL) {
            /* the pages that begin in the rest of a fill, which joins what is pending */
            for (; page < after && other.fences[page].word == word; page++)
                fences.push_back({ words.size(), pending + other.fences[page].skipped - begin.skipped });
            uint32_t count = end.word == word ? end.skipped : from[word] & COUNT_BITS;
            pending += count - begin.skipped;
            if (end.word == word++)
                return;
        }
        flush();
        size_t moved = words.size() - word;
        for (; page < after; page++)
            fences.push_back({ other.fences[page].word + moved, other.fences[page].skipped });
        words.push_words(from + word, end.word - word);
        if (end.skipped != 0 && from[end.word] >= TRUE_FILL) {
            words.push_run({ ALL_TRUE, end.skipped });
        } else if (end.skipped != 0) {
            pending = end.skipped;
        } else if (end.word > word && from[end.word - 1] >= FALSE_FILL && from[end.word - 1] < TRUE_FILL) {
            pending = from[end.word - 1] & COUNT_BITS;
            words.pop_word();
        }
        if (is_last)
            pending += uint32_t(other.fences.size()) * PAGE_GROUPS - groups_for(other.bitvector.rows);
    }

    /* Pads the last page, whose groups past the last row are false, by no word. */
    Fenced finish()
    {
        uint32_t past = pages_for(words.rows) * PAGE_GROUPS - groups_for(words.rows);
        pending -= past;
        flush();
        return Fenced(std::move(words), std::move(fences));
    }

private:
    Bitvector words;
    std::vector<Fenced::Place> fences;
    /* false groups that are not written yet */
    uint32_t pending = 0;

    void flush()
    {
        if (pending != 0)
            words.push_run({ 0, pending });
        pending = 0;
    }

    void push_windows(const Fenced &other, uint32_t first, uint32_t after)
    {
        Page page;
        for (; first < after; first++) {
            other.window(first, page);
            push_page(page);
        }
    }

    void push_page_with_true(const Page &page)
    {
        /* a page that begins within a fill of true rows stands in it */
        if (page[0] == ALL_TRUE && words.size() != 0 && words.end()[-1] >= TRUE_FILL)
            fences.back() = { words.size() - 1, words.end()[-1] & COUNT_BITS };
        for (uint32_t group : page) {
            if (group == 0) {
                pending++;
                continue;
            }
            flush();
            words.push_run({ group, 1 });
        }
    }
};

/* The list with the rows at these places turned, which rise. Pages in which none is turned are copied. */
static inline Fenced toggled(const Fenced &list, const std::vector<uint32_t> &places)
{
    PageBuilder builder(list.bitvector.rows);
    uint32_t from = 0;
    for (size_t i = 0; i < places.size();) {
        uint32_t number = places[i] / PAGE_ROWS;
        builder.push_pages(list, from, number);
        Page page;
        list.window(number, page);
        for (; i < places.size() && places[i] / PAGE_ROWS == number; i++) {
            uint32_t row = places[i] % PAGE_ROWS;
            page[row / GROUP_ROWS] ^= 1u << row % GROUP_ROWS;
        }
        builder.push_page(page);
        from = number + 1;
    }
    builder.push_pages(list, from, pages_for(list.bitvector.rows));
    return builder.finish();
}
