/*
 * Writes a TPC-H lineitem file of any scale factor, in dbgen's form and with
 * the distributions of clause 4.2.3 of the specification. The text is not
 * dbgen's own: the draws come from another generator. The same words give the
 * same bytes on every machine.
 *
 * lineitem_gen SCALE [--shuffle SEED] > file
 *
 * A shuffled file has exactly the lines of the plain one, in random order. It
 * is made in memory, so it takes as much memory as the file is long.
 */
#include <stdint.h>
#include <stdio.h>
#include <stdlib.h>
#include <string.h>

enum {
    ORDERS_A_SCALE = 1500000,
    PARTS_A_SCALE = 200000,
    SUPPLIERS_A_SCALE = 10000,
    /* Days count from 1992-01-01. */
    DAYS = 2557,
    LAST_ORDER_DAY = 2405, /* 1998-08-02 */
    CURRENT_DAY = 1263,    /* 1995-06-17 */
    SHORTEST_COMMENT = 10,
    LONGEST_COMMENT = 43,
    LONGEST_LINE = 256,
    POOL_BYTES = 1 << 20,
    BUFFER_BYTES = 1 << 20
};

/* Past this scale the sparse order keys leave 32 bits. */
static const double LARGEST_SCALE = 700;

static _Noreturn void fail(const char *message)
{
    fprintf(stderr, "lineitem_gen: %s\n", message);
    exit(1);
}

/* The splitmix64 generator. */
struct random {
    uint64_t state;
};

static inline uint64_t next_random(struct random *random)
{
    uint64_t x = random->state += 0x9E3779B97F4A7C15u;
    x = (x ^ (x >> 30)) * 0xBF58476D1CE4E5B9u;
    x = (x ^ (x >> 27)) * 0x94D049BB133111EBu;
    return x ^ (x >> 31);
}

/* A number from low to high, both included. */
static inline uint32_t between(struct random *random, uint32_t low, uint32_t high)
{
    uint64_t span = (uint64_t)high - low + 1;
    return low + (uint32_t)(((next_random(random) >> 32) * span) >> 32);
}

/* The pool of text that comments are cut from, by the grammar of clause 4.2.2.14. */

#define COUNT_OF(list) (sizeof(list) / sizeof((list)[0]))

static const char *const NOUNS[] = {
    "foxes", "ideas", "theodolites", "pinto beans", "instructions", "dependencies",
    "excuses", "platelets", "asymptotes", "courts", "dolphins", "multipliers",
    "sauternes", "warthogs", "frets", "dinos", "attainments", "somas", "Tiresias",
    "patterns", "forges", "braids", "hockey players", "frays", "warhorses", "dugouts",
    "notornis", "epitaphs", "pearls", "tithes", "waters", "orbits", "gifts", "sheaves",
    "depths", "sentiments", "decoys", "realms", "pains", "grouches", "escapades",
    "packages", "requests", "accounts", "deposits"
};
static const char *const VERBS[] = {
    "sleep", "wake", "are", "cajole", "haggle", "nag", "use", "boost", "affix",
    "detect", "integrate", "maintain", "nod", "was", "lose", "sublate", "solve",
    "thrash", "promise", "engage", "hinder", "print", "x-ray", "breach", "eat",
    "grow", "impress", "mold", "poach", "serve", "run", "dazzle", "snooze", "doze",
    "unwind", "kindle", "play", "hang", "believe", "doubt"
};
static const char *const ADJECTIVES[] = {
    "furious", "sly", "careful", "blithe", "quick", "fluffy", "slow", "quiet",
    "ruthless", "thin", "close", "dogged", "daring", "brave", "stealthy", "permanent",
    "enticing", "idle", "busy", "regular", "final", "ironic", "even", "bold", "silent",
    "special", "pending", "unusual", "express"
};
static const char *const ADVERBS[] = {
    "sometimes", "always", "never", "furiously", "slyly", "carefully", "blithely",
    "quickly", "fluffily", "slowly", "quietly", "ruthlessly", "thinly", "closely",
    "doggedly", "daringly", "bravely", "stealthily", "permanently", "enticingly",
    "idly", "busily", "regularly", "finally", "ironically", "evenly", "boldly",
    "silently"
};
static const char *const PREPOSITIONS[] = {
    "about", "above", "according to", "across", "after", "against", "along",
    "alongside of", "among", "around", "at", "atop", "before", "behind", "beneath",
    "beside", "besides", "between", "beyond", "by", "despite", "during", "except",
    "for", "from", "in place of", "inside", "instead of", "into", "near", "of", "on",
    "outside", "over", "past", "since", "through", "throughout", "to", "toward",
    "under", "until", "up", "upon", "without", "with", "within"
};
static const char *const AUXILIARIES[] = {
    "do", "may", "might", "shall", "will", "would", "can", "could", "should",
    "ought to", "must", "will have to", "shall have to", "could have to",
    "should have to", "must have to", "need to", "try to"
};
static const char *const ARTICLES[] = { "the" };
static const char *const TERMINATORS[] = { ".", ";", ":", "?", "!", "--" };

/*
 * A small letter stands for a word of a list, a capital for a phrase, and every
 * other character for itself. A phrase is drawn from its forms evenly.
 */
static const char *const SENTENCES[] = { "N Vt", "N V Pt", "N V Nt", "N P V Nt", "N P V Pt" };
static const char *const NOUN_PHRASES[] = { "n", "j n", "j, j n", "d j n" };
static const char *const VERB_PHRASES[] = { "v", "x v", "v d", "x v d" };
static const char *const PREPOSITION_PHRASES[] = { "p a N" };

static const struct {
    char letter;
    const char *const *list;
    size_t count;
} SYMBOLS[] = {
    { 'n', NOUNS, COUNT_OF(NOUNS) },
    { 'v', VERBS, COUNT_OF(VERBS) },
    { 'j', ADJECTIVES, COUNT_OF(ADJECTIVES) },
    { 'd', ADVERBS, COUNT_OF(ADVERBS) },
    { 'p', PREPOSITIONS, COUNT_OF(PREPOSITIONS) },
    { 'x', AUXILIARIES, COUNT_OF(AUXILIARIES) },
    { 'a', ARTICLES, COUNT_OF(ARTICLES) },
    { 't', TERMINATORS, COUNT_OF(TERMINATORS) },
    { 'N', NOUN_PHRASES, COUNT_OF(NOUN_PHRASES) },
    { 'V', VERB_PHRASES, COUNT_OF(VERB_PHRASES) },
    { 'P', PREPOSITION_PHRASES, COUNT_OF(PREPOSITION_PHRASES) },
};

struct pool {
    char text[POOL_BYTES];
    size_t length;
};

static void put_in_pool(struct pool *pool, const char *text, size_t length)
{
    size_t room = POOL_BYTES - pool->length;
    if (length > room)
        length = room;
    memcpy(pool->text + pool->length, text, length);
    pool->length += length;
}

static void expand(struct pool *pool, struct random *random, const char *form)
{
    for (; *form != '\0'; form++) {
        size_t symbol = 0;
        while (symbol < COUNT_OF(SYMBOLS) && SYMBOLS[symbol].letter != *form)
            symbol++;
        if (symbol == COUNT_OF(SYMBOLS)) {
            put_in_pool(pool, form, 1);
            continue;
        }
        const char *drawn =
            SYMBOLS[symbol].list[between(random, 0, (uint32_t)SYMBOLS[symbol].count - 1)];
        if ('A' <= *form && *form <= 'Z')
            expand(pool, random, drawn);
        else
            put_in_pool(pool, drawn, strlen(drawn));
    }
}

static void fill_pool(struct pool *pool, struct random *random)
{
    while (pool->length < POOL_BYTES) {
        expand(pool, random, SENTENCES[between(random, 0, COUNT_OF(SENTENCES) - 1)]);
        put_in_pool(pool, " ", 1);
    }
}

/* The text of every day, so that a date is one copy of ten bytes. */
static char DAY_TEXTS[DAYS][11];

static void fill_day_texts(void)
{
    static const int MONTH_DAYS[] = { 31, 28, 31, 30, 31, 30, 31, 31, 30, 31, 30, 31 };
    int day = 0;
    for (int year = 1992; year <= 1998; year++)
        for (int month = 1; month <= 12; month++) {
            int last = MONTH_DAYS[month - 1] + (month == 2 && year % 4 == 0);
            for (int of_month = 1; of_month <= last; of_month++) {
                char text[40];
                snprintf(text, sizeof text, "%04d-%02d-%02d", year, month, of_month);
                memcpy(DAY_TEXTS[day++], text, 11);
            }
        }
}

static inline char *put_text(char *at, const char *text, size_t length)
{
    memcpy(at, text, length);
    return at + length;
}

static inline char *put_number(char *at, uint32_t number)
{
    char digits[10];
    int first = 10;
    do {
        digits[--first] = (char)('0' + number % 10);
        number /= 10;
    } while (number != 0);
    return put_text(at, digits + first, (size_t)(10 - first));
}

static inline char *put_cents(char *at, uint32_t cents)
{
    at = put_number(at, cents / 100);
    *at++ = '.';
    *at++ = (char)('0' + cents / 10 % 10);
    *at++ = (char)('0' + cents % 10);
    return at;
}

struct word {
    const char *text;
    size_t length;
};
#define WORD(text) { text, sizeof(text) - 1 }

static const struct word INSTRUCTIONS[] = {
    WORD("DELIVER IN PERSON"), WORD("COLLECT COD"), WORD("NONE"), WORD("TAKE BACK RETURN")
};
static const struct word MODES[] = {
    WORD("REG AIR"), WORD("AIR"), WORD("RAIL"), WORD("SHIP"), WORD("TRUCK"), WORD("MAIL"),
    WORD("FOB")
};

struct scale {
    uint32_t orders;
    uint32_t parts;
    uint32_t suppliers;
};

/* A table's rows at a scale: at least one, however small the scale. */
static uint32_t rows_of(double factor, uint32_t rows_a_scale)
{
    double rows = factor * rows_a_scale + 0.5;
    return rows < 1 ? 1 : (uint32_t)rows;
}

/* Each part has four suppliers, spread over all of them (clause 4.2.3, PS_SUPPKEY). */
static inline uint32_t supplier_of(uint32_t part, uint32_t which, uint32_t suppliers)
{
    uint64_t step = suppliers / 4 + (part - 1) / suppliers;
    return (uint32_t)((part + which * step) % suppliers) + 1;
}

static inline uint32_t retail_price_cents(uint32_t part)
{
    return 90000 + part / 10 % 20001 + 100 * (part % 1000);
}

static char *put_line(char *at, struct random *random, const struct scale *scale,
                      const struct pool *pool, uint32_t order, uint32_t line, uint32_t order_day)
{
    uint32_t part = between(random, 1, scale->parts);
    uint32_t supplier = supplier_of(part, between(random, 0, 3), scale->suppliers);
    uint32_t quantity = between(random, 1, 50);
    uint32_t ship_day = order_day + between(random, 1, 121);
    uint32_t commit_day = order_day + between(random, 30, 90);
    uint32_t receipt_day = ship_day + between(random, 1, 30);

    at = put_number(at, order);
    *at++ = '|';
    at = put_number(at, part);
    *at++ = '|';
    at = put_number(at, supplier);
    *at++ = '|';
    at = put_number(at, line);
    *at++ = '|';
    at = put_number(at, quantity);
    *at++ = '|';
    at = put_cents(at, quantity * retail_price_cents(part));
    *at++ = '|';
    at = put_cents(at, between(random, 0, 10));
    *at++ = '|';
    at = put_cents(at, between(random, 0, 8));
    *at++ = '|';
    *at++ = receipt_day > CURRENT_DAY ? 'N' : between(random, 0, 1) ? 'R' : 'A';
    *at++ = '|';
    *at++ = ship_day > CURRENT_DAY ? 'O' : 'F';
    *at++ = '|';
    at = put_text(at, DAY_TEXTS[ship_day], 10);
    *at++ = '|';
    at = put_text(at, DAY_TEXTS[commit_day], 10);
    *at++ = '|';
    at = put_text(at, DAY_TEXTS[receipt_day], 10);
    *at++ = '|';
    const struct word *instruction = &INSTRUCTIONS[between(random, 0, COUNT_OF(INSTRUCTIONS) - 1)];
    at = put_text(at, instruction->text, instruction->length);
    *at++ = '|';
    const struct word *mode = &MODES[between(random, 0, COUNT_OF(MODES) - 1)];
    at = put_text(at, mode->text, mode->length);
    *at++ = '|';
    uint32_t length = between(random, SHORTEST_COMMENT, LONGEST_COMMENT);
    at = put_text(at, pool->text + between(random, 0, POOL_BYTES - LONGEST_COMMENT - 1), length);
    *at++ = '|';
    *at++ = '\n';
    return at;
}

static void write_all(const char *bytes, size_t length)
{
    if (fwrite(bytes, 1, length, stdout) != length)
        fail("output failed");
}

/* The lines made so far: all of them where they are to be shuffled, else one buffer. */
struct lines {
    char *bytes;
    size_t length, room;
    /* Where each line begins; used for shuffling only. */
    size_t *starts;
    size_t count, starts_room;
};

static void *grown(void *block, size_t bytes)
{
    void *result = realloc(block, bytes);
    if (result == NULL)
        fail("out of memory");
    return result;
}

static void generate(const struct scale *scale, struct lines *lines, int keep)
{
    static struct pool pool;
    struct random random = { 19920101 };
    fill_day_texts();
    fill_pool(&pool, &random);
    for (uint32_t index = 1; index <= scale->orders; index++) {
        /* The first 8 of each 32 keys are used. */
        uint32_t order = (index >> 3 << 5) | (index & 7);
        uint32_t order_day = between(&random, 0, LAST_ORDER_DAY);
        uint32_t last = between(&random, 1, 7);
        for (uint32_t line = 1; line <= last; line++) {
            if (lines->room - lines->length < LONGEST_LINE) {
                if (keep) {
                    lines->room *= 2;
                    lines->bytes = grown(lines->bytes, lines->room);
                } else {
                    write_all(lines->bytes, lines->length);
                    lines->length = 0;
                }
            }
            if (keep) {
                if (lines->count == lines->starts_room) {
                    lines->starts_room = lines->starts_room * 2 + 1024;
                    lines->starts =
                        grown(lines->starts, lines->starts_room * sizeof *lines->starts);
                }
                lines->starts[lines->count++] = lines->length;
            }
            char *end = put_line(lines->bytes + lines->length, &random, scale, &pool, order, line,
                                 order_day);
            lines->length = (size_t)(end - lines->bytes);
        }
    }
}

static void write_shuffled(struct lines *lines, uint64_t seed)
{
    struct random random = { seed };
    static char buffer[BUFFER_BYTES];
    size_t used = 0;
    for (size_t left = lines->count; left > 0; left--) {
        size_t drawn = (size_t)(next_random(&random) % left);
        size_t start = lines->starts[drawn];
        lines->starts[drawn] = lines->starts[left - 1];
        const char *line = lines->bytes + start;
        size_t length =
            (size_t)((char *)memchr(line, '\n', lines->length - start) - line) + 1;
        if (BUFFER_BYTES - used < length) {
            write_all(buffer, used);
            used = 0;
        }
        memcpy(buffer + used, line, length);
        used += length;
    }
    write_all(buffer, used);
}

static _Noreturn void usage(void)
{
    fputs("usage: lineitem_gen SCALE [--shuffle SEED]\n", stderr);
    exit(2);
}

int main(int count, char **words)
{
    if (count != 2 && !(count == 4 && strcmp(words[2], "--shuffle") == 0))
        usage();
    char *end;
    double factor = strtod(words[1], &end);
    if (end == words[1] || *end != '\0' || !(factor > 0 && factor <= LARGEST_SCALE))
        usage();
    int shuffle = count == 4;
    uint64_t seed = 0;
    if (shuffle) {
        seed = strtoull(words[3], &end, 10);
        if (end == words[3] || *end != '\0')
            usage();
    }
    struct scale scale = {
        rows_of(factor, ORDERS_A_SCALE),
        rows_of(factor, PARTS_A_SCALE),
        rows_of(factor, SUPPLIERS_A_SCALE),
    };
    struct lines lines = { grown(NULL, BUFFER_BYTES), 0, BUFFER_BYTES, NULL, 0, 0 };
    setvbuf(stdout, NULL, _IONBF, 0);
    generate(&scale, &lines, shuffle);
    if (shuffle)
        write_shuffled(&lines, seed);
    else
        write_all(lines.bytes, lines.length);
    if (fflush(stdout) != 0)
        fail("output failed");
    free(lines.bytes);
    free(lines.starts);
    return 0;
}
