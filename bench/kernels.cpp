/*
 * The C++ twin of the program that measures the word kernels: the same vectors
 * from the same seed, the same words in the same canonical form, the same
 * checksum. It says how fast C++ does it on one thread that is written with care,
 * but without instructions written by hand.
 *
 * kernels KERNEL-FORM SEED SIZE ROUNDS [--times]
 */
#include "bitvectors.hpp"
#include <charconv>
#include <chrono>
#include <cstdio>
#include <cstdlib>
#include <string_view>

/* The list, written page by page as it is read. */
static Fenced rewritten(const Fenced &list)
{
    PageBuilder builder(list.bitvector.rows);
    Page page;
    for (uint32_t number = 0; number < pages_for(list.bitvector.rows); number++) {
        list.window(number, page);
        builder.push_page(page);
    }
    return builder.finish();
}

/* The exclusive or of all groups, read page by page. */
static uint32_t xor_of(const Fenced &a)
{
    uint32_t xor_so_far = 0;
    Page page;
    for (uint32_t number = 0; number < pages_for(a.bitvector.rows); number++) {
        a.window(number, page);
        for (uint32_t group : page)
            xor_so_far ^= group;
    }
    return xor_so_far;
}

/* How many rows are true in a bin of each of three columns, a column after the other for some pages at a time. */
constexpr size_t QUANTITIES = 23, MONTHS = 12, DISCOUNTS = 3;
constexpr uint32_t BLOCK_PAGES = 32;
using Block = std::array<uint32_t, BLOCK_PAGES * PAGE_GROUPS>;

static void or_column(const Fenced *bins, size_t count, uint32_t first, Block &block)
{
    block.fill(0);
    for (size_t bin = 0; bin < count; bin++)
        bins[bin].or_into(first, block.data(), block.size());
}

static void and_into(Block &block, const Block &other)
{
    for (size_t i = 0; i < block.size(); i++)
        block[i] &= other[i];
}

static uint64_t true_rows(const Block &block)
{
    uint64_t total = 0;
    for (size_t i = 0; i < block.size(); i += 2)
        total += uint64_t(__builtin_popcountll(block[i] | uint64_t(block[i + 1]) << 32));
    return total;
}

static uint64_t selected(const Fenced *bins)
{
    uint64_t total = 0;
    Block block, other;
    for (uint32_t first = 0; first < pages_for(bins[0].bitvector.rows); first += BLOCK_PAGES) {
        or_column(bins + QUANTITIES + MONTHS, DISCOUNTS, first, block);
        or_column(bins + QUANTITIES, MONTHS, first, other);
        and_into(block, other);
        or_column(bins, QUANTITIES, first, other);
        and_into(block, other);
        total += true_rows(block);
    }
    return total;
}

/* The generator SplitMix64. */
class Draws {
public:
    explicit Draws(uint64_t seed) : state(seed) {}

    uint64_t next()
    {
        state += 0x9e3779b97f4a7c15;
        uint64_t z = state;
        z = (z ^ z >> 30) * 0xbf58476d1ce4e5b9;
        z = (z ^ z >> 27) * 0x94d049bb133111eb;
        return z ^ z >> 31;
    }

    uint64_t below(uint64_t limit) { return next() % limit; }

private:
    uint64_t state;
};

enum class Form { DENSE, SPARSE, CLUSTERED, MIXED };

/* Rows without end, drawn in one form. */
class Rows {
public:
    Rows(Form form, uint64_t seed) : form(form), draws(seed) {}

    bool next() { return next_in(form == Form::MIXED ? next_part() : form); }

private:
    Form form;
    Draws draws;
    bool run_value = false;
    uint64_t run_left = 0;
    Form part = Form::DENSE;
    uint64_t part_left = 0;

    bool next_in(Form kind)
    {
        switch (kind) {
        case Form::DENSE:
            return draws.below(2) == 0;
        case Form::SPARSE:
            return draws.below(84) == 0;
        default:
            return next_of_run();
        }
    }

    /* Runs of up to 10,000 rows, false and true in turn. */
    bool next_of_run()
    {
        if (run_left == 0) {
            run_left = 1 + draws.below(10000);
            run_value = !run_value;
        }
        run_left--;
        return run_value;
    }

    /* Parts of up to 50,000 rows. */
    Form next_part()
    {
        if (part_left == 0) {
            part_left = 1 + draws.below(50000);
            static const Form PARTS[3] = { Form::DENSE, Form::SPARSE, Form::CLUSTERED };
            part = PARTS[draws.below(3)];
        }
        part_left--;
        return part;
    }
};

static Bitvector next_bitvector(Rows &rows, uint32_t size)
{
    Bitvector out(size, groups_for(size));
    for (uint32_t first = 0; first < size;) {
        uint32_t count = std::min(GROUP_ROWS, size - first), group = 0;
        for (uint32_t place = 0; place < count; place++)
            group |= uint32_t(rows.next()) << place;
        out.push_run({ group, 1 });
        first += count;
    }
    return out;
}

/* How many words went in, and a mix of them in their order. */
struct Checksum {
    uint64_t words = 0, mix = 0;

    void add(uint64_t word)
    {
        uint64_t product = (mix ^ word) * 0x9e3779b97f4a7c15;
        mix = product ^ product >> 32;
        words++;
    }

    void add(const Bitvector &bitvector)
    {
        for (uint32_t word : bitvector)
            add(word);
    }

    void add(const Fenced &fenced)
    {
        add(fenced.bitvector);
        add(xor_of(fenced));
    }
};

using Clock = std::chrono::steady_clock;

struct Times {
    Clock::duration total{}, least = Clock::duration::max();

    void add(Clock::duration time)
    {
        total += time;
        least = std::min(least, time);
    }
};

template <class Kernel>
static void run_round(Kernel kernel, Checksum &checksum, Times &times)
{
    Clock::time_point began = Clock::now();
    auto outcome = kernel();
    times.add(Clock::now() - began);
    checksum.add(outcome);
}

enum class Kernel { AND, OR, XOR, NOT, COUNT, EXTENDED, FROM_PLACES, TOGGLED, MAKE, BUILD, WINDOW, SELECT };

static size_t input_count(Kernel kernel)
{
    switch (kernel) {
    case Kernel::AND:
    case Kernel::OR:
    case Kernel::XOR:
        return 2;
    case Kernel::SELECT:
        return QUANTITIES + MONTHS + DISCOUNTS;
    default:
        return 1;
    }
}

/* In so many rows one is turned, or true. */
constexpr uint32_t TOGGLE_ROWS = 65536, SPREAD_ROWS = 84;

static std::vector<uint32_t> each_of(uint32_t step, uint32_t rows)
{
    std::vector<uint32_t> places;
    for (uint32_t row = 0; row < rows; row += step)
        places.push_back(row);
    return places;
}

static void run_kernel(Kernel kernel, const Fenced *inputs, Checksum &checksum, Times &times)
{
    const Bitvector &a = inputs[0].bitvector;
    auto run = [&](auto kernel) { run_round(kernel, checksum, times); };
    switch (kernel) {
    case Kernel::AND:
        return run([&] { return combined(a, inputs[1].bitvector, [](uint32_t x, uint32_t y) { return x & y; }); });
    case Kernel::OR:
        return run([&] { return combined(a, inputs[1].bitvector, [](uint32_t x, uint32_t y) { return x | y; }); });
    case Kernel::XOR:
        return run([&] { return combined(a, inputs[1].bitvector, [](uint32_t x, uint32_t y) { return x ^ y; }); });
    case Kernel::NOT:
        return run([&] { return complement(a); });
    case Kernel::COUNT:
        return run([&] { return true_count(a); });
    case Kernel::EXTENDED:
        return run([&] { return extended(a, a.rows + PAGE_ROWS); });
    case Kernel::FROM_PLACES: {
        std::vector<uint32_t> places = each_of(SPREAD_ROWS, a.rows);
        return run([&] { return from_places(places, a.rows); });
    }
    case Kernel::TOGGLED: {
        std::vector<uint32_t> places = each_of(TOGGLE_ROWS, a.rows);
        return run([&] { return toggled(a, places); });
    }
    case Kernel::MAKE: {
        Bitvector copy = extended(a, a.rows);
        return run([&] { return Fenced(std::move(copy)); });
    }
    case Kernel::BUILD:
        return run([&] { return rewritten(inputs[0]); });
    case Kernel::WINDOW:
        return run([&] { return xor_of(inputs[0]); });
    case Kernel::SELECT:
        return run([&] { return selected(inputs); });
    }
}

[[noreturn]] static void usage()
{
    fputs("usage: kernels KERNEL-FORM SEED SIZE ROUNDS [--times]\n", stderr);
    exit(2);
}

template <class Value>
static Value named(std::string_view name, std::initializer_list<std::pair<std::string_view, Value>> values)
{
    for (auto [key, value] : values)
        if (key == name)
            return value;
    usage();
}

template <class Number>
static Number number_of(std::string_view word)
{
    Number number;
    auto [end, fault] = std::from_chars(word.data(), word.data() + word.size(), number);
    if (fault != std::errc() || end != word.data() + word.size())
        usage();
    return number;
}

static double seconds(Clock::duration time)
{
    return std::chrono::duration<double>(time).count();
}

int main(int count, char **words)
{
    bool tells_times = count == 6 && std::string_view(words[5]) == "--times";
    if (count != 5 && !tells_times)
        usage();
    std::string_view task = words[1];
    size_t hyphen = task.find('-');
    if (hyphen == task.npos)
        usage();
    Kernel kernel = named<Kernel>(task.substr(0, hyphen), { { "and", Kernel::AND }, { "or", Kernel::OR },
        { "xor", Kernel::XOR }, { "not", Kernel::NOT }, { "count", Kernel::COUNT }, { "extended", Kernel::EXTENDED },
        { "from_places", Kernel::FROM_PLACES }, { "toggled", Kernel::TOGGLED }, { "make", Kernel::MAKE },
        { "build", Kernel::BUILD }, { "window", Kernel::WINDOW }, { "select", Kernel::SELECT } });
    Form form = named<Form>(task.substr(hyphen + 1), { { "dense", Form::DENSE }, { "sparse", Form::SPARSE },
        { "clustered", Form::CLUSTERED }, { "mixed", Form::MIXED } });
    uint64_t seed = number_of<uint64_t>(words[2]);
    uint32_t size = number_of<uint32_t>(words[3]), rounds = number_of<uint32_t>(words[4]);
    if (rounds == 0)
        usage();

    Rows rows(form, seed);
    std::vector<Fenced> inputs;
    for (size_t made = 0; made <= input_count(kernel); made++)
        inputs.emplace_back(next_bitvector(rows, size));
    Checksum checksum;
    Times times;
    for (uint32_t round = 0; round < rounds; round++) {
        /* The checksum chooses the inputs, so that no round can be foretold from the one before. */
        run_kernel(kernel, inputs.data() + checksum.mix % 2, checksum, times);
    }
    printf("words=%llu mix=%016llx\n", (unsigned long long)checksum.words, (unsigned long long)checksum.mix);
    if (tells_times)
        fprintf(stderr, "mean=%.9f least=%.9f\n", seconds(times.total) / rounds, seconds(times.least));
    return fflush(stdout) != 0;
}
