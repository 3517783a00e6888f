// The sizes of a list's files in C++: in all formats by one pass over each block, or in one format.
//
// Usage: sizes WHAT SHAPE VALUES ROUNDS. WHAT is `whole`, `pieces` or `pushes`, for all formats, or a format's name. It prints
// a checksum.
#include "blocks.hpp"
#include <cstdio>
#include <cstdlib>
#include <string>

enum Format { PLAIN, STATIC, DYNAMIC, RUNS, DELTA1_DYNAMIC, DELTA16_DYNAMIC, REFERENCE_DYNAMIC, DELTA1_RUNS, FORMATS };
const char *NAMES[FORMATS] = {"plain", "static", "dynamic", "runs", "delta1+dynamic", "delta16+dynamic", "reference+dynamic", "delta1+runs"};

static uint64_t width_of_bits(uint64_t all) { return all ? 64 - __builtin_clzll(all) : 0; }

static uint64_t bits_of(const uint64_t *values, size_t count) {
    uint64_t all = 0;
    for (size_t place = 0; place < count; place++) all |= values[place];
    return all;
}

static uint64_t tail_size(const uint64_t *tail, size_t count, bool words) {
    return words ? 8 * count : (count * width_of_bits(bits_of(tail, count)) + 7) / 8;
}

// What is kept of whole blocks in all formats.
struct Sums {
    uint64_t width = 0, sizes[FORMATS] = {};

    void add(const uint64_t *values) {
        uint64_t all = values[0], steps = 0, gaps = 0, low = values[0], high = values[0], runs = 1, turns = 1;
        auto next = [&](size_t place, uint64_t twice, uint64_t earlier) {
            const uint64_t value = values[place], before = values[place - 1], step = value - before;
            all |= value;
            steps |= step;
            gaps |= value - earlier;
            low = value < low ? value : low;
            high = value > high ? value : high;
            runs += value != before;
            turns += step != before - twice;
        };
        for (size_t place = 1; place < 16; place++) next(place, values[place < 2 ? 0 : place - 2], values[0]);
        for (size_t place = 16; place < VALUES; place++) next(place, values[place - 2], values[place - 16]);
        width = std::max(width, width_of_bits(all));
        sizes[DYNAMIC] += 1 + 128 * width_of_bits(all);
        sizes[RUNS] += 2 + 10 * runs;
        sizes[DELTA1_DYNAMIC] += 9 + 128 * width_of_bits(steps);
        sizes[DELTA16_DYNAMIC] += 9 + 128 * width_of_bits(gaps);
        sizes[REFERENCE_DYNAMIC] += 9 + 128 * width_of_bits(high - low);
        sizes[DELTA1_RUNS] += 10 + 10 * turns;
    }
};

// What is kept of whole blocks in one format.
struct Sum {
    Format format;
    uint64_t width = 0, size = 0;

    void add(const uint64_t *values) {
        uint64_t all = 0, low = values[0], high = values[0], runs = 1;
        switch (format) {
        case PLAIN:
            size += 8192;
            break;
        case STATIC:
            width = std::max(width, width_of_bits(bits_of(values, VALUES)));
            break;
        case DYNAMIC:
            size += 1 + 128 * width_of_bits(bits_of(values, VALUES));
            break;
        case RUNS:
            for (size_t place = 1; place < VALUES; place++) runs += values[place] != values[place - 1];
            size += 2 + 10 * runs;
            break;
        case DELTA1_DYNAMIC:
            for (size_t place = 1; place < VALUES; place++) all |= values[place] - values[place - 1];
            size += 9 + 128 * width_of_bits(all);
            break;
        case DELTA16_DYNAMIC:
            for (size_t place = 1; place < 16; place++) all |= values[place] - values[0];
            for (size_t place = 16; place < VALUES; place++) all |= values[place] - values[place - 16];
            size += 9 + 128 * width_of_bits(all);
            break;
        case REFERENCE_DYNAMIC:
            for (size_t place = 1; place < VALUES; place++) {
                low = values[place] < low ? values[place] : low;
                high = values[place] > high ? values[place] : high;
            }
            size += 9 + 128 * width_of_bits(high - low);
            break;
        default:
            runs += values[1] != values[0];
            for (size_t place = 2; place < VALUES; place++)
                runs += values[place] - values[place - 1] != values[place - 1] - values[place - 2];
            size += 10 + 10 * runs;
        }
    }
};

// A list as it comes: what wants the blocks, and the values that make none yet.
template <class Meter> struct Tally {
    Meter meter;
    uint64_t count = 0;
    size_t waiting = 0;
    Block block;

    void close() {
        if (waiting == VALUES) {
            meter.add(block);
            waiting = 0;
        }
    }

    void push(uint64_t value) {
        block[waiting++] = value;
        count++;
        close();
    }

    void extend(const uint64_t *values, size_t length) {
        while (length) {
            size_t taken = std::min(length, VALUES - waiting);
            if (taken == VALUES) {
                meter.add(values);
            } else {
                memcpy(block + waiting, values, 8 * taken);
                waiting += taken;
                close();
            }
            count += taken;
            values += taken;
            length -= taken;
        }
    }
};

static uint64_t profile_round(const std::string &what, const std::vector<uint64_t> &values, uint64_t round) {
    Tally<Sums> tally;
    if (what == "pushes") {
        for (uint64_t value : values) tally.push(value);
    } else {
        const size_t piece = what == "pieces" ? 300 : 1 << 28;
        for (size_t taken = 0; taken < values.size();) {
            const size_t part = std::min(piece, values.size() - taken);
            tally.extend(values.data() + taken, part);
            taken += part;
        }
    }
    const uint64_t blocks = tally.count / VALUES;
    const uint64_t packed = 16 + tail_size(tally.block, tally.waiting, false);
    uint64_t *sizes = tally.meter.sizes, sum = round ^ tally.meter.width, least = 0;
    for (uint64_t format = DYNAMIC; format < FORMATS; format++) sizes[format] += packed + 8 * blocks;
    sizes[PLAIN] = 16 + 8192 * blocks + tail_size(tally.block, tally.waiting, true);
    sizes[STATIC] = packed + 128 * tally.meter.width * blocks;
    for (uint64_t format = PLAIN; format < FORMATS; format++) {
        sum = 31 * sum + sizes[format];
        if (sizes[format] < sizes[least]) least = format;
    }
    return sum + least;
}

static uint64_t format_round(Format format, const std::vector<uint64_t> &values, uint64_t round) {
    Tally<Sum> tally;
    tally.meter.format = format;
    tally.extend(values.data(), values.size());
    const uint64_t blocks = tally.count / VALUES, width = tally.meter.width;
    const uint64_t start = 16 + (format < DYNAMIC ? 0 : 8 * blocks);
    const uint64_t size = start + 128 * width * blocks + tally.meter.size + tail_size(tally.block, tally.waiting, format == PLAIN);
    return 31 * (size ^ round) + width;
}

// The values of `shapes::Random` that the other side has.
static std::vector<uint64_t> values_of(const std::string &shape, size_t count) {
    const bool runs = shape == "runs", rises = shape == "rising";
    const int bits = runs ? 12 : rises ? 4 : 14;
    const uint64_t longest = runs ? 40 : 1;
    uint64_t state = 1, left = 0, drawn = 0, base = 0;
    auto next = [&] { return state = state * 6364136223846793005ull + 1442695040888963407ull; };
    std::vector<uint64_t> values(count);
    for (uint64_t &value : values) {
        if (left == 0) {
            drawn = next() >> (64 - bits);
            left = (next() >> 33) % longest + 1;
        }
        left--;
        value = base + drawn;
        if (rises) base = value;
    }
    return values;
}

int main(int count, char **words) {
    if (count < 5) return 0;
    const std::string what = words[1];
    const std::vector<uint64_t> values = values_of(words[2], strtoull(words[3], nullptr, 10));
    const uint64_t rounds = strtoull(words[4], nullptr, 10);
    int format = 0;
    while (format < FORMATS && what != NAMES[format]) format++;
    uint64_t sum = 0;
    for (uint64_t round = 0; round < rounds; round++)
        sum += format < FORMATS ? format_round((Format)format, values, round) : profile_round(what, values, round);
    printf("%llu\n", (unsigned long long)sum);
}
