// The formats of a block in C++: packed at the block's own width, runs, and differences in either.
//
// Usage: formats (decode|check) FORMAT SHAPE ROUNDS. A round goes over eight blocks. It prints a checksum.
#include "blocks.hpp"
#include <algorithm>
#include <cstdint>
#include <cstdio>
#include <cstdlib>
#include <cstring>
#include <string>
#include <vector>

constexpr size_t BLOCKS = 8;

// Packed at the block's own width, which stands before it.
struct Dynamic {
    typedef int Head;

    static size_t size(int width) { return 1 + 128 * (size_t)width; }

    static void encode(const uint64_t *values, Bytes &bytes) {
        uint64_t all = 0;
        for (size_t place = 0; place < VALUES; place++) all |= values[place];
        const int width = all ? 64 - __builtin_clzll(all) : 0;
        std::vector<uint64_t> words(STRANDS * width);
        for (size_t place = 0; place < VALUES; place++) {
            const size_t bit = place / STRANDS * width, word = bit / 64 * STRANDS + place % STRANDS;
            if (width == 0) continue;
            words[word] |= values[place] << bit % 64;
            if (bit % 64 + width > 64) words[word + STRANDS] |= values[place] >> (64 - bit % 64);
        }
        bytes.push_back(width);
        const uint8_t *first = (const uint8_t *)words.data();
        bytes.insert(bytes.end(), first, first + 8 * words.size());
    }

    static Head head(const uint8_t *bytes) { return bytes[0]; }

    // Whether the highest bit of the width is set in some value; the lines are read up to the first such value.
    static bool is_least(const uint8_t *packed, int width) {
        for (size_t row = 0; row < ROWS; row++) {
            const size_t bit = row * width + width - 1;
            const uint8_t *line = packed + bit / 64 * STRANDS * 8;
            uint64_t all = 0;
            for (size_t strand = 0; strand < STRANDS; strand++) all |= number_at<uint64_t>(line + 8 * strand);
            if (all >> bit % 64 & 1) return true;
        }
        return width == 0;
    }

    static size_t check(const uint8_t *bytes, size_t count) {
        if (count < 1 || bytes[0] > 64 || count < size(bytes[0])) return 0;
        return is_least(bytes + 1, bytes[0]) ? size(bytes[0]) : 0;
    }

    static void decode(int width, const uint8_t *bytes, uint64_t *values) {
        if (width == 0) {
            std::fill_n(values, VALUES, 0);
            return;
        }
        const uint64_t mask = ~0ull >> (64 - width);
        for (size_t row = 0; row < ROWS; row++) {
            const size_t bit = row * width, shift = bit % 64;
            const uint8_t *low = bytes + 1 + bit / 64 * STRANDS * 8;
            for (size_t strand = 0; strand < STRANDS; strand += LANES) {
                lanes value = *(const lanes *)(low + 8 * strand) >> shift;
                if (shift + width > 64) value |= *(const lanes *)(low + 8 * (STRANDS + strand)) << (64 - shift);
                *(lanes *)(values + row * STRANDS + strand) = value & mask;
            }
        }
    }
};

// Values and how often each repeats.
struct Runs {
    typedef size_t Head;

    static size_t size(size_t runs) { return 2 + CELL * runs; }

    static void encode(const uint64_t *values, Bytes &bytes) {
        const size_t front = bytes.size();
        uint16_t runs = 0;
        put_number(bytes, runs);
        for (size_t place = 0, end; place < VALUES; place = end, runs++) {
            for (end = place; end < VALUES && values[end] == values[place];) end++;
            put_number(bytes, values[place]);
            put_number(bytes, (uint16_t)(end - place));
        }
        memcpy(&bytes[front], &runs, 2);
    }

    static Head head(const uint8_t *bytes) { return number_at<uint16_t>(bytes); }

    static size_t check(const uint8_t *bytes, size_t count) {
        if (count < 2) return 0;
        const size_t runs = head(bytes);
        if (runs == 0 || runs > VALUES || count < size(runs)) return 0;
        const uint8_t *cell = bytes + 2;
        size_t left = VALUES;
        for (size_t run = 0; run < runs; run++, cell += CELL) {
            const size_t times = number_at<uint16_t>(cell + 8);
            if (times == 0 || times > left) return 0;
            if (run && number_at<uint64_t>(cell) == number_at<uint64_t>(cell - CELL)) return 0;
            left -= times;
        }
        return left == 0 ? size(runs) : 0;
    }

    static void decode(size_t runs, const uint8_t *bytes, uint64_t *values) { write_runs(runs, bytes + 2, values); }
};

// The differences to the value GAP places before, and of the first ones to the first value.
template <size_t GAP> struct Delta {
    static uint64_t split(const uint64_t *values, uint64_t *differences) {
        for (size_t place = 0; place < VALUES; place++) differences[place] = values[place] - values[place < GAP ? 0 : place - GAP];
        return values[0];
    }

    static bool allowed(uint64_t, const uint64_t *differences) { return differences[0] == 0; }

    static void join(uint64_t base, uint64_t *block) {
        for (size_t place = 0; place < GAP; place++) block[place] += base;
        for (size_t place = GAP; place < VALUES; place++) block[place] += block[place - GAP];
    }
};

template <> void Delta<1>::join(uint64_t base, uint64_t *block) {
    for (size_t place = 0; place < VALUES; place++) block[place] = base += block[place];
}

// The differences to the least value.
struct Reference {
    static uint64_t split(const uint64_t *values, uint64_t *differences) {
        const uint64_t least = *std::min_element(values, values + VALUES);
        for (size_t place = 0; place < VALUES; place++) differences[place] = values[place] - least;
        return least;
    }

    // Where the base can be added to all their bits, it can be added to each, and the greatest is not looked for.
    static bool allowed(uint64_t base, const uint64_t *differences) {
        uint64_t all = 0, zeros = 0;
        for (size_t place = 0; place < VALUES; place++) {
            all |= differences[place];
            zeros += differences[place] == 0;
        }
        return zeros && (all <= ~0ull - base || *std::max_element(differences, differences + VALUES) <= ~0ull - base);
    }

    static void join(uint64_t base, uint64_t *block) {
        for (size_t place = 0; place < VALUES; place++) block[place] += base;
    }
};

template <class Transform, class Packing> struct Cascade {
    struct Head {
        uint64_t base;
        typename Packing::Head inner;
    };

    static void encode(const uint64_t *values, Bytes &bytes) {
        Block differences;
        put_number(bytes, Transform::split(values, differences));
        Packing::encode(differences, bytes);
    }

    static Head head(const uint8_t *bytes) { return {number_at<uint64_t>(bytes), Packing::head(bytes + 8)}; }

    static size_t check(const uint8_t *bytes, size_t count) {
        if (count < 8) return 0;
        const size_t size = Packing::check(bytes + 8, count - 8);
        if (size == 0) return 0;
        Block differences;
        Packing::decode(Packing::head(bytes + 8), bytes + 8, differences);
        return Transform::allowed(number_at<uint64_t>(bytes), differences) ? 8 + size : 0;
    }

    static void decode(Head head, const uint8_t *bytes, uint64_t *values) {
        Packing::decode(head.inner, bytes + 8, values);
        Transform::join(head.base, values);
    }
};

// A random number of so many bits stands for a random number of places; it is added to the base, or to the value before.
struct Shape {
    int bits;
    uint64_t longest, base;
    bool rises;
};
constexpr uint64_t BASE = 1ull << 40;
constexpr Shape SHAPES[] = {{7, 1, 0, false}, {33, 1, 0, false}, {20, 40, 0, false}, {20, 2, 0, false}, {4, 1, BASE, true},
                            {20, 1, BASE, true}, {10, 1, BASE, false}, {33, 1, BASE, false}, {10, 40, BASE, true}, {10, 2, BASE, true}};

void make_block(const Shape &shape, uint64_t state, uint64_t *values) {
    uint64_t left = 0, random = 0, before = shape.base;
    auto next = [&] { return state = state * 6364136223846793005ull + 1442695040888963407ull; };
    for (size_t place = 0; place < VALUES; place++, left--) {
        if (left == 0) {
            random = next() >> (64 - shape.bits);
            left = (next() >> 33) % shape.longest + 1;
        }
        values[place] = before + random;
        if (shape.rises) before = values[place];
    }
}

template <class Packing> __attribute__((noinline)) size_t check(const Bytes &bytes) { return Packing::check(bytes.data(), bytes.size()); }

template <class Packing> __attribute__((noinline)) void decode(typename Packing::Head head, const Bytes &bytes, uint64_t *values) {
    Packing::decode(head, bytes.data(), values);
}

template <class Packing> uint64_t rounds_of(bool decodes, const Shape &shape, uint64_t rounds) {
    static Block values;
    Bytes blocks[BLOCKS];
    typename Packing::Head heads[BLOCKS];
    for (size_t number = 0; number < BLOCKS; number++) {
        make_block(shape, number + 1, values);
        Packing::encode(values, blocks[number]);
        heads[number] = Packing::head(blocks[number].data());
    }
    uint64_t sum = 0;
    for (uint64_t round = 0; round < rounds; round++) {
        for (size_t number = 0; number < BLOCKS; number++) {
            asm volatile("" ::: "memory");
            if (decodes) {
                decode<Packing>(heads[number], blocks[number], values);
                sum += values[round & 1023];
            } else if (const size_t size = check<Packing>(blocks[number])) {
                sum += size ^ round;
            }
        }
    }
    return sum;
}

int main(int count, char **words) {
    if (count < 5) return 2;
    const bool decodes = std::string(words[1]) == "decode";
    const std::string format = words[2];
    const Shape &shape = SHAPES[std::min(9, atoi(words[3]))];
    const uint64_t rounds = strtoull(words[4], nullptr, 10);
    uint64_t sum = 0;
    if (format == "dynamic") sum = rounds_of<Dynamic>(decodes, shape, rounds);
    if (format == "runs") sum = rounds_of<Runs>(decodes, shape, rounds);
    if (format == "delta1+dynamic") sum = rounds_of<Cascade<Delta<1>, Dynamic>>(decodes, shape, rounds);
    if (format == "delta16+dynamic") sum = rounds_of<Cascade<Delta<16>, Dynamic>>(decodes, shape, rounds);
    if (format == "reference+dynamic") sum = rounds_of<Cascade<Reference, Dynamic>>(decodes, shape, rounds);
    if (format == "delta1+runs") sum = rounds_of<Cascade<Delta<1>, Runs>>(decodes, shape, rounds);
    printf("%llu\n", (unsigned long long)sum);
}
