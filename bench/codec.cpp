// The layout of strand_pack in C++: value i of a block of 1,024 stands in strand i mod 16, row i div 16, and bit b of row r
// is bit r * width + b of its strand; bit k of strand s is bit k mod 64 of word (k div 64) * 16 + s.
//
// Usage: codec (pack|unpack) WIDTH (scalar|vector) ROUNDS. A round goes over eight blocks. It prints a checksum.
#include <cstdint>
#include <cstdio>
#include <cstdlib>
#include <string>

constexpr int STRANDS = 16, ROWS = 64, BLOCKS = 8;
// as many lanes as a register of the processor level has
#ifdef __AVX2__
constexpr int REGISTER = 32;
#else
constexpr int REGISTER = 16;
#endif
typedef uint64_t lanes __attribute__((vector_size(REGISTER), aligned(8), may_alias));

struct Scalar {
    static constexpr int LANES = 1;
    typedef uint64_t word;
};

struct Vector {
    static constexpr int LANES = REGISTER / 8;
    typedef lanes word;
};

template <class W>
__attribute__((noinline)) void unpack(const uint64_t *words, int width, uint64_t *values) {
    typedef typename W::word word;
    const uint64_t mask = width == 64 ? ~0ull : (1ull << width) - 1;
    for (int row = 0; row < ROWS; row++) {
        const int bit = row * width, shift = bit % 64;
        const uint64_t *low = words + bit / 64 * STRANDS;
        for (int strand = 0; strand < STRANDS; strand += W::LANES) {
            word value = *(const word *)(low + strand) >> shift;
            if (shift + width > 64) value |= *(const word *)(low + STRANDS + strand) << (64 - shift);
            *(word *)(values + row * STRANDS + strand) = value & mask;
        }
    }
}

template <class W>
__attribute__((noinline)) void pack(const uint64_t *values, int width, uint64_t *words) {
    typedef typename W::word word;
    for (int strand = 0; strand < STRANDS; strand += W::LANES) {
        word open = {};
        int bit = 0;
        uint64_t *into = words + strand;
        for (int row = 0; row < ROWS; row++) {
            const word value = *(const word *)(values + row * STRANDS + strand);
            open |= value << bit;
            bit += width;
            if (bit >= 64) {
                *(word *)into = open;
                into += STRANDS;
                bit -= 64;
                open = bit ? value >> (width - bit) : word{};
            }
        }
    }
}

template <class W> uint64_t rounds_of(bool unpacks, int width, long rounds) {
    static uint64_t words[BLOCKS * 1024 + 64], values[1024];
    const uint64_t mask = width == 64 ? ~0ull : (1ull << width) - 1;
    uint64_t value = 1, sum = 0;
    for (int place = 0; place < 1024; place++) {
        value = value * 6364136223846793005ull + 1442695040888963407ull;
        values[place] = (value >> 7 ^ value) & mask;
    }
    for (int block = 0; block < BLOCKS; block++) pack<W>(values, width, words + block * 16 * width);
    for (long round = 0; round < rounds; round++) {
        for (int block = 0; block < BLOCKS; block++) {
            if (unpacks) {
                unpack<W>(words + block * 16 * width, width, values);
                sum += values[round & 1023];
            } else {
                pack<W>(values, width, words + block * 16 * width);
            }
        }
        if (!unpacks) sum += ((const uint8_t *)words)[round & 1023];
    }
    return sum;
}

int main(int count, char **words) {
    if (count < 5) return 2;
    const bool unpacks = std::string(words[1]) == "unpack", vector = std::string(words[3]) == "vector";
    const int width = atoi(words[2]);
    const long rounds = atol(words[4]);
    const uint64_t sum = vector ? rounds_of<Vector>(unpacks, width, rounds) : rounds_of<Scalar>(unpacks, width, rounds);
    printf("%llu\n", (unsigned long long)sum);
}
