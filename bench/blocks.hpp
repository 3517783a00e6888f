// What the benchmarks of blocks and columns share: the sizes of a block, a register's lanes, and numbers as bytes.
#pragma once
#include <algorithm>
#include <cstddef>
#include <cstdint>
#include <cstring>
#include <vector>

using std::size_t;
constexpr size_t VALUES = 1024, STRANDS = 16, ROWS = 64;
// as many lanes as a register of the processor level has
#ifdef __AVX2__
constexpr size_t LANES = 4;
#else
constexpr size_t LANES = 2;
#endif
typedef uint64_t lanes __attribute__((vector_size(8 * LANES), aligned(1), may_alias));
typedef uint64_t Block[VALUES];
typedef std::vector<uint8_t> Bytes;

template <class Number> Number number_at(const uint8_t *bytes) {
    Number number;
    memcpy(&number, bytes, sizeof number);
    return number;
}

template <class Number> void put_number(Bytes &bytes, Number number) {
    const uint8_t *first = (const uint8_t *)&number;
    bytes.insert(bytes.end(), first, first + sizeof number);
}

// how many bytes a run takes: its value and its length
constexpr size_t CELL = 10;

// A short run is written in as many places as a fixed number of stores has; what stands behind it is written later.
static inline void write_runs(size_t runs, const uint8_t *cell, uint64_t *values) {
    constexpr size_t SHORT = 4;
    for (size_t run = 0, place = 0; run < runs; run++, cell += CELL) {
        const size_t times = number_at<uint16_t>(cell + 8);
        if (times <= SHORT && place + SHORT <= VALUES) {
            std::fill_n(values + place, SHORT, number_at<uint64_t>(cell));
        } else {
            std::fill_n(values + place, times, number_at<uint64_t>(cell));
        }
        place += times;
    }
}
