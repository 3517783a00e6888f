// Columns in C++: the same files of version 2, with blocks as words, packed, as differences that are packed, and as runs, with a
// directory where the blocks differ in length, and with a packed tail.
//
// Usage: columns TASK FORMAT COUNT ROUNDS [pick|block|FORMAT]. The task is cursor, build, list, rising, random or morph. The last
// word says how values are looked up, by picking each from the bytes or by decoding its block, or is a morph's new format. It
// prints a checksum.
#include "blocks.hpp"
#include <algorithm>
#include <cstdint>
#include <cstdio>
#include <cstdlib>
#include <cstring>
#include <malloc.h>
#include <memory>
#include <string>
#include <vector>

constexpr size_t HEAD = 16, SPARSE = 3;
typedef std::vector<uint64_t> Words;

int width_of(const uint64_t *values, size_t count) {
    uint64_t all = 0;
    for (size_t place = 0; place < count; place++) all |= values[place];
    return all ? 64 - __builtin_clzll(all) : 0;
}

void pack(const uint64_t *values, int width, uint8_t *into) {
    for (size_t strand = 0; strand < STRANDS; strand += LANES) {
        lanes open = {};
        int bit = 0;
        uint8_t *words = into + 8 * strand;
        for (size_t row = 0; row < ROWS; row++) {
            const lanes value = *(const lanes *)(values + row * STRANDS + strand);
            open |= value << bit;
            bit += width;
            if (bit >= 64) {
                *(lanes *)words = open;
                words += 8 * STRANDS;
                bit -= 64;
                open = bit ? value >> (width - bit) : lanes{};
            }
        }
    }
}

void unpack(const uint8_t *bytes, int width, uint64_t *values) {
    if (width == 0) {
        std::fill_n(values, VALUES, 0);
        return;
    }
    const uint64_t mask = ~0ull >> (64 - width);
    for (size_t row = 0; row < ROWS; row++) {
        const size_t bit = row * width, shift = bit % 64;
        const uint8_t *low = bytes + bit / 64 * STRANDS * 8;
        for (size_t strand = 0; strand < STRANDS; strand += LANES) {
            lanes value = *(const lanes *)(low + 8 * strand) >> shift;
            if (shift + width > 64) value |= *(const lanes *)(low + 8 * (STRANDS + strand)) << (64 - shift);
            *(lanes *)(values + row * STRANDS + strand) = value & mask;
        }
    }
}

uint64_t pick_packed(const uint8_t *bytes, int width, size_t place) {
    if (width == 0) return 0;
    const size_t bit = place / STRANDS * width, shift = bit % 64;
    const uint8_t *low = bytes + (bit / 64 * STRANDS + place % STRANDS) * 8;
    uint64_t value = number_at<uint64_t>(low) >> shift;
    if (shift + width > 64) value |= number_at<uint64_t>(low + 8 * STRANDS) << (64 - shift);
    return value & (~0ull >> (64 - width));
}

// How many bytes so many values of a tail take.
size_t tail_size(size_t count, int width) { return (count * width + 7) / 8; }

void pack_tail(const uint64_t *values, size_t count, int width, uint8_t *into) {
    if (width == 64) {
        memcpy(into, values, 8 * count);
        return;
    }
    // the bits that wait for a word
    unsigned __int128 open = 0;
    int bits = 0;
    for (size_t place = 0; place < count; place++) {
        open |= (unsigned __int128)values[place] << bits;
        bits += width;
        if (bits >= 64) {
            memcpy(into, &open, 8);
            into += 8;
            bits -= 64;
            open >>= 64;
        }
    }
    memcpy(into, &open, (bits + 7) / 8);
}

// The value at a place of a tail, from at most 16 bytes.
uint64_t pick_tail(const uint8_t *bytes, size_t size, int width, size_t place) {
    if (width == 0) return 0;
    const size_t bit = place * width;
    unsigned __int128 window = 0;
    if (bit / 8 + 16 <= size) {
        memcpy(&window, bytes + bit / 8, 16);
    } else {
        memcpy(&window, bytes + bit / 8, size - bit / 8);
    }
    return (uint64_t)(window >> bit % 8) & (~0ull >> (64 - width));
}

void unpack_tail(const uint8_t *bytes, size_t size, int width, size_t count, uint64_t *values) {
    if (width == 64) {
        memcpy(values, bytes, size);
        return;
    }
    for (size_t place = 0; place < count; place++) values[place] = pick_tail(bytes, size, width, place);
}

// Each format encodes a block at the end of a file, decodes it from its first byte, and picks a value. The blocks of the first two
// have one length. A format that morphs go to says how long a block is, and writes it where there is room.
struct Plain {
    static constexpr int TAG = 0;

    static size_t size(int) { return sizeof(Block); }

    static void encode(int, const uint64_t *values, Bytes &bytes) {
        const uint8_t *first = (const uint8_t *)values;
        bytes.insert(bytes.end(), first, first + sizeof(Block));
    }

    static size_t length(const uint64_t *) { return sizeof(Block); }

    static size_t write(const uint64_t *values, uint8_t *into) {
        memcpy(into, values, sizeof(Block));
        return sizeof(Block);
    }

    static void decode(int, const uint8_t *bytes, uint64_t *values) { memcpy(values, bytes, sizeof(Block)); }

    static uint64_t pick(int, const uint8_t *bytes, size_t place) { return number_at<uint64_t>(bytes + 8 * place); }
};

struct Static {
    static constexpr int TAG = 1;

    static size_t size(int width) { return 128 * width; }

    static void encode(int width, const uint64_t *values, Bytes &bytes) {
        const size_t end = bytes.size();
        bytes.resize(end + 128 * width);
        pack(values, width, &bytes[end]);
    }

    static void decode(int width, const uint8_t *bytes, uint64_t *values) { unpack(bytes, width, values); }

    static uint64_t pick(int width, const uint8_t *bytes, size_t place) { return pick_packed(bytes, width, place); }
};

struct Dynamic {
    static constexpr int TAG = 2;

    static void encode(int, const uint64_t *values, Bytes &bytes) {
        const int width = width_of(values, VALUES);
        const size_t end = bytes.size();
        bytes.resize(end + 1 + 128 * width);
        bytes[end] = width;
        pack(values, width, &bytes[end] + 1);
    }

    static size_t length(const uint64_t *values) { return 1 + 128 * width_of(values, VALUES); }

    static size_t write(const uint64_t *values, uint8_t *into) {
        const int width = width_of(values, VALUES);
        into[0] = width;
        pack(values, width, into + 1);
        return 1 + 128 * width;
    }

    static void decode(int, const uint8_t *bytes, uint64_t *values) { unpack(bytes + 1, bytes[0], values); }

    static uint64_t pick(int, const uint8_t *bytes, size_t place) { return pick_packed(bytes + 1, bytes[0], place); }
};

struct Runs {
    static constexpr int TAG = 3;

    static void encode(int, const uint64_t *values, Bytes &bytes) {
        const size_t front = bytes.size();
        bytes.resize(front + 2 + CELL * VALUES);
        bytes.resize(front + write(values, &bytes[front]));
    }

    static size_t length(const uint64_t *values) {
        size_t runs = 1;
        for (size_t place = 1; place < VALUES; place++) runs += values[place] != values[place - 1];
        return 2 + CELL * runs;
    }

    static size_t write(const uint64_t *values, uint8_t *into) {
        uint16_t runs = 0;
        uint8_t *cell = into + 2;
        for (size_t place = 0, end; place < VALUES; place = end, runs++, cell += CELL) {
            for (end = place; end < VALUES && values[end] == values[place];) end++;
            const uint16_t times = end - place;
            memcpy(cell, values + place, 8);
            memcpy(cell + 8, &times, 2);
        }
        memcpy(into, &runs, 2);
        return 2 + CELL * runs;
    }

    static void decode(int, const uint8_t *bytes, uint64_t *values) { write_runs(number_at<uint16_t>(bytes), bytes + 2, values); }

    static uint64_t pick(int, const uint8_t *bytes, size_t place) {
        const uint8_t *cell = bytes + 2;
        for (size_t end = number_at<uint16_t>(cell + 8); end <= place; end += number_at<uint16_t>(cell + 8)) cell += CELL;
        return number_at<uint64_t>(cell);
    }
};

// The differences to the value before. One value is the sum of all up to it, and no later row is unpacked for it.
struct Delta {
    static constexpr int TAG = 4;

    static void encode(int, const uint64_t *values, Bytes &bytes) {
        Block differences;
        differences[0] = 0;
        for (size_t place = 1; place < VALUES; place++) differences[place] = values[place] - values[place - 1];
        put_number(bytes, values[0]);
        Dynamic::encode(0, differences, bytes);
    }

    static size_t length(const uint64_t *values) {
        uint64_t all = 0;
        for (size_t place = 1; place < VALUES; place++) all |= values[place] - values[place - 1];
        return 8 + 1 + 128 * width_of(&all, 1);
    }

    static size_t write(const uint64_t *values, uint8_t *into) {
        Block differences;
        differences[0] = 0;
        for (size_t place = 1; place < VALUES; place++) differences[place] = values[place] - values[place - 1];
        memcpy(into, values, 8);
        return 8 + Dynamic::write(differences, into + 8);
    }

    static void decode(int, const uint8_t *bytes, uint64_t *values) {
        Dynamic::decode(0, bytes + 8, values);
        uint64_t before = number_at<uint64_t>(bytes);
        for (size_t place = 0; place < VALUES; place++) values[place] = before += values[place];
    }

    static uint64_t pick(int, const uint8_t *bytes, size_t place) {
        uint64_t sum = number_at<uint64_t>(bytes);
        const int width = bytes[8];
        if (width == 0) return sum;
        const uint64_t mask = ~0ull >> (64 - width);
        lanes sums = {};
        for (size_t row = 0; row < place / STRANDS; row++) {
            const size_t bit = row * width, shift = bit % 64;
            const uint8_t *low = bytes + 9 + bit / 64 * STRANDS * 8;
            for (size_t strand = 0; strand < STRANDS; strand += LANES) {
                lanes value = *(const lanes *)(low + 8 * strand) >> shift;
                if (shift + width > 64) value |= *(const lanes *)(low + 8 * (STRANDS + strand)) << (64 - shift);
                sums += value & mask;
            }
        }
        for (size_t lane = 0; lane < LANES; lane++) sum += sums[lane];
        for (size_t rest = place / STRANDS * STRANDS; rest <= place; rest++) sum += pick_packed(bytes + 9, width, rest);
        return sum;
    }
};

// The differences to the least value.
struct Reference {
    static constexpr int TAG = 6;

    static void encode(int, const uint64_t *values, Bytes &bytes) {
        Block differences;
        const uint64_t least = *std::min_element(values, values + VALUES);
        for (size_t place = 0; place < VALUES; place++) differences[place] = values[place] - least;
        put_number(bytes, least);
        Dynamic::encode(0, differences, bytes);
    }

    static void decode(int, const uint8_t *bytes, uint64_t *values) {
        Dynamic::decode(0, bytes + 8, values);
        const uint64_t least = number_at<uint64_t>(bytes);
        for (size_t place = 0; place < VALUES; place++) values[place] += least;
    }

    static uint64_t pick(int, const uint8_t *bytes, size_t place) {
        return number_at<uint64_t>(bytes) + Dynamic::pick(0, bytes + 8, place);
    }
};

// A column's file, and what its head says.
struct Column {
    int tag, width, tail_width;
    uint64_t count;
    Bytes bytes;

    size_t whole() const { return count / VALUES; }
    size_t rest() const { return count % VALUES; }
    size_t tail_len() const { return tail_size(rest(), tail_width); }
    const uint8_t *tail() const { return bytes.data() + bytes.size() - tail_len(); }

    template <class Form> const uint8_t *block(size_t number) const {
        if constexpr (Form::TAG < 2) return &bytes[HEAD + Form::size(width) * number];
        else return &bytes[number_at<uint64_t>(&bytes[HEAD + 8 * number])];
    }
};

void put_head(uint8_t *into, int tag, int width, int tail_width, uint64_t count) {
    memcpy(into, "MCOL\2", 5);
    into[5] = tag;
    into[6] = width;
    into[7] = tail_width;
    memcpy(into + 8, &count, 8);
}

// A column under way: its blocks, behind room for the head and for as many entries of a directory as there are known to be.
template <class Form> struct Blocks {
    Column column;
    Words starts;
    size_t room;

    Blocks(int width, size_t blocks) : column{Form::TAG, width, 0, 0, {}}, room(Form::TAG < 2 ? 0 : 8 * blocks) {
        column.bytes.resize(HEAD + room);
    }

    void add(const uint64_t *values) {
        if (Form::TAG >= 2) starts.push_back(column.bytes.size());
        Form::encode(column.width, values, column.bytes);
        column.count += VALUES;
    }

    Column finish(const uint64_t *values, size_t rest) {
        Bytes &bytes = column.bytes;
        const size_t more = 8 * starts.size() - room;
        if (more > 0) bytes.insert(bytes.begin() + HEAD, more, 0);
        for (uint64_t &start : starts) start += more;
        if (!starts.empty()) memcpy(&bytes[HEAD], starts.data(), 8 * starts.size());
        column.count += rest;
        column.tail_width = Form::TAG == Plain::TAG ? 64 : width_of(values, rest);
        const size_t end = bytes.size();
        bytes.resize(end + column.tail_len());
        pack_tail(values, rest, column.tail_width, bytes.data() + end);
        put_head(bytes.data(), column.tag, column.width, column.tail_width, column.count);
        return std::move(column);
    }
};

template <class Form> Column encode_list(const Words &values) {
    const size_t whole = values.size() / VALUES * VALUES;
    const int width = Form::TAG == Static::TAG ? width_of(values.data(), whole) : 0;
    Blocks<Form> blocks(width, whole / VALUES);
    blocks.column.bytes.reserve(HEAD + 8 * values.size());
    blocks.starts.reserve(whole / VALUES);
    for (size_t start = 0; start < whole; start += VALUES) blocks.add(values.data() + start);
    return blocks.finish(values.data() + whole, values.size() - whole);
}

template <class Form> struct Builder {
    Blocks<Form> blocks;
    size_t held = 0;
    Block block;

    explicit Builder(int width) : blocks(width, 0) {}

    void push(uint64_t value) {
        if (held == VALUES) {
            blocks.add(block);
            held = 0;
        }
        block[held++] = value;
    }

    Column finish() {
        if (held == VALUES) {
            blocks.add(block);
            held = 0;
        }
        return blocks.finish(block, held);
    }
};

uint64_t next_state(uint64_t state) { return state * 6364136223846793005ull + 1442695040888963407ull; }

// A random number of so many bits stands for a random number of places; it is added to 0, or to the value before.
Words values_of(int tag, size_t count) {
    const bool rises = tag == Delta::TAG;
    const int bits = rises ? 4 : 12;
    const uint64_t longest = tag == Runs::TAG ? 40 : 1;
    Words values(count);
    uint64_t state = 1, left = 0, random = 0, before = 0;
    for (uint64_t &value : values) {
        if (left == 0) {
            random = (state = next_state(state)) >> (64 - bits);
            left = ((state = next_state(state)) >> 33) % longest + 1;
        }
        left--;
        value = before + random;
        if (rises) before = value;
    }
    return values;
}

Words places_of(bool random, uint64_t count) {
    Words places;
    uint64_t state = 1;
    for (uint64_t step = 0; step < count / SPARSE; step++) {
        state = next_state(state);
        places.push_back(random ? (state >> 33) % count : SPARSE * step);
    }
    return places;
}

// How many runs stand before the value's own, and 1 more if the first value is not 0.
Words rising_runs(size_t count) {
    Words values = values_of(Runs::TAG, count);
    uint64_t runs = 0, before = 0;
    for (uint64_t &value : values) {
        if (value != before) {
            before = value;
            runs++;
        }
        value = runs;
    }
    return values;
}

uint64_t bytes_sum(const uint8_t *bytes, size_t size) {
    uint64_t sum = 0;
    for (size_t place = 0; place < size; place++) sum = sum * 31 + bytes[place];
    return sum + size;
}

uint64_t round_sum(const uint8_t *bytes, size_t size, uint64_t round) {
    const uint64_t byte = (round & 1023) < size ? bytes[round & 1023] : 0;
    return byte + (size ^ round);
}

uint64_t round_sum(const Column &column, uint64_t round) { return round_sum(column.bytes.data(), column.bytes.size(), round); }

template <class Form> __attribute__((noinline)) size_t read_block(const Column &column, size_t number, uint64_t *values) {
    if (number < column.whole()) {
        Form::decode(column.width, column.block<Form>(number), values);
        return VALUES;
    }
    unpack_tail(column.tail(), column.tail_len(), column.tail_width, column.rest(), values);
    return column.rest();
}

template <class Form> uint64_t cursor_round(const Column &column, size_t place) {
    Block values;
    uint64_t sum = 0;
    for (size_t number = 0; number * VALUES < column.count; number++) {
        if (place < read_block<Form>(column, number, values)) sum += values[place];
    }
    return sum;
}

template <class Form> __attribute__((noinline)) uint64_t picked(const Column &column, const Words &places) {
    uint64_t sum = 0;
    for (uint64_t place : places) {
        const size_t number = place / VALUES, rest = place % VALUES;
        sum += number < column.whole() ? Form::pick(column.width, column.block<Form>(number), rest)
                                       : pick_tail(column.tail(), column.tail_len(), column.tail_width, rest);
    }
    return sum;
}

template <class Form> __attribute__((noinline)) uint64_t decoded(const Column &column, const Words &places) {
    Block values;
    uint64_t sum = 0;
    size_t held = ~0ull;
    for (uint64_t place : places) {
        const size_t number = place / VALUES;
        if (number != held) read_block<Form>(column, held = number, values);
        sum += values[place % VALUES];
    }
    return sum;
}

template <class Form> __attribute__((noinline)) Column built(const Words &values, int width) {
    Builder<Form> builder(width);
    for (uint64_t value : values) builder.push(value);
    return builder.finish();
}

// The file of a morph, in memory that is not written before.
struct File {
    size_t size;
    std::unique_ptr<uint8_t[]> bytes;

    explicit File(size_t size) : size(size), bytes(new uint8_t[size]) {}
};

File copied(const Column &column) {
    File file(column.bytes.size());
    memcpy(file.bytes.get(), column.bytes.data(), file.size);
    return file;
}

// The first pass finds the new file's length, and the second writes it. No new format has a static width.
template <class From, class To> __attribute__((noinline)) File morphed(const Column &column) {
    const size_t whole = column.whole(), rest = column.rest();
    const size_t front = HEAD + (To::TAG < 2 ? 0 : 8 * whole);
    Block values;
    size_t length = front;
    for (size_t number = 0; number < whole; number++) {
        read_block<From>(column, number, values);
        length += To::length(values);
    }
    if (rest > 0) read_block<From>(column, whole, values);
    const int tail_width = To::TAG == Plain::TAG ? 64 : width_of(values, rest);
    File file(length + tail_size(rest, tail_width));
    uint8_t *bytes = file.bytes.get();
    size_t end = front;
    for (size_t number = 0; number < whole; number++) {
        read_block<From>(column, number, values);
        if (To::TAG >= 2) memcpy(bytes + HEAD + 8 * number, &end, 8);
        end += To::write(values, bytes + end);
    }
    if (rest > 0) read_block<From>(column, whole, values);
    pack_tail(values, rest, tail_width, bytes + end);
    put_head(bytes, To::TAG, 0, tail_width, column.count);
    return file;
}

template <class From> File morph(const Column &column, const std::string &format) {
    if constexpr (From::TAG != Plain::TAG) {
        if (format == "plain") return morphed<From, Plain>(column);
    }
    if constexpr (From::TAG != Dynamic::TAG) {
        if (format == "dynamic") return morphed<From, Dynamic>(column);
    }
    if constexpr (From::TAG != Runs::TAG) {
        if (format == "runs") return morphed<From, Runs>(column);
    }
    if constexpr (From::TAG != Delta::TAG) {
        if (format == "delta1+dynamic") return morphed<From, Delta>(column);
    }
    return copied(column);
}

template <class Form> uint64_t morph_rounds(size_t count, uint64_t rounds, const std::string &format) {
    const Column column = encode_list<Form>(rising_runs(count));
    const File first = morph<Form>(column, format);
    uint64_t sum = bytes_sum(column.bytes.data(), column.bytes.size()) + bytes_sum(first.bytes.get(), first.size);
    for (uint64_t round = 0; round < rounds; round++) {
        asm volatile("" ::: "memory");
        const File file = morph<Form>(column, format);
        sum += round_sum(file.bytes.get(), file.size, round);
    }
    return sum;
}

template <class Form> uint64_t rounds_of(const std::string &task, size_t count, uint64_t rounds, const std::string &way) {
    if (task == "morph") return morph_rounds<Form>(count, rounds, way);
    const bool picks = way == "pick";
    const Words values = values_of(Form::TAG, count);
    const Column column = encode_list<Form>(values);
    const Words places = places_of(task == "random", count);
    uint64_t sum = bytes_sum(column.bytes.data(), column.bytes.size());
    for (uint64_t round = 0; round < rounds; round++) {
        asm volatile("" ::: "memory");
        if (task == "cursor") sum += cursor_round<Form>(column, round & 1023);
        if (task == "build") sum += round_sum(built<Form>(values, column.width), round);
        if (task == "list") sum += round_sum(encode_list<Form>(values), round);
        if (task == "rising" || task == "random") sum += picks ? picked<Form>(column, places) : decoded<Form>(column, places);
    }
    return sum;
}

int main(int count, char **words) {
    if (count < 5) return 2;
    // memory that is given back is kept for the next round
    mallopt(M_TRIM_THRESHOLD, 1 << 30);
    mallopt(M_MMAP_THRESHOLD, 1 << 30);
    const std::string task = words[1], format = words[2];
    const size_t values = strtoull(words[3], nullptr, 10);
    const uint64_t rounds = strtoull(words[4], nullptr, 10);
    const std::string way = count > 5 ? words[5] : "";
    uint64_t sum = 0;
    if (format == "plain") sum = rounds_of<Plain>(task, values, rounds, way);
    if (format == "static") sum = rounds_of<Static>(task, values, rounds, way);
    if (format == "dynamic") sum = rounds_of<Dynamic>(task, values, rounds, way);
    if (format == "runs") sum = rounds_of<Runs>(task, values, rounds, way);
    if (format == "delta1+dynamic") sum = rounds_of<Delta>(task, values, rounds, way);
    if (format == "reference+dynamic") sum = rounds_of<Reference>(task, values, rounds, way);
    printf("%llu\n", (unsigned long long)sum);
}
