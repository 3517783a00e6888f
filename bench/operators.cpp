// Operators in C++, over lists of 64-bit numbers that are decoded: what `crates/bench_operators` does over columns.
//
// Usage: operators OPERATION FORMAT ROWS PARAMETER ROUNDS WAY [sparse]. The format changes nothing here. It prints a checksum.
//
// Each side makes its operands first: here lists, and there columns in the format, of which one block at a time is decoded into
// the stack. In each round this side goes over whole lists, and writes into a list that was made before and has room for every row.
// The other side hands over what it finds by blocks, and appends that to such a list. Neither takes memory for what it writes.
//
// select, project, intersect, union: loops in which no branch depends on a value, as on the other side.
// semi_join, join: WAY is `chain`, a table of heads and links as `chain_table` has; `std`, std::unordered_set and std::unordered_map;
//   or `table`, one by value, for keys that lie close together.
// semi_build, join_build: makes that table from a list of keys. It takes memory on both sides; `bench/operators` sees that memory which
//   is given back stays in the process, so that no fresh pages are touched.
// group, refine: a table of indices in a power of two of places, at most half full, looked up by multiplication and a shift, and then
//   place by place. It starts small and doubles, and each round begins with a new one, on both sides.
// sum, sum_product: lanes, the halves of words added apart, as on the other side. sum_by, sum_product_by: a cell of 128 bits a group.
#include "blocks.hpp"
#include <cstdio>
#include <cstdlib>
#include <string>
#include <unordered_map>
#include <unordered_set>

typedef std::vector<uint64_t> Words;
typedef std::vector<uint32_t> Links;
typedef unsigned __int128 Wide;

constexpr uint64_t FAR = 0xD1342543DE82EF95ull, STRIDE = 7919, PARTS = 1000000, BELOW = 1 << 20, SECOND = 50, BEFORE = 10;
constexpr uint64_t MIXER = 0x9E3779B97F4A7C15ull, HALF = 0xffffffff;
constexpr Wide LIMIT = (Wide)1 << 64;

// # Operands

uint64_t next_state(uint64_t state) { return state * 6364136223846793005ull + 1442695040888963407ull; }

Words numbers_below(uint64_t state, size_t count, uint64_t below) {
    Words numbers(count);
    for (uint64_t &number : numbers) number = ((state = next_state(state)) >> 33) % below;
    return numbers;
}

void spread(Words &numbers) {
    for (uint64_t &number : numbers) number *= FAR;
}

Words drawn_rows(uint64_t seed, size_t count, uint64_t percent) {
    const Words numbers = numbers_below(seed, count, PARTS);
    Words rows;
    for (size_t row = 0; row < count; row++) {
        if (numbers[row] < percent * (PARTS / 100)) rows.push_back(row);
    }
    return rows;
}

Words every(size_t count, uint64_t step) {
    Words rows;
    for (size_t row = 0; row < count; row += step) rows.push_back(row);
    return rows;
}

Words keys_of(uint64_t count, bool sparse) {
    Words keys(count);
    for (size_t place = 0; place < count; place++) keys[place] = place * STRIDE % count;
    if (sparse) spread(keys);
    return keys;
}

Words foreign_keys(size_t rows, uint64_t keys, bool sparse) {
    Words numbers = numbers_below(1, rows, keys);
    if (sparse) spread(numbers);
    return numbers;
}

// # Output: room for all rows, of which the first ones are written

struct Output {
    Words words;
    size_t count = 0;

    explicit Output(size_t room) : words(room + 1) {}

    uint64_t sum() const {
        uint64_t sum = 0;
        for (size_t place = 0; place < count; place++) sum = sum * 31 + words[place];
        return sum + count;
    }

    uint64_t round_sum(uint64_t round) const {
        const uint64_t word = (round & 1023) < count ? words[round & 1023] : 0;
        return word + (count ^ round);
    }
};

// # Selections, projections and sets

__attribute__((noinline)) size_t select(const uint64_t *values, size_t count, uint64_t low, uint64_t high, uint64_t *out) {
    size_t kept = 0;
    for (size_t row = 0; row < count; row++) {
        out[kept] = row;
        kept += (low <= values[row]) & (values[row] <= high);
    }
    return kept;
}

__attribute__((noinline)) size_t project(const uint64_t *values, const uint64_t *rows, size_t count, uint64_t *out) {
    for (size_t place = 0; place < count; place++) out[place] = values[rows[place]];
    return count;
}

__attribute__((noinline)) size_t intersect(const uint64_t *left, size_t lefts, const uint64_t *right, size_t rights, uint64_t *out) {
    size_t i = 0, j = 0, kept = 0;
    while (i < lefts && j < rights) {
        const uint64_t a = left[i], b = right[j];
        out[kept] = a;
        kept += a == b;
        i += a <= b;
        j += b <= a;
    }
    return kept;
}

__attribute__((noinline)) size_t unite(const uint64_t *left, size_t lefts, const uint64_t *right, size_t rights, uint64_t *out) {
    size_t i = 0, j = 0, kept = 0;
    while (i < lefts && j < rights) {
        const uint64_t a = left[i], b = right[j];
        out[kept++] = a < b ? a : b;
        i += a <= b;
        j += b <= a;
    }
    for (; i < lefts; i++) out[kept++] = left[i];
    for (; j < rights; j++) out[kept++] = right[j];
    return kept;
}

// # Tables of keys. Each gives the first place of a key as a link, 0 for none, and the next place with the same key.

struct Chain {
    Links heads, older;
    Words keys;
    uint64_t mask = 15;

    static Chain with_room(size_t count) {
        Chain chain;
        while (chain.mask < 4 * count) chain.mask = 2 * chain.mask + 1;
        chain.heads.resize(chain.mask + 1);
        chain.older.reserve(count);
        chain.keys.reserve(count);
        return chain;
    }

    size_t bucket(uint64_t key) const { return key * MIXER >> 32 & mask; }

    void insert(uint64_t key) {
        const size_t at = bucket(key);
        keys.push_back(key);
        older.push_back(heads[at]);
        heads[at] = keys.size();
    }

    uint32_t matching(uint64_t key, uint32_t link) const {
        while (link && keys[link - 1] != key) link = older[link - 1];
        return link;
    }

    uint32_t first(uint64_t key) const { return matching(key, heads[bucket(key)]); }
};

struct ChainSet {
    Chain chain;

    static ChainSet build(const Words &keys) {
        ChainSet set{Chain::with_room(keys.size())};
        for (uint64_t key : keys) {
            if (!set.chain.first(key)) set.chain.insert(key);
        }
        return set;
    }

    bool has(uint64_t key) const { return chain.first(key); }
};

struct ChainMap {
    Chain chain;

    // the last place comes first, so that walks rise
    static ChainMap build(const Words &keys) {
        ChainMap map{Chain::with_room(keys.size())};
        for (size_t place = keys.size(); place-- > 0;) map.chain.insert(keys[place]);
        return map;
    }

    uint32_t link(uint32_t entry) const { return entry ? chain.keys.size() - entry + 1 : 0; }

    uint32_t first(uint64_t key) const { return link(chain.first(key)); }

    uint32_t next(uint32_t of) const {
        const uint32_t entry = chain.keys.size() - of;
        return link(chain.matching(chain.keys[entry], chain.older[entry]));
    }
};

struct StdSet {
    std::unordered_set<uint64_t> keys;

    static StdSet build(const Words &keys) {
        StdSet set;
        set.keys.reserve(keys.size());
        for (uint64_t key : keys) set.keys.insert(key);
        return set;
    }

    bool has(uint64_t key) const { return keys.count(key); }
};

struct StdMap {
    std::unordered_map<uint64_t, uint32_t> links;
    Links later;

    static StdMap build(const Words &keys) {
        StdMap map;
        map.links.reserve(keys.size());
        map.later.resize(keys.size());
        for (size_t place = keys.size(); place-- > 0;) {
            uint32_t &link = map.links[keys[place]];
            map.later[place] = link;
            link = place + 1;
        }
        return map;
    }

    uint32_t first(uint64_t key) const {
        const auto found = links.find(key);
        return found == links.end() ? 0 : found->second;
    }

    uint32_t next(uint32_t of) const { return later[of - 1]; }
};

struct TableSet {
    uint64_t low;
    std::vector<uint8_t> marks;

    static TableSet build(const Words &keys) {
        const auto ends = std::minmax_element(keys.begin(), keys.end());
        TableSet set{*ends.first, std::vector<uint8_t>(*ends.second - *ends.first + 2)};
        for (uint64_t key : keys) set.marks[key - set.low] = 1;
        return set;
    }

    bool has(uint64_t key) const { return marks[std::min<size_t>(key - low, marks.size() - 1)]; }
};

struct TableMap {
    uint64_t low;
    Links heads, later;
    Words keys;

    static TableMap build(const Words &keys) {
        const auto ends = std::minmax_element(keys.begin(), keys.end());
        TableMap map{*ends.first, Links(*ends.second - *ends.first + 2), Links(keys.size()), keys};
        for (size_t place = keys.size(); place-- > 0;) {
            uint32_t &head = map.heads[keys[place] - map.low];
            map.later[place] = head;
            head = place + 1;
        }
        return map;
    }

    uint32_t first(uint64_t key) const { return heads[std::min<size_t>(key - low, heads.size() - 1)]; }

    uint32_t next(uint32_t of) const { return later[of - 1]; }
};

template <class Set> __attribute__((noinline)) size_t semi_join(const Words &probe, const Set &keys, uint64_t *out) {
    size_t kept = 0;
    for (size_t row = 0; row < probe.size(); row++) {
        out[kept] = row;
        kept += keys.has(probe[row]);
    }
    return kept;
}

template <class Map> __attribute__((noinline)) size_t join(const Words &probe, const Map &keys, uint64_t *left, uint64_t *right) {
    size_t kept = 0;
    for (size_t row = 0; row < probe.size(); row++) {
        for (uint32_t link = keys.first(probe[row]); link; link = keys.next(link)) {
            left[kept] = row;
            right[kept++] = link - 1;
        }
    }
    return kept;
}

template <class Table> __attribute__((noinline)) Table built(const Words &keys) { return Table::build(keys); }

// # Groups

struct Values {
    Words values;

    uint64_t hash(uint64_t value) const { return value * MIXER; }
    bool same(uint32_t index, uint64_t value) const { return values[index] == value; }
    void push(uint64_t value) { values.push_back(value); }
    uint64_t hash_of(size_t index) const { return hash(values[index]); }
    size_t size() const { return values.size(); }
};

typedef std::pair<uint64_t, uint64_t> Pair;

struct Pairs {
    std::vector<Pair> pairs;

    uint64_t hash(Pair pair) const { return (pair.first * 0x9E3779B1 + pair.second) * MIXER; }
    bool same(uint32_t index, Pair pair) const { return pairs[index] == pair; }
    void push(Pair pair) { pairs.push_back(pair); }
    uint64_t hash_of(size_t index) const { return hash(pairs[index]); }
    size_t size() const { return pairs.size(); }
};

template <class Items> struct GroupTable {
    Items items;
    Links places = Links(256); // one more than an index, or 0
    int shift = 56;

    void grow() {
        shift--;
        places.assign(places.size() * 2, 0);
        for (size_t index = 0; index < items.size(); index++) {
            size_t at = items.hash_of(index) >> shift;
            while (places[at]) at = (at + 1) & (places.size() - 1);
            places[at] = index + 1;
        }
    }

    template <class Item> uint32_t number(const Item &item, bool &fresh) {
        const size_t mask = places.size() - 1;
        size_t at = items.hash(item) >> shift;
        for (; places[at]; at = (at + 1) & mask) {
            if (items.same(places[at] - 1, item)) return places[at] - 1;
        }
        fresh = true;
        items.push(item);
        places[at] = items.size();
        if (2 * items.size() > places.size()) grow();
        return items.size() - 1;
    }
};

__attribute__((noinline)) void group(const Words &values, Output &ids, Output &extents) {
    GroupTable<Values> table;
    size_t kept = 0;
    for (size_t row = 0; row < values.size(); row++) {
        bool fresh = false;
        ids.words[row] = table.number(values[row], fresh);
        if (fresh) extents.words[kept++] = row;
    }
    ids.count = values.size();
    extents.count = kept;
}

__attribute__((noinline)) void refine(const Words &before, const Words &values, Output &ids, Output &extents) {
    GroupTable<Pairs> table;
    size_t kept = 0;
    for (size_t row = 0; row < values.size(); row++) {
        bool fresh = false;
        ids.words[row] = table.number(Pair(before[row], values[row]), fresh);
        if (fresh) extents.words[kept++] = row;
    }
    ids.count = values.size();
    extents.count = kept;
}

// # Sums

uint64_t total_of(lanes all) {
    uint64_t sum = 0;
    for (size_t lane = 0; lane < LANES; lane++) sum += all[lane];
    return sum;
}

uint64_t narrow(Wide sum) { return sum < LIMIT ? (uint64_t)sum : 1; }

// No list is so long that the sum of halves comes near 2^64.
__attribute__((noinline)) uint64_t sum_of(const Words &values) {
    lanes low = {}, high = {}, low2 = {}, high2 = {};
    size_t row = 0;
    for (; row + 2 * LANES <= values.size(); row += 2 * LANES) {
        const lanes first = *(const lanes *)&values[row], second = *(const lanes *)&values[row + LANES];
        low += first & HALF;
        high += first >> 32;
        low2 += second & HALF;
        high2 += second >> 32;
    }
    Wide sum = (Wide)total_of(low + low2) + ((Wide)total_of(high + high2) << 32);
    for (; row < values.size(); row++) sum += values[row];
    return narrow(sum);
}

// The products of narrow values in lanes, and of a block with a wide one in turn.
__attribute__((noinline)) uint64_t sum_product_of(const Words &first, const Words &second) {
    Wide sum = 0;
    for (size_t start = 0; start < first.size(); start += VALUES) {
        const size_t end = std::min(first.size(), start + VALUES);
        lanes low = {}, high = {}, above = {};
        size_t row = start;
        for (; row + LANES <= end; row += LANES) {
            const lanes a = *(const lanes *)&first[row], b = *(const lanes *)&second[row], product = (a & HALF) * (b & HALF);
            low += product & HALF;
            high += product >> 32;
            above |= (a | b) >> 32;
        }
        if (total_of(above)) {
            row = start;
        } else {
            sum += (Wide)total_of(low) + ((Wide)total_of(high) << 32);
        }
        for (; row < end; row++) sum += std::min((Wide)first[row] * second[row], LIMIT);
        sum = std::min(sum, LIMIT);
    }
    return narrow(sum);
}

__attribute__((noinline)) void sum_by(const Words &values, const Words &ids, std::vector<Wide> &cells) {
    for (size_t row = 0; row < values.size(); row++) {
        Wide &cell = cells[ids[row]];
        cell = std::min(cell + values[row], LIMIT);
    }
}

__attribute__((noinline)) void sum_product_by(const Words &first, const Words &second, const Words &ids, std::vector<Wide> &cells) {
    for (size_t row = 0; row < first.size(); row++) {
        Wide &cell = cells[ids[row]];
        cell = std::min(cell + (Wide)first[row] * second[row], LIMIT);
    }
}

// # Rounds

struct Work {
    std::string operation;
    size_t rows;
    uint64_t parameter, rounds;
    bool sparse;
};

template <class Round> uint64_t list_rounds(const Work &work, const Round &round_of) {
    Output out(work.rows);
    out.count = round_of(out.words.data());
    uint64_t sum = out.sum();
    for (uint64_t round = 0; round < work.rounds; round++) {
        asm volatile("" ::: "memory");
        out.count = round_of(out.words.data());
        sum += out.round_sum(round);
    }
    return sum;
}

template <class Round> uint64_t pair_rounds(const Work &work, const Round &round_of) {
    Output left(work.rows), right(work.rows);
    round_of(left, right);
    uint64_t sum = left.sum() + right.sum();
    for (uint64_t round = 0; round < work.rounds; round++) {
        asm volatile("" ::: "memory");
        round_of(left, right);
        sum += left.round_sum(round) + right.round_sum(round);
    }
    return sum;
}

template <class Round> uint64_t sum_rounds(const Work &work, const Round &round_of) {
    uint64_t sum = 0;
    for (uint64_t round = 0; round < work.rounds; round++) {
        asm volatile("" ::: "memory");
        sum += round_of(round) ^ round;
    }
    return sum;
}

template <class Set, class Map> uint64_t key_rounds(const Work &work) {
    const Words keys = keys_of(work.parameter, work.sparse);
    if (work.operation == "semi_join") {
        const Words probe = foreign_keys(work.rows, 2 * work.parameter, work.sparse);
        const Set set = built<Set>(keys);
        return list_rounds(work, [&](uint64_t *out) { return semi_join(probe, set, out); });
    }
    if (work.operation == "join") {
        const Words probe = foreign_keys(work.rows, work.parameter, work.sparse);
        const Map map = built<Map>(keys);
        return pair_rounds(work, [&](Output &left, Output &right) {
            left.count = right.count = join(probe, map, left.words.data(), right.words.data());
        });
    }
    if (work.operation == "semi_build") {
        return sum_rounds(work, [&](uint64_t round) { return (uint64_t)built<Set>(keys).has(round); });
    }
    return sum_rounds(work, [&](uint64_t round) {
        const uint32_t link = built<Map>(keys).first(round);
        return (uint64_t)(link ? link - 1 : 0);
    });
}

uint64_t checksum(const Work &work, const std::string &way) {
    if (work.operation == "select") {
        const Words values = numbers_below(1, work.rows, PARTS);
        const uint64_t high = work.parameter * (PARTS / 100) - 1;
        return list_rounds(work, [&](uint64_t *out) { return select(values.data(), values.size(), 0, high, out); });
    }
    if (work.operation == "project" || work.operation == "project_every") {
        const Words rows = work.operation == "project" ? drawn_rows(2, work.rows, work.parameter) : every(work.rows, work.parameter);
        const Words values = numbers_below(1, work.rows, BELOW);
        return list_rounds(work, [&](uint64_t *out) { return project(values.data(), rows.data(), rows.size(), out); });
    }
    if (work.operation == "intersect" || work.operation == "union") {
        const Words left = drawn_rows(1, work.rows, work.parameter), right = drawn_rows(2, work.rows, SECOND);
        const auto operation = work.operation == "union" ? unite : intersect;
        return list_rounds(work, [&](uint64_t *out) { return operation(left.data(), left.size(), right.data(), right.size(), out); });
    }
    if (work.operation == "group") {
        const Words values = numbers_below(1, work.rows, work.parameter);
        return pair_rounds(work, [&](Output &ids, Output &extents) { group(values, ids, extents); });
    }
    if (work.operation == "refine") {
        const Words before = numbers_below(2, work.rows, BEFORE);
        const Words values = numbers_below(1, work.rows, std::max<uint64_t>(work.parameter / BEFORE, 1));
        return pair_rounds(work, [&](Output &ids, Output &extents) { refine(before, values, ids, extents); });
    }
    if (work.operation.compare(0, 3, "sum") == 0) {
        const Words first = numbers_below(1, work.rows, BELOW), second = numbers_below(2, work.rows, BELOW);
        if (work.operation == "sum") return sum_rounds(work, [&](uint64_t) { return sum_of(first); });
        if (work.operation == "sum_product") return sum_rounds(work, [&](uint64_t) { return sum_product_of(first, second); });
        const Words ids = numbers_below(3, work.rows, work.parameter);
        return sum_rounds(work, [&](uint64_t) {
            std::vector<Wide> cells(work.parameter);
            if (work.operation == "sum_by") sum_by(first, ids, cells);
            else sum_product_by(first, second, ids, cells);
            uint64_t sum = 0;
            for (Wide cell : cells) sum = sum * 31 + narrow(cell);
            return sum + cells.size();
        });
    }
    if (way == "std") return key_rounds<StdSet, StdMap>(work);
    if (way == "table") return key_rounds<TableSet, TableMap>(work);
    return key_rounds<ChainSet, ChainMap>(work);
}

int main(int count, char **words) {
    if (count < 7) return 2;
    const Work work{words[1], strtoull(words[3], nullptr, 10), strtoull(words[4], nullptr, 10), strtoull(words[5], nullptr, 10), count > 7};
    printf("%llu\n", (unsigned long long)checksum(work, words[6]));
}
