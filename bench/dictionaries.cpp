// A dictionary of short texts in C++: opened, and looked up. It does what `bench_dictionaries` does.
//
// Usage: dictionaries TASK TEXTS ROUNDS. TASK is `copy`, `read`, `pass` or `find`. It prints a checksum.
#include <algorithm>
#include <cstdint>
#include <cstdio>
#include <cstdlib>
#include <cstring>
#include <string>
#include <string_view>
#include <vector>

static std::string text_of(uint64_t number) {
    char text[10];
    snprintf(text, sizeof text, "t%08llu", (unsigned long long)(number % 100000000));
    return text;
}

static std::vector<uint8_t> file_of(uint64_t count) {
    std::vector<uint8_t> bytes{'M', 'D', 'I', 'C', 1, 0, 0, 0};
    auto put = [&](uint64_t value, int size) { for (int i = 0; i < size; i++) bytes.push_back(value >> 8 * i); };
    put(count, 8);
    for (uint64_t number = 0; number < count; number++) {
        put(9, 4);
        for (char byte : text_of(number)) bytes.push_back(byte);
    }
    return bytes;
}

struct Dictionary {
    std::vector<uint8_t> bytes;
    std::vector<uint64_t> starts;
    std::string_view text(uint64_t code) const {
        uint32_t length;
        memcpy(&length, &bytes[starts[code]], 4);
        return {(const char *)&bytes[starts[code] + 4], length};
    }
};

// Whether bytes are UTF-8: eight bytes of ASCII at once, and else one character after the other.
static bool is_utf8(const uint8_t *text, size_t length) {
    size_t at = 0;
    while (at < length) {
        uint64_t word = 0;
        memcpy(&word, text + at, std::min<size_t>(8, length - at));
        if (!(word & 0x8080808080808080)) { at += 8; continue; }
        const uint8_t first = text[at];
        if (first < 0x80) { at++; continue; }
        const int more = first >= 0xf0 ? 3 : first >= 0xe0 ? 2 : 1;
        if (first < 0xc2 || first > 0xf4 || at + more >= length + 0) return false;
        for (int i = 1; i <= more; i++) if ((text[at + i] & 0xc0) != 0x80) return false;
        at += more + 1;
    }
    return true;
}

// The dictionary, with the tests that ours makes; empty if one fails.
static Dictionary opened(const std::vector<uint8_t> &file) {
    Dictionary dictionary{file, {}};
    uint64_t count;
    memcpy(&count, &file[8], 8);
    dictionary.starts.reserve(std::min<uint64_t>(count, (file.size() - 16) / 4));
    size_t at = 16;
    std::string_view before;
    for (uint64_t number = 0; number < count; number++) {
        uint32_t length;
        if (at + 4 > file.size()) return {};
        memcpy(&length, &dictionary.bytes[at], 4);
        if (length > 65535 || at + 4 + length > file.size()) return {};
        std::string_view text((const char *)&dictionary.bytes[at + 4], length);
        if (!is_utf8((const uint8_t *)text.data(), length) || (number && text <= before)) return {};
        dictionary.starts.push_back(at);
        before = text;
        at += 4 + length;
    }
    return dictionary;
}

int main(int argc, char **argv) {
    if (argc != 4) return 0;
    const std::string task = argv[1];
    const uint64_t count = strtoull(argv[2], nullptr, 10), rounds = strtoull(argv[3], nullptr, 10);
    const auto file = file_of(count);
    uint64_t sum = 0;
    const Dictionary dictionary = opened(file);
    for (uint64_t round = 0; round < rounds; round++) {
        if (task == "copy") {
            std::vector<uint8_t> bytes(file);
            asm volatile("" : : "r"(bytes.data()) : "memory");
            sum += bytes.size();
        } else if (task == "read") {
            sum += opened(file).starts.size();
        } else if (task == "pass") {  // each byte of each text is looked at
            for (uint64_t start : dictionary.starts) {
                uint32_t length;
                memcpy(&length, &file[start], 4);
                for (uint32_t at = 0; at < length; at++) sum += file[start + 4 + at];
            }
        } else {
            uint64_t number = 0;
            for (uint64_t turn = 0; turn < count; turn++) {
                number = (number + 611953) % count;
                const std::string text = text_of(number);
                uint64_t low = 0, high = count;
                while (low < high) {
                    const uint64_t middle = (low + high) / 2;
                    const int order = dictionary.text(middle).compare(text);
                    if (order == 0) { low = middle; break; }
                    if (order < 0) low = middle + 1; else high = middle;
                }
                sum += low;
            }
        }
    }
    printf("%llu\n", (unsigned long long)sum);
}
