// Loads a CSV text without quotes from the standard input into plain files, a column each: the kinds of the columns, n or t, are the word.
#include <algorithm>
#include <cstdint>
#include <cstdio>
#include <cstring>
#include <string>
#include <string_view>
#include <unistd.h>
#include <unordered_map>
#include <vector>

struct Column {
    bool is_text;
    std::vector<uint64_t> values;
    std::unordered_map<std::string, uint64_t> numbers;
    std::vector<const std::string *> texts;
};

static void save(const std::string &name, const void *bytes, size_t count) {
    FILE *file = fopen(name.c_str(), "wb");
    if (!file || fwrite(bytes, 1, count, file) != count) _exit(1);
    fclose(file);
}

static void save_text(Column &column, const std::string &name) {
    std::vector<uint64_t> order(column.texts.size()), ranks(column.texts.size());
    for (size_t number = 0; number < order.size(); number++) order[number] = number;
    std::sort(order.begin(), order.end(), [&](uint64_t one, uint64_t other) { return *column.texts[one] < *column.texts[other]; });
    std::string bytes;
    for (size_t rank = 0; rank < order.size(); rank++) {
        ranks[order[rank]] = rank;
        const std::string &text = *column.texts[order[rank]];
        uint32_t length = text.size();
        bytes.append(reinterpret_cast<const char *>(&length), 4);
        bytes += text;
    }
    for (uint64_t &value : column.values) value = ranks[value];
    save(name + ".dic", bytes.data(), bytes.size());
}

int main(int, char **words) {
    std::vector<Column> columns;
    for (const char *kind = words[1]; *kind; kind++) columns.push_back({*kind == 't', {}, {}, {}});
    std::string text;
    std::vector<char> piece(1 << 20);
    for (ssize_t count; (count = read(0, piece.data(), piece.size())) > 0;) text.append(piece.data(), count);
    const char *at = text.data(), *end = at + text.size();
    while (at < end) {
        for (size_t place = 0; place < columns.size(); place++) {
            Column &column = columns[place];
            if (column.is_text) {
                const char *begin = at;
                while (at < end && *at != ',' && *at != '\n') at++;
                if (at - begin > 65535) return 2;
                auto found = column.numbers.try_emplace(std::string(begin, at), column.texts.size());
                if (found.second) column.texts.push_back(&found.first->first);
                column.values.push_back(found.first->second);
            } else {
                uint64_t value = 0;
                const char *begin = at;
                for (; at < end && *at != ',' && *at != '\n'; at++) {
                    unsigned digit = static_cast<unsigned char>(*at) - '0';
                    if (digit > 9 || __builtin_mul_overflow(value, 10, &value) || __builtin_add_overflow(value, digit, &value)) return 2;
                }
                if (at == begin) return 2;
                column.values.push_back(value);
            }
            if (at == end || (*at == '\n') != (place + 1 == columns.size())) return 3;
            at++;
        }
    }
    for (size_t place = 0; place < columns.size(); place++) {
        Column &column = columns[place];
        std::string name = "plain." + std::to_string(place);
        if (column.is_text) save_text(column, name);
        save(name, column.values.data(), 8 * column.values.size());
    }
}
