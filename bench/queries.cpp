// A query language in C++: texts are cut into tokens, read by descent and bound to a schema. It does what `bench_queries` does.
//
// Usage: queries TASK SHAPE ROUNDS. TASK is `read` or `bind`; the shapes are those of `bench_queries`. It prints a checksum.
#include <cstdint>
#include <cstdio>
#include <cstdlib>
#include <optional>
#include <string>
#include <string_view>
#include <unordered_map>
#include <utility>
#include <variant>
#include <vector>

// What is made: the texts

static const size_t max_text = 65536;
static const uint64_t tables_of_large = 64, columns_of_large = 256;

static char letter(uint64_t number) { return 'a' + number % 26; }
static char digit(uint64_t number) { return '0' + number % 10; }

static void put_name(std::string &text, uint64_t number) {
    static const char further[] = "abcdefghijklopqtuvwxz0123456789_";
    if (number < 26) {
        text += letter(number);
    } else if (number < 858) {
        number -= 26;
        text += letter(number / 32);
        text += further[number % 32];
    } else {
        number -= 858;
        text += letter(number / 1024);
        text += further[number / 32 % 32];
        text += further[number % 32];
    }
}

static std::string name(uint64_t number) {
    std::string text;
    put_name(text, number);
    return text;
}

static std::string schema_text(const std::string &shape) {
    const bool is_large = shape == "joins" || shape == "columns";
    const uint64_t tables = is_large ? tables_of_large : 1, columns = is_large ? columns_of_large : 26;
    std::string text;
    for (uint64_t table = 0; table < tables; table++) {
        text += "[[table]]\nname=\"" + name(table) + "\"\n";
        text += table == 0 ? "role=\"fact\"\n" : "role=\"dimension\"\nkey=\"" + name(table) + "\"\n";
        text += "column=[\n";
        for (uint64_t place = 0; place < columns; place++)
            text += "{name=\"" + name(place * tables + table) + "\",kind=\"" + (place + 1 == columns ? "text" : "number") + "\"},\n";
        text += "]\n";
    }
    return text;
}

static const uint64_t aliases_of_order = 2000, number_columns = 25;

static void put_sum(std::string &text, uint64_t number) {
    text += "sum(";
    text += letter(number % number_columns);
    text += ")as ";
    put_name(text, number);
}

static void put_entry(std::string &text, const std::string &shape, uint64_t number) {
    if (shape == "names" || shape == "refused") {
        text += letter(number);
    } else if (shape == "sums") {
        put_sum(text, number);
    } else if (shape == "literals") {
        text += digit(number);
    } else if (shape == "strings") {
        text += number % 8 == 7 ? std::string("''''") : std::string{'\'', letter(number), '\''};
    } else if (shape == "conditions") {
        static const char *const signs[] = {"<", "<=", "=", ">=", ">"};
        text += letter(number % number_columns);
        text += signs[number % 5];
        text += digit(number);
    } else if (shape == "joins") {
        put_name(text, number);
    } else {
        put_name(text, number * 7 % aliases_of_order);
        if (number % 2) text += " desc";
    }
}

static std::string query_text(const std::string &shape) {
    std::string text = "select ", ending;
    uint64_t most = UINT64_MAX;
    if (shape == "names") ending = " from a group by a,b,c,d,e,f,g,h,i,j,k,l,m,n,o,p,q,r,s,t,u,v,w,x,y,z";
    else if (shape == "refused") ending = " from a group by a,b,c,d,e,f,g,h,i,j,k,l,m,n,o,p,q,r,s,t,u,v,w,x,y,z#";
    else if (shape == "sums") ending = " from a";
    else if (shape == "literals") text += "sum(a)from a where a in(", ending = ")";
    else if (shape == "strings") text += "sum(a)from a where z in(", ending = ")";
    else if (shape == "conditions") text += "sum(a)from a where ";
    else if (shape == "columns") text += "sum(a)from a", most = 0;
    else if (shape == "joins") {
        text += "a from ";
        for (uint64_t table = 0; table < tables_of_large; table++) text += (table ? "," : "") + name(table);
        text += " where ";
        for (uint64_t table = 1; table < tables_of_large; table++)
            text += (table > 1 ? " and " : "") + name((table - 1) * tables_of_large) + "=" + name(table);
        text += " group by ";
        most = tables_of_large * columns_of_large;
    } else {
        for (uint64_t number = 0; number < aliases_of_order; number++) {
            if (number) text += ",";
            put_sum(text, number);
        }
        text += " from a order by ";
    }
    for (uint64_t number = 0; number < most; number++) {
        const size_t fitting = text.size();
        if (number) text += shape == "conditions" ? "and " : ",";
        put_entry(text, shape, number);
        if (text.size() + ending.size() > max_text) {
            text.resize(fitting);
            break;
        }
    }
    return text + ending;
}

// The schema

struct ColumnId {
    uint32_t table, column;
};

struct ColumnDef {
    std::string name;
    bool is_text;
};

struct TableDef {
    std::string name;
    bool is_fact = false;
    std::string key;
    std::optional<uint32_t> key_place;
    std::vector<ColumnDef> columns;
};

using Schema = std::vector<TableDef>;

// The schema of a text as `schema_text` makes it, with one entry a line.
static Schema schema_of(const std::string &text) {
    Schema schema;
    auto quoted = [](const std::string &line, size_t from) {
        const size_t begin = line.find('"', from) + 1;
        return line.substr(begin, line.find('"', begin) - begin);
    };
    for (size_t at = 0; at < text.size();) {
        const size_t end = text.find('\n', at);
        const std::string line = text.substr(at, end - at);
        at = end + 1;
        if (line == "[[table]]") schema.emplace_back();
        else if (line[0] == 'n') schema.back().name = quoted(line, 0);
        else if (line[0] == 'r') schema.back().is_fact = quoted(line, 0) == "fact";
        else if (line[0] == 'k') schema.back().key = quoted(line, 0);
        else if (line[0] == '{') {
            TableDef &table = schema.back();
            table.columns.push_back({quoted(line, 0), quoted(line, line.find(',')) == "text"});
            if (table.columns.back().name == table.key) table.key_place = table.columns.size() - 1;
        }
    }
    return schema;
}

// Refusals of texts and of bindings, by the numbers that go into the checksum

enum class Cause : uint64_t {
    BadByte = 1, NumberTooLarge, OpenString, Syntax,
    UnknownTable = 11, UnknownColumn, NotInFrom, FactCount, JoinShape, JoinMissing, JoinTwice, TypeMismatch, GroupMismatch, OrderUnknown, NameTwice,
};

struct Refusal {
    Cause cause;
    uint64_t at;
};

// Tokens

enum class Kind : uint8_t {
    Name, Number, Text,
    Select, From, Where, And, Or, Between, In, Group, By, Order, Asc, Desc, Sum, As,
    Comma, Open, Close, Star, Minus, Equal, Less, AtMost, Greater, AtLeast, Semicolon,
    End,
};

struct Token {
    uint64_t at;
    Kind kind;
    std::string_view text;  // a name as it stands in the text, or what stands between the quotes of a string
    uint64_t value = 0;
};

static bool is_digit(char byte) { return byte >= '0' && byte <= '9'; }
static bool begins_word(char byte) { return (byte >= 'a' && byte <= 'z') || (byte >= 'A' && byte <= 'Z') || byte == '_'; }
static char lower(char byte) { return byte >= 'A' && byte <= 'Z' ? byte + 32 : byte; }

static std::string lowered(std::string_view text) {
    std::string copy(text);
    for (char &byte : copy) byte = lower(byte);
    return copy;
}

static Kind kind_of_word(std::string_view word) {
    static const std::pair<std::string_view, Kind> keywords[] = {
        {"select", Kind::Select}, {"from", Kind::From}, {"where", Kind::Where}, {"and", Kind::And}, {"or", Kind::Or},
        {"between", Kind::Between}, {"in", Kind::In}, {"group", Kind::Group}, {"by", Kind::By}, {"order", Kind::Order},
        {"asc", Kind::Asc}, {"desc", Kind::Desc}, {"sum", Kind::Sum}, {"as", Kind::As},
    };
    if (word.size() < 2 || word.size() > 7) return Kind::Name;
    char letters[7];
    for (size_t place = 0; place < word.size(); place++) letters[place] = lower(word[place]);
    const std::string_view found(letters, word.size());
    for (const auto &[keyword, kind] : keywords)
        if (keyword == found) return kind;
    return Kind::Name;
}

// The tokens of a text before its first lexical fault, and that fault.
static std::vector<Token> tokens_of(std::string_view text, std::optional<Refusal> &fault) {
    std::vector<Token> tokens;
    const size_t length = text.size();
    for (size_t at = 0; at < length;) {
        const char first = text[at];
        const size_t begin = at;
        auto symbol = [&](Kind kind, size_t size) { tokens.push_back({begin, kind, {}}); at += size; };
        const bool is_equal_next = at + 1 < length && text[at + 1] == '=';
        if (first == ' ' || first == '\t' || first == '\n' || first == '\r') {
            at++;
        } else if (begins_word(first)) {
            while (at < length && (begins_word(text[at]) || is_digit(text[at]))) at++;
            const std::string_view word = text.substr(begin, at - begin);
            tokens.push_back({begin, kind_of_word(word), word});
        } else if (is_digit(first)) {
            uint64_t value = 0;
            bool fits = true;
            for (; at < length && is_digit(text[at]); at++)
                fits = fits && !__builtin_mul_overflow(value, 10, &value) && !__builtin_add_overflow(value, text[at] - '0', &value);
            if (!fits) {
                fault = Refusal{Cause::NumberTooLarge, begin};
                return tokens;
            }
            tokens.push_back({begin, Kind::Number, {}, value});
        } else if (first == '\'') {
            for (at++; at < length; at++)
                if (text[at] == '\'') {
                    if (at + 1 < length && text[at + 1] == '\'') at++;
                    else break;
                }
            if (at >= length) {
                fault = Refusal{Cause::OpenString, begin};
                return tokens;
            }
            tokens.push_back({begin, Kind::Text, text.substr(begin + 1, at - begin - 1)});
            at++;
        } else {
            switch (first) {
                case ',': symbol(Kind::Comma, 1); break;
                case '(': symbol(Kind::Open, 1); break;
                case ')': symbol(Kind::Close, 1); break;
                case '*': symbol(Kind::Star, 1); break;
                case '-': symbol(Kind::Minus, 1); break;
                case '=': symbol(Kind::Equal, 1); break;
                case ';': symbol(Kind::Semicolon, 1); break;
                case '<': is_equal_next ? symbol(Kind::AtMost, 2) : symbol(Kind::Less, 1); break;
                case '>': is_equal_next ? symbol(Kind::AtLeast, 2) : symbol(Kind::Greater, 1); break;
                default: fault = Refusal{Cause::BadByte, begin}; return tokens;
            }
        }
    }
    return tokens;
}

// Queries as their texts say them

struct Word {
    uint64_t at;
    std::string text;
};

enum class Shape : uint8_t { Column, Plain, Product, Difference };

struct Item {
    Shape shape;
    Word first;
    std::optional<Word> second, alias;
};

struct Literal {
    uint64_t at;
    std::variant<uint64_t, std::string> value;
    bool is_text() const { return value.index() == 1; }
};

enum class Test : uint8_t { Join, Equal, Below, AtMost, Above, AtLeast, Between, OneOf };

struct Condition {
    Test test;
    Word column;
    std::optional<Word> other;  // of a join
    std::vector<Literal> literals;
};

struct Key {
    Word word;
    bool falling;
};

struct Query {
    std::vector<Item> items;
    std::vector<Word> tables;
    std::vector<Condition> conditions;
    std::vector<Word> groups;
    std::vector<Key> order;
};

// The reader of tokens, by descent. It throws the refusal of the first token that cannot follow.
class Reader {
    const std::vector<Token> &tokens;
    const Refusal end;
    size_t place = 0;

    Kind next() const { return place < tokens.size() ? tokens[place].kind : Kind::End; }

    [[noreturn]] void refuse() const {
        if (place < tokens.size()) throw Refusal{Cause::Syntax, tokens[place].at};
        throw end;
    }

    bool take(Kind kind) {
        if (next() != kind) return false;
        place++;
        return true;
    }

    const Token &want(Kind kind) {
        if (next() != kind) refuse();
        return tokens[place++];
    }

    Word word() {
        const Token &token = want(Kind::Name);
        return {token.at, lowered(token.text)};
    }

    Item item() {
        if (next() == Kind::Name) return {Shape::Column, word(), {}, {}};
        want(Kind::Sum);
        want(Kind::Open);
        Item item{Shape::Plain, word(), {}, {}};
        if (take(Kind::Star)) item.shape = Shape::Product, item.second = word();
        else if (take(Kind::Minus)) item.shape = Shape::Difference, item.second = word();
        want(Kind::Close);
        if (take(Kind::As)) item.alias = word();
        return item;
    }

    Literal literal() {
        if (next() == Kind::Number) {
            const Token &token = tokens[place++];
            return {token.at, token.value};
        }
        const Token &token = want(Kind::Text);
        std::string content;
        content.reserve(token.text.size());
        for (size_t at = 0; at < token.text.size(); at++) {
            content += token.text[at];
            if (token.text[at] == '\'') at++;
        }
        return {token.at, std::move(content)};
    }

    Condition alternatives() {
        Condition condition{Test::OneOf, word(), {}, {}};
        want(Kind::Equal);
        condition.literals.push_back(literal());
        while (take(Kind::Or)) {
            if (next() != Kind::Name || lowered(tokens[place].text) != condition.column.text) refuse();
            place++;
            want(Kind::Equal);
            condition.literals.push_back(literal());
        }
        want(Kind::Close);
        return condition;
    }

    Condition condition() {
        if (take(Kind::Open)) return alternatives();
        Condition condition{Test::Equal, word(), {}, {}};
        switch (next()) {
            case Kind::Equal:
                place++;
                if (next() == Kind::Name) {
                    condition.test = Test::Join;
                    condition.other = word();
                    return condition;
                }
                break;
            case Kind::Less: place++; condition.test = Test::Below; break;
            case Kind::AtMost: place++; condition.test = Test::AtMost; break;
            case Kind::Greater: place++; condition.test = Test::Above; break;
            case Kind::AtLeast: place++; condition.test = Test::AtLeast; break;
            case Kind::Between:
                place++;
                condition.test = Test::Between;
                condition.literals.push_back(literal());
                want(Kind::And);
                break;
            default:
                want(Kind::In);
                want(Kind::Open);
                condition.test = Test::OneOf;
                do condition.literals.push_back(literal());
                while (take(Kind::Comma));
                want(Kind::Close);
                return condition;
        }
        condition.literals.push_back(literal());
        return condition;
    }

    Key key() {
        Key key{word(), false};
        if (take(Kind::Asc)) return key;
        key.falling = take(Kind::Desc);
        return key;
    }

public:
    Reader(const std::vector<Token> &tokens, Refusal end) : tokens(tokens), end(end) {}

    Query query() {
        Query query;
        want(Kind::Select);
        do query.items.push_back(item());
        while (take(Kind::Comma));
        want(Kind::From);
        do query.tables.push_back(word());
        while (take(Kind::Comma));
        if (take(Kind::Where)) {
            do query.conditions.push_back(condition());
            while (take(Kind::And));
        }
        if (take(Kind::Group)) {
            want(Kind::By);
            do query.groups.push_back(word());
            while (take(Kind::Comma));
        }
        if (take(Kind::Order)) {
            want(Kind::By);
            do query.order.push_back(key());
            while (take(Kind::Comma));
        }
        take(Kind::Semicolon);
        if (next() != Kind::End) refuse();
        return query;
    }
};

static Query read_query(std::string_view text) {
    std::optional<Refusal> fault;
    const std::vector<Token> tokens = tokens_of(text, fault);
    Query query = Reader(tokens, fault.value_or(Refusal{Cause::Syntax, text.size()})).query();
    if (fault) throw *fault;
    return query;
}

// Bindings

struct JoinTo {
    ColumnId fact_column, key;
};

struct Tested {
    ColumnId column;
    Test test;
    std::vector<Literal> literals;
};

struct SumOf {
    Shape shape;
    ColumnId first, second;
};

struct BoundItem {
    bool is_sum;
    uint32_t number;
};

struct OrderKey {
    BoundItem item;
    bool falling;
};

struct Bound {
    uint32_t fact = 0;
    std::vector<uint32_t> dimensions;
    std::vector<JoinTo> joins;
    std::vector<Tested> conditions;
    std::vector<ColumnId> groups;
    std::vector<SumOf> sums;
    std::vector<BoundItem> items;
    std::vector<OrderKey> order;
};

class Binder {
    const Query &query;
    const Schema &schema;
    std::unordered_map<std::string_view, ColumnId> index;
    std::vector<uint32_t> tables;
    std::unordered_map<std::string_view, uint32_t> groups, aliases;
    Bound bound;

    static bool contains(const std::vector<uint32_t> &tables, uint32_t table) {
        for (uint32_t other : tables)
            if (other == table) return true;
        return false;
    }

    bool is_text(ColumnId id) const { return schema[id.table].columns[id.column].is_text; }

    void bind_tables() {
        for (const Word &word : query.tables) {
            uint32_t table = 0;
            while (table < schema.size() && schema[table].name != word.text) table++;
            if (table == schema.size()) throw Refusal{Cause::UnknownTable, word.at};
            if (contains(tables, table)) throw Refusal{Cause::NameTwice, word.at};
            tables.push_back(table);
        }
    }

    void find_fact() {
        bool is_found = false;
        for (size_t place = 0; place < tables.size(); place++) {
            if (!schema[tables[place]].is_fact) {
                bound.dimensions.push_back(tables[place]);
                continue;
            }
            if (is_found) throw Refusal{Cause::FactCount, query.tables[place].at};
            is_found = true;
            bound.fact = tables[place];
        }
        if (!is_found) throw Refusal{Cause::FactCount, query.tables[0].at};
    }

    void make_index() {
        size_t count = 0;
        for (const TableDef &table : schema) count += table.columns.size();
        index.reserve(count);
        for (uint32_t table = 0; table < schema.size(); table++)
            for (uint32_t column = 0; column < schema[table].columns.size(); column++)
                index.emplace(schema[table].columns[column].name, ColumnId{table, column});
    }

    void look_up(const Word &word) const {
        const auto found = index.find(word.text);
        if (found == index.end()) throw Refusal{Cause::UnknownColumn, word.at};
        if (!contains(tables, found->second.table)) throw Refusal{Cause::NotInFrom, word.at};
    }

    void look_all_up() const {
        for (const Item &item : query.items) {
            look_up(item.first);
            if (item.second) look_up(*item.second);
        }
        for (const Condition &condition : query.conditions) {
            look_up(condition.column);
            if (condition.other) look_up(*condition.other);
        }
        for (const Word &word : query.groups) look_up(word);
    }

    ColumnId column_of(const Word &word) const { return index.find(word.text)->second; }

    bool can_join(ColumnId from, ColumnId key) const {
        return from.table == bound.fact && !is_text(from) && schema[key.table].key_place == key.column;
    }

    const JoinTo *join_to(uint32_t table) const {
        for (const JoinTo &join : bound.joins)
            if (join.key.table == table) return &join;
        return nullptr;
    }

    void bind_join(const Condition &condition) {
        const ColumnId left = column_of(condition.column), right = column_of(*condition.other);
        JoinTo join{left, right};
        if (!can_join(left, right)) {
            if (!can_join(right, left)) throw Refusal{Cause::JoinShape, condition.column.at};
            join = {right, left};
        }
        if (join_to(join.key.table)) throw Refusal{Cause::JoinTwice, condition.column.at};
        bound.joins.push_back(join);
    }

    void bind_conditions() {
        for (const Condition &condition : query.conditions) {
            if (condition.test == Test::Join) {
                bind_join(condition);
                continue;
            }
            const ColumnId column = column_of(condition.column);
            for (const Literal &literal : condition.literals)
                if (literal.is_text() != is_text(column)) throw Refusal{Cause::TypeMismatch, literal.at};
            bound.conditions.push_back({column, condition.test, condition.literals});
        }
    }

    void order_joins() {
        std::vector<JoinTo> ordered;
        for (size_t place = 0; place < tables.size(); place++) {
            if (tables[place] == bound.fact) continue;
            const JoinTo *join = join_to(tables[place]);
            if (!join) throw Refusal{Cause::JoinMissing, query.tables[place].at};
            ordered.push_back(*join);
        }
        bound.joins = std::move(ordered);
    }

    void bind_groups() {
        for (const Word &word : query.groups) {
            if (!groups.emplace(word.text, groups.size()).second) throw Refusal{Cause::NameTwice, word.at};
            bound.groups.push_back(column_of(word));
        }
    }

    ColumnId operand(const Word &word) const {
        const ColumnId column = column_of(word);
        if (is_text(column)) throw Refusal{Cause::TypeMismatch, word.at};
        return column;
    }

    void bind_items() {
        for (const Item &item : query.items) {
            if (item.shape == Shape::Column) {
                const auto found = groups.find(item.first.text);
                if (found == groups.end()) throw Refusal{Cause::GroupMismatch, item.first.at};
                bound.items.push_back({false, found->second});
                continue;
            }
            const ColumnId first = operand(item.first);
            const SumOf sum{item.shape, first, item.second ? operand(*item.second) : first};
            const uint32_t number = bound.sums.size();
            if (item.alias && (groups.count(item.alias->text) || !aliases.emplace(item.alias->text, number).second))
                throw Refusal{Cause::NameTwice, item.alias->at};
            bound.items.push_back({true, number});
            bound.sums.push_back(sum);
        }
    }

    void bind_order() {
        for (const Key &key : query.order) {
            if (const auto sum = aliases.find(key.word.text); sum != aliases.end()) {
                bound.order.push_back({{true, sum->second}, key.falling});
            } else if (const auto group = groups.find(key.word.text); group != groups.end()) {
                bound.order.push_back({{false, group->second}, key.falling});
            } else {
                throw Refusal{Cause::OrderUnknown, key.word.at};
            }
        }
    }

public:
    Binder(const Query &query, const Schema &schema) : query(query), schema(schema) {}

    Bound bind() {
        bind_tables();
        find_fact();
        make_index();
        look_all_up();
        bind_conditions();
        order_joins();
        bind_groups();
        bind_items();
        bind_order();
        return std::move(bound);
    }
};

// Checksums

class Sum {
    uint64_t sum;

public:
    explicit Sum(uint64_t first) : sum(first) {}
    uint64_t value() const { return sum; }
    void add(uint64_t value) { sum = sum * 31 + value; }
    void add(std::string_view bytes) {
        add(bytes.size());
        for (unsigned char byte : bytes) add(byte);
    }
    void add(const Word &word) {
        add(word.at);
        add(word.text);
    }
    void add(const std::optional<Word> &word) {
        add(word ? 1 : 0);
        if (word) add(*word);
    }
    void add(ColumnId id) {
        add(id.table);
        add(id.column);
    }
    void add(BoundItem item) {
        add(item.is_sum ? 2 : 1);
        add(item.number);
    }
    void add(Test test, const std::vector<Literal> &literals) {
        add((uint64_t)test);
        if (test == Test::OneOf) add(literals.size());
        for (const Literal &literal : literals) {
            if (literal.is_text()) add(std::get<1>(literal.value));
            else add(std::get<0>(literal.value));
        }
    }
};

static uint64_t query_sum(const Query &query) {
    Sum sum(query.items.size());
    for (const Item &item : query.items) {
        sum.add((uint64_t)item.shape);
        sum.add(item.first);
        if (item.shape == Shape::Column) continue;
        sum.add(item.second);
        sum.add(item.alias);
    }
    sum.add(query.tables.size());
    for (const Word &word : query.tables) sum.add(word);
    for (const Condition &condition : query.conditions) {
        if (condition.test == Test::Join) {
            sum.add(0);
            sum.add(condition.column);
            sum.add(*condition.other);
            continue;
        }
        sum.add(condition.column);
        sum.add(condition.test, condition.literals);
        for (const Literal &literal : condition.literals) sum.add(literal.at);
    }
    sum.add(query.groups.size());
    for (const Word &word : query.groups) sum.add(word);
    for (const Key &key : query.order) {
        sum.add(key.word);
        sum.add(key.falling);
    }
    return sum.value();
}

static uint64_t bound_sum(const Bound &bound) {
    Sum sum(bound.fact);
    for (uint32_t table : bound.dimensions) sum.add(table);
    for (const JoinTo &join : bound.joins) {
        sum.add(join.fact_column);
        sum.add(join.key);
    }
    for (const Tested &condition : bound.conditions) {
        sum.add(condition.column);
        sum.add(condition.test, condition.literals);
    }
    sum.add(bound.groups.size());
    for (ColumnId id : bound.groups) sum.add(id);
    for (const SumOf &of : bound.sums) {
        sum.add((uint64_t)of.shape);
        sum.add(of.first);
        if (of.shape != Shape::Plain) sum.add(of.second);
    }
    for (BoundItem item : bound.items) sum.add(item);
    for (const OrderKey &key : bound.order) {
        sum.add(key.item);
        sum.add(key.falling);
    }
    return sum.value();
}

static uint64_t refusal_sum(Refusal refusal) { return (uint64_t)refusal.cause * 31 + refusal.at; }

// The outcome of a text as a number: of the whole query, or of its length.
static uint64_t read_outcome(std::string_view text, bool is_whole) {
    try {
        const Query query = read_query(text);
        return is_whole ? query_sum(query) : query.items.size() + query.conditions.size() + query.groups.size() + query.order.size();
    } catch (Refusal refusal) {
        return refusal_sum(refusal);
    }
}

static uint64_t bind_outcome(std::string_view text, const Schema &schema, bool is_whole) {
    try {
        const Query query = read_query(text);
        const Bound bound = Binder(query, schema).bind();
        return is_whole ? bound_sum(bound) : bound.items.size() + bound.conditions.size() + bound.groups.size() + bound.order.size();
    } catch (Refusal refusal) {
        return refusal_sum(refusal);
    }
}

int main(int argc, char **argv) {
    if (argc != 4) return 0;
    const std::string task = argv[1], shape = argv[2];
    const uint64_t rounds = strtoull(argv[3], nullptr, 10);
    const std::string tables = schema_text(shape), text = query_text(shape);
    const Schema schema = schema_of(tables);
    auto outcome = [&](bool is_whole) { return task == "read" ? read_outcome(text, is_whole) : bind_outcome(text, schema, is_whole); };
    Sum of_rounds(outcome(true));
    for (uint64_t round = 0; round < rounds; round++) of_rounds.add(outcome(false));
    Sum sum(0);
    sum.add(std::string_view(tables));
    sum.add(std::string_view(text));
    sum.add(of_rounds.value());
    printf("%llu\n", (unsigned long long)sum.value());
}
