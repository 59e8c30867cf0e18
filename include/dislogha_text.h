// A question's text and its bytes, both ways, for C++17: docs/NOTATION.md is the notation.
//
// Everything here is constexpr and asks for nothing but memory of its own: no library, no
// allocation, no exception. So a question in the source of firmware is bytes that the compiler made,
// and one that names a wrong column does not compile:
//
//     DISLOGHA_QUESTION(pull, "berths(berth, depth) bollards(berth, pull)",
//                       "bag{ (b.berth, sum{ l.pull | l <- bollards, l.berth = b.berth })"
//                       "   | b <- berths }");
//     dislogha::answer_by_plan(data, {}, pull, scratch, answer);
//
// `typed` reads a text at run time and tells the place of every record, `printed` writes the text of
// bytes. Both look at names, columns and brackets alone. Whether a question is accepted only the
// engine says: no type is judged here.
#ifndef DISLOGHA_TEXT_H
#define DISLOGHA_TEXT_H

#include <cstddef>
#include <cstdint>

namespace dislogha {
namespace text {

// ---------------------------------------------------------------------------------- characters

// Characters that belong to the caller; behind the last one there are only zeros.
class Chars {
  public:
    constexpr Chars() noexcept = default;
    constexpr Chars(const char *first, std::size_t count) noexcept : first_(first), count_(count) {}
    template <std::size_t N>
    constexpr Chars(const char (&literal)[N]) noexcept : first_(literal), count_(N - 1) {}

    constexpr const char *first() const noexcept { return first_; }
    constexpr std::size_t count() const noexcept { return count_; }
    constexpr bool empty() const noexcept { return count_ == 0; }
    constexpr char operator[](std::size_t at) const noexcept {
        return at < count_ ? first_[at] : '\0';
    }
    constexpr Chars part(std::size_t from, std::size_t to) const noexcept {
        return {first_ + from, to - from};
    }
    constexpr bool operator==(Chars other) const noexcept {
        if (count_ != other.count_) {
            return false;
        }
        for (std::size_t i = 0; i < count_; i++) {
            if (first_[i] != other.first_[i]) {
                return false;
            }
        }
        return true;
    }

  private:
    const char *first_ = "";
    std::size_t count_ = 0;
};

// From a character, or a byte, up to and not including another.
struct Place {
    std::uint32_t from = 0;
    std::uint32_t to = 0;
};

constexpr Place place(std::size_t from, std::size_t to) noexcept {
    return {static_cast<std::uint32_t>(from), static_cast<std::uint32_t>(to)};
}

constexpr bool is_digit(char c) noexcept { return c >= '0' && c <= '9'; }

// Letters are those of ASCII, `_`, and every byte of a character that is not ASCII's.
constexpr bool is_letter(char c) noexcept {
    return (c >= 'a' && c <= 'z') || (c >= 'A' && c <= 'Z') || c == '_' ||
           static_cast<unsigned char>(c) >= 128;
}

// ------------------------------------------------------------------------------ what is written

// The kinds of a question's records, by their numbers in the papers.
enum class Kind : std::uint8_t {
    number = 1,
    truth = 2,
    name = 3,
    field = 4,
    record = 5,
    plus = 6,
    minus = 7,
    times = 8,
    equal = 9,
    less = 10,
    conjunction = 11,
    disjunction = 12,
    negation = 13,
    comprehension = 14,
    table = 15,
    generator = 16,
    binding = 17,
    condition = 18,
    choice = 19,
    open = 21,
};

constexpr bool is_qualifier(Kind kind) noexcept {
    return kind == Kind::generator || kind == Kind::binding || kind == Kind::condition;
}

constexpr bool is_binder(Kind kind) noexcept {
    return kind == Kind::generator || kind == Kind::binding;
}

constexpr std::int32_t last_collection = 3;
constexpr std::int32_t last_monoid = 8;

// The name of a monoid, or of a collection, by its number.
constexpr Chars monoid_name(std::int32_t monoid) noexcept {
    constexpr Chars names[] = {"", "list", "bag", "set", "sum", "max", "some", "all", "min"};
    return monoid >= 1 && monoid <= last_monoid ? names[monoid] : Chars();
}

constexpr std::int32_t monoid_called(Chars word) noexcept {
    for (std::int32_t monoid = last_monoid; monoid > 0; monoid--) {
        if (monoid_name(monoid) == word) {
            return monoid;
        }
    }
    return 0;
}

constexpr bool gives_truth(std::int32_t monoid) noexcept { return monoid == 6 || monoid == 7; }

constexpr std::int32_t most_byte = 255;
constexpr std::size_t most_columns = 8;
constexpr std::size_t most_tables = 8;
constexpr std::size_t most_calendars = 4;

// How large a question may be that is read here. These are the engine's sizes, so 21 and 23 are
// said by the compiler; a desk takes larger ones, and lets the engine say them.
struct Accepted {
    static constexpr std::size_t bytes = 4096;
    static constexpr std::size_t records = 256;
    static constexpr std::size_t levels = 32;
};

// ----------------------------------------------------------------------------------- what is wrong

enum class Wrong : std::uint8_t {
    nothing,
    unknown_character,
    term_expected,
    name_expected,
    column_expected,
    number_expected,
    equals_expected,
    then_expected,
    else_expected,
    comma_expected,
    calendar_expected,
    bracket_expected,
    brace_expected,
    qualifier_expected,
    monoid_unknown,
    number_too_large,
    index_too_large,
    too_many_fields,
    behind_question,
    not_a_question,
    no_such_name,
    no_such_calendar,
    no_such_column,
    column_twice,
    too_many_names,
    too_many_records,
    too_deep,
    too_long,
    tables_not_understood,
    broken_record,
};

constexpr const char *sentence(Wrong wrong) noexcept {
    switch (wrong) {
    case Wrong::nothing: return "nothing is wrong";
    case Wrong::unknown_character: return "no term begins with this character";
    case Wrong::term_expected: return "a term is expected here";
    case Wrong::name_expected: return "a name is expected here";
    case Wrong::column_expected: return "a column's name or number is expected behind the point";
    case Wrong::number_expected: return "a number is expected here";
    case Wrong::equals_expected: return "'=' is expected here";
    case Wrong::then_expected: return "'then' is expected here";
    case Wrong::else_expected: return "'else' is expected here";
    case Wrong::comma_expected: return "',' is expected here";
    case Wrong::calendar_expected: return "a calendar's name or number is expected here";
    case Wrong::bracket_expected: return "',' or ')' is expected here";
    case Wrong::brace_expected: return "'|' or '}' is expected here";
    case Wrong::qualifier_expected: return "',' or '}' is expected here";
    case Wrong::monoid_unknown: return "this is none of list, bag, set, sum, max, min, some, all";
    case Wrong::number_too_large: return "a number is from -2147483648 to 2147483647";
    case Wrong::index_too_large: return "this number is from 0 to 255";
    case Wrong::too_many_fields: return "a record has at most 8 fields";
    case Wrong::behind_question: return "this stands behind the question";
    case Wrong::not_a_question: return "a question is a comprehension, as bag{ x | x <- table }";
    case Wrong::no_such_name: return "no name and no table is called so here";
    case Wrong::no_such_calendar: return "no calendar is called so";
    case Wrong::no_such_column: return "no column is called so";
    case Wrong::column_twice: return "two columns are called so; write its number, or give labels";
    case Wrong::too_many_names: return "a question has at most 256 names";
    case Wrong::too_many_records: return "the question has too many records";
    case Wrong::too_deep: return "this stands too deep inside the question";
    case Wrong::too_long: return "this is too long";
    case Wrong::tables_not_understood:
        return "tables are written name(column, column) .., calendars open{name, name}";
    case Wrong::broken_record: return "this record breaks the byte rules";
    }
    return "";
}

// What a term is, as far as columns are to be found.
enum class Sort : std::uint8_t { unknown, number, truth, record, collection };

// The first thing that is not understood, and where: characters of a text, bytes of a question.
struct Fault {
    Wrong wrong = Wrong::nothing;
    Place at{};
    // Where a column is not found: what stands left of the point, and the columns that it has.
    Sort left = Sort::unknown;
    Chars has[most_columns] = {};
    std::size_t has_count = 0;

    constexpr bool none() const noexcept { return wrong == Wrong::nothing; }
    constexpr void set(Wrong what, Place where) noexcept {
        if (none()) {
            wrong = what;
            at = where;
        }
    }
};

// ------------------------------------------------------------------------------------------ tokens

enum class Token : std::uint8_t {
    end,
    unknown,
    number,
    word,
    let,
    choice,
    then,
    otherwise,
    truth,
    falsity,
    conjunction,
    disjunction,
    negation,
    equal,
    unequal,
    less,
    greater,
    at_most,
    at_least,
    plus,
    minus,
    times,
    arrow,
    left_bracket,
    right_bracket,
    left_brace,
    right_brace,
    bar,
    point,
    comma,
    colon,
    hash,
    at,
};

// Words that are no names.
constexpr Token reserved(Chars word) noexcept {
    struct Reserved {
        Chars word;
        Token token;
    };
    constexpr Reserved words[] = {
        {"let", Token::let},           {"if", Token::choice},      {"then", Token::then},
        {"else", Token::otherwise},    {"true", Token::truth},     {"false", Token::falsity},
        {"and", Token::conjunction},   {"or", Token::disjunction}, {"not", Token::negation},
    };
    for (const Reserved &each : words) {
        if (each.word == word) {
            return each.token;
        }
    }
    return Token::word;
}

// Whether a table or a name may be called so.
constexpr bool is_name(Chars word) noexcept {
    bool letters = is_letter(word[0]);
    for (std::size_t i = 0; i < word.count(); i++) {
        letters = letters && (is_letter(word[i]) || is_digit(word[i]));
    }
    return letters && reserved(word) == Token::word;
}

// Goes through a text token by token. Spaces, and comments from `//` to the end of their line, stand
// between tokens.
class Tokens {
  public:
    constexpr explicit Tokens(Chars text) noexcept : text_(text) { step(); }

    constexpr Token token() const noexcept { return token_; }
    constexpr Place at() const noexcept { return place(from_, to_); }
    constexpr std::size_t from() const noexcept { return from_; }
    constexpr std::size_t to() const noexcept { return to_; }
    // Where the token before this one ends.
    constexpr std::size_t behind() const noexcept { return behind_; }
    constexpr Chars word() const noexcept { return text_.part(from_, to_); }
    constexpr Chars text() const noexcept { return text_; }
    constexpr bool is(Token token) const noexcept { return token_ == token; }

    constexpr void step() noexcept {
        behind_ = to_;
        skip();
        from_ = to_;
        if (from_ >= text_.count()) {
            token_ = Token::end;
        } else if (is_digit(text_[from_])) {
            to_ = digits(from_);
            token_ = Token::number;
        } else if (is_letter(text_[from_])) {
            to_ = letters(from_);
            token_ = reserved(word());
        } else {
            token_ = symbol(text_[from_], text_[from_ + 1]);
            to_ = from_ + (two(token_) ? 2 : 1);
        }
    }

  private:
    constexpr void skip() noexcept {
        for (;;) {
            const char c = text_[to_];
            if (c == '/' && text_[to_ + 1] == '/') {
                while (to_ < text_.count() && text_[to_] != '\n') {
                    to_++;
                }
            } else if (c == ' ' || c == '\n' || c == '\t' || c == '\r') {
                to_++;
            } else {
                return;
            }
        }
    }
    constexpr std::size_t digits(std::size_t at) const noexcept {
        while (is_digit(text_[at])) {
            at++;
        }
        return at;
    }
    constexpr std::size_t letters(std::size_t at) const noexcept {
        while (is_letter(text_[at]) || is_digit(text_[at])) {
            at++;
        }
        return at;
    }
    static constexpr bool two(Token token) noexcept {
        return token == Token::arrow || token == Token::at_most || token == Token::at_least ||
               token == Token::unequal;
    }
    static constexpr Token symbol(char c, char next) noexcept {
        switch (c) {
        case '<': return next == '-' ? Token::arrow : next == '=' ? Token::at_most : Token::less;
        case '>': return next == '=' ? Token::at_least : Token::greater;
        case '!': return next == '=' ? Token::unequal : Token::unknown;
        case '=': return Token::equal;
        case '+': return Token::plus;
        case '-': return Token::minus;
        case '*': return Token::times;
        case '(': return Token::left_bracket;
        case ')': return Token::right_bracket;
        case '{': return Token::left_brace;
        case '}': return Token::right_brace;
        case '|': return Token::bar;
        case '.': return Token::point;
        case ',': return Token::comma;
        case ':': return Token::colon;
        case '#': return Token::hash;
        case '@': return Token::at;
        default: return Token::unknown;
        }
    }

    Chars text_;
    std::size_t behind_ = 0;
    std::size_t from_ = 0;
    std::size_t to_ = 0;
    Token token_ = Token::end;
};

// The value of a number's digits, or `limit` + 1 where it is larger.
constexpr std::int64_t value_of(Chars digits, std::int64_t limit) noexcept {
    std::int64_t value = 0;
    for (std::size_t i = 0; i < digits.count() && value <= limit; i++) {
        value = value * 10 + (digits[i] - '0');
    }
    return value <= limit ? value : limit + 1;
}

// ---------------------------------------------------------------------------- tables and calendars

struct TableNames {
    Chars name{};
    std::uint8_t number = 0;
    Chars columns[most_columns] = {};
    std::size_t count = 0;
};

// The names by which a question may call tables, their columns, and calendars.
struct Schema {
    TableNames tables[most_tables] = {};
    std::size_t count = 0;
    // A calendar's number is its place.
    Chars calendars[most_calendars] = {};
    std::size_t calendars_count = 0;
    Fault fault{};

    constexpr const TableNames *called(Chars name) const noexcept {
        for (std::size_t i = 0; i < count; i++) {
            if (tables[i].name == name) {
                return &tables[i];
            }
        }
        return nullptr;
    }
    constexpr const TableNames *numbered(std::int32_t number) const noexcept {
        for (std::size_t i = 0; i < count; i++) {
            if (tables[i].number == number) {
                return &tables[i];
            }
        }
        return nullptr;
    }
    // -1 where no calendar is called so.
    constexpr std::int32_t calendar_called(Chars name) const noexcept {
        for (std::size_t i = 0; i < calendars_count; i++) {
            if (calendars[i] == name) {
                return static_cast<std::int32_t>(i);
            }
        }
        return -1;
    }
};

// Reads `berths(berth, depth) @5 bollards(berth, pull) open{lock, quay}`: a table's number is the one
// behind `@`, else its place from 0; calendars are numbered from 0.
class SchemaReading {
  public:
    constexpr explicit SchemaReading(Chars text) noexcept : tokens_(text) {
        while (schema_.fault.none() && !tokens_.is(Token::end)) {
            if (!tokens_.is(Token::at) && braced()) {
                calendars();
            } else {
                table();
            }
        }
    }
    constexpr const Schema &schema() const noexcept { return schema_; }

  private:
    constexpr void fail() noexcept {
        schema_.fault.set(Wrong::tables_not_understood, tokens_.at());
    }
    // Whether a brace follows this word: then it is no table's name.
    constexpr bool braced() const noexcept {
        Tokens behind = tokens_;
        behind.step();
        return behind.is(Token::left_brace);
    }
    constexpr void calendars() noexcept {
        if (!(tokens_.word() == Chars("open"))) {
            fail();
        }
        tokens_.step();
        do {
            tokens_.step();
            const Chars called = name();
            if (schema_.calendars_count == most_calendars || schema_.calendar_called(called) >= 0) {
                fail();
            }
            if (schema_.fault.none()) {
                schema_.calendars[schema_.calendars_count++] = called;
            }
        } while (schema_.fault.none() && tokens_.is(Token::comma));
        if (!tokens_.is(Token::right_brace)) {
            fail();
        }
        tokens_.step();
    }
    constexpr void table() noexcept {
        TableNames table;
        table.number = static_cast<std::uint8_t>(schema_.count);
        if (tokens_.is(Token::at)) {
            tokens_.step();
            table.number = number();
        }
        table.name = name();
        if (schema_.count == most_tables || schema_.called(table.name) != nullptr ||
            schema_.numbered(table.number) != nullptr || !tokens_.is(Token::left_bracket)) {
            fail();
            return;
        }
        do {
            tokens_.step();
            column(table);
        } while (schema_.fault.none() && tokens_.is(Token::comma));
        if (!tokens_.is(Token::right_bracket)) {
            fail();
            return;
        }
        tokens_.step();
        schema_.tables[schema_.count++] = table;
    }
    constexpr std::uint8_t number() noexcept {
        const std::int64_t value =
            tokens_.is(Token::number) ? value_of(tokens_.word(), most_byte) : most_byte + 1;
        if (value > most_byte) {
            fail();
            return 0;
        }
        tokens_.step();
        return static_cast<std::uint8_t>(value);
    }
    constexpr Chars name() noexcept {
        const Chars word = tokens_.word();
        if (!tokens_.is(Token::word)) {
            fail();
        }
        tokens_.step();
        return word;
    }
    // A column may be called by a reserved word: it stands behind a point.
    constexpr void column(TableNames &table) noexcept {
        const Chars word = tokens_.word();
        if (!is_letter(word[0]) || table.count == most_columns) {
            fail();
            return;
        }
        tokens_.step();
        table.columns[table.count++] = word;
    }

    Tokens tokens_;
    Schema schema_{};
};

constexpr Schema schema(Chars text) noexcept { return SchemaReading(text).schema(); }

// -------------------------------------------------------------------------------------------- tree

constexpr std::uint16_t none = 0xffff;

// A record of a question. Its parts stand in the order of the bytes: a comprehension's head is last.
struct Node {
    Kind kind = Kind::number;
    // Number, truth, name, table, index of a field, monoid, calendar. -1: not known yet.
    std::int32_t value = 0;
    Place at{};
    // Where it is called by a word: a name, a binder's name, a table, a column, a calendar.
    Place word{};
    Place label{};
    std::uint16_t first = none;
    std::uint16_t last = none;
    std::uint16_t next = none;
    std::uint16_t levels = 1;
    // Of a field: its column, where it has a name that no other column has.
    Chars column{};
};

template <class Limits> struct Tree {
    Node nodes[Limits::records] = {};
    std::size_t count = 0;
    std::uint16_t root = none;
    Fault fault{};
    // The text; of a question that was read from bytes there is none.
    Chars text{};
    // Names that are written by number: a name written by a word gets another one.
    bool numbered[most_byte + 1] = {};

    constexpr bool good() const noexcept { return fault.none(); }
    constexpr Chars word_of(const Node &node) const noexcept {
        return text.part(node.word.from, node.word.to);
    }
    constexpr Chars label_of(const Node &node) const noexcept {
        return text.part(node.label.from, node.label.to);
    }
    constexpr std::uint16_t make(Kind kind, std::int32_t value, Place at) noexcept {
        if (count == Limits::records) {
            fault.set(Wrong::too_many_records, at);
            return 0;
        }
        nodes[count].kind = kind;
        nodes[count].value = value;
        nodes[count].at = at;
        return static_cast<std::uint16_t>(count++);
    }
    // Puts a part behind the others; what has it reaches as far as it does.
    constexpr void add(std::uint16_t to, std::uint16_t part) noexcept {
        if (!good()) {
            return;
        }
        Node &node = nodes[to];
        const Node &added = nodes[part];
        if (node.first == none) {
            node.first = part;
        } else {
            nodes[node.last].next = part;
        }
        node.last = part;
        node.at.from = added.at.from < node.at.from ? added.at.from : node.at.from;
        node.at.to = added.at.to > node.at.to ? added.at.to : node.at.to;
        if (added.levels >= node.levels) {
            node.levels = static_cast<std::uint16_t>(added.levels + 1);
        }
        if (node.levels > Limits::levels) {
            fault.set(Wrong::too_deep, added.at);
        }
    }
};

// ----------------------------------------------------------------------------------- text to tree

// How tight an operator binds, from `or` to the point.
constexpr int loosest = 0;
constexpr int conjunction_level = 1;
constexpr int negation_level = 2;
constexpr int comparison_level = 3;
constexpr int sum_level = 4;
constexpr int product_level = 5;
constexpr int path_level = 6;

struct Operator {
    int level;
    Kind kind;
    bool swapped;
    bool negated;
};

// `a > b` is `b < a`, `a <= b` is `not b < a`, and so on.
constexpr Operator operator_of(Token token) noexcept {
    switch (token) {
    case Token::disjunction: return {loosest, Kind::disjunction, false, false};
    case Token::conjunction: return {conjunction_level, Kind::conjunction, false, false};
    case Token::equal: return {comparison_level, Kind::equal, false, false};
    case Token::unequal: return {comparison_level, Kind::equal, false, true};
    case Token::less: return {comparison_level, Kind::less, false, false};
    case Token::greater: return {comparison_level, Kind::less, true, false};
    case Token::at_most: return {comparison_level, Kind::less, true, true};
    case Token::at_least: return {comparison_level, Kind::less, false, true};
    case Token::plus: return {sum_level, Kind::plus, false, false};
    case Token::minus: return {sum_level, Kind::minus, false, false};
    case Token::times: return {product_level, Kind::times, false, false};
    default: return {-1, Kind::number, false, false};
    }
}

template <class Limits> class Reading {
  public:
    constexpr Reading(Chars text, Tree<Limits> &tree) noexcept : tokens_(text), tree_(tree) {
        tree_.text = text;
        tree_.root = term(loosest);
        if (good() && !tokens_.is(Token::end)) {
            fail(tokens_.is(Token::unknown) ? Wrong::unknown_character : Wrong::behind_question);
        }
        if (good() && tree_.nodes[tree_.root].kind != Kind::comprehension) {
            tree_.fault.set(Wrong::not_a_question, tree_.nodes[tree_.root].at);
        }
    }

  private:
    // Terms that may be read inside each other: two for a level, and some for brackets that are not needed.
    static constexpr std::size_t most_nested = 2 * Limits::levels + 64;

    constexpr bool good() const noexcept { return tree_.good(); }
    constexpr std::uint16_t fail(Wrong wrong) noexcept {
        tree_.fault.set(tokens_.is(Token::unknown) ? Wrong::unknown_character : wrong, tokens_.at());
        return 0;
    }
    constexpr void take(Token token, Wrong wrong) noexcept {
        if (good() && !tokens_.is(token)) {
            fail(wrong);
        }
        tokens_.step();
    }
    constexpr std::uint16_t make(Kind kind, std::int32_t value, std::size_t from) noexcept {
        return tree_.make(kind, value, place(from, tokens_.behind() > from ? tokens_.behind() : from));
    }

    // A term whose operators bind at least so tight.
    constexpr std::uint16_t term(int level) noexcept {
        if (++nested_ > most_nested) {
            return fail(Wrong::too_deep);
        }
        const std::uint16_t read = tokens_.is(Token::choice) && level == loosest ? choice()
                                                                                 : chain(level);
        nested_--;
        return read;
    }
    constexpr std::uint16_t choice() noexcept {
        const std::size_t from = tokens_.from();
        tokens_.step();
        const std::uint16_t truth = term(loosest);
        take(Token::then, Wrong::then_expected);
        const std::uint16_t first = good() ? term(loosest) : none;
        take(Token::otherwise, Wrong::else_expected);
        const std::uint16_t second = good() ? term(loosest) : none;
        const std::uint16_t made = make(Kind::choice, 0, from);
        tree_.add(made, truth);
        tree_.add(made, first);
        tree_.add(made, second);
        return made;
    }
    constexpr std::uint16_t chain(int level) noexcept {
        int most = path_level;
        std::uint16_t left = 0;
        if (tokens_.is(Token::negation) && level <= negation_level) {
            const std::size_t from = tokens_.from();
            tokens_.step();
            left = negated(term(negation_level), from);
            most = conjunction_level;
        } else {
            left = path();
        }
        for (;;) {
            const Operator found = operator_of(tokens_.token());
            if (!good() || found.level < level || found.level > most) {
                return left;
            }
            tokens_.step();
            left = joined(found, left, term(found.level + 1));
            // Comparisons do not follow one another, and nothing tighter follows a looser one.
            most = found.level == comparison_level ? negation_level : found.level;
        }
    }
    constexpr std::uint16_t joined(Operator found, std::uint16_t left, std::uint16_t right) noexcept {
        if (!good()) {
            return 0;
        }
        const std::uint16_t made = tree_.make(found.kind, 0, tree_.nodes[left].at);
        tree_.add(made, found.swapped ? right : left);
        tree_.add(made, found.swapped ? left : right);
        return found.negated && good() ? negated(made, tree_.nodes[made].at.from) : made;
    }
    constexpr std::uint16_t negated(std::uint16_t part, std::size_t from) noexcept {
        const std::uint16_t made = make(Kind::negation, 0, from);
        tree_.add(made, part);
        return made;
    }
    constexpr std::uint16_t path() noexcept {
        std::uint16_t left = primary();
        while (good() && tokens_.is(Token::point)) {
            tokens_.step();
            left = field(left);
        }
        return left;
    }
    constexpr std::uint16_t field(std::uint16_t of) noexcept {
        const bool by_number = tokens_.is(Token::number);
        if (!by_number && !is_letter(tokens_.word()[0])) {
            return fail(Wrong::column_expected);
        }
        const std::int32_t value = by_number ? index() : -1;
        const Place word = tokens_.at();
        tokens_.step();
        const std::uint16_t made = make(Kind::field, value, tree_.nodes[of].at.from);
        if (good()) {
            tree_.nodes[made].word = word;
            tree_.add(made, of);
        }
        return made;
    }
    // A number from 0 to 255: a field's, a name's, a table's, a calendar's.
    constexpr std::int32_t index() noexcept {
        if (!tokens_.is(Token::number)) {
            fail(Wrong::number_expected);
            return 0;
        }
        const std::int64_t value = value_of(tokens_.word(), most_byte);
        if (value > most_byte) {
            fail(Wrong::index_too_large);
        }
        return static_cast<std::int32_t>(value);
    }
    constexpr std::uint16_t primary() noexcept {
        const std::size_t from = tokens_.from();
        switch (tokens_.token()) {
        case Token::number: return number(false, from);
        case Token::minus: return negative(from);
        case Token::truth: return constant(Kind::truth, 1, from);
        case Token::falsity: return constant(Kind::truth, 0, from);
        case Token::left_bracket: return bracket(from);
        case Token::hash: return by_number(Kind::name, from);
        case Token::at: return by_number(Kind::table, from);
        case Token::word: return called(from);
        default: return fail(Wrong::term_expected);
        }
    }
    constexpr std::uint16_t constant(Kind kind, std::int32_t value, std::size_t from) noexcept {
        tokens_.step();
        return make(kind, value, from);
    }
    constexpr std::uint16_t number(bool minus, std::size_t from) noexcept {
        const std::int64_t limit = INT64_C(2147483647) + (minus ? 1 : 0);
        const std::int64_t value = value_of(tokens_.word(), limit);
        if (value > limit) {
            return fail(Wrong::number_too_large);
        }
        return constant(Kind::number, static_cast<std::int32_t>(minus ? -value : value), from);
    }
    // `-3` is the number; `-x` is `0 - x`, the 0 standing where the sign stands.
    constexpr std::uint16_t negative(std::size_t from) noexcept {
        tokens_.step();
        if (tokens_.is(Token::number)) {
            return number(true, from);
        }
        if (++nested_ > most_nested) {
            return fail(Wrong::too_deep);
        }
        const std::uint16_t zero = make(Kind::number, 0, from);
        const std::uint16_t part = path();
        nested_--;
        const std::uint16_t made = make(Kind::minus, 0, from);
        tree_.add(made, zero);
        tree_.add(made, part);
        return made;
    }
    constexpr std::uint16_t by_number(Kind kind, std::size_t from) noexcept {
        tokens_.step();
        const std::int32_t value = index();
        if (!good()) {
            return 0;
        }
        tree_.numbered[value] = tree_.numbered[value] || kind == Kind::name;
        return constant(kind, value, from);
    }
    constexpr std::uint16_t called(std::size_t from) noexcept {
        const Place word = tokens_.at();
        const Chars called = tokens_.word();
        tokens_.step();
        if (tokens_.is(Token::left_brace)) {
            return comprehension(monoid_called(called), word);
        }
        if (tokens_.is(Token::left_bracket) && called == Chars("open")) {
            return open(from);
        }
        const std::uint16_t made = make(Kind::name, -1, from);
        tree_.nodes[made].word = word;
        return made;
    }
    constexpr std::uint16_t open(std::size_t from) noexcept {
        tokens_.step();
        const bool by_number = tokens_.is(Token::number);
        if (!by_number && !tokens_.is(Token::word)) {
            return fail(Wrong::calendar_expected);
        }
        const std::int32_t calendar = by_number ? index() : -1;
        const Place word = tokens_.at();
        tokens_.step();
        take(Token::comma, Wrong::comma_expected);
        const std::uint16_t part = good() ? term(loosest) : none;
        take(Token::right_bracket, Wrong::bracket_expected);
        const std::uint16_t made = make(Kind::open, calendar, from);
        if (good()) {
            tree_.nodes[made].word = word;
            tree_.add(made, part);
        }
        return made;
    }
    // A record, or a term in brackets.
    constexpr std::uint16_t bracket(std::size_t from) noexcept {
        std::uint16_t parts[most_columns] = {};
        std::size_t count = 0;
        bool is_record = false;
        do {
            tokens_.step();
            if (count > 0 && tokens_.is(Token::right_bracket)) {
                break;
            }
            if (count == most_columns) {
                return fail(Wrong::too_many_fields);
            }
            parts[count] = labelled(is_record);
            count++;
            is_record = is_record || tokens_.is(Token::comma);
        } while (good() && tokens_.is(Token::comma));
        take(Token::right_bracket, Wrong::bracket_expected);
        if (!good()) {
            return 0;
        }
        if (!is_record) {
            tree_.nodes[parts[0]].at = place(from, tokens_.behind());
            return parts[0];
        }
        const std::uint16_t made = make(Kind::record, 0, from);
        for (std::size_t i = 0; i < count; i++) {
            tree_.add(made, parts[i]);
        }
        return made;
    }
    constexpr std::uint16_t labelled(bool &is_record) noexcept {
        const Tokens before = tokens_;
        const Place label = tokens_.at();
        const bool worded = is_letter(tokens_.word()[0]);
        tokens_.step();
        if (!worded || !tokens_.is(Token::colon)) {
            tokens_ = before;
            return term(loosest);
        }
        is_record = true;
        tokens_.step();
        const std::uint16_t part = term(loosest);
        tree_.nodes[part].label = label;
        return part;
    }
    constexpr std::uint16_t comprehension(std::int32_t monoid, Place word) noexcept {
        if (monoid == 0) {
            tree_.fault.set(Wrong::monoid_unknown, word);
            return 0;
        }
        tokens_.step();
        const std::uint16_t head = term(loosest);
        const std::uint16_t made = make(Kind::comprehension, monoid, word.from);
        if (good() && tokens_.is(Token::bar)) {
            do {
                tokens_.step();
                tree_.add(made, qualifier());
            } while (good() && tokens_.is(Token::comma));
            take(Token::right_brace, Wrong::qualifier_expected);
        } else {
            take(Token::right_brace, Wrong::brace_expected);
        }
        tree_.add(made, head);
        tree_.nodes[made].at.to = static_cast<std::uint32_t>(tokens_.behind());
        return made;
    }
    constexpr std::uint16_t qualifier() noexcept {
        const std::size_t from = tokens_.from();
        if (tokens_.is(Token::let)) {
            tokens_.step();
            const std::uint16_t name = primary();
            if (good() && tree_.nodes[name].kind != Kind::name) {
                tree_.fault.set(Wrong::name_expected, tree_.nodes[name].at);
            }
            take(Token::equal, Wrong::equals_expected);
            return binder(Kind::binding, name, from);
        }
        const std::uint16_t read = term(loosest);
        if (good() && tokens_.is(Token::arrow)) {
            if (tree_.nodes[read].kind != Kind::name) {
                tree_.fault.set(Wrong::name_expected, tree_.nodes[read].at);
            }
            tokens_.step();
            return binder(Kind::generator, read, from);
        }
        const std::uint16_t made = make(Kind::condition, 0, from);
        tree_.add(made, read);
        return made;
    }
    // What was read as a name becomes the binder of that name.
    constexpr std::uint16_t binder(Kind kind, std::uint16_t name, std::size_t from) noexcept {
        const std::uint16_t part = good() ? term(loosest) : none;
        if (good()) {
            tree_.nodes[name].kind = kind;
            tree_.nodes[name].at.from = static_cast<std::uint32_t>(from);
            tree_.add(name, part);
        }
        return name;
    }

    Tokens tokens_;
    Tree<Limits> &tree_;
    std::size_t nested_ = 0;
};

// ---------------------------------------------------------------------------------- bytes to tree

// The record at `from` of bytes that end at `to`: its content, and where it ends.
template <class Limits> class Decoding {
  public:
    constexpr Decoding(const std::uint8_t *bytes, std::size_t size, Tree<Limits> &tree) noexcept
        : bytes_(bytes), tree_(tree) {
        std::size_t at = 0;
        tree_.root = record(at, size, 1);
        if (tree_.good() && (at != size || tree_.nodes[tree_.root].kind != Kind::comprehension)) {
            tree_.fault.set(Wrong::broken_record, place(at == size ? 0 : at, size));
        }
    }

  private:
    constexpr std::uint16_t fail(Wrong wrong, std::size_t from, std::size_t to) noexcept {
        tree_.fault.set(wrong, place(from, to));
        return 0;
    }
    constexpr std::size_t two(std::size_t at) const noexcept {
        return bytes_[at] + std::size_t{256} * bytes_[at + 1];
    }
    constexpr std::uint16_t record(std::size_t &at, std::size_t to, std::size_t level) noexcept {
        const std::size_t from = at;
        if (to - from < 4 || to - from - 4 < two(from)) {
            return fail(Wrong::broken_record, from, to);
        }
        if (level > Limits::levels) {
            return fail(Wrong::too_deep, from, to);
        }
        const std::size_t end = from + 4 + two(from);
        const std::size_t kind = two(from + 2);
        std::size_t inner = from + 4;
        const std::size_t own = own_bytes(kind);
        if (kind < 1 || kind > 21 || kind == 20 || end - inner < own) {
            return fail(Wrong::broken_record, from, end);
        }
        const std::uint16_t made =
            tree_.make(static_cast<Kind>(kind), value(kind, inner), place(from, end));
        inner += own;
        while (tree_.good() && inner < end) {
            tree_.add(made, record(inner, end, level + 1));
        }
        if (tree_.good() && !keeps(tree_.nodes[made])) {
            return fail(Wrong::broken_record, from, end);
        }
        if (tree_.good()) {
            mark(tree_.nodes[made]);
        }
        at = end;
        return made;
    }
    constexpr void mark(const Node &node) noexcept {
        if (node.kind == Kind::name || is_binder(node.kind)) {
            tree_.numbered[node.value] = true;
        }
    }
    // Bytes of the content ahead of the parts.
    static constexpr std::size_t own_bytes(std::size_t kind) noexcept {
        switch (static_cast<Kind>(kind)) {
        case Kind::number: return 4;
        case Kind::truth:
        case Kind::table:
        case Kind::field:
        case Kind::comprehension:
        case Kind::open: return 1;
        case Kind::name:
        case Kind::generator:
        case Kind::binding: return 2;
        default: return 0;
        }
    }
    constexpr std::int32_t value(std::size_t kind, std::size_t at) const noexcept {
        std::uint32_t value = 0;
        for (std::size_t i = own_bytes(kind); i > 0; i--) {
            value = value * 256 + bytes_[at + i - 1];
        }
        return value < 0x80000000u ? static_cast<std::int32_t>(value)
                                   : -static_cast<std::int32_t>(0xffffffffu - value) - 1;
    }
    // The byte rules of one record whose parts keep them.
    constexpr bool keeps(const Node &node) const noexcept {
        std::size_t parts = 0;
        for (std::uint16_t part = node.first; part != none; part = tree_.nodes[part].next) {
            const bool last = tree_.nodes[part].next == none;
            const bool qualifier = is_qualifier(tree_.nodes[part].kind);
            if (qualifier != (node.kind == Kind::comprehension && !last)) {
                return false;
            }
            parts++;
        }
        switch (node.kind) {
        case Kind::number:
        case Kind::table: return parts == 0;
        case Kind::truth: return parts == 0 && node.value <= 1;
        case Kind::name: return parts == 0 && node.value <= most_byte;
        case Kind::generator:
        case Kind::binding: return parts == 1 && node.value <= most_byte;
        case Kind::field:
        case Kind::negation:
        case Kind::condition:
        case Kind::open: return parts == 1;
        case Kind::record: return parts >= 1 && parts <= most_columns;
        case Kind::choice: return parts == 3;
        case Kind::comprehension:
            return parts >= 1 && node.value >= 1 && node.value <= last_monoid;
        default: return parts == 2;
        }
    }

    const std::uint8_t *bytes_;
    Tree<Limits> &tree_;
};

// ------------------------------------------------------------------------------ names and columns

// Gives each name and each calendar its number and each column its index. A binder that is called by a word gets the
// next number that is not written out, so that a word may be used again in another place. Types are
// followed as far as columns are to be found, and judged by nobody.
template <class Limits> class Naming {
  public:
    constexpr Naming(Tree<Limits> &tree, const Schema &schema) noexcept
        : tree_(tree), schema_(schema) {
        number_ = make(Sort::number, none);
        truth_ = make(Sort::truth, none);
        for (std::size_t i = 0; i < schema_.count; i++) {
            stored_[i] = make(Sort::collection, row(schema_.tables[i]));
        }
        term(tree_.root);
    }

  private:
    struct Type {
        Sort sort = Sort::unknown;
        // A record's first field, a field's and a collection's own type.
        std::uint16_t first = none;
        // The next field.
        std::uint16_t next = none;
        Chars label{};
    };
    struct Bound {
        Chars word{};
        std::int32_t number = 0;
        std::uint16_t type = 0;
    };
    static constexpr std::uint16_t unknown = 0;
    static constexpr std::size_t most_types =
        3 + most_tables * (most_columns + 2) + 2 * Limits::records;

    constexpr std::uint16_t make(Sort sort, std::uint16_t first) noexcept {
        types_[types_count_].sort = sort;
        types_[types_count_].first = first;
        return static_cast<std::uint16_t>(types_count_++);
    }
    // Puts a field of a type behind the fields of a record.
    constexpr std::uint16_t field(std::uint16_t of, std::uint16_t last, std::uint16_t type,
                                  Chars label) noexcept {
        const std::uint16_t made = make(Sort::unknown, type);
        types_[made].label = label;
        (last == none ? types_[of].first : types_[last].next) = made;
        return made;
    }
    constexpr std::uint16_t row(const TableNames &table) noexcept {
        const std::uint16_t made = make(Sort::record, none);
        std::uint16_t last = none;
        for (std::size_t i = 0; i < table.count; i++) {
            last = field(made, last, number_, table.columns[i]);
        }
        return made;
    }
    constexpr std::uint16_t rows_of(std::int32_t number) const noexcept {
        const TableNames *table = schema_.numbered(number);
        return table == nullptr ? unknown : stored_[table - schema_.tables];
    }
    constexpr std::uint16_t term(std::uint16_t at) noexcept {
        Node &node = tree_.nodes[at];
        if (!tree_.good()) {
            return unknown;
        }
        switch (node.kind) {
        case Kind::number: return number_;
        case Kind::truth: return truth_;
        case Kind::name: return name(node);
        case Kind::table: return rows_of(node.value);
        case Kind::field: return column(node);
        case Kind::record: return record(node);
        case Kind::comprehension: return comprehension(node);
        case Kind::plus:
        case Kind::minus:
        case Kind::times: return parts(node, number_);
        case Kind::choice: return choice(node);
        case Kind::open: return open(node);
        default: return parts(node, truth_);
        }
    }
    constexpr std::uint16_t open(Node &node) noexcept {
        if (node.value < 0) {
            node.value = schema_.calendar_called(tree_.word_of(node));
        }
        if (node.value < 0) {
            tree_.fault.set(Wrong::no_such_calendar, node.word);
        }
        return parts(node, truth_);
    }
    constexpr std::uint16_t parts(const Node &node, std::uint16_t type) noexcept {
        for (std::uint16_t part = node.first; part != none; part = tree_.nodes[part].next) {
            term(part);
        }
        return type;
    }
    constexpr std::uint16_t choice(const Node &node) noexcept {
        const std::uint16_t first = tree_.nodes[node.first].next;
        term(node.first);
        const std::uint16_t type = term(first);
        term(tree_.nodes[first].next);
        return type;
    }
    constexpr std::uint16_t name(Node &node) noexcept {
        const Chars word = tree_.word_of(node);
        for (std::size_t i = bound_count_; i > 0; i--) {
            const Bound &bound = bound_[i - 1];
            if (node.value >= 0 ? bound.number == node.value : bound.word == word) {
                node.value = bound.number;
                return bound.type;
            }
        }
        const TableNames *table = node.value >= 0 ? nullptr : schema_.called(word);
        if (table != nullptr) {
            node.kind = Kind::table;
            node.value = table->number;
            return rows_of(node.value);
        }
        if (node.value < 0) {
            tree_.fault.set(Wrong::no_such_name, node.at);
        }
        return unknown;
    }
    constexpr std::uint16_t column(Node &node) noexcept {
        const std::uint16_t of = term(node.first);
        const Chars word = tree_.word_of(node);
        const std::uint16_t fields = types_[of].sort == Sort::record ? types_[of].first : none;
        std::uint16_t found = none;
        std::size_t alike = 0;
        std::int32_t index = 0;
        for (std::uint16_t i = fields; i != none && tree_.good(); i = types_[i].next, index++) {
            if (node.value < 0 ? types_[i].label == word : index == node.value) {
                found = found == none ? i : found;
                alike++;
            }
        }
        if (node.value < 0 && alike != 1) {
            return missing(node, of, alike == 0 ? Wrong::no_such_column : Wrong::column_twice);
        }
        if (found == none) {
            return unknown;
        }
        settle(node, fields, found);
        return types_[found].first;
    }
    // The index of a field, and its name where it is the only one of that name.
    constexpr void settle(Node &node, std::uint16_t fields, std::uint16_t found) noexcept {
        std::int32_t index = 0;
        std::size_t alike = 0;
        for (std::uint16_t i = fields; i != none; i = types_[i].next, index++) {
            node.value = i == found ? index : node.value;
            alike += types_[i].label == types_[found].label ? 1 : 0;
        }
        node.column = alike == 1 ? types_[found].label : Chars();
    }
    constexpr std::uint16_t missing(const Node &node, std::uint16_t of, Wrong wrong) noexcept {
        tree_.fault.set(wrong, node.word);
        tree_.fault.left = types_[of].sort;
        const std::uint16_t fields = types_[of].sort == Sort::record ? types_[of].first : none;
        for (std::uint16_t i = fields; i != none; i = types_[i].next) {
            tree_.fault.has[tree_.fault.has_count++] = types_[i].label;
        }
        return unknown;
    }
    constexpr std::uint16_t record(const Node &node) noexcept {
        const std::uint16_t made = make(Sort::record, none);
        std::uint16_t last = none;
        for (std::uint16_t part = node.first; part != none; part = tree_.nodes[part].next) {
            const std::uint16_t type = term(part);
            last = field(made, last, type, label(tree_.nodes[part]));
        }
        return made;
    }
    // A field of a record is called by its label, else as the column or the name that it is.
    constexpr Chars label(const Node &part) const noexcept {
        const Chars given = tree_.label_of(part);
        if (!given.empty()) {
            return given;
        }
        return part.kind == Kind::field ? part.column
               : part.kind == Kind::name ? tree_.word_of(part)
                                         : Chars();
    }
    constexpr std::uint16_t comprehension(const Node &node) noexcept {
        const std::size_t before = bound_count_;
        std::uint16_t part = node.first;
        for (; tree_.nodes[part].next != none; part = tree_.nodes[part].next) {
            const std::uint16_t type = term(tree_.nodes[part].first);
            if (is_binder(tree_.nodes[part].kind)) {
                bind(tree_.nodes[part], type);
            }
        }
        const std::uint16_t head = term(part);
        bound_count_ = before;
        return node.value <= last_collection ? make(Sort::collection, head)
               : gives_truth(node.value)     ? truth_
                                             : number_;
    }
    constexpr void bind(Node &binder, std::uint16_t type) noexcept {
        if (binder.value < 0) {
            while (next_ <= most_byte && tree_.numbered[next_]) {
                next_++;
            }
            if (next_ > most_byte) {
                tree_.fault.set(Wrong::too_many_names, binder.at);
                return;
            }
            binder.value = next_++;
        }
        Bound &bound = bound_[bound_count_++];
        bound.word = tree_.word_of(binder);
        bound.number = binder.value;
        bound.type = binder.kind == Kind::binding               ? type
                     : types_[type].sort == Sort::collection ? types_[type].first
                                                                : unknown;
    }

    Tree<Limits> &tree_;
    const Schema &schema_;
    Type types_[most_types] = {};
    std::size_t types_count_ = 1;
    std::uint16_t number_ = 0;
    std::uint16_t truth_ = 0;
    std::uint16_t stored_[most_tables] = {};
    Bound bound_[Limits::records] = {};
    std::size_t bound_count_ = 0;
    std::int32_t next_ = 0;
};

// ---------------------------------------------------------------------------------- tree to bytes

// What was typed: bytes, and of each record, in their order, the place that it has in the text; or
// what is not understood, and where.
template <class Limits = Accepted> struct Typed {
    std::uint8_t bytes[Limits::bytes] = {};
    std::size_t size = 0;
    std::size_t records = 0;
    Place places[Limits::records] = {};
    // The word by which it is called: a name, a binder's name, a table; a column or a calendar, or its
    // number.
    Place words[Limits::records] = {};
    // Its label, where it is a field that has one.
    Place labels[Limits::records] = {};
    Fault fault{};

    constexpr bool understood() const noexcept { return fault.none(); }
};

template <class Limits> class Encoding {
  public:
    constexpr Encoding(const Tree<Limits> &tree, Typed<Limits> &typed) noexcept
        : tree_(tree), typed_(typed) {
        record(tree_.root);
    }

  private:
    constexpr void byte(std::uint32_t value) noexcept {
        if (typed_.size == Limits::bytes) {
            typed_.fault.set(Wrong::too_long, tree_.nodes[tree_.root].at);
            return;
        }
        typed_.bytes[typed_.size++] = static_cast<std::uint8_t>(value & 255);
    }
    constexpr void bytes(std::uint32_t value, std::size_t count) noexcept {
        for (std::size_t i = 0; i < count; i++) {
            byte(value >> (8 * i));
        }
    }
    constexpr void place_of(const Node &node) noexcept {
        typed_.places[typed_.records] = node.at;
        typed_.words[typed_.records] = node.word;
        typed_.labels[typed_.records] = node.label;
        typed_.records++;
    }
    constexpr void record(std::uint16_t at) noexcept {
        const Node &node = tree_.nodes[at];
        const std::size_t start = typed_.size;
        place_of(node);
        bytes(0, 2);
        bytes(static_cast<std::uint32_t>(node.kind), 2);
        own(node);
        for (std::uint16_t part = node.first; part != none && typed_.understood();
             part = tree_.nodes[part].next) {
            record(part);
        }
        if (typed_.understood()) {
            const std::size_t length = typed_.size - start - 4;
            typed_.bytes[start] = static_cast<std::uint8_t>(length & 255);
            typed_.bytes[start + 1] = static_cast<std::uint8_t>(length >> 8 & 255);
        }
    }
    constexpr void own(const Node &node) noexcept {
        const std::uint32_t value = static_cast<std::uint32_t>(node.value);
        switch (node.kind) {
        case Kind::number: bytes(value, 4); break;
        case Kind::truth:
        case Kind::table:
        case Kind::field:
        case Kind::comprehension:
        case Kind::open: bytes(value, 1); break;
        case Kind::name:
        case Kind::generator:
        case Kind::binding: bytes(value, 2); break;
        default: break;
        }
    }

    const Tree<Limits> &tree_;
    Typed<Limits> &typed_;
};

// Reads a text into `typed`, using `tree`: for a caller that keeps both elsewhere than on the stack.
template <class Limits>
constexpr void read(Chars text, const Schema &schema, Tree<Limits> &tree,
                    Typed<Limits> &typed) noexcept {
    tree = Tree<Limits>();
    typed = Typed<Limits>();
    tree.fault = schema.fault;
    if (tree.good()) {
        Reading<Limits>(text, tree);
    }
    if (tree.good()) {
        Naming<Limits>(tree, schema);
    }
    typed.fault = tree.fault;
    if (tree.good()) {
        Encoding<Limits>(tree, typed);
    }
}

template <class Limits = Accepted>
constexpr Typed<Limits> typed(Chars text, const Schema &schema) noexcept {
    Tree<Limits> tree;
    Typed<Limits> typed;
    read(text, schema, tree, typed);
    return typed;
}

template <class Limits = Accepted> constexpr Typed<Limits> typed(Chars text, Chars tables) noexcept {
    return typed<Limits>(text, schema(tables));
}

// ----------------------------------------------------------------------------------- tree to text

// What was printed: so many characters; or what of the bytes is broken, and where. Where the buffer
// is too short, `too_long`.
struct Printed {
    std::size_t size = 0;
    Fault fault{};
};

template <class Limits> class Printing {
  public:
    constexpr Printing(const Tree<Limits> &tree, const Schema &schema, char *text,
                       std::size_t most) noexcept
        : tree_(tree), schema_(schema), text_(text), most_(most) {
        term(tree_.nodes[tree_.root], loosest);
    }
    constexpr const Printed &printed() const noexcept { return printed_; }

  private:
    constexpr void put(Chars chars) noexcept {
        for (std::size_t i = 0; i < chars.count(); i++) {
            if (printed_.size == most_) {
                printed_.fault.set(Wrong::too_long, place(0, most_));
                return;
            }
            text_[printed_.size++] = chars[i];
        }
    }
    constexpr void put(std::int64_t value) noexcept {
        char digits[12] = {};
        std::size_t at = sizeof digits;
        std::int64_t rest = value < 0 ? -value : value;
        do {
            digits[--at] = static_cast<char>('0' + rest % 10);
            rest /= 10;
        } while (rest > 0);
        put(value < 0 ? Chars("-") : Chars());
        put(Chars(digits + at, sizeof digits - at));
    }
    constexpr const Node &part(const Node &node, std::size_t index) const noexcept {
        std::uint16_t at = node.first;
        for (std::size_t i = 0; i < index; i++) {
            at = tree_.nodes[at].next;
        }
        return tree_.nodes[at];
    }
    // A term where only terms that bind at least so tight need no brackets.
    constexpr void term(const Node &node, int level) noexcept {
        const bool brackets = level_of(node.kind) < level;
        put(brackets ? Chars("(") : Chars());
        plain(node);
        put(brackets ? Chars(")") : Chars());
    }
    static constexpr int level_of(Kind kind) noexcept {
        switch (kind) {
        case Kind::choice: return loosest - 1;
        case Kind::disjunction: return loosest;
        case Kind::conjunction: return conjunction_level;
        case Kind::negation: return negation_level;
        case Kind::equal:
        case Kind::less: return comparison_level;
        case Kind::plus:
        case Kind::minus: return sum_level;
        case Kind::times: return product_level;
        default: return path_level;
        }
    }
    constexpr void plain(const Node &node) noexcept {
        switch (node.kind) {
        case Kind::number: put(node.value); break;
        case Kind::truth: put(node.value != 0 ? Chars("true") : Chars("false")); break;
        case Kind::name: name(node); break;
        case Kind::table: table(node); break;
        case Kind::field: field(node); break;
        case Kind::record: record(node); break;
        case Kind::disjunction: two(node, loosest, conjunction_level, " or "); break;
        case Kind::conjunction: two(node, conjunction_level, negation_level, " and "); break;
        case Kind::equal: two(node, sum_level, sum_level, " = "); break;
        case Kind::less: two(node, sum_level, sum_level, " < "); break;
        case Kind::plus: two(node, sum_level, product_level, " + "); break;
        case Kind::minus: two(node, sum_level, product_level, " - "); break;
        case Kind::times: two(node, product_level, path_level, " * "); break;
        case Kind::negation:
            put("not ");
            term(part(node, 0), negation_level);
            break;
        case Kind::choice: choice(node); break;
        case Kind::open: open(node); break;
        case Kind::comprehension: comprehension(node); break;
        default: qualifier(node); break;
        }
    }
    // A term where any one needs no brackets.
    constexpr void whole(const Node &node) noexcept { term(node, loosest - 1); }
    constexpr void two(const Node &node, int left, int right, Chars sign) noexcept {
        term(part(node, 0), left);
        put(sign);
        term(part(node, 1), right);
    }
    constexpr void name(const Node &node) noexcept {
        put("#");
        put(node.value);
    }
    constexpr void table(const Node &node) noexcept {
        const TableNames *table = schema_.numbered(node.value);
        if (table != nullptr) {
            put(table->name);
        } else {
            put("@");
            put(node.value);
        }
    }
    constexpr void open(const Node &node) noexcept {
        const std::size_t calendar = static_cast<std::size_t>(node.value);
        put("open(");
        if (calendar < schema_.calendars_count) {
            put(schema_.calendars[calendar]);
        } else {
            put(node.value);
        }
        put(", ");
        whole(part(node, 0));
        put(")");
    }
    constexpr void field(const Node &node) noexcept {
        term(part(node, 0), path_level);
        put(".");
        if (node.column.empty()) {
            put(node.value);
        } else {
            put(node.column);
        }
    }
    constexpr void record(const Node &node) noexcept {
        put("(");
        for (std::uint16_t at = node.first; at != none; at = tree_.nodes[at].next) {
            whole(tree_.nodes[at]);
            put(at != node.last ? Chars(", ") : at == node.first ? Chars(",") : Chars());
        }
        put(")");
    }
    constexpr void choice(const Node &node) noexcept {
        put("if ");
        term(part(node, 0), loosest);
        put(" then ");
        term(part(node, 1), loosest);
        put(" else ");
        whole(part(node, 2));
    }
    constexpr void comprehension(const Node &node) noexcept {
        put(monoid_name(node.value));
        put("{ ");
        whole(tree_.nodes[node.last]);
        for (std::uint16_t at = node.first; at != node.last; at = tree_.nodes[at].next) {
            put(at == node.first ? Chars(" | ") : Chars(", "));
            qualifier(tree_.nodes[at]);
        }
        put(" }");
    }
    constexpr void qualifier(const Node &node) noexcept {
        put(node.kind == Kind::binding ? Chars("let ") : Chars());
        if (node.kind != Kind::condition) {
            name(node);
            put(node.kind == Kind::binding ? Chars(" = ") : Chars(" <- "));
        }
        whole(part(node, 0));
    }

    const Tree<Limits> &tree_;
    const Schema &schema_;
    char *text_;
    std::size_t most_;
    Printed printed_{};
};

// Writes the text of a question's bytes: names by their numbers, tables, columns and calendars by their
// names where the schema has them. What it writes `read` gives the same bytes for.
template <class Limits>
constexpr Printed print(const std::uint8_t *bytes, std::size_t size, const Schema &schema,
                        Tree<Limits> &tree, char *text, std::size_t most) noexcept {
    tree = Tree<Limits>();
    Decoding<Limits>(bytes, size, tree);
    if (tree.good()) {
        Naming<Limits>(tree, schema);
    }
    Printed refused;
    refused.fault = tree.fault;
    return tree.good() ? Printing<Limits>(tree, schema, text, most).printed() : refused;
}

template <class Limits = Accepted>
constexpr Printed printed(const std::uint8_t *bytes, std::size_t size, const Schema &schema,
                          char *text, std::size_t most) noexcept {
    Tree<Limits> tree;
    return print(bytes, size, schema, tree, text, most);
}

// ------------------------------------------------------------------------- questions in the source

template <std::size_t N> struct Question {
    std::uint8_t bytes[N] = {};
};

template <std::size_t N> constexpr Question<N> question(const Typed<> &typed) noexcept {
    Question<N> made;
    for (std::size_t i = 0; i < N; i++) {
        made.bytes[i] = typed.bytes[i];
    }
    return made;
}

// The compiler's message has what is wrong, and from which to which character of the text.
template <Wrong wrong, std::uint32_t from, std::uint32_t to> struct Understood {
    static_assert(wrong == Wrong::nothing, "this question is not understood");
    static constexpr bool value = true;
};

} // namespace text
} // namespace dislogha

// Makes NAME an array of the bytes of a question, at namespace scope. TABLES has the names of tables and
// their columns, and those of calendars, as berths(berth, depth) @5 bollards(berth, pull) open{lock}.
#define DISLOGHA_QUESTION(NAME, TABLES, TEXT)                                                        \
    constexpr ::dislogha::text::Typed<> NAME##_typed = ::dislogha::text::typed(TEXT, TABLES);        \
    static_assert(::dislogha::text::Understood<NAME##_typed.fault.wrong, NAME##_typed.fault.at.from, \
                                               NAME##_typed.fault.at.to>::value);                    \
    constexpr auto NAME##_question = ::dislogha::text::question<NAME##_typed.size>(NAME##_typed);    \
    constexpr const auto &NAME = NAME##_question.bytes

#endif
