// Tables as the desk keeps them, and their bytes: records of kind 20.
#ifndef SHORE_TABLES_H
#define SHORE_TABLES_H

#include <cstdint>
#include <string>
#include <vector>

#include "dislogha_text.h"

namespace shore {

using Bytes = std::vector<std::uint8_t>;

constexpr std::uint32_t widest = 0x80000000u;
constexpr std::size_t most_rows = 1024;
constexpr std::size_t most_columns = dislogha::text::most_columns;
constexpr std::size_t most_tables = dislogha::text::most_tables;
constexpr int list = 1;
constexpr int bag = 2;

struct Table {
    std::string name;
    std::uint8_t number = 0;
    // 1 list, 2 bag, 3 set.
    int collection = bag;
    std::vector<std::string> columns;
    // What each column declares, at most 2^31; a tight one lets more questions pass 28.
    std::vector<std::uint32_t> bounds;
    std::vector<std::vector<std::int32_t>> rows;
};

using Tables = std::vector<Table>;

inline std::string string_of(dislogha::text::Chars chars) {
    return std::string(chars.first(), chars.count());
}

inline dislogha::text::Chars chars_of(const std::string &text) { return {text.data(), text.size()}; }

// A number without sign; `most` + 1 where it is larger, -1 where it is none.
inline std::int64_t unsigned_of(const std::string &digits, std::int64_t most) {
    const bool number = !digits.empty() && digits.find_first_not_of("0123456789") == std::string::npos;
    return number ? dislogha::text::value_of(chars_of(digits), most) : -1;
}

inline std::string collection_name(int collection) {
    return string_of(dislogha::text::monoid_name(collection));
}

inline std::uint32_t magnitude(std::int32_t cell) {
    return cell < 0 ? 0u - static_cast<std::uint32_t>(cell) : static_cast<std::uint32_t>(cell);
}

// The largest magnitude in a column: the least bound that it may declare.
inline std::uint32_t magnitude(const Table &table, std::size_t column) {
    std::uint32_t most = 0;
    for (const auto &row : table.rows) {
        most = magnitude(row[column]) > most ? magnitude(row[column]) : most;
    }
    return most;
}

inline const Table *table_numbered(const Tables &tables, std::int64_t number) {
    for (const Table &table : tables) {
        if (table.number == number) {
            return &table;
        }
    }
    return nullptr;
}

inline Table *table_called(Tables &tables, const std::string &name) {
    for (Table &table : tables) {
        if (table.name == name) {
            return &table;
        }
    }
    return nullptr;
}

// The least number that no table has.
inline std::uint8_t free_number(const Tables &tables) {
    std::uint8_t number = 0;
    while (table_numbered(tables, number) != nullptr) {
        number++;
    }
    return number;
}

inline void put(Bytes &bytes, std::uint32_t value, std::size_t count) {
    for (std::size_t i = 0; i < count; i++) {
        bytes.push_back(static_cast<std::uint8_t>(value >> (8 * i) & 255));
    }
}

inline Bytes packed(const Table &table) {
    Bytes bytes;
    const std::size_t cells = table.rows.size() * table.columns.size() + table.columns.size();
    put(bytes, static_cast<std::uint32_t>(5 + 4 * cells), 2);
    put(bytes, 20, 2);
    put(bytes, table.number, 1);
    put(bytes, static_cast<std::uint32_t>(table.collection), 1);
    put(bytes, static_cast<std::uint32_t>(table.columns.size()), 1);
    put(bytes, static_cast<std::uint32_t>(table.rows.size()), 2);
    for (std::uint32_t bound : table.bounds) {
        put(bytes, bound, 4);
    }
    for (const auto &row : table.rows) {
        for (std::int32_t cell : row) {
            put(bytes, static_cast<std::uint32_t>(cell), 4);
        }
    }
    return bytes;
}

inline Bytes packed(const Tables &tables) {
    Bytes bytes;
    for (const Table &table : tables) {
        const Bytes one = packed(table);
        bytes.insert(bytes.end(), one.begin(), one.end());
    }
    return bytes;
}

} // namespace shore

#endif
