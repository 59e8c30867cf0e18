// What the desk keeps, tables and calendars: their names for questions, and the bytes that every call is lent.
#ifndef SHORE_STORED_H
#define SHORE_STORED_H

#include <string>

#include "calendars.h"
#include "tables.h"

namespace shore {

struct Stored {
    Tables tables;
    Calendars calendars;
};

// The same as bytes.
struct Packed {
    Bytes data;
    Bytes calendars;

    bool operator==(const Packed &other) const { return data == other.data && calendars == other.calendars; }
    bool operator!=(const Packed &other) const { return !(*this == other); }
};

inline Packed packed(const Stored &stored) { return {packed(stored.tables), packed(stored.calendars)}; }

// The names stay those of `stored`, which must live as long.
inline dislogha::text::Schema schema_of(const Stored &stored) {
    dislogha::text::Schema schema;
    for (const Table &table : stored.tables) {
        auto &names = schema.tables[schema.count++];
        names.name = chars_of(table.name);
        names.number = table.number;
        for (const std::string &column : table.columns) {
            names.columns[names.count++] = chars_of(column);
        }
    }
    for (const Calendar &calendar : stored.calendars) {
        schema.calendars[schema.calendars_count++] = chars_of(calendar.name);
    }
    return schema;
}

// The same as a text: `@0 berths(berth, depth) @1 bollards(berth, pull) open{lock}`.
inline std::string schema_text(const Stored &stored) {
    std::string text;
    for (const Table &table : stored.tables) {
        text += (text.empty() ? "@" : " @") + std::to_string(table.number) + " " + table.name + "(";
        for (std::size_t i = 0; i < table.columns.size(); i++) {
            text += (i == 0 ? "" : ", ") + table.columns[i];
        }
        text += ")";
    }
    for (std::size_t i = 0; i < stored.calendars.size(); i++) {
        text += (i > 0 ? ", " : text.empty() ? "open{" : " open{") + stored.calendars[i].name;
    }
    return text + (stored.calendars.empty() ? "" : "}");
}

} // namespace shore

#endif
