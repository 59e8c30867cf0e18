// Tables and calendars from their records. The engine judges them; their names are not in the bytes.
#ifndef SHORE_RECORDS_H
#define SHORE_RECORDS_H

#include <string>

#include "hours.h"
#include "question.h"
#include "sentences.h"

namespace shore {

struct Unpacked {
    Stored stored;
    // A refusal's number, and the bytes of the record that has it.
    std::uint64_t number = 0;
    std::size_t from = 0;
    std::size_t to = 0;
};

inline std::size_t two_bytes(const Bytes &bytes, std::size_t at) {
    return bytes[at] + std::size_t{256} * bytes[at + 1];
}

inline std::uint32_t four_bytes(const Bytes &bytes, std::size_t at) {
    return static_cast<std::uint32_t>(two_bytes(bytes, at) + 65536 * two_bytes(bytes, at + 2));
}

// Where the record at `at` ends, or the bytes do.
inline std::size_t record_end(const Bytes &bytes, std::size_t at) {
    const std::size_t left = bytes.size() - at;
    return left < 4 || left - 4 < two_bytes(bytes, at) ? bytes.size() : at + 4 + two_bytes(bytes, at);
}

// A record in the other kind: by columns, or by rows; unchanged where it is of that kind already.
template <class Turn> Bytes turned(Turn turn, const Bytes &record) {
    Bytes target(record.size());
    const dislogha::Result result = turn(span_of(record), {target.data(), target.size()});
    return result.outcome == dislogha::Outcome::answered ? target : record;
}

inline Bytes by_rows(const Bytes &record) { return turned(dislogha::table_to_rows, record); }
inline Bytes by_columns(const Bytes &record) { return turned(dislogha::table_to_columns, record); }

// A record of kind 20 that the engine takes.
inline Table table_of(const Bytes &bytes, std::size_t at) {
    Table table;
    table.number = bytes[at + 4];
    table.name = "t" + std::to_string(table.number);
    table.collection = bytes[at + 5];
    const std::size_t columns = bytes[at + 6];
    const std::size_t rows = two_bytes(bytes, at + 7);
    std::size_t next = at + 9;
    for (std::size_t i = 0; i < columns; i++, next += 4) {
        table.columns.push_back("c" + std::to_string(i));
        table.bounds.push_back(four_bytes(bytes, next));
    }
    for (std::size_t row = 0; row < rows; row++) {
        table.rows.emplace_back();
        for (std::size_t i = 0; i < columns; i++, next += 4) {
            table.rows.back().push_back(static_cast<std::int32_t>(four_bytes(bytes, next)));
        }
    }
    return table;
}

inline Unpacked unpacked(Engine &engine, const Bytes &bytes) {
    // The sum of 7: a question that any well formed tables answer.
    const Bytes question = {9, 0, 14, 0, 4, 4, 0, 1, 0, 7, 0, 0, 0};
    Unpacked read;
    for (std::size_t at = 0; at < bytes.size(); at = read.to) {
        read.from = at;
        read.to = record_end(bytes, at);
        const Bytes so_far(bytes.begin(), bytes.begin() + static_cast<std::ptrdiff_t>(read.to));
        read.number = engine.check({so_far, {}}, question);
        if (read.number != 0) {
            return read;
        }
        const Bytes record(so_far.begin() + static_cast<std::ptrdiff_t>(at), so_far.end());
        read.stored.tables.push_back(table_of(by_rows(record), 0));
    }
    return read;
}

// A record of kind 24 that the engine takes.
inline Calendar calendar_of(const Bytes &bytes, std::size_t at) {
    Calendar calendar;
    for (std::size_t i = 0; i < bytes[at + 4]; i++) {
        const std::size_t window = at + 5 + 5 * i;
        calendar.windows.push_back({bytes[window], static_cast<std::uint16_t>(two_bytes(bytes, window + 1)),
                                    static_cast<std::uint16_t>(two_bytes(bytes, window + 3))});
    }
    return calendar;
}

inline Unpacked unpacked_calendars(const Bytes &bytes) {
    Unpacked read;
    for (std::size_t at = 0; at < bytes.size(); at = read.to) {
        read.from = at;
        read.to = record_end(bytes, at);
        read.number = layout_number(Bytes(bytes.begin(), bytes.begin() + static_cast<std::ptrdiff_t>(read.to)));
        if (read.number != 0) {
            return read;
        }
        read.stored.calendars.push_back(calendar_of(bytes, at));
        read.stored.calendars.back().name = "calendar" + std::to_string(read.stored.calendars.size() - 1);
    }
    return read;
}

// Calls tables and calendars as a schema's text does; those that it does not have keep their names. False
// where the text is not understood or has other columns, or other calendars.
inline bool name(Stored &stored, const std::string &names) {
    const text::Schema schema = text::schema(chars_of(names));
    if (schema.calendars_count != 0 && schema.calendars_count != stored.calendars.size()) {
        return false;
    }
    for (std::size_t i = 0; i < schema.calendars_count; i++) {
        stored.calendars[i].name = string_of(schema.calendars[i]);
    }
    for (std::size_t i = 0; i < schema.count; i++) {
        for (Table &table : stored.tables) {
            if (table.number != schema.tables[i].number) {
                continue;
            }
            if (table.columns.size() != schema.tables[i].count) {
                return false;
            }
            table.name = string_of(schema.tables[i].name);
            for (std::size_t column = 0; column < table.columns.size(); column++) {
                table.columns[column] = string_of(schema.tables[i].columns[column]);
            }
        }
    }
    return schema.fault.none();
}

} // namespace shore

#endif
