// Files: whole ones read and written, tables and calendars loaded and saved.
#ifndef SHORE_FILES_H
#define SHORE_FILES_H

#include <cstdio>
#include <fstream>
#include <iterator>
#include <string>

#include "csv.h"
#include "desk.h"
#include "records.h"

namespace shore {

inline bool read_file(const std::string &path, std::string &content) {
    std::ifstream file(path, std::ios::binary);
    // A folder opens, and is not read.
    file.peek();
    if (!file.is_open() || file.bad()) {
        return false;
    }
    file.clear();
    content.assign(std::istreambuf_iterator<char>(file), std::istreambuf_iterator<char>());
    return static_cast<bool>(file);
}

inline bool write_file(const std::string &path, const std::string &content) {
    std::ofstream file(path, std::ios::binary);
    file.write(content.data(), static_cast<std::streamsize>(content.size()));
    file.close();
    return static_cast<bool>(file);
}

inline bool ends_with(const std::string &text, const std::string &end) {
    return text.size() >= end.size() && text.compare(text.size() - end.size(), end.size(), end) == 0;
}

// What a file's table is called: its name without folders and without what follows the first point.
inline std::string base_name(const std::string &path) {
    const std::size_t slash = path.rfind('/');
    const std::string file = slash == std::string::npos ? path : path.substr(slash + 1);
    return file.substr(0, file.find('.'));
}

inline std::string names_of(const std::string &path) { return path + ".names"; }
inline std::string calendars_of(const std::string &path) { return path + ".calendars"; }

// Puts a table in, in place of the one that is called so.
inline bool put_in(Desk &desk, Table &table, bool numbered) {
    Table *old = table_called(desk.stored.tables, table.name);
    if (old != nullptr) {
        table.number = numbered ? table.number : old->number;
    } else if (desk.stored.tables.size() == most_tables) {
        desk.fail("there are 8 tables already; .drop one");
        return false;
    } else if (!numbered) {
        table.number = free_number(desk.stored.tables);
    }
    const Table *other = table_numbered(desk.stored.tables, table.number);
    if (other != nullptr && other != old) {
        desk.fail("number " + std::to_string(table.number) + " is that of " + other->name);
        return false;
    }
    if (old != nullptr) {
        *old = table;
    } else {
        desk.stored.tables.push_back(table);
    }
    return true;
}

inline void tell(const Table &table) {
    say(table.name + ": a " + collection_name(table.collection) + " of " +
        counted(table.rows.size(), "row", "rows") + ", table " + std::to_string(table.number));
}

inline void tell(const Calendars &calendars, std::size_t at) {
    say(calendars[at].name + ": " + counted(calendars[at].windows.size(), "window", "windows") + ", calendar " + std::to_string(at));
}

// Puts a calendar in, in place of the one that is called so, or behind the others. The engine says whether they can be lent.
inline void put_in(Desk &desk, const Calendar &calendar) {
    if (!text::is_name(chars_of(calendar.name))) {
        desk.fail("'" + calendar.name + "' cannot be a calendar's name");
        return;
    }
    Calendars calendars = desk.stored.calendars;
    const std::size_t at = calendar_called(calendars, calendar.name);
    calendars.resize(at < calendars.size() ? calendars.size() : at + 1);
    calendars[at] = calendar;
    const CalendarFault fault = fault_of(calendars);
    if (fault.number != 0) {
        desk.refused(fault.number, calendar.name + ", " + fault.what);
        return;
    }
    desk.stored.calendars = calendars;
    tell(calendars, at);
}

// What may be given with a file that is loaded.
struct Given {
    // A file that is an argument is loaded without a word: what is printed may be read by another program.
    bool quiet = false;
    bool calendar = false;
    int collection = bag;
    std::string name;
    int number = -1;
    std::vector<std::pair<std::string, std::uint32_t>> bounds;
};

// A bound that is given for a column; false where the column is not there or a cell is beyond it.
inline bool declare(Desk &desk, Table &table, const std::string &column, std::uint32_t bound) {
    for (std::size_t i = 0; i < table.columns.size(); i++) {
        if (table.columns[i] != column) {
            continue;
        }
        if (bound < magnitude(table, i) || bound > widest) {
            desk.fail(bound > widest ? "a bound is at most 2147483648"
                                     : "column " + column + " has a cell of magnitude " +
                                           std::to_string(magnitude(table, i)));
            return false;
        }
        table.bounds[i] = bound;
        return true;
    }
    desk.fail(table.name + " has no column " + column);
    return false;
}

inline void load_csv(Desk &desk, const std::string &path, const std::string &content, const Given &given) {
    Csv csv = given.calendar ? read_hours(content) : read_csv(content);
    if (!csv.good()) {
        const std::string column = csv.fault.column == 0 ? "" : ", column " + std::to_string(csv.fault.column);
        desk.fail(path + ", line " + std::to_string(csv.fault.line) + column + ": " + csv.fault.what);
        return;
    }
    Table &table = csv.table;
    table.name = given.name.empty() ? base_name(path) : given.name;
    if (given.calendar) {
        put_in(desk, Calendar{table.name, windows_of(table)});
        return;
    }
    table.collection = given.collection;
    table.number = static_cast<std::uint8_t>(given.number < 0 ? 0 : given.number);
    if (!text::is_name(chars_of(table.name))) {
        desk.fail("'" + table.name + "' cannot be a table's name; say .load " + path + " named NAME");
        return;
    }
    for (const auto &bound : given.bounds) {
        if (!declare(desk, table, bound.first, bound.second)) {
            return;
        }
    }
    if (put_in(desk, table, given.number >= 0) && !given.quiet) {
        tell(table);
        for (const std::string &line : csv.told) {
            say("  " + line);
        }
    }
}

// What records have, unless they are refused.
inline bool whole(Desk &desk, const std::string &path, const Unpacked &read) {
    if (read.number != 0) {
        desk.refused(read.number, "", path + ", bytes " + std::to_string(read.from) + " to " + std::to_string(read.to) + ": ");
    }
    return read.number == 0;
}

inline Bytes bytes_of(const std::string &content) { return Bytes(content.begin(), content.end()); }

// Records as .save writes them, in place of all calendars and, where the file is not one of calendars, of all tables.
inline void load_records(Desk &desk, const std::string &path, const std::string &content, bool calendars) {
    Unpacked read = calendars ? Unpacked() : unpacked(desk.engine, bytes_of(content));
    if (!whole(desk, path, read)) {
        return;
    }
    const std::string base = calendars ? path.substr(0, path.size() - calendars_of("").size()) : path;
    std::string hours;
    if (read_file(calendars_of(base), hours)) {
        const Unpacked lent = unpacked_calendars(bytes_of(hours));
        if (!whole(desk, calendars_of(base), lent)) {
            return;
        }
        read.stored.calendars = lent.stored.calendars;
    }
    std::string names;
    if (read_file(names_of(base), names) && !name(read.stored, names)) {
        desk.fail(names_of(base) + " does not fit these records");
        return;
    }
    if (!calendars) {
        desk.stored.tables.clear();
        for (Table &table : read.stored.tables) {
            put_in(desk, table, true);
            tell(table);
        }
    }
    desk.stored.calendars = read.stored.calendars;
    for (std::size_t i = 0; i < read.stored.calendars.size(); i++) {
        tell(read.stored.calendars, i);
    }
}

inline void load(Desk &desk, const std::string &path, const Given &given) {
    std::string content;
    if (!read_file(path, content)) {
        desk.fail("cannot read " + path);
    } else if (ends_with(path, ".csv")) {
        load_csv(desk, path, content, given);
    } else {
        load_records(desk, path, content, ends_with(path, calendars_of("")));
    }
}

// A file of this content; none where there is nothing to write.
inline bool write_or_remove(const std::string &path, const Bytes &bytes) {
    if (bytes.empty()) {
        std::remove(path.c_str());
    }
    return bytes.empty() || write_file(path, std::string(bytes.begin(), bytes.end()));
}

// All tables as records of kind 20, or by columns as those of kind 23; the calendars and all names beside them.
inline void save(Desk &desk, const Stored &stored, const std::string &path, bool columns) {
    Bytes bytes;
    for (const Table &table : stored.tables) {
        const Bytes record = columns ? by_columns(packed(table)) : packed(table);
        bytes.insert(bytes.end(), record.begin(), record.end());
    }
    const Calendars &calendars = stored.calendars;
    if (!write_file(path, std::string(bytes.begin(), bytes.end())) || !write_file(names_of(path), schema_text(stored) + "\n") ||
        !write_or_remove(calendars_of(path), packed(calendars))) {
        desk.fail("cannot write " + path);
        return;
    }
    say(path + ": " + counted(stored.tables.size(), "table", "tables") + ", " + counted(bytes.size(), "byte", "bytes") +
        (columns ? " by columns" : "") + "; names in " + names_of(path));
    if (!calendars.empty()) {
        say(calendars_of(path) + ": " + counted(calendars.size(), "calendar", "calendars"));
    }
}

} // namespace shore

#endif
