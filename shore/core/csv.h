// Tables from CSV: the first line has the columns' names, every other one a row of whole numbers. A calendar is read as a table of
// weekdays, first and end minutes, which may be written as Mon and 08:00.
#ifndef SHORE_CSV_H
#define SHORE_CSV_H

#include <string>
#include <vector>

#include "calendars.h"

namespace shore {

// What is wrong with a file, and where: lines and columns from 1; column 0 is the whole line.
struct CsvFault {
    std::size_t line = 0;
    std::size_t column = 0;
    std::string what;
};

struct Csv {
    Table table;
    // What was changed to make a name of a heading.
    std::vector<std::string> told;
    CsvFault fault;
    bool good() const { return fault.what.empty(); }
};

class CsvReading {
  public:
    CsvReading(const std::string &text, bool hours) : hours_(hours) {
        std::size_t at = text.compare(0, 3, "\xef\xbb\xbf") == 0 ? 3 : 0;
        while (at < text.size() && csv_.good()) {
            std::size_t end = text.find('\n', at);
            end = end == std::string::npos ? text.size() : end;
            line_++;
            read(text.substr(at, end - at));
            at = end + 1;
        }
        if (csv_.good() && csv_.table.columns.empty()) {
            fail(0, "the file is empty: the first line must have the columns' names", 1);
        }
        for (std::size_t i = 0; csv_.good() && i < csv_.table.columns.size(); i++) {
            csv_.table.bounds.push_back(magnitude(csv_.table, i));
        }
    }
    Csv result() const { return csv_; }

  private:
    void fail(std::size_t column, const std::string &what, std::size_t line = 0) {
        csv_.fault = {line == 0 ? line_ : line, column, what};
    }
    void read(std::string line) {
        while (!line.empty() && (line.back() == '\r' || line.back() == ' ')) {
            line.pop_back();
        }
        if (line.empty()) {
            return;
        }
        if (csv_.table.columns.empty()) {
            heading(line);
        } else {
            row(cells(line));
        }
    }
    // The heading says what separates cells: a comma, else a semicolon, else a tab.
    void heading(const std::string &line) {
        for (char c : {',', ';', '\t'}) {
            if (line.find(c) != std::string::npos) {
                separator_ = c;
                break;
            }
        }
        const auto names = cells(line);
        if (hours_ && names.size() != 3) {
            fail(0, "a calendar has three columns: weekday, first, end");
            return;
        }
        if (names.size() > most_columns) {
            fail(most_columns + 1, std::to_string(names.size()) + " columns; a table has at most 8");
            return;
        }
        for (std::size_t i = 0; i < names.size() && csv_.good(); i++) {
            column(i, names[i]);
        }
    }
    void column(std::size_t at, const std::string &heading) {
        const std::string name = as_name(heading, at);
        for (std::size_t i = 0; i < at; i++) {
            if (csv_.table.columns[i] == name) {
                fail(at + 1, "'" + name + "' is column " + std::to_string(i + 1) + " already");
                return;
            }
        }
        if (name != heading) {
            csv_.told.push_back("column " + std::to_string(at + 1) + ", '" + heading + "', is called " +
                                name);
        }
        csv_.table.columns.push_back(name);
    }
    // A heading that is no word becomes one: what is no letter and no digit is `_`.
    static std::string as_name(const std::string &heading, std::size_t at) {
        std::string name;
        for (char c : heading) {
            const bool kept = dislogha::text::is_letter(c) || dislogha::text::is_digit(c);
            name += kept ? c : '_';
        }
        if (name.empty()) {
            return "column" + std::to_string(at + 1);
        }
        return dislogha::text::is_letter(name[0]) ? name : "_" + name;
    }
    std::vector<std::string> cells(const std::string &line) const {
        std::vector<std::string> found;
        std::size_t at = 0;
        for (;;) {
            const std::size_t end = line.find(separator_, at);
            found.push_back(bare(line.substr(at, end == std::string::npos ? end : end - at)));
            if (end == std::string::npos) {
                return found;
            }
            at = end + 1;
        }
    }
    // Without the spaces and quotation marks around it.
    static std::string bare(const std::string &cell) {
        const std::size_t first = cell.find_first_not_of(" \"");
        const std::size_t last = cell.find_last_not_of(" \"");
        return first == std::string::npos ? "" : cell.substr(first, last - first + 1);
    }
    void row(const std::vector<std::string> &cells) {
        const auto &columns = csv_.table.columns;
        if (cells.size() != columns.size()) {
            fail(0, std::to_string(cells.size()) + (cells.size() == 1 ? " cell" : " cells") + ", but " +
                        std::to_string(columns.size()) + (columns.size() == 1 ? " column" : " columns"));
            return;
        }
        if (csv_.table.rows.size() == most_rows) {
            fail(0, "row 1,025; a table has at most 1,024");
            return;
        }
        std::vector<std::int32_t> row;
        for (std::size_t i = 0; i < cells.size() && csv_.good(); i++) {
            row.push_back(cell(cells[i], i));
        }
        csv_.table.rows.push_back(row);
    }
    std::int32_t cell(const std::string &text, std::size_t at) {
        const std::int64_t hour = !hours_ ? -1 : at == 0 ? weekday_called(text) : time_of(text);
        const std::int32_t value = hour >= 0 ? static_cast<std::int32_t>(hour) : number(text, at);
        if (hours_ && csv_.good() && (value < 0 || value > (at == 0 ? dislogha::text::most_byte : most_minute))) {
            fail(at + 1, text + " does not fit into a window");
        }
        return value;
    }
    std::int32_t number(const std::string &text, std::size_t at) {
        const bool minus = !text.empty() && text[0] == '-';
        const std::string digits = text.substr(minus ? 1 : 0);
        const std::int64_t limit = INT64_C(2147483647) + (minus ? 1 : 0);
        const bool whole = !digits.empty() && digits.find_first_not_of("0123456789") == std::string::npos;
        const std::int64_t value = whole ? dislogha::text::value_of(chars_of(digits), limit) : 0;
        if (!whole) {
            fail(at + 1, "'" + text + "' is no " + (!hours_ ? "whole number" : at == 0 ? "weekday" : "time"));
        } else if (value > limit) {
            fail(at + 1, text + " does not fit; a cell is from -2147483648 to 2147483647");
        }
        return static_cast<std::int32_t>(minus ? -value : value);
    }

    const bool hours_;
    Csv csv_;
    std::size_t line_ = 0;
    char separator_ = ',';
};

inline Csv read_csv(const std::string &text) { return CsvReading(text, false).result(); }

inline Csv read_hours(const std::string &text) { return CsvReading(text, true).result(); }

inline std::vector<Window> windows_of(const Table &table) {
    std::vector<Window> windows;
    for (const auto &row : table.rows) {
        windows.push_back({static_cast<std::uint8_t>(row[0]), static_cast<std::uint16_t>(row[1]), static_cast<std::uint16_t>(row[2])});
    }
    return windows;
}

} // namespace shore

#endif
