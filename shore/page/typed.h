// Tables and calendars as the page has them, every cell as it was typed. What is no number is told with its place; whether a table or a calendar is one for
// the engine the engine says.
#ifndef SHORE_PAGE_TYPED_H
#define SHORE_PAGE_TYPED_H

#include <string>
#include <vector>

#include "csv.h"
#include "hours.h"

namespace shore {

// Behind each calendar and each table, and between the cells of a row.
constexpr char calendar_end = '\x1d';
constexpr char table_end = '\x1e';
constexpr char cell_end = '\x1f';
// Behind a tariff.
constexpr char tariff_end = '\x1c';

// Rows of the page's tables above the first one that is stored.
constexpr int bounds_row = -1;
constexpr int columns_row = -2;
constexpr int head_row = -3;
constexpr int whole = -1;
constexpr int number_field = 0;
constexpr int name_field = 2;

struct TableFault {
    int table = 0;
    int row = 0;
    // `whole` where it is the row as such.
    int column = whole;
    std::string what;
    bool none() const { return what.empty(); }
};

// What is wrong with a calendar: its name, or its hours.
struct HoursFault {
    std::size_t calendar = 0;
    bool name = false;
    std::string what;
    bool none() const { return what.empty(); }
};

struct TypedPage {
    Stored stored;
    TableFault fault;
    HoursFault hours_fault;
    std::string question;
};

inline std::vector<std::string> split(const std::string &text, char end) {
    std::vector<std::string> parts;
    std::size_t at = 0;
    for (std::size_t next = text.find(end); next != std::string::npos; next = text.find(end, at)) {
        parts.push_back(text.substr(at, next - at));
        at = next + 1;
    }
    parts.push_back(text.substr(at));
    return parts;
}

class PageReading {
  public:
    explicit PageReading(const std::string &text) {
        auto calendars = split(text, calendar_end);
        auto parts = split(calendars.back(), table_end);
        calendars.pop_back();
        page_.question = parts.back();
        parts.pop_back();
        for (const std::string &part : parts) {
            table(split(part, '\n'));
        }
        for (const std::string &each : calendars) {
            calendar(each.substr(0, each.find(cell_end)), each.substr(each.find(cell_end) + 1));
        }
    }
    const TypedPage &page() const { return page_; }

  private:
    void fail(int row, int column, const std::string &what) {
        if (page_.fault.none()) {
            page_.fault = {static_cast<int>(page_.stored.tables.size()), row, column, what};
        }
    }
    void fail(bool name, const std::string &what) {
        if (page_.hours_fault.none()) {
            page_.hours_fault = {page_.stored.calendars.size(), name, what};
        }
    }
    void calendar(const std::string &name, const std::string &hours) {
        Calendars &calendars = page_.stored.calendars;
        const WindowsReading read(hours);
        if (!dislogha::text::is_name(chars_of(name))) {
            fail(true, "a calendar is called by a word");
        } else if (calendar_called(calendars, name) < calendars.size()) {
            fail(true, "another calendar is called '" + name + "', too");
        } else if (!read.fault().empty()) {
            fail(false, read.fault());
        }
        calendars.push_back({name, read.windows()});
    }
    void table(const std::vector<std::string> &lines) {
        Table table = stored(lines);
        const auto head = split(lines[0], cell_end);
        const std::int64_t number = unsigned_of(head[0], dislogha::text::most_byte);
        if (number < 0 || number > dislogha::text::most_byte) {
            fail(head_row, number_field, "a table's number is from 0 to 7");
        }
        table.number = static_cast<std::uint8_t>(number);
        table.collection = dislogha::text::monoid_called(chars_of(head[1]));
        table.name = head[2];
        if (!dislogha::text::is_name(chars_of(table.name))) {
            fail(head_row, name_field, "a table is called by a word");
        } else if (table_called(page_.stored.tables, table.name) != nullptr) {
            fail(head_row, name_field, "another table is called '" + table.name + "', too");
        }
        table.columns = split(lines[1], cell_end);
        bounds(split(lines[2], cell_end), table);
        page_.stored.tables.push_back(table);
    }
    // The rows, which are read as those of a file are: its heading is line 1 there.
    Table stored(const std::vector<std::string> &lines) {
        std::string file = "column";
        for (std::size_t i = 1; i < split(lines[1], cell_end).size(); i++) {
            file += "\tcolumn" + std::to_string(i);
        }
        for (std::size_t i = 3; i < lines.size(); i++) {
            const auto cells = split(lines[i], cell_end);
            for (std::size_t j = 0; j < cells.size(); j++) {
                file += (j == 0 ? "\n" : "\t") + (cells[j].empty() ? "\"\"" : cells[j]);
            }
        }
        const Csv csv = read_csv(file);
        if (!csv.good()) {
            fail(static_cast<int>(csv.fault.line) - 2, static_cast<int>(csv.fault.column) - 1, csv.fault.what);
        }
        return csv.table;
    }
    void bounds(const std::vector<std::string> &typed, Table &table) {
        constexpr std::int64_t most = 0xffffffff;
        table.bounds.clear();
        for (std::size_t i = 0; i < typed.size(); i++) {
            const std::int64_t bound = unsigned_of(typed[i], most);
            if (bound < 0 || bound > most) {
                fail(bounds_row, static_cast<int>(i), "a bound is from 0 to 2147483648");
            }
            table.bounds.push_back(static_cast<std::uint32_t>(bound));
        }
    }

    TypedPage page_;
};

// The place of a refusal of the data: the engine is asked about fewer tables, then about one column and one cell.
class DataLocating {
  public:
    DataLocating(Engine &engine, const Tables &tables) : engine_(engine) {
        Tables first;
        number_ = asked(tables);
        while (number_ != 0 && first.size() < tables.size()) {
            first.push_back(tables[first.size()]);
            if (asked(first) == number_) {
                fault_.table = static_cast<int>(first.size()) - 1;
                place(first.back());
                return;
            }
        }
    }
    // 0 where the data is not refused.
    std::uint64_t number() const { return number_; }
    const TableFault &fault() const { return fault_; }

  private:
    // No question at all is 22, and that comes behind whatever is refused of the data.
    std::uint64_t asked(const Tables &tables) {
        const std::uint64_t number = engine_.check({packed(tables), {}}, {});
        return number == static_cast<std::uint64_t>(dislogha::Refusal::broken_record) ? 0 : number;
    }
    void place(const Table &table) {
        fault_.row = head_row;
        fault_.column = number_field;
        if (number_ != static_cast<std::uint64_t>(dislogha::Refusal::cell_beyond_bound)) {
            return;
        }
        for (std::size_t i = 0; i < table.columns.size(); i++) {
            for (std::size_t j = 0; j <= table.rows.size(); j++) {
                if (asked({cell(table, i, j)}) == number_) {
                    fault_.row = j == 0 ? bounds_row : static_cast<int>(j) - 1;
                    fault_.column = static_cast<int>(i);
                    return;
                }
            }
        }
    }
    // A table of one column and at most one row: none where `row` is 0.
    static Table cell(const Table &table, std::size_t column, std::size_t row) {
        Table one;
        one.columns = {table.columns[column]};
        one.bounds = {table.bounds[column]};
        if (row > 0) {
            one.rows = {{table.rows[row - 1][column]}};
        }
        return one;
    }

    Engine &engine_;
    std::uint64_t number_ = 0;
    TableFault fault_;
};

} // namespace shore

#endif
