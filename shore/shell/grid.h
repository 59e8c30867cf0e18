// Answers drawn as tables of characters, a nested collection of records as a table in its cell.
#ifndef SHORE_GRID_H
#define SHORE_GRID_H

#include <string>
#include <vector>

#include "types.h"

namespace shore {

// Lines of characters.
using Block = std::vector<std::string>;

// Characters, not bytes: those that follow the first byte of one are not counted.
inline std::size_t width(const std::string &line) {
    std::size_t count = 0;
    for (char c : line) {
        count += (static_cast<unsigned char>(c) & 0xC0) != 0x80 ? 1 : 0;
    }
    return count;
}

inline std::size_t width(const Block &block) {
    std::size_t most = 0;
    for (const std::string &line : block) {
        most = width(line) > most ? width(line) : most;
    }
    return most;
}

struct Cell {
    Block block;
    bool right = false;
};

class Grid {
  public:
    explicit Grid(const std::vector<std::string> &heading) {
        std::vector<Cell> cells;
        for (const std::string &name : heading) {
            cells.push_back({{name}, false});
        }
        rows_.push_back(cells);
    }
    void add(const std::vector<Cell> &row) { rows_.push_back(row); }
    void add(const std::vector<std::string> &row, bool right = false) {
        std::vector<Cell> cells;
        for (const std::string &each : row) {
            cells.push_back({{each}, right});
        }
        rows_.push_back(cells);
    }
    Block drawn() const {
        std::vector<std::size_t> widths(rows_[0].size());
        for (const auto &row : rows_) {
            for (std::size_t i = 0; i < row.size(); i++) {
                widths[i] = width(row[i].block) > widths[i] ? width(row[i].block) : widths[i];
            }
        }
        Block lines{rule(widths, "┌", "┬", "┐")};
        for (std::size_t i = 0; i < rows_.size(); i++) {
            draw(rows_[i], widths, lines);
            if (i == 0) {
                lines.push_back(rule(widths, "├", "┼", "┤"));
            }
        }
        lines.push_back(rule(widths, "└", "┴", "┘"));
        return lines;
    }

  private:
    static std::string rule(const std::vector<std::size_t> &widths, const char *left, const char *middle,
                            const char *right) {
        std::string line = left;
        for (std::size_t i = 0; i < widths.size(); i++) {
            line += i == 0 ? "" : middle;
            for (std::size_t k = 0; k < widths[i] + 2; k++) {
                line += "─";
            }
        }
        return line + right;
    }
    static void draw(const std::vector<Cell> &row, const std::vector<std::size_t> &widths, Block &lines) {
        std::size_t height = 1;
        for (const Cell &cell : row) {
            height = cell.block.size() > height ? cell.block.size() : height;
        }
        for (std::size_t k = 0; k < height; k++) {
            std::string line = "│";
            for (std::size_t i = 0; i < row.size(); i++) {
                const std::string &part = k < row[i].block.size() ? row[i].block[k] : empty();
                const std::string space(widths[i] - width(part), ' ');
                line += " " + (row[i].right ? space + part : part + space) + " │";
            }
            lines.push_back(line);
        }
    }
    static const std::string &empty() {
        static const std::string none;
        return none;
    }

    std::vector<std::vector<Cell>> rows_;
};

inline bool has_collection(const TypeOf &type) {
    bool found = type->sort == Sort::collection;
    for (const TypeOf &part : type->parts) {
        found = found || has_collection(part);
    }
    return found;
}

// The columns of a collection's elements: a record's names, or their numbers.
inline std::vector<std::string> heading(const TypeOf &element) {
    if (element->sort != Sort::record) {
        return {"value"};
    }
    std::vector<std::string> names;
    for (std::size_t i = 0; i < element->names.size(); i++) {
        names.push_back(element->names[i].empty() ? std::to_string(i) : element->names[i]);
    }
    return names;
}

inline Block drawn(const TypeOf &element, const std::vector<Value> &elements);

// One line, or several where it is long.
inline Block wrapped(const std::string &line) {
    constexpr std::size_t most = 64;
    Block lines{""};
    std::size_t at = 0;
    while (at < line.size()) {
        std::size_t end = line.find(", ", at);
        end = end == std::string::npos ? line.size() : end + 2;
        if (width(lines.back()) + (end - at) > most && !lines.back().empty()) {
            lines.emplace_back();
        }
        lines.back() += line.substr(at, end - at);
        at = end;
    }
    return lines;
}

inline Cell cell(const TypeOf &type, const Value &value) {
    if (type->sort == Sort::collection && type->parts[0]->sort == Sort::record) {
        return {value.parts.empty() ? Block{"none"} : drawn(type->parts[0], value.parts), false};
    }
    if (type->sort == Sort::record && has_collection(type)) {
        return {drawn(type, {value}), false};
    }
    return {wrapped(in_line(type, value)), type->sort == Sort::number};
}

inline Block drawn(const TypeOf &element, const std::vector<Value> &elements) {
    Grid grid(heading(element));
    for (const Value &value : elements) {
        std::vector<Cell> row;
        for (std::size_t i = 0; element->sort == Sort::record && i < element->parts.size(); i++) {
            row.push_back(cell(element->parts[i], value.parts[i]));
        }
        if (element->sort != Sort::record) {
            row.push_back(cell(element, value));
        }
        grid.add(row);
    }
    return grid.drawn();
}

} // namespace shore

#endif
