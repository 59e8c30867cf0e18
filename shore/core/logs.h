// Two logs paired (document 02, E11): the call over vectors, what it wrote read back, and both logs side by side. Which rows pair is the engine's word.
#ifndef SHORE_LOGS_H
#define SHORE_LOGS_H

#include <string>
#include <vector>

#include "records.h"

namespace shore {

// What is asked: two tables by their numbers, and how many seconds apart two rows may be. Any number may be typed.
struct LogsAsked {
    std::uint64_t first = 0;
    std::uint64_t second = 0;
    std::uint64_t tolerance = 0;
};

struct PairedLogs {
    std::uint64_t number = 0;
    // Where it is 0: three records, and the tables that are read in them.
    Bytes records;
    Tables tables;

    const Table &pairs() const { return tables[0]; }
    const Table &first_singles() const { return tables[1]; }
    const Table &second_singles() const { return tables[2]; }
};

// What stands in a record of positions.
inline std::size_t position_at(const Table &table, std::size_t row, std::size_t column) {
    return static_cast<std::size_t>(table.rows[row][column]);
}

// The call is lent no scratch, so what it wrote is read by an engine that lacks none.
inline PairedLogs paired_logs(const Engine &engine, const Tables &tables, const LogsAsked &asked) {
    const Bytes data = packed(tables);
    PairedLogs told;
    told.records.resize(engine.lent.target);
    const auto result =
        dislogha::pair_logs(span_of(data), asked.first, asked.second, asked.tolerance, {told.records.data(), told.records.size()});
    told.number = static_cast<std::uint64_t>(result.refusal);
    told.records.resize(result.length);
    if (told.number == 0) {
        Engine reader;
        Stored read = unpacked(reader, told.records).stored;
        name(read, "@5 pairs(first, second) @6 first_singles(position) @7 second_singles(position)");
        told.tables = read.tables;
    }
    return told;
}

// A tolerance as it is typed: seconds, with a sign or without. False where it is none.
inline bool read_tolerance(const std::string &typed, std::uint64_t &tolerance) {
    const std::size_t sign = typed[0] == '-' ? 1 : 0;
    const std::int64_t value = unsigned_of(typed.substr(sign), most_typed);
    tolerance = static_cast<std::uint64_t>(sign == 1 ? -value : value);
    return value >= 0 && value <= most_typed;
}

// ------------------------------------------------------------------------------------- side by side

inline std::int32_t seconds_at(const Table &log, std::size_t position) { return log.rows[position][0]; }

// The positions of a pair, or of a row that is single.
struct Beside {
    static constexpr std::size_t none = most_rows;
    std::size_t first = none;
    std::size_t second = none;

    bool pair() const { return first != none && second != none; }
};

// All rows of both logs in time order: what is single stands before the next pair, the earlier of two first.
class SideBySide {
  public:
    SideBySide(const PairedLogs &paired, const Table &first, const Table &second)
        : paired_(paired), first_(first), second_(second) {
        while (step()) {
        }
    }
    const std::vector<Beside> &lines() const { return lines_; }

  private:
    // The next single of a log, where the log's next row is one.
    std::size_t single(const Table &singles, std::size_t next, std::size_t side) const {
        const std::size_t at = next < singles.rows.size() ? position_at(singles, next, 0) : Beside::none;
        const bool paired = pairs_ < paired_.pairs().rows.size() && position_at(paired_.pairs(), pairs_, side) < at;
        return paired ? Beside::none : at;
    }
    bool step() {
        const std::size_t first = single(paired_.first_singles(), firsts_, 0);
        const std::size_t second = single(paired_.second_singles(), seconds_, 1);
        if (first != Beside::none && (second == Beside::none || seconds_at(first_, first) < seconds_at(second_, second))) {
            lines_.push_back({first, Beside::none});
            firsts_++;
        } else if (second != Beside::none) {
            lines_.push_back({Beside::none, second});
            seconds_++;
        } else if (pairs_ < paired_.pairs().rows.size()) {
            lines_.push_back({position_at(paired_.pairs(), pairs_, 0), position_at(paired_.pairs(), pairs_, 1)});
            pairs_++;
        } else {
            return false;
        }
        return true;
    }

    const PairedLogs &paired_;
    const Table &first_;
    const Table &second_;
    std::size_t pairs_ = 0;
    std::size_t firsts_ = 0;
    std::size_t seconds_ = 0;
    std::vector<Beside> lines_;
};

// ------------------------------------------------------------------------------------------- refusals

// What a table that is no log lacks.
inline std::string no_log(const Tables &tables, std::uint64_t number) {
    const Table *table = number < most_tables ? table_numbered(tables, static_cast<std::int64_t>(number)) : nullptr;
    if (table == nullptr) {
        return "there is no table " + std::to_string(number);
    }
    for (std::size_t i = 1; table->collection == list && i < table->rows.size(); i++) {
        if (seconds_at(*table, i) < seconds_at(*table, i - 1)) {
            return table->name + " falls from " + std::to_string(seconds_at(*table, i - 1)) + " to " + std::to_string(seconds_at(*table, i)) +
                   " at position " + std::to_string(i);
        }
    }
    return table->name + " is a " + collection_name(table->collection);
}

// What a refusal is about. For 53 the engine is asked about the first log and itself.
inline std::string refused_log(const Engine &engine, const Tables &tables, const LogsAsked &asked, std::uint64_t number) {
    if (number == static_cast<std::uint64_t>(dislogha::Refusal::not_a_log)) {
        const bool first = paired_logs(engine, tables, {asked.first, asked.first, 0}).number == number;
        return no_log(tables, first ? asked.first : asked.second);
    }
    return "";
}

} // namespace shore

#endif
