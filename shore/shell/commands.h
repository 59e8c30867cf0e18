// The commands: a line that begins with a point.
#ifndef SHORE_COMMANDS_H
#define SHORE_COMMANDS_H

#include <cstdlib>
#include <string>
#include <vector>

#include "between.h"
#include "files.h"
#include "logs.h"

namespace shore {

using Arguments = std::vector<std::string>;

// A line's words; one in quotation marks may have spaces.
inline Arguments words_of(const std::string &line) {
    Arguments words;
    std::size_t at = 0;
    while ((at = line.find_first_not_of(" \t", at)) != std::string::npos) {
        const bool quoted = line[at] == '"';
        const std::size_t from = quoted ? at + 1 : at;
        std::size_t end = quoted ? line.find('"', from) : line.find_first_of(" \t", from);
        end = end == std::string::npos ? line.size() : end;
        words.push_back(line.substr(from, end - from));
        at = quoted ? end + 1 : end;
    }
    return words;
}

// A number without sign, or `limit` + 1 for anything else.
inline std::int64_t number_of(const std::string &word, std::int64_t limit) {
    const bool digits = !word.empty() && word.find_first_not_of("0123456789") == std::string::npos;
    return digits ? text::value_of(chars_of(word), limit) : limit + 1;
}

class Commands {
  public:
    explicit Commands(Desk &desk) : desk_(desk) {}

    struct Command {
        const char *name;
        const char *usage;
        const char *does;
        void (Commands::*run)(const Arguments &);
        std::size_t least;
        std::size_t most;
    };
    static const std::vector<Command> &all();

    bool quit() const { return quit_; }
    // Where .read is asked to read.
    std::vector<std::string> scripts;

    void run(const std::string &line) {
        const Arguments words = words_of(line);
        for (const Command &command : all()) {
            if (words[0] != command.name) {
                continue;
            }
            line_ = line;
            const Arguments arguments(words.begin() + 1, words.end());
            if (arguments.size() < command.least || arguments.size() > command.most) {
                desk_.fail(std::string("usage: ") + command.name + " " + command.usage);
            } else {
                (this->*command.run)(arguments);
            }
            return;
        }
        std::vector<std::string> names;
        for (const Command &command : all()) {
            names.push_back(command.name);
        }
        desk_.fail("no command " + words[0] + nearest(words[0], names) + " (.help lists them)");
    }

  private:
    static std::int64_t unlimited() { return INT64_C(1) << 40; }

    void help(const Arguments &arguments) {
        for (const Command &command : all()) {
            const std::string usage = std::string(command.name) + " " + command.usage;
            if (arguments.empty() || arguments[0] == command.name || "." + arguments[0] == command.name) {
                say(usage.size() < 34 ? usage + std::string(34 - usage.size(), ' ') + command.does
                                      : usage + "\n" + std::string(34, ' ') + command.does);
            }
        }
        if (arguments.empty()) {
            say("A question goes on until its brackets close; with & behind it, it runs in the background:");
            say("  bag{ (b.berth, sum{ l.pull | l <- bollards, l.berth = b.berth }) | b <- berths }");
        }
    }
    void load(const Arguments &arguments) {
        Given given;
        for (std::size_t i = 1; i < arguments.size(); i += 2) {
            const std::string &what = arguments[i];
            const std::string value = i + 1 < arguments.size() ? arguments[i + 1] : "";
            if (what == "as" && value == "calendar") {
                given.calendar = true;
            } else if (what == "as" && text::monoid_called(chars_of(value)) >= 1 &&
                text::monoid_called(chars_of(value)) <= text::last_collection) {
                given.collection = text::monoid_called(chars_of(value));
            } else if (what == "named" && !value.empty()) {
                given.name = value;
            } else if (what == "numbered" && number_of(value, 7) <= 7) {
                given.number = static_cast<int>(number_of(value, 7));
            } else if (what == "bound" && i + 2 < arguments.size() && number_of(arguments[i + 2], widest) <= widest) {
                given.bounds.emplace_back(value, static_cast<std::uint32_t>(number_of(arguments[i + 2], widest)));
                i++;
            } else {
                desk_.fail("'" + what + (value.empty() ? "" : " " + value) +
                           "' is none of: as list|bag|set|calendar, named NAME, numbered 0..7, bound COLUMN 0..2147483648");
                return;
            }
        }
        if (given.calendar && (given.number >= 0 || !given.bounds.empty())) {
            desk_.fail("a calendar takes a name alone; its number is its place");
            return;
        }
        shore::load(desk_, arguments[0], given);
    }
    void save(const Arguments &arguments) {
        const bool by = arguments.size() == 3 && arguments[1] == "by";
        const bool columns = by && arguments[2] == "columns";
        if (arguments.size() != 1 && !columns && !(by && arguments[2] == "rows")) {
            desk_.fail("save FILE, or FILE by rows, or FILE by columns");
            return;
        }
        shore::save(desk_, desk_.stored, arguments[0], columns);
    }
    void read(const Arguments &arguments) { scripts.push_back(arguments[0]); }
    void tables(const Arguments &) {
        Grid grid({"number", "table", "collection", "rows", "columns, with their bounds"});
        for (const Table &table : desk_.stored.tables) {
            std::string columns;
            for (std::size_t i = 0; i < table.columns.size(); i++) {
                columns += (i == 0 ? "" : ", ") + table.columns[i] + " " + std::to_string(table.bounds[i]);
            }
            grid.add({std::to_string(table.number), table.name, collection_name(table.collection),
                      std::to_string(table.rows.size()), columns});
        }
        say(desk_.stored.tables.empty() ? Block{"no tables; .load FILE.csv loads one"} : grid.drawn());
    }
    Table *called(const std::string &name) {
        Table *table = table_called(desk_.stored.tables, name);
        if (table == nullptr) {
            std::vector<std::string> names;
            for (const Table &each : desk_.stored.tables) {
                names.push_back(each.name);
            }
            desk_.fail("no table is called '" + name + "'" + nearest(name, names));
        }
        return table;
    }
    void show(const Arguments &arguments) {
        const Table *table = called(arguments[0]);
        if (table == nullptr) {
            return;
        }
        Grid grid(table->columns);
        for (const auto &row : table->rows) {
            std::vector<std::string> cells;
            for (std::int32_t cell : row) {
                cells.push_back(std::to_string(cell));
            }
            grid.add(cells, true);
        }
        say(grid.drawn());
    }
    void drop(const Arguments &arguments) {
        if (arguments.size() == 2) {
            drop_calendar(arguments);
            return;
        }
        const Table *table = called(arguments[0]);
        if (table != nullptr) {
            desk_.stored.tables.erase(desk_.stored.tables.begin() + (table - desk_.stored.tables.data()));
        }
    }
    // Those behind it are numbered anew, which is told.
    void drop_calendar(const Arguments &arguments) {
        Calendars &calendars = desk_.stored.calendars;
        const std::size_t at = calendar_called(calendars, arguments[1]);
        if (arguments[0] != "calendar" || at == calendars.size()) {
            desk_.fail(arguments[0] != "calendar" ? "drop TABLE, or calendar NAME" : no_calendar(calendars, arguments[1]));
            return;
        }
        calendars.erase(calendars.begin() + static_cast<std::ptrdiff_t>(at));
        for (std::size_t i = at; i < calendars.size(); i++) {
            tell(calendars, i);
        }
    }
    static std::string joined(const Arguments &arguments, std::size_t from) {
        std::string line;
        for (std::size_t i = from; i < arguments.size(); i++) {
            line += (i == from ? "" : " ") + arguments[i];
        }
        return line;
    }
    void calendar(const Arguments &arguments) {
        const WindowsReading read(joined(arguments, 1));
        if (read.fault().empty()) {
            put_in(desk_, Calendar{arguments[0], read.windows()});
        } else {
            desk_.fail(read.fault());
        }
    }
    void calendars(const Arguments &) {
        Grid grid({"number", "calendar", "open"});
        for (std::size_t i = 0; i < desk_.stored.calendars.size(); i++) {
            const Calendar &each = desk_.stored.calendars[i];
            grid.add({{{std::to_string(i)}}, {{each.name}}, {wrapped(windows_text(each.windows))}});
        }
        say(desk_.stored.calendars.empty() ? Block{"no calendars; .calendar lock Mon-Fri 08:00-16:00 makes one"} : grid.drawn());
    }
    // Reads a moment; false, and told, where it is none, or no day of the years.
    bool moment(const std::string &typed, std::int64_t unit, bool of_the_years, Moment &moment) {
        const MomentReading read(typed, unit);
        moment = read.moment();
        const std::uint64_t number = read.number() != 0 || !of_the_years ? read.number() : moment.number();
        if (read.wrong()) {
            desk_.fail("a day is written as 2026-11-17, a minute as 2026-11-17 09:30, or by a number of at most 12 digits");
        } else if (number != 0) {
            desk_.fail("refused " + std::to_string(number) + ", " + no_such_day + ": " + typed);
        }
        return !read.wrong() && number == 0;
    }
    void open(const Arguments &arguments) {
        const Calendars &calendars = desk_.stored.calendars;
        const std::int64_t numbered = number_of(arguments[0], text::most_byte);
        const std::size_t at = numbered <= text::most_byte ? static_cast<std::size_t>(numbered) : calendar_called(calendars, arguments[0]);
        Moment asked;
        if (numbered > text::most_byte && at == calendars.size()) {
            desk_.fail(no_calendar(calendars, arguments[0]));
        } else if (moment(joined(arguments, 1), 1, false, asked)) {
            const Hours hours = hours_at(packed(calendars), at, asked);
            if (hours.number != 0) {
                desk_.refused(hours.number, "there is no calendar " + std::to_string(at));
            } else {
                say(calendars[at].name + " is " + shown(hours, " at " + shown(asked)));
            }
        }
    }
    void day(const Arguments &arguments) {
        Moment asked;
        if (moment(arguments[0], minutes_of_day, true, asked)) {
            const std::int64_t first = asked.day * minutes_of_day;
            say(date_shown(asked.day) + " is day " + std::to_string(asked.day) + ", minutes " + std::to_string(first) + " to " +
                std::to_string(first + minutes_of_day - 1));
        }
    }
    void minute(const Arguments &arguments) {
        Moment asked;
        if (moment(joined(arguments, 0), 1, true, asked)) {
            say(date_shown(asked.day) + " " + time_shown(asked.minute) + " is minute " + std::to_string(asked.minute_number()));
        }
    }
    // The tariff, typed anew; the engine says whether it can be lent.
    void tariff(const Arguments &arguments) {
        if (arguments.size() == 1 && arguments[0] == "none") {
            desk_.tariff.reset();
            return;
        }
        const TariffReading read(joined(arguments, 0));
        if (!read.fault().empty()) {
            desk_.fail(read.fault());
            return;
        }
        const std::uint64_t number = arguments.empty() ? 0 : tariff_number(read.tariff());
        if (number != 0) {
            desk_.refused(number, refused_part(read.tariff()).what);
            return;
        }
        if (!arguments.empty()) {
            desk_.tariff = read.tariff();
        }
        say(desk_.tariff ? drawn(*desk_.tariff) : Block{"no tariff; .tariff 400 1000, 800 1500, minimum 3000 makes one"});
    }
    static Block drawn(const Tariff &tariff) {
        Grid grid({"up to cm", "cents per metre begun"});
        for (const TariffStep &step : tariff.steps) {
            grid.add({std::to_string(step.upper), std::to_string(step.rate)}, true);
        }
        Block lines = grid.drawn();
        lines.push_back("at least " + grouped(tariff.minimum) + " cents; " + counted(packed(tariff).size(), "byte", "bytes"));
        return lines;
    }
    void dues(const Arguments &arguments) { desk_.dues(line_.substr(line_.find(arguments[0], 5))); }
    // A table by its name, or by a number, which no table need have; false, and told, where none is called so.
    bool numbered(const std::string &word, std::uint64_t &number) {
        const std::int64_t given = unsigned_of(word, most_typed);
        const Table *table = given < 0 ? called(word) : nullptr;
        number = static_cast<std::uint64_t>(table != nullptr ? table->number : given);
        return given >= 0 || table != nullptr;
    }
    void outages(const Arguments &arguments) {
        std::uint64_t table = 0;
        if (numbered(arguments[0], table)) {
            const std::size_t behind = line_.find(arguments[0], std::string(".outages").size()) + arguments[0].size();
            desk_.outages(table, line_.substr(line_.find(arguments[1], behind)));
        }
    }
    void pair(const Arguments &arguments) {
        const Tables &tables = desk_.stored.tables;
        LogsAsked asked;
        if (!numbered(arguments[0], asked.first) || !numbered(arguments[1], asked.second)) {
            return;
        }
        const bool saved = arguments.size() == 5 && arguments[3] == "save";
        if (!read_tolerance(arguments[2], asked.tolerance) || (arguments.size() > 3 && !saved)) {
            desk_.fail("a tolerance is a number of seconds; behind it may stand save FILE");
            return;
        }
        const PairedLogs paired = paired_logs(desk_.engine, tables, asked);
        if (paired.number != 0) {
            desk_.refused(paired.number, refused_log(desk_.engine, tables, asked, paired.number));
            return;
        }
        beside(paired, *table_numbered(tables, static_cast<std::int64_t>(asked.first)),
               *table_numbered(tables, static_cast<std::int64_t>(asked.second)));
        if (saved) {
            shore::save(desk_, Stored{paired.tables, {}}, arguments[4], false);
        }
    }
    // Two logs side by side, pairs joined by a line.
    static void beside(const PairedLogs &paired, const Table &first, const Table &second) {
        Grid grid({"position", first.name + "." + first.columns[0], "", second.name + "." + second.columns[0], "position"});
        const auto cell = [](const std::string &text) { return Cell{{text}, true}; };
        const auto position = [&](std::size_t at) { return cell(at == Beside::none ? "" : std::to_string(at)); };
        const auto seconds = [&](const Table &log, std::size_t at) { return cell(at == Beside::none ? "" : std::to_string(seconds_at(log, at))); };
        const SideBySide both(paired, first, second);
        for (const Beside &line : both.lines()) {
            const char *between = line.pair() ? "●──────●" : line.second == Beside::none ? "○ single" : "single ○";
            grid.add({position(line.first), seconds(first, line.first), cell(between), seconds(second, line.second), position(line.second)});
        }
        say(grid.drawn());
        const auto singles = [](const Table &found, const Table &log) { return counted(found.rows.size(), "single", "singles") + " of " + log.name; };
        const auto bytes = [](const Table &table) { return std::to_string(packed(table).size()); };
        say(counted(paired.pairs().rows.size(), "pair", "pairs") + ", " + singles(paired.first_singles(), first) + ", " +
            singles(paired.second_singles(), second) + "; records 5, 6 and 7 have " + bytes(paired.pairs()) + ", " +
            bytes(paired.first_singles()) + " and " + bytes(paired.second_singles()) + " bytes, together " +
            std::to_string(paired.records.size()));
    }
    void bound(const Arguments &arguments) {
        const std::size_t point = arguments[0].find('.');
        const bool one = point != std::string::npos;
        const std::string column = one ? arguments[0].substr(point + 1) : "";
        Table *table = called(arguments[0].substr(0, point));
        if (table != nullptr && one && !has_column(*table, column)) {
            desk_.fail(table->name + " has no column " + column);
            return;
        }
        for (std::size_t i = 0; table != nullptr && i < table->columns.size(); i++) {
            if ((!one || table->columns[i] == column) && !bound(*table, i, arguments[1])) {
                return;
            }
        }
    }
    bool bound(Table &table, std::size_t column, const std::string &to) {
        const std::int64_t given = to == "data"     ? magnitude(table, column)
                                   : to == "widest" ? widest
                                                    : number_of(to, widest);
        if (given > widest) {
            desk_.fail("a bound is data, widest, or a number from 0 to 2147483648");
            return false;
        }
        if (!declare(desk_, table, table.columns[column], static_cast<std::uint32_t>(given))) {
            return false;
        }
        say(table.name + "." + table.columns[column] + " is declared up to " + std::to_string(given));
        return true;
    }
    static bool has_column(const Table &table, const std::string &column) {
        for (const std::string &each : table.columns) {
            if (each == column) {
                return true;
            }
        }
        return false;
    }
    // Whether there is a question to speak of, and a plan of it where one is needed.
    bool there(bool plan) {
        if (desk_.last.question == nullptr) {
            desk_.fail("no question was asked yet");
            return false;
        }
        if (plan && desk_.last.steps.empty()) {
            desk_.fail("the last question was refused: it has no plan");
            return false;
        }
        return true;
    }
    void plan(const Arguments &) {
        if (there(true)) {
            const std::string words = in_words(desk_.last.steps, desk_.last.question->stored);
            std::fputs(words.c_str(), stdout);
        }
    }
    void lines(const Arguments &) {
        if (there(true)) {
            std::fputs(desk_.last.lines.c_str(), stdout);
        }
    }
    void rows(const Arguments &) {
        constexpr double most = 20000;
        if (!there(true)) {
            return;
        }
        const Question &question = *desk_.last.question;
        if (most_offered(desk_.last.steps, question.stored.tables) > most) {
            desk_.fail("the rows between operators are shown up to 20,000 rows");
            return;
        }
        const Between between(desk_.engine, desk_.last.steps, question.stored);
        for (const Stage &stage : between.stages()) {
            say(stage.line);
            if (!stage.shown()) {
                say(stage.too_large ? "  not shown: the question for these rows is too large"
                                    : "  not shown: the question for these rows is refused " +
                                          std::to_string(stage.number) + ", " + sentence(stage.number));
                continue;
            }
            Grid grid(stage.labels);
            for (const auto &row : stage.rows) {
                grid.add(row);
            }
            say(grid.drawn());
        }
    }
    void bytes(const Arguments &arguments) {
        if (!arguments.empty()) {
            taken(arguments);
            return;
        }
        if (!there(false)) {
            return;
        }
        std::string line;
        for (std::size_t i = 0; i < desk_.last.question->bytes.size(); i++) {
            char digits[4];
            std::snprintf(digits, sizeof digits, "%02x", desk_.last.question->bytes[i]);
            line += (i == 0 ? "" : i % 32 == 0 ? "\n" : " ") + std::string(digits);
        }
        say(line);
    }
    // Bytes in hexadecimal, asked as the question of their text.
    void taken(const Arguments &arguments) {
        std::string digits;
        for (const std::string &each : arguments) {
            digits += each;
        }
        if (digits.size() % 2 != 0 || digits.find_first_not_of("0123456789abcdefABCDEF") != std::string::npos) {
            desk_.fail("bytes are pairs of hexadecimal digits");
            return;
        }
        Bytes bytes;
        for (std::size_t i = 0; i < digits.size(); i += 2) {
            bytes.push_back(static_cast<std::uint8_t>(std::strtol(digits.substr(i, 2).c_str(), nullptr, 16)));
        }
        text::Fault fault;
        const std::string written = text_of(bytes, desk_.stored, fault);
        if (fault.none()) {
            say(written);
            desk_.question(written);
            return;
        }
        const std::uint64_t number = desk_.engine.check(packed(desk_.stored), bytes);
        desk_.refused(number, "", "bytes " + std::to_string(fault.at.from) + " to " + std::to_string(fault.at.to) + ": ");
    }
    void text(const Arguments &) {
        if (there(false)) {
            text::Fault fault;
            say(text_of(desk_.last.question->bytes, desk_.last.question->stored, fault));
        }
    }
    void cpp(const Arguments &arguments) {
        if (!there(false)) {
            return;
        }
        const std::string name = arguments.empty() ? "question" : arguments[0];
        if (!text::is_name(chars_of(name))) {
            desk_.fail("'" + name + "' cannot be the name of an array");
            return;
        }
        const Question &question = *desk_.last.question;
        say("DISLOGHA_QUESTION(" + name + ", \"" + schema_text(named(question)) + "\",");
        std::size_t at = 0;
        while (at < question.typed.size()) {
            std::size_t end = question.typed.find('\n', at);
            end = end == std::string::npos ? question.typed.size() : end;
            const bool last = end == question.typed.size();
            say("                  \"" + escaped(question.typed.substr(at, end - at)) + (last ? "\");" : "\\n\""));
            at = end + 1;
        }
    }
    static bool has(const Question &question, text::Kind kind, std::size_t value) {
        bool found = false;
        for (std::size_t i = 0; i < question.tree.count; i++) {
            const text::Node &node = question.tree.nodes[i];
            found = found || (node.kind == kind && static_cast<std::size_t>(node.value) == value);
        }
        return found;
    }
    // The tables that a question names, and the calendars up to the last that it names.
    static Stored named(const Question &question) {
        Stored stored;
        for (const Table &table : question.stored.tables) {
            if (has(question, text::Kind::table, table.number)) {
                stored.tables.push_back(table);
            }
        }
        const Calendars &calendars = question.stored.calendars;
        for (std::size_t i = calendars.size(); i > 0 && stored.calendars.empty(); i--) {
            if (has(question, text::Kind::open, i - 1)) {
                stored.calendars.assign(calendars.begin(), calendars.begin() + static_cast<std::ptrdiff_t>(i));
            }
        }
        return stored;
    }
    // In a C++ literal; only comments have such characters.
    static std::string escaped(const std::string &line) {
        std::string written;
        for (char c : line) {
            written += c == '"' || c == '\\' ? std::string("\\") + c : std::string(1, c);
        }
        return written;
    }
    void check(const Arguments &arguments) { desk_.check(line_.substr(line_.find(arguments[0], 6))); }
    void mode(const Arguments &arguments) {
        if (arguments[0] == "box" || arguments[0] == "csv" || arguments[0] == "words") {
            desk_.mode = arguments[0] == "box" ? Mode::box : arguments[0] == "csv" ? Mode::csv : Mode::words;
        } else {
            desk_.fail("a mode is box, csv or words");
        }
    }
    void turn(bool &setting, const std::string &to) {
        if (to == "on" || to == "off") {
            setting = to == "on";
        } else {
            desk_.fail("say on or off");
        }
    }
    void timer(const Arguments &arguments) { turn(desk_.timer, arguments[0]); }
    void echo(const Arguments &arguments) { turn(desk_.echo, arguments[0]); }
    void lend(const Arguments &arguments) {
        Lent &lent = desk_.engine.lent;
        std::size_t *what = arguments[0] == "scratch"  ? &lent.scratch
                            : arguments[0] == "answer" ? &lent.answer
                            : arguments[0] == "lines"  ? &lent.lines
                            : arguments[0] == "target" ? &lent.target
                                                       : nullptr;
        const Lent enough;
        const std::size_t most = arguments[0] == "scratch"  ? enough.scratch
                                 : arguments[0] == "answer" ? enough.answer
                                 : arguments[0] == "target" ? enough.target
                                                            : enough.lines;
        const std::int64_t given = arguments.size() < 2 || arguments[1] == "enough"
                                       ? static_cast<std::int64_t>(most)
                                       : number_of(arguments[1], static_cast<std::int64_t>(most));
        if (what == nullptr || given > static_cast<std::int64_t>(most)) {
            desk_.fail("lend scratch, answer, lines or target, and at most " + grouped(static_cast<double>(most)));
            return;
        }
        *what = static_cast<std::size_t>(given);
    }
    void portion(const Arguments &arguments) {
        if (arguments[0] == "auto") {
            desk_.portion = -1;
            return;
        }
        const std::int64_t rows = number_of(arguments[0], unlimited());
        if (rows > unlimited()) {
            desk_.fail("say a number of rows, or auto");
            return;
        }
        // A portion of no question: the engine says whether it takes so many rows.
        std::vector<std::uint64_t> scratch(dislogha::scratch_words);
        const auto said = dislogha::portion({}, {}, {scratch.data(), scratch.size()}, {},
                                            static_cast<std::uint64_t>(rows));
        if (said.refusal == dislogha::Refusal::rows_out_of_range) {
            desk_.refused(static_cast<std::uint64_t>(said.refusal), "");
            return;
        }
        desk_.portion = rows;
    }
    void running(const Arguments &) {
        for (const auto &job : desk_.jobs) {
            say(std::to_string(job.first) + ": " + job.second->typed());
            say("   " + (job.second->ended() ? "ended" : Desk::offered(*job.second)));
        }
        if (desk_.jobs.empty()) {
            say("no question goes on");
        }
    }
    // The jobs that a number names, or all.
    std::vector<int> meant(const Arguments &arguments) {
        std::vector<int> numbers;
        for (const auto &job : desk_.jobs) {
            if (arguments.empty() || arguments[0] == std::to_string(job.first)) {
                numbers.push_back(job.first);
            }
        }
        if (numbers.empty()) {
            desk_.fail(arguments.empty() ? "no question goes on" : "no question " + arguments[0] + " goes on");
        }
        return numbers;
    }
    void wait(const Arguments &arguments) {
        for (int number : meant(arguments)) {
            say("question " + std::to_string(number) + ": " + desk_.jobs[number]->typed());
            desk_.wait(*desk_.jobs[number]);
            desk_.jobs.erase(number);
        }
    }
    void stop(const Arguments &arguments) {
        for (int number : meant(arguments)) {
            desk_.jobs[number]->stop();
            say("question " + std::to_string(number) + " is stopped");
            desk_.jobs.erase(number);
        }
    }
    void reset(const Arguments &) {
        const bool echo = desk_.echo;
        desk_.jobs.clear();
        desk_.stored = Stored();
        desk_.tariff.reset();
        desk_.engine.lent = Lent();
        desk_.mode = Mode::box;
        desk_.timer = false;
        desk_.portion = -1;
        desk_.last = Reply();
        desk_.echo = echo;
    }
    void leave(const Arguments &) { quit_ = true; }

    Desk &desk_;
    std::string line_;
    bool quit_ = false;
};

inline const std::vector<Commands::Command> &Commands::all() {
    constexpr std::size_t any = 1000;
    static const std::vector<Command> commands = {
        {".help", "[COMMAND]", "the commands, or one of them", &Commands::help, 0, 1},
        {".load", "FILE.csv [as list|bag|set] [named NAME] [numbered N] [bound COLUMN N]..",
         "a table; its first line has the columns' names, and bounds are those of the data", &Commands::load, 1, any},
        {".load", "FILE.csv as calendar [named NAME]", "a calendar; its columns are weekday, first, end: Mon,08:00,16:00",
         &Commands::load, 1, any},
        {".load", "FILE", "tables and calendars as .save wrote them, in place of all", &Commands::load, 1, any},
        {".save", "FILE [by rows|columns]", "all tables as records; names in FILE.names, calendars in FILE.calendars",
         &Commands::save, 1, 3},
        {".tables", "", "the tables, their columns and bounds", &Commands::tables, 0, 0},
        {".show", "TABLE", "a table's rows", &Commands::show, 1, 1},
        {".drop", "TABLE", "forget a table", &Commands::drop, 1, 2},
        {".drop", "calendar NAME", "forget a calendar; those behind it get other numbers", &Commands::drop, 1, 2},
        {".bound", "TABLE[.COLUMN] N|data|widest", "what a column declares: 28 looks at it", &Commands::bound, 2, 2},
        {".calendar", "NAME HOURS..|never", "a calendar for open(NAME, t); hours as Mon-Fri 08:00-12:00 13:00-16:00 Sat 06:00-24:00",
         &Commands::calendar, 2, any},
        {".calendars", "", "the calendars and their hours", &Commands::calendars, 0, 0},
        {".open", "CALENDAR MINUTE|DATE [TIME]", "whether it is open then, or when it opens", &Commands::open, 2, 3},
        {".minute", "MINUTE|DATE [TIME]", "the number of a minute, as 2026-11-17 09:30, or its date", &Commands::minute, 1, 2},
        {".day", "DAY|DATE", "the number of a day, as 2026-11-17, or its date", &Commands::day, 1, 1},
        {".tariff", "[UPPER RATE, .. minimum CENTS|none]", "the tariff, or one of steps up to so many cm at so many cents per metre begun",
         &Commands::tariff, 0, any},
        {".dues", "QUESTION", "what the ships of an answer owe by it: bag{ (s.ship, s.draught) | s <- ships }", &Commands::dues, 1, any},
        {".outages", "TABLE QUESTION", "how many subsets of a table's rows give true: some{ t.pull >= 40 | t <- tugs }", &Commands::outages, 2, any},
        {".pair", "TABLE TABLE SECONDS [save FILE]", "two logs side by side: which rows pair, no more than so many seconds apart",
         &Commands::pair, 3, 5},
        {".plan", "", "the last question's plan in words", &Commands::plan, 0, 0},
        {".lines", "", "the plan as the engine prints it", &Commands::lines, 0, 0},
        {".rows", "", "the rows between the plan's operators", &Commands::rows, 0, 0},
        {".text", "", "the last question as its bytes read back", &Commands::text, 0, 0},
        {".bytes", "[HEX ..]", "its bytes; or ask the question that has these", &Commands::bytes, 0, any},
        {".c++", "[NAME]", "the last question for a C++ source", &Commands::cpp, 0, 1},
        {".check", "QUESTION", "ask the checker alone", &Commands::check, 1, any},
        {".mode", "box|csv|words", "how answers are written", &Commands::mode, 1, 1},
        {".timer", "on|off", "how long each way took", &Commands::timer, 1, 1},
        {".running", "", "the questions in the background", &Commands::running, 0, 0},
        {".wait", "[N]", "wait for them, or for one", &Commands::wait, 0, 1},
        {".stop", "[N]", "stop them, or one", &Commands::stop, 0, 1},
        {".portion", "ROWS|auto", "answer by portions of so many rows", &Commands::portion, 1, 1},
        {".lend", "scratch|answer|lines|target [N|enough]", "lend the engine so much: drills of 31, 32, 33, 52",
         &Commands::lend, 1, 2},
        {".read", "FILE", "take questions and commands from a file", &Commands::read, 1, 1},
        {".echo", "on|off", "show each line before what it gives", &Commands::echo, 1, 1},
        {".reset", "", "forget tables, calendars, tariff, questions and settings", &Commands::reset, 0, 0},
        {".quit", "", "leave", &Commands::leave, 0, 0},
    };
    return commands;
}

} // namespace shore

#endif
