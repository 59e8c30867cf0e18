// The plan's lines read back: its operators, in the words of the tables, and how many rows they may be
// offered.
#ifndef SHORE_PLAN_H
#define SHORE_PLAN_H

#include <cstdlib>
#include <map>
#include <string>
#include <vector>

#include "stored.h"

namespace shore {

// A term of a line: an atom, or an operator and its parts.
struct PlanTerm {
    std::string atom;
    std::vector<PlanTerm> parts;
};

// An operator of the plan. Where it has no condition, that is `true`.
struct Step {
    std::string line;
    // one, join, outer, nest, reduce.
    std::string name;
    // The table's number, -1 for unit and where there is none.
    int table = -1;
    // Of a nest: how many places it keeps.
    std::size_t kept = 0;
    std::string monoid;
    PlanTerm head;
    PlanTerm condition;
    // What the places are called behind it, and which table's rows they hold, -1 for a value.
    std::vector<std::string> labels;
    std::vector<int> tables;
};

class PlanReading {
  public:
    PlanReading(const std::string &lines, const Tables &tables) : tables_(tables) {
        std::size_t at = 0;
        while (at < lines.size()) {
            const std::size_t end = lines.find('\n', at);
            step(lines.substr(at, end - at));
            at = end + 1;
        }
    }
    const std::vector<Step> &steps() const { return steps_; }

  private:
    static PlanTerm term(const std::string &line, std::size_t &at) {
        PlanTerm read;
        while (at < line.size() && line[at] == ' ') {
            at++;
        }
        if (at == line.size() || line[at] != '(') {
            const std::size_t end = line.find_first_of(" )", at);
            read.atom = line.substr(at, end == std::string::npos ? end : end - at);
            at += read.atom.size();
            return read;
        }
        at++;
        while (at < line.size() && line[at] != ')') {
            read.parts.push_back(term(line, at));
        }
        at++;
        return read;
    }
    void step(const std::string &line) {
        std::size_t at = 0;
        Step made;
        made.line = line;
        made.name = term(line, at).atom;
        if (made.name == "join" || made.name == "outer") {
            const std::string table = term(line, at).atom;
            made.table = table == "unit" ? -1 : std::atoi(table.c_str());
            place(table_name(made.table), made.table);
        } else if (made.name == "nest") {
            made.kept = static_cast<std::size_t>(std::atoi(term(line, at).atom.c_str()));
        }
        if (made.name == "nest" || made.name == "reduce") {
            made.monoid = term(line, at).atom;
            made.head = term(line, at);
        }
        made.condition = term(line, at);
        if (made.name == "nest") {
            labels_.resize(made.kept);
            held_.resize(made.kept);
            place(made.monoid, -1);
        }
        made.labels = labels_;
        made.tables = held_;
        steps_.push_back(made);
    }
    std::string table_name(int number) const {
        const Table *table = table_numbered(tables_, number);
        return table != nullptr ? table->name : number < 0 ? "unit" : "@" + std::to_string(number);
    }
    // A place is called by its table or its monoid; from the second of a name on, with a number.
    void place(const std::string &name, int table) {
        const int uses = ++used_[name];
        labels_.push_back(uses == 1 ? name : name + "_" + std::to_string(uses));
        held_.push_back(table);
    }

    const Tables &tables_;
    std::vector<Step> steps_;
    std::vector<std::string> labels_;
    std::vector<int> held_;
    std::map<std::string, int> used_;
};

inline std::vector<Step> plan_of(const std::string &lines, const Tables &tables) {
    return PlanReading(lines, tables).steps();
}

// A term in the notation, places being called by their labels.
class PlanWords {
  public:
    PlanWords(const Stored &stored, const std::vector<std::string> &labels, const std::vector<int> &held)
        : stored_(stored), labels_(labels), held_(held) {}

    std::string term(const PlanTerm &term, int level = -1) const {
        if (term.parts.empty()) {
            return atom(term.atom);
        }
        const std::string name = term.parts[0].atom;
        const int own = level_of(name);
        const std::string written = applied(name, term, own);
        return own < level ? "(" + written + ")" : written;
    }

  private:
    static int level_of(const std::string &name) {
        const std::map<std::string, int> levels = {{"if", -1}, {"or", 0}, {"and", 1}, {"not", 2},
                                                   {"=", 3},   {"<", 3},  {"+", 4},   {"-", 4},
                                                   {"*", 5}};
        const auto found = levels.find(name);
        return found == levels.end() ? 6 : found->second;
    }
    std::string atom(const std::string &atom) const {
        const std::size_t at = place(atom);
        return at < labels_.size() ? labels_[at] : atom;
    }
    std::size_t place(const std::string &atom) const {
        return atom[0] == '$' ? static_cast<std::size_t>(std::atoi(atom.c_str() + 1)) : labels_.size();
    }
    std::string applied(const std::string &name, const PlanTerm &of, int own) const {
        if (name == ".") {
            return term(of.parts[2], 6) + "." + column(of.parts[2], of.parts[1].atom);
        }
        if (name == "rec") {
            return "(" + listed(of, 1) + (of.parts.size() == 2 ? ",)" : ")");
        }
        if (name == "open") {
            return "open(" + calendar(of.parts[1].atom) + ", " + term(of.parts[2]) + ")";
        }
        if (name == "not") {
            return "not " + term(of.parts[1], own);
        }
        if (name == "if") {
            return "if " + term(of.parts[1], 0) + " then " + term(of.parts[2], 0) + " else " +
                   term(of.parts[3]);
        }
        return term(of.parts[1], own == 3 ? 4 : own) + " " + name + " " + term(of.parts[2], own + 1);
    }
    std::string listed(const PlanTerm &of, std::size_t from) const {
        std::string written;
        for (std::size_t i = from; i < of.parts.size(); i++) {
            written += (i == from ? "" : ", ") + term(of.parts[i]);
        }
        return written;
    }
    std::string calendar(const std::string &number) const {
        const auto at = static_cast<std::size_t>(std::atoi(number.c_str()));
        return at < stored_.calendars.size() ? stored_.calendars[at].name : number;
    }
    std::string column(const PlanTerm &of, const std::string &index) const {
        const std::size_t at = of.parts.empty() ? place(of.atom) : labels_.size();
        const Table *table = at < held_.size() ? table_numbered(stored_.tables, held_[at]) : nullptr;
        const auto number = static_cast<std::size_t>(std::atoi(index.c_str()));
        return table != nullptr && number < table->columns.size() ? table->columns[number] : index;
    }

    const Stored &stored_;
    const std::vector<std::string> &labels_;
    const std::vector<int> &held_;
};

inline std::string listed(const std::vector<std::string> &labels, std::size_t count) {
    std::string written;
    for (std::size_t i = 0; i < count; i++) {
        written += (i == 0 ? "" : ", ") + labels[i];
    }
    return written;
}

// What a monoid makes of a head.
inline std::string made_of(const std::string &monoid, const std::string &head) {
    return monoid == "max"    ? "the greatest " + head
           : monoid == "min"  ? "the least " + head
           : monoid == "some" ? "whether for some row " + head
           : monoid == "all"  ? "whether for all rows " + head
                              : "the " + monoid + " of " + head;
}

// One operator in words. `before` has the places that its head and condition speak of.
inline std::string in_words(const Step &step, const Step &before, const Stored &stored) {
    const bool grows = step.name == "join" || step.name == "outer";
    const PlanWords words(stored, grows ? step.labels : before.labels, grows ? step.tables : before.tables);
    const std::string where =
        step.name == "one" || step.condition.atom == "true" ? "" : " where " + words.term(step.condition);
    if (step.name == "one") {
        return "one     start with one row of no places";
    }
    if (step.name == "join") {
        return "join    to each row, every row of " + step.labels.back() + where;
    }
    if (step.name == "outer") {
        return "outer   to each row, every row of " + step.labels.back() + where +
               "; a row without one is kept, with a pad";
    }
    if (step.name == "nest") {
        const std::string kept = step.kept == 0 ? "all rows" : "each row of " + listed(step.labels, step.kept);
        return "nest    for " + kept + ", " + step.labels.back() + " is " +
               made_of(step.monoid, words.term(step.head)) + where + ", pads left out";
    }
    return "reduce  " + made_of(step.monoid, words.term(step.head)) + where;
}

inline std::string in_words(const std::vector<Step> &steps, const Stored &stored) {
    std::string written;
    for (std::size_t i = 0; i < steps.size(); i++) {
        written += in_words(steps[i], steps[i == 0 ? 0 : i - 1], stored) + "\n";
    }
    return written;
}

// At most so many rows are offered in one pass: every condition is taken to be met, and an empty table to
// have a row. A question is offered the rows of two passes.
inline double most_offered(const std::vector<Step> &steps, const Tables &tables) {
    std::vector<double> rows{1};
    double offered = 0;
    for (const Step &step : steps) {
        if (step.name == "join" || step.name == "outer") {
            const Table *table = table_numbered(tables, step.table);
            const double stored = table == nullptr || table->rows.empty()
                                      ? 1
                                      : static_cast<double>(table->rows.size());
            rows.push_back(rows.back() * stored);
            offered += rows.back();
        } else if (step.name == "nest") {
            rows.resize(step.kept + 1);
            rows.push_back(rows.back());
        }
    }
    return offered;
}

} // namespace shore

#endif
