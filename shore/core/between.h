// The rows between the operators of a plan. No second evaluator: the operators are folded back into
// questions that the engine answers, over the tables lent as lists, so that order and repeats stay. The
// matches of an outer are a list inside the row, and an empty one is a pad.
#ifndef SHORE_BETWEEN_H
#define SHORE_BETWEEN_H

#include <string>
#include <vector>

#include "engine.h"
#include "plan.h"
#include "types.h"

namespace shore {

// The rows behind an operator; where the question that shows them is refused, its number, and where it is too
// large to be asked, that.
struct Stage {
    std::string line;
    std::vector<std::string> labels;
    std::vector<std::vector<std::string>> rows;
    std::uint64_t number = 0;
    bool too_large = false;

    bool shown() const { return number == 0 && !too_large; }
};

class Between {
  public:
    Between(Engine &engine, const std::vector<Step> &steps, const Stored &stored)
        : engine_(engine), lists_(stored) {
        for (Table &table : lists_.tables) {
            table.collection = 1;
        }
        over_ = packed(lists_);
        for (const Step &step : steps) {
            if (step.name == "one" || step.name == "reduce") {
                continue;
            }
            if (step.name == "nest") {
                nest(step);
            } else {
                join(step);
            }
            show(step);
        }
    }
    const std::vector<Stage> &stages() const { return stages_; }

  private:
    // A place: how it is made, and what it is in a row that was padded before it.
    struct Held {
        bool outer;
        bool unit;
        std::string qualifiers;
        std::string padded;
    };

    static std::string plain(const PlanTerm &term) {
        if (term.parts.empty()) {
            return term.atom[0] == '$' ? "p" + term.atom.substr(1) : term.atom;
        }
        const std::string name = term.parts[0].atom;
        if (name == ".") {
            return plain(term.parts[2]) + "." + term.parts[1].atom;
        }
        if (name == "not") {
            return "(not " + plain(term.parts[1]) + ")";
        }
        if (name == "if") {
            return "(if " + plain(term.parts[1]) + " then " + plain(term.parts[2]) + " else " +
                   plain(term.parts[3]) + ")";
        }
        if (name == "rec" || name == "open") {
            std::string written = name == "open" ? "open(" : "(";
            for (std::size_t i = 1; i < term.parts.size(); i++) {
                written += (i == 1 ? "" : ", ") + plain(term.parts[i]);
            }
            return written + (name == "rec" ? ",)" : ")");
        }
        return "(" + plain(term.parts[1]) + " " + name + " " + plain(term.parts[2]) + ")";
    }
    static std::string also(const PlanTerm &condition) {
        return condition.atom == "true" ? "" : ", " + plain(condition);
    }
    std::string next() const { return "p" + std::to_string(held_.size()); }
    void join(const Step &step) {
        const std::string made = step.table < 0 ? "let " + next() + " = 0"
                                                : next() + " <- @" + std::to_string(step.table);
        held_.push_back({step.name == "outer", step.table < 0, made + also(step.condition), "pad"});
    }
    void nest(const Step &step) {
        std::string qualifiers;
        for (std::size_t i = step.kept; i < held_.size(); i++) {
            qualifiers += (i == step.kept ? "" : ", ") + held_[i].qualifiers;
        }
        const std::string head = plain(step.head);
        held_.resize(step.kept);
        held_.push_back({false, false,
                         "let " + next() + " = " + step.monoid + "{ " + head + " | " + qualifiers +
                             also(step.condition) + " }",
                         over_nothing(step.monoid)});
    }
    static std::string over_nothing(const std::string &monoid) {
        const std::map<std::string, std::string> zeros = {{"list", "[]"}, {"bag", "{||}"}, {"set", "{}"},
                                                          {"some", "false"}, {"all", "true"}};
        const auto found = zeros.find(monoid);
        return found == zeros.end() ? "0" : found->second;
    }
    // The rows from a place on: up to the next outer, whose matches are a list inside.
    std::string asked(std::size_t from) const {
        std::string qualifiers;
        std::string parts;
        std::size_t at = from;
        for (; at < held_.size() && (at == from || !held_[at].outer); at++) {
            qualifiers += (at == from ? "" : ", ") + held_[at].qualifiers;
            parts += "p" + std::to_string(at) + ", ";
        }
        parts += at < held_.size() ? asked(at) + ", " : "";
        return "list{ (" + parts + ") | " + qualifiers + " }";
    }
    void show(const Step &step) {
        Stage stage{step.line, step.labels, {}, 0, false};
        const auto question = std::make_unique<Question>(asked(0), lists_);
        stage.too_large = !question->understood();
        if (!stage.too_large) {
            answered(*question, stage);
        }
        stages_.push_back(stage);
    }
    void answered(const Question &question, Stage &stage) {
        const Words words = engine_.by_loops(over_, question.bytes);
        const TypeOf type = Typing(question).of(question.tree.root);
        Value value;
        std::size_t at = 0;
        stage.number = words.number;
        if (stage.number == 0 && read_value(type, words.words, at, value)) {
            for (const Value &row : value.parts) {
                rows(0, type->parts[0], row, {}, stage);
            }
        }
    }
    // The rows that stand in one record of the answer, behind the cells on its left.
    void rows(std::size_t from, const TypeOf &type, const Value &value, std::vector<std::string> cells,
              Stage &stage) const {
        std::size_t at = from;
        for (; at < held_.size() && (at == from || !held_[at].outer); at++) {
            cells.push_back(held_[at].unit ? "unit" : in_line(type->parts[at - from], value.parts[at - from]));
        }
        if (at == held_.size()) {
            stage.rows.push_back(cells);
            return;
        }
        const TypeOf &matches = type->parts.back();
        for (const Value &match : value.parts.back().parts) {
            rows(at, matches->parts[0], match, cells, stage);
        }
        if (value.parts.back().parts.empty()) {
            for (; at < held_.size(); at++) {
                cells.push_back(held_[at].padded);
            }
            stage.rows.push_back(cells);
        }
    }

    Engine &engine_;
    Stored lists_;
    Packed over_;
    std::vector<Held> held_;
    std::vector<Stage> stages_;
};

} // namespace shore

#endif
