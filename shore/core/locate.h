// The place of a refusal. The engine gives a number alone; here it is asked about the parts of the
// question, inside out in the order of the bytes, each in the scope of its qualifiers, and the first part
// that gets the same number is the place. So the engine is the only judge, and what is said beside the
// number only describes that part.
#ifndef SHORE_LOCATE_H
#define SHORE_LOCATE_H

#include <string>
#include <vector>

#include "engine.h"
#include "sentences.h"
#include "types.h"

namespace shore {

constexpr std::uint64_t too_long = 21;
constexpr std::uint64_t breaks_bytes = 22;
constexpr std::uint64_t too_deep = 23;
constexpr std::uint64_t out_of_scope = 24;
constexpr std::uint64_t does_not_fit = 25;
constexpr std::uint64_t not_allowed = 26;
constexpr std::uint64_t last_of_question = 28;
constexpr std::uint64_t bound_passed = 28;
constexpr std::uint64_t not_lent = 42;

// Whether a number is about a part of the question, and not about its size. What was typed keeps the byte
// rules.
inline bool has_a_place(std::uint64_t number) {
    return (number >= out_of_scope && number <= last_of_question) || number == not_lent;
}

struct Located {
    text::Place at;
    // What is wrong with it.
    std::string what;
    // How often the checker was asked.
    std::size_t asked = 0;
    // The part that gets the number, asked alone.
    Bytes alone;
};

class Locating {
  public:
    Locating(Engine &engine, const Packed &over, const Question &question, std::uint64_t number)
        : engine_(engine), over_(over), tree_(question.tree), tables_(question.stored.tables),
          types_(question), number_(number) {
        if (has_a_place(number)) {
            part(tree_.root);
        } else if (number == too_deep) {
            counted();
        }
        if (!found_) {
            blame(tree_.root, number == too_long ? "it has " + std::to_string(question.bytes.size()) + " bytes"
                                                 : "");
        }
    }
    const Located &located() const { return located_; }

  private:
    void blame(std::uint16_t at, const std::string &what) {
        found_ = true;
        located_.at = tree_.nodes[at].at;
        located_.what = what;
    }
    Bytes record(std::uint16_t at) const {
        Bytes bytes;
        encode(tree_, at, bytes);
        return bytes;
    }
    bool refused(const Bytes &question) {
        located_.asked++;
        const bool same = engine_.check(over_, question) == number_;
        if (same) {
            located_.alone = question;
        }
        return same;
    }
    // A set takes any head and any generator.
    bool refused_in_scope(const Bytes &head, const Bytes &qualifiers) {
        return refused(comprehension(text::last_collection, qualifiers, head));
    }
    static Bytes one() { return {4, 0, 1, 0, 1, 0, 0, 0}; }
    static Bytes truth() { return {1, 0, 2, 0, 1}; }

    void part(std::uint16_t at) {
        const text::Node &node = tree_.nodes[at];
        if (node.kind == text::Kind::comprehension) {
            inside(node);
        } else {
            for (std::uint16_t i = node.first; i != text::none && !found_; i = tree_.nodes[i].next) {
                part(i);
            }
        }
        if (found_) {
            return;
        }
        const bool whole = at == tree_.root;
        if (whole ? refused(record(at)) : number_ != not_allowed && refused_in_scope(record(at), scope_)) {
            term_blamed(at);
        }
    }
    void inside(const text::Node &node) {
        const Bytes around = scope_;
        Bytes own;
        for (std::uint16_t at = node.first; at != node.last && !found_; at = tree_.nodes[at].next) {
            part(tree_.nodes[at].first);
            const Bytes qualifier = record(at);
            own.insert(own.end(), qualifier.begin(), qualifier.end());
            scope_.insert(scope_.end(), qualifier.begin(), qualifier.end());
            if (!found_ && refused_behind(node, around, own)) {
                qualifier_blamed(node, at);
            }
        }
        if (!found_) {
            part(node.last);
        }
        scope_ = around;
    }
    // Whether the qualifiers up to this one are refused: 26 depends on whose they are.
    bool refused_behind(const text::Node &node, const Bytes &around, const Bytes &own) {
        if (number_ != not_allowed) {
            return refused_in_scope(one(), scope_);
        }
        const Bytes neutral = text::gives_truth(node.value) ? truth() : one();
        return refused_in_scope(comprehension(node.value, own, neutral), around);
    }
    void qualifier_blamed(const text::Node &node, std::uint16_t at) {
        const text::Node &qualifier = tree_.nodes[at];
        const std::string of = said(types_.of(qualifier.first));
        if (number_ == not_allowed) {
            blame(at, "a generator over " + of + " may not stand in a " +
                          string_of(text::monoid_name(node.value)));
        } else if (number_ == out_of_scope) {
            blame(at, "the name #" + std::to_string(qualifier.value) + " is bound twice");
        } else if (number_ == does_not_fit && qualifier.kind == text::Kind::condition) {
            blame(qualifier.first, "a condition is a truth; this is " + of);
        } else if (number_ == does_not_fit) {
            blame(qualifier.first, "a generator takes a collection; this is " + of);
        } else {
            term_blamed(qualifier.first);
        }
    }
    void term_blamed(std::uint16_t at) {
        const text::Node &node = tree_.nodes[at];
        if (number_ == out_of_scope && node.kind != text::Kind::name) {
            bool seen[text::most_byte + 1] = {};
            bound_again(at, seen);
        }
        if (!found_) {
            blame(at, number_ == out_of_scope   ? "the name #" + std::to_string(node.value) + " is not bound here"
                      : number_ == does_not_fit ? misfit(node)
                      : number_ == bound_passed ? bound(at)
                      : number_ == not_lent     ? "there is no calendar " + std::to_string(node.value)
                                                : "");
        }
    }
    // Binders in places that are not in each other's scope: the part that has both gets 24.
    void bound_again(std::uint16_t at, bool (&seen)[text::most_byte + 1]) {
        const text::Node &node = tree_.nodes[at];
        for (std::uint16_t i = node.first; i != text::none && !found_; i = tree_.nodes[i].next) {
            bound_again(i, seen);
        }
        if (!found_ && text::is_binder(node.kind)) {
            if (seen[node.value]) {
                blame(at, "the name #" + std::to_string(node.value) + " is bound twice");
            }
            seen[node.value] = true;
        }
    }
    std::string of(const text::Node &node, std::size_t index) const {
        std::uint16_t at = node.first;
        for (std::size_t i = 0; i < index; i++) {
            at = tree_.nodes[at].next;
        }
        return said(types_.of(at));
    }
    std::string misfit(const text::Node &node) const {
        switch (node.kind) {
        case text::Kind::plus:
        case text::Kind::minus:
        case text::Kind::times:
        case text::Kind::equal:
        case text::Kind::less:
            return "this takes two numbers; it has " + of(node, 0) + " and " + of(node, 1);
        case text::Kind::conjunction:
        case text::Kind::disjunction:
            return "this takes two truths; it has " + of(node, 0) + " and " + of(node, 1);
        case text::Kind::negation: return "'not' takes a truth; it has " + of(node, 0);
        case text::Kind::open: return "'open' takes a number of minutes; it has " + of(node, 0);
        case text::Kind::choice:
            return "a choice takes a truth, and then two numbers or two truths; it has " + of(node, 0) +
                   ", " + of(node, 1) + " and " + of(node, 2);
        case text::Kind::field:
            return types_.of(node.first)->sort == Sort::record
                       ? "there is no field " + std::to_string(node.value) + " in " + of(node, 0)
                       : "a field is one of a record; this is of " + of(node, 0);
        case text::Kind::table: return "there is no table " + std::to_string(node.value);
        case text::Kind::comprehension:
            return string_of(text::monoid_name(node.value)) + " takes " +
                   (text::gives_truth(node.value) ? "truths" : "numbers") + "; its head is " +
                   said(types_.of(node.last));
        default: return "";
        }
    }
    std::string bound(std::uint16_t at) const {
        const text::Node &node = tree_.nodes[at];
        std::string rule = "bounds add up";
        if (node.kind == text::Kind::times) {
            rule = "the bound of a product is the product of bounds";
        } else if (node.kind == text::Kind::comprehension) {
            std::size_t generators = 0;
            for (std::uint16_t i = node.first; i != node.last; i = tree_.nodes[i].next) {
                generators += tree_.nodes[i].kind == text::Kind::generator ? 1 : 0;
            }
            rule = "the bound of a sum is its head's times 1,024 for each generator, of which it has " +
                   std::to_string(generators);
        }
        std::vector<std::string> columns;
        columns_of(node.kind == text::Kind::comprehension ? node.last : at, columns);
        for (std::size_t i = 0; i < columns.size(); i++) {
            rule += (i == 0 ? "; " : ", ") + columns[i];
        }
        return rule;
    }
    // The columns that a part reads by name, with what they declare: what a tighter bound would help.
    void columns_of(std::uint16_t at, std::vector<std::string> &told) const {
        const text::Node &node = tree_.nodes[at];
        for (std::uint16_t i = node.first; i != text::none; i = tree_.nodes[i].next) {
            columns_of(i, told);
        }
        if (node.kind != text::Kind::field || node.column.empty()) {
            return;
        }
        for (const Table &table : tables_) {
            for (std::size_t i = 0; i < table.columns.size(); i++) {
                const std::string one = table.name + "." + table.columns[i] + " is declared up to " +
                                        std::to_string(table.bounds[i]);
                const bool row = types_.of(node.first)->names == table.columns;
                if (row && table.columns[i] == string_of(node.column) && !has(told, one)) {
                    told.push_back(one);
                }
            }
        }
    }
    static bool has(const std::vector<std::string> &told, const std::string &one) {
        for (const std::string &each : told) {
            if (each == one) {
                return true;
            }
        }
        return false;
    }
    // 23: the first record on a 33rd level, or the 257th.
    void counted() {
        std::size_t records = 0;
        counted(tree_.root, 1, records);
    }
    void counted(std::uint16_t at, std::size_t level, std::size_t &records) {
        if (level > text::Accepted::levels || records == text::Accepted::records) {
            blame(at, level > text::Accepted::levels ? "this is on level 33" : "this is record 257");
            return;
        }
        records++;
        const text::Node &node = tree_.nodes[at];
        for (std::uint16_t i = node.first; i != text::none && !found_; i = tree_.nodes[i].next) {
            counted(i, level + 1, records);
        }
    }

    Engine &engine_;
    const Packed &over_;
    const Tree &tree_;
    const Tables &tables_;
    const Typing types_;
    const std::uint64_t number_;
    // The qualifiers in whose scope the walk is.
    Bytes scope_;
    bool found_ = false;
    Located located_;
};

} // namespace shore

#endif
