// What each term of a question is: for the names of an answer's columns, for reading an answer's words,
// and for the sentence of a refusal. The engine alone judges whether types fit; what does not is unknown
// here.
#ifndef SHORE_TYPES_H
#define SHORE_TYPES_H

#include <map>
#include <memory>
#include <string>
#include <vector>

#include "question.h"

namespace shore {



struct Type;
using TypeOf = std::shared_ptr<const Type>;

struct Type {
    Sort sort = Sort::unknown;
    int collection = 0;
    // A record's fields, or a collection's element.
    std::vector<TypeOf> parts;
    // A record's columns; empty where a field has no name.
    std::vector<std::string> names;
};

inline TypeOf plain(Sort sort) {
    auto made = std::make_shared<Type>();
    made->sort = sort;
    return made;
}

inline TypeOf collection_of(int collection, TypeOf element) {
    auto made = std::make_shared<Type>();
    made->sort = Sort::collection;
    made->collection = collection;
    made->parts.push_back(element);
    return made;
}

inline TypeOf row_of(const Table &table) {
    auto made = std::make_shared<Type>();
    made->sort = Sort::record;
    made->names = table.columns;
    made->parts.assign(table.columns.size(), plain(Sort::number));
    return made;
}

inline std::string said(const TypeOf &type) {
    switch (type->sort) {
    case Sort::number: return "a number";
    case Sort::truth: return "a truth";
    case Sort::record:
        return "a record of " + std::to_string(type->parts.size()) +
               (type->parts.size() == 1 ? " field" : " fields");
    case Sort::collection: return "a " + collection_name(type->collection);
    default: return "not known";
    }
}

class Typing {
  public:
    explicit Typing(const Question &question) : tree_(question.tree), tables_(question.stored.tables) {
        of_.assign(tree_.count, plain(Sort::unknown));
        term(tree_.root);
    }
    const TypeOf &of(std::uint16_t at) const { return of_[at]; }

  private:
    TypeOf term(std::uint16_t at) { return of_[at] = found(tree_.nodes[at]); }
    TypeOf found(const text::Node &node) {
        switch (node.kind) {
        case text::Kind::number: return plain(Sort::number);
        case text::Kind::truth: return plain(Sort::truth);
        case text::Kind::name: return bound(node.value);
        case text::Kind::table: return stored(node.value);
        case text::Kind::field: return field(node);
        case text::Kind::record: return record(node);
        case text::Kind::choice: return choice(node);
        case text::Kind::comprehension: return comprehension(node);
        case text::Kind::plus:
        case text::Kind::minus:
        case text::Kind::times: return parts(node, Sort::number);
        default: return parts(node, Sort::truth);
        }
    }
    TypeOf bound(std::int32_t name) const {
        for (std::size_t i = scope_.size(); i > 0; i--) {
            if (scope_[i - 1].first == name) {
                return scope_[i - 1].second;
            }
        }
        return plain(Sort::unknown);
    }
    TypeOf stored(std::int32_t number) const {
        const Table *table = table_numbered(tables_, number);
        return table == nullptr ? plain(Sort::unknown) : collection_of(table->collection, row_of(*table));
    }
    TypeOf field(const text::Node &node) {
        const TypeOf of = term(node.first);
        const auto index = static_cast<std::size_t>(node.value);
        const bool there = of->sort == Sort::record && index < of->parts.size();
        return there ? of->parts[index] : plain(Sort::unknown);
    }
    TypeOf parts(const text::Node &node, Sort sort) {
        for (std::uint16_t part = node.first; part != text::none; part = tree_.nodes[part].next) {
            term(part);
        }
        return plain(sort);
    }
    TypeOf choice(const text::Node &node) {
        parts(node, Sort::unknown);
        return of_[tree_.nodes[node.first].next];
    }
    TypeOf record(const text::Node &node) {
        auto made = std::make_shared<Type>();
        made->sort = Sort::record;
        for (std::uint16_t part = node.first; part != text::none; part = tree_.nodes[part].next) {
            made->parts.push_back(term(part));
            made->names.push_back(name(tree_.nodes[part]));
        }
        return made;
    }
    std::string name(const text::Node &part) const {
        if (part.label.to > part.label.from) {
            return string_of(tree_.label_of(part));
        }
        if (part.kind == text::Kind::field) {
            return string_of(part.column);
        }
        return part.kind == text::Kind::name ? string_of(tree_.word_of(part)) : "";
    }
    TypeOf comprehension(const text::Node &node) {
        const std::size_t before = scope_.size();
        for (std::uint16_t at = node.first; at != node.last; at = tree_.nodes[at].next) {
            const text::Node &qualifier = tree_.nodes[at];
            const TypeOf of = term(qualifier.first);
            if (text::is_binder(qualifier.kind)) {
                const bool ranges = qualifier.kind == text::Kind::generator;
                const bool known = of->sort == Sort::collection;
                scope_.emplace_back(qualifier.value, !ranges ? of
                                                     : known ? of->parts[0]
                                                             : plain(Sort::unknown));
            }
        }
        const TypeOf head = term(node.last);
        scope_.resize(before);
        return node.value <= text::last_collection ? collection_of(node.value, head)
               : plain(text::gives_truth(node.value) ? Sort::truth : Sort::number);
    }

    const Tree &tree_;
    const Tables &tables_;
    std::vector<TypeOf> of_;
    std::vector<std::pair<std::int32_t, TypeOf>> scope_;
};

// An answer's value: of a number or truth its word, else its fields or elements.
struct Value {
    std::int64_t word = 0;
    std::vector<Value> parts;
};

// Reads a value of a type from words on; false where they do not reach.
inline bool read_value(const TypeOf &type, const std::vector<std::int64_t> &words, std::size_t &at,
                       Value &value) {
    if (type->sort == Sort::record) {
        for (const TypeOf &part : type->parts) {
            value.parts.emplace_back();
            if (!read_value(part, words, at, value.parts.back())) {
                return false;
            }
        }
        return true;
    }
    if (type->sort == Sort::unknown || at >= words.size()) {
        return false;
    }
    value.word = words[at++];
    if (type->sort != Sort::collection) {
        return true;
    }
    for (std::int64_t i = 0; i < value.word; i++) {
        value.parts.emplace_back();
        if (!read_value(type->parts[0], words, at, value.parts.back())) {
            return false;
        }
    }
    return true;
}

// A value in one line: (record), [list], {| bag |}, { set }.
inline std::string in_line(const TypeOf &type, const Value &value) {
    if (type->sort == Sort::number) {
        return std::to_string(value.word);
    }
    if (type->sort == Sort::truth) {
        return value.word != 0 ? "true" : "false";
    }
    const bool record = type->sort == Sort::record;
    std::string written;
    for (std::size_t i = 0; i < value.parts.size(); i++) {
        written += (i == 0 ? "" : ", ") + in_line(type->parts[record ? i : 0], value.parts[i]);
    }
    switch (record ? 0 : type->collection) {
    case 0: return "(" + written + (value.parts.size() == 1 ? ",)" : ")");
    case 1: return "[" + written + "]";
    case bag: return "{|" + written + "|}";
    default: return "{" + written + "}";
    }
}

} // namespace shore

#endif
