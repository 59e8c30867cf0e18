// A question as it was typed: its tree with the place of every record, and its bytes.
#ifndef SHORE_QUESTION_H
#define SHORE_QUESTION_H

#include <memory>
#include <string>

#include "stored.h"

namespace shore {

namespace text = dislogha::text;

// Larger than the engine takes, so that 21 and 23 are the engine's to say.
struct Sizes {
    static constexpr std::size_t bytes = 16384;
    static constexpr std::size_t records = 2048;
    static constexpr std::size_t levels = 400;
};

using text::Sort;
using Tree = text::Tree<Sizes>;
using Typed = text::Typed<Sizes>;

// Its tree looks into its text and the names that are stored, so it stays where it is made.
struct Question {
    const std::string typed;
    const Stored stored;
    Tree tree;
    Bytes bytes;
    text::Fault fault;

    Question(const std::string &typed_text, const Stored &over) : typed(typed_text), stored(over) {
        auto read = std::make_unique<Typed>();
        text::read(chars_of(typed), schema_of(stored), tree, *read);
        fault = read->fault;
        if (fault.none()) {
            bytes.assign(read->bytes, read->bytes + read->size);
        }
    }
    Question(const Question &) = delete;
    Question &operator=(const Question &) = delete;

    bool understood() const { return fault.none(); }
};

// The text of a question's bytes; empty, and the fault, where they break the byte rules.
inline std::string text_of(const Bytes &bytes, const Stored &stored, text::Fault &fault) {
    auto tree = std::make_unique<Tree>();
    std::string written(bytes.size() * 4 + 64, ' ');
    const auto printed = text::print(bytes.data(), bytes.size(), schema_of(stored), *tree, &written[0],
                                     written.size());
    fault = printed.fault;
    written.resize(printed.size);
    return fault.none() ? written : "";
}

// The bytes of one record of a tree.
inline void encode(const Tree &tree, std::uint16_t at, Bytes &bytes) {
    const text::Node &node = tree.nodes[at];
    const std::size_t start = bytes.size();
    put(bytes, 0, 2);
    put(bytes, static_cast<std::uint32_t>(node.kind), 2);
    switch (node.kind) {
    case text::Kind::number: put(bytes, static_cast<std::uint32_t>(node.value), 4); break;
    case text::Kind::truth:
    case text::Kind::table:
    case text::Kind::field:
    case text::Kind::comprehension:
    case text::Kind::open: put(bytes, static_cast<std::uint32_t>(node.value), 1); break;
    case text::Kind::name:
    case text::Kind::generator:
    case text::Kind::binding: put(bytes, static_cast<std::uint32_t>(node.value), 2); break;
    default: break;
    }
    for (std::uint16_t part = node.first; part != text::none; part = tree.nodes[part].next) {
        encode(tree, part, bytes);
    }
    const std::size_t length = bytes.size() - start - 4;
    bytes[start] = static_cast<std::uint8_t>(length & 255);
    bytes[start + 1] = static_cast<std::uint8_t>(length >> 8 & 255);
}

// A comprehension made of parts that are bytes already.
inline Bytes comprehension(int monoid, const Bytes &qualifiers, const Bytes &head) {
    Bytes bytes;
    put(bytes, static_cast<std::uint32_t>(1 + qualifiers.size() + head.size()), 2);
    put(bytes, static_cast<std::uint32_t>(text::Kind::comprehension), 2);
    put(bytes, static_cast<std::uint32_t>(monoid), 1);
    bytes.insert(bytes.end(), qualifiers.begin(), qualifiers.end());
    bytes.insert(bytes.end(), head.begin(), head.end());
    return bytes;
}

} // namespace shore

#endif
