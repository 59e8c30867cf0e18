// Outages counted (document 02, E12): over every subset of a table's rows, how many give true and how many false. The counts are the engine's.
#ifndef SHORE_OUTAGES_H
#define SHORE_OUTAGES_H

#include <string>

#include "ask.h"

namespace shore {

struct Outages {
    // Where they are counted, 0; else the number that the engine gave, and what it is about.
    std::uint64_t number = 0;
    std::string what;
    Words counts;

    std::int64_t truths() const { return counts.words[0]; }
    std::int64_t falses() const { return counts.words[1]; }
    std::int64_t subsets() const { return truths() + falses(); }
};

// What a table that outages are not counted of lacks.
inline std::string no_outages_of(const Tables &tables, std::uint64_t number) {
    const Table *table = number < most_tables ? table_numbered(tables, static_cast<std::int64_t>(number)) : nullptr;
    return table == nullptr ? "there is no table " + std::to_string(number) : table->name + " has " + std::to_string(table->rows.size()) + " rows";
}

// An understood question, and a table by its number. Any number may be typed.
inline Outages outages_of(Engine &engine, const Reply &reply, const Tables &tables, std::uint64_t table) {
    Outages told;
    told.counts = engine.outages(reply.over, reply.question->bytes, table);
    told.number = told.counts.number;
    const auto refusal = static_cast<dislogha::Refusal>(told.number);
    if (refusal == dislogha::Refusal::neither_some_nor_all) {
        told.what = "its monoid is " + string_of(dislogha::text::monoid_name(reply.question->tree.nodes[reply.question->tree.root].value));
    } else if (refusal == dislogha::Refusal::outage_table_out_of_range) {
        told.what = no_outages_of(tables, table);
    }
    return told;
}

} // namespace shore

#endif
