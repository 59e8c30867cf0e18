// What the engine's numbers say, in the papers' words.
#ifndef SHORE_SENTENCES_H
#define SHORE_SENTENCES_H

#include <cstdint>

namespace shore {

// 41 where the calls about days give it.
constexpr const char *no_such_day = "a date or day number that does not exist in the years 2000 to 2399";

inline const char *sentence(std::uint64_t number) {
    switch (number) {
    case 11: return "a record of the data cut short or not a table";
    case 12: return "collection, columns or rows outside their ranges, or a length that does not match";
    case 13: return "a ninth table";
    case 21: return "a question over 4,096 bytes";
    case 22: return "a record that breaks the byte rules, none at all, or bytes left over";
    case 23: return "a 33rd level or a 257th record";
    case 24: return "a name out of scope or bound twice";
    case 25: return "a type, field or table that does not fit";
    case 26: return "a generator its monoid may not have";
    case 27: return "a normal form over 512 nodes";
    case 28: return "a number with a bound over 2^62";
    case 31: return "scratch under 2,048 words";
    case 32: return "the answer has more words than the buffer";
    case 33: return "the plan's lines are longer than the buffer";
    case 41: return "a calendar that breaks its layout, or a fifth one";
    case 42: return "a calendar that is not lent";
    case 43: return "a bound over 2^31, or a cell beyond its column's";
    case 44: return "a tariff that breaks its layout or is outside its ranges, or none";
    case 45: return "a question that does not give a bag of ships and draughts, two numbers each";
    case 46: return "a draught below 0 or above the last step";
    case 47: return "a portion of 0 rows or above 65,535";
    case 48: return "a portion where no question is unfinished";
    case 49: return "seats or quota outside their ranges";
    case 50: return "a table's number above 7";
    case 51: return "a table's number that an earlier one has";
    case 52: return "the target is shorter than the records";
    case 53: return "a time column that falls, or a table that is absent or not a list";
    case 54: return "a tolerance outside 0 to 3,600 seconds";
    case 55: return "a question that is neither a some nor an all";
    case 56: return "a table that is absent or has more than 12 rows";
    default: return "a number that the desk does not know";
    }
}

} // namespace shore

#endif
