// Document 01's listing, its tables in bytes, a question over them that is offered more rows, and one
// about a lock's hours.
#ifndef LISTING_H
#define LISTING_H

#include <cstdint>

#include "dislogha_text.h"

namespace listing {

// Berths (1, 90), (2, 70), number 0, and bollards (1, 50), (1, 60), number 1, each a bag of two
// columns and two rows.
constexpr std::uint8_t tables[] = {
    29, 0, 20, 0,   0,  2, 2, 2,   0,                       // number 0
    0,  0, 0,  128, 0,  0, 0, 128,                          // each column is declared 2^31
    1,  0, 0,  0,   90, 0, 0, 0,   2, 0, 0, 0, 70, 0, 0, 0, //
    29, 0, 20, 0,   1,  2, 2, 2,   0,                       // number 1
    0,  0, 0,  128, 0,  0, 0, 128,                          //
    1,  0, 0,  0,   50, 0, 0, 0,   1, 0, 0, 0, 60, 0, 0, 0, //
};

// The compiler makes their bytes: nothing of the texts is in the program.
DISLOGHA_QUESTION(question, "berths(berth, depth) bollards(berth, pull)",
                  "bag{ (b.berth, sum{ l.pull | l <- bollards, l.berth = b.berth }) | b <- berths }");

// In how many ways six lines can be made fast.
DISLOGHA_QUESTION(ways_question, "berths(berth, depth) bollards(berth, pull)",
                  "sum{ 1 | a <- bollards, b <- bollards, c <- bollards,"
                  "         d <- bollards, e <- bollards, f <- bollards }");

// A lock's hours, calendar 0: Saturdays from minute 480 to 720, so from 08:00 to 12:00.
constexpr std::uint8_t hours[] = {
    6, 0, 24, 0, 1, 5, 224, 1, 208, 2, //
};

// The sum of b.1 for b in table 0 while the lock is open at minute 480: the metres of berths behind it.
constexpr std::uint8_t hours_question[] = {
    40, 0, 14, 0, 4,                       // a sum
    7,  0, 16, 0, 0,   0, 1,  0, 15, 0, 0, // for b (name 0) in table 0
    13, 0, 18, 0, 9,   0, 21, 0, 0,        // where calendar 0 is open at
    4,  0, 1,  0, 224, 1, 0,  0,           // 480
    7,  0, 4,  0, 1,   2, 0,  3, 0,  0, 0, // of b.1
};

} // namespace listing

#endif
