// A question in the source of firmware: bytes that the compiler made, without a library. With -DWRONG its column is
// misspelt, and it must not compile.
#include "dislogha.h"
#include "dislogha_text.h"

#ifdef WRONG
#define PULL "l.pul"
#else
#define PULL "l.pull"
#endif

DISLOGHA_QUESTION(pull, "berths(berth, depth) @5 bollards(berth, pull)",
                  "bag{ (b.berth, sum{ " PULL " | l <- bollards, l.berth = b.berth }) // for each berth\n"
                  "   | b <- berths }");

// Numbers as typed: a name by its number, and words that avoid it.
DISLOGHA_QUESTION(numbered, "", "sum{ #0.0 + x.1 | #0 <- @6, x <- @7 }");

// A calendar by its name: its place among those that are named.
DISLOGHA_QUESTION(behind, "open{quay, lock} arrivals(ship, minute)", "bag{ a.ship | a <- arrivals, open(lock, a.minute) }");

static_assert(behind[22] == 21 && behind[24] == 1, "kind 21, calendar 1");
static_assert(dislogha::text::typed("some{ open(gate, 0) }", "open{quay, lock}").fault.wrong ==
                  dislogha::text::Wrong::no_such_calendar,
              "a calendar that has no such name");

static_assert(sizeof pull == 88, "the listing's question has 88 bytes");
static_assert(pull[0] == 84 && pull[2] == 14 && pull[4] == 2, "a bag of 84 bytes");
static_assert(numbered[sizeof numbered - 2] == 1 && numbered[sizeof numbered - 1] == 0, "x is name 1");

// Both ways at compile time, too: what the text of the bytes gives.
template <std::size_t N> constexpr bool again(const std::uint8_t (&question)[N], dislogha::text::Chars names) {
    char written[200] = {};
    const auto schema = dislogha::text::schema(names);
    const auto printed = dislogha::text::printed(question, N, schema, written, sizeof written);
    const auto typed = dislogha::text::typed({written, printed.size}, schema);
    bool same = printed.fault.none() && typed.size == N;
    for (std::size_t i = 0; same && i < N; i++) {
        same = typed.bytes[i] == question[i];
    }
    return same;
}
static_assert(again(pull, ""), "the text of the bytes gives them again");
static_assert(again(behind, ""), "and so by numbers");
static_assert(again(behind, "open{quay, lock}"), "and by a calendar's name");

dislogha::Result asked(dislogha::Bytes data, dislogha::Bytes calendars, dislogha::Words scratch, dislogha::Answer answer) {
    const auto result = dislogha::answer_by_plan(data, {}, pull, scratch, answer);
    return result.outcome == dislogha::Outcome::answered ? dislogha::answer_by_plan(data, calendars, behind, scratch, answer) : result;
}
