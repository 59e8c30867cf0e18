// The header against the archive: document 01's listing, refusals, and overlapping buffers.
// A buffer is a block of its own of exactly its length, so that valgrind sees a step outside, save
// where buffers touch.

#include <algorithm>
#include <cstdio>
#include <cstdlib>
#include <cstring>
#include <iterator>
#include <string>
#include <vector>

#include "../../examples/firmware/listing.h"
#include "dislogha.h"

namespace {

using dislogha::Answer;
using dislogha::Bytes;
using dislogha::Outcome;
using dislogha::Portion;
using dislogha::Refusal;
using dislogha::Result;
using dislogha::Round;
using dislogha::Seat;
using dislogha::Words;

const std::vector<std::uint8_t> tables(std::begin(listing::tables), std::end(listing::tables));
const std::vector<std::uint8_t> question(std::begin(listing::question),
                                         std::end(listing::question));
// Saturdays from 08:00 to 12:00: lent to every call, and asked for where hours are.
const std::vector<std::uint8_t> hours(std::begin(listing::hours), std::end(listing::hours));

constexpr std::uint64_t rubbish = 0x5A5A5A5A5A5A5A5A;

Bytes bytes(const std::vector<std::uint8_t> &vector) { return {vector.data(), vector.size()}; }

Words words(std::vector<std::uint64_t> &vector) { return {vector.data(), vector.size()}; }

void expect(bool holds, const char *what) {
    if (!holds) {
        std::printf("cpp: %s\n", what);
        std::exit(1);
    }
}

bool is(Result result, Outcome outcome, Refusal refusal, std::uint64_t length) {
    return result.outcome == outcome && result.refusal == refusal && result.length == length;
}

bool answers(Result result, std::uint64_t length) {
    return is(result, Outcome::answered, Refusal{}, length);
}

bool refuses(Result result, Refusal refusal) { return is(result, Outcome::refused, refusal, 0); }

bool overlaps(Result result) { return is(result, Outcome::overlapping, Refusal{}, 0); }

bool is(Portion portion, Result result, bool finished, std::uint64_t offered) {
    return portion.outcome == result.outcome && portion.refusal == result.refusal &&
           portion.length == result.length && portion.finished == finished &&
           portion.offered == offered;
}

bool unfinished(Portion portion, std::uint64_t offered) {
    return portion.unfinished() && is(portion, {Outcome::answered, Refusal{}, 0}, false, offered);
}

bool finished(Portion portion, Result result, std::uint64_t offered) {
    return !portion.unfinished() && is(portion, result, true, offered);
}

bool refuses(Portion portion, Refusal refusal) {
    return !portion.unfinished() && is(portion, {Outcome::refused, refusal, 0}, false, 0);
}

// The first 2,048 words are 0 and the later ones as they were.
bool cleared(const std::vector<std::uint64_t> &scratch) {
    const auto behind = scratch.begin() + static_cast<std::ptrdiff_t>(dislogha::scratch_words);
    return std::count(scratch.begin(), behind, 0u) == behind - scratch.begin() &&
           std::count(behind, scratch.end(), rubbish) == scratch.end() - behind;
}

void check_listing() {
    std::vector<std::uint64_t> scratch(dislogha::scratch_words + 3, rubbish);
    const auto accepted =
        dislogha::check(bytes(tables), bytes(hours), bytes(question), words(scratch));
    expect(answers(accepted, 0), "the listing is accepted");
    expect(cleared(scratch), "scratch is cleared and nothing behind it changed");

    // Without its tables the question names what is not there.
    const auto refused = dislogha::check(Bytes(), bytes(hours), bytes(question), words(scratch));
    expect(refuses(refused, Refusal::type_does_not_fit), "a table that is not lent is refused");

    // The first column of the berths, 1 and 2, is declared 1.
    const std::size_t number_at = 4, bound_at = 9;
    auto beyond = tables;
    beyond[bound_at] = 1;
    beyond[bound_at + 3] = 0;
    const auto broken =
        dislogha::check(bytes(beyond), bytes(hours), bytes(question), words(scratch));
    expect(refuses(broken, Refusal::cell_beyond_bound), "a cell beyond its bound is refused");

    // Both before that.
    beyond[number_at] = 8;
    const auto above =
        dislogha::check(bytes(beyond), bytes(hours), bytes(question), words(scratch));
    expect(refuses(above, Refusal::table_number_out_of_range), "number 8 is refused");
    auto twice = tables;
    twice[number_at] = 1;
    const auto used = dislogha::check(bytes(twice), bytes(hours), bytes(question), words(scratch));
    expect(refuses(used, Refusal::table_number_used), "a number twice is refused");
}

// From 2,048 words on, also from the 8,192 that were asked for once, the same answer; words behind the
// first 2,048 stay as they were.
void check_longer_scratch() {
    for (const std::size_t lent : {2048u, 2049u, 8191u, 8192u}) {
        std::vector<std::uint64_t> scratch(lent, rubbish);
        std::vector<std::int64_t> answer(6, -7);
        const auto answered =
            dislogha::answer_by_plan(bytes(tables), bytes(hours), bytes(question), words(scratch),
                                     Answer(answer.data(), answer.size()));
        expect(answers(answered, 5), "2,048 words and more are enough");
        expect(answer == std::vector<std::int64_t>{2, 1, 110, 2, 0, -7}, "the same words from all");
        expect(cleared(scratch), "2,048 words are cleared and nothing behind them changed");
    }
}

void check_scratch() {
    static_assert(dislogha::scratch_words == 2048, "document 02, E13");
    std::vector<std::uint64_t> scratch(dislogha::scratch_words - 1, rubbish);
    const auto before = scratch;
    const auto refused =
        dislogha::check(bytes(tables), bytes(hours), bytes(question), words(scratch));
    expect(refuses(refused, Refusal::scratch_too_short), "2,047 words are too few");
    expect(scratch == before, "scratch that is too short stays untouched");
    const auto none = dislogha::check(Bytes(), Bytes(), Bytes(), Words());
    expect(refuses(none, Refusal::scratch_too_short), "nothing at all may be lent");
}

using AnswerCall = Result (*)(Bytes, Bytes, Bytes, Words, Answer) noexcept;

// "answer 2 1 110 2 0", in a buffer that has a word more than the answer.
void answer_listing(AnswerCall answer_by) {
    std::vector<std::uint64_t> scratch(dislogha::scratch_words + 3, rubbish);
    std::vector<std::int64_t> answer(6, -7);
    const auto answer_in = [&](Answer lent) {
        return answer_by(bytes(tables), bytes(hours), bytes(question), words(scratch), lent);
    };
    const auto answered = answer_in(Answer(answer.data(), answer.size()));
    expect(answers(answered, 5), "the listing has five words");
    expect(answer == std::vector<std::int64_t>{2, 1, 110, 2, 0, -7}, "the listing's words");
    expect(cleared(scratch), "scratch is cleared after an answer");

    const auto refused = answer_in(Answer(answer.data(), 4));
    expect(refuses(refused, Refusal::answer_too_short), "four words are too few");
}

// "The same records in another order give the same answer."
void answer_reversed(AnswerCall answer_by) {
    auto reversed = tables;
    const auto half = static_cast<std::ptrdiff_t>(reversed.size() / 2);
    std::rotate(reversed.begin(), reversed.begin() + half, reversed.end());
    std::vector<std::uint64_t> scratch(dislogha::scratch_words, rubbish);
    std::vector<std::int64_t> answer(5, -7);
    const auto answered = answer_by(bytes(reversed), bytes(hours), bytes(question), words(scratch),
                                    Answer(answer.data(), answer.size()));
    expect(answers(answered, 5), "the listing has five words in either order of its records");
    expect(answer == std::vector<std::int64_t>{2, 1, 110, 2, 0}, "and the same ones");
}

// The listing's berths by column: 1, 1 and 90, -20, folded.
const std::vector<std::uint8_t> berths_by_column{
    29, 0, 23, 0,   0, 2, 2, 2,   0,                         //
    0,  0, 0,  128, 0, 0, 0, 128,                            //
    2,  0, 0,  0,   2, 0, 0, 0,   180, 0, 0, 0, 39, 0, 0, 0, //
};

// A record turned into a target of so many bytes, in a block of its own.
struct Turned {
    std::vector<std::uint8_t> target;
    Result result;

    template <class Turn>
    Turned(Turn turn, const std::vector<std::uint8_t> &record, std::size_t count)
        : target(count, 0x5A), result(turn(bytes(record), {target.data(), target.size()})) {}

    bool refused(Refusal refusal) const {
        return refuses(result, refusal) && target == std::vector<std::uint8_t>(target.size(), 0x5A);
    }
};

// "each undoes the other"
void turn_listing() {
    const auto to_columns = dislogha::table_to_columns, to_rows = dislogha::table_to_rows;
    const auto size = tables.size() / 2;
    const std::vector<std::uint8_t> berths(tables.begin(),
                                           tables.begin() + static_cast<std::ptrdiff_t>(size));
    const Turned there(to_columns, berths, size);
    expect(answers(there.result, size) && there.target == berths_by_column, "berths by column");
    const Turned back(to_rows, there.target, size);
    expect(answers(back.result, size) && back.target == berths, "and back by row");
    auto behind = berths_by_column;
    behind.push_back(0x5A);
    expect(Turned(to_columns, berths, size + 1).target == behind, "no byte behind it is changed");
    for (const std::size_t count : {std::size_t{0}, size - 1}) {
        expect(Turned(to_columns, berths, count).refused(Refusal::target_too_short) &&
                   Turned(to_rows, there.target, count).refused(Refusal::target_too_short),
               "a target that is too short stays as it was");
    }
    expect(Turned(to_rows, berths, size).refused(Refusal::not_a_table) &&
               Turned(to_columns, there.target, size).refused(Refusal::not_a_table) &&
               Turned(to_columns, tables, tables.size()).refused(Refusal::not_a_table) &&
               Turned(to_columns, {}, size).refused(Refusal::not_a_table),
           "the other kind, bytes behind and no record are refused");
    auto above = berths;
    above[4] = 8;
    expect(Turned(to_columns, above, 0).refused(Refusal::table_number_out_of_range),
           "the record's own refusals come first");
}

// Up to 100 cm 500 cents per metre begun, up to 400 cm 1,000, at least 300: the listing's bag, (1, 110) and
// (2, 0), taken for ships and draughts, owes 2,000 and 300.
const std::vector<std::uint8_t> tariff{
    21,  0, 22, 0, 2,                  //
    100, 0, 0,  0, 244, 1, 0, 0,       //
    144, 1, 0,  0, 232, 3, 0, 0, 44, 1, 0, 0, //
};

// The listing's dues in an answer of so many words, in blocks of their own.
struct Dues {
    std::vector<std::uint64_t> scratch;
    std::vector<std::int64_t> answer;
    Result result;

    explicit Dues(std::size_t count, const std::vector<std::uint8_t> &lent = tariff,
                  const std::vector<std::uint8_t> &asked = question, std::size_t words = dislogha::scratch_words + 3)
        : scratch(words, rubbish), answer(count, -7),
          result(dislogha::answer_with_tariff(bytes(tables), bytes(hours), bytes(asked), bytes(lent),
                                              {scratch.data(), scratch.size()}, {answer.data(), answer.size()})) {}

    bool refused(Refusal refusal) const {
        return refuses(result, refusal) && cleared(scratch) &&
               std::count(answer.begin(), answer.end(), -7) == static_cast<std::ptrdiff_t>(answer.size());
    }
};

void charge_listing() {
    const Dues dues(6);
    expect(answers(dues.result, 5) && cleared(dues.scratch), "the listing's dues");
    expect(dues.answer == std::vector<std::int64_t>{2, 1, 2000, 2, 300, -7}, "their words, and the one behind");
    const Dues scant(6, {}, question, dislogha::scratch_words - 1);
    expect(refuses(scant.result, Refusal::scratch_too_short), "31 comes before 44");
    expect(Dues(6, {}).refused(Refusal::tariff_out_of_range), "no tariff is refused");
    auto longer = tariff;
    longer.push_back(0);
    expect(Dues(6, longer).refused(Refusal::tariff_out_of_range), "nor may a byte stand behind it");
    expect(Dues(6, longer, {}).refused(Refusal::tariff_out_of_range), "44 comes before the question");
    // Its monoid, bag, becomes list.
    const std::size_t monoid_at = 4;
    auto listed = question;
    listed[monoid_at] = 1;
    expect(Dues(6, tariff, listed).refused(Refusal::generator_not_allowed), "26 comes first");
    const std::vector<std::uint8_t> one{10, 0, 14, 0, 2, 5, 0, 0, 0};
    expect(Dues(6, tariff, one).refused(Refusal::broken_record), "and so does 22");
    const std::vector<std::uint8_t> seven{9, 0, 14, 0, 4, 4, 0, 1, 0, 7, 0, 0, 0};
    expect(Dues(0, tariff, seven).refused(Refusal::not_ships_and_draughts), "a sum has no ships; 45 before 32");
    // Up to 9 cm alone.
    auto shallow = tariff;
    shallow[5] = 8;
    shallow[13] = 9;
    shallow[14] = 0;
    expect(Dues(4, shallow).refused(Refusal::answer_too_short), "32 comes before 46");
    expect(Dues(5, shallow).refused(Refusal::draught_out_of_range), "110 cm is above the last step");
}

// some{ true | l <- table 1 }: whether there is a bollard at all.
const std::vector<std::uint8_t> any_bollard{17, 0, 14, 0, 6, 7, 0, 16, 0, 3, 0, 1, 0, 15, 0, 1, 1, 0, 2, 0, 1};

// A list of so many rows with one column, table 5.
std::vector<std::uint8_t> list_of(std::uint8_t rows) {
    std::vector<std::uint8_t> out{static_cast<std::uint8_t>(9 + 4 * rows), 0, 20, 0, 5, 1, 1, rows, 0, 0, 0, 0, 128};
    out.resize(out.size() + 4u * rows, 3);
    return out;
}

// The outages of a table counted into an answer of so many words, in blocks of their own.
struct Outages {
    std::vector<std::uint64_t> scratch;
    std::vector<std::int64_t> answer;
    Result result;

    Outages(std::uint64_t table, std::size_t count, const std::vector<std::uint8_t> &asked = any_bollard,
            const std::vector<std::uint8_t> &data = tables)
        : scratch(dislogha::scratch_words + 3, rubbish), answer(count, -7),
          result(dislogha::count_outages(bytes(data), bytes(hours), bytes(asked), table, words(scratch),
                                         {answer.data(), answer.size()})) {}

    bool counts(std::int64_t truths, std::int64_t falses) const {
        return answers(result, 2) && cleared(scratch) && answer == std::vector<std::int64_t>{truths, falses, -7};
    }
    bool refused(Refusal refusal) const {
        return refuses(result, refusal) && cleared(scratch) &&
               std::count(answer.begin(), answer.end(), -7) == static_cast<std::ptrdiff_t>(answer.size());
    }
};

void count_bollards() {
    expect(Outages(1, 3).counts(3, 1), "one subset of two bollards is empty");
    expect(Outages(0, 3).counts(4, 0), "berths that are out do not matter");
    expect(Outages(0, 0, question).refused(Refusal::neither_some_nor_all), "a bag is not counted; 55 before 32");
    expect(Outages(9, 0, question).refused(Refusal::neither_some_nor_all), "and before 56");
    expect(Outages(2, 0).refused(Refusal::outage_table_out_of_range), "an absent table; 56 before 32");
    expect(Outages(256, 3).refused(Refusal::outage_table_out_of_range), "a number is not cut to a byte");
    expect(Outages(1, 1).refused(Refusal::answer_too_short), "one word is too few");
    auto twelve = tables, thirteen = tables;
    for (const std::uint8_t byte : list_of(12)) {
        twelve.push_back(byte);
    }
    for (const std::uint8_t byte : list_of(13)) {
        thirteen.push_back(byte);
    }
    expect(Outages(5, 3, any_bollard, twelve).counts(4096, 0), "twelve rows");
    expect(Outages(5, 3, any_bollard, thirteen).refused(Refusal::outage_table_out_of_range), "thirteen are too many");
    expect(Outages(1, 3, any_bollard, thirteen).counts(3, 1), "in the table that is asked for");
}

// Two logs, the seconds 0, 9 and 9, 12, and what a tolerance of 3 makes of them: a pair of rows 1 and 0, and
// two singles.
const std::vector<std::uint8_t> logs{
    17, 0, 20, 0, 0, 1, 1, 2, 0, 0, 0, 0, 128, 0, 0, 0, 0, 9,  0, 0, 0, //
    17, 0, 20, 0, 1, 1, 1, 2, 0, 0, 0, 0, 128, 9, 0, 0, 0, 12, 0, 0, 0, //
};
const std::vector<std::uint8_t> logs_paired{
    21, 0, 20, 0, 5, 1, 2, 1, 0, 255, 3, 0, 0, 255, 3, 0, 0, 1, 0, 0, 0, 0, 0, 0, 0, //
    13, 0, 20, 0, 6, 1, 1, 1, 0, 255, 3, 0, 0, 0,   0, 0, 0,                         //
    13, 0, 20, 0, 7, 1, 1, 1, 0, 255, 3, 0, 0, 1,   0, 0, 0,                         //
};

// Tables paired into a target of so many bytes, in a block of its own.
struct LogsPaired {
    std::vector<std::uint8_t> target;
    Result result;

    LogsPaired(std::uint64_t first, std::uint64_t second, std::uint64_t tolerance, std::size_t count,
               const std::vector<std::uint8_t> &data = logs)
        : target(count, 0x5A), result(dislogha::pair_logs(bytes(data), first, second, tolerance,
                                                          {target.data(), target.size()})) {}

    bool refused(Refusal refusal) const {
        return refuses(result, refusal) && target == std::vector<std::uint8_t>(target.size(), 0x5A);
    }
};

void pair_two_logs() {
    const auto size = logs_paired.size();
    const LogsPaired there(0, 1, 3, size);
    expect(answers(there.result, size) && there.target == logs_paired, "a pair and two singles");
    auto behind = logs_paired;
    behind.push_back(0x5A);
    expect(LogsPaired(0, 1, 3, size + 1).target == behind, "no byte behind them is changed");
    expect(LogsPaired(0, 0, 0, size).result.length == size, "a log may be paired with itself");
    expect(LogsPaired(0, 1, 3, size - 1).refused(Refusal::target_too_short) &&
               LogsPaired(0, 1, 3, 0).refused(Refusal::target_too_short),
           "a target that is too short for them stays as it was");
    expect(LogsPaired(0, 1, dislogha::most_tolerance + 1, 0).refused(Refusal::tolerance_out_of_range),
           "a tolerance above an hour comes before that");
    auto bag = logs, falls = logs, above = logs;
    bag[5] = 2;
    falls[13] = 10;
    above[4] = 8;
    expect(LogsPaired(0, 2, 9999, 0).refused(Refusal::not_a_log) &&
               LogsPaired(8, 1, 9999, 0).refused(Refusal::not_a_log) &&
               LogsPaired(0, 1, 9999, 0, bag).refused(Refusal::not_a_log) &&
               LogsPaired(0, 1, 9999, 0, falls).refused(Refusal::not_a_log),
           "no table, no list and times that fall come before both");
    expect(LogsPaired(0, 1, 9999, 0, above).refused(Refusal::table_number_out_of_range),
           "and the data before all");
    // Tables 6 and 7 of what was written are lists of positions, 0 and 1: a second apart.
    const LogsPaired again(6, 7, 1, 51, there.target);
    expect(answers(again.result, 51) && again.target[7] == 1, "what was written is read as tables");
}

// "The engine reads either kind, with the same answers"
void answer_by_column(AnswerCall answer_by) {
    auto mixed = tables;
    std::copy(berths_by_column.begin(), berths_by_column.end(), mixed.begin());
    std::vector<std::uint64_t> scratch(dislogha::scratch_words, rubbish);
    std::vector<std::int64_t> answer(5, -7);
    const auto answered = answer_by(bytes(mixed), bytes(hours), bytes(question), words(scratch),
                                    Answer(answer.data(), answer.size()));
    expect(answers(answered, 5), "the listing has five words with its berths by column");
    expect(answer == std::vector<std::int64_t>{2, 1, 110, 2, 0}, "and these, too, are the same");
}

// The metres of berths while the lock is open: minute 480 is within its hours, and without them it is
// refused.
void answer_hours(AnswerCall answer_by) {
    const std::vector<std::uint8_t> asked(std::begin(listing::hours_question),
                                          std::end(listing::hours_question));
    std::vector<std::uint64_t> scratch(dislogha::scratch_words + 3, rubbish);
    std::vector<std::int64_t> answer(2, -7);
    const auto answer_over = [&](const std::vector<std::uint8_t> &calendars) {
        return answer_by(bytes(tables), bytes(calendars), bytes(asked), words(scratch),
                         Answer(answer.data(), answer.size()));
    };
    expect(answers(answer_over(hours), 1), "a question about open hours is answered");
    expect(answer == std::vector<std::int64_t>{160, -7}, "with all berths while the lock is open");
    auto later = hours;
    later[6]++;
    expect(answers(answer_over(later), 1) && answer[0] == 0, "and none a minute before it opens");
    expect(refuses(answer_over({}), Refusal::calendar_not_lent), "a calendar that is not lent");
    auto sundays = hours;
    sundays[5] = 7;
    expect(refuses(answer_over(sundays), Refusal::calendar_or_date_out_of_range), "weekday 7");
    expect(cleared(scratch), "scratch is cleared after such a refusal");
}

// "41, a calendar record that breaks this layout or a fifth one, after all data refusals", of all calls.
void check_hours() {
    std::vector<std::uint64_t> scratch(dislogha::scratch_words, rubbish);
    auto many = hours;
    for (int i = 0; i < 3; i++) {
        many.insert(many.end(), hours.begin(), hours.end());
    }
    const auto check_over = [&](Bytes data, const std::vector<std::uint8_t> &calendars) {
        return dislogha::check(data, bytes(calendars), bytes(question), words(scratch));
    };
    expect(answers(check_over(bytes(tables), many), 0), "four calendars are lent");
    many.push_back(0);
    expect(refuses(check_over(bytes(tables), many), Refusal::calendar_or_date_out_of_range),
           "a byte behind them is a fifth");
    expect(refuses(check_over(bytes(question), many), Refusal::not_a_table), "the data come first");
    const auto begun = dislogha::begin(bytes(tables), bytes(many), bytes(question), words(scratch));
    expect(refuses(begun, Refusal::calendar_or_date_out_of_range), "nothing is begun over them");
    std::vector<std::uint8_t> lines(200);
    const auto printed =
        dislogha::plan_lines(bytes(tables), bytes(many), bytes(question), words(scratch),
                             dislogha::Text(lines.data(), lines.size()));
    expect(refuses(printed, Refusal::calendar_or_date_out_of_range), "and no plan is written");
}

bool found(dislogha::FirstOpen told, std::uint64_t minute) {
    return told.outcome == Outcome::answered && told.refusal == Refusal{} && told.found &&
           told.minute == minute;
}

bool none(dislogha::FirstOpen told) {
    return told.outcome == Outcome::answered && told.refusal == Refusal{} && !told.found &&
           told.minute == 0;
}

bool refuses(dislogha::FirstOpen told, Refusal refusal) {
    return told.outcome == Outcome::refused && told.refusal == refusal && !told.found &&
           told.minute == 0;
}

// Saturdays from 480 to 720; day 0 is one, the last day a Friday.
void check_first_open() {
    const auto first_open = [](std::uint64_t calendar, std::int64_t minute) {
        return dislogha::first_open(bytes(hours), calendar, minute);
    };
    expect(found(first_open(0, 0), 480) && found(first_open(0, 480), 480), "the first minute");
    expect(found(first_open(0, 719), 719), "the last minute of a window");
    expect(found(first_open(0, 720), 10560), "a week later from its end on");
    expect(found(first_open(0, INT64_MIN), 480), "the first of all years");
    expect(none(first_open(0, 210379679)) && none(first_open(0, INT64_MAX)), "none");
    expect(refuses(first_open(1, 0), Refusal::calendar_not_lent) &&
               refuses(first_open(UINT64_MAX, 0), Refusal::calendar_not_lent) &&
               refuses(dislogha::first_open(Bytes(), 0, 0), Refusal::calendar_not_lent),
           "a calendar that is not lent has no first open minute");
    auto cut = hours;
    cut.pop_back();
    expect(refuses(dislogha::first_open(bytes(cut), 7, 0), Refusal::calendar_or_date_out_of_range),
           "a calendar cut short comes before one that is not lent");
}

bool is(dislogha::Date told, std::uint64_t year, std::uint64_t month, std::uint64_t day) {
    return told.outcome == Outcome::answered && told.refusal == Refusal{} && told.year == year &&
           told.month == month && told.day == day;
}

bool is(dislogha::DayNumber told, std::uint64_t day) {
    return told.outcome == Outcome::answered && told.refusal == Refusal{} && told.day == day;
}

void check_dates() {
    expect(is(dislogha::day_number(2000, 1, 1), 0) && is(dislogha::date(0), 2000, 1, 1), "day 0");
    expect(is(dislogha::day_number(2000, 2, 29), 59) && is(dislogha::date(59), 2000, 2, 29),
           "2000 is a leap year");
    expect(is(dislogha::day_number(2100, 3, 1), 36584) && is(dislogha::date(36584), 2100, 3, 1),
           "2100 is none");
    expect(is(dislogha::day_number(2399, 12, 31), 146096) &&
               is(dislogha::date(146096), 2399, 12, 31),
           "the last day");
    const auto no_day = [](dislogha::DayNumber told) {
        return told.outcome == Outcome::refused &&
               told.refusal == Refusal::calendar_or_date_out_of_range && told.day == 0;
    };
    expect(no_day(dislogha::day_number(2100, 2, 29)) &&
               no_day(dislogha::day_number(1999, 12, 31)) &&
               no_day(dislogha::day_number(2400, 1, 1)) &&
               no_day(dislogha::day_number(2000, 0, 1)) && no_day(dislogha::day_number(2000, 1, 0)),
           "dates that do not exist");
    const dislogha::Date past = dislogha::date(146097);
    expect(past.outcome == Outcome::refused && past.year == 0 && past.month == 0 && past.day == 0 &&
               past.refusal == Refusal::calendar_or_date_out_of_range,
           "a day number that does not exist");
}

// The listing has six rows a pass; its words are those of the single call.
void portion_listing() {
    std::vector<std::uint64_t> scratch(dislogha::scratch_words + 3, rubbish);
    std::vector<std::int64_t> answer(6, -7);
    const auto lent = Answer(answer.data(), answer.size());
    const auto portion = [&](std::uint64_t rows) {
        return dislogha::portion(bytes(tables), bytes(hours), words(scratch), lent, rows);
    };
    const auto begun =
        dislogha::begin(bytes(tables), bytes(hours), bytes(question), words(scratch));
    expect(answers(begun, 0), "the listing is begun");
    expect(unfinished(portion(5), 5), "five rows are offered");
    const auto before = scratch;
    expect(refuses(portion(0), Refusal::rows_out_of_range), "0 rows are refused");
    expect(refuses(portion(dislogha::most_rows + 1), Refusal::rows_out_of_range),
           "65,536 rows are refused");
    const auto short_of = Words(scratch.data(), dislogha::scratch_words - 1);
    expect(refuses(dislogha::portion(bytes(tables), bytes(hours), short_of, lent, 1),
                   Refusal::scratch_too_short),
           "2,047 words are too few for a portion");
    expect(scratch == before, "what is refused changes nothing");
    expect(finished(portion(7), {Outcome::answered, Refusal{}, 5}, 7), "seven rows finish it");
    expect(answer == std::vector<std::int64_t>{2, 1, 110, 2, 0, -7}, "the words of a single call");
    expect(cleared(scratch), "scratch is cleared after the last portion");
    expect(refuses(portion(1), Refusal::nothing_unfinished), "then no question is unfinished");

    expect(
        answers(dislogha::begin(bytes(tables), bytes(hours), bytes(question), words(scratch)), 0),
        "again");
    const auto few =
        dislogha::portion(bytes(tables), bytes(hours), words(scratch), Answer(answer.data(), 4), 9);
    expect(finished(few, {Outcome::refused, Refusal::answer_too_short, 0}, 6),
           "four words are too few, after one pass");
    const auto none = dislogha::begin(Bytes(), bytes(hours), bytes(question), words(scratch));
    expect(refuses(none, Refusal::type_does_not_fit), "a beginning is refused as a check is");
}

// A seat of a rota, with blocks of its own.
struct Desk {
    std::vector<std::uint64_t> scratch;
    std::vector<std::int64_t> answer;

    Desk(std::size_t scratch_words, std::size_t answer_words)
        : scratch(scratch_words), answer(answer_words, -7) {}

    Seat seat() { return {words(scratch), Answer(answer.data(), answer.size())}; }

    bool operator==(const Desk &other) const {
        return scratch == other.scratch && answer == other.answer;
    }
};

using Desks = std::vector<Desk>;

Round round_over(Desks &desks, const std::vector<std::uint64_t> &quotas) {
    std::vector<Seat> seats;
    for (Desk &desk : desks) {
        seats.push_back(desk.seat());
    }
    return dislogha::round(bytes(tables), bytes(hours), {quotas.data(), quotas.size()},
                           {seats.data(), seats.size()});
}

bool visits(const Round &round, std::size_t seats) {
    return round.outcome == Outcome::answered && round.refusal == Refusal{} &&
           round.visited == seats;
}

void begin_at(Desk &desk) {
    const auto begun =
        dislogha::begin(bytes(tables), bytes(hours), bytes(question), words(desk.scratch));
    expect(answers(begun, 0), "the listing is begun at a seat");
}

// Twelve rows at one seat, in three rounds of five; at the others 31, 48, and 32 behind six rows.
void round_listing() {
    const std::vector<std::int64_t> five{2, 1, 110, 2, 0, -7};
    const std::vector<std::uint64_t> quotas{5, 1000, 1000, 4};
    Desks desks{{dislogha::scratch_words, 6},
                {dislogha::scratch_words - 1, 6},
                {dislogha::scratch_words, 6},
                {dislogha::scratch_words, 2}};
    begin_at(desks[0]);
    begin_at(desks[3]);
    const Desks begun = desks;
    const auto told_alike = [&](const Round &round) {
        expect(visits(round, 4), "four seats are visited");
        expect(refuses(round.seats[1], Refusal::scratch_too_short), "31 at the second seat alone");
        expect(refuses(round.seats[2], Refusal::nothing_unfinished), "48 at the third seat alone");
        expect(desks[1] == begun[1] && desks[2] == begun[2], "both stay unchanged");
    };
    const Round first = round_over(desks, quotas);
    told_alike(first);
    expect(first.unfinished(), "another round is due");
    expect(unfinished(first.seats[0], 5) && unfinished(first.seats[3], 4), "each has its quota");
    const Round second = round_over(desks, quotas);
    told_alike(second);
    expect(unfinished(second.seats[0], 5), "another five rows");
    expect(finished(second.seats[3], {Outcome::refused, Refusal::answer_too_short, 0}, 2),
           "two words are too few, after one pass");
    const Round third = round_over(desks, quotas);
    told_alike(third);
    expect(finished(third.seats[0], {Outcome::answered, Refusal{}, 5}, 2), "the last two rows");
    expect(refuses(third.seats[3], Refusal::nothing_unfinished), "48 once it has ended");
    expect(!third.unfinished(), "no other round is due");
    expect(desks[0].answer == five && cleared(desks[0].scratch), "the words of a single call");
    expect(cleared(desks[3].scratch) && desks[3].answer == begun[3].answer, "32 writes no word");
}

// Seats that the rota has not, and rotas that there are not.
void check_rota() {
    Desks desks(4, {dislogha::scratch_words, 6});
    for (Desk &desk : desks) {
        begin_at(desk);
    }
    const Desks begun = desks;
    const auto refused = [&](const std::vector<std::uint64_t> &quotas, const char *what) {
        const Round round = round_over(desks, quotas);
        expect(round.outcome == Outcome::refused && round.refusal == Refusal::rota_out_of_range &&
                   round.visited == 0 && !round.unfinished() && desks == begun,
               what);
    };
    refused({}, "a rota of no seat");
    refused({1, 1, 1, 1, 1}, "a rota of five seats");
    refused({1, 1, 1, 0}, "a quota of 0");
    refused({1, dislogha::most_quota + 1}, "a quota of 1,001");
    refused({(std::uint64_t{1} << 32) + 1}, "a quota that is short in 32 bits");

    const Round one = round_over(desks, {12});
    expect(visits(one, 1) && finished(one.seats[0], {Outcome::answered, Refusal{}, 5}, 12),
           "a rota of one seat");
    expect(desks[1] == begun[1] && desks[2] == begun[2] && desks[3] == begun[3],
           "seats behind the rota stay as they are");
    // Nothing is lent for the second of two seats.
    desks.erase(desks.begin());
    desks.resize(1, desks[0]);
    const Round two = round_over(desks, {dislogha::most_quota, 1});
    expect(visits(two, 2) && finished(two.seats[0], {Outcome::answered, Refusal{}, 5}, 12) &&
               refuses(two.seats[1], Refusal::scratch_too_short),
           "a seat for which nothing is lent");
}

// What is written at one seat may share no word with anything else that is lent, also behind the
// rota.
void check_seats_apart() {
    Desks desks(4, {dislogha::scratch_words, 6});
    for (Desk &desk : desks) {
        begin_at(desk);
    }
    const Desks begun = desks;
    std::uint64_t quotas[] = {1, 1};
    const auto lent = [&] {
        return std::vector<Seat>{desks[0].seat(), desks[1].seat(), desks[2].seat(),
                                 desks[3].seat()};
    };
    const auto not_lent = [&](Bytes data, Bytes calendars, dislogha::Quotas rota,
                              const std::vector<Seat> &seats, const char *what) {
        const Round round = dislogha::round(data, calendars, rota, {seats.data(), seats.size()});
        expect(round.outcome == Outcome::overlapping && round.refusal == Refusal{} &&
                   round.visited == 0 && !round.unfinished() && desks == begun,
               what);
    };
    const auto not_made = [&](Bytes data, dislogha::Quotas rota, const std::vector<Seat> &seats,
                              const char *what) {
        not_lent(data, bytes(hours), rota, seats, what);
    };
    const auto last_word = [](Desk &desk) { return &desk.scratch.back(); };
    const auto last_answer = [](Desk &desk) { return &desk.answer.back(); };
    const auto signed_word = [](std::uint64_t *word) {
        return reinterpret_cast<std::int64_t *>(word);
    };
    const auto last_byte = [](auto *word) { return reinterpret_cast<std::uint8_t *>(word) + 7; };
    const auto unsigned_word = [](std::int64_t *word) {
        return reinterpret_cast<std::uint64_t *>(word);
    };
    for (std::size_t i = 0; i < 4; i++) {
        not_made(Bytes(last_byte(last_word(desks[i])), 1), quotas, lent(), "data inside a scratch");
        not_made(Bytes(last_byte(last_answer(desks[i])), 1), quotas, lent(),
                 "data inside an answer");
        not_lent(bytes(tables), Bytes(last_byte(last_word(desks[i])), 1), quotas, lent(),
                 "calendars inside a scratch");
        not_lent(bytes(tables), Bytes(last_byte(last_answer(desks[i])), 1), quotas, lent(),
                 "calendars inside an answer");
        not_made(bytes(tables), {last_word(desks[i]), 1}, lent(), "quotas inside a scratch");
        not_made(bytes(tables), {unsigned_word(last_answer(desks[i])), 1}, lent(),
                 "quotas inside an answer");
        for (std::size_t j = 0; j < 4; j++) {
            auto seats = lent();
            seats[i].answer = Answer(signed_word(last_word(desks[j])), 1);
            not_made(bytes(tables), quotas, seats, "an answer inside a scratch");
            if (i != j) {
                seats = lent();
                seats[i].answer = Answer(last_answer(desks[j]), 1);
                not_made(bytes(tables), quotas, seats, "two seats with one answer");
                seats = lent();
                seats[i].scratch = Words(last_word(desks[j]), 1);
                not_made(bytes(tables), quotas, seats, "two seats with one scratch");
            }
        }
    }
    const auto seats = lent();
    expect(
        visits(dislogha::round(bytes(tables), bytes(hours), quotas, {seats.data(), seats.size()}),
               2),
        "seats that are apart are visited");
}

// A question about open hours in portions and in rounds: two rows a pass, the berths.
void portion_hours() {
    const std::vector<std::uint8_t> asked(std::begin(listing::hours_question),
                                          std::end(listing::hours_question));
    std::vector<std::uint64_t> scratch(dislogha::scratch_words, rubbish);
    std::int64_t answer[1] = {-7};
    const auto begun = dislogha::begin(bytes(tables), bytes(hours), bytes(asked), words(scratch));
    expect(answers(begun, 0), "a question about open hours is begun");
    const auto first = dislogha::portion(bytes(tables), bytes(hours), words(scratch), answer, 3);
    expect(unfinished(first, 3), "three rows are offered");
    const Seat seats[] = {{words(scratch), answer}};
    const std::uint64_t quotas[] = {5};
    const Round last = dislogha::round(bytes(tables), bytes(hours), quotas, seats);
    expect(visits(last, 1) && finished(last.seats[0], {Outcome::answered, Refusal{}, 1}, 1),
           "one more finishes it");
    expect(answer[0] == 160, "with the word of a single call");
}

void print_listing() {
    const std::string plan = "one\n"
                             "join 0 true\n"
                             "outer 1 (= (. 0 $1) (. 0 $0))\n"
                             "nest 1 sum (. 1 $1) true\n"
                             "reduce bag (rec (. 0 $0) $1) true\n";
    std::vector<std::uint64_t> scratch(dislogha::scratch_words, rubbish);
    std::vector<std::uint8_t> lines(plan.size());
    const auto lines_in = [&](std::size_t count) {
        const auto lent = dislogha::Text(lines.data(), count);
        return dislogha::plan_lines(bytes(tables), bytes(hours), bytes(question), words(scratch),
                                    lent);
    };
    expect(answers(lines_in(plan.size()), plan.size()), "the plan is written");
    expect(std::string(lines.begin(), lines.end()) == plan, "the plan's lines");
    expect(refuses(lines_in(plan.size() - 1), Refusal::lines_too_short), "a byte less is too few");
}

// Words that hold so many bytes.
constexpr std::size_t words_of(std::size_t count) { return (count + 7) / 8; }

// Data, calendars, question, scratch and answer side by side in one block of words. Buffers that touch
// are used; where one that is written shares a word with another one, no call is made.
void answer_side_by_side(AnswerCall answer_by) {
    constexpr std::size_t hours_at = words_of(sizeof listing::tables);
    constexpr std::size_t question_at = hours_at + words_of(sizeof listing::hours);
    constexpr std::size_t scratch_at = question_at + words_of(sizeof listing::question);
    constexpr std::size_t answer_at = scratch_at + dislogha::scratch_words;
    static_assert(sizeof listing::question % 8 == 0, "the question touches scratch");
    std::vector<std::uint64_t> block(answer_at + 5, rubbish);
    std::memcpy(&block[0], listing::tables, sizeof listing::tables);
    std::memcpy(&block[hours_at], listing::hours, sizeof listing::hours);
    std::memcpy(&block[question_at], listing::question, sizeof listing::question);
    const auto before = block;
    const auto answered = [&](std::size_t scratch, std::size_t answer) {
        const auto first = reinterpret_cast<const std::uint8_t *>(block.data());
        return answer_by(Bytes(first, tables.size()), Bytes(first + 8 * hours_at, hours.size()),
                         Bytes(first + 8 * question_at, question.size()),
                         Words(&block[scratch], dislogha::scratch_words),
                         Answer(reinterpret_cast<std::int64_t *>(&block[answer]), 5));
    };
    const auto not_made = [&](std::size_t scratch, std::size_t answer, const char *what) {
        expect(overlaps(answered(scratch, answer)) && block == before, what);
    };
    not_made(scratch_at, answer_at - 1, "an answer that begins in scratch is not written");
    not_made(scratch_at, question_at + 1, "an answer inside the question is not written");
    not_made(scratch_at, question_at - 5, "an answer that ends in the calendars is not written");
    not_made(scratch_at, 0, "an answer inside the data is not written");
    not_made(scratch_at - 1, answer_at, "scratch that begins in the question is not written");
    not_made(question_at - 1, answer_at, "scratch that begins in the calendars is not written");
    not_made(hours_at - 1, answer_at, "scratch that begins in the data is not written");
    expect(answers(answered(scratch_at, answer_at), 5), "buffers may touch");
    const auto words = reinterpret_cast<const std::int64_t *>(&block[answer_at]);
    expect(std::vector<std::int64_t>(words, words + 5) ==
               std::vector<std::int64_t>{2, 1, 110, 2, 0},
           "the listing's words where buffers touch");
}

void check_overlap() {
    std::vector<std::uint64_t> scratch(dislogha::scratch_words, rubbish);
    const auto before = scratch;
    const auto last = reinterpret_cast<std::uint8_t *>(scratch.data() + scratch.size()) - 1;
    const auto not_made =
        dislogha::check(bytes(tables), bytes(hours), Bytes(last, 1), words(scratch));
    expect(overlaps(not_made), "a question inside scratch is not called with");
    const auto not_written = dislogha::plan_lines(bytes(tables), bytes(hours), bytes(question),
                                                  words(scratch), dislogha::Text(last, 1));
    expect(overlaps(not_written), "lines inside scratch are not written");
    const auto not_begun =
        dislogha::begin(Bytes(last, 1), bytes(hours), bytes(question), words(scratch));
    expect(overlaps(not_begun), "a question over data inside scratch is not begun");
    const auto in_last = Bytes(last, 1);
    expect(overlaps(dislogha::check(bytes(tables), in_last, bytes(question), words(scratch))) &&
               overlaps(dislogha::begin(bytes(tables), in_last, bytes(question), words(scratch))),
           "calendars inside scratch are not called with");
    std::uint8_t lines[1] = {0x5A};
    expect(overlaps(dislogha::plan_lines(in_last, bytes(hours), bytes(question), words(scratch),
                                         lines)) &&
               overlaps(dislogha::plan_lines(bytes(tables), in_last, bytes(question),
                                             words(scratch), lines)),
           "nor is a plan written over data or calendars inside scratch");
    const auto not_over_lines = dislogha::plan_lines(bytes(tables), Bytes(lines, 1),
                                                     bytes(question), words(scratch), lines);
    expect(overlaps(not_over_lines) && lines[0] == 0x5A,
           "lines over the calendars are not written");
    std::int64_t answer[1] = {-7};
    const auto not_offered = [&](Bytes data, Bytes calendars, Answer lent, const char *what) {
        const auto portion = dislogha::portion(data, calendars, words(scratch), lent, 1);
        expect(is(portion, dislogha::overlapping, false, 0) && answer[0] == -7, what);
    };
    const auto in_scratch = Answer(reinterpret_cast<std::int64_t *>(&scratch.back()), 1);
    const auto in_answer = Bytes(reinterpret_cast<std::uint8_t *>(answer) + 7, 1);
    not_offered(in_last, bytes(hours), answer, "data inside scratch are not offered");
    not_offered(bytes(tables), in_last, answer, "nor with calendars inside scratch");
    not_offered(bytes(tables), bytes(hours), in_scratch, "a portion inside scratch is not written");
    not_offered(in_answer, bytes(hours), answer, "data inside the answer are not offered");
    not_offered(bytes(tables), in_answer, answer, "nor with calendars inside the answer");
    expect(scratch == before, "nothing is changed where no call is made");
    auto record = tables;
    const auto inside = dislogha::Target(&record.back(), 1);
    expect(overlaps(dislogha::table_to_columns(bytes(record), inside)) &&
               overlaps(dislogha::table_to_rows(bytes(record), inside)) && record == tables,
           "a target inside the record is not written");
    auto lent = logs;
    expect(overlaps(dislogha::pair_logs(bytes(lent), 0, 1, 3, {&lent.back(), 1})) && lent == logs,
           "nor is one inside the data");
    const auto not_charged = [&](Bytes lent, Answer over, const char *what) {
        expect(overlaps(dislogha::answer_with_tariff(bytes(tables), bytes(hours), bytes(question), lent,
                                                     words(scratch), over)) &&
                   scratch == before && answer[0] == -7,
               what);
    };
    not_charged(in_last, answer, "a tariff inside scratch is not called with");
    not_charged(in_answer, answer, "nor one inside the answer");
    not_charged(bytes(tariff), in_scratch, "dues inside scratch are not written");
    const auto not_counted = [&](Bytes lent, Answer over, const char *what) {
        expect(overlaps(dislogha::count_outages(bytes(tables), bytes(hours), lent, 0, words(scratch), over)) &&
                   overlaps(dislogha::count_outages(lent, bytes(hours), bytes(question), 0, words(scratch), over)) &&
                   overlaps(dislogha::count_outages(bytes(tables), lent, bytes(question), 0, words(scratch), over)) &&
                   scratch == before && answer[0] == -7,
               what);
    };
    not_counted(in_last, answer, "outages are not counted over what is inside scratch");
    not_counted(in_answer, answer, "nor inside the answer");
    not_counted(bytes(question), in_scratch, "counts inside scratch are not written");
    const auto same =
        dislogha::check(bytes(question), bytes(hours), bytes(question), words(scratch));
    expect(refuses(same, Refusal::not_a_table), "data and question may be the same bytes");
    const auto also = dislogha::check(Bytes(), bytes(question), bytes(question), words(scratch));
    expect(refuses(also, Refusal::calendar_or_date_out_of_range), "calendars and question, too");
}

} // namespace

int main() {
    check_listing();
    turn_listing();
    charge_listing();
    count_bollards();
    pair_two_logs();
    for (const AnswerCall answer_by : {dislogha::answer_by_loops, dislogha::answer_by_plan}) {
        answer_listing(answer_by);
        answer_reversed(answer_by);
        answer_by_column(answer_by);
        answer_hours(answer_by);
        answer_side_by_side(answer_by);
    }
    check_hours();
    portion_hours();
    check_first_open();
    check_dates();
    portion_listing();
    round_listing();
    check_rota();
    check_seats_apart();
    print_listing();
    check_scratch();
    check_longer_scratch();
    check_overlap();
    std::puts("cpp: ok");
}
