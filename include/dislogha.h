// The engine's open calls for C++17: the refusals of documents 01 and 02, spans, and a wrapper for
// each call.
//
// A call reads and writes only what it is lent, keeps nothing outside of that, and ends for
// every input (late, perhaps, where a scratch was changed between portions); nothing here
// allocates or throws. Several calls may run at once, each with a scratch and a buffer of its own.
//
// Questions are document 01's, with request E1's min (monoid 8) and request E2's choice (kind 19):
// three terms (else 22), a truth and then two numbers or two truths (else 25); it is the first of the
// two where the truth is true, else the second, and in the plan's lines (if c a b). Request E4's open
// minute (kind 21) is one byte of calendar and one term (else 22), a number (else 25), of a calendar that is
// lent (else 42): true where that minute lies in a window of its weekday in that calendar, else false,
// and in the plan's lines (open n e).
//
// Tables are document 01's, with request E9's number ahead of the collection byte and request E5's
// bounds between row count and cells. Behind length and kind 20 a record has one byte of number (0
// to 7), one of collection, one of columns, two of rows; four for each column's bound, unsigned and
// at most 2^31, which the magnitude of none of its cells exceeds (a tight one lets more questions
// pass 28); four for each cell, row by row, signed. Records may stand in any order, which changes no
// answer, and numbers may be skipped; a question that names a number that no record has is 25.
//
// A record may also be of kind 23 (request E10), the same table by column: header, bounds and length are
// those of kind 20, then come the columns one after another, each cell as its difference from the cell
// above (the first of a column from 0), wrapped at 32 bits and folded, so that 0, -1, 1, -2 are stored
// as 0, 1, 2, 3. Data may have both kinds; which one a table is in changes no answer and no refusal.
// `table_to_columns` and `table_to_rows` turn one record into the other kind.
//
// `answer_with_tariff` (request E6) charges the ships of an answer by a tariff, a record of kind 22: one byte
// of steps (1 to 16), the steps, a minimum charge in cents (at most 10,000,000). A step is an upper draught
// in centimetres, above that of the step before, and a rate in cents per metre begun (at most 10,000,000).
// Each of these numbers has four bytes, unsigned; nothing stands behind the record.
//
// `count_outages` (request E12) counts over every subset of a table's rows, of 12 at most, how many give true
// and how many false to a question that is a some or an all.
//
// `pair_logs` (request E11) pairs two list tables, a ship's log and a quay log, whose column 0 has seconds
// that do not fall, and writes three such records of kind 20: pairs and singles by their rows' positions.
//
// Calendars (request E4) are a span of their own in every call that reads or runs a question, `{}` where
// there are none: up to 4 records of kind 24, numbered by position from 0. A record has one byte of
// windows (0 to 32), then the windows, each one byte of weekday (0 Monday to 6 Sunday) and two bytes each
// of a first and an end minute of that day (0 to 1,440, the end after the first). A window includes its
// first minute and not its end; windows may overlap and stand in any order. Day 0 is 2000-01-01, a
// Saturday, and minute 0 its midnight; minutes before it and from 2400-01-01 on are never open.
// `first_open` seeks an open minute, `day_number` and `date` go from dates to day numbers and back.
//
// What the engine promises holds for buffers that do not overlap. A wrapper tests that first:
// where a span that is written shares a byte with another one, it makes no call, changes nothing
// and gives `Outcome::overlapping`. Data, calendars, question and tariff are only read, and may overlap one
// another.
#ifndef DISLOGHA_H
#define DISLOGHA_H

#include <cstddef>
#include <cstdint>

extern "C" {

// 0 and the length of what was written, or a refusal's number and length 0.
struct dislogha_result {
    std::uint64_t number;
    std::uint64_t length;
};

// What a portion says: 1 where its question is finished, else 0; the rows that it offered; number
// and length as in a result.
struct dislogha_portioned {
    std::uint64_t finished;
    std::uint64_t rows;
    std::uint64_t number;
    std::uint64_t length;
};

// What a round says: 0 or 49, and what the portion of each seat said, in their order; zeros of a
// seat that was not visited.
struct dislogha_round_result {
    std::uint64_t number;
    dislogha_portioned seats[4];
};

// 0, 1 and the first open minute, or 0 and zeros where there is none; or a refusal's number and zeros.
struct dislogha_first_open_result {
    std::uint64_t number;
    std::uint64_t found;
    std::uint64_t minute;
};

// 0 and the day number, or a refusal's number and 0.
struct dislogha_day_number_result {
    std::uint64_t number;
    std::uint64_t day;
};

// 0 and the date, or a refusal's number and zeros.
struct dislogha_date_result {
    std::uint64_t number;
    std::uint64_t year;
    std::uint64_t month;
    std::uint64_t day;
};

// A slice is a pointer and a count of its elements, of 64 bits on every target; an empty one may
// have any pointer.
dislogha_result dislogha_check(const std::uint8_t *data, std::uint64_t data_bytes,
                               const std::uint8_t *calendars, std::uint64_t calendars_bytes,
                               const std::uint8_t *question, std::uint64_t question_bytes,
                               std::uint64_t *scratch, std::uint64_t scratch_words) noexcept;

dislogha_result dislogha_answer_by_loops(const std::uint8_t *data, std::uint64_t data_bytes,
                                         const std::uint8_t *calendars, std::uint64_t calendars_bytes,
                                         const std::uint8_t *question, std::uint64_t question_bytes,
                                         std::uint64_t *scratch, std::uint64_t scratch_words,
                                         std::int64_t *answer, std::uint64_t answer_words) noexcept;

dislogha_result dislogha_answer_by_plan(const std::uint8_t *data, std::uint64_t data_bytes,
                                        const std::uint8_t *calendars, std::uint64_t calendars_bytes,
                                        const std::uint8_t *question, std::uint64_t question_bytes,
                                        std::uint64_t *scratch, std::uint64_t scratch_words,
                                        std::int64_t *answer, std::uint64_t answer_words) noexcept;

dislogha_result dislogha_answer_with_tariff(const std::uint8_t *data, std::uint64_t data_bytes,
                                            const std::uint8_t *calendars, std::uint64_t calendars_bytes,
                                            const std::uint8_t *question, std::uint64_t question_bytes,
                                            const std::uint8_t *tariff, std::uint64_t tariff_bytes,
                                            std::uint64_t *scratch, std::uint64_t scratch_words,
                                            std::int64_t *answer, std::uint64_t answer_words) noexcept;

dislogha_result dislogha_count_outages(const std::uint8_t *data, std::uint64_t data_bytes,
                                       const std::uint8_t *calendars, std::uint64_t calendars_bytes,
                                       const std::uint8_t *question, std::uint64_t question_bytes,
                                       std::uint64_t table, std::uint64_t *scratch,
                                       std::uint64_t scratch_words, std::int64_t *answer,
                                       std::uint64_t answer_words) noexcept;

dislogha_result dislogha_plan_lines(const std::uint8_t *data, std::uint64_t data_bytes,
                                    const std::uint8_t *calendars, std::uint64_t calendars_bytes,
                                    const std::uint8_t *question, std::uint64_t question_bytes,
                                    std::uint64_t *scratch, std::uint64_t scratch_words,
                                    std::uint8_t *lines, std::uint64_t lines_bytes) noexcept;

dislogha_result dislogha_begin(const std::uint8_t *data, std::uint64_t data_bytes,
                               const std::uint8_t *calendars, std::uint64_t calendars_bytes,
                               const std::uint8_t *question, std::uint64_t question_bytes,
                               std::uint64_t *scratch, std::uint64_t scratch_words) noexcept;

dislogha_portioned dislogha_portion(const std::uint8_t *data, std::uint64_t data_bytes,
                                    const std::uint8_t *calendars, std::uint64_t calendars_bytes,
                                    std::uint64_t *scratch, std::uint64_t scratch_words,
                                    std::int64_t *answer, std::uint64_t answer_words,
                                    std::uint64_t rows) noexcept;

// There are as many seats as quotas; what is lent for later ones is not looked at.
dislogha_round_result
dislogha_round(const std::uint8_t *data, std::uint64_t data_bytes, const std::uint8_t *calendars,
               std::uint64_t calendars_bytes, const std::uint64_t *quotas, std::uint64_t seats,
               std::uint64_t *scratch1, std::uint64_t scratch1_words, std::int64_t *answer1,
               std::uint64_t answer1_words, std::uint64_t *scratch2, std::uint64_t scratch2_words,
               std::int64_t *answer2, std::uint64_t answer2_words, std::uint64_t *scratch3,
               std::uint64_t scratch3_words, std::int64_t *answer3, std::uint64_t answer3_words,
               std::uint64_t *scratch4, std::uint64_t scratch4_words, std::int64_t *answer4,
               std::uint64_t answer4_words) noexcept;

dislogha_result dislogha_table_to_columns(const std::uint8_t *record, std::uint64_t record_bytes,
                                          std::uint8_t *target, std::uint64_t target_bytes) noexcept;

dislogha_result dislogha_table_to_rows(const std::uint8_t *record, std::uint64_t record_bytes,
                                       std::uint8_t *target, std::uint64_t target_bytes) noexcept;

dislogha_result dislogha_pair_logs(const std::uint8_t *data, std::uint64_t data_bytes,
                                   std::uint64_t first, std::uint64_t second,
                                   std::uint64_t tolerance, std::uint8_t *target,
                                   std::uint64_t target_bytes) noexcept;

dislogha_first_open_result dislogha_first_open(const std::uint8_t *calendars,
                                               std::uint64_t calendars_bytes, std::uint64_t calendar,
                                               std::int64_t minute) noexcept;

dislogha_day_number_result dislogha_day_number(std::uint64_t year, std::uint64_t month,
                                               std::uint64_t day) noexcept;

dislogha_date_result dislogha_date(std::uint64_t day) noexcept;
}

namespace dislogha {

// Words of scratch that a call asks for. They are 0 after every call that has them, save while a
// question is unfinished (`begin`, `portion`, `round`). Words behind them stay as they were.
constexpr std::size_t scratch_words = 2048;

// Bytes of stack that a call needs at most, 128 KiB, whatever it is asked and whatever it is lent, on
// x86-64 as the kit compiles it: worked out from the compiled frames, 116,296, and seen in the deepest
// questions that were made, 67,560 (`tests/stack/run`; docs/FIGURES.md). Another processor needs
// another figure.
constexpr std::size_t stack_bytes = 131072;

// Rows that a portion may offer.
constexpr std::uint64_t most_rows = 65535;

// Steps of a tariff, and cents that a rate or the minimum charge may be at most.
constexpr std::size_t most_steps = 16;
constexpr std::uint32_t most_cents = 10000000;

// Rows of a table whose outages are counted at most.
constexpr std::size_t most_outages = 12;

// Seconds that two rows of paired logs may be apart at most.
constexpr std::uint64_t most_tolerance = 3600;

// Seats of a rota, and rows that a seat may be offered in a round.
constexpr std::size_t most_seats = 4;
constexpr std::uint64_t most_quota = 1000;

enum class Outcome : std::uint8_t {
    // The call's number is 0.
    answered,
    // The call's number is one of `Refusal`.
    refused,
    // No call was made: a span that is written overlaps another one.
    overlapping,
};

// The numbers of documents 01 and 02.
enum class Refusal : std::uint64_t {
    // Whoever packs the data can cause:
    // A record cut short or of neither kind 20 nor 23; of `table_to_columns` and `table_to_rows` also
    // the other kind, bytes behind the record, or no byte at all.
    not_a_table = 11,
    // Collection, columns or rows outside their ranges, or a length that does not match.
    table_out_of_range = 12,
    // A ninth record.
    too_many_tables = 13,
    // A number above 7; at its record, after 12.
    table_number_out_of_range = 50,
    // A number that an earlier record has; at its record, after 12 and 50.
    table_number_used = 51,
    // A column's bound over 2^31, or a cell beyond its column's, of kind 23 the cell that comes out;
    // at its record, after 12, 50 and 51.
    cell_beyond_bound = 43,

    // Whoever packs the calendars, after all refusals of the data and before 21; and whoever names a day:
    // A calendar record that breaks its layout, or a fifth one, whether or not the question asks for it;
    // of `day_number` and `date` a date or day number that does not exist in the years 2000 to 2399.
    calendar_or_date_out_of_range = 41,

    // Whoever packs the tariff, before all refusals of the data:
    // A tariff that breaks its layout or is outside its ranges, bytes behind it, or none at all.
    tariff_out_of_range = 44,

    // Whoever types the question:
    // Over 4,096 bytes.
    question_too_long = 21,
    // A record that breaks the byte rules, none at all, or bytes left over (no record).
    broken_record = 22,
    // A 33rd level (the question is level 1) or a 257th record.
    too_deep_or_too_many_records = 23,
    // A name out of scope or bound twice.
    name_does_not_hold = 24,
    // A type, field or table that does not fit, or a table's number that no record has.
    type_does_not_fit = 25,
    // A calendar that is not lent; in a question over the whole of it, after 25 and before 26, of
    // `first_open` after 41.
    calendar_not_lent = 42,
    // A generator its monoid may not have.
    generator_not_allowed = 26,
    // A normal form over 512 nodes, each term, comprehension and qualifier being one, copies
    // counted.
    normal_form_too_large = 27,
    // A number in the normal form with bound over 2^62; a cell has the bound that its column
    // declares.
    number_out_of_bounds = 28,
    // Of `answer_with_tariff` a question that does not give a bag of records of two numbers; after 28.
    not_ships_and_draughts = 45,
    // Of `count_outages` a question whose monoid is neither some nor all; after 28.
    neither_some_nor_all = 55,
    // Of `count_outages` a table that is absent (a number above 7, too) or has more than 12 rows; after 55.
    outage_table_out_of_range = 56,
    // Of `answer_with_tariff` a draught of the answer below 0 or above the last step; after 32.
    draught_out_of_range = 46,

    // Whoever calls:
    // Scratch under 2,048 words. Scratch stays untouched.
    scratch_too_short = 31,
    // The answer buffer has fewer than G words, G being the answer's length in normal form with
    // each set written as a bag; of `count_outages` fewer than two.
    answer_too_short = 32,
    // The plan call's byte buffer is shorter than the plan's lines. Bytes behind the lines never
    // change.
    lines_too_short = 33,
    // A portion of 0 rows or above 65,535. Nothing is changed.
    rows_out_of_range = 47,
    // A portion where no question is unfinished (scratch 0). Nothing is changed.
    nothing_unfinished = 48,
    // A rota of no seat or above four, or a quota of 0 or above 1,000. Nothing is changed.
    rota_out_of_range = 49,
    // The target is shorter than the record, of `pair_logs` than the three records; after all other
    // refusals. Bytes behind what is written never change.
    target_too_short = 52,
    // A table to pair that is absent or not a list, or whose column 0 falls anywhere; after the data.
    not_a_log = 53,
    // A tolerance above 3,600; after 53 and before 52.
    tolerance_out_of_range = 54,
};

struct Result {
    Outcome outcome;
    // The number, where the call refused; else 0, which is no refusal.
    Refusal refusal;
    // How much was written, where the call answered (0 from the checker); else 0.
    std::uint64_t length;
};

struct Portion {
    // `answered` is said of an unfinished question, too.
    Outcome outcome;
    // The number, where the portion refused; else 0, which is no refusal.
    Refusal refusal;
    // The count of the answer's words, where the question is finished and answered; else 0.
    std::uint64_t length;
    // Whether this portion was its question's last, with an answer or with 32.
    bool finished;
    // Rows that it offered: as many as given, unless it was the last.
    std::uint64_t offered;

    // Whether another portion is due. After a refusal none is.
    constexpr bool unfinished() const noexcept { return outcome == Outcome::answered && !finished; }
};

struct FirstOpen {
    Outcome outcome;
    // The number, where the call refused; else 0, which is no refusal.
    Refusal refusal;
    // Whether there is an open minute at or after the given one, and the first of them; else 0.
    bool found;
    std::uint64_t minute;
};

struct DayNumber {
    Outcome outcome;
    // 41, where the date does not exist; else 0, which is no refusal.
    Refusal refusal;
    // Days from 2000-01-01 on.
    std::uint64_t day;
};

struct Date {
    Outcome outcome;
    // 41, where the day number does not exist; else 0, which is no refusal.
    Refusal refusal;
    // 2000 to 2399, months and days from 1.
    std::uint64_t year;
    std::uint64_t month;
    std::uint64_t day;
};

// Elements that belong to the caller.
template <class T> class Span {
  public:
    constexpr Span() noexcept : first_(nullptr), count_(0) {}
    constexpr Span(T *first, std::size_t count) noexcept : first_(first), count_(count) {}
    template <std::size_t N> constexpr Span(T (&array)[N]) noexcept : first_(array), count_(N) {}

    constexpr T *first() const noexcept { return first_; }
    constexpr std::size_t count() const noexcept { return count_; }

  private:
    T *first_;
    std::size_t count_;
};

using Bytes = Span<const std::uint8_t>;
using Words = Span<std::uint64_t>;
using Answer = Span<std::int64_t>;
using Text = Span<std::uint8_t>;
using Target = Span<std::uint8_t>;
using Quotas = Span<const std::uint64_t>;

// What a round is lent for a seat.
struct Seat {
    Words scratch;
    Answer answer;
};

struct Round {
    // `answered` where the seats were visited, whatever their portions said.
    Outcome outcome;
    // 49, where the round refused; else 0, which is no refusal.
    Refusal refusal;
    // How many seats were visited: those of the rota, or none.
    std::size_t visited;
    // What the portion of each said. Nothing is told of those that were not visited.
    Portion seats[most_seats];

    // Whether a seat that was visited is due another portion.
    constexpr bool unfinished() const noexcept {
        bool due = false;
        for (std::size_t i = 0; i < visited; i++) {
            due = due || seats[i].unfinished();
        }
        return due;
    }
};

// Whether two spans share a byte. An empty one shares none.
template <class A, class B> bool overlap(Span<A> a, Span<B> b) noexcept {
    const auto a_first = reinterpret_cast<std::uintptr_t>(a.first());
    const auto b_first = reinterpret_cast<std::uintptr_t>(b.first());
    const auto a_end = a_first + a.count() * sizeof(A);
    const auto b_end = b_first + b.count() * sizeof(B);
    return a.count() != 0 && b.count() != 0 && a_first < b_end && b_first < a_end;
}

// Whether a span that is written overlaps one of the others.
template <class T, class... Others>
bool overlaps(Span<T> written, Span<Others>... others) noexcept {
    return (overlap(written, others) || ...);
}

inline constexpr Result overlapping{Outcome::overlapping, Refusal{}, 0};

inline Result result_of(dislogha_result result) noexcept {
    return {result.number == 0 ? Outcome::answered : Outcome::refused,
            static_cast<Refusal>(result.number), result.length};
}

inline Portion portion_of(dislogha_portioned said) noexcept {
    const Result result = result_of({said.number, said.length});
    return {result.outcome, result.refusal, result.length, said.finished != 0, said.rows};
}

// A call that writes scratch alone.
template <class Call>
Result call_with(Call call, Bytes data, Bytes calendars, Bytes question, Words scratch) noexcept {
    if (overlaps(scratch, data, calendars, question)) {
        return overlapping;
    }
    return result_of(call(data.first(), data.count(), calendars.first(), calendars.count(),
                          question.first(), question.count(), scratch.first(), scratch.count()));
}

// The checker: `answered` and length 0 where the question is accepted over the tables and calendars.
inline Result check(Bytes data, Bytes calendars, Bytes question, Words scratch) noexcept {
    return call_with(dislogha_check, data, calendars, question, scratch);
}

// A call that writes into a buffer, too.
template <class Call, class T>
Result call_with(Call call, Bytes data, Bytes calendars, Bytes question, Words scratch,
                 Span<T> buffer) noexcept {
    if (overlaps(scratch, data, calendars, question, buffer) ||
        overlaps(buffer, data, calendars, question)) {
        return overlapping;
    }
    return result_of(call(data.first(), data.count(), calendars.first(), calendars.count(),
                          question.first(), question.count(), scratch.first(), scratch.count(),
                          buffer.first(), buffer.count()));
}

// The answer by loops: `answered` and the count of its words, which stand at the front of the
// answer buffer. The words from there up to G are 0, later ones as they were.
inline Result answer_by_loops(Bytes data, Bytes calendars, Bytes question, Words scratch,
                              Answer answer) noexcept {
    return call_with(dislogha_answer_by_loops, data, calendars, question, scratch, answer);
}

// The answer by plan: number, length and words are those by loops.
inline Result answer_by_plan(Bytes data, Bytes calendars, Bytes question, Words scratch,
                             Answer answer) noexcept {
    return call_with(dislogha_answer_by_plan, data, calendars, question, scratch, answer);
}

// The dues on an answer: the question gives a bag of records (ship, draught in centimetres), two numbers (a row
// of a table with two columns is such a record), and the bag (ship, cents) is written, ascending. A ship pays
// the rate of the first step whose upper draught is not below its own, times the metres begun, its draught
// divided by 100 and rounded up, or the minimum charge where that is greater. `answered` and the count of
// words, two for each ship and one more, which is G. The order of refusals: 31, 44, the data's, 41, 21 to 28,
// 45, 32, 46; at each of them the answer buffer is as it was.
inline Result answer_with_tariff(Bytes data, Bytes calendars, Bytes question, Bytes tariff, Words scratch,
                                 Answer answer) noexcept {
    if (overlaps(scratch, data, calendars, question, tariff, answer) ||
        overlaps(answer, data, calendars, question, tariff)) {
        return overlapping;
    }
    return result_of(dislogha_answer_with_tariff(
        data.first(), data.count(), calendars.first(), calendars.count(), question.first(),
        question.count(), tariff.first(), tariff.count(), scratch.first(), scratch.count(),
        answer.first(), answer.count()));
}

// How many outages are survived: over every subset of the rows of table `table`, the others being out, in how many
// the question gives true and in how many false. Rows are taken by position, so equal ones are two; the table may be
// one that the question does not name. `answered` and length 2: the counts, true first, which add up to 2 to the
// rows; later words are as they were. The order of refusals: 31, the data's, 41, 21 to 28, 55, 56, 32. It answers
// the question up to 4,096 times.
inline Result count_outages(Bytes data, Bytes calendars, Bytes question, std::uint64_t table, Words scratch,
                            Answer answer) noexcept {
    if (overlaps(scratch, data, calendars, question, answer) || overlaps(answer, data, calendars, question)) {
        return overlapping;
    }
    return result_of(dislogha_count_outages(data.first(), data.count(), calendars.first(), calendars.count(),
                                            question.first(), question.count(), table, scratch.first(),
                                            scratch.count(), answer.first(), answer.count()));
}

// The plan's lines, byte 10 after each: `answered` and the count of their bytes, which stand at the
// front of the buffer. Later bytes are as they were.
inline Result plan_lines(Bytes data, Bytes calendars, Bytes question, Words scratch,
                         Text lines) noexcept {
    return call_with(dislogha_plan_lines, data, calendars, question, scratch, lines);
}

// A call that turns a record into the other kind.
template <class Call> Result turn_with(Call call, Bytes record, Target target) noexcept {
    if (overlaps(target, record)) {
        return overlapping;
    }
    return result_of(call(record.first(), record.count(), target.first(), target.count()));
}

// A record of kind 20 as one of kind 23: `answered` and the count of its bytes, as many as the record
// has, which stand at the front of the target. Later bytes are as they were, and at a refusal all are.
// The refusals are the record's own 11, 12, 50 and 43, then 52. No scratch is lent.
inline Result table_to_columns(Bytes record, Target target) noexcept {
    return turn_with(dislogha_table_to_columns, record, target);
}

// A record of kind 23 as one of kind 20. Each of the two undoes the other.
inline Result table_to_rows(Bytes record, Target target) noexcept {
    return turn_with(dislogha_table_to_rows, record, target);
}

// Pairs tables `first` and `second` of the data, which may be one: the earliest row left of each pair where
// their seconds are at most `tolerance` apart, else the earlier is single; once one log is used up, the
// other's rest is single. No pairing within the tolerance has more pairs. `answered` and the count of the
// bytes of three list records of kind 20, one behind the other at the front of the target, 43 and four for
// each row of both logs: table 5, pairs of positions (from 0) in the first and the second log; table 6,
// single positions of the first; table 7, of the second; each in time order, every column bound 1,023.
// Later bytes are as they were, and at a refusal all are. The refusals are the data's, then 53, 54 and 52.
// No scratch is lent.
inline Result pair_logs(Bytes data, std::uint64_t first, std::uint64_t second, std::uint64_t tolerance,
                        Target target) noexcept {
    if (overlaps(target, data)) {
        return overlapping;
    }
    return result_of(dislogha_pair_logs(data.first(), data.count(), first, second, tolerance,
                                        target.first(), target.count()));
}

// Begins to answer by plan in portions: 31 and all refusals to 28, or `answered` and length 0; then
// scratch holds the unfinished question. Scratch may hold anything before: a question that is
// unfinished in it is given up.
//
// Each portion offers so many rows, each a pair of a stream row and a table row, and a question is
// offered its rows twice: while G is found, and while the answer is written. So with
//
//     std::uint64_t rows = 0;
//     auto portion = dislogha::Portion{};
//     if (dislogha::begin(data, calendars, question, scratch).outcome ==
//         dislogha::Outcome::answered) {
//         do {
//             portion = dislogha::portion(data, calendars, scratch, answer, 1000);
//             show_progress(rows += portion.offered);
//         } while (portion.unfinished());
//     }
//
// `portion` says in the end what `answer_by_plan` would have said, and the words are the same. In
// between another question may run over the same data and calendars, with a scratch and an answer
// buffer of its own. What is lent must be as the last portion left it (at another address, if need
// be): else only safety and an end are promised. (Of the calendars scratch has what it needs.)
inline Result begin(Bytes data, Bytes calendars, Bytes question, Words scratch) noexcept {
    return call_with(dislogha_begin, data, calendars, question, scratch);
}

// Offers exactly `rows` rows, 1 to 65,535, to the unfinished question in scratch, or all that
// remain, if no more. While it is unfinished the answer buffer has no promised content; once it is
// finished, with an answer or with 32, scratch is 0.
inline Portion portion(Bytes data, Bytes calendars, Words scratch, Answer answer,
                       std::uint64_t rows) noexcept {
    if (overlaps(scratch, data, calendars, answer) || overlaps(answer, data, calendars)) {
        return {Outcome::overlapping, Refusal{}, 0, false, 0};
    }
    return portion_of(dislogha_portion(data.first(), data.count(), calendars.first(),
                                       calendars.count(), scratch.first(), scratch.count(),
                                       answer.first(), answer.count(), rows));
}

// Whether what is written at a seat overlaps one of the others.
template <class... Others> bool overlaps(const Seat &seat, Span<Others>... others) noexcept {
    return overlaps(seat.scratch, others...) || overlaps(seat.answer, others...);
}

// A round over a rota of 1 to 4 seats, as many as there are quotas, each of 1 to 1,000 rows. It
// visits the seats in their order and offers each its quota, as `portion` does with its scratch and
// answer; what is typed at the others does not matter. 31 (also where nothing is lent) and 48 are
// told of one seat alone, which stays unchanged, and so do seats behind the rota.
//
// A question that is offered n rows ends in n divided by its quota, rounded up, rounds, and in one
// where it has none. So four trainees share an engine:
//
//     static std::uint64_t scratch[4][dislogha::scratch_words]; // 0: no question is unfinished
//     static std::int64_t answer[4][64];
//     const dislogha::Seat seats[] = {
//         {scratch[0], answer[0]}, {scratch[1], answer[1]},
//         {scratch[2], answer[2]}, {scratch[3], answer[3]}};
//     const std::uint64_t quotas[] = {100, 100, 100, 1000};
//     while (open()) {
//         for (std::size_t i = 0; i < 4; i++) {
//             if (typed_at(i)) {
//                 show(i, dislogha::begin(data, calendars, question_of(i), scratch[i]));
//             }
//         }
//         const auto round = dislogha::round(data, calendars, quotas, seats);
//         for (std::size_t i = 0; i < round.visited; i++) {
//             if (round.seats[i].finished) {
//                 show(i, round.seats[i], answer[i]);
//             }
//         }
//     }
inline Round round(Bytes data, Bytes calendars, Quotas quotas, Span<const Seat> seats) noexcept {
    Seat lent[most_seats];
    Round told{Outcome::overlapping, Refusal{}, 0, {}};
    for (std::size_t i = 0; i < most_seats && i < seats.count(); i++) {
        lent[i] = seats.first()[i];
        bool shared =
            overlap(lent[i].scratch, lent[i].answer) || overlaps(lent[i], data, calendars, quotas);
        for (std::size_t j = 0; j < i; j++) {
            shared = shared || overlaps(lent[i], lent[j].scratch, lent[j].answer);
        }
        if (shared) {
            return told;
        }
    }
    const dislogha_round_result said =
        dislogha_round(data.first(), data.count(), calendars.first(), calendars.count(),
                       quotas.first(), quotas.count(), lent[0].scratch.first(),
                       lent[0].scratch.count(), lent[0].answer.first(), lent[0].answer.count(),
                       lent[1].scratch.first(), lent[1].scratch.count(), lent[1].answer.first(),
                       lent[1].answer.count(), lent[2].scratch.first(), lent[2].scratch.count(),
                       lent[2].answer.first(), lent[2].answer.count(), lent[3].scratch.first(),
                       lent[3].scratch.count(), lent[3].answer.first(), lent[3].answer.count());
    const Result result = result_of({said.number, 0});
    told.outcome = result.outcome;
    told.refusal = result.refusal;
    told.visited = said.number == 0 ? quotas.count() : 0;
    for (std::size_t i = 0; i < told.visited; i++) {
        told.seats[i] = portion_of(said.seats[i]);
    }
    return told;
}

// The first open minute of a calendar at or after a signed one: `answered`, and whether there is one. The
// calendars are judged whole (41) before the one that is asked for is sought (42).
inline FirstOpen first_open(Bytes calendars, std::uint64_t calendar, std::int64_t minute) noexcept {
    const auto told = dislogha_first_open(calendars.first(), calendars.count(), calendar, minute);
    const Result result = result_of({told.number, 0});
    return {result.outcome, result.refusal, told.found != 0, told.minute};
}

// The day number of a date of the years 2000 to 2399, months and days from 1. Minute 0 of that day is its
// number times 1,440.
inline DayNumber day_number(std::uint64_t year, std::uint64_t month, std::uint64_t day) noexcept {
    const auto told = dislogha_day_number(year, month, day);
    const Result result = result_of({told.number, 0});
    return {result.outcome, result.refusal, told.day};
}

// The date of a day number, 0 to 146,096. Each of the two undoes the other.
inline Date date(std::uint64_t day) noexcept {
    const auto told = dislogha_date(day);
    const Result result = result_of({told.number, 0});
    return {result.outcome, result.refusal, told.year, told.month, told.day};
}

} // namespace dislogha

#endif
