// How firmware asks: buffers of its own, the question answered both ways and compared, the answer
// or the refusal on the display; then a long question in portions while a short one runs, and what
// lies behind a lock while it is open, and when it opens next. Nothing is allocated, and nothing is
// thrown.

#include <algorithm>
#include <cinttypes>
#include <cstdio>
#include <iterator>

#include "dislogha.h"
#include "display.h"
#include "listing.h"

namespace {

using dislogha::Answer;
using dislogha::Bytes;
using dislogha::Outcome;
using dislogha::Portion;
using dislogha::Result;

std::uint64_t scratch[dislogha::scratch_words];
std::int64_t by_loops[16];
std::int64_t by_plan[16];
char printed[256];

// Whether both ways gave the same outcome, length and words, the words behind the answer included.
bool same(Result loops, Result plan) noexcept {
    return loops.outcome == plan.outcome && loops.refusal == plan.refusal &&
           loops.length == plan.length &&
           std::equal(std::begin(by_loops), std::end(by_loops), std::begin(by_plan));
}

// A collection of pairs: its count, then a berth and the sum of its bollards for each.
void show_berths(const std::int64_t *answer) noexcept {
    for (std::int64_t berth = 0; berth < answer[0]; berth++) {
        display::show("berth", answer[1 + 2 * berth], answer[2 + 2 * berth]);
    }
}

// Asks both ways with as many words for the answer, and shows what comes of it.
bool ask(Bytes data, Bytes question, std::size_t words) noexcept {
    std::fill(std::begin(by_loops), std::end(by_loops), -1);
    std::fill(std::begin(by_plan), std::end(by_plan), -1);
    const Result loops =
        dislogha::answer_by_loops(data, {}, question, scratch, Answer(by_loops, words));
    const Result plan =
        dislogha::answer_by_plan(data, {}, question, scratch, Answer(by_plan, words));
    if (!same(loops, plan)) {
        display::show("answers differ");
        return false;
    }
    switch (plan.outcome) {
    case Outcome::answered:
        show_berths(by_plan);
        return true;
    case Outcome::refused:
        display::show(display::words_of(plan.refusal));
        return true;
    case Outcome::overlapping:
        display::show("buffers overlap");
        return true;
    }
    return false;
}

// A question that is answered in portions, with a scratch and a buffer of its own.
class Asked {
  public:
    // `name` is shown with its progress, `show_answer` once it is answered.
    Asked(const char *name, std::uint64_t rows, void (*show_answer)(const std::int64_t *)) noexcept
        : name_(name), rows_(rows), show_answer_(show_answer) {}

    bool begin(Bytes data, Bytes question) noexcept {
        portion_ = Portion{};
        offered_ = 0;
        return dislogha::begin(data, {}, question, scratch_).outcome == Outcome::answered;
    }

    bool unfinished() const noexcept { return portion_.unfinished(); }

    // Offers the next rows, and shows how many were offered so far, or what came of the question.
    void go_on(Bytes data) noexcept {
        portion_ = dislogha::portion(data, {}, scratch_, answer_, rows_);
        offered_ += portion_.offered;
        if (portion_.unfinished()) {
            display::show(name_, static_cast<std::int64_t>(rows_),
                          static_cast<std::int64_t>(offered_));
        } else if (portion_.outcome == Outcome::answered) {
            show_answer_(answer_);
        } else {
            display::show(display::words_of(portion_.refusal));
        }
    }

  private:
    const char *name_;
    std::uint64_t rows_;
    void (*show_answer_)(const std::int64_t *);
    Portion portion_{};
    std::uint64_t offered_ = 0;
    std::uint64_t scratch_[dislogha::scratch_words] = {};
    std::int64_t answer_[16] = {};
};

void show_ways(const std::int64_t *answer) noexcept { display::show("lines", 6, answer[0]); }

Asked ways("ways", 60, show_ways);
Asked berths("berths", 5, show_berths);

// Both in turn until each has ended: the short one does not wait for the long one.
bool ask_at_once(Bytes data) noexcept {
    if (!ways.begin(data, listing::ways_question) || !berths.begin(data, listing::question)) {
        return false;
    }
    while (ways.unfinished() || berths.unfinished()) {
        for (Asked *asked : {&ways, &berths}) {
            if (asked->unfinished()) {
                asked->go_on(data);
            }
        }
    }
    return true;
}

// A minute as date and time of day.
void show_minute(std::uint64_t minute) noexcept {
    constexpr std::uint64_t minutes_of_day = 1440;
    const dislogha::Date date = dislogha::date(minute / minutes_of_day);
    const std::uint64_t of_day = minute % minutes_of_day;
    char line[128];
    std::snprintf(line, sizeof line,
                  "%04" PRIu64 "-%02" PRIu64 "-%02" PRIu64 " %02" PRIu64 ":%02" PRIu64, date.year,
                  date.month, date.day, of_day / 60, of_day % 60);
    display::show(line);
}

// The metres of berths behind the lock while it is open, when it opens next once it has closed, and
// what comes of the same question where its hours are not lent.
bool ask_hours(Bytes data, Bytes hours) noexcept {
    const Bytes question(listing::hours_question);
    const Result metres = dislogha::answer_by_plan(data, hours, question, scratch, by_plan);
    const dislogha::FirstOpen next = dislogha::first_open(hours, 0, 720);
    if (metres.outcome != Outcome::answered || !next.found) {
        return false;
    }
    display::show("metres", 480, by_plan[0]);
    show_minute(next.minute);
    display::show(display::words_of(dislogha::check(data, {}, question, scratch).refusal));
    return true;
}

} // namespace

int main() {
    std::setvbuf(stdout, printed, _IOFBF, sizeof printed);
    const Bytes tables(listing::tables), question(listing::question);
    const bool agreed = ask(tables, question, std::size(by_loops)) &&
                        ask(Bytes(), question, std::size(by_loops)) && ask(tables, question, 4) &&
                        ask_at_once(tables) && ask_hours(tables, listing::hours);
    return agreed ? 0 : 1;
}
