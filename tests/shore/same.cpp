// The open calls on made inputs, with rubbish in all that is lent; of each call number, length, and one sum over all that it gave and left: every word of
// scratch and of the buffer, and the rubbish around both. Compiled for the archive, it goes from file to file; compiled for WebAssembly, `run` goes from
// memory to memory. What comes out must be the same.

#include <cstddef>
#include <cstdint>
#include <initializer_list>

#include "dislogha.h"

namespace {

using dislogha::Bytes;
using dislogha::Result;

constexpr std::size_t fence = 16;
constexpr std::size_t most_words = 4096;
constexpr std::size_t most_bytes = 32768;
constexpr std::size_t seats = dislogha::most_seats;

// All that was seen, in one number.
class Sum {
  public:
    void add(std::uint64_t word) noexcept {
        sum_ = (sum_ ^ word) * 0x9E3779B97F4A7C15;
        sum_ ^= sum_ >> 29;
    }
    std::uint64_t sum() const noexcept { return sum_; }

  private:
    std::uint64_t sum_ = 0;
};

// Units of which some are lent, with a fence before and behind them.
template <class T, std::size_t most> class Lent {
  public:
    dislogha::Span<T> lend(std::size_t count) noexcept {
        lent_ = count;
        for (std::size_t i = 0; i < words(); i++) {
            words_[i] = (i + 1) * 0xD1342543DE82EF95 | 1;
        }
        return again();
    }
    dislogha::Span<T> again() noexcept { return {reinterpret_cast<T *>(words_ + fence), lent_}; }
    void add_to(Sum &sum) const noexcept {
        for (std::size_t i = 0; i < words(); i++) {
            sum.add(words_[i]);
        }
    }

  private:
    std::size_t words() const noexcept { return (lent_ * sizeof(T) + 7) / 8 + 2 * fence; }

    std::size_t lent_ = 0;
    std::uint64_t words_[(most * sizeof(T) + 7) / 8 + 2 * fence];
};

Lent<std::uint64_t, dislogha::scratch_words> scratch[seats];
Lent<std::int64_t, most_words> answer[seats];
Lent<std::uint8_t, most_bytes> lines;

// What a call said, and the sum.
struct Said {
    std::uint64_t number;
    std::uint64_t length;
    std::uint64_t sum;
};

struct Input {
    Bytes data;
    Bytes calendars;
    Bytes question;
};

Said said(Result result, Sum sum) noexcept {
    return {result.outcome == dislogha::Outcome::overlapping ? 99
                                                             : static_cast<std::uint64_t>(result.refusal),
            result.length, sum.sum()};
}

template <class Buffer> Said left(Result result, const Buffer &buffer) noexcept {
    Sum sum;
    scratch[0].add_to(sum);
    buffer.add_to(sum);
    return said(result, sum);
}

Said check(const Input &input, std::size_t words) noexcept {
    const auto lent = scratch[0].lend(words);
    Sum sum;
    const Result result = dislogha::check(input.data, input.calendars, input.question, lent);
    scratch[0].add_to(sum);
    return said(result, sum);
}

template <class Call> Said answered(Call call, const Input &input, std::size_t words) noexcept {
    const auto lent = scratch[0].lend(dislogha::scratch_words);
    const auto buffer = answer[0].lend(words);
    return left(call(input.data, input.calendars, input.question, lent, buffer), answer[0]);
}

Said printed(const Input &input, std::size_t bytes) noexcept {
    const auto lent = scratch[0].lend(dislogha::scratch_words);
    const auto buffer = lines.lend(bytes);
    return left(dislogha::plan_lines(input.data, input.calendars, input.question, lent, buffer), lines);
}

void add(Sum &sum, const dislogha::Portion &portion) noexcept {
    sum.add(static_cast<std::uint64_t>(portion.refusal));
    sum.add(portion.length);
    sum.add(portion.finished ? 1 : 0);
    sum.add(portion.offered);
}

// In portions that grow, from one row on; what is between them counts, too.
Said in_portions(const Input &input) noexcept {
    const auto lent = scratch[0].lend(dislogha::scratch_words);
    const auto buffer = answer[0].lend(most_words);
    Sum sum;
    Result result = dislogha::begin(input.data, input.calendars, input.question, lent);
    scratch[0].add_to(sum);
    std::uint64_t rows = 1;
    while (result.outcome == dislogha::Outcome::answered) {
        const auto portion = dislogha::portion(input.data, input.calendars, scratch[0].again(), buffer, rows);
        add(sum, portion);
        if (!portion.unfinished()) {
            result = {portion.outcome, portion.refusal, portion.length};
            break;
        }
        if (rows < 100) {
            scratch[0].add_to(sum);
        }
        rows = rows * 3 > dislogha::most_rows ? dislogha::most_rows : rows * 3;
    }
    scratch[0].add_to(sum);
    answer[0].add_to(sum);
    return said(result, sum);
}

// The same question at all four seats, with quotas of their own, for some rounds.
Said in_rounds(const Input &input) noexcept {
    constexpr std::uint64_t quotas[seats] = {1, 7, 60, 1000};
    constexpr std::size_t rounds = 12;
    dislogha::Seat lent[seats];
    Sum sum;
    Result result{};
    for (std::size_t i = 0; i < seats; i++) {
        lent[i] = {scratch[i].lend(dislogha::scratch_words), answer[i].lend(64)};
        result = dislogha::begin(input.data, input.calendars, input.question, lent[i].scratch);
    }
    for (std::size_t i = 0; i < rounds && result.outcome == dislogha::Outcome::answered; i++) {
        const auto round = dislogha::round(input.data, input.calendars, quotas, lent);
        sum.add(static_cast<std::uint64_t>(round.refusal));
        for (const auto &seat : round.seats) {
            add(sum, seat);
        }
        result.length += round.visited;
        if (!round.unfinished()) {
            break;
        }
    }
    for (std::size_t i = 0; i < seats; i++) {
        scratch[i].add_to(sum);
        answer[i].add_to(sum);
    }
    return said(result, sum);
}

// Numbers made of an input's bytes, so that each has its own.
class Numbers {
  public:
    explicit Numbers(const Input &input) noexcept {
        for (const Bytes &bytes : {input.data, input.calendars, input.question}) {
            for (std::size_t i = 0; i < bytes.count(); i++) {
                sum_.add(bytes.first()[i]);
            }
        }
    }
    std::uint64_t next() noexcept {
        sum_.add(1);
        return sum_.sum();
    }

  private:
    Sum sum_;
};

// The first open minutes of each calendar, and of one that is not lent: about the years, and anywhere in 64 bits. How many were found is the length; their
// refusals are in the sum, and so are those of dates.
Said first_open(const Input &input) noexcept {
    Numbers numbers(input);
    Sum sum;
    Result result{};
    for (std::uint64_t i = 0; i < 20; i++) {
        const std::uint64_t any = numbers.next();
        const auto minute = static_cast<std::int64_t>(i % 4 == 0 ? any : any % 240000000) - (i % 4 == 0 ? 0 : 10000000);
        const auto told = dislogha::first_open(input.calendars, i % 5, minute);
        sum.add(static_cast<std::uint64_t>(told.refusal));
        sum.add(told.found ? 1 : 0);
        sum.add(told.minute);
        result.length += told.found ? 1 : 0;
    }
    return said(result, sum);
}

// Days as dates and back, some of them outside the years, and dates that may not exist.
Said dates(const Input &input) noexcept {
    Numbers numbers(input);
    Sum sum;
    Result result{};
    for (std::size_t i = 0; i < 20; i++) {
        const auto date = dislogha::date(i == 0 ? numbers.next() : numbers.next() % 150000);
        const auto again = dislogha::day_number(date.year, date.month, date.day);
        const std::uint64_t year = 1990 + numbers.next() % 420;
        const std::uint64_t month = numbers.next() % 14;
        const auto day = dislogha::day_number(year, month, numbers.next() % 33);
        for (const std::uint64_t word : {static_cast<std::uint64_t>(date.refusal), date.year, date.month, date.day,
                                         static_cast<std::uint64_t>(again.refusal), again.day,
                                         static_cast<std::uint64_t>(day.refusal), day.day}) {
            sum.add(word);
        }
        result.length += day.outcome == dislogha::Outcome::answered ? 1 : 0;
    }
    return said(result, sum);
}

// A tariff of 1 to 16 steps, some of which hold any draught; now and then one that is broken.
class Tariff {
  public:
    explicit Tariff(Numbers &numbers) noexcept {
        const std::uint64_t any = numbers.next();
        const std::uint64_t steps = any % 40 == 0 ? 17 : 1 + any % 16;
        std::uint64_t upper = any % 3 == 0 ? 0 : any % 900;
        put(1 + 8 * steps + 4, 2);
        put(22, 2);
        put(steps, 1);
        for (std::uint64_t i = 0; i < steps; i++) {
            const std::uint64_t more = numbers.next();
            put(i + 1 == steps && any % 2 == 0 ? 0xffffffff : upper, 4);
            put(more % 10000001, 4);
            upper += more % 50 == 0 ? 0 : 1 + more % 300;
        }
        put(any % 10000001, 4);
    }
    Said charged(const Input &input, std::size_t words) const noexcept {
        const auto lent = scratch[0].lend(dislogha::scratch_words);
        const auto buffer = answer[0].lend(words);
        return left(dislogha::answer_with_tariff(input.data, input.calendars, input.question, {bytes_, count_}, lent, buffer), answer[0]);
    }

  private:
    void put(std::uint64_t value, std::size_t count) noexcept {
        for (std::size_t i = 0; i < count; i++) {
            bytes_[count_++] = static_cast<std::uint8_t>(value >> (8 * i) & 255);
        }
    }

    std::size_t count_ = 0;
    std::uint8_t bytes_[9 + 8 * 17];
};

Said *charge(const Input &input, Said *out) noexcept {
    Numbers numbers(input);
    const Tariff tariff(numbers);
    const Said enough = *out++ = tariff.charged(input, most_words);
    *out++ = tariff.charged(input, enough.length);
    *out++ = tariff.charged(input, enough.length - (enough.length > 0));
    return out;
}

// Outages of one of the data's tables, and of one that no data has.
Said counted(const Input &input, std::uint64_t table, std::size_t words) noexcept {
    const auto lent = scratch[0].lend(dislogha::scratch_words);
    const auto buffer = answer[0].lend(words);
    return left(dislogha::count_outages(input.data, input.calendars, input.question, table, lent, buffer), answer[0]);
}

Said *count(const Input &input, Said *out) noexcept {
    Numbers numbers(input);
    const std::uint64_t table = numbers.next() % 4;
    *out++ = counted(input, table, most_words);
    *out++ = counted(input, table, 1);
    *out++ = counted(input, 8 + table, 2);
    return out;
}

Said written(Result result) noexcept {
    Sum sum;
    lines.add_to(sum);
    return said(result, sum);
}

// Two logs, which made inputs seldom have: lists of seconds in column 0, tables 2 and 5, the one by row, the other by column. Now and then a second falls.
class Logs {
  public:
    explicit Logs(Numbers &numbers) noexcept {
        const std::uint64_t any = numbers.next();
        first_ = any % 9 == 0 ? 8 : 2;
        tolerance_ = numbers.next() % (any % 4 == 0 ? 1 : any % 4 == 1 ? 60 : 4000);
        record(2, numbers);
        const std::size_t behind = count_;
        record(5, numbers);
        const auto turned = dislogha::table_to_columns({bytes_ + behind, count_ - behind}, {turned_, sizeof turned_});
        for (std::size_t i = 0; i < turned.length; i++) {
            bytes_[behind + i] = turned_[i];
        }
    }
    Said paired(std::size_t bytes) const noexcept {
        const auto target = lines.lend(bytes);
        return written(dislogha::pair_logs({bytes_, count_}, first_, 5, tolerance_, target));
    }

  private:
    void put(std::uint64_t value, std::size_t count) noexcept {
        for (std::size_t i = 0; i < count; i++) {
            bytes_[count_++] = static_cast<std::uint8_t>(value >> (8 * i) & 255);
        }
    }
    void record(std::uint64_t number, Numbers &numbers) noexcept {
        const std::uint64_t any = numbers.next();
        const std::uint64_t columns = 1 + any % 3;
        const std::uint64_t rows = numbers.next() % (any % 32 == 0 ? 1025 : 40);
        std::uint64_t second = any % 16 == 1 ? 0x80000000 : any % 1000;
        put(5 + 4 * columns * (rows + 1), 2);
        put(20, 2);
        put(number, 1);
        put(1, 1);
        put(columns, 1);
        put(rows, 2);
        for (std::uint64_t i = 0; i < columns; i++) {
            put(0x80000000, 4);
        }
        for (std::uint64_t i = 0; i < rows * columns; i++) {
            const std::uint64_t more = numbers.next();
            second += i % columns != 0 ? 0 : more % 2000 == 1 ? std::uint64_t{0} - 5 : more % 7 == 0 ? 0 : more % 300;
            put(i % columns == 0 ? second : more, 4);
        }
    }

    static constexpr std::size_t most_record = 13 + 4 * 3 * 1025;
    std::uint64_t first_;
    std::uint64_t tolerance_;
    std::size_t count_ = 0;
    std::uint8_t bytes_[2 * most_record];
    std::uint8_t turned_[most_record];
};

// The same call over an input's data, whatever its tables are, and over two logs.
Said paired(const Input &input, Numbers &numbers) noexcept {
    const std::uint64_t any = numbers.next();
    const auto target = lines.lend(most_bytes);
    return written(dislogha::pair_logs(input.data, any % 9, any / 9 % 9, any % 4000, target));
}

void pair(const Input &input, Said *out) noexcept {
    Numbers numbers(input);
    const Logs logs(numbers);
    *out++ = paired(input, numbers);
    const Said enough = *out++ = logs.paired(most_bytes);
    *out++ = logs.paired(enough.length);
    *out++ = logs.paired(enough.length - (enough.length > 0));
}

constexpr std::uint32_t made = 24;

// The calls with what is enough and what is not.
void make(const Input &input, Said *out) noexcept {
    *out++ = check(input, dislogha::scratch_words);
    *out++ = check(input, dislogha::scratch_words - 1);
    const Said loops = *out++ = answered(dislogha::answer_by_loops, input, most_words);
    const Said plan = *out++ = answered(dislogha::answer_by_plan, input, most_words);
    *out++ = answered(dislogha::answer_by_loops, input, loops.length);
    *out++ = answered(dislogha::answer_by_plan, input, plan.length);
    *out++ = answered(dislogha::answer_by_loops, input, loops.length - (loops.length > 0));
    *out++ = answered(dislogha::answer_by_plan, input, plan.length - (plan.length > 0));
    const Said shown = *out++ = printed(input, most_bytes);
    *out++ = printed(input, shown.length - (shown.length > 0));
    *out++ = in_portions(input);
    *out++ = in_rounds(input);
    *out++ = first_open(input);
    *out++ = dates(input);
    out = charge(input, out);
    out = count(input, out);
    pair(input, out);
}

// A slice behind four bytes of its length.
const std::uint8_t *slice(const std::uint8_t *at, Bytes &bytes) noexcept {
    std::size_t count = 0;
    for (std::size_t i = 0; i < 4; i++) {
        count |= static_cast<std::size_t>(at[i]) << (8 * i);
    }
    bytes = {at + 4, count};
    return at + 4 + count;
}

} // namespace

// How many words `run` writes.
extern "C" std::uint32_t words_for(const std::uint8_t *inputs, std::uint32_t bytes) {
    std::uint32_t words = 0;
    Bytes passed;
    for (const std::uint8_t *at = inputs; at != inputs + bytes; words += made * 3) {
        at = slice(slice(slice(at, passed), passed), passed);
    }
    return words;
}

// Goes through so many inputs, or all that there are, and writes three words for each call that is made; gives how many bytes the inputs had.
extern "C" std::uint32_t run(const std::uint8_t *inputs, std::uint32_t bytes, std::uint64_t *out, std::uint32_t most) {
    const std::uint8_t *at = inputs;
    for (std::uint32_t i = 0; i < most && at != inputs + bytes; i++) {
        Input input;
        at = slice(slice(slice(at, input.data), input.calendars), input.question);
        Said all[made];
        make(input, all);
        for (const Said &each : all) {
            *out++ = each.number;
            *out++ = each.length;
            *out++ = each.sum;
        }
    }
    return static_cast<std::uint32_t>(at - inputs);
}

#ifndef __wasm__
#include <fstream>
#include <iterator>
#include <vector>

int main(int, char **words) {
    std::ifstream in(words[1], std::ios::binary);
    const std::vector<char> inputs{std::istreambuf_iterator<char>(in), {}};
    const auto *first = reinterpret_cast<const std::uint8_t *>(inputs.data());
    const auto bytes = static_cast<std::uint32_t>(inputs.size());
    std::vector<std::uint64_t> out(words_for(first, bytes));
    run(first, bytes, out.data(), UINT32_MAX);
    std::ofstream(words[2], std::ios::binary)
        .write(reinterpret_cast<const char *>(out.data()), static_cast<std::streamsize>(out.size() * 8));
}
#endif
