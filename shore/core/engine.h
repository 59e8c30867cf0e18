// The engine's calls over vectors, and what the desk lends to them.
#ifndef SHORE_ENGINE_H
#define SHORE_ENGINE_H

#include <string>
#include <vector>

#include "dislogha.h"
#include "stored.h"

namespace shore {

// How much is lent at most. A drill may lend less, and is refused by 31, 32, 33 or 52.
struct Lent {
    std::size_t scratch = dislogha::scratch_words;
    std::size_t answer = std::size_t{1} << 24;
    std::size_t lines = std::size_t{1} << 16;
    // Three records of paired logs: a position of each row, heads of 9 bytes, and four columns' bounds.
    std::size_t target = 2 * 4 * most_rows + 3 * 9 + 4 * 4;
};

struct Words {
    std::uint64_t number = 0;
    std::vector<std::int64_t> words;
};

struct Lines {
    std::uint64_t number = 0;
    std::string text;
};

inline dislogha::Bytes span_of(const Bytes &bytes) { return {bytes.data(), bytes.size()}; }

class Engine {
  public:
    Lent lent;

    std::uint64_t check(const Packed &over, const Bytes &question) {
        const auto result =
            dislogha::check(span_of(over.data), span_of(over.calendars), span_of(question), scratch());
        return static_cast<std::uint64_t>(result.refusal);
    }
    Words by_loops(const Packed &over, const Bytes &question) {
        return grown([&](dislogha::Answer answer) {
            return dislogha::answer_by_loops(span_of(over.data), span_of(over.calendars), span_of(question),
                                             scratch(), answer);
        });
    }
    Words by_plan(const Packed &over, const Bytes &question) {
        return grown([&](dislogha::Answer answer) {
            return dislogha::answer_by_plan(span_of(over.data), span_of(over.calendars), span_of(question),
                                            scratch(), answer);
        });
    }
    // The dues on an answer.
    Words with_tariff(const Packed &over, const Bytes &question, const Bytes &tariff) {
        return grown([&](dislogha::Answer answer) {
            return dislogha::answer_with_tariff(span_of(over.data), span_of(over.calendars), span_of(question), span_of(tariff),
                                                scratch(), answer);
        });
    }
    // Of a table's subsets of rows, how many give true and how many false.
    Words outages(const Packed &over, const Bytes &question, std::uint64_t table) {
        return grown([&](dislogha::Answer answer) {
            return dislogha::count_outages(span_of(over.data), span_of(over.calendars), span_of(question), table, scratch(), answer);
        });
    }
    Lines lines(const Packed &over, const Bytes &question) {
        Bytes buffer(lent.lines);
        const auto result = dislogha::plan_lines(span_of(over.data), span_of(over.calendars),
                                                 span_of(question), scratch(),
                                                 {buffer.data(), buffer.size()});
        return {static_cast<std::uint64_t>(result.refusal),
                std::string(buffer.begin(), buffer.begin() + static_cast<std::ptrdiff_t>(result.length))};
    }
    // The buffer that is tried behind one that was too short.
    static std::size_t larger(std::size_t words) { return words * 64; }
    static constexpr std::size_t first_answer = 4096;

  private:
    dislogha::Words scratch() {
        scratch_.resize(lent.scratch);
        return {scratch_.data(), scratch_.size()};
    }
    // A short buffer is tried first: few answers are long.
    template <class Call> Words grown(Call call) {
        for (std::size_t size = first_answer;; size = larger(size)) {
            std::vector<std::int64_t> answer(size < lent.answer ? size : lent.answer);
            const dislogha::Result result = call({answer.data(), answer.size()});
            if (result.refusal != dislogha::Refusal::answer_too_short || answer.size() == lent.answer) {
                answer.resize(result.length);
                return {static_cast<std::uint64_t>(result.refusal), answer};
            }
        }
    }

    std::vector<std::uint64_t> scratch_;
};

} // namespace shore

#endif
