// Dues on an answer (document 02, E6): a tariff as people type it, its bytes, a record of kind 22, and what an answer's ships owe by it. What a tariff may be
// and what is owed is the engine's word.
#ifndef SHORE_DUES_H
#define SHORE_DUES_H

#include <algorithm>
#include <map>
#include <optional>
#include <string>
#include <vector>

#include "ask.h"

namespace shore {

constexpr std::int64_t most_unsigned = INT64_C(4294967295);

struct TariffStep {
    // Centimetres, and cents per metre begun.
    std::uint32_t upper = 0;
    std::uint32_t rate = 0;
};

struct Tariff {
    std::vector<TariffStep> steps;
    // Cents.
    std::uint32_t minimum = 0;
};

inline Bytes packed(const Tariff &tariff) {
    Bytes bytes;
    put(bytes, static_cast<std::uint32_t>(1 + 8 * tariff.steps.size() + 4), 2);
    put(bytes, 22, 2);
    put(bytes, static_cast<std::uint32_t>(tariff.steps.size()), 1);
    for (const TariffStep &step : tariff.steps) {
        put(bytes, step.upper, 4);
        put(bytes, step.rate, 4);
    }
    put(bytes, tariff.minimum, 4);
    return bytes;
}

// A tariff as it is typed: `400 1000, 800 1500, minimum 3000`, an upper draught and a rate for each step. Without a minimum it is 0.
class TariffReading {
  public:
    explicit TariffReading(const std::string &typed) {
        std::size_t at = 0;
        while (good() && (at = typed.find_first_not_of(spaces, at)) != std::string::npos) {
            const std::size_t end = typed.find_first_of(spaces, at);
            word(typed.substr(at, end == std::string::npos ? end : end - at));
            at = end == std::string::npos ? typed.size() : end;
        }
        if (good() && awaits_ != Awaits::upper) {
            fault_ = awaits_ == Awaits::rate ? "the last step has no rate" : "behind minimum stand cents";
        }
    }
    const Tariff &tariff() const { return tariff_; }
    // What is not understood, if anything is.
    const std::string &fault() const { return fault_; }

  private:
    static constexpr const char *spaces = " \t\r\n,";
    enum class Awaits { upper, rate, minimum };

    bool good() const { return fault_.empty(); }
    void word(const std::string &word) {
        const std::int64_t value = unsigned_of(word, most_unsigned);
        if (word == "minimum" && awaits_ == Awaits::upper) {
            awaits_ = Awaits::minimum;
        } else if (value < 0 || value > most_unsigned) {
            fault_ = "'" + word + "' is no number of 0 to 4294967295: a step is an upper draught in cm and cents per metre begun, as 400 1000";
        } else {
            number(static_cast<std::uint32_t>(value));
        }
    }
    void number(std::uint32_t value) {
        if (awaits_ == Awaits::upper) {
            tariff_.steps.push_back({value, 0});
            awaits_ = Awaits::rate;
            return;
        }
        (awaits_ == Awaits::rate ? tariff_.steps.back().rate : tariff_.minimum) = value;
        awaits_ = Awaits::upper;
    }

    Tariff tariff_;
    Awaits awaits_ = Awaits::upper;
    std::string fault_;
};

// ------------------------------------------------------------------------------------------- refusals

// The engine's word on a tariff, 0 or 44: it is asked no question, and that is 22 where the tariff is good.
inline std::uint64_t tariff_number(const Tariff &tariff) {
    Engine judge;
    const std::uint64_t number = judge.with_tariff({}, {}, packed(tariff)).number;
    return number == static_cast<std::uint64_t>(dislogha::Refusal::tariff_out_of_range) ? number : 0;
}

// A part of a tariff that is wrong: a step, counted from 0, its upper draught or its rate; the minimum is behind the last step.
struct TariffFault {
    static constexpr std::size_t whole = SIZE_MAX;
    static constexpr std::size_t upper = 0;
    static constexpr std::size_t rate = 1;

    std::size_t step = whole;
    std::size_t cell = upper;
    std::string what;
};

// Which part of a tariff is refused: the engine is asked about each step alone, the minimum alone, then two steps at a time.
inline TariffFault refused_part(const Tariff &tariff) {
    const auto step = [&](std::size_t at) { return "step " + std::to_string(at + 1) + ", up to " + std::to_string(tariff.steps[at].upper) + " cm"; };
    for (std::size_t i = 0; i < tariff.steps.size(); i++) {
        if (tariff_number({{tariff.steps[i]}, 0}) != 0) {
            return {i, TariffFault::rate, step(i) + ", has a rate of " + std::to_string(tariff.steps[i].rate) + " cents"};
        }
    }
    if (tariff_number({{{0, 0}}, tariff.minimum}) != 0) {
        return {tariff.steps.size(), 0, "the minimum is " + std::to_string(tariff.minimum) + " cents"};
    }
    for (std::size_t i = 1; i < tariff.steps.size(); i++) {
        if (tariff_number({{tariff.steps[i - 1], tariff.steps[i]}, 0}) != 0) {
            return {i, TariffFault::upper, step(i) + ", is not above step " + std::to_string(i)};
        }
    }
    return {TariffFault::whole, 0, "it has " + std::to_string(tariff.steps.size()) + (tariff.steps.size() == 1 ? " step" : " steps")};
}

// bag{(number, truth)}.
inline std::string shape(const TypeOf &type) {
    if (type->sort == Sort::number || type->sort == Sort::truth) {
        return type->sort == Sort::number ? "number" : "truth";
    }
    std::string parts;
    for (const TypeOf &part : type->parts) {
        parts += (parts.empty() ? "" : ", ") + shape(part);
    }
    return type->sort == Sort::record ? "(" + parts + ")" : collection_name(type->collection) + "{" + parts + "}";
}

// The first row of an answer's ships and draughts that no step has.
inline std::string beyond_steps(const Tariff &tariff, const std::vector<std::int64_t> &words) {
    const std::int64_t last = tariff.steps.back().upper;
    for (std::size_t i = 1; i + 1 < words.size(); i += 2) {
        if (words[i + 1] < 0 || words[i + 1] > last) {
            return "ship " + std::to_string(words[i]) + " has " + std::to_string(words[i + 1]) + " cm" +
                   (words[i + 1] < 0 ? "" : ", and the last step ends at " + std::to_string(last) + " cm");
        }
    }
    return "";
}

// ------------------------------------------------------------------------------------------------ dues

struct Dues {
    // Where the answer is charged, 0; else the number that the engine gave, and what it is about.
    std::uint64_t number = 0;
    std::string what;
    // Ships and draughts; ships and cents.
    Words answer;
    Words owed;
    // What each row of the answer owes. A ship's rows may owe in another order than that of their draughts.
    std::vector<std::int64_t> cents;

    // Whether these are the bag that the engine wrote.
    bool same() const {
        std::vector<std::pair<std::int64_t, std::int64_t>> rows;
        for (std::size_t i = 0; i < cents.size(); i++) {
            rows.emplace_back(answer.words[2 * i + 1], cents[i]);
        }
        std::sort(rows.begin(), rows.end());
        std::vector<std::int64_t> words{static_cast<std::int64_t>(rows.size())};
        for (const auto &row : rows) {
            words.insert(words.end(), {row.first, row.second});
        }
        return words == owed.words;
    }
};

// What a draught owes: the engine is asked about a ship of that draught alone. Numbers of a question end at 2^31 - 1, draughts that are charged at 2^32 - 1.
class Charging {
  public:
    explicit Charging(const Tariff &tariff) : tariff_(packed(tariff)) {}

    std::int64_t cents(std::int64_t draught) {
        const auto found = known_.find(draught);
        if (found != known_.end()) {
            return found->second;
        }
        constexpr std::int64_t most = INT64_C(2147483647);
        std::string term;
        for (std::int64_t left = draught; left > 0 || term.empty(); left -= most) {
            term += (term.empty() ? "" : " + ") + std::to_string(left < most ? left : most);
        }
        const Question question("bag{ (0, " + term + ") }", Stored());
        return known_[draught] = engine_.with_tariff({}, question.bytes, tariff_).words.at(2);
    }

  private:
    Engine engine_;
    Bytes tariff_;
    std::map<std::int64_t, std::int64_t> known_;
};

// An understood question with a tariff, if there is one.
inline Dues dues_of(Engine &engine, const Reply &reply, const std::optional<Tariff> &tariff) {
    using dislogha::Refusal;
    Dues dues;
    const Bytes &question = reply.question->bytes;
    dues.owed = engine.with_tariff(reply.over, question, tariff ? packed(*tariff) : Bytes());
    dues.number = dues.owed.number;
    const auto refusal = static_cast<Refusal>(dues.number);
    if (dues.number == 0 || refusal == Refusal::draught_out_of_range) {
        dues.answer = engine.by_loops(reply.over, question);
    }
    if (dues.number == 0) {
        Charging charging(*tariff);
        for (std::size_t i = 2; i < dues.answer.words.size(); i += 2) {
            dues.cents.push_back(charging.cents(dues.answer.words[i]));
        }
    } else if (refusal == Refusal::tariff_out_of_range) {
        dues.what = tariff ? refused_part(*tariff).what : "there is none";
    } else if (refusal == Refusal::not_ships_and_draughts) {
        dues.what = "it gives " + shape(reply.type) + ", not bag{(number, number)}";
    } else if (refusal == Refusal::draught_out_of_range) {
        dues.what = beyond_steps(*tariff, dues.answer.words);
    }
    return dues;
}

} // namespace shore

#endif
