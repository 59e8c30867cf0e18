// Answering by plan in portions: a question alone, or at the seats of a rota.
#ifndef SHORE_PORTIONS_H
#define SHORE_PORTIONS_H

#include <array>
#include <vector>

#include "engine.h"

namespace shore {

// What a question has of its own while it is unfinished: its scratch, its answer, and what has been said of it. What it is asked over must stay as it is.
class Seat {
  public:
    // The number of the call that begins; 0, and the question is unfinished.
    std::uint64_t begin(const Packed &over, const Bytes &question, std::size_t answer_words) {
        scratch_.resize(dislogha::scratch_words);
        answer_.assign(answer_words, 0);
        offered_ = 0;
        const auto result = dislogha::begin(span_of(over.data), span_of(over.calendars), span_of(question), scratch());
        number_ = static_cast<std::uint64_t>(result.refusal);
        unfinished_ = number_ == 0;
        return number_;
    }
    void portion(const Packed &over, std::uint64_t rows) {
        hear(dislogha::portion(span_of(over.data), span_of(over.calendars), scratch(), answer(), rows));
    }
    void hear(const dislogha::Portion &said) {
        offered_ += said.offered;
        number_ = static_cast<std::uint64_t>(said.refusal);
        unfinished_ = said.unfinished();
        length_ = said.length;
    }
    // Gives the question up: then nothing is unfinished here.
    void leave() {
        scratch_.assign(scratch_.size(), 0);
        unfinished_ = false;
    }
    dislogha::Seat lent() { return {scratch(), answer()}; }
    bool unfinished() const { return unfinished_; }
    std::uint64_t offered() const { return offered_; }
    std::size_t room() const { return answer_.size(); }
    // What a single call would have given, once it is finished.
    Words words() const {
        const auto end = answer_.begin() + static_cast<std::ptrdiff_t>(number_ == 0 ? length_ : 0);
        return {number_, std::vector<std::int64_t>(answer_.begin(), end)};
    }

  private:
    dislogha::Words scratch() { return {scratch_.data(), scratch_.size()}; }
    dislogha::Answer answer() { return {answer_.data(), answer_.size()}; }

    std::vector<std::uint64_t> scratch_;
    std::vector<std::int64_t> answer_;
    std::uint64_t offered_ = 0;
    std::uint64_t number_ = 0;
    std::uint64_t length_ = 0;
    bool unfinished_ = false;
};

// The engine's four seats. Seats where nothing was begun are lent a scratch of 0.
class Rota {
  public:
    Rota() {
        for (Seat &seat : seats_) {
            seat.begin({}, {}, 0);
        }
    }
    Seat &seat(std::size_t at) { return seats_[at]; }
    // One round with a quota for each seat of the rota; gives what the engine said. Seats that were visited have heard what their portion said.
    dislogha::Round round(const Packed &over, const std::vector<std::uint64_t> &quotas) {
        const dislogha::Seat lent[] = {seats_[0].lent(), seats_[1].lent(), seats_[2].lent(), seats_[3].lent()};
        const auto round = dislogha::round(span_of(over.data), span_of(over.calendars), {quotas.data(), quotas.size()}, lent);
        for (std::size_t i = 0; i < round.visited; i++) {
            if (round.seats[i].refusal != dislogha::Refusal::nothing_unfinished) {
                seats_[i].hear(round.seats[i]);
            }
        }
        return round;
    }
    void leave() {
        for (Seat &seat : seats_) {
            seat.leave();
        }
    }

  private:
    std::array<Seat, dislogha::most_seats> seats_;
};

} // namespace shore

#endif
