// An engine whose plan answers one more than it should in its last word: linked by -Wl,--wrap=dislogha_answer_by_plan,
// so that the shell is seen to compare the two ways.
#include "dislogha.h"

extern "C" {

dislogha_result __real_dislogha_answer_by_plan(const std::uint8_t *, std::uint64_t, const std::uint8_t *, std::uint64_t,
                                               const std::uint8_t *, std::uint64_t, std::uint64_t *, std::uint64_t,
                                               std::int64_t *, std::uint64_t) noexcept;

dislogha_result __wrap_dislogha_answer_by_plan(const std::uint8_t *data, std::uint64_t data_bytes, const std::uint8_t *calendars,
                                               std::uint64_t calendars_bytes, const std::uint8_t *question,
                                               std::uint64_t question_bytes, std::uint64_t *scratch, std::uint64_t scratch_words,
                                               std::int64_t *answer, std::uint64_t answer_words) noexcept {
    const auto result = __real_dislogha_answer_by_plan(data, data_bytes, calendars, calendars_bytes, question, question_bytes,
                                                       scratch, scratch_words, answer, answer_words);
    if (result.number == 0) {
        answer[result.length - 1]++;
    }
    return result;
}
}
