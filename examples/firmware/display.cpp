#include "display.h"

#include <cinttypes>
#include <cstdio>

namespace display {

void show(const char *text) noexcept { std::printf("%.*s\n", width, text); }

void show(const char *label, std::int64_t first, std::int64_t second) noexcept {
    char left[width + 1], line[width + 1];
    const int labelled = std::snprintf(left, sizeof left, "%s %" PRId64, label, first);
    const int rest = labelled < width ? width - labelled - 1 : 0;
    const int whole = std::snprintf(line, sizeof line, "%s %*" PRId64, left, rest, second);
    show(labelled > width || whole > width ? "too wide to show" : line);
}

const char *words_of(dislogha::Refusal refusal) noexcept {
    using dislogha::Refusal;
    switch (refusal) {
    case Refusal::not_a_table:
        return "table cut or unknown";
    case Refusal::table_out_of_range:
        return "table out of range";
    case Refusal::too_many_tables:
        return "over 8 tables";
    case Refusal::table_number_out_of_range:
        return "table number over 7";
    case Refusal::table_number_used:
        return "table number twice";
    case Refusal::cell_beyond_bound:
        return "cell beyond bound";
    case Refusal::calendar_or_date_out_of_range:
        return "calendar or date bad";
    case Refusal::question_too_long:
        return "over 4096 bytes";
    case Refusal::broken_record:
        return "question damaged";
    case Refusal::too_deep_or_too_many_records:
        return "too deep or too many";
    case Refusal::name_does_not_hold:
        return "name unknown / twice";
    case Refusal::type_does_not_fit:
        return "wrong type or table";
    case Refusal::calendar_not_lent:
        return "calendar not lent";
    case Refusal::generator_not_allowed:
        return "generator not here";
    case Refusal::normal_form_too_large:
        return "question too large";
    case Refusal::number_out_of_bounds:
        return "number too large";
    case Refusal::tariff_out_of_range:
        return "tariff out of range";
    case Refusal::not_ships_and_draughts:
        return "no bag of ships";
    case Refusal::draught_out_of_range:
        return "draught beyond steps";
    case Refusal::neither_some_nor_all:
        return "no some, no all";
    case Refusal::outage_table_out_of_range:
        return "no table / over 12";
    case Refusal::scratch_too_short:
        return "scratch too short";
    case Refusal::answer_too_short:
        return "answer too long";
    case Refusal::lines_too_short:
        return "plan too long";
    case Refusal::rows_out_of_range:
        return "rows out of range";
    case Refusal::nothing_unfinished:
        return "nothing to go on";
    case Refusal::rota_out_of_range:
        return "rota out of range";
    case Refusal::target_too_short:
        return "target too short";
    case Refusal::not_a_log:
        return "no log, or it falls";
    case Refusal::tolerance_out_of_range:
        return "tolerance over 3600";
    }
    return "unknown refusal";
}

} // namespace display
