// Made questions through the text and back, and their refusals placed.
//
// Every made question that keeps the byte rules has a text, and the text gives the same bytes: by numbers
// alone, and with the names of tables, columns and calendars. Every one that the engine refuses by 24 to 28 or 42 is
// placed, inside its text, and the part that is blamed gets that number alone; mostly that is less than the question. What
// is refused by 22 has no text.
//
// Of accepted questions that are offered few rows, the rows between the operators are held against the engine's
// own count: a join or outer is offered each row without a pad with each row of its table, and portions say how
// many rows that is. An outer keeps every row, and a nest has as many as there were before its outers.
//
// Calendars that are lent have a text, too: read again, it gives their bytes.
//
// Its argument: a file of made inputs. It fails where anything differs, where a number from 21 to 28 or 42 was not
// met, where fewer than half of the inputs were compared, and where rows were for fewer than one in twenty.
#include <cstdio>
#include <cstring>
#include <map>
#include <memory>

#include "ask.h"
#include "between.h"
#include "hexadecimal.h"
#include "records.h"

using namespace shore;

namespace {

struct Counts {
    std::size_t texts = 0;
    std::size_t engine_sized = 0;
    std::size_t named = 0;
    std::size_t asked = 0;
    std::size_t most_asked = 0;
    std::size_t longest = 0;
    std::size_t calendars = 0;
    std::size_t shown = 0;
    std::size_t not_shown = 0;
    std::size_t faults = 0;
    std::map<std::uint64_t, std::size_t> numbers;
    std::map<std::uint64_t, std::size_t> placed;
    // Of these, where a part of the question is blamed.
    std::map<std::uint64_t, std::size_t> parts;
};

void fault(Counts &counts, const char *what, const std::string &text) {
    if (counts.faults++ < 10) {
        std::printf("%s: %.400s\n", what, text.c_str());
    }
}

// Names for what is lent, well formed: letters, so that a column is never called by its number.
Stored stored_of(Engine &engine, const Packed &over) {
    Stored stored{unpacked(engine, over.data).stored.tables, unpacked_calendars(over.calendars).stored.calendars};
    for (Table &table : stored.tables) {
        table.name = "table_" + std::to_string(table.number);
        for (std::size_t i = 0; i < table.columns.size(); i++) {
            table.columns[i] = std::string("column_") + static_cast<char>('a' + i);
        }
    }
    return stored;
}

// The text of a calendar's hours gives its bytes again.
void hold_calendars(const Calendars &calendars, Counts &counts) {
    for (const Calendar &calendar : calendars) {
        const WindowsReading read(windows_text(calendar.windows));
        counts.calendars++;
        if (!read.fault().empty() || packed(Calendar{"", read.windows()}) != packed(calendar)) {
            fault(counts, "other hours", windows_text(calendar.windows));
        }
    }
}

// The text of bytes gives them again.
bool same(const Bytes &question, const Stored &stored, std::string &written, std::unique_ptr<Question> &read) {
    text::Fault broken;
    written = text_of(question, stored, broken);
    read = std::make_unique<Question>(written, stored);
    return broken.none() && read->understood() && read->bytes == question;
}

// The header as firmware has it, with the engine's sizes.
bool same_engine_sized(const Bytes &question) {
    static char written[16384];
    const text::Schema none;
    const auto printed = text::printed(question.data(), question.size(), none, written, sizeof written);
    const auto typed = text::typed({written, printed.size}, none);
    return printed.fault.none() && typed.understood() && typed.size == question.size() &&
           std::memcmp(typed.bytes, question.data(), typed.size) == 0;
}

void place(Engine &engine, const Made &made, const Question &question, std::uint64_t number, Counts &counts) {
    const Located located = Locating(engine, made.over, question, number).located();
    counts.asked += located.asked;
    counts.most_asked = located.asked > counts.most_asked ? located.asked : counts.most_asked;
    const bool inside = located.at.from < located.at.to && located.at.to <= question.typed.size();
    if (!inside || engine.check(made.over, located.alone) != number) {
        fault(counts, "not placed", question.typed);
        return;
    }
    counts.placed[number]++;
    counts.parts[number] += located.at.to - located.at.from < question.typed.size() ? 1 : 0;
}

// The rows that a pass offers, counted by portions; the answer's buffer is large enough for two passes.
std::uint64_t offered(const Made &made) {
    std::vector<std::uint64_t> scratch(dislogha::scratch_words);
    std::vector<std::int64_t> answer(1 << 16);
    const dislogha::Words words{scratch.data(), scratch.size()};
    const auto data = span_of(made.over.data);
    const auto calendars = span_of(made.over.calendars);
    dislogha::begin(data, calendars, span_of(made.question), words);
    std::uint64_t rows = 0;
    dislogha::Portion portion;
    do {
        portion = dislogha::portion(data, calendars, words, {answer.data(), answer.size()}, dislogha::most_rows);
        rows += portion.offered;
    } while (portion.unfinished());
    return rows / 2;
}

bool padded(const std::vector<std::string> &row) {
    for (const std::string &cell : row) {
        if (cell == "pad") {
            return true;
        }
    }
    return false;
}

// The same, counted in the rows that are shown between the operators.
std::uint64_t offered(const std::vector<Step> &steps, const std::vector<Stage> &stages, const Tables &tables) {
    std::uint64_t total = 0;
    std::uint64_t unpadded = 1;
    for (std::size_t i = 0; i < stages.size(); i++) {
        const Step &step = steps[i + 1];
        if (step.name != "nest") {
            const Table *table = table_numbered(tables, step.table);
            total += unpadded * (table == nullptr ? 1 : table->rows.size());
        }
        unpadded = 0;
        for (const auto &row : stages[i].rows) {
            unpadded += padded(row) ? 0 : 1;
        }
    }
    return total;
}

// How often each row stands in a stage, its last places left out.
std::map<std::vector<std::string>, std::size_t> counted_rows(const Stage &stage, std::size_t places) {
    std::map<std::vector<std::string>, std::size_t> rows;
    for (const auto &row : stage.rows) {
        rows[std::vector<std::string>(row.begin(), row.begin() + static_cast<std::ptrdiff_t>(places))]++;
    }
    return rows;
}

// An outer keeps every row, and a nest has as many as there were before its outers.
bool kept(const std::vector<Step> &steps, const std::vector<Stage> &stages) {
    std::vector<std::size_t> widths{1};
    for (std::size_t i = 0; i < stages.size(); i++) {
        const Step &step = steps[i + 1];
        if (step.name == "nest") {
            widths.resize(step.kept + 1);
            if (stages[i].rows.size() != widths.back()) {
                return false;
            }
        } else if (step.name == "outer") {
            const std::size_t places = step.labels.size() - 1;
            const auto after = counted_rows(stages[i], places);
            for (const auto &row : counted_rows(stages[i - 1], places)) {
                if (after.count(row.first) == 0 || after.at(row.first) < row.second) {
                    return false;
                }
            }
        }
        widths.push_back(stages[i].rows.size());
    }
    return true;
}

void hold_rows(Engine &engine, const Made &made, const Stored &stored, Counts &counts) {
    constexpr double few = 500;
    const Lines lines = engine.lines(made.over, made.question);
    const auto steps = plan_of(lines.text, stored.tables);
    if (most_offered(steps, stored.tables) > few) {
        return;
    }
    const Between between(engine, steps, stored);
    for (const Stage &stage : between.stages()) {
        if (!stage.shown()) {
            counts.not_shown++;
            return;
        }
    }
    counts.shown++;
    if (!kept(steps, between.stages()) || offered(steps, between.stages(), stored.tables) != offered(made)) {
        fault(counts, "other rows between operators", lines.text);
    }
    in_words(steps, stored);
}

void hold(Engine &engine, const Made &made, Counts &counts) {
    const std::uint64_t number = engine.check(made.over, made.question);
    counts.numbers[number]++;
    std::string written;
    std::unique_ptr<Question> read;
    const bool good = same(made.question, {}, written, read);
    if (number == breaks_bytes && good) {
        fault(counts, "22, and there is a text", written);
    }
    // Of data or calendars that are refused nothing is known of the question.
    const bool judged =
        number == 0 || (number >= too_long && number <= last_of_question && number != breaks_bytes) || number == not_lent;
    if (!judged || (number == too_long && !good && made.question.size() > Sizes::bytes)) {
        return;
    }
    counts.texts++;
    counts.longest = written.size() > counts.longest ? written.size() : counts.longest;
    if (!good) {
        // What is refused by its size may break the byte rules behind that.
        if (number == too_long || number == too_deep) {
            counts.texts--;
        } else {
            fault(counts, "another question", written);
        }
        return;
    }
    if (number != too_long && number != too_deep) {
        counts.engine_sized++;
        if (!same_engine_sized(made.question)) {
            fault(counts, "another question by the engine's sizes", written);
        }
    }
    std::string by_names;
    std::unique_ptr<Question> named;
    const Stored stored = stored_of(engine, made.over);
    hold_calendars(stored.calendars, counts);
    if (!same(made.question, stored, by_names, named)) {
        fault(counts, "another question by names", by_names);
    }
    if (number == 0) {
        hold_rows(engine, made, stored, counts);
    }
    counts.named += by_names != written ? 1 : 0;
    if (has_a_place(number)) {
        place(engine, made, *named, number, counts);
    }
}

} // namespace

int main(int count, char **arguments) {
    if (count != 2) {
        return 2;
    }
    const auto all = made_of(arguments[1]);
    Engine engine;
    Counts counts;
    for (const Made &made : all) {
        hold(engine, made, counts);
    }
    for (std::uint64_t number = too_long; number <= not_lent; number = number == last_of_question ? not_lent : number + 1) {
        if (counts.numbers[number] == 0) {
            fault(counts, "a number that was not met", std::to_string(number));
        }
        if (has_a_place(number) && counts.placed[number] != counts.numbers[number]) {
            fault(counts, "a number that was not always placed", std::to_string(number));
        }
        if (has_a_place(number) && 2 * counts.parts[number] <= counts.placed[number]) {
            fault(counts, "a number for which mostly the whole question is blamed", std::to_string(number));
        }
        std::printf("%s%llu: %zu", number == too_long ? "numbers " : ", ", static_cast<unsigned long long>(number),
                    counts.numbers[number]);
        if (has_a_place(number)) {
            std::printf(" (%zu at a part)", counts.parts[number]);
        }
    }
    std::printf("\nmade: %zu inputs, %zu texts and back, %zu by the engine's sizes, %zu with names, longest %zu characters, "
                "%zu calendars; places: %zu checks, at most %zu for one; rows between operators of %zu, not shown of %zu; "
                "%zu faults\n",
                all.size(), counts.texts, counts.engine_sized, counts.named, counts.longest, counts.calendars, counts.asked,
                counts.most_asked, counts.shown, counts.not_shown, counts.faults);
    const bool enough = 2 * counts.texts > all.size() && counts.named > 0 && counts.calendars > 0 &&
                        20 * counts.shown > all.size();
    return counts.faults == 0 && enough ? 0 : 1;
}
