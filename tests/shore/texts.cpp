// Broken texts: none stops the reader, and one that is understood keeps the byte rules.
//
// What is held of each text is in `hold`. Built with -DFUZZER and -fsanitize=fuzzer, libFuzzer makes the texts
// (tests/shore/fuzz); else they are the texts of made questions, a few characters changed. Arguments then: a file
// of made inputs, and how many texts. It fails where something does not hold, and where fewer than one text in
// twenty was understood.
#include <cstdio>
#include <cstdlib>
#include <memory>

#include "ask.h"
#include "hexadecimal.h"
#include "hours.h"
#include "records.h"

using namespace shore;

namespace {

Table table(const char *name, int number, std::vector<std::string> columns) {
    Table made;
    made.name = name;
    made.number = static_cast<std::uint8_t>(number);
    made.columns = columns;
    made.bounds.assign(columns.size(), 9);
    made.rows.assign(2, std::vector<std::int32_t>(columns.size(), 3));
    return made;
}

const Stored &harbour() {
    static const Stored stored = {{table("berths", 0, {"berth", "depth"}), table("bollards", 5, {"berth", "pull"})},
                                  {{"quay", {}}, {"lock", {{5, 480, 720}}}}};
    return stored;
}

[[noreturn]] void wrong(const char *what, const std::string &text) {
    std::printf("%s: %s\n", what, text.c_str());
    std::abort();
}

// Whether a place stands inside a text.
bool inside(text::Place place, const std::string &text) { return place.from <= place.to && place.to <= text.size(); }

// Whether the records of a question have their places inside the text.
template <class Limits> bool placed(const text::Typed<Limits> &typed, const std::string &text) {
    bool good = true;
    for (std::size_t i = 0; i < typed.records; i++) {
        good = good && inside(typed.places[i], text) && inside(typed.words[i], text) && inside(typed.labels[i], text) &&
               typed.places[i].from < typed.places[i].to;
    }
    return good;
}

// The same text with the engine's sizes, as firmware has it: the same bytes, or it is too large.
void hold_engine_sized(const Question &question) {
    static text::Tree<text::Accepted> tree;
    static text::Typed<> typed;
    text::read(chars_of(question.typed), schema_of(question.stored), tree, typed);
    if (!inside(typed.fault.at, question.typed) || !placed(typed, question.typed)) {
        wrong("a place outside the text", question.typed);
    }
    const auto what = typed.fault.wrong;
    const bool large = what == text::Wrong::too_long || what == text::Wrong::too_deep || what == text::Wrong::too_many_records;
    const bool same = typed.understood() == question.understood() &&
                      Bytes(typed.bytes, typed.bytes + typed.size) == question.bytes;
    if (!large && !same) {
        wrong("another question by the engine's sizes", question.typed);
    }
}

// A text may also be that of hours, which then give themselves again, and of a day or minute.
void hold_hours(const std::string &text) {
    const WindowsReading hours(text);
    const WindowsReading again(windows_text(hours.windows()));
    if (hours.fault().empty() && packed(Calendar{"", again.windows()}) != packed(Calendar{"", hours.windows()})) {
        wrong("other hours", text);
    }
    const MomentReading moment(text, minutes_of_day);
    if (!moment.wrong() && moment.number() == 0) {
        shown(moment.moment());
    }
}

// 1 where the text is understood.
std::size_t hold(Engine &engine, const std::string &text) {
    // A text may also be that of tables.
    const auto names = text::schema(chars_of(text));
    if (!inside(names.fault.at, text)) {
        wrong("a place outside the tables", text);
    }
    hold_hours(text);
    const Question question(text, harbour());
    hold_engine_sized(question);
    if (!inside(question.fault.at, text)) {
        wrong("a place outside the text", text);
    }
    if (!question.understood()) {
        said(question);
        return 0;
    }
    text::Fault broken;
    const std::string written = text_of(question.bytes, harbour(), broken);
    const Question again(written, harbour());
    if (!broken.none() || !again.understood() || again.bytes != question.bytes) {
        wrong("another question by its own text", text + "\n  " + written);
    }
    const std::uint64_t number = engine.check(packed(harbour()), question.bytes);
    if (number == breaks_bytes) {
        wrong("22", text);
    }
    if (number != 0 && !inside(Locating(engine, packed(harbour()), question, number).located().at, text)) {
        wrong("a refusal outside the text", text);
    }
    return 1;
}

} // namespace

#ifdef FUZZER

extern "C" int LLVMFuzzerTestOneInput(const std::uint8_t *data, std::size_t size) {
    static Engine engine;
    hold(engine, std::string(reinterpret_cast<const char *>(data), size));
    return 0;
}

#else

namespace {

class Random {
  public:
    std::size_t below(std::size_t limit) {
        state_ ^= state_ << 13;
        state_ ^= state_ >> 7;
        state_ ^= state_ << 17;
        return static_cast<std::size_t>(state_ % limit);
    }

  private:
    std::uint64_t state_ = 88172645463325252u;
};

std::string broken(std::string text, Random &random) {
    static const std::vector<std::string> pieces = {
        "berths", "bollards", "b", ".", "berth", "pull", "{", "}", "(", ")", ",", "|", "<-", "sum{", "bag{", "set{ 1 }",
        "let x = ", "1", "-", "2147483648", "#3", "#256", "@1", "@5", " not ", " and ", "=", "<", ">=", "\xc3\xa9", "//", "$",
        "x: ", "if ", " then ", " else ", "open(", "open(1, 2)", "open(lock, 2)", "quay", "min{ 1 }", "\n", std::string(1, '\0'), "((((((((", "-b"};
    for (std::size_t i = random.below(3) + 1; i > 0; i--) {
        const std::size_t at = random.below(text.size() + 1);
        switch (random.below(3)) {
        case 0: text.insert(at, pieces[random.below(pieces.size())]); break;
        case 1: text.erase(at, random.below(6)); break;
        default: text.insert(at, text.substr(random.below(text.size() + 1), random.below(12))); break;
        }
    }
    return text;
}

// Texts that a random change does not come upon.
std::vector<std::string> deep() {
    std::vector<std::string> texts;
    for (const char *piece : {"(", "sum{ ", "not ", "-", "if ", "(1, ", "open(0, ", "open(lock, ", "1 + ", "sum{ 1 | x <- ", "1 + (", "x."}) {
        std::string text;
        for (int i = 0; i < 20000; i++) {
            text += piece;
        }
        texts.push_back("sum{ " + text);
    }
    std::string many;
    for (int i = 0; i < 300; i++) {
        many += (i == 0 ? " | " : ", ") + ("x" + std::to_string(i)) + " <- berths";
    }
    texts.push_back("sum{ 1" + many + " }");
    for (const char *text : {"", "Mon", "Mon-Sun 00:00-24:00, 7 99:59-00:00", "255 0:00-0:01 256", "never", "-", "-7", "2026-11-17", "2026-11-17T09:30",
                             "2026-11-17 ", "--", "0-0-0", "999999999999", "9999999999999", "-999999999999"}) {
        texts.push_back(text);
    }
    return texts;
}

} // namespace

int main(int count, char **arguments) {
    if (count != 3) {
        return 2;
    }
    Engine engine;
    Random random;
    const auto all = made_of(arguments[1]);
    const auto wanted = static_cast<std::size_t>(std::atol(arguments[2]));
    std::size_t texts = 0;
    std::size_t understood = 0;
    for (const std::string &text : deep()) {
        understood += hold(engine, text);
        texts++;
    }
    for (std::size_t i = 0; texts < wanted && i < 100 * all.size(); i++) {
        text::Fault fault;
        const std::string text = text_of(all[i % all.size()].question, harbour(), fault);
        if (fault.none() && text.size() < 1000) {
            understood += hold(engine, broken(text, random));
            texts++;
        }
    }
    std::printf("texts: %zu broken texts, %zu understood\n", texts, understood);
    return texts >= wanted && 20 * understood > texts ? 0 : 1;
}

#endif
