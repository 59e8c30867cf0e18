// The page's calls. Text is put into `room`, a call reads it, and what it has to say is JSON at `reply`. One instance is at work on one thing at a time: the
// page has several.

#include <memory>
#include <string>

#include "ask.h"
#include "between.h"
#include "dues.h"
#include "logs.h"
#include "outages.h"
#include "portions.h"
#include "json.h"
#include "typed.h"

#define EXPORT(name) extern "C" __attribute__((export_name(#name)))

namespace {

using namespace shore;

// Rows may be shown between operators where no more are offered, and so many of each stream, and of each collection of an answer, are told.
constexpr double most_for_rows = 20000;
constexpr std::size_t most_told = 1000;

Engine engine;
std::string given;
std::string told;

// The question that is loaded, and how it is answered.
TypedPage page;
Reply asked;
Words answered;
Seat alone;
double offered_before = 0;

// What the rota's questions are asked over, and the type of each seat's answer.
Rota rota;
Packed rota_over;
TypeOf seat_types[dislogha::most_seats];

void reply_with(const Json &json) { told = json.text(); }

void tell_number(Json &json, std::uint64_t number) {
    json.key("number").number(static_cast<double>(number));
    if (number != 0) {
        json.key("sentence").string(sentence(number));
    }
}

void tell_strings(Json &json, const std::vector<std::string> &strings) {
    json.open('[');
    for (const std::string &each : strings) {
        json.string(each);
    }
    json.close(']');
}

// ------------------------------------------------------------------------------------------ values

void tell(Json &json, const TypeOf &type) {
    const char *sorts[] = {"unknown", "number", "truth", "record"};
    json.open('{').key("sort").string(type->sort == Sort::collection ? collection_name(type->collection)
                                                                    : sorts[static_cast<int>(type->sort)]);
    json.key("names");
    tell_strings(json, type->names);
    json.key("parts").open('[');
    for (const TypeOf &part : type->parts) {
        tell(json, part);
    }
    json.close(']').close('}');
}

void tell(Json &json, const TypeOf &type, const Value &value) {
    switch (type->sort) {
    case Sort::truth: json.truth(value.word != 0); break;
    case Sort::record:
        json.open('[');
        for (std::size_t i = 0; i < value.parts.size(); i++) {
            tell(json, type->parts[i], value.parts[i]);
        }
        json.close(']');
        break;
    case Sort::collection:
        json.open('{').key("count").number(static_cast<double>(value.parts.size())).key("first").open('[');
        for (std::size_t i = 0; i < value.parts.size() && i < most_told; i++) {
            tell(json, type->parts[0], value.parts[i]);
        }
        json.close(']').close('}');
        break;
    default: json.word(value.word); break;
    }
}

// Number or words, and the value that the words are of that type.
void tell_answer(Json &json, const TypeOf &type, const Words &words) {
    tell_number(json, words.number);
    if (words.number != 0) {
        return;
    }
    std::string written;
    for (std::int64_t word : words.words) {
        written += (written.empty() ? "" : " ") + std::to_string(word);
    }
    json.key("words").string(written);
    Value value;
    std::size_t at = 0;
    if (read_value(type, words.words, at, value) && at == words.words.size()) {
        json.key("type");
        tell(json, type);
        json.key("value");
        tell(json, type, value);
    }
}

// ------------------------------------------------------------------------------------------ faults

void tell_fault(Json &json, const TableFault &fault) {
    json.key("fault").open('{').key("table").number(fault.table).key("row").number(fault.row);
    json.key("column").number(fault.column).key("why").string(fault.what).close('}');
}

void tell_fault(Json &json, const HoursFault &fault) {
    json.key("fault").open('{').key("calendar").number(static_cast<double>(fault.calendar));
    json.key("name").truth(fault.name).key("why").string(fault.what).close('}');
}

// A text is unfinished where it ends too soon, or in a bracket.
bool unfinished(const std::string &typed, const text::Place &at) {
    int brackets = 0;
    for (char c : typed) {
        brackets += c == '{' || c == '(' ? 1 : c == '}' || c == ')' ? -1 : 0;
    }
    return brackets > 0 || typed.find_first_not_of(" \t\r\n", at.from) == std::string::npos;
}

void tell_fault(Json &json, const Reply &reply) {
    const text::Place at = reply.located.at;
    json.key("fault").open('{').key("from").number(at.from).key("to").number(at.to);
    json.key("why").string(reply.located.what);
    json.key("unfinished").truth(!reply.understood() && unfinished(reply.question->typed, at)).close('}');
}

// What is wrong with tables or calendars, if anything is: as they are typed, or by the engine's word.
bool stored_wrong(Json &json, const TypedPage &typed) {
    if (!typed.fault.none() || !typed.hours_fault.none()) {
        json.key("number").nothing();
        typed.fault.none() ? tell_fault(json, typed.hours_fault) : tell_fault(json, typed.fault);
        return true;
    }
    const DataLocating located(engine, typed.stored.tables);
    if (located.number() != 0) {
        tell_number(json, located.number());
        tell_fault(json, located.fault());
        return true;
    }
    const CalendarFault hours = fault_of(typed.stored.calendars);
    if (hours.number != 0) {
        tell_number(json, hours.number);
        tell_fault(json, HoursFault{hours.calendar, false, hours.what});
    }
    return hours.number != 0;
}

// Reads tables and question, and says whether they are accepted.
bool accepted(Json &json, std::uint32_t bytes) {
    page = PageReading(given.substr(0, bytes)).page();
    asked = Reply();
    if (stored_wrong(json, page)) {
        return false;
    }
    asked = prepared(engine, page.stored, page.question);
    if (!asked.understood()) {
        json.key("number").nothing();
    } else {
        tell_number(json, asked.number);
    }
    if (!asked.accepted()) {
        tell_fault(json, asked);
    }
    return asked.accepted();
}

// -------------------------------------------------------------------------------------------- plan

std::string title(const Step &step) {
    if (step.name == "one") {
        return "one row of no places";
    }
    if (step.name == "reduce") {
        return "reduce to " + step.monoid;
    }
    if (step.name == "nest") {
        const std::string called = step.labels.back() == step.monoid ? "the " : step.labels.back() + ", the ";
        const std::string kept = step.kept == 0 ? "of all rows" : "for each row of " + listed(step.labels, step.kept);
        return "nest: " + called + step.monoid + " " + kept;
    }
    return step.name + " " + step.labels.back();
}

void tell_operator(Json &json, const Step &step, const Step &before) {
    const bool grows = step.name == "join" || step.name == "outer";
    const PlanWords words(page.stored, grows ? step.labels : before.labels, grows ? step.tables : before.tables);
    json.key("op").string(step.name).key("title").string(title(step));
    if (step.name == "nest" || step.name == "reduce") {
        json.key("head").string(words.term(step.head));
    }
    if (step.name != "one" && step.condition.atom != "true") {
        json.key("condition").string(words.term(step.condition));
    }
    json.key("places");
    tell_strings(json, step.labels);
}

// Rows, or why there are none to show.
void tell_rows(Json &json, const Stage &stage) {
    if (!stage.shown()) {
        json.key("unshown").string(stage.too_large ? "too large to be asked" : "refused by " + std::to_string(stage.number));
        return;
    }
    json.key("rows").open('{').key("count").number(static_cast<double>(stage.rows.size())).key("first").open('[');
    for (std::size_t i = 0; i < stage.rows.size() && i < most_told; i++) {
        tell_strings(json, stage.rows[i]);
    }
    json.close(']').close('}');
}

// Of a nest also the operator whose place it takes: its rows begin there.
void tell_plan(Json &json) {
    const bool rows = most_offered(asked.steps, page.stored.tables) <= most_for_rows;
    const std::vector<Stage> stages = rows ? Between(engine, asked.steps, page.stored).stages() : std::vector<Stage>();
    std::vector<std::size_t> begun;
    std::size_t stage = 0;
    json.key("steps").open('[');
    for (std::size_t i = 0; i < asked.steps.size(); i++) {
        const Step &step = asked.steps[i];
        json.open('{');
        tell_operator(json, step, asked.steps[i == 0 ? 0 : i - 1]);
        if (step.name == "nest" && step.kept < begun.size()) {
            json.key("opens").number(static_cast<double>(begun[step.kept]));
        }
        begun.resize(step.labels.size(), i);
        if (step.name == "nest") {
            begun.back() = i;
        }
        if (step.name != "one" && step.name != "reduce" && stage < stages.size()) {
            tell_rows(json, stages[stage++]);
        }
        json.close('}');
    }
    json.close(']');
}

void tell_question(Json &json) {
    std::string hexadecimal;
    for (std::uint8_t byte : asked.question->bytes) {
        constexpr char digits[] = "0123456789abcdef";
        hexadecimal += digits[byte / 16];
        hexadecimal += digits[byte % 16];
    }
    text::Fault fault;
    json.key("bytes").string(hexadecimal);
    json.key("readBack").string(text_of(asked.question->bytes, page.stored, fault));
}

// -------------------------------------------------------------------------------------------- dues

// A tariff as it is typed: a line for each step, its upper draught and its rate, then the minimum. What is no number is told with its place.
Tariff read_tariff(const std::string &typed, TariffFault &fault) {
    const auto lines = split(typed, '\n');
    Tariff tariff;
    for (std::size_t i = 0; i < lines.size(); i++) {
        const auto cells = split(lines[i], cell_end);
        std::uint32_t values[2] = {};
        for (std::size_t j = 0; j < cells.size() && j < 2; j++) {
            const std::int64_t value = unsigned_of(cells[j], most_unsigned);
            if ((value < 0 || value > most_unsigned) && fault.what.empty()) {
                fault = {i, j, "draughts and cents are numbers of 0 to 4294967295"};
            }
            values[j] = static_cast<std::uint32_t>(value);
        }
        if (i + 1 < lines.size()) {
            tariff.steps.push_back({values[0], values[1]});
        } else {
            tariff.minimum = values[0];
        }
    }
    return tariff;
}

void tell_fault(Json &json, const TariffFault &fault) {
    json.key("fault").open('{').key("why").string(fault.what);
    json.key("step").number(fault.step == TariffFault::whole ? -1 : static_cast<double>(fault.step));
    json.key("cell").number(static_cast<double>(fault.cell)).close('}');
}

void tell_charged(Json &json, const Reply &reply, const Tariff &tariff, const Dues &dues) {
    const std::vector<std::string> &names = reply.type->parts[0]->names;
    json.key("names").open('[').string(names[0].empty() ? "0" : names[0]).string(names[1].empty() ? "1" : names[1]).string("cents").close(']');
    json.key("count").number(static_cast<double>(dues.cents.size())).key("rows").open('[');
    double together = 0;
    for (std::size_t i = 0; i < dues.cents.size(); i++) {
        together += static_cast<double>(dues.cents[i]);
        if (i < most_told) {
            json.open('[').word(dues.answer.words[2 * i + 1]).word(dues.answer.words[2 * i + 2]).word(dues.cents[i]).close(']');
        }
    }
    std::string written;
    for (std::int64_t word : dues.owed.words) {
        written += (written.empty() ? "" : " ") + std::to_string(word);
    }
    json.close(']').key("together").number(together).key("bytes").number(static_cast<double>(packed(tariff).size())).key("words").string(written);
}

// `typed` has a tariff and a question.
void tell_dues(Json &json, const Stored &stored, const std::vector<std::string> &typed) {
    TariffFault fault;
    const Tariff tariff = read_tariff(typed[0], fault);
    const std::uint64_t refused = fault.what.empty() ? tariff_number(tariff) : 0;
    if (!fault.what.empty() || refused != 0) {
        if (refused != 0) {
            tell_number(json, refused);
        } else {
            json.key("number").nothing();
        }
        tell_fault(json, refused != 0 ? refused_part(tariff) : fault);
        return;
    }
    Reply reply = prepared(engine, stored, typed[1]);
    const Dues dues = reply.understood() ? dues_of(engine, reply, tariff) : Dues();
    if (!reply.understood()) {
        json.key("number").nothing();
        tell_fault(json, reply);
    } else if (dues.number != 0) {
        tell_number(json, dues.number);
        reply.located.what = dues.number == reply.number ? reply.located.what : dues.what;
        tell_fault(json, reply);
    } else {
        tell_number(json, 0);
        json.key("same").truth(dues.same());
        tell_charged(json, reply, tariff, dues);
    }
}

// ----------------------------------------------------------------------------------------- outages

// `typed` has the number of a table and a question.
void tell_outages(Json &json, const Stored &stored, const std::string &typed) {
    const std::size_t end = typed.find(cell_end);
    const auto table = static_cast<std::uint64_t>(unsigned_of(typed.substr(0, end), dislogha::text::most_byte));
    Reply reply = prepared(engine, stored, typed.substr(end + 1));
    if (!reply.understood()) {
        json.key("number").nothing();
        tell_fault(json, reply);
        return;
    }
    const Outages outages = outages_of(engine, reply, stored.tables, table);
    tell_number(json, outages.number);
    if (outages.number != 0) {
        reply.located.what = outages.number == reply.number ? reply.located.what : outages.what;
        tell_fault(json, reply);
    } else {
        json.key("counts").open('[').number(static_cast<double>(outages.truths())).number(static_cast<double>(outages.falses())).close(']');
    }
}

// -------------------------------------------------------------------------------------------- logs

void tell_seconds(Json &json, const Tables &tables, std::uint64_t number) {
    const Table &log = *table_numbered(tables, static_cast<std::int64_t>(number));
    json.open('[');
    for (std::size_t i = 0; i < log.rows.size(); i++) {
        json.number(seconds_at(log, i));
    }
    json.close(']');
}

void tell_singles(Json &json, const Table &singles) {
    json.open('[');
    for (const auto &row : singles.rows) {
        json.number(row[0]);
    }
    json.close(']');
}

void tell_paired(Json &json, const Tables &tables, const LogsAsked &logs, const PairedLogs &paired) {
    json.key("seconds").open('[');
    tell_seconds(json, tables, logs.first);
    tell_seconds(json, tables, logs.second);
    json.close(']').key("pairs").open('[');
    for (const auto &row : paired.pairs().rows) {
        json.open('[').number(row[0]).number(row[1]).close(']');
    }
    json.close(']').key("singles").open('[');
    tell_singles(json, paired.first_singles());
    tell_singles(json, paired.second_singles());
    json.close(']').key("bytes").number(static_cast<double>(paired.records.size()));
}

// `typed` has the numbers of two tables and a tolerance.
void tell_logs(Json &json, const Tables &tables, const std::vector<std::string> &typed) {
    LogsAsked logs;
    logs.first = static_cast<std::uint64_t>(unsigned_of(typed[0], most_typed));
    logs.second = static_cast<std::uint64_t>(unsigned_of(typed[1], most_typed));
    const bool number = read_tolerance(typed[2], logs.tolerance);
    const PairedLogs paired = number ? paired_logs(engine, tables, logs) : PairedLogs();
    if (!number) {
        json.key("number").nothing();
    } else {
        tell_number(json, paired.number);
    }
    if (!number || paired.number != 0) {
        json.key("fault").open('{').key("why");
        json.string(number ? refused_log(engine, tables, logs, paired.number) : "A tolerance is a number of seconds").close('}');
    } else {
        tell_paired(json, tables, logs, paired);
    }
}

} // namespace

// ------------------------------------------------------------------------------------------- calls

EXPORT(room) char *room(std::uint32_t bytes) {
    if (given.size() < bytes) {
        given.resize(bytes);
    }
    return &given[0];
}

EXPORT(reply) const char *reply() { return told.data(); }

EXPORT(reply_length) std::uint32_t reply_length() { return static_cast<std::uint32_t>(told.size()); }

// A file's columns and rows, or what is wrong with it.
EXPORT(csv) void csv(std::uint32_t bytes) {
    const Csv read = read_csv(given.substr(0, bytes));
    Json json;
    json.open('{');
    if (!read.good()) {
        const std::string column = read.fault.column == 0 ? "" : ", column " + std::to_string(read.fault.column);
        json.key("why").string("line " + std::to_string(read.fault.line) + column + ": " + read.fault.what);
    } else {
        json.key("columns");
        tell_strings(json, read.table.columns);
        json.key("rows").open('[');
        for (const auto &row : read.table.rows) {
            json.open('[');
            for (std::int32_t cell : row) {
                json.word(cell);
            }
            json.close(']');
        }
        json.close(']');
    }
    reply_with(json.close('}'));
}

// What calendars are at a minute, which stands where a question does: of each whether it is open, and when it opens. Nothing is said of calendars that are
// wrong: `look` has said it.
EXPORT(hours) void hours(std::uint32_t bytes) {
    const TypedPage typed = PageReading(given.substr(0, bytes)).page();
    const MomentReading read(typed.question, 1);
    const bool wrong = read.wrong() || read.number() != 0;
    Json json;
    json.open('{').key("wrong").truth(wrong).key("moment");
    json.string(read.wrong()          ? "A minute is written as 2026-11-17 09:30, or by its number."
                : read.number() != 0 ? "Refused " + std::to_string(read.number()) + " (" + no_such_day + ")."
                                      : shown(read.moment()));
    json.key("calendars").open('[');
    const Calendars &calendars = typed.stored.calendars;
    const bool good = !wrong && typed.hours_fault.none() && fault_of(calendars).number == 0;
    for (std::size_t i = 0; good && i < calendars.size(); i++) {
        json.string(shown(hours_at(packed(calendars), i, read.moment()), ""));
    }
    reply_with(json.close(']').close('}'));
}

// What ships owe. Where a question stands are a tariff and a question.
EXPORT(dues) void dues(std::uint32_t bytes) {
    const TypedPage typed = PageReading(given.substr(0, bytes)).page();
    Json json;
    json.open('{');
    if (!stored_wrong(json, typed)) {
        tell_dues(json, typed.stored, split(typed.question, tariff_end));
    }
    reply_with(json.close('}'));
}

// Outages counted. Where a question stands are the number of a table and a question.
EXPORT(outages) void outages(std::uint32_t bytes) {
    const TypedPage typed = PageReading(given.substr(0, bytes)).page();
    Json json;
    json.open('{');
    if (!stored_wrong(json, typed)) {
        tell_outages(json, typed.stored, typed.question);
    }
    reply_with(json.close('}'));
}

// Two logs paired. Where a question stands are the numbers of two tables and a tolerance; calendars are not lent.
EXPORT(logs) void logs(std::uint32_t bytes) {
    const TypedPage typed = PageReading(given.substr(0, bytes)).page();
    Json json;
    json.open('{');
    if (!stored_wrong(json, typed)) {
        tell_logs(json, typed.stored.tables, split(typed.question, cell_end));
    }
    reply_with(json.close('}'));
}

// All that can be said of tables and question without an answer.
EXPORT(look) void look(std::uint32_t bytes) {
    Json json;
    json.open('{');
    const bool good = accepted(json, bytes);
    if (asked.question && asked.understood()) {
        tell_question(json);
    }
    if (good) {
        json.key("lines").string(asked.lines);
        json.key("rows").number(2 * most_offered(asked.steps, page.stored.tables));
        tell_plan(json);
    }
    reply_with(json.close('}'));
}

// Tables and question for the calls that answer.
EXPORT(load) void load(std::uint32_t bytes) {
    Json json;
    json.open('{');
    accepted(json, bytes);
    reply_with(json.close('}'));
}

EXPORT(loops) void loops() { answered = engine.by_loops(asked.over, asked.question->bytes); }

EXPORT(begin) void begin() {
    offered_before = 0;
    alone.begin(asked.over, asked.question->bytes, Engine::first_answer);
}

// Offers rows to the question, unless it is finished; gives whether it is unfinished. An answer that needs a longer buffer is begun anew with one.
EXPORT(portion) std::uint32_t portion(std::uint32_t rows) {
    if (!alone.unfinished()) {
        return 0;
    }
    alone.portion(asked.over, rows);
    if (alone.unfinished()) {
        return 1;
    }
    answered = alone.words();
    const bool longer = answered.number == static_cast<std::uint64_t>(dislogha::Refusal::answer_too_short) && alone.room() < engine.lent.answer;
    if (longer) {
        offered_before += static_cast<double>(alone.offered());
        alone.begin(asked.over, asked.question->bytes, Engine::larger(alone.room()));
    }
    return longer ? 1 : 0;
}

// Rows that the question was offered, for a buffer that was too short, too.
EXPORT(offered) double offered() { return offered_before + static_cast<double>(alone.offered()); }

// What the call that answered gave.
EXPORT(answer) void answer_told() {
    Json json;
    json.open('{');
    tell_answer(json, asked.type, answered);
    json.key("rows").number(static_cast<double>(alone.offered()));
    reply_with(json.close('}'));
}

// Begins a question at a seat. Tables and calendars are those of the questions that are unfinished at the others.
EXPORT(seat) void seat(std::uint32_t bytes, std::uint32_t at) {
    Json json;
    json.open('{');
    rota.seat(at).leave();
    if (accepted(json, bytes)) {
        if (rota_over != asked.over) {
            rota.leave();
            rota_over = asked.over;
        }
        rota.seat(at).begin(rota_over, asked.question->bytes, Engine::first_answer);
        seat_types[at] = asked.type;
    }
    reply_with(json.close('}'));
}

// One round over so many seats.
EXPORT(round) void round_made(std::uint32_t, std::uint32_t count, std::uint32_t first, std::uint32_t second, std::uint32_t third, std::uint32_t fourth) {
    std::vector<std::uint64_t> quotas{first, second, third, fourth};
    quotas.resize(count < 8 ? count : 8, 1);
    const auto said = rota.round(rota_over, quotas);
    Json json;
    json.open('{');
    tell_number(json, static_cast<std::uint64_t>(said.refusal));
    json.key("seats").open('[');
    for (std::size_t i = 0; i < said.visited; i++) {
        const auto &portion = said.seats[i];
        json.open('{').key("rows").number(static_cast<double>(portion.offered));
        json.key("unfinished").truth(portion.unfinished());
        if (portion.finished) {
            tell_answer(json, seat_types[i], rota.seat(i).words());
        } else {
            tell_number(json, static_cast<std::uint64_t>(portion.refusal));
        }
        json.close('}');
    }
    reply_with(json.close(']').close('}'));
}

// Gives all questions of the rota up.
EXPORT(leave) void leave(std::uint32_t) {
    rota.leave();
    told = "{}";
}
