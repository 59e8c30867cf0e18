// Every call on a stack that has the published number of bytes and a page behind it that may not
// be touched: stack FILE. FILE has a line for each question: name, data, calendars and question in hex
// ("-" for none). Prints the most that each call used; fails where a call used more, or where a question
// was not accepted. x86-64, Linux.
#include "dislogha.h"

#include <sys/mman.h>
#include <ucontext.h>
#include <unistd.h>

#include <algorithm>
#include <csignal>
#include <cstdint>
#include <cstdio>
#include <cstdlib>
#include <cstring>
#include <fstream>
#include <sstream>
#include <string>
#include <vector>

namespace {

constexpr std::size_t page = 4096;
constexpr std::size_t published = dislogha::stack_bytes;
static_assert(published % page == 0, "the guard page stands right behind the stack");
constexpr unsigned char paint = 0xA5;

std::vector<std::uint8_t> data, calendars, question;
std::vector<std::uint64_t> scratch(dislogha::scratch_words);
std::vector<std::int64_t> answer(200000);
std::vector<std::uint8_t> lines(200000);
std::uint64_t number;
std::string running;

// A record of eight columns and 1,024 rows, each column declared 2^31, and what it is turned into.
std::vector<std::uint8_t> longest() {
    constexpr std::size_t columns = 8, rows = 1024, content = 5 + 4 * columns * (1 + rows);
    std::vector<std::uint8_t> out = {content % 256, content / 256, 20,         0, 0, 2,
                                     columns,       rows % 256,    rows / 256};
    for (std::size_t column = 0; column < columns; column++) out.insert(out.end(), {0, 0, 0, 128});
    out.resize(4 + content, 1);
    return out;
}
const std::vector<std::uint8_t> by_row = longest();
std::vector<std::uint8_t> by_column(by_row), back(by_row);

// The same as a list, whose times do not fall; and what it is paired to with itself: 1,024 pairs.
std::vector<std::uint8_t> longest_log() {
    std::vector<std::uint8_t> out = longest();
    out[5] = 1;
    return out;
}
const std::vector<std::uint8_t> longest_list = longest_log();
std::vector<std::uint8_t> pairs(43 + 4 * 2048);

std::vector<std::uint8_t> bytes(const std::string &hex) {
    std::vector<std::uint8_t> out;
    if (hex == "-") return out;
    for (std::size_t i = 0; i < hex.size(); i += 2)
        out.push_back(static_cast<std::uint8_t>(std::stoi(hex.substr(i, 2), nullptr, 16)));
    return out;
}

void check() {
    number = dislogha_check(data.data(), data.size(), calendars.data(), calendars.size(),
                            question.data(), question.size(), scratch.data(), scratch.size())
                 .number;
}

void by_loops() {
    number = dislogha_answer_by_loops(data.data(), data.size(), calendars.data(), calendars.size(),
                                      question.data(), question.size(),
                                      scratch.data(), scratch.size(), answer.data(), answer.size())
                 .number;
}

void by_plan() {
    number = dislogha_answer_by_plan(data.data(), data.size(), calendars.data(), calendars.size(),
                                     question.data(), question.size(),
                                     scratch.data(), scratch.size(), answer.data(), answer.size())
                 .number;
}

// By a tariff of all its steps, which holds every draught. 45 is no fault: most questions are of another type; how many are
// charged is counted.
const std::vector<std::uint8_t> tariff = [] {
    std::vector<std::uint8_t> out = {133, 0, 22, 0, 16};
    for (std::uint8_t i = 0; i < 16; i++) {
        out.insert(out.end(), {i, 0, 0, static_cast<std::uint8_t>(i == 15 ? 255 : 0), 128, 150, 152, 0});
    }
    out.insert(out.end(), {0, 0, 0, 0});
    return out;
}();
int charged = 0;

void dues() {
    number = dislogha_answer_with_tariff(data.data(), data.size(), calendars.data(), calendars.size(),
                                         question.data(), question.size(), tariff.data(), tariff.size(),
                                         scratch.data(), scratch.size(), answer.data(), answer.size())
                 .number;
    charged += number == 0;
    if (number == 45) number = 0;
}

// Outages of table 0 of the data, which most shapes have, or of none. 55 and 56 are no fault; how often subsets were counted is.
int outages_counted = 0;

void outages() {
    number = dislogha_count_outages(data.data(), data.size(), calendars.data(), calendars.size(), question.data(),
                                    question.size(), 0, scratch.data(), scratch.size(), answer.data(), answer.size())
                 .number;
    outages_counted += number == 0;
    if (number == 55 || number == 56) number = 0;
}

void plan_lines() {
    number = dislogha_plan_lines(data.data(), data.size(), calendars.data(), calendars.size(),
                                 question.data(), question.size(),
                                 scratch.data(), scratch.size(), lines.data(), lines.size())
                 .number;
}

void begin() {
    number = dislogha_begin(data.data(), data.size(), calendars.data(), calendars.size(),
                            question.data(), question.size(), scratch.data(), scratch.size())
                 .number;
}

// Three rows at a time first, so that a question is also left unfinished; then all.
void portions() {
    begin();
    for (std::uint64_t rows = 3; number == 0; rows = 65535) {
        const dislogha_portioned said = dislogha_portion(
            data.data(), data.size(), calendars.data(), calendars.size(), scratch.data(), scratch.size(),
            answer.data(), answer.size(), rows);
        number = said.number;
        if (said.finished == 1) return;
    }
}

void rounds() {
    begin();
    const std::uint64_t quota = 1000;
    while (number == 0) {
        const dislogha_round_result said = dislogha_round(
            data.data(), data.size(), calendars.data(), calendars.size(), &quota, 1, scratch.data(),
            scratch.size(), answer.data(), answer.size(), nullptr, 0, nullptr, 0, nullptr, 0, nullptr, 0,
            nullptr, 0, nullptr, 0);
        number = said.number != 0 ? said.number : said.seats[0].number;
        if (said.seats[0].finished == 1) return;
    }
}

// The longest record by column and back, whatever the question.
void turned() {
    number = dislogha_table_to_columns(by_row.data(), by_row.size(), by_column.data(), by_column.size()).number;
    if (number == 0)
        number = dislogha_table_to_rows(by_column.data(), by_column.size(), back.data(), back.size()).number;
    if (number == 0 && back != by_row) number = 1;
}

void paired_with_itself(const std::vector<std::uint8_t> &log) {
    if (number == 0) number = dislogha_pair_logs(log.data(), log.size(), 0, 0, 3600, pairs.data(), pairs.size()).number;
}

// The longest log with itself, by column and by row, whatever the question.
void paired() {
    number = dislogha_table_to_columns(longest_list.data(), longest_list.size(), by_column.data(), by_column.size())
                 .number;
    paired_with_itself(by_column);
    paired_with_itself(longest_list);
}

// The first open minute of the last calendar, 42 where none is lent; then the last date there and back.
void hours() {
    const std::uint64_t wanted = calendars.empty() ? 42 : 0;
    number = dislogha_first_open(calendars.data(), calendars.size(), 3, 1).number == wanted ? 0 : 1;
    const dislogha_day_number_result last = dislogha_day_number(2399, 12, 31);
    if (number == 0) number = last.number;
    if (number == 0) number = dislogha_date(last.day).number;
}

struct Call {
    const char *name;
    void (*run)();
    std::size_t most;
    std::string where;
};

void overrun(int) {
    const char *text = ": more stack than published\n";
    if (write(2, running.data(), running.size()) < 0 || write(2, text, std::strlen(text)) < 0) _exit(3);
    _exit(1);
}

// The lowest byte that was written, counted from the stack's end.
std::size_t used(const unsigned char *stack) {
    std::size_t i = 0;
    while (i < published && stack[i] == paint) i++;
    return published - i;
}

// Runs a call on that stack.
void on(unsigned char *stack, void (*run)()) {
    static ucontext_t back, there;
    getcontext(&there);
    there.uc_stack.ss_sp = stack;
    there.uc_stack.ss_size = published;
    there.uc_link = &back;
    makecontext(&there, run, 0);
    swapcontext(&back, &there);
}

}  // namespace

int main(int argc, char **argv) {
    if (argc != 2) return 2;
    auto *block = static_cast<unsigned char *>(
        mmap(nullptr, page + published, PROT_READ | PROT_WRITE, MAP_PRIVATE | MAP_ANONYMOUS, -1, 0));
    if (block == MAP_FAILED || mprotect(block, page, PROT_NONE) != 0) return 2;
    unsigned char *stack = block + page;
    std::vector<unsigned char> aside(65536);
    stack_t own{};
    own.ss_sp = aside.data();
    own.ss_size = aside.size();
    sigaltstack(&own, nullptr);
    struct sigaction act{};
    act.sa_handler = overrun;
    act.sa_flags = SA_ONSTACK;
    sigaction(SIGSEGV, &act, nullptr);

    Call calls[] = {{"check", check, 0, ""},           {"answer_by_loops", by_loops, 0, ""},
                    {"answer_by_plan", by_plan, 0, ""}, {"plan_lines", plan_lines, 0, ""},
                    {"tariff", dues, 0, ""},            {"outages", outages, 0, ""},
                    {"begin", begin, 0, ""},           {"portion", portions, 0, ""},
                    {"round", rounds, 0, ""},           {"both directions", turned, 0, ""},
                    {"paired logs", paired, 0, ""},
                    {"days and hours", hours, 0, ""}};
    std::ifstream file(argv[1]);
    std::string line;
    int questions = 0, refused = 0;
    while (std::getline(file, line)) {
        std::istringstream words(line);
        std::string name, data_hex, calendars_hex, question_hex;
        words >> name >> data_hex >> calendars_hex >> question_hex;
        data = bytes(data_hex);
        calendars = bytes(calendars_hex);
        question = bytes(question_hex);
        questions++;
        for (Call &call : calls) {
            running = name + ", " + call.name;
            std::fill(scratch.begin(), scratch.end(), 0);
            std::memset(stack, paint, published);
            on(stack, call.run);
            const std::size_t now = used(stack);
            if (now > call.most) {
                call.most = now;
                call.where = name;
            }
            if (number != 0) {
                std::printf("refused %llu: %s\n", static_cast<unsigned long long>(number), running.c_str());
                refused++;
            }
        }
    }
    for (const Call &call : calls)
        std::printf("%-16s %7zu of %zu bytes (%s)\n", call.name, call.most, published, call.where.c_str());
    std::printf("%d questions, each through %zu calls, %d with dues, %d with outages; %d refused\n", questions,
                sizeof calls / sizeof *calls, charged, outages_counted, refused);
    return questions < 90 || charged < 20 || outages_counted < 20 || refused != 0;
}
