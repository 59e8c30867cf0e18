// The shell's state, and what it does with a question.
#ifndef SHORE_DESK_H
#define SHORE_DESK_H

#include <cstdio>
#include <map>
#include <memory>
#include <string>

#include "ask.h"
#include "dues.h"
#include "grid.h"
#include "interrupt.h"
#include "job.h"
#include "outages.h"

namespace shore {

inline void say(const std::string &line) {
    std::fwrite(line.data(), 1, line.size(), stdout);
    std::fputc('\n', stdout);
}

inline void say(const Block &lines) {
    for (const std::string &line : lines) {
        say(line);
    }
}

// 1,234,567.
inline std::string grouped(double number) {
    char digits[64];
    std::snprintf(digits, sizeof digits, "%.0f", number);
    std::string written = digits;
    for (std::size_t at = written.size(); at > 3; at -= 3) {
        written.insert(at - 3, ",");
    }
    return written;
}

inline std::string counted(std::size_t count, const char *one, const char *many) {
    return grouped(static_cast<double>(count)) + " " + (count == 1 ? one : many);
}

enum class Mode { box, csv, words };

class Desk {
  public:
    Stored stored;
    Engine engine;
    Mode mode = Mode::box;
    bool timer = false;
    bool echo = false;
    // Whether people sit at it: then what goes on in the background is told when it ends.
    bool attended = false;
    // Rows of a portion where every question goes by portions, -1 where only long ones do.
    std::int64_t portion = -1;
    std::optional<Tariff> tariff;
    // The last question that was understood.
    Reply last;
    std::map<int, std::unique_ptr<Job>> jobs;
    std::size_t failures = 0;
    std::size_t differences = 0;

    // Something did not go as asked: told, and shown by the exit status.
    void fail(const std::string &why) {
        failures++;
        say(why);
    }
    void question(const std::string &typed) {
        std::string asked = typed;
        const bool background = in_the_background(asked);
        Reply reply = prepared(engine, stored, asked);
        if (!reply.accepted()) {
            refused(reply);
            keep(std::move(reply));
        } else if (background) {
            start(std::move(reply));
        } else if (portion >= 0 || 2 * most_offered(reply.steps, stored.tables) > long_rows) {
            Job job(std::move(reply), engine.lent, rows());
            wait(job);
        } else {
            at_once(std::move(reply));
        }
    }
    // The checker alone.
    void check(const std::string &typed) {
        Reply reply = prepared(engine, stored, typed);
        if (reply.accepted()) {
            say("accepted: " + counted(reply.question->bytes.size(), "byte", "bytes"));
        } else {
            refused(reply);
        }
        keep(std::move(reply));
    }
    // What the ships of an answer owe by the tariff, beside the answer.
    void dues(const std::string &typed) {
        Reply reply = prepared(engine, stored, typed);
        if (!reply.understood()) {
            refused(reply);
            return;
        }
        const Dues dues = dues_of(engine, reply, tariff);
        if (dues.number == 0 && !dues.same()) {
            differences++;
            fail("THE DUES DIFFER: of each ship alone, and of all");
        } else if (dues.number == 0) {
            shown(reply, dues);
        } else if (dues.number == reply.number) {
            refused(reply);
        } else {
            refused(dues.number, dues.what);
        }
        keep(std::move(reply));
    }
    // How many subsets of a table's rows give true.
    void outages(std::uint64_t table, const std::string &typed) {
        Reply reply = prepared(engine, stored, typed);
        if (!reply.understood()) {
            refused(reply);
            return;
        }
        const Outages outages = outages_of(engine, reply, stored.tables, table);
        if (outages.number == 0) {
            shown(outages, *table_numbered(stored.tables, static_cast<std::int64_t>(table)));
        } else if (outages.number == reply.number) {
            refused(reply);
        } else {
            refused(outages.number, outages.what);
        }
        keep(std::move(reply));
    }
    // Waits for a job and shows what it gave; Ctrl-C stops it.
    void wait(Job &job) {
        interrupt::seen();
        const bool bar = isatty(STDERR_FILENO) != 0;
        while (!job.ended() && interrupt::typed == 0) {
            if (bar) {
                progress(job);
            }
            std::this_thread::sleep_for(std::chrono::milliseconds(pause(job)));
        }
        if (bar) {
            std::fputs("\r\033[K", stderr);
        }
        if (interrupt::seen()) {
            job.stop();
            fail("stopped, " + offered(job));
            return;
        }
        finish(job);
    }
    void finish(Job &job) {
        const std::string rows = offered(job);
        if (!job.whole()) {
            job.stop();
            fail("one of the two ways did not end: the machine has no memory left, or its process was ended");
            return;
        }
        const double seconds = job.seconds();
        show(job.take());
        if (timer) {
            char text[64];
            std::snprintf(text, sizeof text, "%.1f s, ", seconds);
            say(text + rows);
        }
    }
    static std::string offered(const Job &job) {
        return grouped(static_cast<double>(job.offered())) + " rows offered of at most " + grouped(job.most());
    }
    // Those that ended since the last line, told where people wait for them.
    void tell_ended() {
        for (auto at = jobs.begin(); attended && at != jobs.end();) {
            if (at->second->ended()) {
                say("question " + std::to_string(at->first) + ": " + at->second->typed());
                finish(*at->second);
                at = jobs.erase(at);
            } else {
                ++at;
            }
        }
    }
    // The line in which a place of a text begins, and a caret under it. The end is behind what was typed last.
    static Block caret(const std::string &typed, text::Place at) {
        const std::size_t behind = typed.find_last_not_of(" \t\r\n") + 1;
        const std::size_t from = at.from < behind ? at.from : behind;
        const std::size_t before = from == 0 ? std::string::npos : typed.rfind('\n', from - 1);
        const std::size_t start = before == std::string::npos ? 0 : before + 1;
        std::size_t end = typed.find('\n', from);
        end = end == std::string::npos ? typed.size() : end;
        const std::size_t to = at.to < end ? at.to : end;
        std::string line = typed.substr(start, end - start);
        for (char &c : line) {
            c = c == '\t' ? ' ' : c;
        }
        const std::size_t marked = to > from ? width(typed.substr(from, to - from)) : 1;
        return {"  " + line, "  " + std::string(width(typed.substr(start, from - start)), ' ') + "^" +
                                 std::string(marked - 1, '~')};
    }
    void refused(const Reply &reply) {
        if (!reply.understood()) {
            say(caret(reply.question->typed, reply.located.at));
            fail("not understood: " + reply.located.what);
            return;
        }
        if (reply.located.alone.size() + reply.located.what.size() > 0) {
            say(caret(reply.question->typed, reply.located.at));
        }
        refused(reply.number, reply.located.what);
    }
    // A number with its sentence, and what it is about.
    void refused(std::uint64_t number, const std::string &what, const std::string &where = "") {
        fail(where + "refused " + std::to_string(number) + ", " + sentence(number) + (what.empty() ? "" : ": " + what));
    }

  private:
    // Above this many rows a question goes by portions.
    static constexpr double long_rows = 2e7;

    std::uint64_t rows() const {
        return portion >= 0 ? static_cast<std::uint64_t>(portion) : dislogha::most_rows;
    }
    // A question behind which `&` stands.
    static bool in_the_background(std::string &typed) {
        const std::size_t last = typed.find_last_not_of(" \t\r\n");
        if (last == std::string::npos || typed[last] != '&') {
            return false;
        }
        typed.resize(typed.find_last_not_of(" \t\r\n&") + 1);
        return true;
    }
    void at_once(Reply reply) {
        const auto begun = std::chrono::steady_clock::now();
        reply.loops = engine.by_loops(reply.over, reply.question->bytes);
        const auto between = std::chrono::steady_clock::now();
        reply.plan = engine.by_plan(reply.over, reply.question->bytes);
        const auto ended = std::chrono::steady_clock::now();
        settle(reply);
        show(std::move(reply));
        if (timer) {
            say("by loops " + milliseconds(begun, between) + ", by plan " + milliseconds(between, ended));
        }
    }
    void start(Reply reply) {
        int number = 1;
        while (jobs.count(number) != 0) {
            number++;
        }
        const double most = 2 * most_offered(reply.steps, stored.tables);
        jobs[number] = std::make_unique<Job>(std::move(reply), engine.lent, rows());
        say("question " + std::to_string(number) + " goes on, at most " + grouped(most) + " rows; .wait waits for it");
    }
    // The last one that was understood is what .plan and the others speak of.
    void keep(Reply reply) {
        if (reply.understood()) {
            last = std::move(reply);
        }
    }
    static int pause(const Job &job) { return job.seconds() < 0.1 ? 1 : 50; }
    static void progress(const Job &job) {
        constexpr std::size_t cells = 20;
        const double share = job.most() == 0 ? 1 : static_cast<double>(job.offered()) / job.most();
        const auto full = static_cast<std::size_t>(share * cells);
        std::string bar;
        for (std::size_t i = 0; i < cells; i++) {
            bar += i < full ? "█" : "░";
        }
        std::fprintf(stderr, "\r\033[K%s %s, %.0f s (Ctrl-C stops)", bar.c_str(), offered(job).c_str(), job.seconds());
        std::fflush(stderr);
    }
    using Moment = std::chrono::steady_clock::time_point;
    static std::string milliseconds(Moment from, Moment to) {
        char text[64];
        std::snprintf(text, sizeof text, "%.3f ms", std::chrono::duration<double, std::milli>(to - from).count());
        return text;
    }
    void show(Reply reply) {
        if (!reply.same()) {
            differences++;
            fail("BOTH WAYS DIFFER: by loops " + outcome(reply.loops) + ", by plan " + outcome(reply.plan));
        } else if (!reply.answered) {
            refused(reply);
        } else {
            shown(reply);
        }
        keep(std::move(reply));
    }
    static std::string outcome(const Words &words) {
        return words.number != 0 ? "refused " + std::to_string(words.number) : "answer" + in_words(words);
    }
    static std::string in_words(const Words &words) {
        std::string written;
        for (std::int64_t word : words.words) {
            written += " " + std::to_string(word);
        }
        return written;
    }
    void shown(const Reply &reply) const {
        if (mode == Mode::words) {
            say("answer" + in_words(reply.loops));
        } else if (mode == Mode::csv) {
            say(as_csv(reply));
        } else {
            say(as_box(reply));
        }
    }
    void shown(const Reply &reply, const Dues &dues) const {
        std::vector<std::string> names = heading(reply.type->parts[0]);
        names.push_back("cents");
        if (mode == Mode::words) {
            say("answer" + in_words(dues.owed));
            return;
        }
        Grid grid(names);
        std::string lines = quoted(names[0]) + "," + quoted(names[1]) + ",cents";
        double together = 0;
        for (std::size_t i = 0; i < dues.cents.size(); i++) {
            const std::string ship = std::to_string(dues.answer.words[2 * i + 1]), draught = std::to_string(dues.answer.words[2 * i + 2]);
            grid.add({ship, draught, std::to_string(dues.cents[i])}, true);
            lines += "\n" + ship + "," + draught + "," + std::to_string(dues.cents[i]);
            together += static_cast<double>(dues.cents[i]);
        }
        say(mode == Mode::csv ? Block{lines} : grid.drawn());
        if (mode == Mode::box) {
            say(counted(dues.cents.size(), "row", "rows") + " charged, together " + grouped(together) + " cents");
        }
    }
    // A line of the counts: the bar's length is the share of all subsets, and never nothing where there is one.
    static std::string bar(const char *name, std::int64_t count, std::int64_t of) {
        constexpr std::int64_t cells = 40;
        const std::int64_t full = count == 0 ? 0 : count * cells / of < 1 ? 1 : count * cells / of;
        std::string line = name;
        const std::string number = grouped(static_cast<double>(count));
        line += std::string(8 - number.size(), ' ') + number + "  ";
        for (std::int64_t i = 0; i < cells; i++) {
            line += i < full ? "█" : "░";
        }
        char share[32];
        std::snprintf(share, sizeof share, "  %.1f %%", 100.0 * static_cast<double>(count) / static_cast<double>(of));
        return line + share;
    }
    void shown(const Outages &outages, const Table &table) const {
        if (mode == Mode::words) {
            say("answer" + in_words(outages.counts));
        } else if (mode == Mode::csv) {
            say("true,false\n" + std::to_string(outages.truths()) + "," + std::to_string(outages.falses()));
        } else {
            say(bar("true ", outages.truths(), outages.subsets()));
            say(bar("false", outages.falses(), outages.subsets()));
            say(counted(static_cast<std::size_t>(outages.subsets()), "subset", "subsets") + " of the " +
                counted(table.rows.size(), "row", "rows") + " of " + table.name + ", the others being out");
        }
    }
    static Block as_box(const Reply &reply) {
        const std::string both = "by loops and by plan the same " +
                                 counted(reply.loops.words.size(), "word", "words");
        if (reply.type->sort != Sort::collection) {
            return {in_line(reply.type, reply.value), both};
        }
        Block lines = drawn(reply.type->parts[0], reply.value.parts);
        lines.push_back(counted(reply.value.parts.size(), "row", "rows") + " in a " +
                        collection_name(reply.type->collection) + "; " + both);
        return lines;
    }
    static std::string quoted(const std::string &cell) {
        return cell.find_first_of(",\"") == std::string::npos ? cell : "\"" + cell + "\"";
    }
    static Block as_csv(const Reply &reply) {
        if (reply.type->sort != Sort::collection) {
            return {in_line(reply.type, reply.value)};
        }
        const TypeOf &element = reply.type->parts[0];
        Block lines{""};
        for (const std::string &name : heading(element)) {
            lines[0] += (lines[0].empty() ? "" : ",") + quoted(name);
        }
        for (const Value &value : reply.value.parts) {
            std::string line;
            for (std::size_t i = 0; element->sort == Sort::record && i < value.parts.size(); i++) {
                line += (i == 0 ? "" : ",") + quoted(in_line(element->parts[i], value.parts[i]));
            }
            lines.push_back(element->sort == Sort::record ? line : quoted(in_line(element, value)));
        }
        return lines;
    }
};

} // namespace shore

#endif
