// The desk's shell: a question typed, both answers read. docs/SHORE.md says how it is used.
#include <clocale>
#include <cstdio>
#include <string>

#include "input.h"

namespace {

using shore::Commands;
using shore::Desk;
using shore::Input;
using shore::say;

constexpr int refused_status = 1;
constexpr int usage_status = 2;
constexpr int different_status = 3;

const char *const usage =
    "usage: shell [-c TEXT].. [-e] [-p] [FILE]..\n"
    "  FILE.csv   a table, loaded as a bag named by its file, without a word\n"
    "  FILE       questions and commands, one behind the other\n"
    "  -c TEXT    a question or a command; standard input is not read then\n"
    "  -e         end at the first thing that is refused or not understood\n"
    "  -p         read standard input though files or -c were given\n"
    "  -h         this, and the commands\n"
    "Exit status: 0, or 1 where something was refused or not understood, 2 for a wrong argument, 3 where\n"
    "the two ways of answering differ.\n";

class Shell {
  public:
    bool bail = false;

    Shell() : commands_(desk_) {}

    // Takes everything that an input has; false where the shell is to end.
    bool read(std::FILE *file) {
        Input input(desk_, file);
        if (input.people()) {
            say("Dislogha's desk. .help has the commands, .quit leaves.");
        }
        std::string line;
        std::string typed;
        for (;;) {
            desk_.tell_ended();
            const char *prompt = typed.empty() ? "desk> " : "  ..> ";
            const bool there = input.line(prompt, line);
            if (shore::interrupt::seen()) {
                typed.clear();
                std::clearerr(stdin);
                say("");
                continue;
            }
            if (!there) {
                break;
            }
            if (desk_.echo && !input.people()) {
                say(prompt + line);
            }
            const bool ends = line.find_first_not_of(" \t") == std::string::npos;
            typed += (typed.empty() ? "" : "\n") + line;
            if (ends && typed.size() == line.size()) {
                typed.clear();
                continue;
            }
            if (!ends && typed[typed.find_first_not_of(" \t")] != '.' && shore::unfinished(typed)) {
                continue;
            }
            input.remember(typed);
            const bool goes_on = take(typed);
            typed.clear();
            if (!goes_on) {
                return false;
            }
        }
        // What stands there at the end was not finished, and is told so.
        return typed.empty() || take(typed);
    }
    // One question or command; false where the shell is to end.
    bool take(const std::string &typed) {
        const std::size_t first = typed.find_first_not_of(" \t\r\n");
        if (first == std::string::npos || only_comment(typed)) {
            return true;
        }
        if (typed[first] == '.') {
            commands_.run(typed.substr(first));
        } else {
            desk_.question(typed);
        }
        std::fflush(stdout);
        if (!scripts()) {
            return false;
        }
        return !commands_.quit() && !(bail && desk_.failures > 0);
    }
    bool load(const std::string &path) {
        const std::size_t before = desk_.failures;
        shore::Given given;
        given.quiet = true;
        shore::load(desk_, path, given);
        return desk_.failures == before;
    }
    bool script(const std::string &path) {
        std::FILE *file = std::fopen(path.c_str(), "r");
        if (file == nullptr) {
            desk_.fail("cannot read " + path);
            return false;
        }
        const bool goes_on = read(file);
        std::fclose(file);
        return goes_on;
    }
    // What still goes on in the background is waited for.
    int end() {
        if (!desk_.jobs.empty() && !commands_.quit()) {
            commands_.run(".wait");
        }
        desk_.jobs.clear();
        return desk_.differences > 0 ? different_status : desk_.failures > 0 ? refused_status : 0;
    }

  private:
    static bool only_comment(const std::string &typed) {
        return shore::text::Tokens(shore::chars_of(typed)).is(shore::text::Token::end);
    }
    bool scripts() {
        while (!commands_.scripts.empty()) {
            const std::string path = commands_.scripts.back();
            commands_.scripts.pop_back();
            if (++reading_ > 8) {
                desk_.fail(".read inside .read, more than 8 deep");
                reading_--;
                return true;
            }
            const bool goes_on = script(path);
            reading_--;
            if (!goes_on && commands_.quit()) {
                return false;
            }
        }
        return true;
    }

    Desk desk_;
    Commands commands_;
    int reading_ = 0;
};

int wrong_usage() {
    std::fputs(usage, stderr);
    return usage_status;
}

} // namespace

int main(int count, char **arguments) {
    // Letters outside of ASCII are edited whole.
    std::setlocale(LC_CTYPE, "");
    shore::interrupt::take_signals();
    Shell shell;
    bool asked = false;
    bool also_input = false;
    bool goes_on = true;
    for (int i = 1; i < count && goes_on; i++) {
        const std::string argument = arguments[i];
        if (argument == "-h" || argument == "--help") {
            std::fputs(usage, stdout);
            shell.take(".help");
            return 0;
        }
        if (argument == "-e") {
            shell.bail = true;
        } else if (argument == "-p") {
            also_input = true;
        } else if (argument == "-c") {
            if (++i == count) {
                return wrong_usage();
            }
            goes_on = shell.take(arguments[i]);
            asked = true;
        } else if (argument[0] == '-' && argument.size() > 1) {
            return wrong_usage();
        } else if (shore::ends_with(argument, ".csv")) {
            if (!shell.load(argument)) {
                return usage_status;
            }
        } else {
            goes_on = shell.script(argument);
            asked = true;
        }
    }
    if (goes_on && (!asked || also_input)) {
        shell.read(stdin);
    }
    return shell.end();
}
