// Lines from people or from a file: history and completion by libedit, where it is there.
#ifndef SHORE_INPUT_H
#define SHORE_INPUT_H

#include <cstdio>
#include <cstdlib>
#include <cstring>
#include <string>

#include <unistd.h>

#include "commands.h"

#if __has_include(<editline/readline.h>) && !defined(SHORE_PLAIN)
#include <editline/readline.h>
#define SHORE_LIBEDIT 1
#endif

namespace shore {

// Whether a question's brackets are still open at its end, comments left out.
inline bool unfinished(const std::string &typed) {
    text::Tokens tokens(chars_of(typed));
    int open = 0;
    while (!tokens.is(text::Token::end)) {
        const text::Token token = tokens.token();
        open += token == text::Token::left_bracket || token == text::Token::left_brace ? 1 : 0;
        open -= token == text::Token::right_bracket || token == text::Token::right_brace ? 1 : 0;
        tokens.step();
    }
    return open > 0;
}

// A question in one line, so without comments; a command is one.
inline std::string in_one_line(const std::string &typed) {
    std::string line;
    bool comment = false;
    for (std::size_t i = 0; i < typed.size(); i++) {
        comment = typed[i] != '\n' && (comment || (typed[0] != '.' && typed.compare(i, 2, "//") == 0));
        line += comment ? "" : std::string(1, typed[i] == '\n' ? ' ' : typed[i]);
    }
    return line;
}

// What can follow the beginning of a word.
inline std::vector<std::string> completions(const Desk &desk, const std::string &begun) {
    std::vector<std::string> known;
    const std::size_t point = begun.rfind('.');
    const std::string left = point == std::string::npos ? "" : begun.substr(0, point + 1);
    if (point == 0) {
        for (const auto &command : Commands::all()) {
            known.push_back(command.name);
        }
    } else if (point != std::string::npos) {
        for (const Table &table : desk.stored.tables) {
            for (const std::string &column : table.columns) {
                known.push_back(left + column);
            }
        }
    } else {
        for (std::int32_t monoid = 1; monoid <= text::last_monoid; monoid++) {
            known.push_back(string_of(text::monoid_name(monoid)) + "{");
        }
        for (const Table &table : desk.stored.tables) {
            known.push_back(table.name);
        }
        for (const Calendar &calendar : desk.stored.calendars) {
            known.push_back(calendar.name);
        }
        for (const char *word : {"let", "if", "then", "else", "and", "or", "not", "true", "false", "open("}) {
            known.push_back(word);
        }
    }
    std::vector<std::string> found;
    for (const std::string &each : known) {
        bool again = false;
        for (const std::string &one : found) {
            again = again || one == each;
        }
        if (!again && each.compare(0, begun.size(), begun) == 0) {
            found.push_back(each);
        }
    }
    return found;
}

#ifdef SHORE_LIBEDIT
inline Desk *completed_desk = nullptr;
inline std::vector<std::string> offers;

inline char *next_offer(const char *begun, int state) {
    if (state == 0) {
        offers = completions(*completed_desk, begun);
    }
    const auto at = static_cast<std::size_t>(state);
    return at < offers.size() ? strdup(offers[at].c_str()) : nullptr;
}

inline char **complete(const char *begun, int, int) {
    rl_attempted_completion_over = 1;
    return rl_completion_matches(begun, next_offer);
}
#endif

class Input {
  public:
    // Reads from a file; from people where that is standard input and a terminal.
    Input(Desk &desk, std::FILE *file) : file_(file), people_(file == stdin && isatty(STDIN_FILENO) != 0) {
        desk.attended = desk.attended || people_;
#ifdef SHORE_LIBEDIT
        if (people_) {
            completed_desk = &desk;
            rl_initialize();
            using_history();
            stifle_history(1000);
            read_history(history().c_str());
            rl_attempted_completion_function = complete;
            static char breaks[] = " \t\n(){}|,=<>+-*";
            rl_completer_word_break_characters = breaks;
        }
#endif
    }
    bool people() const { return people_; }
    bool line(const std::string &prompt, std::string &read) {
#ifdef SHORE_LIBEDIT
        if (people_) {
            char *typed = readline(prompt.c_str());
            read = typed == nullptr ? "" : typed;
            std::free(typed);
            return typed != nullptr;
        }
#endif
        if (people_) {
            std::fputs(prompt.c_str(), stdout);
            std::fflush(stdout);
        }
        return plain(read);
    }
    // Keeps what people typed, in one line.
    void remember(const std::string &typed) {
#ifdef SHORE_LIBEDIT
        if (people_) {
            add_history(in_one_line(typed).c_str());
            write_history(history().c_str());
        }
#else
        static_cast<void>(typed);
#endif
    }

  private:
    bool plain(std::string &read) {
        read.clear();
        int c = 0;
        while ((c = std::fgetc(file_)) != EOF && c != '\n') {
            read += static_cast<char>(c);
        }
        if (!read.empty() && read.back() == '\r') {
            read.pop_back();
        }
        return c != EOF || !read.empty();
    }
    static std::string history() {
        const char *home = std::getenv("HOME");
        return std::string(home == nullptr ? "." : home) + "/.dislogha_history";
    }

    std::FILE *file_;
    bool people_;
};

} // namespace shore

#endif
