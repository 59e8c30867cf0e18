// What is wrong with a text that is not understood, with what may have been meant.
#ifndef SHORE_FAULTS_H
#define SHORE_FAULTS_H

#include <string>
#include <vector>

#include "question.h"

namespace shore {

// How many characters must be put in, left out or changed to make one word the other.
inline std::size_t distance(const std::string &a, const std::string &b) {
    std::vector<std::size_t> row(b.size() + 1);
    for (std::size_t j = 0; j <= b.size(); j++) {
        row[j] = j;
    }
    for (std::size_t i = 1; i <= a.size(); i++) {
        std::size_t diagonal = row[0];
        row[0] = i;
        for (std::size_t j = 1; j <= b.size(); j++) {
            const std::size_t kept = diagonal + (a[i - 1] == b[j - 1] ? 0 : 1);
            diagonal = row[j];
            const std::size_t shorter = row[j] < row[j - 1] ? row[j] : row[j - 1];
            row[j] = kept < shorter + 1 ? kept : shorter + 1;
        }
    }
    return row.back();
}

inline std::string nearest(const std::string &word, const std::vector<std::string> &known) {
    std::string best;
    std::size_t least = word.size() < 3 ? 2 : 3;
    for (const std::string &each : known) {
        const std::size_t apart = distance(word, each);
        if (apart < least && apart < each.size()) {
            least = apart;
            best = each;
        }
    }
    return best.empty() ? "" : "; is '" + best + "' meant?";
}

inline std::string wrong_column(const text::Fault &fault, const std::string &word) {
    if (fault.left != Sort::record) {
        const char *is = fault.left == Sort::number       ? "a number"
                         : fault.left == Sort::truth      ? "a truth"
                         : fault.left == Sort::collection ? "a collection"
                                                          : "not known";
        return std::string("only a record has columns; what stands left of the point is ") + is;
    }
    std::vector<std::string> has;
    std::string listed;
    for (std::size_t i = 0; i < fault.has_count; i++) {
        has.push_back(string_of(fault.has[i]));
        listed += (i == 0 ? "" : ", ") + (has[i].empty() ? std::to_string(i) : has[i]);
    }
    const std::string near = nearest(word, has);
    return "no column is called '" + word + "'" + (near.empty() ? "; there are " + listed : near);
}

inline std::string no_calendar(const Calendars &calendars, const std::string &word) {
    std::vector<std::string> known;
    for (const Calendar &calendar : calendars) {
        known.push_back(calendar.name);
    }
    return "no calendar is called '" + word + "'" + nearest(word, known);
}

// A sentence for people.
inline std::string said(const Question &question) {
    const text::Fault &fault = question.fault;
    const std::string word = question.typed.substr(fault.at.from, fault.at.to - fault.at.from);
    switch (fault.wrong) {
    case text::Wrong::no_such_column: return wrong_column(fault, word);
    case text::Wrong::no_such_name: {
        std::vector<std::string> known;
        for (const Table &table : question.stored.tables) {
            known.push_back(table.name);
        }
        return "no name and no table is called '" + word + "' here" + nearest(word, known);
    }
    case text::Wrong::no_such_calendar: return no_calendar(question.stored.calendars, word);
    case text::Wrong::unknown_character: return "'" + word + "' begins nothing that can stand here";
    default: return text::sentence(fault.wrong);
    }
}

} // namespace shore

#endif
