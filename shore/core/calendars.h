// Calendars as the desk keeps them, how people write their windows, and their bytes: records of kind 24. Whether one keeps the layout the engine says.
#ifndef SHORE_CALENDARS_H
#define SHORE_CALENDARS_H

#include <cstdio>
#include <string>
#include <vector>

#include "tables.h"

namespace shore {

constexpr std::size_t weekdays = 7;
// The most that a window's two bytes hold.
constexpr std::int64_t most_minute = 65535;

struct Window {
    // 0 Monday to 6 Sunday.
    std::uint8_t weekday = 0;
    // Minutes of the day: the first one in it, and the first one behind it.
    std::uint16_t first = 0;
    std::uint16_t end = 0;
};

// Its number is its place among the calendars.
struct Calendar {
    std::string name;
    std::vector<Window> windows;
};

using Calendars = std::vector<Calendar>;

// The number of the calendar that is called so; their count where none is.
inline std::size_t calendar_called(const Calendars &calendars, const std::string &name) {
    std::size_t number = 0;
    while (number < calendars.size() && calendars[number].name != name) {
        number++;
    }
    return number;
}

inline Bytes packed(const Calendar &calendar) {
    Bytes bytes;
    put(bytes, static_cast<std::uint32_t>(1 + 5 * calendar.windows.size()), 2);
    put(bytes, 24, 2);
    put(bytes, static_cast<std::uint32_t>(calendar.windows.size()), 1);
    for (const Window &window : calendar.windows) {
        put(bytes, window.weekday, 1);
        put(bytes, window.first, 2);
        put(bytes, window.end, 2);
    }
    return bytes;
}

inline Bytes packed(const Calendars &calendars) {
    Bytes bytes;
    for (const Calendar &calendar : calendars) {
        const Bytes one = packed(calendar);
        bytes.insert(bytes.end(), one.begin(), one.end());
    }
    return bytes;
}

// ------------------------------------------------------------------------------------ as people write

inline const char *weekday_name(std::size_t weekday) {
    constexpr const char *names[weekdays] = {"Monday", "Tuesday", "Wednesday", "Thursday", "Friday", "Saturday", "Sunday"};
    return names[weekday];
}

// Mon, or the number of one that there is not.
inline std::string weekday_shown(std::size_t weekday) {
    return weekday < weekdays ? std::string(weekday_name(weekday), 3) : std::to_string(weekday);
}

// By three letters or more, in either case; -1 where it is none.
inline int weekday_called(const std::string &word) {
    for (std::size_t weekday = 0; word.size() >= 3 && weekday < weekdays; weekday++) {
        const std::string name = weekday_name(weekday);
        bool same = word.size() <= name.size();
        for (std::size_t i = 0; same && i < word.size(); i++) {
            same = (word[i] | ' ') == (name[i] | ' ');
        }
        if (same) {
            return static_cast<int>(weekday);
        }
    }
    return -1;
}

// 09:30.
inline std::string time_shown(std::int64_t minute) {
    char digits[32];
    std::snprintf(digits, sizeof digits, "%02lld:%02lld", static_cast<long long>(minute / 60), static_cast<long long>(minute % 60));
    return digits;
}

// The minute of the day that `09:30` is, up to 99:59: whether a day has it the engine says. -1 where it is no time.
inline std::int64_t time_of(const std::string &word) {
    const std::size_t colon = word.find(':');
    const std::int64_t hours = colon > 2 ? -1 : unsigned_of(word.substr(0, colon), 99);
    const std::int64_t minutes = word.size() - colon != 3 ? -1 : unsigned_of(word.substr(colon + 1), 59);
    return hours < 0 || minutes < 0 || minutes > 59 ? -1 : 60 * hours + minutes;
}

inline std::string shown(const Window &window) {
    return weekday_shown(window.weekday) + " " + time_shown(window.first) + "-" + time_shown(window.end);
}

// Windows as they are typed: `Mon-Fri 08:00-12:00 13:00-16:00 Sat Sun 06:00-24:00`, or `never`. Times are those of the weekdays before them. A weekday may be
// a number, too, up to 255: whether there is one the engine says.
class WindowsReading {
  public:
    explicit WindowsReading(const std::string &typed) {
        std::size_t at = 0;
        while (good() && (at = typed.find_first_not_of(spaces, at)) != std::string::npos) {
            const std::size_t end = typed.find_first_of(spaces, at);
            word(typed.substr(at, end == std::string::npos ? end : end - at));
            at = end == std::string::npos ? typed.size() : end;
        }
        // Weekdays without times, or nothing at all; `never`, and yet hours.
        if (good() && (gathering_ || never_ != windows_.empty())) {
            fault_ = "hours are written as Mon-Fri 08:00-16:00, or never";
        }
    }
    const std::vector<Window> &windows() const { return windows_; }
    // What is not understood, if anything is.
    const std::string &fault() const { return fault_; }

  private:
    static constexpr const char *spaces = " \t\r\n,";

    bool good() const { return fault_.empty(); }
    void word(const std::string &word) {
        const std::size_t dash = word.find('-');
        const std::string left = word.substr(0, dash);
        const std::string right = dash == std::string::npos ? left : word.substr(dash + 1);
        const std::int64_t number = unsigned_of(word, dislogha::text::most_byte);
        if (word == "never") {
            never_ = true;
        } else if (number >= 0 && number <= dislogha::text::most_byte) {
            days(static_cast<int>(number), static_cast<int>(number));
        } else if (weekday_called(left) >= 0 && weekday_called(right) >= 0) {
            days(weekday_called(left), weekday_called(right));
        } else if (dash != std::string::npos && time_of(left) >= 0 && time_of(right) >= 0) {
            times(time_of(left), time_of(right));
        } else {
            fault_ = "'" + word + "' is neither weekdays, as Mon or Mon-Fri, nor times, as 08:00-16:00";
        }
    }
    // The weekdays from one to the other, which may be over a Sunday.
    void days(int from, int to) {
        if (!gathering_) {
            days_.clear();
        }
        gathering_ = true;
        for (std::size_t day = static_cast<std::size_t>(from);; day = (day + 1) % weekdays) {
            days_.push_back(static_cast<std::uint8_t>(day));
            if (days_.back() == to) {
                return;
            }
        }
    }
    void times(std::int64_t first, std::int64_t end) {
        gathering_ = false;
        if (days_.empty()) {
            fault_ = "weekdays stand before times, as Mon-Fri 08:00-16:00";
        }
        for (std::uint8_t day : days_) {
            windows_.push_back({day, static_cast<std::uint16_t>(first), static_cast<std::uint16_t>(end)});
        }
    }

    std::vector<Window> windows_;
    std::vector<std::uint8_t> days_;
    // Whether weekdays are being read, and no times behind them yet.
    bool gathering_ = false;
    bool never_ = false;
    std::string fault_;
};

// The same back: weekdays one behind another that have the same times are written once.
inline std::string windows_text(const std::vector<Window> &windows) {
    std::string written;
    for (std::size_t i = 0; i < windows.size();) {
        std::size_t last = i;
        while (last + 1 < windows.size() && windows[last + 1].weekday == windows[last].weekday + 1 &&
               windows[last + 1].first == windows[i].first && windows[last + 1].end == windows[i].end) {
            last++;
        }
        const std::string one = shown(windows[i]);
        const std::string to = last == i ? "" : "-" + weekday_shown(windows[last].weekday);
        written += (i == 0 ? "" : ", ") + one.substr(0, one.find(' ')) + to + one.substr(one.find(' '));
        i = last + 1;
    }
    return windows.empty() ? "never" : written;
}

} // namespace shore

#endif
