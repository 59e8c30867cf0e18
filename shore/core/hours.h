// Days, minutes and open hours, by the engine's calls alone: here a minute is only split into its day and the minute of that day.
#ifndef SHORE_HOURS_H
#define SHORE_HOURS_H

#include <string>

#include "engine.h"

namespace shore {

constexpr std::int64_t minutes_of_day = 1440;
// The largest number that can be typed: more minutes than the years have, and far from the last one of 64 bits.
constexpr std::int64_t most_typed = INT64_C(999999999999);

// The weekday of a day of the years: a calendar that is open for one minute of each weekday, the first on Mondays up to the seventh on Sundays, is next
// open on that day, at the minute that is its weekday.
inline std::size_t weekday_of(std::int64_t day) {
    Calendar calendar;
    for (std::size_t i = 0; i < weekdays; i++) {
        calendar.windows.push_back({static_cast<std::uint8_t>(i), static_cast<std::uint16_t>(i), static_cast<std::uint16_t>(i + 1)});
    }
    const Bytes bytes = packed(calendar);
    const auto told = dislogha::first_open(span_of(bytes), 0, day * minutes_of_day);
    return static_cast<std::size_t>(static_cast<std::int64_t>(told.minute) - day * minutes_of_day);
}

// A minute, split: its day, which may be outside of the years, and the minute of that day.
struct Moment {
    std::int64_t day = 0;
    std::int64_t minute = 0;

    std::int64_t minute_number() const { return day * minutes_of_day + minute; }
    // 0, or 41 where the years have no such day.
    std::uint64_t number() const { return static_cast<std::uint64_t>(dislogha::date(static_cast<std::uint64_t>(day)).refusal); }
};

inline Moment moment_at(std::int64_t minute) {
    const std::int64_t of_day = (minute % minutes_of_day + minutes_of_day) % minutes_of_day;
    return {(minute - of_day) / minutes_of_day, of_day};
}

// Tue 2026-11-17.
inline std::string date_shown(std::int64_t day) {
    const auto date = dislogha::date(static_cast<std::uint64_t>(day));
    char digits[64];
    std::snprintf(digits, sizeof digits, "%04u-%02u-%02u", static_cast<unsigned>(date.year), static_cast<unsigned>(date.month),
                  static_cast<unsigned>(date.day));
    return weekday_shown(weekday_of(day)) + " " + digits;
}

// Tue 2026-11-17 09:30 (minute 14137050); outside of the years its number alone.
inline std::string shown(const Moment &moment) {
    const std::string number = "minute " + std::to_string(moment.minute_number());
    return moment.number() != 0 ? number : date_shown(moment.day) + " " + time_shown(moment.minute) + " (" + number + ")";
}

// Reads a date, as 2026-11-17; a date and a time, as 2026-11-17 09:30; or the number of a day or a minute, with a sign or without.
class MomentReading {
  public:
    // `unit` is how many minutes a number counts by.
    MomentReading(const std::string &typed, std::int64_t unit) {
        const std::size_t sign = typed[0] == '-' ? 1 : 0;
        if (unsigned_of(typed.substr(sign), most_typed) >= 0) {
            moment_ = moment_at((sign == 1 ? -1 : 1) * unit * part(typed.substr(sign)));
            return;
        }
        const std::size_t end = typed.find_first_of(" T");
        date(typed.substr(0, end));
        time(end == std::string::npos ? "00:00" : typed.substr(end + 1));
    }
    const Moment &moment() const { return moment_; }
    // 41 where a date that does not exist was typed.
    std::uint64_t number() const { return number_; }
    // Whether anything is not understood.
    bool wrong() const { return wrong_; }

  private:
    std::int64_t part(const std::string &digits) {
        const std::int64_t value = unsigned_of(digits, most_typed);
        wrong_ = wrong_ || value < 0 || value > most_typed;
        return value;
    }
    std::uint64_t part_of(const std::string &date, std::size_t from, std::size_t to) {
        return static_cast<std::uint64_t>(part(date.substr(from, to - from)));
    }
    void date(const std::string &typed) {
        const std::size_t month = typed.find('-') + 1;
        const std::size_t day = month == 0 ? 0 : typed.find('-', month) + 1;
        wrong_ = day == 0;
        if (!wrong_) {
            const auto told = dislogha::day_number(part_of(typed, 0, month - 1), part_of(typed, month, day - 1), part_of(typed, day, typed.size()));
            number_ = static_cast<std::uint64_t>(told.refusal);
            moment_.day = static_cast<std::int64_t>(told.day);
        }
    }
    void time(const std::string &typed) {
        moment_.minute = time_of(typed);
        wrong_ = wrong_ || moment_.minute < 0 || moment_.minute >= minutes_of_day;
    }

    Moment moment_;
    std::uint64_t number_ = 0;
    bool wrong_ = false;
};

// ------------------------------------------------------------------------------------------ calendars

// The engine's word on calendars, 0 or 41: it is asked for one that nobody can lend, and that is 42 where they keep the layout.
inline std::uint64_t layout_number(const Bytes &calendars) {
    const auto told = dislogha::first_open(span_of(calendars), dislogha::text::most_byte, 0);
    return told.refusal == dislogha::Refusal::calendar_not_lent ? 0 : static_cast<std::uint64_t>(told.refusal);
}

struct CalendarFault {
    // 0 where the calendars are not refused.
    std::uint64_t number = 0;
    std::size_t calendar = 0;
    // What of it is refused.
    std::string what;
};

inline std::string refused_part(const Calendars &calendars) {
    const Calendar &last = calendars.back();
    for (const Window &window : last.windows) {
        if (layout_number(packed(Calendar{"", {window}})) != 0) {
            return shown(window);
        }
    }
    return layout_number(packed(last)) != 0 ? "it has " + std::to_string(last.windows.size()) + " windows"
                                            : "there are " + std::to_string(calendars.size() - 1) + " before it";
}

// The place of a refusal: the engine is asked about fewer calendars, then about one window.
inline CalendarFault fault_of(const Calendars &calendars) {
    CalendarFault fault;
    fault.number = layout_number(packed(calendars));
    Calendars first;
    while (fault.number != 0 && fault.what.empty()) {
        first.push_back(calendars[first.size()]);
        if (layout_number(packed(first)) != 0) {
            fault.calendar = first.size() - 1;
            fault.what = refused_part(first);
        }
    }
    return fault;
}

// What a calendar is at a minute: open, or when it opens. 42 where it is not lent.
struct Hours {
    std::uint64_t number = 0;
    bool open = false;
    bool opens = false;
    Moment first;
};

inline Hours hours_at(const Bytes &calendars, std::uint64_t calendar, const Moment &moment) {
    const auto told = dislogha::first_open(span_of(calendars), calendar, moment.minute_number());
    const Moment first = moment_at(static_cast<std::int64_t>(told.minute));
    return {static_cast<std::uint64_t>(told.refusal), told.found && first.minute_number() == moment.minute_number(), told.found, first};
}

// `open`, or `closed; it opens Wed 2026-11-18 08:00 (minute 14138400)`; `at` is put behind the first word.
inline std::string shown(const Hours &hours, const std::string &at) {
    const std::string later = hours.opens ? "; it opens " + shown(hours.first) : "; it opens no more";
    return hours.open ? "open" + at : "closed" + at + later;
}

} // namespace shore

#endif
