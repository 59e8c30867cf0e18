// Ctrl-C: looked at while a question runs and where a line is read.
#ifndef SHORE_INTERRUPT_H
#define SHORE_INTERRUPT_H

#include <csignal>

#include <sys/time.h>

namespace shore::interrupt {

inline volatile std::sig_atomic_t typed = 0;

// Every so many microseconds; 0 for no more.
inline void alarms(suseconds_t every) {
    const itimerval timer = {{0, every}, {0, every}};
    setitimer(ITIMER_REAL, &timer, nullptr);
}

// The signal may come just before a read begins, which would then wait all the same: alarms end it, until this was seen.
inline void on_interrupt(int) {
    typed = 1;
    alarms(20000);
}

inline void on_alarm(int) {}

inline void take_signals() {
    struct sigaction action = {};
    action.sa_handler = on_interrupt;
    sigaction(SIGINT, &action, nullptr);
    action.sa_handler = on_alarm;
    sigaction(SIGALRM, &action, nullptr);
}

// Whether it was typed since this was asked last.
inline bool seen() {
    if (typed == 0) {
        return false;
    }
    alarms(0);
    typed = 0;
    return true;
}

} // namespace shore::interrupt

#endif
