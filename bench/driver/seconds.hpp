// How long a call takes: the processor's time of this thread, so that waiting while other programs run does not count.
#pragma once

#include <algorithm>
#include <ctime>

inline double thread_seconds() {
    timespec now;
    clock_gettime(CLOCK_THREAD_CPUTIME_ID, &now);
    return now.tv_sec + now.tv_nsec * 1e-9;
}

template <typename Call> double seconds_of(Call call) {
    double start = thread_seconds();
    call();
    return thread_seconds() - start;
}

// The least of the times so far: other work on the machine only ever adds to it.
struct Least {
    double seconds = 1e9;

    template <typename Call> double measure(Call call) {
        double now = seconds_of(call);
        seconds = std::min(seconds, now);
        return now;
    }
};
