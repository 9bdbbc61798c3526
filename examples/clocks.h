/* Readings of this machine's clock in microseconds, on the safe side where its date is set while a program runs: a receiver takes
 * the later of the date and of a clock that can't be set, and a sender the earlier. Let each be read once as the program starts. */
#ifndef CLOCKS_H
#define CLOCKS_H

#include <stdint.h>
#include <time.h>

static inline uint64_t microseconds(clockid_t clock) {
    struct timespec now;
    clock_gettime(clock, &now);
    return (uint64_t)now.tv_sec * 1000000 + (uint64_t)now.tv_nsec / 1000;
}

/* The date of the first call, and what the clock that can't be set has gone on since. */
static inline uint64_t steady_date(void) {
    static uint64_t ahead;
    if (!ahead) ahead = microseconds(CLOCK_REALTIME) - microseconds(CLOCK_BOOTTIME);
    return ahead + microseconds(CLOCK_BOOTTIME);
}

static inline uint64_t receiver_reading(void) {
    uint64_t date = microseconds(CLOCK_REALTIME), steady = steady_date();
    return date > steady ? date : steady;
}

static inline uint64_t sender_reading(void) {
    uint64_t date = microseconds(CLOCK_REALTIME), steady = steady_date();
    return date < steady ? date : steady;
}

#endif
