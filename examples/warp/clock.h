/* Wall time, and the time of processors. */
#ifndef CLOCK_H
#define CLOCK_H

#include <stdint.h>
#include <time.h>

static inline uint64_t clock_of(clockid_t clock)
{
    struct timespec t;
    clock_gettime(clock, &t);
    return (uint64_t)t.tv_sec * UINT64_C(1000000000) + (uint64_t)t.tv_nsec;
}

/* Nanoseconds since some moment, the same for all programs of one machine. */
static inline uint64_t clock_now(void)
{
    return clock_of(CLOCK_MONOTONIC);
}

/* Nanoseconds that this thread has had a processor. */
static inline uint64_t clock_processor(void)
{
    return clock_of(CLOCK_THREAD_CPUTIME_ID);
}

#endif
