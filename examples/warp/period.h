/*
 * How many events a process runs from one log to the next. A log after each event costs most where nothing goes wrong; with few logs, a
 * rollback runs more events again, half a period of them on average. With s the time of a log, e that of an event and r the rollbacks for
 * each event, a period of k costs s / k + r * (k - 1) / 2 * e for each event, which is least at k = sqrt(2 s / (r e)).
 *
 * This is the square-root rule for checkpoints (Young, "A first order approximation to the optimum checkpoint interval", CACM 17(9), 1974),
 * in the cost model that Rönngren and Ayani use for Time Warp ("Adaptive checkpointing in Time Warp", PADS 1994). Each process measures its
 * own s, e and r. Of a process that has run little, what its worker's processes measured is expected: so the period is right from the first
 * logs on, and not only when each process has taken some. What is old is forgotten by halves. To look at the clock takes about as long as a
 * small log, so that such logs, and events, are timed now and then.
 */
#ifndef PERIOD_H
#define PERIOD_H

#include <stdint.h>

/* The longest period: a process that was never rolled back still keeps logs, so that its events can go. And the most times that a period
 * stays as it is until it is chosen anew. */
enum { PERIOD_LONGEST = 256, PERIOD_RESTS = 8 };

/* What was measured in all, and how often. */
typedef struct mean {
    double sum;
    double count;
} mean;

/* The nanoseconds of a log and of an event, and the rollbacks for each event. */
typedef struct costs {
    mean log;
    mean event;
    mean rollbacks;
} costs;

typedef struct period {
    uint32_t events; /* the period */
    int is_chosen;   /* by the rule; else it stays */
    costs own;
    uint32_t log_pass, event_pass; /* how many more pass until one is timed */
    uint32_t ran;                  /* events that are yet to be added to what was measured */
    uint32_t rest, rests;          /* how often it stays as it is until it is chosen anew, and how often the next time */
} period;

/* A period of so many events, or, for 0, one that the rule chooses. */
void period_open(period *p, uint32_t events);

/* The nanoseconds since a moment, less those that the clock takes. */
uint64_t period_since(uint64_t start);

/* Whether the next log is to be timed, and what it took; the same of an event. Events that are run again are always timed, together: they are
 * what a longer period costs, and they may take a quarter of the time that they took at first, since what they need is near. */
int period_times_log(period *p);
int period_times_event(period *p);
void period_note_log(period *p, uint64_t nanoseconds);
void period_note_events(period *p, uint64_t nanoseconds, uint64_t count);

/* An event was run, or some were undone. */
static inline void period_note_run(period *p)
{
    p->ran++;
}

void period_note_rollback(period *p);

/* Chooses the period anew, at first each time and later now and then. */
void period_adapt(period *p);

#endif
