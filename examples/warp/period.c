#include "period.h"

#include <string.h>

#include "clock.h"

/* The first period of those that are chosen, and how often the clock is looked at to see what that takes. */
enum { FIRST = 4, LOOKS = 16 };

/* How many short logs, and how many events, pass from one that is timed to the next: with it 37, so that nothing which comes round by powers of
 * two is always met. A log that takes LONG nanoseconds is always timed. A time counts as at most OUTLIER times the mean, since a thread that
 * loses the processor meanwhile measures the other's time. */
enum { PASSED = 36, LONG = 1600, OUTLIER = 4 };

/* How many events a process remembers, and its worker. What the worker measured counts as much as PRIOR of a process's own times, and its
 * rollbacks as those of PRIOR_EVENTS events. */
enum { MEMORY = 2048, WORKER_MEMORY = 16384, PRIOR = 2, PRIOR_EVENTS = 64 };

/* What all processes of this worker measured. Before the first rollback one in so many events is expected. */
static _Thread_local costs worker = {{0, 0}, {0, 0}, {1, 32}};

/* The least time from one look at the clock to the next that this worker saw. */
static _Thread_local uint64_t clock_cost = UINT64_MAX;

static void measure_clock(void)
{
    unsigned k;
    for (k = 0; k < LOOKS; k++) {
        uint64_t start = clock_now(), time = clock_now() - start;
        if (time < clock_cost) clock_cost = time;
    }
}

void period_open(period *p, uint32_t events)
{
    memset(p, 0, sizeof *p);
    p->events = events > 0 ? events : FIRST;
    p->is_chosen = events == 0;
    if (p->is_chosen && clock_cost == UINT64_MAX) measure_clock();
}

static double value_of(const mean *m)
{
    return m->count > 0 ? m->sum / m->count : 0;
}

/* What is expected of a process: its own mean, with the worker's for so many more. */
static double expected(const mean *own, const mean *all, double prior)
{
    return (own->sum + prior * value_of(all)) / (own->count + prior);
}

static int times_next(uint32_t *pass)
{
    if (*pass > 0) {
        --*pass;
        return 0;
    }
    *pass = PASSED;
    return 1;
}

int period_times_log(period *p)
{
    return p->is_chosen && (expected(&p->own.log, &worker.log, PRIOR) >= LONG || times_next(&p->log_pass));
}

int period_times_event(period *p)
{
    return p->is_chosen && times_next(&p->event_pass);
}

static void add(mean *m, double sum, double count)
{
    m->sum += sum;
    m->count += count;
}

uint64_t period_since(uint64_t start)
{
    uint64_t time = clock_now() - start;
    return time > clock_cost ? time - clock_cost : 0;
}

/* Notes what so many took. */
static void note(mean *own, mean *all, uint64_t nanoseconds, double count)
{
    double time = (double)nanoseconds, most = OUTLIER * (expected(own, all, PRIOR) + 1) * count;
    if (all->count > 0 && time > most) time = most;
    add(own, time, count);
    add(all, time, count);
}

void period_note_events(period *p, uint64_t nanoseconds, uint64_t count)
{
    note(&p->own.event, &worker.event, nanoseconds, (double)count);
}

void period_note_log(period *p, uint64_t nanoseconds)
{
    note(&p->own.log, &worker.log, nanoseconds, 1);
}

void period_note_rollback(period *p)
{
    p->own.rollbacks.sum += 1;
    worker.rollbacks.sum += 1;
}

static void halve(mean *m)
{
    m->sum /= 2;
    m->count /= 2;
}

static void forget(costs *c)
{
    halve(&c->log);
    halve(&c->event);
    halve(&c->rollbacks);
}

/* The least period whose square is at least a number. */
static uint32_t root_of(double square)
{
    uint32_t low = 1, high = PERIOD_LONGEST;
    while (low < high) {
        uint32_t middle = (low + high) / 2;
        if ((double)middle * middle < square)
            low = middle + 1;
        else
            high = middle;
    }
    return low;
}

/* To choose it takes about as long as an event. */
static int is_due(period *p)
{
    if (p->rest > 0) {
        p->rest--;
        return 0;
    }
    if (p->rests < PERIOD_RESTS) p->rests++;
    p->rest = p->rests;
    return 1;
}

void period_adapt(period *p)
{
    double log, event, rollbacks;
    if (!p->is_chosen || worker.log.count == 0 || worker.event.count == 0 || !is_due(p)) return;
    p->own.rollbacks.count += p->ran;
    worker.rollbacks.count += p->ran;
    p->ran = 0;
    log = expected(&p->own.log, &worker.log, PRIOR);
    event = expected(&p->own.event, &worker.event, PRIOR) + 1; /* more than nothing, whatever the clock says */
    rollbacks = expected(&p->own.rollbacks, &worker.rollbacks, PRIOR_EVENTS);
    p->events = root_of(2 * log / (event * rollbacks));
    if (p->own.rollbacks.count >= MEMORY) forget(&p->own);
    if (worker.rollbacks.count >= WORKER_MEMORY) forget(&worker);
}
