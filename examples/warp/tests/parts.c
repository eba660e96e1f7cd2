/*
 * Parts of the kernel by themselves: the logging period and the window as their rules say, the schedule against a plain search, a packed
 * process that is unpacked whole and cut short at each place, and which chunks are touched.
 *     parts [copies|place|undo]
 */
#include <stdio.h>
#include <stdlib.h>
#include <string.h>

#include "../pack.h"
#include "../period.h"
#include "../schedule.h"
#include "../window.h"

static int failed;

static void check(int holds, const char *what)
{
    if (holds) return;
    fprintf(stderr, "parts: %s\n", what);
    failed = 1;
}

/* ---- the logging period */

/* Has the period chosen anew at least once. */
static void adapt(period *p)
{
    unsigned k;
    for (k = 0; k <= PERIOD_RESTS; k++) period_adapt(p);
}

/* Notes logs of 1000 ns, events of 100 ns and so many rollbacks in a hundred thousand events, and chooses. */
static uint32_t choose(period *p, double rollbacks)
{
    unsigned k;
    p->own.rollbacks.count = 100000;
    p->own.rollbacks.sum = rollbacks;
    for (k = 0; k < 10; k++) {
        period_note_log(p, 1000);
        period_note_events(p, 200, 2);
    }
    adapt(p);
    return p->events;
}

/* How many of so many logs are timed, if each takes some nanoseconds. */
static unsigned count_timed(unsigned logs, uint64_t nanoseconds)
{
    period p;
    unsigned k, timed = 0;
    period_open(&p, 0);
    for (k = 0; k < logs; k++) {
        if (!period_times_log(&p)) continue;
        period_note_log(&p, nanoseconds);
        timed++;
    }
    return timed;
}

static void try_period(void)
{
    period p, fresh;
    unsigned k;
    period_open(&p, 7);
    check(choose(&p, 5000) == 7, "a fixed period changes");
    check(!period_times_log(&p) && !period_times_event(&p), "a fixed period looks at the clock");
    check(count_timed(370, 1000) == 10, "of short logs one in 37 is timed");
    period_open(&p, 0);
    check(choose(&p, 5100) == 20, "the period isn't sqrt(2 * 1000 / (0.051 * 101)) = 19.7");
    check(choose(&p, 20400) == 10, "with four times as many rollbacks the period isn't half as long");
    check(choose(&p, 2000000) == 1, "with twenty rollbacks an event the period isn't 1");
    check(choose(&p, 0) == PERIOD_LONGEST, "without rollbacks the period isn't the longest");
    period_note_log(&p, UINT64_C(1000000000));
    check(choose(&p, 5000) < 40, "a time that is an outlier counts in full");
    for (k = 0; k < 2000; k++) {
        period_note_run(&p);
        if (k % 20 == 0) period_note_rollback(&p);
    }
    adapt(&p);
    period_open(&fresh, 0);
    period_adapt(&fresh);
    check(fresh.events > 15 && fresh.events < 25, "the period of a process that ran nothing isn't as its worker's processes have it");
    check(count_timed(320, 100000) > 300, "long logs are all timed");
}

/* ---- the window */

static void try_window(void)
{
    window w;
    counts sums;
    memset(&sums, 0, sizeof sums);
    window_open(&w, 30);
    sums.undone = 100;
    window_adapt(&w, &sums);
    check(window_last(&w, 5, 1000) == 35 && window_last(&w, 990, 1000) == 1000, "a fixed window");
    window_open(&w, 0);
    memset(&sums, 0, sizeof sums);
    check(window_last(&w, 0, 1000) == 16, "the first window");
    sums.committed = 75;
    sums.undone = 25;
    window_adapt(&w, &sums);
    check(window_last(&w, 0, 1000) == 25, "the window doesn't grow where a quarter was undone");
    sums.committed += 74;
    sums.undone += 26;
    window_adapt(&w, &sums);
    check(window_last(&w, 0, 1000) == 12, "the window isn't halved where more than a quarter was undone");
    window_adapt(&w, &sums);
    check(window_last(&w, 0, 1000) == 12, "the window changes where nothing was run");
}

/* ---- the schedule */

enum { PROCESSES = 37, STEPS = 20000 };

static void try_schedule(void)
{
    uint64_t times[PROCESSES], random = 1, least;
    int is_in[PROCESSES] = {0};
    schedule s;
    uint32_t k, first = 0;
    unsigned step;
    if (schedule_open(&s, PROCESSES) != FAULT_NONE) exit(1);
    for (step = 0; step < STEPS; step++) {
        k = (uint32_t)model_random(&random, PROCESSES);
        if (model_random(&random, 4) == 0) {
            schedule_remove(&s, k);
            is_in[k] = 0;
        } else {
            times[k] = model_random(&random, 50);
            schedule_set(&s, k, times[k]);
            is_in[k] = 1;
        }
        for (least = UINT64_MAX, k = 0; k < PROCESSES; k++)
            if (is_in[k] && times[k] < least) least = times[k];
        check(schedule_first(&s, &first) == least && (least == UINT64_MAX || (is_in[first] && times[first] == least)), "the schedule");
    }
    schedule_close(&s);
}

/* ---- a packed process */

/* A process of PHOLD that ran some events, with one that waits for its event and some that are logged. */
static void run_some(process *p, const settings *s)
{
    messages out = {NULL, 0, 0};
    message early;
    size_t k;
    unsigned ran;
    if (process_open(p, s, 2, &out) != FAULT_NONE) exit(1);
    for (k = 0; k < out.count; k++) process_take(p, &out.items[k], &out);
    for (ran = 0; ran < 9; ran++) {
        size_t from = out.count;
        if (process_run(p, &out) != FAULT_NONE) exit(1);
        for (k = from; k < out.count; k++)
            if (out.items[k].event.receiver == 2) process_take(p, &out.items[k], &out);
    }
    memset(&early, 0, sizeof early);
    early.event.time = UINT64_MAX - 1;
    early.is_anti = 1;
    process_take(p, &early, &out);
    free(out.items);
}

/* Whether bytes are a process, which must have a checksum then. */
static fault unpack(const settings *s, const uint8_t *bytes, uint64_t length, uint64_t *sum)
{
    process p;
    fault f = process_unpack(&p, s, 2, bytes, length);
    if (f == FAULT_NONE && sum != NULL) f = process_checksum(&p, sum);
    process_close(&p);
    return f;
}

static void try_pack(const settings *s)
{
    process p;
    uint8_t *bytes = NULL;
    uint64_t length = 0, cut, before = 0, after = 0;
    run_some(&p, s);
    check(process_checksum(&p, &before) == FAULT_NONE, "a checksum before the move");
    check(process_pack(&p, &bytes, &length) == FAULT_NONE, "packing");
    check(unpack(s, bytes, length, &after) == FAULT_NONE && after == before, "a process that moved has another state");
    for (cut = 0; cut < length; cut += cut < 2000 ? 1 : 61)
        check(unpack(s, bytes, cut, NULL) == FAULT_MOVE, "bytes that were cut short are a process");
    bytes[0] ^= 1;
    check(unpack(s, bytes, length, NULL) == FAULT_MOVE, "another process is taken for this one");
    free(bytes);
}

/* ---- touches */

/* A chunk is touched when it is made and before it is written, and by neither after a log or a restore. */
static void try_touches(const settings *s)
{
    memory m;
    uint64_t bytes, restored;
    uint8_t *chunk;
    check(memory_open(&m, s->way, 4) == FAULT_NONE, "a state can't be opened");
    if (m.touches.segments != NULL) {
        chunk = s->way->alloc(&m, 100);
        check(touches_have(&m.touches, chunk) && touches_have(&m.touches, chunk + 99), "a new chunk isn't touched");
        check(memory_log(&m, 1, &bytes) == FAULT_NONE && !touches_have(&m.touches, chunk), "a chunk is touched after a log");
        s->way->write(&m, chunk + 50, 1);
        check(touches_have(&m.touches, chunk), "a chunk isn't touched before it is written");
        chunk[50] = 1;
        check(memory_restore(&m, 1, &restored) == FAULT_NONE && !touches_have(&m.touches, chunk), "a chunk is touched after a restore");
        check(chunk[50] == 0, "a restore leaves what was written");
    }
    memory_close(&m);
}

int main(int count, char **words)
{
    static settings s;
    char why[SETTINGS_WHY];
    char *own[] = {"parts", "phold", "--processes", "4", "--log-every", "4"};
    if (settings_read(&s, sizeof own / sizeof *own, own, why) != FAULT_NONE) return 1;
    s.way = memory_way_named(count > 1 ? words[1] : "copies");
    if (s.way == NULL) return 2;
    s.kind = &process_own; /* the library's isn't packed */
    try_period();
    try_window();
    try_schedule();
    try_pack(&s);
    try_touches(&s);
    return failed;
}
