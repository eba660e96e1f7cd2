/*
 * The shortest simulator over processes of the library: two that send each other tokens, in one thread. Each token waits a time that depends on
 * what its receiver has seen, so that tokens come out of order, and processes are rolled back.
 *   cc -I include examples/process.c "$(checks/lib/c-library)" && ./a.out
 */
#include "dymelor_process.h"

#include <inttypes.h>
#include <stdio.h>
#include <stdlib.h>

enum { PROCESSES = 2, END = 1000, MOST = 64 };

typedef struct state {
    uint64_t seen;
} state;

static dym_process processes[PROCESSES];
static dym_handle chunks[PROCESSES];
static state *states[PROCESSES]; /* a chunk stays at its address */

static void must(dym_status status)
{
    if (status == DYM_DONE) return;
    fprintf(stderr, "process: %s\n", dym_status_text(status));
    exit(1);
}

/* Makes the state of a process, and sends two tokens, to itself. */
static void start(uint32_t k)
{
    dym_event first = dym_event_to(k, 1 + k, 0, 0, 0);
    void *place;
    must(dym_calloc_at(&processes[k].object, 1, sizeof(state), &chunks[k], &place));
    states[k] = place;
    must(dym_process_send(&processes[k], &first));
    must(dym_process_send(&processes[k], &first));
}

/* Runs an event: counts the token, and sends it on. */
static void run(uint32_t k, const dym_event *event)
{
    dym_event next;
    must(dym_touch(&processes[k].object, chunks[k], NULL)); /* before the first write */
    states[k]->seen++;
    next = dym_event_to((k + 1) % PROCESSES, event->time + 1 + (states[k]->seen * 7 + event->time) % 5, 0, 0, 0);
    if (next.time <= END) must(dym_process_send(&processes[k], &next));
}

/* Runs the next event of a process, and before it what a rollback has it run again. Answers whether there was one. */
static int run_next(uint32_t k)
{
    uint32_t how = DYM_REPLAYED;
    dym_event event;
    while (how & DYM_REPLAYED) {
        dym_status status = dym_process_begin(&processes[k], &event, &how);
        if (status == DYM_NONE) return 0;
        must(status);
        run(k, &event);
        must(dym_process_end(&processes[k]));
    }
    return 1;
}

/* Takes what processes send to their receivers, and what that makes them send, until nothing is on its way. Answers how many events were undone. */
static uint64_t deliver(void)
{
    static dym_message messages[MOST];
    uint64_t undone = 0, count, k, gone;
    uint32_t from, quiet;
    for (from = 0, quiet = 0; quiet < PROCESSES; from = (from + 1) % PROCESSES) {
        must(dym_process_outbox(&processes[from], messages, MOST, &count));
        for (k = 0; k < count; k++) {
            must(dym_process_take(&processes[messages[k].event.receiver], &messages[k], &gone));
            undone += gone;
        }
        quiet = count == 0 ? quiet + 1 : 0;
    }
    return undone;
}

/* The bound: no event before it comes any more, since nothing is on its way. */
static uint64_t bound(void)
{
    uint64_t least = UINT64_MAX, time;
    uint32_t k;
    for (k = 0; k < PROCESSES; k++)
        if (dym_process_next(&processes[k], &time) == DYM_DONE && time < least) least = time;
    return least;
}

int main(void)
{
    dym_process_config config = {.processes = PROCESSES, .period = 4, .quota = 1, .version = 2};
    uint64_t committed = 0, undone = 0, limit, gone;
    uint32_t k;
    int ahead;
    for (k = 0; k < PROCESSES; k++) {
        config.number = k;
        must(dym_process_open(&processes[k], &config));
        start(k);
        must(dym_process_end(&processes[k]));
    }
    do {
        undone += deliver();
        limit = bound();
        for (k = 0; k < PROCESSES; k++) {
            must(dym_process_commit(&processes[k], limit, &gone));
            committed += gone;
            for (ahead = 0; ahead < 8 && run_next(k);) ahead++;
        }
    } while (limit < UINT64_MAX);
    for (k = 0; k < PROCESSES; k++) {
        printf("process %" PRIu32 " saw %" PRIu64 " tokens\n", k, states[k]->seen);
        must(dym_process_close(&processes[k]));
    }
    printf("%" PRIu64 " events, %" PRIu64 " undone on the way\n", committed, undone);
    return 0;
}
