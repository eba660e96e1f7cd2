/*
 * What many objects weigh and cost: so many are opened, each runs some events with a log behind each, each is rolled back some events and must
 * have the state of then, and is pruned and closed. It prints a line of a CSV file; the columns stand in checks/long/many-objects.
 *     many COUNT
 */
#define _POSIX_C_SOURCE 200809L

#include "dymelor.h"

#include <stdio.h>
#include <stdlib.h>
#include <string.h>
#include <time.h>

enum { EVENTS = 12, BACK = 6 };

typedef struct state {
    uint64_t events;
    uint8_t rest[192];
} state;

typedef struct process {
    dym_object heap;
    dym_handle chunk;
    state *state;
} process;

static void must(dym_status status)
{
    if (status == DYM_DONE) return;
    fprintf(stderr, "many: a call answered %u: %s\n", (unsigned)status, dym_status_text(status));
    exit(1);
}

static double now(void)
{
    struct timespec t;
    clock_gettime(CLOCK_MONOTONIC, &t);
    return (double)t.tv_sec * 1e9 + (double)t.tv_nsec;
}

/* A line of /proc/self/status, in KiB. */
static double kib_of(const char *name)
{
    char line[200];
    double found = -1;
    size_t length = strlen(name);
    FILE *file = fopen("/proc/self/status", "r");
    if (file == NULL) exit(1);
    while (fgets(line, sizeof line, file) != NULL)
        if (strncmp(line, name, length) == 0) found = strtod(line + length, NULL);
    fclose(file);
    return found;
}

static void start(process *p)
{
    must(dym_open(&p->heap, 4, 2));
}

/* The state is made at time 0, which has the first log. */
static void make_state(process *p)
{
    void *place = NULL;
    must(dym_malloc_at(&p->heap, sizeof *p->state, &p->chunk, &place));
    p->state = place;
    memset(p->state, 0, sizeof *p->state);
    must(dym_log(&p->heap, DYM_FULL, 0, NULL));
}

static void run_event(process *p, uint64_t time)
{
    must(dym_touch(&p->heap, p->chunk, NULL));
    p->state->events = time;
    p->state->rest[time] = (uint8_t)time;
    must(dym_log(&p->heap, DYM_INCREMENTAL, time, NULL));
}

static void roll_back(process *p)
{
    uint64_t back = 0;
    must(dym_restore(&p->heap, EVENTS - BACK, &back));
    if (back == EVENTS - BACK && p->state->events == back && p->state->rest[back] == back && p->state->rest[back + 1] == 0) return;
    fprintf(stderr, "many: an object isn't what it was at the log\n");
    exit(1);
}

static void end(process *p)
{
    must(dym_prune_before(&p->heap, EVENTS - BACK, NULL));
    must(dym_close(&p->heap));
}

int main(int words, char **word)
{
    size_t count = words == 2 ? strtoul(word[1], NULL, 10) : 0, k;
    process *all = calloc(count, sizeof *all);
    double before, page_tables, idle, logged, began, opening, running, restoring;
    uint64_t time;
    if (count == 0 || all == NULL) return 2;
    memset(all, 0, count * sizeof *all);
    before = kib_of("VmRSS:"), page_tables = kib_of("VmPTE:"), began = now();
    for (k = 0; k < count; k++) start(&all[k]);
    opening = now() - began, idle = kib_of("VmRSS:") - before;
    for (k = 0; k < count; k++) make_state(&all[k]);
    began = now();
    for (time = 1; time <= EVENTS; time++)
        for (k = 0; k < count; k++) run_event(&all[k], time);
    running = (now() - began) / EVENTS, logged = kib_of("VmRSS:") - before, page_tables = kib_of("VmPTE:") - page_tables, began = now();
    for (k = 0; k < count; k++) roll_back(&all[k]);
    restoring = now() - began;
    for (k = 0; k < count; k++) end(&all[k]);
    free(all);
    printf("%zu,%.1f,%.1f,%.1f,%.0f,%.0f,%.0f\n", count, idle / (double)count, logged / (double)count, page_tables / (double)count,
           opening / (double)count, running / (double)count, restoring / (double)count);
    return 0;
}
