#include "schedule.h"

#include <stdlib.h>

fault schedule_open(schedule *s, uint32_t processes)
{
    uint32_t k;
    s->count = 0;
    for (s->leaves = 2; s->leaves < processes; s->leaves *= 2) continue;
    s->nodes = calloc(2 * (size_t)s->leaves, sizeof *s->nodes);
    s->own = calloc(processes, sizeof *s->own);
    s->places = calloc(processes, sizeof *s->places);
    if (s->nodes == NULL || s->own == NULL || s->places == NULL) return FAULT_MEMORY;
    for (k = 0; k < 2 * s->leaves; k++) s->nodes[k].time = UINT64_MAX;
    for (k = 0; k < processes; k++) s->places[k] = UINT32_MAX;
    return FAULT_NONE;
}

void schedule_close(schedule *s)
{
    free(s->nodes);
    free(s->own);
    free(s->places);
}

/* The earlier one of two, by masks: a conditional expression would become a branch. */
static entry earlier(entry a, entry b)
{
    uint64_t takes_b = 0 - (uint64_t)(b.time < a.time);
    entry first = {a.time ^ ((a.time ^ b.time) & takes_b), a.process ^ ((a.process ^ b.process) & takes_b)};
    return first;
}

/* Gives a process's leaf a time, and plays what is above it anew. */
static void play(schedule *s, uint32_t process, uint64_t time)
{
    uint32_t at = s->leaves + process;
    entry first = {time, process};
    s->nodes[at] = first;
    for (; at > 1; at /= 2) {
        first = earlier(first, s->nodes[at ^ 1]);
        s->nodes[at / 2] = first;
    }
}

void schedule_set(schedule *s, uint32_t process, uint64_t time)
{
    if (s->places[process] == UINT32_MAX) {
        s->places[process] = s->count;
        s->own[s->count++] = process;
    } else if (s->nodes[s->leaves + process].time == time) {
        return;
    }
    play(s, process, time);
}

void schedule_remove(schedule *s, uint32_t process)
{
    uint32_t at = s->places[process], last;
    if (at == UINT32_MAX) return;
    last = s->own[--s->count];
    s->own[at] = last;
    s->places[last] = at;
    s->places[process] = UINT32_MAX;
    play(s, process, UINT64_MAX);
}

uint64_t schedule_first(const schedule *s, uint32_t *process)
{
    if (s->nodes[1].time != UINT64_MAX) *process = (uint32_t)s->nodes[1].process;
    return s->nodes[1].time;
}
