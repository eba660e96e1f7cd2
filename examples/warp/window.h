/*
 * How far ahead of the bound events are run. A wide window keeps all workers busy, and lets those that run alone for a while run into what
 * is undone later; it also bounds the memory for events and logs. A chosen window is halved where more than a quarter of the events since
 * the last bound was undone, and else grows by half. What it goes by is summed over all workers, so that all choose the same.
 */
#ifndef WINDOW_H
#define WINDOW_H

#include "counts.h"

typedef struct window {
    uint64_t span;
    int is_chosen;
    uint64_t committed, undone; /* up to the last bound */
} window;

/* A window of a span that stays, or, for 0, one that is chosen. */
void window_open(window *w, uint64_t span);

/* Chooses the window anew at a bound. */
void window_adapt(window *w, const counts *sums);

/* The last time up to which events are run. */
uint64_t window_last(const window *w, uint64_t bound, uint64_t end);

#endif
