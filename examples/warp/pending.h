/*
 * The events that a process has still to run, in the reverse order of their keys: the next one is the last, so that taking it costs
 * nothing, and putting one back costs as much as there are before it. A process has a few dozen; they are moved in one piece.
 */
#ifndef PENDING_H
#define PENDING_H

#include "list.h"

/* The next event, or null. */
const event *pending_first(const events *pending);

fault pending_put(events *pending, const event *e);
void pending_take(events *pending, event *e);

/* Takes out this very event (one with its key), and answers whether it was there. */
int pending_remove(events *pending, const event *e);

#endif
