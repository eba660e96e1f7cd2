/* Events and messages, which are the library's, and the order in which a process runs its events. */
#ifndef EVENT_H
#define EVENT_H

#include <stdint.h>

#include "dymelor_process.h"

/*
 * An event: what its receiver is to do at a time. The key (time, priority, sender, serial) decides the order; the models here leave the priority 0. Runs
 * differ in serials, but not in the order of the events that stand: what a process sends later, in the order of its own events, has the greater one.
 * The fields leave no gap, so that an event can go to another rank as its bytes.
 */
typedef dym_event event;

/* An event on its way, or the word that it was never sent: an anti-message. On its way to another worker `mark` is MESSAGE_MARK: bytes without it are no
 * message. */
typedef dym_message message;

enum { MESSAGE_MARK = 0x57415250 };

/* Below, at or above 0 as the first event comes before, is or comes after the second. */
static inline int event_order(const event *a, const event *b)
{
    if (a->time != b->time) return a->time < b->time ? -1 : 1;
    if (a->priority != b->priority) return a->priority < b->priority ? -1 : 1;
    if (a->sender != b->sender) return a->sender < b->sender ? -1 : 1;
    if (a->serial != b->serial) return a->serial < b->serial ? -1 : 1;
    return 0;
}

#endif
