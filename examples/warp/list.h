/* Lists that grow, of events and of messages. Where a list can't grow the answer is FAULT_MEMORY, and the list stays. */
#ifndef LIST_H
#define LIST_H

#include <stddef.h>

#include "event.h"
#include "fault.h"

typedef struct events {
    event *items;
    size_t count;
    size_t room;
} events;

typedef struct messages {
    message *items;
    size_t count;
    size_t room;
} messages;

/* Gives an array of `room` items, each of `size` bytes, room for more than `count`. `items` is the address of the array's pointer. */
fault list_grow(void *items, size_t *room, size_t count, size_t size);

fault events_push(events *list, const event *e);
fault messages_push(messages *list, const message *m);

/* Takes the first items out of an array. */
void list_drop_first(void *items, size_t *count, size_t drop, size_t size);

#endif
