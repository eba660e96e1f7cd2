#include "pending.h"

#include <string.h>

/* How many events come after an event. */
static size_t count_after(const events *pending, const event *e)
{
    size_t low = 0, high = pending->count;
    while (low < high) {
        size_t middle = low + (high - low) / 2;
        if (event_order(&pending->items[middle], e) > 0)
            low = middle + 1;
        else
            high = middle;
    }
    return low;
}

const event *pending_first(const events *pending)
{
    return pending->count > 0 ? &pending->items[pending->count - 1] : NULL;
}

fault pending_put(events *pending, const event *e)
{
    size_t at = count_after(pending, e);
    fault f = list_grow(&pending->items, &pending->room, pending->count, sizeof *e);
    if (f != FAULT_NONE) return f;
    memmove(&pending->items[at + 1], &pending->items[at], (pending->count - at) * sizeof *e);
    pending->items[at] = *e;
    pending->count++;
    return FAULT_NONE;
}

void pending_take(events *pending, event *e)
{
    *e = pending->items[--pending->count];
}

int pending_remove(events *pending, const event *e)
{
    size_t at = count_after(pending, e);
    if (at == pending->count || event_order(&pending->items[at], e) != 0) return 0;
    pending->count--;
    memmove(&pending->items[at], &pending->items[at + 1], (pending->count - at) * sizeof *e);
    return 1;
}
