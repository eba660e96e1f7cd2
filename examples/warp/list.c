#include "list.h"

#include <stdlib.h>
#include <string.h>

fault list_grow(void *items, size_t *room, size_t count, size_t size)
{
    void *block;
    size_t wanted = *room == 0 ? 16 : 2 * *room;
    if (count < *room) return FAULT_NONE;
    memcpy(&block, items, sizeof block);
    block = realloc(block, wanted * size);
    if (block == NULL) return FAULT_MEMORY;
    memcpy(items, &block, sizeof block);
    *room = wanted;
    return FAULT_NONE;
}

fault events_push(events *list, const event *e)
{
    fault f = list_grow(&list->items, &list->room, list->count, sizeof *list->items);
    if (f == FAULT_NONE) list->items[list->count++] = *e;
    return f;
}

fault messages_push(messages *list, const message *m)
{
    fault f = list_grow(&list->items, &list->room, list->count, sizeof *list->items);
    if (f == FAULT_NONE) list->items[list->count++] = *m;
    return f;
}

void list_drop_first(void *items, size_t *count, size_t drop, size_t size)
{
    uint8_t *bytes = items;
    if (drop == 0) return;
    memmove(bytes, bytes + drop * size, (*count - drop) * size);
    *count -= drop;
}
