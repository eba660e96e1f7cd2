/*
 * --save undo: what a simulator can do by hand. The state is one flat block, and before bytes of it change they are appended to a list of
 * before-images, as often as the model says that it writes. A log is a place in that list; a restore puts the bytes back, the last first.
 */
#include "memory.h"

#include <stdlib.h>
#include <string.h>

#include "flat.h"
#include "list.h"

/* What stands behind each before-image: where its bytes belong, and how many they are. */
typedef struct tail {
    uint8_t *at;
    size_t length;
} tail;

/* A log: how long the list of all before-images ever appended was. */
typedef struct mark {
    uint64_t time;
    uint64_t place;
} mark;

typedef struct undo {
    flat *flat;
    uint8_t *images;
    uint64_t first; /* the place of the first byte that is still there */
    uint64_t count; /* how many bytes are there */
    uint64_t room;
    mark *marks;
    size_t logs;
    size_t marks_room;
} undo;

/* Bytes of an image, rounded up so that each tail is aligned. */
static size_t rounded(size_t length)
{
    return (length + 7) / 8 * 8;
}

static fault open_with(memory *m, flat *block)
{
    undo *own = block != NULL ? calloc(1, sizeof *own) : NULL;
    if (own == NULL) {
        free(block);
        return FAULT_MEMORY;
    }
    own->flat = block;
    m->inside = own;
    return FAULT_NONE;
}

static fault undo_open(memory *m, uint32_t quota)
{
    return open_with(m, flat_open(quota));
}

static void undo_close(memory *m)
{
    undo *own = m->inside;
    free(own->images);
    free(own->marks);
    free(own->flat);
    free(own);
}

static void grow(undo *own, uint64_t more)
{
    uint64_t room = own->room > 0 ? own->room : 512;
    uint8_t *images;
    while (room < own->count + more) room *= 2;
    images = realloc(own->images, room);
    if (images == NULL) fault_end(FAULT_MEMORY);
    own->images = images;
    own->room = room;
}

static void keep(void *owner, void *at, size_t length)
{
    undo *own = owner;
    size_t bytes = rounded(length);
    tail t = {at, length};
    if (own->room - own->count < bytes + sizeof t) grow(own, bytes + sizeof t);
    memcpy(own->images + own->count, at, length);
    memcpy(own->images + own->count + bytes, &t, sizeof t);
    own->count += bytes + sizeof t;
}

static void undo_write(memory *m, void *at, size_t length)
{
    keep(m->inside, at, length);
}

static void *undo_alloc(memory *m, size_t length)
{
    undo *own = m->inside;
    void *chunk = flat_alloc(own->flat, length, keep, own);
    if (chunk == NULL) fault_end(FAULT_QUOTA);
    return chunk;
}

static void undo_free(memory *m, void *chunk, size_t length)
{
    undo *own = m->inside;
    flat_free(own->flat, chunk, length, keep, own);
}

static fault undo_log(memory *m, uint64_t time, uint64_t *bytes)
{
    undo *own = m->inside;
    uint64_t place = own->first + own->count;
    fault f = list_grow(&own->marks, &own->marks_room, own->logs, sizeof *own->marks);
    if (f != FAULT_NONE) return f;
    if (own->logs == MEMORY_LOGS || (own->logs > 0 && own->marks[own->logs - 1].time >= time)) return FAULT_LOG;
    *bytes = place - (own->logs > 0 ? own->marks[own->logs - 1].place : 0);
    own->marks[own->logs].time = time;
    own->marks[own->logs++].place = place;
    return FAULT_NONE;
}

static fault undo_restore(memory *m, uint64_t time, uint64_t *restored)
{
    undo *own = m->inside;
    uint64_t down_to;
    while (own->logs > 0 && own->marks[own->logs - 1].time > time) own->logs--;
    if (own->logs == 0) return FAULT_LOG;
    *restored = own->marks[own->logs - 1].time;
    down_to = own->marks[own->logs - 1].place - own->first;
    while (own->count > down_to) {
        tail t;
        memcpy(&t, own->images + own->count - sizeof t, sizeof t);
        own->count -= rounded(t.length) + sizeof t;
        memcpy(t.at, own->images + own->count, t.length);
    }
    return FAULT_NONE;
}

static fault undo_prune(memory *m, uint64_t bound)
{
    undo *own = m->inside;
    size_t gone = 0;
    uint64_t bytes;
    while (gone + 1 < own->logs && own->marks[gone + 1].time <= bound) gone++;
    list_drop_first(own->marks, &own->logs, gone, sizeof *own->marks);
    bytes = own->logs > 0 ? own->marks[0].place - own->first : 0;
    if (bytes > 0) memmove(own->images, own->images + bytes, own->count - bytes);
    own->first += bytes;
    own->count -= bytes;
    return FAULT_NONE;
}

static fault undo_save(memory *m, uint8_t **bytes, uint64_t *length)
{
    undo *own = m->inside;
    return flat_save(own->flat, bytes, length);
}

static fault undo_load(memory *m, const uint8_t *bytes, uint64_t length, uintptr_t *distance)
{
    flat *block;
    fault f = flat_load(&block, bytes, length, distance);
    return f != FAULT_NONE ? f : open_with(m, block);
}

const memory_way memory_undo = {
    .name = "undo",
    .says = "a flat state, whose bytes are kept by hand before each write",
    .open = undo_open,
    .close = undo_close,
    .alloc = undo_alloc,
    .free = undo_free,
    .write = undo_write,
    .log = undo_log,
    .restore = undo_restore,
    .prune = undo_prune,
    .save = undo_save,
    .load = undo_load,
};
