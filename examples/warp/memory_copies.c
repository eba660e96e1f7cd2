/*
 * --save copies: the state is one flat block, and a log is a copy of all of it, as most kernels do. Nothing is to be said before a write.
 */
#include "memory.h"

#include <stdlib.h>
#include <string.h>

#include "flat.h"
#include "list.h"

/* A copy of the block, in bytes that stay for another copy when the log goes. */
typedef struct copy {
    uint64_t time;
    uint64_t length;
    uint64_t room;
    uint8_t *bytes;
} copy;

typedef struct copies {
    flat *flat;
    copy *logs;   /* the first `count` are kept, oldest first; up to `made` there are bytes for more */
    size_t count;
    size_t made;
    size_t room;
} copies;

static fault open_with(memory *m, flat *block)
{
    copies *own = block != NULL ? calloc(1, sizeof *own) : NULL;
    if (own == NULL) {
        free(block);
        return FAULT_MEMORY;
    }
    own->flat = block;
    m->inside = own;
    return FAULT_NONE;
}

static fault copies_open(memory *m, uint32_t quota)
{
    return open_with(m, flat_open(quota));
}

static void copies_close(memory *m)
{
    copies *own = m->inside;
    size_t k;
    for (k = 0; k < own->made; k++) free(own->logs[k].bytes);
    free(own->logs);
    free(own->flat);
    free(own);
}

static void *copies_alloc(memory *m, size_t length)
{
    copies *own = m->inside;
    void *chunk = flat_alloc(own->flat, length, NULL, NULL);
    if (chunk == NULL) fault_end(FAULT_QUOTA);
    return chunk;
}

static void copies_free(memory *m, void *chunk, size_t length)
{
    copies *own = m->inside;
    flat_free(own->flat, chunk, length, NULL, NULL);
}

/* Makes sure that there are bytes for one more copy. */
static fault make_room(copies *own, uint64_t length)
{
    copy *log;
    uint8_t *bytes;
    fault f = list_grow(&own->logs, &own->room, own->count, sizeof *own->logs);
    if (f != FAULT_NONE) return f;
    log = &own->logs[own->count];
    if (own->count == own->made) memset(log, 0, sizeof *log);
    if (log->room < length) {
        bytes = realloc(log->bytes, length);
        if (bytes == NULL) return FAULT_MEMORY;
        log->bytes = bytes;
        log->room = length;
    }
    if (own->count == own->made) own->made++;
    return FAULT_NONE;
}

static fault copies_log(memory *m, uint64_t time, uint64_t *bytes)
{
    copies *own = m->inside;
    copy *log;
    fault f;
    if (own->count == MEMORY_LOGS || (own->count > 0 && own->logs[own->count - 1].time >= time)) return FAULT_LOG;
    f = make_room(own, own->flat->used);
    if (f != FAULT_NONE) return f;
    log = &own->logs[own->count++];
    log->time = time;
    log->length = *bytes = own->flat->used;
    memcpy(log->bytes, own->flat, log->length);
    return FAULT_NONE;
}

/* How many logs have a time at or before a bound. */
static size_t count_up_to(const copies *own, uint64_t bound)
{
    size_t k = own->count;
    while (k > 0 && own->logs[k - 1].time > bound) k--;
    return k;
}

static fault copies_restore(memory *m, uint64_t time, uint64_t *restored)
{
    copies *own = m->inside;
    size_t count = count_up_to(own, time);
    if (count == 0) return FAULT_LOG;
    own->count = count;
    memcpy(own->flat, own->logs[count - 1].bytes, own->logs[count - 1].length);
    *restored = own->logs[count - 1].time;
    return FAULT_NONE;
}

/* The logs that go change places with those that stay, and lie behind them then. */
static fault copies_prune(memory *m, uint64_t bound)
{
    copies *own = m->inside;
    size_t count = count_up_to(own, bound), gone = count > 0 ? count - 1 : 0, k;
    if (gone == 0) return FAULT_NONE;
    for (k = 0; k + gone < own->count; k++) {
        copy kept = own->logs[k + gone];
        own->logs[k + gone] = own->logs[k];
        own->logs[k] = kept;
    }
    own->count -= gone;
    return FAULT_NONE;
}

static fault copies_save(memory *m, uint8_t **bytes, uint64_t *length)
{
    copies *own = m->inside;
    return flat_save(own->flat, bytes, length);
}

static fault copies_load(memory *m, const uint8_t *bytes, uint64_t length, uintptr_t *distance)
{
    flat *block;
    fault f = flat_load(&block, bytes, length, distance);
    return f != FAULT_NONE ? f : open_with(m, block);
}

const memory_way memory_copies = {
    .name = "copies",
    .says = "a flat state, copied whole at each log",
    .open = copies_open,
    .close = copies_close,
    .alloc = copies_alloc,
    .free = copies_free,
    .log = copies_log,
    .restore = copies_restore,
    .prune = copies_prune,
    .save = copies_save,
    .load = copies_load,
};
