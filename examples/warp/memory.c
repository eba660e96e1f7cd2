#include "memory.h"

#include <string.h>

const memory_way *const memory_ways[] = {
    &memory_copies, &memory_place, &memory_undo,
#ifdef WARP_TOLD
    &memory_told,
#endif
    NULL,
};

const memory_way *memory_way_named(const char *name)
{
    const memory_way *const *way = memory_ways;
    while (*way != NULL && strcmp((*way)->name, name) != 0) way++;
    return *way;
}

static void clear(memory *m, const memory_way *way)
{
    memset(m, 0, sizeof *m);
    m->way = way;
}

fault memory_open(memory *m, const memory_way *way, uint32_t quota)
{
    clear(m, way);
    return way->open(m, quota);
}

fault memory_open_over(memory *m, const memory_way *way, dym_object *object)
{
    clear(m, way);
    return way->open_over(m, object);
}

void memory_note_log(memory *m)
{
    m->touches.interval++;
}

fault memory_fault(dym_status status)
{
    switch (status) {
    case DYM_DONE: return FAULT_NONE;
    case DYM_MEMORY: return FAULT_MEMORY;
    case DYM_QUOTA:
    case DYM_TOO_LARGE: return FAULT_QUOTA;
    default: return FAULT_LOG;
    }
}

void memory_close(memory *m)
{
    if (m->way != NULL && m->inside != NULL) m->way->close(m);
    m->inside = NULL;
}

void memory_begin(memory *m)
{
    if (m->way->begin != NULL) m->way->begin(m);
}

void memory_end(memory *m)
{
    if (m->way->end != NULL) m->way->end(m);
}

fault memory_log(memory *m, uint64_t time, uint64_t *bytes)
{
    return m->way->log(m, time, bytes);
}

fault memory_restore(memory *m, uint64_t time, uint64_t *restored)
{
    return m->way->restore(m, time, restored);
}

fault memory_prune(memory *m, uint64_t bound)
{
    return m->way->prune(m, bound);
}

fault memory_save(memory *m, uint8_t **bytes, uint64_t *length)
{
    return m->way->save(m, bytes, length);
}

fault memory_load(memory *m, const memory_way *way, const uint8_t *bytes, uint64_t length, uintptr_t *distance)
{
    clear(m, way);
    return way->load(m, bytes, length, distance);
}
