#include "flat.h"

#include <stdlib.h>
#include <string.h>

enum { CHUNKS_AT = (sizeof(flat) + 63) / 64 * 64, QUOTA_MOST = 1024 };

flat *flat_open(uint32_t quota)
{
    uint64_t room = CHUNKS_AT + (uint64_t)quota * FLAT_SEGMENT;
    flat *f = malloc(room);
    if (f == NULL) return NULL;
    memset(f, 0, CHUNKS_AT);
    f->used = CHUNKS_AT;
    f->room = room;
    return f;
}

static uint32_t class_of(size_t length)
{
    uint32_t class = FLAT_LEAST;
    while (class < FLAT_MOST && (size_t)1 << class < length) class++;
    return class;
}

void *flat_alloc(flat *f, size_t length, flat_keep *keep, void *owner)
{
    uint32_t class = class_of(length);
    size_t size = (size_t)1 << class;
    void *chunk = f->free[class];
    if (length > size || (chunk == NULL && f->room - f->used < size)) return NULL;
    if (chunk != NULL) {
        if (keep != NULL) keep(owner, &f->free[class], sizeof(void *));
        if (keep != NULL) keep(owner, chunk, sizeof(void *)); /* what else a free chunk has, nobody asks for */
        memcpy(&f->free[class], chunk, sizeof(void *));
    } else {
        if (keep != NULL) keep(owner, &f->used, sizeof f->used);
        chunk = (uint8_t *)f + f->used;
        f->used += size;
    }
    return memset(chunk, 0, size);
}

void flat_free(flat *f, void *chunk, size_t length, flat_keep *keep, void *owner)
{
    uint32_t class = class_of(length);
    if (keep != NULL) {
        keep(owner, &f->free[class], sizeof(void *));
        keep(owner, chunk, (size_t)1 << class);
    }
    memcpy(chunk, &f->free[class], sizeof(void *));
    f->free[class] = chunk;
}

/* The bytes are the address of the block, and what of it is used. */
fault flat_save(const flat *f, uint8_t **bytes, uint64_t *length)
{
    uintptr_t at = (uintptr_t)f;
    *length = sizeof at + f->used;
    *bytes = malloc(*length);
    if (*bytes == NULL) return FAULT_MEMORY;
    memcpy(*bytes, &at, sizeof at);
    memcpy(*bytes + sizeof at, f, f->used);
    return FAULT_NONE;
}

fault flat_load(flat **f, const uint8_t *bytes, uint64_t length, uintptr_t *distance)
{
    uintptr_t at;
    flat head;
    uint32_t class;
    if (length < sizeof at + sizeof head) return FAULT_MOVE;
    memcpy(&at, bytes, sizeof at);
    memcpy(&head, bytes + sizeof at, sizeof head);
    if (head.used != length - sizeof at || head.room < head.used || head.room > CHUNKS_AT + (uint64_t)QUOTA_MOST * FLAT_SEGMENT)
        return FAULT_MOVE;
    *f = malloc(head.room);
    if (*f == NULL) return FAULT_MEMORY;
    memcpy(*f, bytes + sizeof at, head.used);
    *distance = (uintptr_t)*f - at;
    for (class = FLAT_LEAST; class <= FLAT_MOST; class++) {
        /* each link of a list of free chunks is the address of the next, and lies where the last one was read from */
        uint8_t *link = (uint8_t *)&(*f)->free[class];
        uintptr_t next;
        for (memcpy(&next, link, sizeof next); next != 0; memcpy(&next, link, sizeof next)) {
            next += *distance;
            memcpy(link, &next, sizeof next);
            link = (uint8_t *)next;
        }
    }
    return FAULT_NONE;
}
