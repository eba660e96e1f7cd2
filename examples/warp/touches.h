/*
 * Which chunks of a state an event may write, since they were touched after the last log or restore. Most events write to the same few
 * chunks, and a chunk that was touched needn't be again: so that is looked at in place, before the way to save the state is called.
 */
#ifndef TOUCHES_H
#define TOUCHES_H

#include <stddef.h>
#include <stdint.h>

/* A state's block has segments of so many bytes; all chunks of a segment have one size, a power of two. */
enum { TOUCHES_SEGMENT = 65536 };

/* What is known of a chunk: the interval in which it was touched last, and its name. */
typedef struct touch {
    uint64_t interval;
    uint64_t chunk;
} touch;

typedef struct segment {
    touch *chunks; /* one behind the other; null where no chunk was made yet */
    unsigned size; /* of a chunk, as the exponent of 2 */
} segment;

/* It is zero where each write is said, and where none is. */
typedef struct touches {
    uintptr_t start;   /* where the block begins */
    uint64_t interval; /* between two logs or restores: counted, from 1 on */
    segment *segments;
} touches;

/* What is known of the chunk at an address. */
static inline touch *touches_at(const touches *t, const void *at)
{
    uintptr_t offset = (uintptr_t)at - t->start;
    const segment *s = &t->segments[offset / TOUCHES_SEGMENT];
    return &s->chunks[offset % TOUCHES_SEGMENT >> s->size];
}

/* Whether the chunk at an address is known to be touched. */
static inline int touches_have(const touches *t, const void *at)
{
    return t->segments != NULL && touches_at(t, at)->interval == t->interval;
}

#endif
