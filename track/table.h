/*
 * Which chunks of an object are touched, as far as it is known beside the object: a bit for each chunk, so that a store into a chunk that is
 * touched needs no call. A bit that is set is right: the chunk was touched by a call, and no log, restore or close came since, for each of
 * these begins a new era of the table. A chunk is touched as it is given, so that no free or malloc clears a bit, and one that isn't live may
 * have its bit set. The chunk of the last store is remembered: most stores follow one into the same chunk.
 */
#ifndef DYMELOR_TABLE_H
#define DYMELOR_TABLE_H

#include <stdatomic.h>
#include <stddef.h>
#include <stdint.h>

enum { AREA_BITS = 16, AREA_BYTES = 1 << AREA_BITS, CLASSES = 12, LEAST_EXPONENT = 5, WORD_BITS = 64 };

/* The 64 KiB of an object's block that one area takes: chunks of one class. */
typedef struct area {
    uint64_t era;      /* in which the bits were cleared: in another they count as clear */
    uint64_t *touched; /* a bit for each chunk */
    uint32_t exponent; /* a chunk has 2^exponent bytes */
} area;

typedef struct table table;
struct table {
    uintptr_t start; /* of the object's block */
    size_t size;
    area *areas; /* one for each 64 KiB of the block */
    _Atomic size_t chunk;       /* where in the block the remembered chunk lies */
    _Atomic size_t chunk_bytes; /* 0 where none is remembered */
    _Atomic uint64_t era;
    atomic_int is_closed;
    atomic_uint holders; /* the threads that name the object, and the object itself while it is open */
    table *next;         /* in its bucket */
};

/* That of no object: a store into none of its bytes is made. */
extern table dym_no_table;

/* The bits of an area are cleared for the table's era. */
void dym_area_begin_era(const table *t, area *a);

/* A table for an open object. Null where memory is wanting. */
table *dym_table_open(uintptr_t start, uint32_t quota);

/* The object is closed: no bit is set any more, and none is set from now on by a thread that still holds the table. */
void dym_table_close(uintptr_t start);

/* The table of an open object, held until it is released; null where the object has none. */
table *dym_table_hold(uintptr_t start);
void dym_table_release(table *t);

/* No chunk of an object counts as touched. */
void dym_table_begin_era(uintptr_t start);

/* The area at a place of the block, and the number of a chunk in its area. */
static inline area *area_at(const table *t, size_t offset)
{
    return &t->areas[offset >> AREA_BITS];
}

static inline size_t area_chunk(const area *a, size_t offset)
{
    return (offset & (AREA_BYTES - 1)) >> a->exponent;
}

/* Where the chunk at a place of the block ends. */
static inline size_t area_end(const area *a, size_t offset)
{
    return ((offset >> a->exponent) + 1) << a->exponent;
}

/* Whether a chunk is known to be touched. */
static inline int area_knows(const table *t, const area *a, size_t chunk)
{
    return a->era == atomic_load_explicit(&t->era, memory_order_relaxed) && (a->touched[chunk / WORD_BITS] >> chunk % WORD_BITS & 1) != 0;
}

/* The chunk is touched now. */
static inline void area_note(const table *t, area *a, size_t chunk)
{
    if (a->era != atomic_load_explicit(&t->era, memory_order_relaxed)) dym_area_begin_era(t, a);
    a->touched[chunk / WORD_BITS] |= UINT64_C(1) << chunk % WORD_BITS;
}

/* Whether the chunk at a place of the block is the remembered one, which is touched. */
static inline int table_remembers(const table *t, size_t offset)
{
    return offset - atomic_load_explicit(&t->chunk, memory_order_relaxed) < atomic_load_explicit(&t->chunk_bytes, memory_order_relaxed);
}

/* The chunk at a place of the block, which is touched, is remembered. */
static inline void table_remember(table *t, const area *a, size_t offset)
{
    size_t bytes = (size_t)1 << a->exponent;
    atomic_store_explicit(&t->chunk, offset & ~(bytes - 1), memory_order_relaxed);
    atomic_store_explicit(&t->chunk_bytes, bytes, memory_order_relaxed);
}

static inline void table_begin_era(table *t)
{
    atomic_store_explicit(&t->chunk_bytes, 0, memory_order_relaxed);
    atomic_store_explicit(&t->era, atomic_load_explicit(&t->era, memory_order_relaxed) + 1, memory_order_relaxed);
}

static inline int table_is_open(const table *t)
{
    return !atomic_load_explicit(&t->is_closed, memory_order_relaxed);
}

#endif
