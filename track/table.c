/*
 * The tables of all open objects, found by where an object's block begins, in buckets so that threads seldom wait for each other.
 */
#include "table.h"

#include <sched.h>
#include <stdlib.h>
#include <string.h>

enum { BUCKETS = 256 };

typedef struct bucket {
    atomic_int is_locked;
    table *first;
} bucket;

static bucket buckets[BUCKETS];

table dym_no_table;

/* The bucket of a block, locked. */
static bucket *lock(uintptr_t start)
{
    bucket *b = &buckets[((uint64_t)(start >> 4) * UINT64_C(0x9e3779b97f4a7c15)) >> 56];
    while (atomic_exchange_explicit(&b->is_locked, 1, memory_order_acquire)) sched_yield();
    return b;
}

static void unlock(bucket *b)
{
    atomic_store_explicit(&b->is_locked, 0, memory_order_release);
}

/* Where the table of a block hangs in its bucket; there hangs null where it has none. */
static table **find(bucket *b, uintptr_t start)
{
    table **t = &b->first;
    while (*t != NULL && (*t)->start != start) t = &(*t)->next;
    return t;
}

/* How many words have the bits of an area. */
static size_t words(uint32_t exponent)
{
    size_t chunks = (size_t)AREA_BYTES >> exponent;
    return (chunks + WORD_BITS - 1) / WORD_BITS;
}

/* The areas of a block, and behind them their bits: area j of a class is the class's number times the quota, and j. */
static area *areas_of(uint32_t quota)
{
    size_t count = (size_t)CLASSES * quota, bits = 0, k;
    area *areas;
    uint64_t *touched;
    for (k = 0; k < CLASSES; k++) bits += quota * words((uint32_t)(LEAST_EXPONENT + k));
    areas = calloc(1, count * sizeof *areas + bits * sizeof *touched);
    if (areas == NULL) return NULL;
    touched = (uint64_t *)(areas + count);
    for (k = 0; k < count; k++) {
        areas[k].exponent = (uint32_t)(LEAST_EXPONENT + k / quota);
        areas[k].touched = touched;
        touched += words(areas[k].exponent);
    }
    return areas;
}

table *dym_table_open(uintptr_t start, uint32_t quota)
{
    table *t = calloc(1, sizeof *t);
    bucket *b;
    if (t == NULL) return NULL;
    t->areas = areas_of(quota);
    if (t->areas == NULL) {
        free(t);
        return NULL;
    }
    t->start = start;
    t->size = (size_t)CLASSES * quota * AREA_BYTES;
    atomic_init(&t->chunk, 0);
    atomic_init(&t->chunk_bytes, 0);
    atomic_init(&t->era, 1);
    atomic_init(&t->is_closed, 0);
    atomic_init(&t->holders, 1);
    b = lock(start);
    t->next = b->first;
    b->first = t;
    unlock(b);
    return t;
}

void dym_table_close(uintptr_t start)
{
    bucket *b = lock(start);
    table **place = find(b, start), *t = *place;
    if (t != NULL) *place = t->next;
    unlock(b);
    if (t == NULL) return;
    atomic_store_explicit(&t->is_closed, 1, memory_order_relaxed);
    table_begin_era(t);
    dym_table_release(t);
}

table *dym_table_hold(uintptr_t start)
{
    bucket *b = lock(start);
    table *t = *find(b, start);
    if (t != NULL) atomic_fetch_add_explicit(&t->holders, 1, memory_order_relaxed);
    unlock(b);
    return t;
}

void dym_table_release(table *t)
{
    if (atomic_fetch_sub_explicit(&t->holders, 1, memory_order_acq_rel) > 1) return;
    free(t->areas);
    free(t);
}

void dym_table_begin_era(uintptr_t start)
{
    bucket *b = lock(start);
    table *t = *find(b, start);
    if (t != NULL) table_begin_era(t);
    unlock(b);
}

void dym_area_begin_era(const table *t, area *a)
{
    memset(a->touched, 0, words(a->exponent) * sizeof *a->touched);
    a->era = atomic_load_explicit(&t->era, memory_order_relaxed);
}
