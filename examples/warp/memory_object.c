/*
 * --save place and --save told: the state is an object of the library, whose chunks lie at addresses that stay. In place, the chunk is touched
 * before a write; where stores are told nothing is said: dymelor-cc compiled the models, and the object is named while an event runs.
 */
#include "memory.h"

#include <stdlib.h>
#include <string.h>

#include "dymelor.h"
#ifdef WARP_TOLD
#include "dymelor_track.h"
#endif

/* The name that a state has in a checkpoint file. */
static const char file_name[] = {'p', 'r', 'o', 'c', 'e', 's', 's'};

/* The block has as many segments for each class as the quota says, in which all classes together have fewer than so many chunks. */
enum { CLASSES = 12, MOST_CHUNKS = 4096 };

/*
 * Chunks of a state that moved lie elsewhere, so that it is logged once more with its new pointers, after the log that it came with: the
 * library's time of a log is the number of events before it, and of moves.
 *
 * What is known of the chunks is address space, of which memory is taken where there are chunks.
 */
typedef struct object {
    dym_object *heap; /* its own, or a process's */
    dym_object own;
    uint64_t moves;
    touch *room; /* for all chunks that there can be */
    size_t used;
} object;

static void must(dym_status status)
{
    if (status != DYM_DONE) fault_end(memory_fault(status));
}

/* Closes an object, which may be half open. */
static void discard(memory *m, object *own)
{
    dym_close(&own->own);
    free(m->touches.segments);
    free(own->room);
    free(own);
    m->touches.segments = NULL;
}

/* Finds where the chunks of an object lie that was just opened, and makes room for what is known of them. */
static dym_status prepare(memory *m, object *own)
{
    const void *start = NULL;
    dym_heap heap = {0};
    dym_status status = dym_start(own->heap, &start);
    if (status == DYM_DONE) status = dym_inspect(own->heap, &heap);
    if (status != DYM_DONE) return status;
    own->room = calloc((size_t)heap.quota * MOST_CHUNKS, sizeof *own->room);
    m->touches.start = (uintptr_t)start;
    m->touches.interval = 1;
    m->touches.segments = calloc((size_t)heap.quota * CLASSES, sizeof *m->touches.segments);
    return own->room != NULL && m->touches.segments != NULL ? DYM_DONE : DYM_MEMORY;
}

/* An object that isn't open yet, or null. */
static object *object_made(void)
{
    object *own = calloc(1, sizeof *own);
    if (own != NULL) own->heap = &own->own;
    return own;
}

/* In version 2 a chunk is as long as was asked. */
static fault object_open(memory *m, uint32_t quota)
{
    object *own = object_made();
    dym_status status;
    if (own == NULL) return FAULT_MEMORY;
    status = dym_open(own->heap, quota, 2);
    if (status == DYM_DONE) status = prepare(m, own);
    if (status == DYM_DONE)
        m->inside = own;
    else
        discard(m, own);
    return memory_fault(status);
}

static fault object_open_over(memory *m, dym_object *heap)
{
    object *own = object_made();
    dym_status status;
    if (own == NULL) return FAULT_MEMORY;
    own->heap = heap;
    status = prepare(m, own);
    if (status == DYM_DONE)
        m->inside = own;
    else
        discard(m, own);
    return memory_fault(status);
}

static void object_close(memory *m)
{
    discard(m, m->inside);
}

/* Notes a chunk that is touched. Each class of chunks has segments of its own, in which they lie one behind the other. */
static void note_chunk(memory *m, object *own, dym_handle handle, const void *chunk)
{
    segment *s = &m->touches.segments[((uintptr_t)chunk - m->touches.start) / TOUCHES_SEGMENT];
    touch *t;
    if (s->chunks == NULL) {
        s->size = handle.exponent;
        s->chunks = own->room + own->used;
        own->used += TOUCHES_SEGMENT >> s->size;
    }
    if (s->size != handle.exponent) fault_end(FAULT_LOG);
    t = touches_at(&m->touches, chunk);
    t->chunk = dym_number(handle);
    t->interval = m->touches.interval;
}

/* A new chunk is touched. */
static void *object_alloc(memory *m, size_t length)
{
    object *own = m->inside;
    dym_handle handle;
    void *chunk = NULL;
    must(dym_malloc_at(own->heap, length, &handle, &chunk));
    note_chunk(m, own, handle, chunk);
    return chunk;
}

static void object_free(memory *m, void *chunk, size_t length)
{
    object *own = m->inside;
    (void)length;
    must(dym_free(own->heap, dym_numbered(touches_at(&m->touches, chunk)->chunk)));
}

static void place_write(memory *m, void *at, size_t length)
{
    object *own = m->inside;
    touch *t = touches_at(&m->touches, at);
    (void)length;
    must(dym_touch(own->heap, dym_numbered(t->chunk), NULL));
    t->interval = m->touches.interval;
}

/* A log copies nothing. */
static fault object_log(memory *m, uint64_t time, uint64_t *bytes)
{
    object *own = m->inside;
    dym_status status = dym_log(own->heap, DYM_INCREMENTAL, time + own->moves, NULL);
    m->touches.interval++;
    *bytes = 0;
    return memory_fault(status);
}

static fault object_restore(memory *m, uint64_t time, uint64_t *restored)
{
    object *own = m->inside;
    dym_status status = dym_restore(own->heap, time + own->moves, restored);
    m->touches.interval++;
    if (status == DYM_DONE) *restored -= own->moves;
    return memory_fault(status);
}

static fault object_prune(memory *m, uint64_t bound)
{
    object *own = m->inside;
    uint32_t dropped;
    return memory_fault(dym_prune(own->heap, bound + own->moves, &dropped));
}

/* The bytes are where the object's block began, how often it was moved, and its checkpoint file. */
static fault object_save(memory *m, uint8_t **bytes, uint64_t *length)
{
    object *own = m->inside;
    uint64_t head[2] = {m->touches.start, own->moves};
    uint8_t none;
    dym_status status = dym_save(own->heap, file_name, sizeof file_name, &none, 0, length);
    if (status != DYM_RANGE) return memory_fault(status);
    *bytes = malloc(sizeof head + *length);
    if (*bytes == NULL) return FAULT_MEMORY;
    memcpy(*bytes, head, sizeof head);
    status = dym_save(own->heap, file_name, sizeof file_name, *bytes + sizeof head, *length, length);
    *length += sizeof head;
    return memory_fault(status);
}

/* Touches all chunks of an object that was loaded, and notes them. */
static dym_status note_all(memory *m, object *own)
{
    dym_handle chunk = dym_nil;
    const void *at = NULL;
    dym_status status = dym_touch_all(own->heap);
    if (status == DYM_DONE) status = dym_next(own->heap, chunk, &chunk);
    while (status == DYM_DONE && !dym_same(chunk, dym_nil)) {
        status = dym_address(own->heap, chunk, &at);
        if (status == DYM_DONE) note_chunk(m, own, chunk, at);
        if (status == DYM_DONE) status = dym_next(own->heap, chunk, &chunk);
    }
    return status;
}

static fault object_load(memory *m, const uint8_t *bytes, uint64_t length, uintptr_t *distance)
{
    object *own;
    uint64_t head[2];
    uint32_t part;
    dym_status status;
    if (length < sizeof head) return FAULT_MOVE;
    memcpy(head, bytes, sizeof head);
    own = object_made();
    if (own == NULL) return FAULT_MEMORY;
    status = dym_load(own->heap, bytes + sizeof head, length - sizeof head, &part);
    if (status == DYM_DONE) status = prepare(m, own);
    if (status != DYM_DONE) {
        discard(m, own);
        return status == DYM_FILE ? FAULT_MOVE : memory_fault(status);
    }
    own->moves = head[1] + 1;
    m->inside = own;
    *distance = m->touches.start - (uintptr_t)head[0];
    return memory_fault(note_all(m, own));
}

const memory_way memory_place = {
    .name = "place",
    .says = "an object of the library, whose chunks are touched before a write",
    .open = object_open,
    .open_over = object_open_over,
    .close = object_close,
    .alloc = object_alloc,
    .free = object_free,
    .write = place_write,
    .log = object_log,
    .restore = object_restore,
    .prune = object_prune,
    .save = object_save,
    .load = object_load,
};

#ifdef WARP_TOLD
static void told_begin(memory *m)
{
    object *own = m->inside;
    must(dym_track(own->heap));
}

static void told_end(memory *m)
{
    (void)m;
    dym_track(NULL);
}

const memory_way memory_told = {
    .name = "told",
    .says = "an object of the library, whose stores the compiler tells",
    .open = object_open,
    .open_over = object_open_over,
    .close = object_close,
    .alloc = object_alloc,
    .free = object_free,
    .log = object_log,
    .restore = object_restore,
    .prune = object_prune,
    .save = object_save,
    .load = object_load,
    .begin = told_begin,
    .end = told_end,
};
#endif
