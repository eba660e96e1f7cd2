#include "pack.h"

#include <stdlib.h>
#include <string.h>

/* What stands first: the numbers of a process, and how many items each list after it has. */
typedef struct head {
    uint64_t process, root, dropped, sent_from, serial, bound, reached;
    uint64_t logged, pending, done, sent, early, state;
    period period;
    counts counts;
} head;

/* Bytes that are written or read from front to end. */
typedef struct cursor {
    uint8_t *write;
    const uint8_t *read;
    uint64_t left; /* to read */
} cursor;

static head head_of(const process *p, uint64_t state)
{
    head h;
    memset(&h, 0, sizeof h);
    h.process = p->context.self;
    h.root = (uintptr_t)p->context.state;
    h.dropped = p->own.dropped;
    h.sent_from = p->own.sent_from;
    h.serial = p->own.serial;
    h.bound = p->own.bound;
    h.reached = p->reached;
    h.logged = p->own.logged.items[0];
    h.pending = p->own.pending.count;
    h.done = p->own.done.count;
    h.sent = p->own.sent.count;
    h.early = p->own.early.count;
    h.state = state;
    h.period = p->period;
    h.counts = p->counts;
    return h;
}

static uint64_t length_of(const head *h)
{
    return sizeof *h + (h->pending + h->sent + h->early) * sizeof(event) + h->done * sizeof(done) + h->state;
}

static void append(cursor *c, const void *bytes, uint64_t length)
{
    if (length == 0) return;
    memcpy(c->write, bytes, length);
    c->write += length;
}

fault process_pack(process *p, uint8_t **bytes, uint64_t *length)
{
    uint8_t *state = NULL;
    uint64_t state_length = 0;
    cursor c = {NULL, NULL, 0};
    uint64_t oldest;
    head h;
    fault f = memory_restore(&p->memory, p->own.logged.items[0], &oldest);
    if (f == FAULT_NONE) f = memory_save(&p->memory, &state, &state_length);
    if (f == FAULT_NONE) {
        h = head_of(p, state_length);
        *length = length_of(&h);
        c.write = *bytes = malloc(*length);
        if (c.write == NULL) f = FAULT_MEMORY;
    }
    if (f == FAULT_NONE) {
        append(&c, &h, sizeof h);
        append(&c, p->own.pending.items, h.pending * sizeof(event));
        append(&c, p->own.done.items, h.done * sizeof(done));
        append(&c, p->own.sent.items, h.sent * sizeof(event));
        append(&c, p->own.early.items, h.early * sizeof(event));
        append(&c, state, state_length);
        process_close(p);
    }
    free(state);
    return f;
}

/* Takes the next bytes, and answers whether so many were left. */
static int take(cursor *c, void *to, uint64_t length)
{
    if (c->left < length) return 0;
    if (length > 0) memcpy(to, c->read, length);
    c->read += length;
    c->left -= length;
    return 1;
}

/* Takes a list of `count` items. */
static fault take_list(cursor *c, void *items, size_t *room, size_t *filled, uint64_t count, size_t size)
{
    void *block;
    if (count == 0) return FAULT_NONE;
    if (c->left / size < count) return FAULT_MOVE;
    block = malloc((size_t)count * size);
    if (block == NULL) return FAULT_MEMORY;
    take(c, block, count * size);
    memcpy(items, &block, sizeof block);
    *room = *filled = (size_t)count;
    return FAULT_NONE;
}

static fault take_events(cursor *c, events *list, uint64_t count)
{
    return take_list(c, &list->items, &list->room, &list->count, count, sizeof(event));
}

static void take_head(process *p, const head *h)
{
    p->own.dropped = h->dropped;
    p->own.sent_from = h->sent_from;
    p->own.serial = h->serial;
    p->own.bound = h->bound;
    p->reached = h->reached;
    p->period = h->period;
    p->counts = h->counts;
    /* the state is that of its log: the events after it are run again before the next one */
    p->own.is_stale = 1;
}

/* Opens the state, makes its pointers right, and logs it. */
static fault take_state(process *p, const head *h, const uint8_t *bytes, uint64_t length)
{
    const settings *s = p->settings;
    uint64_t logged;
    fault f = memory_load(&p->memory, s->way, bytes, length, &p->context.distance);
    if (f != FAULT_NONE) return f;
    p->context.state = model_moved(&p->context, (void *)(uintptr_t)h->root);
    if (s->model->moved != NULL) s->model->moved(&p->context);
    f = memory_log(&p->memory, h->logged, &logged);
    if (f == FAULT_NONE) f = memory_prune(&p->memory, h->logged);
    if (f == FAULT_NONE) f = list_grow(&p->own.logged.items, &p->own.logged.room, 0, sizeof *p->own.logged.items);
    if (f == FAULT_NONE) p->own.logged.items[p->own.logged.count++] = h->logged;
    return f;
}

fault process_unpack(process *p, const settings *s, uint32_t k, const uint8_t *bytes, uint64_t length)
{
    cursor c = {NULL, bytes, length};
    head h;
    fault f;
    memset(p, 0, sizeof *p);
    process_context(p, s, k);
    if (!take(&c, &h, sizeof h) || h.process != k) return FAULT_MOVE;
    take_head(p, &h);
    f = take_events(&c, &p->own.pending, h.pending);
    if (f == FAULT_NONE) f = take_list(&c, &p->own.done.items, &p->own.done.room, &p->own.done.count, h.done, sizeof(done));
    if (f == FAULT_NONE) f = take_events(&c, &p->own.sent, h.sent);
    if (f == FAULT_NONE) f = take_events(&c, &p->own.early, h.early);
    if (f == FAULT_NONE) f = c.left == h.state ? take_state(p, &h, c.read, c.left) : FAULT_MOVE;
    return f;
}
