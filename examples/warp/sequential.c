#include "sequential.h"

#include <stdlib.h>

#include "clock.h"
#include "list.h"

/* The queue is a binary heap by keys. A process is its context and its state, which is never logged. */
typedef struct queue {
    events heap;
    uint64_t serial; /* one count for all senders: the order of what each of them sends is the same */
    memory *states;
    context *contexts;
} queue;

static void swap(event *a, event *b)
{
    event c = *a;
    *a = *b;
    *b = c;
}

static void put(context *c, event *e)
{
    queue *q = c->owner;
    events *heap = &q->heap;
    size_t k = heap->count;
    fault f;
    e->serial = q->serial++;
    f = events_push(heap, e);
    if (f != FAULT_NONE) fault_end(f);
    while (k > 0 && event_order(&heap->items[k], &heap->items[(k - 1) / 2]) < 0) {
        swap(&heap->items[k], &heap->items[(k - 1) / 2]);
        k = (k - 1) / 2;
    }
}

static event take(events *heap)
{
    event first = heap->items[0];
    size_t k = 0, child, least;
    heap->items[0] = heap->items[--heap->count];
    for (;; k = least) {
        least = k;
        for (child = 2 * k + 1; child <= 2 * k + 2 && child < heap->count; child++)
            if (event_order(&heap->items[child], &heap->items[least]) < 0) least = child;
        if (least == k) return first;
        swap(&heap->items[k], &heap->items[least]);
    }
}

/* Opens the processes. Their states are never logged, so that all ways are the same; flat ones are used. */
static fault start(queue *q, const settings *s)
{
    uint32_t k;
    fault f;
    q->states = calloc(s->processes, sizeof *q->states);
    q->contexts = calloc(s->processes, sizeof *q->contexts);
    if (q->states == NULL || q->contexts == NULL) return FAULT_MEMORY;
    for (k = 0; k < s->processes; k++) {
        context *c = &q->contexts[k];
        c->self = k;
        c->processes = s->processes;
        c->seed = s->seed;
        c->options = s->options;
        c->memory = &q->states[k];
        c->deliver = put;
        c->owner = q;
        f = memory_open(c->memory, &memory_copies, s->quota);
        if (f != FAULT_NONE) return f;
        s->model->start(c);
    }
    return FAULT_NONE;
}

static void run(queue *q, const settings *s, outcome *out)
{
    uint64_t begin = clock_now(), processor = clock_processor();
    uint32_t k;
    while (q->heap.count > 0 && q->heap.items[0].time <= s->end) {
        event e = take(&q->heap);
        context *c = &q->contexts[e.receiver];
        c->now = e.time;
        s->model->run(c, &e);
        out->counts.committed++;
    }
    out->time = clock_now() - begin;
    out->counts.processor = clock_processor() - processor;
    for (k = 0; k < s->processes; k++) out->counts.checksum += model_mixed(s->model->checksum(&q->contexts[k]) + k);
}

fault run_sequentially(const settings *s, outcome *out)
{
    queue q = {{NULL, 0, 0}, 0, NULL, NULL};
    uint32_t k;
    fault f = start(&q, s);
    if (f == FAULT_NONE) run(&q, s, out);
    for (k = 0; q.states != NULL && k < s->processes; k++) memory_close(&q.states[k]);
    free(q.states);
    free(q.contexts);
    free(q.heap.items);
    return f;
}
