/*
 * Workers as threads of one program. Each has an inbox: a stack of messages that others push on by compare-and-swap and that it takes whole
 * by one exchange, so that no message waits for a lock. A message's node goes back to its sender over a stack of the same kind. Workers
 * meet at barriers for a bound alone.
 */
#include "transport.h"

#include <pthread.h>
#include <sched.h>
#include <stdalign.h>
#include <stdatomic.h>
#include <stdio.h>
#include <stdlib.h>
#include <string.h>
#include <time.h>

enum { LINE = 64, NODES = 64 };

/* Who waits at a barrier looks so often, then yields so often, and then sleeps between two looks: on a machine with other programs a thread
 * that only yields comes last. */
enum { SPINS = 200, YIELDS = 200, SLEEP = 50000 };

typedef struct node {
    message message;
    struct node *next;
    uint32_t owner;
} node;

typedef struct block {
    struct block *next;
    node nodes[NODES];
} block;

/* What a worker has that others touch: each on a cache line of its own. */
typedef struct shared {
    alignas(LINE) _Atomic(node *) inbox;
    alignas(LINE) _Atomic(node *) returned;
    alignas(LINE) uint64_t least[2];
    counts sums[2];
} shared;

typedef struct team {
    uint32_t workers;
    shared *shared;
    alignas(LINE) atomic_uint arrived; /* at the barrier, of this turn */
    alignas(LINE) atomic_uint turn;
    alignas(LINE) atomic_int wanted;
} team;

struct transport {
    team *team;
    uint32_t self;
    unsigned reductions;
    node *came; /* taken from the inbox, the oldest first */
    node *used; /* received, and not yet given back */
    node *free;
    struct block *blocks; /* what the nodes were cut from */
};

/* What a thread is started with: its transport, which it alone touches, begins a cache line. */
typedef struct job {
    alignas(LINE) transport transport;
    const settings *settings;
    process *processes;
    void (*work)(transport *t, const settings *s, process *processes);
    pthread_t thread;
} job;

/* For the word about a fault: that there was one, and the worker that this thread is. */
static atomic_flag has_fault = ATOMIC_FLAG_INIT;
static _Thread_local uint32_t this_worker;

void transport_begin(int *count, char ***words)
{
    (void)count;
    (void)words;
}

void transport_end(void)
{
}

const char *transport_name(void)
{
    return "threads";
}

int transport_is_first(void)
{
    return 1;
}

uint32_t transport_workers(const settings *s)
{
    return s->threads;
}

uint32_t transport_self(const transport *t)
{
    return t->self;
}

int transport_speaks(const transport *t)
{
    return t->self == 0;
}

/* The first thread with a fault ends the program, and with it the others. */
_Noreturn void fault_end(fault f)
{
    while (atomic_flag_test_and_set(&has_fault)) sched_yield();
    fprintf(stderr, "warp: worker %u: %s\n", (unsigned)this_worker, fault_text(f));
    fflush(NULL);
    _Exit((int)f);
}

/* ---- messages */

static void push(_Atomic(node *) *stack, node *first, node *last)
{
    node *top = atomic_load_explicit(stack, memory_order_relaxed);
    do {
        last->next = top;
    } while (!atomic_compare_exchange_weak_explicit(stack, &top, first, memory_order_release, memory_order_relaxed));
}

static node *take_all(_Atomic(node *) *stack)
{
    if (atomic_load_explicit(stack, memory_order_relaxed) == NULL) return NULL;
    return atomic_exchange_explicit(stack, NULL, memory_order_acquire);
}

/* Cuts a new block into free nodes. */
static void more_nodes(transport *t)
{
    block *b = malloc(sizeof *b);
    size_t k;
    if (b == NULL) fault_end(FAULT_MEMORY);
    b->next = t->blocks;
    t->blocks = b;
    for (k = 0; k < NODES; k++) {
        b->nodes[k].owner = t->self;
        b->nodes[k].next = t->free;
        t->free = &b->nodes[k];
    }
}

void transport_send(transport *t, uint32_t to, const message *m)
{
    node *n;
    if (t->free == NULL) t->free = take_all(&t->team->shared[t->self].returned);
    if (t->free == NULL) more_nodes(t);
    n = t->free;
    t->free = n->next;
    n->message = *m;
    push(&t->team->shared[to].inbox, n, n);
}

void transport_flush(transport *t)
{
    (void)t;
}

/* Gives received nodes back to their senders, those of one sender that stand together in one push. */
static void give_back(transport *t)
{
    while (t->used != NULL) {
        node *first = t->used, *last = first;
        while (last->next != NULL && last->next->owner == first->owner) last = last->next;
        t->used = last->next;
        push(&t->team->shared[first->owner].returned, first, last);
    }
}

int transport_receive(transport *t, message *m)
{
    node *n = t->came;
    if (n == NULL) {
        node *taken = take_all(&t->team->shared[t->self].inbox);
        if (taken == NULL) return 0;
        give_back(t);
        while (taken != NULL) { /* the newest is first: turn the stack round */
            node *next = taken->next;
            taken->next = n;
            n = taken;
            taken = next;
        }
    }
    t->came = n->next;
    *m = n->message;
    n->next = t->used;
    t->used = n;
    return 1;
}

/* ---- bounds */

void transport_want_bound(transport *t)
{
    atomic_store_explicit(&t->team->wanted, 1, memory_order_relaxed);
}

int transport_bound_wanted(transport *t)
{
    return atomic_load_explicit(&t->team->wanted, memory_order_relaxed);
}

void transport_pause(transport *t)
{
    (void)t;
    sched_yield();
}

/* Waits a moment at a barrier, for the `turn`-th time. */
static void wait_more(unsigned turn)
{
    struct timespec moment = {0, SLEEP};
    if (turn > SPINS + YIELDS)
        nanosleep(&moment, NULL);
    else if (turn > SPINS)
        sched_yield();
}

/* Waits until all workers are here. What a worker did before, all see after. */
static void barrier(team *all)
{
    unsigned turn = atomic_load(&all->turn), waits = 0;
    if (atomic_fetch_add(&all->arrived, 1) + 1 == all->workers) {
        atomic_store(&all->arrived, 0);
        atomic_store(&all->turn, turn + 1);
        return;
    }
    while (atomic_load(&all->turn) == turn) wait_more(++waits);
}

void transport_settle(transport *t, messages *incoming)
{
    message m;
    barrier(t->team);
    if (t->self == 0) atomic_store_explicit(&t->team->wanted, 0, memory_order_relaxed);
    while (transport_receive(t, &m))
        if (messages_push(incoming, &m) != FAULT_NONE) fault_end(FAULT_MEMORY);
}

/* Two reductions take turns with two places, so that one barrier is enough: who writes a place again has met, in between, all that read it. */
void transport_reduce(transport *t, uint64_t *least, counts *sums)
{
    unsigned place = t->reductions++ % 2;
    shared *all = t->team->shared;
    uint32_t k;
    all[t->self].least[place] = *least;
    all[t->self].sums[place] = *sums;
    barrier(t->team);
    memset(sums, 0, sizeof *sums);
    for (k = 0; k < t->team->workers; k++) {
        if (all[k].least[place] < *least) *least = all[k].least[place];
        counts_add(sums, &all[k].sums[place]);
    }
}

/* The process lies where both workers reach it: after the barrier the other may touch it. */
int transport_packs(void)
{
    return 0;
}

void transport_move(transport *t, uint32_t from, uint32_t to, const settings *s, uint32_t k, process *p)
{
    (void)from;
    (void)to;
    (void)s;
    (void)k;
    (void)p;
    barrier(t->team);
}

/* ---- threads */

static void *run_job(void *given)
{
    job *j = given;
    this_worker = j->transport.self;
    j->work(&j->transport, j->settings, j->processes);
    return NULL;
}

static void free_blocks(block *b)
{
    while (b != NULL) {
        block *next = b->next;
        free(b);
        b = next;
    }
}

void transport_run(const settings *s, process *processes, void (*work)(transport *t, const settings *s, process *processes))
{
    static team all;
    job *jobs = aligned_alloc(LINE, s->threads * sizeof *jobs);
    transport first = {&all, 0, 0, NULL, NULL, NULL, NULL};
    uint32_t k;
    all.workers = s->threads;
    all.shared = aligned_alloc(LINE, s->threads * sizeof *all.shared);
    if (jobs == NULL || all.shared == NULL) fault_end(FAULT_MEMORY);
    memset(all.shared, 0, s->threads * sizeof *all.shared);
    for (k = 0; k < s->threads; k++) {
        jobs[k].transport = first;
        jobs[k].transport.self = k;
        jobs[k].settings = s;
        jobs[k].processes = processes;
        jobs[k].work = work;
        if (k > 0 && pthread_create(&jobs[k].thread, NULL, run_job, &jobs[k]) != 0) fault_end(FAULT_MEMORY);
    }
    run_job(&jobs[0]);
    for (k = 1; k < s->threads; k++) pthread_join(jobs[k].thread, NULL);
    for (k = 0; k < s->threads; k++) free_blocks(jobs[k].transport.blocks);
    free(jobs);
    free(all.shared);
}
