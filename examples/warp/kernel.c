#include "kernel.h"

#include <stdlib.h>
#include <string.h>

#include "clock.h"
#include "gvt.h"
#include "progress.h"
#include "resources.h"
#include "schedule.h"
#include "window.h"

/* How many nanoseconds a worker without work looks for messages before it asks for a bound. */
enum { IDLE = 30000 };

typedef struct kernel {
    transport *transport;
    const settings *settings;
    process *processes;
    uint32_t *owner; /* the worker that has process k: the same table for all workers */
    uint32_t workers, self;
    schedule schedule;
    messages out;      /* sent by the processes, and not yet delivered */
    messages incoming; /* came at a bound */
    uint64_t bound;
    uint64_t bounds;
    uint64_t since_bound; /* events that were run since */
    uint64_t sent;        /* messages to other workers */
    uint64_t idle_since; /* when it ran out of work, in nanoseconds; 0 while it has some */
    counts sums; /* over all workers, at the last bound */
    trace trace;
    window window;
    progress progress;
} kernel;

static void must(fault f)
{
    if (f != FAULT_NONE) fault_end(f);
}

static int is_own(const kernel *k, uint32_t process)
{
    return k->owner[process] == k->self;
}

/* ---- messages */

/* Hands a message to its process. */
static void take(kernel *k, const message *m)
{
    uint32_t receiver = m->event.receiver;
    process *p = &k->processes[receiver];
    uint64_t rollbacks = process_counts(p)->rollbacks, from = process_reached(p), time = m->event.time;
    must(process_take(p, m, &k->out));
    if (process_counts(p)->rollbacks > rollbacks) trace_note_back(&k->trace, receiver, time, from);
    schedule_set(&k->schedule, receiver, process_next(p));
}

static void send(kernel *k, message *m)
{
    k->sent++;
    m->mark = k->sent == k->settings->spoil ? 0 : MESSAGE_MARK;
    transport_send(k->transport, k->owner[m->event.receiver], m);
}

/* Delivers all that was sent, and what is sent because of it. */
static void deliver(kernel *k)
{
    size_t j;
    for (j = 0; j < k->out.count; j++) {
        message *m = &k->out.items[j];
        if (is_own(k, m->event.receiver))
            take(k, m);
        else
            send(k, m);
    }
    k->out.count = 0;
}

/* Bytes that came are a message only if they have its mark and are for a process that there is. */
static int is_message(const kernel *k, const message *m)
{
    return m->mark == MESSAGE_MARK && m->is_anti <= 1 && m->event.receiver < k->settings->processes &&
           m->event.sender < k->settings->processes;
}

static void receive(kernel *k)
{
    message m;
    while (transport_receive(k->transport, &m)) {
        if (!is_message(k, &m)) must(FAULT_MESSAGE);
        must(messages_push(&k->out, &m));
        deliver(k);
    }
}

/* ---- bounds */

/* Adds up what this worker's processes have counted. */
static void add_up(const kernel *k, counts *sums)
{
    uint32_t j;
    memset(sums, 0, sizeof *sums);
    for (j = 0; j < k->schedule.count; j++) counts_add(sums, process_counts(&k->processes[k->schedule.own[j]]));
}

static void commit(kernel *k)
{
    uint32_t j;
    for (j = 0; j < k->schedule.count; j++) must(process_commit(&k->processes[k->schedule.own[j]], k->bound));
}

/* Moves the next process in turn to the next worker, at every so many bounds. */
static void move(kernel *k)
{
    uint64_t turn = k->settings->move_every > 0 ? k->bounds / k->settings->move_every : 0;
    uint32_t moved = (uint32_t)(turn % k->settings->processes), from = k->owner[moved], to = (from + 1) % k->workers;
    if (k->workers == 1 || k->settings->move_every == 0 || k->bounds % k->settings->move_every != 0) return;
    if (is_own(k, moved)) {
        trace_note(&k->trace, "move", moved, to);
        schedule_remove(&k->schedule, moved);
    }
    transport_move(k->transport, from, to, k->settings, moved, &k->processes[moved]);
    k->owner[moved] = to;
    if (is_own(k, moved)) schedule_set(&k->schedule, moved, process_next(&k->processes[moved]));
}

/* Takes part in a bound. Messages that came meanwhile are delivered after it; those to a process that moved go after it. */
static void take_bound(kernel *k)
{
    uint32_t first;
    size_t j;
    add_up(k, &k->sums);
    k->bound = gvt_bound(k->transport, schedule_first(&k->schedule, &first), &k->incoming, &k->sums);
    k->bounds++;
    k->since_bound = 0;
    k->idle_since = 0;
    window_adapt(&k->window, &k->sums);
    commit(k);
    if (k->self == 0) {
        trace_note_bound(&k->trace, k->bound);
        progress_show(&k->progress, k->bound, &k->sums);
    }
    if (k->bound <= k->settings->end) move(k);
    for (j = 0; j < k->incoming.count; j++) {
        if (!is_message(k, &k->incoming.items[j])) must(FAULT_MESSAGE);
        must(messages_push(&k->out, &k->incoming.items[j]));
    }
    k->incoming.count = 0;
    deliver(k);
    transport_flush(k->transport);
}

/* ---- events */

/* The process whose event is next runs up to `batch` events. Answers whether there was one. */
static int take_turn(kernel *k)
{
    uint32_t which = 0, ran;
    uint64_t last = window_last(&k->window, k->bound, k->settings->end), time = schedule_first(&k->schedule, &which);
    process *p = &k->processes[which];
    if (time > last) return 0;
    for (ran = 0; ran < k->settings->batch && time <= last; ran++) {
        uint64_t logs = process_counts(p)->logs;
        must(process_run(p, &k->out));
        trace_note(&k->trace, "run", which, time);
        if (process_counts(p)->logs > logs) trace_note(&k->trace, "log", which, time);
        deliver(k); /* most of what a process sends goes to itself: its next event is known after that */
        time = process_next(p);
        schedule_set(&k->schedule, which, time);
    }
    k->since_bound += ran;
    if (process_wants_bound(p) || k->since_bound >= k->settings->bound_every) transport_want_bound(k->transport);
    transport_flush(k->transport);
    return 1;
}

/* Waits for messages, and asks for a bound when none come. */
static void wait_for_messages(kernel *k)
{
    uint64_t now;
    transport_pause(k->transport);
    now = clock_now();
    if (k->idle_since == 0) k->idle_since = now;
    if (now - k->idle_since >= IDLE) transport_want_bound(k->transport);
}

/* ---- a worker from start to end */

static void start(kernel *k)
{
    uint32_t j, processes = k->settings->processes;
    k->owner = calloc(processes, sizeof *k->owner);
    if (k->owner == NULL) must(FAULT_MEMORY);
    must(schedule_open(&k->schedule, processes));
    must(trace_open(&k->trace, k->settings->trace, k->self, k->workers));
    for (j = 0; j < processes; j++) k->owner[j] = (uint32_t)((uint64_t)j * k->workers / processes);
    for (j = 0; j < processes; j++) {
        if (!is_own(k, j)) continue;
        must(process_open(&k->processes[j], k->settings, j, &k->out));
        schedule_set(&k->schedule, j, process_next(&k->processes[j]));
    }
    deliver(k);
}

static void finish(kernel *k, uint64_t processor, outcome *out)
{
    uint64_t none = 0, sum;
    uint32_t j;
    counts own;
    add_up(k, &own);
    own.memory = transport_speaks(k->transport) ? resources_peak() : 0;
    own.processor = processor;
    for (j = 0; j < k->schedule.count; j++) {
        must(process_checksum(&k->processes[k->schedule.own[j]], &sum));
        own.checksum += model_mixed(sum + k->schedule.own[j]);
    }
    transport_reduce(k->transport, &none, &own);
    out->counts = own;
    out->bounds = k->bounds;
    for (j = 0; j < k->schedule.count; j++) process_close(&k->processes[k->schedule.own[j]]);
    must(trace_close(&k->trace));
    schedule_close(&k->schedule);
    free(k->owner);
    free(k->out.items);
    free(k->incoming.items);
}

void kernel_run(transport *t, const settings *s, process *processes, outcome *out)
{
    kernel k;
    uint64_t begin, processor;
    memset(&k, 0, sizeof k);
    k.transport = t;
    k.settings = s;
    k.processes = processes;
    k.workers = transport_workers(s);
    k.self = transport_self(t);
    start(&k);
    progress_open(&k.progress, s->progress);
    window_open(&k.window, s->window);
    take_bound(&k);
    begin = clock_now();
    processor = clock_processor();
    while (k.bound <= s->end) {
        receive(&k);
        if (take_turn(&k))
            k.idle_since = 0;
        else
            wait_for_messages(&k);
        if (transport_bound_wanted(t)) take_bound(&k);
    }
    out->time = clock_now() - begin;
    finish(&k, clock_processor() - processor, out);
}
