/* A process in C: its lists of events, and its logs of a state of any way. */
#include <stdlib.h>
#include <string.h>

#include "clock.h"
#include "pending.h"
#include "process.h"

/* How many events the process ran that weren't undone: the time of a log that is taken now. */
static uint64_t position(const process *p)
{
    return p->own.dropped + p->own.done.count;
}

/* How many events the process sent that weren't called back. */
static uint64_t count_sent(const process *p)
{
    return p->own.sent_from + p->own.sent.count;
}

static fault post(messages *out, const event *e, uint32_t is_anti)
{
    message *m;
    fault f = list_grow(&out->items, &out->room, out->count, sizeof *out->items);
    if (f != FAULT_NONE) return f;
    m = &out->items[out->count++];
    m->event = *e;
    m->is_anti = is_anti;
    m->mark = MESSAGE_MARK;
    return FAULT_NONE;
}

/* What the model sends. While events are run again it was sent before. */
static void own_deliver(context *c, event *e)
{
    process *p = c->owner;
    fault f;
    if (p->own.out == NULL) return;
    e->serial = p->own.serial++;
    f = events_push(&p->own.sent, e);
    if (f == FAULT_NONE) f = post(p->own.out, e, 0);
    if (f != FAULT_NONE) fault_end(f);
}

/* Runs the model for an event. */
static void execute(process *p, const event *e, messages *out)
{
    p->own.out = out;
    process_execute(p, e);
    p->own.out = NULL;
}

/* ---- logs */

static fault take_log(process *p)
{
    int is_timed = p->own.logged.count > 0 && period_times_log(&p->period); /* the first log takes fresh memory, as no other does */
    uint64_t bytes = 0, start = is_timed ? clock_now() : 0;
    fault f = list_grow(&p->own.logged.items, &p->own.logged.room, p->own.logged.count, sizeof *p->own.logged.items);
    if (f == FAULT_NONE) f = memory_log(&p->memory, position(p), &bytes);
    if (f != FAULT_NONE) return f;
    if (is_timed) period_note_log(&p->period, period_since(start));
    p->own.logged.items[p->own.logged.count++] = position(p);
    p->own.since_log = 0;
    p->counts.logs++;
    p->counts.log_bytes += bytes;
    return FAULT_NONE;
}

/* Takes a log where one is due, also by the period that is chosen by now. Where the logs are full the process goes on without, and asks for a
 * bound. */
static fault log_if_due(process *p)
{
    if (p->own.since_log < p->period.events) return FAULT_NONE;
    period_adapt(&p->period);
    if (p->own.since_log < p->period.events) return FAULT_NONE;
    if (p->own.logged.count < MEMORY_LOGS) return take_log(p);
    p->wants_bound = 1;
    return FAULT_NONE;
}

/* Runs the events from number k on again. */
static void run_again(process *p, uint64_t k)
{
    uint64_t from = k - p->own.dropped, start = p->period.is_chosen ? clock_now() : 0;
    size_t j;
    for (j = (size_t)from; j < p->own.done.count; j++) execute(p, &p->own.done.items[j].event, NULL);
    p->own.since_log = p->own.done.count - from;
    p->counts.replayed += p->own.since_log;
    if (p->period.is_chosen && p->own.since_log > 0) period_note_events(&p->period, period_since(start), p->own.since_log);
}

/* Brings the state up to the events that were run, and drops the logs of those that were undone. */
static fault settle(process *p)
{
    uint64_t at;
    fault f;
    if (!p->own.is_stale) return FAULT_NONE;
    f = memory_restore(&p->memory, position(p), &at);
    if (f != FAULT_NONE) return f;
    while (p->own.logged.count > 0 && p->own.logged.items[p->own.logged.count - 1] > at) p->own.logged.count--;
    run_again(p, at);
    p->own.is_stale = 0;
    return FAULT_NONE;
}

/* ---- rollback */

/* How many of the events that were run come before an event. */
static size_t count_before(const process *p, const event *e)
{
    size_t low = 0, high = p->own.done.count;
    if (high == 0 || event_order(&p->own.done.items[high - 1].event, e) < 0) return high;
    while (low < high) {
        size_t middle = low + (high - low) / 2;
        if (event_order(&p->own.done.items[middle].event, e) < 0)
            low = middle + 1;
        else
            high = middle;
    }
    return low;
}

/* Undoes all events but the first `keep` that were run: they are pending again, and what they sent is called back. */
static fault roll_back(process *p, size_t keep, messages *out)
{
    size_t stay = (size_t)(p->own.done.items[keep].sent - p->own.sent_from), k;
    fault f = FAULT_NONE;
    for (k = p->own.done.count; k > keep && f == FAULT_NONE; k--) f = pending_put(&p->own.pending, &p->own.done.items[k - 1].event);
    for (k = stay; k < p->own.sent.count && f == FAULT_NONE; k++) f = post(out, &p->own.sent.items[k], 1);
    process_note_undone(p, p->own.done.count - keep, keep > 0 ? p->own.done.items[keep - 1].event.time : 0);
    p->own.done.count = keep;
    p->own.sent.count = stay;
    p->own.is_stale = 1;
    return f;
}

/* Calls an event back: it is pending, or was run, or comes later. It may lie in `out`. */
static fault annihilate(process *p, const event *e, messages *out)
{
    event own;
    size_t keep;
    fault f;
    if (pending_remove(&p->own.pending, e)) return FAULT_NONE;
    keep = count_before(p, e);
    if (keep == p->own.done.count || event_order(&p->own.done.items[keep].event, e) != 0) return pending_put(&p->own.early, e);
    own = *e;
    f = roll_back(p, keep, out);
    if (f == FAULT_NONE) pending_remove(&p->own.pending, &own);
    return f;
}

static fault own_take(process *p, const message *m, messages *out)
{
    size_t keep;
    fault f;
    if (m->event.time < p->own.bound) return FAULT_MESSAGE;
    if (m->is_anti) return annihilate(p, &m->event, out);
    if (p->own.early.count > 0 && pending_remove(&p->own.early, &m->event)) return FAULT_NONE;
    keep = count_before(p, &m->event);
    f = pending_put(&p->own.pending, &m->event);
    return f == FAULT_NONE && keep < p->own.done.count ? roll_back(p, keep, out) : f;
}

/* ---- the way forward */

static fault own_open(process *p, messages *out)
{
    const settings *s = p->settings;
    fault f;
    f = memory_open(&p->memory, s->way, s->quota);
    if (f != FAULT_NONE) return f;
    p->own.out = out;
    s->model->start(&p->context);
    p->own.out = NULL;
    /* what was sent at the start is never called back */
    p->own.sent_from = p->own.sent.count;
    p->own.sent.count = 0;
    return take_log(p);
}

static void own_close(process *p)
{
    memory_close(&p->memory);
    free(p->own.pending.items);
    free(p->own.done.items);
    free(p->own.sent.items);
    free(p->own.early.items);
    free(p->own.logged.items);
}

static uint64_t own_next(const process *p)
{
    const event *first = pending_first(&p->own.pending);
    return first != NULL ? first->time : UINT64_MAX;
}

static fault own_run(process *p, messages *out)
{
    done *d;
    int is_timed;
    uint64_t start;
    fault f = p->own.is_stale ? settle(p) : FAULT_NONE;
    if (f == FAULT_NONE) f = list_grow(&p->own.done.items, &p->own.done.room, p->own.done.count, sizeof *d);
    if (f != FAULT_NONE) return f;
    d = &p->own.done.items[p->own.done.count];
    pending_take(&p->own.pending, &d->event);
    d->sent = count_sent(p);
    is_timed = period_times_event(&p->period);
    start = is_timed ? clock_now() : 0;
    execute(p, &d->event, out);
    if (is_timed) period_note_events(&p->period, period_since(start), 1);
    p->own.done.count++;
    p->reached = d->event.time;
    period_note_run(&p->period);
    p->own.since_log++;
    return log_if_due(p);
}

/* ---- commit */

/* Drops the first logs, and the events up to the oldest that is left. */
static void drop(process *p, size_t logs)
{
    size_t gone, unsent;
    list_drop_first(p->own.logged.items, &p->own.logged.count, logs, sizeof *p->own.logged.items);
    gone = (size_t)(p->own.logged.items[0] - p->own.dropped);
    unsent = (size_t)((gone < p->own.done.count ? p->own.done.items[gone].sent : count_sent(p)) - p->own.sent_from);
    list_drop_first(p->own.done.items, &p->own.done.count, gone, sizeof *p->own.done.items);
    list_drop_first(p->own.sent.items, &p->own.sent.count, unsent, sizeof *p->own.sent.items);
    p->own.dropped += gone;
    p->own.sent_from += unsent;
}

/* How many of the events that were run have times before a bound. */
static size_t count_below(const process *p, uint64_t bound)
{
    event first;
    memset(&first, 0, sizeof first);
    first.time = bound;
    return count_before(p, &first);
}

static fault own_commit(process *p, uint64_t bound)
{
    uint64_t committed = p->own.dropped + count_below(p, bound);
    size_t useless = 0;
    fault f = FAULT_NONE;
    while (useless + 1 < p->own.logged.count && p->own.logged.items[useless + 1] <= committed) useless++;
    if (useless > 0) {
        f = memory_prune(&p->memory, committed);
        drop(p, useless);
    }
    p->own.bound = bound;
    p->counts.committed = committed;
    return f;
}

const process_kind process_own = {
    .name = "own",
    .open = own_open,
    .close = own_close,
    .deliver = own_deliver,
    .take = own_take,
    .next = own_next,
    .run = own_run,
    .settle = settle,
    .commit = own_commit,
};
