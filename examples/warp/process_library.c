/* A process of the library: it keeps the events, rolls back and says what is to be run; the model is run here. */
#include <string.h>

#include "clock.h"
#include "process.h"

static fault fault_of_refusal(dym_status status)
{
    switch (status) {
    case DYM_COMMITTED: return FAULT_MESSAGE;
    case DYM_NOT_LATER:
    case DYM_NO_PROCESS: return FAULT_MODEL;
    default: return memory_fault(status);
    }
}

/* What an answer of the library means for a run. */
static inline fault fault_of(dym_status status)
{
    return status == DYM_DONE ? FAULT_NONE : fault_of_refusal(status);
}

/* Moves what is to be sent to the end of a list. */
static fault collect(process *p, messages *out)
{
    uint64_t moved;
    size_t room;
    if (!p->library.has_sent) return FAULT_NONE;
    p->library.has_sent = 0;
    do {
        fault f = list_grow(&out->items, &out->room, out->count, sizeof *out->items);
        if (f != FAULT_NONE) return f;
        room = out->room - out->count;
        f = fault_of(dym_process_outbox(&p->library.process, &out->items[out->count], room, &moved));
        if (f != FAULT_NONE) return f;
        out->count += (size_t)moved;
    } while (moved == room);
    return FAULT_NONE;
}

/* What the model sends. */
static void library_deliver(context *c, event *e)
{
    process *p = c->owner;
    fault f = fault_of(dym_process_send(&p->library.process, e));
    if (f != FAULT_NONE) fault_end(f);
    p->library.has_sent = 1;
}

/* What was touched before an event was handed out is touched no more, where a log was taken or brought back. */
static fault note_logs(process *p, uint32_t how)
{
    dym_progress progress;
    fault f;
    if (!(how & DYM_UNTOUCHED)) return FAULT_NONE;
    memory_note_log(&p->memory);
    f = fault_of(dym_process_progress(&p->library.process, &progress));
    if (f != FAULT_NONE) return f;
    if (!p->library.is_stale && progress.logged > p->library.logged) p->counts.logs++;
    p->library.is_stale = 0;
    p->library.logged = progress.logged;
    return FAULT_NONE;
}

static fault library_open(process *p, messages *out)
{
    const settings *s = p->settings;
    dym_process_config config = {
        .number = p->context.self, .processes = s->processes, .period = p->period.events, .quota = s->quota, .version = 2};
    fault f = fault_of(dym_process_open(&p->library.process, &config));
    if (f == FAULT_NONE) f = memory_open_over(&p->memory, s->way, &p->library.process.object);
    if (f != FAULT_NONE) return f;
    p->library.period = p->period.events;
    s->model->start(&p->context);
    f = fault_of(dym_process_end(&p->library.process));
    p->counts.logs = 1;
    return f == FAULT_NONE ? collect(p, out) : f;
}

static void library_close(process *p)
{
    memory_close(&p->memory);
    dym_process_close(&p->library.process);
}

static fault library_take(process *p, const message *m, messages *out)
{
    uint64_t undone = 0;
    fault f = fault_of(dym_process_take(&p->library.process, m, &undone));
    if (f != FAULT_NONE || undone == 0) return f;
    process_note_undone(p, undone, m->event.time);
    p->library.ran -= undone;
    if (p->library.logged > p->library.ran) p->library.logged = p->library.ran;
    p->library.is_stale = 1;
    p->library.has_sent = 1;
    return collect(p, out);
}

static uint64_t library_next(const process *p)
{
    uint64_t time;
    return dym_process_next(&p->library.process, &time) == DYM_DONE ? time : UINT64_MAX;
}

/* Runs an event that is handed out. */
static fault run_one(process *p, const event *e)
{
    process_execute(p, e);
    return fault_of(dym_process_end(&p->library.process));
}

/* The events that are run again are timed together. */
static void note_replays(process *p, uint64_t count, uint64_t start)
{
    p->counts.replayed += count;
    if (p->period.is_chosen && count > 0) period_note_events(&p->period, period_since(start), count);
}

/* Brings the state up to the events that were run. */
static fault library_settle(process *p)
{
    uint64_t start = p->period.is_chosen ? clock_now() : 0, count = 0;
    dym_status status;
    event e;
    uint32_t how;
    while ((status = dym_process_replay(&p->library.process, &e, &how)) == DYM_DONE) {
        fault f = note_logs(p, how);
        if (f == FAULT_NONE) f = run_one(p, &e);
        if (f != FAULT_NONE) return f;
        count++;
    }
    note_replays(p, count, start);
    return status == DYM_NONE ? FAULT_NONE : fault_of(status);
}

/* Chooses the period anew where a log is due by the one that stands, and tells the library. *is_due says whether it is then, too. */
static fault choose_period(process *p, int *is_due)
{
    fault f = FAULT_NONE;
    if (p->library.ran - p->library.logged >= p->period.events) period_adapt(&p->period);
    if (p->library.period != p->period.events) f = fault_of(dym_process_period(&p->library.process, p->period.events));
    p->library.period = p->period.events;
    *is_due = p->library.ran - p->library.logged >= p->period.events;
    return f;
}

/* Hands out the next event, after those that are run again. Where a log is due it is taken before, unless the logs are full: then a bound is wanted. */
static fault begin(process *p, event *e)
{
    uint64_t start = p->period.is_chosen ? clock_now() : 0, count = 0;
    int is_due = 0, is_timed;
    uint32_t how;
    fault f = choose_period(p, &is_due);
    if (f != FAULT_NONE) return f;
    is_timed = is_due && period_times_log(&p->period);
    for (;;) {
        f = fault_of(dym_process_begin(&p->library.process, e, &how));
        if (f == FAULT_NONE) f = note_logs(p, how);
        if (f != FAULT_NONE) return f;
        if (!(how & DYM_REPLAYED)) break;
        f = run_one(p, e);
        if (f != FAULT_NONE) return f;
        count++;
    }
    note_replays(p, count, start);
    if (count > 0 || !is_due) return FAULT_NONE;
    if (!(how & DYM_UNTOUCHED))
        p->wants_bound = 1;
    else if (is_timed && p->library.logged == p->library.ran)
        period_note_log(&p->period, period_since(start));
    return FAULT_NONE;
}

static fault library_run(process *p, messages *out)
{
    event e;
    int is_timed;
    uint64_t start;
    fault f = begin(p, &e);
    if (f != FAULT_NONE) return f;
    is_timed = period_times_event(&p->period);
    start = is_timed ? clock_now() : 0;
    f = run_one(p, &e);
    if (is_timed) period_note_events(&p->period, period_since(start), 1);
    if (f != FAULT_NONE) return f;
    p->library.ran++;
    p->reached = e.time;
    period_note_run(&p->period);
    return collect(p, out);
}

static fault library_commit(process *p, uint64_t bound)
{
    uint64_t committed = 0;
    fault f = fault_of(dym_process_commit(&p->library.process, bound, &committed));
    p->counts.committed += committed;
    return f;
}

const process_kind process_library = {
    .name = "library",
    .open = library_open,
    .close = library_close,
    .deliver = library_deliver,
    .take = library_take,
    .next = library_next,
    .run = library_run,
    .settle = library_settle,
    .commit = library_commit,
};
