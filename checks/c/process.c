/*
 * Processes of dymelor_process.h. One by itself, and three that send to each other: up to six messages, events and anti-messages, in every order,
 * with some events run and a bound committed after each. At the end each process must stand as after a run in order, and what it sent, less what
 * it called back, must be what that run sends; some of the objects are checked, and dym_untold finds nothing. So it is too where processes are closed on
 * the way and opened anew with what was taken along. Then what each call refuses.
 *     process [STEP]     all that can be run between the messages, or each STEPth of that, is tried with each order. It says how many were tried, and ends
 *                        with 0, or with 1 at the first difference
 */
#include "dymelor_process.h"

#include <stdio.h>
#include <stdlib.h>
#include <string.h>

enum { MOST = 6, PROCESSES = 3, QUOTA = 4, ROOM = 4096 };

static const char *trial = "";

static void fail(const char *what, int line)
{
    fprintf(stderr, "process.c:%d: %s: %s\n", line, trial, what);
    exit(1);
}

#define MUST(what) ((what) ? (void)0 : fail(#what, __LINE__))
#define DONE(call) MUST((call) == DYM_DONE)

static uint64_t mixed(uint64_t x)
{
    x = (x ^ (x >> 30)) * UINT64_C(0xbf58476d1ce4e5b9);
    x = (x ^ (x >> 27)) * UINT64_C(0x94d049bb133111eb);
    return x ^ (x >> 31);
}

/* ---- a model whose state and sent events depend on all events that were run, and on their order */

enum { LAST = 100 };

typedef struct root {
    uint64_t hash;
    uint64_t last; /* the number of the handle of a chunk of LAST bytes, or 0 */
    uint64_t *bytes;
} root;

/* A state, in a process or by itself, and where it sends. */
typedef struct site site;
struct site {
    dym_object *object;
    dym_handle chunk;
    root *root;
    uint32_t number, processes;
    void (*send)(site *s, const dym_event *event);
    void *owner;
};

static void start(site *s)
{
    void *place;
    uint64_t k;
    DONE(dym_calloc_at(s->object, 1, sizeof(root), &s->chunk, &place));
    s->root = place;
    s->root->hash = s->number;
    if (s->processes == 1) return;
    for (k = 0; k < MOST / PROCESSES; k++) {
        dym_event first = dym_event_to((s->number + (uint32_t)k) % s->processes, 10 * k + 3 * s->number, 3, mixed(k + s->number), 0);
        s->send(s, &first);
    }
}

/* What stood in `last` goes, stays, or is another chunk; the event's kind says how many hops are left. */
static void run(site *s, const dym_event *e)
{
    root *r = s->root;
    uint64_t old = r->last, hash = mixed(r->hash ^ e->data[0]) + e->time;
    dym_event sent = dym_event_to((uint32_t)(hash >> 8) % s->processes, e->time + 1 + hash % 5, e->kind - 1, hash, 0);
    dym_handle fresh;
    void *place;
    DONE(dym_touch(s->object, s->chunk, NULL));
    r->hash = hash;
    if (hash % 3 == 0) {
        r->last = 0;
    } else if (hash % 3 == 1 || old == 0) {
        DONE(dym_calloc_at(s->object, 1, LAST, &fresh, &place));
        r->last = dym_number(fresh);
        r->bytes = place;
        r->bytes[0] = hash;
    } else { /* the same chunk, changed at its end */
        DONE(dym_touch(s->object, dym_numbered(old), NULL));
        r->bytes[4] += hash;
        old = 0;
    }
    if (old != 0) DONE(dym_free(s->object, dym_numbered(old)));
    if (e->kind == 0) return;
    if (hash % 4 != 0) s->send(s, &sent);
    sent.priority = hash % 3;
    sent.data[1] = 1;
    if (hash % 4 == 1) s->send(s, &sent);
}

static uint64_t sum_of(const site *s)
{
    const root *r = s->root;
    return mixed(r->hash) + (r->last != 0 ? r->bytes[0] + mixed(r->bytes[4]) : 0);
}

/* The same, and the name of the chunk, which is another one where a state was made anew. */
static uint64_t named_sum_of(const site *s)
{
    return sum_of(s) + s->root->last;
}

/* ---- lists of events */

typedef struct list {
    size_t count;
    dym_message items[ROOM];
} list;

static void add(list *to, const dym_event *event, uint32_t is_anti)
{
    MUST(to->count < ROOM);
    to->items[to->count].event = *event;
    to->items[to->count].is_anti = is_anti;
    to->items[to->count++].mark = 0;
}

static dym_message take_out(list *from, size_t place)
{
    dym_message taken = from->items[place];
    from->count--;
    memmove(&from->items[place], &from->items[place + 1], (from->count - place) * sizeof taken);
    return taken;
}

/* The order of keys, with no two events that differ only behind the serial. */
static int comes_before(const dym_event *a, const dym_event *b)
{
    if (a->time != b->time) return a->time < b->time;
    if (a->priority != b->priority) return a->priority < b->priority;
    if (a->sender != b->sender) return a->sender < b->sender;
    return a->serial < b->serial;
}

static size_t first_of(const list *these)
{
    size_t k, first = 0;
    for (k = 1; k < these->count; k++)
        if (comes_before(&these->items[k].event, &these->items[first].event)) first = k;
    return first;
}

/* The events of what was sent that weren't called back, in the order of their keys. An anti-message has its event before it. */
static list standing(const list *sent)
{
    list all, sorted;
    size_t k, j;
    all.count = sorted.count = 0;
    for (k = 0; k < sent->count; k++) {
        const dym_message *m = &sent->items[k];
        if (!m->is_anti) {
            add(&all, &m->event, 0);
            continue;
        }
        for (j = 0; j < all.count && memcmp(&all.items[j].event, &m->event, sizeof m->event) != 0;) j++;
        MUST(j < all.count);
        take_out(&all, j);
    }
    while (all.count > 0) {
        dym_message first = take_out(&all, first_of(&all));
        add(&sorted, &first.event, 0);
    }
    return sorted;
}

static int same_list(const list *a, const list *b)
{
    size_t k;
    for (k = 0; k < a->count && k < b->count; k++)
        if (memcmp(&a->items[k].event, &b->items[k].event, sizeof a->items[k].event) != 0) return 0;
    return a->count == b->count;
}

/* ---- the run in order: one queue, and objects without logs */

typedef struct in_order {
    dym_object object[PROCESSES];
    site sites[PROCESSES];
    uint64_t serials[PROCESSES], sums[PROCESSES], named_sums[PROCESSES];
    uint64_t ran;
    list queue, sent;
} in_order;

static void queue_up(site *s, const dym_event *event)
{
    in_order *all = s->owner;
    dym_event stamped = *event;
    stamped.sender = s->number;
    stamped.serial = all->serials[s->number]++;
    if (s->processes > 1) add(&all->queue, &stamped, 0);
    add(&all->sent, &stamped, 0);
}

static void start_in_order(in_order *all, uint32_t processes)
{
    uint32_t k;
    all->ran = 0;
    all->queue.count = all->sent.count = 0;
    memset(all->object, 0, sizeof all->object);
    memset(all->serials, 0, sizeof all->serials);
    for (k = 0; k < processes; k++) {
        site *s = &all->sites[k];
        DONE(dym_open(&all->object[k], QUOTA, 2));
        s->object = &all->object[k];
        s->number = k;
        s->processes = processes;
        s->send = queue_up;
        s->owner = all;
        start(s);
    }
}

static void end_in_order(in_order *all, uint32_t processes)
{
    uint32_t k;
    list sorted;
    while (all->queue.count > 0) {
        dym_message first = take_out(&all->queue, first_of(&all->queue));
        run(&all->sites[first.event.receiver], &first.event);
        all->ran++;
    }
    for (k = 0; k < processes; k++) {
        all->sums[k] = sum_of(&all->sites[k]);
        all->named_sums[k] = named_sum_of(&all->sites[k]);
        DONE(dym_close(&all->object[k]));
    }
    sorted = standing(&all->sent);
    all->sent = sorted;
}

/* ---- processes */

typedef struct runner {
    dym_process process;
    site site;
    uint64_t replays, committed;
} runner;

static void send_by_process(site *s, const dym_event *event)
{
    runner *r = s->owner;
    DONE(dym_process_send(&r->process, event));
}

/* Opens a process, whose start is to be made. */
static void open_empty(runner *r, uint32_t number, uint32_t processes, uint64_t period, uint32_t is_checked)
{
    dym_process_config config = {0};
    config.number = number;
    config.processes = processes;
    config.period = period;
    config.quota = QUOTA;
    config.version = 2;
    config.is_checked = is_checked;
    memset(r, 0, sizeof *r);
    DONE(dym_process_open(&r->process, &config));
    r->site.object = &r->process.object;
    r->site.number = number;
    r->site.processes = processes;
    r->site.send = send_by_process;
    r->site.owner = r;
}

static void open_runner(runner *r, uint32_t number, uint32_t processes, uint64_t period, uint32_t is_checked)
{
    open_empty(r, number, processes, period, is_checked);
    start(&r->site);
    DONE(dym_process_end(&r->process));
}

static void check_told(runner *r)
{
    dym_handle chunk;
    if (dym_untold(&r->process.object, &chunk) == DYM_DONE) MUST(dym_same(chunk, dym_nil));
}

static uint64_t count_changed(const runner *r)
{
    uint64_t changed;
    DONE(dym_changed(&r->process.object, &changed));
    return changed;
}

/* Runs events that weren't run before, this many at most, and what is to be run again before them. */
static void run_some(runner *r, unsigned most)
{
    dym_event event;
    uint32_t how, is_replayed;
    dym_progress before, after;
    while (most > 0) {
        dym_status begun;
        DONE(dym_process_progress(&r->process, &before));
        begun = dym_process_begin(&r->process, &event, &how);
        if (begun == DYM_NONE) return;
        is_replayed = how & DYM_REPLAYED;
        MUST(begun == DYM_DONE && is_replayed == (before.replays > 0));
        MUST(count_changed(r) == 0 || !(how & DYM_UNTOUCHED));
        run(&r->site, &event);
        DONE(dym_process_end(&r->process));
        DONE(dym_process_progress(&r->process, &after));
        MUST(after.ran == before.ran + !is_replayed && after.replays == before.replays - is_replayed && !after.is_open);
        r->replays += is_replayed;
        most -= !is_replayed;
        check_told(r);
    }
}

/* Takes a message; as many events are undone as are told. */
static void take(runner *r, const dym_message *m)
{
    dym_progress before, after;
    uint64_t undone;
    DONE(dym_process_progress(&r->process, &before));
    DONE(dym_process_take(&r->process, m, &undone));
    DONE(dym_process_progress(&r->process, &after));
    MUST(after.ran + undone == before.ran);
    if (undone == 0) MUST(after.outbox == before.outbox && after.replays == before.replays);
}

/* Runs what is to be run again, and nothing else. */
static void settle(runner *r)
{
    dym_event event;
    dym_progress now;
    dym_status begun;
    uint32_t how;
    while ((begun = dym_process_replay(&r->process, &event, &how)) == DYM_DONE) {
        MUST(how & DYM_REPLAYED);
        run(&r->site, &event);
        DONE(dym_process_end(&r->process));
    }
    MUST(begun == DYM_NONE);
    DONE(dym_process_progress(&r->process, &now));
    MUST(now.replays == 0);
}

/* Moves what is to be delivered to a list, in pieces, and counts it among what was sent. */
static void empty(runner *r, list *to, list *sent)
{
    dym_message piece[3];
    uint64_t count, k;
    do {
        DONE(dym_process_outbox(&r->process, piece, 3, &count));
        for (k = 0; k < count; k++) {
            if (to != NULL) add(to, &piece[k].event, piece[k].is_anti);
            add(sent, &piece[k].event, piece[k].is_anti);
        }
    } while (count > 0);
}

/* Commits, and looks at what was committed: it is in order, before the bound, and as many events as are told. */
static void commit(runner *r, uint64_t bound)
{
    dym_event piece[2], last = {0};
    uint64_t committed, count, k, found = 0;
    DONE(dym_process_commit(&r->process, bound, &committed));
    do {
        DONE(dym_process_committed(&r->process, piece, 2, &count));
        for (k = 0; k < count; k++) {
            MUST(piece[k].time < bound && (found == 0 || comes_before(&last, &piece[k])));
            last = piece[k];
            found++;
        }
    } while (count > 0);
    MUST(found == committed);
    r->committed += committed;
}

static uint64_t next_time(runner *r)
{
    uint64_t time = UINT64_MAX;
    dym_status status = dym_process_next(&r->process, &time);
    MUST(status == DYM_DONE || status == DYM_NONE);
    return time;
}

/* ---- one process, and sets of messages */

/* What stands for a message: an event by its key, or the anti-message to it. */
typedef struct row {
    uint64_t time;
    uint32_t sender;
    uint64_t serial;
    uint32_t is_anti;
} row;

typedef struct set {
    unsigned count;
    row rows[MOST];
} set;

static const set sets[] = {
    {5, {{10, 1, 0, 0}, {20, 1, 1, 0}, {30, 1, 2, 0}, {40, 1, 3, 0}, {50, 1, 4, 0}}},
    /* events of one time: by their senders, and of one sender by their serials */
    {5, {{10, 1, 0, 0}, {10, 2, 0, 0}, {10, 1, 1, 0}, {10, 1, 1, 1}, {11, 2, 1, 0}}},
    /* all are called back */
    {6, {{10, 1, 0, 0}, {20, 1, 1, 0}, {30, 1, 2, 0}, {10, 1, 0, 1}, {20, 1, 1, 1}, {30, 1, 2, 1}}},
    /* an event is called back and sent again as it was, and for another time */
    {6, {{10, 1, 0, 0}, {10, 1, 0, 1}, {10, 1, 0, 0}, {10, 1, 0, 1}, {15, 1, 0, 0}, {12, 2, 0, 0}}},
    {6, {{5, 1, 0, 0}, {6, 2, 0, 0}, {7, 3, 0, 0}, {7, 2, 1, 0}, {8, 1, 1, 0}, {6, 2, 0, 1}}},
    {6, {{9, 3, 0, 0}, {8, 3, 1, 0}, {7, 3, 2, 0}, {6, 3, 3, 0}, {5, 3, 4, 0}, {4, 3, 5, 0}}},
};

static dym_message message_of(const row *r)
{
    dym_message m;
    memset(&m, 0, sizeof m);
    m.event = dym_event_to(0, r->time, 1, mixed(r->time * 1000 + r->serial + 1), 0);
    m.event.sender = r->sender;
    m.event.serial = r->serial;
    m.is_anti = r->is_anti;
    m.mark = r->sender;
    return m;
}

static unsigned long tried, replayed, moved, passed, step = 1;

/* Whether what comes now is tried. */
static int is_due(void)
{
    return passed++ % step == 0;
}

/* What must come of a set: its events that weren't called back, run in order. */
static void expect(const set *these, in_order *wanted)
{
    list all, left;
    unsigned k;
    all.count = 0;
    start_in_order(wanted, 1);
    for (k = 0; k < these->count; k++) {
        dym_message m = message_of(&these->rows[k]);
        if (!m.is_anti) add(&all, &m.event, 0);
    }
    for (k = 0; k < these->count; k++) {
        dym_message m = message_of(&these->rows[k]);
        if (m.is_anti) add(&all, &m.event, 1);
    }
    left = standing(&all);
    for (k = 0; k < left.count; k++) add(&wanted->queue, &left.items[k].event, 0);
    end_in_order(wanted, 1);
}

/* The least time of the messages that haven't come and of the events that haven't run: what a bound may be. */
static uint64_t least(runner *r, const set *these, const unsigned *order, unsigned from)
{
    uint64_t time = next_time(r);
    for (; from < these->count; from++)
        if (these->rows[order[from]].time < time) time = these->rows[order[from]].time;
    return time;
}

/* Hands the messages in an order; the digits of the pattern say what is run after each (nothing, one event, all), and whether a bound is committed. */
static void try_pattern(const set *these, const unsigned *order, unsigned pattern, unsigned base, uint64_t period, const in_order *wanted)
{
    runner r;
    list sent, left;
    dym_event event;
    unsigned k;
    sent.count = 0;
    open_runner(&r, 0, 1, period, pattern % 5 == 0);
    for (k = 0; k < these->count; k++, pattern /= base) {
        dym_message m = message_of(&these->rows[order[k]]);
        take(&r, &m);
        run_some(&r, base == 2 ? pattern % 2 * ROOM : pattern % 3 == 2 ? ROOM : pattern % 3);
        if (pattern % 4 == 1) settle(&r);
        if ((pattern + k) % 2 == 0) commit(&r, least(&r, these, order, k + 1));
        empty(&r, NULL, &sent);
    }
    run_some(&r, ROOM);
    settle(&r);
    MUST(dym_process_begin(&r.process, &event, NULL) == DYM_NONE);
    MUST(named_sum_of(&r.site) == wanted->named_sums[0]);
    commit(&r, UINT64_MAX);
    MUST(r.committed == wanted->ran);
    empty(&r, NULL, &sent);
    left = standing(&sent);
    MUST(same_list(&left, &wanted->sent));
    replayed += r.replays;
    tried++;
    DONE(dym_process_close(&r.process));
}

static void try_order(const set *these, const unsigned *order, uint64_t period, const in_order *wanted)
{
    unsigned base = these->count < MOST ? 3 : 2, patterns = 1, k;
    static char name[200];
    for (k = 0; k < these->count; k++) patterns *= base;
    for (k = 0; k < patterns; k++) {
        if (!is_due()) continue;
        snprintf(name, sizeof name, "set %d, order %u %u %u %u %u %u, pattern %u, a log every %d", (int)(these - sets), order[0], order[1],
                 order[2], order[3], order[4], order[5], k, (int)period);
        trial = name;
        try_pattern(these, order, k, base, period, wanted);
    }
}

/* Tries each order of what stands from a place on. */
static void try_orders(const set *these, unsigned *order, unsigned from, uint64_t period, const in_order *wanted)
{
    unsigned k, kept = order[from];
    if (from + 1 >= these->count) {
        try_order(these, order, period, wanted);
        return;
    }
    for (k = from; k < these->count; k++) {
        order[from] = order[k];
        order[k] = kept;
        try_orders(these, order, from + 1, period, wanted);
        order[k] = order[from];
        order[from] = kept;
    }
}

/* ---- three processes */

/* The least time of what is to be run and of what is on its way. */
static uint64_t bound_of(runner *all, const list *pool)
{
    uint64_t bound = UINT64_MAX;
    size_t k;
    for (k = 0; k < PROCESSES; k++)
        if (next_time(&all[k]) < bound) bound = next_time(&all[k]);
    for (k = 0; k < pool->count; k++)
        if (pool->items[k].event.time < bound) bound = pool->items[k].event.time;
    return bound;
}

/* What a program takes along of a process that it closes and opens anew: the state, how many events it had sent that weren't called back, and those
 * that are still to be run. */
typedef struct luggage {
    root root;
    uint64_t last[LAST / sizeof(uint64_t)];
    uint64_t sent;
    list events;
} luggage;

/* Undoes what was run from the bound on: an event before all others of its time comes, and is called back. */
static void back_to(runner *r, uint64_t bound)
{
    dym_message first;
    memset(&first, 0, sizeof first);
    first.event.time = bound;
    first.event.receiver = r->site.number;
    take(r, &first);
    first.is_anti = 1;
    take(r, &first);
    settle(r);
}

/* Closes a process to which no message is on its way. What is left to be run is handed out, and ended without being run. */
static void pack(runner *r, uint64_t bound, list *pool, list *sent, luggage *all)
{
    dym_event event;
    dym_progress progress;
    dym_status begun;
    size_t k;
    commit(r, bound);
    back_to(r, bound);
    empty(r, pool, sent);
    all->sent = all->events.count = 0;
    for (k = 0; k < sent->count; k++)
        if (sent->items[k].event.sender == r->site.number) all->sent += sent->items[k].is_anti ? UINT64_MAX : 1;
    all->root = *r->site.root;
    if (all->root.last != 0) memcpy(all->last, all->root.bytes, sizeof all->last);
    while ((begun = dym_process_begin(&r->process, &event, NULL)) == DYM_DONE) {
        MUST(event.time >= bound);
        add(&all->events, &event, 0);
        DONE(dym_process_end(&r->process));
    }
    MUST(begun == DYM_NONE);
    DONE(dym_process_progress(&r->process, &progress));
    MUST(progress.outbox == 0);
    DONE(dym_process_close(&r->process));
}

/* Opens it anew: its start makes the state, and sends as many events as it had sent, which are dropped, so that serials go on. */
static void unpack(runner *r, uint64_t period, const luggage *all)
{
    uint64_t committed = r->committed, replays = r->replays, k;
    dym_event none = dym_event_to(0, 0, 0, 0, 0);
    dym_handle fresh;
    list dropped;
    void *place;
    open_empty(r, r->site.number, PROCESSES, period, 0);
    r->committed = committed;
    r->replays = replays;
    DONE(dym_calloc_at(r->site.object, 1, sizeof(root), &r->site.chunk, &place));
    r->site.root = place;
    *r->site.root = all->root;
    if (all->root.last != 0) {
        DONE(dym_malloc_at(r->site.object, LAST, &fresh, &place));
        r->site.root->last = dym_number(fresh);
        r->site.root->bytes = place;
        memcpy(place, all->last, sizeof all->last);
    }
    for (k = 0; k < all->sent; k++) DONE(dym_process_send(&r->process, &none));
    DONE(dym_process_end(&r->process));
    dropped.count = 0;
    empty(r, NULL, &dropped);
    MUST(dropped.count == all->sent);
    for (k = 0; k < all->events.count; k++) take(r, &all->events.items[k]);
}

/* Closes a process and opens it anew, if no message is on its way to it. */
static void move(runner *all, uint32_t which, uint64_t period, list *pool, list *sent)
{
    luggage taken;
    size_t k;
    for (k = 0; k < pool->count; k++)
        if (pool->items[k].event.receiver == which) return;
    pack(&all[which], bound_of(all, pool), pool, sent, &taken);
    unpack(&all[which], period, &taken);
    moved++;
}

/* The first six messages go in an order, given by a number below 720, and later always one of the oldest six; after each the pattern says how many
 * events are run, and where. */
static void try_world(unsigned order, unsigned pattern, uint64_t period, int moves, const in_order *wanted)
{
    runner all[PROCESSES];
    list pool, sent, left;
    uint64_t random = order * 64 + pattern, committed = 0;
    unsigned k, turn;
    static char name[100];
    pool.count = sent.count = 0;
    snprintf(name, sizeof name, "three processes, order %u, pattern %u, a log every %d%s", order, pattern, (int)period, moves ? ", moves" : "");
    trial = name;
    for (k = 0; k < PROCESSES; k++) open_runner(&all[k], k, PROCESSES, period, 0);
    for (k = 0; k < PROCESSES; k++) empty(&all[k], &pool, &sent);
    for (turn = 0; pool.count > 0; turn++) {
        unsigned count = pool.count < MOST ? (unsigned)pool.count : MOST;
        dym_message m;
        if (turn >= MOST) order = (unsigned)(random = mixed(random + 1));
        m = take_out(&pool, order % count);
        if (turn < MOST) order /= count;
        take(&all[m.event.receiver], &m);
        k = (turn + pattern) % PROCESSES;
        run_some(&all[k], pattern % 4 == 3 ? ROOM : pattern % 4);
        empty(&all[k], &pool, &sent);
        empty(&all[m.event.receiver], &pool, &sent);
        if (pool.count == 0)
            for (k = 0; k < PROCESSES; k++) {
                run_some(&all[k], ROOM);
                empty(&all[k], &pool, &sent);
            }
        if ((turn + pattern) % 3 == 0)
            for (k = 0; k < PROCESSES; k++) commit(&all[k], bound_of(all, &pool));
        if (moves && turn % 2 == 0) move(all, (turn / 2 + pattern) % PROCESSES, period, &pool, &sent);
    }
    for (k = 0; k < PROCESSES; k++) {
        settle(&all[k]);
        MUST(sum_of(&all[k].site) == wanted->sums[k]);
        MUST(moves || named_sum_of(&all[k].site) == wanted->named_sums[k]);
        commit(&all[k], UINT64_MAX);
        committed += all[k].committed;
        replayed += all[k].replays;
        DONE(dym_process_close(&all[k].process));
    }
    MUST(committed == wanted->ran);
    left = standing(&sent);
    MUST(same_list(&left, &wanted->sent));
    tried++;
}

/* ---- what is refused, in turn */

/* A message of an event for process 0. */
static dym_message message_at(uint64_t time, uint32_t sender)
{
    dym_message m = {0};
    m.event = dym_event_to(0, time, 1, 0, 0);
    m.event.sender = sender;
    return m;
}

static dym_process_config config_of_one(void)
{
    dym_process_config config = {0};
    config.processes = 1;
    config.quota = 1;
    config.version = 2;
    return config;
}

static void refused_openings(dym_process *closed)
{
    dym_process_config config = config_of_one();
    config.processes = 0;
    MUST(dym_process_open(closed, &config) == DYM_BAD);
    config.processes = 1;
    config.version = 3;
    MUST(dym_process_open(closed, &config) == DYM_BAD);
    config.version = 2;
    config.quota = 0;
    MUST(dym_process_open(closed, &config) == DYM_BAD);
    config.quota = 1;
    config.is_checked = 2;
    MUST(dym_process_open(closed, &config) == DYM_BAD);
    config.is_checked = 0;
    config.number = 1;
    MUST(dym_process_open(closed, &config) == DYM_BAD);
    config.number = 0;
    DONE(dym_open(&closed->object, 1, 2));
    MUST(dym_process_open(closed, &config) == DYM_STATE);
    DONE(dym_close(&closed->object));
    MUST(closed->inside == NULL);
}

/* Each call on a closed process. */
static void refused_while_closed(dym_process *closed)
{
    dym_progress progress;
    dym_message m = message_at(10, 1);
    dym_event event = m.event, sent;
    uint64_t number = 7;
    MUST(dym_process_close(closed) == DYM_STATE && dym_process_take(closed, &m, NULL) == DYM_STATE);
    MUST(dym_process_begin(closed, &sent, NULL) == DYM_STATE && dym_process_replay(closed, &sent, NULL) == DYM_STATE);
    MUST(dym_process_send(closed, &event) == DYM_STATE && dym_process_end(closed) == DYM_STATE);
    MUST(dym_process_commit(closed, 5, NULL) == DYM_STATE && dym_process_next(closed, &number) == DYM_STATE);
    MUST(dym_process_outbox(closed, &m, 1, &number) == DYM_STATE && dym_process_committed(closed, &sent, 1, &number) == DYM_STATE);
    MUST(dym_process_progress(closed, &progress) == DYM_STATE && dym_process_period(closed, 3) == DYM_STATE && number == 7);
}

static void refused_at_start(dym_process *process)
{
    dym_process_config config = config_of_one();
    dym_progress progress;
    dym_message m = message_at(10, 1);
    dym_event event = m.event, sent;
    uint64_t number = 7;
    DONE(dym_process_open(process, &config));
    MUST(dym_process_open(process, &config) == DYM_STATE);
    MUST(dym_process_begin(process, &sent, NULL) == DYM_STATE && dym_process_take(process, &m, NULL) == DYM_STATE);
    MUST(dym_process_commit(process, 5, NULL) == DYM_STATE && dym_process_next(process, &number) == DYM_STATE && number == 7);
    DONE(dym_process_progress(process, &progress));
    MUST(progress.is_open == 1 && progress.ran == 0 && progress.outbox == 0);
    event.receiver = 1;
    MUST(dym_process_send(process, &event) == DYM_NO_PROCESS);
    event.receiver = 0;
    event.time = 0;
    DONE(dym_process_send(process, &event));
    DONE(dym_log(&process->object, DYM_FULL, 3, NULL));
    MUST(dym_process_end(process) == DYM_ASTRAY);
    DONE(dym_close(&process->object));
    MUST(dym_process_end(process) == DYM_STATE);
    DONE(dym_process_close(process));
    MUST(process->inside == NULL && process->object.inside == NULL);
}

/* An event of time 10 comes, and its run sends one of time 11. */
static void refused_events(dym_process *process)
{
    dym_progress progress;
    dym_message m = message_at(10, 1);
    dym_event event = dym_event_to(0, 0, 1, 0, 0), sent;
    uint64_t number = 7;
    uint32_t how;
    MUST(dym_process_end(process) == DYM_STATE && dym_process_send(process, &event) == DYM_STATE);
    MUST(dym_process_begin(process, &sent, NULL) == DYM_NONE && dym_process_next(process, &number) == DYM_NONE && number == 7);
    m.is_anti = 2;
    MUST(dym_process_take(process, &m, NULL) == DYM_BAD);
    m.is_anti = 0;
    m.event.receiver = 1;
    MUST(dym_process_take(process, &m, NULL) == DYM_NO_PROCESS);
    m.event.receiver = 0;
    DONE(dym_process_take(process, &m, NULL));
    MUST(dym_process_commit(process, 11, &number) == DYM_UNSETTLED);
    DONE(dym_process_commit(process, 10, &number));
    MUST(number == 0);
    MUST(dym_process_commit(process, 9, &number) == DYM_COMMITTED);
    DONE(dym_process_begin(process, &sent, &how));
    MUST(memcmp(&sent, &m.event, sizeof sent) == 0 && how == DYM_UNTOUCHED);
    MUST(dym_process_begin(process, &sent, NULL) == DYM_STATE && dym_process_replay(process, &sent, NULL) == DYM_STATE);
    MUST(dym_process_take(process, &m, NULL) == DYM_STATE && dym_process_commit(process, 11, NULL) == DYM_STATE);
    MUST(dym_process_commit(process, 0, NULL) == DYM_STATE);
    event.time = 10;
    MUST(dym_process_send(process, &event) == DYM_NOT_LATER);
    event.time = 11;
    event.receiver = 1;
    MUST(dym_process_send(process, &event) == DYM_NO_PROCESS);
    event.receiver = 0;
    DONE(dym_process_send(process, &event));
    DONE(dym_process_progress(process, &progress));
    MUST(progress.is_open == 1 && progress.ran == 0 && progress.outbox == 0);
    DONE(dym_process_end(process));
}

/* What was committed stays where a commit is refused; a bound of 0 commits nothing, whatever bound came before. */
static void refused_commits(dym_process *process)
{
    dym_message m = message_at(10, 1);
    dym_event event;
    uint64_t number;
    DONE(dym_process_commit(process, 11, &number));
    MUST(number == 1);
    MUST(dym_process_take(process, &m, NULL) == DYM_COMMITTED);
    m.is_anti = 1;
    MUST(dym_process_take(process, &m, NULL) == DYM_COMMITTED);
    m.event.time = 12;
    DONE(dym_process_take(process, &m, NULL));
    MUST(dym_process_commit(process, 13, NULL) == DYM_UNSETTLED && dym_process_commit(process, 9, NULL) == DYM_COMMITTED);
    DONE(dym_process_committed(process, &event, 0, &number));
    MUST(number == 0);
    DONE(dym_process_committed(process, &event, 1, &number));
    MUST(number == 1 && event.time == 10);
    DONE(dym_process_commit(process, 0, &number));
    MUST(number == 0);
    DONE(dym_process_outbox(process, &m, 0, &number));
    MUST(number == 0);
    DONE(dym_process_outbox(process, &m, 1, &number));
    MUST(number == 1 && m.event.time == 11 && m.event.sender == 0 && m.event.serial == 0 && !m.is_anti);
}

/* Logs that aren't the process's. */
static void refused_logs(dym_process *process)
{
    const dym_message m = message_at(20, 0);
    dym_event event;
    DONE(dym_process_take(process, &m, NULL));
    DONE(dym_log(&process->object, DYM_FULL, 9, NULL));
    MUST(dym_process_begin(process, &event, NULL) == DYM_ASTRAY);
}

static void try_refusals(void)
{
    runner r;
    dym_process process = {{NULL}, NULL};
    trial = "refusals";
    refused_openings(&process);
    refused_while_closed(&process);
    refused_at_start(&process);
    open_runner(&r, 0, 1, 1, 0);
    refused_events(&r.process);
    refused_commits(&r.process);
    refused_logs(&r.process);
    DONE(dym_process_close(&r.process));
}

/* An event comes and is called back, over and over, and each time what was run after it is undone: no log stays of what was undone. And events without a bound:
 * when the logs are full the process goes on. */
static void try_many(void)
{
    row kept = {10, 1, 0, 0}, straggler = {5, 2, 0, 0};
    dym_message m = message_of(&kept);
    dym_slots logs;
    runner r;
    trial = "many";
    open_runner(&r, 0, 1, 1, 0);
    DONE(dym_process_take(&r.process, &m, NULL));
    for (straggler.serial = 0; straggler.serial < 512; straggler.serial++) {
        m = message_of(&straggler);
        DONE(dym_process_take(&r.process, &m, NULL));
        run_some(&r, ROOM);
        m.is_anti = 1;
        DONE(dym_process_take(&r.process, &m, NULL));
    }
    DONE(dym_logs(&r.process.object, &logs));
    MUST(logs.kept <= 3);
    for (kept.serial = 1; kept.serial < 400; kept.serial++) {
        kept.time = 10 + kept.serial;
        m = message_of(&kept);
        DONE(dym_process_take(&r.process, &m, NULL));
        run_some(&r, ROOM);
    }
    DONE(dym_logs(&r.process.object, &logs));
    MUST(logs.kept == 256);
    m = message_of(&straggler);
    m.event.time = 309;
    m.event.kind = 0;
    DONE(dym_process_take(&r.process, &m, NULL));
    settle(&r);
    commit(&r, 309);
    MUST(r.committed == 299);
    run_some(&r, ROOM);
    DONE(dym_logs(&r.process.object, &logs));
    MUST(logs.kept > 80 && logs.kept < 110);
    DONE(dym_process_close(&r.process));
}


int main(int count, char **words)
{
    in_order wanted;
    unsigned order, pattern;
    uint64_t period;
    size_t k;
    if (count > 1) step = strtoul(words[1], NULL, 10);
    if (step == 0) return 2;
    for (period = 1; period <= 3; period++) {
        for (k = 0; k < sizeof sets / sizeof *sets; k++) {
            unsigned places[MOST] = {0, 1, 2, 3, 4, 5};
            expect(&sets[k], &wanted);
            try_orders(&sets[k], places, 0, period, &wanted);
        }
        start_in_order(&wanted, PROCESSES);
        MUST(wanted.queue.count == MOST);
        end_in_order(&wanted, PROCESSES);
        for (order = 0; order < 720; order++)
            for (pattern = 0; pattern < 12; pattern++)
                if (is_due()) try_world(order, pattern, period, 0, &wanted);
        for (order = 0; order < 720; order += 7)
            for (pattern = 0; pattern < 12; pattern++)
                if (is_due()) try_world(order, pattern, period, 1, &wanted);
    }
    try_refusals();
    try_many();
    printf("%lu orders of messages and runs, %lu events run again, %lu processes opened anew\n", tried, replayed, moved);
    return 0;
}
