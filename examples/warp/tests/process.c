/*
 * A process by itself, of either kind: sets of up to six messages, events and anti-messages, in every order, with some events run and a bound
 * committed after each. At the end the process must stand as if the events that weren't called back had been run in order, by a process of the
 * kernel's own over whole copies; and what it sent, less what it called back, must be what these events send there.
 *     process [copies|place|undo] [own|library]      says how many orders were tried
 */
#include "../process.h"

#include <inttypes.h>
#include <stdio.h>
#include <stdlib.h>
#include <string.h>

#include "../pending.h"

/* The most messages of a set, and twice as many rollbacks as a process keeps logs. */
enum { MOST = 6, MANY = 2 * MEMORY_LOGS };

/* How many events are run after a message. */
enum { NO_EVENT, ONE_EVENT, ALL_EVENTS };

/* ---- a model whose state and sent events depend on all events that were run, and on their order */

enum { LAST = 100 };

typedef struct root {
    uint64_t hash;
    uint64_t *last; /* a chunk of LAST bytes, or null */
} root;

static void start(context *c)
{
    c->state = model_alloc(c, sizeof(root));
}

static void run(context *c, const event *e)
{
    root *r = c->state;
    uint64_t *old = r->last, hash = model_mixed(r->hash ^ e->data[0]) + e->time;
    model_write(c, r, sizeof *r);
    r->hash = hash;
    if (hash % 3 == 0) {
        r->last = NULL;
    } else if (hash % 3 == 1 || old == NULL) {
        r->last = model_alloc(c, LAST);
        *r->last = hash;
    } else { /* the same chunk, changed at its end */
        model_write(c, old + 4, sizeof *old);
        old[4] += hash;
        old = NULL;
    }
    if (old != NULL) model_free(c, old, LAST);
    if (hash % 4 != 0) model_send(c, 1, 1 + hash % 5, 0, hash, 0);
    if (hash % 4 == 1) model_send(c, 1, 2, 0, hash, 1);
}

static uint64_t checksum(context *c)
{
    const root *r = c->state;
    return model_mixed(r->hash) + (r->last != NULL ? r->last[0] + model_mixed(r->last[4]) : 0);
}

static const model hashing = {"hashing", "for the test", {{0}}, start, run, checksum, NULL};

/* ---- sets of messages */

/* What stands for a message: an event by its key, or the anti-message to it. */
typedef struct row {
    uint64_t time;
    uint32_t sender;
    uint64_t serial;
    uint32_t is_anti;
} row;

typedef struct set {
    unsigned count;
    row rows[MOST];
} set;

static const set sets[] = {
    {5, {{10, 1, 0, 0}, {20, 1, 1, 0}, {30, 1, 2, 0}, {40, 1, 3, 0}, {50, 1, 4, 0}}},
    /* events of one time: by their senders, and of one sender by their serials */
    {5, {{10, 1, 0, 0}, {10, 2, 0, 0}, {10, 1, 1, 0}, {10, 1, 1, 1}, {11, 2, 1, 0}}},
    /* all are called back */
    {6, {{10, 1, 0, 0}, {20, 1, 1, 0}, {30, 1, 2, 0}, {10, 1, 0, 1}, {20, 1, 1, 1}, {30, 1, 2, 1}}},
    /* an event is called back and sent again for the same time, and for another */
    {6, {{10, 1, 0, 0}, {10, 1, 0, 1}, {10, 1, 1, 0}, {10, 1, 1, 1}, {15, 1, 2, 0}, {12, 2, 0, 0}}},
    {6, {{5, 1, 0, 0}, {6, 2, 0, 0}, {7, 3, 0, 0}, {7, 2, 1, 0}, {8, 1, 1, 0}, {6, 2, 0, 1}}},
    {6, {{9, 3, 0, 0}, {8, 3, 1, 0}, {7, 3, 2, 0}, {6, 3, 3, 0}, {5, 3, 4, 0}, {4, 3, 5, 0}}},
};

static message message_of(const row *r)
{
    message m;
    memset(&m, 0, sizeof m);
    m.event.time = r->time;
    m.event.sender = r->sender;
    m.event.serial = r->serial;
    m.event.data[0] = model_mixed(r->time * 1000 + r->serial + 1);
    m.is_anti = r->is_anti;
    m.mark = MESSAGE_MARK;
    return m;
}

/* ---- one order of one set */

static settings options, in_order;
static unsigned long tried;

static void must(fault f, const char *what)
{
    if (f == FAULT_NONE) return;
    fprintf(stderr, "process: %s: %s\n", what, fault_text(f));
    exit(1);
}

/* The events of what was sent that weren't called back, in order. Each has a serial of its own, and an anti-message has its event before it. */
static events standing(const messages *sent)
{
    events all = {NULL, 0, 0};
    uint64_t serials = 0;
    size_t k;
    for (k = 0; k < sent->count; k++) {
        const message *m = &sent->items[k];
        if (options.kind == &process_own && m->is_anti == 0 && m->event.serial != serials++) must(FAULT_MESSAGE, "a serial that isn't the next");
        if (m->is_anti == 0)
            must(pending_put(&all, &m->event), "a list");
        else if (!pending_remove(&all, &m->event))
            must(FAULT_MESSAGE, "an anti-message without its event");
    }
    return all;
}

/* What must come of a set: its events that weren't called back, in order. */
static uint64_t expected(const set *these, events *sent)
{
    process p;
    messages out = {NULL, 0, 0}, none = {NULL, 0, 0};
    uint64_t sum = 0;
    unsigned k, j;
    must(process_open(&p, &in_order, 0, &none), "opening");
    for (k = 0; k < these->count; k++) {
        message m = message_of(&these->rows[k]), other;
        int stands = m.is_anti == 0;
        for (j = 0; j < these->count; j++) {
            other = message_of(&these->rows[j]);
            if (other.is_anti && event_order(&m.event, &other.event) == 0) stands = 0;
        }
        if (stands) must(process_take(&p, &m, &out), "a message");
    }
    while (process_next(&p) != UINT64_MAX) must(process_run(&p, &out), "an event");
    must(process_checksum(&p, &sum), "a checksum");
    *sent = standing(&out);
    free(out.items);
    process_close(&p);
    return sum;
}

/* The least time of the messages that haven't come and of the events that haven't run: what a bound may be. */
static uint64_t least(const process *p, const set *these, const unsigned *order, unsigned from)
{
    uint64_t time = process_next(p);
    for (; from < these->count; from++)
        if (these->rows[order[from]].time < time) time = these->rows[order[from]].time;
    return time;
}

/* How many events of a set weren't called back: each anti-message of a set calls one back. */
static uint64_t count_standing(const set *these)
{
    uint64_t count = 0;
    unsigned k;
    for (k = 0; k < these->count; k++) count += these->rows[k].is_anti ? UINT64_MAX : 1;
    return count;
}

static int same_events(const events *a, const events *b)
{
    size_t k;
    if (a->count != b->count) return 0;
    for (k = 0; k < a->count; k++) {
        const event *x = &a->items[k], *y = &b->items[k];
        if (x->time != y->time || x->data[0] != y->data[0] || x->data[1] != y->data[1]) return 0;
    }
    return 1;
}

/* Hands the messages in an order; the digits of the pattern say what is run after each, and whether a bound is committed. */
static int stands_after(const set *these, const unsigned *order, unsigned pattern, unsigned base, uint64_t sum, const events *sent)
{
    process p;
    messages out = {NULL, 0, 0};
    events left;
    uint64_t found = 0;
    unsigned k;
    int is_same;
    must(process_open(&p, &options, 0, &out), "opening");
    for (k = 0; k < these->count; k++, pattern /= base) {
        message m = message_of(&these->rows[order[k]]);
        unsigned runs = base == 2 ? pattern % 2 * ALL_EVENTS : pattern % 3;
        must(process_take(&p, &m, &out), "a message");
        if (runs == ONE_EVENT && process_next(&p) != UINT64_MAX) must(process_run(&p, &out), "an event");
        while (runs == ALL_EVENTS && process_next(&p) != UINT64_MAX) must(process_run(&p, &out), "an event");
        if ((pattern + k) % 2 == 0) must(process_commit(&p, least(&p, these, order, k + 1)), "a bound");
    }
    while (process_next(&p) != UINT64_MAX) must(process_run(&p, &out), "an event");
    must(process_checksum(&p, &found), "a checksum");
    left = standing(&out);
    is_same = found == sum && same_events(&left, sent) && process_commit(&p, UINT64_MAX) == FAULT_NONE && p.counts.committed == count_standing(these);
    free(left.items);
    free(out.items);
    process_close(&p);
    tried++;
    return is_same;
}

static void try_order(const set *these, const unsigned *order, uint64_t sum, const events *sent)
{
    unsigned base = these->count < MOST ? 3 : 2, patterns = 1, k;
    for (k = 0; k < these->count; k++) patterns *= base;
    for (k = 0; k < patterns; k++) {
        if (stands_after(these, order, k, base, sum, sent)) continue;
        fprintf(stderr, "process: set %td, order", these - sets);
        for (base = 0; base < these->count; base++) fprintf(stderr, " %u", order[base]);
        fprintf(stderr, ", pattern %u, a log every %u: another end\n", k, (unsigned)options.log_every);
        exit(1);
    }
}

/* Tries each order of what stands from a place on. */
static void try_orders(const set *these, unsigned *order, unsigned from, uint64_t sum, const events *sent)
{
    unsigned k, kept = order[from];
    if (from + 1 >= these->count) {
        try_order(these, order, sum, sent);
        return;
    }
    for (k = from; k < these->count; k++) {
        order[from] = order[k];
        order[k] = kept;
        try_orders(these, order, from + 1, sum, sent);
        order[k] = order[from];
        order[from] = kept;
    }
}

static size_t count_logs(process *p)
{
    dym_slots logs;
    if (p->kind == &process_own) return p->own.logged.count;
    if (dym_logs(&p->library.process.object, &logs) != DYM_DONE) must(FAULT_LOG, "logs");
    return logs.kept;
}

/* An event comes and is called back, over and over, and each time what was run after it is undone. No log stays of what was undone, so
 * that the process doesn't ask for a bound. */
static void try_many_rollbacks(void)
{
    row kept = {10, 1, 0, 0}, straggler = {5, 2, 0, 0};
    message last = message_of(&kept);
    messages out = {NULL, 0, 0};
    process p;
    must(process_open(&p, &options, 0, &out), "opening");
    must(process_take(&p, &last, &out), "a message");
    for (straggler.serial = 0; straggler.serial < MANY; straggler.serial++) {
        message m = message_of(&straggler);
        must(process_take(&p, &m, &out), "a straggler");
        while (process_next(&p) != UINT64_MAX) must(process_run(&p, &out), "an event");
        m.is_anti = 1;
        must(process_take(&p, &m, &out), "an anti-message");
    }
    if (p.wants_bound || count_logs(&p) > 3) {
        fprintf(stderr, "process: %zu logs are kept of one event\n", count_logs(&p));
        exit(1);
    }
    free(out.items);
    process_close(&p);
}

int main(int count, char **words)
{
    size_t k;
    options.model = &hashing;
    options.way = memory_way_named(count > 1 ? words[1] : "copies");
    options.processes = 4;
    options.quota = 3;
    if (options.way == NULL) return 2;
    options.kind = process_kind_named(count > 2 ? words[2] : "own");
    if (options.kind == NULL || (options.kind == &process_library && options.way->open_over == NULL)) return 2;
    in_order = options;
    in_order.way = &memory_copies;
    in_order.kind = &process_own;
    in_order.log_every = 1;
    for (options.log_every = 1; options.log_every <= 3; options.log_every++) {
        for (k = 0; k < sizeof sets / sizeof *sets; k++) {
            unsigned order[MOST] = {0, 1, 2, 3, 4, 5};
            events sent;
            uint64_t sum = expected(&sets[k], &sent);
            try_orders(&sets[k], order, 0, sum, &sent);
            free(sent.items);
        }
        try_many_rollbacks();
    }
    printf("%lu orders of messages and runs\n", tried);
    return 0;
}
