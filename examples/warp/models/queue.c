/*
 * Customers in a net of stations: each waits in a queue until it is served, and goes on to another station. It is the model that README.md
 * explains: a small one, with chunks that come and go and pointers between them.
 */
#include "../model.h"

enum { INTERVAL, SERVICE };
enum { ARRIVAL, DEPARTURE };

typedef struct customer {
    struct customer *next;
    uint64_t came;
} customer;

typedef struct station {
    uint64_t random, waited;
    customer *first, *last; /* who waits, the one who is served first */
} station;

static void serve(context *c, station *s)
{
    model_send(c, c->self, 1 + model_random(&s->random, 2 * c->options[SERVICE]), DEPARTURE, 0, 0);
}

static void arrive(context *c, station *s)
{
    customer *fresh = model_alloc(c, sizeof *fresh); /* zero bytes, which this event may write */
    fresh->came = c->now;
    if (s->first == NULL) {
        s->first = fresh;
        serve(c, s);
    } else {
        model_write(c, s->last, sizeof *s->last);
        s->last->next = fresh;
    }
    s->last = fresh;
}

/* The first customer goes on to another station. */
static void depart(context *c, station *s)
{
    customer *gone = s->first;
    s->waited += c->now - gone->came;
    s->first = gone->next;
    model_free(c, gone, sizeof *gone);
    if (s->first != NULL) serve(c, s);
    model_send(c, (uint32_t)model_random(&s->random, c->processes), 1, ARRIVAL, 0, 0);
}

static void run(context *c, const event *e)
{
    station *s = c->state;
    model_write(c, s, sizeof *s); /* before the first change of an event */
    if (e->kind == ARRIVAL)
        arrive(c, s);
    else
        depart(c, s);
}

static void start(context *c)
{
    station *s = c->state = model_alloc(c, sizeof *s);
    s->random = model_seed(c);
    model_send(c, c->self, 1 + model_random(&s->random, 2 * c->options[INTERVAL]), ARRIVAL, 0, 0);
}

static uint64_t checksum(context *c)
{
    const station *s = c->state;
    const customer *at;
    uint64_t sum = model_mixed(s->random) + s->waited;
    for (at = s->first; at != NULL; at = at->next) sum = model_mixed(sum ^ at->came);
    return sum;
}

/* The process came to another rank, where its chunks lie elsewhere. */
static void moved(context *c)
{
    station *s = c->state;
    customer *at;
    s->first = model_moved(c, s->first);
    s->last = model_moved(c, s->last);
    for (at = s->first; at != NULL; at = at->next) at->next = model_moved(c, at->next);
}

const model queue = {
    "queue",
    "customers in a net of stations",
    {
        {"interval", 10, 1, 1000000, "mean time until the first customer of a station comes"},
        {"service", 10, 1, 1000000, "mean time of a service"},
        {0},
    },
    start,
    run,
    checksum,
    moved,
};
