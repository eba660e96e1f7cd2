/*
 * Cells of a mobile network (personal communication service), with state that grows and shrinks: each cell keeps a list of its calls in
 * progress, one chunk each. A call takes a channel and a power that stands above the noise of the others; it ends in its cell, or is handed
 * over to a neighbour on a torus, where it is dropped if no channel is free.
 */
#include "../model.h"

enum { CHANNELS, INTERVAL, DURATION, STAY };

enum { ARRIVAL, END, LEAVE, ENTER };

typedef struct call {
    struct call *next;
    uint64_t number;
    uint64_t power;
    uint64_t left; /* how long it lasts after it leaves this cell; 0 where it ends here */
} call;

typedef struct cell {
    uint64_t random;
    uint64_t calls; /* that began or came here: the number of the next one */
    uint64_t busy;
    uint64_t blocked;
    uint64_t dropped;
    uint64_t handed;
    uint64_t noise; /* of what was over, mixed */
    call *first;    /* the newest call in progress */
} cell;

/* A neighbour of a cell: the cells stand in rows on a torus. */
static uint32_t neighbour(const context *c, uint64_t which)
{
    uint32_t width = 1;
    uint32_t steps[4];
    while ((width + 1) * (width + 1) <= c->processes) width++;
    steps[0] = 1;
    steps[1] = c->processes - 1;
    steps[2] = width % c->processes;
    steps[3] = (c->processes - width) % c->processes;
    return (c->self + steps[which]) % c->processes;
}

static void start(context *c)
{
    cell *own = c->state = model_alloc(c, sizeof *own);
    own->random = model_seed(c);
    model_send(c, c->self, 1 + model_random(&own->random, 2 * c->options[INTERVAL]), ARRIVAL, 0, 0);
}

/* The power of a new call: above the mean of the calls in progress. */
static uint64_t power(cell *own)
{
    uint64_t sum = 0;
    const call *other;
    for (other = own->first; other != NULL; other = other->next) sum += other->power;
    return 1 + model_random(&own->random, 100) + sum / (own->busy + 1);
}

/* Takes a channel for a call that lasts so long, and says when it goes from here. */
static void begin(context *c, cell *own, uint64_t duration)
{
    uint64_t stay = 1 + model_random(&own->random, 2 * c->options[STAY]);
    call *fresh = model_alloc(c, sizeof *fresh);
    fresh->next = own->first;
    fresh->number = own->calls++;
    fresh->power = power(own);
    fresh->left = duration > stay ? duration - stay : 0;
    own->first = fresh;
    own->busy++;
    if (fresh->left > 0)
        model_send(c, c->self, stay, LEAVE, fresh->number, 0);
    else
        model_send(c, c->self, duration, END, fresh->number, 0);
}

/* Takes a call out of the list, and answers how long it still lasts. */
static uint64_t end(context *c, cell *own, uint64_t number)
{
    call *before = NULL, *found = own->first;
    uint64_t left;
    while (found != NULL && found->number != number) {
        before = found;
        found = found->next;
    }
    if (found == NULL) fault_end(FAULT_MODEL);
    left = found->left;
    if (before != NULL) {
        model_write(c, before, sizeof *before);
        before->next = found->next;
    } else {
        own->first = found->next;
    }
    own->noise = model_mixed(own->noise ^ found->number) + found->power;
    own->busy--;
    model_free(c, found, sizeof *found);
    return left;
}

static void leave(context *c, cell *own, uint64_t number)
{
    uint64_t left = end(c, own, number);
    uint32_t to = neighbour(c, model_random(&own->random, 4));
    own->handed++;
    model_send(c, to, 1, ENTER, left, 0);
}

static void arrive(context *c, cell *own)
{
    uint64_t duration = 1 + model_random(&own->random, 2 * c->options[DURATION]);
    if (own->busy == c->options[CHANNELS])
        own->blocked++;
    else
        begin(c, own, duration);
    model_send(c, c->self, 1 + model_random(&own->random, 2 * c->options[INTERVAL]), ARRIVAL, 0, 0);
}

static void run(context *c, const event *e)
{
    cell *own = c->state;
    model_write(c, own, sizeof *own);
    switch (e->kind) {
    case ARRIVAL: arrive(c, own); break;
    case END: end(c, own, e->data[0]); break;
    case LEAVE: leave(c, own, e->data[0]); break;
    case ENTER:
        if (own->busy == c->options[CHANNELS])
            own->dropped++;
        else
            begin(c, own, e->data[0]);
        break;
    default: fault_end(FAULT_MODEL);
    }
}

static uint64_t checksum(context *c)
{
    const cell *own = c->state;
    const call *one;
    uint64_t sum = model_mixed(model_mixed(own->random) + own->calls);
    sum = model_mixed(sum ^ own->blocked) + own->dropped;
    sum = model_mixed(sum ^ own->handed) + own->noise;
    for (one = own->first; one != NULL; one = one->next) sum = model_mixed(model_mixed(sum ^ one->number) + one->power) ^ one->left;
    return sum;
}

static void moved(context *c)
{
    cell *own = c->state;
    call **link;
    for (link = &own->first; *link != NULL; link = &(*link)->next) *link = model_moved(c, *link);
}

const model cells = {
    "cells",
    "calls in the cells of a mobile network",
    {
        {"channels", 20, 1, 1000, "channels of a cell"},
        {"interval", 10, 1, 1000000, "mean time between the calls that begin in a cell"},
        {"duration", 150, 1, 1000000, "mean duration of a call"},
        {"stay", 100, 1, 1000000, "mean stay of a call in a cell"},
        {0},
    },
    start,
    run,
    checksum,
    moved,
};
