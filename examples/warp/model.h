/*
 * A model: what processes have for a state, and what an event does to it. This header is all that a model sees. A model is one file in
 * models/ with a `model` in it, and a line in models/models.c.
 *
 * The state of a process is a struct of the model's own, and further chunks that it points to. Chunks stay at their addresses while the
 * run lasts, over rollbacks too: they are read by plain loads, point to each other by plain pointers, and after a rollback each pointer is
 * what it was. Before an event changes bytes it says so:
 *
 *     struct cell *cell = c->state;
 *     model_write(c, cell, sizeof *cell);
 *     cell->busy++;
 *
 * A chunk that the same event allocated is written without. What was written and not said may stay after a rollback, and nothing notices.
 *
 * What an event does may depend on nothing but the event, the state and the numbers of the context: the kernel undoes events and runs them
 * again, and each time they must do the same. Random numbers are drawn from a number in the state.
 */
#ifndef MODEL_H
#define MODEL_H

#include <stddef.h>
#include <stdint.h>

#include "event.h"
#include "fault.h"
#include "touches.h"

/* The most options that a model has, and the most bytes of a chunk. */
enum { MODEL_OPTIONS = 12, MODEL_CHUNK_MOST = 65536 };

/* A number that the command line can set (--name N). */
typedef struct model_option {
    const char *name;
    uint64_t value, least, most;
    const char *says;
} model_option;

struct memory;

/* What a model has of the process that an event is run for. */
typedef struct context {
    void *state;             /* the chunk that the state begins in; `start` sets it, and nothing else */
    uint32_t self;           /* this process: 0 to processes - 1 */
    uint32_t processes;
    uint64_t seed;
    uint64_t now;            /* the time of the event; 0 at the start */
    const uint64_t *options; /* the values, in the order of the model's options */
    /* the kernel's, for the calls below */
    struct memory *memory;
    const touches *touches;
    void (*write)(struct memory *m, void *at, size_t length); /* null where nothing is to be done before a write */
    void (*deliver)(struct context *c, event *e);
    void *owner;
    uintptr_t distance;
} context;

typedef struct model {
    const char *name;
    const char *says;
    model_option options[MODEL_OPTIONS]; /* up to the first without a name */
    /* Makes the state of a process, and sends the first events to the process itself. */
    void (*start)(context *c);
    /* Runs an event. */
    void (*run)(context *c, const event *e);
    /* A checksum of the state, in which no pointer counts. */
    uint64_t (*checksum)(context *c);
    /* The process came to another rank, where its chunks lie elsewhere, each by the same distance: gives each pointer of the state but
     * c->state, which is right, through model_moved. It needn't say what it writes. Null where the state has no pointers. */
    void (*moved)(context *c);
} model;

/* All models, null after the last; and the model of a name, or null. */
extern const model *const models[];
const model *model_named(const char *name);

/* A chunk of zero bytes, aligned to 16, and its end with the length that it was given. Where there is no room the run ends with a fault. */
void *model_alloc(context *c, size_t length);
void model_free(context *c, void *chunk, size_t length);

/* Says that this event is about to change bytes of a chunk. */
static inline void model_write(context *c, void *at, size_t length)
{
    if (c->write != NULL && !touches_have(c->touches, at)) c->write(c->memory, at, length);
}

/* Where a chunk lies to which the state of a process that moved points; null stays null. */
static inline void *model_moved(const context *c, void *pointer)
{
    return pointer != NULL ? (void *)((uintptr_t)pointer + c->distance) : NULL;
}

/* Sends an event: `delay`, at least 1, after the one that is run. */
void model_send(context *c, uint32_t receiver, uint64_t delay, uint64_t kind, uint64_t data0, uint64_t data1);

/* Mixes all bits of a number. */
static inline uint64_t model_mixed(uint64_t x)
{
    x = (x ^ (x >> 30)) * UINT64_C(0xbf58476d1ce4e5b9);
    x = (x ^ (x >> 27)) * UINT64_C(0x94d049bb133111eb);
    return x ^ (x >> 31);
}

/* The next random number below a bound, of a generator that is one number of the state. */
static inline uint64_t model_random(uint64_t *state, uint64_t bound)
{
    *state += UINT64_C(0x9e3779b97f4a7c15);
    return model_mixed(*state) % bound;
}

/* Where the generator of a process begins. */
static inline uint64_t model_seed(const context *c)
{
    return model_mixed(c->seed * UINT64_C(0x2545f4914f6cdd1d) + c->self + 1);
}

#endif
