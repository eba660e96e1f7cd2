/*
 * PHOLD, the field's benchmark: a fixed number of jobs hop among processes. A process that gets a job changes some chunks of its state, and
 * sends the job on after a random delay: to itself or, with the remote fraction, to another process.
 */
#include "../model.h"

enum { POPULATION, REMOTE, LOOKAHEAD, MEAN, STATE, CHUNK, CHANGES, BYTES, WORK };

/* What the state begins with. Each event changes the first three numbers. */
typedef struct root {
    uint64_t random;
    uint64_t events;
    uint64_t worked;
    uint64_t chunks;
    uint64_t **table; /* the chunks, each of numbers */
} root;

/* A chunk of at least the length of the others, so that a small state has chunks of one class, which take one segment. */
static void *alloc(context *c, size_t length)
{
    return model_alloc(c, length > c->options[CHUNK] ? length : c->options[CHUNK]);
}

static void start(context *c)
{
    uint64_t random = model_seed(c), count = c->options[STATE] / c->options[CHUNK], k;
    root *r = c->state = alloc(c, sizeof *r);
    r->random = random;
    r->chunks = count > 0 ? count : 1;
    r->table = alloc(c, r->chunks * sizeof *r->table);
    for (k = 0; k < r->chunks; k++) r->table[k] = alloc(c, 0);
    random = model_mixed(random);
    for (k = 0; k < c->options[POPULATION]; k++) model_send(c, c->self, 1 + model_random(&random, 2 * c->options[MEAN]), 0, k, 0);
}

/* The numbers of a chunk, and those that an event changes. */
static size_t numbers_of(const context *c)
{
    return c->options[CHUNK] / sizeof(uint64_t);
}

static size_t changed_of(const context *c)
{
    size_t all = numbers_of(c), changed = c->options[BYTES] / sizeof(uint64_t);
    return changed > 0 && changed < all ? changed : all;
}

static void change(context *c, uint64_t *numbers, size_t count, uint64_t by)
{
    size_t k;
    model_write(c, numbers, count * sizeof *numbers);
    for (k = 0; k < count; k++) numbers[k] = numbers[k] * 5 + by + k;
}

/* The next job's receiver. */
static uint32_t receiver(context *c, uint64_t *random)
{
    if (c->processes == 1 || model_random(random, 1000) >= c->options[REMOTE]) return c->self;
    return (uint32_t)((c->self + 1 + model_random(random, c->processes - 1)) % c->processes);
}

static void run(context *c, const event *e)
{
    root *r = c->state;
    uint64_t random = model_mixed(r->random ^ e->time) + e->data[0], worked = r->worked, k;
    size_t count = changed_of(c);
    uint32_t to;
    for (k = 0; k < c->options[WORK]; k++) worked = model_mixed(worked + k);
    to = receiver(c, &random);
    model_send(c, to, 1 + c->options[LOOKAHEAD] + model_random(&random, 2 * c->options[MEAN]), 0, e->data[0], 0);
    model_write(c, r, offsetof(root, chunks));
    r->events++;
    r->worked = worked;
    r->random = random;
    for (k = 0; k < c->options[CHANGES]; k++) change(c, r->table[model_random(&random, r->chunks)], count, e->data[0]);
}

static uint64_t checksum(context *c)
{
    const root *r = c->state;
    uint64_t sum = model_mixed(model_mixed(r->random) + r->events) ^ r->worked, k;
    size_t at;
    for (k = 0; k < r->chunks; k++)
        for (at = 0; at < numbers_of(c); at++) sum = model_mixed(sum ^ r->table[k][at]);
    return sum;
}

static void moved(context *c)
{
    root *r = c->state;
    uint64_t k;
    r->table = model_moved(c, r->table);
    for (k = 0; k < r->chunks; k++) r->table[k] = model_moved(c, r->table[k]);
}

const model phold = {
    "phold",
    "jobs hop among processes",
    {
        {"population", 4, 1, 65536, "jobs for each process at the start"},
        {"remote", 250, 0, 1000, "of 1000 hops, how many go to another process"},
        {"lookahead", 0, 0, 1000000, "the least delay of a hop, but for 1"},
        {"mean", 20, 1, 1000000, "the mean of what is random of a delay"},
        {"state", 256, 8, 1048576, "bytes of a process's state, in at most 8192 chunks"},
        {"chunk", 64, 8, 65536, "bytes of each chunk of it"},
        {"changes", 1, 0, 65536, "chunks that an event changes"},
        {"bytes", 0, 0, 65536, "bytes that it changes of each of them; 0 for all"},
        {"work", 0, 0, 1000000000, "turns of arithmetic for each event, about 1.5 ns each"},
        {0},
    },
    start,
    run,
    checksum,
    moved,
};
