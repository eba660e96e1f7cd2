/*
 * What small states and many objects cost: the memory of objects that do little, the calls of a small object, and the events of a model
 * that logs its state at each event, beside whole copies of the state, and beside the same events without any log. Each time is the least of
 * several rounds. It prints figures and bars for checks/lib/measured; of memory and calls two figures stand, for versions 1 and 2.
 */
#define _POSIX_C_SOURCE 200809L

#include "dymelor.h"

#include <stdio.h>
#include <stdlib.h>
#include <string.h>
#include <time.h>
#include <unistd.h>

enum { MANY = 10000, ROUNDS = 15, TURNS = 2000, SMALL_CHUNKS = 2048 };

static void must(dym_status status)
{
    if (status != DYM_DONE) {
        fprintf(stderr, "small: a call answered %u\n", (unsigned)status);
        exit(1);
    }
}

static void *must_have(void *block)
{
    if (block == NULL) exit(1);
    return block;
}

static double now(void)
{
    struct timespec t;
    clock_gettime(CLOCK_MONOTONIC, &t);
    return (double)t.tv_sec * 1e9 + (double)t.tv_nsec;
}

static void keep_least(double *best, double each)
{
    if (*best == 0 || each < *best) *best = each;
}

/* A row: what was measured in versions 1 and 2, and how much it may be. */
static void tell(const char *what, const double found[2], double most)
{
    const char *missed = found[0] <= most && found[1] <= most ? "" : ", missed";
    printf("%s\t%.*f; %.*f\t≤ %g%s\n", what, most < 100, found[0], most < 100, found[1], most, missed);
}

/* The resident memory of this process, in KiB. */
static double resident(void)
{
    long pages = 0, all = 0;
    FILE *file = fopen("/proc/self/statm", "r");
    if (file == NULL || fscanf(file, "%ld %ld", &all, &pages) != 2) exit(1);
    fclose(file);
    return (double)pages * (double)sysconf(_SC_PAGESIZE) / 1024;
}

/* ---- the memory of many objects */

static void log_often(dym_object *object)
{
    dym_handle chunk;
    uint8_t byte = 1;
    uint64_t time;
    must(dym_malloc(object, 200, &chunk));
    must(dym_log(object, DYM_FULL, 1, NULL));
    for (time = 2; time < 13; time++) {
        must(dym_write(object, chunk, (uint32_t)time, &byte, 1));
        must(dym_log(object, DYM_INCREMENTAL, time, NULL));
    }
}

/* What one weighs when it was opened, and when it was logged. */
static void weigh_objects(uint32_t version, double weights[2])
{
    dym_object *objects = must_have(calloc(MANY, sizeof *objects));
    double before;
    size_t k;
    memset(objects, 0, MANY * sizeof *objects);
    before = resident();
    for (k = 0; k < MANY; k++) must(dym_open(&objects[k], 4, version));
    weights[0] = (resident() - before) / MANY;
    for (k = 0; k < MANY; k++) log_often(&objects[k]);
    weights[1] = (resident() - before) / MANY;
    for (k = 0; k < MANY; k++) must(dym_close(&objects[k]));
    free(objects);
}

/* The same in a child, which has no memory that others gave back. */
static void weigh_apart(uint32_t version, double *opened, double *logged)
{
    double weights[2];
    int ends[2];
    if (pipe(ends) != 0) exit(1);
    if (fork() == 0) {
        weigh_objects(version, weights);
        _exit(write(ends[1], weights, sizeof weights) != sizeof weights);
    }
    if (read(ends[0], weights, sizeof weights) != sizeof weights) exit(1);
    *opened = weights[0];
    *logged = weights[1];
}

/* ---- calls of a small object */

static double time_opening(uint32_t version)
{
    dym_object object = {0};
    double best = 0, start;
    int round, k;
    for (round = 0; round < ROUNDS; round++) {
        start = now();
        for (k = 0; k < TURNS; k++) {
            must(dym_open(&object, 4, version));
            must(dym_close(&object));
        }
        keep_least(&best, (now() - start) / TURNS);
    }
    return best;
}

/* Fills an object with chunks of a length, and logs it in full at time 1. */
static void prepare(dym_object *object, uint32_t version, dym_handle *chunks, size_t count, uint64_t length)
{
    size_t k;
    must(dym_open(object, 4, version));
    for (k = 0; k < count; k++) must(dym_malloc(object, length, &chunks[k]));
    must(dym_log(object, DYM_FULL, 1, NULL));
}

/* What it takes to read the clock, which is part of each call that is timed by itself. */
static double time_clock(void)
{
    double best = 0, start;
    int round, k;
    for (round = 0; round < ROUNDS; round++) {
        start = now();
        for (k = 1; k < TURNS; k++) now();
        keep_least(&best, (now() - start) / TURNS);
    }
    return best;
}

/* A chunk is written, logged and brought back, again and again. */
static void time_rollbacks(uint32_t version, size_t count, uint64_t length, double *log_time, double *restore_time)
{
    static dym_handle chunks[SMALL_CHUNKS];
    dym_object object = {0};
    double logs = 0, restores = 0, log, restore, start, reading = time_clock();
    uint8_t byte = 1;
    int round, k;
    prepare(&object, version, chunks, count, length);
    for (round = 0; round < ROUNDS; round++) {
        log = restore = 0;
        for (k = 0; k < TURNS; k++) {
            must(dym_write(&object, chunks[(size_t)k % count], 0, &byte, 1));
            start = now();
            must(dym_log(&object, DYM_INCREMENTAL, 2, NULL));
            log += now() - start;
            must(dym_write(&object, chunks[(size_t)k % count], 0, &byte, 1));
            start = now();
            must(dym_restore(&object, 1, NULL));
            restore += now() - start;
        }
        keep_least(&logs, log / TURNS);
        keep_least(&restores, restore / TURNS);
    }
    *log_time = logs - reading;
    *restore_time = restores - reading;
    must(dym_close(&object));
}

/* ---- events of a model: each changes some words of the state and logs it; each 16th rolls four events back, and commits the rest */

enum { WORD = 8, BACK = 4, SPAN = 16 };

typedef struct shape {
    size_t bytes;  /* of the state */
    size_t chunk;  /* the bytes of a chunk of it */
    size_t words;  /* that an event changes */
    int scattered; /* over the state, or side by side */
} shape;

/* What is compiled anew for each shape: the compiler knows all numbers of it, as it does in a simulator of one model. */
#if defined(__GNUC__)
#define FOR_A_SHAPE static inline __attribute__((always_inline))
#else
#define FOR_A_SHAPE static inline
#endif

/* Where word k of those that an event changes begins. */
FOR_A_SHAPE size_t place(shape s, uint64_t event, size_t k)
{
    size_t words = s.bytes / WORD, first = (size_t)(event * 7919 % words);
    return (s.scattered ? first + k * 37 : first + k) % words * WORD;
}

/* The library in the version that simulators are recommended. */
FOR_A_SHAPE double by_library(shape s, uint64_t events)
{
    size_t count = s.bytes / s.chunk, k, at, touched;
    dym_handle *chunks = must_have(calloc(count, sizeof *chunks));
    dym_object object = {0};
    uint64_t event, time = 1;
    void *bytes = NULL;
    double start;
    prepare(&object, 2, chunks, count, s.chunk);
    start = now();
    for (event = 1; event <= events; event++) {
        touched = count;
        for (k = 0; k < s.words; k++) {
            at = place(s, event, k);
            if (at / s.chunk != touched) must(dym_touch(&object, chunks[touched = at / s.chunk], &bytes));
            memcpy((uint8_t *)bytes + at % s.chunk, &event, WORD);
        }
        must(dym_log(&object, DYM_INCREMENTAL, ++time, NULL));
        if (event % SPAN == 0) {
            must(dym_restore(&object, time - BACK, NULL));
            must(dym_prune(&object, time - BACK, NULL));
            time -= BACK;
        }
    }
    start = now() - start;
    must(dym_close(&object));
    free(chunks);
    return start / (double)events;
}

FOR_A_SHAPE double by_copies(shape s, uint64_t events)
{
    uint8_t *state = must_have(calloc(1, s.bytes)), *copies[SPAN + BACK + 1];
    uint64_t event;
    size_t kept = 0, k;
    double start;
    copies[kept] = must_have(malloc(s.bytes));
    memcpy(copies[kept++], state, s.bytes);
    start = now();
    for (event = 1; event <= events; event++) {
        for (k = 0; k < s.words; k++) memcpy(state + place(s, event, k), &event, WORD);
        copies[kept] = must_have(malloc(s.bytes));
        memcpy(copies[kept++], state, s.bytes);
        if (event % SPAN == 0) {
            for (k = 0; k < BACK; k++) free(copies[--kept]);
            memcpy(state, copies[kept - 1], s.bytes);
            for (k = 0; k + 1 < kept; k++) free(copies[k]);
            copies[0] = copies[kept - 1];
            kept = 1;
        }
    }
    start = now() - start;
    while (kept > 0) free(copies[--kept]);
    free(state);
    return start / (double)events;
}

/* Keeps the compiler from leaving out the writes of events that nothing logs. */
static uint8_t *volatile shown;

/* What an event takes where nothing is logged. */
FOR_A_SHAPE double unlogged(shape s, uint64_t events)
{
    uint8_t *state = must_have(calloc(1, s.bytes));
    uint64_t event;
    size_t k;
    double start = now();
    for (event = 1; event <= events; event++) {
        for (k = 0; k < s.words; k++) memcpy(state + place(s, event, k), &event, WORD);
        shown = state;
    }
    start = now() - start;
    free(state);
    return start / (double)events;
}

/* The nanoseconds of an event of a model in these ways. */
typedef struct ways {
    double library, copies, unlogged;
} ways;

/* The functions of a shape: its bytes, those of a chunk, the words that change, and whether they are scattered. */
#define MODEL(name, ...)                                                                                                                     \
    static void name(ways *best, uint64_t events)                                                                                          \
    {                                                                                                                                        \
        const shape s = {__VA_ARGS__};                                                                                                       \
        keep_least(&best->library, by_library(s, events));                                                                                   \
        keep_least(&best->copies, by_copies(s, events));                                                                                     \
        keep_least(&best->unlogged, unlogged(s, events));                                                                                    \
    }

MODEL(bytes_256, 256, 256, 2, 0)
MODEL(kib_4_together, 4096, 64, 5, 0)
MODEL(kib_4_scattered, 4096, 64, 5, 1)
MODEL(kib_64_together, 65536, 256, 82, 0)
MODEL(kib_64_scattered, 65536, 32, 82, 1)

typedef struct model {
    const char *says;
    void (*measure)(ways *best, uint64_t events);
    uint64_t events;
    double least; /* what the library is to reach, times whole copies */
} model;

static const model models[] = {
    {"256 bytes of state", bytes_256, 200000, 1},
    {"4 KiB, a hundredth changes together", kib_4_together, 100000, 3},
    {"4 KiB, scattered words", kib_4_scattered, 100000, 1.5},
    {"64 KiB, together", kib_64_together, 20000, 10},
    {"64 KiB, scattered", kib_64_scattered, 20000, 1.6},
};

enum { MODELS = sizeof models / sizeof *models };

/* A row about events: how many times as many as by whole copies there are in a second, and the same where nothing is logged. */
static void tell_events(const model *m, const ways *best)
{
    double found = best->copies / best->library;
    printf("%s: events, times whole copies; without logs\t%.2f; %.2f\t≥ %g%s\n", m->says, found, best->copies / best->unlogged, m->least,
           found >= m->least ? "" : ", missed");
}

int main(void)
{
    double opened[2], logged[2], opening[2], log[2], restore[2], many_log[2], many_restore[2];
    ways best[MODELS] = {{0, 0, 0}};
    uint32_t k, round;
    for (k = 0; k < 2; k++) {
        weigh_apart(k + 1, &opened[k], &logged[k]);
        opening[k] = time_opening(k + 1);
        time_rollbacks(k + 1, 1, 256, &log[k], &restore[k]);
        time_rollbacks(k + 1, SMALL_CHUNKS, 32, &many_log[k], &many_restore[k]);
    }
    for (round = 0; round < ROUNDS; round++)
        for (k = 0; k < MODELS; k++) models[k].measure(&best[k], models[k].events);
    printf("figures small\nmodel,the library: ns an event,whole copies,without logs\n");
    for (k = 0; k < MODELS; k++) {
        const ways *w = &best[k];
        printf("\"%s\",%.1f,%.1f,%.1f\n", models[k].says, w->library, w->copies, w->unlogged);
    }
    printf("bars small\n");
    tell("an object of quota 4, resident, KiB", opened, 6);
    tell("the same with 200 bytes and 11 incremental logs, KiB", logged, 16);
    tell("open and close, ns", opening, 200);
    tell("a log of one changed chunk of 256 bytes, ns", log, 15);
    tell("a restore over it, ns", restore, 45);
    tell("a restore, one of 2,048 chunks changed, ns", many_restore, 45);
    for (k = 0; k < MODELS; k++) tell_events(&models[k], &best[k]);
    return 0;
}
