/*
 * What it costs that stores are told: events a second of one model by touches by hand, told, with every chunk touched before each event, and by
 * whole copies of a flat state; and nanoseconds of one store. Each number is the best of several rounds, which take the ways in turns.
 * stores_speed ROUNDS prints figures and bars, for checks/lib/measured.
 */
#define _XOPEN_SOURCE 700

#include "dymelor_track.h"
#include "stores_speed.h"

#include <stdio.h>
#include <stdlib.h>
#include <string.h>
#include <time.h>

enum { WAYS = 4, CHUNK_BYTES = CHUNK_NUMBERS * 8, QUOTA = 20, LOGS = 32, STORES = 200000 };

static const char *const names[WAYS] = {"by hand", "told", "touch all", "whole copies"};

static void must(dym_status status)
{
    if (status == DYM_DONE) return;
    fprintf(stderr, "stores_speed: %s\n", dym_status_text(status));
    exit(70);
}

static void *must_have(void *block)
{
    if (block == NULL) must(DYM_MEMORY);
    return block;
}

static double now(void)
{
    struct timespec t;
    clock_gettime(CLOCK_MONOTONIC, &t);
    return (double)t.tv_sec + (double)t.tv_nsec * 1e-9;
}

static void open_state(state *s, dym_object *object, size_t bytes)
{
    void *at;
    s->object = object;
    s->count = bytes / CHUNK_BYTES;
    s->chunks = must_have(calloc(s->count, sizeof *s->chunks));
    s->handles = must_have(calloc(s->count, sizeof *s->handles));
    s->random = 1;
    must(dym_open(object, QUOTA, 1));
    for (size_t k = 0; k < s->count; k++) {
        must(dym_malloc_at(object, CHUNK_BYTES, &s->handles[k], &at));
        s->chunks[k] = at;
    }
}

static void close_state(state *s)
{
    must(dym_close(s->object));
    free(s->chunks);
    free(s->handles);
}

/* Turns of some events and a log, by a way over an object. */
static void run_object(state *s, int way, size_t changes, size_t period, double seconds, size_t *events)
{
    uint32_t logged;
    uint64_t time = 1;
    uint32_t dropped;
    double start = now();
    must(dym_log(s->object, DYM_FULL, time, &logged));
    while (now() - start < seconds) {
        for (size_t turn = 0; turn < LOGS; turn++) {
            for (size_t k = 0; k < period; k++) {
                if (way == 0) event_by_hand(s, changes);
                if (way == 1) {
                    must(dym_track(s->object));
                    event_told(s, changes);
                    must(dym_track(NULL));
                }
                if (way == 2) {
                    must(dym_touch_all(s->object));
                    event_plain(s, changes);
                }
            }
            must(dym_log(s->object, DYM_INCREMENTAL, ++time, &logged));
        }
        *events += LOGS * period;
        must(dym_prune(s->object, time, &dropped));
    }
}

/* The same over a flat state, of which each log is a copy. */
static void run_copies(state *s, uint8_t *flat, size_t changes, size_t period, double seconds, size_t *events)
{
    uint8_t *logs[LOGS];
    size_t length = s->count * CHUNK_BYTES;
    double start = now();
    for (size_t k = 0; k < s->count; k++) s->chunks[k] = (uint64_t *)(flat + k * CHUNK_BYTES);
    while (now() - start < seconds) {
        for (size_t turn = 0; turn < LOGS; turn++) {
            for (size_t k = 0; k < period; k++) event_plain(s, changes);
            logs[turn] = must_have(malloc(length));
            memcpy(logs[turn], flat, length);
        }
        *events += LOGS * period;
        for (size_t turn = 0; turn < LOGS; turn++) free(logs[turn]);
    }
}

static double measure(int way, size_t bytes, size_t changes, size_t period, double seconds)
{
    dym_object object = {0};
    state s;
    size_t events = 0;
    double start, rate;
    uint8_t *flat = must_have(calloc(1, bytes));
    open_state(&s, &object, bytes);
    start = now();
    if (way < 3)
        run_object(&s, way, changes, period, seconds, &events);
    else
        run_copies(&s, flat, changes, period, seconds, &events);
    rate = (double)events / (now() - start);
    close_state(&s);
    free(flat);
    return rate;
}

/* The rows of a state, one for each way; answers told beside by hand. */
static double rows(size_t bytes, size_t changes, size_t period, int rounds)
{
    double best[WAYS] = {0};
    for (int round = 0; round < rounds; round++)
        for (int way = 0; way < WAYS; way++) {
            double rate = measure(way, bytes, changes, period, 0.1);
            if (rate > best[way]) best[way] = rate;
        }
    for (int way = 0; way < WAYS; way++)
        printf("%zu,%zu,%zu,%s,%.*f\n", bytes, changes, period, names[way], best[way] < 1e5, best[way] / 1000);
    fflush(stdout);
    return best[1] / best[0];
}

static double nanoseconds(void (*stores)(volatile uint64_t *, size_t), volatile uint64_t *at, int rounds)
{
    double best = 1e9;
    for (int round = 0; round < 100 * rounds; round++) {
        double start = now(), each;
        stores(at, STORES);
        each = (now() - start) * 1e9 / STORES;
        if (each < best) best = each;
    }
    return best;
}

static void judge(const char *what, double found, double bar, int is_most)
{
    int is_reached = is_most ? found <= bar : found >= bar;
    printf("%s\t%.2f\t%s %g%s\n", what, found, is_most ? "≤" : "≥", bar, is_reached ? "" : ", missed");
}

static void judge_stores(int rounds)
{
    dym_object object = {0};
    dym_handle chunk;
    void *inside = NULL;
    uint64_t outside[CHUNK_NUMBERS];
    double plain, touched, other;
    must(dym_open(&object, 1, 1));
    must(dym_malloc_at(&object, CHUNK_BYTES, &chunk, &inside));
    plain = nanoseconds(stores_plain, outside, rounds);
    must(dym_track(&object));
    touched = nanoseconds(stores_told, inside, rounds) - plain;
    other = nanoseconds(stores_told, outside, rounds) - plain;
    must(dym_track(NULL));
    must(dym_close(&object));
    judge("a told store into a touched chunk, ns more", touched, 4, 1);
    judge("a told store outside the object, ns more", other, 2, 1);
}

int main(int count, char **words)
{
    static const size_t states[] = {256, 4096, 65536, 1048576};
    int rounds = count == 2 ? atoi(words[1]) : 3;
    double least = 1e9;
    printf("figures stores\nstate,chunks an event changes,events a log,way,thousand events a second\n");
    for (size_t k = 0; k < 4; k++)
        for (size_t changes = 1;;) {
            for (size_t period = 1; period <= 16; period *= 16) {
                double ratio = rows(states[k], changes, period, rounds);
                if (states[k] == 65536 && ratio < least) least = ratio;
            }
            if (changes > 1 || states[k] / CHUNK_BYTES / 100 <= 1) break;
            changes = states[k] / CHUNK_BYTES / 100;
        }
    printf("bars stores\n");
    judge("64 KiB told, times by hand: the least", least, 0.75, 0);
    judge_stores(rounds);
    return 0;
}
