/*
 * What calls cost, by the library and by two plain ways: malloc with a copy of all live chunks at each log, and malloc with a list, kept by
 * hand, of the chunks that were written since the log before, with their old bytes. Each number is the least of several rounds. The
 * compiler doesn't know how many bytes a write or a read has, as where a simulator's state has parts of several lengths. Then what
 * ten thousand objects take, and how the library stands to what is asked of it.
 */
#define _POSIX_C_SOURCE 200112L

#include "dymelor.h"

#include <stdio.h>
#include <stdlib.h>
#include <string.h>
#include <time.h>
#include <unistd.h>

enum { CHUNKS = 3000, LENGTH = 64, TOUCHED = 10, ROUNDS = 40, CALLS = 20000, LOGS = 200, OBJECTS = 10000, QUOTA = 4 };

static double now(void)
{
    struct timespec t;
    clock_gettime(CLOCK_MONOTONIC, &t);
    return (double)t.tv_sec * 1e9 + (double)t.tv_nsec;
}

static void must(dym_status status)
{
    if (status != DYM_DONE) {
        fprintf(stderr, "times: a call answered %u\n", (unsigned)status);
        exit(1);
    }
}

static void *must_have(void *block)
{
    if (block == NULL) exit(1);
    return block;
}

/* Keep the compiler from leaving out what is timed, and from knowing the length. */
static volatile uint8_t seen;
static volatile size_t asked = LENGTH;

/* The least nanoseconds for one of `count` turns so far. */
static void least(double *best, double start, double count)
{
    double each = (now() - start) / count;
    if (*best == 0 || each < *best) *best = each;
}

typedef struct costs {
    double malloc_free, write, read, address, touch, in_place, log, restore;
} costs;

static const costs no_costs = {0, 0, 0, 0, 0, 0, 0, 0};

/* Chunk k of those that a log finds touched. */
static size_t touched(size_t k)
{
    return k * 293 % CHUNKS;
}

/* ---- the library */

/* A round of calls that tell where chunks lie, and of writes there. */
static void in_place(dym_object *object, const dym_handle *chunks, costs *best)
{
    static uint8_t *volatile touched[CHUNKS];
    uint8_t bytes[LENGTH] = {1};
    size_t length = asked, k;
    const void *seen_at;
    void *address;
    double start = now();
    for (k = 0; k < CALLS; k++) must(dym_address(object, chunks[k % CHUNKS], &seen_at));
    least(&best->address, start, CALLS);
    start = now();
    for (k = 0; k < CALLS; k++) must(dym_touch(object, chunks[k % CHUNKS], &address));
    least(&best->touch, start, CALLS);
    for (k = 0; k < CHUNKS; k++) {
        must(dym_touch(object, chunks[k], &address));
        touched[k] = address;
    }
    start = now();
    for (k = 0; k < CALLS; k++) {
        memcpy(touched[k % CHUNKS], bytes, length);
        seen = touched[k % CHUNKS][0];
    }
    least(&best->in_place, start, CALLS);
}

static costs by_library(void)
{
    costs best = no_costs;
    dym_object object = {0};
    static dym_handle chunks[CHUNKS];
    uint8_t bytes[LENGTH] = {1};
    uint32_t logged;
    dym_handle h;
    uint64_t time = 1, restored;
    uint32_t dropped;
    size_t round, k, j;
    double start, logs, restores;
    size_t length = asked;
    must(dym_open(&object, 64, 1));
    for (k = 0; k < CHUNKS; k++) must(dym_malloc(&object, LENGTH, &chunks[k]));
    must(dym_log(&object, DYM_FULL, time, &logged));
    for (round = 0; round < ROUNDS; round++) {
        start = now();
        for (k = 0; k < CALLS; k++) {
            must(dym_malloc(&object, LENGTH, &h));
            must(dym_free(&object, h));
        }
        least(&best.malloc_free, start, CALLS);
        start = now();
        for (k = 0; k < CALLS; k++) must(dym_write(&object, chunks[k % CHUNKS], 0, bytes, length));
        least(&best.write, start, CALLS);
        start = now();
        for (k = 0; k < CALLS; k++) must(dym_read(&object, chunks[k % CHUNKS], 0, bytes, length));
        least(&best.read, start, CALLS);
        seen = bytes[0];
        in_place(&object, chunks, &best);
        must(dym_log(&object, DYM_FULL, ++time, &logged));
        logs = restores = 0;
        for (k = 0; k < LOGS; k++) {
            for (j = 0; j < TOUCHED; j++) must(dym_write(&object, chunks[touched(j)], 0, bytes, LENGTH));
            start = now();
            must(dym_log(&object, DYM_INCREMENTAL, time + 1, &logged));
            logs += now() - start;
            start = now();
            must(dym_restore(&object, time, &restored));
            restores += now() - start;
        }
        if (best.log == 0 || logs / LOGS < best.log) best.log = logs / LOGS;
        if (best.restore == 0 || restores / LOGS < best.restore) best.restore = restores / LOGS;
        must(dym_prune(&object, time, &dropped));
    }
    must(dym_close(&object));
    return best;
}

/* ---- malloc, with a copy of all live chunks at each log */

/* A round of logs and restores. */
static void log_whole(uint8_t *volatile *chunks, costs *best)
{
    uint8_t bytes[LENGTH] = {1}, *copy;
    double start, logs = 0, restores = 0;
    size_t k, j;
    for (k = 0; k < LOGS; k++) {
        for (j = 0; j < TOUCHED; j++) memcpy(chunks[touched(j)], bytes, LENGTH);
        start = now();
        copy = must_have(malloc((size_t)CHUNKS * LENGTH));
        for (j = 0; j < CHUNKS; j++) memcpy(copy + j * LENGTH, chunks[j], LENGTH);
        logs += now() - start;
        start = now();
        for (j = 0; j < CHUNKS; j++) memcpy(chunks[j], copy + j * LENGTH, LENGTH);
        free(copy);
        restores += now() - start;
    }
    if (best->log == 0 || logs / LOGS < best->log) best->log = logs / LOGS;
    if (best->restore == 0 || restores / LOGS < best->restore) best->restore = restores / LOGS;
}

static costs by_whole_copies(void)
{
    costs best = no_costs;
    static uint8_t *volatile chunks[CHUNKS];
    uint8_t bytes[LENGTH] = {1};
    uint8_t *volatile fresh;
    size_t round, k;
    double start;
    size_t length = asked;
    for (k = 0; k < CHUNKS; k++) chunks[k] = must_have(calloc(1, LENGTH));
    for (round = 0; round < ROUNDS; round++) {
        start = now();
        for (k = 0; k < CALLS; k++) {
            fresh = must_have(calloc(1, LENGTH));
            free(fresh);
        }
        least(&best.malloc_free, start, CALLS);
        start = now();
        for (k = 0; k < CALLS; k++) {
            memcpy(chunks[k % CHUNKS], bytes, length);
            seen = chunks[k % CHUNKS][0];
        }
        least(&best.write, start, CALLS);
        start = now();
        for (k = 0; k < CALLS; k++) {
            memcpy(bytes, chunks[k % CHUNKS], length);
            seen = bytes[k % LENGTH];
        }
        least(&best.read, start, CALLS);
        log_whole(chunks, &best);
    }
    for (k = 0; k < CHUNKS; k++) free(chunks[k]);
    return best;
}

/* ---- malloc, with the old bytes of each chunk that is written for the first time since the log before */

typedef struct old {
    size_t chunk;
    uint8_t bytes[LENGTH];
} old;

static uint8_t *plain[CHUNKS];
static uint8_t is_touched[CHUNKS];
static old olds[CHUNKS];
static size_t old_count;

static void note_and_write(size_t k, const uint8_t *bytes, size_t length)
{
    if (!is_touched[k]) {
        is_touched[k] = 1;
        olds[old_count].chunk = k;
        memcpy(olds[old_count].bytes, plain[k], LENGTH);
        old_count++;
    }
    memcpy(plain[k], bytes, length);
}

static costs by_touched_copies(void)
{
    costs best = no_costs;
    uint8_t bytes[LENGTH] = {1};
    old *kept;
    size_t round, k, j, count;
    double start, logs, restores;
    size_t length = asked;
    for (k = 0; k < CHUNKS; k++) plain[k] = must_have(calloc(1, LENGTH));
    for (round = 0; round < ROUNDS; round++) {
        start = now();
        for (k = 0; k < CALLS; k++) {
            note_and_write(k % CHUNKS, bytes, length);
            seen = plain[k % CHUNKS][0];
        }
        least(&best.write, start, CALLS);
        memset(is_touched, 0, sizeof is_touched);
        old_count = 0;
        logs = restores = 0;
        for (k = 0; k < LOGS; k++) {
            for (j = 0; j < TOUCHED; j++) note_and_write(touched(j), bytes, length);
            start = now();
            count = old_count;
            kept = must_have(malloc(count * sizeof *kept));
            memcpy(kept, olds, count * sizeof *kept);
            for (j = 0; j < count; j++) is_touched[olds[j].chunk] = 0;
            old_count = 0;
            logs += now() - start;
            start = now();
            for (j = 0; j < count; j++) memcpy(plain[kept[j].chunk], kept[j].bytes, LENGTH);
            free(kept);
            restores += now() - start;
        }
        if (best.log == 0 || logs / LOGS < best.log) best.log = logs / LOGS;
        if (best.restore == 0 || restores / LOGS < best.restore) best.restore = restores / LOGS;
    }
    for (k = 0; k < CHUNKS; k++) free(plain[k]);
    return best;
}

/* ---- many objects */

typedef struct pages {
    double reserved, resident; /* in MiB */
} pages;

/* What the process has of addresses and of memory; none where the system doesn't tell. */
static pages pages_now(void)
{
    pages p = {0, 0};
    double size = (double)sysconf(_SC_PAGESIZE) / 1048576;
    FILE *file = fopen("/proc/self/statm", "r");
    if (file == NULL) return p;
    if (fscanf(file, "%lf %lf", &p.reserved, &p.resident) != 2) p.reserved = p.resident = 0;
    fclose(file);
    p.reserved *= size;
    p.resident *= size;
    return p;
}

/* Opens objects with a chunk each, and prints what they take. */
static void many_objects(void)
{
    dym_object *objects = must_have(calloc(OBJECTS, sizeof *objects));
    pages before = pages_now(), after;
    dym_handle h;
    size_t k;
    for (k = 0; k < OBJECTS; k++) {
        must(dym_open(&objects[k], QUOTA, 1));
        must(dym_malloc(&objects[k], LENGTH, &h));
    }
    after = pages_now();
    printf("\n%d objects of quota %d with a chunk of %d bytes each: %.0f MiB resident, %.0f MiB reserved\n", OBJECTS, QUOTA, LENGTH,
           after.resident - before.resident, after.reserved - before.reserved);
    for (k = 0; k < OBJECTS; k++) must(dym_close(&objects[k]));
    free(objects);
}

/* ---- what is printed */

static void print(const char *what, double library, double whole, double by_touch)
{
    printf("%-42s %9.1f %12.1f", what, library, whole);
    if (by_touch > 0) printf(" %12.1f", by_touch);
    printf("\n");
}

/* How the library stands to what is asked of it. */
static void judge(const char *what, double found, double most)
{
    printf("%-42s %9.2f %12.2f %12s\n", what, found, most, found <= most ? "reached" : "not reached");
}

int main(void)
{
    costs library = by_library(), whole = by_whole_copies(), by_touch = by_touched_copies();
    printf("%-42s %9s %12s %12s\n", "nanoseconds", "library", "whole copies", "by touch");
    print("malloc and free of 64 bytes", library.malloc_free, whole.malloc_free, 0);
    print("write of 64 bytes", library.write, whole.write, by_touch.write);
    print("read of 64 bytes", library.read, whole.read, 0);
    print("write of 64 bytes by a touched pointer", library.in_place, whole.write, by_touch.write);
    print("log, 10 touched chunks of 3,000", library.log, whole.log, by_touch.log);
    print("restore over it", library.restore, whole.restore, by_touch.restore);
    printf("\n%-42s %9s %12s\n", "", "found", "at most");
    judge("dym_touch, nanoseconds", library.touch, 10);
    judge("dym_address, nanoseconds", library.address, 5);
    judge("a touched pointer: times memcpy", library.in_place / whole.write, 1.1);
    judge("dym_write: times memcpy", library.write / whole.write, 2.5);
    judge("dym_read: times memcpy", library.read / whole.read, 3);
    judge("malloc and free: times the C library's", library.malloc_free / whole.malloc_free, 1.5);
    many_objects();
    return 0;
}
