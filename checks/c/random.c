/*
 * Random calls beside whole copies: objects of both versions, plain and checked, in which chunks are made, freed, given other lengths and
 * written by each way that there is, logged, rolled back, pruned, saved and loaded. After each rollback and load every chunk is what the copy
 * has that was made at the log, and dym_untold finds nothing. What dym_usage, dym_changed and dym_log_kind tell is what the copies say.
 *   random FIRST COUNT     the seeds from FIRST on; it ends with 0, or with 1 at the first difference, which is told with its seed
 */
#include "dymelor.h"

#include <stdio.h>
#include <stdlib.h>
#include <string.h>

enum { QUOTA = 6, MOST_LOGS = 24, COMMANDS = 400, NEAR = 64 };

static unsigned long seed;

static void fail(const char *what, int line)
{
    fprintf(stderr, "random.c:%d: seed %lu: %s\n", line, seed, what);
    exit(1);
}

#define MUST(what) ((what) ? (void)0 : fail(#what, __LINE__))
#define DONE(call) MUST((call) == DYM_DONE)

typedef struct copy {
    uint64_t time;
    uint32_t kind;
    size_t length;
    uint8_t *bytes; /* of each chunk the number, the length and the bytes */
} copy;

typedef struct trial {
    dym_object object;
    int is_checked;
    uint64_t random, now;
    size_t kept;
    copy copies[MOST_LOGS];
} trial;

static uint64_t draw(trial *t, uint64_t below)
{
    t->random = t->random * UINT64_C(6364136223846793005) + UINT64_C(1442695040888963407);
    return (t->random >> 33) % below;
}

static void append(copy *c, size_t *room, const void *bytes, size_t length)
{
    if (c->length + length > *room) {
        *room = 2 * (c->length + length);
        c->bytes = realloc(c->bytes, *room);
        MUST(c->bytes != NULL);
    }
    if (length > 0) memcpy(c->bytes + c->length, bytes, length);
    c->length += length;
}

static copy copy_of(const dym_object *object, uint64_t time)
{
    copy c = {time, DYM_FULL, 0, NULL};
    size_t room = 0;
    dym_handle h = dym_nil;
    for (;;) {
        uint64_t number;
        uint32_t length;
        const void *at;
        DONE(dym_next(object, h, &h));
        number = dym_number(h);
        append(&c, &room, &number, sizeof number);
        if (number == 0) return c;
        DONE(dym_size(object, h, &length));
        DONE(dym_address(object, h, &at));
        append(&c, &room, &length, sizeof length);
        append(&c, &room, at, length);
    }
}

static void compare(const dym_object *object, const copy *c)
{
    copy now = copy_of(object, 0);
    MUST(now.length == c->length && memcmp(now.bytes, c->bytes, c->length) == 0);
    free(now.bytes);
}

static void drop(trial *t, size_t from, size_t to)
{
    size_t k;
    for (k = from; k < to; k++) free(t->copies[k].bytes);
    memmove(t->copies + from, t->copies + to, (t->kept - to) * sizeof *t->copies);
    t->kept -= to - from;
}

/* A live chunk, or nil where there is none. */
static dym_handle any(trial *t)
{
    dym_handle h = {0, 0};
    h.exponent = (uint8_t)(5 + draw(t, 12));
    h.index = (uint32_t)draw(t, draw(t, 2) ? 8 : 3000);
    DONE(dym_next(&t->object, h, &h));
    if (dym_same(h, dym_nil)) DONE(dym_next(&t->object, h, &h));
    return h;
}

static uint64_t a_length(trial *t)
{
    return draw(t, 8) > 0 ? draw(t, 200) : draw(t, 65537);
}

/* The bytes of live chunks, and what is held beside. */
static void usage(trial *t)
{
    dym_bytes bytes = {1, 1, 1};
    dym_heap heap = {0, 0, 0};
    dym_handle h = dym_nil;
    uint64_t live = 0;
    uint32_t length = 0;
    for (;;) {
        DONE(dym_next(&t->object, h, &h));
        if (dym_same(h, dym_nil)) break;
        DONE(dym_size(&t->object, h, &length));
        live += length;
    }
    DONE(dym_inspect(&t->object, &heap));
    DONE(dym_usage(&t->object, &bytes));
    MUST(bytes.live == live && bytes.idle == UINT64_C(65536) * heap.held - live);
    MUST(t->kept > 0 || bytes.kept == 0);
}

/* The next chunk of a copy, and how long what stands of it there is. */
static size_t chunk_at(const copy *c, size_t at, uint64_t *number)
{
    uint32_t length = 0;
    memcpy(number, c->bytes + at, sizeof *number);
    if (*number == 0) return 0;
    memcpy(&length, c->bytes + at + sizeof *number, sizeof length);
    return sizeof *number + sizeof length + length;
}

/* At least the chunks in which the heap differs from the newest log are told as changed, and none right after it or where there is no log. */
static void changed(trial *t, int is_unchanged)
{
    const copy now = copy_of(&t->object, 0), *log = t->kept > 0 ? &t->copies[t->kept - 1] : NULL;
    uint64_t count = 77, least = 0, number, other;
    size_t at = 0, there = 0;
    DONE(dym_changed(&t->object, &count));
    if (log == NULL || is_unchanged) {
        MUST(count == 0);
        free(now.bytes);
        return;
    }
    for (;;) {
        const size_t length = chunk_at(&now, at, &number), logged = chunk_at(log, there, &other);
        if (number == 0 && other == 0) break;
        if (number == other) {
            least += length != logged || memcmp(now.bytes + at, log->bytes + there, length) != 0;
            at += length;
            there += logged;
            continue;
        }
        least++;
        if (other == 0 || (number != 0 && number < other))
            at += length;
        else
            there += logged;
    }
    MUST(count >= least);
    free(now.bytes);
}

static void kinds(trial *t)
{
    uint32_t kind = 9;
    size_t k;
    for (k = 0; k < t->kept; k++) MUST(dym_log_kind(&t->object, (uint32_t)k, &kind) == DYM_DONE && kind == t->copies[k].kind);
    MUST(dym_log_kind(&t->object, (uint32_t)k, &kind) == DYM_NO_LOG);
}

/* ---- what an event does */

static void make(trial *t)
{
    void *at = NULL;
    uint64_t half = a_length(t) / 2;
    dym_status status = draw(t, 2) ? dym_malloc_at(&t->object, 2 * half, NULL, &at) : dym_calloc_at(&t->object, 2, half, NULL, &at);
    MUST(status == DYM_DONE || status == DYM_QUOTA);
    if (status == DYM_DONE) memset(at, (int)draw(t, 256), 2 * half);
}

static void change_length(trial *t)
{
    dym_handle h = any(t);
    dym_status status = draw(t, 3) ? dym_realloc(&t->object, h, a_length(t), &h) : dym_free(&t->object, h);
    MUST(status == DYM_DONE || status == DYM_QUOTA);
}

/* Writes some bytes of a chunk, by a call or in place. */
static void change_bytes(trial *t)
{
    dym_handle h = any(t);
    static uint8_t bytes[65536];
    uint32_t length, from, count;
    const void *seen;
    uint8_t *at;
    if (dym_same(h, dym_nil)) return;
    DONE(dym_size(&t->object, h, &length));
    if (length == 0) return;
    from = (uint32_t)draw(t, length);
    count = (uint32_t)draw(t, length - from < NEAR ? length - from + 1 : NEAR);
    DONE(dym_address(&t->object, h, &seen));
    at = (uint8_t *)(uintptr_t)seen;
    memset(bytes, (int)draw(t, 256), count);
    switch (draw(t, 7)) {
    case 0: DONE(dym_write(&t->object, h, from, bytes, count)); return;
    case 1: DONE(dym_fill(&t->object, h, from, count, bytes[0])); return;
    case 2: MUST(dym_link(&t->object, h, from, any(t)) == (length - from < 8 ? DYM_RANGE : DYM_DONE)); return;
    case 3: DONE(dym_touch(&t->object, h, NULL)); break;
    case 4: DONE(dym_wrote(&t->object, at + from, count)); break;
    case 5: DONE(dym_wrote(&t->object, (const void *)((uintptr_t)at - draw(t, 300)), 300 + length)); break;
    default: DONE(dym_touch_all(&t->object));
    }
    memset(at + from, bytes[0], count);
}

/* ---- logs */

static void untold(trial *t)
{
    dym_handle found = dym_nil;
    MUST(dym_untold(&t->object, &found) == (t->is_checked ? DYM_DONE : DYM_BAD) && dym_same(found, dym_nil));
}

static void take_log(trial *t)
{
    uint32_t kind = 9;
    usage(t);
    changed(t, 0);
    if (t->kept == MOST_LOGS) {
        size_t gone = 1 + (size_t)draw(t, MOST_LOGS - 1);
        uint32_t dropped = 0;
        DONE(dym_prune(&t->object, t->copies[gone].time + draw(t, 2), &dropped));
        MUST(dropped == gone);
        drop(t, 0, gone);
    }
    t->now += 2 + draw(t, 3);
    DONE(dym_log(&t->object, (uint32_t)draw(t, 2), t->now, &kind));
    t->copies[t->kept] = copy_of(&t->object, t->now);
    t->copies[t->kept++].kind = kind;
    changed(t, 1);
}

static void roll_back(trial *t)
{
    size_t to = t->kept - 1 - (size_t)draw(t, draw(t, 4) ? (t->kept < 3 ? t->kept : 3) : t->kept);
    uint64_t restored = 0;
    untold(t);
    if (draw(t, 2))
        DONE(dym_restore(&t->object, t->copies[to].time + draw(t, 2), &restored));
    else
        DONE(dym_restore_before(&t->object, t->copies[to].time + 1 + draw(t, 2), &restored));
    MUST(restored == t->copies[to].time);
    drop(t, to + 1, t->kept);
    t->now = restored;
    compare(&t->object, &t->copies[to]);
    changed(t, 1);
    kinds(t);
}

/* The object goes on as one that was loaded of its file, which isn't checked. */
static void move(trial *t)
{
    dym_object other = {0};
    uint8_t none, *file;
    uint64_t length = 0, time = 0;
    size_t k;
    MUST(dym_save(&t->object, "lp", 2, &none, 0, &length) == DYM_RANGE);
    file = malloc((size_t)length);
    MUST(file != NULL);
    DONE(dym_save(&t->object, "lp", 2, file, (size_t)length, &length));
    DONE(dym_load(&other, file, (size_t)length, NULL));
    free(file);
    DONE(dym_close(&t->object));
    t->object = other;
    t->is_checked = 0;
    compare(&t->object, &t->copies[t->kept - 1]);
    for (k = 0; k < t->kept; k++) {
        MUST(dym_log_time(&t->object, (uint32_t)k, &time) == DYM_DONE && time == t->copies[k].time);
        t->copies[k].kind = k == 0 ? DYM_FULL : DYM_INCREMENTAL;
    }
    t->now = time;
    usage(t);
    changed(t, 1);
    kinds(t);
}

static void run(void)
{
    trial t = {{NULL}, 0, 0, 1, 0, {{0, 0, 0, NULL}}};
    int k;
    t.random = seed * 2 + 1;
    t.is_checked = (int)draw(&t, 3) == 0;
    DONE((t.is_checked ? dym_open_checked : dym_open)(&t.object, QUOTA, 1 + (uint32_t)draw(&t, 2)));
    for (k = 0; k < COMMANDS; k++) {
        uint64_t which = draw(&t, 100);
        if (which < 25)
            make(&t);
        else if (which < 45)
            change_length(&t);
        else if (which < 75)
            change_bytes(&t);
        else if (which < 88 || t.kept == 0)
            take_log(&t);
        else if (which < 99)
            roll_back(&t);
        else
            move(&t);
    }
    drop(&t, 0, t.kept);
    DONE(dym_close(&t.object));
}

int main(int count, char **words)
{
    unsigned long first = count > 1 ? strtoul(words[1], NULL, 10) : 0, seeds = count > 2 ? strtoul(words[2], NULL, 10) : 100;
    for (seed = first; seed < first + seeds; seed++) run();
    return 0;
}
