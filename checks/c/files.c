/*
 * Checkpoint files beside whole copies: the file that dym_save writes is, byte by byte, what docs/scripts.md says of the logs that are kept, taken
 * again; what dym_load makes of it, and of a file in which the logs stand as a script's object took them, has the same times and brings back the same
 * heaps, and goes on like the object that was saved.
 *   files FIRST COUNT     the seeds from FIRST on; it ends with 0, or with 1 at the first difference, which is told with its seed
 */
#include "dymelor.h"

#include <stdio.h>
#include <stdlib.h>
#include <string.h>

enum { QUOTA = 4, MOST_LOGS = 256, MOST_BEFORE = 32, SEGMENT = 65536, NEAR = 64 };

static unsigned long seed;
static uint64_t chance;

static void fail(const char *what, int line)
{
    fprintf(stderr, "files.c:%d: seed %lu: %s\n", line, seed, what);
    exit(1);
}

#define MUST(what) ((what) ? (void)0 : fail(#what, __LINE__))
#define DONE(call) MUST((call) == DYM_DONE)

static uint64_t draw(uint64_t below)
{
    chance = chance * UINT64_C(6364136223846793005) + UINT64_C(1442695040888963407);
    return (chance >> 33) % below;
}

/* ---- whole copies */

typedef struct chunk {
    dym_handle handle;
    uint32_t length;
    uint8_t *bytes;
} chunk;

typedef struct copy {
    uint64_t time;
    size_t count;
    chunk *chunks; /* in the order of their handles */
} copy;

static void *taken(void *block)
{
    MUST(block != NULL);
    return block;
}

static copy copy_of(const dym_object *object, uint64_t time)
{
    copy c = {time, 0, NULL};
    size_t room = 0;
    dym_handle h = dym_nil;
    for (;;) {
        chunk *at;
        const void *seen = NULL;
        DONE(dym_next(object, h, &h));
        if (dym_same(h, dym_nil)) return c;
        if (c.count == room) c.chunks = taken(realloc(c.chunks, (room = 2 * room + 8) * sizeof *c.chunks));
        at = &c.chunks[c.count++];
        at->handle = h;
        DONE(dym_size(object, h, &at->length));
        DONE(dym_address(object, h, &seen));
        at->bytes = taken(malloc(at->length + 1));
        memcpy(at->bytes, seen, at->length);
    }
}

static void drop(copy *c)
{
    size_t k;
    for (k = 0; k < c->count; k++) free(c->chunks[k].bytes);
    free(c->chunks);
    c->chunks = NULL;
    c->count = 0;
}

static const chunk *find(const copy *c, dym_handle h)
{
    size_t k;
    for (k = 0; c != NULL && k < c->count; k++)
        if (dym_same(c->chunks[k].handle, h)) return &c->chunks[k];
    return NULL;
}

static int is_same(const chunk *a, const chunk *b)
{
    return a != NULL && b != NULL && a->length == b->length && memcmp(a->bytes, b->bytes, a->length) == 0;
}

static void compare(const dym_object *object, const copy *want)
{
    copy now = copy_of(object, 0);
    size_t k;
    MUST(now.count == want->count);
    for (k = 0; k < now.count; k++) MUST(dym_same(now.chunks[k].handle, want->chunks[k].handle) && is_same(&now.chunks[k], &want->chunks[k]));
    drop(&now);
}

/* ---- files, as docs/scripts.md has them */

typedef struct text {
    uint8_t *bytes;
    size_t length, room;
} text;

static void append(text *t, const void *bytes, size_t length)
{
    if (t->length + length > t->room) t->bytes = taken(realloc(t->bytes, t->room = 2 * (t->length + length)));
    if (length > 0) memcpy(t->bytes + t->length, bytes, length);
    t->length += length;
}

static void append_number(text *t, uint64_t number, int width)
{
    for (; width > 0; width--, number >>= 8) {
        uint8_t byte = number & 255;
        append(t, &byte, 1);
    }
}

/* One area: its class, its ordinal, which chunks are in use, in an incremental record which changed, and those that are packed. */
static void append_area(text *t, const copy *now, const uint8_t *is_packed, uint8_t exponent, uint32_t ordinal, uint32_t version, int is_full)
{
    const uint32_t per = (uint32_t)SEGMENT >> exponent;
    uint8_t used[256] = {0}, changed[256] = {0};
    size_t k;
    append_number(t, exponent, 1);
    append_number(t, ordinal, 4);
    for (k = 0; k < now->count; k++) {
        const uint32_t at = now->chunks[k].handle.index % per;
        if (now->chunks[k].handle.exponent != exponent || now->chunks[k].handle.index / per != ordinal) continue;
        used[at / 8] |= (uint8_t)(1 << at % 8);
        if (is_packed[k]) changed[at / 8] |= (uint8_t)(1 << at % 8);
    }
    append(t, used, per < 8 ? 1 : per / 8);
    if (!is_full) append(t, changed, per < 8 ? 1 : per / 8);
    for (k = 0; k < now->count; k++) {
        const chunk *it = &now->chunks[k];
        if (it->handle.exponent != exponent || it->handle.index / per != ordinal || !is_packed[k]) continue;
        if (version == 2) append_number(t, it->length, 4);
        append(t, it->bytes, it->length);
    }
}

/* A record of a heap: full, or of what differs from the one before. A record that an object of scripts took may pack more. */
static void append_record(text *t, const copy *before, const copy *now, uint32_t version, int is_full, int packs_more)
{
    text record = {NULL, 0, 0};
    uint8_t *is_packed = taken(malloc(now->count + 1));
    uint32_t areas[17] = {0}, count = 0, exponent, ordinal;
    size_t k;
    for (k = 0; k < now->count; k++) {
        const chunk *it = &now->chunks[k];
        const uint32_t ends = it->handle.index / ((uint32_t)SEGMENT >> it->handle.exponent) + 1;
        is_packed[k] = is_full || !is_same(find(before, it->handle), it) || (packs_more && draw(3) == 0);
        if (ends > areas[it->handle.exponent]) areas[it->handle.exponent] = ends;
    }
    for (exponent = 5; exponent <= 16; exponent++) count += areas[exponent];
    append(&record, is_full ? version == 1 ? "F" : "f" : version == 1 ? "I" : "i", 1);
    append_number(&record, now->time, 8);
    append_number(&record, count, 4);
    for (exponent = 5; exponent <= 16; exponent++)
        for (ordinal = 0; ordinal < areas[exponent]; ordinal++)
            append_area(&record, now, is_packed, (uint8_t)exponent, ordinal, version, is_full);
    append_number(t, record.length, 4);
    append(t, record.bytes, record.length);
    free(record.bytes);
    free(is_packed);
}

static void append_header(text *t, uint32_t version, size_t records, size_t before)
{
    append(t, "DYMCKPT1\002lp", 11);
    append_number(t, QUOTA, 4);
    append_number(t, version, 1);
    append_number(t, records, 4);
    append_number(t, before, 1);
}

/* The file of logs that are taken again: the oldest is full, as is each 32nd. */
static text file_of(const copy *logs, size_t count, uint32_t version)
{
    text t = {NULL, 0, 0};
    size_t k;
    append_header(&t, version, count, 0);
    for (k = 0; k < count; k++) append_record(&t, k > 0 ? &logs[k - 1] : NULL, &logs[k], version, k % 32 == 0, 0);
    return t;
}

/* A file as a script's object has it, whose oldest kept log stands on records before it; `before` is how many. */
static text file_of_chain(const copy *logs, size_t count, size_t before, uint32_t version)
{
    text t = {NULL, 0, 0};
    size_t k, behind = 0;
    append_header(&t, version, count, before);
    for (k = 0; k < count; k++) {
        const int is_full = k == 0 || behind == 31 || (k > before && draw(10) == 0);
        behind = is_full ? 0 : behind + 1;
        append_record(&t, k > 0 ? &logs[k - 1] : NULL, &logs[k], version, is_full, 1);
    }
    return t;
}

/* ---- objects */

static void change(dym_object *object)
{
    static uint8_t bytes[NEAR];
    dym_handle h = {0, 0};
    uint32_t length = 0, from, count;
    void *at = NULL;
    uint64_t wanted = draw(6) > 0 ? draw(200) : draw(20000);
    h.exponent = (uint8_t)(5 + draw(12));
    h.index = (uint32_t)draw(6);
    DONE(dym_next(object, h, &h));
    if (dym_same(h, dym_nil) || draw(3) == 0) {
        dym_status status = dym_malloc_at(object, wanted, NULL, &at);
        MUST(status == DYM_DONE || status == DYM_QUOTA);
        if (status == DYM_DONE) memset(at, (int)draw(256), (size_t)wanted);
        return;
    }
    DONE(dym_size(object, h, &length));
    from = length > 0 ? (uint32_t)draw(length) : 0;
    count = length - from < NEAR ? length - from : NEAR;
    memset(bytes, (int)draw(3), sizeof bytes);
    switch (draw(5)) {
    case 0: DONE(dym_free(object, h)); break;
    case 1: {
        dym_status status = dym_realloc(object, h, wanted + 1, &h);
        MUST(status == DYM_DONE || status == DYM_QUOTA);
        break;
    }
    /* What is touched and not changed is in no record. */
    case 2: DONE(dym_touch(object, h, &at)); break;
    default: DONE(dym_write(object, h, from, bytes, count));
    }
}

/* Saves an object, and shows that the file is what it must be. */
static void save(const dym_object *object, const copy *logs, size_t count, uint32_t version)
{
    text want = file_of(logs, count, version);
    uint8_t *bytes = taken(malloc(want.length + 1));
    uint64_t length = 0;
    bytes[want.length] = 77;
    MUST(dym_save(object, "lp", 2, bytes, want.length - 1, &length) == DYM_RANGE && length == want.length);
    DONE(dym_save(object, "lp", 2, bytes, want.length + 1, &length));
    MUST(length == want.length && memcmp(bytes, want.bytes, want.length) == 0 && bytes[want.length] == 77);
    free(bytes);
    free(want.bytes);
}

/* Loads a file, and shows that its object brings back what the logs have, from the newest to the oldest, each of them in a file of its own then. */
static void load(const text *file, const copy *logs, size_t count, uint32_t version)
{
    dym_object object = {0};
    dym_handle untold = {9, 9};
    dym_heap heap;
    dym_slots slots;
    uint64_t time = 0, restored = 0;
    size_t k, step;
    DONE(dym_load(&object, file->bytes, file->length, NULL));
    DONE(dym_inspect(&object, &heap));
    MUST(heap.version == version && heap.quota == QUOTA);
    DONE(dym_logs(&object, &slots));
    MUST(slots.kept == count);
    for (k = 0; k < count; k++) MUST(dym_log_time(&object, (uint32_t)k, &time) == DYM_DONE && time == logs[k].time);
    MUST(dym_untold(&object, &untold) == DYM_BAD);
    save(&object, logs, count, version);
    for (k = count; k > 0; k -= k < step ? k : step) {
        DONE(dym_restore(&object, logs[k - 1].time + draw(2), &restored));
        MUST(restored == logs[k - 1].time);
        compare(&object, &logs[k - 1]);
        if (draw(8) == 0) save(&object, logs, k, version);
        step = 1 + (size_t)draw(3);
        change(&object);
    }
    MUST(count == 0 || dym_restore_before(&object, logs[0].time, &restored) == DYM_NO_LOG);
    DONE(dym_close(&object));
}

/* An object that was loaded goes on: its next log is of the kind that the file's last records let expect, and brings back what it marked. */
static void go_on(const text *file, size_t count)
{
    dym_object object = {0};
    uint32_t kind = 9, part = 9;
    copy marked;
    DONE(dym_load(&object, file->bytes, file->length, &part));
    change(&object);
    if (count == MOST_LOGS) {
        MUST(dym_log(&object, DYM_INCREMENTAL, UINT64_MAX, &kind) == DYM_LOGS_FULL && kind == 9);
        DONE(dym_close(&object));
        return;
    }
    DONE(dym_log(&object, DYM_INCREMENTAL, UINT64_MAX, &kind));
    MUST(kind == (count % 32 == 0 ? DYM_FULL : DYM_INCREMENTAL) && part == 9);
    marked = copy_of(&object, UINT64_MAX);
    change(&object);
    change(&object);
    DONE(dym_restore(&object, UINT64_MAX, NULL));
    compare(&object, &marked);
    drop(&marked);
    DONE(dym_close(&object));
}

/* Each file that is cut short, or has a byte too many, is none. */
static void cut(const text *file)
{
    dym_object object = {0};
    uint8_t *bytes = taken(malloc(file->length + 1));
    size_t length = (size_t)draw(file->length);
    uint32_t part = 99;
    memcpy(bytes, file->bytes, file->length);
    bytes[file->length] = 0;
    MUST(dym_load(&object, bytes, length, &part) == DYM_FILE && part != 99);
    MUST(dym_load(&object, bytes, file->length + 1, &part) == DYM_FILE && object.inside == NULL);
    free(bytes);
}

static void run(void)
{
    static copy logs[MOST_BEFORE + MOST_LOGS];
    dym_object object = {0};
    const uint32_t version = 1 + (uint32_t)(seed % 2);
    /* How many are kept at last, and how many are dropped before. */
    const size_t kept = draw(20) == 0 ? MOST_LOGS : (size_t)draw(70), before = kept > 0 ? (size_t)draw(MOST_BEFORE) : 0;
    const size_t all = before + kept;
    const int is_checked = draw(3) == 0;
    uint64_t now = draw(2), k;
    uint32_t dropped = 0;
    size_t count;
    text file;
    DONE((is_checked ? dym_open_checked : dym_open)(&object, QUOTA, version));
    for (count = 0; count < all; count++) {
        for (k = draw(4); k > 0; k--) change(&object);
        if (count == MOST_LOGS) DONE(dym_prune(&object, logs[before].time, &dropped));
        DONE(dym_log(&object, (uint32_t)draw(2), now, NULL));
        logs[count] = copy_of(&object, now);
        now += 2 + draw(3);
    }
    if (before > 0) DONE(dym_prune(&object, logs[before].time, &dropped));
    for (k = draw(4); k > 0; k--) change(&object);
    save(&object, logs + before, kept, version);
    DONE(dym_close(&object));

    file = file_of(logs + before, kept, version);
    load(&file, logs + before, kept, version);
    go_on(&file, kept);
    cut(&file);
    free(file.bytes);
    file = file_of_chain(logs, all, before, version);
    load(&file, logs + before, kept, version);
    free(file.bytes);
    for (count = 0; count < all; count++) drop(&logs[count]);
}

int main(int count, char **words)
{
    unsigned long first = count > 1 ? strtoul(words[1], NULL, 10) : 0, seeds = count > 2 ? strtoul(words[2], NULL, 10) : 100;
    for (seed = first; seed < first + seeds; seed++) {
        chance = seed * 2 + 1;
        run();
    }
    return 0;
}
