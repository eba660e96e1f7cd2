/*
 * Opens, logs, saves, loads, restores, prunes and closes objects of both versions, checked ones too, while one allocation after another fails, or all
 * from one on: linked with --wrap=malloc and --wrap=realloc. A call that answers that memory is wanting has changed nothing, and done again it
 * succeeds. It ends with 0, or with 1 after a line for each difference.
 *   wanting [STEP]     each allocation fails, or each STEPth
 */
#include "dymelor.h"

#include <stdio.h>
#include <stdlib.h>
#include <string.h>

void *__real_malloc(size_t size);
void *__real_realloc(void *block, size_t size);
void *__wrap_malloc(size_t size);
void *__wrap_realloc(void *block, size_t size);

/* Which allocation from now on fails, 0 for none; and whether all after it do, until `recover`. */
static unsigned long failing = 0;
static int fails_on = 0, has_failed = 0;
/* How many allocations were asked for. */
static unsigned long asked = 0;

static int fails(void)
{
    asked++;
    if (failing == 0 || (failing > 1 && failing-- > 0)) return 0;
    if (!fails_on) failing = 0;
    has_failed = 1;
    return 1;
}

/* What failed may be done again. */
static void recover(void)
{
    failing = fails_on && has_failed ? 0 : failing;
}

void *__wrap_malloc(size_t size)
{
    return fails() ? NULL : __real_malloc(size);
}

void *__wrap_realloc(void *block, size_t size)
{
    return fails() ? NULL : __real_realloc(block, size);
}

static int differences = 0;

static void expect(int holds, const char *what, int line)
{
    if (!holds) {
        fprintf(stderr, "wanting.c:%d: %s\n", line, what);
        differences++;
    }
}

#define EXPECT(what) expect((what), #what, __LINE__)

/* A call that takes no memory is done, and asks for none, not even for a time. */
#define TAKES_NONE(call)                           \
    do {                                           \
        const unsigned long before = asked;        \
        EXPECT((call) == DYM_DONE);                \
        EXPECT(asked == before && "takes memory"); \
    } while (0)

enum { QUOTA = 5, MOST_LOGS = 36, ROOM = 80000 };

typedef struct trial {
    dym_status (*open)(dym_object *, uint32_t, uint32_t);
    uint32_t version;
    /* How many logs there are; of a heap of some kinds of chunks. */
    int logs;
    /* What the heap was at each. */
    uint64_t hashes[MOST_LOGS];
} trial;

static uint64_t hash_of(const dym_object *object)
{
    uint64_t hash = 0;
    EXPECT(dym_hash(object, &hash) == DYM_DONE);
    return hash;
}

/* Opens an object, in the second trial at the latest. */
static void opens(const trial *t, dym_object *object)
{
    dym_status status = t->open(object, QUOTA, t->version);
    if (status == DYM_MEMORY) {
        EXPECT(has_failed && object->inside == NULL);
        recover();
        status = t->open(object, QUOTA, t->version);
    }
    EXPECT(status == DYM_DONE && object->inside != NULL);
}

static void takes_log(dym_object *object, uint32_t kind, uint64_t time, uint32_t wanted)
{
    uint32_t logged = 9;
    const uint64_t hash = hash_of(object);
    dym_slots before, after;
    dym_status status;
    EXPECT(dym_logs(object, &before) == DYM_DONE);
    status = dym_log(object, kind, time, &logged);
    if (status == DYM_MEMORY) {
        EXPECT(has_failed && logged == 9 && hash_of(object) == hash);
        EXPECT(dym_logs(object, &after) == DYM_DONE && after.kept == before.kept && after.slots == before.slots);
        recover();
        status = dym_log(object, kind, time, &logged);
    }
    EXPECT(status == DYM_DONE && logged == wanted && hash_of(object) == hash);
}

/* An object has its logs, from one on, and nothing else: it brings back what each had. It has none after that. */
static void brings_back(const trial *t, dym_object *object, int first)
{
    uint64_t time = 0;
    int k;
    for (k = t->logs - 1; k >= first; k--) {
        TAKES_NONE(dym_restore(object, 10 * (uint64_t)k + 5, &time));
        EXPECT(time == 10 * (uint64_t)k);
        EXPECT(hash_of(object) == t->hashes[k]);
    }
    EXPECT(first == 0 || dym_restore(object, 10 * (uint64_t)first - 1, &time) == DYM_NO_LOG);
}

/* Saves an object, which stays as it was, and loads another of the file. */
static void copies(const trial *t, dym_object *object, int first)
{
    static uint8_t file[ROOM], again[ROOM];
    dym_object other = {0};
    const uint64_t hash = hash_of(object);
    uint64_t length = 0, other_length = 0;
    uint32_t part = 99;
    dym_status status = dym_save(object, "lp", 2, file, sizeof file, &length);
    if (status == DYM_MEMORY) {
        EXPECT(has_failed && length == 0);
        recover();
        status = dym_save(object, "lp", 2, file, sizeof file, &length);
    }
    EXPECT(status == DYM_DONE && length > 21 && hash_of(object) == hash);
    status = dym_load(&other, file, (size_t)length, &part);
    if (status == DYM_MEMORY) {
        EXPECT(has_failed && other.inside == NULL && part == 99);
        recover();
        status = dym_load(&other, file, (size_t)length, &part);
    }
    EXPECT(status == DYM_DONE && part == 99);
    status = dym_save(&other, "lp", 2, again, sizeof again, &other_length);
    if (status == DYM_MEMORY) {
        recover();
        status = dym_save(&other, "lp", 2, again, sizeof again, &other_length);
    }
    EXPECT(status == DYM_DONE && other_length == length && memcmp(file, again, (size_t)length) == 0);
    brings_back(t, &other, first);
    EXPECT(dym_close(&other) == DYM_DONE);
}

/* Looks for what was written and not touched, of which there is none. */
static void looks(const dym_object *object)
{
    dym_handle found = {9, 9};
    dym_status status = dym_untold(object, &found);
    EXPECT(status == DYM_BAD || (status == DYM_DONE && dym_same(found, dym_nil)));
}

/* The kth event, which takes no memory: writes, in place too, and chunks that come and go. */
static void event(dym_object *object, dym_handle *h, int k)
{
    dym_handle *other = &h[1 + k % 3];
    void *at = NULL;
    TAKES_NONE(dym_fill(object, h[0], (uint32_t)k, 100, (uint8_t)k));
    if (k % 4 == 3) {
        TAKES_NONE(dym_free(object, *other));
        TAKES_NONE(dym_malloc(object, 60 + (uint64_t)k, other));
    }
    TAKES_NONE(dym_touch(object, *other, &at));
    *(uint8_t *)at = (uint8_t)k;
    if (k % 5 == 4) TAKES_NONE(dym_realloc(object, *other, 300, other));
}

/* The other calls that take no memory, of an object whose chunk has at least 100 bytes. */
static void asks(dym_object *object, dym_handle chunk)
{
    const void *place = NULL, *start = NULL;
    uint8_t bytes[8];
    dym_found found;
    dym_heap heap;
    dym_bytes usage;
    dym_handle next;
    uint32_t length = 0, kind = 9;
    uint64_t number = 0;
    TAKES_NONE(dym_read(object, chunk, 0, bytes, sizeof bytes));
    TAKES_NONE(dym_write(object, chunk, 8, bytes, sizeof bytes));
    TAKES_NONE(dym_link(object, chunk, 16, chunk));
    TAKES_NONE(dym_follow(object, chunk, 16, &found));
    TAKES_NONE(dym_sum(object, chunk, &number));
    TAKES_NONE(dym_size(object, chunk, &length));
    TAKES_NONE(dym_next(object, dym_nil, &next));
    TAKES_NONE(dym_address(object, chunk, &place));
    TAKES_NONE(dym_start(object, &start));
    TAKES_NONE(dym_handle_offset(object, (uint64_t)((const uint8_t *)place - (const uint8_t *)start), &next));
    TAKES_NONE(dym_wrote(object, place, length));
    TAKES_NONE(dym_touch_all(object));
    TAKES_NONE(dym_hash(object, &number));
    TAKES_NONE(dym_inspect(object, &heap));
    TAKES_NONE(dym_usage(object, &usage));
    TAKES_NONE(dym_changed(object, &number));
    TAKES_NONE(dym_log_time(object, 0, &number));
    TAKES_NONE(dym_log_kind(object, 0, &kind));
}

/* What an object does, in which one allocation fails, or all from one on up to the end of a call. */
static void run(trial *t)
{
    dym_object object = {0};
    dym_handle h[4];
    uint32_t dropped = 0;
    int k;
    opens(t, &object);
    TAKES_NONE(dym_malloc(&object, 600, &h[0]));
    for (k = 1; k < 4; k++) TAKES_NONE(dym_calloc(&object, 2, 50, &h[k]));
    for (k = 0; k < t->logs; k++) {
        event(&object, h, k);
        t->hashes[k] = hash_of(&object);
        takes_log(&object, DYM_INCREMENTAL, 10 * (uint64_t)k, k % 32 == 0 ? DYM_FULL : DYM_INCREMENTAL);
    }
    event(&object, h, k);
    copies(t, &object, 0);
    looks(&object);
    TAKES_NONE(dym_prune(&object, 15, &dropped));
    EXPECT(dropped == 1);
    copies(t, &object, 1);
    brings_back(t, &object, 1);
    asks(&object, h[0]);
    TAKES_NONE(dym_close(&object));
}

/* Each allocation in turn fails, or each `step`th. */
static void run_all(trial *t, unsigned long step)
{
    unsigned long k;
    has_failed = 1;
    for (k = 1; has_failed && differences == 0; k += step) {
        has_failed = 0;
        failing = k;
        run(t);
    }
    EXPECT(k > 5);
}

/* Few logs in each way, and many in two. */
int main(int count, char **words)
{
    static dym_status (*const ways[])(dym_object *, uint32_t, uint32_t) = {dym_open, dym_open_checked};
    const unsigned long step = count > 1 ? strtoul(words[1], NULL, 10) : 1;
    trial t = {dym_open, 1, 3, {0}};
    int k;
    for (k = 0; k < 8; k++) {
        t.open = ways[k % 2];
        t.version = 1 + (uint32_t)k / 2 % 2;
        fails_on = k / 4;
        run_all(&t, step);
    }
    t.logs = MOST_LOGS;
    for (k = 0; k < 2; k++) {
        t.open = ways[k];
        t.version = 2 - (uint32_t)k;
        fails_on = k;
        run_all(&t, step);
    }
    return differences > 0;
}
