/*
 * A model whose stores are told, rolled back at random beside whole copies. Linked with the model compiled by dymelor-cc:
 *   stores rollbacks SEED    an object rolled back 1,000 times; and four at once, which change their threads, as often together
 *   stores table             the table of touched chunks after each call that ends a touch, and closed objects
 *   stores before            each chunk is told while its bytes are those of the log before, and no other chunk is
 *   stores names             prints the names of the library's calls that are made
 * Linked with the model compiled by any compiler, which tells nothing:
 *   stores found             of some touches one is left out, 100 times for each way to store: dym_untold finds the chunk
 */
#define _XOPEN_SOURCE 700

#include "dymelor_track.h"
#include "stores.h"

#include <pthread.h>
#include <stdio.h>
#include <stdlib.h>
#include <string.h>

enum { WAYS = 256, QUOTA = 24, PROCESSES = 4, ROLLBACKS = 1000, PARTS = 10, LOGS = 64, TRIALS = 100, BLOCK = 12 * QUOTA * 65536 };

static void fail(const char *what, const char *more)
{
    fprintf(stderr, "stores: %s%s%s\n", what, more[0] != '\0' ? ": " : "", more);
    exit(1);
}

FILE *file_of(const char *text)
{
    return fmemopen((void *)text, strlen(text), "r");
}

static void must(dym_status status, const char *call)
{
    if (status != DYM_DONE) fail(call, dym_status_text(status));
}

/* ---- an object with the chunks of a model, and a whole copy for each of its logs */

typedef struct copy {
    uint64_t time;
    size_t length;
    uint8_t *bytes;
} copy;

typedef struct process {
    dym_object object;
    dym_handle chunks[WAYS];
    void *at[WAYS];
    void *list, *tree;
    uint32_t state; /* of the random numbers */
    uint64_t now;
    size_t kept;
    copy copies[LOGS];
} process;

static const way *ways[WAYS];
static size_t way_count;

static void gather(const way *some)
{
    for (; some->name != NULL; some++) {
        if (way_count == WAYS) fail("there are more ways than the model has room for", some->name);
        ways[way_count++] = some;
    }
}

static uint32_t draw(process *p)
{
    p->state ^= p->state << 13;
    p->state ^= p->state >> 17;
    p->state ^= p->state << 5;
    return p->state;
}

static void open_process(process *p, uint32_t seed)
{
    dym_handle root;
    memset(p, 0, sizeof *p);
    p->state = seed * 2654435761U | 1;
    p->now = 1;
    must(dym_open_checked(&p->object, QUOTA, 1 + seed % 2), "dym_open_checked");
    for (size_t k = 0; k < way_count; k++)
        must(dym_calloc_at(&p->object, 1, ways[k]->size, &p->chunks[k], &p->at[k]), "dym_calloc_at");
    must(dym_malloc_at(&p->object, ROOT_BYTES, &root, &p->list), "dym_malloc_at");
    must(dym_malloc_at(&p->object, ROOT_BYTES, &root, &p->tree), "dym_malloc_at");
}

/* All live chunks: the handle, the length and the bytes of each. */
static copy copy_of(process *p)
{
    copy c = {p->now, 0, NULL};
    size_t room = 0;
    dym_handle h = dym_nil;
    uint32_t length;
    const void *bytes;
    for (;;) {
        must(dym_next(&p->object, h, &h), "dym_next");
        if (dym_same(h, dym_nil)) return c;
        must(dym_size(&p->object, h, &length), "dym_size");
        must(dym_address(&p->object, h, &bytes), "dym_address");
        if (c.length + length + 16 > room) room = 2 * (c.length + length + 16);
        c.bytes = realloc(c.bytes, room);
        if (c.bytes == NULL) fail("memory", "");
        memset(c.bytes + c.length, 0, 16);
        memcpy(c.bytes + c.length, &h.exponent, 1);
        memcpy(c.bytes + c.length + 4, &h.index, 4);
        memcpy(c.bytes + c.length + 8, &length, 4);
        memcpy(c.bytes + c.length + 16, bytes, length);
        c.length += length + 16;
    }
}

static void drop(process *p, size_t from, size_t to)
{
    for (size_t k = from; k < to; k++) free(p->copies[k].bytes);
    memmove(p->copies + from, p->copies + to, (p->kept - to) * sizeof *p->copies);
    p->kept -= to - from;
}

static void close_process(process *p)
{
    drop(p, 0, p->kept);
    must(dym_close(&p->object), "dym_close");
}

static const char *way_of(const process *p, dym_handle chunk)
{
    for (size_t k = 0; k < way_count; k++)
        if (dym_same(p->chunks[k], chunk)) return ways[k]->name;
    return "list or tree";
}

/* The heap is as it was when a copy was made, or the chunk that isn't is named. */
static void compare(process *p, const copy *before)
{
    copy now = copy_of(p);
    size_t k = 0;
    dym_handle h = dym_nil;
    if (now.length == before->length && memcmp(now.bytes, before->bytes, now.length) == 0) {
        free(now.bytes);
        return;
    }
    while (k + 16 < now.length && k + 16 < before->length) {
        uint32_t length;
        h.exponent = now.bytes[k];
        memcpy(&h.index, now.bytes + k + 4, 4);
        memcpy(&length, now.bytes + k + 8, 4);
        if (k + 16 + length > before->length || memcmp(now.bytes + k, before->bytes + k, length + 16) != 0) break;
        k += length + 16;
    }
    fail("a rollback brought back other bytes", way_of(p, h));
}

/* ---- rollbacks */

static void run_event(process *p)
{
    uint32_t which = draw(p) % (uint32_t)(way_count + 10);
    if (which < way_count)
        ways[which]->change(p->at[which], draw(p));
    else if (which % 2 == 0)
        list_step(&p->object, p->list, draw(p));
    else
        tree_step(&p->object, p->tree, draw(p));
}

static void take_log(process *p)
{
    uint32_t logged;
    dym_handle chunk;
    uint32_t dropped;
    if (p->kept == LOGS) {
        must(dym_prune(&p->object, p->copies[LOGS / 2].time, &dropped), "dym_prune");
        drop(p, 0, LOGS / 2);
    }
    p->now++;
    must(dym_log(&p->object, draw(p) % 16 == 0 ? DYM_FULL : DYM_INCREMENTAL, p->now, &logged), "dym_log");
    p->copies[p->kept++] = copy_of(p);
    if (draw(p) % 64 == 0) {
        must(dym_untold(&p->object, &chunk), "dym_untold");
        if (!dym_same(chunk, dym_nil)) fail("a store wasn't told", way_of(p, chunk));
    }
}

static void roll_back(process *p)
{
    size_t to = p->kept - 1 - draw(p) % (p->kept < 8 ? p->kept : 8);
    uint64_t time = p->copies[to].time, restored;
    if (draw(p) % 2 == 0)
        must(dym_restore(&p->object, time, &restored), "dym_restore");
    else
        must(dym_restore_before(&p->object, time + 1, &restored), "dym_restore_before");
    if (restored != time) fail("a restore went to another log", "");
    drop(p, to + 1, p->kept);
    compare(p, &p->copies[to]);
}

/* Events with logs and rollbacks among them. The object is named anew before some events, and stays so over logs and rollbacks. */
static void run_process(process *p, int rollbacks)
{
    must(dym_track(&p->object), "dym_track");
    while (rollbacks > 0) {
        if (draw(p) % 8 == 0) {
            must(dym_track(NULL), "dym_track");
            must(dym_track(&p->object), "dym_track");
        }
        run_event(p);
        if (p->kept == 0 || draw(p) % 2 == 0) take_log(p);
        if (draw(p) % 4 == 0) {
            roll_back(p);
            rollbacks--;
        }
    }
}

static process processes[PROCESSES];
static pthread_barrier_t barrier;

/* In each part a thread runs another object than before. */
static void *run_thread(void *number)
{
    size_t first = (size_t)((process *)number - processes);
    for (size_t k = 0; k < PARTS; k++) {
        run_process(&processes[(first + k) % PROCESSES], ROLLBACKS / PROCESSES / PARTS);
        pthread_barrier_wait(&barrier);
    }
    must(dym_track(NULL), "dym_track");
    return NULL;
}

static void rollbacks(uint32_t seed)
{
    pthread_t threads[PROCESSES];
    open_process(&processes[0], seed);
    run_process(&processes[0], ROLLBACKS);
    close_process(&processes[0]);
    for (uint32_t k = 0; k < PROCESSES; k++) open_process(&processes[k], seed + 1 + k);
    pthread_barrier_init(&barrier, NULL, PROCESSES);
    for (size_t k = 0; k < PROCESSES; k++)
        if (pthread_create(&threads[k], NULL, run_thread, &processes[k]) != 0) fail("no thread", "");
    for (size_t k = 0; k < PROCESSES; k++) pthread_join(threads[k], NULL);
    for (size_t k = 0; k < PROCESSES; k++) close_process(&processes[k]);
}

/* ---- what is told before its bytes change */

/* Of an object that is looked at: which chunk, its bytes at the newest log, and how often it was told since. */
static const process *watched;
static size_t watched_way, tellings;
static uint8_t *watched_bytes;

dym_status __real_dym_wrote_offset(dym_object *object, uint64_t offset, uint64_t length);
dym_status __wrap_dym_wrote_offset(dym_object *object, uint64_t offset, uint64_t length);

/* In place of dym_wrote_offset, by the linker: here all goes by that is told. */
dym_status __wrap_dym_wrote_offset(dym_object *object, uint64_t offset, uint64_t length)
{
    const void *start = NULL;
    if (watched != NULL && object == &watched->object && dym_start(object, &start) == DYM_DONE) {
        uintptr_t chunk = (uintptr_t)watched->at[watched_way] - (uintptr_t)start;
        size_t size = ways[watched_way]->size;
        if (offset < chunk || offset + length > chunk + size) fail("another chunk was told", ways[watched_way]->name);
        if (tellings++ == 0 && memcmp(watched->at[watched_way], watched_bytes, size) != 0)
            fail("it was written before it was told", ways[watched_way]->name);
    }
    return __real_dym_wrote_offset(object, offset, length);
}

static void before(void)
{
    process *p = &processes[0];
    uint32_t logged;
    uint32_t dropped;
    open_process(p, 11);
    for (size_t k = 0; k < TRIALS * way_count; k++) {
        watched_way = k % way_count;
        watched_bytes = realloc(watched_bytes, ways[watched_way]->size);
        if (watched_bytes == NULL) fail("memory", "");
        must(dym_log(&p->object, DYM_FULL, ++p->now, &logged), "dym_log");
        must(dym_prune(&p->object, p->now, &dropped), "dym_prune");
        memcpy(watched_bytes, p->at[watched_way], ways[watched_way]->size);
        watched = p;
        tellings = 0;
        must(dym_track(&p->object), "dym_track");
        ways[watched_way]->change(p->at[watched_way], draw(p));
        must(dym_track(NULL), "dym_track");
        watched = NULL;
        if (tellings == 0 && memcmp(watched_bytes, p->at[watched_way], ways[watched_way]->size) != 0)
            fail("it was written and not told", ways[watched_way]->name);
    }
    free(watched_bytes);
    close_process(p);
}

/* ---- touches left out */

/* Changes the chunk of a way so that it has other bytes than before. */
static void change(process *p, size_t k)
{
    uint8_t *old = malloc(ways[k]->size);
    if (old == NULL) fail("memory", "");
    memcpy(old, p->at[k], ways[k]->size);
    for (int tries = 0; memcmp(old, p->at[k], ways[k]->size) == 0; tries++) {
        if (tries == 1000) fail("it changes nothing", ways[k]->name);
        ways[k]->change(p->at[k], draw(p));
    }
    free(old);
}

/* Everything but one chunk is touched where it is changed. */
static void change_some(process *p, size_t left_out)
{
    void *address;
    for (size_t k = 0; k < way_count; k++) {
        if (k != left_out && draw(p) % 2 == 0) continue;
        if (k != left_out) must(dym_touch(&p->object, p->chunks[k], &address), "dym_touch");
        change(p, k);
    }
}

static void found(void)
{
    process *p = &processes[0];
    uint32_t logged;
    dym_handle chunk;
    uint32_t dropped;
    open_process(p, 1);
    for (size_t k = 0; k < TRIALS * way_count; k++) {
        must(dym_log(&p->object, DYM_FULL, ++p->now, &logged), "dym_log");
        must(dym_prune(&p->object, p->now, &dropped), "dym_prune");
        must(dym_untold(&p->object, &chunk), "dym_untold");
        if (!dym_same(chunk, dym_nil)) fail("nothing was left out, and it is found", way_of(p, chunk));
        change_some(p, k % way_count);
        must(dym_untold(&p->object, &chunk), "dym_untold");
        if (!dym_same(chunk, p->chunks[k % way_count])) fail("it was left out, and isn't found", ways[k % way_count]->name);
        must(dym_log(&p->object, DYM_INCREMENTAL, ++p->now, &logged), "dym_log");
        must(dym_untold(&p->object, &chunk), "dym_untold");
        if (!dym_same(chunk, p->chunks[k % way_count])) fail("it was left out, and isn't found after a log", ways[k % way_count]->name);
    }
    close_process(p);
}

/* ---- the table of touched chunks */

/* Logs an object, and finds nothing that wasn't told. */
static void log_told(process *p)
{
    uint32_t logged;
    dym_handle chunk;
    must(dym_log(&p->object, DYM_INCREMENTAL, ++p->now, &logged), "dym_log");
    must(dym_untold(&p->object, &chunk), "dym_untold");
    if (!dym_same(chunk, dym_nil)) fail("a store wasn't told", way_of(p, chunk));
}

static void *log_there(void *where)
{
    process *p = where;
    log_told(p);
    return NULL;
}

static void *restore_there(void *where)
{
    process *p = where;
    uint64_t restored;
    must(dym_restore(&p->object, p->now, &restored), "dym_restore");
    return NULL;
}

static void elsewhere(void *(*what)(void *), process *p)
{
    pthread_t thread;
    if (pthread_create(&thread, NULL, what, p) != 0 || pthread_join(thread, NULL) != 0) fail("no thread", "");
}

/* The object stays named here while other threads log and restore it. */
static void logged_elsewhere(void)
{
    process *p = &processes[0];
    open_process(p, 5);
    must(dym_track(&p->object), "dym_track");
    log_told(p);
    for (size_t k = 0; k < 3 * way_count; k++) {
        change(p, k % way_count);
        elsewhere(k % 3 == 0 ? restore_there : log_there, p);
        change(p, k % way_count);
        log_told(p);
        if (p->now > 200) {
            close_process(p);
            open_process(p, (uint32_t)k);
            log_told(p);
        }
    }
    must(dym_track(NULL), "dym_track");
    close_process(p);
}

/* Memory of the program's own, which malloc may have put where a closed object had its chunks; and where these were. */
static uint8_t *block;
static void *places[WAYS];

static int lies_in_block(const void *place)
{
    return (uintptr_t)place >= (uintptr_t)block && (uintptr_t)place - (uintptr_t)block < (uintptr_t)BLOCK;
}

static void store_in_block(void)
{
    for (size_t k = 0; k < way_count; k++) {
        memset(block, 0, ways[k]->size);
        ways[k]->change(block, (uint32_t)k);
        if (lies_in_block(places[k])) ways[k]->change(places[k], (uint32_t)k);
    }
}

static void *name_and_store(void *where)
{
    process *p = where;
    must(dym_track(&p->object), "dym_track");
    pthread_barrier_wait(&barrier);
    pthread_barrier_wait(&barrier);
    store_in_block();
    must(dym_track(NULL), "dym_track");
    return NULL;
}

/* An object is closed, and its dym_object used for something else, while this thread and another one name it. */
static void closed_while_named(void)
{
    process *p = &processes[0];
    dym_object closed = {NULL};
    pthread_t thread;
    open_process(p, 7);
    memcpy(places, p->at, sizeof places);
    must(dym_track(&p->object), "dym_track");
    pthread_barrier_init(&barrier, NULL, 2);
    if (pthread_create(&thread, NULL, name_and_store, p) != 0) fail("no thread", "");
    pthread_barrier_wait(&barrier);
    close_process(p);
    memset(p, 0x5a, sizeof *p);
    block = calloc(1, BLOCK);
    if (block == NULL) fail("memory", "");
    pthread_barrier_wait(&barrier);
    pthread_join(thread, NULL);
    store_in_block();
    if (dym_track(&closed) != DYM_STATE) fail("a closed object was named", "");
    store_in_block();
    free(block);
}

/* An object that is saved, closed and loaded again is still named. It isn't checked then, so that a rollback shows what was told. */
static void loaded_while_named(void)
{
    process *p = &processes[0];
    static uint8_t bytes[1 << 22];
    static const char name[] = {'p'};
    const void *address;
    uint64_t length, restored;
    uint32_t part;
    open_process(p, 9);
    must(dym_track(&p->object), "dym_track");
    log_told(p);
    must(dym_save(&p->object, name, sizeof name, bytes, sizeof bytes, &length), "dym_save");
    must(dym_close(&p->object), "dym_close");
    must(dym_load(&p->object, bytes, (size_t)length, &part), "dym_load");
    for (size_t k = 0; k < way_count; k++) {
        must(dym_address(&p->object, p->chunks[k], &address), "dym_address");
        p->at[k] = (void *)address;
        must(dym_log(&p->object, DYM_INCREMENTAL, ++p->now, &part), "dym_log");
        p->copies[p->kept++] = copy_of(p);
        change(p, k);
        must(dym_restore(&p->object, p->now, &restored), "dym_restore");
        compare(p, &p->copies[0]);
        drop(p, 0, 1);
        change(p, k);
    }
    must(dym_track(NULL), "dym_track");
    close_process(p);
}

int main(int count, char **words)
{
    gather(plain_ways);
    gather(class_ways);
    if (count < 2 || strcmp(words[1], "found") != 0) gather(call_ways);
    if (count == 2 && strcmp(words[1], "names") == 0) {
        for (const way *call = call_ways; call->name != NULL; call++) puts(call->name);
        puts("to_chars\nfrom_chars");
        return 0;
    }
    if (count == 3 && strcmp(words[1], "rollbacks") == 0) {
        rollbacks((uint32_t)strtoul(words[2], NULL, 10));
    } else if (count == 2 && strcmp(words[1], "found") == 0) {
        found();
    } else if (count == 2 && strcmp(words[1], "table") == 0) {
        logged_elsewhere();
        loaded_while_named();
        closed_while_named();
    } else if (count == 2 && strcmp(words[1], "before") == 0) {
        before();
    } else if (count == 2 && strcmp(words[1], "closed") == 0) {
        closed_while_named();
    } else {
        fail("usage: stores rollbacks SEED | table | before | names | closed | found", "");
    }
    return 0;
}
